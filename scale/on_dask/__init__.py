"""A topology over event files of any length, on a Dask cluster, by runs of the proved program.

In the order of reading: `program` runs it, `folding` leaves weak computations out of a topology, `members` are the
lines that it is given, `keys` says how they are split, `reading` reads the user's files, `one_cut` and `one_part` are
the two ways to split a topology, `result` is the text, and `job` puts them together. All but `job` is what a task does:
a function of its arguments, without time, random numbers or a place that stays, so a task that is lost or repeated
gives what it gave.
"""
