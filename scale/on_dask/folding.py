"""A topology without its weak computations, as the program runs it."""


def reads_through(weak: dict, reads: list[dict]) -> list[dict]:
    """Readings, where each of the weak computation's stream is, in its place, one of each stream that this reads."""
    found: list[dict] = []
    for read in reads:
        if read["stream"] == weak["stream"]:
            found += [{"stream": one["stream"], "by": read["by"]} for one in weak["reads"]]
        else:
            found.append(read)
    return found


def without_weak(topology: dict) -> dict:
    """The topology that is left: the weak computation that stands last goes first, so none is read in the end."""
    left: list[dict] = []
    for computation in reversed(topology["computations"]):
        if computation.get("weak"):
            left = [{**one, "reads": reads_through(computation, one["reads"])} for one in left]
        else:
            left.insert(0, {name: value for name, value in computation.items() if name != "weak"})
    return {**topology, "computations": left}
