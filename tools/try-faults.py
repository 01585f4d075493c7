#!/usr/bin/env python3
"""Lets each request for memory and each read, write and sync of a run fail in turn: tools/try-faults.py PROGRAM

Each run has to end as docs/ERRORS.md says: with status 0 and the whole text, or with the status of what failed and no
more than a beginning of the text. A file of `--keep` has to open afterwards, and to hold the rows of a beginning of the
run. It prints a table of how the runs ended, and ends with status 1 where one did not end so. It is no part of the gate;
any build of the program serves, since nothing is compiled into it. Where the program has the mode `run` a run of two
workers is tried too: its calls come in another order each time, so that a number is one of a thread's calls by chance.
"""
import os
import sys
import tempfile
from collections import Counter

from faults import ROUNDS, Ended, before_libc, calls, cut_topology, has_rounds, held_wrong, history_of, lines_of, run

WORDS = {
    "the first example": ["solo", "t.json", "e"],
    "a replay": ["replay", "--plan", "old_owner.plan", "t.json", "e"],
    "the plain count": ["plain", "t.json", "e"],
    "the log job": ["solo", *("requests/" + it for it in ("topology.json", "front1.jsonl", "front2.jsonl"))],
}
# More calls than this are tried in even steps.
MOST = 400
SAYS = {7: b"the keeper failed", 8: b"the output failed", 9: b"out of memory"}
# The statuses that each fault may end in, beside 0: a file that can't be read is 13, and 7 is of `--keep` alone.
MAY_END = {"FAIL_ALLOC": {9}, "FAIL_IO": {8, 13}, "SHORT_IO": set(), "FULL_DISK": {8}, "KILL_IO": {-9}, "TORN_WRITE": {-9}}


def fault_in(kind: str, ended: Ended, whole: bytes, is_kept: bool) -> str:
    """What is wrong with the way in which a run ended, or nothing."""
    if ended.status == 0:
        return "" if (ended.text, ended.said) == (whole, b"") else "status 0 with another text"
    if ended.status not in MAY_END[kind] | ({7} if is_kept else set()):
        return "status %d" % ended.status
    if not whole.startswith(ended.text):
        return "no beginning of the text"
    if ended.text and ended.status == 13:
        return "a text behind a refusal"
    told = b"millwheel: " + SAYS.get(ended.status, b"can't read ")
    if ended.said and not ended.said.startswith(told) and not told.startswith(ended.said):
        return "said %r" % ended.said
    return ""


def forms(kind: str, many: int):
    """What is told of a fault: each call alone, and from it on."""
    step = -(-many // MOST) if many > MOST else 1
    for number in range(1, many + 1, step):
        yield str(number)
        if kind not in ("KILL_IO", "TORN_WRITE"):
            yield "%d.." % number


def sweep(program: str, words: list[str], kinds: list[str], library: str, store: str = "") -> list[tuple]:
    """Tries each call of each kind; of each kind how many there are, how the runs ended, and what was wrong."""
    line = [program, *words]
    history = history_of(line) if store else []
    kept = [words[0], "--keep", store, *words[1:]] if store else words
    whole, found = run(line).text, []
    for kind in kinds:
        forget(store)
        many = calls([program, *kept], library)[kind]
        ends, wrong = Counter(), []
        for form in forms(kind, many):
            forget(store)
            ended = run([program, *kept], library, **{kind: form})
            why = fault_in(kind, ended, whole, bool(store))
            if store and not why and os.path.exists(store):
                # the rows are kept where the output alone fails, and not where closing the file fails behind it
                is_whole = ended.status == 0 or ended.status == 8 and ".." not in form
                why = held_wrong(line, store, history, is_whole)
            ends[ended.status] += 1
            wrong += ["%s=%s: %s" % (kind, form, why)] if why else []
        found.append((kind, many, ends, wrong))
    return found


def forget(store: str) -> None:
    """Removes a kept file and its log."""
    for name in (store, store + "-wal"):
        if store and os.path.exists(name):
            os.remove(name)


def rounds_of(room: str) -> list[str]:
    """The words of rounds over fifty lines, and a count in three intervals."""
    topology, events = os.path.join(room, "topology"), os.path.join(room, "events")
    for name, text in ((topology, cut_topology(["h", "q"])), (events, lines_of(7, 50))):
        with open(name, "w") as out:
            out.write(text)
    return [*ROUNDS, topology, events]


def main() -> None:
    if len(sys.argv) != 2:
        sys.exit(__doc__)
    program, failed = os.path.abspath(sys.argv[1]), []
    print("| Run | Fault | Calls | Runs | Ended with |\n|---|---|---|---|---|")
    with tempfile.TemporaryDirectory(prefix="faults-") as room:
        library, store = before_libc(room), os.path.join(room, "rows.db")
        runs = {**WORDS, **({"rounds of two workers": rounds_of(room)} if has_rounds(program) else {})}
        tries = [(name, words, ["FAIL_ALLOC", "FAIL_IO", "SHORT_IO"], "") for name, words in runs.items()]
        tries.append(("the first example, `--keep`", WORDS["the first example"], list(MAY_END), store))
        for name, words, kinds, kept in tries:
            for kind, many, ends, wrong in sweep(program, words, kinds, library, kept):
                told = ", ".join("%d: %d" % pair for pair in sorted(ends.items()))
                print("| %s | `%s` | %d | %d | %s |" % (name, kind, many, sum(ends.values()), told), flush=True)
                failed += ["%s: %s" % (name, it) for it in wrong]
    print("\n".join(failed) or "each ended as it must", file=sys.stderr)
    sys.exit(1 if failed else 0)


if __name__ == "__main__":
    main()
