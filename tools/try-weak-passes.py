#!/usr/bin/env python3
"""Tries random topologies with weak passes beside the same with plain ones: the lines have to be the same.

    tools/try-weak-passes.py PROGRAM [CASES] [SEED]

Of each of 200 topologies (or CASES) the text with weak passes is compared with that with plain ones in their place, by
`solo`, `plain` and `run`, and by `replay` of a plan whose steps are made at random, relays that forget and words that
are lost among them. The summary lines differ, since a weak pass handles nothing. It says which case differs, with its
files, and how many weak passes there were.
"""
import json
import os
import random
import subprocess
import sys
import tempfile

KEYS = ["a", "b/c", "c/b", "d", "b/d/e"]
MODES = (["solo"], ["plain"], ["run", "--workers", "3", "--rounds", "4"], ["replay", "--plan", "plan"])


def computation(r: random.Random, number: int, streams: list[str]) -> dict:
    """A computation that reads some of these streams; most are passes."""
    kind = r.choice([{"kind": "count", "size": r.choice([7, 60])}, {"kind": "spike", "last": 2, "times": 1}] + [{"kind": "pass"}] * 4)
    reads = [{"stream": r.choice(streams), "by": r.choice(["key", "head", "tail"])} for _ in range(r.randint(1, 2))]
    return {"name": "c%d" % number, **kind, "reads": reads, "stream": "t%d" % number}


def topology(r: random.Random) -> tuple[dict, int]:
    """A topology of which most passes that something reads are weak, and how many these are."""
    streams, made = ["raw"], []
    for number in range(r.randint(2, 6)):
        made.append(computation(r, number, streams))
        streams.append(made[-1]["stream"])
    read = {reading["stream"] for one in made for reading in one["reads"]}
    weak = [one for one in made if one["kind"] == "pass" and one["stream"] in read and r.random() < 0.8]
    for one in weak:
        one["weak"] = True
    return {"injectors": [{"name": "i", "stream": "raw"}], "computations": made}, len(weak)


def events(r: random.Random) -> str:
    """Some records, a few of them late."""
    lines, now = [], 100
    for _ in range(r.randint(1, 12)):
        now += r.choice([0, 1, 5, 40])
        lines.append(json.dumps({"key": r.choice(KEYS), "ts": now - r.choice([0, 0, 0, 3, 90]), "value": r.randint(-5, 9)}))
        if r.random() < 0.3:
            lines.append(json.dumps({"watermark": now}))
    return "\n".join(lines) + "\n"


def plan(r: random.Random, intervals: int, weak: int) -> str:
    """Claims of all intervals by two workers, and steps at random."""
    steps = ["claim %d %d" % (number % 2, number) for number in range(intervals)]
    relayed = [lambda: "relay %d %d" % (r.randrange(weak), r.randrange(40)), lambda: "forget %d" % r.randrange(weak)] if weak else []
    kinds = [
        lambda: "inject %d 0" % r.randrange(2), lambda: "send %d" % r.randrange(2), lambda: "write %d" % r.randrange(2),
        lambda: "take %d %d" % (r.randrange(2), r.randrange(40)), lambda: "resend %d" % r.randrange(2),
        lambda: "copy %d" % r.randrange(40), lambda: "lose %d" % r.randrange(40),
    ] + relayed * 3
    return "\n".join(steps + [r.choice(kinds)() for _ in range(r.randint(0, 120))]) + "\n"


def lines_of(program: str, mode: list[str], shape: dict, folder: str) -> bytes:
    """What a call writes before its last line; a status other than 0 ends all."""
    with open(os.path.join(folder, "topology.json"), "w") as out:
        json.dump(shape, out)
    told = subprocess.run([program, *mode, "topology.json", "events"], cwd=folder, capture_output=True)
    if told.returncode:
        sys.exit("%s: status %d, %s\n%s" % (mode[0], told.returncode, told.stderr.decode().strip(), json.dumps(shape)))
    return told.stdout.rstrip(b"\n").rpartition(b"\n")[0]


def is_same(program: str, r: random.Random, folder: str) -> tuple[bool, int]:
    """Whether a random topology has the same lines with weak passes and with plain ones, and how many are weak."""
    shape, weak = topology(r)
    plain = {**shape, "computations": [{key: value for key, value in one.items() if key != "weak"} for one in shape["computations"]]}
    with open(os.path.join(folder, "events"), "w") as out:
        out.write(events(r))
    with open(os.path.join(folder, "plan"), "w") as out:
        out.write(plan(r, 1 + len(shape["computations"]) - weak, weak))
    wanted = lines_of(program, ["solo"], plain, folder)
    for mode in MODES:
        if lines_of(program, mode, shape, folder) != wanted:
            print("%s differs:" % mode[0], json.dumps(shape))
            for name in ("events", "plan"):
                print(open(os.path.join(folder, name)).read())
            return False, weak
    return True, weak


def main() -> None:
    if not 2 <= len(sys.argv) <= 4 or sys.argv[1] == "--help":
        sys.exit(__doc__)
    program, cases = os.path.abspath(sys.argv[1]), int((sys.argv[2:] or ["200"])[0])
    r, all_weak = random.Random((sys.argv[3:] or ["1"])[0]), 0
    with tempfile.TemporaryDirectory() as folder:
        for number in range(cases):
            same, weak = is_same(program, r, folder)
            all_weak += weak
            if not same:
                sys.exit("case %d of %d differs" % (number, cases))
    print("%d topologies with %d weak passes have the lines of those with plain ones" % (cases, all_weak))


if __name__ == "__main__":
    main()
