#!/usr/bin/env python3
"""Measures built programs over inputs that any machine makes alike.

    tools/measure.py PROGRAM [OTHER ..]

makes the inputs in a temporary folder, runs `PROGRAM solo TOPOLOGY EVENTS` over each with 4 GiB of memory at most,
and prints processor seconds (the least of three runs), peak memory in MiB and the exit status; beside it the same of
`PROGRAM plain` and of each OTHER program, and whether all wrote the same text. `plain` should take a third of `solo`
at most. Another build comes from an older commit:

    git worktree add ../older COMMIT && (cd ../older && tools/build.sh)
    tools/measure.py crates/millwheel/out/millwheel ../older/crates/millwheel/out/millwheel

`tools/build-unproved.py` makes a program in minutes that is compiled alike and not proved, for a change before its proof.

    tools/measure.py --rounds PROGRAM

prints processor and wall seconds and memory of `PROGRAM run` with 1, 2, 4 and 16 workers beside `PROGRAM solo`, and the
processor seconds as multiples of `solo`'s: over one file, uncut, cut, and cut into as many intervals as there may be, and over
days of three web servers with unequal shares and of sixteen with equal ones, of whose lines each is read twice. A round
injects 16 lines of each file; what is left of the longest is left to the drain. The runs take turns, seven each, so that
what else the machine does meets all alike.
"""
import hashlib
import json
import os
import random
import resource
import subprocess
import sys
import tempfile
import time

RUNS = 3
MODES = ("solo", "plain")
MEMORY = 4 << 30

# name, lines, keys, size of a window, and the timestamp of a line by its number
INPUTS = [
    ("20,000 lines, one key, a window each", 20_000, 1, 60, lambda n: n * 60),
    ("262,144 lines, one key, a window each", 262_144, 1, 60, lambda n: n * 60),
    ("100,000 lines, one key, 1,440 windows", 100_000, 1, 60, lambda n: n * 7919 % 1440 * 60),
    ("262,144 lines, 26 keys, 132 windows each", 262_144, 26, 60, lambda n: n // 26 * 7919 % 132 * 60),
    ("262,144 lines, 26 keys, 2 windows each", 262_144, 26, 60, lambda n: n // 26 % 2 * 60),
    ("262,144 lines, 26 keys, timestamps below 600", 262_144, 26, 60, lambda n: n * 7919 % 600),
    ("262,144 lines, 100,000 keys, timestamps below 600", 262_144, 100_000, 60, lambda n: n * 7919 % 600),
]


# How many workers a run has, and over which inputs, with how many rounds, that is measured.
CREW = (1, 2, 4, 16)
TURNS = 7
ROUNDED = [
    ("one file, 16,000 lines, 26 keys, 2 intervals", 1000, lambda room: one_file(room, [])),
    ("one file, 16,000 lines, 26 keys, 4 intervals", 1000, lambda room: one_file(room, ["i", "r"])),
    ("one file, 16,000 lines, 26 keys, 61 intervals", 1000, lambda room: one_file(room, cuts(59))),
    ("three servers, 48,000 lines, 10 intervals", 1000, lambda room: day(room, [6, 5, 4], 48_000, 77)),
    ("three servers, 200,000 lines, 10 intervals", 1000, lambda room: day(room, [6, 5, 4], 200_000, 77)),
    ("sixteen servers, 48,000 lines, 23 intervals", 190, lambda room: day(room, [1] * 16, 48_000, 78)),
    ("sixteen servers, 48,000 lines, 30 intervals", 190, lambda room: day(room, [1] * 16, 48_000, 78, PATH_CUTS)),
]
HOSTS = ["api.example", "img.example", "shop.example", "www.example"]
PATH_CUTS = ["b", "c", "i", "j", "s", "t", "w"]
PATHS = ["", "search", "health", "cart", "v1/items"] + ["item/%d" % number for number in range(10)]
NOON, SECONDS, MILLION = 1_795_824_000, 86_400, 1_000_000


def key(number, keys):
    """The key of a line: one letter where there are few, else a word of 8 letters and digits."""
    if keys <= 26:
        return chr(ord("a") + number % keys)
    return "key%05d" % (number * 48271 % keys)


def make(room, entry):
    """Writes the topology and the events of an input."""
    _, lines, keys, size, stamp = entry
    topology = os.path.join(room, "topology.json")
    events = os.path.join(room, "events")
    with open(topology, "w") as out:
        out.write(
            '{"injectors":[{"name":"taps","stream":"raw"}],"computations":[{"name":"count","kind":"count",'
            '"size":%d,"reads":[{"stream":"raw","by":"key"}],"stream":"windows"}]}' % size
        )
    with open(events, "w") as out:
        for number in range(lines):
            out.write('{"key":"%s","ts":%d}\n' % (key(number, keys), stamp(number)))
    return topology, events


def run(program, mode, *files):
    """One run: processor seconds, peak memory in MiB, exit status, and a sum of the text."""
    child = subprocess.Popen(
        [program, *mode.split(), *files],
        stdout=subprocess.PIPE,
        stderr=subprocess.DEVNULL,
        preexec_fn=lambda: resource.setrlimit(resource.RLIMIT_AS, (MEMORY, MEMORY)),
    )
    text = hashlib.sha256(child.stdout.read()).hexdigest()
    _, status, used = os.wait4(child.pid, 0)
    return used.ru_utime + used.ru_stime, used.ru_maxrss / 1024, os.waitstatus_to_exitcode(status), text


def cuts(count):
    """So many texts at which keys of one letter are parted."""
    return sorted(chr(ord("a") + at // 3) + "agp"[at % 3] for at in range(count))


def one_file(room, parts):
    """A count over one file, whose keys are parted at these texts: the words behind the mode."""
    topology, events = make(room, ("", 16_000, 26, 60, lambda n: n * 7919 % 600))
    with open(topology) as told:
        shape = json.load(told)
    if parts:
        shape["computations"][0]["cuts"] = parts
    with open(topology, "w") as out:
        json.dump(shape, out)
    return [topology, events]


def by(streams, extract):
    """What reads these streams by this."""
    return [{"stream": stream, "by": extract} for stream in streams]


def write_server(path, lines, chance):
    """A day of one server: a line's time is up to five seconds back, of one line in 250 some minutes."""
    with open(path, "w") as out:
        for number in range(lines):
            at = NOON + SECONDS * number // lines
            back = 180 + chance.randrange(1200) if chance.randrange(250) == 0 else chance.randrange(6)
            host = HOSTS[min(chance.randrange(4), chance.randrange(4))]
            out.write('{"key":"%s/%s","ts":%d}\n' % (host, chance.choice(PATHS), max(at - back, NOON) * MILLION))
            if number % 25 == 24:
                out.write('{"watermark":%d}\n' % ((at - 120) * MILLION))


def day(room, shares, lines, seed, parted=()):
    """A day of servers with these shares of the lines: counts by host and minute, and by path and day, whose keys are
    parted at these texts."""
    chance, streams = random.Random(seed), ["r%d" % at for at in range(len(shares))]
    counts = [
        {"name": "minutes", "kind": "count", "size": 60 * MILLION, "cuts": ["b", "j", "t"], "reads": by(streams, "head"), "stream": "m"},
        {"name": "printed", "kind": "pass", "reads": by(["m"], "key"), "stream": "requests_per_minute"},
        {"name": "alert", "kind": "spike", "last": 5, "times": 3, "reads": by(["m"], "key"), "stream": "spikes"},
        {"name": "paths", "kind": "count", "size": SECONDS * MILLION, "reads": by(streams, "key"), "stream": "path_day"},
    ]
    if parted:
        counts[-1]["cuts"] = list(parted)
    files = [os.path.join(room, stream) for stream in ["t.json", *streams]]
    with open(files[0], "w") as out:
        json.dump({"injectors": [{"name": "of_" + it, "stream": it} for it in streams], "computations": counts}, out)
    for path, share in zip(files[1:], shares):
        write_server(path, lines * share // sum(shares), chance)
    return files


def rounds(program, name, count, made):
    """Prints what rounds cost beside one thread over an input, and whether all wrote the same text."""
    modes = ["solo"] + ["run --workers=%d --rounds=%d" % (workers, count) for workers in CREW]
    runs, texts = {mode: [] for mode in modes}, set()
    print(name)
    with tempfile.TemporaryDirectory() as room:
        words = made(room)
        for _ in range(TURNS):
            for mode, seen in runs.items():
                begun = time.time()
                seen.append((*run(program, mode, *words), time.time() - begun))
    least = min(runs["solo"])[0]
    for mode, seen in runs.items():
        texts.update(one[3] for one in seen)
        seconds, memory, status = min(seen)[:3]
        told = (mode, seconds, seconds / least, min(one[4] for one in seen), memory, status)
        print("  %-32s %6.3f s, %5.2f of solo's, %6.3f s by the clock, %4.0f MiB, status %d" % told)
    print("  the same text" if len(texts) == 1 else "  TEXTS DIFFER", flush=True)


def main():
    if sys.argv[1:] == ["--help"]:
        print(__doc__, end="")
        return
    if sys.argv[1:2] == ["--rounds"] and len(sys.argv) == 3:
        for entry in ROUNDED:
            rounds(os.path.abspath(sys.argv[2]), *entry)
        return
    words = [(os.path.abspath(program), mode) for program in sys.argv[1:] for mode in MODES]
    if not words:
        sys.exit(__doc__)
    for entry in INPUTS:
        with tempfile.TemporaryDirectory() as room:
            topology, events = make(room, entry)
            runs = [[] for _ in words]
            for _ in range(RUNS):
                for (program, mode), seen in zip(words, runs):
                    seen.append(run(program, mode, topology, events))
        columns = []
        for (_, mode), seen in zip(words, runs):
            seconds = min(one[0] for one in seen)
            columns.append("%s %6.2f s %6.0f MiB status %d" % (mode, seconds, max(one[1] for one in seen), seen[0][2]))
        done = {one[3] for seen in runs for one in seen if one[2] == 0}
        same = "" if len(done) <= 1 else "   TEXTS DIFFER"
        print("%-52s %s%s" % (entry[0], "   ".join(columns), same), flush=True)


if __name__ == "__main__":
    main()
