"""Runs of a built program in which calls of the C library fail, and what a file of `--keep` holds after one.

Used by `tools/try-faults.py` and `tools/try-keeping.py`. What fails is told by `faults.c`, which the toolchain's clang
compiles: the program itself stays as it was built.
"""
import contextlib
import json
import os
import shutil
import sqlite3
import subprocess
from typing import NamedTuple

HERE = os.path.dirname(os.path.abspath(__file__))
EXAMPLES = os.path.join(os.path.dirname(HERE), "examples")
# The entries that write a row; the others are claims.
INJECT, STATED = "inject", ("handle", "fire")
# The words of a run of two workers, before its files, and its options. A program without the mode says how it is used.
ROUNDS = ["run", "--workers", "2", "--rounds", "4"]
USAGE, ENDLESS = 2, 124


class Ended(NamedTuple):
    """How a run ended: its status, negative of a signal, and what it wrote."""

    status: int
    text: bytes
    said: bytes


def before_libc(room: str) -> str:
    """Compiles what is put before the C library."""
    told = subprocess.run(["rt", "doc"], stdout=subprocess.PIPE, text=True, check=True).stdout
    tools = os.path.join(os.path.dirname(told.strip()), "toolchain", "bin")
    thing, library = os.path.join(room, "faults.o"), os.path.join(room, "faults.so")
    words = "--target=x86_64-unknown-linux-gnu --no-default-config -O1 -fPIC -ffreestanding -fno-builtin -c".split()
    subprocess.run([tools + "/clang", *words, HERE + "/faults.c", "-o", thing], check=True)
    subprocess.run([tools + "/ld.lld", "-shared", "-o", library, thing], check=True)
    return library


def run(words: list[str], library: str = "", **faults: str) -> Ended:
    """One run in the folder of the examples, with these faults; one that doesn't end in two minutes has a status of its own."""
    environment = {**os.environ, **faults, **({"LD_PRELOAD": library} if library else {})}
    try:
        ran = subprocess.run(words, cwd=EXAMPLES, env=environment, stdin=subprocess.DEVNULL, capture_output=True, timeout=120)
    except subprocess.TimeoutExpired:
        return Ended(ENDLESS, b"", b"")
    return Ended(ran.returncode, ran.stdout, ran.stderr)


def has_rounds(program: str) -> bool:
    """Whether a program has the mode `run`."""
    return run([program, *ROUNDS, "t.json", "e"]).status != USAGE


def calls(words: list[str], library: str) -> dict[str, int]:
    """How many calls of each kind a run makes."""
    reader, writer = os.pipe()
    environment = {**os.environ, "LD_PRELOAD": library, "CALLS_TO": str(writer)}
    subprocess.run(words, cwd=EXAMPLES, env=environment, pass_fds=[writer], capture_output=True, check=True)
    os.close(writer)
    with open(reader) as told:
        return {name: int(number) for name, number in (line.split() for line in told)}


def lines_of(seed: int, count: int) -> str:
    """The lines that the mode `load` makes of a seed."""
    lines, state = [], seed % 65537
    for at in range(count):
        state = (75 * state + 74) % 65537
        lines.append('{"key":"%s","ts":%d}\n' % (chr(ord("a") + state % 26), 10 * at + state % 100))
        if (at + 1) % 50 == 0:
            lines.append('{"watermark":%d}\n' % (10 * (at + 1) + 20))
    return "".join(lines)


def cut_topology(cuts: list[str]) -> str:
    """The topology of the first example, its count cut at these keys."""
    with open(os.path.join(EXAMPLES, "t.json")) as file:
        topology = json.load(file)
    topology["computations"][0]["cuts"] = cuts
    return json.dumps(topology)


Rows = dict[tuple[int, str], bytes]


def rows_in(name: str) -> Rows:
    """The rows of a kept file, which has to be a sound database; no table is no rows.

    The first byte of a database is written last: before, the file is none yet, and has no rows.
    """
    with open(name, "rb") as file:
        if file.read(1) == b"\0":
            return {}
    with contextlib.closing(sqlite3.connect(name)) as store:
        if store.execute("pragma integrity_check").fetchone() != ("ok",):
            raise ValueError(name + " is damaged")
        if not store.execute("select 1 from sqlite_schema where name = 'rows'").fetchone():
            return {}
        return {(part, key.decode()): row for part, key, row in store.execute("select part, key, bytes from rows")}


def history_of(words: list[str]) -> list[dict]:
    """The entries that a run writes."""
    text = run([words[0], words[1], "--history", *words[2:]]).text
    return [json.loads(line) for line in text.decode().splitlines() if line.startswith('{"do":')]


def entries_held(rows: Rows, history: list[dict]) -> int:
    """The number of a history's first entries whose rows these are: each row with its last entry there and its state."""
    held = max((int.from_bytes(row[1:9], "big") + 1 for row in rows.values()), default=0)
    numbers, states = {}, {}
    for entry in history[:held]:
        if entry["do"] == "claim":
            continue
        name = entry["part"], entry.get("row", "")
        numbers[name] = entry["n"]
        if entry["do"] == INJECT:
            states[name] = b"\0" + (entry["line"] + 1).to_bytes(4, "big")
        elif entry["do"] in STATED:
            states[name] = bytes.fromhex(entry["state"])
    found = {name: int.from_bytes(row[1:9], "big") for name, row in rows.items()}
    if found != numbers:
        raise ValueError("rows of no beginning: %s in place of %s" % (found, numbers))
    for name, state in states.items():
        if rows[name][17 : 17 + len(state)] != state:
            raise ValueError("the row %s has another state than its last entry" % (name,))
    return held


def held_wrong(words: list[str], store: str, history: list[dict], is_whole: bool) -> str:
    """What is wrong with the file that a run of these words kept, or nothing; a whole run keeps all rows."""
    copy = store + ".again"
    for end in ("", "-wal"):
        if os.path.exists(store + end):
            shutil.copyfile(store + end, copy + end)
        elif os.path.exists(copy + end):
            os.remove(copy + end)
    again = run([words[0], words[1], "--keep", copy, *words[2:]]).status
    try:
        held = entries_held(rows_in(store), history)
    except (OSError, ValueError, sqlite3.Error) as error:
        return "the file: %s" % error
    if is_whole and held < len(history):
        return "the file has %d entries of %d" % (held, len(history))
    return "" if again == (10 if held else 0) else "a second run ended with %d over %d entries" % (again, held)
