#!/usr/bin/env python3
"""Tries `--keep` on a bad day, on a built program: tools/try-keeping.py PROGRAM

A run is killed at twenty moments, its disk is full at several sizes, another process holds its file, its file is none.
Each row of the table that it prints says how often, the statuses, and what stood afterwards; it ends with status 1 where
a status is another, or where a file that was kept does not open or holds rows of no beginning of its run. It is no part
of the gate, and takes half a minute.
"""
import contextlib
import os
import resource
import shutil
import signal
import sqlite3
import subprocess
import sys
import tempfile
import time
from typing import Callable

from faults import EXAMPLES, ROUNDS, USAGE, entries_held, has_rounds, held_wrong, history_of, rows_in, run

LINES, KEYS = 3_000, 50
TIMES = 20
SIZES = [1 << n for n in (16, 18, 19, 20, 21, 22, 23)]
NOBODY = 65534
TOPOLOGY = os.path.join(EXAMPLES, "t.json")
FAILED = "the keeper failed"
USED = "usage: millwheel MODE ARGS"
# Holds a file until its standard input ends. It is a process of its own, since one that closes a file lets its locks go.
HOLD = """import sqlite3, sys
store = sqlite3.connect(sys.argv[1], isolation_level=None)
store.execute("begin exclusive")
print("held", flush=True)
sys.stdin.read()"""


class Room:
    """A folder with event lines, a program, and what a whole run of it writes."""

    def __init__(self, program: str, folder: str):
        self.folder, self.failed = folder, False
        events = self.path("events")
        with open(events, "w") as out:
            out.writelines('{"key":"k%d","ts":%d}\n' % (n * 7 % KEYS, n) for n in range(LINES))
        self.words = [program, "solo", TOPOLOGY, events]
        self.history = history_of(self.words)
        begun = time.monotonic()
        run(self.keeping("timed"))
        self.seconds = time.monotonic() - begun
        self.rows = rows_in(self.path("timed"))

    def path(self, name: str) -> str:
        return os.path.join(self.folder, name)

    def keeping(self, name: str) -> list[str]:
        """The words of a run that keeps its rows in a file of this folder."""
        return [*self.words[:2], "--keep", self.path(name), *self.words[2:]]

    def start(self, name: str, **how) -> subprocess.Popen:
        return subprocess.Popen(self.keeping(name), stdout=subprocess.DEVNULL, stderr=subprocess.PIPE, **how)

    def tell(self, what: str, wanted: set[tuple[int, str]], ended: list[tuple[int, str]], wrong: list[str], after: str) -> None:
        """One row of the table; what is not as wanted goes to standard error."""
        wrong = [it for it in wrong if it] + ["ended %d %r" % it for it in ended if it not in wanted]
        for it in wrong:
            print("%s: %s" % (what, it), file=sys.stderr)
        self.failed |= bool(wrong)
        statuses = ", ".join(sorted({str(status) for status, _ in ended}))
        print("| %s | %d | %s | %s |" % (what, len(ended), statuses, after), flush=True)


def told(said: bytes) -> str:
    """What a run said behind the program's name."""
    return said.decode().removesuffix("\n").removeprefix("millwheel: ")


def end_of(started: subprocess.Popen) -> tuple[int, str]:
    """The status of a run, and what it said behind the program's name."""
    said = started.communicate()[1]
    return started.returncode, told(said)


def kills(room: Room) -> None:
    """Kills a run at even moments of the time that a whole one takes."""
    ended, wrong, held = [], [], []
    for at in range(TIMES):
        name = "killed%d" % at
        started = room.start(name)
        time.sleep(room.seconds * at / TIMES)
        started.kill()
        ended.append(end_of(started))
        if os.path.exists(room.path(name)):
            wrong.append(held_wrong(room.words, room.path(name), room.history, ended[-1][0] == 0))
            held.append(entries_held(rows_in(room.path(name)), room.history))
    after = "rows of the first %d to %d of %d entries" % (min(held), max(held), len(room.history))
    room.tell("`kill -9`", {(-9, ""), (0, "")}, ended, wrong, after)


def full(room: Room, what: str, folder: str, runs: Callable[[str, int], tuple[int, str]]) -> None:
    """Runs where a file, or a whole disk, may have no more bytes than this. What was kept is opened elsewhere: there is no room."""
    ended, wrong, held = [], [], []
    for size in SIZES:
        name, copy = folder + "/rows.db", "%s%d" % (folder, size)
        ended.append(runs(name, size))
        for end in ("", "-wal"):
            if os.path.exists(room.path(name) + end):
                shutil.move(room.path(name) + end, room.path(copy) + end)
        wrong.append(held_wrong(room.words, room.path(copy), room.history, ended[-1][0] == 0))
        held.append(entries_held(rows_in(room.path(copy)), room.history))
    after = "rows of the first %s of %d entries" % (", ".join(map(str, held)), len(room.history))
    room.tell(what, {(7, FAILED), (0, "")}, ended, wrong, after)


def limited(room: Room, name: str, size: int) -> tuple[int, str]:
    """A run whose files may have so many bytes."""

    def limit() -> None:
        signal.signal(signal.SIGXFSZ, signal.SIG_IGN)
        resource.setrlimit(resource.RLIMIT_FSIZE, (size, size))

    return end_of(room.start(name, preexec_fn=limit))


def refused(room: Room, what: str, name: str, wanted: str = FAILED, status: int = 7, **how) -> None:
    """A run over a file that is refused: what was there stays as it was."""
    path = room.path(name)
    before = open(path, "rb").read() if os.path.isfile(path) else None
    ended = end_of(room.start(name, **how))
    is_same = before is None or open(path, "rb").read() == before
    room.tell(what, {(status, wanted)}, [ended], [] if is_same else ["the file is another"], "as it was")


def held_by_another(room: Room) -> None:
    """Another process holds the file; and a second run takes it while a first lasts."""
    holder = subprocess.Popen([sys.executable, "-c", HOLD, room.path("timed")], stdin=subprocess.PIPE, stdout=subprocess.PIPE)
    holder.stdout.readline()
    refused(room, "another process holds the file", "timed")
    holder.communicate()
    wrong = [] if rows_in(room.path("timed")) == room.rows else ["other rows"]
    first, log = room.start("twice"), room.path("twice-wal")
    while first.poll() is None and (not os.path.exists(log) or os.path.getsize(log) < 1 << 16):
        time.sleep(0.001)
    first.send_signal(signal.SIGSTOP)
    second = end_of(room.start("twice"))
    first.send_signal(signal.SIGCONT)
    room.tell("a second run at once", {(7, FAILED)}, [second], wrong, "as it was")
    ended = end_of(first)
    is_whole = rows_in(room.path("twice")) == room.rows
    room.tell("the first of both", {(0, "")}, [ended], [] if is_whole else ["other rows"], "all %d rows" % len(room.rows))


def others(room: Room) -> None:
    """Names that are no file of rows."""
    with open(room.path("text"), "w") as out:
        out.write("no database\n" * 1000)
    os.mkdir(room.path("folder"))
    for name, form in (("foreign", "rows(other integer)"), ("beside", "more(other integer)")):
        with contextlib.closing(sqlite3.connect(room.path(name))) as store:
            store.execute("create table " + form)
    refused(room, "a file that is no database", "text")
    refused(room, "a folder", "folder")
    refused(room, "a folder that is not there", "none/rows.db")
    refused(room, "a table `rows` of another form", "foreign")
    refused(room, "a file with rows", "timed", "the keeper is not empty: part 0 key ", 10)
    os.chmod(room.folder, 0o755)
    os.chmod(room.path("beside"), 0o444)
    refused(room, "a file without the right to write", "beside", **({} if os.geteuid() else {"user": NOBODY}))
    os.chmod(room.path("beside"), 0o644)
    ended = end_of(room.start("beside"))
    is_whole = rows_in(room.path("beside")) == room.rows
    room.tell("a file with another table", {(0, "")}, [ended], [] if is_whole else ["other rows"], "all rows, beside it")


def rounds(room: Room) -> None:
    """Rounds of several workers keep no file: the words are refused, and none is made. Without `--keep` they write the text."""
    words = [room.words[0], *ROUNDS, *room.words[2:]]
    kept = run([words[0], *ROUNDS, "--keep", room.path("rounds"), *room.words[2:]])
    made = "a file was made" if os.path.exists(room.path("rounds")) else ""
    room.tell("`run` with `--keep`", {(USAGE, USED)}, [(kept.status, told(kept.said))], [made], "")
    if has_rounds(room.words[0]):
        ended = run(words)
        wrong = "" if ended.text == run(room.words).text else "another text"
        room.tell("`run` without it", {(0, "")}, [(ended.status, told(ended.said))], [wrong], "")


def on_disk(room: Room, name: str, size: int) -> tuple[int, str]:
    """A run on a disk of so many bytes."""
    subprocess.run(["mount", "-o", "remount,size=%d" % size, room.path("disk")], check=True)
    return end_of(room.start(name))


def main() -> None:
    if len(sys.argv) != 2:
        sys.exit(__doc__)
    with tempfile.TemporaryDirectory(prefix="keeping-") as folder:
        room = Room(os.path.abspath(sys.argv[1]), folder)
        print("| What | Runs | Status | The file afterwards |\n|---|---|---|---|")
        kills(room)
        os.mkdir(room.path("file"))
        full(room, "no file may be above 64 kB to 8 MB", "file", lambda name, size: limited(room, name, size))
        os.mkdir(room.path("disk"))
        if subprocess.run(["mount", "-t", "tmpfs", "none", room.path("disk")], capture_output=True).returncode:
            print("a full disk was not tried: mount wants root", file=sys.stderr)
        else:
            try:
                full(room, "a disk of 64 kB to 8 MB", "disk", lambda name, size: on_disk(room, name, size))
            finally:
                subprocess.run(["umount", room.path("disk")], check=True)
        held_by_another(room)
        others(room)
        rounds(room)
        sys.exit(1 if room.failed else 0)


if __name__ == "__main__":
    main()
