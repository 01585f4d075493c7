#!/usr/bin/env python3
"""Shows what a file of --keep holds, a JSON object a row, and whether it is that of a whole run.

    tools/show-kept.py FILE [EVENTS ..]

The last line counts the rows, the lines that were injected, and what is left to do: timers that are set, and records of
which the sender does not know yet that they were handled. By the event files of the run, in the order of the topology's
injectors, it says whether the run came to its end (`"run":"whole"`): then each file's lines were injected, and nothing is
left. Else the rows are those of a beginning. Without the files a run with nothing left is `"unknown"`.

The file is copied with its log, and the copy is read, so that both stay as they are. What is no such file, and bytes that
are no row (docs/FORMATS.md, "Row bytes"), are refused in words with status 1.
"""
import json
import os
import shutil
import sqlite3
import sys
import tempfile
from collections.abc import Callable

# What a killed run leaves unread beside its file.
LOG = "-wal"


class NoRow(Exception):
    """Why bytes are no row."""


class Bytes:
    """Bytes that are taken from the front."""

    def __init__(self, data: bytes):
        self.data = data

    def take(self, size: int) -> bytes:
        if size > len(self.data):
            raise NoRow("it is cut off")
        taken, self.data = self.data[:size], self.data[size:]
        return taken

    def number(self, size: int) -> int:
        """An unsigned number of so many bytes."""
        return int.from_bytes(self.take(size), "big")

    def signed(self) -> int:
        """A number of 64 bits in two's complement."""
        return int.from_bytes(self.take(8), "big", signed=True)

    def flag(self) -> bool:
        byte = self.number(1)
        if byte > 1:
            raise NoRow(f"a flag has the byte {byte}")
        return byte == 1

    def key(self) -> str:
        return self.take(self.number(2)).decode()

    def many(self, one: Callable) -> list:
        """A list, of which each element is read so."""
        return [one() for _ in range(self.number(4))]


def state_in(row: Bytes) -> dict:
    """The state that a row begins with, by its kind."""
    kind = row.number(1)
    if kind == 0:
        return {"kind": "injector", "injected": row.number(4)}
    if kind > 3:
        raise NoRow(f"its state has the kind {kind}")
    state = {"kind": ("count", "spike", "pass")[kind - 1], "late": row.number(8)}
    if kind == 1:
        state["windows"] = row.many(lambda: {"ts": row.number(8), "value": row.number(8)})
    if kind == 2:
        state["held"] = row.many(lambda: {"ts": row.number(8), "value": row.signed()})
        state["known"] = row.many(row.signed)
    return state


def id_in(row: Bytes) -> list[int]:
    """The id of a record: the number of the entry that made it, and its place there."""
    return [row.number(8), row.number(4)]


def pending_in(row: Bytes) -> dict:
    """A record on its way, with the row to which it goes."""
    where = {"id": id_in(row), "part": row.number(4), "row": row.key()}
    return {**where, "key": row.key(), "ts": row.number(8), "value": row.signed(), "late": row.flag()}


def row_of(data: bytes) -> dict:
    """What the bytes of a row say."""
    row = Bytes(data)
    version = row.number(1)
    if version != 1:
        raise NoRow(f"its version is {version}")
    told = {"last": row.number(8), "floor": row.number(8), "state": state_in(row)}
    told["timers"] = row.many(lambda: {"time": row.number(8), "tag": row.number(8), "late": row.flag()})
    told["pending"] = row.many(lambda: pending_in(row))
    told["seen"] = row.many(lambda: id_in(row))
    if row.data:
        raise NoRow(f"{len(row.data)} bytes stand behind its end")
    return told


def rows_in(path: str) -> list[dict]:
    """The rows of a file with its log, by a copy of both."""
    with tempfile.TemporaryDirectory(prefix="show-kept-") as room:
        copy = f"{room}/rows"
        shutil.copyfile(path, copy)
        if os.path.exists(path + LOG):
            shutil.copyfile(path + LOG, copy + LOG)
        base = sqlite3.connect(copy)
        found = base.execute("select part, key, bytes from rows order by part, key").fetchall()
        base.close()
    rows = []
    for part, key, data in found:
        try:
            rows.append({"part": part, "key": key.decode(), **row_of(data)})
        except (NoRow, UnicodeDecodeError) as why:
            sys.exit(f"the row of part {part} and key {key!r} is none: {why}")
    return rows


def lines_in(path: str) -> int:
    """How many record lines an event file has: those that are no watermark's and not blank."""
    with open(path, "rb") as told:
        lines = [line for line in told.read().split(b"\n") if line.strip(b" \t\r")]
    return sum("watermark" not in json.loads(line) for line in lines)


def summary(rows: list[dict], files: list[str], has_log: bool) -> dict:
    """What the file holds as a whole, and of what run it is."""
    injected = {row["part"]: row["state"]["injected"] for row in rows if row["state"]["kind"] == "injector"}
    timers, pending = (sum(len(row[it]) for row in rows) for it in ("timers", "pending"))
    wanted = [lines_in(it) for it in files]
    if len(files) < len(injected) and files:
        sys.exit(f"the file has rows of {len(injected)} injectors, and {len(files)} event files are named")
    if timers or pending:
        run = "a beginning"
    elif files:
        run = "whole" if [injected.get(part, 0) for part in range(len(files))] == wanted else "a beginning"
    else:
        run = "unknown: name its event files"
    told = {"rows": len(rows), "injected": [many for _, many in sorted(injected.items())]}
    told |= {"lines": wanted} if files else {}
    return {**told, "timers": timers, "pending": pending, "log": has_log, "run": run}


def main() -> None:
    words = sys.argv[1:]
    if words in (["--help"], ["-h"]):
        print(__doc__)
        return
    if not words or any(it.startswith("-") for it in words):
        sys.exit("name a file of --keep, and behind it the event files of its run; --help says more")
    try:
        rows = rows_in(words[0])
        log = words[0] + LOG
        # A run that ended may leave a log of its head alone.
        last = summary(rows, words[1:], os.path.exists(log) and os.path.getsize(log) > 41)
    except OSError as why:
        sys.exit(f"{why.filename}: {why.strerror}")
    except sqlite3.Error as why:
        sys.exit(f"{words[0]} is no file of --keep: {why}")
    except ValueError as why:
        sys.exit(f"an event file has a line that is none: {why}")
    for row in [*rows, last]:
        print(json.dumps(row, ensure_ascii=False, separators=(",", ":")))


if __name__ == "__main__":
    main()
