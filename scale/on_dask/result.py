"""The result text: lines by stream, timestamp, key and value, sorted range by range, so nobody holds the whole."""
import bisect
import json
import os
import re
from dataclasses import dataclass

from .members import Chunk, lines_of, parts_of
from .one_cut import ShardText

# A line of a result; its key is spelled as the program spells it.
RESULT = re.compile(rb'\{"key":("(?:[^"\\]|\\.)*"),"stream":"([a-z0-9_]+)","ts":([0-9]+),"value":(-?[0-9]+)\}')
# How many lines of a chunk are looked at to choose the ranges.
SAMPLED = 200

# Where a line stands in the text, but for key and value.
Place = tuple[bytes, int]


@dataclass(frozen=True)
class Row:
    """A result line: its key as it is spelled, stream, timestamp and value."""

    key: bytes
    stream: bytes
    stamp: int
    value: int


def row_parts(line: bytes) -> Row:
    """What a result line says."""
    found = RESULT.fullmatch(line)
    if not found:
        raise ValueError("no result line: %r" % line)
    return Row(found[1], found[2], int(found[3]), int(found[4]))


def rows_of_text(shard: ShardText) -> list[bytes]:
    """The result lines of a shard."""
    return shard.rows.splitlines()


def rows_of_stream(stream: str, chunk: Chunk) -> list[bytes]:
    """The result lines of a stream's members."""
    members = map(parts_of, lines_of(chunk.timely + chunk.late))
    name = stream.encode()
    return [b'{"key":%s,"stream":"%s","ts":%d,"value":%d}' % (key, name, stamp, value) for key, stamp, value in members]


def place_of(line: bytes) -> Place:
    """The stream and the timestamp of a line."""
    row = row_parts(line)
    return row.stream, row.stamp


def order(line: bytes) -> tuple[bytes, int, bytes, int]:
    """What lines are sorted by; a key by its own bytes and not by its spelling."""
    row = row_parts(line)
    key = json.loads(row.key.decode()).encode() if b"\\" in row.key else row.key[1:-1]
    return row.stream, row.stamp, key, row.value


def sample(lines: list[bytes]) -> list[Place]:
    """Where some of the lines stand."""
    return [place_of(line) for line in lines[:: max(1, len(lines) // SAMPLED)]]


def bounds_of(sampled: list[Place], ranges: int) -> list[Place]:
    """Where the ranges after the first begin, so that each has about as many lines."""
    sampled = sorted(sampled)
    return sorted({sampled[len(sampled) * n // ranges] for n in range(1, ranges)}) if sampled else []


def by_range(bounds: list[Place], lines: list[bytes]) -> list[tuple[int, bytes]]:
    """The lines of each range."""
    found: dict[int, list[bytes]] = {}
    for line in lines:
        found.setdefault(bisect.bisect_right(bounds, place_of(line)), []).append(line + b"\n")
    return [(place, b"".join(some)) for place, some in found.items()]


def sorted_range(group: tuple[int, list[tuple[int, bytes]]]) -> tuple[int, bytes]:
    """One range of the text."""
    lines = [line for _, data in group[1] for line in data.splitlines()]
    return group[0], b"".join(line + b"\n" for line in sorted(lines, key=order))


def range_name(folder: str, place: int) -> str:
    """The file of a range; in the order of their names the files are the text."""
    return os.path.join(folder, "%06d.jsonl" % place)


def write_range(folder: str, part: tuple[int, bytes]) -> int:
    """Writes one range as a whole: a file that is there has all of it, also where the task is repeated."""
    name = range_name(folder, part[0])
    unfinished = "%s.%d" % (name, os.getpid())
    with open(unfinished, "wb") as out:
        out.write(part[1])
    os.replace(unfinished, name)
    return part[0]
