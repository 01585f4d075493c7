"""Reads event files, block by block. What is late is known before the blocks are read: see `scan`.

Lines of one plain form are read here. Each other line is first shown to the program, so nothing is taken that it would
refuse, and a refusal has its word.
"""
import json
import re
from dataclasses import dataclass

from . import program
from .members import Chunk, Numbers, member_line

# No escape, ASCII alone, and numbers of at most 18 digits.
PLAIN = re.compile(
    rb'\{"key":("[^"\\\x00-\x1f\x80-\xff]{1,256}"),"ts":(0|[1-9][0-9]{0,17})(?:,"value":(0|-?[1-9][0-9]{0,17}))?\}'
)
# How the program names a line that it refuses.
REFUSAL = re.compile(r"file [0-9]+ line ([0-9]+): (\w+)")


@dataclass
class Scan:
    """Of a block: the greatest watermark that it states, and its number of lines."""

    mark: int
    lines: int


@dataclass
class BadLine:
    """A line that the program refuses: its place in its block, from 0, and the rule's name."""

    place: int
    rule: str


def stated_by(line: bytes) -> int:
    """The watermark that a line states, or 0; a line that the program refuses is found when it is read."""
    try:
        found = json.loads(line.decode())
    except ValueError:
        return 0
    mark = found.get("watermark") if isinstance(found, dict) else None
    return mark if type(mark) is int else 0


def scan(block: bytes) -> Scan:
    """What has to be known of a block before those behind it are read; a line is parsed only where it may state one."""
    mark = 0
    if b"watermark" in block or b"\\" in block:
        may_state = (line for line in block.split(b"\n") if b"watermark" in line or b"\\" in line)
        mark = max(map(stated_by, may_state), default=0)
    return Scan(mark, block.count(b"\n") + int(block[-1:] not in (b"", b"\n")))


def first_refused(path: str, lines: list[bytes], limits: program.Limits) -> BadLine | None:
    """The first of these lines that the program refuses; it drops one carriage return of each, which is put here."""
    before = 0
    for some in limits.pieces(lines):
        try:
            program.run(path, program.no_computation(), [b"".join(line + b"\r\n" for line in some)])
        except program.Refused as refused:
            told = REFUSAL.search(refused.said)
            if not told:
                raise
            return BadLine(before + int(told[1]) - 1, told[2])
        before += len(some)
    return None


def lines_to_read(block: bytes) -> list[tuple[int, bytes]]:
    """The lines of a block that are not blank, without the carriage return at their end, each with its place."""
    lines = (line[:-1] if line.endswith(b"\r") else line for line in block.split(b"\n"))
    return [(place, line) for place, line in enumerate(lines) if line.strip(b" \t")]


def members_of(lines: list[bytes], mark: int) -> Chunk:
    """The members of lines that are known to be good, before which this watermark stood."""
    timely: list[bytes] = []
    late: list[bytes] = []
    for line in lines:
        plain = PLAIN.fullmatch(line)
        if plain:
            key, stamp, value = plain[1], int(plain[2]), int(plain[3] or 1)
        else:
            found = json.loads(line.decode())
            if "watermark" in found:
                mark = max(mark, found["watermark"])
                continue
            key, stamp = json.dumps(found["key"], ensure_ascii=False).encode(), found["ts"]
            value = found.get("value", 1)
        (late if stamp < mark else timely).append(member_line(key, stamp, value))
    return Chunk(b"".join(timely), b"".join(late), Numbers(len(timely) + len(late), len(late)))


def read_block(path: str, limits: program.Limits, block: bytes, mark: int) -> Chunk | BadLine:
    """The members of a block before which this watermark stood, or its first line that is refused."""
    lines = lines_to_read(block)
    odd = [(place, line) for place, line in lines if not PLAIN.fullmatch(line)]
    bad = first_refused(path, [line for _, line in odd], limits) if odd else None
    if bad:
        return BadLine(odd[bad.place][0], bad.rule)
    return members_of([line for _, line in lines], mark)
