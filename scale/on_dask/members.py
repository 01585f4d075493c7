"""The lines that go from task to task, and the event file that a run gets of them.

A member is a record of a stream, spelled as one event line. Its key stands behind the numbers, spelled as the program
spells keys, so equal keys are equal bytes.
"""
import re
from dataclasses import dataclass, field

# The greatest timestamp that an event file may state.
INPUT_MAX = 1 << 62
KEY = b',"key":'
MEMBER = re.compile(rb'\{"ts":([0-9]+),"value":(-?[0-9]+),"key":(.*)\}\n?')


@dataclass
class Numbers:
    """The four numbers of a summary."""

    injected: int = 0
    late: int = 0
    handled: int = 0
    fired: int = 0

    def __add__(self, other: "Numbers") -> "Numbers":
        pairs = zip(vars(self).values(), vars(other).values())
        return Numbers(*(mine + theirs for mine, theirs in pairs))

    def line(self) -> bytes:
        """The summary's line."""
        return b'{"fired":%d,"handled":%d,"injected":%d,"late":%d}\n' % (
            self.fired, self.handled, self.injected, self.late)


@dataclass
class Chunk:
    """Some members of a stream, those in time apart from the late ones, and what they add to the summary."""

    timely: bytes = b""
    late: bytes = b""
    numbers: Numbers = field(default_factory=Numbers)

    def lines(self) -> int:
        """How many members there are."""
        return self.timely.count(b"\n") + self.late.count(b"\n")

    def __sizeof__(self) -> int:
        # What the engine counts a worker's memory by.
        return len(self.timely) + len(self.late) + 500


def member_line(key: bytes, stamp: int, value: int) -> bytes:
    """A member with this key, which is spelled with its quotes."""
    return b'{"ts":%d,"value":%d,"key":%s}\n' % (stamp, value, key)


def parts_of(line: bytes) -> tuple[bytes, int, int]:
    """A member's key as it is spelled, its timestamp and its value."""
    found = MEMBER.fullmatch(line)
    if not found:
        raise ValueError("no member: %r" % line)
    return found[3], int(found[1]), int(found[2])


def key_of(line: bytes) -> bytes:
    """A member's key as it is spelled; only numbers stand before it, so no key's own text is found."""
    return line[line.index(KEY) + len(KEY) : line.rindex(b"}")]


def stamp_of(line: bytes) -> int:
    """A member's timestamp."""
    return int(line[6 : line.index(b",")])


def lines_of(data: bytes) -> list[bytes]:
    """The lines of these bytes, each with its line feed; a carriage return is in none, since JSON spells it."""
    return data.splitlines(keepends=True)


def watermark_line(stamp: int) -> bytes:
    """A line that states this watermark, or none where the program would refuse it: what it refuses there says more."""
    return b'{"watermark":%d}\n' % stamp if stamp <= INPUT_MAX else b""


def event_file(timely: list[bytes], late: list[bytes]) -> bytes:
    """An event file in which exactly `late` are late.

    The others come first, under no watermark; then a watermark above each late one, and the late ones. Their order is
    of no account to a count of the whole file.
    """
    mark = [watermark_line(1 + max(map(stamp_of, late)))] if late else []
    return b"".join(timely + mark + late)
