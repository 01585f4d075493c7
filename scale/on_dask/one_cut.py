"""The whole topology in one cut: the lines are shuffled once, and each shard is a run over the topology itself.

Right where the cut is the same for a key and for all that the readings take of it (`keys.cut_of`): what one record has
an effect on is then in its shard, each stream is that of the shards together, and so are the four numbers.
"""
from collections import Counter
from dataclasses import dataclass, field

from . import program
from .keys import cut_key, number_of
from .members import Chunk, Numbers, event_file, key_of, lines_of

# What is shuffled: a shard, the injector's number, and lines in time and late ones.
Routed = tuple[int, int, bytes, bytes]
# The lines of a shard: of each injector those in time and the late ones.
Files = list[tuple[list[bytes], list[bytes]]]
# A shard that is cut so often has one value of the cut, or nearly.
DEEPEST = 40


@dataclass
class ShardText:
    """What the runs of a shard gave: result lines and their numbers; or that one value of the cut is too much."""

    rows: bytes = b""
    numbers: Numbers = field(default_factory=Numbers)
    hot: bool = False

    def lines(self) -> int:
        """How many result lines there are."""
        return self.rows.count(b"\n")

    def __sizeof__(self) -> int:
        return len(self.rows) + 500


def pieces_above(cut: str, least: int, chunk: Chunk) -> set[bytes]:
    """The values of the cut that at least so many lines of a chunk have."""
    counted = Counter(cut_key(cut, key_of(line)) for line in lines_of(chunk.timely + chunk.late))
    return {piece for piece, lines in counted.items() if lines >= least}


def count_pieces(cut: str, pieces: set[bytes], chunk: Chunk) -> Counter:
    """How many lines of a chunk have each of these values of the cut."""
    found = (cut_key(cut, key_of(line)) for line in lines_of(chunk.timely + chunk.late))
    return Counter(piece for piece in found if piece in pieces)


def route(injector: int, cut: str, shards: int, chunk: Chunk) -> list[Routed]:
    """The members of an injector's chunk, by shard."""
    found: dict[int, tuple[list[bytes], list[bytes]]] = {}
    known: dict[bytes, int] = {}
    for late, data in enumerate((chunk.timely, chunk.late)):
        for line in lines_of(data):
            piece = cut_key(cut, key_of(line))
            if piece not in known:
                known[piece] = number_of(piece) % shards
            found.setdefault(known[piece], ([], []))[late].append(line)
    return [(shard, injector, b"".join(timely), b"".join(late)) for shard, (timely, late) in found.items()]


def files_of(injectors: int, routed: list[Routed]) -> Files:
    """The lines of a shard."""
    files: Files = [([], []) for _ in range(injectors)]
    for _, number, timely, late in routed:
        files[number][0].extend(lines_of(timely))
        files[number][1].extend(lines_of(late))
    return files


def all_lines(files: Files) -> list[bytes]:
    """All lines of a shard."""
    return [line for timely, late in files for line in timely + late]


def split(cut: str, depth: int, files: Files) -> list[Files]:
    """A shard in two by another number of the cut."""
    halves: list[Files] = [[([], []) for _ in files] for _ in range(2)]
    for number, lines in enumerate(files):
        for late in range(2):
            for line in lines[late]:
                half = number_of(b"%d " % depth + cut_key(cut, key_of(line))) % 2
                halves[half][number][late].append(line)
    return halves


def runs_of(cut: str, limits: program.Limits, files: Files) -> list[Files] | None:
    """A shard in runs within the limits, or None where one value of the cut has too many lines."""
    open_ones, fit = [(files, 0)], []
    while open_ones:
        some, depth = open_ones.pop()
        lines = all_lines(some)
        if limits.hold(lines):
            fit.append(some)
        elif depth > DEEPEST or len({cut_key(cut, key_of(line)) for line in lines}) == 1:
            return None
        else:
            open_ones += [(half, depth + 1) for half in split(cut, depth, some) if all_lines(half)]
    return fit


def run_shard(path: str, topology: dict, cut: str, limits: program.Limits, group: tuple[int, list[Routed]]) -> ShardText:
    """The topology over one shard, in several runs where one would be too long."""
    runs = runs_of(cut, limits, files_of(len(topology["injectors"]), group[1]))
    if runs is None:
        return ShardText(hot=True)
    rows, numbers = [], Numbers()
    for files in runs:
        answer = program.run(path, topology, [event_file(timely, late) for timely, late in files])
        told = Numbers(**answer.summary)
        given = (len(all_lines(files)), sum(len(late) for _, late in files))
        if (told.injected, told.late) != given:
            raise AssertionError("a run of %d lines, %d of them late, told %s" % (*given, told))
        rows += answer.lines
        numbers += told
    return ShardText(b"".join(row + b"\n" for row in rows), numbers)
