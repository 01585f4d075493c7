"""The whole job: what is told to the cluster, in which order, and what comes of it."""
import math
import os
import sys
from collections import Counter
from collections.abc import Callable, Iterable
from dataclasses import dataclass, field, replace
from functools import partial
from itertools import accumulate
from operator import itemgetter

import dask.bag as db
from dask.bytes import read_bytes
from dask.delayed import Delayed, delayed
from distributed import Client, as_completed, futures_of

from . import one_cut, one_part, result
from .folding import without_weak
from .keys import cut_of
from .members import Chunk, Numbers
from .program import Limits, Refused
from .reading import BadLine, read_block, scan

# How often the engine tries a task again that failed.
RETRIES = 3
# Fewer lines than this are not worth a shard of their own, and fewer bytes no block.
LEAST_SHARD, LEAST_BLOCK = 2_000, 1 << 16
# The status of a job that could not be done for a reason that is not its input's; the program has no such status.
UNDONE = 1


@dataclass(frozen=True)
class Job:
    """What the user asks for."""

    program: str
    topology: dict
    # The event files as the user names them.
    events: list[str]
    # Where the text goes, range by range; none for standard output.
    out: str | None = None
    # Part by part, also where one cut would do.
    by_parts: bool = False
    # Bytes of an event file that one task reads, and lines that a shard has about.
    block: int = 8 << 20
    shard: int = 120_000
    limits: Limits = field(default_factory=Limits)


@dataclass
class Stream:
    """Members or a text in the cluster's memory, by chunks; how many lines they are, and how a chunk is told as text."""

    bag: db.Bag
    lines: int
    rows: Callable[..., list[bytes]]


class Progress:
    """How far the job is: one line on standard error, where that is a terminal."""

    def __init__(self) -> None:
        self.shown = sys.stderr.isatty()

    def tell(self, text: str) -> None:
        """Shows this in place of what was shown before."""
        if self.shown:
            sys.stderr.write("\r\x1b[K" + text)
            sys.stderr.flush()


class Cluster:
    """The engine: its client, and how tasks are given to it."""

    def __init__(self, client: Client):
        self.client, self.progress = client, Progress()

    def threads(self) -> int:
        """How many tasks the cluster does at once."""
        return max(1, sum(self.client.nthreads().values()))

    def kept(self, what: str, bag: db.Bag) -> db.Bag:
        """Works a bag off, and keeps it in the cluster's memory; a task that fails for good ends the job."""
        bag = self.client.persist(bag, retries=RETRIES)
        futures = futures_of(bag)
        for done, future in enumerate(as_completed(futures), 1):
            self.progress.tell("%s: %d of %d" % (what, done, len(futures)))
            if future.status == "error":
                future.result()
        return bag

    def told(self, bag: db.Bag) -> list:
        """What a bag's items are, which are few and small."""
        return self.client.compute(bag, retries=RETRIES).result()

    def values(self, tasks: list[Delayed]) -> list:
        """What these tasks answer."""
        return self.client.gather(self.client.compute(tasks, retries=RETRIES))


def shuffled(bag: db.Bag, groups: int) -> db.Bag:
    """The items by their first member, by the engine's own shuffle, which makes no more partitions than it is given."""
    bag = bag.repartition(npartitions=max(bag.npartitions, groups))
    return bag.groupby(itemgetter(0), shuffle="tasks")


def shards_for(job: Job, cluster: Cluster, lines: int) -> int:
    """How many shards so many lines are cut into: a matter of memory and of idle threads, and never of the text."""
    for_threads = min(2 * cluster.threads(), math.ceil(lines / LEAST_SHARD))
    return max(math.ceil(lines / job.shard), for_threads, 1)


def as_one(task: Callable, *arguments) -> list:
    """What a task answers, as a bag's chunk of one item."""
    return [task(*arguments)]


def numbers_of(chunk: Chunk) -> tuple[Numbers, int]:
    """A chunk's numbers, and how many lines it has."""
    return chunk.numbers, chunk.lines()


def total(numbers: Iterable[Numbers]) -> Numbers:
    """The sum of these numbers."""
    return sum(numbers, Numbers())


# ---- reading

def try_file(name: str) -> None:
    """Raises `Refused` where a file of this machine can't be read in blocks, in the program's words where it has some."""
    if any(sign in name for sign in "*?["):
        raise Refused("millwheel-on-dask: the engine reads a pattern in *, ? and [, so rename %s" % name, UNDONE)
    if "://" in name:
        return
    if not os.path.exists(name):
        raise Refused("millwheel: no file " + name, 3)
    if os.path.isdir(name) or not os.access(name, os.R_OK):
        raise Refused("millwheel: can't read " + name, 13)
    if not os.path.isfile(name) and name != os.devnull:
        raise Refused("millwheel-on-dask: a pipe has no blocks, so write it to a file first: " + name, UNDONE)


def blocks_of(job: Job, cluster: Cluster, name: str) -> list[Delayed]:
    """An event file in blocks that end at a line's end, more than one for each thread where the file is large."""
    try_file(name)
    each, path = job.block, name
    if "://" not in name:
        path = os.path.abspath(name)
        each = min(each, max(LEAST_BLOCK, os.path.getsize(path) // (2 * cluster.threads())))
    return read_bytes(path, delimiter=b"\n", blocksize=each, sample=False)[1][0]


def read_events(job: Job, cluster: Cluster, number: int) -> tuple[Stream, Numbers]:
    """The members of an injector's file: each block is read with the watermark that stands before it."""
    blocks = blocks_of(job, cluster, job.events[number])
    scans = cluster.values([delayed(scan)(block) for block in blocks])
    marks = list(accumulate((one.mark for one in scans), max, initial=0))
    reader = partial(as_one, read_block, job.program, job.limits)
    chunks = [delayed(reader, pure=False)(block, mark) for block, mark in zip(blocks, marks)]
    bag = cluster.kept("reading " + job.events[number], db.from_delayed(chunks or [delayed([Chunk()])]))
    bad = cluster.told(bag.map(bad_line_of))
    for place, line in enumerate(bad):
        if line:
            at = sum(one.lines for one in scans[:place]) + line.place + 1
            raise Refused("millwheel: events refused: file %d line %d: %s" % (number, at, line.rule), 5)
    found = cluster.told(bag.map(numbers_of))
    stream = job.topology["injectors"][number]["stream"]
    lines = sum(lines for _, lines in found)
    return Stream(bag, lines, partial(result.rows_of_stream, stream)), total(one for one, _ in found)


def bad_line_of(chunk: Chunk | BadLine) -> BadLine | None:
    """A block's line that is refused."""
    return chunk if isinstance(chunk, BadLine) else None


# ---- the two ways

def has_hot_piece(job: Job, cluster: Cluster, cut: str, injected: list[Stream]) -> bool:
    """Whether one value of the cut has more lines than a run may have. Such a value has its share in some chunk, so
    only what has that share somewhere is counted everywhere."""
    if sum(stream.lines for stream in injected) <= job.limits.lines:
        return False
    bag = db.concat([stream.bag for stream in injected])
    least = max(1, job.limits.lines // bag.npartitions)
    pieces = set().union(*cluster.told(bag.map(partial(one_cut.pieces_above, cut, least))))
    counted = cluster.told(bag.map(partial(one_cut.count_pieces, cut, pieces))) if pieces else []
    return max(sum(counted, Counter()).values(), default=0) > job.limits.lines


def in_one_cut(job: Job, cluster: Cluster, cut: str, injected: list[Stream], read: Numbers) -> tuple[Stream, Numbers] | None:
    """The text by one cut of the keys, or None where one value of it is too much for a run."""
    if has_hot_piece(job, cluster, cut, injected):
        return None
    shards = shards_for(job, cluster, read.injected)
    routed = [
        stream.bag.map(partial(one_cut.route, number, cut, shards)).flatten() for number, stream in enumerate(injected)
    ]
    work = partial(one_cut.run_shard, job.program, job.topology, cut, job.limits)
    bag = cluster.kept("shards", shuffled(db.concat(routed), shards).map(work))
    found = cluster.told(bag.map(text_numbers))
    if any(hot for _, _, hot in found):
        return None
    numbers = total(one for one, _, _ in found)
    if (numbers.injected, numbers.late) != (read.injected, read.late):
        raise AssertionError("the shards have not all lines: %s of %s" % (numbers, read))
    return Stream(bag, sum(lines for _, lines, _ in found), result.rows_of_text), numbers


def text_numbers(shard: one_cut.ShardText) -> tuple[Numbers, int, bool]:
    """A shard's numbers, how many lines it gave, and whether it was too much."""
    return shard.numbers, shard.lines(), shard.hot


def readings_of(computation: dict) -> dict[str, list[str]]:
    """The streams that a computation reads, each with its extractors."""
    found: dict[str, list[str]] = {}
    for read in computation["reads"]:
        found.setdefault(read["stream"], []).append(read["by"])
    return found


def part_of(job: Job, cluster: Cluster, computation: dict, streams: dict[str, Stream]) -> tuple[Stream, Numbers]:
    """What one computation gives."""
    kind = {name: value for name, value in computation.items() if name not in ("name", "reads", "stream", "cuts")}
    reads = readings_of(computation)
    if kind["kind"] == "pass":
        work = partial(one_part.run_pass, job.program, kind, job.limits)
        bag = db.concat([streams[name].bag.map(partial(work, len(by))) for name, by in reads.items()])
    else:
        shards = shards_for(job, cluster, sum(streams[name].lines * len(by) for name, by in reads.items()))
        routes = [streams[name].bag.map(partial(one_part.route, kind, by, shards)) for name, by in reads.items()]
        work = partial(one_part.run_shard, job.program, kind, job.limits)
        bag = shuffled(db.concat([route.flatten() for route in routes]), shards).map(work)
    bag = cluster.kept(computation["name"], bag)
    found = cluster.told(bag.map(numbers_of))
    rows = partial(result.rows_of_stream, computation["stream"])
    return Stream(bag, sum(lines for _, lines in found), rows), total(one for one, _ in found)


def part_by_part(job: Job, cluster: Cluster, injected: list[Stream], read: Numbers) -> tuple[list[Stream], Numbers]:
    """The streams that are printed; each other one is let go when its last reader has run."""
    names = [injector["stream"] for injector in job.topology["injectors"]]
    streams, numbers = dict(zip(names, injected)), read
    left = Counter(name for one in job.topology["computations"] for name in readings_of(one))
    for computation in job.topology["computations"]:
        streams[computation["stream"]], told = part_of(job, cluster, computation, streams)
        numbers += told
        for name in readings_of(computation):
            left[name] -= 1
            if not left[name]:
                del streams[name]
    return list(streams.values()), numbers


# ---- the result

def in_ranges(job: Job, cluster: Cluster, streams: list[Stream]) -> db.Bag:
    """The text in sorted ranges."""
    sampled = [place for one in streams for some in cluster.told(one.bag.map(partial(told_sample, one.rows))) for place in some]
    bounds = result.bounds_of(sampled, max(1, math.ceil(sum(one.lines for one in streams) / job.shard)))
    lines = [one.bag.map(partial(told_ranges, one.rows, bounds)).flatten() for one in streams]
    return cluster.kept("sorting", shuffled(db.concat(lines), len(bounds) + 1).map(result.sorted_range))


def told_sample(rows: Callable, chunk: Chunk) -> list[result.Place]:
    """Where some of a chunk's lines stand."""
    return result.sample(rows(chunk))


def told_ranges(rows: Callable, bounds: list[result.Place], chunk: Chunk) -> list[tuple[int, bytes]]:
    """A chunk's lines by range."""
    return result.by_range(bounds, rows(chunk))


def print_text(cluster: Cluster, ranges: db.Bag, numbers: Numbers) -> None:
    """Writes the text to standard output; one range at a time is here."""
    chunks = ranges.to_delayed()
    found = cluster.values([delayed(places_in)(chunk) for chunk in chunks])
    where = sorted((place, chunk, at) for chunk, places in enumerate(found) for at, place in enumerate(places))
    for _, chunk, at in where:
        sys.stdout.buffer.write(cluster.values([delayed(data_at)(chunks[chunk], at)])[0])
    sys.stdout.buffer.write(numbers.line())
    sys.stdout.buffer.flush()


def places_in(chunk: list[tuple[int, bytes]]) -> list[int]:
    """Which ranges a chunk has."""
    return [place for place, _ in chunk]


def data_at(chunk: list[tuple[int, bytes]], at: int) -> bytes:
    """A chunk's range."""
    return chunk[at][1]


def write_text(folder: str, cluster: Cluster, ranges: db.Bag, numbers: Numbers) -> None:
    """Writes each range by the worker that has it, and the summary behind them when all are there."""
    os.makedirs(folder, exist_ok=True)
    places = cluster.told(ranges.map(partial(result.write_range, folder)))
    result.write_range(folder, (max(places, default=-1) + 1, numbers.line()))


def run_job(client: Client, job: Job) -> None:
    """Runs the topology over its files and writes the text; a refusal comes before any of it."""
    job = replace(job, topology=without_weak(job.topology))
    cluster = Cluster(client)
    injected, read = [], Numbers()
    for number in range(len(job.events)):
        stream, told = read_events(job, cluster, number)
        injected.append(stream)
        read += told
    cut = None if job.by_parts else cut_of(job.topology)
    whole = in_one_cut(job, cluster, cut, injected, read) if cut else None
    streams, numbers = ([whole[0]], whole[1]) if whole else part_by_part(job, cluster, injected, read)
    ranges = in_ranges(job, cluster, streams)
    cluster.progress.tell("")
    if job.out:
        write_text(job.out, cluster, ranges, numbers)
    else:
        print_text(cluster, ranges, numbers)
