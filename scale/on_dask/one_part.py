"""One computation over what it reads: shuffled by the row's key, each shard a run over that computation alone.

A count and a spike know a member by the row that reads it, so a shard's members have the row's key, and a reading by
`key` does. A count splits by row and window, and in any way where equal windows are summed. A spike's row splits by
time, where each piece begins with the places that a spike looks back to. A pass splits in any way.
"""
from dataclasses import dataclass

from . import program
from .keys import extract, number_of
from .members import Chunk, Numbers, event_file, key_of, lines_of, member_line, parts_of, stamp_of
from .result import row_parts

# What is shuffled: a shard, and lines in time and late ones under the keys of their rows.
Routed = tuple[int, bytes, bytes]


@dataclass
class Run:
    """What one run of a shard is given, and what its numbers are to be mended by."""

    timely: list[bytes]
    late: list[bytes]
    # Members that were added to the user's, less those that were left out.
    added: int = 0
    # Places of a spike that an earlier run fires too.
    twice: int = 0


def route(kind: dict, extractors: list[str], shards: int, chunk: Chunk) -> list[Routed]:
    """A chunk's members under the keys of the rows that read them, by shard."""
    found: dict[int, tuple[list[bytes], list[bytes]]] = {}
    for late, data in enumerate((chunk.timely, chunk.late)):
        for line in lines_of(data):
            key, stamp, value = parts_of(line)
            for by in extractors:
                row = extract(by, key)
                place = row if kind["kind"] == "spike" else b"%s %d" % (row, stamp // kind["size"])
                shard = number_of(place) % shards
                found.setdefault(shard, ([], []))[late].append(member_line(row, stamp, value))
    return [(shard, b"".join(timely), b"".join(late)) for shard, (timely, late) in found.items()]


def by_row(lines: list[bytes]) -> list[list[bytes]]:
    """The lines of each row."""
    rows: dict[bytes, list[bytes]] = {}
    for line in lines:
        rows.setdefault(key_of(line), []).append(line)
    return list(rows.values())


def greatest_by_place(row: list[bytes]) -> list[bytes]:
    """The line of the greatest value at each timestamp, ascending, which is all that a spike keeps of a row."""
    places: dict[int, tuple[int, bytes]] = {}
    for line in row:
        _, stamp, value = parts_of(line)
        if stamp not in places or value > places[stamp][0]:
            places[stamp] = (value, line)
    return [places[stamp][1] for stamp in sorted(places)]


def runs_by_time(last: int, limits: program.Limits, row: list[bytes]) -> list[Run]:
    """A row that is too long for a run, by time. Each run but the first begins with the last places before its own,
    which give nothing there, since too few are before them."""
    kept = greatest_by_place(row)
    room = min(limits.lines, limits.file_bytes // max(map(len, kept)))
    step = max(1, room - last)
    runs = []
    for start in range(0, len(kept), step):
        before = kept[max(0, start - last) : start]
        runs.append(Run(before + kept[start : start + step], [], len(before), len(before)))
    runs[0].added += len(kept) - len(row)
    return runs


def spike_runs(last: int, limits: program.Limits, timely: list[bytes]) -> list[Run]:
    """The runs of a spike's shard: rows that fit stay whole, as many in a run as fit."""
    whole: list[list[bytes]] = []
    long: list[list[bytes]] = []
    for row in by_row(timely):
        (whole if limits.hold(row) else long).append(row)
    runs = [Run(some, []) for some in limits.packed(whole)]
    return runs + [one for row in long for one in runs_by_time(last, limits, row)]


def runs_of(kind: dict, limits: program.Limits, timely: list[bytes], late: list[bytes]) -> list[Run]:
    """The runs of a shard."""
    if limits.hold(timely + late):
        return [Run(timely, late)]
    if kind["kind"] == "spike":
        runs = spike_runs(kind["last"], limits, timely)
    else:
        runs = [Run(some, []) for some in limits.pieces(sorted(timely, key=stamp_of))]
    return runs + [Run([], some) for some in limits.pieces(late)]


def run_one(path: str, kind: dict, one: Run) -> tuple[list[bytes], Numbers]:
    """One run: its result lines, and its numbers as the user's lines have them."""
    answer = program.run(path, program.one_computation(kind, ["out"]), [event_file(one.timely, one.late)])
    told = Numbers(**answer.summary)
    if told.late != len(one.late):
        raise AssertionError("%d late of %d" % (told.late, len(one.late)))
    return answer.lines, Numbers(handled=told.handled - one.added, fired=told.fired - one.twice)


def summed_windows(rows: list[tuple[bytes, int, int]]) -> list[tuple[bytes, int, int]]:
    """Counts of equal windows as one."""
    windows: dict[tuple[bytes, int], int] = {}
    for key, stamp, value in rows:
        windows[key, stamp] = windows.get((key, stamp), 0) + value
    return [(key, stamp, value) for (key, stamp), value in windows.items()]


def run_shard(path: str, kind: dict, limits: program.Limits, group: tuple[int, list[Routed]]) -> Chunk:
    """A count or a spike over one shard: the stream that it gives, all in time."""
    timely = [line for _, data, _ in group[1] for line in lines_of(data)]
    late = [line for _, _, data in group[1] for line in lines_of(data)]
    rows, numbers = [], Numbers()
    for one in runs_of(kind, limits, timely, late):
        lines, told = run_one(path, kind, one)
        rows += [(row.key, row.stamp, row.value) for row in map(row_parts, lines)]
        numbers += told
    if kind["kind"] == "count":
        summed = summed_windows(rows)
        numbers.fired -= len(rows) - len(summed)
        rows = summed
    return Chunk(b"".join(member_line(*row) for row in rows), b"", numbers)


def run_pass_once(path: str, kind: dict, timely: list[bytes], late: list[bytes]) -> tuple[Chunk, int]:
    """One run of two passes, one over the members in time and one over the late ones, so that the result, which says
    nothing of lateness, tells them apart by its streams; and how many it handled."""
    files = [event_file(timely, []), event_file([], late)]
    answer = program.run(path, program.one_computation(kind, ["timely", "late"]), files)
    if answer.summary["late"] != len(late):
        raise AssertionError("%d late of %d" % (answer.summary["late"], len(late)))
    found: dict[bytes, list[bytes]] = {b"timely": [], b"late": []}
    for row in map(row_parts, answer.lines):
        found[row.stream].append(member_line(row.key, row.stamp, row.value))
    return Chunk(b"".join(found[b"timely"]), b"".join(found[b"late"])), answer.summary["handled"]


def run_pass(path: str, kind: dict, limits: program.Limits, times: int, chunk: Chunk) -> Chunk:
    """A pass over one chunk, which it reads so many times: late members stay late."""
    runs: list[tuple[list[bytes], list[bytes]]] = []
    runs += [(some, []) for some in limits.pieces(lines_of(chunk.timely) * times)]
    runs += [([], some) for some in limits.pieces(lines_of(chunk.late) * times)]
    found = Chunk()
    for timely, late in runs:
        given, handled = run_pass_once(path, kind, timely, late)
        found.timely += given.timely
        found.late += given.late
        found.numbers.handled += handled
    return found
