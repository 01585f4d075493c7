#!/usr/bin/env python3
"""Draws a run from its history lines, as one SVG picture that a browser shows by itself.

    millwheel solo --history TOPOLOGY EVENTS.. | tools/draw-history.py [--topology TOPOLOGY] > picture.svg
    millwheel solo --history TOPOLOGY EVENTS.. | tools/draw-history.py --progress [--topology TOPOLOGY] > picture.svg

A lane is an interval of keys, from left to right stand the entries in their order. A band tells which worker owns the
interval since its claim. A line goes from the entry that made a record to the one that handled it, and on to the one in
which the sender learnt of that. The text of an entry comes where the pointer rests on it. A history of more than 300
entries is folded: each column stands for several, and tells how many of each kind. Where a plan or rounds come first, a
line marks the drain, in which one worker works off what is left.

With --progress it draws times in place of lanes: over the entries the time of each injected line, in a color for its
file, late ones red, and the end of each window or the time of each other timer that fired, black.

With --topology lanes and files have the names of their parts, and of a part with cuts the keys of each interval.

What is no history is refused in words, with status 1.
"""
import json
import sys
import time
from collections import Counter
from collections.abc import Iterable
from xml.sax.saxutils import escape

TOP, STEP, LANE, SCALE = 44, 34, 74, 34
# More entries than this are folded into so many columns at most, which take so many pixels.
COLUMNS = 300
WIDTH = 1200
# A picture of times is so high; its dots are so large.
HEIGHT, DOT = 500, 3
WORKERS = ("#dbe9f6", "#fde4cf", "#dff0d8", "#eadcf4", "#fff3bf", "#d3f2ee", "#f9d9e4", "#e6e6e6")
FILES = ("#1f77b4", "#2ca02c", "#ff7f0e", "#9467bd", "#17becf", "#8c6d31", "#e377c2", "#7f7f7f")
LATE, FIRED = "#d62728", "#000000"
# Of each kind of entry: its color, and its name.
KINDS = {
    "claim": ("#555555", "claim"), "inject": ("#1f77b4", "inject"), "handle": ("#2ca02c", "handle"),
    "ack": ("#98a2ad", "ack"), "fire": ("#d62728", "fire"), "purge": ("#8c6d31", "purge"),
}
# Of each kind of entry: the members that a picture needs, and what they are.
NEEDS = {
    "claim": {"interval": int, "worker": int}, "inject": {"seq": int, "part": int, "ts": int, "late": bool, "key": str},
    "handle": {"seq": int, "id": str, "row": str}, "ack": {"seq": int, "id": str},
    "fire": {"seq": int, "time": int}, "purge": {"seq": int},
}
STYLE = (
    "text{font:13px sans-serif}.small{font-size:11px;fill:#444}.sent{stroke:#2ca02c}"
    ".told{stroke:#98a2ad;stroke-dasharray:3 3}.axis{stroke:#777}.drain{stroke:#000;stroke-dasharray:6 3}"
)


def entry_of(number: int, line: str, history: list[dict]) -> dict:
    """The entry of a line, which stands behind these; what is none is refused."""
    try:
        entry = json.loads(line)
    except ValueError:
        sys.exit(f"line {number} is cut off, or no line of --history")
    needs = NEEDS.get(entry.get("do"))
    if needs is None or any(type(entry.get(name)) is not kind for name, kind in {"n": int, **needs}.items()):
        sys.exit(f"line {number} is no entry: it has another form than a line of --history")
    if entry["n"] != len(history):
        sys.exit(f"line {number} has entry {entry['n']}, where entry {len(history)} comes next: lines are missing, or two histories stand here")
    if "seq" in entry and not (0 <= entry["seq"] < len(history) and history[entry["seq"]]["do"] == "claim"):
        sys.exit(f"line {number} was written under entry {entry['seq']}, which is no claim before it")
    if "id" in entry and maker_of(entry) not in range(len(history)):
        sys.exit(f"line {number} has the id of a record that no entry before it made")
    return entry


def history_of(lines: Iterable[str]) -> list[dict]:
    """The entries among these lines; result lines are no entries."""
    history: list[dict] = []
    for number, line in enumerate(lines, 1):
        if line.startswith('{"do"'):
            history.append(entry_of(number, line, history))
    if not history:
        sys.exit("no entry in the input: it has the lines of a run with --history")
    return history


def maker_of(entry: dict) -> int:
    """The entry that made the record of a Handle or an Ack: the commit number is the last 62 bits of its id; -1 is none."""
    try:
        return int(entry["id"].replace("-", ""), 16) & ((1 << 62) - 1)
    except ValueError:
        return -1


def lanes_of(history: list[dict]) -> list[int]:
    """The interval of each entry: the one whose claim it was written under."""
    return [(entry if entry["do"] == "claim" else history[entry["seq"]])["interval"] for entry in history]


def drain_of(history: list[dict]) -> int:
    """The entry with which the drain begins, where something comes before it, else 0: behind the last other claim one
    worker claims every interval, in the order of their numbers, with nothing between."""
    claims = [entry for entry in history if entry["do"] == "claim"]
    many = 1 + max(entry["interval"] for entry in claims)
    last = claims[-many:]
    begun = last[0]["n"]
    is_drain = [(it["interval"], it["n"], it["worker"]) for it in last] == [(at, begun + at, 0) for at in range(many)]
    return begun if is_drain else 0


class Names:
    """How parts and intervals are called: by a topology's file, or by their numbers."""

    def __init__(self, path: str | None):
        self.parts: list[str] = []
        self.intervals: list[tuple[str, str]] = []
        try:
            for part in self.read(path) if path else []:
                self.parts.append(part["name"])
                edges = ["", *part.get("cuts", []), ""]
                ranges = [f"{low}..{high}" for low, high in zip(edges, edges[1:])] if len(edges) > 2 else [""]
                self.intervals += [(part["name"], it) for it in ranges]
        except (OSError, ValueError, KeyError, TypeError, AttributeError) as why:
            sys.exit(f"no topology in {path}: {why}")

    def read(self, path: str) -> list[dict]:
        """The parts of a topology's file, in their order: weak computations are left out, as in the history."""
        with open(path, encoding="utf-8") as told:
            found = json.load(told)
        return found["injectors"] + [it for it in found["computations"] if not it.get("weak")]

    def interval(self, number: int) -> tuple[str, str]:
        """The name of an interval's part, and which keys it has, where its part has several."""
        if not self.intervals:
            return f"interval {number}", ""
        if number >= len(self.intervals):
            sys.exit(f"the topology has {len(self.intervals)} intervals, and the history one of the number {number}: it is of another topology")
        return self.intervals[number]

    def file(self, part: int) -> str:
        """The name of an injector."""
        return self.parts[part] if part < len(self.parts) else f"injector {part}"


class Picture:
    """A picture of so many lanes and so many columns of this width."""

    def __init__(self, lanes: list[int], columns: int, step: float, names: Names):
        self.tops = {lane: TOP + LANE * place for place, lane in enumerate(sorted(set(lanes)))}
        self.step, self.columns = step, columns
        self.names = {lane: names.interval(lane) for lane in self.tops}
        self.left = max(90, 24 + 7 * max(len(it) for name in self.names.values() for it in name))
        self.parts: list[str] = []

    def x(self, column: float) -> float:
        return self.left + self.step * (column + 0.5)

    def y(self, lane: int) -> float:
        return self.tops[lane] + LANE / 2

    def add(self, text: str, *values) -> None:
        self.parts.append(text % values)

    def band(self, lane: int, first: float, last: float, worker: int) -> None:
        """An owner, from a column to another."""
        left, width = self.left + self.step * first, self.step * (last - first)
        where = (left, self.tops[lane] + 6, width, LANE - 12, WORKERS[worker % len(WORKERS)])
        title = "worker %d owns %s" % (worker, " ".join(self.names[lane]).strip())
        self.add('<rect x="%.1f" y="%d" width="%.1f" height="%d" fill="%s"><title>%s</title></rect>', *where, escape(title))
        if width > 60:
            self.add('<text x="%.1f" y="%d" class="small">worker %d</text>', left + 4, self.tops[lane] + 18, worker)

    def line(self, start: tuple[int, int], end: tuple[int, int], kind: str) -> None:
        """The way of a record, from a column and lane to another."""
        ends = (self.x(start[0]), self.y(start[1]), self.x(end[0]), self.y(end[1]))
        self.add('<line x1="%.1f" y1="%.1f" x2="%.1f" y2="%.1f" class="%s"/>', *ends, kind)

    def bottom(self) -> int:
        return TOP + LANE * len(self.tops)

    def drain(self, column: float) -> None:
        """The line behind which one worker works off what is left."""
        left = self.left + self.step * column
        self.add('<line x1="%.1f" y1="32" x2="%.1f" y2="%d" class="drain"/>', left, left, self.bottom())
        self.add('<text x="%.1f" y="40" class="small">drain</text>', left + 4)

    def scale(self, many: int) -> None:
        """The numbers of the entries below the lanes: each, or where several share a column some."""
        right = self.left + self.step * self.columns
        self.add('<line x1="%d" y1="%d" x2="%.1f" y2="%d" class="axis"/>', self.left, self.bottom() + 4, right, self.bottom() + 4)
        for at in range(many) if many == self.columns else ticks(many - 1):
            where = self.left + (right - self.left) * (at + 0.5) / many
            self.add('<text x="%.1f" y="%d" class="small" text-anchor="middle">%s</text>', where, self.bottom() + 18, f"{at:,}")
        self.add('<text x="8" y="%d" class="small">entry</text>', self.bottom() + 18)

    def text(self) -> str:
        """The whole picture."""
        names = []
        for lane, top in self.tops.items():
            name, keys = self.names[lane]
            names.append('<text x="8" y="%d">%s</text>' % (top + LANE / 2 + (4 if not keys else -2), escape(name)))
            if keys:
                names.append('<text x="8" y="%d" class="small">%s</text>' % (top + LANE / 2 + 13, escape(keys)))
        width = max(self.left + self.step * self.columns + 20, self.left + 560)
        return whole(width, self.bottom() + SCALE, legend(self.left, list(KINDS.values())) + names + self.parts)


def whole(width: float, height: int, parts: list[str]) -> str:
    """A picture of these parts, on white."""
    size = 'width="%d" height="%d" viewBox="0 0 %d %d"' % (width, height, width, height)
    head = '<svg xmlns="http://www.w3.org/2000/svg" %s>\n<style>%s</style>' % (size, STYLE)
    return "\n".join([head, '<rect width="100%" height="100%" fill="#fff"/>', *parts, "</svg>\n"])


def legend(left: int, told: list[tuple[str, str]]) -> list[str]:
    """What each color stands for, in a row."""
    parts, step = [], max(90, 24 + 8 * max(len(name) for _, name in told))
    for place, (color, name) in enumerate(told):
        at = left + step * place
        parts.append('<circle cx="%d" cy="18" r="6" fill="%s"/><text x="%d" y="22">%s</text>' % (at, color, at + 10, escape(name)))
    return parts


def ticks(most: int) -> list[int]:
    """Some ten round numbers from 0 up to this one."""
    step = 1
    for step in (head * 10**zeros for zeros in range(20) for head in (1, 2, 5)):
        if most // step < 12:
            break
    return list(range(0, most + 1, step))


def owners(picture: Picture, history: list[dict], width: int) -> None:
    """The bands of each interval's owners; a column has `width` entries."""
    open_claims: dict[int, dict] = {}
    bands = []
    for claim in (entry for entry in history if entry["do"] == "claim"):
        if before := open_claims.get(claim["interval"]):
            bands.append((before, claim["n"]))
        open_claims[claim["interval"]] = claim
    bands += [(claim, len(history)) for claim in open_claims.values()]
    for claim, end in sorted(bands, key=lambda band: band[0]["n"]):
        picture.band(claim["interval"], claim["n"] / width, end / width, claim["worker"])


def ways(picture: Picture, history: list[dict], lanes: list[int]) -> None:
    """The lines from what made a record to what handled it, and to what noted that."""
    handled = {}
    for at, entry in enumerate(history):
        if entry["do"] == "handle":
            handled[entry["id"]] = (at, lanes[at])
            maker = maker_of(entry)
            picture.line((maker, lanes[maker]), (at, lanes[at]), "sent")
        elif entry["do"] == "ack" and entry["id"] in handled:
            picture.line(handled[entry["id"]], (at, lanes[at]), "told")


def said(entry: dict) -> str:
    """What an entry is about: a key, or the time of a timer."""
    if entry["do"] == "fire":
        return "%d" % entry["time"]
    return str(entry.get("key", entry.get("row", ""))) if entry["do"] in ("inject", "handle") else ""


def short(history: list[dict]) -> list[str]:
    """What stands below each entry: six letters, from the first on in which two keys differ."""
    words = [said(entry) for entry in history]
    keys = sorted({word for word, entry in zip(words, history) if word and entry["do"] != "fire"})
    same = 0
    if len(keys) > 1 and max(map(len, keys)) > 6:
        same = next((at for at, pair in enumerate(zip(keys[0], keys[-1])) if pair[0] != pair[1]), len(keys[0]))
    return [word[-6:] if entry["do"] == "fire" else word[same : same + 6] for word, entry in zip(words, history)]


def entries(picture: Picture, history: list[dict], lanes: list[int]) -> None:
    """A dot for each entry, with a ring for each production."""
    for at, (entry, lane, word) in enumerate(zip(history, lanes, short(history))):
        x, y = picture.x(at), picture.y(lane)
        title = escape(json.dumps(entry, ensure_ascii=False))
        picture.add('<circle cx="%.1f" cy="%.1f" r="7" fill="%s"><title>%s</title></circle>', x, y, KINDS[entry["do"]][0], title)
        if word:
            picture.add('<text x="%.1f" y="%.1f" class="small" text-anchor="middle">%s</text>', x, y + 20, escape(word))
        for place, out in enumerate(entry.get("out", [])):
            where = (x + 10 + 3 * place, y - 10, escape("produced: " + json.dumps(out, ensure_ascii=False)))
            picture.add('<circle cx="%.1f" cy="%.1f" r="4" fill="none" stroke="#d62728"><title>%s</title></circle>', *where)


def folded(picture: Picture, history: list[dict], lanes: list[int], width: int) -> None:
    """A bar for each column and lane: how many entries of each kind."""
    for first in range(0, len(history), width):
        column = list(zip(history[first : first + width], lanes[first : first + width]))
        for lane in sorted({lane for _, lane in column}):
            counted = Counter(entry["do"] for entry, of in column if of == lane)
            told = ", ".join("%d %s" % (many, kind) for kind, many in counted.items())
            bottom = float(picture.tops[lane] + LANE - 8)
            for kind, many in sorted(counted.items()):
                height = (LANE - 30) * many / width
                bottom -= height
                where = (picture.left + picture.step * (first // width), bottom, picture.step - 0.5, height, KINDS[kind][0])
                title = "entries %d to %d: %s" % (first, first + len(column) - 1, told)
                picture.add('<rect x="%.1f" y="%.1f" width="%.1f" height="%.1f" fill="%s"><title>%s</title></rect>', *where, title)


def draw(history: list[dict], names: Names) -> str:
    """The picture of a history."""
    lanes, many = lanes_of(history), len(history)
    width = -(-many // COLUMNS)
    columns = -(-many // width)
    picture = Picture(lanes, columns, STEP if width == 1 else WIDTH / columns, names)
    owners(picture, history, width)
    if width == 1:
        ways(picture, history, lanes)
        entries(picture, history, lanes)
    else:
        folded(picture, history, lanes, width)
    picture.scale(many)
    if begun := drain_of(history):
        picture.drain(begun / width)
    return picture.text()


def moment(stamp: int, far: int) -> str:
    """A time in words: of the clock where it is a time since 1970 that can be meant, else the number itself."""
    if not 10**15 <= stamp < 10**16:
        return f"{stamp:,}"
    form = "%Y-%m-%d %H:%M" if far > 86_400_000_000 else "%H:%M" if far > 600_000_000 else "%H:%M:%S"
    return time.strftime(form, time.gmtime(stamp // 1_000_000))


def progress(history: list[dict], names: Names) -> str:
    """The picture of times: what was injected and what fired, over the entries."""
    dots = {}
    injected = {entry["part"] for entry in history if entry["do"] == "inject"}
    for entry in history:
        if entry["do"] == "inject":
            dots[entry["n"]] = (entry["ts"], LATE if entry["late"] else FILES[entry["part"] % len(FILES)])
        elif entry["do"] == "fire":
            dots[entry["n"]] = (entry["time"], FIRED)
    if not dots:
        sys.exit("nothing was injected and nothing fired in this history")
    low, high = min(stamp for stamp, _ in dots.values()), max(stamp for stamp, _ in dots.values())
    far, many = max(high - low, 1), len(history)
    steps = [low + far * at // 6 for at in range(7)]
    left = 16 + 7 * max(len(moment(it, far)) for it in steps)
    places: dict[str, set[tuple[int, int]]] = {}
    for at, (stamp, color) in dots.items():
        places.setdefault(color, set()).add((left + WIDTH * at // many, TOP + HEIGHT - HEIGHT * (stamp - low) // far))
    told = [(FILES[part % len(FILES)], names.file(part)) for part in sorted(injected)]
    parts = legend(left, told + [(LATE, "late"), (FIRED, "fired")])
    parts += axes(left, many, [(TOP + HEIGHT - HEIGHT * (it - low) // far, moment(it, far)) for it in steps])
    for color in sorted(places, key=[*FILES, FIRED, LATE].index):
        way = "".join("M%d %dh%d" % (x, y, DOT) for x, y in sorted(places[color]))
        parts.append('<path d="%s" stroke="%s" stroke-width="%d"/>' % (way, color, DOT))
    if begun := drain_of(history):
        where = left + WIDTH * begun // many
        parts.append('<line x1="%d" y1="34" x2="%d" y2="%d" class="drain"/>' % (where, where, TOP + HEIGHT))
        parts.append('<text x="%d" y="44" class="small">drain</text>' % (where + 4))
    return whole(left + WIDTH + 40, TOP + HEIGHT + SCALE, parts)


def axes(left: int, many: int, times: list[tuple[int, str]]) -> list[str]:
    """The lines of a picture of times, with the numbers of entries below and times beside it."""
    bottom = TOP + HEIGHT
    parts = ['<line x1="%d" y1="%d" x2="%d" y2="%d" class="axis"/>' % (left, bottom + 4, left + WIDTH, bottom + 4)]
    for at in ticks(many - 1):
        parts.append('<text x="%d" y="%d" class="small" text-anchor="middle">%s</text>' % (left + WIDTH * at // many, bottom + 18, f"{at:,}"))
    parts.append('<text x="8" y="%d" class="small">entry</text>' % (bottom + 18))
    for y, word in times:
        parts.append('<text x="8" y="%d" class="small">%s</text>' % (y + 4, word))
    return parts


def main() -> None:
    words, topology, is_progress = sys.argv[1:], None, False
    while words:
        word = words.pop(0)
        if word in ("--help", "-h"):
            print(__doc__)
            return
        if word == "--progress":
            is_progress = True
        elif word == "--topology" and words:
            topology = words.pop(0)
        else:
            sys.exit(f"no argument {word} is known, or it lacks its value: history lines come on standard input, and --help says more")
    names, history = Names(topology), history_of(sys.stdin)
    sys.stdout.write(progress(history, names) if is_progress else draw(history, names))


if __name__ == "__main__":
    main()
