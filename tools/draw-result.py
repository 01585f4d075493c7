#!/usr/bin/env python3
"""Draws a result text as one SVG picture: a row for each key of a stream, a bar for each window.

    millwheel solo TOPOLOGY EVENTS.. | tools/draw-result.py STREAM [SPIKES] > picture.svg

A bar ends where its window does, and is as high as its value beside the greatest of its key, which stands below the
key's name. A window of which the stream SPIKES has a line is red, with its end and its value. Of more than 60 keys the
60 with the greatest sums are drawn, and the picture says so. Below the rows stand times (UTC) and the summary line.

What is no such text is refused in words, with status 1: a line that is cut off, a stream with no line, a second value of
one key and window, a value below 0, a spike of a window that has no line.
"""
import json
import sys
import time
from collections.abc import Iterable
from xml.sax.saxutils import escape

LEFT, WIDTH, ROW, BAR = 160, 1100, 100, 70
ROWS = 60
PLAIN, SPIKE = "#1f77b4", "#d62728"
STYLE = "text{font:13px sans-serif}.small{font-size:11px;fill:#444}.red{font-size:11px;fill:#d62728}.axis{stroke:#777}"
# What the lines of a result have; of --live they have an id too.
MEMBERS = {"key": str, "stream": str, "ts": int, "value": int}


class Result:
    """A result text: of each key the value of each window of a stream, the windows with a spike, and the summary."""

    def __init__(self, stream: str, spikes: str | None):
        self.stream, self.spikes = stream, spikes
        self.windows: dict[str, dict[int, int]] = {}
        self.red: dict[str, set[int]] = {}
        self.summary = ""

    def read(self, lines: Iterable[str]) -> None:
        """Takes in the whole text."""
        for number, text in enumerate(lines, 1):
            try:
                line = json.loads(text)
            except ValueError:
                sys.exit(f"line {number} is cut off, or no line of a result")
            if type(line) is dict and "injected" in line:
                self.summary = text.strip()
            elif type(line) is dict and all(type(line.get(name)) is kind for name, kind in MEMBERS.items()):
                self.take(number, line)
            elif type(line) is not dict or "do" not in line:
                sys.exit(f"line {number} is no line of a result")
        self.judge()

    def take(self, number: int, line: dict) -> None:
        """Takes in one line of a stream."""
        key, end, value = line["key"], line["ts"], line["value"]
        if line["stream"] == self.stream:
            if value < 0:
                sys.exit(f"line {number} has the value {value}: this picture is of counts, which are not below 0")
            if end in self.windows.setdefault(key, {}):
                sys.exit(f"line {number} is the second of the key {key} at {end}: lines of --live go through `millwheel collect` first")
            self.windows[key][end] = value
        elif line["stream"] == self.spikes:
            # A spike comes one microsecond behind the end of its window.
            self.red.setdefault(key, set()).add(end - 1)

    def judge(self) -> None:
        """Refuses what would be an empty picture, or one that leaves a spike out."""
        if not self.windows:
            sys.exit(f"no line of the stream {self.stream}")
        for key, ends in self.red.items():
            for end in sorted(ends - set(self.windows.get(key, ()))):
                sys.exit(f"a spike of the key {key} stands at {end + 1}, and the stream {self.stream} has no line of it at {end}")


class Scale:
    """Where a time stands from left to right: from the beginning of the first window to the end of the last."""

    def __init__(self, result: Result):
        ends = sorted({end for windows in result.windows.values() for end in windows})
        # Where two windows stand side by side, the least way from one end to another is how long a window lasts.
        self.size = min((later - end for end, later in zip(ends, ends[1:])), default=1)
        self.first, self.last = ends[0] - self.size, ends[-1]

    def x(self, stamp: int) -> float:
        return LEFT + WIDTH * (stamp - self.first) / (self.last - self.first)

    def steps(self) -> range:
        """Some ten times, each at a window's end."""
        windows = (self.last - self.first) // self.size
        return range(self.first, self.last + 1, self.size * max(1, -(-windows // 12)))

    def told(self, stamp: int) -> str:
        """A time as the clock has it, where it is one since 1970 that can be meant; else the number itself."""
        if not 10**15 <= stamp < 10**16:
            return f"{stamp:,}"
        form = "%m-%d %H:%M" if self.last - self.first > 86_400_000_000 else "%H:%M" if self.size >= 60_000_000 else "%H:%M:%S"
        return time.strftime(form, time.gmtime(stamp // 1_000_000))


def row(key: str, top: int, windows: dict[int, int], red: set[int], scale: Scale) -> list[str]:
    """The bars of one key."""
    most, base = max(1, *windows.values()), top + ROW - 6
    parts = ['<text x="8" y="%d">%s</text>' % (base - 26, escape(key if len(key) < 21 else key[:19] + ".."))]
    parts.append('<text x="8" y="%d" class="small">most %s</text>' % (base - 10, f"{max(windows.values()):,}"))
    parts.append('<line x1="%d" y1="%d" x2="%d" y2="%d" class="axis"/>' % (LEFT, base, LEFT + WIDTH, base))
    width = max(scale.x(scale.first + scale.size) - LEFT - 1, 0.6)
    for end, value in sorted(windows.items()):
        left, high = scale.x(end - scale.size), BAR * value / most
        title = escape(f"{key}, up to {scale.told(end)}: {value}")
        where = (left, base - high, width, high, SPIKE if end in red else PLAIN, title)
        parts.append('<rect x="%.1f" y="%.1f" width="%.1f" height="%.1f" fill="%s"><title>%s</title></rect>' % where)
        if end in red:
            parts.append('<text x="%.1f" y="%.1f" class="red">%s: %s</text>' % (left, base - high - 3, scale.told(end), f"{value:,}"))
    return parts


def below(result: Result, shown: list[str], high: int, scale: Scale) -> list[str]:
    """The times below the rows, and the summary."""
    parts = []
    for stamp in scale.steps():
        parts.append('<text x="%d" y="%d" class="small" text-anchor="middle">%s</text>' % (scale.x(stamp), high + 14, scale.told(stamp)))
    told = result.summary or "no summary line: the text is a beginning"
    if len(shown) < len(result.windows):
        told = f"{len(shown)} of {len(result.windows):,} keys. {told}"
    parts.append('<text x="%d" y="%d" class="small">%s</text>' % (LEFT, high + 34, escape(told)))
    return parts


def draw(result: Result) -> str:
    """The whole picture."""
    by_sum = sorted(result.windows, key=lambda key: (-sum(result.windows[key].values()), key))
    shown, scale = sorted(by_sum[:ROWS]), Scale(result)
    high, width = ROW * len(shown), LEFT + WIDTH + 50
    head = '<svg xmlns="http://www.w3.org/2000/svg" width="%d" height="%d" viewBox="0 0 %d %d">' % (width, high + 44, width, high + 44)
    parts = [head, f"<style>{STYLE}</style>", '<rect width="100%" height="100%" fill="#fff"/>']
    for place, key in enumerate(shown):
        parts += row(key, ROW * place, result.windows[key], result.red.get(key, set()), scale)
    return "\n".join([*parts, *below(result, shown, high, scale), "</svg>\n"])


def main() -> None:
    words = sys.argv[1:]
    if words in (["--help"], ["-h"]):
        print(__doc__)
        return
    if not 1 <= len(words) <= 2 or any(it.startswith("-") for it in words):
        sys.exit("give the name of a stream, and of a stream of spikes where there is one: the text comes on standard input, and --help says more")
    result = Result(words[0], words[1] if words[1:] else None)
    result.read(sys.stdin)
    sys.stdout.write(draw(result))


if __name__ == "__main__":
    main()
