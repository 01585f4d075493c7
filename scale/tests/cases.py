"""Random topologies and event files, small and odd."""
import json
import random

KEYS = ["a", "b", "h/x", "h/y", "h", "x", "/x", "x/", "q/h/x", "h//y", "é/y", '"q"/x', "a\\b", "h/\u0001", "\x7f", "/", "//"]
# Lines that the program takes and that the script does not read by itself.
ODD = [
    b"", b" \t", b"\r", b'{"watermark":%d}', b'{"\\u0077atermark":%d}', b'{"watermark":%d,"key":7}',
    b'{"ts":%d,"key":"h/x"}', b'{"key":"h/x","ts":%d,"host":{"a":[1e999]}}'.replace(b"1e999", b"1.5"),
    b' {"key":"x","ts":%d} ', b'{"key":"\\u0061/x","ts":%d}\r', b'{"key":"a","key":"b","ts":%d}',
    b'{"key":"b","ts":%d,"value":-9223372036854775808}', b'{"key":"b","ts":%d,"value":9223372036854775807}',
]
# Lines that it refuses, by one rule or another.
BAD = [
    b"{", b"[1]", b"\r\r", b'{"key":"a"}', b'{"key":"","ts":1}', b'{"key":"a","ts":-1}', b'{"key":"a","ts":1.0}',
    b'{"key":"a","ts":-0}', b'{"key":"a","ts":true}', b'{"key":"a","ts":1,"value":1e2}', b'{"key":"a","ts":NaN}',
    b'{"key":"\\ud800","ts":1}', b'{"watermark":-1}', b'{"watermark":"1"}', b"\xff", b'{"key":"a","ts":1,"value":9223372036854775808}',
    b'{"key":"a","ts":1,"x":1e999}', b'{"key":"a","ts":4611686018427387905}',
]


def kind(rng: random.Random) -> dict:
    """A computation's kind with its numbers."""
    name = rng.choice(["count", "spike", "pass"])
    if name == "count":
        return {"kind": name, "size": rng.choice([1, 7, 60, 1 << 40])}
    if name == "spike":
        return {"kind": name, "last": rng.randrange(1, 5), "times": rng.randrange(1, 4)}
    return {"kind": name}


def weakened(rng: random.Random, computations: list[dict], one: dict) -> dict:
    """The same computation, or now and then a weak one, if it is a pass that is read."""
    is_read = any(read["stream"] == one["stream"] for other in computations for read in other["reads"])
    return {**one, "weak": True} if one["kind"] == "pass" and is_read and rng.random() < 0.5 else one


def topology(rng: random.Random) -> dict:
    """A topology of one to three injectors and up to four computations; most can be split by one cut."""
    injectors = [{"name": "i%d" % n, "stream": "s%d" % n} for n in range(rng.randrange(1, 4))]
    extractors = rng.choice([["key"], ["key", "head"], ["key", "tail"], ["head", "tail", "key"]])
    streams, computations = [one["stream"] for one in injectors], []
    for n in range(rng.randrange(5)):
        reads = [{"stream": rng.choice(streams), "by": rng.choice(extractors)} for _ in range(rng.randrange(1, 4))]
        computations.append({**kind(rng), "name": "c%d" % n, "stream": "t%d" % n, "reads": reads})
        streams.append("t%d" % n)
    return {"injectors": injectors, "computations": [weakened(rng, computations, one) for one in computations]}


def plain_line(rng: random.Random, now: int) -> bytes:
    """A record near this time, spelled in one way or another."""
    record = {"key": rng.choice(KEYS), "ts": max(0, now + rng.randrange(-40, 40))}
    if rng.random() < 0.5:
        record["value"] = rng.randrange(-9, 40)
    return json.dumps(record, ensure_ascii=rng.random() < 0.5, separators=(",", ":")).encode()


def events(rng: random.Random, lines: int, bad: float) -> bytes:
    """An event file of so many lines, and with this chance one line that the program refuses."""
    found, now = [], rng.choice([0, 1000, 1 << 60])
    for _ in range(lines):
        now += rng.choice([0, 0, 1, 3, 30])
        odd = rng.choice(ODD)
        stamp = now - rng.randrange(min(now, 60) + 1)
        found.append((odd % stamp if b"%d" in odd else odd) if rng.random() < 0.2 else plain_line(rng, now))
    if rng.random() < bad:
        found.insert(rng.randrange(len(found) + 1), rng.choice(BAD))
    return b"\n".join(found) + rng.choice([b"", b"\n"])
