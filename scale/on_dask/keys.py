"""How keys are split: what a reading takes of a key, and the cut by which a whole topology falls into shards.

Keys are spelled with their quotes. `/` is in no escape, so a key is split in its spelling as the program splits it.
"""
import hashlib


def extract(by: str, key: bytes) -> bytes:
    """What a reading by `key`, `head` or `tail` takes of a key: the whole where that part is empty."""
    head, slash, tail = key[1:-1].partition(b"/")
    part = {"key": b"", "head": head, "tail": tail}[by] if slash else b""
    return b'"%s"' % part if part else key


def cut_of(topology: dict) -> str | None:
    """What of a key is the same of the key and of all that the topology's readings take of it, or None.

    With `head` beside `key` that is the head. With `tail` it is what stands behind the last `/`, since the tail of a
    tail is another. With both nothing is.
    """
    taken = {read["by"] for computation in topology["computations"] for read in computation["reads"]}
    if {"head", "tail"} <= taken:
        return None
    return "head" if "head" in taken else "last" if "tail" in taken else "key"


def cut_key(cut: str, key: bytes) -> bytes:
    """What a cut takes of a key; by `last` it may be empty."""
    if cut == "last":
        return b'"' + key[1:].rpartition(b"/")[2]
    return extract(cut, key)


def number_of(data: bytes) -> int:
    """A number of these bytes, the same in each process; Python's own hash of bytes is not."""
    return int.from_bytes(hashlib.blake2b(data, digest_size=8).digest(), "big")
