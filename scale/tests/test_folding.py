"""What is left of a topology without its weak computations."""
import unittest

from on_dask.folding import without_weak


def part(name: str, kind: str, *reads: tuple[str, str], **more: object) -> dict:
    """A computation that publishes its name."""
    return {"name": name, "kind": kind, **more, "stream": name, "reads": [{"stream": it, "by": by} for it, by in reads]}


def left_of(*computations: dict) -> list[dict]:
    """What is left of these computations."""
    return without_weak({"injectors": [], "computations": list(computations)})["computations"]


class Folding(unittest.TestCase):
    def test_the_extractor_of_the_reader_stays(self):
        near = part("near", "pass", ("raw", "tail"), weak=True)
        self.assertEqual(left_of(near, part("sums", "count", ("near", "head"))), [part("sums", "count", ("raw", "head"))])

    def test_what_a_weak_one_reads_stands_in_its_place(self):
        both = part("both", "pass", ("l", "key"), ("r", "head"), weak=True)
        far = part("far", "pass", ("both", "key"), ("l", "tail"), weak=True)
        sums = part("sums", "count", ("a", "key"), ("far", "head"), ("both", "tail"), ("b", "key"))
        wanted = [("a", "key"), ("l", "head"), ("r", "head"), ("l", "head"), ("l", "tail"), ("r", "tail"), ("b", "key")]
        self.assertEqual(left_of(both, far, sums), [part("sums", "count", *wanted)])

    def test_without_a_weak_one_all_is_left(self):
        copy = part("copy", "pass", ("raw", "tail"))
        self.assertEqual(left_of({**copy, "weak": False}, part("sums", "count", ("copy", "key"))),
                         [copy, part("sums", "count", ("copy", "key"))])
