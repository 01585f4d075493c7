"""What readings and cuts take of keys."""
import unittest

from on_dask.keys import cut_key, cut_of, extract, number_of

# Of docs/FORMATS.md: a key, its head and its tail.
KEYS = [("a/b/c", "a", "b/c"), ("/x", "/x", "x"), ("x/", "x", "x/"), ("x", "x", "x"), ("/", "/", "/"), ("//", "//", "/")]


def spelled(key: str) -> bytes:
    return b'"%s"' % key.encode()


def reading(*extractors: str) -> dict:
    return {"computations": [{"reads": [{"stream": "s", "by": by} for by in extractors]}]}


class Keys(unittest.TestCase):
    def test_extractors_are_those_of_the_formats(self):
        for key, head, tail in KEYS:
            for by, wanted in (("key", key), ("head", head), ("tail", tail)):
                self.assertEqual(extract(by, spelled(key)), spelled(wanted))

    def test_a_cut_is_the_same_of_a_key_and_of_what_is_read(self):
        for extractors in (["key"], ["key", "head"], ["tail"], ["key", "tail"]):
            cut = cut_of(reading(*extractors))
            for key, _, _ in KEYS + [("a/b/c/d", "", ""), ("a//", "", ""), ("/a/", "", "")]:
                for by in extractors:
                    self.assertEqual(cut_key(cut, extract(by, spelled(key))), cut_key(cut, spelled(key)), (cut, by, key))

    def test_head_with_tail_has_no_cut(self):
        self.assertIsNone(cut_of(reading("head", "tail")))
        self.assertEqual(cut_of({"computations": []}), "key")

    def test_a_number_is_the_same_in_each_process(self):
        self.assertEqual(number_of(b"a"), 0x40F89E395B66422F)
        self.assertEqual(len({number_of(b"%d" % n) % 7 for n in range(100)}), 7)
