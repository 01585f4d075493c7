"""How shards are split into runs, and how a text is put together."""
import json
import unittest

from on_dask import one_cut, one_part, result
from on_dask.members import Chunk, lines_of, member_line, parts_of
from on_dask.program import Limits

SMALL = Limits(lines=5, file_bytes=1 << 20)


def members(*pairs: tuple[str, int]) -> list[bytes]:
    return [member_line(b'"%s"' % key.encode(), stamp, 1) for key, stamp in pairs]


class OneCut(unittest.TestCase):
    def test_each_line_is_in_one_shard(self):
        timely, late = members(*((k, n) for n, k in enumerate("abcdefgh" * 4))), members(("a", 1), ("z", 2))
        routed = one_cut.route(1, "key", 4, Chunk(b"".join(timely), b"".join(late)))
        files = one_cut.files_of(2, routed)
        self.assertEqual([sorted(some) for some in files[1]], [sorted(timely), sorted(late)])
        self.assertEqual(files[0], ([], []))
        for key in (b'"a"', b'"h"'):
            self.assertEqual(len({shard for shard, _, *parts in routed for data in parts if key in data}), 1)

    def test_a_shard_is_cut_until_its_runs_fit(self):
        lines = members(*((k + "/%d" % n, n) for n, k in enumerate("abcdefgh" * 2)))
        runs = one_cut.runs_of("head", SMALL, [(lines[:9], []), ([], lines[9:])])
        self.assertEqual(sorted(line for run in runs for line in one_cut.all_lines(run)), sorted(lines))
        self.assertEqual(sorted(line for run in runs for line in run[0][0]), sorted(lines[:9]))
        heads = [{one_cut.cut_key("head", one_cut.key_of(line)) for line in one_cut.all_lines(run)} for run in runs]
        self.assertEqual(sum(map(len, heads)), 8)
        self.assertLessEqual(max(len(one_cut.all_lines(run)) for run in runs), 5)

    def test_one_value_that_is_too_much_is_told(self):
        lines = members(*(("h/%d" % n, n) for n in range(6)))
        self.assertIsNone(one_cut.runs_of("head", SMALL, [(lines, [])]))
        group = (0, [(0, 0, b"".join(lines), b"")])
        self.assertTrue(one_cut.run_shard("no program", {"injectors": [{}]}, "head", SMALL, group).hot)


class OnePart(unittest.TestCase):
    def test_a_window_is_in_one_shard(self):
        chunk = Chunk(b"".join(members(*(("h/%d" % (n % 3), n) for n in range(240)))))
        routed = one_part.route({"kind": "count", "size": 60}, ["head", "key"], 5, chunk)
        places = {}
        for shard, timely, _ in routed:
            for key, stamp, _ in map(parts_of, lines_of(timely)):
                places.setdefault((key, stamp // 60), set()).add(shard)
        self.assertEqual(sum(len(lines_of(timely)) for _, timely, _ in routed), 480)
        self.assertEqual({len(shards) for shards in places.values()}, {1})
        self.assertEqual(len(places), 16)

    def test_a_long_row_of_a_spike_is_cut_by_time(self):
        row = members(*(("a", stamp) for stamp in (9, 3, 1, 4, 5, 2, 6, 8, 7, 3)))
        runs = one_part.spike_runs(2, SMALL, row)
        stamps = [[parts_of(line)[1] for line in one.timely] for one in runs]
        self.assertEqual(stamps, [[1, 2, 3], [2, 3, 4, 5, 6], [5, 6, 7, 8, 9]])
        self.assertEqual([(one.added, one.twice) for one in runs], [(-1, 0), (2, 2), (2, 2)])

    def test_of_one_place_the_greatest_value_is_kept(self):
        lines = [member_line(b'"a"', 3, value) for value in (4, 9, -1)]
        self.assertEqual(one_part.greatest_by_place(lines), [lines[1]])

    def test_equal_windows_are_one(self):
        self.assertEqual(one_part.summed_windows([(b"a", 60, 2), (b"b", 60, 1), (b"a", 60, 3)]), [(b"a", 60, 5), (b"b", 60, 1)])


class Pieces(unittest.TestCase):
    def test_pieces_fit_and_are_all(self):
        lines = [b"x" * n + b"\n" for n in range(20)]
        for limits in (SMALL, Limits(100, 60)):
            pieces = limits.pieces(lines)
            self.assertEqual([line for some in pieces for line in some], lines)
            self.assertTrue(all(map(limits.hold, pieces)))
        self.assertEqual(SMALL.pieces([]), [])


class Text(unittest.TestCase):
    def test_lines_stand_by_the_bytes_of_their_keys(self):
        keys = [b'"\\u0001"', b'"\\n"', b'"!"', b'"\\""', b'"#"', b'"a"', b'"\\\\"', '"é"'.encode()]
        wanted = sorted(keys, key=lambda key: json.loads(key).encode())
        lines = [b'{"key":%s,"stream":"s","ts":7,"value":1}' % key for key in keys]
        self.assertEqual([result.row_parts(line).key for line in sorted(lines, key=result.order)], wanted)

    def test_numbers_stand_by_their_size(self):
        lines = [b'{"key":"a","stream":"s","ts":%d,"value":%d}' % pair for pair in ((9, -5), (9, 3), (10, 9), (10, 20))]
        self.assertEqual(sorted(reversed(lines), key=result.order), lines)

    def test_ranges_in_order_are_the_text(self):
        lines = [b'{"key":"a","stream":"%s","ts":%d,"value":1}' % (b"st"[n % 2 :][:1], n * 7 % 100) for n in range(100)]
        bounds = result.bounds_of(result.sample(lines), 7)
        parts = sorted(result.sorted_range((place, [(place, data)])) for place, data in result.by_range(bounds, lines))
        self.assertEqual(b"".join(data for _, data in parts).splitlines(), sorted(lines, key=result.order))
        self.assertGreater(len(parts), 3)
