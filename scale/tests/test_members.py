"""The event file that a run gets."""
import json
import unittest

from on_dask.members import MEMBER, Numbers, event_file, lines_of, member_line, parts_of


def late_lines(file: bytes) -> tuple[list[bytes], list[bytes]]:
    """The record lines in time and the late ones, by what the file states above each."""
    mark, found = 0, ([], [])
    for line in lines_of(file):
        told = json.loads(line)
        if "watermark" in told:
            mark = max(mark, told["watermark"])
        else:
            found[told["ts"] < mark].append(line)
    return found


class Members(unittest.TestCase):
    def test_exactly_the_late_ones_are_late(self):
        stamps = ([], [5], [9, 3, 3, 7], list(range(300, 0, -1)), [1 << 62] * 3)
        for timely in stamps:
            for late in stamps[:4]:
                given = [[member_line(b'"a"', stamp, 1) for stamp in some] for some in (timely, late)]
                found = late_lines(event_file(*given))
                self.assertEqual([sorted(some) for some in found], [sorted(some) for some in given])

    def test_a_member_is_what_was_spelled(self):
        for key in (b'"a"', b'"\\"q\\"/x"', '"é"'.encode(), b'"}\\n"'):
            self.assertEqual(parts_of(member_line(key, 7, -8)), (key, 7, -8))
            self.assertTrue(MEMBER.fullmatch(member_line(key, 7, -8)))

    def test_a_summary_adds_each_number_to_its_own(self):
        self.assertEqual((Numbers(1, 2, 3, 4) + Numbers(10, 20, 30, 40)).line(),
                         b'{"fired":44,"handled":33,"injected":11,"late":22}\n')
