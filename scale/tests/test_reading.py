"""What is read of a block; lines of other than the plain form are tried beside the program in `test_beside_solo`."""
import unittest
from itertools import accumulate

from on_dask.members import lines_of
from on_dask.reading import lines_to_read, members_of, scan

FILE = b"\n".join([
    b'{"key":"a","ts":10}', b"", b'{"watermark":60}', b'{"key":"a","ts":60,"value":-2}', b'{"watermark":40}', b" \t\r",
    b'{"key":"b","ts":59,"host":"x"}', b'{"\\u0077atermark":70}', b'{"key":"watermark","ts":69}\r', b'{"key":"c","ts":70}',
])


class Reading(unittest.TestCase):
    def test_late_is_what_is_below_a_watermark_above(self):
        chunk = members_of([line for _, line in lines_to_read(FILE)], 0)
        self.assertEqual(lines_of(chunk.timely), [
            b'{"ts":10,"value":1,"key":"a"}\n', b'{"ts":60,"value":-2,"key":"a"}\n', b'{"ts":70,"value":1,"key":"c"}\n'])
        self.assertEqual(lines_of(chunk.late), [b'{"ts":59,"value":1,"key":"b"}\n', b'{"ts":69,"value":1,"key":"watermark"}\n'])
        self.assertEqual((chunk.numbers.injected, chunk.numbers.late), (5, 2))

    def test_blocks_are_read_as_the_whole(self):
        whole = members_of([line for _, line in lines_to_read(FILE)], 0)
        lines = lines_of(FILE)
        for cut in range(len(lines) + 1):
            blocks = [b"".join(lines[:cut]), b"".join(lines[cut:])]
            marks = accumulate((scan(block).mark for block in blocks), max, initial=0)
            chunks = [members_of([line for _, line in lines_to_read(block)], mark) for block, mark in zip(blocks, marks)]
            self.assertEqual(b"".join(one.timely for one in chunks), whole.timely)
            self.assertEqual(b"".join(one.late for one in chunks), whole.late)
            self.assertEqual(sum(scan(block).lines for block in blocks), 10)

    def test_a_watermark_that_is_no_number_is_left_to_the_program(self):
        for line in (b'{"watermark":true}', b'{"watermark":"9"}', b'["watermark"]', b'{"watermark":', b"\xffwatermark"):
            self.assertEqual(scan(line).mark, 0)
