#!/usr/bin/python3
"""Makes each wrong edit of the table below in a copy, and sees that its test fails there: MILLWHEEL=PROGRAM ./wrong_edits.py

An edit that no test finds is told, and one whose text is no longer there too.
"""
import os
import shutil
import subprocess
import sys
import tempfile

HERE = os.path.dirname(os.path.dirname(os.path.abspath(__file__)))
BESIDE = "tests.test_beside_solo.BesideSolo."
# What the wrong script does: file, text, what stands there instead, and the test that finds it.
EDITS = {
    "a watermark counts from its own block on": (
        "job", "(one.mark for one in scans), max, initial=0", "(0 for one in scans), max, initial=0",
        BESIDE + "test_random_topologies"),
    "a watermark may fall": ("reading", 'mark = max(mark, found["watermark"])', 'mark = found["watermark"]',
                             "tests.test_reading"),
    "a record at the watermark is late": ("reading", "if stamp < mark", "if stamp <= mark", "tests.test_reading"),
    "a line is not shown to the program": ("reading", "if odd else None", "if not odd else None",
                                           BESIDE + "test_each_refused_line_has_its_place"),
    "a line ends with any number of carriage returns": (
        "reading", 'line[:-1] if line.endswith(b"\\r") else line for', 'line.rstrip(b"\\r") for',
        BESIDE + "test_each_refused_line_has_its_place"),
    "a file's lines are counted from its last block": (
        "job", "for one in scans[:place])", "for one in scans[place:])", BESIDE + "test_each_refused_line_has_its_place"),
    "late lines stand among the others": ("members", "timely + mark + late", "mark + timely + late", "tests.test_members"),
    "the last of the late lines is in time": ("members", "1 + max(map(stamp_of, late))", "max(map(stamp_of, late))",
                                              "tests.test_members"),
    "the extractor of a weak pass is kept": ("folding", '"by": read["by"]', '"by": one["by"]', "tests.test_folding"),
    "the tail is the cut": ("keys", 'rpartition(b"/")[2]', 'partition(b"/")[2]', "tests.test_keys"),
    "head and tail have a cut": ("keys", 'if {"head", "tail"} <= taken', "if not taken", "tests.test_keys"),
    "an empty part is taken": ("keys", "if part else key", "if slash else key", "tests.test_keys"),
    "a window falls into two shards": ("one_part", 'stamp // kind["size"])', "stamp)", "tests.test_splits"),
    "a reading is left out": ("one_part", "for by in extractors:", "for by in extractors[:1]:", "tests.test_splits"),
    "a spike does not look back": ("one_part", "kept[max(0, start - last) : start]", "kept[start:start]",
                                   "tests.test_splits"),
    "of one place any value is kept": ("one_part", "or value > places[stamp][0]", "or value < places[stamp][0]",
                                       "tests.test_splits"),
    "equal windows are two lines": ("one_part", "windows.get((key, stamp), 0) + value", "value", "tests.test_splits"),
    "summed windows are fired twice": ("one_part", "numbers.fired -= len(rows) - len(summed)", "pass",
                                       BESIDE + "test_a_hot_value_is_seen_before_its_cut"),
    "late members of a pass are in time": ("one_part", "b\"\".join(found[b\"late\"]))", "b\"\")",
                                           BESIDE + "test_random_topologies"),
    "a stream is let go too early": ("job", "if not left[name]:", "if left[name]:",
                                     BESIDE + "test_shards_are_a_matter_of_memory_alone"),
    "keys stand by their spelling": ("result", "if b\"\\\\\" in row.key", "if not row.key", "tests.test_splits"),
    "values stand as texts": ("result", "key, row.value\n", "key, b\"%d\" % row.value\n", "tests.test_splits"),
    "ranges are cut apart from their order": ("result", "bisect.bisect_right(bounds, place_of(line))", "len(line) % 3",
                                              "tests.test_splits"),
    "late lines are no part of the summary": ("members", "self.injected, self.late)", "self.injected, self.injected)",
                                              "tests.test_members"),
    "a hot value is tried by its cut": ("job", "if has_hot_piece(job, cluster, cut, injected):", "if False:",
                                        BESIDE + "test_a_hot_value_is_seen_before_its_cut"),
}


def answer_of(edit: tuple[str, str, str, str]) -> str:
    """What becomes of a wrong edit."""
    module, old, new, test = edit
    with tempfile.TemporaryDirectory() as folder:
        copy = shutil.copytree(HERE, os.path.join(folder, "scale"))
        name = os.path.join(copy, "on_dask", module + ".py")
        with open(name) as file:
            text = file.read()
        if text.count(old) != 1:
            return "its text stands there %d times" % text.count(old)
        with open(name, "w") as file:
            file.write(text.replace(old, new))
        words = ["/usr/bin/python3", "-W", "ignore", "-m", "unittest", test]
        done = subprocess.run(words, cwd=copy, capture_output=True, timeout=600)
        return "" if done.returncode else "no test finds it"


def main() -> int:
    missed = 0
    for name, edit in EDITS.items():
        answer = answer_of(edit)
        missed += bool(answer)
        print("%s: %s" % (name, answer or "found by " + edit[3].removeprefix(BESIDE)), flush=True)
    return 1 if missed else 0


if __name__ == "__main__":
    if not os.environ.get("MILLWHEEL"):
        sys.exit(__doc__)
    sys.exit(main())
