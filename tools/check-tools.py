#!/usr/bin/env python3
"""Tries the scripts that show what the program wrote, where they could say what is not so: tools/check-tools.py [PROGRAM]

Rows that are none, texts that are cut off and names that are not there are to be refused, and a picture has to have
what its text has. With PROGRAM a run is kept, and the rows that are shown are held to its history.
"""
import importlib.util
import json
import os
import re
import sqlite3
import subprocess
import sys
import tempfile
import types
import unittest

# The scripts are read as modules, and leave nothing beside them.
sys.dont_write_bytecode = True

TOOLS = os.path.dirname(os.path.abspath(__file__))
EXAMPLES = f"{os.path.dirname(TOOLS)}/examples"
PROGRAM = os.path.abspath(sys.argv[1]) if sys.argv[1:] else None
# The rows that docs/FORMATS.md has byte by byte: an injector's, and a count's with one open window and its timer.
INJECTOR = bytes.fromhex("01000000000000000a00000000000000000000000003000000000000000000000000")
STATE = "01" "0000000000000000" "00000001" "000000000000003c" "0000000000000001"
TIMER = "00000001" "000000000000003c" "0000000000000000" "00"
COUNT = bytes.fromhex("01" "0000000000000003" "0000000000000000" + STATE + TIMER + "00000000" "00000000")
CLAIM = '{"do":"claim","interval":0,"n":0,"worker":0}\n'
INJECT = '{"do":"inject","key":"a","late":false,"line":0,"n":1,"part":0,"seq":0,"ts":10,"value":1}\n'


def module(script: str) -> types.ModuleType:
    """A script as a module, whose functions are called without a process of their own."""
    spec = importlib.util.spec_from_file_location(script.partition(".")[0], f"{TOOLS}/{script}")
    made = importlib.util.module_from_spec(spec)
    spec.loader.exec_module(made)
    return made


def run(script: str, *words: str, text: str = "") -> tuple[int, str, str]:
    """The status of a script, and what it writes to standard output and error."""
    ran = subprocess.run([f"{TOOLS}/{script}", *words], input=text, text=True, capture_output=True)
    return ran.returncode, ran.stdout, ran.stderr


def told(path: str) -> str:
    """What a file of the examples holds."""
    with open(f"{EXAMPLES}/{path}", encoding="utf-8") as it:
        return it.read()


class Tried(unittest.TestCase):
    """What each script is tried by."""

    def refused(self, why: str, script: str, *words: str, text: str = "") -> None:
        """A script says why it refuses its input, writes nothing else and ends with 1."""
        status, out, error = run(script, *words, text=text)
        self.assertEqual((status, out), (1, ""), f"{script} {words}: {error}")
        self.assertIn(why, error)
        self.assertNotIn("Traceback", error)


class Kept(Tried):
    """tools/show-kept.py"""

    def setUp(self) -> None:
        self.room = tempfile.TemporaryDirectory()
        self.addCleanup(self.room.cleanup)
        self.events = f"{self.room.name}/events"
        with open(self.events, "w") as out:
            out.write('{"key":"a","ts":1}\n\n{"watermark":60}\n{"key":"a","ts":2}\n{"key":"b","ts":3}')

    def file_of(self, *rows: tuple[int, bytes, bytes]) -> str:
        """A file with these rows."""
        path = f"{self.room.name}/rows"
        if os.path.exists(path):
            os.remove(path)
        base = sqlite3.connect(path)
        base.execute("create table rows(part integer not null, key blob not null, bytes blob not null, primary key (part, key)) strict")
        base.executemany("insert into rows values (?, ?, ?)", rows)
        base.commit()
        base.close()
        return path

    def shown(self, *words: str) -> list[dict]:
        status, out, error = run("show-kept.py", *words)
        self.assertEqual((status, error), (0, ""))
        return [json.loads(line) for line in out.splitlines()]

    def test_rows_are_shown_as_the_page_has_them(self) -> None:
        injector, count, last = self.shown(self.file_of((0, b"", INJECTOR), (1, b"a", COUNT)))
        self.assertEqual((injector["last"], injector["state"]), (10, {"kind": "injector", "injected": 3}))
        self.assertEqual(count["state"], {"kind": "count", "late": 0, "windows": [{"ts": 60, "value": 1}]})
        self.assertEqual(count["timers"], [{"time": 60, "tag": 0, "late": False}])
        self.assertEqual((last["rows"], last["injected"], last["timers"], last["run"]), (2, [3], 1, "a beginning"))

    def test_a_run_is_whole_by_its_files_alone(self) -> None:
        ended = self.file_of((0, b"", INJECTOR))
        self.assertEqual(self.shown(ended)[-1]["run"], "unknown: name its event files")
        self.assertEqual(self.shown(ended, self.events)[-1]["run"], "whole")
        self.assertEqual(self.shown(ended, "/dev/null")[-1]["run"], "a beginning")
        self.assertEqual(self.shown(ended, self.events, self.events)[-1]["run"], "a beginning")

    def test_bytes_that_are_no_row_are_refused(self) -> None:
        wrong = [COUNT[:size] for size in range(len(COUNT))] + [COUNT + b"\0", b"\2" + COUNT[1:]]
        wrong.append(COUNT[: 17 + 29 + 4 + 16] + b"\2" + COUNT[17 + 29 + 4 + 17 :])
        kept = module("show-kept.py")
        for data in wrong:
            with self.assertRaises(kept.NoRow):
                kept.row_of(data)
        self.refused("the row of part 1 and key b'a' is none: it is cut off", "show-kept.py", self.file_of((1, b"a", COUNT[:-1])))

    def test_what_is_no_kept_file_is_refused(self) -> None:
        self.refused("is no file of --keep", "show-kept.py", self.events)
        self.refused("No such file", "show-kept.py", f"{self.room.name}/missing")
        self.refused("name a file of --keep", "show-kept.py")

    @unittest.skipUnless(PROGRAM, "no program is named")
    def test_the_rows_of_a_run_are_those_of_its_history(self) -> None:
        job = [f"{EXAMPLES}/requests/{it}" for it in ("topology.json", "front1.jsonl", "front2.jsonl")]
        path = f"{self.room.name}/kept"
        text = subprocess.run([PROGRAM, "solo", "--history", "--keep", path, *job], text=True, capture_output=True, check=True).stdout
        entries = [json.loads(line) for line in text.splitlines() if line.startswith('{"do"')]
        last = {(it["part"], it.get("row", "")): it["n"] for it in entries if "part" in it}
        *rows, end = self.shown(path, *job[1:])
        self.assertEqual({(row["part"], row["key"]): row["last"] for row in rows}, last)
        self.assertEqual((end["injected"], end["run"]), ([257, 261], "whole"))


class Drawn(Tried):
    """tools/draw-result.py and tools/draw-history.py"""

    def test_each_window_has_its_bar_and_each_spike_is_red(self) -> None:
        text = told("requests/expected.jsonl")
        status, out, _ = run("draw-result.py", "requests_per_minute", "spikes", text=text)
        bars = re.findall(r'<rect [^>]*height="([\d.]+)" fill="(#\w+)"><title>(\w+), up to ([\d:]+): (\d+)</title>', out)
        wanted = {(line["key"], line["ts"]): line["value"] for line in map(json.loads, text.splitlines()) if line.get("stream") == "requests_per_minute"}
        most = {key: max(value for (of, _), value in wanted.items() if of == key) for key, _ in wanted}
        self.assertEqual((status, len(bars)), (0, len(wanted)))
        self.assertEqual(sorted(int(value) for *_, value in bars), sorted(wanted.values()))
        for high, _, key, _, value in bars:
            self.assertAlmostEqual(float(high), 70 * int(value) / most[key], delta=0.06)
        self.assertEqual([bar[2:] for bar in bars if bar[1] == "#d62728"], [("api", "10:09", "120")])

    def test_a_result_that_would_be_drawn_wrong_is_refused(self) -> None:
        line = '{"key":"a","stream":"s","ts":60,"value":2}\n'
        for why, text in {
            "no line of the stream s": '{"fired":0,"handled":0,"injected":0,"late":0}\n',
            "is cut off": line + '{"key":"a","str',
            "is the second of the key a at 60": line + line,
            "below 0": line.replace("2", "-2"),
            "a spike of the key a stands at 71": line + line.replace('"s"', '"t"').replace("60", "71"),
            "line 1 is no line of a result": "3\n",
        }.items():
            self.refused(why, "draw-result.py", "s", "t", text=text)
        self.assertIn("no summary line", run("draw-result.py", "s", text=line)[1])

    def test_what_is_no_history_is_refused(self) -> None:
        for why, text in {
            "no entry in the input": told("expected.jsonl"),
            "line 2 is cut off": CLAIM + INJECT[:40],
            "entry 2, where entry 1 comes next": CLAIM + INJECT.replace('"n":1', '"n":2'),
            "line 2 is no entry": CLAIM + INJECT.replace('"ts":10,', ""),
            "which is no claim": CLAIM + INJECT.replace('"seq":0', '"seq":1'),
        }.items():
            self.refused(why, "draw-history.py", text=text)
        self.refused("no argument trace is known", "draw-history.py", "trace", text=CLAIM)
        self.refused("no topology in", "draw-history.py", "--topology", f"{EXAMPLES}/e", text=CLAIM)
        other = CLAIM.replace('"interval":0', '"interval":9')
        self.refused("of another topology", "draw-history.py", "--topology", f"{EXAMPLES}/t.json", text=other)

    def test_help_is_no_refusal(self) -> None:
        for script in ("draw-history.py", "draw-result.py", "show-kept.py", "check-pages.py"):
            status, out, error = run(script, "--help")
            self.assertEqual((status, error), (0, ""))
            self.assertIn(script, out)

    def test_times_have_a_dot_each(self) -> None:
        late = INJECT.replace('"n":1', '"n":2').replace("false", "true").replace('"ts":10', '"ts":5')
        status, out, _ = run("draw-history.py", "--progress", text=CLAIM + INJECT + late)
        dots = dict(re.findall(r'<path d="([^"]*)" stroke="(#\w+)"', out))
        self.assertEqual((status, sorted(dots.values())), (0, ["#1f77b4", "#d62728"]))
        self.assertEqual([way.count("M") for way in dots], [1, 1])


class Pages(Tried):
    """tools/check-pages.py"""

    # Of each kind of name one that is there, and one that is not; a page's links begin at the page, here at the top.
    NAMES = {
        "[a](TOP/docs/GATE.md)": "[a](TOP/docs/GATES.md)",
        "[a](TOP/docs/GATE.md#what-the-gate-costs)": "[a](TOP/docs/GATE.md#what-it-costs)",
        "`crates/book/src/desk.rt`": "`crates/book/src/desks.rt`",
        "`tools/measure.py PROGRAM ..`": "`tools/measures.py PROGRAM ..`",
        "`book::Book::claim`": "`book::Book::claims`",
        "`mw_ports::write_all`": "`mw_ports::write_most`",
        "`IsLegal`": "`IsLegalised`",
        "`book::DeskRefusal::Busy`": "`book::DeskRefusal::Busier`",
        "The clause `full` of `book::Book::claim`.": "The clause `fuller` of `book::Book::claim`.",
        "|Call|Clause|\n|-|-|\n|`book::Book::claim`|`full`|": "|Call|Clause|\n|-|-|\n|`book::Book::claim`|`fuller`|",
        "|Clause of `write_all`|\n|-|\n|`whole`|": "|Clause of `write_all`|\n|-|\n|`full`|",
        "|Wrong body|\n|-|\n|`always_read_fault`|": "|Wrong body|\n|-|\n|*`always_read_fault`*|",
    }

    def tried(self, text: str) -> list[str]:
        """What the check says of a page of this text."""
        with tempfile.NamedTemporaryFile("w", suffix=".md") as page:
            page.write(text.replace("TOP", os.path.dirname(TOOLS)))
            page.flush()
            return [why for _, why in self.check.wrong_in(page.name)]

    def setUp(self) -> None:
        self.check = module("check-pages.py")

    def test_a_name_that_is_there_is_not_told_and_another_is(self) -> None:
        for right, wrong in self.NAMES.items():
            self.assertEqual(self.tried(right + "\n"), [])
            self.assertEqual(len(set(self.tried(wrong + "\n"))), 1, wrong)

    def test_numbers_of_lines_are_counted(self) -> None:
        with open(__file__, encoding="utf-8") as own:
            many = len(own.readlines())
        self.assertEqual(self.tried(f"`tools/check-tools.py` ({many} lines)\n"), [])
        self.assertEqual(len(self.tried(f"`tools/check-tools.py` ({many + 1} lines)\n")), 1)
        self.assertEqual(len(self.tried(f"Of the {many + 1} lines of `tools/check-tools.py`\n")), 1)


if __name__ == "__main__":
    unittest.main(argv=sys.argv[:1], verbosity=0)
