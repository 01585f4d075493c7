"""The text beside that of one run of the program, byte for byte: `MILLWHEEL=PROGRAM` names it, and `CASES` how many.

In one process with two threads, so a hundred small cases take a minute; `test_cluster` has processes.
"""
import glob
import json
import logging
import os
import random
import subprocess
import tempfile
import unittest

from distributed import Client, LocalCluster

from . import cases
from on_dask import one_cut
from on_dask.job import Job, run_job
from on_dask.keys import cut_of
from on_dask.members import event_file, member_line
from on_dask.program import Limits, Refused, run, try_topology

PROGRAM = os.environ.get("MILLWHEEL", "")
CASES = int(os.environ.get("CASES", "30"))


def by_head(kind: dict) -> dict:
    """A topology of one computation, read by the head of the key."""
    reads = [{"stream": "s", "by": "head"}]
    return {"injectors": [{"name": "i", "stream": "s"}], "computations": [{**kind, "name": "c", "stream": "t", "reads": reads}]}


COUNT, SPIKE = {"kind": "count", "size": 60}, {"kind": "spike", "last": 2, "times": 1}


@unittest.skipUnless(PROGRAM, "MILLWHEEL=PROGRAM names the program to compare with")
class BesideSolo(unittest.TestCase):
    @classmethod
    def setUpClass(cls):
        logging.getLogger("distributed").setLevel(logging.CRITICAL)
        how = {"n_workers": 1, "threads_per_worker": 2, "processes": False, "dashboard_address": None}
        cls.cluster = cls.enterClassContext(LocalCluster(**how))
        cls.client = cls.enterClassContext(Client(cls.cluster))

    def setUp(self):
        self.folder = self.enterContext(tempfile.TemporaryDirectory())

    def files(self, events: list[bytes]) -> list[str]:
        """Event files with these bytes."""
        names = [os.path.join(self.folder, "events%d" % number) for number in range(len(events))]
        for name, data in zip(names, events):
            with open(name, "wb") as out:
                out.write(data)
        return names

    def solo(self, topology: dict, names: list[str]) -> tuple[int, str, bytes]:
        """What one run of the program answers: status, what it said, and its text."""
        name = os.path.join(self.folder, "topology")
        with open(name, "w") as out:
            json.dump(topology, out)
        done = subprocess.run([PROGRAM, "solo", name, *names], capture_output=True)
        return done.returncode, done.stderr.decode().rstrip("\n"), done.stdout

    def split(self, topology: dict, names: list[str], **how) -> tuple[int, str, bytes]:
        """What the cluster answers."""
        with tempfile.TemporaryDirectory() as out:
            try:
                run_job(self.client, Job(PROGRAM, topology, names, out, **how))
            except Refused as refused:
                self.assertEqual(os.listdir(out), [])
                return refused.status, refused.said, b""
            text = b""
            for name in sorted(glob.glob(out + "/*")):
                with open(name, "rb") as data:
                    text += data.read()
            return 0, "", text

    def same(self, topology: dict, events: list[bytes], **how) -> bytes:
        """The text, which is the program's."""
        names = self.files(events)
        wanted = self.solo(topology, names)
        self.assertEqual(self.split(topology, names, **how), wanted, (topology, events, how))
        return wanted[2]

    def test_random_topologies(self):
        seen = {"one cut": 0, "parts": 0, "refused": 0}
        for number in range(CASES):
            rng = random.Random(number)
            topology = cases.topology(rng)
            events = [cases.events(rng, rng.choice([0, 3, 30, 90]), 0.1) for _ in topology["injectors"]]
            how = {"by_parts": rng.random() < 0.4, "block": rng.choice([200, 1000, 1 << 20]), "shard": rng.choice([20, 60, 1000])}
            how["limits"] = rng.choice([Limits(), Limits(lines=20), Limits(lines=70, file_bytes=9000)])
            text = self.same(topology, events, **how)
            way = "refused" if not text else "parts" if how["by_parts"] or not cut_of(topology) else "one cut"
            seen[way] += 1
        if CASES >= 30:
            self.assertGreater(min(seen.values()), 0, seen)

    def test_each_refused_line_has_its_place(self):
        good = b"".join(b'{"key":"a","ts":%d}\n' % n for n in range(30))
        for bad in cases.BAD:
            for place in (0, 17, 30):
                lines = good.splitlines()
                events = b"\n".join(lines[:place] + [bad] + lines[place:])
                names = self.files([good, events])
                topology = {**by_head(COUNT), "injectors": [{"name": "h", "stream": "r"}, {"name": "i", "stream": "s"}]}
                wanted = self.solo(topology, names)
                self.assertEqual(wanted[0], 5, bad)
                self.assertIn("file 1 line %d: " % (place + 1), wanted[1])
                self.assertEqual(self.split(topology, names, block=100), wanted)

    def test_files_that_can_not_be_read(self):
        for name in ("no such file", self.folder, ""):
            self.assertEqual(self.split(by_head(COUNT), [name]), self.solo(by_head(COUNT), [name]), name)
        for name in ("/dev/stdin", "a*"):
            self.assertEqual(self.split(by_head(COUNT), [name])[0], 1)

    def test_topologies_that_are_refused(self):
        unknown = by_head(COUNT)
        unknown["computations"][0]["reads"][0]["stream"] = "later"
        for topology, files in ((unknown, 1), (by_head(COUNT), 2), (by_head({"kind": "sum"}), 1)):
            wanted = self.solo(topology, ["/dev/null"] * files)
            with self.assertRaises(Refused) as seen:
                try_topology(PROGRAM, os.path.join(self.folder, "topology"), files)
            self.assertEqual((seen.exception.status, seen.exception.said), wanted[:2])

    def test_a_hot_value_is_seen_before_its_cut(self):
        events = b"".join(b'{"key":"h/%d","ts":%d,"value":%d}\n' % (n, n * 7 % 300, n * n % 41) for n in range(200))
        routed, routes = [], one_cut.route
        one_cut.route = lambda *arguments: routed.append(1) or routes(*arguments)
        try:
            for kind in (COUNT, SPIKE):
                for block in (500, 1 << 20):
                    self.same(by_head(kind), [events], limits=Limits(lines=50), block=block)
            self.assertFalse(routed)
            self.same(by_head(COUNT), [events], limits=Limits(lines=200))
            self.assertTrue(routed)
        finally:
            one_cut.route = routes

    def test_a_shard_whose_bytes_are_too_many_goes_part_by_part(self):
        events = b"".join(b'{"key":"h/%d","ts":%d}\n' % (n, n) for n in range(200))
        self.same(by_head(COUNT), [events], limits=Limits(file_bytes=3000))

    def test_shards_are_a_matter_of_memory_alone(self):
        rng = random.Random(7)
        topology = {"injectors": [{"name": "i", "stream": "s"}], "computations": [
            {"name": "p", "kind": "pass", "reads": [{"stream": "s", "by": "key"}], "stream": "again"},
            {**COUNT, "name": "c", "reads": [{"stream": "again", "by": "head"}, {"stream": "s", "by": "key"}], "stream": "windows"},
            {**SPIKE, "name": "d", "reads": [{"stream": "windows", "by": "key"}, {"stream": "s", "by": "key"}], "stream": "alerts"}]}
        events = cases.events(rng, 300, 0)
        for shard in (60, 10_000):
            for by_parts in (False, True):
                self.same(topology, [events], shard=shard, by_parts=by_parts, block=3000)

    def test_a_run_that_fails_in_passing_is_tried_again(self):
        flaky = os.path.join(self.folder, "flaky")
        with open(flaky, "w") as out:
            out.write('#!/bin/sh\nmkdir "$0.1" 2> /dev/null && exit 9\nmkdir "$0.2" 2> /dev/null && exit 9\n')
            out.write('exec "%s" "$@"\n' % PROGRAM)
        os.chmod(flaky, 0o755)
        names = self.files([b'{"key":"a","ts":1}\n'])
        with tempfile.TemporaryDirectory() as out:
            run_job(self.client, Job(flaky, by_head(COUNT), names, out))
            with open(os.path.join(out, "000000.jsonl"), "rb") as text:
                self.assertIn(text.read(), self.solo(by_head(COUNT), names)[2])
        self.assertTrue(os.path.isdir(flaky + ".2"))

    def test_a_run_that_always_fails_ends_the_job(self):
        with tempfile.TemporaryDirectory() as out:
            with self.assertRaises(OSError):
                run_job(self.client, Job("/bin/false.not", by_head(COUNT), self.files([b'{"key":"a","ts":1}\n']), out))
            self.assertEqual(os.listdir(out), [])

    def test_a_timestamp_between_parts_that_no_file_may_have_ends_the_job(self):
        topology = by_head({"kind": "count", "size": 60})
        topology["computations"].append({**SPIKE, "name": "d", "reads": [{"stream": "t", "by": "tail"}], "stream": "u"})
        names = self.files([b'{"key":"a","ts":%d}\n' % (1 << 62)])
        self.assertEqual(self.solo(topology, names)[0], 0)
        status, said, text = self.split(topology, names)
        self.assertEqual((status, text), (5, b""))
        self.assertIn("BadStamp", said)

    def test_the_program_finds_late_what_the_file_has_as_late(self):
        lines = [[member_line(b'"a"', stamp, 1) for stamp in some] for some in ([60, 59, 200], [59, 199, 0])]
        self.assertEqual(run(PROGRAM, by_head(COUNT), [event_file(*lines)]).summary["late"], 3)
