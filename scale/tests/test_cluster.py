"""The script on clusters of processes: one of its own, one that runs elsewhere, and one that loses a worker.

`MILLWHEEL=PROGRAM` names the program. The workers work in an empty folder and know nothing of this repository.
"""
import os
import signal
import socket
import subprocess
import sys
import tempfile
import time
import unittest
from contextlib import ExitStack

PROGRAM = os.path.abspath(os.environ.get("MILLWHEEL", ""))
SCRIPT = os.path.join(os.path.dirname(os.path.dirname(os.path.abspath(__file__))), "millwheel-on-dask")
TOPOLOGY = (
    '{"injectors":[{"name":"i","stream":"s"}],"computations":['
    '{"name":"c","kind":"count","size":60,"reads":[{"stream":"s","by":"head"}],"stream":"windows"},'
    '{"name":"d","kind":"spike","last":2,"times":1,"reads":[{"stream":"windows","by":"key"},{"stream":"s","by":"key"}],'
    '"stream":"alerts"}]}'
)
LINES = 6000


def free_port() -> int:
    with socket.socket() as some:
        some.bind(("127.0.0.1", 0))
        return some.getsockname()[1]


@unittest.skipUnless(os.environ.get("MILLWHEEL"), "MILLWHEEL=PROGRAM names the program to compare with")
class OnClusters(unittest.TestCase):
    def setUp(self):
        self.folder = self.enterContext(tempfile.TemporaryDirectory())
        self.stack = self.enterContext(ExitStack())
        with open(self.at("topology"), "w") as out:
            out.write(TOPOLOGY)
        with open(self.at("events"), "w") as out:
            for n in range(LINES):
                out.write('{"key":"h%d/%d","ts":%d,"value":%d}\n' % (n % 23, n % 7, n + n * n % 50, n * 31 % 97))
                if n % 100 == 99:
                    out.write('{"watermark":%d}\n' % (n - 20))
        words = [PROGRAM, "solo", self.at("topology"), self.at("events")]
        self.wanted = subprocess.run(words, stdout=subprocess.PIPE, check=True).stdout

    def at(self, name: str) -> str:
        return os.path.join(self.folder, name)

    def words(self, *options: str, program: str = PROGRAM) -> list[str]:
        """The words of the script, for small shards."""
        sizes = ["--shard", "300", "--block", "20000"]
        return [SCRIPT, "--program", program, *sizes, *options, self.at("topology"), self.at("events")]

    def counting_program(self, runs: str) -> str:
        """A program that leaves a file in this folder for each run."""
        name = self.at("counting")
        with open(name, "w") as out:
            out.write('#!/bin/sh\ntouch "%s/$$"\nsleep 0.1\nexec "%s" "$@"\n' % (runs, PROGRAM))
        os.chmod(name, 0o755)
        os.mkdir(runs)
        return name

    def started(self, *words: str, log: str = "/dev/null") -> subprocess.Popen:
        """A process that ends with the test, in an empty folder of its own."""
        room = self.stack.enter_context(tempfile.TemporaryDirectory())
        out = self.stack.enter_context(open(log, "wb"))
        process = subprocess.Popen(words, cwd=room, stdout=out, stderr=out)
        self.stack.callback(process.wait)
        self.stack.callback(process.terminate)
        return process

    def wait_for(self, happened, seconds: float = 60) -> None:
        """Waits until something has happened."""
        until = time.monotonic() + seconds
        while not happened():
            self.assertLess(time.monotonic(), until)
            time.sleep(0.2)

    def cluster(self) -> list[str]:
        """Starts a scheduler; the words by which script and workers find it."""
        file = self.at("scheduler.json")
        port = str(free_port())
        module = [sys.executable, "-W", "ignore", "-m", "distributed.cli.dask_scheduler"]
        self.started(*module, "--port", port, "--no-dashboard", "--scheduler-file", file)
        self.wait_for(lambda: os.path.exists(file))
        return ["--scheduler-file", file]

    def worker(self, *words: str, log: str = "/dev/null") -> subprocess.Popen:
        """Starts a worker without a nanny, so that one that is killed stays away."""
        module = [sys.executable, "-W", "ignore", "-m", "distributed.cli.dask_worker"]
        return self.started(*module, *words, "--nthreads", "1", "--no-nanny", "--no-dashboard", log=log)

    def test_a_cluster_of_its_own(self):
        done = subprocess.run(self.words("--workers", "2"), capture_output=True, cwd="/", timeout=300)
        self.assertEqual((done.returncode, done.stdout), (0, self.wanted), done.stderr)

    def test_a_running_cluster_that_knows_no_code_of_ours(self):
        where = self.cluster()
        self.worker(*where)
        for _ in range(2):
            done = subprocess.run(self.words(*where), capture_output=True, timeout=300)
            self.assertEqual((done.returncode, done.stdout), (0, self.wanted), done.stderr)
        with open(self.at("events"), "a") as out:
            out.write('{"key":"","ts":1}\n')
        done = subprocess.run(self.words(*where), capture_output=True, timeout=300)
        said = b"millwheel: events refused: file 0 line %d: BadKey\n" % (LINES + LINES // 100 + 1)
        self.assertEqual((done.returncode, done.stdout, done.stderr), (5, b"", said))

    def test_a_killed_worker_changes_nothing(self):
        where = self.cluster()
        first, _ = self.worker(*where), self.worker(*where)
        folder, runs = self.at("out"), self.at("runs")
        words = self.words(*where, "--parts", "--out", folder, program=self.counting_program(runs))
        job = subprocess.Popen(words, stderr=subprocess.PIPE)
        self.stack.callback(job.wait)
        self.wait_for(lambda: len(os.listdir(runs)) >= 12)
        os.kill(first.pid, signal.SIGKILL)
        self.assertIsNone(job.poll())
        said = job.communicate(timeout=300)[1]
        self.assertEqual(job.returncode, 0, said)
        text = b""
        for name in sorted(os.listdir(folder)):
            with open(os.path.join(folder, name), "rb") as part:
                text += part.read()
        self.assertEqual(text, self.wanted)

    def test_a_folder_that_is_there_is_not_written_to(self):
        done = subprocess.run(self.words("--out", self.folder), capture_output=True, timeout=300)
        self.assertEqual((done.returncode, done.stdout), (1, b""))
        self.assertEqual(sorted(os.listdir(self.folder)), ["events", "topology"])
