"""The program as the kernel of a task: what it is given, what it answers, and how much one run takes."""
import json
import os
import subprocess
import tempfile
from collections.abc import Iterable
from dataclasses import dataclass

# The program's mode by which each run is made. This is the one place that names it.
MODE = "plain"
# The statuses that are no fault of the input: the output, memory and a read. The engine tries again.
PASSING = (8, 9, 13)


class Refused(Exception):
    """What the program said of its input in place of a result, and the status with which it ended."""

    def __init__(self, said: str, status: int):
        super().__init__(said, status)
        self.said, self.status = said, status


class Failed(OSError):
    """A run that ended for another reason than its input."""


@dataclass(frozen=True)
class Limits:
    """What one run is given at most: record lines, and their bytes; below the program's own limits, so that there is
    room for a watermark line in each file."""

    lines: int = 250_000
    file_bytes: int = 30 << 20

    def hold(self, lines: list[bytes]) -> bool:
        """Whether one run may have these lines."""
        return len(lines) <= self.lines and sum(map(len, lines)) <= self.file_bytes

    def packed(self, groups: Iterable[list[bytes]]) -> list[list[bytes]]:
        """The lines of these groups, each group whole and in its order, as few runs as they fill one after the other;
        a group that is too long is a run of its own."""
        runs: list[list[bytes]] = []
        lines = size = 0
        for group in groups:
            cost = sum(map(len, group))
            if not runs or lines + len(group) > self.lines or size + cost > self.file_bytes:
                runs.append([])
                lines = size = 0
            runs[-1] += group
            lines += len(group)
            size += cost
        return runs

    def pieces(self, lines: list[bytes]) -> list[list[bytes]]:
        """The lines in pieces that one run may have, in their order."""
        return self.packed([line] for line in lines)


@dataclass(frozen=True)
class Answer:
    """The result lines of one run, and the four numbers of its summary."""

    lines: list[bytes]
    summary: dict[str, int]


def command(program: str, topology: str, events: list[str]) -> list[str]:
    """The words of one run."""
    return [program, MODE, topology, *events]


def words_said(text: bytes) -> str:
    """What a run said on standard error."""
    return text.decode(errors="replace").rstrip("\n")


def run(program: str, topology: dict, events: list[bytes]) -> Answer:
    """One run over these bytes, a file for each injector, in a folder that goes away."""
    with tempfile.TemporaryDirectory(prefix="millwheel-") as folder:
        names = []
        for number, data in enumerate([json.dumps(topology).encode(), *events]):
            names.append(os.path.join(folder, str(number)))
            with open(names[-1], "wb") as out:
                out.write(data)
        done = subprocess.run(command(program, names[0], names[1:]), capture_output=True)
    if done.returncode < 0 or done.returncode in PASSING:
        raise Failed("%s ended with %d: %s" % (program, done.returncode, words_said(done.stderr)))
    if done.returncode:
        raise Refused(words_said(done.stderr), done.returncode)
    lines = done.stdout.splitlines()
    return Answer(lines[:-1], json.loads(lines[-1]))


def try_topology(program: str, topology: str, files: int) -> None:
    """Shows the program the user's topology with so many empty event files; raises `Refused` in its words."""
    done = subprocess.run(command(program, topology, ["/dev/null"] * files), capture_output=True)
    if done.returncode:
        raise Refused(words_said(done.stderr), done.returncode)


def one_computation(kind: dict, names: list[str]) -> dict:
    """A topology with a computation of this kind for each name, each over an injector of its own, by `key`."""
    return {
        "injectors": [{"name": "i" + name, "stream": "s" + name} for name in names],
        "computations": [
            {**kind, "name": "c" + name, "stream": name, "reads": [{"stream": "s" + name, "by": "key"}]} for name in names
        ],
    }


def no_computation() -> dict:
    """A topology that only reads."""
    return {"injectors": [{"name": "i", "stream": "s"}], "computations": []}
