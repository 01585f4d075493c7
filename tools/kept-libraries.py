#!/usr/bin/env python3
"""Builds the libraries of a clone, several at a time, and gives a clone those of the same sources that are there already.

    tools/kept-libraries.py build CLONE [--at-once N] [CRATE ..]
    tools/kept-libraries.py give FROM TO [CRATE ..]
    tools/kept-libraries.py take CLONE

`rt check` of a crate wants the library of each crate below, and builds one after the other what is not there. `build`
proves and builds those of CLONE beforehand, the lowest first and N at a time (by itself as many as processors and memory
allow), or only those that the crates named stand on, with these. What is built already stays. A line tells each that is
done, and `crates/NAME/out/library.log` has what was said.

`give` copies to the clone TO the libraries of FROM, where by rt's own reckoning the crate's sources, those of all below
it and the toolchain are the same. Where crates are named it copies what they stand on, and of themselves also what a
check left, with which the next check of them begins. All libraries take some four GB. So a new clone begins to prove a
crate where another stands:

    git clone -q main other && main/tools/kept-libraries.py give main other book

`rt ci` takes nothing from these libraries: it proves all from nothing. What it proved it keeps on this machine, the
libraries too, and `take` gives a clone those of its sources, each where all below it are there. So what the gate has
proved is proved once and not twice:

    RT_JOBS=3 rt ci node && tools/kept-libraries.py take ../other && cd ../other/crates/node && rt check
"""
import importlib.machinery
import importlib.util
import os
import shutil
import subprocess
import sys
import threading
import time
import types
from concurrent.futures import FIRST_COMPLETED, Future, ThreadPoolExecutor, wait

# The toolchain's own account of crates, which lies beside `rt`.
sys.dont_write_bytecode = True
sys.path.insert(0, os.path.dirname(os.path.realpath(shutil.which("rt") or sys.exit("no rt is installed"))))
import rtlib  # noqa: E402

# What the largest libraries take of memory while they are proved, in kB.
LARGEST = 6_500_000
STAMP = "out/rlib/stamp"
# Under what sum `rt ci` keeps the library that was taken.
TAKEN = "out/rlib/taken"
READ = threading.local()
STAMP_OF = rtlib.Crate.stamp


def stamp_once(crate: rtlib.Crate) -> str:
    """The sum over a crate's sources and those of all below it, for which each file is read once and not once a path."""
    known = getattr(READ, "known", None)
    if known is None:
        READ.known = {}
        try:
            return STAMP_OF(crate)
        finally:
            READ.known = None
    if crate.folder not in known:
        known[crate.folder] = STAMP_OF(crate)
    return known[crate.folder]


def libraries(clone: str) -> list[rtlib.Crate]:
    """The crates of a clone that others stand on, lowest first."""
    crates = rtlib.crates_below(os.path.abspath(clone))
    if not crates:
        sys.exit(f"{clone} has no crates")
    used = {below.folder for crate in crates for below in crate.below()}
    return [crate for crate in crates if crate.folder in used]


def chains(crates: list[rtlib.Crate]) -> dict[str, int]:
    """Of each crate the lines of the longest chain of crates that begins with it and goes up."""
    found: dict[str, int] = {}
    for crate in reversed(crates):
        files = [it for it in rtlib.files_of(crate.folder) if it.endswith((".rt", ".antt"))]
        lines = sum((rtlib.text_of(it) or "").count("\n") for it in files)
        above = [found[it.name] for it in crates if crate in it.deps]
        found[crate.name] = lines + max(above, default=0)
    return found


def at_once() -> int:
    """How many libraries processors and memory allow at a time."""
    with open("/proc/meminfo") as told:
        memory = int(told.readline().split()[1])
    return max(1, min(len(os.sched_getaffinity(0)), memory // LARGEST))


def build_one(crate: rtlib.Crate) -> int:
    """Builds one library, and puts what is said into its log. The answer is the status."""
    os.makedirs(f"{crate.folder}/out", exist_ok=True)
    held = rtlib.lock([crate])
    try:
        with open(f"{crate.folder}/out/library.log", "w") as crate.out:
            return crate.build_rlib(["--jobs", "1"], anew=False)
    finally:
        for it in held:
            os.close(it)


class Build:
    """A build of many libraries: which wait, which run, which are there and which can't be."""

    def __init__(self, crates: list[rtlib.Crate]):
        self.waiting, self.begun = crates, time.time()
        self.running: dict[Future, tuple[rtlib.Crate, float]] = {}
        self.built: set[str] = set()
        self.failed: set[str] = set()

    def say(self, crate: rtlib.Crate, what: str) -> None:
        print(f"{time.time() - self.begun:6.0f} s  {crate.name}: {what}", flush=True)

    def leave_out(self) -> None:
        """Leaves out what stands on a library that did not build."""
        for crate in [it for it in self.waiting if any(below.name in self.failed for below in it.below())]:
            self.waiting.remove(crate)
            self.failed.add(crate.name)
            self.say(crate, "left out, since one below did not build")

    def begin(self, pool: ThreadPoolExecutor, most: int) -> None:
        """Begins what can be built now."""
        for crate in [it for it in self.waiting if all(below.name in self.built for below in it.below())]:
            if crate.is_built():
                self.waiting.remove(crate)
                self.built.add(crate.name)
            elif len(self.running) < most:
                self.waiting.remove(crate)
                self.running[pool.submit(build_one, crate)] = (crate, time.time())

    def end(self) -> None:
        """Awaits the next that is done."""
        for done in wait(self.running, return_when=FIRST_COMPLETED).done:
            crate, begun = self.running.pop(done)
            status = done.result()
            (self.failed if status else self.built).add(crate.name)
            self.say(crate, f"{crate.folder}/out/library.log says why not" if status else f"built in {time.time() - begun:.0f} s")

    def run(self, most: int) -> int:
        """Builds all, and answers the status."""
        with ThreadPoolExecutor(most) as pool:
            while self.waiting or self.running:
                self.leave_out()
                self.begin(pool, most)
                if self.running:
                    self.end()
        return 1 if self.failed else 0


def build(clone: str, words: list[str]) -> int:
    """Builds the libraries of a clone that these words ask for."""
    most = at_once()
    if words[:1] == ["--at-once"] and words[1:]:
        most, words = max(1, int(words[1])), words[2:]
    crates = libraries(clone)
    if unknown := set(words) - {crate.name for crate in crates}:
        sys.exit(f"nothing stands on {', '.join(sorted(unknown))}, or there is no such crate")
    if words:
        wanted = {it.name for crate in crates if crate.name in words for it in [crate, *crate.below()]}
        crates = [crate for crate in crates if crate.name in wanted]
    chain = chains(crates)
    # What the threads start ends when this does.
    rtlib.guarded()
    return Build(sorted(crates, key=lambda crate: -chain[crate.name])).run(most)


def give_one(source: str, to: str, stamp: str) -> bool:
    """Copies a folder with a library to another's place; not where the disk is full, or where it was built anew meanwhile."""
    part = to + ".part"
    shutil.rmtree(part, ignore_errors=True)
    os.makedirs(os.path.dirname(part), exist_ok=True)
    copied = subprocess.run(["cp", "-a", "--reflink=auto", source, part], stderr=subprocess.DEVNULL).returncode == 0
    is_same = copied and stamp in (rtlib.text_of(f"{part}/stamp"), rtlib.text_of(f"{part}/rlib/stamp"))
    if is_same:
        shutil.rmtree(to, ignore_errors=True)
        os.rename(part, to)
    shutil.rmtree(part, ignore_errors=True)
    return is_same


def give(source: str, to: str, names: list[str]) -> int:
    """Copies the libraries of a clone that are those of another's sources, and tells which."""
    source, to = os.path.abspath(source), os.path.abspath(to)
    crates = rtlib.crates_below(to)
    if unknown := set(names) - {crate.name for crate in crates}:
        sys.exit(f"there is no crate {', '.join(sorted(unknown))} in {to}")
    named = [crate for crate in crates if crate.name in names]
    wanted = [below for crate in named for below in [*crate.below(), crate]] if names else libraries(to)
    tasks = {}
    for crate in wanted:
        stamp, there = crate.stamp(), f"{source}/{os.path.relpath(crate.folder, to)}"
        if rtlib.text_of(f"{there}/{STAMP}") == stamp != rtlib.text_of(f"{crate.folder}/{STAMP}"):
            inner = "out" if crate in named else "out/rlib"
            tasks[crate.name] = (f"{there}/{inner}", f"{crate.folder}/{inner}", stamp)
    held = rtlib.lock([crate for crate in wanted if crate.name in tasks])
    with ThreadPoolExecutor(len(os.sched_getaffinity(0))) as pool:
        given = dict(zip(tasks, pool.map(lambda it: give_one(*it), tasks.values())))
    for it in held:
        os.close(it)
    names = [name for name in given if given[name]]
    print(f"{len(names)} libraries given: {', '.join(names) or 'none'}")
    if lost := [name for name in given if not given[name]]:
        print(f"not copied whole, since the disk is full or they were built anew meanwhile: {', '.join(lost)}", file=sys.stderr)
    return 1 if lost else 0


def gate() -> types.ModuleType:
    """The toolchain's `rt`, which knows what `rt ci` kept on this machine."""
    loader = importlib.machinery.SourceFileLoader("rt_command", os.path.realpath(shutil.which("rt")))
    made = importlib.util.module_from_spec(importlib.util.spec_from_loader("rt_command", loader))
    sys.modules["rt_command"] = made
    loader.exec_module(made)
    return made


def take_one(kept: object, crate: rtlib.Crate) -> bool:
    """Gives a crate the library that `rt ci` kept of it over the libraries that are there, and tells whether it could."""
    key, stamp, room = kept.key(crate), crate.stamp(), f"{crate.folder}/out/rlib"
    if rtlib.text_of(f"{crate.folder}/{TAKEN}") != key or rtlib.text_of(f"{crate.folder}/{STAMP}") != stamp:
        if not os.path.isdir(kept.place(crate, False, key)):
            return False
        shutil.rmtree(room, ignore_errors=True)
        if not kept.give(crate, False, key):
            return False
        for name, text in ((TAKEN, key), (STAMP, stamp)):
            with open(f"{crate.folder}/{name}", "w", encoding="utf-8") as out:
                out.write(text)
    # The sum of those above reads this library.
    kept.is_built(crate)
    return True


def take(clone: str) -> int:
    """Gives a clone the libraries that `rt ci` kept of its sources, and tells which."""
    rt = gate()
    os.chdir(clone)
    rt.Crate.allowed = rt.handles_of(os.getcwd())
    crates = [crate for crate in rt.crates_of(os.getcwd()) if not crate.is_program]
    kept, there = rt.Kept(crates), []
    for crate in crates:
        if all(below.name in there for below in crate.below()) and take_one(kept, crate):
            there.append(crate.name)
    print(f"{len(there)} libraries are there: {', '.join(there) or 'none'}")
    print(f"not kept: {', '.join(crate.name for crate in crates if crate.name not in there) or 'none'}")
    return 0


def main() -> None:
    words = sys.argv[1:]
    rtlib.Crate.stamp = stamp_once
    if words == ["--help"]:
        print(__doc__)
    elif words[:1] == ["build"] and words[1:]:
        sys.exit(build(words[1], words[2:]))
    elif words[:1] == ["give"] and len(words) >= 3:
        sys.exit(give(words[1], words[2], words[3:]))
    elif words[:1] == ["take"] and len(words) == 2:
        sys.exit(take(words[1]))
    else:
        sys.exit(__doc__)


if __name__ == "__main__":
    main()
