#!/usr/bin/env python3
"""Runs the gate, and prints what each crate cost: processor minutes of its check, its tests and its edits.

    tools/gate-cost.py [rt ci's words]
    tools/gate-cost.py --of PID

looks once a second at the processes that `rt ci` started, and prints a table for docs/ when it has ended; with `--of`,
at those of a gate that runs already, as `.ci/run` does. A kit whose `rt ci` keeps what an earlier run proved measures
from nothing by `tools/gate-cost.py --anew`.
"""
import collections
import os
import subprocess
import sys
import time

TICK = os.sysconf("SC_CLK_TCK")


def stat(pid):
    """The parent of a process and its processor seconds, or none where it has ended."""
    try:
        with open("/proc/%s/stat" % pid, errors="replace") as text:
            fields = text.read().rsplit(")", 1)[1].split()
    except OSError:
        return None
    return int(fields[1]), (int(fields[11]) + int(fields[12])) / TICK


def words(pid):
    """The words that a process was started with, and the folder that it works in."""
    try:
        with open("/proc/%s/cmdline" % pid, errors="replace") as text:
            return text.read().split("\0"), os.readlink("/proc/%s/cwd" % pid)
    except OSError:
        return [], ""


def kind(pid):
    """The crate that a process works for, and whether it checks it, its tests or an edit."""
    line, folder = words(pid)
    if "--crate-name" not in line:
        return None
    crate = line[line.index("--crate-name") + 1]
    if "/rt-edit-" in folder:
        return crate, "edits"
    return crate, "tests" if "--test" in line else "check"


def below(root):
    """The processes below this one, each with its processor seconds."""
    seen = {int(p): stat(p) for p in os.listdir("/proc") if p.isdigit()}
    seen = {pid: one for pid, one in seen.items() if one}
    found, more = {}, {root}
    while more:
        more = {pid for pid, one in seen.items() if one[0] in more and pid not in found}
        found.update((pid, seen[pid][1]) for pid in more)
    return found


def is_running(pid):
    """Whether a process that need not be ours has not ended."""
    try:
        with open("/proc/%s/stat" % pid, errors="replace") as text:
            return text.read().rsplit(")", 1)[1].split()[0] != "Z"
    except OSError:
        return False


def watch(pid, goes_on):
    """Adds up what the processes below one spend while it goes on, and prints the table."""
    kinds, spent = {}, {}
    begun = time.time()
    while goes_on():
        for one, seconds in below(pid).items():
            kinds[one] = kind(one) or kinds.get(one)
            spent[one] = max(seconds, spent.get(one, 0))
        time.sleep(1)
    costs = collections.defaultdict(float)
    for one, seconds in spent.items():
        costs[kinds[one] or ("the rest", "check")] += seconds / 60
    print("\n| Crate | Check | Tests | Edits | Sum |\n|---|---|---|---|---|")
    crates = sorted({crate for crate, _ in costs})
    for crate in crates:
        parts = [costs[crate, one] for one in ("check", "tests", "edits")]
        print("| `%s` | %s | %.1f |" % (crate, " | ".join("%.1f" % part for part in parts), sum(parts)))
    print("\n%.0f processor minutes in %.0f minutes" % (sum(costs.values()), (time.time() - begun) / 60))


def main():
    if sys.argv[1:2] == ["--of"]:
        pid = int(sys.argv[2])
        return watch(pid, lambda: is_running(pid))
    gate = subprocess.Popen(["rt", "ci"] + sys.argv[1:])
    watch(gate.pid, lambda: gate.poll() is None)
    sys.exit(gate.returncode)


if __name__ == "__main__":
    main()
