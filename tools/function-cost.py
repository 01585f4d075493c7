#!/usr/bin/env python3
"""Prints what the functions of a crate cost to check, the dearest first.

    tools/function-cost.py CRATE [how many]

reads what `rt check` kept in crates/CRATE/out/incremental. Of each function the prover keeps a file `..Lts.oantt`, the
derivation that the borrow checker's part stands on. A crate's check takes 2.2 to 2.6 processor seconds for each million
bytes of these, whatever else it has, so their sizes are a measure that no other load on the machine disturbs.
"""
import collections
import os
import re
import sys

PARTS = ("Lts", "Tie", "Proof", "Reads", "Kinds", "Layout", "Named", "Answers")


def sizes(folder):
    found = collections.defaultdict(collections.Counter)
    for at, _, names in os.walk(folder):
        if os.path.basename(at) == "records":
            continue
        for name in names:
            parts = name[: -len(".oantt")].split(".")
            kind = parts[-1].split("-")[0]
            if name.endswith(".oantt") and "-proofs" in parts[0] and kind in PARTS:
                found[".".join(parts[1:-1])][kind] += os.path.getsize(f"{at}/{name}")
    return found


def main():
    crate = sys.argv[1]
    most = int(sys.argv[2]) if len(sys.argv) > 2 else 30
    found = sizes(f"crates/{crate}/out/incremental")
    total = sum(one["Lts"] for one in found.values())
    print(f"{crate}: {len(found)} functions, {total / 1e6:.1f} MB, about {2.4 * total / 6e7:.1f} minutes to check")
    groups = collections.Counter()
    for name, one in found.items():
        kind = re.search(r"(Debug|PartialOrd|PartialEq|Ord|Duplicate)(?=\.)", name)
        groups["Destruct" if "Destruct" in name or name.endswith("-drop") else kind[1] if kind else "written"] += one["Lts"]
    print(", ".join(f"{kind} {size / 1e6:.1f} MB" for kind, size in groups.most_common()))
    for name, one in sorted(found.items(), key=lambda it: -it[1]["Lts"])[:most]:
        print(f"{one['Lts'] / 1e6:6.2f} MB  {name}")


if __name__ == "__main__":
    main()
