#!/usr/bin/env python3
"""Prints the processor seconds of a run of the gate, by crate and part.

  gate_costs.py PID      PID: the process of a running 'rt ci' (or its '.ci/run'), of which this is started beside

It looks at the run's processes once a second until the run ends, or until it is interrupted, and then prints a table:
for each crate its proof, its tests (proof and run of the build with tests), the base of its must-fail edits (the check
that each of them begins with, and the one that closes them) and the edits themselves. A process counts with what it had
used when it was last seen, so up to a second of each is missed: the last lines have the sum of these, what the run as a
whole used, and with it what the table lacks (links, programs, the run itself). Run it on a quiet machine.
"""
import os
import re
import sys
import time
from collections import defaultdict

TICKS = os.sysconf("SC_CLK_TCK")
PARTS = ("proof", "tests", "base", "edits")


def status_of(process):
    """Returns the parent of a process and the seconds that it and the children it waited for have used."""
    with open(f"/proc/{process}/stat", encoding="utf-8", errors="replace") as it:
        fields = it.read().rpartition(")")[2].split()
    return int(fields[1]), sum(map(int, fields[11:15])) / TICKS


def parents():
    """Returns each process with its parent."""
    found = {}
    for name in os.listdir("/proc"):
        if name.isdigit():
            try:
                found[int(name)] = status_of(name)[0]
            except (OSError, IndexError):
                pass
    return found


def is_below(process, run, parent_of):
    while process in parent_of:
        process = parent_of[process]
        if process == run:
            return True
    return False


def part_of(words):
    """Returns the crate and the part that a command of the prover works for, or None."""
    if len(words) < 2 or os.path.basename(words[0]) != "rattle" or "--crate-name" not in words:
        return None
    crate = words[words.index("--crate-name") + 1]
    if words[1] == "check":
        kept = words[words.index("--incremental") + 1] if "--incremental" in words else ""
        return crate, "edits" if re.search(r"/\d+$", kept) else "base"
    return crate, "tests" if "--test" in words else "proof"


def words_of(process):
    with open(f"/proc/{process}/cmdline", "rb") as it:
        return it.read().decode(errors="replace").split("\0")


def look(run, seen, known):
    """Notes what each process of the run has used up to now."""
    parent_of = parents()
    for process in parent_of:
        if not is_below(process, run, parent_of):
            continue
        try:
            # (a process that is still to become the prover is looked at again)
            if not known.get(process):
                known[process] = part_of(words_of(process))
            if known[process]:
                seen[process] = status_of(process)[1]
        except (OSError, IndexError):
            pass


def watch(run):
    """Returns the seconds of each crate and part, and those of the whole run, once it has ended."""
    seen, known, whole = {}, {}, 0.0
    began = time.time()
    try:
        while os.path.exists(f"/proc/{run}"):
            look(run, seen, known)
            whole = status_of(run)[1]
            time.sleep(1)
    except (OSError, IndexError, KeyboardInterrupt):
        pass
    costs = defaultdict(lambda: dict.fromkeys(PARTS, 0.0))
    for process, seconds in seen.items():
        crate, part = known[process]
        costs[crate][part] += seconds
    return costs, whole, time.time() - began


def report(costs, whole, clock):
    def row(name, values):
        return f"{name:24}" + "".join(f"{value:9.0f}" for value in values)

    print(f"{'seconds of':24}" + "".join(f"{part:>9}" for part in (*PARTS, "all")))
    for crate, parts in sorted(costs.items(), key=lambda it: -sum(it[1].values())):
        print(row(crate, (*parts.values(), sum(parts.values()))))
    sums = [sum(parts[part] for parts in costs.values()) for part in PARTS]
    print(row(f"{len(costs)} crates", (*sums, sum(sums))))
    print(f"\nminutes of the processor: {sum(sums) / 60:.1f} in the table, {whole / 60:.1f} the whole run; on the clock: {clock / 60:.1f}")


def main():
    if len(sys.argv) != 2 or not sys.argv[1].isdigit():
        sys.exit(__doc__)
    report(*watch(int(sys.argv[1])))


main()
