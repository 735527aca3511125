#!/usr/bin/env python3
"""Processor minutes of the gate, crate by crate, as a Markdown table.

    python3 bench/gate.py [COMMAND..]      (with no words: rt ci --anew)

Runs the command at the top of the repository, and looks twice a second at the provers that it
starts. A prover in a crate's folder works on the crate's proof, or on that of its tests where it was
given --test; one in a temporary folder tries a wrong body. What runs for less than half a second,
and the tests and programs themselves, are left out of the table; the line under it has all. It is no
part of the gate.
"""

import collections
import glob
import os
import resource
import subprocess
import sys
import time

TOP = os.path.dirname(os.path.dirname(os.path.abspath(__file__)))
TICKS = os.sysconf("SC_CLK_TCK")
KINDS = ("proofs", "tests", "wrong bodies")


def status_of(pid):
    """The parent of a process, and the processor seconds that it took."""
    with open(f"/proc/{pid}/stat") as file:
        fields = file.read().rpartition(")")[2].split()
    return int(fields[1]), (int(fields[11]) + int(fields[12])) / TICKS


def is_below(pid, top, parents):
    while pid in parents and pid != top:
        pid = parents[pid]
    return pid == top


def look(top, seen):
    """Notes the provers that run below a process."""
    parents, seconds = {}, {}
    for folder in glob.glob("/proc/[0-9]*"):
        pid = int(os.path.basename(folder))
        try:
            parents[pid], seconds[pid] = status_of(pid)
        except (OSError, ValueError):
            continue
    for pid in parents:
        try:
            with open(f"/proc/{pid}/cmdline") as file:
                words = file.read().split("\0")
            if "--crate-name" not in words or not is_below(pid, top, parents):
                continue
            crate = words[words.index("--crate-name") + 1]
            if "/crates/" not in os.readlink(f"/proc/{pid}/cwd"):
                kind = "wrong bodies"
            else:
                kind = "tests" if "--test" in words else "proofs"
        except (OSError, ValueError):
            continue
        seen[pid, crate, kind] = max(seen.get((pid, crate, kind), 0), seconds[pid])


def main():
    command = sys.argv[1:] or ["rt", "ci", "--anew"]
    start, seen = time.time(), {}
    run = subprocess.Popen(command, cwd=TOP)
    while run.poll() is None:
        look(run.pid, seen)
        time.sleep(0.5)
    minutes = collections.defaultdict(lambda: dict.fromkeys(KINDS, 0.0))
    for (_, crate, kind), seconds in seen.items():
        minutes[crate][kind] += seconds / 60
    print(f"\n| crate | {' | '.join(KINDS)} | all |\n|---|---|---|---|---|")
    for crate in sorted(minutes, key=lambda it: -sum(minutes[it].values())):
        row = [minutes[crate][kind] for kind in KINDS]
        print(f"| {crate} | {' | '.join(f'{it:.1f}' for it in row)} | {sum(row):.1f} |")
    sums = [sum(it[kind] for it in minutes.values()) for kind in KINDS]
    print(f"| all | {' | '.join(f'{it:.0f}' for it in sums)} | {sum(sums):.0f} |")
    usage = resource.getrusage(resource.RUSAGE_CHILDREN)
    whole, clock = usage.ru_utime + usage.ru_stime, time.time() - start
    print(f"\n{whole / 60:.0f} processor minutes in all, {clock / 60:.0f} by the clock, {os.cpu_count()} processors")
    return run.returncode


sys.exit(main())
