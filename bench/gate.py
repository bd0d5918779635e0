#!/usr/bin/env python3
"""Runs the gate (`rt ci`, or the command that is given) at the top of the repository and tells where its processor time goes:
by crate and by kind (the proof of the library or program, the proof of its tests, its must-fail edits), in seconds, user
and system. What belongs to no crate (running the tests and programs, linking, rt itself) is the rest of the exact total.

    python3 bench/gate.py [--each SECONDS] [COMMAND ..] > table.md

The processes of the run are looked at four times a second, so a process counts up to its last look."""
import os
import re
import resource
import subprocess
import sys
import time

TICKS = os.sysconf("SC_CLK_TCK")
KINDS = ("library", "tests", "edits")


def children_of(top, parents):
    """The processes below this one, by a table from each process to its parent."""
    below, found = {}, []
    for process, parent in parents.items():
        below.setdefault(parent, []).append(process)
    left = [top]
    while left:
        it = left.pop()
        found.append(it)
        left += below.get(it, [])
    return found


def look():
    """Each process with its parent, the tick at which it began, its processor seconds and its words."""
    found = {}
    for name in os.listdir("/proc"):
        if not name.isdigit():
            continue
        try:
            with open(f"/proc/{name}/stat") as it:
                fields = it.read().rpartition(") ")[2].split()
            with open(f"/proc/{name}/cmdline") as it:
                words = it.read().split("\0")
            folder = os.readlink(f"/proc/{name}/cwd")
        except OSError:
            continue
        used = (int(fields[11]) + int(fields[12])) / TICKS
        found[int(name)] = int(fields[1]), int(fields[19]), used, words, folder
    return found


def kind_of(words, folder):
    """The crate and the kind of a process of the prover, or None."""
    if not words[0].endswith("/rattle") or "--crate-name" not in words:
        return None
    crate = words[words.index("--crate-name") + 1]
    if re.search(r"/rt-edit-[^/]*$", folder):
        return crate, "edits"
    return crate, "tests" if "--test" in words else "library"


def main(words):
    command = words or ["rt", "ci"]
    began = time.monotonic()
    run = subprocess.Popen(command, stdout=sys.stderr)
    used = {}
    while run.poll() is None:
        processes = look()
        parents = {it: told[0] for it, told in processes.items()}
        for it in children_of(run.pid, parents):
            if it not in processes:
                continue
            _, start, seconds, said, folder = processes[it]
            which = kind_of(said, folder)
            if which:
                used[it, start, which] = seconds
        time.sleep(0.25)
    wall = time.monotonic() - began
    spent = resource.getrusage(resource.RUSAGE_CHILDREN)
    total = spent.ru_utime + spent.ru_stime
    table = {}
    for (_, _, (crate, kind)), seconds in used.items():
        row = table.setdefault(crate, dict.fromkeys(KINDS, 0.0))
        row[kind] += seconds
    print("| crate | library | tests | edits | sum |\n|---|---|---|---|---|")
    for crate, row in sorted(table.items(), key=lambda it: -sum(it[1].values())):
        cells = " | ".join(f"{row[kind]:.0f}" for kind in KINDS)
        print(f"| {crate} | {cells} | {sum(row.values()):.0f} |")
    sums = {kind: sum(row[kind] for row in table.values()) for kind in KINDS}
    cells = " | ".join(f"{sums[kind]:.0f}" for kind in KINDS)
    print(f"| all crates | {cells} | {sum(sums.values()):.0f} |")
    print(f"\nIn all {total:.0f} s of processor time, {wall:.0f} s by the clock on {len(os.sched_getaffinity(0))} processors; ", end="")
    print(f"{total - sum(sums.values()):.0f} s belong to no crate. Status {run.returncode}.")
    return run.returncode


if __name__ == "__main__":
    sys.exit(main(sys.argv[1:]))
