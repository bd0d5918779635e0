#!/usr/bin/env python3
"""Times the program on chains of labels, each rewritten by the rule A == B, and on the same chains where no rule applies.

    bench/chain.py [RUNS]

Builds the program first where it has to be. For each length it prints the least seconds of RUNS (3) runs, user and system
time together, the peak memory, and both for each label as a ratio to those of the shortest chain in the same table: 1.0 is
linear.
"""
import os
import subprocess
import sys
import tempfile

TOP = os.path.dirname(os.path.dirname(os.path.abspath(__file__)))
PROGRAM = os.path.join(TOP, "crates", "qsys", "out", "qsys")
LENGTHS = (8192, 16384, 32768, 65536)


def deck(rule, length):
    chain = " + ".join(["A"] * length)
    return ("-SYSTEME- S.\n%s\n-GRAPHE-\n-1- %s -2-.\n-FIN-\n" % (rule, chain)).encode()


def run(text):
    """The seconds of one run, and its peak memory in KiB."""
    with tempfile.TemporaryFile() as source:
        source.write(text)
        source.seek(0)
        child = os.fork()
        if child == 0:
            os.dup2(source.fileno(), 0)
            os.dup2(os.open(os.devnull, os.O_WRONLY), 1)
            os.execv(PROGRAM, [PROGRAM, "run", "--workers", "1", "--limit", "100000"])
        _, status, usage = os.wait4(child, 0)
        if status != 0:
            sys.exit("the program ended with status %d" % os.waitstatus_to_exitcode(status))
        return usage.ru_utime + usage.ru_stime, usage.ru_maxrss


def main():
    runs = int(sys.argv[1]) if len(sys.argv) > 1 else 3
    subprocess.run([os.path.join(TOP, "qsys"), "run"], input=deck("A == B.", 1), stdout=subprocess.DEVNULL, check=True)
    print("rule     labels  seconds  KiB      seconds/label  KiB/label")
    for rule in ("A == B.", "C == B."):
        first = None
        for length in LENGTHS:
            text = deck(rule, length)
            taken = [run(text) for _ in range(runs)]
            seconds, memory = min(t for t, _ in taken), min(m for _, m in taken)
            each = seconds / length, memory / length
            first = first or each
            print("%-7s %7d  %7.3f  %7d  %13.2f  %9.2f" % (rule, length, seconds, memory, each[0] / first[0], each[1] / first[1]))


main()
