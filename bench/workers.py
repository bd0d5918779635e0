#!/usr/bin/env python3
"""Times `run` with 1, 2, 4 and 8 workers, on decks whose matching costs much and on decks of small firings.

    bench/workers.py [RUNS] [--program PROGRAM]

Builds the program first where it has to be. The decks, with n for a number:

    parted   on each of n arcs a tree with 60 subtrees, which a rule parts into three lists in every way, asking of each way a
             condition that never holds: all work is matching
    starred  n arcs into a node and n out of it, each a tree of 16 trees, and a rule of two trees that has to compare two of them
             that never are equal: all work is matching, along the arcs of one node
    two      A(I*) == B(I*) and B(I*) == C(I*) on a chain of n small trees: all work is small firings, of which each is a turn
    made     the deck that `made` makes of size n: small firings of two trees

Seconds are those of the clock, the least of RUNS (5) runs, with start, reading and writing; behind them they stand as ratios to
those of one worker in the same run. The same bytes have to be written with each number of workers. The first line has the number
of processors.
"""
import argparse
import os
import subprocess
import sys
import tempfile
import time

import decks

WORKERS = (1, 2, 4, 8)


def parted(n):
    inside = ",".join("W%d" % i for i in range(60))
    return decks.chain(["P(U*,V*,W*) == Q / U* -DANS- X -ET- V* -DANS- X -ET- W* -DANS- X."], ["P(%s)" % inside] * n)


def starred(n):
    inside = ",".join("W%d" % i for i in range(15))
    arcs = ["-1- A(X%d,%s) -2-.\n-2- A(Y%d,%s) -3-." % (i, inside, i, inside) for i in range(n)]
    return decks.deck(["A(I*,U*) + A(I*,V*) == C."], arcs)


def two(n):
    return decks.two(n)[0]


def made(n):
    return decks.made(n)[0]


KINDS = ((parted, 200), (starred, 1000), (two, 25000), (made, 12))


def timed(program, words, text, runs):
    """The least seconds of the clock, and what was written."""
    with tempfile.TemporaryFile() as source:
        source.write(text.encode())
        taken = []
        for _ in range(runs):
            source.seek(0)
            began = time.perf_counter()
            done = subprocess.run([program, *words], stdin=source, stdout=subprocess.PIPE, check=True)
            taken.append(time.perf_counter() - began)
        return min(taken), done.stdout


def main():
    asked = argparse.ArgumentParser()
    asked.add_argument("runs", nargs="?", type=int, default=5)
    asked.add_argument("--program", default=decks.PROGRAM)
    given = asked.parse_args()
    if given.program == decks.PROGRAM:
        subprocess.run([os.path.join(decks.TOP, "qsys"), "check"], input=decks.chain([], ["A"]).encode(), stdout=subprocess.DEVNULL,
                       check=True)
    print("%d processors\n\nkind          n%s" % (len(os.sched_getaffinity(0)), "".join("%12s" % ("%d workers" % n) for n in WORKERS)))
    for make, n in KINDS:
        text, first, row = make(n), None, []
        for workers in WORKERS:
            seconds, written = timed(given.program, ["run", "--limit", "100000", "--workers", str(workers)], text, given.runs)
            if first is None:
                first = (seconds, written)
            elif written != first[1]:
                sys.exit("%s %d: other bytes with %d workers" % (make.__name__, n, workers))
            row.append("%6.3f %5.2f" % (seconds, seconds / first[0]))
        print("%-8s %6d%s" % (make.__name__, n, "".join("%12s" % it for it in row)))


if __name__ == "__main__":
    main()
