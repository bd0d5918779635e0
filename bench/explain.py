#!/usr/bin/env python3
"""Times `explain` beside `run`, on decks of bench/decks.py.

    bench/explain.py [RUNS]

Builds the program first where it has to be. For each deck there are the least seconds of RUNS (5) runs of each command, user
and system time together, the peak memory, and the ratio of the two times, without those of a deck with one label.
"""
import os
import subprocess
import sys

import decks

KINDS = ((decks.made, (10, 11, 12, 13)), (decks.amb, (9, 10, 11)), (decks.two, (12500, 25000, 50000)),
         (decks.words, (2500, 5000)), (decks.merged, (20, 40, 80)))


def main():
    runs = int(sys.argv[1]) if len(sys.argv) > 1 else 5
    subprocess.run([os.path.join(decks.TOP, "qsys"), "check"], input=decks.chain([], ["A"]).encode(), stdout=subprocess.DEVNULL, check=True)
    timer = decks.Timer("qsys", decks.PROGRAM, runs, *decks.server())
    print("kind          n  firings      run      KiB  explain      KiB  explain/run  bytes written")
    for make, sizes in KINDS:
        for n in sizes:
            text, firings, _ = make(n)
            words = decks.run_within(firings)
            seconds, memory, block = timer.least(words, text)
            longer, more, written = timer.least(["explain", *words[1:]], text)
            if not written.startswith(block):
                sys.exit("%s %d: other blocks are written" % (make.__name__, n))
            ratio = timer.each(longer, 1) / timer.each(seconds, 1)
            print("%-8s %6d  %7d  %7.3f  %7d  %7.3f  %7d  %11.2f  %13d" % (make.__name__, n, firings, seconds, memory, longer, more, ratio, len(written)))


if __name__ == "__main__":
    main()
