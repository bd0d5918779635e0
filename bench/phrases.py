#!/usr/bin/env python3
"""Times `phrase` on texts of many lines, with few rules and with many.

    bench/phrases.py [RUNS] [--beside PROGRAM ..]

Builds the program first where it has to be. `plain` has N lines of three words and five rules, which join each line into one
tree; `lexicon` has 1,000 lines of three words and N rules more, each for a word that stands in no line. For each text there are
the least seconds of RUNS (3) runs with one worker, user and system time together, with start, reading and writing, and the
peak memory; the next column is the seconds for each line, or for each rule, as a ratio to the smallest text of its kind.
Where another program is named, it runs on the same texts in the same run; the last column is how many times as long `qsys`
takes, both without the time of a text with one line.
"""
import argparse
import os
import subprocess
import sys

import decks

RULES = ("LE == D(LE).", "CHAT == N(CHAT).", "DORT == V(DORT).", "D(A*) + N(B*) == GN(D(A*),N(B*)).", "GN(U*) + V(C*) == P(GN(U*),V(C*)).")


def text_of(rules, lines):
    return "-SYSTEME- M.\n%s\n-PHRASES-\n%s" % ("\n".join(rules), "LE CHAT DORT\n" * lines)


def plain(n):
    return text_of(RULES, n), n


def lexicon(n):
    return text_of([*RULES, *("MOT%d == N(MOT%d)." % (i, i) for i in range(n))], 1000), 1000


KINDS = ((plain, (25000, 50000, 100000)), (lexicon, (1250, 2500, 5000)))
WORDS = ["phrase", "--workers", "1"]


def main():
    asked = argparse.ArgumentParser(description="Times lines of words.")
    asked.add_argument("runs", type=int, nargs="?", default=3)
    asked.add_argument("--beside", nargs="+", default=[], metavar="PROGRAM")
    asked.add_argument("--program", default=decks.PROGRAM)
    asked = asked.parse_args()
    if asked.program == decks.PROGRAM:
        subprocess.run([os.path.join(decks.TOP, "qsys"), "check"], input=decks.chain([], ["A"]).encode(), stdout=subprocess.DEVNULL, check=True)
    orders, answers = decks.server()
    programs = [asked.program] + [os.path.abspath(it) for it in asked.beside]
    timers = [decks.Timer(os.path.basename(it), it, asked.runs, orders, answers) for it in programs]
    nothing = [timer.least(WORDS, text_of(RULES, 1))[0] for timer in timers]
    print("kind          n  seconds      KiB  seconds/n" + "".join("  %10s:      KiB  ratio" % timer.name for timer in timers[1:]))
    for make, sizes in KINDS:
        first = None
        for n in sizes:
            text, lines = make(n)
            told = [timer.least(WORDS, text) for timer in timers]
            for _, _, written in told:
                if written.count(b"# PHRASE ") != lines:
                    sys.exit("%s %d: not %d lines" % (make.__name__, n, lines))
            taken = [max(it[0] - none, 0.0001) for it, none in zip(told, nothing)]
            first = first or taken[0] / n
            row = "%-8s %6d  %7.3f  %7d  %9.2f" % (make.__name__, n, told[0][0], told[0][1], taken[0] / n / first)
            print(row + "".join("  %11.3f  %7d  %5.1f" % (it[0], it[1], taken[0] / other) for it, other in zip(told[1:], taken[1:])))


if __name__ == "__main__":
    main()
