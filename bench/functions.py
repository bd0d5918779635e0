#!/usr/bin/env python3
"""Tells how long the check of each function, lemma file and file of definitions of a crate took, in seconds: the slowest first.

    python3 bench/functions.py [--most N] CRATE ..

It reads the times at which a check from nothing by one job (`rt lib --jobs 1`, or `rt all check --jobs 4` on a fresh clone)
kept what it had checked. After a further check the times of what it checked anew stand in between, so begin with a fresh clone."""
import collections
import os
import re
import sys

TOP = os.path.dirname(os.path.dirname(os.path.realpath(__file__)))
# What the prover makes of one function: its code, its statement, the parts of its proof.
PARTS = "Answers|Borrows|Code|Goals|Invariants|Kinds|Loans|Lts|Met|Moves|Proof|Routine|Statement|The[A-Z]|Tie"
KEPT = re.compile(rf"(?:Rattle-)?[a-z0-9_]+-(?:proofs|specs)\.(.*?)(?:\.(?:{PARTS}).*)?(?:\.decls)?\.oantt")
# A longer pause than this lies between two checks.
PAUSE = 60


def times(crate):
    kept = []
    for at, _, files in os.walk(f"{TOP}/crates/{crate}/out/incremental"):
        kept += [(os.stat(f"{at}/{file}").st_mtime, file) for file in files]
    kept.sort()
    found, before = collections.Counter(), None
    for now, file in kept:
        named = KEPT.fullmatch(file)
        spent = 0 if before is None or now - before > PAUSE else now - before
        found[named[1] if named else "the libraries below, and what is shared"] += spent
        before = now
    return found


def main(words):
    most = 12
    if words[:1] == ["--most"]:
        most, words = int(words[1]), words[2:]
    for crate in words:
        found = times(crate)
        print(f"{crate}: {sum(found.values()):.0f} s")
        for name, spent in found.most_common(most):
            print(f"  {spent:6.1f}  {name}")


if __name__ == "__main__":
    main(sys.argv[1:])
