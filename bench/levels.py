#!/usr/bin/env python3
"""Writes a deck whose grammar has N rules in a chain of levels, for `qsys levels`.

    bench/levels.py [N] [ORDER]

The rules are A0 == A1, A1 == A2 and so on, N (50000) of them, so that the grammar has N + 1 levels. ORDER is `up`, as
they stand here, `down`, the last one first, or `mixed` (the default), in an order that looks like chance and is always the
same. The graph is one arc A0. `bench/levels.py | time crates/qsys/out/qsys levels` times a program that has the command.
"""
import sys


def numbers(count, order):
    """The numbers of the rules in their order."""
    if order == "up":
        return range(count)
    if order == "down":
        return range(count - 1, -1, -1)
    state, mixed = 1, list(range(count))
    for last in range(count - 1, 0, -1):
        state = (state * 1103515245 + 12345) % 2147483648
        other = state % (last + 1)
        mixed[last], mixed[other] = mixed[other], mixed[last]
    return mixed


def main():
    count = int(sys.argv[1]) if len(sys.argv) > 1 else 50000
    order = sys.argv[2] if len(sys.argv) > 2 else "mixed"
    if count < 1 or order not in ("up", "down", "mixed"):
        sys.exit(__doc__)
    lines = ["-SYSTEME- S."]
    lines += ["A%d == A%d." % (number, number + 1) for number in numbers(count, order)]
    lines += ["-GRAPHE-", "-1- A0 -2-.", "-FIN-", ""]
    sys.stdout.write("\n".join(lines))


if __name__ == "__main__":
    main()
