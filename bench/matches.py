#!/usr/bin/env python3
"""Times the matcher on lists that forest variables share: `A(U*,V*)` on a node of 300 subtrees, which has 301 matches, and
`A(U*,V*,W*)` on one of 60, which has 1,891.

    bench/matches.py [RUNS]

It runs the proved tests that do this, which have to be built (`rt test` in their folder, or the gate), and prints for each the
least user and system time of RUNS (5) runs, with that of a test that matches next to nothing taken off, and that for each match,
as a ratio to the first.
"""
import sys

from proved_test import build, least

NOTHING = "match_tests::lists_of_different_length_have_no_match"
CASES = [
    ("A(U*,V*)     300 subtrees", "match_tests::two_forest_variables_share_three_hundred_subtrees", 301),
    ("A(U*,V*,W*)   60 subtrees", "match_tests::three_forest_variables_share_sixty_subtrees", 1891),
]


def main():
    runs = int(sys.argv[1]) if len(sys.argv) > 1 else 5
    tests = build("qs_machine_tests")
    nothing = least(tests, NOTHING, runs)
    first = None
    print("pattern and node            matches  milliseconds  each, as a ratio")
    for label, name, matches in CASES:
        taken = max(least(tests, name, runs) - nothing, 0.0001)
        each = taken / matches
        first = first or each
        print("%-27s %7d  %12.1f  %16.2f" % (label, matches, taken * 1000, each / first))


main()
