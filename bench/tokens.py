#!/usr/bin/env python3
"""Times taking the tokens of three texts of 4 MiB: one label, spaces, and opening parentheses.

    bench/tokens.py [RUNS]

It runs the proved test that does this, which has to be built (`rt test` in its folder, or the gate), and prints the least user and
system time of RUNS (3) runs, and that for each byte.
"""
import sys

from proved_test import build, least

NAME = "token_tests::four_mebibytes_are_one_label_or_no_token_or_as_many_tokens"
BYTES = 3 * 4194304


def main():
    runs = int(sys.argv[1]) if len(sys.argv) > 1 else 3
    taken = least(build("qs_text_tests"), NAME, runs)
    print("%.3f seconds, %.1f nanoseconds for each byte" % (taken, taken / BYTES * 1e9))


main()
