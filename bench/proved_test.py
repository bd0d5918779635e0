"""Times a proved test of a crate, as a program of its own."""
import os
import subprocess
import sys

TOP = os.path.dirname(os.path.dirname(os.path.abspath(__file__)))


def build(crate):
    """Proves and builds the tests of the crate, where they aren't built."""
    folder = os.path.join(TOP, "crates", crate)
    program = os.path.join(folder, "out", crate + "_tests")
    if not os.path.exists(program):
        subprocess.run(["rt", "test"], cwd=folder, check=True)
    return program


def seconds(program, name):
    """User and system time of one run of the test with this name."""
    child = os.fork()
    if child == 0:
        os.dup2(os.open(os.devnull, os.O_WRONLY), 1)
        os.execv(program, [program, name])
    _, status, usage = os.wait4(child, 0)
    if status != 0:
        sys.exit("the test ended with status %d" % os.waitstatus_to_exitcode(status))
    return usage.ru_utime + usage.ru_stime


def least(program, name, runs):
    """The least of so many runs."""
    return min(seconds(program, name) for _ in range(runs))
