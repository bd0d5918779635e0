#!/usr/bin/env python3
"""Times the program on decks that it has to close, on long texts of rules, and on long graphs.

    bench/decks.py [RUNS] [--only KIND,..] [--beside PROGRAM ..]

Builds the program first where it has to be. With programs beside it, as the program of another commit or another interpreter
that takes the same words, each is run on the same decks in the same run, and has the lines of its own. With kinds, only these
decks are run. The kinds of decks to close, with n for a number:

    made     Ti(I*) + Ti(J*) == Tj(I*) for i from 0 to n - 1 and j = i + 1, on a chain of 2^n trees
    amb      N(I*) + N(J*) == N(P(I*,J*)) on a chain of n trees: all ways to put them in pairs
    eq       N + N == N on a chain of n labels: as many firings, with equal trees
    apart    the deck of amb with its grammar marked -UNIQUE-: no two trees are equal, so none is met
    merged   that of eq with its grammar marked: a firing for each way to part each stretch of the chain in two
    million  A == B1 up to A == B16 on a chain of n labels: 16 n firings, each of which leaves an arc
    split    A(U*,V*) == B(C(U*),D(V*)) on one tree with n trees below its root, so n + 1 trees of n trees each
    two      A(I*) == B(I*) and B(I*) == C(I*) on a chain of n small trees
    left     S + W == S on S and n labels W: n rounds with one firing each
    words    n rules that rewrite a word each, on a chain of n words
    lexicon  the same n rules on a chain of 25 words
    below    n rules N(WORDi) == P(WORDi) on a chain of n trees that differ below their roots alone
    star     I* + I* == C on a node with n arcs into it and n out of it, of which no two are equal
    cascade  16 grammars behind each other, each of which rewrites each of n small trees: 16 n firings
    phrases  the same on n trees with twelve trees below their roots

Each is run by `run --workers 1 --limit 100000`, or 1000000 where it needs more; how many firings there were and how many arcs are
left is compared with what is known by counting. Texts of equal rules, and of rules of which each has a label of its own, go through `check`, and long graphs through
`graph`. For each size there are the least seconds of RUNS (3) runs, user and system time together, the peak memory, and the
seconds for each firing (for each n in lexicon and star), byte or arc, without those of a deck with one label, as a ratio to
those of the smallest size of the kind in the same run: a linear program stays near 1.00 or below.

At the end it says which other systems that can close such grammars are installed.
"""
import argparse
import importlib.util
import json
import os
import shutil
import subprocess
import sys
import tempfile

TOP = os.path.dirname(os.path.dirname(os.path.abspath(__file__)))
PROGRAM = os.path.join(TOP, "crates", "qsys", "out", "qsys")
PEERS = ("swipl", "gprolog", "clingo", "clips", "maude")



# The program is started by a child that is forked before any text is made: a process is charged with the memory of the one
# that started it.
def serve(orders, answers):
    for line in orders:
        program, words, source, sink = json.loads(line)
        child = os.fork()
        if child == 0:
            os.dup2(os.open(source, os.O_RDONLY), 0)
            os.dup2(os.open(sink, os.O_WRONLY), 1)
            os.execv(program, [program] + words)
        _, status, usage = os.wait4(child, 0)
        answers.write(json.dumps([os.waitstatus_to_exitcode(status), usage.ru_utime + usage.ru_stime, usage.ru_maxrss]) + "\n")
        answers.flush()


def server():
    down, up = os.pipe(), os.pipe()
    if os.fork() == 0:
        os.close(down[1])
        serve(os.fdopen(down[0]), os.fdopen(up[1], "w"))
        os._exit(0)
    os.close(down[0])
    return os.fdopen(down[1], "w"), os.fdopen(up[0])


class Timer:
    """Times one of the programs."""

    def __init__(self, name, program, runs, orders, answers):
        self.name, self.program, self.runs = name, program, runs
        self.orders, self.answers = orders, answers
        self.nothing = self.least(["run", "--workers", "1"], chain([], ["A"]))[0]

    def least(self, words, text):
        """The least seconds, the least peak memory in KiB, and what was written."""
        with tempfile.NamedTemporaryFile() as source, tempfile.NamedTemporaryFile() as sink:
            source.write(text.encode())
            source.flush()
            taken = []
            for _ in range(self.runs):
                sink.truncate(0)
                self.orders.write(json.dumps([self.program, words, source.name, sink.name]) + "\n")
                self.orders.flush()
                status, seconds, memory = json.loads(self.answers.readline())
                if status != 0:
                    sys.exit("%s ended with status %d" % (self.program, status))
                taken.append((seconds, memory))
            return min(s for s, _ in taken), min(m for _, m in taken), sink.read()

    def each(self, seconds, count):
        return max(seconds - self.nothing, 0.0005) / count


def deck(rules, chains):
    return "-SYSTEME- M.\n%s-GRAPHE-\n%s-FIN-\n" % ("".join(r + "\n" for r in rules), "".join(c + "\n" for c in chains))


def chain(rules, trees):
    return deck(rules, ["-1- %s -2-." % " + ".join(trees)])


def made(n):
    rules = ["T%d(I*) + T%d(J*) == T%d(I*)." % (j - 1, j - 1, j) for j in range(1, n + 1)]
    return chain(rules, ["T0(M%d)" % i for i in range(1, 2**n + 1)]), (n - 2) * 2**n + n + 2, 1


def pairings(n):
    """How many firings put n words in pairs, and how many arcs span them all."""
    spans, firings = 1, 0
    for length in range(2, n + 1):
        spans = spans * 2 * (2 * length - 3) // length
        firings += spans * (n - length + 1)
    return firings, spans


def amb(n):
    return (chain(["N(I*) + N(J*) == N(P(I*,J*))."], ["N(W%d)" % i for i in range(1, n + 1)]),) + pairings(n)


def eq(n):
    return (chain(["N + N == N."], ["N"] * n),) + pairings(n)


def marked(text):
    return "-VERSION- 2.\n" + text.replace("-SYSTEME- M.", "-SYSTEME- M -UNIQUE-.")


def apart(n):
    text, firings, arcs = amb(n)
    return marked(text), firings, arcs


def merged(n):
    return marked(eq(n)[0]), (n**3 - n) // 6, 1


def million(n):
    return chain(["A == B%d." % i for i in range(1, 17)], ["A"] * n), 16 * n, 16 * n


def split(n):
    tree = "A(%s)" % ",".join("W%d" % i for i in range(1, n + 1))
    return chain(["A(U*,V*) == B(C(U*),D(V*))."], [tree]), n + 1, n + 1


def two(n):
    return chain(["A(I*) == B(I*).", "B(I*) == C(I*)."], ["A(W)"] * n), 2 * n, n


def left(n):
    return chain(["S + W == S."], ["S"] + ["W"] * n), n, 1


def lexicon(n, length=25):
    rules = ["WORD%d == N(WORD%d)." % (i, i) for i in range(n)]
    return chain(rules, ["WORD%d" % (i * 7919 % n) for i in range(length)]), length, length


def words(n):
    return lexicon(n, n)


def below(n):
    rules = ["N(WORD%d) == P(WORD%d)." % (i, i) for i in range(n)]
    return chain(rules, ["N(WORD%d)" % (i * 7919 % n) for i in range(n)]), n, n


def star(n):
    return deck(["I* + I* == C."], ["-1- A%d -2-.\n-2- B%d -3-." % (i, i) for i in range(n)]), 0, 2 * n


def cascade(n, variable="I*", below="W", grammars=16):
    systems = "".join("-SYSTEME- M.\nA%d(%s) == A%d(%s).\n" % (k, variable, k + 1, variable) for k in range(grammars))
    return systems + "-GRAPHE-\n-1- %s -2-.\n-FIN-\n" % " + ".join(["A0(%s)" % below] * n), n, n


def phrases(n):
    return cascade(n, "U*", ",".join("W%d" % i for i in range(1, 13)))


CLOSED = (
    (made, (10, 11, 12, 13)), (amb, (9, 10, 11)), (eq, (9, 10, 11)), (apart, (9, 10, 11)),
    (merged, (20, 40, 80)), (million, (15625, 31250, 62500)), (split, (500, 1000, 2000)), (two, (12500, 25000, 50000)),
    (left, (1000, 2000, 4000, 8000)), (words, (1250, 2500, 5000, 10000)), (lexicon, (12500, 25000, 50000)),
    (below, (1250, 2500, 5000, 10000)), (star, (500, 1000, 2000)), (cascade, (15625, 31250, 62500)),
    (phrases, (5000, 10000, 20000)))


def run_within(firings):
    return ["run", "--workers", "1", "--limit", "100000" if firings <= 100000 else "1000000"]


def closures(timers, kinds):
    for timer in timers:
        print("a deck with one label: %.4f seconds by %s" % (timer.nothing, timer.name))
    print("\nkind          n  firings  seconds      KiB  bytes written  seconds/firing  seconds/byte written  by")
    for make, sizes in [it for it in CLOSED if it[0].__name__ in kinds]:
        first = {}
        for n in sizes:
            text, firings, arcs = make(n)
            for timer in timers:
                seconds, memory, written = timer.least(run_within(firings), text)
                # The last block is that of the last grammar; where there is one, it is the whole.
                lines = written[written.rindex(b"# "):].split(b"\n")
                if lines[0] != b"# M %d" % firings or len(lines) != arcs + 4:
                    sys.exit("%s %d: not %d firings and %d arcs by %s" % (make.__name__, n, firings, arcs, timer.name))
                each = [timer.each(seconds, count) for count in (n if make in (lexicon, star) else firings, len(written))]
                ratios = tuple(a / b for a, b in zip(each, first.setdefault(timer, each)))
                row = (make.__name__, n, firings, seconds, memory, len(written)) + ratios + (timer.name,)
                print("%-8s %6d  %7d  %7.3f  %7d  %13d  %14.2f  %20.2f  %s" % row)


def rules_of(size, line):
    """A deck in canonical spelling with as many of these rules as SIZE bytes take."""
    end = "-GRAPHE-\n-1- A -2-.\n-FIN-\n"
    lines, length = ["-SYSTEME- M."], len("-SYSTEME- M.\n") + len(end)
    while length + len(line(len(lines))) + 1 <= size:
        lines.append(line(len(lines)))
        length += len(lines[-1]) + 1
    return "\n".join(lines) + "\n" + end


def equal_rules(size):
    return rules_of(size, lambda i: "GN(U*) + DORT == P(GN(U*),V(DORT)).")


def own_labels(size):
    return rules_of(size, lambda i: "WORD%d == N(WORD)." % i)


def table(timer, unit, command, cases, sizes):
    print("\n%-34s %8s  seconds      KiB  seconds/%s" % ("", unit + "s", unit))
    for name, make in cases:
        first = None
        for size in sizes:
            text = make(size)
            seconds, memory, written = timer.least([command], text)
            if command == "check" and written.decode() != text:
                sys.exit("%s: another text was written" % name)
            each = timer.each(seconds, size)
            first = first or each
            print("%-34s %8d  %7.3f  %7d  %12.2f" % (name, size, seconds, memory, each / first))


def main():
    kinds = [make.__name__ for make, _ in CLOSED]
    asked = argparse.ArgumentParser(description="Times the program on decks.")
    asked.add_argument("runs", type=int, nargs="?", default=3)
    asked.add_argument("--only", default=None)
    asked.add_argument("--beside", nargs="+", default=[], metavar="PROGRAM")
    asked = asked.parse_args()
    subprocess.run([os.path.join(TOP, "qsys"), "check"], input=chain([], ["A"]).encode(), stdout=subprocess.DEVNULL, check=True)
    # Another program of the same name is told by its path.
    beside = [(it if os.path.basename(it) == "qsys" else os.path.basename(it), os.path.abspath(it)) for it in asked.beside]
    programs = [("qsys", PROGRAM)] + beside
    orders, answers = server()
    timers = [Timer(name, program, asked.runs, orders, answers) for name, program in programs]
    closures(timers, asked.only.split(",") if asked.only else kinds)
    if asked.only:
        return
    timer = timers[0]
    table(timer, "byte", "check", (
        ("check: equal rules", equal_rules),
        ("check: each with its own label", own_labels)), [2**k for k in range(19, 23)])
    table(timer, "arc", "graph", (
        ("graph: one chain", lambda n: chain([], ["A"] * n)),
        ("graph: chains one behind another", lambda n: deck([], ["-%d- A -%d-." % (i, i + 1) for i in range(1, n + 1)])),
        ("graph: arcs beside each other", lambda n: deck([], ["-7- A%d -9-." % i for i in range(n)]))),
        [2**k for k in range(13, 17)])
    found = [p for p in PEERS if shutil.which(p)] + [m for m in ("nltk",) if importlib.util.find_spec(m)]
    print("\nother systems installed: %s" % (", ".join(found) or "none"))


if __name__ == "__main__":
    main()
