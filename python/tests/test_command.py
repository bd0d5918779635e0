"""The command `python3 -m radwelio`: what it writes, where, and its statuses."""

import os
import pty
import subprocess
import sys
import unittest
from typing import Dict, Optional, Tuple

import radwelio

from .support import EXAMPLES, TOP, ProgramCase, example
from .test_messages import OF_EXAMPLES

ENVIRONMENT = {**os.environ, "PYTHONPATH": str(TOP / "python"), "PYTHONIOENCODING": "utf-8", "COLUMNS": "100"}


def command(*words: str, text: bytes = b"", more: Optional[Dict[str, str]] = None) -> Tuple[int, str, str]:
    """The status, what was written, and what was told on standard error."""
    done = subprocess.run(
        [sys.executable, "-m", "radwelio", *words],
        input=text,
        capture_output=True,
        env={**ENVIRONMENT, **(more or {})},
        cwd=EXAMPLES,
    )
    return done.returncode, done.stdout.decode(), done.stderr.decode()


def on_a_terminal(*words: str, more: Optional[Dict[str, str]] = None) -> str:
    """What is told on standard error where that is a terminal."""
    near, far = pty.openpty()
    process = subprocess.Popen(
        [sys.executable, "-m", "radwelio", *words],
        stdin=subprocess.DEVNULL,
        stdout=subprocess.DEVNULL,
        stderr=far,
        env={**ENVIRONMENT, **(more or {})},
        cwd=EXAMPLES,
    )
    os.close(far)
    told = b""
    try:
        while True:
            piece = os.read(near, 4096)
            if not piece:
                break
            told += piece
    except OSError:  # the terminal is gone with the process
        pass
    process.wait()
    os.close(near)
    return told.decode()


class Check(ProgramCase):
    def test_an_accepted_deck(self) -> None:
        wanted = "noun-phrase.qs: accepted: 2 grammars, 8 rules, 6 arcs\n"
        self.assertEqual(command("check", "noun-phrase.qs"), (0, wanted, ""))
        status, written, _ = command("check", "--spell", "spelling.qs")
        self.assertEqual((status, written), (0, (EXAMPLES / "spelling.qs.stdout").read_text()))

    def test_each_refusal_is_told_with_status_2(self) -> None:
        for name, wanted in OF_EXAMPLES.items():
            deck = f"refused-{name}.qs"
            self.assertEqual(command("check", deck), (2, "", wanted.replace("deck.qs", deck) + "\n"), name)

    def test_a_deck_of_standard_input(self) -> None:
        wanted = "standard input: accepted: 1 grammar, 4 rules, 5 arcs\n"
        self.assertEqual(command("check", "-", text=example("quotes"))[:2], (0, wanted))
        self.assertTrue(command("check", "-", text=b"A")[2].startswith("standard input:1:1: error: the label A"))

    def test_color_on_a_terminal_alone(self) -> None:
        words = ("check", "refused-unbound.qs")
        self.assertIn("\x1b[1;31merror:", on_a_terminal(*words, more={"TERM": "xterm", "NO_COLOR": ""}))
        self.assertNotIn("\x1b[1", on_a_terminal(*words, more={"TERM": "xterm", "NO_COLOR": "1"}))
        self.assertNotIn("\x1b[1", on_a_terminal(*words, more={"TERM": "dumb", "NO_COLOR": ""}))
        self.assertNotIn("\x1b", command("check", "refused-unbound.qs")[2])


class Graphs(ProgramCase):
    def test_chart(self) -> None:
        graph = radwelio.run(example("noun-phrase"))[-1].graph
        assert graph is not None
        self.assertEqual(command("chart", "noun-phrase.qs"), (0, graph.chart() + "\n", ""))
        first = radwelio.run(example("noun-phrase"))[0].graph
        assert first is not None
        for name in ("1", "WORDS"):
            self.assertEqual(command("chart", "noun-phrase.qs", "--grammar", name)[1], first.chart() + "\n")
        before = radwelio.graph(example("noun-phrase"))
        self.assertEqual(command("chart", "--input", "noun-phrase.qs")[1], before.chart() + "\n")
        status, written, told = command("chart", "noun-phrase.qs", "--grammar", "3")
        self.assertEqual((status, written), (1, ""))
        self.assertEqual(told, "radwelio: no grammar 3 was run; there are: 1 WORDS, 2 PHRASES\n")

    def test_tree(self) -> None:
        written = command("tree", "sentence.qs")
        self.assertEqual(written, (0, "1 to 2\nP\n", ""))
        self.assertIn("    └── GN\n        └── GLACE\n", command("tree", "ambiguous-sentence.qs")[1])
        self.assertIn("\\begin{forest}\n  [{P}\n", command("tree", "--latex", "ambiguous-sentence.qs")[1])
        self.assertTrue(command("tree", "--latex", "--document", "sentence.qs")[1].startswith("\\documentclass"))

    def test_pictures_go_where_they_are_told(self) -> None:
        path = self.folder / "picture.svg"
        self.assertEqual(command("svg", "sentence.qs", "-o", str(path)), (0, "", ""))
        self.assertTrue(path.read_text(encoding="utf-8").startswith("<svg "))
        self.assertTrue(command("svg", "--style", "label", "sentence.qs")[1].startswith("<svg "))
        self.assertTrue(command("dot", "sentence.qs")[1].startswith("digraph {\n"))
        self.assertIn("can't be written", command("svg", "sentence.qs", "-o", "/nowhere/picture.svg")[2])
        self.assertEqual(command("svg", "sentence.qs", "-o", "/nowhere/picture.svg")[0], 6)

    def test_a_page(self) -> None:
        path = self.folder / "page.html"
        self.assertEqual(command("show", "bulletin.qs", "-o", str(path)), (0, "", ""))
        self.assertIn("<h1>bulletin.qs</h1>", path.read_text(encoding="utf-8"))

    def test_nothing_left_and_the_limit(self) -> None:
        self.assertEqual(command("chart", "overlap.qs"), (0, "(nothing is left)\n", ""))
        self.assertEqual(command("tree", "overlap.qs"), (0, "(nothing is left)\n", ""))
        self.assertIn("nothing is left", command("svg", "overlap.qs")[1])
        status, written, told = command("chart", "endless.qs", "--limit", "5")
        self.assertEqual((status, written), (3, ""))
        self.assertIn("the grammar ENDLESS needs more than 5 firings", told)


class Failures(ProgramCase):
    def test_statuses_of_the_program(self) -> None:
        for script, status, message in (
            ("import os; os.kill(os.getpid(), 9)", 70, "ended by the signal 9"),
            ("import sys; sys.exit(7)", 7, "not enough memory"),
            ("print('# A 1')", 70, "ends inside of the block of A"),
        ):
            got, written, told = command("chart", "sentence.qs", "--program", self.script(script))
            self.assertEqual((got, written), (status, ""))
            self.assertIn(message, told)
        got, _, told = command("chart", "sentence.qs", "--program", "/nowhere/qsys")
        self.assertEqual((got, told), (70, "radwelio: /nowhere/qsys is no program that can be started\n"))
        self.assertEqual(command("chart", "-", text=b" " * 5_000_000)[0], 5)

    def test_wrong_words(self) -> None:
        for line in ("", "draw x", "svg", "svg sentence.qs --style red", "chart sentence.qs --limit x"):
            words = line.split()
            status, written, told = command(*words)
            self.assertEqual((status, written), (1, ""), words)
            self.assertIn("usage: radwelio", told)
        status, _, told = command("chart", "sentence.qs", "--limit", "0")
        self.assertEqual(status, 1)
        self.assertIn("usage: qsys", told)
        self.assertEqual(command("chart", "no-such-deck.qs")[0], 4)

    def test_help_teaches(self) -> None:
        status, written, told = command("--help")
        self.assertEqual((status, told), (0, ""))
        for name in ("show", "svg", "dot", "chart", "tree", "check"):
            self.assertIn(f"radwelio {name} deck.qs", written.replace("tree --latex", "tree"))
            self.assertEqual(command(name, "--help")[0], 0)

    def test_work_over_two_seconds_is_told(self) -> None:
        slow = self.script("import sys, time; sys.stdin.read(); time.sleep(2.6); print('# A 0\\n-VIDE-.')")
        status, written, told = command("chart", "sentence.qs", "--program", slow)
        self.assertEqual((status, written), (0, "(nothing is left)\n"))
        self.assertRegex(told, r"^radwelio: chart sentence.qs: at work for 2 s\n$")

    def test_what_a_launcher_tells_is_handed_on(self) -> None:
        telling = self.script("import sys; print('proving qs_tree', file=sys.stderr); print('# A 0\\n-VIDE-.')")
        self.assertIn("proving qs_tree\n", command("chart", "sentence.qs", "--program", telling)[2])


if __name__ == "__main__":
    unittest.main()
