"""Charts, and what is written for Graphviz and LaTeX, which are asked whether they read it, where they are there."""

import json
import shutil
import subprocess
import unittest
from typing import List

import radwelio
from radwelio import Arc, Graph, Tree
from radwelio.columns import width_of
from radwelio.writing import latex_document, latex_text

from .support import ProgramCase, example
from .test_pictures import ODD


def left(name: str) -> Graph:
    graph = radwelio.run(example(name))[-1].graph
    assert graph is not None
    return graph


class Charts(unittest.TestCase):
    def test_a_chart(self) -> None:
        self.assertEqual(
            left("noun-phrase").chart().split("\n"),
            [
                "1        2        4        5        3",
                "[--------]        |        |        |  GN(SOURIS,PETIT,FEM,PLUR)",
                "|        [--------]        |        |  DET(MASC,SING)",
                "|        |        [--------]        |  ADJ(PETIT,FEM,SING)",
                "|        |        |        [--------]  N(SOURIS,FEM,SING)",
                "|        |        |        [--------]  N(SOURIS,FEM,PLUR)",
            ],
        )

    def test_a_chart_keeps_to_its_width(self) -> None:
        chain = Graph(tuple(Arc(node, node + 1, Tree("CHAT" * 30)) for node in range(1, 8)))
        for width in (60, 80, 120):
            for line in chain.chart(width).split("\n"):
                self.assertLessEqual(width_of(line), width)
        self.assertEqual(Graph(()).chart(), "(nothing is left)")

    def test_a_long_chain_is_told_arc_by_arc(self) -> None:
        chain = Graph(tuple(Arc(node, node + 1, Tree("A")) for node in range(1, 20_000)))
        self.assertEqual(chain.chart().split("\n")[-1], "19999 to 20000  A")

    def test_each_arc_has_its_span_between_its_nodes(self) -> None:
        graph = radwelio.graph(example("lattice"))
        head, *lines = graph.chart().split("\n")
        place = {int(word): head.index(word) for word in head.split()}
        spans = {(line.index("["), line.index("]"), line.split()[-1]) for line in lines}
        self.assertEqual(spans, {(place[arc.start], place[arc.end], arc.tree.text) for arc in graph.arcs})


class Graphviz(unittest.TestCase):
    def test_it_reads_each_text_as_it_is(self) -> None:
        if not shutil.which("dot"):
            self.skipTest("Graphviz isn't installed")
        labels = [label for label in ODD if label.isprintable()]
        graph = Graph(tuple(Arc(1, 2, Tree(label)) for label in labels))
        done = subprocess.run(["dot", "-Tjson0"], input=graph.dot().encode(), capture_output=True, check=True)
        edges = json.loads(done.stdout)["edges"]
        self.assertEqual(len(edges), len(labels))
        done = subprocess.run(["dot", "-Tsvg"], input=graph.dot().encode(), capture_output=True, check=True)
        for label in ("é", "&lt;&amp;&gt;", "😀", "猫"):
            self.assertIn(label, done.stdout.decode())

    def test_nodes_and_arcs(self) -> None:
        text = left("noun-phrase").dot()
        self.assertEqual(text.count(" -> "), 5)
        self.assertIn('1 -> 2 [label="GN(SOURIS,PETIT,FEM,PLUR)"];', text)
        self.assertEqual(text.count("\n  3;"), 1)


class Latex(ProgramCase):
    def compiled(self, text: str) -> "subprocess.CompletedProcess[bytes]":
        (self.folder / "trees.tex").write_text(text, encoding="utf-8")
        words = ["pdflatex", "-interaction=nonstopmode", "-halt-on-error", "trees.tex"]
        return subprocess.run(words, cwd=self.folder, capture_output=True)

    def test_it_reads_the_trees(self) -> None:
        plain = "\\documentclass{article}\\usepackage{forest}\\usepackage{iftex}\\begin{document}A\\end{document}"
        if not shutil.which("pdflatex") or self.compiled(plain).returncode:
            self.skipTest("LaTeX with the package forest isn't installed")
        labels: List[str] = [label for label in ODD if all(ord(character) < 0x250 for character in label)]
        tree = Tree("P", tuple(Tree(label) for label in labels if label.isprintable()))
        for item in (tree, left("ambiguous-sentence")):
            done = self.compiled(latex_document(item))
            self.assertEqual(done.returncode, 0, done.stdout.decode("utf-8", "replace")[-1500:])

    def test_its_own_characters_are_escaped(self) -> None:
        self.assertEqual(latex_text("{a}_\\"), r"\{a\}\_\textbackslash{}")
        self.assertEqual(latex_text("é😀"), "é😀")
        text = radwelio.latex(Tree("a,b", (Tree("[c]"), Tree("d=e"))))
        self.assertEqual(
            text,
            "\\begin{forest}\n  [{\\textquotedbl{}a,b\\textquotedbl{}}\n    [{\\textquotedbl{}[c]\\textquotedbl{}}]\n"
            "    [{\\textquotedbl{}d=e\\textquotedbl{}}]\n  ]\n\\end{forest}\n",
        )

    def test_brackets_close(self) -> None:
        for text in ("A", "A(B)", "A(B(C),D(E(F,G),H))", "A(B(C(D)))"):
            written = radwelio.latex(Tree.read(text))
            self.assertEqual(written.count("["), written.count("]"))
            self.assertEqual(written.count("["), sum(1 for _ in Tree.read(text).walk()))


if __name__ == "__main__":
    unittest.main()
