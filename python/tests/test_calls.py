"""The program's commands as calls, over the examples."""

import io
import itertools
import unittest

import radwelio
from radwelio import Arc, Graph, Refusal, Tree

from .support import ProgramCase, example, examples


class OverExamples(unittest.TestCase):
    def test_the_blocks_of_each_example_have_the_text_that_the_program_writes(self) -> None:
        count = 0
        for name, text, words, wanted, status in examples("run"):
            limit = int(words[words.index("--limit") + 1]) if "--limit" in words else None
            with self.subTest(name):
                if status == 2:
                    with self.assertRaises(radwelio.Refused) as caught:
                        radwelio.run(text, limit=limit)
                    self.assertEqual(caught.exception.refusal.text + "\n", wanted)
                    self.assertEqual(caught.exception.text, text)
                else:
                    blocks = radwelio.run(text, limit=limit)
                    self.assertEqual("".join(block.text for block in blocks), wanted)
                    self.assertEqual(status == 3, blocks[-1].limit is not None)
                count += 1
        self.assertGreater(count, 30)

    def test_the_other_commands_give_what_the_program_writes(self) -> None:
        for name, text, _, wanted, _ in examples("check"):
            self.assertEqual(radwelio.check(text), wanted, name)
        for name, text, _, wanted, _ in examples("graph"):
            self.assertEqual(radwelio.graph(text).text, wanted, name)
        for name, text, words, _, status in examples():
            if status == 2:
                for call in (radwelio.check, radwelio.graph, radwelio.run):
                    self.assertRaises(radwelio.Refused, call, text)
            else:
                spelled = radwelio.check(text)
                self.assertEqual(radwelio.check(spelled), spelled, name)

    def test_lines_of_words(self) -> None:
        for name, text, words, wanted, _ in examples("phrase"):
            grammars, _, lines = text.decode().partition("-PHRASES-\n")
            readings = int(words[-1]) if "--readings" in words else None
            phrases = radwelio.phrase(grammars, *lines.splitlines(), readings=readings)
            self.assertEqual("".join(phrase.text for phrase in phrases), wanted, name)

    def test_a_deck_is_made(self) -> None:
        self.assertEqual(radwelio.made(3).text, "-FAIT- 3 8 13 1.\n")
        self.assertEqual(radwelio.made(3, limit=12), radwelio.Made(3, limit=12))

    def test_the_commands_are_those_of_the_usage_line(self) -> None:
        self.assertEqual(radwelio.commands()[:4], ("run", "check", "graph", "made"))


class Texts(ProgramCase):
    def test_a_text_is_a_string_or_bytes_or_a_file(self) -> None:
        text = example("quotes")
        wanted = radwelio.run(text)
        self.assertEqual(radwelio.run(text.decode()), wanted)
        self.assertEqual(radwelio.run(io.BytesIO(text)), wanted)
        self.assertEqual(radwelio.run(io.StringIO(text.decode())), wanted)

    def test_a_block_is_given_when_it_is_written(self) -> None:
        held = self.script(
            "import sys, os\n"
            "sys.stdout.write('# A 0\\n-VIDE-.\\n# B 0\\n-GRAPHE-\\n-1- X -2-.\\n-FIN-\\n'); sys.stdout.flush()\n"
            "sys.stdin.buffer.read()\n"
            "sys.stdout.write('# C 1\\n-VIDE-.\\n')\n"
        )
        first_two = []

        class Held(io.RawIOBase):
            """A text whose end comes when the two blocks are there."""

            def read(self, size: int = -1) -> bytes:
                import time

                for _ in range(1000):
                    if len(first_two) == 2:
                        return b""
                    time.sleep(0.01)
                raise AssertionError("the blocks that were written didn't come")

        for block in radwelio.blocks(Held(), program=held):  # type: ignore[arg-type]
            first_two.append(block.name)
        self.assertEqual(first_two, ["A", "B", "C"])

    def test_blocks_that_nobody_takes_end_the_program(self) -> None:
        endless = self.script("while True: print('# A 0\\n-VIDE-.')\n")
        blocks = radwelio.blocks("", program=endless)
        self.assertEqual([block.name for block in itertools.islice(blocks, 3)], ["A"] * 3)
        blocks.close()  # type: ignore[attr-defined]


class Values(unittest.TestCase):
    def test_readings_of_a_graph_come_in_the_order_of_its_arcs(self) -> None:
        graph = Graph.read(
            "-GRAPHE-\n-1- A -3-.\n-3- B -2-.\n-1- C -2-.\n-3- D -2-.\n-FIN-\n"
        )
        self.assertEqual([[arc.tree.text for arc in path] for path in graph.paths()], [["A", "B"], ["A", "D"], ["C"]])
        wide = Graph(tuple(Arc(node, node + 1, Tree(label)) for node in range(1, 400) for label in "AB"))
        self.assertEqual(len(list(itertools.islice(wide.paths(), 1000))), 1000)
        self.assertEqual(list(Graph(()).paths()), [])

    def test_a_tree_of_any_depth_is_read_compared_and_written(self) -> None:
        depth = 50_000
        text = "A(" * depth + "B" + ")" * depth
        tree = Tree.read(text)
        self.assertEqual(tree.text, text)
        self.assertEqual(tree, Tree.read(text))
        self.assertNotEqual(tree, Tree.read(text.replace("B", "C")))
        self.assertEqual(hash(tree), hash(Tree.read(text)))
        self.assertEqual(tree.fold(lambda one, below: 1 + sum(below)), depth + 1)
        self.assertEqual(Tree.read("A(" * 600 + "B" + ")" * 600).pretty().count("\n"), 600)

    def test_labels_that_have_to_be_quoted_come_back(self) -> None:
        for label in ("", " ", '"', 'a"b""c', "A.B", "-FIN-", "(x)", "\u2028", "\x85", "\t\x00", "😀", "# no"):
            tree = Tree("P", (Tree(label), Tree("é")))
            self.assertEqual(Tree.read(tree.text), tree)
            graph = Graph((Arc(1, 2, tree),))
            self.assertEqual(Graph.read(graph.text), graph)
            self.assertEqual(radwelio.graph(f"-SYSTEME- S.\n{graph.text}"), graph)

    def test_what_is_no_tree_and_no_graph_is_not_read(self) -> None:
        for text in ("", "A(", "A)", "A(B", "A(B,)", "A B", '"A', "A()", "(A)"):
            self.assertRaises(radwelio.BrokenOutput, Tree.read, text)
        for text in ("", "-GRAPHE-\n", "-GRAPHE-\n-1- A 2-.\n-FIN-\n", "-GRAPHE-\n-1- A -2-\n-FIN-\n"):
            self.assertRaises(radwelio.BrokenOutput, Graph.read, text)

    def test_values_are_plain(self) -> None:
        self.assertEqual(Refusal(3, 16, "Unbound").text, "-REFUS- 3 16 Unbound.")
        self.assertEqual(repr(Tree.read("A(B)")), "Tree.read('A(B)')")
        self.assertEqual(len({Tree("A"), Tree("A"), Tree("B")}), 2)
        block = radwelio.run(example("sentence"))[-1]
        assert block.graph is not None
        self.assertEqual(block.graph.arcs[0].tree, Tree("P"))
        for shown in (block, block.graph, block.graph.arcs[0].tree):
            self.assertTrue((shown._repr_svg_() or "").startswith("<svg "))  # type: ignore[attr-defined]


class Conversions(unittest.TestCase):
    def test_a_graph_of_networkx(self) -> None:
        try:
            import networkx
        except ImportError:
            self.skipTest("networkx isn't installed")
        graph = radwelio.run(example("found-twice"))[-1].graph
        assert graph is not None
        made = graph.to_networkx()
        self.assertEqual([made.number_of_nodes(), made.number_of_edges()], [2, 2])
        self.assertTrue(networkx.is_directed_acyclic_graph(made))
        self.assertEqual({data["tree"].text for _, _, data in made.edges(data=True)}, {"N(AMI)"})

    def test_a_tree_of_nltk(self) -> None:
        try:
            import nltk
        except ImportError:
            self.skipTest("nltk isn't installed")
        made = Tree.read("P(GN(LE,CHAT),V)").to_nltk()
        self.assertEqual(made, nltk.Tree("P", [nltk.Tree("GN", ["LE", "CHAT"]), "V"]))
        self.assertEqual(Tree("V").to_nltk(), nltk.Tree("V", []))
