"""`explain`, `levels` and `phrase`, which the program may not have: by programs that write defined bytes."""

import radwelio
from radwelio import Tree

from .support import DATA, ProgramCase, example

EXPLAINED = b"""# S 2
-GRAPHE-
-1- P(GN(LE,CHAT),V(DORT)) -2-.
-FIN-
# arc 0 -1- LE -3-.
# arc 1 -3- CHAT -4-.
# arc 2 -4- DORT -2-.
# arc 3 -1- GN(LE,CHAT) -4-.
# arc 4 -1- P(GN(LE,CHAT),V(DORT)) -2-.
# rule 0 on 0,1 gives 3.
# rule 1 on 3,2 gives 4.
"""


class Without(ProgramCase):
    def test_a_program_without_a_command_says_so(self) -> None:
        old = self.player({"run": (0, b"")}, "usage: qsys run|check|graph|made [--limit N]\n")
        for call, name in (
            (lambda: radwelio.explain("", program=old), "explain"),
            (lambda: radwelio.levels("", program=old), "levels"),
            (lambda: radwelio.phrase("", "", program=old), "phrase"),
        ):
            with self.assertRaisesRegex(
                radwelio.CommandMissing, f"no command {name}; it has run, check, graph, made"
            ) as caught:
                call()
            self.assertEqual(caught.exception.status, 1)


class Explain(ProgramCase):
    def test_the_support_is_read_and_written(self) -> None:
        blocks = radwelio.explain("", program=self.player({"explain": (0, EXPLAINED)}))
        self.assertEqual("".join(block.text for block in blocks), EXPLAINED.decode())
        support = blocks[0].support
        assert support is not None and blocks[0].graph is not None
        self.assertEqual(support.left(blocks[0].graph), (4,))
        derivation = support.derivation(4)
        self.assertEqual([derivation.rule, derivation.arc.tree], [1, Tree.read("P(GN(LE,CHAT),V(DORT))")])
        self.assertEqual([below.number for below in derivation.below], [3, 2])
        self.assertEqual([below.rule for below in derivation.below], [0, None])

    def test_support_of_larger_decks(self) -> None:
        for name in ("ambiguous-sentence", "cascade"):
            written = (DATA / f"{name}.explain").read_bytes()
            blocks = radwelio.explain(example(name), program=self.player({"explain": (0, written)}))
            self.assertEqual("".join(block.text for block in blocks), written.decode())
            self.assertEqual([block.graph for block in blocks], [block.graph for block in radwelio.run(example(name))])
            for block in blocks:
                assert block.support is not None and block.graph is not None
                for number, arc in zip(block.support.left(block.graph), block.graph.arcs):
                    self.assertEqual(block.support.derivation(number).arc.tree, arc.tree)

    def test_grammars_that_are_called_arc_and_rule(self) -> None:
        written = EXPLAINED.replace(b"# S 2", b"# arc 2") + b"# rule 3\n-VIDE-.\n"
        blocks = radwelio.explain("", program=self.player({"explain": (0, written)}))
        self.assertEqual([(block.name, block.firings) for block in blocks], [("arc", 2), ("rule", 3)])
        self.assertEqual("".join(block.text for block in blocks), written.decode())

    def test_a_limit_and_an_empty_graph(self) -> None:
        written = b'# "A B" 3\n-VIDE-.\n'
        self.assertEqual(radwelio.explain("", program=self.player({"explain": (0, written)}))[0].text, written.decode())
        written = b"# A\n-LIMITE- 5.\n"
        block = radwelio.explain("", program=self.player({"explain": (3, written)}))[0]
        self.assertEqual((block.limit, block.support), (5, None))

    def test_support_that_goes_in_a_circle(self) -> None:
        written = EXPLAINED.replace(b"rule 0 on 0,1", b"rule 0 on 0,4")
        support = radwelio.explain("", program=self.player({"explain": (0, written)}))[0].support
        assert support is not None
        with self.assertRaisesRegex(radwelio.BrokenOutput, "comes from a later one"):
            support.derivation(4)

    def test_a_long_derivation(self) -> None:
        lines = ["# S 5000", "-GRAPHE-", "-1- A -2-.", "-FIN-"]
        lines += [f"# arc {number} -1- A -2-." for number in range(5001)]
        lines += [f"# rule 0 on {number} gives {number + 1}." for number in range(5000)]
        written = "".join(line + "\n" for line in lines)
        block = radwelio.explain("", program=self.player({"explain": (0, written.encode())}))[0]
        assert block.support is not None and block.graph is not None
        self.assertEqual(block.support.left(block.graph), (5000,))
        step, count = block.support.derivation(5000), 0
        while step.below:
            step, count = step.below[0], count + 1
        self.assertEqual(count, 5000)


class LevelsAndPhrases(ProgramCase):
    def test_levels(self) -> None:
        written = b'-NIVEAUX- S 3.\n0 LE\n0 CHAT\n1 "G N"\n2 P\n-NIVEAUX- "T U" -.\n'
        levels = radwelio.levels("", program=self.player({"levels": (0, written)}))
        self.assertEqual([(one.name, one.count) for one in levels], [("S", 3), ("T U", None)])
        self.assertEqual(levels[0].levels, {"LE": 0, "CHAT": 0, "G N": 1, "P": 2})
        self.assertEqual("".join(one.text for one in levels), written.decode())

    def test_phrases(self) -> None:
        written = b'# PHRASE 1\nB "a b"(C)\nB C\n-SUITE-.\n# PHRASE 2\n-VIDE-.\n# PHRASE 3\n-LIMITE- 3.\n'
        program = self.player({"phrase": (3, written)})
        phrases = radwelio.phrase("-SYSTEME- S.\nA == B.\n", "A A", "B", "C", readings=3, program=program)
        self.assertEqual("".join(one.text for one in phrases), written.decode())
        self.assertEqual(phrases[0].readings[0], (Tree("B"), Tree("a b", (Tree("C"),))))
        self.assertEqual([one.more for one in phrases], [True, False, False])
        self.assertEqual(phrases[2].limit, 3)
        self.assertRaises(ValueError, radwelio.phrase, "", "A\nB", program=program)

    def test_half_of_what_they_write(self) -> None:
        for command, written in (
            ("levels", b"-NIVEAUX- S.\n"),
            ("levels", b"-NIVEAUX- S 3.\nLE\n"),
            ("phrase", b"# PHRASE 1\n"),
            ("phrase", b"PHRASE\n"),
            ("phrase", b"# PHRASE 1\nA  B\n"),
        ):
            program = self.player({command: (0, written)})
            with self.subTest(written), self.assertRaises(radwelio.BrokenOutput):
                radwelio.levels("", program=program) if command == "levels" else radwelio.phrase("", program=program)
