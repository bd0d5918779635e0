"""Refusals as messages: each cause with its whole message."""

import re
import unittest
from typing import Union

import radwelio
from radwelio import Refusal, Refused
from radwelio.messages import CAUSES

from .support import TOP, example


def told(text: Union[str, bytes], name: str = "deck.qs", color: bool = False) -> str:
    """The message for a text that the program refuses."""
    try:
        radwelio.check(text)
    except Refused as refused:
        return radwelio.message(refused, name=name, color=color)
    raise AssertionError("the text is accepted")


def rule(line: str) -> str:
    """A deck with this line as its third."""
    return f"# a deck\n-SYSTEME- S.\n{line}\n-GRAPHE-\n-1- A -2-.\n-FIN-\n"


def first_words() -> str:
    """The words with which a deck may begin: a program that knows version 2 of decks has one more."""
    try:
        radwelio.check("-VERSION- 2.\n" + rule("A == B."))
    except Refused:
        return "-SYSTEME-"
    return "-SYSTEME- or -VERSION-"


KINDS = "A* to F* stand for labels, I* to N* for trees, U* to Z* for lists of trees"

OF_EXAMPLES = {
    "bad-character": """\
deck.qs:3:4: error: a single '=' is no sign
  3 | LE = GN.
    |    ^
    = the two sides of a rule are joined by '=='""",
    "bad-variable": f"""\
deck.qs:3:4: error: G* is no variable: none has the letter G
  3 | GN(G*) == P(G*).
    |    ^^
    = {KINDS}""",
    "bad-word": """\
deck.qs:3:15: error: -OR- is no word of decks
  3 | LE == GN / LE -OR- LA.
    |               ^^^^
    = is -OU- meant?""",
    "cycle": """\
deck.qs:4:1: error: the arcs of the graph have a cycle: a path comes back to where it begins
  4 | -GRAPHE-
    | ^^^^^^^^
    = a way back: -1- to -2- to -1-""",
    "entries": """\
deck.qs:4:1: error: 2 nodes have no arc into them; exactly one, the entry, may have none
  4 | -GRAPHE-
    | ^^^^^^^^
    = no arc leads into -1-, -2-""",
    "exits": """\
deck.qs:4:1: error: 2 nodes have no arc out of them; exactly one, the exit, may have none
  4 | -GRAPHE-
    | ^^^^^^^^
    = no arc leads out of -2-, -3-""",
    "not-utf8": """\
deck.qs:3:7: error: the bytes from here on aren't UTF-8
  3 | LE == \ufffdT\ufffd.
    |       ^
    = is the text in Latin-1? then this line says: LE == ÉTÉ.
    = a deck is written in UTF-8""",
    "open-quote": """\
deck.qs:3:7: error: the quote that opens here isn't closed in its line
  3 | LE == "GN.
    |       ^^^^
    = a quote inside of a quoted label is written twice, as in "le ""chat""\"""",
    "side-too-long": """\
deck.qs:3:81: error: the left side has 17 trees; at most 16 are allowed
  3 | …E + LE + LE + LE + LE + LE + LE + LE + LE + LE + LE + LE + LE + LE == P.
    |                                                                  ^^
    = the 17th begins here""",
    "syntax": """\
deck.qs:3:1: error: the variable U* can't stand here: expected a label, a label variable (as A*), \
a tree variable (as I*), -SYSTEME- or -GRAPHE-
  3 | U* + CHAT == GN.
    | ^^
    = U* to Z* stand for lists of trees, so they stand inside of parentheses or in the lists of a condition""",
    "too-deep": """\
deck.qs:3:1001: error: more than 1,000 parentheses are open here
  3 | …(((((((((((((((((((((((((((((((((((((((((((((((((((((((((((((((((.
    |                                                                  ^
    = at most 1,000 may be open at a place""",
    "too-many-cells": """\
deck.qs:3:513: error: the rule has 258 labels and variables; at most 256 are allowed
  3 | …N,N,N,N,N,N,N,N,N,N,N,N,N,N,N,N,N,N,N,N,N,N,N,N,N,N,N,N,N,N,N,N,N) == P.
    |                                                                  ^
    = the 257th stands here""",
    "too-many-systems": """\
deck.qs:258:1: error: the deck has 257 grammars; at most 256 are allowed
  258 | -SYSTEME- S.
      | ^^^^^^^^^
      = the 257th begins here""",
    "too-many-variables": """\
deck.qs:3:154: error: the rule has 33 different variables; at most 32 are allowed
  3 | …*20,I*21,I*22,I*23,I*24,I*25,I*26,I*27,I*28,I*29,I*30,I*31,I*32,I*33) == P.
    |                                                                  ^^^^
    = the 33rd stands here for the first time""",
    "unbound": """\
deck.qs:3:16: error: the variable J* of the right side isn't in the left side of its rule
  3 | GN(I*) == P(I*,J*).
    |                ^^
    = the left side has I*""",
}


class EachCause(unittest.TestCase):
    def test_each_refused_example_has_its_whole_message(self) -> None:
        for name, wanted in OF_EXAMPLES.items():
            with self.subTest(name):
                self.assertEqual(told(example(f"refused-{name}")), wanted)

    def test_all_causes_are_shown(self) -> None:
        names = {"".join(part.capitalize() for part in name.split("-")) for name in OF_EXAMPLES}
        self.assertEqual(names | {"TooManyArcs"}, set(CAUSES))
        language = (TOP / "docs" / "LANGUAGE.md").read_text(encoding="utf-8")
        table = language.partition("\n## Refusals\n")[2].partition("\nAn example of each")[0]
        self.assertEqual(set(re.findall("`([A-Z][A-Za-z0-9]+)`", table)), set(CAUSES))

    def test_too_many_arcs(self) -> None:
        text = "-SYSTEME- S.\n-GRAPHE-\n-1- LE" + " + LE" * 65540 + " -2-.\n-FIN-\n"
        first, line, caret, note = told(text).split("\n")
        self.assertEqual(
            first, "deck.qs:3:327685: error: the graph has 65,541 trees, each on an arc; at most 65,536 are allowed"
        )
        self.assertTrue(line.startswith("  3 | …") and line.endswith("LE -2-.") and len(line) < 120, line)
        self.assertEqual(line[len(caret) - 2 :][:2], "LE")
        self.assertEqual(note, "    = the 65,537th begins here")

    def test_a_cause_that_is_not_known(self) -> None:
        self.assertEqual(
            radwelio.message(Refusal(1, 2, "NewCause"), "ABC", name="d"),
            "d:1:2: error: the text is refused here: NewCause\n  1 | ABC\n    |  ^^",
        )
        told_alone = radwelio.message(Refusal(1, 2, "Unbound"))
        self.assertEqual(told_alone, "deck:1:2: error: the text is refused here: Unbound")


class Sentences(unittest.TestCase):
    def first(self, text: str) -> str:
        return told(text).split("\n")[0]

    def test_what_is_told_of_variables(self) -> None:
        for spelling, sentence in (
            ("AB*", "AB* is no variable: a star stands behind a single letter"),
            ("A*07", "A*07 is no variable: its number isn't one from 1 to 99 without leading zero"),
            ("A*100", "A*100 is no variable: its number isn't one from 1 to 99 without leading zero"),
            ("é*", "é* is no variable: none has the letter é"),
        ):
            self.assertEqual(self.first(rule(f"P({spelling}) == B.")), f"deck.qs:3:3: error: {sentence}")

    def test_what_is_told_of_words_and_nodes(self) -> None:
        for spelling, sentence in (
            ("-012-", "-012- is no node"),
            ("-0-", "-0- is no node"),
            ("-9999999999-", "-9999999999- is no node"),
            ("-DANS", "a '-' begins neither a word nor a node here"),
            ("- DANS", "a '-' begins neither a word nor a node here"),
            ("--", "between these two '-' stands neither a word nor a number"),
            ("-SYSTEM-", "-SYSTEM- is no word of decks"),
        ):
            self.assertEqual(self.first(rule(spelling)), f"deck.qs:3:1: error: {sentence}")
        self.assertIn("= is -SYSTEME- meant?", told(rule("-SYSTEM-")))
        self.assertNotIn("meant?", told(rule("-XYZ-")))

    def test_what_is_told_of_characters(self) -> None:
        for character, sentence in (
            ("?", "no token begins with '?' (U+003F)"),
            (";", "no token begins with ';' (U+003B)"),
            ("*", "a '*' stands here without a letter"),
            ("\x1b", "no token begins with '␛' (U+001B)"),
        ):
            self.assertEqual(self.first(rule(f"A == {character}B.")), f"deck.qs:3:6: error: {sentence}")

    def test_a_variable_of_the_condition(self) -> None:
        message = told(rule("P(I*,U*) == B / I* -DANS- Z*."))
        self.assertIn("deck.qs:3:27: error: the variable Z* of the condition isn't in the left side", message)
        self.assertIn("= the left side has I*, U*", message)
        self.assertIn("= the left side has no variable", told(rule("P == I*.")))

    def test_the_right_side_is_too_long(self) -> None:
        self.assertIn("the right side has 18 trees; at most 16", self.first(rule("A == " + " + ".join("B" * 18) + ".")))

    def test_a_long_cycle_and_many_ends(self) -> None:
        chains = "".join(f"-{node}- A -{node % 30 + 1}-.\n" for node in range(1, 31))
        self.assertIn("-2- to -3- to -4- ", told(f"-SYSTEME- S.\n-GRAPHE-\n{chains}-FIN-\n"))
        chains = "".join(f"-{node}- A -99-.\n" for node in range(1, 31))
        message = told(f"-SYSTEME- S.\n-GRAPHE-\n{chains}-FIN-\n")
        self.assertIn("30 nodes have no arc into them", message)
        self.assertIn("-11-, -12- ..", message)


class Expected(unittest.TestCase):
    """What could stand at the place of a syntax error, as the program says."""

    def expected(self, text: str) -> str:
        first = told(text).split("\n")[0]
        return first.partition(": expected ")[2]

    def test_at_places_of_a_rule(self) -> None:
        self.assertEqual(self.expected(rule("A B.")), "'(', '+' or '=='")
        self.assertEqual(self.expected(rule("A == B")), "'(', '+', '/' or '.'")
        self.assertEqual(self.expected(rule("P(A B) == C.")), "'(', ')' or ','")
        self.assertEqual(self.expected(rule("P(U*) == C / U* C.")), "',', -DANS- or -HORS-")
        self.assertEqual(
            self.expected(rule("P(U*) == C / -NON- -NON- U* -DANS- C.")),
            "a label, a label variable (as A*), a tree variable (as I*), a forest variable (as U*) or '('",
        )

    def test_at_places_of_a_deck(self) -> None:
        self.assertEqual(self.expected("A == B."), first_words())
        self.assertEqual(self.expected("-SYSTEME- ."), "a label")
        self.assertEqual(self.expected("-SYSTEME- S.\n-GRAPHE-\n-FIN-"), "a node (as -1-)")
        self.assertEqual(self.expected("-SYSTEME- S.\n-GRAPHE-\n-1- A -2-.\n-FIN- -FIN-"), "the end of the text")
        self.assertEqual(self.expected("-SYSTEME- S.\n-GRAPHE-\n-1- A -2-.\n"), "a node (as -1-) or -FIN-")

    def test_at_the_end(self) -> None:
        self.assertEqual(
            told(""),
            f"deck.qs:1:1: error: the text ends too early: expected {first_words()}\n  1 |\n    | ^",
        )
        self.assertIn("deck.qs:2:1: error: the text ends too early: expected '('", told("-SYSTEME- S. A\n"))

    def test_behind_a_comment(self) -> None:
        self.assertEqual(self.expected(rule("A # no rule\n B.")), "'(', '+' or '=='")
        self.assertEqual(self.expected("-SYSTEME- S. A # no rule"), "'(', '+' or '=='")


class Shown(unittest.TestCase):
    def caret(self, line: str) -> str:
        return "\n".join(told(rule(line)).split("\n")[1:3])

    def test_wide_characters_take_two_columns(self) -> None:
        self.assertEqual(self.caret("猫 == 犬犬 = A."), "  3 | 猫 == 犬犬 = A.\n    |            ^")
        self.assertEqual(self.caret("😀 = A."), "  3 | 😀 = A.\n    |    ^")

    def test_characters_that_join_take_none(self) -> None:
        self.assertEqual(self.caret("e\u0301te\u0301 = A."), "  3 | e\u0301te\u0301 = A.\n    |     ^")

    def test_a_tab_goes_to_a_column(self) -> None:
        self.assertEqual(self.caret("A\tB\t= A."), "  3 | A       B       = A.\n    |                 ^")

    def test_controls_reach_no_terminal(self) -> None:
        message = told(rule('A == "\x1b[31m" ?.'), name="a\x1b[2Jb.qs")
        self.assertNotIn("\x1b", message)
        self.assertIn("␛[31m", message)

    def test_a_carriage_return_ends_no_line_but_is_not_shown(self) -> None:
        self.assertEqual(told("-SYSTEME- S.\r\nA = B.\r\n").split("\n")[1:3], ["  2 | A = B.", "    |   ^"])

    def test_a_name_in_a_text_given_as_string(self) -> None:
        try:
            radwelio.check(rule("A = B."))
        except Refused as refused:
            self.assertEqual(str(refused), "3:3: BadCharacter")
            self.assertTrue(radwelio.message(refused, name="x").startswith("x:3:3: error:"))

    def test_color(self) -> None:
        plain, colored = told(rule("A = B.")), told(rule("A = B."), color=True)
        self.assertIn("\x1b[1;31merror:\x1b[0m", colored)
        self.assertIn("\x1b[1;31m^\x1b[0m", colored)
        self.assertEqual(re.sub("\x1b\\[[0-9;]*m", "", colored), plain)


if __name__ == "__main__":
    unittest.main()
