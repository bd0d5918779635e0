"""Pages: what is on them, and that they work in a browser. Derivations are those of programs with defined bytes."""

import re
import unittest
from html.parser import HTMLParser
from typing import Dict, List, Optional, Set, Tuple

import radwelio
from radwelio.pages import MOST_ARCS

from . import browser
from .support import DATA, ProgramCase, example, examples

VOID = {"meta", "link", "br", "img", "hr", "input"}


class Elements(HTMLParser):
    """Reads a page: each element has to be closed; keeps names, identities, links and the text."""

    def __init__(self, page: str) -> None:
        super().__init__(convert_charrefs=True)
        self.open: List[str] = []
        self.names: List[Tuple[str, Dict[str, Optional[str]]]] = []
        self.text = ""
        self.feed(page)
        self.close()
        if self.open:
            raise AssertionError(f"these aren't closed: {self.open}")

    def handle_starttag(self, tag: str, attrs: List[Tuple[str, Optional[str]]]) -> None:
        self.names.append((tag, dict(attrs)))
        if tag not in VOID:
            self.open.append(tag)

    def handle_startendtag(self, tag: str, attrs: List[Tuple[str, Optional[str]]]) -> None:
        self.names.append((tag, dict(attrs)))

    def handle_endtag(self, tag: str) -> None:
        if not self.open or self.open.pop() != tag:
            raise AssertionError(f"{tag} is closed where it isn't open")

    def handle_data(self, data: str) -> None:
        if not self.open or self.open[-1] not in ("script", "style"):
            self.text += data

    def identities(self) -> List[str]:
        return [attributes["id"] or "" for _, attributes in self.names if "id" in attributes]

    def links(self) -> Set[str]:
        return {attributes["href"] or "" for _, attributes in self.names if "href" in attributes}


class PageCase(ProgramCase):
    def explained(self, name: str) -> str:
        """The page of an example, by a program that writes what `explain` is defined to write for it."""
        graph = radwelio.graph(example(name)).text.encode()
        answers = {"graph": (0, graph), "explain": (0, (DATA / f"{name}.explain").read_bytes())}
        return radwelio.page(example(name), name=f"{name}.qs", program=self.player(answers))


class OnThePage(PageCase):
    def test_pages_of_the_examples_are_whole_and_need_no_network(self) -> None:
        for name, text, words, wanted, status in examples():
            if status == 2:
                self.assertRaises(radwelio.Refused, radwelio.page, text)
                continue
            with self.subTest(name):
                page = radwelio.page(text, name=name, limit=50)
                read = Elements(page)
                identities = read.identities()
                self.assertEqual(len(identities), len(set(identities)))
                self.assertLessEqual({link for link in read.links()}, {"#" + one for one in identities})
                self.assertNotRegex(page.replace("http://www.w3.org/2000/svg", ""), r"https?://|@import|url\(|src=")
                for line in text.decode().split("\n"):
                    self.assertIn(line.replace("\r", ""), read.text)

    def test_each_rule_has_its_number_and_each_grammar_its_section(self) -> None:
        read = Elements(radwelio.page(example("noun-phrase")))
        rules = [one for one in read.identities() if one.startswith("rule-")]
        self.assertEqual(rules, [f"rule-0-{number}" for number in range(7)] + ["rule-1-0"])
        self.assertLessEqual({"grammar-0", "grammar-1"}, set(read.identities()))
        self.assertEqual(sum(tag == "svg" for tag, _ in read.names), 4)
        for told in ("7 rules", "8 rules"):
            self.assertEqual(told in read.text, told == "8 rules")
        self.assertIn("1 firing. 5 arcs are left.", read.text)

    def test_without_explain_the_page_says_so_and_has_no_derivation(self) -> None:
        old = self.player(
            {"graph": (0, b"-GRAPHE-\n-1- A -2-.\n-FIN-\n"), "run": (0, b"# S 0\n-GRAPHE-\n-1- A -2-.\n-FIN-\n")},
            "usage: qsys run|check|graph|made [--limit N]\n",
        )
        page = radwelio.page(b"-SYSTEME- S.\n-GRAPHE-\n-1- A -2-.\n-FIN-\n", program=old)
        self.assertIn("has no command explain", Elements(page).text)
        self.assertNotIn('class="derivation"', page)

    def test_with_explain_each_arc_leads_to_its_derivation(self) -> None:
        read = Elements(self.explained("ambiguous-sentence"))
        self.assertLessEqual({"#derivation-0-0", "#derivation-0-1"}, read.links())
        for told in (
            "How 1 P(GN(PETITE),GV(BRISER,GN(GLACE))) 2 came about",
            "4 GV(BRISER,GN(GLACE)) 2 by rule 10",
            "5 LA 6 in the deck's graph",
        ):
            self.assertIn(told, read.text)

    def test_arcs_of_a_grammar_before_lead_to_their_derivation_there(self) -> None:
        page = self.explained("cascade")
        self.assertEqual(Elements(page).text.count("in the graph before"), 3)
        self.assertIn('<a href="#derivation-0-2">in the graph before</a>', page)

    def test_limit_nothing_left_and_grammars_that_were_not_run(self) -> None:
        self.assertIn("needs more than 5 firings", Elements(radwelio.page(example("endless"), limit=5)).text)
        text = Elements(radwelio.page(example("empty-cascade"))).text
        self.assertIn("Nothing is left.", text)
        self.assertIn("1 grammar behind that wasn't run.", text)

    def test_what_pages_take_for_their_own_is_escaped(self) -> None:
        label = "<script>alert(1)</script>&\"' </style> 😀 \x1b"
        deck = f'# {label}\n-SYSTEME- "{label.replace(chr(34), chr(34) * 2)}".\n-GRAPHE-\n-1- '
        deck += f'"{label.replace(chr(34), chr(34) * 2)}" -2-.\n-FIN-\n'
        page = radwelio.page(deck.encode(), name="<b>.qs")
        read = Elements(page)
        self.assertNotIn("b", [tag for tag, _ in read.names])
        self.assertEqual(sum(tag == "script" for tag, _ in read.names), 1)
        self.assertNotIn("\x1b", page)
        self.assertIn("<script>alert(1)</script>", read.text)
        self.assertIn("😀", read.text)

    def test_a_graph_of_too_many_arcs_is_told_and_not_drawn(self) -> None:
        words = " + ".join(["A"] * (MOST_ARCS + 1))
        page = radwelio.page(f"-SYSTEME- S.\n-GRAPHE-\n-1- {words} -2-.\n-FIN-\n".encode())
        self.assertIn("too many to be drawn", page)
        self.assertNotIn("<svg", page)

    def test_a_long_derivation_goes_on_in_lists_of_its_own(self) -> None:
        lines = ["# S 300", "-GRAPHE-", "-1- A -2-.", "-FIN-"]
        lines += [f"# arc {number} -1- A -2-." for number in range(301)]
        lines += [f"# rule 0 on {number} gives {number + 1}." for number in range(300)]
        written = "".join(line + "\n" for line in lines).encode()
        graph = b"-GRAPHE-\n-1- A -2-.\n-FIN-\n"
        page = radwelio.page(
            b"-SYSTEME- S.\nA == A.\n" + graph, program=self.player({"graph": (0, graph), "explain": (0, written)})
        )
        depth = deepest = 0
        for found in re.findall(r"<(/?)ul", page):
            depth += -1 if found else 1
            deepest = max(deepest, depth)
        self.assertLess(deepest, 40)
        self.assertEqual(Elements(page).text.count("as told below"), Elements(page).text.count("Further,"))
        self.assertIn('data-number="0"', page)


@unittest.skipUnless(browser.found(), "there is no browser")
class InABrowser(PageCase):
    def shown(self, name: str) -> browser.Browser:
        path = self.folder / "page.html"
        path.write_text(self.explained(name), encoding="utf-8")
        one = browser.Browser(str(self.folder / "profile"))
        one.__enter__()
        self.addCleanup(one.__exit__)
        one.open(path.as_uri())
        return one

    def marked(self, one: browser.Browser) -> List[str]:
        numbers: List[str] = one.value(
            "Array.from(document.querySelectorAll('.line.marked .rule')).map(function (rule) { return rule.id; })"
        )
        return numbers

    VISIBLE = "Array.from(document.querySelectorAll('.derivation')).filter(function (one) { return one.offsetHeight; })"

    def test_a_click_shows_the_derivation_and_marks_the_rules(self) -> None:
        one = self.shown("ambiguous-sentence")
        self.assertEqual(one.value(f"{self.VISIBLE}.length"), 0)
        one.click('svg a[href="#derivation-0-1"] rect')
        one.wait(f"{self.VISIBLE}.length === 1")
        self.assertEqual(one.value(f"{self.VISIBLE}[0].id"), "derivation-0-1")
        self.assertEqual(self.marked(one), [f"rule-0-{number}" for number in (0, 3, 5, 6, 8, 10, 12)])
        self.assertEqual(one.value("document.querySelectorAll('g.arc.chosen').length"), 1)
        self.assertEqual(one.value("document.querySelectorAll('g.arc.source').length"), 5)
        one.click('svg a[href="#derivation-0-0"] rect')
        one.wait(f"{self.VISIBLE}[0].id === 'derivation-0-0'")
        self.assertIn("rule-0-11", self.marked(one))
        self.assertNotIn("rule-0-10", self.marked(one))
        self.assertEqual(one.faults(), [])

    def test_the_keyboard_does_the_same(self) -> None:
        one = self.shown("ambiguous-sentence")
        for _ in range(30):
            one.key("Tab", 9)
            if (one.value("document.activeElement.getAttribute('href')") or "").startswith("#derivation-"):
                break
        else:
            self.fail("no arc is reached by Tab")
        one.key("Enter", 13, "\r")
        one.wait(f"{self.VISIBLE}.length === 1")
        self.assertTrue(self.marked(one))
        one.key("Escape", 27)
        one.wait(f"{self.VISIBLE}.length === 0")
        self.assertEqual(self.marked(one), [])
        self.assertEqual(one.faults(), [])

    def test_a_derivation_leads_to_that_of_the_grammar_before(self) -> None:
        one = self.shown("cascade")
        one.click('#grammar-1 svg a[href="#derivation-1-0"] rect')
        one.wait(f"{self.VISIBLE}.length === 1")
        one.click('.derivation.shown a[href="#derivation-0-1"]')
        one.wait(f"{self.VISIBLE}[0].id === 'derivation-0-1'")
        self.assertEqual(self.marked(one), ["rule-0-1"])
        self.assertEqual(one.faults(), [])

    def test_without_scripts_all_derivations_are_there(self) -> None:
        one = self.shown("ambiguous-sentence")
        one.call("Emulation.setScriptExecutionDisabled", value=True)
        one.call("Page.reload")
        one.wait("document.readyState === 'complete' && !document.documentElement.classList.contains('scripted')")
        self.assertEqual(one.value(f"{self.VISIBLE}.length"), 2)

    def test_no_text_of_a_picture_is_wider_than_its_place(self) -> None:
        one = self.shown("ambiguous-sentence")
        wide = one.value(
            "Array.from(document.querySelectorAll('svg text')).filter(function (text) {"
            " return text.getBBox().width > Number(text.getAttribute('textLength')) + 1.5; }).length"
        )
        self.assertEqual(wide, 0)


if __name__ == "__main__":
    unittest.main()
