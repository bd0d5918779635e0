"""A page that shows a deck and what the program made of it: one file, without a network, readable without scripts."""

from __future__ import annotations

from html import escape
from typing import Dict, List, Optional, Sequence, Tuple

from . import calls
from .calls import Named
from .errors import BrokenOutput
from .graphs import Graph
from .outputs import Block, Derivation
from .pagestyle import SCRIPT, STYLE
from .pictures import svg
from .program import Program
from .tokens import TOKEN, Places, WrittenGrammar, grammars_of
from .trees import spelled, visible

MOST_ARCS = 2_000
"""A graph of more arcs is told in text, and not drawn."""

MOST_STEPS = 20_000
"""How many lines the derivations of a page may have together."""

MOST_DEPTH = 30
"""How deep a derivation is written before it goes on in a list of its own."""


def page(
    text: bytes,
    *,
    name: str = "deck",
    limit: Optional[int] = None,
    workers: Optional[int] = None,
    program: Named = None,
) -> str:
    """The page for a deck: the deck with its rules numbered, and for each grammar the graph before and after it.

    Where the program has `explain`, the page tells of each arc that is left how it came about. Raises `Refused` where
    the program refuses the deck.
    """
    found = Program.find(program)
    explained = "explain" in found.commands()
    before = calls.graph(text, program=found)
    run = calls.explain if explained else calls.run
    blocks = run(text, limit=limit, workers=workers, program=found)
    return _Page(text.decode("utf-8"), name, before, blocks, explained).whole()


class _Page:
    def __init__(self, text: str, name: str, before: Graph, blocks: Sequence[Block], explained: bool) -> None:
        self.text = text
        self.name = visible(name)
        self.before = before
        self.blocks = blocks
        self.explained = explained
        self.grammars, _ = grammars_of(text)
        self.steps = 0
        self.cut = False
        self.linked: Dict[int, Dict[int, str]] = {}
        """For each grammar, by its place, and each arc that it left, by its place, where its derivation stands."""

    def whole(self) -> str:
        sections = self._sections()
        rules = sum(len(grammar.rules) for grammar in self.grammars)
        contents = [f'<li><a href="#grammar-{at}">{_code(block.name)}</a></li>' for at, block in enumerate(self.blocks)]
        told = (
            f"{_count(len(self.grammars), 'grammar')}, {_count(rules, 'rule')}, "
            f"and a graph of {_count(len(self.before.arcs), 'arc')}."
        )
        how = (
            "Choose an arc of a graph that is left (by a click, or by Tab and Enter) to see how it came about."
            if self.linked
            else ""
        )
        if not self.explained:
            how = "The program that made this page has no command <code>explain</code>, so no derivations are shown."
        elif self.cut:
            how += f" Derivations of more than {MOST_STEPS:,} lines in all are left out."
        return "\n".join(
            [
                "<!DOCTYPE html>",
                '<html lang="en">',
                "<head>",
                '<meta charset="utf-8">',
                '<meta name="viewport" content="width=device-width, initial-scale=1">',
                "<meta http-equiv=\"Content-Security-Policy\" content=\"default-src 'none'; style-src 'unsafe-inline'; "
                "script-src 'unsafe-inline'\">",
                f"<title>{escape(self.name)}</title>",
                f"<style>{STYLE}</style>",
                "</head>",
                "<body>",
                '<a class="skip" href="#results">To what is left</a>',
                "<header>",
                f"<h1>{escape(self.name)}</h1>",
                f"<p>{told} {how}</p>",
                f'<nav aria-label="Grammars"><ol>{"".join(contents)}</ol></nav>',
                "</header>",
                "<main>",
                self._deck(),
                '<div id="results">',
                *sections,
                "</div>",
                "</main>",
                f"<script>{SCRIPT}</script>",
                "</body>",
                "</html>",
                "",
            ]
        )

    def _deck(self) -> str:
        """The deck as it is written, each line with its number, and each rule with its own."""
        places = Places(self.text)
        begins: Dict[int, List[str]] = {}
        belongs: Dict[int, List[str]] = {}
        for at, grammar in enumerate(self.grammars):
            for number, rule in enumerate(grammar.rules):
                first, last = places.line_of(rule[0].start), places.line_of(rule[-1].end - 1)
                begins.setdefault(first, []).append(f"{at}-{number}")
                for line in range(first, last + 1):
                    belongs.setdefault(line, []).append(f"{at}-{number}")
        lines: List[str] = []
        for number, marked in enumerate(_marked(self.text), 1):
            if number == len(places) and not places.line(number):
                break
            anchors = "".join(
                f'<span class="rule" id="rule-{rule}" title="the rule {rule.partition("-")[2]} of its grammar">'
                f'{rule.partition("-")[2]}</span>'
                for rule in begins.get(number, ())
            )
            of = f' data-rules="{" ".join(belongs[number])}"' if number in belongs else ""
            lines.append(
                f'<div class="line"{of}><span class="number">{number}</span><span class="rules">{anchors}</span>'
                f"<code>{marked}</code></div>"
            )
        return (
            '<section id="deck" aria-labelledby="deck-title"><h2 id="deck-title">The deck</h2>'
            '<p class="note">In each grammar the rules are numbered from 0, in the second column.</p>'
            '<div class="listing" tabindex="0" role="region" aria-label="The deck">'
            + "".join(lines)
            + "</div></section>"
        )

    def _sections(self) -> List[str]:
        sections: List[str] = []
        before: Optional[Graph] = self.before
        for at, block in enumerate(self.blocks):
            derivations = self._derivations(at, block)
            known = self.linked.get(at, {})
            if block.firings is None:
                told = f"The grammar needs more than {block.limit:,} firings, which is the limit."
            else:
                told = f"{_count(block.firings, 'firing')}. "
                left = 0 if block.graph is None else len(block.graph.arcs)
                are = "is" if left == 1 else "are"
                told += f"{_count(left, 'arc')} {are} left." if left else "Nothing is left."
            parts = [
                f'<section class="grammar" id="grammar-{at}" aria-labelledby="title-{at}">',
                f'<h2 id="title-{at}">{at + 1}. {_code(block.name)}</h2>',
                f"<p>{told}</p>",
            ]
            if before is not None:
                earlier = self.linked.get(at - 1, {})
                parts.append(self._figure("Before", before, earlier, f"The graph before {visible(block.name)}"))
            if block.graph is not None:
                parts.append(self._figure("After", block.graph, known, f"The graph after {visible(block.name)}"))
            if derivations:
                parts.append('<div class="derivations" aria-live="polite">')
                parts.extend(derivations)
                parts.append("</div>")
            parts.append(
                "<details><summary>As the program writes it</summary>"
                f"<pre>{escape(_controls(block.text))}</pre></details>"
            )
            parts.append("</section>")
            sections.append("\n".join(parts))
            before = block.graph
        missing = len(self.grammars) - len(self.blocks)
        if missing > 0:
            run = "wasn't" if missing == 1 else "weren't"
            sections.append(f'<p class="note">{_count(missing, "grammar")} behind that {run} run.</p>')
        return sections

    def _figure(self, title: str, graph: Graph, links: Dict[int, str], name: str) -> str:
        if len(graph.arcs) > MOST_ARCS:
            drawn = f"<p>A graph of {_count(len(graph.arcs), 'arc')}: too many to be drawn.</p>"
        else:
            drawn = svg(graph, links=links.get if links else None, name=name)
        return (
            f"<figure><figcaption>{title}</figcaption>"
            f'<div class="picture" tabindex="0" role="region" aria-label={_quoted(name)}>{drawn}</div></figure>'
        )

    def _derivations(self, at: int, block: Block) -> List[str]:
        """The derivation of each arc that the grammar left."""
        if block.graph is None or block.support is None:
            return []
        sections: List[str] = []
        for place, number in enumerate(block.support.left(block.graph)):
            if self.steps > MOST_STEPS:
                self.cut = True
                break
            derivation = block.support.derivation(number)
            anchor = f"derivation-{at}-{place}"
            self.linked.setdefault(at, {})[place] = "#" + anchor
            arc = block.graph.arcs[place]
            sections.append(
                f'<section class="derivation" id="{anchor}" data-grammar="{at}" data-arc="{place}" tabindex="-1" '
                f'aria-label={_quoted("How " + visible(arc.text) + " came about")}>'
                f"<h3>How {_arc_text(arc.tree.text, arc.start, arc.end)} came about</h3>"
                + self._derivation(at, derivation)
                + "</section>"
            )
        return sections

    def _derivation(self, at: int, derivation: Derivation) -> str:
        """The derivation as lists in lists, each arc's once; below a depth it goes on in a list of its own."""
        pieces: List[str] = []
        told = set()
        roots = [derivation]
        for root in roots:
            if root is not derivation:
                pieces.append(f"<p>Further, {_arc_text(root.arc.tree.text, root.arc.start, root.arc.end)}:</p>")
            pieces.append('<ul class="tree">')
            rest: List[Tuple[int, object]] = [(0, root)]
            while rest:
                depth, item = rest.pop()
                if isinstance(item, str):
                    pieces.append(item)
                    continue
                assert isinstance(item, Derivation)
                self.steps += 1
                pieces.append("<li>" + self._step(at, item, item.number in told, depth >= MOST_DEPTH))
                new = item.number not in told
                told.add(item.number)
                if item.below and new and depth < MOST_DEPTH:
                    pieces.append("<ul>")
                    rest.append((depth, "</ul></li>"))
                    rest.extend((depth + 1, below) for below in reversed(item.below))
                    continue
                if item.below and new:
                    roots.append(item)
                    told.discard(item.number)
                pieces.append("</li>")
            pieces.append("</ul>")
        return "".join(pieces)

    def _step(self, at: int, step: Derivation, again: bool, deep: bool) -> str:
        marks = f'<span class="step" data-number="{step.number}">' + _arc_text(
            step.arc.tree.text, step.arc.start, step.arc.end
        )
        if step.rule is None:
            earlier = self.linked.get(at - 1, {}).get(step.number)
            where = "in the graph before" if at else "in the deck's graph"
            return marks + f' <span class="by">{_link(earlier, where)}</span></span>'
        rule = f"{at}-{step.rule}"
        by = f'<a class="by" href="#rule-{rule}" data-rule="{rule}">by rule {step.rule}</a>'
        if again:
            by += ', <span class="by">as told above</span>'
        elif deep:
            by += ', <span class="by">as told below</span>'
        return f"{marks} {by}</span>"


def _marked(text: str) -> List[str]:
    """The lines of a text with its tokens marked by their kinds."""
    lines = [""]
    for found in TOKEN.finditer(text):
        kind = found.lastgroup or "other"
        piece = found.group()
        if kind == "space":
            if not piece.startswith("#"):
                for at, part in enumerate(piece.split("\n")):
                    if at:
                        lines.append("")
                    lines[-1] += part.replace("\r", "")
                continue
            kind = "comment"
        shown = escape(_controls(piece))
        lines[-1] += shown if kind in ("sign", "label", "other") else f'<span class="{kind}">{shown}</span>'
    return lines


def _arc_text(tree: str, start: int, end: int) -> str:
    return f'<span class="node">{start}</span> <code>{escape(visible(tree))}</code> <span class="node">{end}</span>'


def _code(label: str) -> str:
    return f"<code>{escape(visible(spelled(label)))}</code>"


def _link(target: Optional[str], text: str) -> str:
    return f"<a href={_quoted(target)}>{text}</a>" if target else text


def _quoted(text: str) -> str:
    return f'"{escape(text)}"'


def _count(number: int, what: str) -> str:
    return f"{number:,} {what}{'' if number == 1 else 's'}"


def _controls(text: str) -> str:
    """The text with its controls visible, but for tabs and ends of lines."""
    return "".join(character if character in "\t\n" else visible(character) for character in text)
