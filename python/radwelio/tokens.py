"""The tokens of a text, as far as messages and pages show them: where each stands, and where a rule begins and ends.

What a text means is the program's to say. This is asked only about texts, or fronts of texts, that it has read.
"""

from __future__ import annotations

import re
from bisect import bisect_right
from dataclasses import dataclass
from typing import Iterator, List, Tuple

LETTERS = r"A-Za-z0-9_'\u0080-\U0010ffff"
TOKEN = re.compile(
    rf"""
    (?P<space>[ \t\r\n]+|\#[^\n]*)
  | (?P<variable>[{LETTERS}]+\*[0-9]*)
  | (?P<label>[{LETTERS}]+|"(?:[^"\r\n]|"")*")
  | (?P<mark>-[0-9]+-)
  | (?P<word>-[A-Z]+-)
  | (?P<sign>==|[(),+./])
  | (?P<other>"[^\r\n]*|-[A-Z0-9]*|.)
    """,
    re.VERBOSE | re.DOTALL,
)


@dataclass(frozen=True)
class Token:
    """A token: its kind (variable, label, mark, word, sign or other), its spelling and where it begins, from 0."""

    kind: str
    text: str
    start: int

    @property
    def end(self) -> int:
        """Where it ends."""
        return self.start + len(self.text)


def tokens_of(text: str, start: int = 0) -> Iterator[Token]:
    """The tokens from this place on."""
    for found in TOKEN.finditer(text, start):
        if found.lastgroup != "space":
            yield Token(found.lastgroup or "other", found.group(), found.start())


class Places:
    """Lines and columns, both from 1, of places in a text."""

    def __init__(self, text: str) -> None:
        self.text = text
        self._starts = [0] + [found.end() for found in re.finditer("\n", text)]

    def place(self, line: int, column: int) -> int:
        """The place of this line and column, or the end of the text where it has none."""
        if line > len(self._starts):
            return len(self.text)
        return min(self._starts[line - 1] + column - 1, len(self.text))

    def line_of(self, place: int) -> int:
        """The line of a place."""
        return bisect_right(self._starts, place)

    def column_of(self, place: int) -> int:
        """The column of a place."""
        return place - self._starts[self.line_of(place) - 1] + 1

    def line(self, number: int) -> str:
        """A line, without its line feed."""
        if number > len(self._starts):
            return ""
        end = self._starts[number] - 1 if number < len(self._starts) else len(self.text)
        return self.text[self._starts[number - 1] : end]

    def __len__(self) -> int:
        return len(self._starts)


@dataclass(frozen=True)
class WrittenGrammar:
    """A grammar as it stands in a text: its heading, and each rule, as tokens."""

    heading: Tuple[Token, ...]
    rules: Tuple[Tuple[Token, ...], ...]


def grammars_of(text: str) -> Tuple[List[WrittenGrammar], Tuple[Token, ...]]:
    """The grammars of a deck that the program has read, and the tokens of its graph."""
    headings: List[Tuple[Token, ...]] = []
    rules: List[List[Tuple[Token, ...]]] = []
    run: List[Token] = []
    graph = False
    for token in tokens_of(text):
        graph = graph or (token.kind == "word" and token.text == "-GRAPHE-")
        run.append(token)
        if graph or token.text != "." or token.kind != "sign":
            continue
        if run[0].text == "-SYSTEME-":
            headings.append(tuple(run))
            rules.append([])
        elif rules:
            rules[-1].append(tuple(run))
        run = []
    grammars = [WrittenGrammar(heading, tuple(of)) for heading, of in zip(headings, rules)]
    return grammars, tuple(run)
