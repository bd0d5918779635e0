"""What the program writes, as plain values, and how it is read from its lines."""

from __future__ import annotations

import re
from dataclasses import dataclass, field
from functools import cached_property
from typing import Dict, Iterable, Iterator, List, Optional, Tuple

from .errors import BrokenOutput
from .graphs import Arc, Graph
from .trees import Tree, read_label, read_tree, spelled

REFUSAL = re.compile(r"-REFUS- ([1-9][0-9]*) ([1-9][0-9]*) ([A-Za-z0-9]+)\.\n")
LIMIT = re.compile(r"-LIMITE- ([0-9]+)\.\n")
MADE = re.compile(r"-FAIT- ([0-9]+) ([0-9]+) ([0-9]+) ([0-9]+)\.\n")
SUPPORTED_ARC = re.compile(r"# arc ([0-9]+) (-.*\.)\n", re.DOTALL)
SUPPORTED_RULE = re.compile(r"# rule ([0-9]+) on ([0-9,]+) gives ([0-9,]+)\.\n")
PHRASE = re.compile(r"# PHRASE ([1-9][0-9]*)\n")
USAGE = re.compile(r"usage: \S+ ([a-z|]+)")


@dataclass(frozen=True)
class Refusal:
    """That a text was refused: the line and the column (from 1, in characters) of its first fault, and the cause."""

    line: int
    column: int
    cause: str

    @property
    def text(self) -> str:
        """Its line, without the line feed."""
        return f"-REFUS- {self.line} {self.column} {self.cause}."

    def __str__(self) -> str:
        return self.text


@dataclass(frozen=True)
class Firing:
    """That a rule (from 0, in its grammar) was used on a path of arcs, and the arcs that it gave, by their numbers."""

    rule: int
    path: Tuple[int, ...]
    gives: Tuple[int, ...]

    @property
    def text(self) -> str:
        """Its line, without the line feed."""
        return f"# rule {self.rule} on {_joined(self.path)} gives {_joined(self.gives)}."


@dataclass(frozen=True)
class Derivation:
    """How an arc came about: its number and the arc, and the rule and the derivations of the arcs that the rule used.

    `rule` is None for an arc of the graph on which the grammar was run.
    """

    number: int
    arc: Arc
    rule: Optional[int] = None
    below: Tuple["Derivation", ...] = field(default=(), repr=False, compare=False)


@dataclass(frozen=True)
class Support:
    """Where the arcs that are left come from, as `explain` tells it: arcs by their numbers, and firings."""

    arcs: Dict[int, Arc]
    firings: Tuple[Firing, ...]

    @property
    def text(self) -> str:
        """Its lines."""
        arcs = "".join(f"# arc {number} {arc.text}\n" for number, arc in self.arcs.items())
        return arcs + "".join(firing.text + "\n" for firing in self.firings)

    @cached_property
    def _by(self) -> Dict[int, Firing]:
        """For each arc that a firing gave the first such firing."""
        by: Dict[int, Firing] = {}
        for firing in self.firings:
            for given in firing.gives:
                by.setdefault(given, firing)
        return by

    def left(self, graph: Graph) -> Tuple[int, ...]:
        """The numbers of the arcs of the graph that was left, in its order: those that no firing used."""
        used = {number for firing in self.firings for number in firing.path}
        numbers = tuple(number for number in self.arcs if number not in used)
        trees = [self.arcs[number].tree for number in numbers]
        if trees != [arc.tree for arc in graph.arcs]:
            raise BrokenOutput("the arcs that `explain` tells of aren't those that are left")
        return numbers

    def derivation(self, number: int) -> Derivation:
        """How the arc with this number came about. Where several firings gave it, the first one is told.

        Arcs that came about together share what is below them, so this is small; written out as a tree it may be large.
        """
        made: Dict[int, Derivation] = {}
        rest = [number]
        while rest:
            arc = rest[-1]
            if arc not in self.arcs:
                raise BrokenOutput(f"`explain` tells of no arc {arc}")
            firing = self._by.get(arc)
            path = () if firing is None else firing.path
            missing = [below for below in path if below not in made]
            if arc in made or not missing:
                rest.pop()
                rule = None if firing is None else firing.rule
                made.setdefault(arc, Derivation(arc, self.arcs[arc], rule, tuple(made[below] for below in path)))
            elif any(below >= arc for below in missing):
                raise BrokenOutput(f"`explain` tells that the arc {arc} comes from a later one")
            else:
                rest.extend(reversed(missing))
        return made[number]


@dataclass(frozen=True)
class Block:
    """What one grammar left. Where it needed more firings than the limit, `limit` is that, and `firings` is None.

    `graph` is None where nothing is left, and where the limit was met. `support` is there where `explain` was asked.
    """

    name: str
    firings: Optional[int]
    graph: Optional[Graph]
    limit: Optional[int] = None
    support: Optional[Support] = None

    @property
    def text(self) -> str:
        """The block as the program writes it."""
        if self.firings is None:
            return f"# {spelled(self.name)}\n-LIMITE- {self.limit}.\n"
        first = f"# {spelled(self.name)} {self.firings}\n"
        if self.graph is None:
            return first + "-VIDE-.\n"
        return first + self.graph.text + (self.support.text if self.support else "")

    def __str__(self) -> str:
        return self.text

    def _repr_svg_(self) -> Optional[str]:
        return self.graph.svg() if self.graph else None


@dataclass(frozen=True)
class Made:
    """What `made` tells: the size, the number of words, the firings and the arcs left; or the limit that was met."""

    size: int
    words: Optional[int] = None
    firings: Optional[int] = None
    arcs: Optional[int] = None
    limit: Optional[int] = None

    @property
    def text(self) -> str:
        """Its line."""
        if self.limit is not None:
            return f"-LIMITE- {self.limit}.\n"
        return f"-FAIT- {self.size} {self.words} {self.firings} {self.arcs}.\n"


@dataclass(frozen=True)
class Levels:
    """The levels of a grammar's labels, by which its rounds end; `count` is None where there are no such levels."""

    name: str
    count: Optional[int]
    levels: Dict[str, int]

    @property
    def text(self) -> str:
        """Its lines."""
        count = "-" if self.count is None else str(self.count)
        lines = "".join(f"{level} {spelled(label)}\n" for label, level in self.levels.items())
        return f"-NIVEAUX- {spelled(self.name)} {count}.\n{lines}"


@dataclass(frozen=True)
class Phrase:
    """The readings of a line of words, the lines with words being counted from 1, and whether there are more.

    Each reading is the trees of a path from entry to exit. `limit` is there where a grammar met it.
    """

    number: int
    readings: Tuple[Tuple[Tree, ...], ...] = ()
    more: bool = False
    limit: Optional[int] = None

    @property
    def text(self) -> str:
        """Its lines."""
        first = f"# PHRASE {self.number}\n"
        if self.limit is not None:
            return f"{first}-LIMITE- {self.limit}.\n"
        if not self.readings:
            return first + "-VIDE-.\n"
        lines = "".join(" ".join(tree.text for tree in reading) + "\n" for reading in self.readings)
        return first + lines + ("-SUITE-.\n" if self.more else "")


class Lines:
    """Lines that are looked at before they are taken."""

    def __init__(self, lines: Iterable[str]) -> None:
        self._lines = iter(lines)
        self._next: Optional[str] = None

    def peek(self) -> str:
        """The next line with its line feed, or the empty text behind the last one."""
        if self._next is None:
            self._next = next(self._lines, "")
            if self._next and not self._next.endswith("\n"):
                raise BrokenOutput(f"what the program wrote ends inside of a line: {self._next[:200]}")
        return self._next

    def take(self, within: str) -> str:
        """The next line, of which there has to be one, as what is being read isn't whole without it."""
        line = self.peek()
        if not line:
            raise BrokenOutput(f"what the program wrote ends inside of {within}")
        self._next = None
        return line


def read_refusal(lines: Lines) -> Optional[Refusal]:
    """The refusal, where the next line tells one."""
    found = REFUSAL.fullmatch(lines.peek())
    if not found:
        return None
    lines.take("a refusal")
    return Refusal(int(found.group(1)), int(found.group(2)), found.group(3))


def read_graph(lines: Lines, within: str) -> Graph:
    """The graph whose lines come next."""
    if lines.take(within) != "-GRAPHE-\n":
        raise BrokenOutput(f"where the graph of {within} should begin, something else stands")
    arcs: List[Arc] = []
    while lines.peek() != "-FIN-\n":
        arcs.append(Arc.read(lines.take(within)))
    lines.take(within)
    return Graph(tuple(arcs))


def read_support(lines: Lines, within: str) -> Support:
    """The lines of `explain` that come next."""
    arcs: Dict[int, Arc] = {}
    firings: List[Firing] = []
    while True:
        arc = SUPPORTED_ARC.fullmatch(lines.peek())
        if arc:
            arcs[int(arc.group(1))] = Arc.read(arc.group(2))
        else:
            rule = SUPPORTED_RULE.fullmatch(lines.peek())
            if not rule:
                return Support(arcs, tuple(firings))
            firings.append(Firing(int(rule.group(1)), _numbers(rule.group(2)), _numbers(rule.group(3))))
        lines.take(within)


def read_blocks(lines: Lines, explained: bool = False) -> Iterator[Block]:
    """The blocks, each as soon as it is there; with the lines of `explain` where it was asked."""
    while lines.peek():
        line = lines.take("a block")
        if not line.startswith("# "):
            raise BrokenOutput(f"where a block should begin stands: {line.rstrip()[:200]}")
        name, at = read_label(line, 2)
        within = f"the block of {spelled(name)}"
        rest = line[at:].strip()
        if not rest:
            limit = LIMIT.fullmatch(lines.take(within))
            if not limit:
                raise BrokenOutput(f"{within} tells no limit")
            yield Block(name, None, None, int(limit.group(1)))
            continue
        if not rest.isdecimal():
            raise BrokenOutput(f"where a block should begin stands: {line.rstrip()[:200]}")
        if lines.peek() == "-VIDE-.\n":
            lines.take(within)
            yield Block(name, int(rest), None)
            continue
        graph = read_graph(lines, within)
        yield Block(name, int(rest), graph, None, read_support(lines, within) if explained else None)


def read_made(lines: Lines, size: int) -> Made:
    """What `made` tells."""
    line = lines.take("what `made` tells")
    limit, made = LIMIT.fullmatch(line), MADE.fullmatch(line)
    if limit:
        return Made(size, limit=int(limit.group(1)))
    if made:
        return Made(*(int(number) for number in made.groups()))
    raise BrokenOutput(f"`made` tells: {line.rstrip()}")


def read_levels(lines: Lines) -> Iterator[Levels]:
    """What `levels` tells of each grammar."""
    front = "-NIVEAUX- "
    while lines.peek():
        line = lines.take("what `levels` tells")
        name, at = read_label(line, len(front)) if line.startswith(front) else ("", 0)
        count = re.fullmatch(r" ([0-9]+|-)\.\n", line[at:])
        if not count:
            raise BrokenOutput(f"`levels` tells: {line.rstrip()}")
        levels: Dict[str, int] = {}
        while lines.peek() and not lines.peek().startswith(front):
            level, _, label = lines.take("what `levels` tells").partition(" ")
            text, end = read_label(label)
            if not level.isdecimal() or label[end:] != "\n":
                raise BrokenOutput(f"`levels` tells: {level} {label.rstrip()}")
            levels[text] = int(level)
        yield Levels(name, None if count.group(1) == "-" else int(count.group(1)), levels)


def read_phrases(lines: Lines) -> Iterator[Phrase]:
    """What `phrase` tells of each line of words."""
    while lines.peek():
        line = lines.take("what `phrase` tells")
        found = PHRASE.fullmatch(line)
        if not found:
            raise BrokenOutput(f"where the readings of a phrase should begin stands: {line.rstrip()[:200]}")
        number = int(found.group(1))
        within = f"the phrase {number}"
        limit = LIMIT.fullmatch(lines.peek())
        if limit:
            lines.take(within)
            yield Phrase(number, limit=int(limit.group(1)))
            continue
        if lines.peek() == "-VIDE-.\n":
            lines.take(within)
            yield Phrase(number)
            continue
        readings: List[Tuple[Tree, ...]] = []
        while lines.peek() and not lines.peek().startswith(("# ", "-SUITE-.")):
            readings.append(_reading(lines.take(within)))
        if not readings:
            raise BrokenOutput(f"{within} has no reading, and doesn't say that nothing is left")
        more = lines.peek() == "-SUITE-.\n"
        if more:
            lines.take(within)
        yield Phrase(number, tuple(readings), more)


def _reading(line: str) -> Tuple[Tree, ...]:
    trees: List[Tree] = []
    at = 0
    while True:
        tree, at = read_tree(line, at)
        trees.append(tree)
        if line[at:] == "\n":
            return tuple(trees)
        if line[at : at + 1] != " ":
            raise BrokenOutput(f"no reading is: {line.rstrip()[:200]}")
        at += 1


def _numbers(text: str) -> Tuple[int, ...]:
    return tuple(int(number) for number in text.split(",") if number)


def _joined(numbers: Iterable[int]) -> str:
    return ",".join(str(number) for number in numbers)
