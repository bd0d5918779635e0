"""Labels and trees, and their canonical text.

Nothing here recurses over the depth of a tree: rules may build trees of any depth.
"""

from __future__ import annotations

import re
from dataclasses import dataclass
from typing import Any, Callable, Iterator, List, Tuple, TypeVar

from .errors import BrokenOutput

BARE = re.compile(r"[A-Za-z0-9_'\u0080-\U0010ffff]+")
QUOTED = re.compile(r'"((?:[^"\r\n]|"")*)"')

Folded = TypeVar("Folded")


def spelled(label: str) -> str:
    """The label in canonical spelling: bare where it can be, and otherwise between quotes.

    >>> print(spelled("CHAT"), spelled("nord-ouest"), spelled('le "chat"'), spelled(""))
    CHAT "nord-ouest" "le ""chat\""" ""
    """
    if BARE.fullmatch(label):
        return label
    return '"' + label.replace('"', '""') + '"'


def read_label(text: str, at: int = 0) -> Tuple[str, int]:
    """The label that is spelled from this place on, and the place behind it."""
    found = BARE.match(text, at)
    if found:
        return found.group(), found.end()
    found = QUOTED.match(text, at)
    if found:
        return found.group(1).replace('""', '"'), found.end()
    raise BrokenOutput(f"no label stands at column {at + 1} of: {text}")


@dataclass(frozen=True, eq=False, repr=False)
class Tree:
    """A label and the trees below it. Two trees are equal where their labels and the trees below them are.

    >>> tree = Tree.read("GN(LE,CHAT)")
    >>> tree.label, [below.label for below in tree.trees]
    ('GN', ['LE', 'CHAT'])
    >>> tree == Tree("GN", (Tree("LE"), Tree("CHAT")))
    True
    """

    label: str
    trees: Tuple["Tree", ...] = ()

    def __post_init__(self) -> None:
        object.__setattr__(self, "trees", tuple(self.trees))

    @staticmethod
    def read(text: str) -> Tree:
        """The tree with this canonical text."""
        tree, end = read_tree(text)
        if end != len(text):
            raise BrokenOutput(f"a tree ends at column {end + 1}, and more follows: {text}")
        return tree

    @property
    def text(self) -> str:
        """The canonical text.

        >>> Tree("P", (Tree("nord-ouest"), Tree("V"))).text
        'P("nord-ouest",V)'
        """
        pieces: List[str] = []
        rest: List[Any] = [self]
        while rest:
            item = rest.pop()
            if isinstance(item, str):
                pieces.append(item)
                continue
            pieces.append(spelled(item.label))
            if item.trees:
                pieces.append("(")
                rest.append(")")
                for place in range(len(item.trees) - 1, -1, -1):
                    rest.append(item.trees[place])
                    if place:
                        rest.append(",")
        return "".join(pieces)

    def walk(self) -> Iterator[Tuple[int, Tree]]:
        """This tree and all below it, each before those below it, with its depth (0 for this tree)."""
        rest = [(0, self)]
        while rest:
            depth, tree = rest.pop()
            yield depth, tree
            rest.extend((depth + 1, below) for below in reversed(tree.trees))

    def fold(self, join: Callable[[Tree, List[Folded]], Folded]) -> Folded:
        """What `join` makes of this tree and of what it made of the trees below it."""
        done: List[Folded] = []
        for tree in reversed([tree for _, tree in self.walk()]):
            below = [done.pop() for _ in tree.trees]
            done.append(join(tree, below))
        return done[0]

    def pretty(self) -> str:
        """The tree as lines of text, for a terminal.

        >>> print(Tree.read("P(GN(LE,CHAT),V(DORT))").pretty())
        P
        ├── GN
        │   ├── LE
        │   └── CHAT
        └── V
            └── DORT
        """
        lines: List[str] = []
        rest = [("", "", self)]
        while rest:
            front, below, tree = rest.pop()
            lines.append(front + visible(spelled(tree.label)))
            for place in range(len(tree.trees) - 1, -1, -1):
                last = place == len(tree.trees) - 1
                branch, pass_by = ("└── ", "    ") if last else ("├── ", "│   ")
                rest.append((below + branch, below + pass_by, tree.trees[place]))
        return "\n".join(lines)

    def svg(self) -> str:
        """A picture of the tree; see `radwelio.svg`."""
        from .pictures import svg

        return svg(self)

    def _repr_svg_(self) -> str:
        return self.svg()

    def to_nltk(self) -> Any:
        """The tree as one of nltk (which has to be installed), whose leaves below the root are strings."""
        import nltk  # type: ignore

        def join(tree: Tree, below: List[Any]) -> Any:
            return nltk.Tree(tree.label, below) if below else tree.label

        made = self.fold(join)
        return nltk.Tree(made, []) if isinstance(made, str) else made

    def __eq__(self, other: object) -> bool:
        if not isinstance(other, Tree):
            return NotImplemented
        ours, theirs = self.walk(), other.walk()
        for (_, a), (_, b) in zip(ours, theirs):
            if a.label != b.label or len(a.trees) != len(b.trees):
                return False
        return True

    def __hash__(self) -> int:
        return hash(self.text)

    def __str__(self) -> str:
        return self.text

    def __repr__(self) -> str:
        return f"Tree.read({self.text!r})"


def read_tree(text: str, at: int = 0) -> Tuple[Tree, int]:
    """The tree whose canonical text begins at this place, and the place behind it."""
    open_trees: List[Tuple[str, List[Tree]]] = []
    while True:
        label, at = read_label(text, at)
        if text.startswith("(", at):
            open_trees.append((label, []))
            at += 1
            continue
        tree = Tree(label)
        while open_trees:
            open_trees[-1][1].append(tree)
            if text.startswith(",", at):
                at += 1
                break
            if not text.startswith(")", at):
                raise BrokenOutput(f"neither ',' nor ')' stands at column {at + 1} of: {text}")
            at += 1
            label, below = open_trees.pop()
            tree = Tree(label, tuple(below))
        else:
            return tree, at


def visible(text: str) -> str:
    """The text with each character that isn't one to be shown, as a control, in a form that can be: one character each.

    >>> visible("a\\tb\\x1b[0m")
    'a␉b␛[0m'
    """
    return "".join(_visible(character) for character in text)


def _visible(character: str) -> str:
    code = ord(character)
    if code < 0x20:
        return chr(0x2400 + code)
    if code == 0x7F:
        return "\u2421"
    if 0x80 <= code < 0xA0 or 0xD800 <= code < 0xE000 or code & 0xFFFE == 0xFFFE:
        return "\ufffd"
    if code in (0x2028, 0x2029) or 0x202A <= code <= 0x202E or 0x2066 <= code <= 0x2069:
        return "\ufffd"
    return character
