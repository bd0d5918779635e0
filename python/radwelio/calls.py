"""The program's commands as calls.

Each takes a text (a string, bytes in UTF-8, or an open file) and, as `program`, the program to ask: a path, a
`Program`, or None for the one that `Program.find` finds. Each raises `Refused` where the program refuses the text,
`CommandMissing` where it hasn't got the command, and another `Error` where it fails.
"""

from __future__ import annotations

from pathlib import Path
from typing import Iterator, List, Optional, Tuple, Union

from .errors import BrokenOutput
from .graphs import Graph
from .outputs import (
    Block,
    Levels,
    Lines,
    Made,
    Phrase,
    read_blocks,
    read_graph,
    read_levels,
    read_made,
    read_phrases,
)
from .program import Program, Text, asked

Named = Union[None, str, Path, Program]


def commands(program: Named = None) -> Tuple[str, ...]:
    """The commands that the program has, as its usage line names them."""
    return Program.find(program).commands()


def blocks(
    text: Text, *, limit: Optional[int] = None, workers: Optional[int] = None, program: Named = None
) -> Iterator[Block]:
    """What `run` writes for each grammar, each block as soon as the program has written it."""
    words = ["run", *_options(limit=limit, workers=workers)]
    return read_blocks(Lines(asked(Program.find(program), words, text)))


def run(
    text: Text, *, limit: Optional[int] = None, workers: Optional[int] = None, program: Named = None
) -> List[Block]:
    """Runs the deck: what each of its grammars left. The last block may tell that nothing is left, or of the limit."""
    return list(blocks(text, limit=limit, workers=workers, program=program))


def explain(
    text: Text, *, limit: Optional[int] = None, workers: Optional[int] = None, program: Named = None
) -> List[Block]:
    """Runs the deck: what each of its grammars left, with its support: where each arc that is left comes from."""
    words = ["explain", *_options(limit=limit, workers=workers)]
    return list(read_blocks(Lines(asked(Program.find(program), words, text)), explained=True))


def check(text: Text, *, program: Named = None) -> str:
    """The deck in its canonical spelling."""
    return "".join(asked(Program.find(program), ["check"], text))


def graph(text: Text, *, program: Named = None) -> Graph:
    """The graph of the deck, with its nodes numbered."""
    lines = Lines(asked(Program.find(program), ["graph"], text))
    read = read_graph(lines, "the graph of the deck")
    if lines.peek():
        raise BrokenOutput("behind the graph of the deck more is written")
    return read


def made(size: int = 8, *, limit: Optional[int] = None, program: Named = None) -> Made:
    """What is left of the deck that the program makes from this size."""
    lines = Lines(asked(Program.find(program), ["made", *_options(limit=limit, size=size)], b""))
    told = read_made(lines, size)
    if lines.peek():
        raise BrokenOutput("behind what `made` tells more is written")
    return told


def levels(text: Text, *, program: Named = None) -> List[Levels]:
    """For each grammar the levels of its labels, by which its rounds end, or that there are none."""
    return list(read_levels(Lines(asked(Program.find(program), ["levels"], text))))


def phrase(
    grammars: str,
    *phrases: str,
    readings: Optional[int] = None,
    limit: Optional[int] = None,
    workers: Optional[int] = None,
    program: Named = None,
) -> List[Phrase]:
    """The readings of phrases, each a line of words, by grammars, which are the front of a deck, before its graph.

    Phrases without words are passed over, and the others are counted from 1.
    """
    for line in phrases:
        if "\n" in line:
            raise ValueError("a phrase is one line")
    words = ["phrase", *_options(limit=limit, workers=workers, readings=readings)]
    text = grammars.rstrip("\n") + "\n-PHRASES-\n" + "".join(line + "\n" for line in phrases)
    return list(read_phrases(Lines(asked(Program.find(program), words, text))))


def _options(**numbers: Optional[int]) -> List[str]:
    given = {name: number for name, number in numbers.items() if number is not None}
    return [word for name, number in given.items() for word in (f"--{name}", str(int(number)))]
