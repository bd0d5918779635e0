"""Radwelio for people: what the program `qsys` writes, as plain values, pictures, messages and pages.

The program is a proved interpreter of Q-systems. This package computes no meaning of its own: every graph, refusal and
derivation in it is one that the program wrote.

    >>> import radwelio
    >>> blocks = radwelio.run(open("examples/sentence.qs"))      # doctest: +SKIP
    >>> print(blocks[-1].graph.arcs[0].tree.pretty())            # doctest: +SKIP
"""

from .calls import blocks, check, commands, explain, graph, levels, made, phrase, run
from .chart import chart
from .errors import BrokenOutput, CommandMissing, Error, ProgramFailed, ProgramMissing, Refused
from .graphs import Arc, Graph
from .messages import message
from .outputs import Block, Derivation, Firing, Levels, Made, Phrase, Refusal, Support
from .pages import page
from .pictures import svg
from .program import Program
from .trees import Tree
from .writing import dot, latex

__all__ = [
    "Arc",
    "Block",
    "BrokenOutput",
    "CommandMissing",
    "Derivation",
    "Error",
    "Firing",
    "Graph",
    "Levels",
    "Made",
    "Phrase",
    "Program",
    "ProgramFailed",
    "ProgramMissing",
    "Refusal",
    "Refused",
    "Support",
    "Tree",
    "blocks",
    "chart",
    "check",
    "commands",
    "dot",
    "explain",
    "graph",
    "latex",
    "levels",
    "made",
    "message",
    "page",
    "phrase",
    "run",
    "svg",
]

__version__ = "1.0"
