"""Graphs and trees as texts for other programs: Graphviz and LaTeX."""

from __future__ import annotations

from typing import List, Union

from .graphs import Arc, Graph
from .trees import Tree, spelled, visible

LATEX = {
    "\\": r"\textbackslash{}",
    "{": r"\{",
    "}": r"\}",
    "$": r"\$",
    "&": r"\&",
    "#": r"\#",
    "_": r"\_",
    "%": r"\%",
    "~": r"\textasciitilde{}",
    "^": r"\textasciicircum{}",
    '"': r"\textquotedbl{}",
    "<": r"\textless{}",
    ">": r"\textgreater{}",
    "|": r"\textbar{}",
    "-": r"{-}",
    "'": r"{'}",
    "`": r"{`}",
}


def dot(graph: Graph) -> str:
    r"""The graph for Graphviz, from left to right; each arc has its tree's canonical text.

    >>> print(dot(Graph((Arc(1, 2, Tree('a "b\\c" & d')),))), end="")
    digraph {
      rankdir=LR;
      node [shape=circle, fontsize=11, width=0.3, fixedsize=true];
      edge [fontname="Helvetica", fontsize=12];
      1;
      2;
      1 -> 2 [label="\"a \"\"b\\c\"\" &amp; d\""];
    }
    """
    lines = [
        "digraph {",
        "  rankdir=LR;",
        "  node [shape=circle, fontsize=11, width=0.3, fixedsize=true];",
        '  edge [fontname="Helvetica", fontsize=12];',
    ]
    lines += [f"  {node};" for node in graph.nodes]
    for arc in graph.arcs:
        text = visible(arc.tree.text).replace("\\", "\\\\").replace('"', '\\"').replace("&", "&amp;")
        lines.append(f'  {arc.start} -> {arc.end} [label="{text}"];')
    return "\n".join([*lines, "}", ""])


def latex(item: Union[Tree, Graph]) -> str:
    """A tree, or each tree of a graph with its nodes, for LaTeX with the package `forest`.

    The preamble needs `\\usepackage{forest}`, and `\\usepackage[T1]{fontenc}` where it isn't XeLaTeX or LuaLaTeX that
    reads it; those two are needed for characters that pdfLaTeX doesn't know.

    >>> print(latex(Tree.read("GN(LE,CHAT)")), end="")
    \\begin{forest}
      [{GN}
        [{LE}]
        [{CHAT}]
      ]
    \\end{forest}
    """
    if isinstance(item, Tree):
        return "\\begin{forest}\n" + "\n".join(_brackets(item)) + "\n\\end{forest}\n"
    pieces = ["% each arc of the graph: its nodes, and its tree\n"]
    for arc in item.arcs:
        pieces.append(f"\\par\\medskip\\noindent ${arc.start} \\to {arc.end}$\\quad\n{latex(arc.tree)}")
    return "".join(pieces)


def latex_document(item: Union[Tree, Graph]) -> str:
    """A whole document with what `latex` gives."""
    return (
        "\\documentclass{article}\n\\usepackage{iftex}\n"
        "\\ifPDFTeX\\usepackage[utf8]{inputenc}\\usepackage[T1]{fontenc}\\else\\usepackage{fontspec}\\fi\n"
        "\\usepackage{forest}\n\\begin{document}\n" + latex(item) + "\\end{document}\n"
    )


def _brackets(tree: Tree) -> List[str]:
    """The lines of a tree in brackets, each below the one above it further in."""
    lines: List[str] = []
    opened = 0
    for depth, below in tree.walk():
        while opened > depth:
            opened -= 1
            lines.append(_front(opened) + "]")
        label = "{" + latex_text(spelled(below.label)) + "}"
        lines.append(f"{_front(depth)}[{label}" + ("" if below.trees else "]"))
        opened += bool(below.trees)
    lines.extend(_front(depth) + "]" for depth in range(opened - 1, -1, -1))
    return lines


def _front(depth: int) -> str:
    return "  " * min(depth + 1, 40)


def latex_text(text: str) -> str:
    """The text with what LaTeX reads as its own escaped.

    >>> print(latex_text("<&> 100% é"))
    \\textless{}\\&\\textgreater{} 100\\% é
    """
    return "".join(LATEX.get(character, character) for character in visible(text))
