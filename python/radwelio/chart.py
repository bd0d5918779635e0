"""A graph as a chart in plain text, as chart parsers print it: a column for each node, a line for each arc."""

from __future__ import annotations

from typing import Dict, List

from .columns import cut, width_of
from .graphs import Graph
from .trees import visible

MOST_NODES = 250
"""A chart of more nodes would be wider than anything that shows it."""


def chart(graph: Graph, width: int = 80) -> str:
    """The chart: nodes from left to right, and below them, for each arc in order of its place, its span and its tree.

    Where the whole would be wider than `width` columns, the nodes stand closer, but never closer than their numbers
    need, and long trees are cut. A graph of more than 250 nodes is told by its arcs' nodes and trees alone.

    >>> print(chart(Graph.read("-GRAPHE-\\n-1- LE -3-.\\n-3- CHAT -2-.\\n-1- GN -2-.\\n-FIN-\\n")))
    1        3        2
    [--------]        |  LE
    |        [--------]  CHAT
    [-----------------]  GN
    """
    if not graph.arcs:
        return "(nothing is left)"
    nodes = list(graph.distances())
    trees = [visible(arc.tree.text) for arc in graph.arcs]
    if len(nodes) > MOST_NODES:
        return "\n".join(f"{arc.start} to {arc.end}  {tree}" for arc, tree in zip(graph.arcs, trees))
    widest = max(width_of(tree) for tree in trees)
    least = max(len(str(node)) for node in nodes) + 1
    room = max(0, width - 3 - min(widest, max(20, width // 3)))
    step = max(least, 2, min(9, room // max(1, len(nodes) - 1)))
    place: Dict[int, int] = {node: index * step for index, node in enumerate(nodes)}
    lines = ["".join(str(node).ljust(step) for node in nodes).rstrip()]
    blank = "|".ljust(step) * (len(nodes) - 1) + "|"
    order = sorted(range(len(trees)), key=lambda at: (_span(graph, at, place), at))
    for at in order:
        start, end = place[graph.arcs[at].start], place[graph.arcs[at].end]
        span = "[" + "-" * (end - start - 1) + "]"
        line = blank[:start] + span + blank[end + 1 :]
        lines.append(line + "  " + cut(trees[at], max(20, width - len(line) - 2)))
    return "\n".join(lines)


def _span(graph: Graph, at: int, place: Dict[int, int]) -> List[int]:
    start, end = place[graph.arcs[at].start], place[graph.arcs[at].end]
    return [end - start, start]
