"""Arcs and graphs: what the program wrote, with ways to look at it."""

from __future__ import annotations

import re
from dataclasses import dataclass
from typing import Any, Dict, Iterable, Iterator, List, Tuple

from .errors import BrokenOutput
from .trees import Tree, read_tree

START = re.compile(r"-([1-9][0-9]*)- ")
END = re.compile(r" -([1-9][0-9]*)-\.\n?")


@dataclass(frozen=True)
class Arc:
    """An arc from the node `start` to the node `end` that carries a tree."""

    start: int
    end: int
    tree: Tree

    @staticmethod
    def read(line: str) -> Arc:
        """The arc that a line tells.

        >>> Arc.read("-1- GN(LE,CHAT) -4-.").tree.label
        'GN'
        """
        start = START.match(line)
        if start:
            tree, at = read_tree(line, start.end())
            end = END.fullmatch(line, at)
            if end:
                return Arc(int(start.group(1)), int(end.group(1)), tree)
        raise BrokenOutput(f"this is no arc: {line.rstrip()}")

    @property
    def text(self) -> str:
        """Its line, without the line feed."""
        return f"-{self.start}- {self.tree.text} -{self.end}-."

    def __str__(self) -> str:
        return self.text


@dataclass(frozen=True)
class Graph:
    """A graph: its arcs in order. One node, the entry, has no arc into it, and one, the exit, has no arc out of it.

    >>> graph = Graph.read("-GRAPHE-\\n-1- LE -3-.\\n-3- CHAT -2-.\\n-FIN-\\n")
    >>> graph.entry, graph.exit
    (1, 2)
    """

    arcs: Tuple[Arc, ...]

    def __post_init__(self) -> None:
        object.__setattr__(self, "arcs", tuple(self.arcs))

    @staticmethod
    def read(text: str) -> Graph:
        """The graph with this text: a line `-GRAPHE-`, a line for each arc, a line `-FIN-`."""
        lines = text.removesuffix("\n").split("\n")
        if len(lines) < 2 or lines[0] != "-GRAPHE-" or lines[-1] != "-FIN-":
            raise BrokenOutput("a graph stands between a line -GRAPHE- and a line -FIN-")
        return Graph(tuple(Arc.read(line) for line in lines[1:-1]))

    @property
    def text(self) -> str:
        """The canonical text, as the program writes it."""
        return "-GRAPHE-\n" + "".join(arc.text + "\n" for arc in self.arcs) + "-FIN-\n"

    @property
    def nodes(self) -> List[int]:
        """The numbers of its nodes, ascending."""
        return sorted({arc.start for arc in self.arcs} | {arc.end for arc in self.arcs})

    @property
    def entry(self) -> int:
        """The node without an arc into it."""
        return _only({arc.start for arc in self.arcs} - {arc.end for arc in self.arcs}, "entry")

    @property
    def exit(self) -> int:
        """The node without an arc out of it."""
        return _only({arc.end for arc in self.arcs} - {arc.start for arc in self.arcs}, "exit")

    def leaving(self) -> Dict[int, List[int]]:
        """For each node the places, in `arcs`, of the arcs that leave it, ascending."""
        places: Dict[int, List[int]] = {node: [] for node in self.nodes}
        for place, arc in enumerate(self.arcs):
            places[arc.start].append(place)
        return places

    def distances(self) -> Dict[int, int]:
        """For each node its longest distance from the entry, in arcs, the nodes in an order that no arc goes against.

        >>> Graph.read("-GRAPHE-\\n-1- A -3-.\\n-3- B -2-.\\n-1- C -2-.\\n-FIN-\\n").distances()
        {1: 0, 3: 1, 2: 2}
        """
        leaving = self.leaving()
        waiting = {node: 0 for node in leaving}
        for arc in self.arcs:
            waiting[arc.end] += 1
        far = {node: 0 for node, arcs in waiting.items() if not arcs}
        ready = list(far)
        for node in ready:
            for place in leaving[node]:
                end = self.arcs[place].end
                far[end] = max(far.get(end, 0), far[node] + 1)
                waiting[end] -= 1
                if not waiting[end]:
                    ready.append(end)
        if len(ready) < len(leaving):
            raise ValueError("the arcs have a cycle, so this is no graph of the program")
        return {node: far[node] for node in sorted(ready, key=lambda node: (far[node], node))}

    def paths(self) -> Iterator[Tuple[Arc, ...]]:
        """All paths from entry to exit, in the dictionary order of the arcs' places. There may be very many: take some.

        >>> graph = Graph.read("-GRAPHE-\\n-1- A -2-.\\n-1- B -2-.\\n-FIN-\\n")
        >>> [" ".join(arc.tree.text for arc in path) for path in graph.paths()]
        ['A', 'B']
        """
        if not self.arcs:
            return
        leaving, last = self.leaving(), self.exit
        self.distances()
        path: List[Arc] = []
        rest = [iter(leaving[self.entry])]
        while rest:
            for place in rest[-1]:
                arc = self.arcs[place]
                path.append(arc)
                if arc.end == last:
                    yield tuple(path)
                    path.pop()
                else:
                    rest.append(iter(leaving[arc.end]))
                    break
            else:
                rest.pop()
                if path:
                    path.pop()

    def svg(self, style: str = "auto") -> str:
        """A picture of the graph; see `radwelio.svg`."""
        from .pictures import svg

        return svg(self, style=style)

    def dot(self) -> str:
        """The graph for Graphviz; see `radwelio.dot`."""
        from .writing import dot

        return dot(self)

    def latex(self) -> str:
        """The trees of the graph for LaTeX; see `radwelio.latex`."""
        from .writing import latex

        return latex(self)

    def chart(self, width: int = 80) -> str:
        """The graph as a chart in plain text; see `radwelio.chart`."""
        from .chart import chart

        return chart(self, width)

    def to_networkx(self) -> Any:
        """The graph as a `MultiDiGraph` of networkx (which has to be installed).

        The key of an edge is the place of its arc, and its attribute `tree` is the tree.
        """
        import networkx  # type: ignore

        made = networkx.MultiDiGraph()
        made.add_nodes_from(self.nodes)
        for place, arc in enumerate(self.arcs):
            made.add_edge(arc.start, arc.end, key=place, tree=arc.tree, label=arc.tree.text)
        return made

    def _repr_svg_(self) -> str:
        return self.svg()

    def __str__(self) -> str:
        return self.text


def _only(nodes: Iterable[int], what: str) -> int:
    found = sorted(nodes)
    if len(found) != 1:
        raise ValueError(f"there is not exactly one {what}: {found}")
    return found[0]
