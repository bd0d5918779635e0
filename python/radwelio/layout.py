"""Where the parts of a picture stand: the nodes, the arcs and the boxes on them, and the labels of a tree.

A graph is laid out on a grid. The columns are, in turn, the nodes of one longest distance from the entry and the arcs
that pass between them. Each arc has one row over all the columns that it passes, which no other arc has there; it
leaves that row only beside its two nodes, where nothing is written. So no text stands over another.
"""

from __future__ import annotations

import heapq
from dataclasses import dataclass
from typing import Dict, List, Sequence, Set, Tuple

from .graphs import Graph
from .trees import Tree, spelled, visible
from .widths import text_width

RADIUS = 12.0
ROW_GAP = 12.0
LEAST_COLUMN = 22.0
MARGIN = 14.0
LEVEL = 36.0
LABEL_HEIGHT = 18.0
SIBLING_GAP = 14.0

Size = Tuple[float, float]


@dataclass(frozen=True)
class Box:
    """A rectangle, by its left upper corner and its size."""

    x: float
    y: float
    width: float
    height: float

    def meets(self, other: Box) -> bool:
        """Whether the two have a point inside of both."""
        return (
            self.x < other.x + other.width
            and other.x < self.x + self.width
            and self.y < other.y + other.height
            and other.y < self.y + self.height
        )


@dataclass(frozen=True)
class PlacedArc:
    """An arc: the box of what it carries, and its way: the row's height, and where it is on its row from and to."""

    box: Box
    row: float
    left: float
    right: float


@dataclass(frozen=True)
class Placed:
    """A graph with places: the middle of each node, and each arc in the order of the graph."""

    width: float
    height: float
    nodes: Dict[int, Tuple[float, float]]
    arcs: Tuple[PlacedArc, ...]


@dataclass(frozen=True)
class PlacedLabel:
    """A label of a tree: its middle, its text and the width of that, and whether no tree is below it."""

    x: float
    y: float
    text: str
    width: float
    leaf: bool


@dataclass(frozen=True)
class PlacedTree:
    """A tree with places: its size, its labels, and its branches, each from a point to a point."""

    width: float
    height: float
    labels: Tuple[PlacedLabel, ...]
    branches: Tuple[Tuple[float, float, float, float], ...]


@dataclass
class _Ear:
    """A chain of arcs through nodes that have no row yet, between two that have one."""

    arcs: List[int]
    nodes: List[int]
    start: int
    end: int


def place_graph(graph: Graph, sizes: Sequence[Size]) -> Placed:
    """The graph with places, where what its arcs carry has these sizes."""
    layers = graph.distances()
    node_rows, arc_rows = _rows(graph, layers)
    height, middles = _row_middles(node_rows, arc_rows, sizes)
    columns, width = _columns(graph, layers, node_rows, arc_rows, middles, sizes)
    nodes = {node: (sum(columns[2 * layer]) / 2, middles[node_rows[node]]) for node, layer in layers.items()}
    crossings = _crossings(graph, layers, node_rows, arc_rows)
    arcs = []
    for place, arc in enumerate(graph.arcs):
        first, last = 2 * layers[arc.start] + 1, 2 * layers[arc.end] - 1
        left, right = columns[first][0], columns[last][1]
        row = middles[arc_rows[place]]
        wide, high = sizes[place]
        middle = _middle(columns, first, last, wide, arc_rows[place], crossings)
        arcs.append(PlacedArc(Box(middle - wide / 2, row - high / 2, wide, high), row, left, right))
    return Placed(width, height, nodes, tuple(arcs))


def _rows(graph: Graph, layers: Dict[int, int]) -> Tuple[Dict[int, int], List[int]]:
    """A row for each node and each arc: a longest path on row 0, and the others above and below it, short ones near."""
    ears = _ears(graph, layers)
    node_rows: Dict[int, int] = {}
    arc_rows: Dict[int, int] = {}
    taken: Dict[int, List[Tuple[int, int]]] = {}
    waiting: Dict[int, List[int]] = {}
    missing: List[int] = []
    ready: List[Tuple[int, int, int]] = []

    def offer(index: int) -> None:
        ear = ears[index]
        heapq.heappush(ready, (layers[ear.end] - layers[ear.start], layers[ear.start], index))

    for index, ear in enumerate(ears):
        others = {ear.start, ear.end} - set(ear.nodes)
        missing.append(len(others))
        for node in others:
            waiting.setdefault(node, []).append(index)
        if not others:
            offer(index)
    while ready:
        index = heapq.heappop(ready)[2]
        ear = ears[index]
        first = 2 * layers[ear.start] + (0 if ear.start in ear.nodes else 1)
        last = 2 * layers[ear.end] - (0 if ear.end in ear.nodes else 1)
        ends = [node_rows[node] for node in (ear.start, ear.end) if node in node_rows]
        row = _free_row(taken, first, last, sum(ends) / len(ends) if ends else 0)
        taken.setdefault(row, []).append((first, last))
        arc_rows.update((place, row) for place in ear.arcs)
        for node in ear.nodes:
            node_rows[node] = row
            for other in waiting.get(node, ()):
                missing[other] -= 1
                if not missing[other]:
                    offer(other)
    return node_rows, [arc_rows[place] for place in range(len(graph.arcs))]


def _ears(graph: Graph, layers: Dict[int, int]) -> List[_Ear]:
    """All arcs as chains: first a longest path, and then chains between nodes of chains that stand before them."""
    leaving = graph.leaving()
    ahead: Dict[int, int] = {}
    for node in reversed(list(layers)):
        ahead[node] = max((ahead[graph.arcs[place].end] + 1 for place in leaving[node]), default=0)
    # Of each node's arcs the one that leads farthest is taken first, and of equal ones the first.
    ways = {node: sorted(arcs, key=lambda way: (ahead[graph.arcs[way].end], -way)) for node, arcs in leaving.items()}
    known: Set[int] = set()
    ears: List[_Ear] = []
    for start in layers:
        while ways[start]:
            ear = _Ear([], [], start, start)
            if start not in known:
                known.add(start)
                ear.nodes.append(start)
            node = start
            while ways[node]:
                place = ways[node].pop()
                ear.arcs.append(place)
                node = graph.arcs[place].end
                if node in known:
                    break
                known.add(node)
                ear.nodes.append(node)
            ear.end = node
            ears.append(ear)
    return ears


def _free_row(taken: Dict[int, List[Tuple[int, int]]], first: int, last: int, near: float) -> int:
    """The row nearest to `near`, one above before one below, that is free over these columns."""
    middle = round(near)
    for away in range(len(taken) + abs(middle) + 2):
        for row in (middle - away, middle + away):
            if all(last < begin or end < first for begin, end in taken.get(row, ())):
                return row
    raise AssertionError("more rows are taken than there are")


def _row_middles(
    node_rows: Dict[int, int], arc_rows: Sequence[int], sizes: Sequence[Size]
) -> Tuple[float, Dict[int, float]]:
    """The height of the whole, and the middle of each row."""
    heights = {row: 2 * RADIUS for row in node_rows.values()}
    for row, (_, high) in zip(arc_rows, sizes):
        heights[row] = max(heights.get(row, 0.0), high)
    middles: Dict[int, float] = {}
    y = MARGIN
    for row in sorted(heights):
        middles[row] = y + heights[row] / 2
        y += heights[row] + ROW_GAP
    return y - ROW_GAP + MARGIN, middles


def _columns(
    graph: Graph,
    layers: Dict[int, int],
    node_rows: Dict[int, int],
    arc_rows: Sequence[int],
    middles: Dict[int, float],
    sizes: Sequence[Size],
) -> Tuple[List[Tuple[float, float]], float]:
    """From where to where each column goes, and the width of the whole."""
    count = 2 * max(layers.values()) + 1
    widths = [2 * RADIUS if column % 2 == 0 else LEAST_COLUMN for column in range(count)]
    gaps = [18.0] * (count - 1)
    steps = [layers[arc.end] - layers[arc.start] for arc in graph.arcs]
    for place in sorted(range(len(sizes)), key=steps.__getitem__):
        arc = graph.arcs[place]
        first, last = 2 * layers[arc.start] + 1, 2 * layers[arc.end] - 1
        row = middles[arc_rows[place]]
        rise = abs(middles[node_rows[arc.start]] - row), abs(middles[node_rows[arc.end]] - row)
        gaps[first - 1] = max(gaps[first - 1], min(18 + 0.22 * rise[0], 80))
        gaps[last] = max(gaps[last], min(22 + 0.22 * rise[1], 84))
        there = sum(widths[first : last + 1]) + sum(gaps[first:last])
        short = sizes[place][0] + 8 - there
        if short > 0:
            for column in range(first, last + 1, 2):
                widths[column] += short / ((last - first) // 2 + 1)
    columns: List[Tuple[float, float]] = []
    x = MARGIN
    for column in range(count):
        columns.append((x, x + widths[column]))
        x += widths[column] + (gaps[column] if column < count - 1 else 0)
    return columns, x + MARGIN


def _crossings(
    graph: Graph, layers: Dict[int, int], node_rows: Dict[int, int], arc_rows: Sequence[int]
) -> Dict[int, List[Tuple[int, int]]]:
    """For each column of nodes the rows between which the ends of arcs rise beside it."""
    found: Dict[int, Set[Tuple[int, int]]] = {}
    for place, arc in enumerate(graph.arcs):
        for node in (arc.start, arc.end):
            low, high = sorted((node_rows[node], arc_rows[place]))
            if high - low > 1:
                found.setdefault(2 * layers[node], set()).add((low, high))
    return {column: sorted(rows) for column, rows in found.items()}


def _middle(
    columns: Sequence[Tuple[float, float]],
    first: int,
    last: int,
    width: float,
    row: int,
    crossings: Dict[int, List[Tuple[int, int]]],
) -> float:
    """The middle of the box on a row: that of the whole span where no end of another arc rises through the box."""
    middle = (columns[first][0] + columns[last][1]) / 2
    for column in range(first + 1, last, 2):
        inside = columns[column - 1][1] < middle + width / 2 and columns[column + 1][0] > middle - width / 2
        if inside and any(low < row < high for low, high in crossings.get(column, ())):
            break
    else:
        return middle
    wide = [at for at in range(first, last + 1, 2) if columns[at][1] - columns[at][0] >= width]
    if not wide:
        return middle
    best = min(wide, key=lambda at: abs(sum(columns[at]) / 2 - middle))
    return sum(columns[best]) / 2


def place_tree(tree: Tree) -> PlacedTree:
    """The tree with places: its root on top, and each label over the middle of those below it."""
    trees = list(tree.walk())
    below: List[List[int]] = [[] for _ in trees]
    above: List[int] = []
    for index, (depth, _) in enumerate(trees):
        del above[depth:]
        if above:
            below[above[-1]].append(index)
        above.append(index)
    texts = [visible(spelled(one.label)) for _, one in trees]
    widths = [text_width(text, bold=bool(one.trees)) for text, (_, one) in zip(texts, trees)]
    # From the last tree to the first: how wide each is, where its root is in it, and where it is in the one above it.
    took = [0.0] * len(trees)
    root = [0.0] * len(trees)
    left = [0.0] * len(trees)
    for index in range(len(trees) - 1, -1, -1):
        x = 0.0
        for child in below[index]:
            left[child] = x
            x += took[child] + SIBLING_GAP
        half = widths[index] / 2
        middle = sum(left[child] + root[child] for child in (below[index][0], below[index][-1])) / 2 if x else half
        shift = max(0.0, half - middle)
        for child in below[index]:
            left[child] += shift
        root[index] = middle + shift
        took[index] = max(x - SIBLING_GAP + shift, root[index] + half)
    labels: List[PlacedLabel] = []
    branches: List[Tuple[float, float, float, float]] = []
    for index, (depth, one) in enumerate(trees):
        x, y = left[index] + root[index], depth * LEVEL + LABEL_HEIGHT / 2
        labels.append(PlacedLabel(x, y, texts[index], widths[index], not one.trees))
        for child in below[index]:
            left[child] += left[index]
            bottom = y + LABEL_HEIGHT / 2
            branches.append((x, bottom, left[child] + root[child], bottom + LEVEL - LABEL_HEIGHT))
    height = max(depth for depth, _ in trees) * LEVEL + LABEL_HEIGHT
    return PlacedTree(took[0], height, tuple(labels), tuple(branches))
