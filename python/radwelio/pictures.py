"""Graphs and trees as SVG."""

from __future__ import annotations

from typing import Callable, Dict, List, Optional, Tuple, Union
from xml.sax.saxutils import escape, quoteattr

from .columns import cut
from .graphs import Graph
from .layout import LABEL_HEIGHT, MARGIN, RADIUS, PlacedArc, PlacedTree, Size, place_graph, place_tree
from .trees import Tree, spelled, visible
from .widths import SIZE, text_width

Point = Tuple[float, float]

STYLES = ("auto", "label", "text", "tree")

LINE = "#64748b"
INK = "#0f172a"
INNER = "#1d4ed8"
EDGE = "#cbd5e1"
FONT = "Helvetica, Arial, 'Liberation Sans', 'DejaVu Sans', 'Noto Sans', sans-serif"

NODE_SIZE = 11.0
"""The height of the numbers of nodes."""

MOST_TREES = 120
"""How many labels a graph may have so that the style 'auto' draws its trees as trees."""

MOST_COLUMNS = 44
"""How long the text of a tree may be on an arc."""


def svg(
    item: Union[Graph, Tree],
    style: str = "auto",
    links: Optional[Callable[[int], Optional[str]]] = None,
    name: Optional[str] = None,
) -> str:
    """A picture of a graph, or of a tree.

    `style` says what the arcs show: 'label' the roots of their trees, 'text' their trees as text (cut where it is long;
    the whole is in its title), 'tree' their trees drawn, and 'auto' these, unless they are too many. `links` gives, for
    the place of an arc, where a click on it leads. `name` is told to those who can't see the picture.
    """
    if style not in STYLES:
        raise ValueError(f"a style is one of {', '.join(STYLES)}, not {style}")
    if isinstance(item, Tree):
        return _tree_picture(item, name)
    if not item.arcs:
        return _empty_picture(name)
    return _graph_picture(item, style, links, name)


def _graph_picture(
    graph: Graph, style: str, links: Optional[Callable[[int], Optional[str]]], name: Optional[str]
) -> str:
    if style == "auto":
        style = "tree" if _few_labels(graph) else "text"
    trees: Dict[int, PlacedTree] = {}
    texts: Dict[int, str] = {}
    sizes: List[Size] = []
    for place, arc in enumerate(graph.arcs):
        if style == "tree" and arc.tree.trees:
            drawn = place_tree(arc.tree)
            trees[place] = drawn
            sizes.append((drawn.width + 20, drawn.height + 14))
            continue
        text = spelled(arc.tree.label) if style == "label" else arc.tree.text
        texts[place] = cut(visible(text), MOST_COLUMNS)
        sizes.append((text_width(texts[place]) + 18, 24.0))
    placed = place_graph(graph, sizes)
    ways: List[str] = []
    boxes: List[str] = []
    for place, (arc, at) in enumerate(zip(graph.arcs, placed.arcs)):
        way = _way(placed.nodes[arc.start], placed.nodes[arc.end], at)
        ways.append(f'<path class="way" data-arc="{place}" d="{way}"/>')
        inside = _tree_marks(trees[place], at) if place in trees else _text_marks(texts[place], at)
        title = f"<title>{escape(visible(arc.text))}</title>"
        group = f'<g class="arc" data-arc="{place}">{title}{inside}</g>'
        target = links(place) if links else None
        if target:
            group = f"<a href={quoteattr(target)} aria-label={quoteattr(visible(arc.text))}>{group}</a>"
        boxes.append(group)
    starts = {arc.start for arc in graph.arcs}
    ends = {arc.end for arc in graph.arcs}
    heads = [
        f'<path d="M{_n(x - RADIUS)} {_n(y)}l-8 -4v8z"/>' for node, (x, y) in placed.nodes.items() if node in ends
    ]
    nodes = [_node(node, at, node in starts and node in ends) for node, at in placed.nodes.items()]
    label = name or f"a graph with {len(placed.nodes)} nodes and {len(graph.arcs)} arcs"
    return "\n".join(
        [
            _open(placed.width, placed.height, label, links is not None),
            f'<g class="ways" fill="none" stroke="{LINE}" stroke-width="1.4">',
            *ways,
            "</g>",
            f'<g class="heads" fill="{LINE}">',
            *heads,
            "</g>",
            f'<g class="nodes" font-size="{NODE_SIZE:g}" text-anchor="middle">',
            *nodes,
            "</g>",
            f'<g class="arcs" font-size="{SIZE:g}" text-anchor="middle" fill="{INK}">',
            *boxes,
            "</g>",
            "</svg>",
            "",
        ]
    )


def _node(node: int, at: Point, inner: bool) -> str:
    """A node with its number; the entry and the exit in blue."""
    x, y = at
    colors = 'fill="#f8fafc" stroke="#475569"' if inner else 'fill="#dbeafe" stroke="#1d4ed8"'
    width = min(text_width(str(node), NODE_SIZE), 2 * RADIUS - 4)
    return (
        f'<g class="node" data-node="{node}"><circle cx="{_n(x)}" cy="{_n(y)}" r="{_n(RADIUS)}" {colors} '
        f'stroke-width="1.4"/><text x="{_n(x)}" y="{_n(y + 4)}" textLength="{_n(width)}" '
        f'lengthAdjust="spacingAndGlyphs" fill="{INK}">{node}</text></g>'
    )


def _few_labels(graph: Graph) -> bool:
    count = 0
    for arc in graph.arcs:
        for _ in arc.tree.walk():
            count += 1
            if count > MOST_TREES:
                return False
    return True


def _way(start: Point, end: Point, at: PlacedArc) -> str:
    """The way of an arc: from its node to its row, along the row, and to its other node."""
    x, y = start[0] + RADIUS, start[1]
    tip, down = end[0] - RADIUS - 5, end[1]
    parts = [f"M{_n(x)} {_n(y)}"]
    if y != at.row:
        half = (at.left - x) * 0.6
        parts.append(f"C{_n(x + half)} {_n(y)} {_n(at.left - half)} {_n(at.row)} {_n(at.left)} {_n(at.row)}")
    if down != at.row:
        half = (tip - at.right) * 0.6
        parts.append(f"H{_n(at.right)}")
        parts.append(f"C{_n(at.right + half)} {_n(at.row)} {_n(tip - half)} {_n(down)} {_n(tip)} {_n(down)}")
    else:
        parts.append(f"H{_n(tip)}")
    return "".join(parts)


def _text_marks(text: str, at: PlacedArc) -> str:
    box = at.box
    return _frame(at, box.height / 2) + _text(box.x + box.width / 2, box.y + box.height / 2, text, box.width - 18)


def _tree_marks(tree: PlacedTree, at: PlacedArc) -> str:
    return _frame(at, 8) + _tree_inside(tree, at.box.x + 10, at.box.y + 7)


def _tree_inside(tree: PlacedTree, x: float, y: float) -> str:
    branches = "".join(f"M{_n(x + a)} {_n(y + b)}L{_n(x + c)} {_n(y + d)}" for a, b, c, d in tree.branches)
    marks = f'<path class="branch" d="{branches}" fill="none" stroke="{LINE}" stroke-width="1"/>' if branches else ""
    for label in tree.labels:
        more = "" if label.leaf else f' font-weight="bold" fill="{INNER}"'
        marks += _text(x + label.x, y + label.y, label.text, label.width, more)
    return marks


def _frame(at: PlacedArc, round_by: float) -> str:
    box = at.box
    return (
        f'<rect class="box" x="{_n(box.x)}" y="{_n(box.y)}" width="{_n(box.width)}" height="{_n(box.height)}" '
        f'rx="{_n(round_by)}" fill="#ffffff" stroke="{EDGE}" stroke-width="1.2"/>'
    )


def _text(x: float, y: float, text: str, width: float, more: str = "") -> str:
    return (
        f'<text x="{_n(x)}" y="{_n(y + 4.6)}" textLength="{_n(width)}" lengthAdjust="spacingAndGlyphs" '
        f'xml:space="preserve"{more}>{escape(text)}</text>'
    )


def _tree_picture(tree: Tree, name: Optional[str]) -> str:
    drawn = place_tree(tree)
    return "\n".join(
        [
            _open(drawn.width + 2 * MARGIN, drawn.height + 2 * MARGIN, name or "a tree", False),
            f'<g class="tree" font-size="{SIZE:g}" text-anchor="middle" fill="{INK}">',
            f"<title>{escape(visible(tree.text))}</title>",
            _tree_inside(drawn, MARGIN, MARGIN),
            "</g>",
            "</svg>",
            "",
        ]
    )


def _empty_picture(name: Optional[str]) -> str:
    text = "nothing is left"
    wide = text_width(text)
    return "\n".join(
        [
            _open(wide + 2 * MARGIN, LABEL_HEIGHT + 2 * MARGIN, name or text, False),
            f'<g font-size="{SIZE:g}" text-anchor="middle" fill="{LINE}">',
            _text(MARGIN + wide / 2, MARGIN + LABEL_HEIGHT / 2, text, wide),
            "</g>",
            "</svg>",
            "",
        ]
    )


def _open(width: float, height: float, label: str, links: bool) -> str:
    role = "group" if links else "img"
    return (
        f'<svg xmlns="http://www.w3.org/2000/svg" class="radwelio" width="{_n(width)}" height="{_n(height)}" '
        f'viewBox="0 0 {_n(width)} {_n(height)}" role="{role}" aria-label={quoteattr(visible(label))} '
        f'font-family="{FONT}">\n'
        f'<rect class="ground" width="{_n(width)}" height="{_n(height)}" rx="8" fill="#ffffff"/>'
    )


def _n(number: float) -> str:
    """The number as it is written in a picture: with at most one digit behind the point."""
    return f"{number:.1f}".removesuffix(".0")
