"""Pictures: their structure, that no text stands over another, and that every text comes out escaped."""

import random
import re
import time
import unittest
import xml.etree.ElementTree as ElementTree
from typing import Dict, List, Tuple

import radwelio
from radwelio import Arc, Graph, Tree
from radwelio.layout import Box

from .support import example, examples

SVG = "{http://www.w3.org/2000/svg}"

ODD = ["é", "<&>", "\"'", "'", '"', "]]>", "</svg>", "--", "😀", "𝒜", "猫"]
ODD += ["\x00\x07\x1b", "\ufffe", "\\", "a b", "{}$%#_^~", ""]
"""Labels with what the forms of pictures, pages and other programs take for their own."""


def parsed(picture: str) -> ElementTree.Element:
    return ElementTree.fromstring(picture)


def texts(root: ElementTree.Element) -> List[Tuple[str, Box]]:
    """Each text of a picture with the place that it takes."""
    found = []
    for group in root.iter(f"{SVG}g"):
        size = float(group.get("font-size", 0))
        if size:
            for text in group.iter(f"{SVG}text"):
                width, x, y = (float(text.get(name, "nan")) for name in ("textLength", "x", "y"))
                found.append((text.text or "", Box(x - width / 2, y - size * 0.8, width, size)))
    return found


def boxes(root: ElementTree.Element) -> Dict[int, Box]:
    """For each arc its box."""
    found = {}
    for group in root.iter(f"{SVG}g"):
        if group.get("class") == "arc":
            rect = group.find(f"{SVG}rect")
            assert rect is not None
            numbers = (float(rect.get(name, "nan")) for name in ("x", "y", "width", "height"))
            found[int(group.get("data-arc", "-1"))] = Box(*numbers)
    return found


def nodes(root: ElementTree.Element) -> Dict[int, Tuple[float, float]]:
    found = {}
    for group in root.iter(f"{SVG}g"):
        if group.get("class") == "node":
            circle = group.find(f"{SVG}circle")
            assert circle is not None
            found[int(group.get("data-node", "-1"))] = (float(circle.get("cx", "nan")), float(circle.get("cy", "nan")))
    return found


def wide(nodes_: int, arcs: int, seed: int) -> Graph:
    """A graph with one entry and one exit, some of whose arcs are long or beside others, with labels of all lengths."""
    chance = random.Random(seed)
    made = [Arc(node, node + 1, Tree("W" * chance.randint(1, 12))) for node in range(1, nodes_)]
    while len(made) < arcs:
        start = chance.randint(1, nodes_ - 1)
        end = chance.randint(start + 1, min(nodes_, start + 1 + chance.randint(0, nodes_)))
        below = tuple(Tree("X" * chance.randint(1, 8)) for _ in range(chance.randint(0, 4)))
        made.append(Arc(start, end, Tree("P" * chance.randint(1, 20), below)))
    chance.shuffle(made)
    return Graph(tuple(made))


class Structure(unittest.TestCase):
    def look(self, graph: Graph, style: str) -> None:
        """Looks at a picture: nodes and arcs are all there, nodes stand from left to right, and no texts overlap."""
        root = parsed(graph.svg(style))
        placed, framed = nodes(root), boxes(root)
        self.assertEqual(sorted(placed), graph.nodes)
        self.assertEqual(sorted(framed), list(range(len(graph.arcs))))
        far = graph.distances()
        for one in far:
            for other in far:
                self.assertEqual(far[one] < far[other], placed[one][0] < placed[other][0])
        self.assertEqual(len(set(placed.values())), len(placed))
        width, height = float(root.get("width", "0")), float(root.get("height", "0"))
        frames = [*framed.values(), *(Box(x - 12, y - 12, 24, 24) for x, y in placed.values())]
        for index, frame in enumerate(frames):
            self.assertTrue(0 <= frame.x and frame.x + frame.width <= width and 0 <= frame.y)
            self.assertLessEqual(frame.y + frame.height, height)
            for other_frame in frames[:index]:
                self.assertFalse(frame.meets(other_frame), f"{frame} {other_frame}")
        written = texts(root)
        for index, (text, box) in enumerate(written):
            for other_text, other_box in written[:index]:
                self.assertFalse(box.meets(other_box), f"{text!r} stands over {other_text!r}")
        for group in root.iter(f"{SVG}g"):
            if group.get("class") == "arc":
                place = int(group.get("data-arc", "-1"))
                self.assertEqual(group.findtext(f"{SVG}title"), graph.arcs[place].text)
        for path in root.iter(f"{SVG}path"):
            if path.get("class") == "way":
                arc = graph.arcs[int(path.get("data-arc", "-1"))]
                way = path.get("d", "")
                numbers = [float(number) for number in re.findall(r"-?[0-9.]+", way)]
                self.assertAlmostEqual(numbers[0], placed[arc.start][0] + 12, delta=0.2)
                self.assertAlmostEqual(numbers[1], placed[arc.start][1], delta=0.2)
                last = numbers[-1] if way.rfind("H") > way.rfind("C") else numbers[-2]
                self.assertAlmostEqual(last, placed[arc.end][0] - 17, delta=0.3)

    def test_graphs_of_the_examples(self) -> None:
        count = 0
        for name, text, _, _, status in examples():
            if status == 2:
                continue
            graphs = [radwelio.graph(text), *(block.graph for block in radwelio.run(text, limit=100))]
            for graph in graphs:
                for style in ("label", "text", "tree", "auto") if graph else ():
                    with self.subTest(name, style=style):
                        assert graph is not None
                        self.look(graph, style)
                        count += 1
        self.assertGreater(count, 100)

    def test_graphs_with_many_ways(self) -> None:
        for seed in range(12):
            for style in ("label", "text", "tree"):
                with self.subTest(seed=seed, style=style):
                    self.look(wide(3 + seed, 40, seed), style)

    def test_graphs_whose_nodes_have_several_ways_to_the_exit(self) -> None:
        for seed in range(12):
            chance = random.Random(seed)
            chains, node = [], 10
            ends = [1, 2]
            for _ in range(8):
                start, end = sorted(chance.sample(range(len(ends)), 2))
                length = chance.randint(1, 4)
                inner = list(range(node, node + length - 1))
                node += length
                way = [ends[0] if start == 0 else ends[start], *inner, 2]
                chains += [Arc(a, b, Tree("AB" * chance.randint(1, 5))) for a, b in zip(way, way[1:])]
                ends[1:1] = inner
            self.look(Graph(tuple(chains)), "text")

    def test_parallel_arcs_stand_apart(self) -> None:
        graph = Graph(tuple(Arc(1, 2, Tree("N", (Tree("AMI"),))) for _ in range(40)))
        self.look(graph, "text")
        self.look(graph, "tree")
        self.assertEqual(len({box.y for box in boxes(parsed(graph.svg("text"))).values()}), 40)

    def test_trees_are_drawn_as_trees(self) -> None:
        root = parsed(radwelio.svg(Tree.read("P(GN(LE,CHAT),V(DORT))")))
        places = {text: box for text, box in texts(root)}
        self.assertEqual(sorted(places), ["CHAT", "DORT", "GN", "LE", "P", "V"])
        self.assertLess(places["P"].y, places["GN"].y)
        self.assertEqual(places["GN"].y, places["V"].y)
        self.assertEqual(places["LE"].y, places["DORT"].y)
        self.assertLess(places["LE"].x, places["CHAT"].x)
        branches = [path.get("d", "") for path in root.iter(f"{SVG}path")]
        self.assertEqual("".join(branches).count("M"), 5)

    def test_labels_and_texts(self) -> None:
        graph = Graph((Arc(1, 2, Tree.read("P(" + ",".join(["CHAT"] * 40) + ")")),))
        shown = {style: [text for text, _ in texts(parsed(graph.svg(style)))] for style in ("label", "text", "tree")}
        self.assertIn("P", shown["label"])
        self.assertTrue(any(text.endswith("…") and len(text) <= 44 for text in shown["text"]))
        self.assertEqual(shown["tree"].count("CHAT"), 40)
        self.assertRaises(ValueError, graph.svg, "colorful")

    def test_links(self) -> None:
        graph = radwelio.run(example("two-readings"))[-1].graph
        assert graph is not None
        root = parsed(radwelio.svg(graph, links=lambda place: f"#a-{place}&b" if place else None))
        links = [link.get("href") for link in root.iter(f"{SVG}a")]
        self.assertEqual(links, [f"#a-{place}&b" for place in range(1, len(graph.arcs))])

    def test_nothing_is_left(self) -> None:
        self.assertIn("nothing is left", [text for text, _ in texts(parsed(radwelio.svg(Graph(()))))])

    def test_a_graph_with_a_cycle_is_none(self) -> None:
        graph = Graph((Arc(1, 2, Tree("A")), Arc(2, 1, Tree("A"))))
        for call in (graph.svg, graph.chart, graph.distances):
            with self.assertRaisesRegex(ValueError, "cycle|exactly one"):
                call()


class Escaping(unittest.TestCase):
    def test_each_text_comes_out_as_it_is(self) -> None:
        for label in ODD:
            for style in ("text", "tree"):
                tree = Tree(label, (Tree(label), Tree(label)))
                root = parsed(Graph((Arc(1, 2, tree),)).svg(style))
                shown = "".join(text for text, _ in texts(root))
                for character in label:
                    if character.isprintable() and character != "\ufffe":
                        self.assertIn(character, shown)
                self.assertNotIn("\x1b", shown)

    def test_controls_are_shown_as_signs(self) -> None:
        self.assertIn("␀␇␛", radwelio.svg(Tree("\x00\x07\x1b")))


class Speed(unittest.TestCase):
    def seconds(self, graph: Graph, style: str) -> float:
        began = time.process_time()
        parsed(graph.svg(style))
        return time.process_time() - began

    def test_500_arcs_are_drawn_in_under_two_seconds(self) -> None:
        chain = Graph(tuple(Arc(node, node + 1, Tree.read("GN(LE,CHAT(NOIR))")) for node in range(1, 501)))
        parallel = Graph(tuple(Arc(1, 2, Tree(f"N{number}")) for number in range(500)))
        mixed = wide(120, 500, 7)
        for graph in (chain, parallel, mixed):
            self.assertEqual(len(graph.arcs), 500)
            for style in ("text", "tree"):
                self.assertLess(self.seconds(graph, style), 2.0)

    def test_a_deck_of_500_arcs_is_drawn_in_under_two_seconds(self) -> None:
        words = " + ".join(f"T(M{number})" for number in range(500))
        deck = f"-SYSTEME- S.\nT(I*) == U(I*).\n-GRAPHE-\n-1- {words} -2-.\n-FIN-\n"
        began = time.process_time()
        graph = radwelio.run(deck)[-1].graph
        assert graph is not None
        picture = graph.svg()
        self.assertLess(time.process_time() - began, 2.0)
        self.assertEqual(len(boxes(parsed(picture))), 500)

    def test_a_deep_tree(self) -> None:
        tree = Tree.read("A(" * 3000 + "B" + ")" * 3000)
        self.assertEqual(len(texts(parsed(radwelio.svg(tree)))), 3001)


if __name__ == "__main__":
    unittest.main()
