"""What docs/TUTORIAL.md and README.md show is what their commands write, and their pictures are of the examples."""

import doctest
import os
import re
import shlex
import subprocess
import sys
import unittest
import xml.etree.ElementTree as ElementTree
from typing import List, Tuple

import radwelio

from .support import EXAMPLES, TOP, ProgramCase, example
from .test_pictures import texts

README = (TOP / "README.md").read_text(encoding="utf-8")
TUTORIAL = (TOP / "docs" / "TUTORIAL.md").read_text(encoding="utf-8")


def blocks_of(document: str) -> List[str]:
    """What stands between fences."""
    return re.findall(r"^```\n(.*?)^```$", document, re.MULTILINE | re.DOTALL)


BLOCKS = blocks_of(TUTORIAL)


def commands(block: str) -> List[Tuple[str, str]]:
    """The commands of a block, each with what is shown behind it."""
    found = re.split(r"^\$ (.*)\n", block, flags=re.MULTILINE)[1:]
    return list(zip(found[::2], found[1::2]))


class Tutorial(ProgramCase):
    def test_each_command_writes_what_is_shown(self) -> None:
        (self.folder / "examples").symlink_to(EXAMPLES)
        environment = {**os.environ, "PYTHONPATH": str(TOP / "python"), "PYTHONIOENCODING": "utf-8", "COLUMNS": "80"}
        count = 0
        for block in BLOCKS + blocks_of(README):
            for command, shown in commands(block):
                words = shlex.split(command)
                words[0] = sys.executable if words[0] == "python3" else words[0]
                done = subprocess.run(
                    words, cwd=self.folder, env=environment, stdout=subprocess.PIPE, stderr=subprocess.STDOUT
                )
                self.assertEqual(done.stdout.decode(), shown, command)
                count += 1
        self.assertGreater(count, 12)
        self.assertTrue((self.folder / "bulletin.html").exists())

    def test_what_python_is_asked(self) -> None:
        texts_of = "".join(block for block in BLOCKS if block.startswith(">>> "))
        test = doctest.DocTestParser().get_doctest(texts_of, {}, "docs/TUTORIAL.md", None, 0)
        self.assertGreater(len(test.examples), 5)
        told: List[str] = []
        before = os.getcwd()
        os.chdir(TOP)
        try:
            result = doctest.DocTestRunner(verbose=False).run(test, out=told.append)
        finally:
            os.chdir(before)
        self.assertEqual(result.failed, 0, "".join(told))

    def test_each_block_is_tested_or_stands_in_an_example(self) -> None:
        decks = "".join(path.read_bytes().decode("utf-8", "replace") for path in EXAMPLES.glob("*.qs"))
        for block in BLOCKS:
            if not block.startswith(("$ ", ">>> ", "bash$ ")):
                self.assertIn(block, decks)


class Pictures(unittest.TestCase):
    def test_each_picture_is_that_of_its_example(self) -> None:
        pictures = sorted((TOP / "docs" / "pictures").glob("*.svg"))
        self.assertTrue(pictures)
        for path in pictures:
            graph = radwelio.run(example(path.stem))[-1].graph
            assert graph is not None
            committed = ElementTree.fromstring(path.read_text(encoding="utf-8"))
            drawn = ElementTree.fromstring(graph.svg())
            self.assertEqual([text for text, _ in texts(committed)], [text for text, _ in texts(drawn)])
            self.assertEqual(len(list(committed.iter())), len(list(drawn.iter())))
            self.assertIn(f"pictures/{path.name}", README + TUTORIAL)


if __name__ == "__main__":
    unittest.main()
