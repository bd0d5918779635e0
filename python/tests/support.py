"""What the tests share: the program, the examples, and programs that play its part.

The tests ask the program that the variable QSYS names, or else that of the checkout. What an older program hasn't
got (`explain`, `levels`, `phrase`), and how a program fails, is shown by small programs that write defined bytes.
"""

from __future__ import annotations

import os
import stat
import sys
import tempfile
import unittest
from pathlib import Path
from typing import Dict, Iterator, List, Optional, Tuple

TOP = Path(__file__).resolve().parents[2]
EXAMPLES = TOP / "examples"
DATA = Path(__file__).resolve().parent / "data"
BUILT = TOP / "crates" / "qsys" / "out" / "qsys"

if "QSYS" not in os.environ and BUILT.exists():
    os.environ["QSYS"] = str(BUILT)
os.environ["QSYS"] = os.path.abspath(os.environ.get("QSYS", TOP / "qsys"))

USAGE = "usage: qsys run|check|graph|made|explain|levels|phrase [--limit N] [--workers N] [--size N] [--readings N]\n"

PLAYER = '''#!{python} -SE
import sys
answers = {answers!r}
words = sys.argv[1:]
if not words or words[0] not in answers:
    sys.stdout.write({usage!r})
    sys.exit(1)
sys.stdin.buffer.read()
status, written = answers[words[0]]
sys.stdout.buffer.write(written)
sys.stdout.flush()
sys.exit(status)
'''


def example(name: str) -> bytes:
    """The text of an example."""
    return (EXAMPLES / f"{name}.qs").read_bytes()


def examples(command: Optional[str] = None) -> Iterator[Tuple[str, bytes, List[str], str, int]]:
    """The examples of a command, or all that are decks: name, text, words, what the program writes, and its status."""
    for deck in sorted(EXAMPLES.glob("*.qs")):
        words = Path(f"{deck}.args").read_text().split()
        status = Path(f"{deck}.status")
        if words[0] == command or (command is None and words[0] != "phrase"):
            wanted = Path(f"{deck}.stdout").read_bytes().decode()
            yield deck.stem, deck.read_bytes(), words, wanted, int(status.read_text()) if status.exists() else 0


class ProgramCase(unittest.TestCase):
    """A test with a folder of its own for programs."""

    def setUp(self) -> None:
        folder = tempfile.TemporaryDirectory(prefix="radwelio-")
        self.addCleanup(folder.cleanup)
        self.folder = Path(folder.name)

    def script(self, text: str, name: str = "program") -> str:
        """A program that does what this script in Python says."""
        path = self.folder / name
        path.write_text(f"#!{sys.executable} -SE\n{text}" if not text.startswith("#!") else text, encoding="utf-8")
        path.chmod(path.stat().st_mode | stat.S_IXUSR)
        return str(path)

    def player(self, answers: Dict[str, Tuple[int, bytes]], usage: str = USAGE) -> str:
        """A program that writes these bytes for these commands and ends with these statuses, whatever it reads."""
        return self.script(PLAYER.format(python=sys.executable, answers=answers, usage=usage))
