"""The command `python3 -m radwelio`.

It ends with the program's status (0 done, 1 wrong words, 2 text refused, 3 limit met, 4 to 7 failures), and with 70
where the program is missing or fails in a way of its own.
"""

from __future__ import annotations

import argparse
import os
import sys
import threading
import time
from types import TracebackType
from typing import IO, Callable, Dict, NoReturn, Optional, Sequence, Tuple, Type

from . import calls
from .chart import chart
from .errors import Error, Refused
from .graphs import Graph
from .messages import message
from .pages import page
from .pictures import STYLES, svg
from .program import Program
from .tokens import grammars_of
from .trees import spelled, visible
from .writing import dot, latex, latex_document

DESCRIPTION = """\
Shows what the program qsys makes of a deck: as a page, a picture, a chart, or trees; and says what is wrong with a
deck, where it is wrong. Every graph that is shown is one that the program wrote."""

EXAMPLES = """\
for a first hour ("python3 -m radwelio" in place of "%(prog)s" where the package isn't installed):
  %(prog)s check deck.qs                   is the deck accepted? if not: where not, why, and what could stand there
  %(prog)s chart deck.qs                   what is left, in the terminal: a line for each arc
  %(prog)s chart deck.qs --input           the graph of the deck, before any grammar
  %(prog)s chart deck.qs --grammar 1       what the first of several grammars left
  %(prog)s tree deck.qs                    the trees that are left
  %(prog)s svg deck.qs -o graph.svg        a picture of what is left, for a text or for a board
  %(prog)s show deck.qs -o page.html       a page with the deck, and each grammar's graph before and after
  %(prog)s dot deck.qs | dot -Tpdf         the same by Graphviz
  %(prog)s tree --latex deck.qs            the trees for LaTeX, with the package forest

A deck is a file, or - for standard input. The program is that of --program, of the variable QSYS, of the checkout, or
on the PATH. The statuses are the program's: 0 done, 1 wrong words, 2 the deck is refused, 3 a grammar needs more
firings than the limit; and 70 where there is no program, or where it fails."""

WAIT = 2.0
"""How many seconds a work may take in silence."""


def main(words: Optional[Sequence[str]] = None) -> int:
    """Does what the words say, and answers the status."""
    parser = _parser()
    given = parser.parse_args(words)
    try:
        text = _read(given.deck)
    except OSError as fault:
        print(f"{parser.prog}: {given.deck} can't be read: {fault.strerror or fault}", file=sys.stderr)
        return 4
    name = "standard input" if given.deck == "-" else given.deck
    program: Optional[Program] = None
    try:
        with _Progress(f"{parser.prog}: {given.command} {visible(name)}"):
            program = Program.find(given.program, loud=True)
            status, written = COMMANDS[given.command](given, text, name, program)
        _write(written, getattr(given, "output", None))
        return status
    except Refused as refused:
        print(message(refused, text, name=name, color=_colored(), program=program), file=sys.stderr)
        return refused.status
    except Error as error:
        print(f"{parser.prog}: {error}", file=sys.stderr)
        return error.status if 0 <= error.status <= 255 else 70
    except BrokenPipeError:
        os.dup2(os.open(os.devnull, os.O_WRONLY), sys.stdout.fileno())
        return 6
    except OSError as fault:
        print(f"{parser.prog}: {fault.filename or 'the output'} can't be written: {fault.strerror}", file=sys.stderr)
        return 6
    except KeyboardInterrupt:
        return 130


class _Parser(argparse.ArgumentParser):
    """A parser that ends with status 1 where the words are wrong, as the program does."""

    def error(self, message: str) -> NoReturn:
        self.print_usage(sys.stderr)
        self.exit(1, f"{self.prog}: {message}\n")


def _parser() -> argparse.ArgumentParser:
    parser = _Parser(
        prog="radwelio",
        description=DESCRIPTION,
        epilog=EXAMPLES,
        formatter_class=argparse.RawDescriptionHelpFormatter,
    )
    commands = parser.add_subparsers(dest="command", metavar="COMMAND", required=True)

    def command(name: str, does: str, more: str = "") -> argparse.ArgumentParser:
        made = commands.add_parser(
            name,
            help=does,
            description=f"{does[0].upper()}{does[1:]}. {more}".strip(),
            formatter_class=argparse.RawDescriptionHelpFormatter,
        )
        made.add_argument("deck", metavar="DECK", help="the file of the deck, or - for standard input")
        made.add_argument("--program", metavar="PATH", help="the program qsys to ask")
        return made

    def output(made: argparse.ArgumentParser) -> None:
        made.add_argument("-o", "--output", metavar="FILE", help="where to write (standard output)")

    def numbers(made: argparse.ArgumentParser) -> None:
        made.add_argument("--limit", type=int, metavar="N", help="how many firings each grammar is allowed (10000)")
        made.add_argument("--workers", type=int, metavar="N", help="how many workers do the work (4)")

    def which(made: argparse.ArgumentParser) -> None:
        numbers(made)
        output(made)
        one = made.add_mutually_exclusive_group()
        one.add_argument("--input", action="store_true", help="the graph of the deck, before any grammar")
        one.add_argument(
            "--grammar",
            metavar="N",
            help="the graph that this grammar left, by its number from 1, or its name (the last)",
        )

    made = command("show", "writes a page with the deck and each grammar's graph before and after it")
    numbers(made)
    output(made)
    made = command("svg", "writes a picture of a graph")
    which(made)
    made.add_argument("--style", choices=STYLES, default="auto", help="what an arc shows: the label at the root of its "
                      "tree, the tree as text, or drawn (drawn, unless the trees are too many)")
    which(command("dot", "writes a graph for Graphviz"))
    made = command("chart", "writes a graph as a chart in plain text")
    which(made)
    made.add_argument("--width", type=int, metavar="COLUMNS", help="the width of the chart (that of the terminal)")
    made = command("tree", "writes the trees of a graph's arcs")
    which(made)
    made.add_argument("--latex", action="store_true", help="for LaTeX, with the package forest")
    made.add_argument("--document", action="store_true", help="with --latex: a whole document")
    made = command(
        "check",
        "says whether the deck is accepted, and where and why not",
        "With --spell, writes the deck in its canonical spelling.",
    )
    made.add_argument("--spell", action="store_true", help="write the deck in its canonical spelling")
    output(made)
    return parser


def _show(given: argparse.Namespace, text: bytes, name: str, program: Program) -> Tuple[int, str]:
    made = page(text, name=os.path.basename(name), limit=given.limit, workers=given.workers, program=program)
    return 0, made


def _svg(given: argparse.Namespace, text: bytes, name: str, program: Program) -> Tuple[int, str]:
    return _of_graph(given, text, program, lambda graph: svg(graph, style=given.style))


def _dot(given: argparse.Namespace, text: bytes, name: str, program: Program) -> Tuple[int, str]:
    return _of_graph(given, text, program, dot)


def _chart(given: argparse.Namespace, text: bytes, name: str, program: Program) -> Tuple[int, str]:
    width = given.width or (_terminal_width() if given.output is None else 80)
    return _of_graph(given, text, program, lambda graph: chart(graph, width) + "\n")


def _tree(given: argparse.Namespace, text: bytes, name: str, program: Program) -> Tuple[int, str]:
    if given.latex or given.document:
        return _of_graph(given, text, program, latex_document if given.document else latex)
    return _of_graph(given, text, program, _trees)


def _check(given: argparse.Namespace, text: bytes, name: str, program: Program) -> Tuple[int, str]:
    deck = calls.check(text, program=program)
    if given.spell:
        return 0, deck
    grammars, _ = grammars_of(deck)
    rules = sum(len(grammar.rules) for grammar in grammars)
    arcs = len(calls.graph(text, program=program).arcs)
    counts = _count(len(grammars), "grammar"), _count(rules, "rule"), _count(arcs, "arc")
    return 0, f"{visible(name)}: accepted: {', '.join(counts)}\n"


COMMANDS: Dict[str, Callable[[argparse.Namespace, bytes, str, Program], Tuple[int, str]]] = {
    "show": _show,
    "svg": _svg,
    "dot": _dot,
    "chart": _chart,
    "tree": _tree,
    "check": _check,
}


class _Nothing(Error):
    """There is no graph to be shown."""

    def __init__(self, told: str, status: int) -> None:
        super().__init__(told)
        self.status = status


def _of_graph(
    given: argparse.Namespace, text: bytes, program: Program, write: Callable[[Graph], str]
) -> Tuple[int, str]:
    """What `write` makes of the graph that the words ask for."""
    if given.input:
        return 0, write(calls.graph(text, program=program))
    blocks = calls.run(text, limit=given.limit, workers=given.workers, program=program)
    block = blocks[-1]
    if given.grammar is not None:
        named = [one for one in blocks if one.name == given.grammar]
        if given.grammar.isdecimal() and 1 <= int(given.grammar) <= len(blocks):
            named = [blocks[int(given.grammar) - 1]]
        if not named:
            there = ", ".join(f"{at} {visible(spelled(one.name))}" for at, one in enumerate(blocks, 1))
            raise _Nothing(f"no grammar {visible(given.grammar)} was run; there are: {there}", 1)
        block = named[0]
    if block.firings is None:
        raise _Nothing(
            f"the grammar {visible(spelled(block.name))} needs more than {block.limit:,} firings, which is the limit "
            "(--limit raises it), so nothing is left of it", 3
        )
    status = 3 if blocks[-1].firings is None else 0
    return status, write(block.graph if block.graph is not None else Graph(()))


def _trees(graph: Graph) -> str:
    if not graph.arcs:
        return "(nothing is left)\n"
    return "\n".join(f"{arc.start} to {arc.end}\n{arc.tree.pretty()}\n" for arc in graph.arcs)


class _Progress:
    """Tells on standard error, for work over two seconds, what is going on and since when."""

    def __init__(self, what: str) -> None:
        self._what = what
        self._ended = threading.Event()
        self._thread = threading.Thread(target=self._tell, daemon=True)
        self._live = sys.stderr.isatty()

    def _tell(self) -> None:
        began = time.monotonic()
        wait = WAIT
        while not self._ended.wait(wait):
            seconds = int(time.monotonic() - began)
            end = "\r" if self._live else "\n"
            print(f"{self._what}: at work for {seconds} s", end=end, file=sys.stderr, flush=True)
            wait = 1.0 if self._live else max(WAIT, seconds / 2)

    def __enter__(self) -> None:
        self._thread.start()

    def __exit__(
        self,
        kind: Optional[Type[BaseException]],
        value: Optional[BaseException],
        trace: Optional[TracebackType],
    ) -> None:
        self._ended.set()
        self._thread.join()
        if self._live:
            print("\x1b[2K", end="\r", file=sys.stderr, flush=True)


def _read(deck: str) -> bytes:
    if deck == "-":
        return sys.stdin.buffer.read()
    with open(deck, "rb") as file:
        return file.read()


def _write(text: str, output: Optional[str]) -> None:
    if output is None:
        stream: IO[bytes] = sys.stdout.buffer
        stream.write(text.encode("utf-8", "replace"))
        stream.flush()
        return
    with open(output, "wb") as file:
        file.write(text.encode("utf-8", "replace"))


def _colored() -> bool:
    return sys.stderr.isatty() and not os.environ.get("NO_COLOR") and os.environ.get("TERM") != "dumb"


def _terminal_width() -> int:
    try:
        return os.get_terminal_size(sys.stdout.fileno()).columns
    except (OSError, ValueError):
        return 80


def _count(number: int, what: str) -> str:
    return f"{number:,} {what}{'' if number == 1 else 's'}"

