"""Finding and running the program `qsys`.

What it reads is handed on while it is running, by a thread of its own, and what it writes is taken line by line; so
neither waits for the other, no file is made, and no shell is in between.
"""

from __future__ import annotations

import os
import shutil
import subprocess
import sys
import threading
from pathlib import Path
from typing import IO, Any, Iterator, List, Optional, Sequence, Tuple, Union

from .errors import BrokenOutput, CommandMissing, ProgramFailed, ProgramMissing, Refused
from .outputs import USAGE, Lines, read_refusal

Text = Union[str, bytes, IO[bytes], IO[str]]
"""A text to be read: a string, its bytes in UTF-8, or an open file."""

DONE, REFUSED, LIMIT = 0, 2, 3
"""The statuses with which the program has answered: all is written, the text is refused, a grammar met the limit."""

HOW = """there is no program qsys. It is looked for in this order:
  1. the program that is named (the argument program=.., or --program ..);
  2. the environment's variable QSYS;
  3. the file qsys at the top of the checkout in which this package lies;
  4. the command qsys on the PATH.
In a checkout `make` proves and builds it, and `make install` puts it on the PATH."""


class Program:
    """The program, by the words that start it: its path, and perhaps words in front of its own."""

    def __init__(self, *words: str, loud: bool = False) -> None:
        self.words = words
        self.loud = loud
        """Whether what it tells on standard error is handed on at once (a launcher tells how far its proofs are)."""

    @staticmethod
    def find(program: Union[None, str, Path, "Program"] = None, loud: bool = False) -> Program:
        """The program that is named; else that of the variable QSYS, of the checkout, or on the PATH."""
        if isinstance(program, Program):
            return program
        named = os.fspath(program) if program is not None else os.environ.get("QSYS")
        if named:
            found = shutil.which(named)
            if not found:
                raise ProgramMissing(f"{named} is no program that can be started")
            return Program(os.path.abspath(found), loud=loud)
        top = Path(__file__).resolve().parents[2]
        if (top / "crates.txt").exists() and os.access(top / "qsys", os.X_OK):
            return Program(str(top / "qsys"), loud=loud)
        found = shutil.which("qsys")
        if found:
            return Program(found, loud=loud)
        raise ProgramMissing(HOW)

    def start(self, words: Sequence[str], text: Text = b"") -> Running:
        """The program with these words, reading this text. To be used in a `with`, at whose end it has ended."""
        return Running(self, words, text)

    def commands(self) -> Tuple[str, ...]:
        """The commands that this program has: its usage line, which it writes where it gets no words, names them."""
        with self.start([]) as running:
            written = "".join(running)
        found = USAGE.match(written)
        if running.status != 1 or not found:
            raise ProgramFailed(self.words, running.status or 0, "it writes no usage line of qsys\n" + running.told)
        return tuple(found.group(1).split("|"))

    def __repr__(self) -> str:
        return f"Program({', '.join(repr(word) for word in self.words)})"


class Running:
    """A program that is running: its lines, and, when it has ended, its status."""

    def __init__(self, program: Program, words: Sequence[str], text: Text) -> None:
        self.words = [*program.words, *words]
        self.status: Optional[int] = None
        self.told = ""
        self._fault: Optional[BaseException] = None
        try:
            self._process = subprocess.Popen(
                self.words, stdin=subprocess.PIPE, stdout=subprocess.PIPE, stderr=subprocess.PIPE
            )
        except (OSError, ValueError) as fault:
            raise ProgramMissing(f"{self.words[0]} can't be started: {fault}") from fault
        self._threads = [
            threading.Thread(target=self._hand_on, args=(text,), daemon=True),
            threading.Thread(target=self._listen, args=(program.loud,), daemon=True),
        ]
        for thread in self._threads:
            thread.start()

    def _hand_on(self, text: Text) -> None:
        """Gives the text to the program, as long as it reads."""
        source: Any = self._process.stdin
        try:
            if isinstance(text, (str, bytes, bytearray, memoryview)):
                source.write(text.encode() if isinstance(text, str) else text)
            else:
                while True:
                    piece = text.read(1 << 16)
                    if not piece:
                        break
                    source.write(piece.encode() if isinstance(piece, str) else piece)
        except BrokenPipeError:
            pass
        except BaseException as fault:  # what reading the text raised is raised again where the lines are taken
            self._fault = fault
        finally:
            try:
                source.close()
            except OSError:
                pass

    def _listen(self, loud: bool) -> None:
        """Takes what the program tells on standard error, and keeps the last of it."""
        stream: Any = self._process.stderr
        kept: List[bytes] = []
        for line in stream:
            kept = kept[-19:] + [line]
            if loud:
                sys.stderr.write(line.decode("utf-8", "replace"))
                sys.stderr.flush()
        self.told = b"".join(kept).decode("utf-8", "replace")

    def __iter__(self) -> Iterator[str]:
        """The lines that it writes, each with its line feed, as soon as they are there."""
        stream: Any = self._process.stdout
        for line in stream:
            try:
                yield line.decode("utf-8")
            except UnicodeDecodeError:
                raise BrokenOutput("what the program wrote isn't UTF-8") from None
        self.end()
        if self._fault is not None:
            raise self._fault

    def end(self) -> None:
        """Waits until the program has ended."""
        for thread in self._threads:
            thread.join()
        self.status = self._process.wait()

    def answer(self, *statuses: int) -> None:
        """Raises `ProgramFailed` where the program, which has ended, ended with none of these statuses."""
        if self.status not in statuses:
            raise ProgramFailed(self.words, self.status if self.status is not None else 70, self.told)

    def __enter__(self) -> Running:
        return self

    def __exit__(self, *fault: object) -> None:
        if self.status is None and self._process.poll() is None:
            self._process.kill()
        self.status = self._process.wait()
        for thread in self._threads:
            thread.join(1)
        for stream in (self._process.stdout, self._process.stderr):
            if stream is not None:
                stream.close()


def asked(program: Program, words: Sequence[str], text: Text) -> Iterator[str]:
    """The lines that the program writes for these words and this text.

    Raises `Refused` where it refuses the text, `CommandMissing` where it hasn't got the command, which is the first
    word, and `ProgramFailed` where it ends in another way without an answer.
    """
    with program.start(words, text) as running:
        lines = Lines(running)
        try:
            refusal = read_refusal(lines)
            if refusal is not None:
                if lines.peek():
                    raise BrokenOutput("behind a refusal more is written")
                running.answer(REFUSED)
                raise Refused(refusal, _bytes(text))
            usage = USAGE.match(lines.peek())
            if usage and words and words[0] not in usage.group(1).split("|"):
                raise CommandMissing(words[0], usage.group(1).split("|"))
            if usage:
                line = lines.take("a usage line")
                running.end()
                running.told = line + running.told
            while lines.peek():
                yield lines.take("a line")
        except BrokenOutput:
            running.end()
            running.answer(DONE, REFUSED, LIMIT)  # where the program failed, this says it better
            raise
        running.answer(DONE, LIMIT)


def _bytes(text: Text) -> Optional[bytes]:
    if isinstance(text, str):
        return text.encode()
    return bytes(text) if isinstance(text, (bytes, bytearray, memoryview)) else None
