"""What can go wrong between this package and the program. Each is an `Error`."""

from __future__ import annotations

from typing import TYPE_CHECKING, Optional, Sequence

if TYPE_CHECKING:
    from .outputs import Refusal

STATUSES = {
    0: "the program ended as if all were well, and wrote no answer",
    1: "the program refused its words",
    2: "the program ended as if it had refused the text, and wrote no refusal",
    4: "the program could not read its input",
    5: "the text has more than 4,194,304 bytes, which is the most that the program reads",
    6: "the program could not write its output to its end",
    7: "the program had not enough memory",
    70: "the program could not be proved and built",
}
"""A sentence for each status with which the program, or the launcher of a checkout, ends without an answer."""


class Error(Exception):
    """The base of all errors of this package. `status` is the one with which the command ends."""

    status = 70


class ProgramMissing(Error):
    """There is no program `qsys`, or it can't be started."""


class ProgramFailed(Error):
    """The program ended without an answer: with a status that says so, or by a signal (then `status` is negative)."""

    def __init__(self, words: Sequence[str], status: int, told: str = "") -> None:
        if status < 0:
            sentence = f"the program was ended by the signal {-status}"
        else:
            sentence = STATUSES.get(status, f"the program ended with the status {status}, which isn't one of its own")
        message = f"{sentence} ({' '.join(words)})"
        if told.strip():
            message += ":\n" + told.strip()
        super().__init__(message)
        self.status = status
        self.told = told


class CommandMissing(Error):
    """The program that was found hasn't got this command; `commands` are those that it has."""

    status = 1

    def __init__(self, command: str, commands: Sequence[str]) -> None:
        there = ", ".join(commands) if commands else "none that its usage line names"
        super().__init__(f"this program has no command {command}; it has {there}")
        self.command = command
        self.commands = tuple(commands)


class BrokenOutput(Error):
    """What the program wrote isn't what it writes: it ends too early, or has a line that isn't known."""


class Refused(Error):
    """The program refused the text. `refusal` says where and why; `text` is what was refused, where it is at hand."""

    status = 2

    def __init__(self, refusal: Refusal, text: Optional[bytes] = None) -> None:
        super().__init__(f"{refusal.line}:{refusal.column}: {refusal.cause}")
        self.refusal = refusal
        self.text = text
