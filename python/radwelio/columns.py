"""How many columns of a terminal a text takes."""

from __future__ import annotations

import unicodedata


def width_of_character(character: str) -> int:
    """2 for a wide character, 0 for one that joins the one before it, and else 1."""
    code = ord(character)
    if code < 0x300:
        return 0 if code == 0xAD else 1
    if unicodedata.combining(character) or unicodedata.category(character) in ("Mn", "Me", "Cf"):
        return 0
    if unicodedata.east_asian_width(character) in ("W", "F"):
        return 2
    return 1


def width_of(text: str) -> int:
    """The columns that the text takes.

    >>> width_of("chat"), width_of("猫"), width_of("e\u0301te\u0301")
    (4, 2, 3)
    """
    return sum(width_of_character(character) for character in text)


def cut(text: str, width: int) -> str:
    """The text, or where it is wider its front with an ellipsis, so that it takes at most this many columns.

    >>> cut("GN(LE,CHAT)", 6)
    'GN(LE…'
    """
    if width_of(text) <= width:
        return text
    taken, kept = 1, []
    for character in text:
        taken += width_of_character(character)
        if taken > width:
            break
        kept.append(character)
    return "".join(kept) + "…"
