"""How wide a text is in a picture.

The letters are reckoned as those of Helvetica, with some room. A picture tells each text's width (`textLength`), so
that a browser with other letters sets them closer or wider, and no text gets wider than the place that it has.
"""

from __future__ import annotations

import unicodedata

from .columns import width_of_character

SIZE = 13.0
"""The height of the letters."""

_ASCII = (
    "278 278 355 556 556 889 667 191 333 333 389 584 278 333 278 278 556 556 556 556 556 556 556 556 556 556 278 278 "
    "584 584 584 556 1015 667 667 722 722 667 611 778 722 278 500 667 556 833 722 778 667 778 722 667 611 722 667 944 "
    "667 667 611 278 278 278 469 556 333 556 556 500 556 556 278 556 556 222 222 500 222 833 556 556 556 556 333 500 "
    "278 556 500 722 500 500 500 334 260 334 584"
).split()
WIDTHS = {chr(32 + place): int(width) / 1000 for place, width in enumerate(_ASCII)}


def text_width(text: str, size: float = SIZE, bold: bool = False) -> float:
    """The width of the text, in the unit of `size`.

    >>> round(text_width("CHAT")), round(text_width("猫"))
    (37, 14)
    """
    wide = sum(_character_width(character) for character in text)
    return round(max(wide, 0.3) * size * (1.12 if bold else 1.05), 1)


def _character_width(character: str) -> float:
    known = WIDTHS.get(character)
    if known is not None:
        return known
    columns = width_of_character(character)
    if columns != 1:
        return 1.05 * columns / 2
    base = unicodedata.normalize("NFD", character)[0]
    return WIDTHS.get(base, 0.65)
