"""The width of texts in a figure of an exhibit, and their lines.

The widths are those of DejaVu Sans, which is wider than Arial, Helvetica and Liberation Sans: a
text that fits so also fits in them.
"""
from __future__ import annotations

import typing
import unicodedata

# The advance of the characters from 32 to 126, in thousandths of the font's size.
ADVANCES = (
    318, 401, 460, 838, 636, 950, 780, 275, 390, 390, 500, 838, 318, 361, 318, 337, 636, 636, 636,
    636, 636, 636, 636, 636, 636, 636, 337, 337, 838, 838, 838, 531, 1000, 684, 686, 698, 770, 632,
    575, 775, 752, 295, 295, 656, 557, 863, 748, 787, 603, 787, 695, 635, 611, 732, 684, 989, 685,
    611, 685, 390, 337, 390, 838, 500, 500, 613, 635, 550, 635, 615, 352, 635, 634, 278, 278, 579,
    278, 974, 634, 612, 635, 635, 411, 521, 392, 634, 592, 818, 592, 592, 525, 636, 337, 636, 838,
)
# The factor by which a bold text is wider.
BOLD = 1.27
# The size of the texts in a figure, in its units, and the distance of two lines.
SIZE, LINE = 13.0, 16.0


def advance(character: str) -> float:
    """Returns the width of a character, as a part of the font's size."""
    base = unicodedata.normalize("NFD", character)[0]
    if unicodedata.combining(character):
        return 0.0
    if 32 <= ord(base) <= 126:
        return ADVANCES[ord(base) - 32] / 1000
    return 1.0 if unicodedata.east_asian_width(base) not in ("W", "F") else 1.1


def width(words: str, size: float = SIZE) -> float:
    """Returns the width of a text of one line."""
    return size * sum(map(advance, words))


def wrap(
    words: str, most: float, measure: typing.Callable[[str], float] = width
) -> list[str]:
    """Returns the lines of a text, none of which is wider than `most`.

    A line ends at a space; a word that is too wide is broken anywhere.
    """
    lines: list[str] = []
    line = ""
    for word in words.split():
        longer = f"{line} {word}" if line else word
        if measure(longer) <= most:
            line = longer
            continue
        lines += [line] if line else []
        while measure(word) > most and len(word) > 1:
            fits = next(
                (count for count in range(len(word) - 1, 1, -1) if measure(word[:count]) <= most), 1
            )
            lines.append(word[:fits])
            word = word[fits:]
        line = word
    return [*lines, line]
