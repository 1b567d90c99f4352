"""The figures of an exhibit, as inline SVG in black, gray and white.

Shapes, hatching and words distinguish the rows, so that a page printed without color loses nothing.
"""
from __future__ import annotations

import html
import math
import typing
import unicodedata
from decimal import Decimal

from .measuring import LINE, width, wrap
from .report import SEATS, Ends, Report, Serial, Shift, Walk

# A question with more walks than this has one row for all of them.
MOST_ROWS = 8
# The drawing area of a figure: its left and right end, in units of the SVG.
LEFT, RIGHT, WIDTH = 300.0, 590.0, 900.0
# The free room beside a text.
GAP = 8.0
HATCH = (
    '<defs><pattern id="hatch" width="6" height="6" patternUnits="userSpaceOnUse" '
    'patternTransform="rotate(45)"><rect width="6" height="6" fill="#fff"/>'
    '<line x1="0" y1="0" x2="0" y2="6" stroke="#000" stroke-width="2"/></pattern></defs>'
)


def escape(value: object) -> str:
    """Returns a text for HTML: markup escaped, and invisible characters shown as code points."""
    shown = "".join(
        f"\\u{ord(one):04x}" if unicodedata.category(one) in ("Cc", "Cf", "Cs", "Co") else one
        for one in (f"{value:f}" if isinstance(value, Decimal) else str(value))
    )
    return html.escape(shown, quote=True)


def text(x: float, y: float, words: object, anchor: str = "start", more: str = "") -> str:
    return (
        f'<text x="{x:.1f}" y="{y:.1f}"'
        f' text-anchor="{anchor}"{more and " " + more}>{escape(words)}</text>'
    )


def paragraph(x: float, y: float, lines: typing.Sequence[str], anchor: str = "start") -> str:
    """Returns lines of a text whose middle is at a height."""
    first = y + 4 - LINE * (len(lines) - 1) / 2
    return "".join(
        text(x, first + LINE * place, words, anchor) for place, words in enumerate(lines)
    )


class Fitted(typing.NamedTuple):
    """A row whose texts are in lines that fit: its middle, its height, and both texts."""

    middle: float
    height: float
    label: list[str]
    words: list[str]


def fit_rows(
    rows: typing.Sequence[Row | Rank], top: float, least: float
) -> list[Fitted]:
    """Returns the places of rows below each other, the first of which begins at `top`."""
    found = []
    for row in rows:
        label, words = wrap(row.label, LEFT - 2 * GAP), wrap(row.words, WIDTH - RIGHT - 2 * GAP)
        height = least + LINE * (max(len(label), len(words)) - 1)
        found.append(Fitted(top + height / 2, height, label, words))
        top += height
    return found


def line(x1: float, y1: float, x2: float, y2: float, more: str = 'stroke="#000"') -> str:
    return f'<line x1="{x1:.1f}" y1="{y1:.1f}" x2="{x2:.1f}" y2="{y2:.1f}" {more}/>'


def rectangle(x: float, y: float, width: float, height: float, fill: str) -> str:
    return (
        f'<rect x="{x:.1f}" y="{y:.1f}" width="{width:.1f}" height="{height:.1f}" fill="{fill}"'
        ' stroke="#000"/>'
    )


def figure(number: int, title: str, caption: str, height: float, parts: list[str]) -> str:
    """Returns a numbered figure with its title above and its caption below."""
    name, drawn = escape(title), "".join(parts)
    return (
        f'<figure><figcaption class="title"><b>Figure {number}.</b> {name}</figcaption>'
        f'<svg viewBox="0 0 {WIDTH} {math.ceil(height)}" role="img" aria-label="{name}">{HATCH}'
        f"{drawn}</svg><figcaption>{escape(caption)}</figcaption></figure>"
    )


# ---- outlier walks


class Row(typing.NamedTuple):
    """A row of the figure on walks: its points as fractions and bounds, and words on both sides."""

    label: str
    points: list[tuple[float, float]]
    words: str


def walk_rows(report: Report, enacted: typing.Mapping[str, str]) -> list[Row]:
    """Returns one row for each ask and walk, or one for all walks of an ask if they are many."""
    rows = []
    for ask in report.asks:
        walks = [walk for walk in report.walks if walk.ask == ask]
        name = f"{ask}, enacted: {enacted[ask.split(':')[0]]}"
        points = sorted((walk.count / walk.of, float(walk.bound)) for walk in walks)
        if len(walks) > MOST_ROWS:
            counts = sorted(walk.count for walk in walks)
            rows.append(
                Row(name, points, f"{len(walks)} walks: counts {counts[0]} to {counts[-1]}")
            )
            pairs = sorted(
                (pair.count / pair.of, pair.bound) for pair in report.pair_lines if pair.ask == ask
            )
            if pairs:
                rows.append(
                    Row(
                        f"{name} (pairs of walks)", [(part, float(one)) for part, one in pairs],
                        f"{len(pairs)} pairs: bounds {pairs[0][1]:f} to {pairs[-1][1]:f}",
                    )
                )
        else:
            rows += [walk_row(name, walk) for walk in walks]
            rows += [
                Row(
                    f"{name} (walks {pair.first}, {pair.second})",
                    [(pair.count / pair.of, float(pair.bound))],
                    f"{pair.count} of {pair.of}, bound {pair.bound:f}",
                )
                for pair in report.pair_lines
                if pair.ask == ask
            ]
    return rows


def walk_row(name: str, walk: Walk) -> Row:
    return Row(
        f"{name} (walk {walk.number})", [(walk.count / walk.of, float(walk.bound))],
        f"{walk.count} of {walk.of}, bound {walk.bound:f}",
    )


def walks_figure(number: int, title: str, rows: list[Row]) -> str:
    """Returns the fractions in the tail and the bounds, on a logarithmic scale."""
    least = min(part for row in rows for part, _ in row.points)
    decades = max(2, math.ceil(-math.log10(least)))

    def scale(value: float) -> float:
        place = 1 + min(math.log10(value), math.log10(2)) / decades
        return LEFT + (RIGHT - LEFT) * 0.86 * place

    places = fit_rows(rows, 19, 26)
    bottom = places[-1].middle + places[-1].height / 2 + 7
    parts = []
    # Labels that would run into each other are left out.
    longest = width(f"1/{10 ** decades:,}") + GAP
    every = math.ceil(longest / (scale(1.0) - scale(0.1)))
    for power in range(decades + 1):
        value = 10.0**-power
        parts.append(
            line(scale(value), 14, scale(value), bottom, 'stroke="#999" stroke-width="0.7"')
        )
        if power % every == 0:
            label = "1" if power == 0 else f"1/{10 ** power:,}"
            parts.append(text(scale(value), bottom + 16, label, "middle"))
    parts.append(line(scale(0.05), 14, scale(0.05), bottom, 'stroke="#000" stroke-dasharray="5 4"'))
    parts.append(text(scale(0.05), 11, "0.05", "middle"))
    for row, place in zip(rows, places):
        y = place.middle
        parts.append(paragraph(LEFT - GAP, y, place.label, "end"))
        parts.append(paragraph(RIGHT + GAP, y, place.words))
        parts += [
            f'<circle cx="{scale(part):.1f}" cy="{y:.1f}" r="4.5" fill="#000"/>'
            for part, _ in row.points
        ]
        # Open diamonds hide nothing.
        parts += [
            f'<path d="M {scale(bound):.1f} {y - 7:.1f} l 7 7 l -7 7 l -7 -7 z" fill="none"'
            ' stroke="#000"/>'
            for _, bound in row.points
        ]
    caption = (
        "Filled circle: the fraction of the visited plans that are at least as extreme as "
        "the enacted plan. Open diamond: the bound, which says nothing at 1 and above. The "
        "scale is logarithmic; the dashed line is 0.05."
    )
    return figure(number, title, caption, bottom + 24, parts)


# ---- rank tests


class Rank(typing.NamedTuple):
    """A row of the figure on rank tests."""

    label: str
    part: float
    words: str


def rank_rows(report: Report, enacted: typing.Mapping[str, str]) -> list[Rank]:
    rows = []
    for stop in report.stops:
        rows.append(
            Rank(
                f"{label(stop.ask, enacted)}, sequential", stop.top / stop.of,
                f"value {stop.top} of {stop.of}, p {stop.p:f}",
            )
        )
    tests: list[Ends | Serial] = [*report.ends, *report.serial]
    for test in tests:
        what = "parallel" if isinstance(test, Ends) else "serial"
        rows.append(
            Rank(
                f"{label(test.ask, enacted)}, {what}", test.rank / test.of,
                f"rank {test.rank} of {test.of}, p {test.p:f}",
            )
        )
    return rows


def label(ask: str, enacted: typing.Mapping[str, str]) -> str:
    return f"{ask}, enacted: {enacted[ask.split(':')[0]]}"


def ranks_figure(number: int, title: str, rows: list[Rank]) -> str:
    """Returns the enacted plan's place among the plans that it is ranked with."""
    places = fit_rows(rows, 7, 32)
    bottom = places[-1].middle + places[-1].height / 2 + 3
    whole = RIGHT - LEFT
    parts = []
    for row, place in zip(rows, places):
        y, at = place.middle - 9, LEFT + whole * row.part
        parts.append(rectangle(LEFT, y, whole, 18, "#fff"))
        parts.append(rectangle(LEFT, y, whole * row.part, 18, "url(#hatch)"))
        parts.append(line(at, y - 5, at, y + 23, 'stroke="#000" stroke-width="4"'))
        parts.append(paragraph(LEFT - GAP, place.middle, place.label, "end"))
        parts.append(paragraph(RIGHT + GAP, place.middle, place.words))
    twentieth = LEFT + whole / 20
    parts.append(line(twentieth, 4, twentieth, bottom, 'stroke="#000" stroke-dasharray="5 4"'))
    for value, words in ((0.05, "0.05"), (0.5, "0.5"), (1.0, "1")):
        parts.append(text(LEFT + whole * value, bottom + 16, words, "middle"))
    caption = (
        "Thick mark: the enacted plan. The hatched part left of it holds the plans that are "
        "at least as extreme, the enacted plan among them. The most extreme plan is at the "
        "left; the dashed line is 0.05."
    )
    return figure(number, title, caption, bottom + 24, parts)


# ---- the histogram of seats


def seats_figure(number: int, title: str, shift: Shift, seats: int | None, districts: int) -> str:
    """Returns the histogram; with `seats`, those of the enacted plan, it has whole seats below."""
    most, left, step, top, bottom = max(shift.counts), 110.0, 80.0, 44.0, 240.0
    whole = sum(shift.counts)
    parts = [line(left - 10, bottom, left + 9 * step, bottom)]
    for place, count in enumerate(shift.counts):
        x, height = left + step * place, (bottom - top) * count / most
        fill = "url(#hatch)" if place == 4 else "#fff"
        parts.append(rectangle(x + 10, bottom - height, step - 20, height, fill))
        parts.append(text(x + step / 2, bottom - height - 6, percent(count, whole), "middle"))
        parts.append(text(x + step / 2, bottom + 18, SEATS[place], "middle"))
        words = "" if seats is None else seats_at(place, seats, districts)
        parts += [text(x + step / 2, bottom + 38, words, "middle")] if words else []
    middle = left + 4.5 * step
    parts.append(f'<path d="M {middle:.1f} 24 l -6 -10 l 12 0 z" fill="#000"/>')
    said = "enacted plan" if seats is None else f"enacted plan: {seats} of {districts}"
    parts.append(text(middle + 12, 22, said, "start", 'font-weight="bold"'))
    parts.append(text(left - 16, bottom + 18, "difference", "end"))
    parts += [] if seats is None else [text(left - 16, bottom + 38, "seats", "end")]
    caption = (
        "Each bar: the share of all plans visited by the outlier walks, counted each time, "
        "that have this many seats more or fewer than the enacted plan. Hatched: the same "
        "number. This describes, and is no test."
    )
    return figure(number, title, caption, bottom + 48, parts)


def seats_at(place: int, seats: int, districts: int) -> str:
    """Returns the seats of a bar; empty if no plan can have them."""
    here = seats + place - 4
    if place == 0:
        return f"0 to {here}" if here > 0 else "0" if here == 0 else ""
    if place == 8:
        return (
            f"{here} to {districts}" if here < districts else str(here) if here == districts else ""
        )
    return str(here) if 0 <= here <= districts else ""


def percent(count: int, whole: int) -> str:
    """Returns a part in percent; neither 0 nor 100 unless it is nothing or all."""
    if count in (0, whole):
        return "0 %" if count == 0 else "100 %"
    tenths = (2000 * count + whole) // (2 * whole)
    if tenths == 0:
        return "< 0.1 %"
    return "> 99.9 %" if tenths == 1000 else f"{tenths // 10}.{tenths % 10} %"
