"""District maps as a figure of a page, in SVG, and as a picture of matplotlib."""
from __future__ import annotations

import math
import typing

from . import measuring
from .district_map import DistrictMap, Point, Ring, place_labels
from .errors import extra
from .exhibit_figures import WIDTH, escape, text

if typing.TYPE_CHECKING:
    from matplotlib.axes import Axes
    from matplotlib.figure import Figure

# The space between two maps, the room above a map for a line of its title, and the greatest height
# of a map.
SPACE, TOP, MOST_HEIGHT = 24.0, 24.0, 760.0
# The maps of a row, and the room for each further line of a title.
IN_ROW, LINE = 3, 16.0
SIZES = (13.0, 11.0, 9.0, 7.0)
NOT_PROVED = (
    "The package drew this map from the shapes that were given with the units' ids. It is no part"
    " of the proved report."
)


def caption_of(maps: typing.Sequence[DistrictMap], left_out: typing.Iterable[str]) -> str:
    """Returns what stands below maps, with the districts that have no label."""
    labels = ", ".join(dict.fromkeys(left_out))
    has_holes = any(one.has_holes for one in maps)
    holes = " White places within the map have no unit." if has_holes else ""
    return NOT_PROVED + holes + (f" Districts whose label has no room: {labels}." if labels else "")


# ---- a page


def map_figure(maps: typing.Sequence[DistrictMap], names: str) -> str:
    """Returns the maps in rows as a figure of a page."""
    columns = min(len(maps), IN_ROW)
    wide = (WIDTH - SPACE * (columns - 1)) / columns
    wide = min(wide, *(MOST_HEIGHT / max(one.height, 0.01) for one in maps))
    titles = [measuring.wrap(one.title, wide) for one in maps]
    above = TOP + LINE * (max(map(len, titles)) - 1)
    row = above + max(one.height for one in maps) * wide + 4
    parts, missing = [], []
    for place, (one, lines) in enumerate(zip(maps, titles)):
        corner = (place % columns) * (wide + SPACE), (place // columns) * row
        parts += [
            text(corner[0], corner[1] + 15 + LINE * number, line, "start", 'font-weight="bold"')
            for number, line in enumerate(lines)
        ]
        drawn, left_out = draw_map(one, (corner[0], corner[1] + above), wide)
        parts += drawn
        missing += left_out
    caption = caption_of(maps, missing)
    title, high = escape(names), row * -(-len(maps) // columns)
    return (
        f'<figure><figcaption class="title"><b>Map.</b> {title}</figcaption>'
        f'<svg viewBox="0 0 {WIDTH} {math.ceil(high)}" role="img" aria-label="{title}">'
        f"{''.join(parts)}</svg><figcaption>{escape(caption)}</figcaption></figure>"
    )


def draw_map(one: DistrictMap, corner: Point, wide: float) -> tuple[list[str], list[str]]:
    """Returns the SVG of a map below and right of a corner, and the labels that have no room."""
    parts = []
    for area in one.areas:
        data = " ".join(path_of(ring, corner, wide) for ring in area.rings)
        parts.append(
            f'<path d="{data}" fill="{area.shade}" fill-rule="evenodd" stroke="#000"'
            ' stroke-width="1.2" stroke-linejoin="round"/>'
        )
    labels, left_out = place_labels(one, wide, SIZES, measuring.width)
    for label in labels:
        # A style of its own, since that of the page gives each text one size.
        more = f'class="at{label.size:g}" stroke="#fff" stroke-width="3" paint-order="stroke"'
        x, y = corner[0] + label.x, corner[1] + label.y + 0.36 * label.size
        parts.append(text(x, y, label.words, "middle", more))
    return parts, left_out


def path_of(ring: Ring, corner: Point, wide: float) -> str:
    """Returns a ring as commands of a path."""
    points = [f"{corner[0] + x * wide:.1f} {corner[1] + y * wide:.1f}" for x, y in ring]
    kept = [point for place, point in enumerate(points) if place == 0 or point != points[place - 1]]
    return f"M {' L '.join(kept)} z"


# ---- a picture


def plot_maps(maps: typing.Sequence[DistrictMap], title: str | None = None) -> Figure:
    """Returns a matplotlib figure of maps in rows.

    Raises MissingExtra if matplotlib is not installed.
    """
    extra("matplotlib")
    from matplotlib.backends.backend_agg import FigureCanvasAgg
    from matplotlib.figure import Figure

    from .picture import EDGE, LARGE, MIDDLE, SMALL, Ruler
    from .picture import WIDTH as INCHES

    ruler = Ruler()
    columns = min(len(maps), IN_ROW)
    wide = (INCHES - 2 * EDGE - 0.3 * (columns - 1)) / columns
    wide = min(wide, *(9.0 / max(one.height, 0.01) for one in maps))
    titles = [ruler.wrap(one.title, wide, MIDDLE) for one in maps]
    over = 0.45 + 0.16 * max(title.count("\n") for title in titles)
    row = over + max(one.height for one in maps) * wide
    shown = "" if title is None else ruler.wrap(title, INCHES - 2 * EDGE, LARGE, True)
    above = 0.08 + 0.2 * (1 + shown.count("\n")) if shown else 0.0
    labelled = [
        place_labels(
            one, 72 * wide, (9.0, 8.0, 7.0, 6.0, 5.0),
            lambda words, size: 72 * ruler.width(words, size),
        )
        for one in maps
    ]
    missing = [label for _, left_out in labelled for label in left_out]
    notes = ruler.wrap(caption_of(maps, missing), INCHES - 2 * EDGE)
    below = 0.25 + 0.14 * (1 + notes.count("\n"))
    whole = above + row * -(-len(maps) // columns) + below
    figure = Figure(figsize=(INCHES, whole))
    FigureCanvasAgg(figure)
    for place, (one, (labels, _)) in enumerate(zip(maps, labelled)):
        left = EDGE + place % columns * (wide + 0.3)
        top = above + place // columns * row + over
        box = (
            left / INCHES, 1 - (top + one.height * wide) / whole, wide / INCHES,
            one.height * wide / whole,
        )
        axes = figure.add_axes(box)
        fill_axes(axes, one)
        for label in labels:
            axes.text(
                label.x / (72 * wide), label.y / (72 * wide), label.words.replace("$", r"\$"),
                ha="center", va="center", fontsize=label.size,
            )
        axes.set_title(titles[place], fontsize=MIDDLE, loc="left")
    if shown:
        figure.text(
            EDGE / INCHES, 1 - 0.1 / whole, shown, fontsize=LARGE, va="top", weight="bold"
        )
    figure.text(EDGE / INCHES, 0.1 / whole, notes, fontsize=SMALL, va="bottom")
    return figure


def fill_axes(axes: Axes, one: DistrictMap) -> None:
    """Draws the districts of a map."""
    from matplotlib.patches import PathPatch
    from matplotlib.path import Path

    axes.set_xlim(0, 1)
    axes.set_ylim(one.height, 0)
    axes.set_axis_off()
    for area in one.areas:
        path = Path.make_compound_path(*(Path(ring, closed=True) for ring in area.rings))
        axes.add_patch(
            PathPatch(path, facecolor=area.shade, edgecolor="black", linewidth=1, clip_on=False)
        )
