"""Pictures of reports, drawn by matplotlib.

The picture shows, for each question and walk, the part of the visited plans that is at least as
extreme as the enacted plan, and the bound that follows. It shows for each rank test the rank of the
enacted plan among its trajectories, and the histogram of seats if the report has one. All is black,
gray and white: shapes and words distinguish.
"""
from __future__ import annotations

import dataclasses
import io
import os
import typing

from . import measuring, wording
from .arguments import SCORES
from .custody import PathLike, write_whole
from .errors import extra
from .exhibit_custody import program_line
from .report import SEATS, Line, Pair, Report, Shift, Walk

if typing.TYPE_CHECKING:
    from matplotlib.axes import Axes
    from matplotlib.axis import Axis
    from matplotlib.figure import Figure

# With more outlier trajectories than this a question has one row for all of them.
MOST_ROWS = 8
# The sizes of texts, in points.
SMALL, MIDDLE, LARGE = 8, 9, 12
# The width of a figure, the free room at its edges and beside panels, and the most room for labels
# and words beside a panel, in inches.
WIDTH, EDGE, GAP = 11.0, 0.2, 0.12
MOST_LEFT, MOST_RIGHT = 3.6, 3.2
# The grid on which texts are measured, in dots of an inch.
DOTS = 720


class Row(typing.NamedTuple):
    """A row of the walks: what stands at its left, its points as parts and bounds, and what stands
    at its right, in the report's digits.
    """

    label: str
    points: list[tuple[float, float]]
    words: str


class Test(typing.NamedTuple):
    """A row of the rank tests."""

    label: str
    part: float
    words: str


RowKind = typing.TypeVar("RowKind", Row, Test)

# ---- what is drawn

Parties = typing.Optional[typing.Sequence[str]]
Scores = typing.Union[None, str, typing.Sequence[str]]


def select_scores(report: Report, scores: Scores) -> Report:
    """Returns a report with the lines of some scores, or questions, alone."""
    if scores is None:
        return report
    wanted = scores.split(",") if isinstance(scores, str) else list(scores)
    known = {*SCORES, *report.asks}
    for one in wanted:
        if one not in known:
            raise ValueError(f"scores={scores!r}: {one!r} is not one of {', '.join(sorted(known))}")

    def is_wanted(line: Line) -> bool:
        return line.score in wanted or line.ask in wanted

    found = dataclasses.replace(
        report, walks=tuple(filter(is_wanted, report.walks)),
        ends=tuple(filter(is_wanted, report.ends)), stops=tuple(filter(is_wanted, report.stops)),
        serial=tuple(filter(is_wanted, report.serial)),
    )
    if not found.asks:
        raise ValueError(
            f"scores={scores!r}: the report has none of these; it has {', '.join(report.asks)}"
        )
    return found


def named_parties(parties: Parties) -> tuple[str, str] | None:
    """Returns the names of both parties, where they are given."""
    if parties is None:
        return None
    if isinstance(parties, str) or len(parties) != 2:
        raise ValueError(
            f"parties={parties!r}: parties must be the names of the first and the second party"
        )
    return str(parties[0]), str(parties[1])


def ask_label(line: Line, parties: Parties = None) -> str:
    """Returns a question as it stands at a row; seats are those of the first party."""
    whose = f"{parties[0]} " if parties and line.score == "seats" else ""
    return f"{whose}{line.score} {line.tail}"


def walk_rows(
    walks: typing.Sequence[Walk], parties: Parties = None, most: int = MOST_ROWS
) -> list[Row]:
    by_ask: dict[str, list[Walk]] = {}
    for walk in walks:
        by_ask.setdefault(ask_label(walk, parties), []).append(walk)
    rows = []
    for ask, found in by_ask.items():
        if len(found) <= most:
            rows += [
                Row(
                    f"{ask}, walk {walk.number}", [(walk.count / walk.of, float(walk.bound))],
                    f"{walk.count} of {walk.of}, bound {walk.bound:f}",
                )
                for walk in found
            ]
        else:
            points = sorted((walk.count / walk.of, walk.bound) for walk in found)
            rows.append(
                Row(
                    f"{ask}, {len(found)} walks", [(part, float(bound)) for part, bound in points],
                    f"bounds {points[0][1]:f} to {points[-1][1]:f}",
                )
            )
    return rows


def pair_rows(report: Report, parties: Parties = None, most: int = MOST_ROWS) -> list[Row]:
    """Returns the rows of pairs of walks, of a report that was asked for them.

    Each pair has a row, or all pairs of a question have one if the walks are more than `most`.
    """
    by_ask: dict[str, list[Pair]] = {}
    for pair in report.pair_lines:
        by_ask.setdefault(ask_label(pair, parties), []).append(pair)
    rows = []
    for ask, found in by_ask.items():
        if report.setting.walks <= most or len(found) == 1:
            rows += [
                Row(
                    f"{ask}, walks {pair.first} and {pair.second}",
                    [(pair.count / pair.of, float(pair.bound))],
                    f"{pair.count} of {pair.of}, bound {pair.bound:f}",
                )
                for pair in found
            ]
        else:
            points = sorted((pair.count / pair.of, pair.bound) for pair in found)
            rows.append(
                Row(
                    f"{ask}, {len(found)} pairs", [(part, float(bound)) for part, bound in points],
                    f"bounds {points[0][1]:f} to {points[-1][1]:f}",
                )
            )
    return rows


def test_rows(report: Report, parties: Parties = None) -> list[Test]:
    def label(line: Line, test: str) -> str:
        return f"{ask_label(line, parties)}, {test} test"

    rows = [
        Test(
            label(line, "sequential"), line.top / line.of,
            f"value {line.top} of {line.of}, p {line.p:f}",
        )
        for line in report.stops
    ]
    rows += [
        Test(
            label(line, "parallel"), line.rank / line.of,
            f"rank {line.rank} of {line.of}, p {line.p:f}",
        )
        for line in report.ends
    ]
    return rows + [
        Test(
            label(line, "serial"), line.rank / line.of,
            f"rank {line.rank} of {line.of}, p {line.p:f}",
        )
        for line in report.serial
    ]


def percent(count: int, whole: int) -> str:
    """Returns a part in percent. Only none is shown as 0 %, and only all as 100 %."""
    if count == 0:
        return "0"
    part = 100 * count / whole
    if count < whole and part >= 99.95:
        return "> 99.9 %"
    return f"{part:.1f} %" if part >= 0.05 else "< 0.1 %"


def count_text(count: int, what: str) -> str:
    return f"{count} {what}{'' if count == 1 else 's'}"


def compose_head(
    report: Report, parties: Parties = None, names: wording.Names = wording.Names()
) -> list[str]:
    """Returns the head of the picture, a paragraph each: the map, its rules, the setting, the key,
    the program, the source, and the parties.
    """
    rules, setting, source = report.rules, report.setting, report.source
    limits = wording.describe_limits(rules, names, report.edges, report.districts)
    ends = (
        f"{count_text(setting.ends, 'end')} of {count_text(setting.hub_steps, 'step')}"
        if setting.ends
        else "no ends"
    )
    ends += f", a test stops after {setting.stop} in its tail" if setting.stop else ""
    walks = (
        f"{count_text(setting.walks, 'walk')} of {count_text(setting.steps, 'step')}"
        if setting.walks
        else "no walks"
    )
    found = [
        (
            f"{report.units} units, {report.districts} districts, {report.population} people;"
            f" {rules.low} to {rules.high} people a district (slack {rules.slack / 100:g} %)"
        ),
        "; ".join(limits), f"{walks}; {ends}", f"key {report.key}", program_line(report),
        "" if source is None else f"source sha256 {source.sha256}, {source.size} bytes",
        f"first party {parties[0]}, second party {parties[1]}" if parties else "",
    ]
    return [line for line in found if line]


# ---- layout


class Ruler:
    """The width of texts, in inches, as matplotlib draws them."""

    def __init__(self) -> None:
        from matplotlib.backends.backend_agg import FigureCanvasAgg
        from matplotlib.figure import Figure

        # A fine grid, since widths are rounded to whole points of it.
        self.renderer = FigureCanvasAgg(Figure(dpi=DOTS)).get_renderer()

    def width(self, words: str, size: float = SMALL, is_bold: bool = False) -> float:
        """Returns the width of a line in inches; `size` is in points."""
        from matplotlib.font_manager import FontProperties

        font = FontProperties(size=size, weight="bold" if is_bold else "normal")
        wide, _, _ = self.renderer.get_text_width_height_descent(words, font, False)
        return float(wide) / DOTS

    def wrap(
        self, words: str, most: float, size: float = SMALL, is_bold: bool = False
    ) -> str:
        """Returns a text in lines of at most a width in inches."""
        lines = measuring.wrap(words, most, lambda line: self.width(line, size, is_bold))
        return as_plain("\n".join(lines))

    def widest(self, words: typing.Iterable[str], most: float) -> float:
        """Returns the width of the widest of some lines, or `most` if it is wider."""
        return min(most, max(map(self.width, words), default=0.0))


def as_plain(words: str) -> str:
    """Returns a text in which matplotlib finds no formula."""
    return words.replace("$", r"\$")


class Sides(typing.NamedTuple):
    """The room beside a panel, in inches."""

    left: float
    right: float


class Panel(typing.NamedTuple):
    """A part of a figure: its height and the room above and below it, in inches, the room beside
    it, and what draws it.
    """

    height: float
    above: float
    below: float
    sides: Sides
    paint: typing.Callable[[Axes], None]


def fit_rows(ruler: Ruler, walks: list[Row], tests: list[Test]) -> Sides:
    """Returns the room beside the panels of rows, for the labels and the words of all."""
    rows: list[Row | Test] = [*walks, *tests]
    left = ruler.widest((row.label for row in rows), MOST_LEFT)
    right = ruler.widest((row.words for row in rows), MOST_RIGHT)
    return Sides(EDGE + left + GAP, GAP + right + EDGE)


def wrap_rows(
    ruler: Ruler, rows: typing.Sequence[RowKind]
) -> tuple[list[RowKind], float]:
    """Returns rows whose texts are in lines that fit, and the height of each row in inches."""
    found = [
        row._replace(
            label=ruler.wrap(row.label, MOST_LEFT), words=ruler.wrap(row.words, MOST_RIGHT)
        )
        for row in rows
    ]
    lines = 1 + max(max(row.label.count("\n"), row.words.count("\n")) for row in found)
    return found, 0.3 + 0.14 * (lines - 1)


def panels_of(ruler: Ruler, walks: list[Row], tests: list[Test]) -> list[Panel]:
    """Returns the panels of walks and of rank tests, of which a report may have none."""
    sides, panels = fit_rows(ruler, walks, tests), []
    if walks:
        found, each = wrap_rows(ruler, walks)
        panels.append(
            Panel(
                each * len(walks) + 0.15, 0.3, 0.8, sides, lambda axes: draw_walks(axes, found)
            )
        )
    if tests:
        shown, each = wrap_rows(ruler, tests)
        panels.append(
            Panel(each * len(tests) + 0.15, 0.3, 0.5, sides, lambda axes: draw_tests(axes, shown))
        )
    return panels


def shift_panel(ruler: Ruler, shift: Shift, parties: Parties) -> Panel:
    """Returns the panel of the histogram of seats."""
    whose = wording.add_article(parties[0]) if parties else "the first party"
    title = ruler.wrap(
        f"Seats of {whose} in the visited plans, against the enacted plan (hatched: the same"
        " number)", WIDTH - 2.5, MIDDLE,
    )
    left = EDGE + ruler.width(f"{max(shift.counts):,}") + 0.5
    above = 0.3 + 0.16 * title.count("\n")
    sides = Sides(max(left, 1.0), 0.8)
    return Panel(2, above, 0.4, sides, lambda axes: draw_shift(axes, shift, title))


def compose(
    ruler: Ruler, panels: list[Panel], head: list[str], title: str | None = None
) -> Figure:
    """Returns a figure of panels, one below the other, under a title and lines of words."""
    from matplotlib.backends.backend_agg import FigureCanvasAgg
    from matplotlib.figure import Figure

    most = WIDTH - 2 * EDGE
    shown_title = "" if title is None else ruler.wrap(title, most, LARGE, True)
    words = "\n".join(ruler.wrap(line, most) for line in head)
    above = 0.1 + (0.0 if title is None else 0.08 + 0.2 * (1 + shown_title.count("\n")))
    top = above + 0.05 + 0.14 * (1 + words.count("\n"))
    whole = top + sum(panel.above + panel.height + panel.below for panel in panels)
    figure = Figure(figsize=(WIDTH, whole))
    FigureCanvasAgg(figure)
    for panel in panels:
        top += panel.above
        left, right = panel.sides
        box = (
            left / WIDTH, 1 - (top + panel.height) / whole, (WIDTH - left - right) / WIDTH,
            panel.height / whole,
        )
        panel.paint(figure.add_axes(box))
        top += panel.height + panel.below
    edge = EDGE / WIDTH
    if title is not None:
        figure.text(edge, 1 - 0.1 / whole, shown_title, fontsize=LARGE, va="top", weight="bold")
    figure.text(edge, 1 - above / whole, words, fontsize=SMALL, va="top")
    return figure


# ---- drawing


def draw_walks(axes: Axes, rows: list[Row]) -> None:
    least = min(part for row in rows for part, _ in row.points)
    for place, row in enumerate(rows):
        draw_walk(axes, place, row)
    axes.set_xscale("log")
    axes.set_xlim(min(least / 2, 0.005), 2)
    for level, dashes in ((0.01, ":"), (0.05, "--")):
        axes.axvline(level, color="0.4", linestyle=dashes, linewidth=1, label=f"{level:g}")
    axes.axvline(1, color="0.4", linewidth=1)
    finish(axes, [row.label for row in rows], "Outlier walks (a bound of 1 or more says nothing)")
    # In the middle of the figure, where it has the room of all columns.
    box = axes.get_position()
    axes.legend(
        loc="upper center", bbox_to_anchor=(0.5, box.y0), bbox_transform=axes.figure.transFigure,
        borderaxespad=2.6, ncol=4, fontsize=SMALL, frameon=False,
    )


def draw_walk(axes: Axes, place: int, row: Row) -> None:
    """Draws the parts and bounds of a row. The diamonds are open, so that they hide nothing."""
    points = row.points
    # One walk: both marks on one line. Many: the parts above it, and the bounds below.
    off = 0.0 if len(points) == 1 else 0.18
    size = 6 if not off else 4
    axes.plot([points[0][0], points[-1][1]], [place, place], color="0.75", linewidth=1, zorder=1)
    axes.plot(
        [part for part, _ in points],
        [place - off] * len(points),
        "o",
        color="black",
        markersize=size,
        zorder=2,
        label="part of the visited plans in the tail" if place == 0 else None,
    )
    axes.plot(
        [bound for _, bound in points],
        [place + off] * len(points),
        "D",
        markerfacecolor="none",
        markeredgecolor="black",
        markersize=size + 2,
        zorder=3,
        label="bound on the probability" if place == 0 else None,
    )
    axes.text(
        1.02, place, row.words, transform=axes.get_yaxis_transform(), va="center", fontsize=SMALL
    )


def draw_tests(axes: Axes, rows: list[Test]) -> None:
    for place, (_, part, words) in enumerate(rows):
        axes.barh(place, 1, height=0.5, color="white", edgecolor="0.5", linewidth=1)
        axes.barh(place, part, height=0.5, color="0.85", edgecolor="0.5", hatch="///", linewidth=1)
        axes.plot([part] * 2, [place - 0.35, place + 0.35], color="black", linewidth=3)
        axes.text(
            1.02, place, words, transform=axes.get_yaxis_transform(), va="center", fontsize=SMALL
        )
    axes.set_xlim(0, 1)
    axes.axvline(0.05, color="0.4", linestyle="--", linewidth=1)
    axes.set_xlabel("rank of the enacted plan, as a part (the dashed line is 0.05)", fontsize=SMALL)
    finish(axes, [row.label for row in rows], "Rank tests (the most extreme plan is at the left)")


def draw_shift(axes: Axes, shift: Shift, title: str) -> None:
    whole = sum(shift.counts)
    bars = axes.bar(range(9), shift.counts, color="white", edgecolor="black")
    bars[4].set_hatch("///")
    for place, count in enumerate(shift.counts):
        axes.annotate(
            percent(count, whole), (place, count), xytext=(0, 2), textcoords="offset points",
            ha="center", va="bottom", fontsize=SMALL,
        )
    axes.set_xticks(range(9))
    axes.set_xticklabels(SEATS, fontsize=SMALL)
    axes.set_ylim(0, 1.15 * max(shift.counts))
    show_whole_numbers(axes.yaxis)
    axes.set_ylabel("visited plans", fontsize=SMALL)
    axes.tick_params(axis="y", labelsize=SMALL)
    axes.set_title(title, fontsize=MIDDLE, loc="left")
    for side in ("top", "right"):
        axes.spines[side].set_visible(False)


def show_whole_numbers(axis: Axis) -> None:
    """Puts ticks at whole numbers alone, and writes all their digits."""
    axis.get_major_locator().set_params(integer=True)
    axis.set_major_formatter(lambda value, _place: f"{value:,.0f}" if value == int(value) else "")


def finish(axes: Axes, labels: list[str], title: str) -> None:
    """Draws what both panels of rows have."""
    axes.set_yticks(range(len(labels)))
    axes.set_yticklabels(labels, fontsize=SMALL)
    axes.set_ylim(len(labels) - 0.4, -0.6)
    axes.tick_params(axis="x", labelsize=SMALL)
    axes.set_title(title, fontsize=MIDDLE, loc="left")
    for side in ("top", "right"):
        axes.spines[side].set_visible(False)


def draw(
    report: Report,
    *,
    ax: Axes | None = None,
    title: str | None = None,
    parties: Parties = None,
    scores: Scores = None,
    names: typing.Mapping[str, str] | None = None,
) -> Figure:
    """Returns the figure of a report, or draws its first panel on given Axes; see `Report.plot`.

    Raises MissingExtra if matplotlib is not installed.
    """
    extra("matplotlib")
    report, both = select_scores(report, scores), named_parties(parties)
    named, ruler = wording.read_names(names), Ruler()
    walks = walk_rows(report.walks, both) + pair_rows(report, both)
    panels = panels_of(ruler, walks, test_rows(report, both))
    shift = report.shift
    if ax is not None:
        panels[0].paint(ax)
        if title is not None:
            ax.set_title(title, fontsize=MIDDLE, loc="left")
        return ax.figure
    if shift is not None and any(shift.counts):
        panels.append(shift_panel(ruler, shift, both))
    return compose(ruler, panels, compose_head(report, both, named), title)


def draw_named(
    reports: typing.Sequence[tuple[str, Report]],
    what: str,
    title: str | None = None,
    scores: Scores = None,
    parties: Parties = None,
    names: typing.Mapping[str, str] | None = None,
) -> Figure:
    """Returns a figure of several reports: a row for each name and question.

    Raises MissingExtra if matplotlib is not installed.
    """
    extra("matplotlib")
    if not reports:
        raise ValueError("there is no report to draw")
    both, ruler = named_parties(parties), Ruler()
    walks, tests = [], []
    for name, report in reports:
        part = select_scores(report, scores)
        walks += [
            row._replace(label=f"{name}: {row.label.removesuffix(', walk 0')}")
            for row in walk_rows(part.walks, both, 1) + pair_rows(part, both, 1)
        ]
        tests += [row._replace(label=f"{name}: {row.label}") for row in test_rows(part, both)]
    first = reports[0][1]
    found = ", ".join(name for name, _ in reports)
    head = [
        f"{count_text(len(reports), what)}: {found}",
        *compose_head(first, both, wording.read_names(names)),
    ]
    return compose(ruler, panels_of(ruler, walks, tests), head, title)


# ---- files

# The metadata of each format without a time or a version.
NO_TIME: dict[str, dict[str, None]] = {
    "png": {"Software": None}, "svg": {"Date": None}, "pdf": {"CreationDate": None},
    "ps": {"CreationDate": None}, "eps": {"CreationDate": None},
}


def save(figure: Figure, name: PathLike) -> None:
    """Writes a figure: NAME if it ends as a format of matplotlib does, such as .png, .svg or .pdf,
    and else NAME.png and NAME.svg. The bytes are the same each time.
    """
    path = os.fspath(name)
    end = os.path.splitext(path)[1][1:].lower()
    if end in figure.canvas.get_supported_filetypes():
        write_whole(path, file_of(figure, end))
        return
    for end in ("png", "svg"):
        write_whole(f"{path}.{end}", file_of(figure, end))


def file_of(figure: Figure, end: str) -> bytes:
    """Returns a figure as the bytes of a file of a format."""
    import matplotlib

    room = io.BytesIO()
    with matplotlib.rc_context({"svg.fonttype": "none", "svg.hashsalt": "district-audit"}):
        figure.savefig(room, format=end, dpi=150, metadata=NO_TIME.get(end))
    return room.getvalue()
