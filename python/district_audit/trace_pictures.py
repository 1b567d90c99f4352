"""Pictures of scores along a trace, by matplotlib: histogram, box plot, running trace.

All is black, gray and white: marks, hatches and words distinguish. Each function returns a
matplotlib figure, and with `name` it also writes a file of it, or NAME.png and NAME.svg. Values
are `int`, `Fraction` or `float`. Each function raises MissingExtra if matplotlib is not installed,
and ValueError if there is nothing to draw or a value is missing.
"""
from __future__ import annotations

import typing

from .errors import extra
from .graphs import is_missing
from .picture import MIDDLE, Ruler, save, show_whole_numbers

if typing.TYPE_CHECKING:
    from matplotlib.axes import Axes
    from matplotlib.axis import Axis
    from matplotlib.figure import Figure

    from .custody import PathLike

# With more different whole numbers than this a histogram has bins of several.
MOST_BARS = 60
LINES = ("-", "--", "-.", ":")
# The id of a trajectory, of any type.
Walk = typing.TypeVar("Walk")
# More trajectories than this are all drawn alike, with one entry in the legend.
MOST_LINES = 4


def numbers_of(values: typing.Iterable[typing.SupportsFloat]) -> list[float]:
    """Returns values as floats; ValueError for none at all or a missing one."""
    found = list(values)
    for place, value in enumerate(found):
        if is_missing(value):
            raise ValueError(f"value {place} is missing")
    if not found:
        raise ValueError("there is nothing to draw")
    return [float(value) for value in found]


def new_figure(width: float, height: float) -> tuple[Figure, Axes]:
    """Returns a figure with one panel, of a size in inches."""
    extra("matplotlib")
    from matplotlib.backends.backend_agg import FigureCanvasAgg
    from matplotlib.figure import Figure

    figure = Figure(figsize=(width, height))
    FigureCanvasAgg(figure)
    axes = figure.add_subplot()
    for side in ("top", "right"):
        axes.spines[side].set_visible(False)
    axes.tick_params(labelsize=8)
    return figure, axes


def number_text(value: float) -> str:
    """Returns a number with all digits if it is whole, and else with six digits."""
    return f"{value:,.0f}" if value == int(value) else f"{value:.6g}"


def show_numbers(axis: Axis, values: typing.Iterable[float]) -> None:
    """Writes the ticks of an axis without powers of ten; of whole numbers it has no others."""
    if all(value == int(value) for value in values):
        show_whole_numbers(axis)
    else:
        axis.set_major_formatter(lambda value, _place: number_text(round(value, 12)))


def finish(figure: Figure, axes: Axes, title: str, name: PathLike | None) -> Figure:
    """Returns the figure with its texts in lines that fit, which is written where it has a name."""
    ruler, wide = Ruler(), figure.get_figwidth() - 1.4
    # A mark above the axes has its room below the title.
    pad = 22 if title.endswith("\n") else 6
    axes.set_title(ruler.wrap(title, wide, 10), fontsize=10, loc="left", pad=pad)
    lines = [ruler.wrap(line, wide, MIDDLE) for line in axes.get_xlabel().split("\n")]
    axes.set_xlabel("\n".join(lines), fontsize=MIDDLE)
    high = 0.62 * figure.get_figheight()
    axes.set_ylabel(ruler.wrap(axes.get_ylabel(), high, MIDDLE), fontsize=MIDDLE)
    # The room for numbers, labels and the legend, as wide as they are; then that of the title.
    figure.tight_layout(pad=0.8)
    wide = figure.get_figwidth() * (1 - axes.get_position().x0) - 0.3
    axes.set_title(ruler.wrap(title, wide, 10), fontsize=10, loc="left", pad=pad)
    figure.tight_layout(pad=0.8)
    if name is not None:
        save(figure, name)
    return figure


def histogram_edges(values: typing.Sequence[float]) -> list[float]:
    """Returns the edges of a histogram's bins: one for each whole number where there are few."""
    low, high = min(values), max(values)
    if all(value == int(value) for value in values) and high - low < MOST_BARS:
        return [low - 0.5 + place for place in range(int(high - low) + 2)]
    width = (high - low) / 40 or 1.0
    return [low + width * place for place in range(41)]


def histogram(values: typing.Iterable[typing.SupportsFloat], *,
              enacted: typing.SupportsFloat | None = None,
              title: str = "", label: str = "score", plans: str = "plans",
              name: PathLike | None = None) -> Figure:
    """Draws a histogram of a score over samples, with the enacted plan marked.

    Parameters
    ----------
    values
        The score of each plan. The first is the enacted plan's, unless `enacted` gives it.
    enacted
        The enacted plan's score, where it is not the first of the values.
    title, label, plans
        The title, what the score is, and what is counted.
    name
        The file to write, as "picture.png", "picture.svg" or "picture.pdf". A name without the end
        of a format is that of two files, NAME.png and NAME.svg.
    """
    found = numbers_of(values)
    mark = found[0] if enacted is None else float(enacted)
    figure, axes = new_figure(7, 4)
    heights, _, _ = axes.hist(found, bins=histogram_edges([*found, mark]), color="0.85",
                              edgecolor="0.3", linewidth=0.8)
    top = 1.12 * max(heights)
    axes.set_ylim(0, top)
    axes.axvline(mark, color="black", linewidth=2, linestyle="--")
    axes.plot([mark], [top], marker="v", color="black", markersize=9, clip_on=False, linestyle="")
    left, right = axes.get_xlim()
    place = (mark - left) / (right - left)
    side = "left" if place < 0.2 else "right" if place > 0.8 else "center"
    axes.annotate(f"enacted plan {number_text(mark)}", (mark, top), xytext=(0, 6),
                  textcoords="offset points", ha=side, va="bottom", fontsize=8,
                  annotation_clip=False)
    show_numbers(axes.xaxis, found)
    show_whole_numbers(axes.yaxis)
    axes.set_xlabel(label, fontsize=9)
    axes.set_ylabel(f"{plans} (of {len(found):,})", fontsize=9)
    if title:
        title += "\n"
    return finish(figure, axes, title, name)


def box_plot(rows: typing.Iterable[typing.Sequence[typing.SupportsFloat]], *,
             enacted: typing.Sequence[typing.SupportsFloat] | None = None, title: str = "",
             label: str = "share of the first party", name: PathLike | None = None) -> Figure:
    """Draws a box for each place of ordered district shares, with the enacted plan's shares.

    Boxes go from the quarter to the three quarters of the plans, with a line at the median, and
    whiskers from the first to the ninety-ninth hundredth. The figure of expert reports that rank
    districts (Herschlag and others, Statistics and Public Policy 7, 2020).

    Parameters
    ----------
    rows
        The shares of each plan from the least to the greatest, as `scores.ordered_shares` has
        them. The first row is the enacted plan's, unless `enacted` gives it.
    enacted
        The enacted plan's shares, where they are not the first row.
    title, label, name
        As for `histogram`.
    """
    found = [numbers_of(row) for row in rows]
    if not found or len({len(row) for row in found}) != 1:
        raise ValueError("there are no rows, or their numbers of districts differ")
    marks = found[0] if enacted is None else numbers_of(enacted)
    if len(marks) != len(found[0]):
        raise ValueError("the enacted plan has another number of districts")
    places = list(range(1, len(marks) + 1))
    figure, axes = new_figure(max(6.0, 1.5 + 0.45 * len(places)), 4.5)
    axes.axhline(0.5, color="0.5", linewidth=1, linestyle=":", label="one half")
    black = {"color": "black", "linewidth": 1}
    axes.boxplot(list(zip(*found)), positions=places, widths=0.55, whis=(1, 99), showfliers=False,
                 patch_artist=True, boxprops={"facecolor": "0.88", "edgecolor": "black"},
                 medianprops={"color": "black", "linewidth": 1.6}, whiskerprops=black,
                 capprops=black)
    # An open diamond hides neither a median nor a box.
    axes.plot(places, marks, linestyle="", marker="D", markersize=7, markerfacecolor="none",
              markeredgecolor="black", markeredgewidth=1.4, zorder=4, label="enacted plan")
    step = 1 + (len(places) - 1) // 30
    axes.set_xticks(places[::step])
    axes.set_xticklabels([str(place) for place in places[::step]])
    axes.set_xlabel(f"districts by rising share\n{len(found):,} plans; boxes: middle half; "
                    "whiskers: 1 to 99 percent", fontsize=9)
    axes.set_ylabel(label, fontsize=9)
    axes.legend(loc="upper center", bbox_to_anchor=(0.5, -0.2), ncol=2, fontsize=8, frameon=False)
    return finish(figure, axes, title, name)


def running(walks: typing.Mapping[Walk, typing.Sequence[tuple[int, typing.SupportsFloat]]], *,
            enacted: typing.SupportsFloat | None = None, title: str = "", label: str = "score",
            name: PathLike | None = None) -> Figure:
    """Draws a score along the steps of one or more trajectories, with the enacted plan's value.

    Parameters
    ----------
    walks
        For each trajectory, by its id, the pairs of step and score in order.
    enacted
        The enacted plan's score; left out it is the first score of the first trajectory.
    title, label, name
        As for `histogram`.
    """
    by_walk = {walk: list(pairs) for walk, pairs in walks.items()}
    if not by_walk:
        raise ValueError("there is nothing to draw")
    figure, axes = new_figure(9, 4)
    firsts, seen = [], []
    for place, (walk, pairs) in enumerate(by_walk.items()):
        values = numbers_of(value for _, value in pairs)
        firsts.append(values[0])
        seen += values
        is_one_of_many = len(by_walk) > MOST_LINES
        named = f"{len(by_walk)} trajectories" if place == 0 else None
        axes.plot([step for step, _ in pairs], values, drawstyle="steps-post",
                  color="0.6" if is_one_of_many else "black",
                  linewidth=0.7 if is_one_of_many else 0.9,
                  linestyle="-" if is_one_of_many else LINES[place % len(LINES)],
                  label=named if is_one_of_many else f"trajectory {walk}")
    mark = firsts[0] if enacted is None else float(enacted)
    axes.axhline(mark, color="black", linewidth=2, linestyle=(0, (6, 3)),
                 label=f"enacted plan {number_text(mark)}")
    axes.set_xlim(left=0)
    show_whole_numbers(axes.xaxis)
    show_numbers(axes.yaxis, [*seen, mark])
    axes.set_xlabel("steps", fontsize=9)
    axes.set_ylabel(label, fontsize=9)
    axes.legend(loc="upper center", bbox_to_anchor=(0.5, -0.14), ncol=5, fontsize=8, frameon=False)
    return finish(figure, axes, title, name)
