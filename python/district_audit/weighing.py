"""Choosing a weight on cut edges without looking at the enacted plan or at votes.

Under a weight t a plan is drawn with a chance proportional to (t/64)^(cut edges). A useful weight
is one under which older or neutral plans are ordinary in cut edges. A weight that is fitted to the
enacted plan would void the null hypothesis, as a limit does.
"""
from __future__ import annotations

import dataclasses
import statistics
import typing
import warnings

from .arguments import MOST_WEIGHT, refuse, weight_of
from .calls import NO_WORDS, add_first_election, prepare_call
from .districts import table_of
from .errors import AuditError, GraphRefused, TypeRefused, extra
from .graphs import Foreign
from .neutral import Map, cut_edges, neutral_plans
from .pilot import OF_SCORES, differing
from .traces import trace
from .words import key_of

if typing.TYPE_CHECKING:
    import matplotlib.figure
    import pandas

    from .words import Key

SAMPLES = 256
LEAST_WEIGHT, NEAR = 12, 2
COLUMNS = (
    "cut edges of walks: median, low (1 percent), high (99 percent); inside: of {plans} plans,"
    " those from low to high; agree_after: steps until both starts agree; changed: units; moved:"
    " steps"
)
PlanOfIds = typing.Mapping[Foreign, object]


@dataclasses.dataclass(frozen=True)
class Walked:
    """A walk of a pilot with one weight."""

    cuts: tuple[int, ...]
    """The cut edges of its plans, equally far apart; the first is the start's."""
    moved: int
    """The steps that changed the plan."""
    changed: int
    """The units whose district at the end is another one than at the start."""
    last: PlanOfIds
    """The last plan."""

    @property
    def later(self) -> list[int]:
        """The cut edges of the second half, in order of size."""
        return sorted(self.cuts[len(self.cuts) // 2:])

    def percentile(self, percent: int) -> int:
        """Returns a percentile of the second half."""
        found = self.later
        return found[min(len(found) - 1, len(found) * percent // 100)]


@dataclasses.dataclass(frozen=True)
class Band:
    """The cut edges of walks with one weight, from a compact and from a sprawling start."""

    weight: int | str
    """The weight, in 64ths."""
    compact: Walked
    sprawling: Walked
    inside: int
    """The given plans that lie between the 1st and the 99th percentile of both walks."""
    steps: int
    """The steps of each walk."""

    @property
    def median(self) -> float:
        """The median of both walks' second halves together."""
        return statistics.median(self.compact.later + self.sprawling.later)

    @property
    def agree_after(self) -> int | None:
        """The steps after which both starts agree; None if they do not.

        From this octave of steps on, the means of both walks differ in each octave by at most half
        a standard deviation.
        """
        found, end = None, len(self.compact.cuts)
        spread = statistics.pstdev(self.compact.later + self.sprawling.later)
        while end >= 8:
            means = [statistics.mean(one.cuts[end // 2:end]) for one in
                     (self.compact, self.sprawling)]
            if abs(means[0] - means[1]) > spread / 2:
                break
            end //= 2
            found = self.steps * end // len(self.compact.cuts)
        return found


ROW = (
    "weight", "median", "low", "high", "inside", "agree_after", "changed", "moved",
)


@dataclasses.dataclass(frozen=True)
class WeightChoice:
    """The result of `choose_weight`."""

    weight: int | str
    """The chosen weight, for `cut_weight=`."""
    plans: tuple[int, ...]
    """The cut edges of the older or neutral plans, in order of size."""
    bands: tuple[Band, ...]
    """The weights that were tried, the greatest first."""
    source: str
    """The source of the plans."""
    units: int
    """The number of units of the map."""

    @property
    def band(self) -> Band:
        """The band of the chosen weight."""
        return next(one for one in self.bands if one.weight == self.weight)

    def rows(self) -> list[tuple[object, ...]]:
        """Returns a row for each weight, with the columns `ROW`: the median of both walks, the 1st
        and 99th percentile that both have, the plans inside, the steps after which both starts
        agree (None: they do not), and the fewer of the units changed and of the moves.
        """
        return [
            (
                one.weight, one.median,
                max(one.compact.percentile(1), one.sprawling.percentile(1)),
                min(one.compact.percentile(99), one.sprawling.percentile(99)),
                one.inside, one.agree_after,
                min(one.compact.changed, one.sprawling.changed),
                min(one.compact.moved, one.sprawling.moved),
            )
            for one in self.bands
        ]

    def to_frame(self) -> pandas.DataFrame:
        """Returns a pandas DataFrame of `rows`. Raises MissingExtra if pandas is not installed."""
        return extra("pandas").DataFrame(self.rows(), columns=list(ROW))

    @property
    def announcement(self) -> str:
        """The text for the announcement of a run, before its key is drawn."""
        others = [weight_of(float(self.weight) + step) for step in (-NEAR, NEAR)]
        near = [str(one) for one in others if 1 <= float(str(one)) < MOST_WEIGHT]
        after = self.band.agree_after
        steps = (
            f"--hub-steps is at least {after}, after which walks from a compact and a sprawling"
            " start agreed."
            if after is not None
            else f"Walks of {self.band.steps} steps from a compact and a sprawling start did not"
            " agree: with no more --hub-steps than that the test is valid, and weak."
        )
        if not self.band.inside:
            return (
                f"No weight was found: of {self.source}, with {self.plans[0]} to {self.plans[-1]}"
                " cut edges, none is ordinary under any weight that was tried. Give choose_weight"
                " more steps, or more plans."
            )
        return (
            f"--cut-weight {self.weight}: each plan is drawn with a chance proportional to"
            f" ({self.weight}/{MOST_WEIGHT})^(cut edges). The weight was chosen from"
            f" {self.source} with {self.plans[0]} to {self.plans[-1]} cut edges:"
            f" {self.band.inside} of {len(self.plans)} are ordinary under it."
            f" Neither the enacted plan nor votes were looked at. {steps} The run is repeated with"
            f" --cut-weight {', '.join([*near, str(MOST_WEIGHT)])} ({MOST_WEIGHT} is no weight),"
            " and all are reported."
        )

    def __str__(self) -> str:
        """Returns the table, with what its columns are, and the announcement."""
        lines = [COLUMNS.format(plans=len(self.plans)), "  ".join(ROW)]
        lines += ["  ".join("-" if cell is None else str(cell) for cell in row)
                  for row in self.rows()]
        return "\n".join([*lines, self.announcement])

    def plot(self, name: str | None = None) -> matplotlib.figure.Figure:
        """Draws the bands by weight and the plans' marks; writes NAME.png and NAME.svg if named.

        Raises MissingExtra if matplotlib is not installed.
        """
        extra("matplotlib")
        from matplotlib.backends.backend_agg import FigureCanvasAgg
        from matplotlib.figure import Figure

        from . import picture

        figure = Figure(figsize=(9, 5))
        FigureCanvasAgg(figure)
        axes = figure.add_axes((0.1, 0.12, 0.86, 0.8))
        for one in self.bands:
            for walked, shift, fill in ((one.compact, -0.12, "black"),
                                        (one.sprawling, 0.12, "white")):
                at = float(one.weight) + shift
                axes.plot([at, at], [walked.percentile(1), walked.percentile(99)], color="black")
                axes.plot([at], [walked.percentile(50)], "o", color="black", markerfacecolor=fill)
        for cut in self.plans:
            axes.axhline(cut, color="0.7", linewidth=0.7, zorder=0)
        axes.set_xlabel("weight of a cut edge, in 64ths")
        axes.set_ylabel("cut edges")
        axes.set_title("1st to 99th percentile: black from a compact start, white from a sprawling"
                       f" one; gray: {self.source}", fontsize=9, loc="left")
        if name is not None:
            picture.save(figure, name)
        return figure


class Chooser:
    """Walks with several weights on one map."""

    def __init__(self, graph: object, steps: int, key: Key, words: dict[str, Foreign]) -> None:
        self.graph, self.steps, self.key, self.words = graph, steps, key, words
        self.thin = max(1, steps // SAMPLES)

    def walk(self, plan: PlanOfIds, weight: object, number: int) -> Walked:
        """Walks from a plan. `number` is the id of the trajectory, so that draws differ."""
        cuts: list[int] = []
        moved = changed = 0
        last: PlanOfIds = {}
        words = {name: value for name, value in self.words.items() if name != "district"}
        words.update({} if weight == MOST_WEIGHT else {"cut_weight": weight})
        steps = self.thin * (self.steps // self.thin)
        with warnings.catch_warnings():
            # Each start is a plan of the pilot, and no finding about it is of interest.
            warnings.simplefilter("ignore")
            with trace(
                self.graph, assignment=plan, key=self.key, walks=number + 1, ids=number,
                steps=steps, thin=self.thin, ask="cut-edges:low", **words,
            ) as walked:
                for sample in walked:
                    cuts.append(sample.numerators[0])
                    if sample.is_last:
                        moved, changed = sample.moves, differing(sample)
                        last = dict(sample.assignment)
        return Walked(tuple(cuts), moved, changed, last)

    def band(
        self, weight: int, compact: PlanOfIds, sprawling: PlanOfIds, plans: typing.Sequence[int]
    ) -> Band:
        """Walks with one weight from both starts."""
        both = self.walk(compact, weight, 0), self.walk(sprawling, weight, 1)
        inside = sum(
            all(one.percentile(1) <= cut <= one.percentile(99) for one in both) for cut in plans
        )
        return Band(weight, *both, inside, self.steps)


def map_of(graph: object, words: dict[str, Foreign], key: Key) -> tuple[Map, int]:
    """Returns the map of a call, and its number of districts."""
    own = {name: value for name, value in words.items() if name not in NO_WORDS}
    asked = prepare_call("trace", graph, {**own, "key": key, "ask": "cut-edges:low"})
    table = table_of(asked.data, None)
    if table is None or not table.rows:
        raise GraphRefused("graph: not one that neutral plans can be drawn from")
    named = asked.named
    people = {unit: int(row[str(named["pop"])]) for unit, row in table.rows.items()}
    districts = len({row[str(named["district"])] for row in table.rows.values()})
    slack = int(typing.cast(int, named.get("slack", 500)))
    total, shares = sum(people.values()), 10_000 * districts
    low = -(-(10_000 - slack) * total // shares)
    high = (10_000 + slack) * total // shares
    return Map(table.neighbors, people, low, high), districts


def choose_weight(
    graph: object,
    *,
    plans: typing.Sequence[PlanOfIds] | None = None,
    neutral: int = 20,
    seed: str = "neutral plans",
    steps: int = 2**22,
    key: Key | None = None,
    **words: Foreign,
) -> WeightChoice:
    """Finds the weight under which older or neutral plans are ordinary in cut edges.

    It never looks at the enacted plan, of which only the number of districts is read, nor at votes.
    From the most compact of the plans, and from a sprawling plan to which an unweighted walk leads,
    it walks with several weights. A plan is ordinary under a weight if it lies between the 1st and
    the 99th percentile of cut edges of the second half of both walks.

    Parameters
    ----------
    graph : object
        As for `run`.
    plans : list of dict, optional
        Older plans, each from the ids of units to districts, as many as the enacted plan has.
    neutral : int, default 20
        The number of neutral plans to be drawn, if no plans are given.
    seed : str
        The text from which neutral plans are drawn.
    steps : int, default 4194304
        The steps of each walk, at least 256. About 20 walks are made.
    key : str or bytes, optional
        A key for the walks, by default that of the seed. Never use that of the run.
    **words
        Columns, slack and rules, as for `trace`; no questions.

    Returns
    -------
    WeightChoice
        The weight, a table, a picture, and the text for the announcement.

    Raises ValueError if no neutral plan is found or too few steps are given, TypeRefused for a
    question, and what `trace` raises. Neutral plans that break a further rule are left out.
    """
    for name in (*OF_SCORES, "assignment", "cut_weight"):
        if words.get(name) is not None:
            refuse(TypeRefused, "choose_weight", name, words[name],
                   "choose_weight asks no question, and neither takes a plan nor a weight")
    if steps < SAMPLES:
        raise ValueError(f"steps={steps}: choose_weight needs at least {SAMPLES}")
    key = key_of(seed) if key is None else key
    words = add_first_election(graph, {"first": None, "second": None, **words})
    chooser = Chooser(graph, steps, key, dict(words))
    whole, districts = map_of(graph, dict(words), key)
    source = "older plans" if plans is not None else f"neutral plans (seed {seed!r})"
    found = list(plans) if plans is not None else legal_of(
        chooser, neutral_plans(whole, districts, seed), neutral
    )
    if not found:
        raise ValueError("choose_weight needs a plan")
    by_text = {str(unit): unit for unit in whole.neighbors}
    cuts = [
        cut_edges({by_text[str(unit)]: one for unit, one in plan.items()}, whole.neighbors)
        for plan in found
    ]
    compact = found[cuts.index(min(cuts))]
    sprawling = chooser.walk(compact, MOST_WEIGHT, 0).last
    bands = search(chooser, compact, sprawling, sorted(cuts))
    best = max(bands, key=lambda one: (one.inside, -abs(one.median - statistics.median(cuts))))
    ordered = tuple(sorted(bands, key=lambda one: -float(one.weight)))
    return WeightChoice(best.weight, tuple(sorted(cuts)), ordered, source, len(whole.people))


def legal_of(
    chooser: Chooser, drawn: typing.Iterator[PlanOfIds], count: int
) -> list[PlanOfIds]:
    """Returns the first plans that keep each rule of the call, of at most ten times as many."""
    short = Chooser(chooser.graph, 1, chooser.key, chooser.words)
    found: list[PlanOfIds] = []
    for _ in range(10 * count):
        plan = next(drawn)
        try:
            short.walk(plan, MOST_WEIGHT, 0)
        except GraphRefused:
            continue
        except AuditError:
            raise
        found.append(plan)
        if len(found) == count:
            break
    return found


def search(
    chooser: Chooser, compact: PlanOfIds, sprawling: PlanOfIds, cuts: list[int]
) -> list[Band]:
    """Returns the bands of the weights that were tried: by bisection, then around the best."""
    wanted, low, high = statistics.median(cuts), LEAST_WEIGHT, MOST_WEIGHT
    found = {high: chooser.band(high, compact, sprawling, cuts)}
    while high - low > 1:
        middle = (low + high) // 2
        found[middle] = chooser.band(middle, compact, sprawling, cuts)
        if found[middle].median > wanted:
            high = middle
        else:
            low = middle
    for weight in range(low - NEAR, low + NEAR + 2):
        if LEAST_WEIGHT <= weight <= MOST_WEIGHT and weight not in found:
            found[weight] = chooser.band(weight, compact, sprawling, cuts)
    return list(found.values())
