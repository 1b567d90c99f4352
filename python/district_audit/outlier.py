"""Significance tests on scores computed from the plans of a trace.

Both tests take values in the order of the plans, the enacted plan's first, and use only their
order. Counts and ranks are exact; bounds and p-values are rounded up at nine places by whole
numbers, as in the program's report.
"""
from __future__ import annotations

import dataclasses
import typing
from decimal import Decimal
from fractions import Fraction

from .graphs import Foreign, is_missing
from .report import TAILS, bound_of, round_up
from .trace_rows import ends_of, refuse_no_walk, values_of


@dataclasses.dataclass(frozen=True)
class OutlierTest:
    """The result of `outlier_test`."""

    tail: str
    """low or high."""
    count: int
    """The number of plans in the tail, the enacted plan among them."""
    of: int
    """The number of plans."""
    bound: Decimal
    """The square root of 2 count/of, rounded up at nine places; 1 or more says nothing."""

    @property
    def part(self) -> Fraction:
        """The part of the plans that is in the tail."""
        return Fraction(self.count, self.of)

    def __str__(self) -> str:
        return f"{self.tail} count {self.count} of {self.of} bound {self.bound:f}"


@dataclasses.dataclass(frozen=True)
class RankTest:
    """The result of `rank_test`."""

    tail: str
    """low or high."""
    rank: int
    """One more than the number of ends in the tail."""
    of: int
    """One more than the number of ends."""
    p: Decimal
    """rank/of, rounded up at nine places."""

    def __str__(self) -> str:
        return f"{self.tail} rank {self.rank} of {self.of} p {self.p:f}"


def count_tail(values: typing.Iterable[Foreign], tail: str) -> tuple[int, int]:
    """Returns how many values are at most (`low`) or at least (`high`) the first, and how many
    there are. Raises ValueError for another tail, a missing value, or fewer than two values.
    Raises TypeError for texts, which compare by their letters, and for a mapping or a table in
    place of values."""
    if tail not in TAILS:
        raise ValueError(f"tail must be 'low' or 'high', not {tail!r}")
    if isinstance(values, (str, bytes, typing.Mapping)) or hasattr(values, "columns"):
        raise TypeError(f"values must be a sequence of numbers, not of type {type(values).__name__}"
                        ": of a table, name the column")
    first: Foreign = None
    count = total = 0
    for place, value in enumerate(values):
        if is_missing(value) or value != value:
            raise ValueError(f"value {place} is missing ({value!r}): a plan for which the score is "
                             "not defined cannot be compared")
        if isinstance(value, (str, bytes)):
            raise TypeError(f"value {place} is the text {value!r}, and texts compare by their "
                            "letters: make numbers of them")
        if place == 0:
            first = value
        count += bool(value <= first if tail == "low" else value >= first)
        total += 1
    if total < 2:
        raise ValueError(f"a test needs the enacted plan's value and at least one more: {total}")
    return count, total


def outlier_test(values: Foreign, tail: str, score: Foreign = None) -> OutlierTest:
    """Applies the outlier theorem of Chikina, Frieze and Pegden to the values of one walk.

    Parameters
    ----------
    values
        A `Trace` of one walk, its frame, or a column of that. Or the score of each plan of one walk
        in order, the enacted plan's first: any values that compare, as `int`, `Fraction` or
        `float`. They are read once and not stored.
    tail
        "low" counts the plans whose score is at most the enacted plan's, "high" those whose score
        is at least that. Equal scores count against the finding.
    score
        The score of a trace, by its name or as a function of a sample; or the column of a frame.

    Returns an `OutlierTest`: the exact count c of q plans, and the square root of 2c/q, rounded up
    at nine places. Raises ValueError for a missing value or fewer than two values, and of a trace
    or its frame for samples that the theorem does not cover: those of several walks, of a
    trajectory to an end, without the walk's beginning or end, or with a further last plan.

    Theorem 1.1 of M. Chikina, A. Frieze, W. Pegden, "Assessing significance in a Markov chain
    without mixing", PNAS 114 (2017): let X0, X1, .. be a reversible Markov chain with a stationary
    distribution, and let X0 be drawn from it. Then for any fixed k and any labels of the states,
    X0's label is among the least fraction epsilon of those of X0, .., Xk with probability at most
    the square root of 2 epsilon. Its conditions, and where they come from:

    - **Reversible chain.** Proved of the program's step is symmetry: as many draws lead from one
      plan to another as back. So with random draws its walk is reversible, and all plans are
      equally likely in the stationary distribution. The chain that takes N steps at a time is as
      reversible (detailed balance of P gives that of its powers), and the plans after 0, N, 2N,
      .. steps of a trace with `thin=N` are a walk of that chain. A last plan after fewer than N
      further steps is not one of them; `trace` leaves it out by default.
    - **Stationary start.** This is the null hypothesis: the enacted plan was drawn at random from
      the legal plans, all equally likely. (Then it is as likely among those that the walk can
      reach, which is enough.) No limit may come from the enacted plan. The walk must begin at the
      enacted plan, so the samples are those of one walk, and not of a trajectory to an end.
    - **A fixed label.** The score would be the same function of plans whichever legal plan had been
      enacted. "Units whose district differs from the enacted plan's" is no such score: it is 0 for
      the enacted plan alone, so every plan would be an outlier. The score, the tail, the number of
      steps and N were fixed before anybody looked. For m tests multiply the least bound by m, or
      fix in advance which one counts.

    A `float` must be the same whenever the plan is the same. Floats that were rounded from exact
    values can only make equal what was not, which makes the count greater and never smaller.
    """
    found = values_of(values, score)
    refuse_no_walk(found)
    count, total = count_tail(found.values, tail)
    return OutlierTest(tail, count, total, bound_of(count, total))


def rank_test(values: Foreign, tail: str, score: Foreign = None) -> RankTest:
    """Applies the parallel test of Besag and Clifford to the values of ends.

    Parameters
    ----------
    values
        A `Trace` of all trajectories to ends (`ids="ends"`), or its frame. Or the enacted plan's
        score, and then that of each end: any values that compare.
    tail
        "low" counts the ends whose score is at most the enacted plan's, "high" those whose
        score is at least that. Equal scores count against the finding.
    score
        The score of a trace, by its name or as a function of a sample; or the column of a frame.

    Returns a `RankTest`: the enacted plan's exact rank among all these plans, 1 for the most
    extreme, and rank/of, rounded up at nine places. Raises ValueError for a missing value or fewer
    than two values, and for a trace or frame that has a walk or lacks an end.

    J. Besag, P. Clifford, "Generalized Monte Carlo significance tests", Biometrika 76 (1989): the
    hub lies some number of steps from the enacted plan, and each end lies as many steps from
    the hub, on walks with draws of their own. If the chain is reversible and the enacted plan was
    drawn from its stationary distribution (the null hypothesis), then the enacted plan and the
    ends are exchangeable, and a rank of g or less has probability at most g/of. The number of
    ends, the steps, the score and the tail must be fixed before anybody looked, all
    ends must be used. The score must be the same function of plans whichever legal plan had
    been enacted, and no limit may come from the enacted plan.
    """
    found = values_of(values, score, needs_enacted=True)
    rank, total = count_tail(ends_of(found), tail)
    return RankTest(tail, rank, total, round_up(rank, total))
