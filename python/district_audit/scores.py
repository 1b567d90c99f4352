"""Scores of a plan, computed exactly from a sample of a trace.

Every function takes a `Sample` and returns an `int`, a `Fraction`, or a list or mapping of them;
only `declination` returns a `float`. Each is a function of the plan alone, as the outlier test asks
for. Votes are given as an election: the name of one of the trace's `elections`, a pair of columns
(first party, second party), or None for the columns that the program read. Shares are two-party
shares of the first party. Errors are those of `Sample.totals`, KeyError for an unknown election,
and ValueError where a score is not defined for such numbers.
"""
from __future__ import annotations

import decimal
import math
import typing
from fractions import Fraction

from .report import BILLION

if typing.TYPE_CHECKING:
    from .graphs import Foreign
    from .traces import Sample

Election = typing.Union[str, tuple[str, str], None]
Share = typing.Union[int, str, Fraction, decimal.Decimal, float]

HALF = Fraction(1, 2)


# ---- votes

def votes(sample: Sample, election: Election = None) -> list[tuple[int, int]]:
    """Returns the votes of the first and the second party in each district, by the order of the
    districts' labels."""
    first, second = sample.trace.columns_of(election)
    plan = sample.plan
    return list(zip(plan.totals(first), plan.totals(second)))


def share(first: int, second: int) -> Fraction:
    """Returns first/(first + second); 1/2 if there are no votes, as in the program."""
    return Fraction(first, first + second) if first + second else HALF


def vote_shares(sample: Sample, election: Election = None) -> dict[Foreign, Fraction]:
    """Returns the first party's share in each district, by the district's label."""
    labels = sample.plan.table.labels
    return {label: share(*both) for label, both in zip(labels, votes(sample, election))}


def ordered_shares(sample: Sample, election: Election = None) -> list[Fraction]:
    """Returns the first party's shares, from the least to the greatest.

    The ordered marginal vote shares that expert reports show as box plots (Herschlag, Kang, Luo,
    Graves, Bangia, Ravier, Mattingly, "Quantifying gerrymandering in North Carolina", Statistics
    and Public Policy 7, 2020).
    """
    return sorted(share(*both) for both in votes(sample, election))


def highest_share(sample: Sample, k: int, election: Election = None) -> Fraction:
    """Returns the first party's k-th highest share, k from 1: that of its k-th most packed
    district. Raises IndexError if there are fewer than k districts.

    For the second party name the columns in the other order.
    """
    shares = ordered_shares(sample, election)
    if not 1 <= k <= len(shares):
        raise IndexError(f"k is {k}, and must be from 1 to {len(shares)}, the number of districts")
    return shares[-k]


def seats(sample: Sample, election: Election = None) -> int:
    """Returns in how many districts the first party has more votes than the second.

    A tie is the second party's, as for the program's `seats`.
    """
    return sum(first > second for first, second in votes(sample, election))


def mean_median(sample: Sample, election: Election = None) -> Fraction:
    """Returns the median of the districts' shares less their mean, as the program's `mean-median`.

    Each share is rounded down at nine places before. Above 0 the median district is better for the
    first party than the mean one: (m - 2 s/D)/2, with the D shares' sum s, and m the sum of the two
    middle ones (the middle one twice where D is odd). R. E. Best, M. D. McDonald, "Unfair partisan
    gerrymanders in politics and law", Election Law Journal 14 (2015).
    """
    shares = sorted(first * BILLION // (first + second) if first + second else BILLION // 2
                    for first, second in votes(sample, election))
    count = len(shares)
    middle = shares[(count - 1) // 2] + shares[count // 2]
    return Fraction(count * middle - 2 * sum(shares), 2 * count * BILLION)


def efficiency_gap(sample: Sample, election: Election = None) -> Fraction:
    """Returns the second party's wasted votes less the first party's, over all votes, as the
    program's `gap`.

    Wasted are all votes of a party that loses a district, and of the winner those above half of the
    district's votes. Above 0 the second party wastes more, which is good for the first. A tie is
    won by the second party. With a and b votes a district adds (3b - a)/2 where a > b, and else
    (b - 3a)/2. N. Stephanopoulos, E. McGhee, "Partisan gerrymandering and the efficiency gap",
    University of Chicago Law Review 82 (2015). Raises ValueError if there are no votes.
    """
    both = votes(sample, election)
    total = sum(first + second for first, second in both)
    if total == 0:
        raise ValueError("there are no votes")
    doubled = sum(3 * second - first if first > second else second - 3 * first
                  for first, second in both)
    return Fraction(doubled, 2 * total)


def partisan_bias(sample: Sample, election: Election = None) -> Fraction:
    """Returns the first party's seat share at 50 percent of the votes, less 1/2.

    By uniform swing: each district's share is moved by 1/2 less the districts' mean share, so the
    party wins the districts with a share above that mean, n of D, and the bias is n/D - 1/2. A
    share equal to the mean is no win. Above 0 it is good for the first party. This is GerryChain's
    `partisan_bias`; J. N. Katz, G. King, E. Rosenblatt, "Theoretical foundations and empirical
    evaluations of partisan fairness in district-based democracies", American Political Science
    Review 114 (2020).
    """
    shares = [share(*both) for both in votes(sample, election)]
    mean = sum(shares, Fraction()) / len(shares)
    return Fraction(sum(one > mean for one in shares), len(shares)) - HALF


def declination_tangent(sample: Sample, election: Election = None) -> Fraction | None:
    """Returns the tangent of the declination's angle, which is exact and orders plans as the
    declination does.

    With the D shares of the first party in order, l of them at most 1/2, with the mean y, and w
    above, with the mean z: the slopes are p = (1 - 2y) D/l and q = (2z - 1) D/w, the declination is
    2 (arctan q - arctan p)/pi, and the tangent of that difference of angles is (q - p)/(1 + pq).
    Neither slope is below 0, so the difference lies between -pi/2 and pi/2, where the tangent
    rises. Above 0 it is bad for the first party. None where one party wins all districts, for which
    the declination is not defined. G. S. Warrington, "Quantifying gerrymandering using the vote
    distribution", Election Law Journal 17 (2018).
    """
    shares = ordered_shares(sample, election)
    lost = [one for one in shares if one <= HALF]
    won = [one for one in shares if one > HALF]
    if not lost or not won:
        return None
    count = len(shares)
    low = (1 - 2 * sum(lost, Fraction()) / len(lost)) * count / len(lost)
    high = (2 * sum(won, Fraction()) / len(won) - 1) * count / len(won)
    return (high - low) / (1 + low * high)


def declination(sample: Sample, election: Election = None) -> float | None:
    """Returns the declination, from -1 to 1, as a float; None where it is not defined.

    It is no rational number: test `declination_tangent`, which has the same order.
    """
    tangent = declination_tangent(sample, election)
    return None if tangent is None else 2 * math.atan(tangent) / math.pi


def exactly(value: Share, name: str) -> Fraction:
    """Returns a share from 0 to 1 exactly; a float as its shortest decimal, so 0.05 is 1/20."""
    exact = Fraction(repr(value)) if isinstance(value, float) else Fraction(value)
    if not 0 <= exact <= 1:
        raise ValueError(f"{name} must be from 0 to 1, not {value}")
    return exact


def competitive(sample: Sample, margin: Share, election: Election = None) -> int:
    """Returns in how many districts the winner is ahead by at most `margin` of both parties' votes.

    |a - b| <= margin (a + b): with a margin of 0.05 a two-party share from 47.5 to 52.5 percent. A
    district without votes counts.
    """
    limit = exactly(margin, "margin")
    return sum(abs(first - second) <= limit * (first + second)
               for first, second in votes(sample, election))


# ---- groups, regions, edges

def group_shares(sample: Sample, group: str, of: str) -> dict[Foreign, Fraction | None]:
    """Returns the group's part of those in the column `of` in each district, by its label; None
    where nobody is in that column."""
    members, whole = sample.totals(group), sample.totals(of)
    return {label: Fraction(members[label], whole[label]) if whole[label] else None
            for label in members}


def majorities(sample: Sample, group: str, of: str, share_above: Share = HALF) -> int:
    """Returns in how many districts a group has more than a part of those in the column `of`.

    With the part 1/2 it is the count of the program's `--group-districts`. Columns of people, as
    BVAP and VAP. Raises ValueError for a part outside 0 to 1.
    """
    limit = exactly(share_above, "share_above")
    plan = sample.plan
    return sum(part > limit * whole
               for part, whole in zip(plan.totals(group), plan.totals(of)))


def splits(sample: Sample, region: str) -> int:
    """Returns how often the regions of a column, as counties, are split in all.

    The sum over all regions of the number of its districts less 1, as for the program's
    `--max-splits`.
    """
    return sample.plan.splits(region).splits


def split_regions(sample: Sample, region: str) -> int:
    """Returns how many regions of a column, as counties, lie in more than one district, as for the
    program's `--max-split-regions`."""
    return sample.plan.splits(region).split_regions


def cut_edges(sample: Sample) -> int:
    """Returns the number of edges between units in different districts, as the program's
    `cut-edges`."""
    return sample.plan.cut_edges()


def cut_length(sample: Sample, length: str) -> int:
    """Returns the total length of the edges between units in different districts, by a column of
    lengths, as the program's `cut-length`. Raises KeyError if the program read no such column."""
    return sample.plan.cut_length(length)


# Scores that `Trace.to_frame` knows by name: those of votes, for each election, and the others.
OF_VOTES: dict[str, typing.Callable[..., object]] = {
    function.__name__: function for function in (
        seats, efficiency_gap, mean_median, partisan_bias, declination, declination_tangent,
        ordered_shares)}
OF_PLANS: dict[str, typing.Callable[[Sample], object]] = {"cut_edges": cut_edges}
