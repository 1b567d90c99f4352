"""The test that separates an effect's size from its significance, computed from a report's walks.

Source: Chikina, Frieze, Mattingly and Pegden, 'Separating effect from significance in Markov chain
tests', Statistics and Public Policy 7 (2020). docs/user/READING_A_REPORT.md derives the bound.

Every number here is a whole number or a fraction. Nothing is computed in floating point.
"""
from __future__ import annotations

import dataclasses
import math
import numbers
import typing
from decimal import Decimal
from fractions import Fraction

if typing.TYPE_CHECKING:
    from .report import Report

BILLION = 1_000_000_000

Number = typing.Union[Fraction, Decimal, str, int]


@dataclasses.dataclass(frozen=True)
class Effect:
    """The test of one ask at one epsilon and alpha."""

    ask: str
    """The score and the tail, as `cut-edges:low`."""
    epsilon: Fraction
    """The fraction of a walk's plans among which the enacted plan must be, itself included."""
    alpha: Fraction
    """The fraction of all legal plans, the most fragile ones, among which the plan may be."""
    walks: int
    """The number of walks, m."""
    plans: int
    """The number of plans that each walk visits: its steps and one."""
    most: int
    """The greatest count of a `walk` line that is at most `epsilon * plans`."""
    outliers: int
    """The number of walks whose count is at most `most`."""
    p: Decimal
    """The p-value, rounded up at nine places."""
    pairs: int = 0
    """The number of pairs of walks."""
    pair_plans: int = 0
    """The number of plans that each pair visits, the enacted plan once among them."""
    pair_most: int = 0
    """The greatest count of a pair that is at most `epsilon * pair_plans`."""
    pair_outliers: int = 0
    """The number of pairs whose count is at most `pair_most`."""
    pair_p: Decimal | None = None
    """The p-value by pairs, rounded up at nine places; None of fewer than two walks."""

    def __str__(self) -> str:
        """Returns the result in one sentence, or in three if there are pairs."""
        said = self.describe_walks()
        if self.pair_p is None:
            return said
        return (
            f"{said}. By pairs of walks: on {self.pair_outliers} of {self.pairs} the count is at"
            f" most {self.pair_most} of {self.pair_plans}, and that many pairs would show so with"
            f" probability at most {self.pair_p:f}. One of these two p-values has to be named"
            " before the run"
        )

    def describe_walks(self) -> str:
        """Returns the result by single walks in one sentence."""
        return (
            f"{self.ask}: on {self.outliers} of {self.walks} walks the enacted plan is among the"
            f" most extreme {self.epsilon} of the plans visited (count at most {self.most} of"
            f" {self.plans}); if it were not among the most fragile {self.alpha} of all legal"
            " plans (with a weight, counted by their chances), that many walks would show so with"
            f" probability at most {self.p:f}"
        )


def test_effects(report: Report, epsilon: Number, alpha: Number) -> dict[str, Effect]:
    """Returns the test of each ask of a report, by ask. `Report.effect` documents it."""
    part, share = exact(epsilon, "epsilon"), exact(alpha, "alpha")
    walks, plans = report.setting.walks, report.setting.steps + 1
    if walks == 0:
        raise ValueError("the report has no outlier walks (walks=0), and the test counts these")
    most = math.floor(part * plans)
    if most == 0:
        raise ValueError(
            f"epsilon is {part}, and a walk of {plans} plans cannot show less than 1/{plans}: take"
            " a greater epsilon or longer walks"
        )
    pairs, of_pair = walks // 2, 2 * plans - 1
    pair_most = math.floor(part * of_pair)
    found = {}
    for ask in report.asks:
        outliers = sum(walk.ask == ask and walk.count <= most for walk in report.walks)
        p = nine_places(tail_billionths(walks, outliers, 2 * part / share))
        by_walks = Effect(ask, part, share, walks, plans, most, outliers, p)
        shown = sum(pair.ask == ask and pair.count <= pair_most for pair in report.pairs)
        chance = Fraction(pair_most, plans) / share
        pair_p = nine_places(tail_billionths(pairs, shown, chance**2)) if pairs else None
        found[ask] = dataclasses.replace(
            by_walks, pairs=pairs, pair_plans=of_pair if pairs else 0,
            pair_most=pair_most if pairs else 0, pair_outliers=shown, pair_p=pair_p,
        )
    return found


def exact(value: object, name: str) -> Fraction:
    """Returns a number above 0 and at most 1 as a fraction, without rounding.

    Raises TypeError for a float, which is seldom the decimal that was typed, and for other types.
    Raises ValueError for a text that is not a number, and for a number out of range.
    """
    if isinstance(value, bool) or not isinstance(value, (numbers.Rational, Decimal, str)):
        hint = f": give it as the text {str(value)!r}, or as a Fraction"
        raise TypeError(
            f"{name} is a {type(value).__name__}, and must be"
            f" exact{hint if isinstance(value, float) else ''}"
        )
    try:
        found = Fraction(value)
    except (ValueError, ZeroDivisionError, OverflowError):
        raise ValueError(
            f"{name} is {value!r}, which is not a number such as '0.01' or '1/100'"
        ) from None
    if not 0 < found <= 1:
        raise ValueError(f"{name} is {found}, and must be above 0 and at most 1")
    return found


def nine_places(billionths: int) -> Decimal:
    """Returns a number of billionths as a decimal with nine places."""
    whole, rest = divmod(billionths, BILLION)
    return Decimal(f"{whole}.{rest:09}")


# ---- the binomial tail


def tail_billionths(walks: int, least: int, square: Fraction) -> int:
    """Returns P(X >= least) in billionths, rounded up, for X binomial of `walks` trials.

    Each trial succeeds with chance q, the square root of `square`, or 1 where that is above 1.

    The result is the exact ceiling. If q is rational, the tail is computed exactly. Otherwise it is
    enclosed between the tails at two rationals around q, by rounding down and up, until both have
    the same ceiling. That ends, because the tail is irrational then: as a polynomial in q it has an
    odd part, which is 0 only if least = walks is even, and that case is computed on its own.
    """
    if least == 0 or square >= 1:
        return BILLION
    if least == walks:
        return ceiling_of_root(BILLION**2 * Fraction(square**walks))
    top, of = math.isqrt(square.numerator), math.isqrt(square.denominator)
    if Fraction(top, of) ** 2 == square:
        scale: int = of**walks
        return -(-tail_at(walks, least, top, of, scale, True) * BILLION // scale)
    digits = 20
    while True:
        of, scale = 10**digits, 2**walks * 10 ** (2 * digits)
        root = math.isqrt(square.numerator * of**2 // square.denominator)
        low = tail_at(walks, least, root, of, scale, False)
        high = tail_at(walks, least, root + 1, of, scale, True)
        # The tail is above 0 and below 1. The bounds, being rounded, may reach beyond.
        low_billionths = max(1, -(-low * BILLION // scale))
        high_billionths = min(BILLION, -(-high * BILLION // scale))
        if low_billionths == high_billionths:
            return high_billionths
        digits *= 2


def ceiling_of_root(square: Fraction) -> int:
    """Returns the least whole number whose square is at least `square`, which is above 0."""
    return math.isqrt(math.ceil(square) - 1) + 1


def tail_at(walks: int, least: int, top: int, of: int, scale: int, up: bool) -> int:
    """Returns `scale * P(X >= least)` for the chance top/of, rounded up or down."""
    if 2 * top <= of:
        return scale - head_at(walks, least - 1, top, of, scale, not up)
    return head_at(walks, walks - least, of - top, of, scale, up)


def head_at(walks: int, most: int, top: int, of: int, scale: int, up: bool) -> int:
    """Returns `scale * P(X <= most)` for the chance top/of, rounded up or down.

    The chance is at most one half, so that the first term, (1 - chance)^walks, is at least
    2^-walks and keeps its leading digits. If the scale is of^walks, every division is exact.
    """
    term = divide(scale * (of - top) ** walks, of**walks, up)
    total = term
    for count in range(1, most + 1):
        term = divide(term * (walks - count + 1) * top, count * (of - top), up)
        total += term
    return total


def divide(top: int, of: int, up: bool) -> int:
    """Returns top/of, rounded up or down."""
    return -(-top // of) if up else top // of
