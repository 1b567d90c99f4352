"""Checks in whole numbers that the weight on cut edges is exact, on all legal plans of small grids.

Usage: python3 -m tests.differential.weight_exact

For each pair of legal plans A and B, the weight of A times the number of draws that lead from A to
B is that of B times the number of draws back (balance). The weights of all plans, each times the
number of draws from it to B, add up to the weight of B times the number of all draws
(stationarity). The weight of a plan with c cut edges is the product of the factors of the edges 0
to c - 1, times 64 for each edge that is not cut. The rule is that of tests/oracle/model.py.

Draws are quotients: with N pairs of a unit and a district and changes of at most m cut edges, all
draws below K * N * 64^m are K copies of those below N * 64^m, of which each pair has 64^m. All of
these are tried. m is set here: the rule's own m is too large to try all quotients.

Each of the wrong rules must fail. The last check tries every draw by the model's step.
"""
# RUN:
from __future__ import annotations

import argparse
import dataclasses
import functools
import itertools
import sys
import typing
from collections import Counter
from collections.abc import Callable, Sequence
from unittest import mock

from tests.checks import Checks
from tests.oracle import model

# A rule: if a change of cut edges is made, by the weight, the number of pairs, the greatest change,
# the draw, the cut edges before, and the number that is added.
Rule = Callable[[int, int, int, int, int, int], bool]
Plan = tuple[int, ...]


@dataclasses.dataclass(frozen=True)
class Grid:
    """A grid of units, in districts of some least and some greatest number of units."""

    rows: int
    columns: int
    districts: int
    least: int
    most: int
    is_queen: bool = False

    @functools.cached_property
    def edges(self) -> list[tuple[int, int]]:
        places = [divmod(unit, self.columns) for unit in range(self.rows * self.columns)]
        apart = {(0, 1), (1, 0), (1, 1)} if self.is_queen else {(0, 1), (1, 0)}
        return [
            (u, v)
            for u, v in itertools.combinations(range(len(places)), 2)
            if (abs(places[u][0] - places[v][0]), abs(places[u][1] - places[v][1])) in apart
        ]

    @functools.cached_property
    def plans(self) -> list[Plan]:
        """All plans whose districts are connected and have fitting numbers of units."""
        every = itertools.product(range(self.districts), repeat=self.rows * self.columns)
        return [plan for plan in every if self.is_legal(plan)]

    @functools.cached_property
    def cuts(self) -> list[int]:
        """The number of cut edges of each plan."""
        return [sum(plan[u] != plan[v] for u, v in self.edges) for plan in self.plans]

    def is_legal(self, plan: Plan) -> bool:
        sizes = Counter(plan)
        if any(not self.least <= sizes[d] <= self.most for d in range(self.districts)):
            return False
        # Each edge within a district joins two groups of units; each district has to be one group.
        groups = [{unit} for unit in range(len(plan))]
        for u, v in self.edges:
            if plan[u] == plan[v] and groups[u] is not groups[v]:
                groups[u] |= groups[v]
                for unit in groups[v]:
                    groups[unit] = groups[u]
        return len({id(group) for group in groups}) == self.districts

    @functools.cached_property
    def flips(self) -> list[list[tuple[int, int]]]:
        """For each plan, the pair and the plan of each flip that leads to another legal plan."""
        number = {plan: at for at, plan in enumerate(self.plans)}
        found: list[list[tuple[int, int]]] = []
        for plan in self.plans:
            pairs = itertools.product(range(len(plan)), range(self.districts))
            after = [(*plan[:unit], district, *plan[unit + 1:]) for unit, district in pairs]
            found.append(
                [(at, number[one]) for at, one in enumerate(after) if one != plan and one in number]
            )
        return found

    @property
    def pairs(self) -> int:
        return self.rows * self.columns * self.districts


@dataclasses.dataclass
class Result:
    """Counts of pairs of plans that were compared, of those out of balance, of plans for which the
    weight is not stationary, and how many flips change more cut edges than a step may.
    """

    compared: int = 0
    unbalanced: int = 0
    unsteady: int = 0
    wide: int = 0
    ties: int = 0


def weigh(grid: Grid, weight: int, cut: int) -> int:
    """Returns the weight of a plan with this number of cut edges, as a whole number."""
    whole: int = model.factors(weight, 0, cut) * 64 ** (len(grid.edges) - cut)
    return whole


def compare(grid: Grid, rule: Rule, weight: int, most: int) -> Result:
    """Returns how the rule with a weight and a greatest change keeps the weights of all plans."""
    every, result = 64**most, Result()
    known: dict[tuple[int, int], int] = {}

    def count_draws(pair: int, cut: int, added: int) -> int:
        """Returns how many of the draws of a pair make the change."""
        if (cut, added) not in known:
            known[cut, added] = sum(
                rule(weight, grid.pairs, most, quotient * grid.pairs + pair, cut, added)
                for quotient in range(every)
            )
        return known[cut, added]

    weights = [weigh(grid, weight, cut) for cut in grid.cuts]
    ways: dict[tuple[int, int], int] = {}
    into = [0] * len(weights)
    for one, flips in enumerate(grid.flips):
        stays = grid.pairs * every
        for pair, other in flips:
            added = grid.cuts[other] - grid.cuts[one]
            ways[one, other] = count_draws(pair, grid.cuts[one], added)
            into[other] += weights[one] * ways[one, other]
            stays -= ways[one, other]
            result.wide += abs(added) > most
            result.ties += added == 0
        into[one] += weights[one] * stays
    for (one, other), there in ways.items():
        result.compared += 1
        result.unbalanced += weights[one] * there != weights[other] * ways[other, one]
    result.unsteady = sum(came != weights[at] * grid.pairs * every for at, came in enumerate(into))
    return result


# ---- wrong rules


def rises_only(weight: int, pairs: int, most: int, draw: int, cut: int, added: int) -> bool:
    """Refuses a great change only if it adds cut edges."""
    return added < -most or model.takes(weight, pairs, most, draw, cut, added)


def first_piece(weight: int, pairs: int, most: int, draw: int, cut: int, added: int) -> bool:
    """Looks at the first of the added cut edges alone."""
    is_near = abs(added) <= most
    return is_near and model.takes(weight, pairs, most, draw, cut, min(added, 1))


def one_more(weight: int, pairs: int, most: int, draw: int, cut: int, added: int) -> bool:
    """Looks at one cut edge more than are added."""
    if not 0 <= added < most:
        return model.takes(weight, pairs, most, draw, cut, added)
    return model.takes(weight, pairs, most, draw, cut, added + 1)


def no_rule(_weight: int, _pairs: int, _most: int, _draw: int, _cut: int, _added: int) -> bool:
    return True


def both_ways(weight: int, pairs: int, most: int, draw: int, cut: int, added: int) -> bool:
    """Weighs falls as rises."""
    return model.takes(weight, pairs, most, draw, min(cut, cut + added), abs(added))


def next_edge(weight: int, pairs: int, most: int, draw: int, cut: int, added: int) -> bool:
    """Begins with the factor of the edge after the first one that is added."""
    return model.takes(weight, pairs, most, draw, cut + 1, added)


WRONG: dict[str, Rule] = {
    "only rises are too great": rises_only,
    "only the first piece counts": first_piece,
    "one piece more counts": one_more,
    "no rule": no_rule,
    "falls are weighed as rises": both_ways,
    "the factors begin one edge late": next_edge,
}

# ---- the checks

# Grids, greatest changes, and the weights that are tried, four times those of the words.
WHOLE = Grid(3, 3, 2, 3, 6)
TRIED: tuple[tuple[str, Grid, int, Sequence[int]], ...] = (
    ("3x3, each weight", WHOLE, 1, range(4, 257)),
    ("3x3, two pieces", WHOLE, 2, range(4, 257, 23)),
    ("3x3, three pieces", WHOLE, 3, [133]),
    ("3x3, three districts", Grid(3, 3, 3, 2, 5), 1, range(4, 257, 9)),
    ("3x3 queen", Grid(3, 3, 2, 3, 6, True), 1, range(4, 257, 7)),
    ("3x3 queen, two pieces", Grid(3, 3, 2, 3, 6, True), 2, range(5, 257, 61)),
    ("4x3, two districts", Grid(4, 3, 2, 5, 7), 2, range(6, 257, 59)),
    ("4x3, three districts", Grid(4, 3, 3, 3, 5), 1, range(7, 257, 31)),
    ("4x3 queen", Grid(4, 3, 2, 5, 7, True), 2, range(10, 257, 83)),
)


def check_rule(checks: Checks) -> None:
    """Checks the rule on each grid, and that the grids have ties and changes that are too great."""
    every = Result()
    for name, grid, most, weights in TRIED:
        for weight in weights:
            result = compare(grid, model.takes, weight, most)
            wrong = (result.unbalanced, result.unsteady)
            checks.is_equal(f"{name}, weight {weight} of 256", wrong, (0, 0))
            every.compared += result.compared
            every.wide += result.wide
            every.ties += result.ties
    checks.is_true("changes that are too great", every.wide > 0, "some", every.wide)
    checks.is_true("changes that keep the cut edges", every.ties > 0, "some", every.ties)
    print(f"{every.compared} changes compared, {every.wide} too great, {every.ties} ties")


def check_wrong_rules(checks: Checks) -> None:
    """Checks that each wrong rule is out of balance or not stationary with each of two weights."""
    queen = Grid(3, 3, 2, 3, 6, True)
    for name, rule in WRONG.items():
        for weight in (97, 134):  # no multiples of four: so the factors of four edges differ
            result = compare(queen, rule, weight, 2)
            checks.is_true(
                f"{name}, weight {weight} of 256", result.unbalanced and result.unsteady,
                "a rule out of balance", result,
            )


def check_factors(checks: Checks) -> None:
    """Checks the factors of 33.25, worked by hand, and the sum of four in a row."""
    found = [model.factor(133, edge) for edge in range(8)]
    checks.is_equal("factors of 33.25", found, [34, 33, 33, 33, 34, 33, 33, 33])
    sums = {
        weight: {sum(model.factor(weight, n + k) for k in range(4)) for n in range(4)}
        for weight in range(4, 257)
    }
    checks.is_equal("four factors in a row", sums, {weight: {weight} for weight in sums})


def check_pieces(checks: Checks) -> None:
    """Checks the greatest change for all powers of two and their neighbors, by its definition."""
    for pairs in sorted({2**k + d for k in range(2, 52) for d in (-1, 0, 1)}):
        most = model.pieces(pairs)
        is_greatest = pairs * 64 ** (most + 1) <= 2**64 < pairs * 64 ** (most + 2)
        checks.is_true(f"pieces of {pairs} pairs", is_greatest, "the greatest", most)


def job_of(grid: Grid, weight: str) -> model.Job:
    """Returns the model's job of a grid with one person in each unit, from its first plan."""
    setting = model.Setting(
        f"run --pop p --first a --second b --district d --slack 3334 --ask cut-edges:low"
        f" --key {'0' * 64} --cut-weight {weight}".split()
    )
    units, start = grid.rows * grid.columns, grid.plans[0]
    ones = [1] * units
    graph = model.Graph(
        grid.edges, ones, ones, ones, list(start), grid.districts, [], [], [], []
    )
    return model.Job(setting, graph)


def check_steps(checks: Checks) -> None:
    """Tries each draw of the model's own steps, with at most one cut edge of change."""
    grid = Grid(2, 3, 2, 2, 4)
    job, number = job_of(grid, "33.25"), {plan: at for at, plan in enumerate(grid.plans)}
    ways: typing.Counter[tuple[int, int]] = Counter()
    with mock.patch.object(model, "pieces", lambda pairs: 1):
        for at, plan in enumerate(grid.plans):
            for draw in range(grid.pairs * 64):
                ways[at, number[tuple(job.step(plan, draw))]] += 1
    weights = [weigh(grid, 133, cut) for cut in grid.cuts]
    wrong = [
        (one, other) for (one, other), there in ways.items()
        if weights[one] * there != weights[other] * ways[other, one]
    ]
    checks.is_equal("each draw of the steps", wrong, [])
    checks.is_true("steps lead to other plans", len(ways) > 2 * len(number), "many", len(ways))


def main() -> int:
    argparse.ArgumentParser(
        prog="python3 -m tests.differential.weight_exact", description=__doc__,
        formatter_class=argparse.RawDescriptionHelpFormatter,
    ).parse_args()
    checks = Checks("weight_exact")
    for part in (check_factors, check_pieces, check_rule, check_wrong_rules, check_steps):
        part(checks)
    return checks.finish()


if __name__ == "__main__":
    sys.exit(main())
