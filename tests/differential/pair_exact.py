"""Checks the bound of a pair of walks against exact probabilities on drawn chains.

Usage: python3 -m tests.differential.pair_exact [CHAINS]

Each chain has 2 to 7 plans, symmetric chances in whole numbers, and a drawn label for each plan, so
many plans tie. The start is drawn with the same chance for each plan. With all chances exact, two
walks of k steps from it have a count C, of all plans that they visit with the start counted once,
of at most c with a chance of at most c / (k + 1), for each c. That is the bound of a line `pair`.
A bound of c / (2k + 1) would be wrong: some chain exceeds it.
"""
# RUN: 150
from __future__ import annotations

import argparse
import itertools
import random
import sys
from collections import Counter
from fractions import Fraction

from tests.checks import Checks

# How often a chain goes from one plan to another, of its number of draws.
Ways = list[list[int]]


def draw_chain(dice: random.Random, plans: int) -> Ways:
    """Returns symmetric ways. Each plan has the same number of draws; those left over stay."""
    ways = [[0] * plans for _ in range(plans)]
    for one, other in itertools.combinations(range(plans), 2):
        if dice.random() < 0.5:
            ways[one][other] = ways[other][one] = dice.randrange(4)
    draws = max(sum(row) for row in ways) + dice.randrange(2) or 1
    for plan in range(plans):
        ways[plan][plan] = draws - sum(ways[plan])
    return ways


def count_walks(ways: Ways, labels: list[int], start: int, steps: int) -> Counter[int]:
    """Returns in how many ways a walk has each number of plans in the low tail after its start."""
    here: Counter[tuple[int, int]] = Counter({(start, 0): 1})
    for _ in range(steps):
        after: Counter[tuple[int, int]] = Counter()
        for (plan, count), number in here.items():
            for other, more in enumerate(ways[plan]):
                if more:
                    after[other, count + (labels[other] <= labels[start])] += number * more
        here = after
    counts: Counter[int] = Counter()
    for (_, count), number in here.items():
        counts[count] += number
    return counts


def chances(ways: Ways, labels: list[int], steps: int) -> list[Fraction]:
    """Returns the chance that the count of a pair is at most c, for each c from 0 to 2k + 1."""
    pairs: Counter[int] = Counter()
    for start in range(len(ways)):
        counts = count_walks(ways, labels, start, steps)
        for (one, there), (other, back) in itertools.product(counts.items(), repeat=2):
            pairs[one + other + 1] += there * back
    every = pairs.total()
    below = itertools.accumulate(pairs[count] for count in range(2 * steps + 2))
    return [Fraction(number, every) for number in below]


def main() -> int:
    parser = argparse.ArgumentParser(
        prog="python3 -m tests.differential.pair_exact", description=__doc__,
        formatter_class=argparse.RawDescriptionHelpFormatter,
    )
    parser.add_argument("chains", nargs="?", type=int, default=150, help="how many are drawn")
    checks, exceeded = Checks("pair_exact"), 0
    for seed in range(parser.parse_args().chains):
        dice = random.Random(seed)
        plans, steps = dice.randrange(2, 8), dice.randrange(1, 9)
        ways = draw_chain(dice, plans)
        labels = [dice.randrange(dice.choice([2, 3, 10])) for _ in range(plans)]
        found = chances(ways, labels, steps)
        above = [c for c, chance in enumerate(found) if chance > Fraction(c, steps + 1)]
        checks.is_equal(f"chain {seed}: counts above the bound", above, [])
        exceeded += any(c and p > Fraction(c, 2 * steps + 1) for c, p in enumerate(found))
    checks.is_true("half of the bound is exceeded", exceeded > 0, "some chains", exceeded)
    return checks.finish()


if __name__ == "__main__":
    sys.exit(main())
