"""The numbers that READING_A_REPORT quotes on limits made from the enacted plan, computed whole.

All plans of a grid of 4 by 4 units with two districts of 6 to 10 units are listed. A plan is drawn
with equal chances. The ends of an ideal parallel test are independent draws from the plans that
its steps can reach under the limit, so the probability of rank 1 among 20 is a sum of powers.
"""
import bisect
import re
import typing
import unittest

import common

SIDE, ENDS = 4, 19
UNITS = range(SIDE * SIDE)
EDGES = [
    (here, there) for here in UNITS for there in UNITS
    if there == here + SIDE or there == here + 1 and there % SIDE
]
# Lengths that are all different, and the first party's votes of 100 in each unit: many in the
# middle.
LENGTHS = [(number + 1) ** 3 * 7919 % 10007 + 1 for number in range(len(EDGES))]
VOTES = (30, 35, 32, 31, 36, 71, 72, 37, 33, 74, 75, 38, 34, 39, 40, 29)
# A plan as a mask: the units of the second district.
Score = typing.Callable[[int], float]
ALL = (1 << len(UNITS)) - 1


def units_of(plan: int) -> list[int]:
    return [unit for unit in UNITS if plan >> unit & 1]


def is_contiguous(plan: int) -> bool:
    seen = [units_of(plan)[0]]
    for here in seen:
        for one, other in EDGES:
            for there in ((other,) if one == here else (one,) if other == here else ()):
                if plan >> there & 1 and there not in seen:
                    seen.append(there)
    return len(seen) == len(units_of(plan))


def cuts(plan: int) -> list[int]:
    """Returns the places of the cut edges."""
    return [
        place for place, (one, other) in enumerate(EDGES) if (plan >> one ^ plan >> other) & 1
    ]


def length(plan: int) -> float:
    return sum(LENGTHS[place] for place in cuts(plan))


def splits(plan: int) -> float:
    """Returns the splits of four regions, the quarters of the grid."""
    quarters = [
        {plan >> unit & 1 for unit in UNITS if (unit // 8, unit % 4 // 2) == quarter}
        for quarter in ((0, 0), (0, 1), (1, 0), (1, 1))
    ]
    return sum(len(districts) - 1 for districts in quarters)


def best_share(plan: int) -> float:
    """Returns the first party's share in its better district."""
    return max(
        sum(VOTES[unit] for unit in units_of(side)) / len(units_of(side))
        for side in (plan, ALL ^ plan)
    )


class Grid:
    """All legal plans of the grid."""

    def __init__(self) -> None:
        self.plans = [
            plan for plan in range(ALL)
            if 6 <= bin(plan).count("1") <= 10
            and is_contiguous(plan) and is_contiguous(ALL ^ plan)
        ]

    def parts(self, allowed: set[int]) -> typing.Iterator[list[int]]:
        """Yields the plans that steps lead between, part by part."""
        left = set(allowed)
        while left:
            part = [left.pop()]
            for plan in part:
                for unit in UNITS:
                    other = plan ^ 1 << unit
                    if other in left:
                        left.remove(other)
                        part.append(other)
            yield part

    def chance_of_rank_one(
        self, limit: typing.Optional[Score], factor: float, score: Score
    ) -> float:
        """Returns the probability of rank 1 of 20 in the high tail, under the null hypothesis.

        The limit is the drawn plan's own number times a factor, or there is none.
        """
        value = {plan: score(plan) for plan in self.plans}
        of = {plan: limit(plan) if limit else 0.0 for plan in self.plans}
        found = 0.0
        for most in sorted({own * factor for own in of.values()}):
            drawn = {plan for plan in self.plans if of[plan] * factor == most}
            for part in self.parts({plan for plan in self.plans if of[plan] <= most}):
                values = sorted(value[plan] for plan in part)
                for plan in drawn.intersection(part):
                    below = bisect.bisect_left(values, value[plan])
                    found += (below / len(part)) ** ENDS
        return found / len(self.plans)


class Quoted(unittest.TestCase):
    def test_the_table_of_the_page(self) -> None:
        """Each number of the table in READING_A_REPORT, to two places."""
        text = (common.TOP / "docs" / "user" / "READING_A_REPORT.md").read_text(encoding="utf-8")
        grid = Grid()
        self.assertIn(f"all {len(grid.plans)} plans", text)
        rows = dict(re.findall(r"^\| (none|`max-[a-z]+`) \| (0\.\d\d \| 0\.\d\d) \|$", text, re.M))
        limits: dict[str, typing.Optional[Score]] = {
            "none": None, "`max-length`": length, "`max-splits`": splits,
            "`max-cut`": lambda plan: len(cuts(plan)),
        }
        self.assertEqual(set(rows), set(limits))
        for name, limit in limits.items():
            chances = [
                grid.chance_of_rank_one(limit, 1.0, score) for score in (length, best_share)
            ]
            self.assertEqual(rows[name], " | ".join(f"{chance:.2f}" for chance in chances), name)
        own = grid.chance_of_rank_one(splits, 1.0, length)
        self.assertEqual(grid.chance_of_rank_one(splits, 1.1, length), own)


def numbers_in(cell: str) -> list[int]:
    return [int(number) for number in re.findall("[0-9]+", cell)]


class NeutralPlans(unittest.TestCase):
    """The sums that READING and GUIDE quote of neutral plans, from the tables of GUIDE and
    MEASUREMENTS.
    """

    def setUp(self) -> None:
        docs = common.TOP / "docs"
        self.guide, self.reading, measured = (
            (docs / name).read_text(encoding="utf-8")
            for name in ("user/GUIDE.md", "user/READING_A_REPORT.md", "dev/MEASUREMENTS.md")
        )
        maps = "281 tracts of New York|grid of 30 by 30|1261 precincts"
        rows = [
            [cell.strip() for cell in line.split("|")[1:-1]]
            for line in self.guide.splitlines() if re.match(rf"\| (?:{maps})", line)
        ]
        self.limits, self.weights = rows[:3], rows[3:]
        self.own = re.findall(
            r"^\| \w+ \| \d+ to \d+ \| (limit|weight) \d+ \| \d+"
            r" \| (\d+) \| (\d+) \| (\d+) \|",
            measured, re.M,
        )
        self.assertEqual((len(self.limits), len(self.weights), len(self.own)), (3, 3, 6))

    def test_how_far_walks_sprawl(self) -> None:
        parts = []
        for row in self.limits:
            low, high = numbers_in(row[1])
            (median,) = numbers_in(row[2])
            parts += [median / high, median / low]
        self.assertIn(f"{min(parts):.1f} to {max(parts):.1f} times as many cut edges", self.reading)

    def test_flags_under_a_weight(self) -> None:
        """Of 20 plans chance flags 1 in cut edges, and 2 in each of the other two."""
        rows = [numbers_in(row[4]) for row in self.weights]
        rows += [[int(one) for one in row[1:]] for row in self.own if row[0] == "weight"]
        self.assertEqual([len(row) for row in rows], [3] * 6)
        self.assertIn(
            f"flagged [{sum(sum(row) for row in rows)} times of {20 * 3 * 6}]", self.reading
        )
        self.assertIn(f"where chance gives {6 * (1 + 2 + 2)}.", self.reading)

    def test_flags_under_a_limit(self) -> None:
        found = sum(numbers_in(row[place])[1] for row in self.limits for place in (4, 5))
        gaps = sum(int(row[2]) for row in self.own if row[0] == "limit")
        whole = gaps + sum(int(row[3]) for row in self.own if row[0] == "limit")
        said = re.search(
            r"(\d+) times of 120, and (\d+) times in .*chance gives 12\. But (\d+) of these (\d+)"
            r" are of 60 gaps, where chance gives 6", self.guide,
        )
        assert said is not None
        self.assertEqual([int(one) for one in said.groups()], [found, whole, gaps, whole])


if __name__ == "__main__":
    unittest.main()
