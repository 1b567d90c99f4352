"""Tests of the effect test: exact tails, and the theorem on chains that are enumerated whole."""
import itertools
import math
import unittest
from decimal import Decimal
from fractions import Fraction

from common import EXAMPLES, KEY, ProgramCase, WORDS, Words, anything, example, readme_report

import district_audit
from district_audit import effect
from district_audit.arguments import SCORES

DRAWS = 2**64
# A number a + b sqrt(x), as the pair of a and b.
Surd = tuple[Fraction, Fraction]
# The district of each unit, and the two ends of an edge.
Plan = tuple[int, ...]
Edge = tuple[int, int]


# ---- the exact tail of a binomial whose chance is a square root, in numbers a + b sqrt(x)


def times(one: Surd, other: Surd, x: Fraction) -> Surd:
    return (one[0] * other[0] + one[1] * other[1] * x, one[0] * other[1] + one[1] * other[0])


def powers(base: Surd, most: int, x: Fraction) -> list[Surd]:
    found = [(Fraction(1), Fraction(0))]
    for _ in range(most):
        found.append(times(found[-1], base, x))
    return found


def exact_tail(walks: int, least: int, x: Fraction) -> Surd:
    """Returns P(X >= least) as a pair (a, b) that stands for a + b sqrt(x)."""
    success = powers((Fraction(0), Fraction(1)), walks, x)
    failure = powers((Fraction(1), Fraction(-1)), walks, x)
    terms = [times(success[n], failure[walks - n], x) for n in range(least, walks + 1)]
    ways = [math.comb(walks, n) for n in range(least, walks + 1)]
    pairs = list(zip(ways, terms))
    return (
        sum((way * term[0] for way, term in pairs), Fraction()),
        sum((way * term[1] for way, term in pairs), Fraction()),
    )


def can_reach(billionths: int, pair: Surd, x: Fraction) -> bool:
    """Returns whether a number of billionths is at least a + b sqrt(x), by signs and squares."""
    left, root = Fraction(billionths, 10**9) - pair[0], pair[1]
    if root >= 0:
        return bool(left >= 0 and left**2 >= root**2 * x)
    return bool(left >= 0 or left**2 <= root**2 * x)


# ---- a plain model of the chain: every legal plan, and the draws that lead from one to another


class Chain:
    """All legal plans of a small map, and the number of draws from each to each."""

    def __init__(
        self, votes: list[tuple[int, int, int]], edges: list[Edge], districts: int, slack: int
    ) -> None:
        self.votes, self.edges, self.districts, self.slack = votes, edges, districts, slack
        every = itertools.product(range(districts), repeat=len(votes))
        self.plans = [plan for plan in every if self.is_legal(plan)]
        place = {plan: i for i, plan in enumerate(self.plans)}
        pairs = len(votes) * districts
        self.ways = []
        for here, plan in enumerate(self.plans):
            row = {here: DRAWS % pairs}
            for unit, district in itertools.product(range(len(votes)), range(districts)):
                there = place.get(plan[:unit] + (district,) + plan[unit + 1:], here)
                row[there] = row.get(there, 0) + DRAWS // pairs
            self.ways.append(row)

    def members(self, plan: Plan, district: int) -> set[int]:
        return {unit for unit, label in enumerate(plan) if label == district}

    def is_legal(self, plan: Plan) -> bool:
        total = sum(unit[0] for unit in self.votes)
        for district in range(self.districts):
            members = self.members(plan, district)
            people = 10_000 * self.districts * sum(self.votes[unit][0] for unit in members)
            low, high = (10_000 - self.slack) * total, (10_000 + self.slack) * total
            if not members or not low <= people <= high or not self.is_connected(members):
                return False
        return True

    def is_connected(self, members: set[int]) -> bool:
        seen = {min(members)}
        for _ in members:
            seen |= {
                end
                for edge in self.edges
                for end in edge
                if set(edge) <= members and set(edge) & seen
            }
        return bool(seen == members)

    def value(self, score: str, plan: Plan) -> int:
        sums = [
            [
                sum(self.votes[unit][party] for unit in self.members(plan, district))
                for party in (1, 2)
            ]
            for district in range(self.districts)
        ]
        if score == "seats":
            return sum(first > second for first, second in sums)
        if score == "cut-edges":
            return sum(plan[one] != plan[other] for one, other in self.edges)
        if score == "gap":
            return sum(
                (2 * second - (first - second)) if first > second else (second - first - 2 * first)
                for first, second in sums
            )
        shares = sorted(first * 10**9 // (first + second) for first, second in sums)
        middle = shares[(self.districts - 1) // 2] + shares[self.districts // 2]
        return self.districts * middle - 2 * sum(shares)

    def is_extreme(self, score: str, tail: str, start: int) -> list[bool]:
        """Returns for each plan whether it is at least as extreme as the start."""
        values = [self.value(score, plan) for plan in self.plans]
        if tail == "low":
            return [value <= values[start] for value in values]
        return [value >= values[start] for value in values]

    def counts(self, extreme: list[bool], start: int, steps: int) -> list[int]:
        """Returns how many of DRAWS ** steps walks have each count of extreme visits."""
        now = {(start, 1): 1}
        for _ in range(steps):
            after: dict[tuple[int, int], int] = {}
            for (plan, count), many in now.items():
                for other, ways in self.ways[plan].items():
                    key = (other, count + extreme[other])
                    after[key] = after.get(key, 0) + many * ways
            now = after
        found = [0] * (steps + 2)
        for (_, count), many in now.items():
            found[count] += many
        return found


def chain_of(name: str, slack: int) -> Chain:
    """Returns the chain of an example's file."""
    root = example(name)
    place = {node["id"]: i for i, node in enumerate(root["nodes"])}
    pairs = {
        frozenset((place[node["id"]], place[entry["id"]]))
        for node, entries in zip(root["nodes"], root["adjacency"])
        for entry in entries
    }
    edges = [(min(pair), max(pair)) for pair in pairs]
    votes = [(node["pop"], node["a"], node["b"]) for node in root["nodes"]]
    return Chain(votes, edges, 2, slack)


def grid_of_six(districts: int) -> Chain:
    votes = [(1, 3, 1), (1, 1, 2), (1, 1, 2), (1, 2, 1), (1, 4, 1), (1, 1, 3)]
    return Chain(votes, [(0, 1), (1, 2), (3, 4), (4, 5), (0, 3), (1, 4), (2, 5)], districts, 5000)


def binomial_tail(walks: int, least: int, chance: Fraction) -> Fraction:
    terms = (
        math.comb(walks, n) * chance**n * (1 - chance) ** (walks - n)
        for n in range(least, walks + 1)
    )
    return sum(terms, Fraction())


class TailTests(unittest.TestCase):
    def test_textbook_values(self) -> None:
        # 56 of the 1024 sequences of ten coins have eight heads or more.
        self.assertEqual(effect.tail_billionths(10, 8, Fraction(1, 4)), 54_687_500)
        # Three dice: 1 - (5/6)^3 = 91/216.
        self.assertEqual(effect.tail_billionths(3, 1, Fraction(1, 36)), 421_296_297)
        # The square root of one half is 0.70710678118..
        self.assertEqual(effect.tail_billionths(1, 1, Fraction(1, 2)), 707_106_782)

    def test_a_tail_that_is_a_whole_number_of_billionths_is_not_raised(self) -> None:
        self.assertEqual(effect.tail_billionths(3, 1, Fraction(1, 100)), 271_000_000)
        self.assertEqual(effect.tail_billionths(2, 2, Fraction(1, 500)), 2_000_000)
        self.assertEqual(effect.tail_billionths(4, 4, Fraction(1, 1000)), 1_000)

    def test_ends_of_the_range(self) -> None:
        self.assertEqual(effect.tail_billionths(5, 0, Fraction(1, 7)), 10**9)
        self.assertEqual(effect.tail_billionths(5, 5, Fraction(1)), 10**9)
        self.assertEqual(effect.tail_billionths(5, 3, Fraction(7, 2)), 10**9)
        self.assertEqual(effect.tail_billionths(400, 399, Fraction(1, 10**6)), 1)
        self.assertEqual(effect.tail_billionths(400, 1, Fraction(1, 2)), 10**9)
        self.assertEqual(effect.tail_billionths(400, 2, Fraction(4, 5)), 10**9)

    def test_rounded_tails_enclose_the_exact_one(self) -> None:
        for walks, top, scale in itertools.product((1, 5, 9), (1, 3, 5, 6, 9), (7, 1000)):
            for least in range(1, walks + 1):
                exact = scale * binomial_tail(walks, least, Fraction(top, 10))
                bounds = [effect.tail_at(walks, least, top, 10, scale, up) for up in (False, True)]
                self.assertLessEqual(bounds[0], exact)
                self.assertLessEqual(exact, bounds[1])
                whole = 10**walks
                self.assertEqual(
                    effect.tail_at(walks, least, top, 10, whole, True), whole * exact / scale
                )

    def test_every_tail_is_the_exact_ceiling(self) -> None:
        squares = [
            Fraction(1, 3), Fraction(2, 1001), Fraction(9, 100), Fraction(1, 7**6), Fraction(3, 4),
            Fraction(1, 4), Fraction(999, 1000), Fraction(2, 10**9 + 7),
        ]
        for walks, square in itertools.product((1, 2, 3, 4, 7, 8, 13), squares):
            for least in range(1, walks + 1):
                found = effect.tail_billionths(walks, least, square)
                tail = exact_tail(walks, least, square)
                with self.subTest(walks=walks, least=least, square=square):
                    self.assertTrue(can_reach(found, tail, square))
                    self.assertFalse(can_reach(found - 1, tail, square))


class TheoremTests(unittest.TestCase):
    """The two inequalities on chains small enough to know p(s) of every plan exactly."""

    CHAINS = {
        "path": (lambda: chain_of("path.json", 5000), 6),
        "cycle": (lambda: chain_of("cycle.json", 5000), 12),
        "apart": (lambda: chain_of("apart.json", 6000), 2),
        "six": (lambda: grid_of_six(2), 18),
    }

    def holds(
        self, chain: Chain, chances: list[int], steps: int, others: int
    ) -> None:
        """Checks both inequalities; `chances` has p(s) of each plan times DRAWS ** steps."""
        whole, plans = DRAWS**steps, len(chances)
        squares = sum(chance**2 for chance in chances)
        self.assertLessEqual(squares * (steps + 1), (2 * others + 1) * plans * whole**2)
        for chance in set(chances):
            # The plan is not among any lesser fraction of the most fragile than this one.
            alpha = Fraction(sum(other >= chance for other in chances), plans)
            square = 2 * Fraction(others + 1, steps + 1) / alpha
            self.assertLessEqual(Fraction(chance, whole) ** 2, square)
            for least in (1, 2, 3):
                tail = binomial_tail(3, least, Fraction(chance, whole))
                bound = Fraction(effect.tail_billionths(3, least, square), 10**9)
                self.assertLessEqual(tail, bound)

    def test_each_chain_each_ask_up_to_eight_steps(self) -> None:
        for name, (make, plans) in self.CHAINS.items():
            chain = anything(make)()
            self.assertEqual(len(chain.plans), plans, name)
            for score, tail in itertools.product(SCORES[:4], ("low", "high")):
                tails = [chain.is_extreme(score, tail, start) for start in range(plans)]
                for steps in (1, 2, 3, 5, 8):
                    found = [chain.counts(tails[start], start, steps) for start in range(plans)]
                    for others in range(steps + 1):
                        with self.subTest(name=name, ask=(score, tail), k=steps, l=others):
                            self.holds(
                                chain, [sum(one[: others + 2]) for one in found], steps, others
                            )

    def test_the_chain_is_symmetric(self) -> None:
        for name, (make, _) in self.CHAINS.items():
            chain = anything(make)()
            for here, row in enumerate(chain.ways):
                self.assertEqual(sum(row.values()), DRAWS)
                self.assertTrue(
                    all(chain.ways[there][here] == many for there, many in row.items()), name
                )

    def test_half_the_bound_is_refused_by_these_chains(self) -> None:
        # With l others in place of 2 l + 1 the mean is too great where all visits are extreme.
        chain, steps, others = chain_of("path.json", 5000), 3, 3
        whole = DRAWS**steps
        extreme = [True] * len(chain.plans)
        chances = [
            sum(chain.counts(extreme, start, steps)[: others + 2])
            for start in range(len(chain.plans))
        ]
        self.assertGreater(
            sum(chance**2 for chance in chances) * (steps + 1), others * len(chances) * whole**2
        )


class ReportTests(unittest.TestCase):
    def setUp(self) -> None:
        self.report = district_audit.Report.parse(readme_report())

    def test_the_readme_report_by_hand(self) -> None:
        # epsilon 1/10000 of 100001 plans: counts up to 10. Cut edges have counts 2 and 9.
        found = self.report.effect("0.0001", "0.05")
        self.assertEqual(list(found), ["seats:low", "gap:high", "cut-edges:low"])
        self.assertEqual(
            [(one.most, one.outliers) for one in found.values()], [(10, 0), (10, 0), (10, 2)]
        )
        # Both walks: the square of sqrt(2 * 0.0001 / 0.05) is 0.004.
        self.assertEqual(found["cut-edges:low"].p, Decimal("0.004000000"))
        self.assertEqual(found["seats:low"].p, 1)

    def test_a_count_equal_to_the_limit_counts_and_one_more_does_not(self) -> None:
        least = [
            self.report.effect(Fraction(most, 100001), 1)["cut-edges:low"].outliers
            for most in (1, 2, 8, 9)
        ]
        self.assertEqual(least, [0, 1, 1, 2])
        below = Fraction(9, 100001) - Fraction(1, 10**30)
        self.assertEqual(self.report.effect(below, 1)["cut-edges:low"].outliers, 1)

    def test_one_walk_of_two_by_hand(self) -> None:
        # q = sqrt(2 * 2/100001 / 0.1) = 0.0199999000007..; one walk of two or both: 2 q - q^2,
        # so 0.0399998000015 - 0.00039999600004.
        found = self.report.effect(Fraction(2, 100001), "1/10")["cut-edges:low"]
        square = Fraction(4, 100001) * 10
        tail = (-square, Fraction(2))
        self.assertTrue(can_reach(int(found.p.scaleb(9)), tail, square))
        self.assertFalse(can_reach(int(found.p.scaleb(9)) - 1, tail, square))
        self.assertEqual(found.p, Decimal("0.039599805"))

    def test_numbers_are_taken_exactly_in_each_form(self) -> None:
        forms = (Fraction(1, 10000), "1/10000", "0.0001", "1e-4", Decimal("0.0001"))
        self.assertEqual(
            len({self.report.effect(anything(form), "0.05")["cut-edges:low"] for form in forms}), 1
        )

    def test_what_is_refused(self) -> None:
        for value in (0.0001, 1e-4, None, True, [1]):
            with self.assertRaises(TypeError):
                self.report.effect(anything(value), "0.05")
            with self.assertRaises(TypeError):
                self.report.effect("0.01", anything(value))
        for value in anything(
            ("0", "1.1", "-1/2", "x", "1/0", Decimal("NaN"), Decimal("Infinity"), 2, 0)
        ):
            with self.assertRaises(ValueError):
                self.report.effect(anything(value), "0.05")
            with self.assertRaises(ValueError):
                self.report.effect("0.01", anything(value))
        with self.assertRaisesRegex(TypeError, "epsilon is a float.*'0.0001'"):
            self.report.effect(anything(0.0001), "0.05")
        with self.assertRaisesRegex(ValueError, "1/100001"):
            self.report.effect(Fraction(1, 100002), 1)

    def test_a_report_without_walks_is_refused(self) -> None:
        lines = readme_report().splitlines()
        lines = [line.replace("walks 2", "walks 0") for line in lines if line[:5] != "walk "]
        report = district_audit.Report.parse("\n".join(lines + [""]))
        with self.assertRaisesRegex(ValueError, "no outlier walks"):
            report.effect("0.01", "0.05")

    def test_it_is_one_sentence(self) -> None:
        said = str(self.report.effect("0.0001", "0.05")["cut-edges:low"])
        self.assertIn("on 2 of 2 walks", said)
        self.assertIn("0.004000000", said)


class ProgramTests(ProgramCase):
    def test_counts_of_walks_have_the_exact_distribution(self) -> None:
        """2000 walks of the real program against p(s): each chance within five deviations."""
        walks, steps = 2000, 5
        words: Words = dict(
            WORDS, key=KEY, walks=walks, steps=steps, ask="gap:low,cut-edges:high",
            program=self.program,
        )
        report = district_audit.run(str(EXAMPLES / "data" / "cycle.json"), **words)
        chain = chain_of("cycle.json", 5000)
        start = chain.plans.index((0, 0, 1, 1))
        for ask in report.asks:
            score, tail = ask.split(":")
            exact = chain.counts(chain.is_extreme(score, tail, start), start, steps)
            for most in range(1, steps + 1):
                chance = Fraction(sum(exact[: most + 1]), DRAWS**steps)
                found = report.effect(Fraction(most, steps + 1), 1)[ask].outliers
                with self.subTest(ask=ask, most=most, chance=float(chance)):
                    self.assertLessEqual(
                        (found - walks * chance) ** 2, 25 * walks * chance * (1 - chance)
                    )
