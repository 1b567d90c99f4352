"""Tests of pairs of walks: the theorem on chains that are enumerated whole, and the lines."""
import dataclasses
import math
import random
import unittest
from decimal import Decimal
from fractions import Fraction

import common

import district_audit
from district_audit import Report, arguments, exhibit, exhibit_figures, picture, report

CASES = 60
# The chances of each count, and rows of whole numbers whose common sum is the last item.
Chances = dict[int, Fraction]
Chain = tuple[list[list[int]], int]


def drawn_chain(dice: random.Random) -> Chain:
    """Returns a symmetric chain of a few states, as whole numbers with equal sums of rows."""
    states = dice.randrange(2, 7)
    moves = [[0] * states for _ in range(states)]
    for here in range(states):
        for there in range(here):
            if dice.random() < 0.5:
                moves[here][there] = moves[there][here] = dice.randrange(4)
    whole = max(sum(row) for row in moves) + dice.randrange(1, 3)
    for here in range(states):
        moves[here][here] = whole - sum(moves[here])
    return moves, whole


def counts_from(chain: Chain, labels: list[int], start: int, steps: int) -> Chances:
    """Returns the chance of each count of a walk from a state, this state included."""
    moves, whole = chain
    here = {(start, 1): 1}
    for _ in range(steps):
        found: dict[tuple[int, int], int] = {}
        for (state, count), ways in here.items():
            for other, many in enumerate(moves[state]):
                if many:
                    key = (other, count + (labels[other] <= labels[start]))
                    found[key] = found.get(key, 0) + ways * many
        here = found
    chances: Chances = {}
    for (_, count), ways in here.items():
        chances[count] = chances.get(count, Fraction()) + Fraction(ways, whole**steps)
    return chances


class TheoremTests(unittest.TestCase):
    """No chance is sampled: each is computed exactly, over all walks from all states."""

    def distributions(self, seed: int) -> tuple[int, Chances, Chances]:
        """Returns q, and the chances of the counts of one walk and of a pair of walks."""
        dice = random.Random(seed)
        chain, steps = drawn_chain(dice), dice.randrange(1, 8)
        states = len(chain[0])
        labels = [dice.randrange(dice.choice([2, 3, 10])) for _ in range(states)]
        one: Chances = {}
        both: Chances = {}
        for start in range(states):
            found = counts_from(chain, labels, start, steps)
            for first, chance in found.items():
                one[first] = one.get(first, Fraction()) + chance / states
                for second, other in found.items():
                    count = first + second - 1
                    both[count] = both.get(count, Fraction()) + chance * other / states
        return steps + 1, one, both

    def test_bounds_hold_for_every_count(self) -> None:
        exceeds_half = 0
        for seed in range(CASES):
            plans, one, both = self.distributions(seed)
            chance = Fraction()
            for count in range(1, 2 * plans):
                chance += both.get(count, 0)
                bound = report.round_up(count, plans)
                self.assertLessEqual(chance, Fraction(count, plans), (seed, count))
                self.assertLessEqual(chance, Fraction(bound), (seed, count))
                exceeds_half += chance > Fraction(count, 2 * plans)
            self.assertEqual(chance, 1)
            chance = Fraction()
            for count in range(1, plans + 1):
                chance += one.get(count, 0)
                self.assertLessEqual(chance**2, Fraction(2 * count - 1, plans), (seed, count))
                bound = report.root_up(2 * count - 1, plans)
                self.assertLessEqual(chance, Fraction(bound), (seed, count))
        self.assertGreater(exceeds_half, 0, "half of the bound would be false")


def paired_text() -> str:
    """Returns README's report with the lines of pairs, which were computed by hand:
    44391 + 59205 - 1, 80091 + 67565 - 1 and 2 + 9 - 1 of 2 * 100001 - 1 plans."""
    lines = (
        "pair 0 1 seats low start 3/1 count 103595 of 200001 bound 1.035939641\n"
        "pair 0 1 gap high start -600/60000 count 147655 of 200001 bound 1.476535235\n"
        "pair 0 1 cut-edges low start 125/1 count 10 of 200001 bound 0.000100000\n"
    )
    return common.readme_report().replace("ends seats", lines + "ends seats", 1)


class LineTests(unittest.TestCase):
    def test_bounds_by_hand(self) -> None:
        """10/100001 is 0.0000999990000099.., and 3/100001 is the square of 0.0054771982.."""
        for count, of, bound in (
            (10, 100001, "0.000100000"), (1, 10**9 + 1, "0.000000001"), (1, 4, "0.250000000"),
            (7, 4, "1.750000000"),
        ):
            self.assertEqual(f"{report.round_up(count, of):f}", bound)
        found = Report.parse(common.readme_report())
        self.assertEqual([str(pair) for pair in found.pairs], paired_text().splitlines()[11:14])
        cut = [walk for walk in found.walks if walk.ask == "cut-edges:low"]
        self.assertEqual(cut[0].sharp_bound, Decimal("0.005477199"))
        for walk in found.walks:
            square = Fraction(2 * walk.count - 1, walk.of)
            self.assertGreaterEqual(Fraction(walk.sharp_bound) ** 2, square)
            self.assertLess((Fraction(walk.sharp_bound) - Fraction(1, 10**9)) ** 2, square)
            self.assertLess(walk.sharp_bound, walk.bound)

    def test_a_least_bound_is_written_with_nine_places(self) -> None:
        """Python would write 0.000000001 as 1E-9."""
        head = common.readme_report().splitlines()[:4]
        bound = f"{report.bound_of(1, 10**9 + 1):f}"
        lines = [*head, "walks 2 steps 1000000000 ends 0 hub-steps 1"]
        lines += [
            f"walk {number} moved 5 cut-edges low start 125/1 count 1 of 1000000001 bound {bound}"
            for number in (0, 1)
        ]
        lines += ["pair 0 1 cut-edges low start 125/1 count 1 of 2000000001 bound 0.000000001"]
        lines += ["end"]
        found = Report.parse("\n".join([*lines, ""]))
        self.assertEqual(str(found), "\n".join([*lines, ""]))
        page = exhibit.page([("", found)], exhibit.Options())
        self.assertIn("It has 3 bounds and p-values itself; the least is 0.000000001", page)
        self.assertNotIn("E-9", page)
        self.assertNotIn("E-9", found._repr_html_())

    def test_a_text_with_pairs_is_read_and_written_again(self) -> None:
        found = Report.parse(paired_text())
        self.assertTrue(found.has_pairs)
        self.assertEqual(str(found), paired_text())
        plain = Report.parse(common.readme_report())
        self.assertFalse(plain.has_pairs)
        self.assertEqual(found.pairs, plain.pairs)
        self.assertEqual(plain.pair_lines, ())

    def test_wrong_pairs_are_refused_at_their_line(self) -> None:
        text = paired_text()
        for old, new, number in (
            ("count 10 of 200001", "count 11 of 200001", 14),
            ("count 10 of 200001", "count 10 of 100001", 14),
            ("bound 0.000100000", "bound 0.000099999", 14),
            ("pair 0 1 gap", "pair 1 2 gap", 13),
            ("pair 0 1 gap high start -600/60000", "pair 0 1 gap high start -598/60000", 13),
            ("pair 0 1 seats low", "pair 0 1 seats high", 12),
            ("pair 0 1 cut-edges low start 125/1 count 10 of 200001 bound 0.000100000\n", "", 14),
        ):
            with self.subTest(new=new), self.assertRaises(district_audit.ReportRefused) as caught:
                Report.parse(text.replace(old, new, 1))
            self.assertEqual(caught.exception.number, number)

    def test_an_odd_walk_has_no_pair(self) -> None:
        lines = common.readme_report().replace("walks 2", "walks 3").splitlines()
        third = [line.replace("walk 1", "walk 2", 1) for line in lines if line[:6] == "walk 1"]
        place = next(at for at, line in enumerate(lines) if line.startswith("ends "))
        found = Report.parse("\n".join([*lines[:place], *third, *lines[place:], ""]))
        self.assertEqual({(pair.first, pair.second) for pair in found.pairs}, {(0, 1)})
        one = dataclasses.replace(found, walks=found.walks[:3])
        self.assertEqual(one.pairs, ())
        self.assertEqual(one.combine_pairs(), {})

    def test_several_pairs_are_combined_by_twice_their_mean(self) -> None:
        found = Report.parse(common.readme_report())
        self.assertEqual(found.combine_pairs()["cut-edges:low"], Decimal("0.000100000"))
        more = tuple(dataclasses.replace(walk, number=walk.number + 2) for walk in found.walks)
        four = dataclasses.replace(found, walks=found.walks + more)
        # Twice the mean of 10/100001 and 10/100001 is 20/100001 = 0.00019999800001999..
        self.assertEqual(four.combine_pairs()["cut-edges:low"], Decimal("0.000199999"))


class EffectTests(unittest.TestCase):
    def test_pairs_by_hand(self) -> None:
        """The count of a pair is small up to floor(200001/10000) = 20, which has a chance of at
        most 20/(0.05 * 100001) = 0.00399996000039.."""
        found = Report.parse(common.readme_report()).effect("0.0001", "0.05")
        one = found["cut-edges:low"]
        self.assertEqual(
            (one.pairs, one.pair_plans, one.pair_most, one.pair_outliers), (1, 200001, 20, 1)
        )
        self.assertEqual(one.pair_p, Decimal("0.003999961"))
        self.assertEqual(found["seats:low"].pair_p, 1)
        self.assertIn("has to be named before the run", str(one))

    def test_the_tail_of_two_pairs(self) -> None:
        """With b = 20/(0.05 * 100001), one pair of two or both: 2 b - b^2 = 0.0079839203..."""
        found = Report.parse(common.readme_report())
        more = tuple(
            dataclasses.replace(walk, number=walk.number + 2, count=walk.of) for walk in found.walks
        )
        setting = dataclasses.replace(found.setting, walks=4)
        four = dataclasses.replace(found, walks=found.walks + more, setting=setting)
        one = four.effect("0.0001", "0.05")["cut-edges:low"]
        chance = Fraction(20, 100001) * 20
        exact = 2 * chance - chance**2
        self.assertEqual((one.pairs, one.pair_outliers), (2, 1))
        assert one.pair_p is not None
        self.assertEqual(int(one.pair_p.scaleb(9)), math.ceil(exact * 10**9))

    def test_one_walk_has_no_pairs(self) -> None:
        found = Report.parse(common.readme_report())
        setting = dataclasses.replace(found.setting, walks=1)
        one = dataclasses.replace(found, walks=found.walks[:3], setting=setting)
        self.assertIsNone(one.effect("0.0001", "0.05")["cut-edges:low"].pair_p)


class ShownTests(unittest.TestCase):
    def test_exhibit_shows_pairs_and_counts_them(self) -> None:
        page = exhibit.page([("", Report.parse(paired_text()))], exhibit.Options())
        for words in (
            "walks 0 and 1", "10 of 200001", "Bound of a pair of walks", "--pairs yes",
            "It has 12 bounds and p-values itself; the least is 0.000100000",
        ):
            self.assertIn(words, page)
        plain = exhibit.page([("", Report.parse(common.readme_report()))], exhibit.Options())
        self.assertNotIn("Bound of a pair of walks", plain)
        self.assertIn("It has 9 bounds and p-values itself; the least is 0.006324524", plain)

    def test_a_weight_changes_what_a_page_says(self) -> None:
        """With a weight, a fraction of the plans is one of their chances, and compact plans are
        likely."""
        text = common.readme_report()
        place = text.index("walks 2")
        options = exhibit.Options(epsilon="0.0001", alpha="0.05")
        plain, weighted = (
            exhibit.page([("", Report.parse(text[:place] + line + text[place:]))], options)
            for line in ("", "cut-weight 32 of 64 pieces 7\n")
        )
        for page, is_weighted in ((plain, False), (weighted, True)):
            for words in (
                "of all legal plans, counted by their chances, that are most fragile",
                "with a chance of 32/64, and each further edge that it adds multiplies this chance",
            ):
                self.assertEqual(words in page, is_weighted, words)
            for words in ("of all legal plans that are most fragile", "no rule limits compactness"):
                self.assertEqual(words in page, not is_weighted, words)

    def test_picture_has_a_row_for_each_pair(self) -> None:
        rows = picture.pair_rows(Report.parse(paired_text()))
        self.assertEqual(rows[2].words, "10 of 200001, bound 0.000100000")
        self.assertEqual(picture.pair_rows(Report.parse(common.readme_report())), [])

    def test_no_picture_leaves_pairs_out(self) -> None:
        """Pictures of several reports, and of more than eight walks, had walks alone. The second
        pairs are walks with counts of all plans: 200001 of 200001, and 200001/100001 = 1.99999.."""
        found = Report.parse(paired_text())
        more = tuple(
            dataclasses.replace(walk, number=walk.number + add, count=walk.of)
            for add in (2, 4, 6, 8) for walk in found.walks
        )
        ten = dataclasses.replace(
            found, walks=found.walks + more, setting=dataclasses.replace(found.setting, walks=10)
        )
        row = picture.pair_rows(ten)[2]
        self.assertEqual(row.label, "cut-edges low, 5 pairs")
        self.assertEqual(row.words, "bounds 0.000100000 to 1.999990001")
        shown = dict.fromkeys(("seats", "gap", "cut-edges"), "0")
        words = [one.words for one in exhibit_figures.walk_rows(ten, shown)]
        self.assertIn("5 pairs: bounds 0.000100000 to 1.999990001", words)
        common.needs("matplotlib")
        for name, one, label, said in (
            ("A", found, "A: cut-edges low, walks 0 and 1", "10 of 200001, bound 0.000100000"),
            ("B", ten, "B: cut-edges low, 5 pairs", row.words),
        ):
            axes = picture.draw_named([(name, one)], "plan").axes[0]
            self.assertIn(label, [text.get_text() for text in axes.get_yticklabels()])
            self.assertIn(said, [text.get_text() for text in axes.texts])

    def test_frame_has_pairs(self) -> None:
        common.needs("pandas")
        frame = Report.parse(paired_text()).to_frame()
        pairs = frame[frame.test == "pair"]
        self.assertEqual(list(pairs.second_walk), [1, 1, 1])
        self.assertEqual(list(pairs.in_tail), [103595, 147655, 10])

    def test_one_walk_is_refused_as_the_program_does(self) -> None:
        words: common.Words = dict(common.WORDS, key=common.KEY, ask="gap:low", pairs=True)
        with self.assertRaises(district_audit.ValueRefused) as caught:
            arguments.test_words("run", words)
        self.assertEqual(caught.exception.line, "words: pairs need two walks")
        arguments.test_words("run", {**words, "walks": 2})


if __name__ == "__main__":
    unittest.main()
