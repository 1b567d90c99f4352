"""Tests of the choice of a weight, with the plain model of the auditor as the program."""
import json
import statistics
import sys
import unittest
from fractions import Fraction

import common
from common import FolderCase, TOP

import district_audit
from district_audit import Report, arguments, neutral, report, weighing

SIDE = 6
# A program that answers as the plain model of tests/oracle does.
PROGRAM = f"""#!{sys.executable}
import sys
sys.path.insert(0, {str(TOP)!r})
from tests.oracle import model
words, data = sys.argv[1:], sys.stdin.buffer.read()
if words == ["--version"]:
    sys.exit(print("district-audit {district_audit.__version__}"))
try:
    job = model.job_of(model.Setting(words), data)
    text = model.ask_trace(job) if words[0] == "trace" else model.run(job, [None, None]).out
except model.Refused as why:
    sys.stderr.write(str(why.args[-1]))
    sys.exit(2)
sys.stdout.write(text)
"""
WORDS: common.Words = dict(pop="people", first="a", second="b", district="d", slack=2000)


def grid(columns: bool, votes: int) -> bytes:
    """Returns a square grid in three districts, columns or rows of it, with some votes."""
    nodes = [
        {"id": unit, "people": 1, "a": unit * votes % 7, "b": unit * votes % 5 + 1,
         "d": (unit % SIDE if columns else unit // SIDE) // 2}
        for unit in range(SIDE**2)
    ]
    adjacency = [
        [
            {"id": other}
            for other in (unit - SIDE, unit + SIDE, unit - 1, unit + 1)
            if 0 <= other < SIDE**2 and (abs(other - unit) > 1 or other // SIDE == unit // SIDE)
        ]
        for unit in range(SIDE**2)
    ]
    return json.dumps(
        {"directed": False, "multigraph": False, "graph": [], "nodes": nodes,
         "adjacency": adjacency}
    ).encode()


class NeutralTests(unittest.TestCase):
    def test_plans_are_contiguous_and_within_bounds(self) -> None:
        neighbors = {
            unit: [other for other in (unit - 5, unit + 5, unit - 1, unit + 1)
                   if 0 <= other < 25 and (abs(other - unit) > 1 or other // 5 == unit // 5)]
            for unit in range(25)
        }
        people = {unit: 1 + unit % 3 for unit in range(25)}
        whole = neutral.Map(neighbors, people, 9, 15)
        drawn = neutral.neutral_plans(whole, 4, "seed")
        plans = [next(drawn) for _ in range(10)]
        self.assertGreater(len({tuple(sorted(plan.items())) for plan in plans}), 5)
        for plan in plans:
            self.assertEqual(set(plan.values()), {1, 2, 3, 4})
            for district in range(1, 5):
                units = {unit for unit, one in plan.items() if one == district}
                self.assertTrue(9 <= sum(people[unit] for unit in units) <= 15)
                seen = [min(units)]
                for unit in seen:
                    seen += [one for one in neighbors[unit] if one in units and one not in seen]
                self.assertEqual(set(seen), units)
        again = neutral.neutral_plans(whole, 4, "seed")
        self.assertEqual([next(again) for _ in range(10)], plans)

    def test_no_plan_is_an_error(self) -> None:
        whole = neutral.Map({0: [1], 1: [0], 2: []}, {0: 1, 1: 1, 2: 1}, 1, 2)
        with self.assertRaisesRegex(ValueError, "no neutral plan"):
            next(neutral.neutral_plans(whole, 2, "seed"))


class ChoiceTests(FolderCase):
    def setUp(self) -> None:
        super().setUp()
        path = self.folder / "model"
        path.write_text(PROGRAM, encoding="utf-8")
        path.chmod(0o755)
        self.program = str(path)

    def choose(self, graph: bytes) -> district_audit.WeightChoice:
        return district_audit.choose_weight(
            graph, neutral=4, steps=2048, program=self.program, **WORDS
        )

    def test_neither_the_enacted_plan_nor_votes_are_looked_at(self) -> None:
        found = self.choose(grid(True, 3))
        other = self.choose(grid(False, 5))
        self.assertEqual(found.plans, other.plans)
        self.assertEqual(found.rows(), other.rows())
        self.assertEqual(found.announcement, other.announcement)
        medians = [band.median for band in found.bands]
        self.assertGreater(medians[0], medians[-1], "a lower weight has fewer cut edges")
        self.assertEqual(found.bands[0].weight, 64)
        self.assertEqual(found.band.inside, max(band.inside for band in found.bands))
        self.assertIn(f"--cut-weight {found.weight}: ", found.announcement)
        self.assertIn("inside: of 4 plans", str(found))
        after = found.band.agree_after
        said = "Walks of 2048 steps" if after is None else f"--hub-steps is at least {after}"
        self.assertIn(said, found.announcement)
        for row, band in zip(found.rows(), found.bands):
            inside = sum(
                all(one.percentile(1) <= cut <= one.percentile(99)
                    for one in (band.compact, band.sprawling))
                for cut in found.plans
            )
            self.assertEqual((row[0], row[1], row[4]), (band.weight, band.median, inside))

    def test_a_map_of_several_elections(self) -> None:
        """GUIDE prepares its map with elections, and chooses a weight for it."""
        prepared = district_audit.prepare(
            grid(True, 3), population="people", district="d", slack=2000,
            elections={"one": ("a", "b"), "two": ("b", "a")},
        )
        found = district_audit.choose_weight(
            prepared, neutral=4, steps=2048, program=self.program
        )
        wanted = self.choose(grid(True, 3))
        self.assertEqual((found.plans, found.rows()), (wanted.plans, wanted.rows()))

    def test_no_weight_is_announced_that_makes_no_plan_ordinary(self) -> None:
        walked = weighing.Walked((90,) * 64, 9, 9, {})
        bands = [weighing.Band(weight, walked, walked, 0, 6400) for weight in (64, 33)]
        found = district_audit.WeightChoice(33, (40, 50), tuple(bands), "older plans", 36)
        self.assertIn("No weight was found", str(found))
        self.assertNotIn("--cut-weight", str(found))

    def test_refusals(self) -> None:
        wrong: list[common.Words] = [
            {"ask": "gap:low"}, {"cut_weight": 33}, {"assignment": {0: 1}},
        ]
        for words in wrong:
            with self.subTest(words=words), self.assertRaises(district_audit.TypeRefused):
                district_audit.choose_weight(grid(True, 3), **{**WORDS, **words})
        with self.assertRaises(ValueError):
            district_audit.choose_weight(grid(True, 3), steps=100, **WORDS)

    def test_a_weighted_report_is_read(self) -> None:
        """The line of a weight, and the exhibit's words on it, from the plain model's report."""
        found = district_audit.run(
            grid(True, 3), key=common.KEY, ask="gap:low,cut-edges:low", walks=2, steps=50,
            pairs=True, cut_weight=Fraction(133, 4), program=self.program, **WORDS,
        )
        # 36 units and 3 districts: 108 * 64^9 is below 2^64, and 108 * 64^10 is not.
        self.assertEqual((found.rules.cut_weight, found.rules.pieces), (Fraction(133, 4), 8))
        self.assertIn("cut-weight 33.25 of 64 pieces 8\n", str(found))
        self.assertEqual(str(Report.parse(str(found))), str(found))
        self.assertTrue(found.has_pairs)
        path = self.folder / "exhibit.html"
        found.exhibit(str(path))
        page = path.read_text(encoding="utf-8")
        self.assertIn("proportional to 33.25/64 to the power of its number of cut edges", page)
        self.assertIn("--cut-weight 33.25", page)
        for old, new in (
            ("33.25 of 64", "64 of 64"), ("33.25", "33.250"), ("33.25", "33.0"),
            ("pieces 8", "pieces 9"),
        ):
            with self.subTest(new=new), self.assertRaises(district_audit.ReportRefused):
                Report.parse(str(found).replace(old, new, 1))


class WeightTests(unittest.TestCase):
    def test_forms_of_a_weight(self) -> None:
        for value, text in (
            (33, 33), (33.0, 33), (33.25, "33.25"), (Fraction(67, 2), "33.5"), ("33.75", "33.75"),
        ):
            self.assertEqual(arguments.weight_of(value), text)
        words: common.Words = dict(common.WORDS, key=common.KEY, ask="gap:low")
        wrong: list[common.Value] = [0, 65, 33.1, "33.0", "033", "x", True, -1, float("nan"), 64.25]
        for one in wrong:
            with self.subTest(one=one), self.assertRaises(district_audit.WordsRefused) as caught:
                given = arguments.weight_of(one)
                arguments.test_words("run", {**words, "cut_weight": given})
            self.assertEqual(caught.exception.line, "words: bad value for --cut-weight")

    def test_pieces(self) -> None:
        """2^64 / 64^(m+1) is 2^(58-6m): up to 2^52 pairs have one piece, up to 2^16 have seven."""
        for pairs, pieces in ((2**16, 7), (2**16 + 1, 6), (2**10, 8), (2**22, 6), (2**52, 1)):
            self.assertEqual(report.pieces_of(pairs, 1), pieces)

    def test_agreement_of_starts(self) -> None:
        """Both walks have 10 and 12 in turn; one begins far away, and comes after an eighth."""
        near = weighing.Walked((10, 12) * 32, 9, 9, {})
        far = weighing.Walked((90,) * 8 + (10, 12) * 28, 9, 9, {})
        self.assertEqual(statistics.pstdev(near.later), 1)
        band = weighing.Band(33, near, far, 0, 6400)
        self.assertEqual(band.agree_after, 800)
        away = weighing.Walked((90,) * 64, 9, 9, {})
        self.assertIsNone(weighing.Band(33, near, away, 0, 6400).agree_after)


if __name__ == "__main__":
    unittest.main()
