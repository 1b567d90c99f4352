"""Tests of what is done before and after a run: blind pilots, limits, and the power of ends."""
import contextlib
import io
import unittest
import warnings

import common
from common import EXAMPLES, ProgramCase, anything, readme_report

import district_audit
from district_audit import Report, own_limits
from district_audit.pilot import main

GRID = str(EXAMPLES / "data" / "grid.json")
MAP: common.Words = dict(pop="TOTPOP", first="DEM", second="REP", district="CD", slack=1000)
README_KEY = "2b7e151628aed2a6abf7158809cf4f3c762e7160f38b4da56a784d9045190cfe"


class PilotTests(ProgramCase):
    def test_moves_are_those_of_the_run_and_no_score_is_shown(self) -> None:
        """With README's key and steps the moves are README's, from its report."""
        found = district_audit.pilot(
            GRID, steps=100_000, key=README_KEY, announced=10**6, program=self.program, **MAP
        )
        self.assertEqual(found.moved, (5820, 5932))
        self.assertEqual((found.units, found.steps, len(found.changed)), (300, 100_000, 2))
        self.assertTrue(all(0 < changed <= 300 for changed in found.changed))
        self.assertAlmostEqual(found.announced_seconds, found.seconds * 10**6)
        said = str(found) + repr(found)
        for word in ("cut", "seats", "gap", "median", "125", "bound", "score"):
            self.assertNotIn(word, said)

    def test_units_changed_by_an_independent_count(self) -> None:
        found = district_audit.pilot(
            GRID, steps=5000, walks=1, key=README_KEY, program=self.program, **MAP
        )
        with district_audit.trace(
            GRID, steps=5000, thin=5000, key=README_KEY, program=self.program, **MAP
        ) as walked:
            plans = [dict(sample.assignment) for sample in walked]
        changed = sum(plans[0][unit] != plans[1][unit] for unit in plans[0])
        self.assertEqual(found.changed, (changed,))

    def test_the_time_is_that_of_the_processor(self) -> None:
        """A program that sleeps between takes no time, however busy the machine is."""
        slow = self.folder / "slow"
        slow.write_text(f'#!/bin/sh\nsleep 1\nexec {self.program} "$@"\n', encoding="utf-8")
        slow.chmod(0o755)
        found = district_audit.pilot(
            GRID, steps=1000, walks=1, program=str(slow), announced=1000, **MAP
        )
        self.assertLess(found.announced_seconds, 0.5)

    def test_questions_are_refused(self) -> None:
        wrong: list[common.Words] = [
            {"ask": "gap:low"}, {"scores": {"gap": "low"}}, {"elections": {}}, {"walks": 0},
            {"walks": "2"}, {"announced": 0}, {"announced": 2e9},
        ]
        for words in wrong:
            with self.subTest(words=words), self.assertRaises(district_audit.TypeRefused):
                district_audit.pilot(GRID, program=self.program, **{**MAP, **words})

    def test_the_command(self) -> None:
        words = [GRID, "--steps", "20000", "--program", self.program]
        for name, value in MAP.items():
            words += [f"--{name}", str(value)]
        out, err = io.StringIO(), io.StringIO()
        with contextlib.redirect_stdout(out), contextlib.redirect_stderr(err):
            self.assertEqual(main(words), 0)
            self.assertEqual(main([*words, "--max-cut"]), 1)
            self.assertEqual(main([*words, "--max-cut", "10"]), 2)
            self.assertEqual(main([*words, "--ask", "gap:low"]), 1)
        self.assertRegex(out.getvalue(), r"walk 1: \d+ of 20000 steps changed the plan")
        self.assertIn("125 cut edges, more than 10", err.getvalue())


class EndsTests(ProgramCase):
    def test_ranks_are_those_of_the_report(self) -> None:
        """README's report has the ranks 54, 69 and 1 among 99 ends and the enacted plan."""
        found = district_audit.compare_ends(
            GRID, ends=99, hub_steps=10_000, walks=2, steps=100_000, key=README_KEY,
            ask="seats:low,gap:high,cut-edges:low", program=self.program, **MAP,
        )
        ranks = {one.ask: one.rank for one in Report.parse(readme_report()).ends}
        self.assertEqual({one.ask: one.rank for one in found.asks}, ranks)
        self.assertTrue(all(one.more + one.equal + one.less == 99 for one in found.asks))
        seats = found.asks[0]
        self.assertGreater(seats.equal, 0, "seats mostly tie")
        self.assertEqual(len(found.changed), 99)
        self.assertIn("rank 54 of 100", str(found))


class LimitTests(ProgramCase):
    """The example has 125 cut edges."""

    def audit(self, **words: common.Value) -> list[str]:
        """Returns the warnings of a run."""
        with warnings.catch_warnings(record=True) as caught:
            warnings.simplefilter("always")
            district_audit.run(
                GRID, key=README_KEY, steps=9, ask="gap:low", program=self.program,
                **{**MAP, **words},
            )
        kind = district_audit.warnings.LimitAtOwnNumber
        return [str(one.message) for one in caught if issubclass(one.category, kind)]

    def test_a_limit_at_the_own_number_warns(self) -> None:
        for limit, count in ((125, 1), (137, 1), (138, 0), (400_000, 0)):
            with self.subTest(limit=limit):
                self.assertEqual(len(self.audit(max_cut=limit)), count)
        said = self.audit(max_cut=125)[0]
        self.assertIn("max_cut=125, and the enacted plan has 125 cut edges", said)
        self.assertEqual(self.audit(max_cut=125, limits_from="law"), [])

    def test_prepare_warns_too(self) -> None:
        """The counties of groups.json have two splits in all."""
        words: common.Words = dict(
            population="pop", first="a", second="b", district="d", region="county",
        )
        kind = district_audit.warnings.LimitAtOwnNumber
        for limit, count in ((2, 1), (3, 0)):
            with warnings.catch_warnings():
                warnings.simplefilter("ignore")
                found = district_audit.prepare(
                    str(EXAMPLES / "data" / "groups.json"), max_splits=limit, **words
                )
            self.assertEqual(sum(isinstance(one, kind) for one in found.warnings), count, limit)

    def test_where_limits_come_from_is_kept(self) -> None:
        report = district_audit.run(
            GRID, key=README_KEY, steps=9, ask="gap:low", program=self.program, max_cut=125,
            limits_from="law of 2011", **MAP,
        )
        assert report.audited is not None
        self.assertEqual(report.audited.limits_from, "law of 2011")
        for wrong in ("", " ", True, 7):
            with self.subTest(wrong=wrong), self.assertRaises(district_audit.TypeRefused):
                self.audit(max_cut=125, limits_from=wrong)

    def test_own_numbers_are_facts_of_a_check(self) -> None:
        """examples/data/groups.json has two split counties, each in two districts (the guide)."""
        found = district_audit.check(
            str(EXAMPLES / "data" / "groups.json"), pop="pop", first="a", second="b",
            district="d", region="county", group="bvap", group_of="vap", program=self.program,
        ).own_numbers
        for name, number in (
            ("max_split", 2), ("max_splits", 2), ("max_split_regions", 2), ("group_districts", 2),
        ):
            self.assertEqual(found[name], number, name)

    def test_least_numbers(self) -> None:
        own = {"max_cut": 0, "max_splits": 3, "group_districts": 2}
        for named, count in (
            ({"max_cut": 0, "max_splits": 4}, 1), ({"max_splits": 3}, 1),
            ({"group_districts": 2}, 1), ({"group_districts": 1}, 0),
        ):
            with self.subTest(named=named):
                self.assertEqual(len(own_limits.limits_at_own(anything(named), own)), count)

    def test_over_limits(self) -> None:
        words: common.Words = dict(
            MAP, key=README_KEY, steps=2000, ask="gap:low", program=self.program,
            limits_from="older plans",
        )
        found = district_audit.over_limits(GRID, max_cut=[300, 140, 400_000], **words)
        self.assertEqual(found.names, ["max_cut=300", "max_cut=140", "max_cut=400000"])
        for report, limit in zip(found.values(), (300, 140, None)):
            own: common.Words = {**words, "max_cut": limit or 400_000}
            alone = district_audit.run(GRID, **own)
            self.assertEqual(str(report), str(alone))
            self.assertEqual(report.rules.max_cut, limit)
        path = self.folder / "exhibit.html"
        found["max_cut=140"].exhibit(str(path))
        self.assertIn("on limit max_cut=140, one of 3 limits", path.read_text(encoding="utf-8"))

    def test_a_limit_below_the_plan_is_named(self) -> None:
        words: common.Words = dict(MAP, key=README_KEY, ask="gap:low", program=self.program)
        with self.assertRaises(district_audit.GraphRefused) as caught:
            district_audit.over_limits(GRID, max_cut=[300, 100], **words)
        self.assertEqual(str(caught.exception)[:13], "max_cut=100: ")
        wrong: list[common.Words] = [
            {}, {"max_cut": []}, {"max_cut": [200], "slack": [500, 1000]},
        ]
        for limits in wrong:
            with self.subTest(limits=limits), self.assertRaises(district_audit.TypeRefused):
                district_audit.over_limits(GRID, **{**words, **limits})
        votes = {"GOV": ("DEM", "REP"), "SEN": ("REP", "DEM")}
        columns: common.Words = dict(population="TOTPOP", district="CD")
        prepared = district_audit.prepare(GRID, elections=votes, **columns)
        shared: common.Words = dict(key=README_KEY, ask="gap:low", max_cut=[300, 400])
        calls: list[tuple[object, common.Words]] = [
            (GRID, {**columns, "elections": votes}), (prepared, {}),
        ]
        for graph, more in calls:
            with self.assertRaises(district_audit.TypeRefused) as refused:
                district_audit.over_limits(graph, **{**shared, **more})
            self.assertIn('call it for each, with first="DEM", second="REP" for GOV or first="REP"',
                          str(refused.exception))


if __name__ == "__main__":
    unittest.main()
