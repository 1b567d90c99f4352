"""Tests of the page on an audit under several limits."""
import hashlib
import pathlib
import re
import shlex
import subprocess
import typing
import unittest
from decimal import Decimal

import common
from common import EXAMPLES, KEY, ProgramCase
from test_exhibit import Page, check_alone

import district_audit
from district_audit import LimitReports, Report, exhibit_custody
from district_audit.report import Pair, Walk

GRID = str(EXAMPLES / "data" / "grid.json")
MAP: common.Words = dict(pop="TOTPOP", first="DEM", second="REP", district="CD", slack=1000)


class PageOfLimits(ProgramCase):
    def audit(self, **words: common.Value) -> LimitReports:
        given: common.Words = {
            **MAP, "key": KEY, "walks": 2, "pairs": True, "steps": 200, "ends": 9,
            "hub_steps": 100, "ask": "gap:low,cut-edges:low", "program": self.program,
            "limits_from": "older plans", **words,
        }
        return district_audit.over_limits(GRID, **given)

    def page(self, found: LimitReports, **options: common.Value) -> Page:
        path = self.folder / "limits.html"
        found.exhibit(path, **options)
        return check_alone(self, path.read_text(encoding="utf-8"))

    def test_one_page_has_all_limits(self) -> None:
        """Two walks, a pair and a test of ends of two questions are 8 numbers of each limit."""
        found = self.audit(max_cut=[300, 140, 400_000])
        page = self.page(
            found, parties=("Blue", "Green"), graph=GRID, notes=["<i>A & b"], title="<i>T"
        )
        numbers = [
            *(one.bound for report in found.values() for one in report.walks),
            *(one.bound for report in found.values() for one in report.pairs),
            *(one.p for report in found.values() for one in report.ends),
        ]
        self.assertEqual(len(numbers), 24)
        least = min(numbers)
        for words in (
            "3 audits of this plan, which differ in one limit alone: max_cut=300, max_cut=140,"
            " max_cut=400000", "<i>A & b", "<i>T", "Table 1.", "older plans",
            "What may be concluded",
            f"all 24 bounds and p-values under all limits count: the least, {least:f}, times 24 is"
            f" {min(Decimal(1), 24 * least):f}", "(sensitivity)", "Is the efficiency gap",
        ):
            self.assertIn(words, page.text)
        rows = dict.fromkeys(found.names, "")
        for place, word in enumerate(page.words):
            rows[word] = rows.get(word, "") + " ".join(page.words[place + 2:place + 7]) + "\n"
        for name, report in found.items():
            self.assertEqual(page.words.count(name), 8, name)
            ones: typing.Tuple[typing.Union[Walk, Pair], ...] = (*report.walks, *report.pairs)
            for one in ones:
                self.assertIn(
                    f"{one.ask} {'-1.000 %' if one.ask == 'gap:low' else '125'} {one.start}"
                    f" {one.count} of {one.of} bound {one.bound:f}",
                    rows[name],
                )
        self.assertEqual(re.findall("Figure ([0-9]+)", page.text), ["1", "2"])
        self.assertIn(
            "".join(f"limit {name}\n{report}" for name, report in found.items()),
            "".join(page.words),
        )

    def test_the_announced_limit_decides(self) -> None:
        found = self.audit(max_cut=[300, 140])
        page = self.page(found, decides="max_cut=140 ends gap:low")
        self.assertIn("the legal plans under its own limit", page.text)
        value = next(one.p for one in found["max_cut=140"].ends if one.ask == "gap:low")
        for words in (
            f"the parallel test on gap:low, limit max_cut=140. It is {value}, and is not"
            " multiplied.", "has at most 140 cut edges", "no evidence by themselves",
        ):
            self.assertIn(words, page.text)
        self.assertNotIn("Bonferroni", page.text)
        self.assertEqual(page.words.count("max_cut=140 (announced limit)"), 8)
        self.assertEqual(page.words.count("max_cut=300 (sensitivity)"), 8)
        with self.assertRaisesRegex(ValueError, "a number of several reports"):
            self.page(found, decides="ends gap:low")

    def test_hashes_and_commands(self) -> None:
        found = self.audit(max_cut=[300, 140])
        page = self.page(found, decides="max_cut=140 ends gap:low")
        program = hashlib.sha256(pathlib.Path(self.program).read_bytes()).hexdigest()
        graph = pathlib.Path(GRID).read_bytes()
        for digest in (
            program, KEY, hashlib.sha256(graph).hexdigest(),
            *(hashlib.sha256(str(one).encode()).hexdigest() for one in found.values()),
        ):
            self.assertIn(digest, page.words)
        self.assertRegex(page.text, "proof of the program (proved|NOT PROVED)")
        printed = next(words for words in page.words if words.startswith("district-audit "))
        self.assertIn("have --max-cut 300 in the place of --max-cut 140", page.text)
        for name, limit in (("max_cut=140", "140"), ("max_cut=300", "300")):
            command = printed.replace("--max-cut 140", f"--max-cut {limit}")
            words = shlex.split(command.replace("\\\n", "").partition("<")[0])[1:]
            again = subprocess.run(
                [self.program, *words], input=graph, stdout=subprocess.PIPE, check=True
            )
            self.assertEqual(again.stdout.decode(), str(found[name]))

    def test_a_weight_and_a_study(self) -> None:
        """The manifest says which number was announced, also after the study was loaded."""
        found = self.audit(cut_weight=[32, 33.25, 64], ask="gap:low")
        found.to_files(self.folder / "study", decides="cut_weight=33.25 ends gap:low")
        loaded = district_audit.load_study(self.folder / "study.manifest.json")
        assert isinstance(loaded, LimitReports)
        page = self.page(loaded)
        for words in (
            "weight cut_weight=33.25. It is", "33.25/64", "names it, too", "differ in one weight",
            "all legal plans, drawn with the chances of its own weight", "under all other weights",
            "cut_weight=64: gap:low: no rule limits compactness",
        ):
            self.assertIn(words, page.text)
        self.assertNotIn("under its own limit", page.text)
        # The other weights limit compactness, and their reports have no warning.
        self.assertEqual(page.text.count("no rule limits compactness"), 1)
        self.assertEqual([len(one.warnings) for one in found.values()], [0, 0, 1])
        parsed = LimitReports(
            {name: Report.parse(str(report)) for name, report in found.items()}
        )
        self.assertIn("The manifest of this report is not there", self.page(parsed).text)
        manifest = self.folder / "study.manifest.json"
        self.assertIn("names it, too", self.page(parsed, manifest=manifest).text)

    def test_reports_that_do_not_belong_together(self) -> None:
        found = self.audit(max_cut=[300, 140], ask="gap:low")
        wrong: typing.Dict[str, common.Words] = {
            "two limits": {"slack": 1100}, "key": {"key": "ab" * 32}, "steps": {"steps": 201},
            "rule": {"region": "CD", "max_split": 6}, "question": {"ask": "gap:high"},
        }
        for name, words in wrong.items():
            other = self.audit(**{"max_cut": [200], "ask": "gap:low", **words})
            with self.subTest(name), self.assertRaisesRegex(ValueError, "more than one limit"):
                self.page(LimitReports([*found.items(), *other.items()]))
        slacks = self.audit(slack=[900, 1100], ask="gap:low")
        self.assertIn("slack=900, slack=1100", self.page(slacks).text)
        with self.assertRaisesRegex(ValueError, "needs a report"):
            self.page(LimitReports())

    def test_a_build_without_a_proof(self) -> None:
        """The program that is not proved, and a copy of the proved one with no file beside it."""
        found = self.audit(max_cut=[300, 140], ask="gap:low")
        text = f"district-audit: NOT PROVED: no proof\n{found['max_cut=140']}"
        unproved = LimitReports([*found.items(), ("max_cut=140", Report.parse(text))])
        with self.assertRaisesRegex(district_audit.NotProved, "not for a court"):
            self.page(unproved)
        copied = self.audit(max_cut=[300, 140], ask="gap:low", program=self.wrapper("exec PROGRAM"))
        page = self.page(copied)
        self.assertEqual(page.words.count(exhibit_custody.NOT_PROVED), 1)


if __name__ == "__main__":
    unittest.main()
