"""Studies: nothing of a question is lost on the way through files."""
from __future__ import annotations

import csv
import dataclasses
import json
import os
import pathlib
import unittest
import unittest.mock
import warnings

import common
from common import anything, readme_report
from test_exhibit import Page, page_of
import district_audit
from district_audit import (
    Report,
    arguments,
    custody,
    deciding,
    exhibit,
    exhibit_counting,
    exhibit_custody,
    study,
)
from district_audit.graphs import Label

COLUMNS: common.Words = dict(population="TOTPOP", district="CD", slack=1000)
ELECTIONS = {"GOV 18": ("DEM", "REP"), "SEN/16": ("REP", "DEM"), "manifest.json": ("DEM", "TOTPOP")}
ASKS = "seats:low,gap:high,cut-edges:low"


def page_text(path: pathlib.Path) -> str:
    return Page(path.read_text(encoding="utf-8")).text


class Studies(common.ProgramCase):
    """Audits of the real program that leave a study."""

    def audit(self, **words: common.Value) -> district_audit.NamedReports:
        """Audits three elections with 21 numbers each, 7 of them on cut edges, and the least 0.005.
        """
        given: common.Words = dict(
            COLUMNS, elections=ELECTIONS, key=common.KEY, ask=ASKS, walks=6, steps=40, ends=199,
            hub_steps=60, program=self.program,
        )
        given["graph"] = common.EXAMPLES / "data" / "grid.json"
        found = district_audit.audit_to_file(self.folder / "report", **{**given, **words})
        assert isinstance(found, district_audit.NamedReports)
        return found

    def exhibit(self, report: Report, **options: common.Value) -> str:
        path = self.folder / "exhibit.html"
        report.exhibit(path, **options)
        return page_text(path)

    def test_the_product_is_that_of_all_elections_after_a_file(self) -> None:
        """A report in memory counted 49 numbers, and the same report from its file only 21: 3 times
        14 on votes, and the 7 on cut edges once.
        """
        reports = self.audit()
        wanted = "0.005000000 times 49 is 0.245000000"
        self.assertIn(wanted, self.exhibit(reports["GOV 18"]))
        loaded = Report.load(self.folder / "report.GOV_18")
        self.assertIn(wanted, self.exhibit(loaded))
        parsed = Report.parse((self.folder / "report.GOV_18").read_text(encoding="utf-8"))
        manifest = self.folder / "report.manifest.json"
        self.assertIn(wanted, self.exhibit(parsed, manifest=manifest))
        text = self.exhibit(parsed)
        self.assertNotIn("times 21", text)
        self.assertNotIn(" times 49", text)
        self.assertIn("The manifest of this report is not there.", text)

    def test_the_page_of_a_file_is_that_of_the_report_in_memory(self) -> None:
        for name, report in self.audit().items():
            file = {"GOV 18": "GOV_18", "SEN/16": "SEN_16", "manifest.json": "manifest.json_"}[name]
            loaded = Report.load(self.folder / f"report.{file}")
            self.assertEqual(loaded, report)
            self.assertEqual(loaded.batch, report.batch)
            pages = []
            for one in (report, loaded):
                one.exhibit(self.folder / "page.html")
                pages.append((self.folder / "page.html").read_bytes())
            self.assertEqual(*pages)

    def test_all_reports_of_a_study_are_found_again(self) -> None:
        reports = self.audit()
        found = district_audit.load_study(self.folder / "report.manifest.json")
        self.assertEqual(type(found), district_audit.ElectionReports)
        self.assertEqual(list(found), list(reports))
        checked = district_audit.verify(
            self.folder / "report.manifest.json", common.EXAMPLES / "data" / "grid.json",
            program=self.program,
        )
        self.assertEqual(sum(one.what == "report" for one in checked), 3)
        self.assertTrue(all(one.agrees is not False for one in checked), checked)
        (self.folder / "report.SEN_16").unlink()
        with self.assertRaises(FileNotFoundError):
            district_audit.load_study(self.folder / "report.manifest.json")

    def test_an_audit_is_written_after_it_was_made(self) -> None:
        reports = self.audit()
        kept = (self.folder / "report.manifest.json").read_bytes()
        reports.to_files(self.folder / "report")
        self.assertEqual((self.folder / "report.manifest.json").read_bytes(), kept)
        with self.assertRaisesRegex(ValueError, "all reports of a call"):
            reports["GOV 18"].to_files(self.folder / "one")
        with self.assertRaisesRegex(ValueError, "read from a text"):
            Report.parse(readme_report()).to_files(self.folder / "one")

    def test_the_announced_number_stands_by_itself(self) -> None:
        reports = self.audit(decides="SEN/16 ends seats:low")
        value = next(one.p for one in reports["SEN/16"].ends if one.ask == "seats:low")
        loaded = Report.load(self.folder / "report.SEN_16")
        text = self.exhibit(loaded)
        self.assertIn(
            "the p-value of the parallel test on seats:low, election SEN/16. It is"
            f" {value}, and is not multiplied. The manifest, which was written with the run, names"
            " it, too.", text,
        )
        self.assertNotIn("Bonferroni", text)
        other = self.exhibit(Report.load(self.folder / "report.GOV_18"))
        self.assertIn("no number on this page counts by itself", other)
        self.assertNotIn("Bonferroni", other)
        with self.assertRaisesRegex(ValueError, "written with the run"):
            self.exhibit(loaded, decides="ends gap:high")

    def test_the_announced_number_is_known_in_memory(self) -> None:
        """Pages of the reports that the audit answered counted all numbers, and took another."""
        reports = self.audit(decides="SEN/16 ends seats:low")
        for name, file in (("SEN/16", "SEN_16"), ("GOV 18", "GOV_18")):
            loaded = Report.load(self.folder / f"report.{file}")
            self.assertEqual(self.exhibit(reports[name]), self.exhibit(loaded))
        self.assertIn("and is not multiplied. The manifest", self.exhibit(reports["SEN/16"]))
        with self.assertRaisesRegex(ValueError, "written with the run"):
            self.exhibit(reports["SEN/16"], decides="ends gap:high")
        report = district_audit.run(
            common.EXAMPLES / "data" / "grid.json", **COLUMNS, first="DEM", second="REP",
            key=common.KEY, ask="gap:high", walks=2, steps=50, program=self.program,
        )
        report.to_files(self.folder / "made", decides="walk 1 gap:high")
        self.assertIn("the bound of the outlier walk 1 on gap:high", self.exhibit(report))

    def test_a_wrong_name_is_told_before_the_walk(self) -> None:
        """The name was looked for after the audit, which was lost then."""
        wrong = ("ends seats:low", "SEN/16 ends seats:lo", "SEN/16 serial seats:low", "SEN", "")
        with unittest.mock.patch("district_audit.calls.run") as run:
            with unittest.mock.patch("district_audit.calls.plans") as plans:
                for words in wrong:
                    with self.assertRaisesRegex(ValueError, "decides="):
                        self.audit(decides=words)
                for words in ("ends gap:high", "one ends gap:low", "one walk 0 gap:high"):
                    with self.assertRaisesRegex(ValueError, "decides="):
                        district_audit.audit_to_file(
                            self.folder / "p", b"{}", table={"one": {}}, ask="gap:high", ends=9,
                            walks=0, decides=words, program=self.program,
                        )
        run.assert_not_called()
        plans.assert_not_called()

    def test_names_are_known_before_the_walk(self) -> None:
        """Those that a report has are those that its arguments give."""
        words: list[common.Words] = [
            dict(walks=5, ask="gap:high,seats:low", pairs=True, ends=2),
            dict(walks="1", ask=["gap:high"], pairs=False, ends=3, stop=1),
            dict(walks=2, ask="gap:high", pairs="yes", steps=63, serial=True),
            dict(scores={"gap": ["low", "high"]}, ends=1),
        ]
        for given in words:
            report = district_audit.make(
                **anything({
                    "size": 1, "key": common.KEY, "steps": 50, **given, "program": self.program,
                })
            )
            named = arguments.plain_words("make", given)
            self.assertEqual(
                sorted(deciding.names_of_numbers(named)), sorted(deciding.numbers_by_name(report))
            )

    def test_names_of_numbers(self) -> None:
        report = next(iter(self.audit().values()))
        text = self.exhibit(report, decides="walk 3 gap:high")
        self.assertIn("the bound of the outlier walk 3 on gap:high, election GOV 18", text)
        self.assertIn("said by the makers of this page, and by no manifest", text)
        for wrong in ("ends seats:high", "walk seats:low", "walk 6 seats:low", "seats:low", ""):
            with self.assertRaisesRegex(ValueError, '"walk 0 seats:low"'):
                self.exhibit(report, decides=wrong)

    def test_plans_have_one_manifest(self) -> None:
        graph = common.EXAMPLES / "data" / "grid.json"
        root = common.example("grid.json")
        same = {node["id"]: node["CD"] for node in root["nodes"]}
        words: common.Words = dict(
            COLUMNS, first="DEM", second="REP", key=common.KEY, ask="gap:high", walks=1, steps=50,
            table={"one": same, "two": same}, program=self.program,
        )
        reports = anything(district_audit.audit_to_file(self.folder / "p", graph, **words))
        manifest = self.folder / "p.manifest.json"
        found = district_audit.load_study(manifest)
        self.assertEqual((found.names, list(found)), (["CD", "one", "two"], list(reports)))
        self.assertEqual(type(found), district_audit.PlanReports)
        for pairs in (reports, found):
            district_audit.exhibit_plans(self.folder / "page.html", pairs, graph=graph)
            self.assertIn("times 3 is", page_text(self.folder / "page.html"))
        checked = district_audit.verify(manifest, program=self.program)
        self.assertEqual([one.what for one in checked if one.agrees is False], [])
        self.assertEqual(sum(one.what == "graph" and bool(one.agrees) for one in checked), 1)
        text = (self.folder / "p").read_text(encoding="utf-8")
        parsed = Report.parse_plans(text)
        district_audit.exhibit_plans(self.folder / "page.html", parsed)
        self.assertNotIn("times 3 is", page_text(self.folder / "page.html"))
        district_audit.exhibit_plans(self.folder / "page.html", parsed, manifest=manifest)
        self.assertIn("times 3 is", page_text(self.folder / "page.html"))

    def test_a_manifest_of_another_report(self) -> None:
        self.audit()
        manifest = self.folder / "report.manifest.json"
        with self.assertRaisesRegex(district_audit.ManifestRefused, "does not name this report"):
            Report.parse(readme_report()).exhibit(self.folder / "x.html", manifest=manifest)
        (self.folder / "report.GOV_18").write_text(readme_report(), encoding="utf-8")
        with self.assertRaisesRegex(district_audit.ManifestRefused, "other bytes"):
            district_audit.load_study(manifest)
        self.assertIsNone(Report.load(self.folder / "report.GOV_18").batch)

    def test_the_folder_is_probed_before_the_walk(self) -> None:
        with unittest.mock.patch("district_audit.calls.run") as run:
            with self.assertRaises(FileNotFoundError):
                district_audit.audit_to_file(self.folder / "no" / "report", b"{}")
        run.assert_not_called()

    def test_elections_and_a_table_are_refused_together(self) -> None:
        with self.assertRaises(district_audit.TypeRefused) as caught:
            self.audit(table={"one": {}})
        for said in ("elections are given too", 'first="REP", second="DEM" for SEN/16', "decides"):
            self.assertIn(said, str(caught.exception))

    def test_a_graph_in_memory_is_prepared_once_for_all_elections(self) -> None:
        """The manifest had the preparation of the first election alone, and a graph for each."""
        root = common.example("grid.json")
        for node in root["nodes"]:
            node["REP"], node["TOTPOP"] = str(node["REP"]), node["TOTPOP"] + 0.25
        elections = {"GOV": ("DEM", "REP"), "SEN": ("REP", "DEM"), "PEO": ("DEM", "TOTPOP")}
        with warnings.catch_warnings(record=True) as caught:
            warnings.simplefilter("always")
            reports = self.audit(graph=root, elections=elections, numbers="nearest")
        said = [str(one.message) for one in caught if "no rule limits" not in str(one.message)]
        self.assertEqual(len(said), len(set(said)), said)
        manifest = study.load_manifest(self.folder / "report.manifest.json")
        made = manifest.preparation
        assert made is not None
        wanted = {name: list(both) for name, both in elections.items()}
        self.assertEqual(made.arguments, {
            "population": "TOTPOP", "district": "CD", "slack": 1000, "numbers": "nearest",
            "elections": wanted,
        })
        self.assertEqual({entry.graph.name for entry in manifest.reports}, {"report.graph.json"})
        kinds = {edit.kind.split(":")[0] for edit in made.edits if edit.count}
        self.assertEqual(kinds, {"column REP", "column TOTPOP"})
        given: common.Words = dict(
            COLUMNS, key=common.KEY, ask=ASKS, walks=6, steps=40, ends=199, hub_steps=60,
            numbers="nearest", program=self.program,
        )
        for name, (first, second) in elections.items():
            with warnings.catch_warnings():
                warnings.simplefilter("ignore")
                alone = district_audit.run(root, first=first, second=second, **given)
            self.assertEqual(str(reports[name]), str(alone))
        checked = district_audit.verify(
            self.folder / "report.manifest.json", program=self.program
        )
        self.assertEqual([one for one in checked if one.agrees is False], [])

    def test_a_graph_in_memory_is_prepared_once_for_all_limits(self) -> None:
        words: common.Words = dict(
            COLUMNS, first="DEM", second="REP", key=common.KEY, ask="gap:high", steps=40,
            program=self.program, limits_from="older plans",
        )
        found = district_audit.over_limits(
            common.example("grid.json"), max_cut=[300, 200], **words
        )
        found.to_files(self.folder / "limits")
        made = study.load_manifest(self.folder / "limits.manifest.json").preparation
        assert made is not None
        self.assertNotIn("max_cut", made.arguments)
        one = found["max_cut=300"]
        assert one.audited is not None and one.audited.call is not None
        call = dataclasses.replace(one.audited.call, custody=None)
        two = dataclasses.replace(found["max_cut=200"],
                                  audited=dataclasses.replace(one.audited, call=call))
        with self.assertRaisesRegex(ValueError, "several preparations"):
            study.write_study(self.folder / "x", [("max_cut=300", one), ("max_cut=200", two)])


class Whole(common.FolderCase):
    """Files that are written whole, or not at all."""

    def test_an_interrupted_write_leaves_the_old_file(self) -> None:
        path = self.folder / "report"
        path.write_bytes(b"old")
        for name in ("fsync", "replace"):
            with unittest.mock.patch(f"os.{name}", side_effect=KeyboardInterrupt):
                with self.assertRaises(KeyboardInterrupt):
                    custody.write_whole(path, b"new")
            self.assertEqual(path.read_bytes(), b"old")
            self.assertEqual([one.name for one in self.folder.iterdir()], ["report"])
        custody.write_whole(path, b"new")
        self.assertEqual(path.read_bytes(), b"new")
        self.assertEqual([one.name for one in self.folder.iterdir()], ["report"])

    def test_an_interrupted_exhibit_leaves_the_old_page(self) -> None:
        path = self.folder / "page.html"
        report = Report.parse(readme_report())
        report.exhibit(path, title="old")
        before = path.read_bytes()
        with unittest.mock.patch("os.fsync", side_effect=OSError("full")):
            with self.assertRaises(OSError):
                report.exhibit(path, title="new")
        self.assertEqual(path.read_bytes(), before)

    def test_permissions_are_those_of_any_new_file(self) -> None:
        custody.write_whole(self.folder / "new", b"")
        (self.folder / "plain").write_bytes(b"")
        modes = {(self.folder / name).stat().st_mode for name in ("new", "plain")}
        self.assertEqual(len(modes), 1)
        os.chmod(self.folder / "new", 0o600)
        custody.write_whole(self.folder / "new", b"")
        self.assertEqual((self.folder / "new").stat().st_mode & 0o777, 0o600)


@dataclasses.dataclass
class OneChange:
    """A change as `prepare` lists it."""

    what: str
    units: list[Label]
    moved: float = 0
    is_of_values: bool = True


class Records(common.FolderCase):
    """The record of a preparation, and what a manifest and its table keep of it."""

    def record(self) -> custody.Custody:
        raw = self.folder / "precincts.shp"
        for end in (".shp", ".dbf", ".prj"):
            raw.with_suffix(end).write_bytes(end.encode())
        units: list[Label] = [f"unit {number}" for number in range(150)]
        arguments = dict(
            population="TOTPOP", missing="zero", join=[("a", "b")], keep=(), show_all=False,
            assignment={str(number): "1" for number in range(500)},
        )
        changes = [OneChange("missing became 0", units), OneChange("one part", [], 0, False)]
        return custody.record(raw, arguments, changes, [("TooFew", "too few people")])

    def test_a_record_comes_back(self) -> None:
        from district_audit import manifest

        kept = self.record()
        self.assertEqual(
            [file.name for file in kept.files],
            ["precincts.shp", "precincts.dbf", "precincts.prj"],
        )
        self.assertEqual(set(kept.arguments), {"population", "missing", "join", "assignment"})
        self.assertEqual(kept.arguments["assignment"]["entries"], 500)
        value = json.loads(json.dumps(manifest.write_custody(kept)))
        self.assertEqual(len(value["changes"][0]["first"]), 100)
        self.assertEqual(value["changes"][0]["count"], 150)
        back = manifest.read_custody(value)
        self.assertEqual((back.files, back.warnings), (kept.files, kept.warnings))
        self.assertEqual(back.edits[0].units, kept.edits[0].units[:100])
        value["changes"][0]["first"] = value["changes"][0]["first"][1:]
        with self.assertRaises(manifest.ManifestRefused):
            manifest.read_custody(value)

    def test_the_table_has_every_change(self) -> None:
        from district_audit import verifying

        kept = self.record()
        text = study.table_of_changes(kept).decode("utf-8")
        rows = list(csv.reader(text.splitlines()))
        self.assertEqual(len(rows), 1 + 150 + 1)
        self.assertEqual(rows[150], ["missing became 0", "unit 149"])
        self.assertEqual(verifying.faults_of_changes(kept, text), [])
        for old, new in (("unit 7\n", "unit 8\n"), ("one part", "two parts"), ("unit 149\n", "")):
            self.assertNotEqual(verifying.faults_of_changes(kept, text.replace(old, new)), [], old)

    def test_long_arguments_are_named_by_their_hash(self) -> None:
        one, other = (custody.as_argument({n: n + more for n in range(101)}) for more in (0, 1))
        self.assertEqual((one["type"], one["entries"]), ("dict", 101))
        self.assertNotEqual(one["sha256"], other["sha256"])
        self.assertEqual(custody.as_argument({"a": ("x", 1)}), {"a": ["x", 1]})


class Counting(unittest.TestCase):
    """The count of all numbers of a question."""

    def test_limits_count_each(self) -> None:
        """Under each limit other plans are visited, so that no number is the same in two."""
        report = Report.parse(readme_report())
        many = len(exhibit_counting.numbers_of(report))
        names = ("one", "two", "three", "four")
        batch = district_audit.report.Batch("limit", names, 0)
        of_limits = dataclasses.replace(report, batch=batch)
        self.assertEqual(exhibit_counting.number_of_all(of_limits, 1), 4 * many)
        batch = district_audit.report.Batch("election", names, 0)
        of_elections = dataclasses.replace(report, batch=batch)
        once = sum(
            ask.startswith("cut-") for ask, _ in exhibit_counting.numbers_of(report)
        )
        self.assertEqual(
            exhibit_counting.number_of_all(of_elections, 1), 4 * (many - once) + once
        )

    def page_with(self, program: custody.Program, kept: custody.Custody | None = None) -> str:
        """Returns the page on a report of a program and a preparation."""
        call = custody.Call(("run",), program, "", "", custody=kept)
        audited = district_audit.report.Audited("b" * 64, {}, {}, call)
        report = dataclasses.replace(Report.parse(readme_report()), audited=audited)
        return Page(exhibit.page([("", report)], exhibit.Options())).text

    def test_the_page_says_which_program_and_whether_it_is_proved(self) -> None:
        file = custody.File("district-audit", "a" * 64, 7)
        text = self.page_with(custody.Program(file, "c" * 40, "tools 1", True))
        for words in ("a" * 64, "c" * 40, "tools 1", "proof of the program proved"):
            self.assertIn(words, text)
        self.assertNotIn("NOT PROVED", text)
        self.assertIn("Proved by machine, about the program with the SHA-256 below", text)
        text = self.page_with(custody.Program(file, "c" * 40, "tools 1"))
        self.assertIn("proof of the program NOT PROVED", text)
        self.assertNotIn("Proved by machine, about", text)
        text = Page(page_of(readme_report())).text
        self.assertIn("NOT PROVED for all that this page knows", text)

    def test_the_page_says_what_was_done_to_the_data(self) -> None:
        units = tuple(f"unit {number}" for number in range(150))
        edits = (custody.Edit("missing became 0", 150, units, -3), custody.Edit("one part", 0, ()))
        raw = custody.File("x.shp", "d" * 64, 9)
        kept = custody.Custody(
            (raw,), {"missing": "zero"}, edits, (("TooFew", "too few people"),), {"shapely": "1.8"}
        )
        text = self.page_with(custody.Program(custody.File("p", "a" * 64, 7)), kept)
        for words in (
            "What was done to the data", "missing = zero", "shapely 1.8", "too few people",
            "missing became 0: 150 units, which changes the column's sum by -3: unit 0, unit 1,",
            "unit 9 and 140 more", "one part.", "SHA-256 of x.shp, 9 bytes", "d" * 64,
        ):
            self.assertIn(words, text)

    def test_arguments_are_shown_in_words(self) -> None:
        """A page had the brackets and quotes of Python."""
        for value, words in (
            ({"GOV": ("D", "R"), "SEN": ["E", "S"]}, "GOV (D and R), SEN (E and S)"),
            ([["a", "b"], [3, 4]], "a and b, 3 and 4"), (["area"], "area"), (0.03, "0.03"),
        ):
            self.assertEqual(exhibit_custody.show(value), words)

    def test_a_report_without_its_manifest_says_so_in_place_of_the_product(self) -> None:
        text = Page(page_of(readme_report())).text
        self.assertIn("The manifest of this report is not there.", text)
        self.assertNotRegex(text, r"0\.\d+ times \d+ is")
        text = Page(exhibit.page([("", Report.parse(readme_report()))],
                                 exhibit.Options(decides="ends seats:low"))).text
        self.assertNotIn("The manifest of this report is not there.", text)


if __name__ == "__main__":
    unittest.main()
