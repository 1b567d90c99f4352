"""Names and grammar of pages and pictures."""
from __future__ import annotations

import dataclasses
import unittest

import common
from common import groups_report, readme_report
from test_exhibit import Page
from district_audit import Report, exhibit, measuring, wording
from district_audit import exhibit_text as texts

NAMES = {"group": "Black voting-age population", "region": "counties", "length": "meters"}


class Grammar(unittest.TestCase):
    def test_plural_names(self) -> None:
        for name in ("Democrats", "Republicans", "the Greens", "Les Républicains", "Liberals (L)"):
            self.assertTrue(wording.is_plural(name), name)
        for name in (
            "Democratic Party", "Party of the Greens", "Blue", "", "the first party (column votes)",
            "Congress", "Fidesz", "Syriza",
        ):
            self.assertFalse(wording.is_plural(name), name)

    def test_questions_agree_with_their_party(self) -> None:
        for parties, ask, wanted in (
            (("Democrats", "X"), "seats:low", "Do the Democrats win unusually few districts?"),
            (("the Democrats", "X"), "seats:low", "Do the Democrats win unusually few districts?"),
            (("Blue", "X"), "seats:low", "Does Blue win unusually few districts?"),
            (
                ("Democratic Party", "X"), "seats:high",
                "Does the Democratic Party win unusually many districts?",
            ),
            (("X", "Republicans"), "gap:high", "so that the Republicans are hurt?"),
            (("X", "Green"), "gap:high", "so that Green is hurt?"),
        ):
            self.assertIn(wanted, texts.question(ask, parties))

    def test_definitions_agree_with_their_party(self) -> None:
        parties = ("Democrats", "Republicans")
        for score, wanted in (
            ("seats", "in which the Democrats have more votes than the Republicans"),
            ("mean-median", "Below zero, the Democrats do worse in the middle district"),
            ("gap", "Above zero, the Republicans waste more, which hurts the Republicans."),
        ):
            self.assertIn(wanted, texts.definition(score, parties))

    def test_names_are_used_everywhere(self) -> None:
        report = Report.parse(groups_report())
        rules = dataclasses.replace(
            report.rules, max_split=2, cut_length=7, max_length=1_234_567, group_share=4500
        )
        report = dataclasses.replace(report, rules=rules)
        page = Page(exhibit.page([("", report)], exhibit.Options(names=NAMES, command="run"))).text
        for words in (
            "each of the 6 counties lies in at most 2 districts",
            "counties are split at most 3 times in all",
            "the Black voting-age population has more than 45.00 percent in at least 2 districts",
            "at most 1,234,567 meters",
        ):
            self.assertIn(words, page)
        self.assertNotIn("the group has", page)
        self.assertNotIn(" regions", page.split("What this exhibit does not say")[0])
        self.assertIn("more than 45 percent", "; ".join(
            wording.describe_limits(rules, wording.read_names(NAMES), 265, 4)
        ))

    def test_the_districts_table_has_the_groups_name(self) -> None:
        data = (common.EXAMPLES / "data" / "groups.json").read_bytes()
        report = Report.parse(groups_report())
        options = exhibit.Options(names=NAMES, graph=data)
        page = Page(exhibit.page([("", report)], options)).text
        self.assertIn("Black voting-age population, %", page)

    def test_one_region_needs_no_singular(self) -> None:
        names = wording.read_names(NAMES)
        self.assertEqual(
            [names.count_regions(count) for count in (0, 1, 1200)],
            ["0 counties", "1 of the counties", "1,200 counties"],
        )

    def test_names_that_are_refused(self) -> None:
        for wrong in ({"groups": "x"}, {"group": ""}, {"region": " "}, {"length": 3}):
            with self.assertRaises(ValueError):
                wording.read_names(common.anything(wrong))

    def test_idle_limits_are_not_on_the_page(self) -> None:
        page = Page(exhibit.page([("", Report.parse(groups_report()))], exhibit.Options())).text
        self.assertNotIn("at most 200 districts", page)
        self.assertIn("regions are split at most 3 times in all", page)


class Lines(unittest.TestCase):
    def test_no_line_is_too_wide_and_no_letter_is_lost(self) -> None:
        for words in (readme_report(), "a" * 500, "é" * 90, "選挙区" * 40, "x", ""):
            lines = measuring.wrap(words, 120.0)
            self.assertEqual("".join("".join(lines).split()), "".join(words.split()))
            for line in lines:
                self.assertLessEqual(measuring.width(line), 120.0, line)

    def test_widths_are_not_below_those_of_the_widest_font(self) -> None:
        common.needs("matplotlib")
        from matplotlib.textpath import TextPath

        for words in ("Democratic Party", "seats:low, enacted: 3 (walk 0)", "WWW iii 1/1,000,000"):
            drawn = TextPath((0, 0), words, size=13).get_extents().width
            self.assertGreaterEqual(measuring.width(words), drawn - 1)


if __name__ == "__main__":
    unittest.main()
