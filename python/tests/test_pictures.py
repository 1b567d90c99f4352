"""Layout of pictures: every text is inside the canvas, and no two texts meet, with any names."""
from __future__ import annotations

import dataclasses
import html
import itertools
import re
import unittest

import common
from test_exhibit import TEXTS, shift_report
import district_audit
from district_audit import PlanReports, Report, exhibit, wording
from district_audit import report as reading
from district_audit.arguments import SCORES

LONG = (
    "The Very Long Established Progressive Conservative Union Party of the Northern Territories",
    "Unprecedentedlylongnameofapartywithoutasinglespaceinitsothatnolinecanendatoneofthem",
)
NAMES = {
    "group": "Black or African American voting-age population of the census of 2020",
    "region": "counties and independent cities", "length": "kilometers of shared border",
}
# Ten rules, each of which limits something on the map of the README's report.
RULES = dict(
    max_cut=500, max_split=3, regions=20, max_splits=14, max_split_regions=12, group_districts=2,
    majorities=2, group_share=4550, frozen=17, cut_length=123_456_789, max_length=223_456_789,
)


def boxes_of(figure: common.Value) -> list[tuple[str, common.Value]]:
    """Returns the text and the extent, in points of the canvas, of all that is written."""
    from matplotlib.text import Text

    drawn_by = figure.canvas.get_renderer()
    figure.draw(drawn_by)
    texts = [text for text in figure.findobj(Text) if text.get_visible() and text.get_text()]
    ticks = {
        label
        for axes in figure.axes
        for axis in (axes.xaxis, axes.yaxis)
        for label in (*axis.get_majorticklabels(), *axis.get_minorticklabels())
    }
    shown = {
        label
        for axes in figure.axes
        for axis in (axes.xaxis, axes.yaxis)
        for tick in axis._update_ticks()
        for label in (tick.label1, tick.label2)
        if label.get_visible()
    }
    return [
        (text.get_text(), text.get_window_extent(drawn_by))
        for text in texts
        if text not in ticks or text in shown
    ]


def assert_apart(case: unittest.TestCase, figure: common.Value) -> None:
    """Asserts that no two texts of a figure meet."""
    for (words, box), (other, there) in itertools.combinations(boxes_of(figure), 2):
        # A point of a letter's rounded box may be shared by two lines.
        is_beside = box.x1 <= there.x0 + 1 or there.x1 <= box.x0 + 1
        is_above = box.y1 <= there.y0 + 1 or there.y1 <= box.y0 + 1
        case.assertTrue(is_beside or is_above, f"{words!r} meets {other!r}")


class Layout(common.FolderCase):
    def setUp(self) -> None:
        super().setUp()
        common.needs("matplotlib")

    def check(self, figure: common.Value) -> list[str]:
        """Asserts that each text is on the canvas and that no two meet; returns the texts."""
        boxes = boxes_of(figure)
        for words, box in boxes:
            self.assertGreaterEqual(box.x0, 0, words)
            self.assertGreaterEqual(box.y0, 0, words)
            self.assertLessEqual(box.x1, figure.bbox.x1, words)
            self.assertLessEqual(box.y1, figure.bbox.y1, words)
        assert_apart(self, figure)
        return [words for words, _ in boxes]

    def with_rules(self, text: str) -> Report:
        """Returns a report with ten rules."""
        report = Report.parse(text)
        rules = dataclasses.replace(report.rules, **common.anything(RULES))
        return dataclasses.replace(report, rules=rules)

    def test_each_kind_of_report_with_short_names(self) -> None:
        for name, text in TEXTS.items():
            with self.subTest(name):
                self.check(Report.parse(text).plot(title="Exhibit 1", parties=("A", "B")))
                self.check(Report.parse(text).plot())

    def test_each_kind_of_report_with_extreme_names(self) -> None:
        for name, text in TEXTS.items():
            with self.subTest(name):
                report = self.with_rules(text)
                found = self.check(
                    report.plot(title=f"{LONG[0]} and {LONG[1]}", parties=LONG, names=NAMES)
                )
                head = " ".join(" ".join(found).split())
                wanted = [
                    "the Black or African American voting-age population",
                    "17 units keep their districts", "223,456,789 kilometers of shared border",
                ]
                # On a smaller map these limit nothing.
                if report.districts > 5:
                    wanted += [
                        "at most 500 cut edges",
                        "20 counties and independent cities, each in at most 3 districts",
                    ]
                for words in wanted:
                    self.assertIn(words, head)

    def test_texts_of_an_exhibits_figures(self) -> None:
        """The texts of each figure's SVG, measured by matplotlib, are inside and do not meet."""
        for name, text in TEXTS.items():
            report = Report.parse(text)
            wide = {score: f"-{'1234567890 ' * 9}" for score in SCORES}
            for enacted in ({score: "3" for score in SCORES}, wide):
                drawn = exhibit.drawings(report, enacted, LONG, 1, LONG[1])
                self.assertTrue(drawn, name)
                for figure in drawn:
                    self.check_svg(figure)

    def check_svg(self, figure: str) -> None:
        """Asserts that all texts of a figure are in its box, and that no two meet."""
        from matplotlib.font_manager import FontProperties
        from matplotlib.textpath import TextPath

        found = re.search(r'viewBox="0 0 ([\d.]+) ([\d.]+)"', figure)
        assert found is not None
        wide, high = float(found[1]), float(found[2])
        boxes = []
        for x, y, anchor, more, words in re.findall(
            r'<text x="([\d.-]+)" y="([\d.-]+)" text-anchor="(\w+)"([^>]*)>([^<]*)</text>', figure
        ):
            font = FontProperties(weight="bold" if "bold" in more else "normal")
            box = TextPath((0, 0), html.unescape(words), size=13, prop=font).get_extents()
            off = {"start": 0.0, "middle": box.width / 2, "end": box.width}[anchor]
            left, base = float(x) - off, float(y)
            boxes.append((words, left, left + box.width, base - box.y1, base - box.y0))
        self.assertEqual(len(boxes), figure.count("<text "))
        for words, left, right, top, bottom in boxes:
            self.assertGreaterEqual(min(left, top), 0, words)
            self.assertLessEqual(right, wide, words)
            self.assertLessEqual(bottom, high, words)
        for one, other in itertools.combinations(boxes, 2):
            is_beside = one[2] <= other[1] or other[2] <= one[1]
            is_above = one[4] <= other[3] or other[4] <= one[3]
            self.assertTrue(is_beside or is_above, f"{one} meets {other}")

    def test_sixteen_plans(self) -> None:
        report = self.with_rules(shift_report())
        names = [
            f"the plan number {number} that the commission drew in its {number + 1}th session"
            for number in range(16)
        ]
        reports = PlanReports([(name, report) for name in names])
        self.check(reports.plot(title="Sixteen plans", parties=LONG, names=NAMES))
        self.check(PlanReports([(str(place), report) for place in range(16)]).plot())

    def test_axes_have_whole_numbers(self) -> None:
        """Four hundred million visited plans had ticks as 400000000.0."""
        report = Report.parse(shift_report())
        shift = report.shift
        assert shift is not None
        for times in (1, 4000, 10**7):
            counts = tuple(count * times for count in shift.counts)
            many = dataclasses.replace(report, shift=reading.Shift(counts))
            figure = many.plot()
            self.check(figure)
            ticks = [label.get_text() for label in figure.axes[-1].get_yticklabels()]
            self.assertTrue(ticks)
            for tick in ticks:
                self.assertRegex(tick, r"^(\d{1,3}(,\d{3})*)?$")
        few = dataclasses.replace(report, shift=reading.Shift((0, 0, 0, 1, 1, 0, 0, 0, 0)))
        ticks = [label.get_text() for label in few.plot().axes[-1].get_yticklabels()]
        self.assertLessEqual({*ticks}, {"0", "1", "2", ""})

    def test_a_rule_that_limits_nothing_is_not_said(self) -> None:
        idle = dict(
            max_cut=563, max_split=200, regions=4, max_splits=20, max_split_regions=4,
            group_districts=0, majorities=0, frozen=0,
        )
        report = Report.parse(common.readme_report())
        rules = dataclasses.replace(report.rules, **common.anything(idle))
        said = wording.describe_limits(rules, wording.Names(), report.edges, report.districts)
        self.assertEqual(said, [])
        tight = dict(idle, max_cut=562, max_split=5, max_splits=19, max_split_regions=3, frozen=1)
        rules = dataclasses.replace(report.rules, **common.anything(tight))
        said = wording.describe_limits(rules, wording.Names(), report.edges, report.districts)
        self.assertEqual(
            said,
            [
                "at most 562 cut edges", "4 regions, each in at most 5 districts",
                "at most 19 splits of regions in all",
                "at most 3 regions in more than one district", "1 unit keeps its district",
            ],
        )

    def test_a_name_with_the_end_of_a_format_is_one_file(self) -> None:
        report = Report.parse(common.readme_report())
        begins = {"a.png": b"\x89PNG", "b.svg": b"<?xml", "c.pdf": b"%PDF"}
        for name, begin in begins.items():
            report.plot(self.folder / name)
            self.assertEqual((self.folder / name).read_bytes()[:len(begin)], begin)
        report.plot(self.folder / "plan.v2")
        self.assertEqual(
            {path.name for path in self.folder.iterdir()},
            {*begins, "plan.v2.png", "plan.v2.svg"},
        )

    def test_the_diamonds_are_open(self) -> None:
        figure = Report.parse(common.readme_report()).plot()
        diamonds = [line for line in figure.axes[0].lines if line.get_marker() == "D"]
        self.assertEqual(len(diamonds), 6)
        self.assertEqual({line.get_markerfacecolor() for line in diamonds}, {"none"})

    def test_signs_of_money_are_no_formula(self) -> None:
        report = Report.parse(common.readme_report())
        figure = report.plot(title="a $x_1$ b", parties=("$A$", "B$"))
        self.check(figure)
        room = self.folder / "x.svg"
        report.plot(room, title="a $x_1$ b")
        self.assertIn("a $x_1$ b", re.sub("<[^>]*>", "", room.read_text(encoding="utf-8")))

    def test_the_head_names_the_program(self) -> None:
        report = Report.parse(common.readme_report())
        head = report.plot().texts[0].get_text()
        self.assertIn("NOT PROVED", head)
        file = district_audit.custody.File("district-audit", "a" * 64, 7)
        for is_proved, words in ((True, "proved"), (False, "NOT PROVED")):
            program = district_audit.custody.Program(file, "c" * 40, "tools", is_proved)
            call = district_audit.custody.Call(("run",), program, "", "")
            audited = reading.Audited("b" * 64, {}, {}, call)
            figure = dataclasses.replace(report, audited=audited).plot()
            lines = figure.texts[0].get_text().split("\n")
            self.assertIn(f"program sha256 {'a' * 64}, commit {'c' * 40}, {words}", lines)
            self.check(figure)


if __name__ == "__main__":
    unittest.main()
