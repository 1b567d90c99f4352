"""Reports: reading, writing again, and what is refused."""
import re
import typing
import unittest
import xml.dom.minidom
from decimal import Decimal
from fractions import Fraction
from unittest import mock

import common
from common import anything, find_in
from district_audit import PlanCheck, Report, ReportRefused, Rules, Source, Start, wording
from district_audit import arguments
from district_audit import report as reading
from district_audit.picture import percent
from district_audit.report import bound_of


Kind = type[typing.Union[Report, PlanCheck]]


def outputs() -> str:
    """Returns what the auditor and `case_runner` must print in their cases."""
    return "".join(path.read_text(encoding="utf-8") for path in common.OUTPUTS)


def texts() -> list[tuple[int, typing.Optional[str], str]]:
    """Returns each whole text of these cases: a check, a report, or the reports of several plans.
    """
    lines = outputs().split("\n")
    found, at = [], 0
    while at < len(lines):
        if re.fullmatch("plan-check 1|district-audit [12]", lines[at]):
            end = next(
                (
                    place
                    for place in range(at + 1, len(lines))
                    if re.match("(end$|plan-check 1$|district-audit [12]$)", lines[place])
                ),
                at,
            )
            if lines[end] == "end":
                is_of_plan = lines[at - 1].startswith("plan ")
                found.append(
                    (
                        at + 1,
                        lines[at - 1] if is_of_plan else None,
                        "\n".join(lines[at:end + 1]) + "\n",
                    )
                )
        at += 1
    return found


class RoundTrip(unittest.TestCase):
    def test_all_texts_of_the_cases_are_read_and_written_again(self) -> None:
        """Each line `end` of the cases closes one of these texts, a trace or a pilot, so none is
        passed over.
        """
        found = texts()
        whole = outputs()
        ends, traces = whole.split("\n").count("end"), 0
        for after in whole.split("\ndistrict-trace 1\n")[1:]:
            traces += re.split("\n(end|[a-z]+-[a-z]+ [12])\n", after)[1:2] == ["end"]
        pilots = whole.count("\nwalk-pilot 1\n")
        self.assertGreater(traces, 5)
        self.assertGreater(pilots, 1)
        self.assertEqual(len(found), ends - traces - pilots)
        self.assertGreater(ends, 100)
        for number, _, text in found:
            kind = PlanCheck if text.startswith("plan-check") else Report
            with self.subTest(line=number):
                self.assertEqual(str(anything(kind).parse(text)), text)

    def test_each_kind_of_line_is_among_them(self) -> None:
        words = {line.split(" ")[0] for _, _, text in texts() for line in text.split("\n")}
        self.assertLessEqual(
            {
                "walk", "ends", "stop", "serial", "shift", "max-cut", "max-split", "max-splits",
                "group-districts", "source", "columns",
            },
            words,
        )

    def test_reports_of_several_plans(self) -> None:
        some = [(name, text) for _, name, text in texts() if name][:3]
        whole = "".join(f"{name}\n{text}" for name, text in some)
        read = Report.parse_plans(whole)
        self.assertEqual([("plan " + name, str(report)) for name, report in read], some)
        self.assertEqual("".join(f"plan {name}\n{report}" for name, report in read), whole)

    def test_cut_off_anywhere_is_refused_and_never_another_report(self) -> None:
        for text in (
            next(text for _, _, text in texts() if "\nserial " in text and "\nends " in text),
            common.groups_report(),
        ):
            for length in range(len(text)):
                with self.assertRaises(ReportRefused, msg=str(length)):
                    Report.parse(text[:length])

    def test_each_rule_and_the_source(self) -> None:
        text = common.groups_report()
        self.assertEqual(str(Report.parse(text)), text)
        named = [
            ("d", text),
            ("other", text.replace("group-districts 2 of 2", "group-districts 2 of 3")),
        ]
        whole = "".join(f"plan {name}\n{report}" for name, report in named)
        self.assertEqual([(name, str(report)) for name, report in Report.parse_plans(whole)], named)
        head = text.split("\n")[1:3] + text.split("\n")[4:9]
        check = "\n".join(["plan-check 1", *head, "end", ""])
        self.assertEqual(str(PlanCheck.parse(check)), check)
        less = "\n".join(["plan-check 1", *head[2:], "end", ""])
        self.assertEqual((str(PlanCheck.parse(less)), PlanCheck.parse(less).source), (less, None))

    def test_rules_one_by_one(self) -> None:
        """Either limit of splits, with the other at its end; a group with the limit 0; the names of
        columns as JSON writes them.
        """
        head = ["units 4 edges 4 districts 2", "population 4 slack 5000 low 1 high 3"]
        source = f"source sha256 {64 * '0'} bytes 704"
        for rules in (
            ["max-cut 0"],
            ["max-split 1 regions 4"],
            ["max-split 200 regions 1", "max-splits 0 max-split-regions 5000"],
            ["max-split 200 regions 1", "max-splits 995000 max-split-regions 0"],
            ["group-districts 0 of 0"],
            ["group-districts 0 of 2"],
            [
                "max-cut 1", "max-split 2 regions 2", "max-splits 1 max-split-regions 1",
                "group-districts 1 of 1",
            ],
        ):
            text = "\n".join(["plan-check 1", *head, *rules, "end", ""])
            self.assertEqual(str(PlanCheck.parse(text)), text)
        none: list[str] = []
        for names, rules in (
            ('"" "" "" ""', none),
            ('"p q" "\\"" "\\\\" "\\u0001\\n\\u001f\x7f"', none),
            ('"é" "\u2028" "\udcff" "/"', none),
            ('"pop" "a" "b" "d" region " "', ["max-split 1 regions 1"]),
            ('"" "a" "b" "d" group "g" of ""', ["group-districts 0 of 1"]),
            (
                '"pop" "a" "b" "d" region "\\" of" group "g" of "w"',
                ["max-split 1 regions 1", "group-districts 0 of 1"],
            ),
        ):
            text = "\n".join(["plan-check 1", source, "columns " + names, *head, *rules, "end", ""])
            self.assertEqual(str(PlanCheck.parse(text)), text)
        self.assertEqual(
            PlanCheck.parse(text).source,
            Source(64 * "0", 704, "pop", "a", "b", "d", '" of', "g", "w"),
        )


class Values(unittest.TestCase):
    def setUp(self) -> None:
        self.report = Report.parse(common.readme_report())

    def test_numbers_are_exact(self) -> None:
        walk, report = self.report.walks[2], self.report
        self.assertEqual(
            (report.units, report.edges, report.districts, report.population), (300, 563, 6, 30000)
        )
        self.assertEqual(
            (
                report.rules.low, report.rules.high, report.rules.slack, report.rules.max_cut,
                report.rules.regions,
            ),
            (4500, 5500, 1000, None, None),
        )
        self.assertEqual(
            (
                report.setting.walks, report.setting.steps, report.setting.ends,
                report.setting.hub_steps,
            ),
            (2, 100000, 99, 10000),
        )
        self.assertEqual(
            (walk.ask, walk.number, walk.moved, walk.count, walk.of),
            ("cut-edges:low", 0, 5820, 2, 100001),
        )
        self.assertEqual((walk.part, walk.bound), (Fraction(2, 100001), Decimal("0.006324524")))
        self.assertIsInstance(walk.bound, Decimal)
        gap = report.ends[1]
        self.assertEqual(
            (gap.start, gap.start.fraction, gap.rank, gap.of, gap.p),
            (Start(-600, 60000), Fraction(-1, 100), 69, 100, Decimal("0.69")),
        )
        self.assertEqual(report.asks, ("seats:low", "gap:high", "cut-edges:low"))
        self.assertIsNone(report.shift)
        self.assertEqual(report.serial, ())

    def test_rules_and_source(self) -> None:
        report = Report.parse(common.groups_report())
        source = report.source
        assert source is not None
        self.assertEqual(report.rules, Rules(1000, 27142, 33172, None, 200, 6, 3, 3, 2, 2))
        self.assertEqual(
            (
                source.population, source.district, source.region, source.group, source.group_of,
            ),
            ("pop", "d", "county", "bvap", "vap"),
        )
        data = (common.EXAMPLES / "data" / "groups.json").read_bytes()
        self.assertTrue(source.is_of(data))
        self.assertFalse(source.is_of(data + b"\n"))
        self.assertFalse(source.is_of(data[:-1] + b" "))
        self.assertIsNone(self.report.source)
        said = [
            "at most 3 splits of regions in all", "at most 3 regions in more than one district",
            "the group has a majority in 2 districts, and must have one in 2",
        ]
        limits = wording.describe_limits(report.rules, wording.Names(), 265, 4)
        self.assertEqual(limits, said)
        for words in (
            *said,
            (
                "source sha256 6f9889bef0fe3f996cd3977c2b9b56981a3ba05c92f1c46f76faadf2ab9747d5,"
                " 18851 bytes"
            ),
        ):
            self.assertIn(words, report._repr_html_())
        self.assertEqual(
            wording.describe_limits(
                Rules(500, 1, 3, None, 200, 6, 995000, 0), wording.Names(), 10, 4
            ),
            ["at most 0 regions in more than one district"],
        )

    def test_table_for_notebooks(self) -> None:
        page = self.report._repr_html_()
        xml.dom.minidom.parseString(f"<page>{page}</page>")
        self.assertEqual(page.count("<tr>"), 1 + 6 + 3)
        self.assertIn(
            (
                "<td>cut-edges:low</td><td>125/1</td><td>5820</td><td></td><td>2</td>"
                "<td>100001</td>"
                "<td>0.006324524</td>"
            ),
            page,
        )
        self.assertFalse(hasattr(self.report, "_repr_png_"))

    def test_frame(self) -> None:
        common.needs("pandas")
        frame = self.report.to_frame()
        self.assertEqual(
            list(frame.columns),
            [
                "test", "walk", "second_walk", "ask", "score", "tail", "start", "moved", "visited",
                "in_tail", "share", "bound", "rank", "of", "stopped_after", "start_place", "p",
            ],
        )
        self.assertEqual(list(frame["test"]), ["walk"] * 6 + ["ends"] * 3)
        self.assertAlmostEqual(frame["bound"].min(), 0.006324524, places=12)
        self.assertAlmostEqual(frame[frame.test == "ends"]["p"].min(), 0.01, places=12)
        exact = self.report.to_frame(exact=True)
        self.assertEqual(exact["start"][1], Fraction(-1, 100))
        self.assertEqual(exact["bound"][2], Decimal("0.006324524"))


class Pictures(common.FolderCase):
    def draw(self, text: str) -> tuple[common.Value, str]:
        common.needs("matplotlib")
        report = Report.parse(text)
        figure = report.plot(str(self.folder / "picture"))
        svg = (self.folder / "picture.svg").read_text(encoding="utf-8")
        xml.dom.minidom.parseString(svg)
        self.assertEqual((self.folder / "picture.png").read_bytes()[:8], b"\x89PNG\r\n\x1a\n")
        return figure, svg

    def test_rows_and_head(self) -> None:
        _, svg = self.draw(common.readme_report())
        for words in (
            "cut-edges low, walk 1", "rank 1 of 100, p 0.010000000",
            "2 of 100001, bound 0.006324524", "4500 to 5500 people a district (slack 10 %)",
        ):
            self.assertIn(words, svg)

    def test_limits_are_in_the_head(self) -> None:
        text = next(
            text
            for _, _, text in texts()
            if "\nmax-split " in text and text.startswith("district-audit")
        )
        regions = find_in("max-split ([0-9]+) regions ([0-9]+)", text)
        self.assertIn(
            f"{regions[2]} regions, each in at most {regions[1]} district", self.draw(text)[1]
        )
        text = next(
            text
            for _, _, text in texts()
            if "\nmax-cut " in text and text.startswith("district-audit")
        )
        self.assertIn(
            f"at most {find_in('max-cut ([0-9]+)', text)[1]} cut edges", self.draw(text)[1]
        )
        text = next(
            text
            for _, _, text in texts()
            if re.search("\nstop [0-9]", text)
            and "\nwalks 1 " in text
            and text.startswith("district-audit")
        )
        steps, enough = (
            find_in(f"\n{word} ([0-9]+)", text)[1] for word in ("walks 1 steps", "stop")
        )
        self.assertIn(f"1 walk of {steps} steps; ", self.draw(text)[1])
        self.assertIn(f"a test stops after {enough} in its tail", self.draw(text)[1])

    def test_further_rules_and_the_source_have_lines_of_their_own(self) -> None:
        figure, svg = self.draw(common.groups_report())
        lines = figure.texts[0].get_text().split("\n")
        self.assertEqual(
            " ".join(lines[1:-4]),
            (
                "at most 3 splits of regions in all; at most 3 regions in more than one district; "
                "the group has a majority in 2 districts, and must have one in 2"
            ),
        )
        self.assertEqual(
            lines[-1],
            (
                "source sha256 6f9889bef0fe3f996cd3977c2b9b56981a3ba05c92f1c46f76faadf2ab9747d5,"
                " 18851 bytes"
            ),
        )
        for line in lines:
            self.assertIn(line, svg)

    def test_the_words_stand_above_the_panels(self) -> None:
        """However many lines they are: no text of the head reaches into the title of the first
        panel.
        """
        for text in (common.readme_report(), common.groups_report()):
            figure, _ = self.draw(text)
            drawn_by = figure.canvas.get_renderer()
            head, first = figure.texts[0].get_window_extent(drawn_by), figure.axes[0].title
            self.assertGreater(head.y0, figure.axes[0].get_window_extent(drawn_by).y1 + 10)
            self.assertGreater(
                head.y0, figure.axes[0]._left_title.get_window_extent(drawn_by).y1, first
            )

    def test_seats_of_millions_of_plans_have_no_power_of_ten_and_no_empty_bar(self) -> None:
        text = (
            common.readme_report()
            .replace("district-audit 1", "district-audit 2")
            .replace("ends seats", "shift 0 0 9 103587 96405 1 0 0 0\nends seats", 1)
        )
        text = text.replace(
            "count 44391 of 100001 bound 0.942237296", "count 100001 of 100001 bound 1.414213563"
        )
        text = text.replace(
            "count 59205 of 100001 bound 1.088158150", "count 100000 of 100001 bound 1.414206492"
        )
        figure, svg = self.draw(text)
        self.assertNotIn(
            "1e", svg.split("<defs>")[0] + " ".join(re.findall("<text[^>]*>([^<]*)</text>", svg))
        )
        self.assertEqual(
            (percent(9, 200002), percent(1, 200002), percent(0, 200002), percent(1, 1000)),
            ("< 0.1 %", "< 0.1 %", "0", "0.1 %"),
        )
        self.assertIn("&lt; 0.1 %", svg)
        self.assertEqual(
            (percent(2559, 2560), percent(2560, 2560), percent(999, 1000)),
            ("> 99.9 %", "100.0 %", "99.9 %"),
        )

    def test_more_than_eight_walks_have_one_row(self) -> None:
        text = next(
            text
            for _, _, text in texts()
            if "\nwalks 12 " in text and "gap low" in text and text.startswith("district-audit 1")
        )
        self.assertIn("gap low, 12 walks", self.draw(text)[1])

    def test_the_same_bytes_each_time(self) -> None:
        first = self.draw(common.readme_report())[1], (self.folder / "picture.png").read_bytes()
        self.assertEqual(
            (self.draw(common.readme_report())[1], (self.folder / "picture.png").read_bytes()),
            first,
        )

    def test_sequential_and_serial_tests_have_rows(self) -> None:
        for form, title in (
            ("\nstop (seats|mean-median|gap|cut-edges|cut-length) ", "sequential test"),
            ("\nserial ", "serial test"),
        ):
            text = next(text for _, _, text in texts() if re.search(form, text))
            self.assertIn(title, self.draw(text)[1])


class Refusals(unittest.TestCase):
    """Texts that the program cannot have written are refused, at the first line where it shows."""

    def refuse(self, number: int, text: str, kind: Kind = Report) -> None:
        with self.assertRaises(ReportRefused) as caught:
            kind.parse(text)
        self.assertEqual(caught.exception.number, number, str(caught.exception))
        self.assertIn(f"line {number}: ", str(caught.exception))

    def test_an_unknown_score_is_an_error(self) -> None:
        """A score that only the list of scores has is not read as another score."""
        text = common.readme_report().replace("seats low", "ratio low")
        with mock.patch.multiple(
            reading,
            SCORES=(*arguments.SCORES, "ratio"),
            ASK=reading.ASK.replace("seats", "ratio|seats"),
        ), self.assertRaisesRegex(ValueError, "^unknown score ratio$"):
            Report.parse(text)

    def test_one_changed_word_in_a_report(self) -> None:
        """For each row: the words, what stands there instead, and the number of the line that is
        refused.
        """
        text = common.readme_report()
        for old, new, number in (
            ("district-audit 1", "district-audit 3", 1),
            ("key 2b", "key 2B", 2),
            ("units 300", "units 0300", 3),
            ("units 300", "units 5", 3),
            ("edges 563", "edges 44851", 3),
            ("districts 6", "districts 1", 3),
            ("low 4500", "low 4501", 4),
            ("high 5500", "high 5499", 4),
            ("slack 1000", "slack 10001", 4),
            ("walks 2 ", "walks 3 ", 12),
            ("walks 2 ", "walks 1 ", 9),
            ("steps 100000", "steps 100001", 6),
            ("walk 0 moved 5820 seats", "walk 1 moved 5820 seats", 6),
            ("moved 5820 gap", "moved 5821 gap", 7),
            ("moved 5820", "moved 100001", 6),
            ("seats low", "seats  low", 6),
            ("seats low start 3/1 count 44391", "seats low start 7/1 count 44391", 6),
            ("start -600/60000 count 80091", "start -601/60000 count 80091", 10),
            ("start -600/60000 count 80091", "start -600/60001 count 80091", 7),
            ("count 44391", "count 0", 6),
            ("bound 0.942237296", "bound 0.942237295", 6),
            ("bound 0.942237296", "bound 0.94223729", 6),
            ("walk 1 moved 5932 gap high", "walk 1 moved 5932 gap low", 10),
            ("ends gap high", "ends gap low", 13),
            ("rank 54 of 100 p", "rank 54 of 99 p", 12),
            ("rank 54", "rank 101", 12),
            ("p 0.540000000", "p 0.540000001", 12),
            ("ends cut-edges low start 125/1 rank 1 of 100 p 0.010000000\n", "", 14),
            ("\nend\n", "\n", 15),
            ("\nend\n", "\nend\n\n", 16),
            ("\nend\n", "\nend", 15),
            ("\n", "\r\n", 1),
        ):
            with self.subTest(old=old, new=new):
                self.assertIn(old, text)
                self.refuse(number, text.replace(old, new, 1 if old != "\n" else -1))

    def test_what_the_lines_say_together(self) -> None:
        """Tails that leave plans out, numbers of seats that are not those of the counts, tests that
        cannot stop so.
        """
        nothing_moves = "\n".join(
            [
                "district-audit 2", "key " + common.KEY, "units 4 edges 4 districts 2",
                "population 4 slack 5000 low 1 high 3", "walks 1 steps 1 ends 3 hub-steps 1",
                "stop 1", "walk 0 moved 0 seats low start 1/1 count 2 of 2 bound 1.414213563",
                "walk 0 moved 0 seats high start 1/1 count 2 of 2 bound 1.414213563",
                "shift 0 0 0 0 2 0 0 0 0",
                "stop seats low start 1/1 place 1 value 1/1 p 1.000000000",
                "stop seats high start 1/1 place 3 value 1/4 p 0.250000000",
                "serial seats low start 1/1 place 1 rank 2 of 2 p 1.000000000",
                "serial seats high start 1/1 place 1 rank 2 of 2 p 1.000000000", "end", "",
            ]
        )
        self.assertEqual(str(Report.parse(nothing_moves)), nothing_moves)
        for old, new, number in (
            (
                "moved 0 seats low start 1/1 count 2 of 2 bound 1.414213563",
                "moved 0 seats low start 1/1 count 1 of 2 bound 1.000000000", 7,
            ),
            ("shift 0 0 0 0 2 0 0 0 0", "shift 0 0 0 1 1 0 0 0 0", 9),
            ("shift 0 0 0 0 2 0 0 0 0", "shift 0 0 0 0 1 0 0 0 0", 9),
            ("shift 0 0 0 0 2 0 0 0 0", "shift 0 0 0 0 2 0 0 0", 9),
            ("district-audit 2", "district-audit 1", 9),
            ("place 1 value 1/1 p", "place 2 value 1/1 p", 10),
            ("place 3 value 1/4 p 0.250000000", "place 3 value 2/4 p 0.500000000", 11),
            ("place 3 value 1/4 p 0.250000000", "place 2 value 1/4 p 0.250000000", 11),
            (
                "place 1 rank 2 of 2 p 1.000000000\nserial seats high start 1/1 place 1",
                "place 1 rank 2 of 2 p 1.000000000\nserial seats high start 1/1 place 0",
                13,
            ),
            (
                "serial seats high start 1/1 place 1 rank 2 of 2",
                "serial seats high start 1/1 place 1 rank 2 of 3", 13,
            ),
            ("stop 1\n", "", 9),
            ("walk 0 moved 0 seats high", "walk 0 moved 0 seats low", 8),
        ):
            with self.subTest(old=old, new=new):
                self.assertIn(old, nothing_moves)
                self.refuse(number, nothing_moves.replace(old, new, 1))

    def test_rules_and_sources_that_are_not_written(self) -> None:
        """For each row: the words, what stands there instead, and the number of the line that is
        refused.
        """
        text = common.groups_report()
        for old, new, number in (
            ("source sha256 6f", "source sha256 6F", 2),
            ("bytes 18851", "bytes 018851", 2),
            ("bytes 18851", "bytes 0", 2),
            ("bytes 18851", "bytes 67108865", 2),
            ("source sha256", "sources sha256", 2),
            ('columns "pop" "a" "b" "d" region "county" group "bvap" of "vap"\n', "", 3),
            ('"pop" "a"', '"pop"  "a"', 3),
            ('"pop" "a"', '"pop", "a"', 3),
            ('"pop" "a"', '"pop"', 3),
            ('"pop" "a"', '"pop" "a" "c"', 3),
            ('"pop" "a"', '"pop" 7', 3),
            ('"pop" "a"', '"pop" "\\u0061"', 3),
            ('"pop" "a"', '"pop" "\\/"', 3),
            ('"pop" "a"', '"pop" "a', 3),
            ('of "vap"', 'of "vap" ', 3),
            ('of "vap"', 'of "vap" "more"', 3),
            ('of "vap"', "of", 3),
            ('of "vap"', 'of ""', 3),
            (' of "vap"', "", 3),
            ('group "bvap"', 'group ""', 3),
            ('region "county"', 'region ""', 3),
            ('region "county" group "bvap" of "vap"', 'group "bvap" of "vap" region "county"', 3),
            (' region "county"', "", 7),
            (' group "bvap" of "vap"', "", 9),
            ("group-districts 2 of 2\n", "", 9),
            ("max-split 200 regions 6\nmax-splits 3 max-split-regions 3\n", "", 7),
            ("max-split 200 regions 6\n", "", 7),
            (
                "max-split 200 regions 6\nmax-splits 3 max-split-regions 3",
                "max-splits 3 max-split-regions 3\nmax-split 200 regions 6", 7,
            ),
            ("max-splits 3", "max-splits 995001", 8),
            ("max-splits 3 max-split-regions 3", "max-splits 3 max-split-regions 5001", 8),
            ("max-splits 3 max-split-regions 3", "max-splits 995000 max-split-regions 5000", 8),
            ("max-splits 3 max-split-regions 3", "max-splits 3", 8),
            ("group-districts 2 of 2", "group-districts 2 of 1", 9),
            ("group-districts 2 of 2", "group-districts 2 of 5", 9),
            ("group-districts 2 of 2", "group-districts 02 of 2", 9),
            ("group-districts 2 of 2", "group-districts 2", 9),
        ):
            with self.subTest(old=old, new=new):
                self.assertIn(old, text)
                self.refuse(number, text.replace(old, new, 1))
        origin = "".join(line + "\n" for line in text.split("\n")[1:3])
        self.refuse(3, text.replace(origin, "").replace("\nunits", "\n" + origin + "units"))

    def test_both_tails_of_one_walk_hold_every_plan(self) -> None:
        text = next(
            text
            for _, _, text in texts()
            if re.search("walk 0 moved [1-9][0-9]* gap low", text)
            and "walk 0 moved" in text
            and "gap high" in text
        )
        found = find_in("gap high start [^ ]* count ([0-9]+) of ([0-9]+) bound [0-9.]+", text)
        of = int(found[2])
        self.assertNotEqual(found[1], "1")
        changed = text.replace(
            found[0],
            found[0]
            .replace(f"count {found[1]} of", "count 1 of")
            .replace(found[0].split(" ")[-1], str(bound_of(1, of))),
            1,
        )
        with self.assertRaises(ReportRefused) as caught:
            Report.parse(changed)
        self.assertIn("neither tail", str(caught.exception))

    def test_checks_and_plans(self) -> None:
        text = (
            "plan-check 1\nunits 300 edges 563 districts 6\npopulation 30000 slack 500 low 4750"
            " high 5250\nend\n"
        )
        self.assertEqual(str(PlanCheck.parse(text)), text)
        self.refuse(1, text.replace("check 1", "check 2"), PlanCheck)
        self.refuse(3, text.replace("low 4750", "low 4749"), PlanCheck)
        self.refuse(5, text + "end\n", PlanCheck)
        with self.assertRaises(ReportRefused):
            Report.parse_plans("")
        with self.assertRaises(ReportRefused) as caught:
            Report.parse_plans("plan CD\n" + common.readme_report() + "plan blocks\n")
        self.assertEqual(caught.exception.number, 18)


if __name__ == "__main__":
    unittest.main()
