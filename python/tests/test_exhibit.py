"""Tests of the exhibit: it is whole, loads nothing, escapes each label, and says what is so."""
import dataclasses
import html.parser
import json
import os
import pathlib
import re
import shlex
import subprocess
import tempfile
import typing
import unittest

import common
from common import (
    EXAMPLES,
    FolderCase,
    KEY,
    ProgramCase,
    TOP,
    WORDS,
    anything,
    groups_report,
    readme_report,
)

import district_audit
from district_audit import Report, custody, exhibit

VOID = {"meta"}
COLUMNS: common.Words = dict(pop="TOTPOP", first="DEM", second="REP", district="CD")


Attribute = tuple[str, typing.Optional[str]]


class Page(html.parser.HTMLParser):
    """A parsed page: its tags in order, its attributes and words, and whether it is balanced."""

    def __init__(self, text: str) -> None:
        super().__init__()
        self.tags: list[str] = []
        self.attributes: list[Attribute] = []
        self.words: list[str] = []
        self.unclosed: list[str] = []
        self.faults: list[str] = []
        self.feed(text)
        self.close()
        self.faults += self.unclosed

    def handle_starttag(self, tag: str, attrs: list[Attribute]) -> None:
        self.tags.append(tag)
        self.attributes += attrs
        if tag not in VOID:
            self.unclosed.append(tag)

    def handle_startendtag(self, tag: str, attrs: list[Attribute]) -> None:
        self.tags.append(tag)
        self.attributes += attrs

    def handle_endtag(self, tag: str) -> None:
        if not self.unclosed or self.unclosed.pop() != tag:
            self.faults.append(tag)

    def handle_data(self, data: str) -> None:
        self.words.append(data)

    @property
    def text(self) -> str:
        return " ".join(" ".join(self.words).split())


def guide_report(word: str) -> str:
    """Returns the report of the guide with a line that begins so."""
    text = (TOP / "docs" / "user" / "GUIDE.md").read_text(encoding="utf-8")
    return next(block for block in common.blocks_of(text) if "\n" + word in block)


def shift_report() -> str:
    """Returns the README's report with a histogram: 200002 plans, 44391 + 59205 of them seats:low.
    """
    text = readme_report().replace("district-audit 1", "district-audit 2")
    low = 44391 + 59205
    counts = [0, 0, 36, 15005, low - 15041, 89526, 6880, 0, 0]
    return text.replace("ends seats", f"shift {' '.join(map(str, counts))}\nends seats", 1)


def ends_report() -> str:
    """Returns the README's report with the parallel test alone."""
    lines = [
        line.replace("walks 2", "walks 0")
        for line in readme_report().splitlines()
        if not line.startswith("walk ")
    ]
    return "\n".join(lines + [""])


def many_walks_report() -> str:
    """Returns a report of nine walks, more than are shown one by one."""
    lines = readme_report().replace("walks 2", "walks 9").splitlines()
    walks = [
        line.replace("walk 1", f"walk {number}")
        for number in range(2, 9)
        for line in lines
        if line.startswith("walk 1 ")
    ]
    place = next(i for i, line in enumerate(lines) if line.startswith("ends "))
    return "\n".join(lines[:place] + walks + lines[place:] + [""])


TEXTS = {
    "both tests": readme_report(),
    "rules": groups_report(),
    "serial": guide_report("serial "),
    "stop": guide_report("stop "),
    "seats": shift_report(),
    "ends": ends_report(),
    "many walks": many_walks_report(),
}


def page_of(text: str, name: str = "", **options: common.Value) -> str:
    return exhibit.page([(name, Report.parse(text))], exhibit.Options(**options))


def with_call(text: str) -> Report:
    """Returns a report whose call is known, so that the page counts its numbers."""
    file = custody.File("district-audit", "a" * 64, 1)
    call = custody.Call(("run",), custody.Program(file), "", "")
    audited = district_audit.report.Audited("b" * 64, {}, {}, call)
    return dataclasses.replace(Report.parse(text), audited=audited)


def check_alone(case: unittest.TestCase, text: str) -> Page:
    """Tests that the page is complete, and refers to nothing outside of it."""
    page = Page(text)
    case.assertEqual(page.faults, [])
    case.assertFalse(
        set(page.tags)
        & {
            "script", "link", "img", "image", "iframe", "object", "embed", "base", "form", "a",
            "use", "video", "audio", "source", "foreignobject",
        }
    )
    for name, value in page.attributes:
        case.assertNotIn(
            name,
            (
                "src", "href", "xlink:href", "srcset", "action", "data", "background", "poster",
                "style",
            ),
        )
        case.assertFalse(name.startswith("on"), name)
        case.assertNotRegex(value or "", "url\\((?!#hatch\\))")
    case.assertNotRegex(text, "(?i)://|@import|javascript:|<!ENTITY")
    case.assertNotRegex(text, "url\\((?!#hatch\\))")
    case.assertIn(("content", "default-src 'none'; style-src 'unsafe-inline'"), page.attributes)
    return page


class ExhibitTests(FolderCase):
    def test_each_kind_of_report(self) -> None:
        for name, text in TEXTS.items():
            with self.subTest(name):
                report = Report.parse(text)
                page = check_alone(self, page_of(text))
                for heading in (
                    "What was asked", "How it was done", "Results", "What the numbers mean",
                    "What this exhibit does not say", "How to repeat it",
                ):
                    self.assertIn(heading, page.text)
                for ask in report.asks:
                    self.assertIn(ask, page.text)
                for number in (report.key, f"{report.rules.low} to"):
                    self.assertIn(number, page.text.replace(",", ""))
                self.assertIn(text, "".join(page.words))

    def test_theorems_are_those_of_the_tests_in_the_report(self) -> None:
        named = {
            "both tests": ("PNAS", "76"),
            "serial": ("PNAS", "76"),
            "stop": ("PNAS", "78"),
            "ends": ("76",),
            "seats": ("PNAS", "76"),
            "many walks": ("PNAS", "76"),
        }
        for name, wanted in named.items():
            text = Page(page_of(TEXTS[name])).text
            for word, sign in (
                ("PNAS", "Frieze and Pegden, PNAS 114"), ("76", "Biometrika 76"),
                ("78", "Biometrika 78"),
            ):
                self.assertEqual(sign in text, word in wanted, (name, word))
            self.assertIn("Assumption (the null hypothesis)", text)
            self.assertNotIn("Mattingly", text)
        text = Page(page_of(TEXTS["both tests"], epsilon="0.0001", alpha="0.05")).text
        self.assertIn("Mattingly", text)
        self.assertIn("0.004000000", text)

    def test_figures_have_titles_parties_and_the_enacted_value(self) -> None:
        text = page_of(TEXTS["seats"], parties=("Blue", "Green"))
        page = Page(text)
        self.assertEqual(page.tags.count("svg"), 3)
        self.assertEqual(re.findall("Figure ([0-9]+)", page.text), ["1", "2", "3"])
        for words in (
            "Districts won by Blue", "enacted plan: 3 of 6", "seats:low, enacted: 3",
            "gap:high, enacted: -1.000 %", "cut-edges:low, enacted: 125", "44.3 %",
            "so that Green is hurt", "Does Blue win unusually few districts?",
        ):
            self.assertIn(words, page.text)

    def test_numbers_beside_each_other(self) -> None:
        """Bonferroni's product, and fractions with decimals."""
        text = Page(exhibit.page([("", with_call(TEXTS["both tests"]))], exhibit.Options())).text
        self.assertIn("0.006324524 times 9 is 0.056920716", text)
        self.assertIn("-1.000 % -600/60000", text)

    def test_many_walks_have_one_row(self) -> None:
        text = Page(page_of(TEXTS["many walks"])).text
        self.assertIn("9 outlier walks cut-edges:low 125 125/1 2 to 9 of 100001", text)
        self.assertNotIn("outlier walk 1", text)

    def test_labels_of_an_axis_do_not_meet(self) -> None:
        """At most 8 units a character of 13 px; the scale is from 1 to a part of 10^2 to 10^9."""
        from district_audit import exhibit_figures as figures

        for power in range(2, 10):
            row = figures.Row("name", [(10.0**-power, 0.5)], "words")
            drawn = figures.walks_figure(1, "title", [row])
            found = re.findall(r'<text x="([\d.]+)" [^>]*>(1(?:/[\d,]+)?)</text>', drawn)
            self.assertGreater(len(found), 1)
            ends = sorted((float(x) - 4 * len(word), float(x) + 4 * len(word)) for x, word in found)
            for (_, end), (begin, _) in zip(ends, ends[1:]):
                self.assertLessEqual(end, begin, f"10^-{power}: {found}")

    def test_every_label_is_escaped(self) -> None:
        bad = [
            "<script>alert(1)</script>", 'A & "B"', "'><img src=x onerror=y>", "]]> <!-- -->",
            "x\u202ey\x07z", "</pre></title></style>", "{{x}} %s %d", "\udc80",
        ]
        plain = Page(
            page_of(TEXTS["both tests"], parties=("A", "B"), title="T", notes=["n"], command="c")
        )
        for label in bad:
            with self.subTest(label):
                text = page_of(
                    TEXTS["both tests"], parties=(label, label), title=label, notes=[label],
                    command=label,
                )
                page = Page(text)
                self.assertEqual(page.tags, plain.tags)
                self.assertEqual(page.faults, [])
                self.assertGreaterEqual(page.text.count(" ".join(show_label(label).split())), 8)
                text.encode("utf-8")

    def test_columns_districts_and_plans_are_escaped(self) -> None:
        bad = '<b>&\'" onload="x'
        graph = json.loads((EXAMPLES / "data" / "grid.json").read_text(encoding="utf-8"))
        for node in graph["nodes"]:
            node[bad] = node.pop("DEM")
            node["CD"] = bad + node["CD"]
        report = Report.parse(readme_report())
        columns: common.Words = dict(COLUMNS, first=bad)
        data = json.dumps(graph).encode("utf-8")
        options = exhibit.Options(graph=data, columns=columns)
        text = exhibit.page([(bad, report), (bad + "2", report)], options)
        page = check_alone(self, text)
        # The one element b that the page has itself: it names the warnings.
        self.assertEqual(page.tags[page.tags.index("body"):page.tags.index("h2")].count("b"), 1)
        self.assertEqual(page.text.count("Plan " + bad), 2)
        self.assertIn(shlex.quote(bad), page.text)
        self.assertIn(f"the first party (column {bad})", page.text)

    def test_the_district_table(self) -> None:
        graph = json.loads((EXAMPLES / "data" / "grid.json").read_text(encoding="utf-8"))
        report = Report.parse(readme_report())
        path = self.folder / "exhibit.html"
        report.exhibit(
            path, graph=EXAMPLES / "data" / "grid.json", columns=COLUMNS, parties=("X", "Y")
        )
        page = check_alone(self, path.read_text(encoding="utf-8"))
        for label in sorted({node["CD"] for node in graph["nodes"]}):
            nodes = [node for node in graph["nodes"] if node["CD"] == label]
            people, first, second = (
                sum(node[column] for node in nodes) for column in ("TOTPOP", "DEM", "REP")
            )
            share = f"{10_000 * first // (first + second) / 100:.2f}"
            off = f"{people - 5000:+.1f}" if people != 5000 else "0.0"
            percent = f"{(people - 5000) / 50:+.3f}" if people != 5000 else "0.000"
            more = "X" if first > second else "Y"
            row = f"{label} {len(nodes)} {people} {off} {percent} {first} {second} {share} {more}"
            self.assertIn(row, page.text)
        self.assertIn("SHA-256 of the graph of Table 1, 61049 bytes", page.text)

    def test_shares_are_rounded_down_everywhere(self) -> None:
        """By hand: 19999 of 40000 is 49.9975 percent, and 46896 of 100000 is 46.896 percent."""
        from fractions import Fraction

        from district_audit import districts, judging
        from district_audit.decimals import round_down

        for value, places, wanted in (
            (Fraction(499_975, 10_000), 2, "49.99"), (Fraction(-499_975, 10_000), 2, "-49.99"),
            (Fraction(-1, 1000), 2, "0.00"), (Fraction(7, 4), 1, "1.7"), (Fraction(5), 0, "5"),
        ):
            self.assertEqual(round_down(value, places), wanted)
        self.assertEqual(round_down(Fraction(12_345, 4), 1, "+", ","), "+3,086.2")
        for group, whole, wanted in ((19_999, 40_000, "49.99"), (46_896, 100_000, "46.89")):
            self.assertEqual(judging.percent(group, whole), wanted + " %")
            share = Fraction(group, whole)
            one = districts.District(
                "03", 0, 1, whole, Fraction(1, 4), Fraction(1, 80_000), group, whole - group, share,
                group, whole, share, None, None, 1,
            )
            titles, rows = districts.shown_rows([one])
            cells = dict(zip(titles, rows[0]))
            self.assertEqual(cells["group share"], wanted + " %")
            self.assertEqual(cells["first share"], wanted + " %")
            self.assertEqual((cells["deviation"], cells["deviation share"]), ("+0.2", "0.00 %"))
            self.assertEqual(self.table_shares(group, whole), [wanted, wanted])

    def table_shares(self, group: int, whole: int) -> list[str]:
        """Returns both shares in the exhibit's row of one district."""
        from district_audit import exhibit_districts

        one = exhibit_districts.District("03", 1, whole, group, whole - group, group, whole)
        report = Report.parse(readme_report())
        page = Page("".join(exhibit.district_table(report, [one], ("A", "B"), False)))
        self.assertIn("a share below one half never reads 50.00", page.text)
        return re.findall(r"\b4\d\.\d\d\b", page.text)

    def test_another_graph_is_refused(self) -> None:
        report, options = Report.parse(readme_report()), dict(columns=COLUMNS)
        graph = json.loads((EXAMPLES / "data" / "grid.json").read_text(encoding="utf-8"))
        first, last = graph["nodes"][0], graph["nodes"][-1]
        self.assertNotEqual(first["CD"], last["CD"])

        def refuse(why: str, change: typing.Callable[[common.Root], object]) -> None:
            other = json.loads(json.dumps(graph))
            change(other)
            with self.assertRaisesRegex(ValueError, why):
                report.exhibit(
                    self.folder / "x.html", graph=json.dumps(other).encode(), **anything(options)
                )
            self.assertFalse((self.folder / "x.html").exists())

        refuse("people", lambda other: other["nodes"][0].update(TOTPOP=1))
        refuse("districts", lambda other: other["nodes"][0].update(CD="new"))
        refuse("gap", lambda other: other["nodes"][0].update(DEM=other["nodes"][0]["DEM"] + 1))
        refuse("edges", lambda other: other["adjacency"][0].append({"id": last["id"]}))
        refuse("whole number", lambda other: other["nodes"][0].update(REP=1.5))
        refuse("label", lambda other: other["nodes"][0].pop("CD"))
        with self.assertRaisesRegex(ValueError, "names of the columns"):
            report.exhibit(self.folder / "x.html", graph=EXAMPLES / "data" / "grid.json")

    def test_options_that_do_not_belong_together(self) -> None:
        report = Report.parse(readme_report())
        for wrong in (
            dict(epsilon="0.1"), dict(alpha="0.1"), dict(parties=("A",)), dict(parties="AB"),
            dict(epsilon="2", alpha="1"),
        ):
            with self.assertRaises(ValueError):
                report.exhibit(self.folder / "x.html", **anything(wrong))
        with self.assertRaisesRegex(ValueError, "one call"):
            exhibit.page([("a", report), ("b", Report.parse(groups_report()))], exhibit.Options())
        with self.assertRaisesRegex(ValueError, "needs a report"):
            exhibit.page([], exhibit.Options())

    def test_each_ask_names_the_party_that_it_hurts(self) -> None:
        from district_audit import exhibit_text as texts

        parties = ("Blue", "Green")
        for score, words in (
            ("seats", "A low value hurts Blue, a high value hurts Green."),
            ("seats", "a tie counts for Green"),
            ("mean-median", "Below zero, Blue does worse in the middle district"),
            ("mean-median", "which hurts Blue. Above zero hurts Green."),
            ("gap", "the wasted votes of Green less those of Blue"),
            ("gap", "Above zero, Green wastes more, which hurts Green. Below zero hurts Blue."),
            ("cut-edges", "The score favors no party by itself."),
        ):
            self.assertIn(words, texts.definition(score, parties))
        for ask, words in (
            ("seats:low", "Does Blue win unusually few districts?"),
            ("seats:high", "Does Blue win unusually many districts?"),
            ("gap:low", "unusually low, so that Blue is hurt?"),
            ("gap:high", "unusually high, so that Green is hurt?"),
            ("mean-median:low", "unusually low, so that Blue is hurt?"),
            ("mean-median:high", "unusually high, so that Green is hurt?"),
            ("cut-edges:low", "Does the plan cut unusually few edges?"),
            ("cut-edges:high", "Does the plan cut unusually many edges?"),
        ):
            self.assertIn(words, texts.question(ask, parties))

    def test_an_unknown_score_is_an_error(self) -> None:
        from fractions import Fraction
        from district_audit import exhibit_text as texts

        calls: list[typing.Callable[[], str]] = [
            lambda: texts.show("ratio", Fraction(1)),
            lambda: texts.definition("ratio", ("Blue", "Green")),
            lambda: texts.question("ratio:low", ("Blue", "Green")),
        ]
        for call in calls:
            with self.assertRaisesRegex(ValueError, "^unknown score ratio$"):
                call()

    def test_decimals_are_rounded_to_the_nearest(self) -> None:
        from fractions import Fraction
        from district_audit import exhibit_text as texts

        for value, places, wanted in (
            (Fraction(1, 3), 3, "0.333"), (Fraction(2, 3), 3, "0.667"), (Fraction(-1, 2), 0, "-1"),
            (Fraction(5), 1, "5.0"), (Fraction(-1, 10**6), 3, "0.000"),
            (Fraction(19995, 10000), 3, "2.000"),
        ):
            self.assertEqual(texts.decimal(value, places), wanted)
        self.assertEqual(texts.decimal(Fraction(1, 8), 2, True), "+0.13")


def show_label(label: str) -> str:
    """Returns a label as a page shows it: what cannot be seen is a code point."""
    for hidden in "\u202e\x07\udc80":
        label = label.replace(hidden, f"\\u{ord(hidden):04x}")
    return label


class ProgramTests(ProgramCase):
    def printed_command(self, page: Page) -> str:
        return next(words for words in page.words if words.startswith("district-audit "))

    def repeats(self, name: str, columns: common.Words, **words: common.Value) -> None:
        """Tests that the command that an exhibit prints makes the report again, byte for byte."""
        report = district_audit.run(
            str(EXAMPLES / "data" / name), program=self.program, key=KEY, **columns, **words
        )
        path = self.folder / "exhibit.html"
        report.exhibit(path, graph=EXAMPLES / "data" / name, columns=columns)
        command = self.printed_command(Page(path.read_text(encoding="utf-8")))
        room = pathlib.Path(tempfile.mkdtemp(dir=self.folder))
        (room / "district-audit").symlink_to(self.program)
        (room / "graph.json").symlink_to(EXAMPLES / "data" / name)
        again = subprocess.run(
            ["sh", "-c", command], cwd=room, stdout=subprocess.PIPE, check=True,
            env=dict(os.environ, PATH=f"{room}:{os.environ['PATH']}"),
        )
        self.assertEqual(again.stdout.decode(), str(report))

    def test_the_command_makes_the_report_again(self) -> None:
        plain = {key: value for key, value in WORDS.items() if key != "slack"}
        self.repeats("cycle.json", plain, slack=5000, steps=127, ask="gap:low", serial=True)
        self.repeats(
            "cycle.json", plain, slack=5000, walks=0, ends=30, stop=3, ask="gap:low", hub_steps=20,
            max_cut=4,
        )
        self.repeats(
            "cycle.json", plain, slack=5000, walks=12, steps=8, shift=True, source=True,
            ask="seats:low,cut-edges:high",
        )
        self.repeats(
            "groups.json", dict(plain, region="county", group="bvap", group_of="vap"), steps=500,
            ends=9, hub_steps=50, ask="mean-median:low", max_splits=2, max_split=3,
            group_districts=1, source=True,
        )

    def test_the_worked_example_of_signs(self) -> None:
        """The values of docs/user/READING_A_REPORT.md, by hand: 90, 45 and 45 votes of 100 each."""
        votes = [(90, 10), (45, 55), (45, 55)]
        graph = {
            "directed": False,
            "multigraph": False,
            "graph": [],
            "nodes": [dict(id=i, pop=100, a=a, b=b, d=i) for i, (a, b) in enumerate(votes)],
            "adjacency": [[{"id": 1}], [{"id": 0}, {"id": 2}], [{"id": 1}]],
        }
        data = json.dumps(graph).encode()
        asks = "seats:low,mean-median:low,gap:low,cut-edges:low"
        for first, second, seats, sign in (("a", "b", 1, -1), ("b", "a", 2, 1)):
            columns: common.Words = dict(pop="pop", first=first, second=second, district="d")
            report = district_audit.run(
                data, program=self.program, key=KEY, steps=1, ask=asks, **columns
            )
            found = {walk.score: str(walk.start) for walk in report.walks}
            self.assertEqual(
                found,
                {
                    "seats": f"{seats}/1",
                    "cut-edges": "2/1",
                    "mean-median": f"{sign * 900_000_000}/6000000000",
                    "gap": f"{sign * 220}/600",
                },
            )
            page = Page(exhibit.page([("", report)], exhibit.Options(graph=data, columns=columns)))
            for words in (f"{sign * 15:+}.000 %", f"{'+-'[sign < 0]}36.667 %"):
                self.assertIn(words, page.text)

    def test_other_bytes_than_those_of_the_source_are_refused(self) -> None:
        data = (EXAMPLES / "data" / "cycle.json").read_bytes()
        report = district_audit.run(
            data, program=self.program, key=KEY, steps=8, ask="gap:low", source=True, **WORDS
        )
        for one in (report, Report.parse(str(report))):
            one.exhibit(self.folder / "x.html", graph=data)
            with self.assertRaisesRegex(ValueError, "other bytes"):
                one.exhibit(self.folder / "x.html", graph=data + b"\n")

    def test_a_graph_in_memory_is_compared_by_its_bytes(self) -> None:
        """No score is asked that tells the votes, and the report does not name its source."""
        root = json.loads((EXAMPLES / "data" / "cycle.json").read_bytes())
        words: common.Words = dict(
            WORDS, key=KEY, steps=8, ask="cut-edges:low", program=self.program
        )
        report = district_audit.run(common.StandInGraph(root), **words)
        other = json.loads(json.dumps(root))
        one, two = other["nodes"][:2]
        self.assertNotEqual(one["a"], two["a"])
        one["a"], two["a"] = two["a"], one["a"]
        path = self.folder / "x.html"
        for graph in (
            common.StandInGraph(root),
            district_audit.prepare(common.StandInGraph(root), **common.COLUMNS),
        ):
            report.exhibit(path, graph=graph)
            text = Page(path.read_text(encoding="utf-8")).text
            self.assertIn("The graph has the bytes that the program read", text)
        for graph in (
            common.StandInGraph(other),
            district_audit.prepare(common.StandInGraph(other), **common.COLUMNS),
            json.dumps(root).encode(),
        ):
            with self.assertRaisesRegex(ValueError, "other bytes"):
                report.exhibit(self.folder / "y.html", graph=graph)
        self.assertFalse((self.folder / "y.html").exists())
        alone = Report.parse(str(report))
        self.assertEqual((alone, alone.audited), (report, None))
        alone.exhibit(path, graph=common.StandInGraph(other), columns=common.COLUMNS)
        text = Page(path.read_text(encoding="utf-8")).text
        self.assertIn("The report does not name the bytes that were read", text)

    def test_a_graph_in_memory_is_prepared_as_for_the_run(self) -> None:
        """Votes are made whole by the rule of the call, and a further pair is joined."""
        root = json.loads((EXAMPLES / "data" / "cycle.json").read_bytes())
        root["nodes"][0]["a"] += 0.4
        ids = [node["id"] for node in root["nodes"]]
        words: common.Words = dict(
            WORDS, key=KEY, steps=8, ask="cut-edges:low", program=self.program
        )
        with self.assertWarns(district_audit.GraphChanged):
            report = district_audit.run(
                common.StandInGraph(root), numbers="floor", join=[(ids[0], ids[2])], **words
            )
        path = self.folder / "x.html"
        report.exhibit(path, graph=common.StandInGraph(root))
        self.assertIn("bytes that the program read", Page(path.read_text(encoding="utf-8")).text)

    def test_a_graph_that_was_prepared_before(self) -> None:
        """Its votes are not whole: what `prepare` answered was audited, and not the object."""
        root = json.loads((EXAMPLES / "data" / "cycle.json").read_bytes())
        root["nodes"][0]["a"] += 0.4
        graph = common.StandInGraph(root)
        prepared = district_audit.prepare(graph, numbers="floor", **common.COLUMNS)
        report = district_audit.run(
            prepared, slack=5000, key=KEY, steps=8, ask="cut-edges:low", program=self.program
        )
        report.exhibit(self.folder / "x.html", graph=prepared)
        with self.assertRaisesRegex(ValueError, "the answer of `prepare` that was audited"):
            report.exhibit(self.folder / "y.html", graph=graph)

    def test_plans_are_compared_with_the_graph(self) -> None:
        root = json.loads((EXAMPLES / "data" / "cycle.json").read_bytes())
        table = {"other": {node["id"]: node["d"] for node in root["nodes"]}}
        words: common.Words = dict(
            WORDS, key=KEY, steps=8, ask="cut-edges:low", program=self.program
        )
        reports = district_audit.plans(common.StandInGraph(root), table, **words)
        path = self.folder / "x.html"
        district_audit.exhibit_plans(path, reports, graph=common.StandInGraph(root))
        self.assertIn("bytes that the program read", Page(path.read_text(encoding="utf-8")).text)
        root["nodes"][0]["a"], root["nodes"][0]["b"] = 5, 7
        with self.assertRaisesRegex(ValueError, "other bytes"):
            district_audit.exhibit_plans(path, reports, graph=common.StandInGraph(root))

    def test_columns_are_those_of_the_source(self) -> None:
        """Another election's votes are never shown as those of the report."""
        graph = json.loads((EXAMPLES / "data" / "grid.json").read_bytes())
        for node in graph["nodes"]:
            node["A"], node["B"] = node["REP"], node["DEM"]
        words: common.Words = dict(population="TOTPOP", district="CD", slack=1000)
        prepared = district_audit.prepare(
            json.dumps(graph).encode(), first="A", second="B", keep=["DEM", "REP"], **words
        )
        report = district_audit.run(
            prepared, first="DEM", second="REP", key=KEY, steps=50, ask="cut-edges:low",
            source=True, program=self.program, slack=1000,
        )
        with tempfile.TemporaryDirectory() as folder:
            path = pathlib.Path(folder) / "page.html"
            report.exhibit(path, graph=prepared, parties=("D", "R"))
            self.assertIn("--first DEM", Page(path.read_text(encoding="utf-8")).text)
            with self.assertRaises(ValueError):
                report.exhibit(
                    path, graph=prepared,
                    columns=dict(pop="TOTPOP", first="REP", second="DEM", district="CD"),
                )

    def test_several_plans(self) -> None:
        table = {
            "kept": {"w": 1, "x": 1, "y": 2, "z": 2},
            "turned": {"w": 1, "x": 2, "y": 2, "z": 1},
        }
        plans = district_audit.plans(
            str(EXAMPLES / "data" / "cycle.json"), table, program=self.program, key=KEY, steps=8,
            ask="gap:low", ends=9, **WORDS,
        )
        path = self.folder / "exhibit.html"
        district_audit.exhibit_plans(
            path, plans, graph=EXAMPLES / "data" / "cycle.json", columns=WORDS
        )
        page = Page(path.read_text(encoding="utf-8"))
        self.assertEqual(page.faults, [])
        self.assertEqual(re.findall("Figure ([0-9]+)", page.text), list("123456"))
        for name in ("Plan d", "Plan kept", "Plan turned"):
            self.assertEqual(page.text.count(name), 1, name)
        self.assertTrue(self.printed_command(page).startswith("district-audit plans "))
        self.assertEqual(page.text.count("Table 1."), 1)

    def test_plans_with_boundaries_of_other_lengths(self) -> None:
        """The cycle w, x, y, z has sides of 1, 2, 4 and 8: the own plan cuts xy and zw, 10 in all,
        and the other plan wx and yz, 5 in all.
        """
        root = json.loads((EXAMPLES / "data" / "cycle.json").read_bytes())
        sides = {"wx": 1, "xy": 2, "yz": 4, "wz": 8}
        for node, entries in zip(root["nodes"], root["adjacency"]):
            for entry in entries:
                entry["side"] = sides["".join(sorted(node["id"] + entry["id"]))]
        plans = district_audit.plans(
            json.dumps(root).encode(), {"turned": {"w": 1, "x": 2, "y": 2, "z": 1}}, key=KEY,
            steps=8, ask="cut-length:low", length="side", program=self.program, **WORDS,
        )
        self.assertEqual([report.rules.cut_length for report in plans.values()], [10, 5])
        path = self.folder / "exhibit.html"
        district_audit.exhibit_plans(path, plans, graph=json.dumps(root).encode())
        text = Page(path.read_text(encoding="utf-8")).text
        self.assertIn("The enacted plan has 10.", text)
        self.assertIn("--length side", text)

    def audit_rules(self) -> tuple[bytes, Report, dict[str, str]]:
        """Returns a graph, a report of it with each rule but without its source, and the columns.

        `keep` freezes units 0 and 1 and `few` unit 0; each side is 2 long, and each `other` 3. The
        report has 6 regions, 2 majorities of 4 and 32 cut edges, as its guide says.
        """
        root = json.loads((EXAMPLES / "data" / "groups.json").read_bytes())
        for place, node in enumerate(root["nodes"]):
            node.update(keep=place < 2, few=int(place < 1))
        for entries in root["adjacency"]:
            for entry in entries:
                entry.update(side=2, other=3)
        columns = dict(
            pop="pop", first="a", second="b", district="d", region="county", group="bvap",
            group_of="vap", freeze="keep", length="side",
        )
        data = json.dumps(root).encode()
        report = district_audit.run(
            data, key=KEY, slack=1000, steps=9, ask="cut-edges:low", group_districts=2,
            program=self.program, **anything(columns),
        )
        return data, Report.parse(str(report)), columns

    def test_columns_of_rules_are_compared(self) -> None:
        data, report, columns = self.audit_rules()
        path = self.folder / "x.html"
        for word, wrong, why in (
            ("freeze", "few", "'few' is not .* 1 frozen units, and the report 2"),
            ("group", "vap", "'vap' is not .* with it of 'vap' the graph has 4 .* report 2"),
            ("region", "d", "'d' is not .* 4 regions, and the report 6"),
            ("length", "other", "'other' is not .* 96 as the length .*, and the report 64"),
            ("freeze", "county", "neither true, false nor a whole number in column 'county'"),
        ):
            with self.subTest(word), self.assertRaisesRegex(ValueError, why):
                report.exhibit(path, graph=data, columns={**columns, word: wrong})
        self.assertFalse(path.exists())
        report.exhibit(path, graph=data, columns=columns)
        text = Page(path.read_text(encoding="utf-8")).text
        self.assertIn("districts with a majority of the group and of frozen units", text)

    def test_another_column_with_as_many_regions(self) -> None:
        """The column `mixed` has the report's 6 regions. Each lies in all 4 districts, which makes
        6 times 3 splits.
        """
        data, report, columns = self.audit_rules()
        root = json.loads(data)
        for place, node in enumerate(root["nodes"]):
            node["mixed"] = place % 6
        report = dataclasses.replace(
            report, rules=dataclasses.replace(report.rules, max_splits=3, max_split_regions=3)
        )
        path = self.folder / "x.html"
        with self.assertRaisesRegex(ValueError, "18 splits of regions, and the report allows 3"):
            report.exhibit(
                path, graph=json.dumps(root).encode(), columns={**columns, "region": "mixed"}
            )
        report = dataclasses.replace(report, rules=dataclasses.replace(report.rules, regions=4))
        with self.assertRaisesRegex(ValueError, "the column of the districts, too"):
            report.exhibit(path, graph=data, columns={**columns, "region": "d"})
        self.assertFalse(path.exists())

    def test_missing_columns_of_rules_are_asked_for(self) -> None:
        data, report, columns = self.audit_rules()
        path = self.folder / "x.html"
        few = {word: name for word, name in columns.items() if word not in ("freeze", "length")}
        why = "freeze .the report has frozen 2., length .the report has cut-length 64.: give"
        for graph in (None, data):
            with self.assertRaisesRegex(ValueError, why):
                report.exhibit(path, graph=graph, columns=few)
        with self.assertRaisesRegex(ValueError, why):
            report.exhibit(path, graph=data, columns=few, command="make report")
        report.exhibit(path, columns=few, command="make report")
        report.exhibit(path)
        text = Page(path.read_text(encoding="utf-8")).text
        self.assertIn("put the names of the columns in the place of the words", text)
        self.assertIn("--freeze COLUMN_OF_FROZEN_UNITS", text)
        report.exhibit(path, columns=columns)
        self.assertNotIn("COLUMN_OF", path.read_text(encoding="utf-8"))

    def audit_turned(self) -> tuple[pathlib.Path, bytes, district_audit.PlanReports]:
        """Returns a graph, a table of a plan with as many cut edges, and the reports of both."""
        path = EXAMPLES / "data" / "cycle.json"
        table = b"id,turned\nw,1\nx,2\ny,2\nz,1\n"
        words: common.Words = dict(WORDS, key=KEY, steps=8, ask="cut-edges:low")
        return path, table, district_audit.plans(path, table, program=self.program, **words)

    def test_another_plan_than_the_graphs_own_gets_no_table(self) -> None:
        """Both plans cut two edges, so that no asked score tells them apart."""
        graph, _, plans = self.audit_turned()
        path = self.folder / "x.html"
        text = "".join(f"plan {name}\n{report}" for name, report in plans.items())
        read = Report.parse_plans(text)
        for pairs in (list(plans.items()), read):
            with self.assertRaisesRegex(ValueError, "on plan turned, .* of plan d, .*leave graph"):
                pairs[1][1].exhibit(path, graph=graph, columns=WORDS)
            with self.assertRaisesRegex(ValueError, "on plan turned"):
                district_audit.exhibit_plans(path, pairs[1:], graph=graph, columns=WORDS)
            self.assertFalse(path.exists())
        plans["d"].exhibit(path, graph=graph)
        text = Page(path.read_text(encoding="utf-8")).text
        self.assertIn("01 2 2 0.0 0.000 4 3 57.14", text)
        self.assertIn("The report is on plan d, the graph's own.", text)
        # The advice of the refusal leads to the same report.
        prepared = district_audit.prepare(
            str(graph), population="pop", first="a", second="b",
            assignment={"w": 1, "x": 2, "y": 2, "z": 1},
        )
        alone = district_audit.run(
            prepared, slack=5000, key=KEY, steps=8, ask="cut-edges:low", program=self.program
        )
        self.assertEqual(alone, plans["turned"])
        alone.exhibit(path, graph=prepared)
        text = Page(path.read_text(encoding="utf-8")).text
        self.assertIn("1 2 2 0.0 0.000 5 2 71.42", text)

    def test_the_command_of_one_of_several_plans(self) -> None:
        graph, table, plans = self.audit_turned()
        path = self.folder / "x.html"
        plans["turned"].exhibit(path)
        page = Page(path.read_text(encoding="utf-8"))
        for words in (
            "The report is on plan turned, which on this page is what the text calls the enacted",
            "It is one of 2 plans of one call; the others: d.",
            "a report for each of 2 plans, in this order: d, turned.",
            "The table has 1 bound or p-value; for all 2 plans together 2 were computed.",
        ):
            self.assertIn(words, page.text)
        command = self.printed_command(page)
        self.assertTrue(command.startswith("district-audit plans "))
        (self.folder / "district-audit").symlink_to(self.program)
        (self.folder / "graph_and_table").write_bytes(
            b"".join(graph.read_bytes().split(b"\n")) + b"\n" + table
        )
        again = subprocess.run(
            ["sh", "-c", command], cwd=self.folder, stdout=subprocess.PIPE, check=True,
            env=dict(os.environ, PATH=f"{self.folder}:{os.environ['PATH']}"),
        )
        self.assertEqual(Report.parse_plans(again.stdout.decode()), list(plans.items()))

    def test_one_of_several_elections(self) -> None:
        """Two walks and one test of ends of two asks are 6 numbers; those 3 of the gap are others
        in each of 3 elections, and those 3 of cut edges are the same: 3 times 3 and 3 are 12.
        """
        reports = district_audit.run(
            EXAMPLES / "data" / "groups.json", population="pop", district="d", slack=1000, key=KEY,
            elections={"GOV<18>": ("a", "b"), "SEN20": ("b", "a"), "PRES": ("bvap", "vap")},
            walks=2, steps=99, ends=9, hub_steps=9, ask="gap:low,cut-edges:low",
            program=self.program,
        )
        path = self.folder / "x.html"
        reports["GOV<18>"].exhibit(path, graph=EXAMPLES / "data" / "groups.json")
        page = Page(path.read_text(encoding="utf-8"))
        self.assertEqual(page.faults, [])
        for words in (
            "The report is on election GOV<18>, one of 3 elections of one call; the others: SEN20,"
            " PRES.",
            "The table has 6 bounds and p-values; for all 3 elections together 12 were computed"
            " (those on cut edges are the same in each, and count once).",
            "times 12 is",
        ):
            self.assertIn(words, page.text)
        self.assertTrue(self.printed_command(page).startswith("district-audit run "))
        refused = "several elections or limits, and not of several plans"
        with self.assertRaisesRegex(ValueError, refused):
            district_audit.exhibit_plans(path, reports)


if __name__ == "__main__":
    unittest.main()
