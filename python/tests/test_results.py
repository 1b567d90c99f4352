"""Several elections, several plans, frames, and pictures of them."""
import json
import pickle
import re
import typing
import unittest
import xml.dom.minidom
from decimal import Decimal
from fractions import Fraction

import common
from common import anything
import district_audit
from district_audit import ElectionReports, NamedReports, PlanReports, Report, checkpoints

WORDS: common.Words = dict(
    population="TOTPOP", district="CD", slack=1000, key=common.KEY, steps=300, walks=2, ends=3,
    hub_steps=50,
)
ELECTIONS = {"GOV18": ("DEM", "REP"), "SEN20": ("D2", "R2")}


def root() -> common.Root:
    """Returns the grid with a second election, in which every other unit votes the other way round.
    """
    found = common.example("grid.json")
    for place, node in enumerate(found["nodes"]):
        votes = (node["DEM"], node["REP"])
        node["D2"], node["R2"] = votes if place % 2 else votes[::-1]
    return found


class Elections(common.ProgramCase):
    def run_with(self, graph: object, **words: common.Value) -> common.Value:
        return district_audit.run(
            graph, program=self.program,
            **anything({**WORDS, "ask": "gap:high,cut-edges:low", **words}),
        )

    def test_each_is_the_run_of_its_columns(self) -> None:
        data = json.dumps(root()).encode()
        found = self.run_with(data, elections=ELECTIONS)
        self.assertIsInstance(found, ElectionReports)
        self.assertEqual(found.names, ["GOV18", "SEN20"])
        for name, (first, second) in ELECTIONS.items():
            self.assertEqual(found[name], self.run_with(data, first=first, second=second))
        self.assertNotEqual(found["GOV18"], found["SEN20"])
        # Equal plans are visited: each walk moved as often, and the lines of cut edges are equal.
        for one, other in zip(found["GOV18"].walks, found["SEN20"].walks):
            self.assertEqual(one.moved, other.moved)
            if one.score == "cut-edges":
                self.assertEqual(one, other)

    def test_graphs_of_each_kind(self) -> None:
        wanted = self.run_with(json.dumps(root()).encode(), elections=ELECTIONS)
        self.assertEqual(self.run_with(common.StandInGraph(root()), elections=ELECTIONS), wanted)
        columns = {name: WORDS[name] for name in ("population", "district")}
        prepared = district_audit.prepare(root(), **columns, elections=ELECTIONS)
        self.assertEqual(prepared.elections, ELECTIONS)
        self.assertEqual(self.run_with(prepared, elections=prepared.elections), wanted)
        self.assertEqual(self.run_with(prepared, first="D2", second="R2"), wanted["SEN20"])
        self.assertEqual(self.run_with(prepared), wanted)
        self.assertEqual(prepared.kept, ["elections GOV18, SEN20"])
        with self.assertRaises(district_audit.TypeRefused) as caught:
            self.run_with(json.dumps(root()).encode())
        self.assertIn("the argument first is missing (or elections)", str(caught.exception))
        checked = district_audit.check(prepared, program=self.program)
        self.assertEqual(
            checked, district_audit.check(json.dumps(root()).encode(), program=self.program,
                                          first="DEM", second="REP", **columns)
        )
        with district_audit.trace(prepared, key=common.KEY, program=self.program) as trace:
            self.assertEqual(trace.elections, ELECTIONS)
        with self.assertRaises(district_audit.TypeRefused) as caught:
            district_audit.plans(prepared, {}, key=common.KEY, ask="gap:high")
        self.assertIn('first="DEM", second="REP" for GOV18', str(caught.exception))

    def test_votes_of_each_election_are_tested(self) -> None:
        bad = root()
        bad["nodes"][7]["R2"] = None
        with self.assertRaises(district_audit.PrepareRefused) as caught:
            district_audit.prepare(bad, population="TOTPOP", district="CD", elections=ELECTIONS)
        self.assertEqual(
            caught.exception.faults, ['unit 7 has no R2 (choose missing="zero" or "drop")']
        )
        with self.assertRaises(district_audit.PrepareRefused):
            self.run_with(common.StandInGraph(bad), elections=ELECTIONS)

    def test_checkpoints_have_a_folder_each(self) -> None:
        data = json.dumps(root()).encode()
        with self.assertRaises(district_audit.WorkLeft):
            self.run_with(data, elections=ELECTIONS, save=1, budget=2, folder=self.folder)
        self.assertTrue((self.folder / "GOV18" / checkpoints.RECORD).exists())
        found = self.run_with(data, elections=ELECTIONS, save=1, resume=True, folder=self.folder)
        self.assertEqual(found, self.run_with(data, elections=ELECTIONS))
        for name in ("GOV18", "SEN20"):
            self.assertEqual(checkpoints.look_in(self.folder / name, 5).done, 5)

    def test_the_folder_that_is_not_there_is_named(self) -> None:
        data, place = json.dumps(root()).encode(), self.folder / "ck"
        with self.assertRaises(FileNotFoundError) as caught:
            self.run_with(data, elections=ELECTIONS, save=1, folder=place)
        self.assertEqual(str(caught.exception), f"folder={str(place)!r}: there is no such folder")

    def test_work_that_is_left_names_its_election(self) -> None:
        data = json.dumps(root()).encode()
        words = dict(elections=ELECTIONS, save=1, folder=self.folder)
        with self.assertRaises(district_audit.WorkLeft) as caught:
            self.run_with(data, budget=2, **words)
        self.assertEqual(
            str(caught.exception),
            "stopped: 2 of 5 done (election GOV18, number 1 of 2; 2 of 10 in all elections; the"
            " same call with resume=True goes on)",
        )
        with self.assertRaises(district_audit.WorkLeft) as caught:
            self.run_with(data, budget=3, resume=True, **words)
        left = caught.exception
        self.assertEqual((left.election, left.done, left.total), ("SEN20", 3, 5))
        self.assertIn("number 2 of 2; 8 of 10 in all elections", str(left))
        self.assertEqual(pickle.loads(pickle.dumps(left)).election, "SEN20")

    def test_calls_of_one_election_say_so(self) -> None:
        data = json.dumps(root()).encode()
        words: common.Words = dict(WORDS, ask="gap:high", elections=ELECTIONS)
        calls: dict[str, typing.Callable[[], object]] = {
            "plans takes": lambda: district_audit.plans(data, {}, **words),
            "check takes": lambda: district_audit.check(
                data, population="TOTPOP", district="CD", **anything({"elections": ELECTIONS})
            ),
        }
        for name, call in calls.items():
            with self.subTest(name), self.assertRaises(district_audit.TypeRefused) as caught:
                call()
            self.assertIn(
                f"{name} one election; call it once for each election, with that election's first"
                " and second", str(caught.exception),
            )
        self.assertEqual(list(self.folder.iterdir()), [])

    def test_what_is_no_election(self) -> None:
        data = json.dumps(root()).encode()
        for elections in (
            {}, [], "GOV18", {"GOV18": "DEM"}, {"GOV18": ("DEM",)}, {1: ("DEM", "REP")},
            {"": ("DEM", "REP")}, {"x": (1, 2)},
        ):
            with self.subTest(elections=elections), self.assertRaises(TypeError) as caught:
                self.run_with(data, elections=elections)
            self.assertIn('as {"GOV18": ("G18D", "G18R")}', str(caught.exception))
        for name in ("a/b", "..", "a\\b"):
            with self.assertRaises(ValueError):
                self.run_with(data, elections={name: ("DEM", "REP")}, save=1, folder=self.folder)
        with self.assertRaises(TypeError):
            self.run_with(data, elections=ELECTIONS, first="DEM")
        with self.assertRaises(ValueError):
            self.run_with(data, elections=ELECTIONS, save=1, folder=self.folder, steps=0)
        self.assertEqual(list(self.folder.glob("*")), [])
        with self.assertRaises(district_audit.PrepareRefused):
            district_audit.prepare(
                root(), population="TOTPOP", district="CD", elections=ELECTIONS, first="DEM"
            )

    def test_one_table(self) -> None:
        common.needs("pandas")
        found = self.run_with(json.dumps(root()).encode(), elections=ELECTIONS)
        frame = found.to_frame()
        self.assertEqual(list(frame.columns)[:2], ["election", "test"])
        self.assertEqual(list(frame["election"]), ["GOV18"] * 6 + ["SEN20"] * 6)
        self.assertIn("Bonferroni", ElectionReports.__doc__ or "")


class Named(unittest.TestCase):
    def setUp(self) -> None:
        self.report = Report.parse(common.readme_report())
        self.other = Report.parse(common.groups_report())

    def test_names_and_places(self) -> None:
        found = PlanReports([("CD", self.report), ("new", self.other)])
        self.assertEqual(found["new"], self.other)
        self.assertIsInstance(found, typing.Mapping)
        self.assertEqual(list(found), ["CD", "new"])
        self.assertEqual(list(found.items()), [("CD", self.report), ("new", self.other)])
        self.assertEqual(list(found.values()), [self.report, self.other])
        self.assertEqual((len(found), len(found.items()), len(found.values())), (2, 2, 2))
        self.assertEqual(dict(found), {"CD": self.report, "new": self.other})
        self.assertEqual(found, {"CD": self.report, "new": self.other})
        self.assertEqual(found, PlanReports(found))
        self.assertNotEqual(found, PlanReports([("CD", self.report)]))
        self.assertIn("CD", found)
        self.assertIsNone(found.get("old"))
        with self.assertRaises(KeyError) as caught:
            found["old"]
        self.assertIn(
            "no report has the name 'old'; the names are 'CD', 'new'", str(caught.exception)
        )
        with self.assertRaises(KeyError):
            PlanReports([("CD", self.report), ("CD", self.other)])["CD"]
        twice = PlanReports([("CD", self.report), ("CD", self.other)])
        self.assertEqual(list(twice.values()), [self.report, self.other])
        self.assertEqual(list(twice.items()), twice.pairs)
        self.assertEqual(repr(found), "<PlanReports of 2: CD, new>")
        xml.dom.minidom.parseString(f"<page>{found._repr_html_()}</page>")

    def test_frames(self) -> None:
        """Each column has one meaning, and what a test does not have is NA."""
        pandas = common.needs("pandas")
        frame = NamedReports([("one", self.report), ("two", self.other)]).to_frame()
        self.assertEqual(
            list(frame.columns),
            [
                "report", "test", "walk", "second_walk", "ask", "score", "tail", "start", "moved",
                "visited", "in_tail", "share", "bound", "rank", "of", "stopped_after",
                "start_place", "p",
            ],
        )
        for name in (
            "walk", "second_walk", "moved", "visited", "in_tail", "rank", "of", "stopped_after",
            "start_place",
        ):
            self.assertEqual(str(frame[name].dtype), "Int64", name)
        walks = district_audit.Report.parse(
            re.sub(r"^ends (seats|gap|cut).*\n", "", str(self.report), flags=re.MULTILINE).replace(
                "ends 99", "ends 0"
            )
        ).to_frame()
        for name in ("start", "share", "bound", "p"):
            self.assertEqual(str(walks[name].dtype), "float64", name)
        self.assertEqual((walks.p < 0.05).sum(), 0)
        one = self.report.to_frame()
        walk, ends = one.iloc[2], one.iloc[8]
        self.assertEqual(
            (walk.test, walk.walk, walk.ask, walk.score, walk["tail"], walk.start),
            ("walk", 0, "cut-edges:low", "cut-edges", "low", 125.0),
        )
        self.assertEqual((walk.moved, walk.visited, walk.in_tail), (5820, 100001, 2))
        self.assertTrue(pandas.isna(walk["rank"]) and pandas.isna(walk.of) and pandas.isna(walk.p))
        self.assertEqual((ends["rank"], ends.of, ends.p), (1, 100, 0.01))
        self.assertTrue(
            pandas.isna(ends.moved) and pandas.isna(ends.visited) and pandas.isna(ends.bound)
        )
        exact = self.report.to_frame(exact=True)
        self.assertEqual(
            (exact["start"][1], exact["share"][2], exact["bound"][2]),
            (Fraction(-1, 100), Fraction(2, 100001), Decimal("0.006324524")),
        )
        self.assertEqual(self.report.walks[1].start.decimal, -0.01)


class Pictures(common.FolderCase):
    def setUp(self) -> None:
        super().setUp()
        self.matplotlib = common.needs("matplotlib")
        self.report = Report.parse(common.readme_report())

    def words(self, figure: common.Value) -> str:
        """Returns all words of a figure: those on it, the titles and the names of rows."""
        found = [text.get_text() for text in figure.texts]
        for axes in figure.axes:
            found += [
                axes.get_title(loc="left"),
                *(label.get_text() for label in axes.get_yticklabels()),
            ]
            found += [text.get_text() for text in axes.texts]
        return "\n".join(found)

    def test_title_parties_and_scores(self) -> None:
        said = self.words(
            self.report.plot(
                title="Exhibit A", parties=("Democrats", "Republicans"),
                scores=["seats", "cut-edges:low"],
            )
        )
        for words in (
            "Exhibit A", "first party Democrats, second party Republicans",
            "Democrats seats low, walk 0", "cut-edges low, parallel test",
        ):
            self.assertIn(words, said)
        self.assertNotIn("gap", said)
        self.assertIn("gap high, walk 1", self.words(self.report.plot()))

    def test_title_leaves_the_head_alone(self) -> None:
        figure = self.report.plot(title="Exhibit A", parties=("A", "B"))
        drawn = figure.canvas.get_renderer()
        title, head = (text.get_window_extent(drawn) for text in figure.texts)
        self.assertGreater(title.y0, head.y1)
        self.assertGreater(head.y0, figure.axes[0]._left_title.get_window_extent(drawn).y1)
        self.assertLess(title.y1, figure.bbox.y1)

    def test_axes_that_are_given(self) -> None:
        from matplotlib.figure import Figure

        figure = Figure()
        axes = figure.add_subplot()
        self.assertIs(self.report.plot(ax=axes, title="Here", scores="gap"), figure)
        self.assertEqual(
            [label.get_text() for label in axes.get_yticklabels()],
            ["gap high, walk 0", "gap high, walk 1"],
        )
        self.assertEqual(axes.get_title(loc="left"), "Here")

    def test_what_is_no_score_or_party(self) -> None:
        for words, why in (
            (dict(scores=["sets"]), "'sets' is not one of"),
            (dict(scores="mean-median"), "the report has none of these"),
            (dict(parties="DR"), "the first and the second party"),
            (dict(parties=("D",)), "the first and the second party"),
        ):
            with self.subTest(words=words), self.assertRaises(ValueError) as caught:
                self.report.plot(**anything(words))
            self.assertIn(why, str(caught.exception))

    def test_several_plans(self) -> None:
        name = str(self.folder / "plans")
        found = PlanReports([("CD", self.report), ("new", Report.parse(common.groups_report()))])
        said = self.words(
            found.plot(name, title="Two plans", scores="cut-edges", parties=("D", "R"))
        )
        for words in (
            "Two plans", "2 plans: CD, new", "CD: cut-edges low, 2 walks", "new: cut-edges low",
            "CD: cut-edges low, parallel test",
        ):
            self.assertIn(words, said)
        self.assertTrue(
            (self.folder / "plans.png").exists() and (self.folder / "plans.svg").exists()
        )
        with self.assertRaises(ValueError):
            PlanReports([]).plot()


if __name__ == "__main__":
    unittest.main()
