"""Each slip gives the warning of its class, and a sound map gives none."""
import contextlib
import copy
import io
import json
import pathlib
import tempfile
import typing
import unittest
import warnings

import common
from common import anything
import district_audit
from district_audit import commands
from district_audit.warnings import (
    AllUnitsFrozen,
    ColumnRounded,
    DistrictCannotChange,
    DistrictFrozen,
    DistrictRounded,
    DistrictWithoutPeople,
    DistrictWithoutVotes,
    LengthsRounded,
    LooseTolerance,
    MapWarning,
    MoreVotesThanPeople,
    NoCompactnessLimit,
    NoPeople,
    OneSidedVotes,
    PercentagesNotCounts,
    SharesNotCounts,
    SmallGroupShare,
    read,
)

SIDE = 6
COLUMNS: common.Words = dict(
    population="pop", elections={"gov": ("a", "b"), "sen": ("c", "e")}, district="d", group="g",
    group_of="vap", freeze="f", length="length", slack=2000,
)


def sound() -> common.Root:
    """Returns six by six units in three districts of two columns each, with 36,000 people."""
    nodes = [
        {
            "id": f"u{x}{y}", "pop": 1000, "vap": 800, "g": 100 + 20 * x, "a": 200 + 10 * y,
            "b": 230, "c": 150, "e": 140 + x, "d": x // 2, "f": False,
        }
        for x in range(SIDE)
        for y in range(SIDE)
    ]
    return {
        "nodes": nodes,
        "adjacency": [
            [
                {"id": f"u{x + i}{y + j}", "length": 100}
                for i, j in ((0, 1), (1, 0), (0, -1), (-1, 0))
                if 0 <= x + i < SIDE and 0 <= y + j < SIDE
            ]
            for x in range(SIDE)
            for y in range(SIDE)
        ],
    }


def change(column: str, value: common.Value, districts: typing.Sequence[int] = (0, 1, 2)
           ) -> typing.Callable[[common.Root], None]:
    """Returns what writes a value, or the value of a function, into a column of districts."""

    def apply(root: common.Root) -> None:
        for node in root["nodes"]:
            if node["d"] in districts:
                node[column] = value(node) if callable(value) else value

    return apply


def one_unit(column: str, value: common.Value) -> typing.Callable[[common.Root], None]:
    """Returns what writes a value into a column of the unit u00."""

    def apply(root: common.Root) -> None:
        root["nodes"][0][column] = value

    return apply


def lengths(value: float) -> typing.Callable[[common.Root], None]:
    def apply(root: common.Root) -> None:
        for entries in root["adjacency"]:
            for entry in entries:
                entry["length"] = value

    return apply


def both(*parts: typing.Callable[[common.Root], None]) -> typing.Callable[[common.Root], None]:
    def apply(root: common.Root) -> None:
        for part in parts:
            part(root)

    return apply


Slip = tuple[str, typing.Callable[[common.Root], None], common.Words, list[tuple[type, str]]]
# The slip, how it is made, arguments of `prepare`, and each warning with a part of its text.
SLIPS: list[Slip] = [
    ("no people", both(change("pop", 0), change("a", 0), change("b", 0), change("c", 0),
                       change("e", 0)), {},
     [(NoPeople, "column pop: the population is 0 in every unit"),
      (DistrictWithoutVotes, "a and b"), (DistrictWithoutVotes, "c and e")]),
    ("no people in a district", both(change("pop", 0, [1]), change("a", 0, [1]),
                                     change("b", 0, [1]), change("c", 0, [1]),
                                     change("e", 0, [1])), {},
     [(DistrictWithoutPeople, "districts without people in pop: 1"),
      (DistrictWithoutVotes, "a and b, which nobody wins and which have no share: 1"),
      (DistrictWithoutVotes, "c and e")]),
    ("no votes in a district", both(change("c", 0, [2]), change("e", 0, [2])), {},
     [(DistrictWithoutVotes, "c and e, which nobody wins and which have no share: 2")]),
    ("a unit with twice the votes", one_unit("a", 1770), {},
     [(MoreVotesThanPeople, 'people in pop: 1 of 36: "u00"')]),
    ("a unit with votes and no people", one_unit("pop", 0), {},
     [(MoreVotesThanPeople, "a and b as people in pop: 1 of 36"),
      (MoreVotesThanPeople, "c and e as people in pop: 1 of 36")]),
    ("more votes than people in all", change("a", 800), {},
     [(MoreVotesThanPeople, "37080 votes in a and b, and 36000 people in pop")]),
    ("a tolerance of one half", lambda root: None, {"slack": None, "tolerance": 0.5},
     [(LooseTolerance, "slack=5000 lets a district have 50 percent more or fewer people than the"
                       " ideal: for 0.5 percent write tolerance=0.005")]),
    ("a tolerance of one", lambda root: None, {"slack": None, "tolerance": 1},
     [(LooseTolerance, "for 1 percent write tolerance=0.01")]),
    ("a share of one half of a percent", change("a", 210), {"group_share": 50},
     [(SmallGroupShare, "for 50 percent write 5000")]),
    ("missing votes of one party", both(one_unit("e", None), one_unit("a", None)),
     {"missing": "zero"},
     [(OneSidedVotes, 'votes in e were missing and became 0, and that keep their votes in c: 1 of'
                      ' 36: "u00"'), (OneSidedVotes, "votes in a were missing")]),
    ("shares", change("a", lambda node: 0.5 if node["d"] else 0.25), {"numbers": "nearest"},
     [(SharesNotCounts, "column a")]),
    ("percentages that add up", both(change("a", 45.25), change("b", 54.75)),
     {"numbers": "nearest"},
     [(PercentagesNotCounts, "columns a and b"), (DistrictRounded, "column a"),
      (DistrictRounded, "column b")]),
    ("percentages of the second election", both(change("c", 45.25), change("e", 54.75)),
     {"numbers": "nearest"},
     [(PercentagesNotCounts, "columns c and e"), (DistrictRounded, "column c"),
      (DistrictRounded, "column e")]),
    ("percentages of one column", both(change("pop", 1001), change("a", 45.25),
                                       change("b", 200)), {"numbers": "nearest"},
     [(PercentagesNotCounts, "column a may have percentages")]),
    ("fractions of small numbers", change("a", lambda node: 3.4 if node["d"] else 200),
     {"numbers": "nearest"},
     [(DistrictRounded, "the total of 2 of 3 districts by more than 1")]),
    ("fractions that lose much", change("a", 110.4 / 80), {"numbers": "nearest"},
     [(ColumnRounded, "column a: making its values whole changes them by 27.5 percent"),
      (DistrictRounded, "column a")]),
    ("fractions that move a district", change("a", 200.25, [1]), {"numbers": "nearest"},
     [(DistrictRounded, "the total of 1 of 3 districts by more than 1, and of 1 the most, by"
                        " -3.00: 1")]),
    ("lengths in kilometers", lengths(0.1), {}, [(LengthsRounded, "lengths of edges in length")]),
    ("all frozen", change("f", True), {}, [(AllUnitsFrozen, "all units are frozen by f")]),
    ("a frozen district", change("f", True, [0]), {}, [(DistrictFrozen, "so that no unit leaves")]),
    ("a district that cannot change",
     both(change("f", True, [0]), change("f", lambda node: node["id"][1] == "2", [1])), {},
     [(DistrictFrozen, "no unit leaves them: 0"), (DistrictCannotChange, "frozen, too: 0")]),
]


class Slips(common.ProgramCase):
    """A table of slips, each with the warnings that it must give, and no others."""

    def prepare(self, apply: typing.Callable[[common.Root], None], **more: common.Value
                ) -> tuple[district_audit.Prepared, list[Warning]]:
        root = copy.deepcopy(sound())
        apply(root)
        with warnings.catch_warnings(record=True) as caught:
            warnings.simplefilter("always")
            prepared = district_audit.prepare(root, **anything({**COLUMNS, **more}))
        found = [one.message for one in caught]
        self.assertEqual({one.filename for one in caught} - {__file__}, set())
        return prepared, [one for one in found if isinstance(one, Warning)]

    def test_each_slip_gives_its_warnings_and_no_others(self) -> None:
        for name, apply, more, wanted in SLIPS:
            with self.subTest(name):
                prepared, said = self.prepare(apply, **more)
                found = sorted((type(one).__name__, str(one)) for one in prepared.warnings)
                self.assertEqual([kind for kind, _ in found],
                                 sorted(kind.__name__ for kind, _ in wanted))
                for kind, part in wanted:
                    lines = [line for found_kind, line in found if found_kind == kind.__name__]
                    self.assertTrue(any(part in line for line in lines), (part, lines))
                self.assertEqual(said, prepared.warnings)
                for line in prepared.warnings:
                    self.assertNotIn("\n", str(line))

    def test_a_sound_map_gives_none(self) -> None:
        prepared, said = self.prepare(lambda root: None, group_share=4000)
        self.assertEqual((prepared.warnings, said, prepared.refusals), ([], [], []))

    def test_bounds_of_the_slips(self) -> None:
        """Values that are just good enough give no warning."""
        for apply, more in (
            (one_unit("a", 1769), {}),  # 1,999 votes of 1,000 people
            (change("a", lambda node: 770 - (node["id"] == "u00")), {}),
            (lambda root: None, {"group_share": 100}),
            (lambda root: None, {"slack": 4999}),
            (both(one_unit("c", None), one_unit("e", None)), {"missing": "zero"}),
            (both(one_unit("c", None), one_unit("e", 0)), {"missing": "zero"}),
            (one_unit("c", None), {"missing": "drop"}),
            (both(one_unit("a", 200.25), change("a", 200.25, [2])), {"numbers": "floor"}),
        ):
            prepared, _ = self.prepare(apply, **anything(more))
            kinds = {one.kind for one in prepared.warnings} - {"DistrictRounded"}
            self.assertEqual(kinds, set())

        def fourths(root: common.Root) -> None:
            for node in root["nodes"][:4]:
                node["a"] = 200.25

        prepared, _ = self.prepare(fourths, numbers="nearest")
        self.assertEqual(prepared.warnings, [])  # four fourths move the total by just 1

    def test_a_parsed_kind_is_the_same_warning(self) -> None:
        prepared, _ = self.prepare(SLIPS[0][1])
        again = [read(one.kind, str(one)) for one in prepared.warnings]
        self.assertEqual(again, prepared.warnings)
        self.assertNotEqual(again[0], MapWarning(str(again[0])))
        self.assertEqual(len({*again, *prepared.warnings}), len(again))
        for kind in ("emit", "Nothing", "FrozenWalk"):
            self.assertIs(type(read(kind, "")), MapWarning)

    def test_the_command_prints_them(self) -> None:
        root = sound()
        change("g", 0)(root)
        change("pop", 0)(root)
        with tempfile.TemporaryDirectory() as room:
            path = pathlib.Path(room) / "graph.json"
            path.write_text(json.dumps(root))
            with contextlib.redirect_stderr(io.StringIO()) as told:
                commands.prepare([
                    str(path), "--pop", "pop", "--first", "a", "--second", "b", "--district", "d",
                    "--out", str(path.with_name("out.json")),
                ])
        self.assertIn("prepare: warning: column pop: the population is 0", told.getvalue())


class Calls(common.ProgramCase):
    """The warnings of calls, which the reports keep."""

    def run_sound(self, graph: object, **more: common.Value
                  ) -> tuple[district_audit.Report, list[str]]:
        words: common.Words = dict(key=common.KEY, steps=2000, program=self.program, **more)
        with warnings.catch_warnings(record=True) as caught:
            warnings.simplefilter("always", MapWarning)
            report = district_audit.run(graph, **words)
        said = [type(one.message).__name__ for one in caught
                if isinstance(one.message, MapWarning)]
        self.assertEqual({one.filename for one in caught} - {__file__}, set())
        return report, said

    def test_a_partisan_question_without_a_limit(self) -> None:
        prepared = district_audit.prepare(
            sound(), **anything({**COLUMNS, "elections": None, "first": "a", "second": "b"})
        )
        for more, is_told in (
            ({"ask": "cut-edges:low"}, False), ({"ask": "cut-length:low"}, False),
            ({"ask": "seats:low"}, True), ({"ask": ["cut-edges:low", "gap:high"]}, True),
            ({"scores": {"mean-median": "low"}}, True),
            ({"ask": "gap:low", "max_cut": 30}, False),
            ({"ask": "gap:low", "max_length": 3000}, False),
            ({"ask": "gap:low", "cut_weight": 24}, False),
            ({"ask": "gap:low", "max_cut": None}, True),
        ):
            report, said = self.run_sound(prepared, **anything(more))
            kinds = ["NoCompactnessLimit"] if is_told else []
            self.assertEqual((said, [one.kind for one in report.warnings]), (kinds, kinds))
            read_again = district_audit.Report.parse(str(report))
            self.assertEqual(read_again.warnings, report.warnings)
        self.assertIn("gap:high: no rule limits compactness", str(self.run_sound(
            prepared, ask=["cut-edges:low", "gap:high"])[0].warnings[0]))
        kept = district_audit.prepare(
            sound(),
            **anything({**COLUMNS, "elections": None, "first": "a", "second": "b", "max_cut": 30}),
        )
        self.assertEqual(self.run_sound(kept, ask="gap:low")[0].warnings, ())

    def test_compactness_under_its_own_limit(self) -> None:
        """GUIDE says never to ask so; a weight is no limit, and other rules limit other things."""
        prepared = district_audit.prepare(
            sound(), **anything({**COLUMNS, "elections": None, "first": "a", "second": "b"})
        )
        for more, names in (
            ({"ask": "cut-edges:low", "max_cut": 30}, "cut-edges:low: if max_cut is tight"),
            ({"ask": "cut-length:high,cut-edges:low,gap:low", "max_length": 3000, "max_cut": 30},
             "cut-length:high, cut-edges:low: if max_cut or max_length is tight"),
            ({"ask": "gap:low", "max_cut": 30}, None),
            ({"ask": "cut-edges:low", "cut_weight": 24}, None),
            ({"ask": "cut-edges:low", "slack": 1000}, None),
        ):
            report, said = self.run_sound(prepared, **anything(more))
            kinds = [] if names is None else ["CompactnessUnderLimit"]
            self.assertEqual((said, [one.kind for one in report.warnings]), (kinds, kinds))
            if names is not None:
                self.assertIn(names, str(report.warnings[0]))
            self.assertEqual(district_audit.Report.parse(str(report)).warnings, report.warnings)

    def test_a_slack_of_a_call_is_judged_anew(self) -> None:
        prepared = district_audit.prepare(
            sound(), **anything({**COLUMNS, "elections": None, "first": "a", "second": "b"})
        )
        for more, kinds in (({"tolerance": 1}, ["LooseTolerance"]), ({"slack": 4000}, [])):
            report, said = self.run_sound(prepared, ask="cut-edges:low", **anything(more))
            self.assertEqual((said, [one.kind for one in report.warnings]), (kinds, kinds))
            self.assertEqual(district_audit.Report.parse(str(report)).warnings, report.warnings)

    def test_each_way_of_a_graph_is_judged(self) -> None:
        """A graph as bytes, a path and an object: each gives the warnings of a prepared map."""
        root = sound()
        change("a", 800)(root)
        path = self.folder / "graph.json"
        path.write_text(json.dumps({"directed": False, **root}))
        columns: common.Words = dict(population="pop", first="a", second="b", district="d",
                                     ask="cut-edges:low", slack=2000)
        wanted = "37080 votes in a and b, and 36000 people in pop"
        for graph in (path, path.read_bytes(), root, str(path)):
            report, said = self.run_sound(graph, **columns)
            self.assertEqual(said, ["MoreVotesThanPeople"])
            self.assertEqual(list(map(str, report.warnings)), [wanted])

    def test_a_prepared_map_is_told_once(self) -> None:
        root = sound()
        change("a", 800)(root)
        with warnings.catch_warnings():
            warnings.simplefilter("ignore")
            prepared = district_audit.prepare(
                root, **anything({**COLUMNS, "elections": None, "first": "a", "second": "b"})
            )
        self.assertIn(" 1 warning; the auditor accepts it", repr(prepared))
        report, said = self.run_sound(prepared, ask="cut-edges:low")
        self.assertEqual((said, [one.kind for one in report.warnings]),
                         ([], ["MoreVotesThanPeople"]))
        report, said = self.run_sound(prepared, ask="cut-edges:low", group_share=50)
        self.assertEqual((said, [one.kind for one in report.warnings]),
                         (["SmallGroupShare"], ["MoreVotesThanPeople", "SmallGroupShare"]))

    def test_a_filter_makes_a_slip_an_error(self) -> None:
        with warnings.catch_warnings():
            warnings.simplefilter("error", NoCompactnessLimit)
            with self.assertRaises(NoCompactnessLimit):
                district_audit.run(
                    json.dumps(sound()).encode(), population="pop", first="a", second="b",
                    district="d", key=common.KEY, ask="gap:low", program=self.program,
                )


if __name__ == "__main__":
    unittest.main()
