"""Missing values and labels that would be mistaken, in each input: all are refused by unit id."""
import decimal
import fractions
import json
import subprocess
import sys
import typing
import unittest

import common
from common import anything
import district_audit
from district_audit import PlanReports, PrepareRefused, values

Call = typing.Callable[[], object]

UNITS = list("stuvwxyz")
PLAN: common.Words = dict(zip(UNITS, [1, 1, 1, 1, 2, 2, 2, 2]))
WORDS: common.Words = dict(common.COLUMNS, slack=5000, key=common.KEY, ask="gap:low", steps=16)


# They stand for pandas' missing values, by the name of their type.
NA, NAT = type("NAType", (), {})(), type("NaTType", (), {})()
# Values that people take for missing labels, as the package has to.
MISSING = [
    float("nan"), None, NA, NAT, "", " ", "\t", "\u00a0", decimal.Decimal("nan"),
    decimal.Decimal("sNaN"), complex("nan"),
]
# Texts that other programs write for one.
TEXTS = ["nan", "NaN", "<NA>", "NA", "N/A", "NaT", "None", "null", " nan "]
# Values that are no labels.
NO_LABELS = [
    True, False, 1.5, float("inf"), 2.0**54, b"1", [float("nan")], {}, {1}, object(),
    fractions.Fraction(1, 2), [True], ([1, None],),
]
# Labels that differ from 1 in kind alone, and those that are the same at a glance.
MIXED = [1.0, "1", decimal.Decimal(1), fractions.Fraction(1)]
ALIKE = [
    ("1", "01"), ("1", "1.0"), ("A", "A "), ("A", " A"), ("A B", "A  B"), ("A B", "A\u00a0B"),
    ("\u00e9", "e\u0301"), ("-1", "-01"), ("0", "-0"), ("1", "+1"),
]


def make_missing() -> list[object]:
    """Returns missing values of numpy and pandas, where these are installed."""
    numpy, pandas = common.needs("numpy"), common.needs("pandas")
    return [
        numpy.nan, numpy.float32("nan"), numpy.datetime64("NaT"), pandas.NA, pandas.NaT,
        numpy.ma.masked,
    ]


def root_of(
    labels: typing.Iterable[object],
    column: str = "d",
    units: typing.Sequence[object] = UNITS,
    **more: common.Value,
) -> common.Root:
    """Returns a cycle whose units have these labels in a column; d is the plan in any case."""
    nodes: list[dict[str, object]] = [
        {"id": unit, "pop": 1, "a": 1, "b": 2, "d": PLAN[name]} for unit, name in zip(units, UNITS)
    ]
    for node, label in zip(nodes, labels):
        node.update({column: label}, **more)
    adjacency = [[{"id": units[(place + 1) % len(units)]}] for place in range(len(units))]
    return {"nodes": nodes, "adjacency": adjacency}


def replace_label(label: object, place: int = 3) -> list[object]:
    """Returns the labels of the plan, with another one in a place."""
    found = list(PLAN.values())
    found[place] = label
    return found


class Values(unittest.TestCase):
    def test_kinds(self) -> None:
        for value, kind in (
            (1, "whole number"), (2**80, "whole number"), ("1", "text"), (1.0, "float"),
            ((0, "a"), "tuple"), ((0.5, (1, 2)), "tuple"), (True, None), (1.5, None),
            ((float("nan"),), None), ((None,), None), (2.0**53, "float"), (b"", None),
        ):
            with self.subTest(value=value):
                self.assertEqual(values.kind_of(value), kind)

    def test_what_differs_is_left_alone(self) -> None:
        """Labels that look different stay: none of these pairs is refused."""
        for one, other in (
            ("1", "10"), ("A", "B"), ("A", "a"), ("1", "-1"), ("1.0", "1.01"), ("01a", "1a"),
            ("0", "00 0"), ("1", "1e0"), ("AB", "A B"),
        ):
            with self.subTest(one=one, other=other):
                self.assertEqual(values.faults_in([("s", one), ("t", other)], "d"), [])
        self.assertEqual(values.faults_in([("s", 1), ("t", -1)], "d"), [])
        self.assertEqual(values.faults_in([("s", 1.0), ("t", 2.0)], "d"), [])

    def test_alike(self) -> None:
        for one, other in ALIKE:
            with self.subTest(one=one, other=other):
                self.assertEqual(
                    values.faults_in([("s", one), ("t", one), ("u", other)], "d"),
                    [
                        f'unit "u": d, which is {json.dumps(other, ensure_ascii=False)}, differs'
                        f" from {json.dumps(one, ensure_ascii=False)} only in how it is written"
                    ],
                )

    def test_repeated(self) -> None:
        self.assertEqual(values.find_repeated([1, "1", 2, 1.0, "x", "x"]), [1, "x"])


class Case(common.ProgramCase):
    def refuse(self, call: Call, *parts: str) -> PrepareRefused:
        """Tests that a call is refused by a line that names the unit v and has these parts."""
        with self.assertRaises(PrepareRefused) as caught:
            call()
        self.assertTrue(
            any(
                'unit "v"' in fault and all(part in fault for part in parts)
                for fault in caught.exception.faults
            ),
            caught.exception,
        )
        self.assertIn('unit "v"', str(caught.exception))
        return caught.exception

    def calls(self, labels: typing.Sequence[object]) -> dict[str, Call]:
        """Returns each way by which labels of units come into the package."""
        plan = dict(zip(UNITS, labels))
        graph = common.StandInGraph(root_of(list(PLAN.values())))
        others = {name: column for name, column in WORDS.items() if name != "district"}
        columns = {name: column for name, column in common.COLUMNS.items() if name != "district"}
        said: common.Words = dict(program=self.program)
        return {
            "column": lambda: district_audit.check(
                common.StandInGraph(root_of(labels)), **said, **common.COLUMNS, slack=5000
            ),
            "prepare": lambda: district_audit.prepare(
                common.StandInGraph(root_of(labels)), **common.COLUMNS
            ),
            "prepare, zero": lambda: district_audit.prepare(
                root_of(labels), **common.COLUMNS, missing="zero"
            ),
            "region": lambda: district_audit.prepare(
                root_of(labels, "county"), **common.COLUMNS, region="county"
            ),
            "region of run": lambda: district_audit.run(
                common.StandInGraph(root_of(labels, "county")), **said, **WORDS, region="county"
            ),
            "dict": lambda: district_audit.prepare(graph, **columns, assignment=plan),
            "assignment": lambda: district_audit.run(
                graph, **said, **others, assignment=common.StandInAssignment(plan)
            ),
            "partition": lambda: district_audit.run(
                graph, **said, **others, assignment=common.StandInPartition(plan)
            ),
            "plans": lambda: district_audit.plans(
                graph, {"one": PLAN, "two": plan}, **said, **WORDS
            ),
            "plans, any": lambda: district_audit.plans(
                graph, {"two": common.StandInPartition(plan)}, districts="any", **said, **WORDS
            ),
        }


class Inputs(Case):
    def test_the_plan_itself_is_taken_everywhere(self) -> None:
        for name, call in self.calls(list(PLAN.values())).items():
            with self.subTest(input=name):
                call()

    def test_missing_values(self) -> None:
        for value in MISSING + make_missing():
            for name, call in self.calls(replace_label(value)).items():
                with self.subTest(value=value, input=name):
                    self.refuse(call, "has no ")

    def test_texts_of_missing_values(self) -> None:
        for value in TEXTS:
            for name, call in self.calls([str(label) for label in replace_label(value)]).items():
                with self.subTest(value=value, input=name):
                    self.refuse(call, "reads as a missing value")

    def test_no_labels(self) -> None:
        for value in NO_LABELS + [common.needs("numpy").bool_(True)]:
            for name, call in self.calls(replace_label(value)).items():
                with self.subTest(value=value, input=name):
                    self.refuse(call, " is ")

    def test_mixed_kinds(self) -> None:
        numpy = common.needs("numpy")
        for value in MIXED + [numpy.float64(1), numpy.str_("1")]:
            for name, call in self.calls(replace_label(value)).items():
                with self.subTest(value=value, input=name):
                    self.refuse(call, "where 7 labels are whole numbers")

    def test_labels_that_look_alike(self) -> None:
        for one, other in ALIKE:
            labels = [one, one, one, other, "x", "x", "x", "x"]
            for name, call in self.calls(labels).items():
                with self.subTest(labels=labels, input=name):
                    self.refuse(call, "only in how it is written")

    def test_numbers_of_numpy_are_whole_numbers_to_all(self) -> None:
        numpy = common.needs("numpy")
        for name, call in self.calls(
            [
                numpy.int32(label) if place % 2 else label
                for place, label in enumerate(PLAN.values())
            ]
        ).items():
            with self.subTest(input=name):
                call()

    def test_floats_that_are_whole_stand_for_their_digits(self) -> None:
        for name, call in self.calls([float(label) for label in PLAN.values()]).items():
            with self.subTest(input=name):
                call()
        prepared = district_audit.prepare(
            root_of([float(label) for label in PLAN.values()]), **common.COLUMNS
        )
        self.assertEqual(prepared.districts, ["1", "2"])
        self.assertEqual(
            [change.what for change in prepared.changes],
            ["labels in d: some are neither texts nor whole numbers, so all are written as texts"],
        )

    def test_missing_counts(self) -> None:
        """A missing number is refused by unit id unless a rule is named."""
        for value in MISSING + make_missing():
            for column in ("pop", "a", "b", "g"):
                with self.subTest(value=value, column=column):
                    root = root_of([0 if column != "pop" else 1] * 8, column)
                    root["nodes"][3][column] = value
                    more = {"group": "g"} if column == "g" else {}
                    self.refuse(
                        lambda: district_audit.prepare(
                            root, **anything({**common.COLUMNS, **more})
                        ),
                        f'has no {column} (choose missing="zero" or "drop")',
                    )

    def test_a_rule_for_missing_values_is_no_rule_for_labels(self) -> None:
        self.assertEqual(
            district_audit.prepare(
                root_of(replace_label(None)), **common.COLUMNS, missing="drop"
            ).units,
            list("stuwxyz"),
        )
        self.refuse(
            lambda: district_audit.prepare(
                root_of(replace_label("nan")), **common.COLUMNS, missing="drop"
            ),
            "reads as a missing value",
        )


class Files(Case):
    """Bytes and files, which go to the program as they are, are tested all the same."""

    def calls_of(self, data: bytes) -> typing.Iterator[Call]:
        path = self.folder / "graph.json"
        path.write_bytes(data)
        for graph in (data, path, str(path)):
            yield lambda: district_audit.check(
                graph, program=self.program, **common.COLUMNS, slack=5000
            )
            yield lambda: district_audit.run(graph, program=self.program, **WORDS)
            yield lambda: district_audit.plans(graph, {"one": PLAN}, program=self.program, **WORDS)

    def test_what_the_program_takes_and_people_do_not(self) -> None:
        """The program takes each of these, and finds three districts where there are two."""
        for value, rest in (
            ("1", PLAN.values()), ("", "AAAABBBB"), (" ", "AAAABBBB"), ("NaN", "AAAABBBB"),
            ("A ", "AAAABBBB"), ("01", "11112222"),
        ):
            labels = list(rest)
            labels[3] = value
            data = json.dumps(root_of(labels)).encode()
            with self.subTest(value=value):
                answer = district_audit.program.call(
                    self.program,
                    [
                        "check", "--pop", "pop", "--first", "a", "--second", "b", "--district", "d",
                        "--slack", "10000",
                    ],
                    data,
                )
                self.assertEqual(answer.text.splitlines()[1], "units 8 edges 8 districts 3")
                for call in self.calls_of(data):
                    self.refuse(call, "d")

    def test_regions(self) -> None:
        data = json.dumps(root_of(["k", "k", "k", "", "l", "l", "l", "l"], "county")).encode()
        self.refuse(
            lambda: district_audit.check(
                data, program=self.program, **common.COLUMNS, slack=5000, region="county"
            ),
            "has no county",
        )
        district_audit.check(data, program=self.program, **common.COLUMNS, slack=5000)

    def test_another_column_of_what_was_prepared(self) -> None:
        prepared = district_audit.prepare(
            root_of([1, 1, 1, "1", 2, 2, 2, 2], "other"), **common.COLUMNS, keep=["other"]
        )
        self.refuse(
            lambda: district_audit.check(
                prepared, program=self.program, district="other", slack=5000
            ),
            "other",
        )

    def test_the_command_warns(self) -> None:
        data = json.dumps(root_of([1, 1, 1, "1", 2, 2, 2, 2])).encode()
        answer = subprocess.run(
            [
                sys.executable,
                "-c",
                "import sys; from district_audit.commands import run; sys.exit(run())",
                "check",
                "--pop",
                "pop",
                "--first",
                "a",
                "--second",
                "b",
                "--district",
                "d",
                "--slack",
                "10000",
            ],
            input=data,
            stdout=subprocess.PIPE,
            stderr=subprocess.PIPE,
            check=True,
            env={
                "PYTHONPATH": str(common.TOP / "python"),
                "PATH": "/usr/bin:/bin",
                "DISTRICT_AUDIT": self.program,
            },
        )
        self.assertEqual(
            answer.stderr.decode(),
            (
                'district-audit-run: warning: unit "v": d, which is "1", is a text,'
                " where 7 labels are whole numbers\n"
            ),
        )


class UnitsCase(Case):
    """Calls on one graph."""

    GRAPH = root_of(list(PLAN.values()))

    def no(self, why: str, call: Call) -> None:
        with self.assertRaises(PrepareRefused) as caught:
            call()
        self.assertIn(why, str(caught.exception))

    def plans(
        self, table: object, graph: typing.Optional[common.Root] = None, **said: common.Value
    ) -> PlanReports:
        return district_audit.plans(
            common.StandInGraph(self.GRAPH if graph is None else graph), table,
            program=self.program, **WORDS, **said,
        )

    def prepare_with(self, assignment: object, graph: object = None) -> district_audit.Prepared:
        columns = {name: column for name, column in common.COLUMNS.items() if name != "district"}
        return district_audit.prepare(
            self.GRAPH if graph is None else graph, **columns, assignment=assignment
        )


class Units(UnitsCase):
    """Ids: of the graph, of assignments, and of tables."""

    def pairs(self, pairs: typing.Iterable[tuple[object, object]]) -> common.StandInAssignment:
        """Returns an assignment whose items() have an id twice, as of a Series with a repeated
        index.
        """
        stand_in = common.StandInAssignment({})
        setattr(stand_in, "items", lambda: list(pairs))
        return stand_in

    def test_units_that_are_missing_or_none_of_the_graph(self) -> None:
        few = {unit: label for unit, label in PLAN.items() if unit != "v"}
        self.no('plan two: unit "v" has no label', lambda: self.plans({"one": PLAN, "two": few}))
        self.no(
            'plan one: unit "none" is not in the graph',
            lambda: self.plans({"one": {**PLAN, "none": 1}}),
        )
        self.no(
            "none of its ids is a unit's: its first id is 0, and the graph's first is \"s\"",
            lambda: self.plans({"one": dict(enumerate(PLAN.values()))}),
        )
        self.no('unit "v" has no assignment', lambda: self.prepare_with(few))
        self.no(
            'the assignment names an unknown unit: "none"',
            lambda: self.prepare_with({**PLAN, "none": 1}),
        )

    def test_ids_that_stand_there_twice(self) -> None:
        twice = self.pairs([*PLAN.items(), ("v", 2)])
        self.no('plan one: unit "v" has several labels', lambda: self.plans({"one": twice}))
        self.no('unit "v" has several districts', lambda: self.prepare_with(twice))
        numbered = root_of(list(PLAN.values()), units=list(range(8)))
        mixed = self.pairs([*zip(range(8), PLAN.values()), ("3", 2)])
        self.no("plan one: unit 3 has several labels", lambda: self.plans({"one": mixed}, numbered))
        self.no("unit 3 has several districts", lambda: self.prepare_with(mixed, numbered))

    def test_ids_of_another_kind(self) -> None:
        numbered = root_of(list(PLAN.values()), units=list(range(8)))
        texts = {str(place): label for place, label in enumerate(PLAN.values())}
        self.no(
            'the assignment names an unknown unit: "0"', lambda: self.prepare_with(texts, numbered)
        )
        self.no(
            '("0" is a text, and the graph\'s 0 a whole number)',
            lambda: self.prepare_with(texts, numbered),
        )
        # A table has its ids as texts in any case, and is matched so.
        self.assertEqual(len(self.plans({"one": texts}, numbered)), 2)
        floats = {float(place): label for place, label in enumerate(PLAN.values())}
        self.assertEqual(
            self.plans({"one": floats}, numbered), self.plans({"one": texts}, numbered)
        )

    def test_ids_that_are_none(self) -> None:
        for one in (None, float("nan"), "", NA):
            self.no(
                "the id in place 8 is missing",
                lambda: self.plans({"one": self.pairs([*PLAN.items(), (one, 1)])}),
            )
            self.no(
                "the id in place 8 is missing",
                lambda: self.prepare_with(self.pairs([*PLAN.items(), (one, 1)])),
            )
        for one in (True, 0.5, b"s"):
            self.no("not an id of a unit", lambda: self.plans({"one": {**PLAN, one: 1}}))
            self.no("not an id of a unit", lambda: self.prepare_with({**PLAN, one: 1}))

    def test_ids_of_the_graph(self) -> None:
        for one in (True, 0.5, {}):
            self.no(
                "node 3 has",
                lambda: district_audit.prepare(
                    root_of(list(PLAN.values()), units=[*"stu", one, *"wxyz"]), **common.COLUMNS
                ),
            )
        self.no(
            'several units have ids that differ only in their kind, as 1 and "1" do: 1',
            lambda: district_audit.prepare(
                root_of(list(PLAN.values()), units=[*"stu", 1, "1", *"xyz"]), **common.COLUMNS
            ),
        )

    def test_plans_that_are_none(self) -> None:
        self.no("this seems to be one assignment", lambda: self.plans(PLAN))
        self.no("a table must have 1 to 4096 plans, not 0", lambda: self.plans({}))
        self.no(
            "a table must have 1 to 4096 plans, not 4097",
            lambda: self.plans({f"p{place}": PLAN for place in range(4097)}),
        )
        self.no("a table of plans must be a dict", lambda: self.plans(7))
        self.no(
            "plan one must be a dict", lambda: self.plans({"one": list(PLAN.values()), "two": PLAN})
        )
        self.no(
            "several plans of the table have the same name: 1",
            lambda: self.plans({1: PLAN, "1": PLAN}),
        )
        for name in (None, float("nan"), True, 1.5):
            self.no("a plan's name must be a text", lambda: self.plans({name: PLAN}))
        for word in ("", "\u00e9", "x" * 101, "a\nb", "a\tb"):
            self.no("100 ASCII characters from the space to ~", lambda: self.plans({word: PLAN}))

    def test_an_assignment_is_one_column(self) -> None:
        frame = common.anything(common.StandInAssignment({"one": PLAN}))
        frame.columns = ["one"]
        self.no("name one of its columns", lambda: self.prepare_with(frame))
        self.no("name one of its columns", lambda: self.plans({"one": frame}))

    def test_both_ways_to_say_the_districts(self) -> None:
        prepared = district_audit.prepare(self.GRAPH, **common.COLUMNS)
        for graph in (prepared, common.StandInGraph(self.GRAPH)):
            words = {} if graph is prepared else common.COLUMNS
            self.no(
                "district and assignment are both given",
                lambda: district_audit.check(
                    graph, program=self.program, slack=5000, **anything({**words, "district": "d"}),
                    assignment=PLAN,
                ),
            )

    def test_both_parties_are_one_column(self) -> None:
        self.no(
            "both parties' votes are the column a",
            lambda: district_audit.prepare(
                self.GRAPH, **anything({**common.COLUMNS, "second": "a"})
            ),
        )
        self.no(
            "both parties' votes are the column a",
            lambda: district_audit.check(
                json.dumps(self.GRAPH).encode(), program=self.program,
                **anything({**common.COLUMNS, "second": "a"}), slack=5000,
            ),
        )
        self.no(
            "the column a is named as that of districts",
            lambda: district_audit.prepare(
                self.GRAPH, **anything({**common.COLUMNS, "district": "a"})
            ),
        )

    def test_regions_that_are_filled(self) -> None:
        root = root_of([1, 1, None, None, 2, 2, 2, 2], "county")
        said: common.Words = dict(common.COLUMNS, region="county")
        self.assertEqual(district_audit.prepare(root, **said, fill_region=3).regions, [1, 2, 3])
        self.assertEqual(district_audit.prepare(root, **said, fill_region="2").regions, ["1", "2"])
        self.assertEqual(
            district_audit.prepare(root, **said, own_region=True).regions,
            ["1", "2", "no county: unit u", "no county: unit v"],
        )
        for label in ("", " ", float("nan"), NA, "nan", True, 1.5):
            self.no(
                "fill_region, which is",
                lambda: district_audit.prepare(root, **said, fill_region=label),
            )
        self.no(
            "fill_region and own_region are both given",
            lambda: district_audit.prepare(root, **said, fill_region=3, own_region=True),
        )
        self.no(
            "only in how it is written",
            lambda: district_audit.prepare(root, **said, fill_region="02"),
        )

    def test_columns_that_are_kept(self) -> None:
        """They are not audited: a missing value is null, which is listed as a change."""
        numpy = common.needs("numpy")
        root = root_of(PLAN.values())
        for node, value in zip(
            root["nodes"],
            [numpy.int64(3), 0.5, numpy.float32(0.5), float("nan"), None, "x", True, NA],
        ):
            node["kept"] = value
        prepared = district_audit.prepare(root, **common.COLUMNS, keep=["kept"])
        self.assertEqual(
            [node["kept"] for node in json.loads(prepared.data)["nodes"]],
            [3, 0.5, 0.5, None, None, "x", True, None],
        )
        self.assertIn(
            'column kept, which is kept: missing values written as null: 3 units: "v", "w", "z"',
            [str(change) for change in prepared.changes],
        )
        root["nodes"][3]["kept"] = float("inf")
        self.no(
            'unit "v": kept, which is Infinity, cannot be kept',
            lambda: district_audit.prepare(root, **common.COLUMNS, keep=["kept"]),
        )


class Counts(UnitsCase):
    """The number of districts is that of the enacted plan, unless any is taken."""

    THREE = dict(zip(UNITS, [1, 1, 1, 2, 2, 2, 3, 3]))

    def test_another_number_of_districts(self) -> None:
        self.no(
            (
                "plan two has 3 districts, and the enacted plan has 2"
                ' (districts="any" takes it all the same)'
            ),
            lambda: self.plans({"one": PLAN, "two": self.THREE}),
        )
        found = self.plans({"one": PLAN, "two": self.THREE}, districts="any")
        self.assertEqual([report.districts for report in found.values()], [2, 2, 3])
        self.no(
            'districts must be "same" or "any", not 3',
            lambda: self.plans({"one": PLAN}, districts=3),
        )

    def test_a_column_of_ids_among_the_plans(self) -> None:
        ids = {unit: unit for unit in UNITS}
        self.no(
            "if this column has the units' ids, make it the index: frame.set_index('id')",
            lambda: self.plans({"id": ids}),
        )

    def test_tables_as_csv(self) -> None:
        rows = [(unit, label, self.THREE[unit]) for unit, label in PLAN.items()]
        text = "id,one,two\n" + "".join(f"{unit},{one},{two}\n" for unit, one, two in rows)
        path = self.folder / "plans.csv"
        for table in (text, text.encode(), "\ufeff" + text, text.replace("\n", "\r\n")):
            self.no("plan two has 3 districts", lambda: self.plans(table))
            self.assertEqual(len(self.plans(table, districts="any")), 3)
        for old, new, why in (
            ("v,1,2", "v,,2", 'plan one: unit "v" has no label'),
            ("v,1,2", "v, ,2", 'plan one: unit "v" has no label'),
            (
                "v,1,2", "v,NA,2",
                'plan one: unit "v": label, which is "NA", reads as a missing value',
            ),
            ("v,1,2", "v,nan,2", "reads as a missing value"),
            (
                "v,1,2",
                "v,1 ,2",
                'unit "v": label, which is "1 ", differs from "1" only in how it is written',
            ),
            ("v,1,2", "v,1.0,2", "only in how it is written"),
            ("v,1,2", "v,1,2\nv,1,2", 'plan one: unit "v" has several labels'),
            ("v,1,2\n", "", 'plan two: unit "v" has no label'),
            ("v,1,2", "v,1,2\nnone,1,2", 'unit "none" is not in the graph'),
            ("v,1,2", ",1,2", "the id in place 3 is missing"),
        ):
            with self.subTest(new=new):
                self.assertIn(old, text)
                changed = text.replace(old, new)
                path.write_text(changed, encoding="utf-8")
                for file in (changed, changed.encode(), path, str(path)):
                    self.no(why, lambda: self.plans(file, districts="any"))

    def test_a_table_that_the_program_refuses_is_left_to_it(self) -> None:
        for text, line in (
            ("id,one\ns\n", "table: record 1 is unreadable"),
            ("id\n", "table: no header"),
        ):
            with self.assertRaises(district_audit.GraphRefused) as caught:
                self.plans(text)
            self.assertEqual(caught.exception.line, line)


class Frames(UnitsCase):
    """Missing values of pandas: such a call once audited five districts of a map of four."""

    def setUp(self) -> None:
        super().setUp()
        self.pandas = common.needs("pandas")

    def frame(
        self,
        labels: typing.Sequence[object],
        index: typing.Sequence[object] = UNITS,
        dtype: object = object,
    ) -> common.Value:
        return self.pandas.DataFrame(
            {"one": list(PLAN.values()), "two": self.pandas.Series(labels, dtype=dtype)}
        ).set_axis(index)

    def test_one_nan_in_a_frame(self) -> None:
        for value in (float("nan"), None, self.pandas.NA):
            for dtype in (
                (object, "float64", "Int64") if value is not self.pandas.NA else (object, "Int64")
            ):
                with self.subTest(value=value, dtype=dtype):
                    frame = self.frame(replace_label(value), dtype=dtype)
                    self.no('plan two: unit "v" has no label', lambda: self.plans(frame))
                    self.no('unit "v" has no assignment', lambda: self.prepare_with(frame["two"]))
        for dtype in ("string", "category"):
            frame = self.frame(["A", "A", "A", None, "B", "B", "B", "B"], dtype=dtype)
            self.no('plan two: unit "v" has no label', lambda: self.plans(frame))
        self.no(
            "reads as a missing value",
            lambda: self.plans(self.frame(replace_label(float("nan"))).astype(str)),
        )

    def test_good_frames_of_each_type(self) -> None:
        wanted = self.plans({"one": PLAN, "two": PLAN})
        for dtype in (object, "int8", "float64", "Int64", "string", "category"):
            with self.subTest(dtype=dtype):
                self.assertEqual(self.plans(self.frame(list(PLAN.values()), dtype=dtype)), wanted)

    def test_the_index(self) -> None:
        good = list(PLAN.values())
        self.no(
            'unit "v" has several labels',
            lambda: self.plans(self.frame(good, [*"stuv", "v", *"xyz"])),
        )
        self.no("frame.set_index(column)", lambda: self.plans(self.frame(good, range(8))))
        self.no(
            "the id in place 3 is missing",
            lambda: self.plans(self.frame(good, [*"stu", None, *"wxyz"])),
        )
        series = self.frame(good, [*"stuv", "v", *"xyz"])["two"]
        self.no('unit "v" has several districts', lambda: self.prepare_with(series))
        self.no("name one of its columns", lambda: self.prepare_with(self.frame(good)))

    def test_two_columns_of_one_name(self) -> None:
        frame = self.frame(list(PLAN.values()))
        frame.columns = ["one", "one"]
        self.no('several plans of the table have the same name: "one"', lambda: self.plans(frame))


if __name__ == "__main__":
    unittest.main()
