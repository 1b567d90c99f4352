"""Preparing graphs: each change is listed, likely mistakes get a warning, and bad values are
refused.
"""
import contextlib
import decimal
import io
import json
import pathlib
import tempfile
import unittest

import common
from common import anything
from district_audit import Prepared, PrepareRefused, commands, prepare

ROUGH: common.Words = dict(population="TOTPOP", first="DEM", second="REP", district="CD")


def square(**changed: common.Value) -> common.Root:
    """Returns four units round a square; for each name of a column the values that stand there
    instead.
    """
    columns: common.Words = {
        "pop": [1, 1, 1, 1],
        "a": [1, 2, 3, 4],
        "b": [4, 3, 2, 1],
        "d": ["x", "x", "y", "y"],
        **changed,
    }
    nodes = [
        {
            "id": unit,
            **{
                name: values[place] for name, values in columns.items() if values[place] is not None
            },
        }
        for place, unit in enumerate("stuv")
    ]
    return {
        "nodes": nodes,
        "adjacency": [[{"id": "t"}], [{"id": "u"}], [{"id": "v"}], [{"id": "s"}]],
    }


def lines_of(prepared: Prepared) -> list[str]:
    """Returns the lines of the warnings of a prepared map."""
    return list(map(str, prepared.warnings))


def prepare_root(root: object, **said: common.Value) -> Prepared:
    return prepare(json.dumps(root).encode(), **anything({**common.COLUMNS, "slack": 5000, **said}))


class Changes(unittest.TestCase):
    def refuse(self, why: str, root: object, **said: common.Value) -> PrepareRefused:
        with self.assertRaises(PrepareRefused) as caught:
            prepare_root(root, **said)
        self.assertIn(why, "\n".join([str(caught.exception), *caught.exception.faults]))
        return caught.exception

    def test_a_good_graph_stays_as_it_is(self) -> None:
        data, changes = prepare_root(square())
        self.assertEqual(changes, [])
        self.assertEqual(
            [(node["id"], node["pop"], node["d"]) for node in json.loads(data)["nodes"]],
            [("s", 1, "x"), ("t", 1, "x"), ("u", 1, "y"), ("v", 1, "y")],
        )
        self.assertEqual(json.loads(data)["adjacency"][0], [{"id": "t"}, {"id": "v"}])
        self.assertNotIn(b"\n", data)

    def test_rough_numbers_by_each_rule(self) -> None:
        rough = common.EXAMPLES / "data" / "rough.json"
        with self.assertRaises(PrepareRefused) as caught:
            prepare(rough, **ROUGH)
        self.assertEqual(
            (caught.exception.why, len(caught.exception.faults)), ("16 values are refused", 16)
        )
        prepared = prepare(rough, **ROUGH, numbers="nearest", missing="zero")
        changes = [str(change) for change in prepared.changes]
        self.assertIn(
            (
                "column TOTPOP: fractions made whole by `nearest`: 14 units, which changes the"
                " column's sum by -7: 0, 7, 16, 25, 34, 43, 52, 59, 61, 68, and 4 more"
            ),
            changes,
        )
        self.assertIn("column DEM: missing values made 0: 1 unit: 42", changes)
        self.assertEqual(
            (prepared.notes, prepared.refusals),
            (["100 units, 180 edges, 5 districts, 10000 people"], []),
        )
        (line,) = lines_of(prepared)
        self.assertIn("column TOTPOP: making its values whole changes the total of 3 of 5", line)
        self.assertEqual(
            prepare(rough, **ROUGH, numbers="floor", missing="drop").notes,
            ["99 units, 176 edges, 5 districts, 9900 people"],
        )

    def test_numbers_of_each_kind(self) -> None:
        """Halves go to the even number; texts, decimals and great numbers are read exactly."""
        for value, rule, whole in (
            (2.5, "nearest", 2), (3.5, "nearest", 4), (2.9, "floor", 2), ("7", "error", 7),
            ("7.0", "error", 7), (1e9, "error", 10**9),
        ):
            with self.subTest(value=value, rule=rule):
                prepared = prepare_root(square(a=[value, 2, 3, 4]), numbers=rule)
                self.assertEqual(json.loads(prepared.data)["nodes"][0]["a"], whole)
        for value in (-1, 10**9 + 1, True, "x", [1], "inf"):
            with self.subTest(value=value):
                self.refuse("1 values are refused", square(a=[value, 2, 3, 4]), numbers="nearest")

    def test_a_column_that_no_unit_has_is_refused_whatever_is_said(self) -> None:
        for missing in ("error", "zero", "drop"):
            self.refuse(
                "no unit has a column popp; the columns are a, b, d, pop", square(),
                population="popp", missing=missing,
            )
        self.refuse("no unit has a column county", square(), region="county", missing="drop")
        self.refuse("no unit has a column area", square(), keep=["area"])
        root = square(PRESIDENT2=[1, 2, 3, 4], PRESIDEN_1=[4, 3, 2, 1])
        self.refuse(
            "no unit has a column PRESIDENT24DEM (a shapefile cuts names to 10 characters:"
            " PRESIDENT2 or PRESIDEN_1?); the columns are", root, first="PRESIDENT24DEM",
        )
        root = square()
        for node in root["nodes"]:
            node["a"] = None
        self.refuse("no unit has a value in the column a", root, missing="zero")

    def test_missing_regions_have_three_answers(self) -> None:
        root = square(county=["k", None, None, "k"])
        why = self.refuse(
            'unit "t" has no county (choose fill_region=LABEL, own_region=True or missing="drop")',
            root,
            region="county",
            missing="zero",
        )
        self.assertEqual(len(why.faults), 2)
        filled = prepare_root(root, region="county", fill_region="rest")
        self.assertEqual(filled.regions, ["k", "rest"])
        self.assertIn(
            'column county: missing regions made "rest": 2 units: "t", "u"',
            [str(change) for change in filled.changes],
        )
        self.assertEqual(len(prepare_root(root, region="county", own_region=True).regions), 3)
        self.assertEqual(prepare_root(root, region="county", missing="drop").units, ["s", "v"])
        self.refuse(
            'unit "t" has no d (choose missing="drop")', square(d=["x", None, "y", "y"]),
            missing="zero",
        )

    def test_shares_and_percentages_are_warned_of(self) -> None:
        prepared = prepare_root(square(a=[0.753, 0.25, 0.5, 0.9]), numbers="nearest", slack=4000)
        self.assertIn("column a looks like shares and not like counts", str(prepared.warnings[0]))
        prepared = prepare_root(
            square(a=[75.3, 25.5, 50, 90], b=[24.7, 74.5, 50, 10]), numbers="nearest", slack=4000
        )
        self.assertIn("columns a and b look like percentages", "\n".join(lines_of(prepared)))
        prepared = prepare_root(square(a=[1.4, 2.4, 3.4, 4.4]), numbers="nearest", slack=4000)
        self.assertIn(
            "column a: making its values whole changes them by 13.8 percent in all",
            lines_of(prepared),
        )
        self.assertEqual(
            prepare_root(
                square(pop=[900] * 4, a=[100.4, 200.4, 300, 400]), numbers="nearest", slack=4000
            ).warnings, [],
        )
        prepared = prepare_root(
            square(pop=[5000] * 4, a=[20.76, 75.6, 8.2, 11.43], b=[1000.2, 2000, 3000, 4000]),
            numbers="nearest", slack=4000,
        )
        self.assertEqual(
            lines_of(prepared),
            [
                "column a may have percentages and not counts: all its values are from 0 to 100,"
                " and a unit has 5000 people on average"
            ],
        )
        prepared = prepare_root(
            square(pop=[100] * 4, a=[20.9, 75.1, 60, 51]), numbers="nearest", slack=4000
        )
        self.assertEqual(prepared.warnings, [])
        self.assertEqual(prepare_root(square(pop=[9] * 4, a=[0, 1, 1, 0]), slack=4000).warnings, [])

    def test_parts_are_reported_and_joined(self) -> None:
        """Two islands, each a whole district, and one unit with no neighbour."""
        nodes = [{"id": place, "pop": 1, "a": 1, "b": 1, "d": place // 2} for place in range(7)]
        root = {
            "nodes": nodes,
            "adjacency": [[{"id": 1}], [], [{"id": 3}], [], [{"id": 5}], [], []],
        }
        prepared = prepare_root(root, slack=10000)
        self.assertIn("units without a neighbor: 1: 6", prepared.notes)
        self.assertIn(
            (
                "the graph is in 4 parts, and a district lies in one of them (join=[(A, B)] makes"
                " neighbors of two units)"
            ),
            prepared.notes,
        )
        self.assertEqual(sum(note.startswith("a part of 2 units: ") for note in prepared.notes), 2)
        self.assertEqual(
            sum(
                "is a part of its own, of 2 units: no walk can change it" in note
                for note in prepared.notes
            ),
            3,
        )
        joined = prepare_root(root, slack=10000, join=[("5", "6"), (1, 2), (2, 3)])
        self.assertIn(
            (
                "the graph is in 2 parts, and a district lies in one of them (join=[(A, B)] makes"
                " neighbors of two units)"
            ),
            joined.notes,
        )
        self.assertEqual(
            [str(change) for change in joined.changes],
            [
                "units 5 and 6 made neighbors", "units 1 and 2 made neighbors",
                "units 2 and 3 were neighbors already",
            ],
        )
        self.refuse('"9", which is to be joined, is not a unit', root, join=[("9", "1")])
        self.refuse("1 cannot be joined to itself", root, join=[(1, 1)])

    def test_a_stray_label_is_told_with_its_units(self) -> None:
        root = common.example("grid.json")
        for node in root["nodes"][7:9]:
            node["CD"] = "99"
        ids = [node["id"] for node in root["nodes"][7:9]]
        found = prepare(
            root, population="TOTPOP", first="DEM", second="REP", district="CD", slack=1000
        ).refusals
        said = f'a district "99" of 2 units ({ids[0]}, {ids[1]}) has 200 people, outside'
        self.assertEqual([line.startswith(said) for line in found].count(True), 1, found)
        # It comes first, since the faults of other districts may follow from it.
        self.assertTrue(found[0].startswith(said), found)
        self.assertFalse(any(line.startswith('a district "0') for line in found))

    def test_real_maps(self) -> None:
        """Counties of North Carolina with whole floats, and tracts of upstate New York with
        fractions; what is changed is counted here.
        """
        prepared = prepare(
            common.EXAMPLES / "data" / "nc.json", population="BIR74", first="NWBIR74",
            second="WBIR74", district="PLAN11", slack=1000,
        )
        self.assertEqual(
            (prepared.refusals, prepared.warnings, prepared.notes),
            ([], [], ["100 units, 231 edges, 11 districts, 329962 people"]),
        )
        self.assertEqual(
            {change.what for change in prepared.changes if change.units},
            {
                f"column {column}: whole floats written as whole numbers"
                for column in ("BIR74", "NWBIR74", "WBIR74")
            },
        )
        nodes = common.example("ny8.json")["nodes"]
        said: common.Words = dict(
            population="POP8", first="OWNING", second="OTHERS", district="PLAN8", region="COUNTY",
            slack=1000,
        )
        broken = {
            column: [node["id"] for node in nodes if node[column] % 1]
            for column in ("OWNING", "OTHERS")
        }
        with self.assertRaises(PrepareRefused) as caught:
            prepare(common.EXAMPLES / "data" / "ny8.json", **said)
        self.assertEqual(len(caught.exception.faults), sum(map(len, broken.values())))
        prepared = prepare(common.EXAMPLES / "data" / "ny8.json", numbers="nearest", **said)
        self.assertEqual(prepared.refusals, [])
        self.assertEqual({warning.kind for warning in prepared.warnings}, {"DistrictRounded"})
        for column, units in broken.items():
            moved: dict[str, float] = {}
            for node in nodes:
                change_of_node = round(node[column]) - node[column]
                moved[node["PLAN8"]] = moved.get(node["PLAN8"], 0) + change_of_node
            over = sorted(label for label, change in moved.items() if abs(change) > 1)
            (line,) = (line for line in lines_of(prepared) if f"column {column}:" in line)
            self.assertIn(f"total of {len(over)} of 8 districts", line)
            self.assertTrue(line.endswith(": " + ", ".join(f'"{label}"' for label in over)), line)
            change = next(
                change
                for change in prepared.changes
                if change.what == f"column {column}: fractions made whole by `nearest`"
            )
            self.assertEqual(change.units, units)
            self.assertAlmostEqual(
                change.moved, sum(round(node[column]) - node[column] for node in nodes), places=6
            )
        with self.assertRaises(PrepareRefused) as caught:
            prepare(
                common.EXAMPLES / "data" / "ny8.json", **anything({**said, "first": "OWNNING"}),
                numbers="nearest", missing="zero",
            )
        self.assertIn("no unit has a column OWNNING", str(caught.exception))

    def test_what_the_auditor_would_refuse_has_its_number(self) -> None:
        prepared = prepare(common.EXAMPLES / "data" / "apart.json", **common.COLUMNS)
        self.assertIn(
            (
                'district 1 is in several parts; 1 of its 2 units lie apart: "w" (the auditor\'s'
                " district 0)"
            ),
            prepared.refusals,
        )
        split = prepare_root(square(county=["k", "l", "k", "l"]), region="county", max_split=1)
        self.assertEqual(
            split.refusals,
            [
                'regions that lie in more than 1 districts: 2: "k", "l" (the auditor\'s numbers:'
                " 0, 1)"
            ],
        )

    def test_splits_of_regions(self) -> None:
        """The counties k, l and m lie in one, two and three districts: two are split, and three
        times in all.
        """
        nodes = [
            {"id": place, "pop": 1, "a": 1, "b": 1, "d": district, "county": county}
            for place, (county, district) in enumerate(
                (("k", 0), ("k", 0), ("l", 0), ("l", 1), ("m", 1), ("m", 2), ("m", 3))
            )
        ]
        root = {
            "nodes": nodes,
            "adjacency": [[{"id": place + 1}] if place < 6 else [] for place in range(7)],
        }
        prepared = prepare_root(root, slack=10000, region="county")
        self.assertEqual(
            prepared.notes,
            [
                "7 units, 6 edges, 4 districts, 7 people",
                '3 regions in county; "m" lies in the most districts, 3',
                '2 regions lie in more than one district, with 3 splits in all: "l", "m"',
            ],
        )
        self.assertEqual(prepared.refusals, [])
        self.assertEqual(
            prepare_root(
                root, slack=10000, region="county", max_splits=3, max_split_regions=2
            ).refusals,
            [],
        )
        self.assertEqual(
            prepare_root(
                root, slack=10000, region="county", max_splits=2, max_split_regions=1
            ).refusals,
            [
                "3 splits of regions, more than 2",
                "2 regions lie in more than one district, more than 1",
            ],
        )
        whole = prepare_root(
            square(county=["k", "k", "l", "l"]), region="county", max_splits=0, max_split_regions=0
        )
        self.assertEqual(
            (whole.refusals, whole.notes[-1]),
            ([], "0 regions lie in more than one district, with 0 splits in all"),
        )

    def test_a_group(self) -> None:
        """District x has 3 of 5, which is a majority, and y has 2 of 4, which is none; of all
        people the group has a majority nowhere.
        """
        root = square(pop=[5, 5, 5, 5], g=[2, 1.0, 2, 0], w=[2, 3, 1, 3])
        prepared = prepare_root(root, group="g", group_of="w")
        self.assertEqual(
            [(node["g"], node["w"]) for node in json.loads(prepared.data)["nodes"]],
            [(2, 2), (1, 3), (2, 1), (0, 3)],
        )
        self.assertEqual(
            prepared.columns,
            {
                "pop": "pop",
                "first": "a",
                "second": "b",
                "district": "d",
                "group": "g",
                "group_of": "w",
            },
        )
        self.assertEqual(
            prepared.notes,
            [
                "4 units, 4 edges, 2 districts, 20 people",
                'g has a majority of w in 1 of 2 districts: "x" (60.00 %)',
                'units with more in g than in w: 1: "u"',
            ],
        )
        self.assertEqual(
            [str(change) for change in prepared.changes],
            ['column g: whole floats written as whole numbers: 1 unit: "t"'],
        )
        self.assertEqual(prepared.refusals, [])
        prepared = prepare_root(root, group="g", group_of="w", group_districts=1)
        self.assertEqual(prepared.refusals, [])
        self.assertEqual(
            prepare_root(root, group="g", group_of="w", group_districts=2).refusals,
            ["g has a majority in 1 districts, fewer than 2"],
        )
        prepared = prepare_root(root, group="g", group_districts=1)
        self.assertEqual(
            (prepared.notes[-1], prepared.refusals),
            (
                "g has a majority of pop in 0 of 2 districts",
                ["g has a majority in 0 districts, fewer than 1"],
            ),
        )
        self.assertNotIn(b'"w"', prepared.data)
        self.assertEqual(prepared.columns["group"], "g")
        self.assertNotIn("group_of", prepared.columns)
        self.assertEqual(
            prepare_root(square(g=[1, 0, 0, 0], w=[0, 0, 0, 0]), group="g", group_of="w").notes[1],
            'g has a majority of w in 1 of 2 districts: "x" (of nobody)',
        )

    def test_a_column_that_is_named_twice_is_reported_once(self) -> None:
        prepared = prepare_root(square(a=[1.0, 2, 3, 4]), group="a", group_of="a")
        self.assertEqual(
            [str(change) for change in prepared.changes],
            ['column a: whole floats written as whole numbers: 1 unit: "s"'],
        )
        self.assertEqual(
            (prepared.columns["first"], prepared.columns["group"], prepared.columns["group_of"]),
            ("a", "a", "a"),
        )

    def test_columns_of_a_group_are_judged_as_the_others(self) -> None:
        self.refuse("no unit has a column bvap", square(), group="bvap")
        self.refuse("no unit has a column vap", square(g=[1, 1, 1, 1]), group="g", group_of="vap")
        self.refuse("group_of is given without group", square(), group_of="a")
        self.refuse(
            'unit "t" has no g (choose missing="zero" or "drop")', square(g=[1, None, 1, 1]),
            group="g",
        )
        self.refuse(
            'unit "t": w, which is 1000000001, is not from 0 to 1000000000',
            square(g=[1] * 4, w=[1, 10**9 + 1, 1, 1]), group="g", group_of="w",
        )
        self.refuse('unit "s": g, which is 0.5, is not whole', square(g=[0.5, 1, 1, 1]), group="g")
        prepared = prepare_root(square(g=[1, None, 1, 1]), group="g", missing="zero")
        self.assertIn(
            'column g: missing values made 0: 1 unit: "t"',
            [str(change) for change in prepared.changes],
        )
        prepared = prepare_root(square(g=[1, None, 1, 1]), group="g", missing="drop")
        self.assertEqual(prepared.units, ["s", "u", "v"])
        self.assertIn(
            "column g looks like shares and not like counts",
            str(
                prepare_root(
                    square(g=[0.5, 0.25, 0.5, 0.9]), group="g", numbers="nearest"
                ).warnings[0]
            ),
        )

    def test_the_map_with_counties_and_a_group(self) -> None:
        """The group's districts are counted here from the file."""
        nodes = common.example("groups.json")["nodes"]
        sums = {
            label: [
                sum(node[column] for node in nodes if node["d"] == label)
                for column in ("bvap", "vap")
            ]
            for label in (1, 2, 3, 4)
        }
        most = [label for label, (part, whole) in sums.items() if part > whole - part]
        prepared = prepare(
            common.EXAMPLES / "data" / "groups.json", **common.COLUMNS, region="county",
            group="bvap", group_of="vap", group_districts=2, max_splits=2, max_split_regions=2,
        )
        self.assertEqual((prepared.refusals, prepared.changes), ([], []))
        self.assertEqual(
            [note.split(" (")[0] for note in prepared.notes if note.startswith("bvap")],
            ["bvap has a majority of vap in 2 of 4 districts: 1"],
        )
        self.assertEqual(most, [1, 2])
        self.assertEqual(
            {*json.loads(prepared.data)["nodes"][0]},
            {"id", "pop", "a", "b", "d", "county", "bvap", "vap"},
        )

    def test_edges(self) -> None:
        root = square()
        root["adjacency"][0].append({"id": "s"})
        self.assertEqual(
            [str(change) for change in prepare_root(root).changes],
            ['edges from a unit to itself, left out: 1 unit: "s"'],
        )
        root["adjacency"][0].append({"id": "w"})
        self.refuse('an edge names "w", which is not a unit', root)
        self.refuse("4 nodes and 3 adjacency entries", {**square(), "adjacency": [[], [], []]})
        self.refuse(
            "the graph has none of the lists `adjacency`, `links` and `edges`",
            {"nodes": square()["nodes"]},
        )
        links = {
            "nodes": square()["nodes"],
            "links": [{"source": one, "target": other} for one, other in zip("stuv", "tuvs")],
        }
        self.assertEqual(prepare_root(links).data, prepare_root(square()).data)

    def test_ids(self) -> None:
        self.refuse(
            'several units have the same id: "s"',
            {"nodes": [{"id": "s", "pop": 1, "a": 1, "b": 1, "d": 1}] * 2, "adjacency": [[], []]},
        )
        self.refuse(
            "node 0 has no id", {"nodes": [{"pop": 1, "a": 1, "b": 1, "d": 1}], "adjacency": [[]]}
        )
        root = square()
        for place, node in enumerate(root["nodes"]):
            node["id"] = float(place)
        root["adjacency"] = [[{"id": (place + 1) % 4}] for place in range(4)]
        prepared = prepare_root(root)
        self.assertEqual(prepared.units, ["0", "1", "2", "3"])
        self.assertIn(
            "ids: some are neither texts nor whole numbers, so all are written as texts",
            [str(change) for change in prepared.changes],
        )

    def test_what_is_no_graph(self) -> None:
        for graph, why in (
            (b"[]", "is not a graph of networkx"), (b"{", "cannot be read"),
            ("/there/is/none.json", "cannot be read"), (7, "not of type int"),
        ):
            with self.subTest(graph=graph), self.assertRaises(PrepareRefused) as caught:
                prepare(graph, **common.COLUMNS)
            self.assertIn(why, str(caught.exception))
        self.refuse(
            "numbers must be one of error, nearest, floor, not 'round'", square(), numbers="round"
        )


class Objects(unittest.TestCase):
    """Graphs that are no files."""

    def test_networkx(self) -> None:
        networkx = common.needs("networkx")
        graph = networkx.grid_2d_graph(3, 4)
        for unit in graph.nodes:
            graph.nodes[unit].update(pop=decimal.Decimal(2), a=1.0, b=float("nan"), d=unit[0])
        graph.add_edge((0, 0), (0, 0))
        graph.nodes[(0, 0)]["b"] = 3
        prepared = prepare(graph, **common.COLUMNS, missing="zero", slack=5000)
        self.assertEqual(prepared.notes, ["12 units, 17 edges, 3 districts, 24 people"])
        self.assertEqual(prepared.units[1], "[0, 1]")
        self.assertEqual(prepared.districts, [0, 1, 2])
        same = networkx.readwrite.json_graph.adjacency_data(graph)
        self.assertEqual(
            prepare(
                json.dumps(same, default=float).encode(), **common.COLUMNS, missing="zero",
                slack=5000,
            ).data,
            prepared.data,
        )

    def test_networkx_graphml(self) -> None:
        networkx = common.needs("networkx")
        graph = networkx.cycle_graph(4)
        for unit in graph.nodes:
            graph.nodes[unit].update(pop=1, a=1, b=2, d=unit // 2)
        with tempfile.TemporaryDirectory() as room:
            path = pathlib.Path(room) / "cycle.graphml"
            networkx.write_graphml(graph, path)
            self.assertEqual(
                prepare(path, **common.COLUMNS, slack=5000).notes,
                ["4 units, 4 edges, 2 districts, 4 people"],
            )
            path.write_text("no xml")
            with self.assertRaises(PrepareRefused):
                prepare(path, **common.COLUMNS)

    def test_numbers_and_missing_values_of_pandas(self) -> None:
        pandas = common.needs("pandas")
        networkx = common.needs("networkx")
        frame = pandas.DataFrame(
            {
                "pop": [1, 2, 3],
                "a": [1.0, None, 2.0],
                "b": pandas.array([1, None, 2], dtype="Int64"),
                "d": ["x", "y", "y"],
            }
        )
        graph = networkx.path_graph(3)
        for name in frame:
            networkx.set_node_attributes(graph, dict(frame[name]), name)
        nodes = json.loads(prepare(graph, **common.COLUMNS, missing="zero").data)["nodes"]
        self.assertEqual(nodes[1], {"pop": 2, "a": 0, "b": 0, "d": "y", "id": 1})

    def test_stand_in_of_gerrychain(self) -> None:
        """An object with the documented attributes alone, as GerryChain's Graph has them."""
        graph = common.StandInGraph(common.example("grid.json"))
        prepared = prepare(graph, **ROUGH)
        self.assertEqual(prepared.notes, ["300 units, 563 edges, 6 districts, 30000 people"])
        of_file = prepare(common.EXAMPLES / "data" / "grid.json", **ROUGH)
        self.assertEqual(prepared.data, of_file.data)

    def test_assignments(self) -> None:
        columns = {name: column for name, column in ROUGH.items() if name != "district"}
        root = common.example("grid.json")
        districts = {node["id"]: node["CD"] for node in root["nodes"]}
        wanted = prepare(common.EXAMPLES / "data" / "grid.json", **ROUGH).data.replace(
            b'"CD"', b'"assignment"'
        )
        for assignment in (
            districts, common.StandInAssignment(districts), common.StandInPartition(districts),
        ):
            self.assertEqual(
                prepare(common.StandInGraph(root), **columns, assignment=assignment).data, wanted
            )
        with self.assertRaises(PrepareRefused) as caught:
            prepare(common.StandInGraph(root), **columns, assignment={**districts, "none": 1})
        self.assertEqual(str(caught.exception), 'the assignment names an unknown unit: "none"')
        with self.assertRaises(PrepareRefused) as caught:
            prepare(common.StandInGraph(root), **columns, assignment={0: 1})
        self.assertEqual(caught.exception.why, "299 values are refused")
        with self.assertRaises(PrepareRefused):
            prepare(common.StandInGraph(root), **ROUGH, assignment=districts)
        with self.assertRaises(PrepareRefused):
            prepare(common.StandInGraph(root), **columns)


class Command(common.FolderCase):
    """The command names its own words where the package names arguments."""

    def test_hints_are_words_of_the_command(self) -> None:
        words = ["--pop", "pop", "--first", "a", "--second", "b", "--district", "d"]
        for change, more, said in (
            (dict(a=[0.5, 1, 1, 1]), [], "is not whole (choose --numbers nearest or floor)"),
            (dict(a=[None, 1, 1, 1]), [], "has no a (choose --missing zero or drop)"),
            (dict(d=[None, "x", "y", "y"]), [], "has no d (choose --missing drop)"),
            (
                dict(county=["k", None, "k", "k"]),
                ["--region", "county"],
                "has no county (choose --fill-region LABEL, --own-region or --missing drop)",
            ),
            (dict(pop=[9, 1, 1, 1]), [], "(--slack 500)"),
        ):
            path = self.folder / "graph.json"
            path.write_text(json.dumps(square(**anything(change))), encoding="utf-8")
            error = io.StringIO()
            with contextlib.redirect_stderr(error):
                commands.prepare([str(path), *words, *anything(more), "--out", str(path) + ".out"])
            with self.subTest(said=said):
                self.assertIn(said, error.getvalue())


if __name__ == "__main__":
    unittest.main()
