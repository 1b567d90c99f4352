"""Lengths of edges: made whole by `prepare`, read in texts, and tallied along a walk."""
from __future__ import annotations

import contextlib
import io
import json
import math
import pathlib
import tempfile
import unittest

import common  # noqa: F401  (finds the package)
import district_audit
from district_audit import commands, scores, wording
from district_audit.districts import plan_of
from district_audit.report import PlanCheck
from district_audit.trace_plan import Plan, UnitTable

COLUMNS: common.Words = dict(
    population="pop", first="a", second="b", district="d", length="shared_perim"
)
# A ring of four units; units 0 and 1 are one district.
RING = ((0, 1), (1, 2), (2, 3), (3, 0))
MOST = 1_717_986_918_000_000


def graph(*lengths: object) -> common.Words:
    """Returns a ring whose edges have these lengths; those behind the fourth are the other
    direction's, of the first edge on.
    """
    both = [*zip(RING, lengths), *((pair[::-1], length) for pair, length in zip(RING, lengths))]
    both += [(pair[::-1], length) for pair, length in zip(RING, lengths[4:])]
    at = dict(both)
    return {
        "directed": False,
        "nodes": [
            {"id": u, "pop": 1, "a": 1 + u % 2, "b": 2, "d": u // 2} for u in range(4)
        ],
        "adjacency": [
            [{"shared_perim": at[u, v], "id": v} for v in range(4) if (u, v) in at]
            for u in range(4)
        ],
    }


def prepare_root(root: object, **more: common.Value) -> district_audit.Prepared:
    return district_audit.prepare(root, **{**COLUMNS, **more})


def warning_of(*lengths: float) -> str:
    """Returns the warning of the lengths of a ring's edges."""
    found = [one for one in prepare_root(graph(*lengths)).warnings if one.kind == "LengthsRounded"]
    (warning,) = found
    return str(warning)


def read_lengths(prepared: district_audit.Prepared) -> dict[tuple[int, int], object]:
    adjacency = json.loads(prepared.data)["adjacency"]
    return {(u, one["id"]): one["shared_perim"] for u, row in enumerate(adjacency) for one in row}


class Preparing(unittest.TestCase):
    def test_whole_lengths_stay(self) -> None:
        prepared = prepare_root(graph(9, 7.0, 5, 0))
        self.assertEqual(
            read_lengths(prepared),
            {
                (0, 1): 9, (1, 0): 9, (1, 2): 7, (2, 1): 7, (2, 3): 5, (3, 2): 5, (3, 0): 0,
                (0, 3): 0,
            },
        )
        self.assertEqual(prepared.changes, [])
        self.assertEqual(prepared.columns["length"], "shared_perim")
        self.assertIn("2 edges between districts, with 7 of shared_perim in all", prepared.notes)

    def test_fractions_become_the_nearest_halves_the_even_one(self) -> None:
        prepared = prepare_root(graph(100.5, 101.5, 7.49, 1e6))
        self.assertEqual([read_lengths(prepared)[pair] for pair in RING], [100, 102, 7, 1_000_000])
        (change,) = prepared.changes
        self.assertTrue(change.is_of_values)
        self.assertIn("3 of 4 made whole by `nearest`, halves the even one", str(change))
        self.assertNotIn("LengthsRounded", [warning.kind for warning in prepared.warnings])

    def test_great_loss_is_warned_of(self) -> None:
        self.assertIn("changes them by 54.5 percent in all", warning_of(0.4, 0.4, 0.4, 1))

    def test_changes_that_cancel_out_are_warned_of(self) -> None:
        """The sum stays 4, and two of the four lengths change by 0.4."""
        self.assertIn("changes them by 20 percent in all", warning_of(0.6, 1.4, 1, 1))

    def test_refusals_name_both_units(self) -> None:
        for lengths, said in (
            ((9, None, 5, 3), "edge 1 - 2: shared_perim is missing"),
            ((9, math.nan, 5, 3), "edge 1 - 2: shared_perim is missing"),
            ((9, -0.25, 5, 3), "edge 1 - 2: shared_perim, which is -0.25, is below 0"),
            ((9, "7", 5, 3), 'edge 1 - 2: shared_perim, which is "7", is not a number'),
            ((9, True, 5, 3), "edge 1 - 2: shared_perim, which is true, is not a number"),
            (
                (9, math.inf, 5, 3),
                "edge 1 - 2: shared_perim, which is Infinity, is not a number",
            ),
            (
                (9, 2**32, 5, 3),
                "edge 1 - 2: shared_perim, which is 4294967296, is above 4294967295",
            ),
            ((9, 7, 5, 3, 8), "edge 1 - 0: shared_perim is 9 in one place and 8 in another"),
        ):
            with self.subTest(said), self.assertRaises(district_audit.PrepareRefused) as found:
                prepare_root(graph(*lengths))
            self.assertEqual(found.exception.faults[0], said)

    def test_misspelt_column(self) -> None:
        with self.assertRaises(district_audit.PrepareRefused) as found:
            prepare_root(graph(9, 7, 5, 3), length="perim")
        self.assertIn(
            "no edge has a column perim; the columns are shared_perim", str(found.exception)
        )

    def test_limit(self) -> None:
        self.assertEqual(prepare_root(graph(9, 7, 5, 3), max_length=10).refusals, [])
        (refusal,) = prepare_root(graph(9, 7, 5, 3), max_length=9).refusals
        self.assertEqual(refusal, "edges between districts have 10 of shared_perim, more than 9")
        with self.assertRaises(district_audit.PrepareRefused):
            prepare_root(graph(9, 7, 5, 3), length=None, max_length=9)

    def test_joined_units_have_no_length(self) -> None:
        prepared = prepare_root(graph(9, 7, 5, 3), join=[(0, 2)])
        self.assertEqual((read_lengths(prepared)[0, 2], read_lengths(prepared)[2, 0]), (0, 0))

    def test_without_a_column_nothing_is_written(self) -> None:
        root = graph(9, None, -5, "x")
        prepared = prepare_root(root, length=None)
        self.assertNotIn(b"shared_perim", prepared.data)
        self.assertNotIn("length", prepared.columns)

    def test_objects(self) -> None:
        try:
            import networkx
        except ImportError:
            self.skipTest("networkx is not installed")
        root = graph(9.25, 7, 5, 3)
        made = networkx.Graph()
        for node in root["nodes"]:
            made.add_node(node["id"], **{k: v for k, v in node.items() if k != "id"})
        for (u, v), length in zip(RING, (9.25, 7, 5, 3)):
            made.add_edge(u, v, shared_perim=length)
        self.assertEqual([read_lengths(prepare_root(made))[pair] for pair in RING], [9, 7, 5, 3])

    def test_command(self) -> None:
        root = graph(9.5, 7, 5, 3)
        for node in root["nodes"]:
            node.update(keep=node["id"] == 1, g=1)
        with tempfile.TemporaryDirectory() as folder:
            place = pathlib.Path(folder)
            (place / "graph.json").write_text(json.dumps(root))
            words = (
                "--pop pop --first a --second b --district d --length shared_perim --freeze keep"
                " --group g --group-share 4000 --max-length 9"
            ).split()
            note = io.StringIO()
            with contextlib.redirect_stderr(note):
                status = commands.prepare(
                    [str(place / "graph.json"), *words, "--out", str(place / "out.json")]
                )
            prepared = json.loads((place / "out.json").read_text())
        self.assertEqual(status, 1)
        self.assertIn("10 of shared_perim, more than 9", note.getvalue())
        self.assertIn("more than 4000 of 10000", note.getvalue())
        self.assertEqual([node["keep"] for node in prepared["nodes"]], [False, True, False, False])
        self.assertEqual(prepared["adjacency"][0][0], {"shared_perim": 10, "id": 1})


class Reading(unittest.TestCase):
    TEXT = (
        "plan-check 1\nunits 4 edges 4 districts 2\npopulation 4 slack 5000 low 1 high 3\n"
        "cut-length 10\nmax-length 12\nend\n"
    )

    def test_lines(self) -> None:
        check = PlanCheck.parse(self.TEXT)
        self.assertEqual((check.rules.cut_length, check.rules.max_length), (10, 12))
        self.assertEqual(str(check), self.TEXT)
        self.assertEqual(
            wording.describe_limits(check.rules, wording.Names(), check.edges, check.districts),
            ["cut edges have a length of at most 12 in all"],
        )

    def test_lines_that_cannot_be(self) -> None:
        for old, new in (
            ("max-length 12", "max-length 9"), ("max-length 12", f"max-length {MOST}"),
            ("cut-length 10\n", ""), ("cut-length 10", "cut-length 17179869181"),
        ):
            with self.subTest(new), self.assertRaises(district_audit.ReportRefused):
                PlanCheck.parse(self.TEXT.replace(old, new))

    def test_table_of_a_plan(self) -> None:
        named = dict(pop="pop", first="a", second="b", district="d", length="shared_perim")
        plan = plan_of(prepare_root(graph(9, 7, 5, 3)).data, {**named, "max_length": "9"})
        assert plan is not None
        self.assertEqual(plan.cut_length, 10)
        self.assertEqual(
            plan.faults, ("edges between districts have 10 of shared_perim, more than 9",)
        )


class Walking(unittest.TestCase):
    def test_tally_follows_each_move(self) -> None:
        data = prepare_root(graph(9, 7, 5, 3)).data
        plan = Plan(UnitTable(data, data, "d", {}), [0, 0, 1, 1])
        self.assertEqual(plan.cut_length("shared_perim"), 10)
        for unit, district, length in ((1, 1, 12), (0, 1, 0), (2, 0, 12), (3, 0, 10), (3, 1, 12)):
            plan.move([unit], [district])
            self.assertEqual(plan.cut_length("shared_perim"), length)
        with self.assertRaises(KeyError):
            plan.cut_length("perim")
        self.assertEqual(scores.cut_length.__name__, "cut_length")


if __name__ == "__main__":
    unittest.main()
