"""Calls on what `prepare` answered: its columns are taken over, and its rules are never dropped."""
from __future__ import annotations

import json
import typing
import unittest

import common
import district_audit
from common import anything

RING = ((0, 1), (1, 2), (2, 3), (3, 0))
LENGTHS = (9, 7, 5, 3)


def ring() -> common.Words:
    """Returns a ring of four units in two districts and two counties, with unit 0 frozen."""
    at = {}
    for (u, v), length in zip(RING, LENGTHS):
        at[u, v] = at[v, u] = length
    return {
        "directed": False,
        "nodes": [
            {"id": u, "pop": 1, "a": 1 + u % 2, "b": 2, "d": u // 2, "c": u // 2, "g": u % 2,
             "f": u == 0} for u in range(4)
        ],
        "adjacency": [
            [{"length": at[u, v], "id": v} for v in range(4) if (u, v) in at] for u in range(4)
        ],
    }


class Prepared(common.ProgramCase):
    COLUMNS: common.Words = dict(common.COLUMNS, region="c", group="g", freeze="f", length="length")
    WALK: common.Words = dict(key=common.KEY, steps=8, ask="gap:low")

    def calls(self) -> typing.Iterator[typing.Callable[..., object]]:
        """Yields each call on a prepared graph."""
        program: common.Words = {"program": self.program}
        walk = {**program, **self.WALK}
        yield lambda prepared, **words: district_audit.check(prepared, **program, **words)
        yield lambda prepared, **words: district_audit.run(prepared, **walk, **words)
        yield lambda prepared, **words: district_audit.plans(
            prepared, {"own": {0: 0, 1: 0, 2: 1, 3: 1}}, **walk, **words
        )
        yield lambda prepared, **words: district_audit.trace(prepared, **walk, **words)

    def close(self, made: object) -> None:
        if isinstance(made, district_audit.Trace):
            made.close()

    def test_each_call_keeps_the_rules_that_prepare_was_given(self) -> None:
        rules = dict(slack=5000, max_cut=9, max_split=2, max_splits=9, max_split_regions=4,
                     group_districts=1, group_share=200, max_length=30)
        prepared = district_audit.prepare(ring(), **self.COLUMNS, **anything(rules))
        self.assertEqual(prepared.rules, rules)
        kept = "rules " + ", ".join(f"{name}={value}" for name, value in rules.items())
        self.assertEqual(prepared.kept, [kept])
        self.assertIn(kept, repr(prepared))
        for call in self.calls():
            cases: list[tuple[common.Words, common.Words]] = [
                ({}, {}),
                ({"max_splits": 8, "max_length": 40}, {"max_splits": 8, "max_length": 40}),
                ({"max_cut": None, "slack": 9999}, {"max_cut": None, "slack": 9999}),
                ({"max_length": None}, {"max_length": None}),
            ]
            for more, others in cases:
                made = call(prepared, **anything(more))
                found = anything(made)
                if isinstance(found, district_audit.PlanReports):
                    found = found["d"]
                elif isinstance(found, district_audit.Trace):
                    found = found.head
                shown = {name: getattr(found.rules, name) for name in rules}
                self.assertEqual(shown, {**rules, **others})
                self.close(made)

    def test_a_tolerance_stands_for_the_slack(self) -> None:
        prepared = district_audit.prepare(ring(), **self.COLUMNS, tolerance=0.5)
        check = district_audit.check(prepared, tolerance=0.25, program=self.program)
        self.assertEqual(check.rules.slack, 2500)
        check = district_audit.check(prepared, program=self.program)
        self.assertEqual(check.rules.slack, 5000)

    def test_rules_that_prepare_was_not_given_are_not_asked_for(self) -> None:
        prepared = district_audit.prepare(ring(), **self.COLUMNS)
        self.assertEqual(prepared.rules, {})
        self.assertEqual(district_audit.check(prepared, program=self.program).rules.slack, 500)

    def test_a_limit_that_is_a_fraction_is_hinted_at_whole(self) -> None:
        columns: common.Words = self.COLUMNS
        for name, value, whole in (
            ("max_length", 370275 * 1.1, 407302), ("max_splits", 9.9, 9),
            ("group_districts", 1.5, 2), ("max_length", 12.0, 12),
        ):
            with self.assertRaises(district_audit.TypeRefused) as caught:
                district_audit.prepare(ring(), **columns, **anything({name: value}))
            self.assertEqual(caught.exception.hint, f"write {name}={whole}")

    def test_fractions_in_a_file_name_the_rule_that_mends_them(self) -> None:
        for column, edge, hint in (
            ("pop", "length", 'prepare(.., numbers="nearest") makes'),
            ("a", "length", 'prepare(.., numbers="nearest") makes'),
            ("", "length", "prepare(.., length=..) makes"),
        ):
            root = ring()
            if column:
                root["nodes"][2][column] = 1.5
            else:
                root["adjacency"][0][0][edge] = 1.5
            path = self.folder / "graph.json"
            path.write_text(json.dumps(root))
            with self.assertRaises(district_audit.GraphRefused) as caught:
                district_audit.check(
                    path, program=self.program, **common.WORDS, length="length"
                )
            self.assertIn(f"{hint} fractions whole and names missing values", str(caught.exception))

    def test_cut_length_by_name(self) -> None:
        prepared = district_audit.prepare(ring(), **anything({**self.COLUMNS, "freeze": None}))
        words: common.Words = dict(self.WALK, thin=1, slack=5000, program=self.program)
        with district_audit.trace(prepared, **words) as trace:
            rows = list(trace.rows(["cut_length"]))
        self.assertEqual(rows[0]["cut_length"], 10)  # the edges of 7 and 3
        asked: common.Words = {**words, "ask": "cut-length:low"}
        with district_audit.trace(prepared, **asked) as trace:
            self.assertEqual([row["cut_length"] for row in rows],
                             [sample.numerators[0] for sample in trace])
        with district_audit.trace(prepared, **words, length=None) as trace:
            with self.assertRaises(ValueError) as caught:
                list(trace.rows(["cut_length"]))
        self.assertIn('trace(.., length="shared_perim")', str(caught.exception))

    def test_a_column_that_is_none_is_left_out(self) -> None:
        prepared = district_audit.prepare(ring(), **self.COLUMNS, group_of="pop", max_splits=9)
        lines = {"freeze": "frozen 1", "region": "max-split 200 regions 2",
                 "group": "group-districts 0 of 0", "length": "cut-length 10"}
        for name in ("", *lines):
            words: common.Words = {} if not name else {name: None}
            text = str(district_audit.check(prepared, program=self.program, **words)).split("\n")
            for other, line in lines.items():
                self.assertEqual(line in text, other != name, (name, line, text))


class Frozen(unittest.TestCase):
    def prepare_frozen(self, *frozen: int) -> district_audit.Prepared:
        """Prepares a path of six units in three districts, with these units frozen."""
        nodes = [{"id": f"u{u}", "pop": 1, "a": 1, "b": 2, "d": u // 2, "f": int(u in frozen)}
                 for u in range(6)]
        adjacency = [[{"id": f"u{v}"} for v in (u - 1, u + 1) if 0 <= v < 6] for u in range(6)]
        return district_audit.prepare(
            {"nodes": nodes, "adjacency": adjacency}, **common.COLUMNS, freeze="f"
        )

    def test_what_no_walk_can_change_is_warned_of(self) -> None:
        left = "all units of these districts are frozen by f, so that no unit leaves them: "
        closed = (
            "no walk can change these districts, since the units around them are frozen, too: "
        )
        for frozen, warnings in (
            ((), []),
            ((1, 2, 4), []),
            ((0, 1), [f"{left}0"]),
            ((0, 1, 2), [f"{left}0", f"{closed}0"]),
            ((0, 1, 2, 3), [f"{left}0, 1", f"{closed}0"]),
            ((1, 2, 3, 4), [f"{left}1", f"{closed}1"]),
            (tuple(range(6)), ["all units are frozen by f: no walk can change the plan"]),
        ):
            prepared = self.prepare_frozen(*frozen)
            about = [str(one) for one in prepared.warnings if "frozen" in str(one)]
            self.assertEqual(about, warnings)
            self.assertIn(f"{len(frozen)} of 6 units are frozen by f", prepared.notes)


if __name__ == "__main__":
    unittest.main()
