"""The table of the districts and every fault of a plan, beside what the program says."""
import json
import random
import unittest
import xml.dom.minidom
from fractions import Fraction

import common
import district_audit
from district_audit import GraphRefused, PlanCheck

WORDS: common.Words = dict(
    common.COLUMNS, slack=1000, region="county", group="bvap", group_of="vap"
)


class Tables(common.ProgramCase):
    def test_each_number_is_counted_from_the_file(self) -> None:
        nodes = common.example("groups.json")["nodes"]
        plan = district_audit.check(
            common.EXAMPLES / "data" / "groups.json", program=self.program, **WORDS
        )
        self.assertTrue(plan.is_legal)
        self.assertEqual([one.label for one in plan.table], [1, 2, 3, 4])
        ideal = Fraction(sum(node["pop"] for node in nodes), 4)
        split: dict[object, set[object]] = {}
        for node in nodes:
            split.setdefault(node["county"], set()).add(node["d"])
        for number, one in enumerate(plan.table):
            there = [node for node in nodes if node["d"] == one.label]
            sums = {
                column: sum(node[column] for node in there)
                for column in ("pop", "a", "b", "bvap", "vap")
            }
            self.assertEqual((one.number, one.units, one.parts), (number, len(there), 1))
            self.assertEqual(
                (one.population, one.first, one.second), (sums["pop"], sums["a"], sums["b"])
            )
            self.assertEqual(
                (one.deviation, one.deviation_share), (sums["pop"] - ideal, sums["pop"] / ideal - 1)
            )
            self.assertEqual(one.first_share, Fraction(sums["a"], sums["a"] + sums["b"]))
            self.assertEqual((one.group, one.group_of), (sums["bvap"], sums["vap"]))
            self.assertEqual(one.group_share, Fraction(sums["bvap"], sums["vap"]))
            self.assertEqual(set(one.regions or ()), {node["county"] for node in there})
            self.assertEqual(
                one.split_regions, sum(len(split[county]) > 1 for county in set(one.regions or ()))
            )
        self.assertEqual(sum(one.population for one in plan.table), plan.population)
        report = district_audit.run(
            common.EXAMPLES / "data" / "groups.json", program=self.program, **WORDS, key=common.KEY,
            ask="cut-edges:low", steps=1,
        )
        self.assertEqual(plan.cut_edges, report.walks[0].start.numerator)

    def test_frame(self) -> None:
        common.needs("pandas")
        plan = district_audit.check(
            common.EXAMPLES / "data" / "groups.json", program=self.program, **WORDS
        )
        frame = plan.to_frame()
        self.assertEqual(list(frame["district"]), [1, 2, 3, 4])
        self.assertEqual(
            {str(frame[name].dtype) for name in ("units", "population", "group", "regions")},
            {"Int64"},
        )
        self.assertAlmostEqual(frame["first_share"][0], 7074 / 13808, places=12)
        self.assertEqual(plan.to_frame(exact=True)["first_share"][0], Fraction(7074, 13808))
        plain = district_audit.check(
            common.EXAMPLES / "data" / "cycle.json", program=self.program, **common.WORDS
        ).to_frame()
        self.assertTrue(plain["group"].isna().all() and plain["regions"].isna().all())

    def test_pages_and_short_texts(self) -> None:
        plan = district_audit.check(
            common.EXAMPLES / "data" / "groups.json", program=self.program, **WORDS
        )
        page = plan._repr_html_()
        xml.dom.minidom.parseString(f"<page>{page}</page>")
        self.assertEqual(page.count("<tr>"), 1 + 4)
        # The ideal is 30157.25, so 26.75 people, 0.0887 percent of it: both are rounded down.
        self.assertIn("<td>30,184</td><td>+26.7</td><td>+0.08 %</td>", page)
        self.assertIn("rounded down, toward zero", page)
        self.assertEqual(repr(plan), "<PlanCheck: legal, 120 units, 4 districts, 120629 people>")
        prepared = district_audit.prepare(
            common.EXAMPLES / "data" / "rough.json", population="TOTPOP", first="DEM", second="REP",
            district="CD", numbers="nearest", missing="zero",
        )
        self.assertLess(len(repr(prepared)), 120)
        xml.dom.minidom.parseString(f"<page>{prepared._repr_html_()}</page>")
        self.assertIn("missing values made 0", prepared._repr_html_())
        report = district_audit.Report.parse(common.readme_report())
        self.assertEqual(
            repr(report),
            (
                "<Report: 300 units, 6 districts, 2 walks of 100000 steps, 99 ends of 10000 steps;"
                " seats:low, gap:high, cut-edges:low; key 2b7e1516..>"
            ),
        )
        self.assertIn("<td>-600/60000 = -0.01</td>", report._repr_html_())


class Faults(common.ProgramCase):
    def faults(self, root: object, **words: common.Value) -> common.Value:
        graph = json.dumps(root).encode()
        said: common.Words = dict(common.WORDS, **words)
        try:
            answer = district_audit.check(graph, program=self.program, **said)
        except GraphRefused as why:
            loose = district_audit.check(graph, program=self.program, strict=False, **said)
            self.assertEqual((list(loose.faults), loose), (list(why.faults), why.check))
            self.assertFalse(loose.is_legal)
            return why
        self.assertEqual(
            answer, district_audit.check(graph, program=self.program, strict=False, **said)
        )
        return answer

    def test_every_fault_is_reported(self) -> None:
        error = self.faults(common.example("apart.json"), slack=500)
        self.assertEqual(error.line, "plan: district 0 has population 2, outside 3 to 2")
        self.assertEqual(
            error.faults,
            [
                (
                    'district 1 is in several parts; 1 of its 2 units lie apart: "w" (the'
                    " auditor's district 0)"
                ),
                "district 1 has 2 people, outside 3 to 2 (slack=500) (the auditor's district 0)",
                "district 2 has 3 people, outside 3 to 2 (slack=500) (the auditor's district 1)",
            ],
        )
        for fault in error.faults:
            self.assertIn(fault, str(error))
        self.assertIn("the plan is refused:\n", str(error.check))
        self.assertNotIn("plan-check", str(error.check))
        self.assertEqual([one.parts for one in error.check.table], [2, 1])
        xml.dom.minidom.parseString(f"<page>{error.check._repr_html_()}</page>")
        self.assertEqual(repr(error.check), "<PlanCheck: 3 faults, 4 units, 2 districts, 5 people>")

    def test_a_graph_that_is_refused_is_no_plan(self) -> None:
        apart = common.example("apart.json")
        apart["nodes"][0]["a"] = 0.5
        for data in (b"[", b'{"nodes": [], "adjacency": []}', json.dumps(apart).encode()):
            for strict in (True, False):
                with self.assertRaises(GraphRefused):
                    district_audit.check(data, program=self.program, strict=strict, **common.WORDS)

    def test_drawn_plans(self) -> None:
        """A plan has a fault exactly where the program refuses it, and it is of the same kind."""
        chance = random.Random(5)
        refused = legal = 0
        for number in range(110):
            width, height = chance.randrange(2, 4), chance.randrange(2, 4)
            count = width * height
            straight = chance.random() < 0.6
            nodes = [
                {
                    "id": f"u{place}",
                    "pop": chance.randrange(1, 4),
                    "a": chance.randrange(0, 2),
                    "b": chance.randrange(0, 2),
                    "d": 2 * place // count if straight else chance.randrange(2),
                    "county": "kl"[place % 2 if chance.random() < 0.3 else place // width % 2],
                    "g": chance.randrange(2),
                }
                for place in range(count)
            ]
            near = [
                [
                    other
                    for other in (
                        place - 1 if place % width else -1,
                        place + 1 if (place + 1) % width else -1,
                        place - width,
                        place + width,
                    )
                    if 0 <= other < count
                ]
                for place in range(count)
            ]
            root = {
                "nodes": nodes,
                "adjacency": [[{"id": f"u{other}"} for other in others] for others in near],
            }
            if len({node["d"] for node in nodes}) < 2:
                continue
            words: common.Words = dict(
                slack=chance.choice([3000, 10000, 10000]),
                max_cut=chance.choice([4, 400000, 400000]), region="county",
                max_split=chance.choice([1, 2, 2]),
                max_splits=chance.choice([0, 2, 995000, 995000]),
                max_split_regions=chance.choice([0, 2, 5000, 5000]), group="g",
                group_districts=chance.choice([0, 0, 1]),
            )
            with self.subTest(number=number, root=root, words=words):
                found = self.faults(root, **words)
                if isinstance(found, PlanCheck):
                    legal += 1
                    continue
                refused += 1
                self.assertTrue(found.faults, found.line)
                kinds = {
                    "population": "people, outside",
                    "no path": "several parts",
                    "cut edges": "cut edges",
                    "lies in": "lie in more than",
                    "splits of": "splits of regions",
                    "regions lie": "regions lie in more than one",
                    "majority": "majority",
                    "no votes": "no votes",
                }
                kind = next(here for there, here in kinds.items() if there in found.line)
                self.assertTrue(
                    any(kind in fault for fault in found.faults), (found.line, found.faults)
                )
        self.assertGreater(min(legal, refused), 10)


if __name__ == "__main__":
    unittest.main()
