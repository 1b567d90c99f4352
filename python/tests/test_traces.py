"""Reading traces: samples, refused texts, and programs that fail."""
import json
import os
import re
import sys
import time
import tracemalloc
import typing
import unittest
import warnings
from fractions import Fraction

import common
from common import anything
import district_audit
import trace_model
from district_audit import scores
from district_audit.trace_text import denominator
from trace_model import COLUMNS, PATH, TEXT, TextCase

# Changes of TEXT, each of which is refused at the line where it stands; \n is a line end,
# and each change ends at its |.
WRONG = r"""
district-trace 1 => district-trace 2|
district-trace 1 => district-audit 1|
key 0 => key g|
units 4 => units 1|
low 1  => low 2 |
ends 2  => ends 2 stop 1 |
ask gap high => ask gap up|
ask gap high => ask seats low|
start 0/1 => start 0/2|
start -16/32 => start -16/33|
trace id 0 steps 5 => trace id 0 steps 4|
trace id 0 steps 5 => trace id 9 steps 5|
trace id 1 steps 2 thin 2 => trace id 1 steps 2 thin 1|
trace id 1 steps 2 => trace id 2 steps 2|
trace id 2 steps 2 => trace id 1 steps 2|
0 0 0 -16\n => 0 1 0 -16\n|
0 0 0 -16\n => 0 0 0 -1\n|
0 0 0 -16\n => 0 0 0 -16 0:1\n|
2 1 1 -6 1:1 => 3 1 1 -6 1:1|
2 1 1 -6 1:1 => 2 3 1 -6 1:1|
2 1 1 -6 1:1 => 2 1 1 -6 1:0|
2 1 1 -6 1:1 => 2 1 1 -6 1:2|
2 1 1 -6 1:1 => 2 1 1 -6 4:1|
2 1 1 -6 1:1 => 2 1 1 1:1|
2 1 1 -6 1:1 => 2 1 1 -6 -6 1:1|
2 1 1 -6 1:1 => 2 1 1 -6 1:1 1:0|
2 1 1 -6 1:1 => 2 1 1 -6  1:1|
2 1 1 -6 1:1 => 2 1 1 -6 1:1 |
2 1 1 -6 1:1 => 2 1 1 1:1 -6|
2 1 1 -6 1:1 => 2 1 01 -6 1:1|
2 1 1 -6 1:1 => 2 1 -0 -6 1:1|
2 1 1 -6 1:1 => 2 0 1 -6 1:1|
2 1 1 -6 1:1 => 2 1 1 -6 0:1 1:1|
2 1 1 -6 1:1 => 2 2 1 -6 1:1 0:1|
4 2 0 -16 1:0 => 4 0 0 -16 1:0|
5 3 1 -6 1:1 => 6 3 1 -6 1:1|
2 0 1 -4\nend => 2 0 0 -4\nend|
trace id 2 steps 2 thin 2\n0 0 1 -4 2:0 => trace id 2 steps 2 thin 2\n0 0 0 -16 1:1|
\nend\n => \n3 0 1 -4\nend\n|
5 3 1 -6 1:1\n => |
"""


class Reading(TextCase):
    """The values read from a text, and the lines at which other texts are refused."""

    def refuse(self, number: int, text: typing.Union[str, bytes], **more: common.Value) -> str:
        with self.assertRaises(district_audit.TraceRefused) as caught:
            for _ in self.read(text, **more):
                pass
        self.assertEqual(caught.exception.number, number, str(caught.exception))
        return str(caught.exception)

    def test_each_sample(self) -> None:
        trace = self.read(TEXT, last=True)
        plans = [
            (
                sample.id, sample.step, sample.moves, "".join(sample.assignment.values()),
                sample.numerators, sample.is_last,
            )
            for sample in trace
        ]
        self.assertEqual(
            plans,
            [
                (0, 0, 0, "ppqq", (0, -16), False), (0, 2, 1, "pqqq", (1, -6), False),
                (0, 4, 2, "ppqq", (0, -16), False), (0, 5, 3, "pqqq", (1, -6), True),
                (1, 0, 0, "pppq", (1, -4), False), (1, 2, 1, "ppqq", (0, -16), True),
                (2, 0, 0, "pppq", (1, -4), False), (2, 2, 0, "pppq", (1, -4), True),
            ],
        )
        self.assertEqual([ask.ask for ask in trace.head.asks], ["seats:low", "gap:high"])
        self.assertEqual(
            (trace.head.setting.steps, trace.head.rules.high, trace.head.source), (5, 3, None)
        )
        self.assertEqual(dict(trace.enacted.assignment), dict(zip("wxyz", "ppqq")))

    def test_an_unknown_score_is_an_error(self) -> None:
        """The program and the plain model read no score as another one."""
        with self.assertRaisesRegex(ValueError, "^unknown score ratio$"):
            denominator("ratio", 2, district_audit.Start(0, 1))
        words = dict(COLUMNS, slack=5000, key=common.KEY, ask="gap:low")
        job = trace_model.job_of(words, trace_model.encode(PATH))
        with self.assertRaisesRegex(ValueError, "^unknown score ratio$"):
            job.value(job.plan, "ratio")

    def test_the_odd_last_plan_is_left_out(self) -> None:
        """It is no plan of the N-step chain; a trajectory that ends on a multiple has its last."""
        self.assertEqual(
            [(sample.id, sample.step) for sample in self.read(TEXT)],
            [(0, 0), (0, 2), (0, 4), (1, 0), (1, 2), (2, 0), (2, 2)],
        )

    def test_samples_are_of_the_current_plan(self) -> None:
        trace = self.read(TEXT)
        first = next(trace)
        kept = first.frozen()
        assignment = first.assignment
        self.assertEqual(assignment["x"], "p")
        next(trace)
        calls: list[typing.Callable[[], object]] = [
            lambda: assignment["x"],
            lambda: dict(first.assignment),
            lambda: first.totals("a"),
            first.frozen,
            lambda: scores.seats(first),
            lambda: len(assignment),
        ]
        for call in calls:
            with self.assertRaises(district_audit.StaleSample):
                call()
        self.assertEqual(
            (first.step, first.moves, first.scores), (0, 0, {"seats": 0, "gap": Fraction(-1, 2)})
        )
        self.assertEqual(
            (kept.assignment["x"], kept.totals("a"), scores.seats(kept)), ("p", {"p": 4, "q": 4}, 0)
        )
        for _ in trace:
            pass
        self.assertEqual(dict(kept.assignment), dict(zip("wxyz", "ppqq")))

    def test_a_text_without_its_end(self) -> None:
        """Wherever the text is cut off, it is refused, at the line that is missing or not whole."""
        for place in range(len(TEXT)):
            with self.subTest(place=place):
                self.refuse(TEXT[:place].count("\n") + 1, TEXT[:place])

    def test_what_stands_behind_the_end(self) -> None:
        self.refuse(TEXT.count("\n") + 1, TEXT + "\n")
        self.refuse(TEXT.count("\n") + 1, TEXT + "end\n")
        self.refuse(TEXT.count("\n") + 1, TEXT + "x")

    def test_wrong_lines(self) -> None:
        """Each change is refused at its line, and not at a later one."""
        for change in WRONG.strip().split("\n"):
            old, new = change[:-1].replace("\\n", "\n").split(" => ")
            with self.subTest(old=old, new=new):
                self.assertEqual(TEXT.count(old) >= 1, True)
                changed = TEXT.replace(old, new, 1)
                same = os.path.commonprefix([TEXT, changed])
                number = same.count("\n") + 1
                self.refuse(number, changed)

    def test_a_trace_of_another_graph(self) -> None:
        other = json.loads(json.dumps(PATH))
        other["nodes"].append({"id": "v", "pop": 1, "a": 1, "b": 1, "d": "q"})
        other["adjacency"].append([{"id": "z"}])
        self.assertIn("5", self.refuse(8, TEXT, graph=other))
        data = trace_model.encode(PATH)
        setting = dict(
            trace_model.COLUMNS, slack=5000, key=common.KEY, steps=4, ask="gap:low", source="yes"
        )
        text = trace_model.text_of(trace_model.job_of(setting, data), 0, 0, 1)
        self.assertTrue(anything(self.read(text).head.source).is_of(data))
        self.assertIn(
            "SHA-256",
            self.refuse(
                text.split("\n").index("trace id 0 steps 4 thin 1") + 1, text,
                graph={**PATH, "graph": [0]},
            ),
        )

    def test_the_head_is_compared_with_the_graph(self) -> None:
        """Each part of the head that another graph or another job would have is refused."""
        whole: common.Words = dict(
            COLUMNS, key=common.KEY, slack=5000, walks=1, steps=5, ends=2, hub_steps=2,
            ask="seats:low,gap:high", max_cut=400_000,
        )
        self.assertEqual(len(list(self.read(TEXT, words=whole))), 7)
        changes: list[tuple[str, object]] = [
            ("walks", 2), ("steps", 4), ("ends", 3), ("hub_steps", 3), ("slack", 4000),
        ]
        changes += [("key", "1" * 64), ("ask", ["seats:low"]), ("max_cut", 2)]
        for name, value in changes:
            with self.subTest(name=name):
                why = self.refuse(8, TEXT, words={**whole, name: value})
                self.assertIn("is of another graph or job: ", why)

    def test_the_start_is_compared_with_the_graph(self) -> None:
        """A graph with other edges, people or votes is refused; the values are worked by hand."""
        text = TEXT.replace("ask gap", "ask cut-edges low start 1/1\nask gap")
        text = re.sub(r"^(\d+ \d+ [01]) ", r"\1 1 ", text, flags=re.MULTILINE)
        self.assertEqual(len(list(self.read(text))), 7)
        for name, changes, why in (
            (
                "edge", [("adjacency", [[{"id": "x"}, {"id": "y"}], *PATH["adjacency"][1:]])],
                "the number of edges is 3 there and 4 here",
            ),
            ("people", [("pop", 2)], "the population is 4 there and 8 here"),
            ("votes", [("a", 3)], "the enacted plan's seats is 0 there and 2 here"),
            ("cut", [("d", "pqpq")], "the enacted plan's seats is 0 there and 1 here"),
        ):
            root = json.loads(json.dumps(PATH))
            for key, value in anything(changes):
                if key == "adjacency":
                    root[key] = value
                else:
                    for place, node in enumerate(root["nodes"]):
                        node[key] = value[place] if isinstance(value, str) else value
            with self.subTest(name=name):
                self.assertIn(why, self.refuse(9, text, graph=root))
        for old, new, why in (
            ("start 1/1", "start 2/1", "the enacted plan's cut-edges is 2 there and 1 here"),
            ("start 0/1", "start 1/1", "the enacted plan's seats is 1 there and 0 here"),
            ("-16/32", "-15/32", "the enacted plan's gap is -15/32 there and -1/2 here"),
            ("-16/32", "-32/64", "twice the votes is 64 there and 32 here"),
        ):
            with self.subTest(new=new):
                self.assertIn(why, self.refuse(9, text.replace(old, new)))

    def test_regions_and_majorities_are_compared(self) -> None:
        """Two regions, one of three units; the group has a majority in q alone, 3 of 4."""
        root = json.loads(json.dumps(PATH))
        for node, county, group, whole in zip(root["nodes"], "aaab", (1, 1, 1, 2), (2, 2, 2, 2)):
            node.update(county=county, group=group, whole=whole)
        rules = "max-split 2 regions 2\ngroup-districts 1 of 1\nwalks 1"
        text = TEXT.replace("walks 1", rules, 1)
        named: common.Words = dict(COLUMNS, region="county", group="group", group_of="whole")
        self.assertEqual(len(list(self.read(text, root, named))), 7)
        for change, old, new, why in (
            ({}, "regions 2", "regions 3", "the number of regions is 3 there and 2 here"),
            ({}, "1 of 1", "1 of 2", "the number of majorities is 2 there and 1 here"),
            (dict(max_split=3), "", "", "max_split is 2 there and 3 here"),
            (dict(group_districts=0), "", "", "group_districts is 1 there and 0 here"),
            (dict(group_share=4000), "", "", "group_share is 5000 there and 4000 here"),
        ):
            with self.subTest(why=why):
                words: common.Words = {**named, **anything(change)}
                said = self.refuse(10, text.replace(old, new), graph=root, words=words)
                self.assertIn(why, said)

    def test_a_share_and_frozen_units_are_compared(self) -> None:
        """The group is half of p and 3/4 of q, so both have more than 49 percent."""
        root = json.loads(json.dumps(PATH))
        for node, group, keep in zip(root["nodes"], (1, 1, 1, 2), (True, False, 7, 0)):
            node.update(group=group, whole=2, keep=keep)
        rules = "group-districts 1 of 2\ngroup-share 4900\nfrozen 2\nwalks 1"
        text = TEXT.replace("walks 1", rules, 1)
        named: common.Words = dict(COLUMNS, group="group", group_of="whole", freeze="keep")
        self.assertEqual(len(list(self.read(text, root, named))), 7)
        for old, new, why in (
            ("1 of 2", "1 of 1", "the number of majorities is 1 there and 2 here"),
            ("group-share 4900", "group-share 5001", "majorities is 2 there and 1 here"),
            ("frozen 2", "frozen 3", "the number of frozen units is 3 there and 2 here"),
        ):
            with self.subTest(new=new):
                said = self.refuse(11, text.replace(old, new), graph=root, words=named)
                self.assertIn(why, said)
        with self.assertWarns(district_audit.HeadNotCompared):
            trace = self.read(text, root, dict(named, freeze=None))
        self.assertIn("frozen units not compared: freeze not named", trace.unchecked)

    def test_it_says_what_it_cannot_compare(self) -> None:
        with warnings.catch_warnings():
            warnings.simplefilter("error", district_audit.HeadNotCompared)
            trace = self.read(TEXT)
        self.assertEqual(
            trace.unchecked,
            ("single units: the text has no line `source`, so only totals are known",),
        )
        with self.assertWarns(district_audit.HeadNotCompared):
            trace = self.read(TEXT, words={"district": "d"})
        self.assertEqual(
            trace.unchecked[:-1],
            (
                "population not compared: population not named",
                "seats not compared: first and second not named",
                "gap not compared: first and second not named",
            ),
        )
        with self.assertRaisesRegex(district_audit.TypeRefused, "district is missing"):
            self.read(TEXT, words={"first": "a"})

    def test_columns_are_those_of_the_source(self) -> None:
        data = trace_model.encode(PATH)
        setting = dict(COLUMNS, slack=5000, key=common.KEY, steps=4, ask="gap:low", source="yes")
        text = trace_model.text_of(trace_model.job_of(setting, data), 0, 0, 1)
        with self.assertWarns(district_audit.HeadNotCompared):
            trace = self.read(text, words={"district": "d"})
        self.assertEqual(
            (trace.election, trace.unchecked),
            (("a", "b"), ("population not compared: population not named",)),
        )
        with self.assertRaisesRegex(district_audit.TraceRefused, "read the column a as first"):
            self.read(text, words=dict(COLUMNS, first="b", second="a"))

    def test_a_frozen_trajectory_warns(self) -> None:
        """All three trajectories make fewer moves than there are units: 3, 1 and 0 of 4."""
        with warnings.catch_warnings():
            warnings.simplefilter("always")
            with self.assertWarns(district_audit.FrozenWalk) as caught:
                list(self.read(TEXT))
        self.assertTrue(
            str(caught.warning).startswith(
                "trajectory 2 changed the plan 0 times in 2 steps (3 of 3 trajectories fewer times"
                " than there are units, 4)\n"
            )
        )
        self.assertEqual(caught.filename, __file__)
        text = TEXT.split("trace id 1")[0].replace("steps 5", "steps 9")
        text = text.replace("5 3 1 -6 1:1", "6 4 1 -6 1:1\n8 4 1 -6\n9 4 1 -6") + "end\n"
        with warnings.catch_warnings():
            warnings.simplefilter("error")
            self.assertEqual(len(list(self.read(text, last=True))), 6)

    def test_it_holds_no_text(self) -> None:
        """A text of 200 kB is read within half of that, the modules that are loaded meanwhile
        counted.
        """
        steps = 12_000
        head = TEXT.split("trace id")[0].replace("steps 5", f"steps {steps}")
        path = self.folder / "long"
        with open(path, "w", encoding="ascii") as file:
            file.write(f"{head}trace id 0 steps {steps} thin 1\n")
            file.writelines(
                (
                    f"{step} {step} {('0 -16', '1 -6')[step % 2]} 1:{step % 2}\n"
                    if step
                    else "0 0 0 -16\n"
                )
                for step in range(steps + 1)
            )
            file.write("end\n")
        self.assertGreater(path.stat().st_size, 200_000)
        trace = district_audit.read_trace(path, trace_model.encode(PATH), **trace_model.COLUMNS)
        tracemalloc.start()
        try:
            count = sum(1 for sample in trace if sample.moves == sample.step)
            peak = tracemalloc.get_traced_memory()[1]
        finally:
            tracemalloc.stop()
        self.assertEqual(count, steps + 1)
        self.assertLess(peak, 100_000)

    def test_missing_and_odd_values_are_reported_by_the_units_id(self) -> None:
        for value, why in (
            (None, "has no more"), (float("nan"), "has no more"), ("", "has no more"),
            (0.5, "is not whole"), (-1, "is negative"), ("7", "is not a number"),
            (True, "is not a number"),
        ):
            root = json.loads(json.dumps(PATH))
            for node in root["nodes"]:
                node["more"] = 1
            root["nodes"][2]["more"] = value
            path = self.folder / "trace"
            path.write_text(TEXT, encoding="ascii")
            columns: common.Words = dict(trace_model.COLUMNS)
            trace = district_audit.read_trace(path, common.StandInGraph(root), **columns)
            with self.subTest(value=value), self.assertRaisesRegex(ValueError, 'unit "y".*' + why):
                next(trace).totals("more")

    def test_columns_of_elections_are_looked_at_at_the_call(self) -> None:
        root = json.loads(json.dumps(PATH))
        with self.assertRaisesRegex(KeyError, "no unit has a column c"):
            self.read(TEXT, elections={"now": ("a", "b"), "then": ("c", "b")})
        for node, votes in zip(root["nodes"], (1, 2, 3, None)):
            node["c"] = votes
        with self.assertRaisesRegex(ValueError, 'unit "z" has no c'):
            self.read(TEXT, root, elections={"then": ("c", "b")})

    def test_columns_that_prepare_left_out(self) -> None:
        root = json.loads(json.dumps(PATH))
        for node in root["nodes"]:
            node["c"] = 1
        path = self.folder / "trace"
        path.write_text(TEXT, encoding="ascii")
        columns: common.Words = {
            "population": "pop",
            "first": "a",
            "second": "b",
            "district": "d",
        }
        for keep in ([], ["c"]):
            prepared = district_audit.prepare(
                common.StandInGraph(root), keep=anything(keep), **columns
            )
            sample = next(district_audit.read_trace(path, prepared))
            if keep:
                self.assertEqual(sample.totals("c"), {"p": 2, "q": 2})
            else:
                with self.assertRaisesRegex(KeyError, "keep="):
                    sample.totals("c")

    def test_a_gerrychain_partition(self) -> None:
        """GerryChain is not installed here: a stand-in has what it documents of Partition and
        Graph."""
        made = []

        class Module:
            @staticmethod
            def Partition(
                graph: object, assignment: object = None, **more: object
            ) -> str:
                made.append((graph, assignment, more))
                return "partition"

        class Graph:
            nodes = ("z", "y", "x", "w")

        sample = next(self.read(TEXT))
        sys.modules["gerrychain"] = anything(Module)
        try:
            self.assertEqual(sample.partition(Graph, updaters={}), "partition")
            self.assertEqual(made, [(Graph, dict(zip("wxyz", "ppqq")), {"updaters": {}})])
            with self.assertRaises(ValueError):
                sample.partition(type("Other", (), {"nodes": ("w", "x", "y", "v")}))
            with self.assertRaises(ValueError):
                sample.partition(type("Other", (), {"nodes": ("w", "x", "y", "z", "v")}))
        finally:
            del sys.modules["gerrychain"]
        sys.modules["gerrychain"] = anything(None)
        try:
            with self.assertRaisesRegex(district_audit.MissingExtra, "pip install gerrychain"):
                sample.partition(Graph)
        finally:
            del sys.modules["gerrychain"]


class Programs(TextCase):
    """Faults of the program, by stand-ins that write TEXT or a part of it."""

    def program(self, line: str) -> str:
        path = self.folder / "program"
        (self.folder / "text").write_text(TEXT, encoding="ascii")
        version = f"case $1 in --version) echo district-audit {district_audit.__version__}; exit 0"
        path.write_text(
            f"#!/bin/sh\n{version} ;; esac\ncd '{self.folder}'\n{line}\n", encoding="ascii"
        )
        path.chmod(0o755)
        return str(path)

    def trace(self, line: str, **more: common.Value) -> district_audit.Trace:
        words: common.Words = dict(
            trace_model.COLUMNS, key=common.KEY, slack=5000, walks=1, steps=5, ends=2, hub_steps=2,
            ids=(0, 2), thin=2,
        )
        return district_audit.trace(
            trace_model.encode(PATH), program=self.program(line), **{**words, **more}
        )

    def test_a_whole_text_and_status_0(self) -> None:
        trace = self.trace('cat > graph; echo "$@" > words; cat text')
        self.assertEqual(sum(1 for _ in trace), 7)
        self.assertEqual((self.folder / "graph").read_bytes(), trace_model.encode(PATH))
        self.assertIn("--ids 0-2 --thin 2", (self.folder / "words").read_text(encoding="ascii"))

    def test_a_whole_text_and_another_status(self) -> None:
        with self.assertRaises(district_audit.WriteFault) as caught:
            list(self.trace("cat text; echo write fault >&2; exit 5"))
        self.assertEqual(caught.exception.line, "write fault")

    def test_half_a_text(self) -> None:
        for line, kind in (
            ("head -n 10 text", district_audit.TraceRefused),
            ("head -c 300 text", district_audit.TraceRefused),
            ("head -n 10 text; echo write fault >&2; exit 5", district_audit.WriteFault),
            ("head -c 300 text; kill -9 $$", district_audit.ProgramFailed),
            ("echo memory >&2; exit 3", district_audit.MemoryRefused),
            ("true", district_audit.TraceRefused),
            ("head -n 20 text | sed 's/^trace id 2.*/end/'", district_audit.TraceRefused),
        ):
            with self.subTest(line=line), self.assertRaises(kind):
                list(self.trace(line))

    def test_another_trajectory_than_was_asked_for(self) -> None:
        for ids in (1, (0, 1), (1, 2)):
            with self.subTest(ids=ids), self.assertRaises(district_audit.TraceRefused):
                list(self.trace("cat text", ids=ids))

    def test_a_refused_text_ends_the_program(self) -> None:
        trace = self.trace("sed 's/^4 2/4 9/' text; exec sleep 600")
        process = anything(trace.lines).process
        with self.assertRaises(district_audit.TraceRefused):
            list(trace)
        self.assertIsNotNone(process.poll())

    def test_a_sample_comes_before_the_text_ends(self) -> None:
        started = time.monotonic()
        with self.trace("head -n 9 text; exec sleep 600") as trace:
            self.assertEqual(next(trace).step, 0)
        self.assertLess(time.monotonic() - started, 60)

    def test_ids(self) -> None:
        for ids, wanted in (
            (0, "0"), ("1", "1"), ("0-2", "0-2"), ((1, 2), "1-2"), (range(1, 3), "1-2"),
            ("walks", "0"), ("ends", "1-2"),
        ):
            with self.subTest(ids=ids):
                with self.assertRaises(district_audit.TraceRefused):
                    list(self.trace('echo "$@" > words', ids=ids))
                self.assertIn(
                    f"--ids {wanted} --thin", (self.folder / "words").read_text(encoding="ascii")
                )
        for ids in (3, "0-3", (2, 1), range(0), range(0, 3, 2), -1, "all", "1-"):
            with self.subTest(ids=ids), self.assertRaises(ValueError):
                self.trace("cat text", ids=ids)

    def test_thin_where_it_is_left_out(self) -> None:
        for ids, wanted in (("walks", "1000"), ("ends", "2"), (1, "1000")):
            with self.assertRaises(district_audit.TraceRefused):
                self.trace('echo "$@" > words', ids=ids, thin=None)
            self.assertTrue(
                (self.folder / "words").read_text(encoding="ascii").endswith(f"--thin {wanted}\n")
            )

    def test_progress(self) -> None:
        from district_audit import progress

        shown: list[common.Value] = []

        class Bar:
            def show(self, done: int, total: int) -> None:
                shown.append((done, total))

            def end(self) -> None:
                shown.append("end")

        before = progress.new_bar
        progress.new_bar = anything(Bar)
        try:
            list(self.trace("cat text", progress=True))
        finally:
            progress.new_bar = before
        self.assertEqual((shown[-2:], {pair[1] for pair in shown[:-1]}), ([(9, 9), "end"], {9}))
        self.assertEqual(sorted(shown[:-1]), shown[:-1])


if __name__ == "__main__":
    unittest.main()
