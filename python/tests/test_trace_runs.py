"""Traces of the real program and of the plain model: every sample is as the model says."""
import os
import typing
import unittest
from fractions import Fraction

import common
from common import anything
import district_audit
import trace_model
from district_audit import scores
from tests.oracle import model
from trace_model import TextCase, draw_jobs, tracing_program

GRID: common.Words = dict(population="TOTPOP", first="DEM", second="REP", district="CD")
# The number of jobs that are drawn for each of the tests against the model.
JOBS = int(os.environ.get("TRACE_JOBS", "30"))


class AgainstTheModel(TextCase):
    """Every sample of drawn jobs has the plan, the moves and the scores of the plain model."""

    def compare(
        self,
        trace: district_audit.Trace,
        root: common.Root,
        job: model.Job,
        first: int,
        last: int,
        thin: int,
    ) -> None:
        labels = sorted({node["d"] for node in root["nodes"]})
        ids = [node["id"] for node in root["nodes"]]
        wanted = [
            (number, step, *plans[step])
            for number in range(first, last + 1)
            for plans in [trace_model.visit(job, number)]
            for step in trace_model.shown_steps(len(plans) - 1, thin)
        ]
        samples = 0
        for sample, (number, step, plan, moves) in zip(trace, wanted):
            samples += 1
            self.assertEqual((sample.id, sample.step, sample.moves), (number, step, moves))
            assignment = {unit: labels[district] for unit, district in zip(ids, plan)}
            self.assertEqual(dict(sample.assignment), assignment)
            self.assertEqual(
                sample.scores,
                {
                    score: Fraction(job.value(plan, score), job.denominator(score))
                    for score, _ in job.setting.asks
                },
            )
            self.compare_scores(sample, root, assignment, job, plan)
        self.assertEqual(samples, len(wanted))
        self.assertIsNone(next(trace, None))

    def compare_scores(
        self,
        sample: district_audit.Sample,
        root: common.Root,
        assignment: dict[object, object],
        job: model.Job,
        plan: typing.Sequence[int],
    ) -> None:
        hand = trace_model.scores_by_hand(root, assignment)
        ours = {
            "cut_edges": scores.cut_edges(sample),
            "splits": scores.splits(sample, "county"),
            "split_regions": scores.split_regions(sample, "county"),
            "majorities": scores.majorities(sample, "bvap", "vap"),
        }
        for name, election in (("ab", None), ("ce", ("c", "e"))):
            for score in ("seats", "efficiency_gap", "ordered_shares", "partisan_bias"):
                ours[f"{score} {name}"] = getattr(scores, score)(sample, election)
            ours["competitive " + name] = scores.competitive(sample, 0.1, election)
        self.assertEqual(ours, hand)
        for score, function in (
            ("seats", scores.seats), ("mean-median", scores.mean_median),
            ("gap", scores.efficiency_gap), ("cut-edges", scores.cut_edges),
        ):
            self.assertEqual(
                anything(function)(sample), Fraction(job.value(plan, score), job.denominator(score))
            )

    def test_texts_of_drawn_jobs(self) -> None:
        for root, words, job, first, last, thin in draw_jobs(1, JOBS):
            text = trace_model.text_of(job, first, last, thin)
            with self.subTest(words=words, ids=(first, last), thin=thin):
                self.compare(self.read(text, root, words, last=True), root, job, first, last, thin)

    def test_the_program_on_drawn_jobs(self) -> None:
        program = tracing_program()
        for root, words, job, first, last, thin in draw_jobs(2, JOBS):
            with self.subTest(words=words, ids=(first, last), thin=thin):
                trace = district_audit.trace(
                    trace_model.encode(root), ids=(first, last), thin=thin, last=True,
                    program=program, **words,
                )
                self.compare(trace, root, job, first, last, thin)

    def test_real_maps(self) -> None:
        """On the counties of North Carolina and the tracts of upstate New York the program's plans
        are
        the model's, and the package's scores the program's."""
        program = tracing_program()
        maps = (
            (
                common.EXAMPLES / "data" / "nc.json",
                dict(
                    population="BIR74", first="WBIR74", second="NWBIR74", district="PLAN11",
                    slack=1000,
                ),
                300,
            ),
            (
                common.EXAMPLES / "data" / "ny8.json",
                dict(
                    population="POP8", first="OWNING", second="OTHERS", district="PLAN8",
                    slack=1000, region="COUNTY",
                ),
                60,
            ),
        )
        for path, columns, steps in maps:
            prepared = district_audit.prepare(
                path,
                numbers="nearest",
                **anything({name: column for name, column in columns.items() if name != "slack"}),
            )
            words: common.Words = dict(
                key=district_audit.key_of(path.name), walks=1, steps=steps, ends=1, hub_steps=steps,
                ask="seats:low,mean-median:high,gap:low,cut-edges:low", slack=columns["slack"],
            )
            job = trace_model.job_of({**prepared.columns, **words}, prepared.data)
            for number in (0, 1):
                plans = trace_model.visit(job, number)
                trace = district_audit.trace(
                    prepared, ids=number, thin=20, program=program, **words
                )
                moves = 0
                for sample in trace:
                    plan, moves = plans[sample.step]
                    self.assertEqual(sample.moves, moves)
                    self.assertEqual(
                        list(sample.assignment.values()),
                        [prepared.districts[district] for district in plan],
                    )
                    self.assertEqual(
                        sample.scores,
                        {
                            "seats": scores.seats(sample),
                            "mean-median": scores.mean_median(sample),
                            "gap": scores.efficiency_gap(sample),
                            "cut-edges": scores.cut_edges(sample),
                        },
                    )
                    self.assertEqual(scores.cut_edges(sample), job.value(plan, "cut-edges"))
                    if "region" in columns:
                        self.assertEqual(
                            (
                                scores.splits(sample, "COUNTY"),
                                scores.split_regions(sample, "COUNTY"),
                            ),
                            (job.splits(plan), job.split_regions(plan)),
                        )
                self.assertGreater(moves, 0)


class Tests(common.ProgramCase):
    """Tests on samples come to what the program's own report says."""

    def setUp(self) -> None:
        super().setUp()
        self.program = tracing_program()

    def test_at_each_step_they_are_the_reports(self) -> None:
        words: common.Words = dict(
            GRID, slack=1000, key=district_audit.key_of("each step"), walks=2, steps=3000, ends=9,
            hub_steps=400, ask=["seats:low", "mean-median:high", "gap:high", "cut-edges:low"],
            program=self.program,
        )
        graph = common.EXAMPLES / "data" / "grid.json"
        report = district_audit.run(graph, **words)
        functions = {
            "seats": scores.seats,
            "mean-median": scores.mean_median,
            "gap": scores.efficiency_gap,
            "cut-edges": scores.cut_edges,
        }
        values: dict[tuple[int, str], list[object]] = {}
        for sample in district_audit.trace(graph, ids="walks", thin=1, **words):
            for score, function in functions.items():
                values.setdefault((sample.id, score), []).append(anything(function)(sample))
        moves = {}
        for sample in district_audit.trace(graph, ids="walks", thin=3000, **words):
            moves[sample.id] = sample.moves
        for walk in report.walks:
            test = district_audit.outlier_test(values[walk.number, walk.score], walk.tail)
            self.assertEqual(
                (test.count, test.of, test.bound, moves[walk.number]),
                (walk.count, walk.of, walk.bound, walk.moved),
            )
        trace = district_audit.trace(graph, ids="ends", **words)
        self.assertEqual(trace.trajectory.thin, 400)
        ends = {score: [anything(function)(trace.enacted)] for score, function in functions.items()}
        for sample in trace:
            if sample.is_last:
                for score, function in functions.items():
                    ends[score].append(anything(function)(sample))
        for end in report.ends:
            ranked = district_audit.rank_test(ends[end.score], end.tail)
            self.assertEqual((ranked.rank, ranked.of, ranked.p), (end.rank, end.of, end.p))

    def test_a_networkx_graph_with_pairs_as_ids(self) -> None:
        networkx = common.needs("networkx")
        graph = networkx.grid_2d_graph(4, 6)
        for (row, column), data in graph.nodes(data=True):
            data.update(
                pop=1, a=(5 * row + column) % 4, b="2", x=row * column, d=1.0 + column // 2,
                county=(row // 2, "c"),
            )
        trace = district_audit.trace(
            graph, program=self.program, population="pop", first="a", second="b", district="d",
            slack=5000, key=common.KEY, steps=200, thin=10, ask="cut-edges:low", source=True,
        )
        self.assertEqual(anything(trace.head.source).population, "pop")
        moved = 0
        for sample in trace:
            assignment = dict(sample.assignment)
            self.assertEqual(set(assignment), set(graph))
            self.assertEqual(set(assignment.values()), {1.0, 2.0, 3.0})
            self.assertEqual(
                sample.scores["cut-edges"],
                sum(assignment[one] != assignment[other] for one, other in graph.edges),
            )
            self.assertEqual(sum(sample.totals("b").values()), 48)
            self.assertEqual(
                sample.totals("x"),
                {
                    label: sum(
                        graph.nodes[node]["x"] for node in graph if assignment[node] == label
                    )
                    for label in (1.0, 2.0, 3.0)
                },
            )
            self.assertEqual(
                scores.splits(sample, "county"),
                sum(
                    len(
                        {
                            assignment[node]
                            for node in graph
                            if graph.nodes[node]["county"] == county
                        }
                    )
                    - 1
                    for county in ((0, "c"), (1, "c"))
                ),
            )
            moved = max(
                moved, sum(assignment[node] != data["d"] for node, data in graph.nodes(data=True))
            )
            with self.assertRaisesRegex(KeyError, "no unit has a column votes"):
                sample.totals("votes")
        self.assertGreater(moved, 2)

    def test_an_assignment_in_place_of_a_column(self) -> None:
        root = common.example("grid.json")
        own = {node["id"]: "plan " + node["CD"] for node in root["nodes"]}
        words: common.Words = dict(
            GRID, slack=1000, key=common.KEY, steps=100, thin=50, program=self.program
        )
        plain = [
            dict(sample.assignment)
            for sample in district_audit.trace(common.EXAMPLES / "data" / "grid.json", **words)
        ]
        del words["district"]
        given = [
            dict(sample.assignment)
            for sample in district_audit.trace(
                common.StandInGraph(root), assignment=common.StandInPartition(own), **words
            )
        ]
        self.assertEqual(
            given, [{unit: "plan " + label for unit, label in one.items()} for one in plain]
        )

    def test_refusals_of_the_program_come_at_the_call(self) -> None:
        words: common.Words = dict(
            trace_model.COLUMNS, slack=5000, key=common.KEY, program=self.program
        )
        data = trace_model.encode(trace_model.PATH)
        for kind, line, changed in (
            (district_audit.WordsRefused, "words: bad value for --slack", dict(slack=20000)),
            (district_audit.WordsRefused, "words: --first is missing", dict(first=None)),
            (district_audit.WordsRefused, "words: bad value for --thin", dict(thin=0)),
            (district_audit.WordsRefused, "words: unknown name --workers", dict(workers=2)),
            (
                district_audit.GraphRefused, "plan: district 0 has population 2, outside 3 to 1",
                dict(slack=0, district="pop"),
            ),
        ):
            with self.subTest(line=line):
                with self.assertRaises(kind) as caught:
                    district_audit.trace(data, **{**words, **anything(changed)})
                if kind is district_audit.WordsRefused:
                    self.assertEqual(caught.exception.line, line)

    def test_closing_ends_the_program(self) -> None:
        """Closed by hand, by a `with` block, and by leaving the loop."""
        words: common.Words = dict(
            GRID, slack=1000, key=common.KEY, steps=10**9, thin=100, program=self.program
        )
        for way in ("close", "with", "leave"):
            trace = district_audit.trace(common.EXAMPLES / "data" / "grid.json", **words)
            process = anything(trace.lines).process
            if way == "with":
                with trace:
                    next(trace)
            elif way == "close":
                next(trace)
                trace.close()
                trace.close()
                self.assertIsNone(next(trace, None))
            else:
                for _sample in trace:
                    break
                del trace, _sample
            self.assertIsNotNone(process.poll(), way)

    def test_a_program_that_is_killed(self) -> None:
        trace = district_audit.trace(
            common.EXAMPLES / "data" / "grid.json", steps=10**9, thin=100000, **GRID, slack=1000,
            key=common.KEY, program=self.program,
        )
        next(trace)
        anything(trace.lines).process.kill()
        with self.assertRaises(district_audit.ProgramFailed) as caught:
            for _ in trace:
                pass
        self.assertEqual(caught.exception.status, -9)

    def test_one_walk_serves_all_elections(self) -> None:
        common.needs("pandas")
        elections = {"A": ("DEM", "REP"), "B": ("REP", "DEM")}
        trace = district_audit.trace(
            common.EXAMPLES / "data" / "grid.json", elections=elections, population="TOTPOP",
            district="CD", slack=1000, key=common.KEY, steps=400, thin=100, program=self.program,
        )
        frame = trace.to_frame(
            ["seats", "efficiency_gap", "cut_edges", lambda sample: sample.moves], exact=True
        )
        self.assertEqual(
            list(frame.columns),
            [
                "id", "step", "moves", "seats A", "seats B", "efficiency_gap A", "efficiency_gap B",
                "cut_edges", "<lambda>",
            ],
        )
        self.assertEqual(list(frame.step), [0, 100, 200, 300, 400])
        self.assertEqual(list(frame["<lambda>"]), list(frame.moves))
        again = district_audit.trace(
            common.EXAMPLES / "data" / "grid.json", **GRID, slack=1000, key=common.KEY, steps=400,
            thin=100, program=self.program,
        )
        gaps = [
            (scores.efficiency_gap(sample), scores.efficiency_gap(sample, ("REP", "DEM")))
            for sample in again
        ]
        self.assertEqual(list(zip(frame["efficiency_gap A"], frame["efficiency_gap B"])), gaps)
        self.assertTrue(any(one != other for one, other in gaps))
        self.assertIsInstance(frame["efficiency_gap A"][0], Fraction)


if __name__ == "__main__":
    unittest.main()
