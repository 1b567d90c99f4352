"""Calls of the real program: what they answer, each exception, progress, and Ctrl-C."""
import contextlib
import io
import json
import os
import pathlib
import re
import signal
import subprocess
import sys
import textwrap
import time
import typing
import unittest
import warnings

import common
from common import anything
import district_audit
from district_audit import calls, checkpoints, commands, progress, running
from district_audit.words import words_of

CYCLE = common.EXAMPLES / "data" / "cycle.json"
# A run that takes long enough to be stopped in its midst, and saves often.
LONG: common.Words = {**common.WALK, "walks": 20000, "steps": 20000}
GRID: common.Words = dict(pop="TOTPOP", first="DEM", second="REP")
ROUGH: common.Words = dict(GRID, district="CD")


Refusal = typing.TypeVar("Refusal", bound=district_audit.AuditError)


def allow_interrupts() -> None:
    """Lets an interrupt end a child process, even if the tests run in the background, where it is
    ignored.
    """
    signal.signal(signal.SIGINT, signal.SIG_DFL)


class Calls(common.ProgramCase):
    def test_words_are_named_as_the_programs_are(self) -> None:
        self.assertEqual(
            words_of(
                "run",
                {
                    "population": "P",
                    "hub_steps": 3,
                    "shift": True,
                    "resume": False,
                    "key": b"\x0a" * 32,
                    "ask": ["gap:low", "seats:high"],
                    "stop": None,
                },
            ),
            [
                "run", "--hub-steps", "3", "--shift", "yes", "--resume", "no", "--key", "0a" * 32,
                "--ask", "gap:low,seats:high", "--pop", "P",
            ],
        )
        self.assertEqual(
            words_of(
                "check",
                {
                    "max_splits": 0,
                    "max_split_regions": 9,
                    "group": "BVAP",
                    "group_of": "VAP",
                    "group_districts": 4,
                    "source": True,
                },
            ),
            [
                "check", "--max-splits", "0", "--max-split-regions", "9", "--group", "BVAP",
                "--group-of", "VAP", "--group-districts", "4", "--source", "yes",
            ],
        )
        self.assertEqual(
            district_audit.key_of("abc"),
            "ba7816bf8f01cfea414140de5dae2223b00361a396177a9cb410ff61f20015ad",
        )

    def test_check_of_each_kind_of_graph(self) -> None:
        wanted = (
            "plan-check 1\nunits 4 edges 4 districts 2\npopulation 4 slack 5000 low 1 high 3\nend\n"
        )
        prepared = district_audit.prepare(CYCLE, **common.COLUMNS)
        for graph in (
            CYCLE, str(CYCLE), CYCLE.read_bytes(), prepared,
            common.StandInGraph(common.example("cycle.json")),
        ):
            words = {"slack": 5000} if graph is prepared else common.WORDS
            self.assertEqual(
                str(district_audit.check(graph, program=self.program, **words)), wanted
            )
        self.assertEqual(
            str(
                district_audit.check(
                    CYCLE, program=self.program, population="pop", first="a", second="b",
                    district="d", slack=5000,
                )
            ),
            wanted,
        )

    def test_bytes_go_as_they_are(self) -> None:
        """A float is no whole number to the program, and the package makes none of it unasked."""
        data = CYCLE.read_bytes().replace(b'"pop": 1', b'"pop": 1.0')
        self.assertNotEqual(data, CYCLE.read_bytes())
        with self.assertRaises(district_audit.GraphRefused):
            district_audit.check(data, program=self.program, **common.WORDS)
        district_audit.check(data, program=self.program, **common.WORDS, missing="error")

    def test_run_of_a_networkx_graph(self) -> None:
        networkx = common.needs("networkx")
        graph = networkx.readwrite.json_graph.adjacency_graph(common.example("grid.json"))
        report = district_audit.run(
            graph,
            program=self.program,
            **ROUGH,
            slack=1000,
            key="2b7e151628aed2a6abf7158809cf4f3c762e7160f38b4da56a784d9045190cfe",
            walks=2,
            steps=100000,
            ends=99,
            hub_steps=10000,
            workers=4,
            ask=["seats:low", "gap:high", "cut-edges:low"],
        )
        self.assertEqual(str(report), common.readme_report())

    def test_the_lines_of_python_in_the_readme(self) -> None:
        """They choose the weight of the command for a shell, and make what it prints."""
        common.needs("pandas")
        common.needs("matplotlib")
        text = (common.TOP / "README.md").read_text(encoding="utf-8")
        lines = text.partition("```python\n")[2].partition("```")[0]
        lines = lines.replace('"examples/', f'"{common.EXAMPLES}/')
        lines = lines.replace('"picture"', repr(str(self.folder / "picture")))
        made: typing.Dict[str, common.Value] = {}
        with common.environment(DISTRICT_AUDIT=self.program), warnings.catch_warnings(), \
                contextlib.redirect_stdout(io.StringIO()) as said:
            warnings.simplefilter("ignore")
            exec(lines, made)
        self.assertEqual(made["choice"].weight, 32)
        self.assertIn("--cut-weight 32:", said.getvalue())
        wanted = text.partition("\nprints\n\n```\n")[2].partition("```")[0]
        whole = "".join(f"plan {name}\n{one}" for name, one in made["reports"].items())
        shown = re.findall("^(?:plan|walk|pair|ends) .*\n", whole, re.MULTILINE)
        self.assertEqual("".join(shown), wanted)
        self.assertTrue((self.folder / "picture.png").exists())

    def test_an_assignment_stands_for_a_column(self) -> None:
        root = common.example("grid.json")
        words: common.Words = dict(
            slack=1000, key=common.KEY, steps=500, ask="cut-edges:low,seats:high",
            program=self.program,
        )
        report = district_audit.run(common.EXAMPLES / "data" / "grid.json", **ROUGH, **words)
        partition = common.StandInPartition({node["id"]: node["CD"] for node in root["nodes"]})
        self.assertEqual(
            district_audit.run(common.StandInGraph(root), **GRID, assignment=partition, **words),
            report,
        )
        self.assertEqual(
            district_audit.run(
                district_audit.prepare(
                    common.EXAMPLES / "data" / "grid.json", population="TOTPOP", first="DEM",
                    second="REP", district="CD",
                ),
                assignment=partition,
                **words,
            ),
            report,
        )

    def test_a_plan_of_a_table_is_that_of_a_column(self) -> None:
        """With ten districts and more, too, where texts have another order than numbers."""
        graph = common.StandInGraph(common.example("nc.json"))
        plan = {node["id"]: int(node["PLAN11"]) for node in common.example("nc.json")["nodes"]}
        words: common.Words = dict(
            population="BIR74", first="NWBIR74", second="WBIR74", slack=3000, key=common.KEY,
            steps=300, ask="cut-edges:low", numbers="nearest", program=self.program,
        )
        both = district_audit.plans(graph, {"same": plan}, assignment=plan, **words)
        own, other = map(str, both.values())
        self.assertEqual(own, other)
        self.assertEqual(str(district_audit.run(graph, assignment=plan, **words)), own)

    def test_make(self) -> None:
        report = district_audit.make(
            size=1, slack=5000, steps=100, ask="cut-edges:low", key=common.KEY,
            program=self.program, shift=True,
        )
        self.assertEqual(
            (report.units, report.edges, report.districts, sum(anything(report.shift).counts)),
            (100, 180, 10, 101),
        )

    def test_plans_of_a_file_a_dict_and_a_frame(self) -> None:
        words: common.Words = dict(
            ROUGH, slack=1000, key=common.KEY, steps=300, ask="cut-edges:low", program=self.program
        )
        of_file = district_audit.plans(
            common.EXAMPLES / "data" / "grid.json", common.EXAMPLES / "plans.csv", **words
        )
        self.assertEqual(list(of_file), ["CD", "blocks", "columns"])
        rows = [
            line.split(",")
            for line in (common.EXAMPLES / "plans.csv").read_text(encoding="utf-8").splitlines()[1:]
        ]
        blocks, columns = {int(row[0]): row[1] for row in rows}, {
            int(row[0]): row[2] for row in rows
        }
        of_dict = district_audit.plans(
            common.EXAMPLES / "data" / "grid.json",
            {"blocks": blocks, "columns": common.StandInPartition(columns)}, **words,
        )
        self.assertEqual(of_dict, of_file)
        pandas = common.needs("pandas")
        frame = pandas.read_csv(common.EXAMPLES / "plans.csv", index_col="id")
        self.assertEqual(
            district_audit.plans(common.EXAMPLES / "data" / "grid.json", frame, **words), of_file
        )
        with self.assertRaises(ValueError):
            district_audit.plans(
                common.EXAMPLES / "data" / "grid.json", {"blocks": blocks, "columns": {0: 1}},
                **words,
            )

    def test_rules_on_counties_and_a_group(self) -> None:
        """The report of examples/README.md from the file, and the same numbers from what was
        prepared.
        """
        words: common.Words = dict(
            max_splits=3, max_split_regions=3, group_districts=2, slack=1000, walks=1, steps=2047,
            ends=9, hub_steps=500, ask="mean-median:high,cut-edges:low",
            key=district_audit.key_of("groups"), source=True, program=self.program,
        )
        columns: common.Words = dict(
            pop="pop", first="a", second="b", district="d", region="county", group="bvap",
            group_of="vap",
        )
        path = common.EXAMPLES / "data" / "groups.json"
        report = district_audit.run(path, **columns, **words)
        self.assertEqual(str(report), common.groups_report())
        self.assertTrue(anything(report.source).is_of(path.read_bytes()))
        prepared = district_audit.prepare(
            path, **common.COLUMNS, region="county", group="bvap", group_of="vap"
        )
        for graph, named in (
            (prepared, {}),
            (common.StandInGraph(common.example("groups.json")), columns),
        ):
            other = district_audit.run(graph, **anything(named), **words)
            self.assertEqual(
                (other.walks, other.ends, other.rules), (report.walks, report.ends, report.rules)
            )
            self.assertTrue(anything(other.source).is_of(prepared.data))
        plan = district_audit.check(
            prepared, program=self.program, slack=1000, max_splits=2, max_split_regions=2,
            group_districts=2, source=True,
        )
        self.assertEqual(
            (plan.rules.max_splits, plan.rules.max_split_regions, plan.rules.majorities), (2, 2, 2)
        )
        self.assertEqual(plan.source, other.source)
        own = {node["id"]: node["d"] for node in common.example("groups.json")["nodes"]}
        found = district_audit.plans(prepared, {"own": own}, **words)
        self.assertEqual(
            [(name, one.walks, one.rules) for name, one in found.items()],
            [(name, report.walks, report.rules) for name in ("d", "own")],
        )
        self.assertEqual(found["d"].source, found["own"].source)
        self.assertFalse(anything(found["d"].source).is_of(prepared.data))

    def test_frozen_units_and_a_share(self) -> None:
        """All units of a district are frozen: it is the same in each plan of a trace, and a bad
        value is refused by its unit.
        """
        root = common.example("groups.json")
        for node in root["nodes"]:
            node["keep"] = [False, True, 0, 7][node["d"] % 4]
        words: common.Words = dict(
            common.COLUMNS, district="d", slack=1000, group="bvap", group_of="vap",
            group_districts=1, group_share=4500, freeze="keep", source=True, program=self.program,
        )
        plan = district_audit.check(root, **words)
        frozen = [node for node in root["nodes"] if node["keep"]]
        self.assertEqual(
            (plan.rules.group_share, plan.rules.frozen, anything(plan.source).freeze),
            (4500, len(frozen), "keep"),
        )
        walked: common.Words = dict(walks=1, steps=3000, key=common.KEY)
        report = district_audit.run(root, **words, **walked, ask="gap:low")
        self.assertEqual((report.rules, report.walks[0].moved > 0), (plan.rules, True))
        self.assertEqual(str(district_audit.Report.parse(str(report))), str(report))
        for sample in district_audit.trace(root, **words, **walked, thin=500):
            self.assertEqual(
                [sample.assignment[node["id"]] for node in frozen], [node["d"] for node in frozen]
            )
        neither = "is neither true, false nor a whole number"
        for value, said in (
            (None, "keep is missing"),
            ("yes", f'keep, which is "yes", {neither}'),
            (-1, neither),
            (0.5, neither),
        ):
            root["nodes"][3]["keep"] = value
            with self.subTest(value=value):
                with self.assertRaisesRegex(district_audit.PrepareRefused, said):
                    district_audit.check(root, **words)

    def test_changed_values_are_warned_of(self) -> None:
        root = common.example("cycle.json")
        root["nodes"][0]["a"] = None
        with self.assertWarns(district_audit.GraphChanged) as caught:
            district_audit.check(
                common.StandInGraph(root), program=self.program, missing="zero", **common.WORDS
            )
        self.assertIn("column a: missing values made 0: 1 unit", str(caught.warning))
        with warnings.catch_warnings():
            warnings.simplefilter("error", district_audit.GraphChanged)
            district_audit.check(
                common.StandInGraph(common.example("cycle.json")), program=self.program,
                missing="zero", **common.WORDS,
            )

    def test_parts_do_not_change_the_report(self) -> None:
        """Three runs of a part each in one folder: the last finds nothing left."""
        words: common.Words = dict(
            common.WALK, program=self.program, folder=self.folder, save=1, resume=True, parts=3
        )
        try:
            for part in (2, 0):
                with self.assertRaises(district_audit.WorkLeft):
                    district_audit.run(CYCLE, part=part, **words)
        except district_audit.WordsRefused as why:
            self.fail(f"the program under test has no parts: {why}")
        self.assertEqual(
            district_audit.run(CYCLE, part=1, **words),
            district_audit.run(CYCLE, program=self.program, **common.WALK),
        )


class Exceptions(common.ProgramCase):
    """One type for each status of the program, each with the program's line."""

    def refuse(
        self,
        kind: type[Refusal],
        line: str,
        call: typing.Callable[..., object] = district_audit.check,
        graph: object = CYCLE,
        program: typing.Optional[str] = None,
        **words: common.Value,
    ) -> Refusal:
        with self.assertRaises(kind) as caught:
            call(graph, program=program or self.program, **words)
        error = caught.exception
        self.assertIsInstance(error, kind)
        if kind is not district_audit.WordsRefused:
            self.assertIs(type(error), kind)
        self.assertEqual(error.line, line)
        return error

    def test_1_words(self) -> None:
        error = self.refuse(
            district_audit.WordsRefused, "words: bad value for --slack",
            **anything({**common.WORDS, "slack": 10001}),
        )
        self.assertEqual(
            (error.status, str(error)),
            (
                1,
                (
                    "check(slack=10001): slack is a whole number from 0 to 10000, in hundredths of"
                    " a percent"
                ),
            ),
        )
        self.refuse(
            district_audit.WordsRefused, "words: unknown name --hub-stops", hub_stops=3,
            **common.WORDS,
        )
        self.refuse(
            district_audit.WordsRefused, "words: --key is missing", call=district_audit.run,
            ask="gap:low", **common.WORDS,
        )

    def test_2_graph_in_the_users_labels(self) -> None:
        root = common.example("cycle.json")
        district_of = [node["d"] for node in root["nodes"]]
        self.refuse(district_audit.GraphRefused, "graph: not JSON", graph=b"[", **common.WORDS)
        error = self.refuse(
            district_audit.GraphRefused,
            "graph: node 2 has no whole number from 0 to 1000000000 in column a",
            graph=json.dumps(
                {
                    **root,
                    "nodes": [
                        {**node, "a": 0.5} if place == 2 else node
                        for place, node in enumerate(root["nodes"])
                    ],
                }
            ).encode(),
            **common.WORDS,
        )
        self.assertEqual(error.labels, f"node 2 is {json.dumps(root['nodes'][2]['id'])}")
        crossed = {node["id"]: name for node, name in zip(root["nodes"], "QRQR")}
        words = {name: column for name, column in common.WORDS.items() if name != "district"}
        error = self.refuse(
            district_audit.GraphRefused, "plan: district 0 has no path from unit 0 to unit 2",
            graph=common.StandInGraph(root), assignment=crossed, **words,
        )
        ids = [json.dumps(node["id"]) for node in root["nodes"]]
        self.assertEqual(error.labels, f'district 0 is "Q"; unit 0 is {ids[0]}; unit 2 is {ids[2]}')
        self.assertIn(error.labels, str(error))
        self.assertEqual(len(set(district_of)), 2)

    def test_2_region_by_its_name(self) -> None:
        root = common.example("counties.json")
        for node, name in zip(root["nodes"], ("Kings", "Kings", "Queens", "Queens")):
            node["county"] = name
            node["d"] = {"Kings": "x", "Queens": "y"}[name] if node is not root["nodes"][1] else "y"
        error = self.refuse(
            district_audit.GraphRefused, "plan: region 0 lies in 2 districts, more than 1",
            graph=json.dumps(root).encode(), region="county", max_split=1, **common.WORDS,
        )
        self.assertEqual(error.labels, 'region 0 is "Kings"')

    def test_2_region_of_a_real_map(self) -> None:
        """The county of upstate New York that is split too often, and its number, are counted here
        from the file.
        """
        nodes = common.example("ny8.json")["nodes"]
        split: dict[str, set[object]] = {}
        for node in nodes:
            split.setdefault(node["COUNTY"], set()).add(node["PLAN8"])
        most = max(map(len, split.values()))
        number, county = next(
            (number, county)
            for number, county in enumerate(sorted(split))
            if len(split[county]) == most
        )
        self.assertNotEqual(county, str(number))
        words: common.Words = dict(
            population="POP8", first="OWNING", second="OTHERS", district="PLAN8", numbers="nearest",
            region="COUNTY", slack=1000,
        )
        with warnings.catch_warnings():
            warnings.simplefilter("ignore", district_audit.GraphChanged)
            error = self.refuse(
                district_audit.GraphRefused,
                f"plan: region {number} lies in {most} districts, more than {most - 1}",
                graph=common.StandInGraph(common.example("ny8.json")),
                max_split=most - 1,
                **words,
            )
            self.assertEqual(error.labels, f'region {number} is "{county}"')
            plan = district_audit.check(
                common.StandInGraph(common.example("ny8.json")), program=self.program,
                max_split=most, **words,
            )
        self.assertEqual(
            (plan.units, plan.districts, plan.rules.regions, plan.population),
            (len(nodes), 8, len(split), sum(int(node["POP8"]) for node in nodes)),
        )

    def test_1_and_2_further_rules(self) -> None:
        words: common.Words = dict(
            common.WORDS, graph=common.EXAMPLES / "data" / "groups.json", slack=1000
        )
        for said, why in (
            (dict(max_splits=2), "--max-splits"),
            (dict(max_split_regions=2), "--max-split-regions"),
            (dict(group_of="vap"), "--group-of"), (dict(group_districts=1), "--group-districts"),
            (dict(region="county", max_splits=995001), "--max-splits"),
            (dict(source="maybe"), "--source"),
        ):
            self.refuse(
                district_audit.WordsRefused, "words: bad value for " + why, **words,
                **anything(said),
            )
        for said, why in (
            (dict(region="county", max_splits=1), "2 splits of regions, more than 1"),
            (
                dict(region="county", max_split_regions=1),
                "2 regions lie in more than one district, more than 1",
            ),
            (
                dict(group="bvap", group_of="vap", group_districts=3),
                "the group has a majority in 2 districts, fewer than 3",
            ),
        ):
            error = self.refuse(
                district_audit.GraphRefused, "plan: " + why, **words, **anything(said)
            )
            self.assertEqual(error.labels, "")
        self.refuse(
            district_audit.GraphRefused, "graph: node 0 has no column bvapp", **words, group="bvapp"
        )

    def test_2_a_plan_of_a_table(self) -> None:
        crossed = {
            node["id"]: name for node, name in zip(common.example("cycle.json")["nodes"], "QRQR")
        }
        with self.assertRaises(district_audit.GraphRefused) as caught:
            district_audit.plans(
                CYCLE, {"odd": crossed}, program=self.program, key=common.KEY, ask="gap:low",
                **common.WORDS,
            )
        self.assertEqual(
            caught.exception.line, "plan odd: district 0 has no path from unit 0 to unit 2"
        )
        self.assertIn('district 0 is "Q"', caught.exception.labels)

    def test_3_memory(self) -> None:
        graph = {
            "nodes": [
                {"id": place, "pop": 1, "a": 1, "b": 1, "d": place % 2} for place in range(100000)
            ],
            "adjacency": [[] for _ in range(100000)],
        }
        error = self.refuse(
            district_audit.MemoryRefused, "memory", graph=json.dumps(graph).encode(),
            program=self.with_little_memory(), **common.WORDS,
        )
        self.assertIsInstance(error, MemoryError)

    def test_4_and_5_reading_and_writing(self) -> None:
        self.refuse(
            district_audit.ReadFault, "read fault", program=self.wrapper("exec PROGRAM </"),
            **common.WORDS,
        )
        self.refuse(
            district_audit.WriteFault, "write fault",
            program=self.wrapper("exec PROGRAM >/dev/full"), **common.WORDS,
        )

    def test_6_and_8_checkpoints(self) -> None:
        (self.folder / "audit-0.ckpt").mkdir()
        words: common.Words = dict(
            common.WALK, call=district_audit.run, folder=self.folder, save=2, resume=True
        )
        self.refuse(district_audit.CheckpointUnreadable, "checkpoint load fault", **words)
        (self.folder / "audit-0.ckpt").rmdir()
        (self.folder / "audit-1.ckpt").write_bytes(b"")
        self.refuse(
            district_audit.CheckpointRefused, "checkpoint: slot 0 absent, slot 1 too short", **words
        )

    def test_7_work_left(self) -> None:
        words: common.Words = dict(common.WALK, folder=self.folder, save=2, budget=5)
        error = self.refuse(
            district_audit.WorkLeft, "stopped: 5 of 12 done", call=district_audit.run, **words
        )
        self.assertEqual((error.done, error.total), (5, 12))
        report = district_audit.run(
            CYCLE, program=self.program, **anything({**words, "budget": 12}), resume=True
        )
        self.assertEqual(report, district_audit.run(CYCLE, program=self.program, **common.WALK))

    def test_9_saving(self) -> None:
        # No byte can be written to a file.
        program = self.wrapper("trap '' XFSZ; ulimit -f 0; exec PROGRAM")
        error = self.refuse(
            district_audit.SaveFault, "checkpoint save fault", program=program,
            call=district_audit.run, folder=self.folder, save=2, **common.WALK,
        )
        self.assertEqual(
            error.report, district_audit.run(CYCLE, program=self.program, **common.WALK)
        )

    def test_programs_that_are_not_there_or_do_not_end_by_themselves(self) -> None:
        with self.assertRaises(district_audit.ProgramMissing):
            district_audit.check(CYCLE, program="/there/is/none", **common.WORDS)
        with common.environment(PATH=str(self.folder), DISTRICT_AUDIT=None), self.assertRaises(
            district_audit.ProgramMissing
        ):
            district_audit.check(CYCLE, **common.WORDS)
        with self.assertRaises(district_audit.ProgramFailed) as caught:
            district_audit.check(CYCLE, program=self.wrapper("kill -9 $$"), **common.WORDS)
        self.assertEqual(caught.exception.status, -9)
        with self.assertRaises(district_audit.ReportRefused):
            line = "[ $1 = --version ] && exec PROGRAM; echo plan-check 2"
            district_audit.check(CYCLE, program=self.wrapper(line), **common.WORDS)

    def test_the_program_is_found_by_name(self) -> None:
        (self.folder / "district-audit").symlink_to(self.program)
        with common.environment(PATH=f"{self.folder}:/usr/bin:/bin", DISTRICT_AUDIT=None):
            self.assertEqual(district_audit.check(CYCLE, **common.WORDS).units, 4)


class Noted:
    """A bar that notes its calls."""

    def __init__(self) -> None:
        self.shown: list[tuple[int, int]] = []
        self.ended = False

    def show(self, done: int, total: int) -> None:
        self.shown.append((done, total))

    def end(self) -> None:
        self.ended = True


class Progress(common.ProgramCase):
    def setUp(self) -> None:
        super().setUp()
        self.slots = common.slots(self.folder)

    def run_with(self, **words: common.Value) -> tuple[district_audit.Report, Noted]:
        bar = Noted()
        before, progress.new_bar = progress.new_bar, lambda name="", unit="": bar
        self.addCleanup(setattr, progress, "new_bar", before)
        try:
            report = district_audit.run(
                CYCLE, program=self.program, folder=self.folder, progress=True,
                **anything({"slots": self.slots, **words}),
            )
        finally:
            progress.new_bar = before
        return report, bar

    def test_the_bar_ends_at_the_whole(self) -> None:
        report, bar = self.run_with(**{**common.WALK, "steps": 2000}, save=1)
        self.assertEqual((bar.shown[-1], bar.ended), ((12, 12), True))
        self.assertEqual(
            report,
            district_audit.run(
                CYCLE, program=self.program, **anything({**common.WALK, "steps": 2000})
            ),
        )

    def test_an_earlier_run_counts_only_where_it_is_resumed(self) -> None:
        with self.assertRaises(district_audit.WorkLeft):
            district_audit.run(
                CYCLE, program=self.program, folder=self.folder, save=1, budget=5, **common.WALK
            )
        seen = progress.look(
            self.slots, words_of("run", common.WALK), CYCLE.read_bytes(), self.folder
        )
        self.assertEqual((seen.done, seen.total), (5, 12))
        for is_resumed, done in ((True, 5), (False, 0)):
            bar = Noted()
            progress.Watch(lambda: seen, 12, is_resumed, bar)()
            self.assertEqual(bar.shown, [(done, 12)])

    def test_it_never_tells_what_was_found(self) -> None:
        """All that is asked is `audit_slots`, and of its text only the slots' lines and `done` are
        looked at.
        """
        seen = progress.look(
            self.slots, words_of("run", common.WALK), CYCLE.read_bytes(), self.folder
        )
        self.assertEqual(seen, progress.Look("slot 0: absent\nslot 1: absent", 0, 12))

    def test_without_save_it_shows_the_time(self) -> None:
        stream = io.StringIO()
        clock = progress.Clock(12, stream)
        for seconds in (0, 0.4, 0.2, 8, 1, 0.7, 5, 4.9, 0.9):
            clock.began -= seconds
            clock()
        clock.end()
        self.assertEqual(
            stream.getvalue(),
            "".join(
                f"walking 12 trajectories for {seconds} s (save=1 shows how many are walked)\n"
                for seconds in (0, 10, 21)
            ),
        )
        report = district_audit.run(CYCLE, program=self.program, progress=True, **common.WALK)
        self.assertEqual(report, district_audit.run(CYCLE, program=self.program, **common.WALK))

    def test_without_a_second_program(self) -> None:
        """The number done is read from the checkpoints, and is that of audit_slots."""
        with self.assertRaises(district_audit.WorkLeft):
            district_audit.run(
                CYCLE, program=self.program, folder=self.folder, save=1, budget=5, **common.WALK
            )
        seen = progress.look(
            self.slots, words_of("run", common.WALK), CYCLE.read_bytes(), self.folder
        )
        own = checkpoints.look_in(self.folder, 12)
        self.assertEqual((own.done, own.total), (seen.done, seen.total))
        report, bar = self.run_with(slots=None, **common.WALK, save=1, resume=True)
        self.assertEqual((bar.shown[-1], bar.ended), ((12, 12), True))
        self.assertEqual(report, district_audit.run(CYCLE, program=self.program, **common.WALK))

    def test_bars(self) -> None:
        stream = io.StringIO()
        bar = progress.PlainBar(stream)
        for done in (0, 37, 37, 101):
            bar.show(done, 101)
        bar.end()
        self.assertEqual(
            stream.getvalue(), "walked 0 of 101\nwalked 37 of 101\nwalked 101 of 101\n"
        )
        stream = io.StringIO()
        stream.isatty = lambda: True  # type: ignore[assignment]
        bar = progress.PlainBar(stream)
        bar.show(50, 100)
        bar.end()
        drawn = "#" * 20 + "." * 20
        self.assertEqual(stream.getvalue(), f"\r[{drawn}] walked 50 of 100 \n")

    def test_tqdm_where_it_is(self) -> None:
        tqdm = common.needs("tqdm")
        stream = io.StringIO()
        bar = progress.TqdmBar(lambda **said: tqdm.tqdm(file=stream, **said))
        bar.show(37, 101)
        bar.end()
        self.assertIn("37/101", stream.getvalue())

    def test_ctrl_c_stops_and_tells_how_to_go_on(self) -> None:
        """A run of hours is interrupted after its second save; the same call with resume=True goes
        on from there.
        """
        script = (
            textwrap.dedent(
                """
            import sys
            import district_audit
            district_audit.run(%r, program=%r, slots=%r, folder=%r, progress=True, save=1, **%r)
        """
            )
            % (str(CYCLE), self.program, self.slots, str(self.folder), LONG)
        )
        with subprocess.Popen(
            [sys.executable, "-c", script],
            stderr=subprocess.PIPE,
            text=True,
            start_new_session=True,
            preexec_fn=allow_interrupts,
            env={"PYTHONPATH": str(common.TOP / "python"), "PATH": "/usr/bin:/bin"},
        ) as process:
            end = time.monotonic() + 60
            while (
                not (self.folder / "audit-1.ckpt").exists()
                and time.monotonic() < end
                and process.poll() is None
            ):
                time.sleep(0.05)
            process.send_signal(signal.SIGINT)
            said = process.communicate(timeout=60)[1]
        self.assertIn("Interrupted: stopped: ", said)
        self.assertIn(
            (
                " of 20000 done; the same call with resume=True goes on in the same folder,"
                f" {str(self.folder)!r}"
            ),
            said,
        )
        saved = sorted((path.name, path.stat().st_mtime_ns) for path in self.folder.glob("*.ckpt"))
        time.sleep(0.3)
        self.assertEqual(
            saved,
            sorted((path.name, path.stat().st_mtime_ns) for path in self.folder.glob("*.ckpt")),
            "the program runs on",
        )
        with self.assertRaises(district_audit.WorkLeft) as caught:
            district_audit.run(
                CYCLE, program=self.program, folder=self.folder, save=1, resume=True, budget=1,
                **LONG,
            )
        self.assertGreaterEqual(caught.exception.done, 2)


class Kept(common.ProgramCase):
    """Tests of the record that the package keeps beside checkpoints."""

    WORDS: common.Words = dict(common.WALK, save=1)

    def leave_work(self, **words: common.Value) -> None:
        with self.assertRaises(district_audit.WorkLeft):
            district_audit.run(
                CYCLE, program=self.program, folder=self.folder, budget=5, **{**self.WORDS, **words}
            )

    def refuse(
        self, graph: object = CYCLE, **words: common.Value
    ) -> district_audit.CheckpointRefused:
        with self.assertRaises(district_audit.CheckpointRefused) as caught:
            district_audit.run(
                graph, program=self.program, folder=self.folder, resume=True,
                **{**self.WORDS, **words},
            )
        return caught.exception

    def test_another_job_is_explained_by_what_differs(self) -> None:
        self.leave_work()
        for words, differs in (
            (dict(steps=9), ["steps was 8 and is 9"]),
            (dict(walks=11, ends=2), ["walks was 12 and is 11", "ends was 0 and is 2"]),
            (dict(key="1" * 64), [f"key was {common.KEY} and is {'1' * 64}"]),
            (dict(ask=["gap:high", "gap:low"]), ["ask was gap:low and is gap:high,gap:low"]),
            (dict(slack=4999), ["slack was 5000 and is 4999"]),
            (dict(max_cut=3), ["max_cut was 400000 and is 3"]),
        ):
            with self.subTest(words=words):
                error = self.refuse(**anything(words))
                self.assertEqual(error.differs, differs)
                self.assertIn("; ".join(differs) + "; another folder keeps both jobs", str(error))
                self.assertTrue(error.line.startswith("checkpoint: other job "))
        # After each refusal the record is that of the job whose checkpoints lie there.
        report = district_audit.run(
            CYCLE, program=self.program, folder=self.folder, resume=True, **self.WORDS
        )
        self.assertEqual(report, district_audit.run(CYCLE, program=self.program, **common.WALK))

    def test_another_graph_is_explained_by_its_part(self) -> None:
        self.leave_work()
        for column, what in (
            ("pop", "the populations differ"), ("a", "the votes of the first party differ"),
            ("b", "the votes of the second party differ"),
        ):
            root = common.example("cycle.json")
            root["nodes"][0][column] += 1
            self.assertEqual(self.refuse(json.dumps(root).encode()).differs, [what])
        root = common.example("cycle.json")
        labels = [node["d"] for node in root["nodes"]]
        for place, node in enumerate(root["nodes"]):
            node["d"] = labels[place - 1]
        self.assertEqual(self.refuse(json.dumps(root).encode()).differs, ["the districts differ"])
        root = common.example("cycle.json")
        root["adjacency"][0].append({"id": root["nodes"][2]["id"]})
        self.assertEqual(self.refuse(json.dumps(root).encode()).differs, ["the neighbors differ"])

    def test_where_nothing_was_kept(self) -> None:
        self.leave_work()
        (self.folder / checkpoints.RECORD).unlink()
        error = self.refuse(steps=9)
        self.assertEqual(error.differs, ())
        self.assertIn("no arguments of that job are kept in", str(error))

    def test_slots_are_read_as_the_program_reads_them(self) -> None:
        self.leave_work()
        slots = checkpoints.slots_in(self.folder)
        self.assertEqual(anything(checkpoints.newest_of(slots)).done, 5)
        for name in checkpoints.SLOTS:
            data = (self.folder / name).read_bytes()
            slot = anything(checkpoints.slot_of(data))
            looked = progress.look(common.slots(self.folder), [], b"", self.folder).slots
            self.assertIn(
                f"generation {slot.generation} outcomes {slot.done} digest {slot.digest}", looked
            )
            for place in range(0, len(data), 7):
                self.assertIsNone(
                    checkpoints.slot_of(data[:place] + bytes([data[place] ^ 1]) + data[place + 1:])
                )
            self.assertIsNone(checkpoints.slot_of(data[:-1]))
            self.assertIsNone(checkpoints.slot_of(b""))

    def test_steps_within_a_walk(self) -> None:
        """The steps rise, end at the walk's, and the report is the same."""
        words = {**common.WALK, "walks": 1, "steps": 300_000}
        sent = calls.prepare_call("run", CYCLE, anything(words))
        named = running.trace_words(sent.named, 300_000)
        self.assertEqual(named["thin"], 3000)
        command = [self.program, *words_of("trace", named)]
        clock = progress.StepClock(1, 300_000, command, sent.data, io.StringIO())
        seen: list[int] = []
        limit = time.monotonic() + 60
        while (not seen or seen[-1] != 300_000) and time.monotonic() < limit:
            step = clock.step()
            seen += [] if step is None else [step]
        self.assertIn("300000 of 300000 steps in 7 s", clock.describe(7))
        half = ["printf", "trace id 0 steps 9 thin 3\\n0 0 0\\n3 1 0 1:1\\n6 1"]
        other = progress.StepClock(1, 9, half, b"", io.StringIO())
        other.process.wait()
        file = other.text.fileno()
        os.lseek(file, 2, os.SEEK_SET)
        self.assertEqual(other.step(), 3, "the last whole line")
        self.assertEqual(os.lseek(file, 0, os.SEEK_CUR), 2, "where the process writes next")
        other.end()
        clock.end()
        self.assertEqual((sorted(seen), seen[-1]), (seen, 300_000))
        self.assertIsNotNone(clock.process.poll())
        report = district_audit.run(
            CYCLE, program=self.program, progress="steps", **anything(words)
        )
        self.assertEqual(report, district_audit.run(CYCLE, program=self.program, **anything(words)))
        with self.assertRaisesRegex(district_audit.ValueRefused, 'True, False or "steps"'):
            district_audit.run(CYCLE, program=self.program, progress="step", **anything(words))

    def test_a_frozen_walk_warns(self) -> None:
        with warnings.catch_warnings():
            warnings.simplefilter("always")
            with self.assertWarns(district_audit.FrozenWalk) as caught:
                district_audit.run(
                    CYCLE, program=self.program,
                    **anything({**common.WALK, "walks": 1, "steps": 1}),
                )
            self.assertIn(
                "in 1 steps (1 of 1 walks fewer times than there are units, 4)", str(caught.warning)
            )
        with warnings.catch_warnings():
            warnings.simplefilter("error", district_audit.FrozenWalk)
            district_audit.run(
                CYCLE, program=self.program, **anything({**common.WALK, "walks": 1, "steps": 1000}),
            )

    def test_a_folder_that_is_not_there(self) -> None:
        with self.assertRaises(FileNotFoundError) as caught:
            district_audit.run(
                CYCLE, program=self.program, folder=self.folder / "none", **self.WORDS
            )
        self.assertIn("there is no such folder", str(caught.exception))

    def test_invalid_json_is_reported_with_its_line_and_column(self) -> None:
        for data, said in (
            (b"[", "line 1, column 2: Expecting value"),
            (b'{"a":\n 1,\n b}', "line 3, column 2: Expecting property name"),
            (b'{"nodes": "NaN",\n "b": NaN}', "line 2, column 7: NaN is not JSON (write null)"),
            (b'{"a": [1, -Infinity]}', "line 1, column 11: -Infinity is not JSON (write null)"),
            (b'{"a":\n"\xff"}', "line 2, column 2: this is not UTF-8"),
            (b"\xef\xbb\xbf{}", "line 1, column 1: a byte order mark"),
        ):
            with self.subTest(data=data), self.assertRaises(district_audit.GraphRefused) as caught:
                district_audit.check(data, program=self.program, **common.WORDS)
            self.assertEqual(caught.exception.line, "graph: not JSON")
            self.assertEqual(caught.exception.labels[: len(said)], said)


class Commands(common.ProgramCase):
    """district-audit-run, as it is called on a command line."""

    WORDS = [
        "--pop", "pop", "--first", "a", "--second", "b", "--district", "d", "--slack", "5000",
        "--key", common.KEY, "--steps", "8", "--ask", "gap:low",
    ]

    def call(
        self, *words: str, graph: typing.Union[pathlib.Path, bytes] = CYCLE
    ) -> subprocess.CompletedProcess[bytes]:
        return subprocess.run(
            [
                sys.executable,
                "-c",
                "import sys; from district_audit.commands import run; sys.exit(run())",
                *words,
            ],
            cwd=self.folder,
            input=graph.read_bytes() if isinstance(graph, pathlib.Path) else graph,
            stdout=subprocess.PIPE,
            stderr=subprocess.PIPE,
            check=False,
            env={
                "PYTHONPATH": str(common.TOP / "python"),
                "PATH": "/usr/bin:/bin",
                "DISTRICT_AUDIT": self.program,
            },
        )

    def test_all_is_passed_through(self) -> None:
        direct = subprocess.run(
            [self.program, "run", *self.WORDS], input=CYCLE.read_bytes(), stdout=subprocess.PIPE,
            check=True,
        ).stdout
        for words in (self.WORDS, ["run", *self.WORDS]):
            answer = self.call(*words)
            self.assertEqual((answer.returncode, answer.stdout, answer.stderr), (0, direct, b""))
        answer = self.call(*self.WORDS, "--walks", "12", "--save", "2", "--budget", "5")
        self.assertEqual(
            (answer.returncode, answer.stdout, answer.stderr), (7, b"", b"stopped: 5 of 12 done\n")
        )
        answer = self.call(
            "make", "--size", "1", "--slack", "5000", "--key", common.KEY, "--ask", "gap:low",
            graph=b"",
        )
        self.assertEqual((answer.returncode, answer.stdout[:16]), (0, b"district-audit 1"))

    def test_refusals_are_said_in_labels_too(self) -> None:
        root = common.example("cycle.json")
        for node, name in zip(root["nodes"], "QRQR"):
            node["d"] = name
        answer = self.call(*self.WORDS, graph=json.dumps(root).encode())
        first, second = answer.stderr.decode().splitlines()
        self.assertEqual(
            (answer.returncode, first), (2, "plan: district 0 has no path from unit 0 to unit 2")
        )
        self.assertIn('district-audit-run: district 0 is "Q"; ', second)
        root = common.example("counties.json")
        for node, name in zip(root["nodes"], ("Kings", "Kings", "Queens", "Queens")):
            node.update(county=name, d="y")
        root["nodes"][0]["d"] = "x"
        answer = self.call(
            "check", *self.WORDS[:8], "--slack", "5000", "--region", "county", "--max-split", "1",
            graph=json.dumps(root).encode(),
        )
        self.assertEqual((answer.returncode, answer.stdout), (2, b""))
        self.assertEqual(
            answer.stderr.decode().splitlines(),
            [
                "plan: region 0 lies in 2 districts, more than 1",
                'district-audit-run: region 0 is "Kings"',
            ],
        )
        answer = self.call("check", *self.WORDS[:10])
        self.assertEqual(
            (answer.returncode, answer.stdout[:13], answer.stderr), (0, b"plan-check 1\n", b"")
        )

    def test_ctrl_c_and_a_signal_to_end(self) -> None:
        for number, status, said in (
            (signal.SIGINT, 130, b"the same command with --resume yes goes on"),
            (signal.SIGTERM, 143, b""),
        ):
            words = [
                *self.WORDS[:-4], "--steps", "20000", "--ask", "gap:low", "--walks", "20000",
                "--save", "1",
            ]
            process = subprocess.Popen(
                [
                    sys.executable,
                    "-c",
                    "import sys; from district_audit.commands import run; sys.exit(run())",
                    *words,
                ],
                cwd=self.folder,
                stdin=subprocess.PIPE,
                stdout=subprocess.PIPE,
                stderr=subprocess.PIPE,
                start_new_session=True,
                preexec_fn=allow_interrupts,
                env={
                    "PYTHONPATH": str(common.TOP / "python"),
                    "PATH": "/usr/bin:/bin",
                    "DISTRICT_AUDIT": self.program,
                },
            )
            anything(process.stdin).write(CYCLE.read_bytes())
            anything(process.stdin).close()
            process.stdin = None
            end = time.monotonic() + 60
            while (
                not (self.folder / "audit-1.ckpt").exists()
                and time.monotonic() < end
                and process.poll() is None
            ):
                time.sleep(0.05)
            process.send_signal(number)
            note = process.communicate(timeout=60)[1]
            self.assertEqual(process.returncode, status)
            self.assertIn(said, note)
            for path in self.folder.glob("*.ckpt"):
                path.unlink()

    def test_the_total_of_the_bar(self) -> None:
        self.assertEqual(
            (commands.total_of(["run", "--walks", "3", "--ends", "9"]), commands.total_of(["run"])),
            (12, 1),
        )


if __name__ == "__main__":
    unittest.main()
