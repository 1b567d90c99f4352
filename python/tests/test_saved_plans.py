"""Audits of several plans that save: the bytes of `plans`, kills, other audits, and faults."""
import contextlib
import fcntl
import io
import json
import os
import pathlib
import random
import shutil
import signal
import subprocess
import sys
import threading
import time
import typing
import unittest

import common
from common import anything
import district_audit
from district_audit import checkpoints, commands, progress, saved_plans, tables
from district_audit.study import text_of_plans
from tests.differential import compare_plans
from tests.oracle import model

GRID = common.EXAMPLES / "data" / "grid.json"
TABLE = common.EXAMPLES / "plans.csv"
WORDS: common.Words = dict(
    population="TOTPOP", first="DEM", second="REP", district="CD", slack=1000, key="ab" * 32,
    ask="seats:low,gap:high", steps=2000,
)
# A wrapper answers the question for the version at once, as the program does.
VERSION = "case $1 in --version) exec PROGRAM ;; esac; "
PATH = os.pathsep.join((str(common.TOP / "python"), str(common.TOP)))
# The command as a script calls it.
COMMAND = "import sys; from district_audit import commands; sys.exit(commands.run())"
CALL = (
    "import json, sys, warnings, district_audit; warnings.simplefilter('ignore');"
    " table, words = json.loads(sys.argv[1]); print(len(district_audit.plans(%r, table, **words)))"
) % str(GRID)
# With the graph's own plan there are 13.
MANY = 12


def many_plans() -> str:
    """Returns a table of the grid's two plans, again and again."""
    rows = [line.split(",") for line in TABLE.read_text(encoding="utf-8").splitlines()]
    head, *units = rows
    lines = [[head[0], *(f"plan {at}" for at in range(MANY))]]
    lines += [[one[0], *(one[1 + at % 2] for at in range(MANY))] for one in units]
    return "".join(",".join(line) + "\n" for line in lines)


def text_of(found: district_audit.PlanReports) -> str:
    return text_of_plans(found.pairs)


class SavedCase(common.ProgramCase):
    """Tests that audit plans in a folder of their own."""

    def setUp(self) -> None:
        super().setUp()
        self.place = self.folder / "saved"
        self.place.mkdir()

    def plain(self, table: object = TABLE, **more: common.Value) -> str:
        """Returns the text of the program's own `plans`."""
        return text_of(district_audit.plans(GRID, table, program=self.program, **{**WORDS, **more}))

    def save(self, table: object = TABLE, **more: common.Value) -> str:
        """Returns the text of an audit that saves."""
        words: common.Words = {**WORDS, "save": 1, "folder": self.place, **more}
        words.setdefault("program", self.program)
        return text_of(district_audit.plans(GRID, table, **words))

    def files(self) -> dict[str, bytes]:
        """Returns the files in the folder, with their bytes."""
        there = sorted(self.place.rglob("*"))
        return {str(path.relative_to(self.place)): path.read_bytes()
                for path in there if path.is_file()}

    def log_calls(self, more: str = "") -> tuple[str, pathlib.Path]:
        """Returns a program that writes the command of each call to a file, and this file."""
        log = self.folder / "log"
        return self.wrapper(f"{VERSION}echo $1 >> '{log}'; {more} exec PROGRAM"), log


class Bytes(SavedCase):
    """The text is that of the program's `plans`, byte for byte."""

    def test_each_kind_of_report(self) -> None:
        for more in (
            {"walks": 2, "ends": 3, "hub_steps": 500},
            {"source": True, "shift": True, "workers": 2, "walks": 4, "pairs": True},
            {"steps": 1023, "serial": True, "walks": 0, "ends": 2, "source": True},
            {"cut_weight": 48, "max_cut": 130, "save": 2, "walks": 3},
        ):
            given: common.Words = anything(more)
            wanted = self.plain(**{name: given[name] for name in given if name != "save"})
            self.assertEqual(self.save(**given, overwrite=True), wanted)

    def test_drawn_tables(self) -> None:
        """The plain model says how each table ends; ids, quotes and line ends are of each kind."""
        chance, good = random.Random(11), 0
        for _ in range(200):
            ids, graph = compare_plans.graph_of(chance)
            data = json.dumps(graph).encode() + b"\n" + compare_plans.table_of(chance, ids)
            words = without(compare_plans.words_of(chance), "--stop")
            wanted = model.audit(words, data, [None, None])
            if wanted.status == 1 or (wanted.status and chance.random() < 0.8):
                continue
            self.place = pathlib.Path(str(self.place) + ".")
            self.place.mkdir()
            for resumes in (False, True):
                found = saved_plans.walk_plans(
                    self.program, words, data, saved_plans.Saving("1", resumes, self.place)
                )
                note = found.line + "\n" if found.line else ""
                self.assertEqual(
                    (found.status, found.text, note), (wanted.status, wanted.out, wanted.note),
                    (words, data),
                )
            good += wanted.status == 0
        self.assertGreater(good, 12)

    def test_columns_are_of_the_graph_and_plans_of_the_table(self) -> None:
        """The column of districts is that of regions, too, and `d` is a column's name."""
        root = common.example("cycle.json")
        for node in root["nodes"]:
            node["dd"] = node["pop"]
        graph = json.dumps(root).encode()
        ids = [node["id"] for node in root["nodes"]]
        count = len({node["d"] for node in root["nodes"]})
        more = {one: f"x{at * (count + 1) // len(ids)}" for at, one in enumerate(ids)}
        words: common.Words = dict(
            population="dd", first="a", second="b", district="d", region="d", slack=10_000,
            key="cd" * 32, steps=50, ask="gap:low,seats:high", program=self.program, source=True,
        )
        wanted = district_audit.plans(graph, {"more": more}, districts="any", **words)
        found = district_audit.plans(
            graph, {"more": more}, districts="any", save=1, folder=self.place, **words
        )
        self.assertEqual(text_of(found), text_of(wanted))
        self.assertEqual((found["more"].districts, found["more"].rules.regions), (count + 1, count))

    def test_names_with_line_separators_and_a_byte_order_mark(self) -> None:
        """Only a line feed ends a line; the mark is no part of the first field."""
        root, title = common.example("cycle.json"), "d\u2028\r\x0b\x85"
        for node in root["nodes"]:
            node[title] = node.pop("d")
        ids = [node["id"] for node in root["nodes"]]
        halves = ["é" if at < len(ids) // 2 else "z," for at in range(len(ids))]
        rows = [f'{one},"{half}",x{half[:1] != "z"}' for one, half in zip(ids, halves)]
        head = '\ufeff"the\nid"," one",end'
        table = "\r\n".join([head, *rows]).encode("utf-8")
        words: common.Words = dict(
            population="pop", first="a", second="b", district=title, slack=10_000, key="ef" * 32,
            steps=50, ask="gap:low,seats:high", program=self.program, source=True,
        )
        graph = json.dumps(root).encode()
        wanted = district_audit.plans(graph, table, districts="any", **words)
        found = district_audit.plans(
            graph, table, districts="any", save=1, folder=self.place, **words
        )
        self.assertEqual(found.names, [title, " one", "end"])
        self.assertEqual(text_of(found), text_of(wanted))

    def test_records_of_csv(self) -> None:
        """The fields are worked by hand from the rules of FORMATS."""
        for text, wanted in (
            ("", []),
            ("\n\r\n\r", []),
            ("a,b", [["a", "b"]]),
            ("a,b\r\n\r\nc,d\re,f\n", [["a", "b"], ["c", "d"], ["e", "f"]]),
            (",\n", [["", ""]]),
            ('"a,b","c\nd"\n"e""f",g\n', [["a,b", "c\nd"], ['e"f', "g"]]),
            ('a"b,"c"d"e\n', [['a"b', 'cd"e']]),
            ('""\n\n"",\n', [[""], ["", ""]]),
            ('a,"b\n', [["a", "b\n"]]),
            ('a,"b""', [["a", 'b"']]),
            ('a,"b"', [["a", "b"]]),
            ('"a",', [["a", ""]]),
            ("a\0b," + "c" * 200_000, [["a\0b", "c" * 200_000]]),
            ('"' + "c" * 200_000 + '",d', [["c" * 200_000, "d"]]),
        ):
            self.assertEqual(list(tables.records_of(text)), wanted, text[:40])

    def test_a_study_names_the_command_that_prints_the_bytes(self) -> None:
        """The manifest's command, on the manifest's graph, prints the report's bytes."""
        path = self.folder / "report"
        district_audit.audit_to_file(
            path, GRID, table=TABLE, program=self.program, save=1, folder=self.place,
            source=True, **{name: value for name, value in WORDS.items()},
        )
        manifest = json.loads((self.folder / "report.manifest.json").read_text("utf-8"))
        (entry,) = manifest["reports"]
        end = subprocess.run(
            [self.program, *entry["command"]], input=(self.folder / entry["graph"]["name"])
            .read_bytes(), capture_output=True, check=True,
        )
        self.assertEqual(end.stdout, path.read_bytes())
        self.assertEqual(len(list(self.place.glob("plan-*"))), 3)


def without(words: list[str], name: str) -> list[str]:
    """Returns words without a name and its value."""
    at = words.index(name) if name in words else len(words)
    return words[:at] + words[at + 2:]


class Kills(SavedCase):
    """A killed audit loses at most the plans in hand."""

    def begin(self, steps: int, **more: common.Value) -> "subprocess.Popen[str]":
        """Starts an audit of many plans in a process of its own."""
        words: common.Words = {
            **WORDS, "steps": steps, "save": 1, "folder": str(self.place), "resume": True,
            "program": self.program, **more,
        }
        return subprocess.Popen(
            [sys.executable, "-c", CALL, json.dumps([many_plans(), words])],
            stdout=subprocess.PIPE, stderr=subprocess.PIPE, text=True, start_new_session=True,
            env={**os.environ, "PYTHONPATH": PATH},
        )

    def whole(self) -> list[int]:
        """Returns the plans that are saved whole."""
        return [
            plan for plan in range(MANY + 1)
            if (checkpoints.look_in(self.place / f"plan-{plan:04}", 1).done or 0) == 1
        ]

    def wait_for(self, process: "subprocess.Popen[str]", count: int) -> None:
        """Waits until this number of plans is whole, or the process has ended."""
        limit = time.monotonic() + 120
        while process.poll() is None and time.monotonic() < limit and len(self.whole()) < count:
            time.sleep(0.005)

    def test_kills_at_several_moments(self) -> None:
        """Of the group, or of Python alone, whose runs then go on and keep the plans' locks."""
        steps, wanted, moments = 150_000, "", set()
        wanted = self.plain(many_plans(), steps=steps)
        for place, count in enumerate((0, 1, 4, 8, 12)):
            self.place = self.folder / f"kill {place}"
            self.place.mkdir()
            for one in range(3):
                with self.begin(steps) as process:
                    self.wait_for(process, min(count + one, MANY))
                    if process.poll() is None:
                        kill = os.killpg if one != 1 else os.kill
                        kill(process.pid, signal.SIGKILL)
                before = self.whole()
                moments.add(len(before))
            self.assertEqual(self.save(many_plans(), steps=steps, resume=True), wanted)
        self.assertGreater(len(moments), 4, moments)

    def test_what_is_whole_is_not_walked_again(self) -> None:
        """Runs may walk nothing once the file `none` is there: a plan with work left ends with 7.
        """
        none, wanted = self.folder / "none", self.plain(many_plans(), walks=3)
        program = self.wrapper(
            f"{VERSION}[ $1 = run ] && [ -e '{none}' ] && set -- \"$@\" --budget 0; exec PROGRAM"
        )
        self.assertEqual(self.save(many_plans(), walks=3, program=program), wanted)
        none.touch()
        again = self.save(many_plans(), walks=3, program=program, resume=True, workers=3, save=2)
        self.assertEqual(again, wanted)
        shutil.rmtree(self.place / "plan-0005")
        with self.assertRaises(district_audit.WorkLeft) as caught:
            self.save(many_plans(), walks=3, program=program, resume=True)
        self.assertIn("plan plan 4 in", str(caught.exception))
        none.unlink()
        self.assertEqual(
            self.save(many_plans(), walks=3, program=program, resume=True), wanted
        )

    def test_ctrl_c_says_what_is_saved(self) -> None:
        steps = 300_000
        with self.begin(steps) as process:
            self.wait_for(process, 3)
            os.killpg(process.pid, signal.SIGINT)
            said = process.communicate(timeout=120)[1]
        found = common.find_in(
            f"Interrupted: stopped: ([0-9]+) of {MANY + 1} plans done, ([0-9]+) of {MANY + 1}"
            " trajectories saved in '.*/saved'; the same call with resume=True goes on; of"
            " trajectories under way nothing is kept", said,
        )
        whole = self.whole()
        self.assertEqual((int(found[1]), int(found[2])), (len(whole), len(whole)), said)
        self.assertIn(len(whole), range(3, MANY + 1))
        self.assertEqual(
            self.save(many_plans(), steps=steps, resume=True), self.plain(many_plans(), steps=steps)
        )

    def test_ctrl_c_while_the_plans_are_judged(self) -> None:
        program = self.wrapper(VERSION + f"touch '{self.folder}/here'; exec sleep 600")
        with self.begin(9, program=program) as process:
            limit = time.monotonic() + 120
            while time.monotonic() < limit and not (self.folder / "here").exists():
                time.sleep(0.02)
            os.killpg(process.pid, signal.SIGINT)
            said = process.communicate(timeout=120)[1]
        self.assertIn("Interrupted: stopped while the plans were judged, before anything", said)
        self.assertEqual(self.files(), {})

    def test_a_run_that_is_left_is_waited_for(self) -> None:
        """A run of a killed call holds its plan's folder until it ends."""
        (self.place / "plan-0001").mkdir()
        handle = os.open(self.place / "plan-0001", os.O_RDONLY)
        fcntl.flock(handle, fcntl.LOCK_EX)
        found: list[str] = []
        thread = threading.Thread(target=lambda: found.append(self.save(resume=True)))
        thread.start()
        thread.join(1)
        self.assertEqual(found, [])
        os.close(handle)
        thread.join(120)
        self.assertEqual(found, [self.plain()])


class Others(SavedCase):
    """A folder of another audit is refused, by what differs, and stays as it is."""

    def refuse_saved(self, kind: type[Exception], **more: common.Value) -> common.Value:
        """Asserts that a call is refused and changes nothing, and returns the refusal."""
        before, table = self.files(), more.pop("table", TABLE)
        program, log = self.log_calls()
        with self.assertRaises(kind) as caught:
            self.save(table, **{"program": program, **more})
        self.assertEqual(self.files(), before)
        self.assertFalse(log.exists(), "no plan is judged or walked")
        return caught.exception

    def begin(self) -> str:
        """Audits with the logging program, and returns its path."""
        program, log = self.log_calls()
        self.save(program=program)
        log.unlink()
        return program

    def test_an_audit_is_not_written_over_in_silence(self) -> None:
        self.begin()
        for more in ({}, {"resume": False}, {"steps": 7}):
            refusal = self.refuse_saved(district_audit.ValueRefused, **anything(more))
            self.assertEqual(refusal.argument, "folder")
            for part in ("resume=True goes on", "overwrite=True starts anew", "another folder"):
                self.assertIn(part, str(refusal))

    def test_other_words(self) -> None:
        self.begin()
        for more, said in (
            ({"steps": 7}, "steps was 2000 and is 7"),
            ({"key": "cd" * 32}, f"key was {'ab' * 32} and is {'cd' * 32}"),
            ({"ask": "seats:low"}, "ask was seats:low,gap:high and is seats:low"),
            ({"shift": True}, "shift was no and is yes"),
            ({"first": "REP", "second": "DEM"}, "first was DEM and is REP"),
            ({"max_cut": 200}, "max_cut was 400000 and is 200"),
        ):
            refusal = self.refuse_saved(
                district_audit.CheckpointRefused, resume=True, **anything(more)
            )
            self.assertIn(said, refusal.differs)
            self.assertIn(said, str(refusal))
        # Words in another form, and those that belong to no audit, are no difference.
        more = {"key": bytes.fromhex("ab" * 32), "ask": ["seats:low", "gap:high"], "walks": 1}
        self.save(program=self.log_calls()[0], resume=True, workers=2, save=5, **anything(more))

    def test_another_table_graph_or_program(self) -> None:
        self.begin()
        other = TABLE.read_text(encoding="utf-8").replace("north west", "west north")
        refusal = self.refuse_saved(district_audit.CheckpointRefused, resume=True, table=other)
        self.assertEqual(len(refusal.differs), 1)
        self.assertIn("the table of plans is another one (its SHA-256 was ", str(refusal))
        data = GRID.read_bytes() + b" "
        before = self.files()
        with self.assertRaises(district_audit.CheckpointRefused) as caught:
            district_audit.plans(data, TABLE, program=self.log_calls()[0], save=1, resume=True,
                                 folder=self.place, **WORDS)
        self.assertIn("the graph is another one", str(caught.exception))
        self.assertEqual(self.files(), before)
        refusal = self.refuse_saved(
            district_audit.CheckpointRefused, resume=True, program=self.program
        )
        self.assertIn("the program is another one", str(refusal))

    def test_a_record_that_is_not_there_or_damaged(self) -> None:
        self.begin()
        record = self.place / saved_plans.RECORD
        for data in (b"", b"[]", b"{}", b"null", record.read_bytes()[:-9], b'{"format": "other"}',
                     record.read_bytes().replace(b"plans 1", b"plans 9")):
            record.write_bytes(data)
            refusal = self.refuse_saved(district_audit.CheckpointRefused, resume=True)
            self.assertIn("plans-job.json in ", str(refusal))
            self.refuse_saved(district_audit.ValueRefused)
        record.unlink()
        refusal = self.refuse_saved(district_audit.CheckpointRefused, resume=True)
        self.assertIn("has checkpoints of plans and no plans-job.json", str(refusal))
        self.refuse_saved(district_audit.ValueRefused)
        self.assertEqual(self.save(overwrite=True), self.plain())

    def test_overwrite_takes_away_the_checkpoints(self) -> None:
        self.save(many_plans(), steps=7)
        (self.place / "plan-0099x").mkdir()
        kept = self.place / "plan-0099x" / "audit-0.ckpt"
        kept.write_bytes(b"mine")
        self.assertEqual(self.save(overwrite=True), self.plain())
        self.assertFalse((self.place / "plan-0003" / "audit-0.ckpt").exists())
        self.assertEqual(kept.read_bytes(), b"mine")
        self.assertEqual(self.save(resume=True), self.plain())

    def test_an_empty_folder_is_resumed(self) -> None:
        """One command serves for all calls of a scheduler."""
        self.assertEqual(self.save(resume=True), self.plain())

    def test_two_calls_in_one_folder(self) -> None:
        self.begin()
        handle = os.open(self.place, os.O_RDONLY)
        self.addCleanup(os.close, handle)
        fcntl.flock(handle, fcntl.LOCK_EX)
        for more in ({"resume": True}, {"overwrite": True}):
            refusal = self.refuse_saved(district_audit.CheckpointUnreadable, **anything(more))
            self.assertIn("another call uses", str(refusal))

    def test_arguments_that_go_with_save(self) -> None:
        for kind, argument, more in (
            (district_audit.TypeRefused, "resume", {"save": 0, "resume": True, "folder": None}),
            (district_audit.TypeRefused, "folder", {"save": 0}),
            (district_audit.TypeRefused, "overwrite",
             {"save": 0, "overwrite": True, "folder": None}),
            (district_audit.TypeRefused, "overwrite", {"overwrite": True, "resume": True}),
            (district_audit.ValueRefused, "save", {"save": -1}),
            (district_audit.TypeRefused, "save", {"save": 1.5}),
            (district_audit.TypeRefused, "resume", {"resume": 1}),
            (district_audit.ValueRefused, "progress", {"progress": "steps"}),
            (district_audit.ValueRefused, "stop", {"stop": 2, "ends": 5}),
        ):
            refusal = self.refuse_saved(kind, **anything(more))
            self.assertEqual(refusal.argument, argument, more)
        self.refuse_saved(FileNotFoundError, folder=self.folder / "nowhere")


class Faults(SavedCase):
    """Bad plans and failed writes."""

    def test_a_bad_plan_is_named_before_anything_is_walked(self) -> None:
        """The first one in the table's order, as `plans` names it."""
        rows = [line.split(",") for line in many_plans().splitlines()]
        for place, label in ((9, "south east"), (5, "alone")):
            rows[1][place] = label
        table = "".join(",".join(row) + "\n" for row in rows)
        program, log = self.log_calls()
        with self.assertRaises(district_audit.GraphRefused) as caught:
            self.save(table, program=program, districts="any")
        with self.assertRaises(district_audit.GraphRefused) as plain:
            self.plain(table, districts="any")
        self.assertEqual(str(caught.exception), str(plain.exception))
        self.assertTrue(caught.exception.line.startswith("plan plan 4: "))
        self.assertEqual(log.read_text(encoding="utf-8"), "plans\n")
        self.assertEqual(self.files(), {})

    def test_a_failed_save_names_its_plan_and_loses_no_other(self) -> None:
        full, wanted = self.folder / "full", self.plain(many_plans())
        full.touch()
        program = self.wrapper(
            f"{VERSION}case $PWD in *-0004) [ -e '{full}' ] && trap '' XFSZ && ulimit -f 0 ;; esac;"
            " exec PROGRAM"
        )
        with self.assertRaises(district_audit.SaveFault) as caught:
            self.save(many_plans(), program=program)
        self.assertIn("checkpoint save fault (plan plan 3 in ", str(caught.exception))
        self.assertIn("plan-0004'; the same call with resume=True goes on", str(caught.exception))
        full.unlink()
        self.assertEqual(self.save(many_plans(), program=program, resume=True), wanted)

    def test_a_run_that_fails_ends_the_others(self) -> None:
        """The others would take an hour."""
        line = VERSION + (
            "[ $1 = run ] || exec PROGRAM; case $PWD in *-0001) echo memory >&2; exit 3 ;; esac;"
            " sleep 3600 & p=$!; trap \"kill $p; exit 1\" TERM; wait"
        )
        began = time.monotonic()
        with self.assertRaises(district_audit.MemoryRefused) as caught:
            self.save(program=self.wrapper(line))
        self.assertIn("plan blocks", str(caught.exception))
        self.assertLess(time.monotonic() - began, 300)

    def test_a_folder_that_takes_no_file(self) -> None:
        program, log = self.log_calls()
        with self.assertRaises(OSError):
            self.save(program=program, folder=pathlib.Path("/proc"))
        self.assertNotIn("run", log.read_text(encoding="utf-8"))

    def test_a_plan_whose_folder_is_a_file(self) -> None:
        (self.place / "plan-0002").touch()
        with self.assertRaises(OSError):
            self.save()

    def test_checkpoints_that_are_damaged(self) -> None:
        """Both, so that work is lost; after a first save that was cut off, there is none to lose.
        """
        wanted = self.plain(walks=3)
        self.save(walks=3)
        first, second = (self.place / "plan-0001" / name for name in checkpoints.SLOTS)
        for path in (first, second):
            path.write_bytes(path.read_bytes()[:60])
        with self.assertRaises(district_audit.CheckpointRefused) as caught:
            self.save(walks=3, resume=True)
        self.assertIn("plan blocks in ", str(caught.exception))
        self.assertIn("without audit-0.ckpt and audit-1.ckpt there, the", str(caught.exception))
        second.unlink()
        self.assertEqual(self.save(walks=3, resume=True), wanted)
        first.write_bytes(b"")
        self.assertEqual(self.save(walks=3, resume=True), wanted)


class Bars(SavedCase):
    """A bar counts the plans that are done."""

    def watch_bar(
        self, audit: typing.Callable[..., str], **more: common.Value
    ) -> list[common.Value]:
        shown: list[common.Value] = []

        class Noted:
            def show(self, done: int, total: int) -> None:
                shown.append((done, total))

            def end(self) -> None:
                shown.append("end")

        before, progress.new_bar = progress.new_bar, anything(lambda *_: Noted())
        self.addCleanup(setattr, progress, "new_bar", before)
        audit(progress=True, **more)
        return [one for at, one in enumerate(shown) if one != shown[at - 1]]

    def test_of_what_the_program_has_written(self) -> None:
        slow = self.wrapper(
            f"{VERSION}PROGRAM | while IFS= read -r line; do printf '%s\\n' \"$line\";"
            " [ \"$line\" = end ] && sleep 0.5; done; exit 0"
        )
        wanted = [(0, 3), (1, 3), (2, 3), (3, 3), "end"]

        def audit(**more: common.Value) -> str:
            return text_of(district_audit.plans(GRID, TABLE, program=slow, **WORDS, **more))

        self.assertEqual(self.watch_bar(audit), wanted)

    def test_of_what_is_saved(self) -> None:
        """Each plan takes another time, so that the bar is drawn between them."""
        slow = self.wrapper(
            f"{VERSION}[ $1 = run ] && sleep ${{PWD##*-000}}; exec PROGRAM"
        )
        wanted = [(0, 3), (1, 3), (2, 3), (3, 3), "end"]
        self.assertEqual(self.watch_bar(self.save, program=slow, workers=os.cpu_count()), wanted)

    def test_pieces(self) -> None:
        """A line `end` counts once, wherever the pieces are cut; a plan may be named `end`."""
        text = b"plan end\nx\nend\nplan an end\nend\nplan\xff\nend\n"
        for size in range(1, len(text)):
            count = progress.PlanCount(3, anything(progress.PlainBar(io.StringIO())))
            for at in range(0, len(text), size):
                count.read(text[at:at + size])
            self.assertEqual(count.done, 3)


class Command(SavedCase):
    """`district-audit-run plans` with --save and --resume."""

    WORDS = (
        "plans --pop TOTPOP --first DEM --second REP --district CD --slack 1000 --walks 2 --ask"
        f" seats:low,gap:high --steps 2000 --key {'ab' * 32}"
    ).split()

    def call(
        self, *more: str, data: "bytes | None" = None, program: "str | None" = None,
        to: "int | None" = None,
    ) -> "subprocess.CompletedProcess[bytes]":
        """Runs the command in the folder."""
        return subprocess.run(
            [sys.executable, "-c", COMMAND, *self.WORDS, *more], cwd=self.place,
            input=self.input() if data is None else data, check=False, stderr=subprocess.PIPE,
            stdout=subprocess.PIPE if to is None else to,
            env={**os.environ, "PYTHONPATH": PATH, "DISTRICT_AUDIT": program or self.program},
        )

    def input(self) -> bytes:
        return GRID.read_bytes().replace(b"\n", b"") + b"\n" + TABLE.read_bytes()

    def test_the_bytes_of_plans(self) -> None:
        wanted = subprocess.run(
            [self.program, *self.WORDS], input=self.input(), capture_output=True, check=True
        ).stdout
        for more in ((), ("--save", "1"), ("--save", "1", "--resume", "yes"),
                     ("--resume", "yes", "--save", "4")):
            end = self.call(*more)
            self.assertEqual((end.returncode, end.stdout, end.stderr), (0, wanted, b""), more)
        self.assertEqual(len(list(self.place.glob("plan-*/audit-0.ckpt"))), 3)

    def inside(self, *more: str, data: "bytes | None" = None) -> tuple[int, str]:
        """Runs the command in this process; returns its status and standard error.

        Standard output has to be empty.
        """
        before = os.getcwd()
        out, note = (io.TextIOWrapper(io.BytesIO(), write_through=True) for _ in range(2))
        handler = signal.getsignal(signal.SIGTERM)
        os.chdir(self.place)
        try:
            with contextlib.redirect_stderr(note), contextlib.redirect_stdout(out):
                status = commands.save_plans(
                    self.program, [*self.WORDS, *more], self.input() if data is None else data
                )
        finally:
            os.chdir(before)
            signal.signal(signal.SIGTERM, handler)
        self.assertEqual(anything(out.buffer).getvalue(), b"")
        return status, anything(note.buffer).getvalue().decode()

    def test_words_are_refused_as_the_program_does(self) -> None:
        for more, note in (
            (("--save", "x"), "words: bad value for --save\n"),
            (("--save", "1", "--save", "1"), "words: --save is given twice\n"),
            (("--save", "1", "--resume", "1"), "words: bad value for --resume\n"),
            (("--save", "1", "--budget", "3"), "words: unknown name --budget\n"),
            (("--save", "1", "--steps", "3"), "words: --steps is given twice\n"),
            (("--save", "1", "--pairs"), "words: no value for --pairs\n"),
            (("--save", "1", "--stop", "1", "--ends", "3"), "words: bad value for --stop\n"),
        ):
            self.assertEqual(self.inside(*more), (1, note))
        end = self.call("--resume", "yes")
        self.assertEqual((end.returncode, end.stderr), (1, b"words: unknown name --resume\n"))
        self.assertEqual(self.files(), {})

    def test_refusals(self) -> None:
        self.call("--save", "1")
        before = self.files()
        anew = "; without its plans-job.json and plan-* it starts anew, another folder keeps both\n"
        self.assertEqual(self.inside("--save", "1"), (
            8, "district-audit-run: the folder has an audit of plans, which this call would write"
            f" over; --resume yes goes on with it, {anew[2:]}",
        ))
        self.assertEqual(
            self.inside("--save", "1", "--resume", "yes", "--shift", "yes"),
            (8, f"checkpoint: other job\ndistrict-audit-run: shift was no and is yes{anew}"),
        )
        status, note = self.inside("--save", "1", "--resume", "yes", data=self.input() + b"x")
        self.assertEqual(status, 8)
        self.assertIn("district-audit-run: the table of plans is another one", note)
        self.assertEqual(self.files(), before)

    def test_a_plan_that_is_refused(self) -> None:
        bad = self.input().replace(b"1,north west,1", b"1,alone,1")
        end = self.call("--save", "1", data=bad)
        self.assertEqual(end.returncode, 2)
        note, labels = end.stderr.decode().splitlines()
        self.assertRegex(note, "^plan blocks: district 0 has population ")
        self.assertEqual(labels, 'district-audit-run: district 0 is "alone"')
        self.assertEqual(self.files(), {})

    def test_output_that_takes_nothing(self) -> None:
        full = os.open("/dev/full", os.O_WRONLY)
        self.addCleanup(os.close, full)
        end = self.call("--save", "1", to=full)
        self.assertEqual((end.returncode, end.stderr), (5, b"write fault\n"))
        self.assertEqual(self.call("--save", "1", "--resume", "yes").returncode, 0)

    def test_a_save_that_fails(self) -> None:
        program = self.wrapper(
            f"{VERSION}case $PWD in *-0001) trap '' XFSZ; ulimit -f 0 ;; esac; exec PROGRAM"
        )
        end = self.call("--save", "1", program=program)
        self.assertEqual((end.returncode, end.stdout), (9, b""))
        self.assertRegex(
            end.stderr.decode(), "^checkpoint save fault\ndistrict-audit-run: plan blocks in '.*/"
            "plan-0001'; the same command with --resume yes goes on\n$",
        )

    def test_signals(self) -> None:
        """A scheduler's signal and Ctrl-C end all runs; what is saved stays."""
        for number, status in ((signal.SIGTERM, 143), (signal.SIGINT, 130)):
            place = self.folder / str(int(number))
            place.mkdir()
            with subprocess.Popen(
                [sys.executable, "-c", COMMAND, *without(self.WORDS[:], "--steps"), "--save", "1",
                 "--steps", "200000000"], cwd=place, stdin=subprocess.PIPE,
                stdout=subprocess.PIPE, stderr=subprocess.PIPE,
                env={**os.environ, "PYTHONPATH": PATH, "DISTRICT_AUDIT": self.program},
            ) as process:
                assert process.stdin is not None
                process.stdin.write(self.input())
                process.stdin.close()
                process.stdin = None
                limit = time.monotonic() + 120
                while time.monotonic() < limit and not list(place.glob("plan-*")):
                    time.sleep(0.02)
                process.send_signal(number)
                note = process.communicate(timeout=120)[1].decode()
            self.assertEqual(process.returncode, status)
            if number == signal.SIGINT:
                self.assertIn("district-audit-run: stopped: 0 of 3 plans done, 0 of 6", note)
            handle = os.open(place / "plan-0000", os.O_RDONLY)
            fcntl.flock(handle, fcntl.LOCK_EX | fcntl.LOCK_NB)
            os.close(handle)

    def test_a_bar_on_a_terminal(self) -> None:
        stream = io.StringIO()
        anything(stream).isatty = lambda: True
        before = os.getcwd()
        self.addCleanup(os.chdir, before)
        self.addCleanup(signal.signal, signal.SIGTERM, signal.getsignal(signal.SIGTERM))
        os.chdir(self.place)
        out = io.TextIOWrapper(io.BytesIO())
        anything(stream).buffer = io.BytesIO()
        with contextlib.redirect_stderr(stream), contextlib.redirect_stdout(out):
            status = commands.save_plans(
                self.program, [*self.WORDS, "--save", "1"], self.input()
            )
        self.assertEqual(status, 0)
        self.assertIn("plans: walked 3 of 3 \n", stream.getvalue())


if __name__ == "__main__":
    unittest.main()
