"""Work is not lost: folders with checkpoints, parts, and several elections under one display."""
import contextlib
import hashlib
import io
import os
import pathlib
import subprocess
import sys
import time
import unittest

import common
from common import anything
import district_audit
from district_audit import checkpoints, program, progress, running

CYCLE = common.EXAMPLES / "data" / "cycle.json"
ELECTIONS = {"one": ("a", "b"), "two": ("b", "a"), "three": ("a", "b")}
PROGRAM_PATH = str(common.TOP / "python")
# A wrapper answers the question for the version at once, as the program does.
VERSION = "case $1 in --version) exec PROGRAM ;; esac; "


class Noted:
    """A bar that notes what it shows."""

    def __init__(self) -> None:
        self.shown: list[tuple[int, int]] = []
        self.ends = 0

    def show(self, done: int, total: int) -> None:
        self.shown.append((done, total))

    def end(self) -> None:
        self.ends += 1


class Folders(common.ProgramCase):
    """A folder that has a job's checkpoints is not written over in silence."""

    def run_with(self, **words: common.Value) -> common.Value:
        given: common.Words = {**common.WALK, "folder": self.folder, "save": 1, **words}
        return district_audit.run(CYCLE, program=self.program, **given)

    def leave(self, done: int) -> None:
        with self.assertRaises(district_audit.WorkLeft):
            self.run_with(budget=done)

    def look(self) -> int:
        return checkpoints.look_in(self.folder, 12).done or 0

    def test_a_second_run_is_refused_and_touches_nothing(self) -> None:
        self.leave(7)
        before = {path.name: path.read_bytes() for path in self.folder.iterdir()}
        for words in ({}, {"budget": 3}, {"steps": 9}, {"resume": False}, {"progress": True}):
            with self.assertRaises(district_audit.ValueRefused) as caught:
                self.run_with(**anything(words))
            self.assertEqual(caught.exception.argument, "folder")
            for part in ("7 trajectories of a run", "resume=True goes on", "overwrite=True starts"):
                self.assertIn(part, str(caught.exception))
        self.assertEqual(
            before, {path.name: path.read_bytes() for path in self.folder.iterdir()}
        )
        with self.assertRaises(district_audit.WorkLeft) as left:
            self.run_with(resume=True, budget=3)
        self.assertEqual((left.exception.done, self.look()), (10, 10))

    def test_overwrite_starts_anew(self) -> None:
        self.leave(7)
        with self.assertRaises(district_audit.WorkLeft) as left:
            self.run_with(overwrite=True, budget=3)
        self.assertEqual((left.exception.done, self.look()), (3, 3))
        self.assertEqual(self.run_with(overwrite=True),
                         district_audit.run(CYCLE, program=self.program, **common.WALK))
        with self.assertRaises(district_audit.TypeRefused):
            self.run_with(overwrite=True, resume=True)

    def test_a_damaged_checkpoint_is_no_empty_folder(self) -> None:
        (self.folder / "audit-1.ckpt").write_bytes(b"DISTCKPT")
        with self.assertRaises(district_audit.ValueRefused) as caught:
            self.run_with()
        self.assertIn("an unreadable checkpoint in audit-1.ckpt", str(caught.exception))
        self.run_with(overwrite=True)

    def test_runs_that_save_nothing_are_not_asked(self) -> None:
        self.leave(7)
        self.run_with(save=0)
        self.assertEqual(self.look(), 7)

    def test_make_is_asked_too(self) -> None:
        words: common.Words = dict(
            size=1, slack=1000, steps=5, walks=3, ask="cut-edges:low", key=common.KEY, save=1,
            folder=self.folder, program=self.program,
        )
        district_audit.make(**words)
        with self.assertRaises(district_audit.ValueRefused):
            district_audit.make(**words)
        district_audit.make(**words, overwrite=True)

    @unittest.skipIf(os.geteuid() == 0, "the administrator may write everywhere")
    def test_a_folder_that_takes_no_file_as_a_user(self) -> None:
        self.folder.chmod(0o500)
        with self.assertRaises(PermissionError):
            self.run_with()

    def test_a_folder_that_takes_no_file(self) -> None:
        """Nothing is walked: the program that is named would fail."""
        place = pathlib.Path("/proc")
        with self.assertRaises(OSError):
            program = self.wrapper(VERSION + "exit 99")
            district_audit.run(CYCLE, program=program, folder=place, save=1, **common.WALK)

    def test_elections_are_all_judged_before_one_walks(self) -> None:
        words: common.Words = dict(common.WALK, elections=ELECTIONS, save=1, folder=self.folder,
                                   program=self.program)
        for name in ("first", "second"):
            words.pop(name)
        (self.folder / "three").mkdir()
        (self.folder / "three" / "audit-0.ckpt").write_bytes(b"")
        with self.assertRaises(district_audit.ValueRefused):
            district_audit.run(CYCLE, **words)
        self.assertEqual(list((self.folder / "one").iterdir()), [])


class Input(common.FolderCase):
    """The whole graph reaches a program that begins to read late."""

    def test_a_late_reader_gets_all(self) -> None:
        """A pipe holds 64 kB, and the display is asked for while most of the graph is left."""
        asked: list[object] = []
        data = bytes(range(256)) * 4096
        ended = program.call(
            "sh", ["-c", "sleep 0.5; sha256sum"], data, None, asked.append
        )
        self.assertEqual(ended.text.split(" ")[0], hashlib.sha256(data).hexdigest())
        self.assertGreater(len(asked), 1)

    def test_a_program_that_reads_nothing(self) -> None:
        ended = program.call("sh", ["-c", "sleep 0.3; exit 4"], b"x" * 10**6, None, lambda _: None)
        self.assertEqual(ended.status, 4)

    def test_a_program_that_never_says_its_version_is_left_to_the_call(self) -> None:
        path = self.folder / "program"
        path.write_text("#!/bin/sh\nexec sleep 600\n")
        path.chmod(0o755)
        before, program.ANSWER = program.ANSWER, 1
        self.addCleanup(setattr, program, "ANSWER", before)
        began = time.monotonic()
        self.assertEqual(program.check_program(str(path), "audit"), str(path))
        self.assertLess(time.monotonic() - began, 300)


class Parts(common.ProgramCase):
    """A part that is done ends as success for a scheduler."""

    def part(self, *more: str) -> tuple[int, str]:
        words = ["run", "--pop", "pop", "--first", "a", "--second", "b", "--district", "d",
                 "--slack", "5000", "--key", common.KEY, "--walks", "12", "--steps", "8", "--ask",
                 "gap:low", "--save", "1", "--resume", "yes", *more]
        call = "import sys; from district_audit import commands; sys.exit(commands.run())"
        end = subprocess.run(
            [sys.executable, "-c", call, *words], cwd=self.folder, input=CYCLE.read_bytes(),
            env={**os.environ, "PYTHONPATH": PROGRAM_PATH, "DISTRICT_AUDIT": self.program},
            capture_output=True, check=False,
        )
        return end.returncode, end.stderr.decode()

    def test_a_complete_part_ends_with_0(self) -> None:
        status, said = self.part("--parts", "5", "--part", "1", "--budget", "2")
        self.assertEqual((status, said), (7, "stopped: 2 of 12 done\n"))
        status, said = self.part("--parts", "5", "--part", "1")
        self.assertEqual(status, 0)
        self.assertEqual(said, "stopped: 3 of 12 done\ndistrict-audit-run: part 1 of 5 is complete,"
                               " and other parts are not here: status 0, not 7\n")
        # Another part of the folder is incomplete, although as many trajectories are done.
        status, said = self.part("--parts", "5", "--part", "2", "--budget", "0")
        self.assertEqual((status, said), (7, "stopped: 3 of 12 done\n"))

    def test_a_run_without_parts_keeps_its_status(self) -> None:
        status, said = self.part("--budget", "5")
        self.assertEqual((status, said), (7, "stopped: 5 of 12 done\n"))

    def test_parts_as_the_program_deals_them(self) -> None:
        for part, done in ((0, [0, 5, 10]), (1, [1, 6, 11]), (4, [4, 9])):
            place = self.folder / str(part)
            place.mkdir()
            with self.assertRaises(district_audit.WorkLeft) as caught:
                district_audit.run(CYCLE, program=self.program, folder=place, save=1, parts=5,
                                   part=part, **common.WALK)
            self.assertTrue(caught.exception.part_is_done)
            newest = anything(checkpoints.newest_of(checkpoints.slots_in(place)))
            self.assertEqual(list(newest.ids), done)
            for other in range(5):
                self.assertEqual(checkpoints.is_part_done(place, 5, other, 12), other == part)
        with self.assertRaises(district_audit.WorkLeft) as caught:
            district_audit.run(CYCLE, program=self.program, folder=self.folder, save=1, budget=5,
                               **common.WALK)
        self.assertFalse(caught.exception.part_is_done)

    def test_the_scripts_say_the_same(self) -> None:
        """The function `walk` of each script, with a program that ends as a part does."""
        for script in ("slurm_audit.sh", "parallel_audit.sh"):
            text = (common.EXAMPLES / script).read_text(encoding="utf-8")
            walk = text[text.index("\nwalk() {"):]
            walk = walk[:walk.index("\n}\n") + 3]
            (self.folder / "graph").write_text("")
            for ended, budget, wanted in ((7, "", 0), (0, "", 0), (7, "--budget 3", 7), (5, "", 5)):
                end = subprocess.run(
                    ["bash", "-c", f"program=program; words=(run {budget}); saving=(); cores=1;"
                     f" parts=3; folder={self.folder}; graph=graph\n"
                     f"program() {{ echo 'stopped: 1 of 3 done' >&2; return {ended}; }}\n"
                     f"{walk}walk 2"],
                    cwd=self.folder, capture_output=True, text=True, check=False,
                )
                self.assertEqual(end.returncode, wanted, (script, end.stderr))
                is_told = "part 2 of 3 is complete" in end.stderr
                self.assertEqual(is_told, (ended, budget) == (7, ""), end.stderr)


class Together(common.ProgramCase):
    """Elections run side by side, under one display with their names."""

    def run_all(self, **more: common.Value) -> district_audit.ElectionReports:
        found: common.Words = self.words(**more)
        elections: dict[str, tuple[str, str]] = found.pop("elections")
        return district_audit.run(CYCLE, elections=elections, **found)

    def words(self, **more: common.Value) -> common.Words:
        found: common.Words = {**common.WALK, "program": self.program, "elections": ELECTIONS}
        for name in ("first", "second"):
            found.pop(name)
        return {**found, **more}

    def test_they_are_the_runs_of_each(self) -> None:
        found = self.run_all()
        self.assertEqual(list(found), list(ELECTIONS))
        for name, (first, second) in ELECTIONS.items():
            own: common.Words = {**common.WALK, "first": first, "second": second}
            self.assertEqual(
                found[name], district_audit.run(CYCLE, program=self.program, **own)
            )

    def test_they_overlap_in_time(self) -> None:
        """Each waits until another has begun: one behind the other, the first would wait alone."""
        line = VERSION + (
            f"cd '{self.folder}'; touch begun.$$; for i in $(seq 600); do"
            " [ $(ls begun.* | wc -l) -ge 2 ] && break; sleep 0.05; done;"
            " [ $(ls begun.* | wc -l) -ge 2 ] || exit 9; exec PROGRAM"
        )
        if (os.cpu_count() or 1) < 2:
            common.fail_or_skip("a second processor")
        district_audit.run(CYCLE, **self.words(program=self.wrapper(line)))

    def test_as_many_as_the_processors_have_room_for(self) -> None:
        asked = {name: anything(None) for name in ELECTIONS}
        for workers, budget, wanted in ((1, None, 3), (os.cpu_count() or 1, None, 1), (1, 5, 1)):
            together = running.Together.__new__(running.Together)
            named: common.Words = {"workers": workers}
            named.update({} if budget is None else {"budget": budget})
            one = anything(type("Running", (), {"asked": type("Given", (), {"named": named})}))
            together.named = dict.fromkeys(asked, one)
            self.assertEqual(together.count_together(), min(wanted, os.cpu_count() or 1))

    def test_one_bar_with_all_names(self) -> None:
        bars: list[tuple[str, Noted]] = []

        def new_bar(name: str = "") -> Noted:
            bars.append((name, Noted()))
            return bars[-1][1]

        before, progress.new_bar = progress.new_bar, anything(new_bar)
        self.addCleanup(setattr, progress, "new_bar", before)
        district_audit.run(CYCLE, **self.words(save=1, folder=self.folder, progress=True))
        ((name, bar),) = bars
        self.assertEqual((name, bar.ends), ("one, two, three", 1))
        self.assertEqual(bar.shown[-1], (36, 36))
        # Checkpoints of before do not count in a run that writes over them.
        district_audit.run(CYCLE, **self.words(
            save=1, folder=self.folder, progress=True, overwrite=True,
            program=self.wrapper(VERSION + "sleep 0.5; exec PROGRAM")))
        self.assertEqual(bars[1][1].shown[0], (0, 36))

    def test_a_display_within_a_second(self) -> None:
        """Without `save`, too, the display comes while a slow program runs."""
        slow = self.wrapper(VERSION + "sleep 2; exec PROGRAM")
        for elections, said in ((None, "walking 12 trajectories for"),
                                (ELECTIONS, "one, two, three: walking 36 trajectories for")):
            words: common.Words = self.words(program=slow, progress=True, workers=1)
            if elections is None:
                words.pop("elections")
                words.update(first="a", second="b")
            stream, began, first = io.StringIO(), time.monotonic(), [0.0]

            def write(text: str) -> int:
                first[0] = first[0] or time.monotonic() - began
                return io.StringIO.write(stream, text)

            stream.write = write  # type: ignore[assignment]
            with contextlib.redirect_stderr(stream):
                district_audit.run(CYCLE, **words)
            self.assertIn(said, stream.getvalue())
            self.assertGreater(first[0], 0)

    def test_one_that_fails_ends_the_others(self) -> None:
        """The second election's program ends with 3, while the others would take an hour."""
        line = VERSION + (
            "case \" $* \" in *' --first b '*) echo memory >&2; exit 3 ;; esac; sleep 3600 & p=$!;"
            " trap \"kill $p; exit 1\" TERM; wait"
        )
        began = time.monotonic()
        with self.assertRaises(district_audit.MemoryRefused):
            district_audit.run(CYCLE, **self.words(program=self.wrapper(line)))
        self.assertLess(time.monotonic() - began, 300)

    def test_parts_of_all_elections_are_walked(self) -> None:
        with self.assertRaises(district_audit.WorkLeft) as caught:
            district_audit.run(
                CYCLE, **self.words(save=1, folder=self.folder, parts=4, part=1)
            )
        self.assertEqual((caught.exception.election, caught.exception.part_is_done), ("one", True))
        self.assertIn("9 of 36 in all elections", str(caught.exception))
        for name in ELECTIONS:
            self.assertTrue(checkpoints.is_part_done(self.folder / name, 4, 1, 12))

    def test_ctrl_c_names_what_is_saved(self) -> None:
        script = (
            "import district_audit\n"
            "district_audit.run(%r, program=%r, folder=%r, save=1, **%r)\n"
        ) % (str(CYCLE), self.program, str(self.folder), {
            **{name: value for name, value in self.words(steps=200_000, walks=20_000).items()
               if name != "program"},
        })
        with subprocess.Popen(
            [sys.executable, "-c", script], stderr=subprocess.PIPE, text=True,
            start_new_session=True, env={**os.environ, "PYTHONPATH": PROGRAM_PATH},
        ) as process:
            limit = time.monotonic() + 120
            while process.poll() is None and time.monotonic() < limit and not all(
                (self.folder / name / "audit-1.ckpt").exists() for name in ELECTIONS
            ):
                time.sleep(0.05)
            process.send_signal(2)
            said = process.communicate(timeout=120)[1]
        self.assertRegex(said, r"Interrupted: stopped: [0-9]+ of 60000 done in 3 elections; the"
                               " same call with resume=True goes on in the same folder")


if __name__ == "__main__":
    unittest.main()
