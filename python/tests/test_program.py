"""The programs that the package calls: those of its wheel, and programs that it must not call."""
import importlib.util
import os
import pathlib
import struct
import subprocess
import sys
import unittest
import venv

import common
import district_audit
from district_audit.program import find_program

VERSION = district_audit.__version__
SHOW = "from district_audit.program import find_program; print(find_program('audit'))"


def answering(text: str) -> bytes:
    """Returns a script that answers with a text."""
    return f"#!/bin/sh\necho '{text}'\n".encode()


def elf_of(machine: int) -> bytes:
    """Returns the head of an executable for a processor, with no code."""
    head = b"\x7fELF\x02\x01\x01" + bytes(9)
    return head + struct.pack("<HHIQQQIHHHHHH", 2, machine, 1, 0, 64, 0, 0, 64, 56, 0, 64, 0, 0)


class ProgramsThatAreRefused(common.FolderCase):
    """Each is refused before a run, by a named error that says what to do."""

    def refuse(self, data: bytes, said: str, which: str = "audit") -> None:
        path = self.folder / "a-program"
        path.write_bytes(data)
        path.chmod(0o755)
        with self.assertRaisesRegex(district_audit.WrongProgram, said):
            find_program(which, path)
        variable = "DISTRICT_AUDIT" if which == "audit" else "DISTRICT_AUDIT_SLOTS"
        with common.environment(**{variable: str(path)}):
            with self.assertRaisesRegex(district_audit.WrongProgram, said):
                find_program(which)

    def test_another_version(self) -> None:
        self.refuse(
            answering("district-audit 0.0.9"),
            f"is of version 0.0.9, and this package of {VERSION}: install both from one release",
        )

    def test_another_program(self) -> None:
        self.refuse(answering("plan-check 1"), "is no district-audit: to --version it answers")
        self.refuse(answering(f"audit_slots {VERSION}"), "is no district-audit")
        self.refuse(answering(f"district-audit {VERSION}"), "is no audit_slots", "slots")

    def test_another_processor_or_a_damaged_file(self) -> None:
        said = "it is damaged, or made for another processor than"
        self.refuse(elf_of(183), said)
        self.refuse(b"\x7fELF" + bytes(40), said)

    def test_a_file_that_lost_its_end(self) -> None:
        """The head of a real program still starts, and then ends by a signal."""
        data = pathlib.Path(sys.executable).read_bytes()
        said = "is damaged, or no district-audit: to --version it ends with signal"
        self.refuse(data[: len(data) // 8], said)

    def test_a_program_without_an_answer(self) -> None:
        for status in (1, 2, 127):
            said = f"or no district-audit: to --version it ends with status {status}: install"
            self.refuse(f"#!/bin/sh\nexit {status}\n".encode(), said)

    def call_command(self, data: bytes) -> "subprocess.CompletedProcess[str]":
        """Returns how district-audit-run ends with a program."""
        path = self.folder / "district-audit"
        path.write_bytes(data)
        path.chmod(0o755)
        env = {**os.environ, "DISTRICT_AUDIT": str(path), "PYTHONPATH": str(common.TOP / "python")}
        code = "import sys; from district_audit.commands import run; sys.exit(run())"
        words = ["make", "--size", "1", "--steps", "1", "--key", "5" * 64]
        return subprocess.run(
            ["python3", "-c", code, *words], env=env, capture_output=True, text=True, check=False
        )

    def test_the_command_says_so_in_one_line(self) -> None:
        end = self.call_command(elf_of(183))
        self.assertRegex(end.stderr, "^district-audit-run: .* made for another processor .*\n$")
        self.assertEqual((end.returncode, end.stdout), (127, ""))

    def test_the_command_says_that_a_signal_came(self) -> None:
        line = f"[ $1 = --version ] || kill -SEGV $$; echo district-audit {VERSION}"
        end = self.call_command(f"#!/bin/sh\n{line}\n".encode())
        said = "district-audit-run: the program was stopped by signal 11; nothing was saved"
        self.assertEqual(end.stderr.partition(" (")[0], said)
        self.assertEqual((end.returncode, end.stdout), (128 + 11, ""))


class ProgramsOfAWheel(common.FolderCase):
    """A wheel with stand-ins for the programs, in an environment that is not activated."""

    def make_wheel(self) -> pathlib.Path:
        place = common.TOP / "python" / "backend" / "in_tree.py"
        spec = importlib.util.spec_from_file_location("in_tree", place)
        assert spec is not None and spec.loader is not None
        backend = importlib.util.module_from_spec(spec)
        spec.loader.exec_module(backend)
        programs = {
            name: answering(f"{name} {VERSION}")
            for name in ("district-audit", "audit_slots", "audit_gather")
        }
        programs["district-audit.origin"] = b"proved yes\n"
        return self.folder / str(backend.build_release_wheel(str(self.folder), programs))

    def show(self, **more: str) -> "subprocess.CompletedProcess[str]":
        """Returns how the environment's Python ends that asks for the program."""
        env = {"PATH": "/usr/bin:/bin", "HOME": str(self.folder), **more}
        return subprocess.run(
            [self.folder / "venv" / "bin" / "python", "-c", SHOW], env=env, cwd=self.folder,
            capture_output=True, text=True, check=False,
        )

    def refuses(self, said: str) -> None:
        end = self.show()
        self.assertIn("WrongProgram", end.stderr)
        self.assertIn(said, end.stderr)
        self.assertIn("pip install --force-reinstall", end.stderr)

    def test_they_are_found_and_kept_apart(self) -> None:
        common.needs("ensurepip")
        venv.create(self.folder / "venv", with_pip=True)
        folder = self.folder / "venv" / "bin"
        words = ["-m", "pip", "install", "--no-index", "-q", str(self.make_wheel())]
        pip = [str(folder / "python"), *words]
        subprocess.run(pip, check=True, capture_output=True)
        program = folder / "district-audit"
        self.assertEqual(self.show().stdout, f"{program}\n", self.show().stderr)
        self.assertTrue((folder / "district-audit.origin").is_file())
        self.assertTrue(os.access(folder / "audit_gather", os.X_OK))
        other = self.folder / "other"
        other.mkdir()
        (other / "district-audit").write_bytes(answering(f"district-audit {VERSION}"))
        (other / "district-audit").chmod(0o755)
        end = self.show(PATH=f"{other}:/usr/bin:/bin")
        self.assertEqual(end.stdout, f"{program}\n", "the program of the wheel goes first")
        end = self.show(DISTRICT_AUDIT=str(other / "district-audit"))
        self.assertEqual(end.stdout, f"{other / 'district-audit'}\n")
        program.write_bytes((folder / "audit_slots").read_bytes())
        self.refuses("is not the one of this package")
        program.unlink()
        self.refuses("of this package is missing")


class ReportsWithoutAProof(common.ProgramCase):
    """A report of a build without a proof says so, and is refused where it would be filed."""

    def setUp(self) -> None:
        super().setUp()
        line = "district-audit-unproved: NOT PROVED: to try things"
        say = f"echo '{line}'; echo '{line}' >&2; exec PROGRAM"
        self.unproved = self.wrapper(say)
        self.graph = common.example("cycle.json")
        self.line = line

    def test_a_report_says_so(self) -> None:
        report = district_audit.run(self.graph, program=self.unproved, **common.WALK)
        proved = district_audit.run(self.graph, program=self.program, **common.WALK)
        self.assertEqual((report.proved, proved.proved), (False, True))
        self.assertEqual(str(report), f"{self.line}\n{proved}")
        self.assertFalse(district_audit.Report.parse(str(report)).proved)
        self.assertEqual(district_audit.check(self.graph, program=self.unproved,
                                              **common.WORDS).units, 4)

    def test_a_trace_says_so(self) -> None:
        words: common.Words = dict(common.WORDS, key=common.KEY, steps=8, ids=0)
        found = []
        for program in (self.unproved, self.program):
            with district_audit.trace(self.graph, program=program, **words) as trace:
                found.append((trace.proved, [sample.moves for sample in trace]))
        self.assertEqual(found, [(False, found[1][1]), (True, found[1][1])])
        say = f"echo '{self.line}'; echo '{self.line}' >&2"
        fails = self.wrapper(f"{say}; echo 'write fault' >&2; exit 5")
        with self.assertRaises(district_audit.AuditError) as caught:
            district_audit.trace(self.graph, program=fails, **words)
        self.assertEqual(str(caught.exception), "write fault")

    def test_it_is_not_filed(self) -> None:
        report = district_audit.run(self.graph, program=self.unproved, **common.WALK)
        with self.assertRaisesRegex(district_audit.NotProved, "not for a court"):
            report.exhibit(self.folder / "exhibit.html")
        with self.assertRaisesRegex(district_audit.NotProved, "not for files"):
            report.to_files(self.folder / "report")
        with self.assertRaisesRegex(district_audit.NotProved, "built without a proof"):
            district_audit.audit_to_file(
                self.folder / "report", self.graph, program=self.unproved, **common.WALK
            )
        self.assertEqual([one.name for one in self.folder.iterdir()], ["wrapper"])


class TextsWithoutAProof(common.FolderCase):
    """A build without a proof is used only if it is asked for, and its first line is understood."""

    def make(self) -> pathlib.Path:
        path = self.folder / "district-audit-unproved"
        line = "district-audit-unproved: NOT PROVED: this build was made without a proof"
        path.write_text(
            f"#!/bin/sh\necho '{line}'\necho '{line}' >&2\necho district-audit {VERSION}\n"
        )
        path.chmod(0o755)
        return path

    def test_it_is_found_where_it_is_asked_for(self) -> None:
        path = self.make()
        with common.environment(PATH=f"{self.folder}:/usr/bin:/bin", DISTRICT_AUDIT=None):
            with self.assertRaises(district_audit.ProgramMissing):
                find_program("audit")
            self.assertEqual(find_program("audit", unproved=True), str(path))
        self.assertEqual(find_program("audit", path), str(path))


if __name__ == "__main__":
    unittest.main()
