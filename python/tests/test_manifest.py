"""Manifests: what a run leaves beside its report, and that each changed file is found."""
from __future__ import annotations

import contextlib
import dataclasses
import datetime
import hashlib
import io
import json
import os
import pathlib
import shutil
import subprocess
import sys
import unittest

import common
import district_audit
from district_audit import custody, manifest, verifying

CYCLE = common.EXAMPLES / "data" / "cycle.json"
WALK: common.Words = common.WALK


def digest(path: pathlib.Path) -> str:
    return hashlib.sha256(path.read_bytes()).hexdigest()


class Manifests(common.ProgramCase):
    """Runs of the real program that leave a manifest."""

    def audit(self, graph: object = CYCLE, **words: common.Value) -> pathlib.Path:
        """Makes a run and returns the path of its manifest."""
        report = self.folder / "report"
        words = {"program": self.program, **WALK, **words}
        district_audit.audit_to_file(report, graph, **words)
        return self.folder / "report.manifest.json"

    def verify(self, *words: object) -> tuple[int, str]:
        """Returns the status and the text of the command."""
        out = io.StringIO()
        with contextlib.redirect_stdout(out), contextlib.redirect_stderr(out):
            status = verifying.verify_command([str(word) for word in words])
        return status, out.getvalue()

    def with_origin(self, proved: str) -> str:
        """Returns a copy of the program, with the file that says how it was built."""
        path = self.folder / "program" / "district-audit"
        path.parent.mkdir()
        shutil.copy(self.program, path)
        lines = (f"sha256 {digest(path)}", f"commit {'c' * 40}", "kit tools 1", f"proved {proved}")
        (path.parent / "district-audit.origin").write_text("\n".join([*lines, ""]))
        return str(path)

    def test_what_a_manifest_says(self) -> None:
        before = datetime.datetime.now(datetime.timezone.utc).replace(microsecond=0)
        value = json.loads(self.audit().read_text(encoding="utf-8"))
        report = self.folder / "report"
        self.assertEqual(value["format"], "district-audit manifest 2")
        self.assertEqual(value["kind"], "report")
        (entry,) = value["reports"]
        self.assertEqual((entry["names"], entry["command"][0]), ([""], "run"))
        self.assertEqual(
            entry["graph"],
            {"name": "cycle.json", "sha256": digest(CYCLE), "bytes": CYCLE.stat().st_size},
        )
        self.assertEqual(entry["map_sha256"], digest(CYCLE))
        self.assertEqual(
            entry["report"],
            {"name": "report", "sha256": digest(report), "bytes": report.stat().st_size},
        )
        self.assertEqual(value["program"]["sha256"], digest(pathlib.Path(self.program)))
        self.assertEqual(value["versions"]["district-audit"], district_audit.__version__)
        self.assertEqual(value["processors"], os.cpu_count())
        started, ended = (
            datetime.datetime.fromisoformat(entry[one]) for one in ("started", "ended")
        )
        self.assertTrue(before <= started <= ended)
        self.assertNotIn(str(self.folder), json.dumps(value))

    def test_the_words_make_the_report_again(self) -> None:
        """The words with the graph on standard input write the report, byte for byte."""
        (value,) = json.loads(self.audit().read_text(encoding="utf-8"))["reports"]
        done = subprocess.run(
            [self.program, *value["command"]], input=CYCLE.read_bytes(), capture_output=True,
            check=True,
        )
        self.assertEqual(done.stdout, (self.folder / "report").read_bytes())

    def test_a_graph_that_is_no_file_is_kept(self) -> None:
        prepared = district_audit.prepare(CYCLE, **common.COLUMNS)
        path = self.audit(prepared)
        self.assertEqual((self.folder / "report.graph.json").read_bytes(), prepared.data)
        self.assertEqual(self.verify(path, "--program", self.program)[0], 0)

    def test_all_that_is_there_agrees(self) -> None:
        program = self.with_origin("yes")
        path = self.audit(source=True, program=program)
        status, text = self.verify(path, "--graph", CYCLE, "--program", program)
        self.assertEqual(
            (status, text.splitlines()[-1]), (0, "6 agree, 0 differ, 0 not checked"), text
        )

    def test_each_changed_file_is_found(self) -> None:
        """One byte more in the graph, in the report or in the program."""
        path = self.audit()
        files: common.Words = {
            "graph": CYCLE,
            "report": self.folder / "report",
            "program": pathlib.Path(self.program),
        }
        for what, file in files.items():
            other = self.folder / f"other {what}"
            other.write_bytes(file.read_bytes() + b" ")
            named = {**files, what: other}
            words = [word for name, one in named.items() for word in (f"--{name}", one)]
            status, text = self.verify(path, *words)
            self.assertEqual(status, 1, what)
            self.assertIn(f"{what} {other}: DIFFERS", text)
            self.assertRegex(text, " 1 differ, [01] not checked")

    def test_a_changed_digit_of_the_report_is_found(self) -> None:
        path = self.audit()
        report = self.folder / "report"
        report.write_text(report.read_text().replace("moved ", "moved 1", 1))
        self.assertEqual(self.verify(path, "--graph", CYCLE)[0], 1)

    def test_a_missing_file_is_no_agreement(self) -> None:
        path = self.audit()
        status, text = self.verify(path)
        self.assertEqual(status, 1)
        self.assertIn("graph cycle.json: not checked", text)
        (self.folder / "report").unlink()
        status, text = self.verify(path, "--graph", CYCLE)
        self.assertEqual(status, 1)
        self.assertIn("report report: not checked", text)

    def test_words_that_are_not_the_reports(self) -> None:
        """The right hashes of a report with another key, or of another source, are no agreement."""
        path = self.audit(source=True)
        made = manifest.Manifest.parse(path.read_text(encoding="utf-8"))
        key = "1" * 64
        path.write_text(str(made).replace("0" * 64, key), encoding="utf-8")
        status, text = self.verify(path, "--graph", CYCLE)
        self.assertEqual(status, 1)
        self.assertIn("another key", text)
        other = self.folder / "other.json"
        other.write_bytes(CYCLE.read_bytes() + b"\n")
        (one,) = made.reports
        one = dataclasses.replace(one, graph=custody.File.measure(other))
        wrong = dataclasses.replace(made, reports=(one,))
        path.write_text(str(wrong), encoding="utf-8")
        status, text = self.verify(path)
        self.assertEqual(status, 1)
        self.assertIn("another source", text)

    def test_no_manifest_and_no_report(self) -> None:
        path = self.audit()
        text = path.read_text(encoding="utf-8")
        value = json.loads(text)
        (entry,) = value["reports"]
        broken = [
            "",
            "{",
            "[]",
            "{}",
            text[:-4],
            json.dumps({**value, "more": 1}),
            json.dumps({**value, "format": "district-audit manifest 3"}),
            json.dumps({**value, "kind": "other"}),
            json.dumps({**value, "reports": []}),
            json.dumps({**value, "reports": [{**entry, "names": []}]}),
            json.dumps({**value, "reports": [{**entry, "command": []}]}),
            json.dumps({**value, "reports": [{**entry, "command": [1]}]}),
            json.dumps({**value, "processors": True}),
            json.dumps({**value, "reports": [{**entry, "started": "now"}]}),
            json.dumps(
                {**value, "reports": [{**entry, "report": {**entry["report"], "name": "../r"}}]}
            ),
            json.dumps(
                {**value, "reports": [{**entry, "graph": {**entry["graph"], "sha256": "0"}}]}
            ),
            json.dumps({**value, "program": {**value["program"], "bytes": -1}}),
            json.dumps({**value, "program": {**value["program"], "proved": "yes"}}),
            json.dumps({**value, "warnings": [{"kind": "x"}]}),
            json.dumps({**value, "versions": {"python": 3}}),
            json.dumps({**value, "decides": 1}),
            json.dumps({**value, "limits_from": 1}),
            json.dumps({**value, "preparation": {}}),
        ]
        for one in broken:
            path.write_text(one, encoding="utf-8")
            self.assertEqual(self.verify(path, "--graph", CYCLE)[0], 2, one[:80])
        self.assertEqual(self.verify(self.folder / "nothing")[0], 2)
        made = manifest.Manifest.parse(text)
        (self.folder / "report").write_text("no report\n")
        (of_one,) = made.reports
        of_one = dataclasses.replace(of_one, report=custody.File.measure(self.folder / "report"))
        wrong = dataclasses.replace(made, reports=(of_one,))
        path.write_text(str(wrong), encoding="utf-8")
        self.assertEqual(self.verify(path, "--graph", CYCLE)[0], 2)

    def test_the_manifest_of_a_former_version_is_read(self) -> None:
        """It named one report, and nothing of the program's build."""
        path = self.audit()
        value = json.loads(path.read_text(encoding="utf-8"))
        (entry,) = value["reports"]
        program = {name: value["program"][name] for name in ("name", "sha256", "bytes")}
        before = {
            "format": "district-audit manifest 1", "package": "0.3.0", "program": program,
            "processors": 2,
            **{name: entry[name] for name in ("command", "graph", "report", "started", "ended")},
        }
        path.write_text(json.dumps(before), encoding="utf-8")
        # A program of a release has an origin beside it, of which that manifest says nothing.
        program_alone = self.folder / "alone"
        shutil.copy(self.program, program_alone)
        status, text = self.verify(path, "--graph", CYCLE, "--program", program_alone)
        self.assertEqual(status, 0, text)
        self.assertIn("NOT PROVED", text)
        path.write_text(json.dumps({**before, "more": 1}), encoding="utf-8")
        self.assertEqual(self.verify(path, "--graph", CYCLE)[0], 2)

    def test_a_changed_build_is_found(self) -> None:
        """The origin beside the program says something else than the manifest."""
        program = self.with_origin("yes")
        path = self.audit(program=program)
        text = path.read_text(encoding="utf-8")
        self.assertTrue(json.loads(text)["program"]["proved"])
        for old, new in (
            ('"proved": true', '"proved": false'), ("c" * 40, "d" * 40), ("tools 1", "tools 2"),
        ):
            self.assertEqual(text.count(old), 1)
            path.write_text(text.replace(old, new), encoding="utf-8")
            status, said = self.verify(path, "--graph", CYCLE, "--program", program)
            self.assertEqual(status, 1, said)
            self.assertIn("origin: DIFFERS", said)

    def test_a_changed_build_is_found_in_a_study_of_r(self) -> None:
        """The versions of a study that the R package wrote name R, and not Python."""
        program = self.with_origin("yes")
        path = self.audit(program=program)
        value = json.loads(path.read_text(encoding="utf-8"))
        value["versions"] = {"R": "4.2.2", "districtaudit": "0.2.0", "sf": "1.0.9"}
        path.write_text(json.dumps(value), encoding="utf-8")
        status, said = self.verify(path, "--graph", CYCLE, "--program", program)
        self.assertEqual(status, 0, said)
        self.assertIn(f"origin: agrees, commit {'c' * 40}, toolchain tools 1, proved", said)
        value["program"]["proved"] = False
        path.write_text(json.dumps(value), encoding="utf-8")
        status, said = self.verify(path, "--graph", CYCLE, "--program", program)
        self.assertEqual(status, 1, said)
        self.assertIn("origin: DIFFERS", said)

    def test_an_origin_of_another_program_does_not_count(self) -> None:
        program = pathlib.Path(self.with_origin("yes"))
        origin = program.with_name("district-audit.origin")
        origin.write_text(origin.read_text().replace("sha256 ", "sha256 0", 1))
        value = json.loads(self.audit(program=str(program)).read_text(encoding="utf-8"))
        self.assertEqual((value["program"]["proved"], value["program"]["commit"]), (False, None))

    def test_a_failed_run_leaves_nothing(self) -> None:
        with self.assertRaises(district_audit.WordsRefused):
            self.audit(walks=0)
        self.assertEqual(list(self.folder.iterdir()), [])

    def test_the_command(self) -> None:
        path = self.audit()
        call = [sys.executable, "-m", "district_audit", "verify"]
        where = {
            **os.environ,
            "PYTHONPATH": str(common.TOP / "python"),
            "DISTRICT_AUDIT": self.program,
        }
        done = subprocess.run(
            [*call, path, "--graph", CYCLE], env=where, capture_output=True, text=True, check=False
        )
        self.assertEqual((done.returncode, done.stderr), (0, ""))
        done = subprocess.run(
            [*call, "--help"], env=where, capture_output=True, text=True, check=False
        )
        self.assertEqual(done.returncode, 0)
        self.assertIn("usage: python -m district_audit verify", done.stdout)


if __name__ == "__main__":
    unittest.main()
