"""The auditor ends as it must for each line of `cases` and `graphs`, and leaves the slots that it
must leave; and `case_runner` prints its stdout.

The plain model gives the expected ends, but for grids that would take it an hour. A failing check
of a case has the name of that case. The program `case_runner` is the one that the variable
DISTRICT_AUDIT_CASES names, or the one that `rt ci` leaves in the crate's folder.
"""
# RUN: {auditor}
import argparse
import os
import pathlib
import shutil
import subprocess
import sys
import tempfile
import typing

from tests.checks import Checks, End, run
from tests.golden.named_cases import (
    Case,
    audited_parts,
    compare,
    compare_with_model,
    parts_of,
    stdout_parts,
)
from tests.golden.plain_cases import Call, calls_of, is_great, text_of
from tests.oracle import model
from tests.places import CASES, TEST_DATA

NAMES = ("audit-0.ckpt", "audit-1.ckpt")


class Left(typing.NamedTuple):
    """The end of a call in an empty folder, and the files that it leaves there."""

    end: Case
    files: dict[str, bytes]


def check_program(checks: Checks, program: pathlib.Path) -> None:
    """The program prints what stdout has for each case."""
    with tempfile.TemporaryDirectory() as room:
        folder = pathlib.Path(room) / "data"
        shutil.copytree(CASES / "data", folder)
        end = run([program], folder=folder)
    checks.has_status("program/ends", end)
    compare(checks, "program", parts_of(end.out), stdout_parts())


def make_call(auditor: pathlib.Path, call: Call) -> Left:
    """Makes a call in an empty folder."""
    with tempfile.TemporaryDirectory() as room:
        done = subprocess.run(
            [auditor, *call.words], input=call.data, capture_output=True, check=False, cwd=room
        )
        files = {path.name: path.read_bytes() for path in pathlib.Path(room).iterdir()}
    end = End(done.returncode, done.stdout.decode(), done.stderr.decode())
    return Left(Case(call.name, text_of(end)), files)


def slots_of(call: Call) -> dict[str, bytes]:
    """Returns the slots that the plain model leaves."""
    if "--save" not in call.words:
        return {}
    slots = model.audit(call.words, call.data, [None, None]).slots
    return {name: slot for name, slot in zip(NAMES, slots) if slot is not None}


def main() -> int:
    parser = argparse.ArgumentParser(description=__doc__)
    parser.add_argument("auditor", type=pathlib.Path)
    auditor = parser.parse_args().auditor.resolve()
    checks = Checks("case_output")
    calls = calls_of(TEST_DATA)
    left = [make_call(auditor, call) for call in calls]
    compare(checks, "auditor", [one.end for one in left], audited_parts())
    for call, one in zip(calls, left):
        checks.is_equal(f"files/{call.name}", one.files, slots_of(call))
    program = pathlib.Path(os.environ.get("DISTRICT_AUDIT_CASES") or CASES / "out" / "case_runner")
    if os.access(program, os.X_OK):
        check_program(checks, program.resolve())
    elif not shutil.which("rt"):
        checks.skips("program", "missing: case_runner, which rt ci builds")
    else:
        checks.count_missing("program", f"the program {program}")
    modeled = [call.name for call in calls if not is_great(call.words)]
    compare_with_model(checks, "plain_cases", TEST_DATA, audited_parts(), modeled)
    return checks.finish()


if __name__ == "__main__":
    sys.exit(main())
