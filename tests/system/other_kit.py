"""The tests that look at the toolchain's name pass with a toolchain that nobody measured.

An `rt` that answers `version` with a made-up line, and hands on all else, stands first in PATH.
`instructions` must then compare with the wider limit and say so, and `release` must name the kit as
what differs. The tests are found by a search, so that a new one has to be tried here.
"""
# RUN: {auditor} {folders} {slots} {gatherer}
# NEEDS: valgrind git
import os
import pathlib
import re
import shlex
import shutil
import sys
import tempfile

from tests.checks import Checks, End, run
from tests.places import TOP

# The form of a toolchain's line. No file may name a kit.
LINE = "rattle-kit-" + "99z logic 0123456789abcdef"
# How a test asks for the line, by itself or in a module or script.
LOOKS = re.compile(r'"rt", "version"|\brt version\b|\bkit_line\b|install\.sh|"kit"')
# Those that need no name: one builds for minutes whatever it is called, one makes up its own.
OTHERS = {"unproved", "release_faults", "other_kit"}


def make_stand_in(folder: pathlib.Path) -> dict[str, str]:
    """Writes an `rt` that answers with the line. Returns the environment with it."""
    real = shutil.which("rt")
    rest = f'exec {shlex.quote(real)} "$@"' if real else f"echo {folder}/guide"
    answer = f'[ "$*" != version ] || exec echo {shlex.quote(LINE)}'
    folder.mkdir()
    (folder / "rt").write_text(f"#!/bin/sh\n{answer}\n{rest}\n")
    (folder / "rt").chmod(0o755)
    return {"PATH": f"{folder}{os.pathsep}{os.environ['PATH']}", "CI": ""}


def tests_that_look() -> set[str]:
    """Returns the names of the tests whose text asks for the toolchain's name."""
    rows = [line.split() for line in run([TOP / "tests" / "run", "list"]).out.splitlines()]
    return {row[0] for row in rows if LOOKS.search((TOP / row[2]).read_text())}


def main(auditor: str, folders: str, slots: str, gatherer: str) -> int:
    checks = Checks("other_kit")
    with tempfile.TemporaryDirectory() as name:
        room = pathlib.Path(name)
        more = make_stand_in(room / "kit")
        # Without an origin beside it, the program is taken for one of this machine's kit.
        alone = str(shutil.copy(auditor, room / "district-audit"))
        calls: dict[str, list[str]] = {
            "installed": [auditor],
            "instructions": [alone, folders, "check_a_grid"],
            "program_help": [auditor, slots, gatherer],
            "release": [],
        }
        checks.is_equal("tries_all", sorted(tests_that_look() - OTHERS), sorted(calls))
        ends: dict[str, End] = {}
        for test, words in calls.items():
            module = f"tests.system.{test}"
            ends[test] = run([sys.executable, "-m", module, *words], folder=TOP, more=more)
            checks.has_status(test, ends[test])
        said = ends["instructions"].out
        wide = f"no numbers are recorded for {LINE}: each run is compared with the greatest"
        checks.has_line("wide_limit", said, wide)
        checks.has_line("wider_than_usual", said, "at most 1.5 of that is expected")
        if (TOP / "release").is_dir():
            found = re.search(r"^release: other .*\bkit\b.*$", ends["release"].out, re.M)
            checks.is_true("names_the_kit", found, "other kit", ends["release"].out)
    return checks.finish()


if __name__ == "__main__":
    sys.exit(main(*sys.argv[1:]))
