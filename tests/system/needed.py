"""`scripts/needs.sh` fails on what is missing where the variable CI is set, and counts it as
skipped elsewhere. It installs only with the word `install`. Here networkx is taken away, and
scripts stand in place of `id` and `apt-get`.
"""
# RUN:
import os
import pathlib
import re
import sys
import tempfile

from tests.checks import Checks, run
from tests.places import TOP

NEEDS = TOP / "scripts" / "needs.sh"


def make_stand_ins(folder: pathlib.Path) -> dict[str, str]:
    """Writes an `id` that says root and an `apt-get` that notes its words in a folder."""
    for name, line in (("id", "echo 0"), ("apt-get", f'echo "$*" >>{folder / "called"}; exit 1')):
        (folder / name).write_text(f"#!/bin/sh\n{line}\n")
        (folder / name).chmod(0o755)
    return {"PATH": f"{folder}{os.pathsep}{os.environ['PATH']}", "CI": ""}


def check_installing(checks: Checks, folder: pathlib.Path, taken: dict[str, str]) -> None:
    """Checks that packages are installed where this is asked for, and named."""
    more, called = {**taken, **make_stand_ins(folder)}, folder / "called"
    end = run([NEEDS], more=more)
    checks.is_equal("installs_nothing_by_itself", (end.status, called.exists()), (0, False))
    end = run([TOP / "tests" / "run", "needs"], more=more)
    checks.is_equal("tests_install_nothing", (end.status, called.exists()), (0, False))
    end = run([NEEDS, "install"], more=more)
    named = re.search(r"^needs: installing (.*\bpython3-networkx\b.*)$", end.out, re.M)
    checks.is_true("says_what_it_installs", named, "python3-networkx", end.out)
    words = called.read_text() if called.exists() else ""
    packages = named[1] if named else ""
    checks.has_line("installs_where_asked", words, f"install --no-install-recommends {packages}\n")
    checks.has_line("says_that_it_failed", end.note, "needs: the installation failed")


def main() -> int:
    checks = Checks("needed")
    with tempfile.TemporaryDirectory() as name:
        (pathlib.Path(name) / "networkx.py").write_text('raise ImportError("taken away")\n')
        taken = {"PYTHONPATH": name}
        end = run([NEEDS], more={**taken, "CI": "1"})
        said = end.out + end.note
        checks.has_status("fails_with_ci", end, 1)
        checks.is_true(
            "names_what_is_missing",
            re.search("missing: networkx.*apt-get install -y .*python3-networkx", said),
            "networkx",
            said,
        )
        checks.is_true(
            "counts_as_failed",
            re.search(r"^needs\.sh: .* [1-9][0-9]* failed, 0 skipped$", said, re.M),
            "a failed check",
            said,
        )
        end = run([NEEDS], more={**taken, "CI": ""})
        checks.has_status("passes_without_ci", end)
        checks.is_true(
            "counts_as_skipped",
            re.search(r"^needs\.sh: .* 0 failed, [1-9][0-9]* skipped$", end.out, re.M),
            "a skipped check",
            end.out,
        )
        end = run([NEEDS, "python", "networkx"], more={**taken, "CI": ""})
        checks.has_status("finds_no_python", end, 1)
        check_installing(checks, pathlib.Path(name), taken)
    return checks.finish()


if __name__ == "__main__":
    sys.exit(main())
