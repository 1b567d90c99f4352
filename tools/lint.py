"""Runs flake8 (100 columns, complexity at most 10) and mypy --strict over all Python files."""
import argparse
import os
import pathlib
import subprocess
import sys

from tests.checks import Checks, run
from tests.places import TOP

FOLDERS = ("python", "tests", "bench", "tools", "scripts", "examples", "r")
# Files that mypy judges together, by the folder in which it runs.
TYPED = {
    "python": ("district_audit", "backend"),
    "python/tests": (".",),
    "r": ("districtaudit",),
    ".": ("tests", "bench", "tools", "scripts", "examples"),
}
# The folders of the modules that the tests of the package import.
MODULES = {"MYPYPATH": os.pathsep.join((str(TOP / "python"), str(TOP)))}


def python_files(*folders: str) -> list[str]:
    """Returns the paths of the Python files in these folders, relative to the top."""
    found = [path for folder in folders for path in (TOP / folder).rglob("*.py")]
    if "tests" in folders:
        found.append(TOP / "tests" / "run")
    return sorted(str(path.relative_to(TOP)) for path in found)


def is_installed(name: str) -> bool:
    try:
        return subprocess.run([name, "--version"], capture_output=True, check=False).returncode == 0
    except FileNotFoundError:
        return False


def style(checks: Checks) -> None:
    """Each file is a check of flake8."""
    paths = python_files(*FOLDERS)
    words = ["flake8", "--isolated", "--max-line-length", "100", "--max-complexity", "10", *paths]
    end = run(words)
    checks.is_true("flake8_runs", end.status in (0, 1) and not end.note, "no error", end.note)
    for path in paths:
        faults = [line for line in end.out.splitlines() if line.startswith(f"{path}:")]
        checks.is_equal(f"flake8_{path}", faults, [])


def types(checks: Checks) -> None:
    """Each file is a check of mypy; modules that are not installed count as untyped."""
    for folder, parts in TYPED.items():
        here = pathlib.PurePath(folder)
        paths = [
            str(pathlib.PurePath(path).relative_to(here))
            for path in python_files(*(str(here / part) for part in parts))
        ]
        words = ["mypy", "--strict", "--scripts-are-modules", "--ignore-missing-imports"]
        more = MODULES if folder == "python/tests" else {}
        end = run([*words, "--cache-dir", "/dev/null", *paths], folder=TOP / folder, more=more)
        name = f"mypy_runs_in_{'top' if folder == '.' else folder}"
        checks.is_true(name, end.status in (0, 1), "status 0 or 1", end.out + end.note)
        for path in paths:
            faults = [line for line in end.out.splitlines() if line.startswith(f"{path}:")]
            errors = [line for line in faults if ": error:" in line]
            checks.is_equal(f"mypy_{here / path}", errors, [])


def main() -> int:
    argparse.ArgumentParser(prog="python3 -m tools.lint", description=__doc__).parse_args()
    checks = Checks("lint")
    for name, part in (("flake8", style), ("mypy", types)):
        if is_installed(name):
            part(checks)
        else:
            checks.count_missing(name, name)
    return checks.finish()


if __name__ == "__main__":
    sys.exit(main())
