"""`scripts/install.sh FOLDER slots gather built` leaves programs that run, each under its name.

The script runs in a tree of its own, whose crates have the programs that are tested. What it proves
without the word `built` is not tried.
"""
# RUN: {auditor}
# NEEDS: git
# QUICK
import argparse
import hashlib
import os
import pathlib
import shutil
import sys
import tempfile

from tests.checks import Checks, run
from tests.places import DATA, TOP, program

CYCLE = "--pop pop --first a --second b --district d --slack 5000".split()
CHECKED = (
    "plan-check 1\nunits 4 edges 4 districts 2\n" "population 4 slack 5000 low 1 high 3\nend\n"
)


def tree(room: pathlib.Path, auditor: pathlib.Path) -> pathlib.Path:
    """Makes a tree with the script and the programs, and returns the script."""
    built = {"audit_program": auditor.resolve(), "audit_folders": program("folders")}
    for crate, path in built.items():
        out = room / "crates" / crate / "out"
        out.mkdir(parents=True)
        shutil.copy2(path, out / crate)
    shutil.copytree(TOP / "scripts", room / "scripts")
    return room / "scripts" / "install.sh"


def check_origin(
    checks: Checks, script: pathlib.Path, folder: pathlib.Path, room: pathlib.Path
) -> None:
    """Checks what is printed and stored: outside of git, at a commit, with a change."""
    kits = room / "kits"
    kits.mkdir()
    (kits / "rt").write_text("#!/bin/sh\n[ \"$1\" = version ] && echo 'a-kit logic 0123'\n")
    (kits / "rt").chmod(0o755)
    paths = {"PATH": f"{kits}{os.pathsep}{os.environ['PATH']}", "GIT_CONFIG_GLOBAL": "/dev/null"}
    tree = script.parent.parent
    git = ["git", "-C", tree, "-c", "user.name=a", "-c", "user.email=a@b"]

    def check_install(name: str, commit: str) -> None:
        end = run([script, folder, "built"], more=paths)
        digest = hashlib.sha256((folder / "district-audit").read_bytes()).hexdigest()
        wanted = [f"sha256 {digest}", f"checkout {commit}", "kit a-kit logic 0123", "proved yes"]
        checks.is_equal(
            f"{name}_stored", (folder / "district-audit.origin").read_text().splitlines(), wanted
        )
        shown = "".join(f"  {line}\n" for line in wanted)
        checks.is_equal(f"{name}_printed", end.out, f"{folder / 'district-audit'}\n{shown}")

    check_install("outside_of_git", "unknown")
    (tree / ".gitignore").write_text("out/\n")
    for words in (["init", "-q"], ["add", "-A"], ["commit", "-q", "-m", "one"]):
        checks.has_status(f"git_{words[0]}", run([*git, *words], more=paths))
    commit = run([*git, "rev-parse", "HEAD"]).out.strip()
    check_install("at_a_commit", commit)
    (tree / "crates" / "more.rt").write_text("// a change\n")
    check_install("with_a_change", f"{commit} with changes")


def main() -> int:
    parser = argparse.ArgumentParser(description=__doc__)
    parser.add_argument("auditor", type=pathlib.Path)
    auditor = parser.parse_args().auditor
    checks = Checks("installed")
    with tempfile.TemporaryDirectory() as name:
        room = pathlib.Path(name)
        script, folder = tree(room / "tree", auditor), room / "bin"
        checks.has_status("installs", run([script, folder, "slots", "gather", "built"]))
        end = run([folder / "district-audit", "check", *CYCLE], (DATA / "cycle.json").read_bytes())
        checks.is_equal("installed_auditor_checks", end.out + end.note, CHECKED)
        for which in ("audit_slots", "audit_gather"):
            checks.is_true(f"leaves_{which}", os.access(folder / which, os.X_OK), "a program")
            checks.is_true(f"origin_of_{which}", (folder / f"{which}.origin").exists(), "a file")
        end = run([script, folder, "gathers", "built"])
        checks.has_status("refuses_an_unknown_word", end, 1)
        checks.has_line("names_the_unknown_word", end.note, "the word gathers is unknown")
        check_origin(checks, script, folder, room)
    return checks.finish()


if __name__ == "__main__":
    sys.exit(main())
