"""Makes a release, or notes that the gate has passed.

    python3 -m tools.release make OUT [--sign KEY]
    python3 -m tools.release gate FAILED ..

`scripts/release.sh` calls the first and says more. `.ci/run` calls the second at its end, with the
names of what failed. It writes out/gate, without which no release is made.
"""
from __future__ import annotations

import argparse
import os
import pathlib
import re
import shutil
import sys
import tempfile
import typing

from tests.checks import run
from tests.kit import Kit, find_kit
from tests.places import TOP
from tools.release_build import (
    ReleaseError, Stamp, build_programs, digest_crates, digest_libraries, expect, read_libc,
)
from tools.release_files import ORIGIN, SUMS, git, write_release

RECORD = TOP / "out" / "gate"
# The test that compares the last release with the programs. A release is renewed because it fails.
RENEWED = "release"
# Documents and the last release may have changed since the gate passed.
UNTRIED = (":(exclude)*.md", ":(exclude)docs", ":(exclude)release")


def kit_line() -> str:
    """Returns the line of `rt version`."""
    return (run(["rt", "version"]).out.splitlines() or ["unknown"])[0]


def require_kit() -> Kit:
    """Returns the toolchain. Raises ReleaseError if it is missing."""
    kit = find_kit()
    if kit is None:
        raise ReleaseError("the toolchain's command rt was not found: put its folder on PATH")
    return kit


def changes() -> str:
    """Returns the files that differ from the commit, but for those of the last release."""
    return git("status", "--porcelain", "--", ".", ":(exclude)release").strip()


# ---- the note on the gate


def note_gate(failed: typing.Sequence[str]) -> None:
    """Writes of which commit, kit and libraries the gate was, and what failed."""
    RECORD.parent.mkdir(exist_ok=True)
    RECORD.unlink(missing_ok=True)
    commit = git("rev-parse", "HEAD").strip() + (" with changes" if changes() else "")
    lines = [
        f"commit {commit}",
        f"kit {kit_line()}",
        f"libraries {digest_libraries(require_kit().uses)}",
        f"failed {' '.join(failed) or 'none'}",
    ]
    RECORD.write_text("".join(f"{line}\n" for line in lines))


def check_gate(commit: str, kit: Kit) -> None:
    """Raises ReleaseError unless the gate passed on this commit, kit and these libraries.

    A failure of the test of the last release is no obstacle to the next one.
    """
    if not RECORD.exists():
        raise ReleaseError(f"there is no {RECORD.relative_to(TOP)}: run bash .ci/run first")
    note = dict(line.split(" ", 1) for line in RECORD.read_text().splitlines())
    failed = [name for name in note["failed"].split() if name not in ("none", RENEWED)]
    if failed:
        named = ", ".join(failed)
        raise ReleaseError(f"the gate failed in {named}: mend that, and run bash .ci/run again")
    tried = note["commit"]
    since = run(["git", "-C", TOP, "diff", "--quiet", tried, commit, "--", ".", *UNTRIED])
    if since.status != 0:
        raise ReleaseError(f"the gate passed on {tried}, and the code has changed since: run"
                           " bash .ci/run on this commit")
    if note["kit"] != kit_line():
        raise ReleaseError(f"the gate passed with {note['kit']}, and rt is {kit_line()}")
    if note["libraries"] != digest_libraries(kit.uses):
        raise ReleaseError("the libraries in crates/*/out are not those of the gate: run"
                           " bash .ci/run again")


# ---- making a release


def read_stamp(kit: Kit, commit: str) -> Stamp:
    """Returns what a release of this checkout is built from."""
    text = (TOP / "python" / "pyproject.toml").read_text()
    versions = re.findall(r'^version = "([\w.]+)"$', text, re.M)
    libc, linker = read_libc()
    return Stamp(versions[0], commit, kit_line(), digest_crates(kit.uses), libc, linker)


def compare_outputs(program: pathlib.Path) -> None:
    """Raises ReleaseError unless a program gives each case of `case_output` its output."""
    end = run([sys.executable, "-m", "tests.golden.case_output", program])
    expect(end, f"{program.parent.name}/{program.name} fails in tests/golden/case_output.py")


def replace_files(out: pathlib.Path, made: pathlib.Path) -> None:
    """Puts the files of a new release in place of the last one.

    Raises ReleaseError if the folder has files that are of no release.
    """
    out.mkdir(parents=True, exist_ok=True)
    there = sorted(out.iterdir())
    if there and not ((out / SUMS).exists() and (out / ORIGIN).exists()):
        raise ReleaseError(f"the folder {out} has files of no release: give an empty folder")
    for path in there:
        path.unlink()
    for path in sorted(made.iterdir()):
        shutil.copyfile(path, out / path.name)


def sign(out: pathlib.Path, key: str) -> None:
    """Signs the checksums. Raises ReleaseError if minisign fails or is missing."""
    if not shutil.which("minisign"):
        raise ReleaseError("minisign is missing, which signs: apt-get install minisign")
    name = f"{SUMS} of district-audit"
    end = run(["minisign", "-S", "-s", key, "-t", name, "-m", out / SUMS])
    expect(end, "the checksums cannot be signed")


def make(out: pathlib.Path, key: typing.Optional[str]) -> None:
    """Makes a release of the commit of this checkout."""
    kit = require_kit()
    changed = changes()
    if changed:
        raise ReleaseError(f"the checkout has changes: commit them first: {changed[:300]}")
    commit = git("rev-parse", "HEAD").strip()
    check_gate(commit, kit)
    with tempfile.TemporaryDirectory() as name:
        room, made = pathlib.Path(name), pathlib.Path(name) / "made"
        made.mkdir()
        stamp = read_stamp(kit, commit)
        print(f"release: building the programs of {stamp.version} at {commit}", flush=True)
        build_programs(kit, stamp, room)
        print("release: comparing their outputs with those of the gate's programs", flush=True)
        for place in ("bin", "second"):
            compare_outputs(room / place / "district-audit")
        write_release(made, room, stamp, kit.uses)
        replace_files(out, made)
    if key:
        sign(out, key)
    for path in sorted(out.iterdir()):
        print(f"{path.stat().st_size:>9} {path.name}")


def main() -> int:
    parser = argparse.ArgumentParser(
        prog="python3 -m tools.release", description=__doc__,
        formatter_class=argparse.RawDescriptionHelpFormatter,
    )
    kinds = parser.add_subparsers(dest="kind", required=True)
    making = kinds.add_parser("make")
    making.add_argument("out", type=pathlib.Path)
    making.add_argument("--sign", metavar="KEY", help="a secret key of minisign")
    kinds.add_parser("gate").add_argument("failed", nargs="*")
    words = parser.parse_args()
    os.umask(0o022)
    try:
        if words.kind == "gate":
            note_gate(words.failed)
        else:
            make(words.out.resolve(), words.sign)
    except ReleaseError as why:
        print(f"release: {why}", file=sys.stderr)
        return 1
    return 0


if __name__ == "__main__":
    sys.exit(main())
