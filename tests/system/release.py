"""The release in the folder `release` is whole, and its programs are those of this checkout.

The programs are built anew, with the release's commit in their answer to --version, over the
libraries that `rt ci` left here, and their bytes are compared, if kit and C library are those of
the release. Otherwise a line says which differ. A hundred cases of `case_output` are compared in
any case.

A release is stale if a changed crate changes a program's bytes. If crates differ, and the programs
cannot be built here to compare them, the check `crates` counts as missing: it fails where the
variable CI is set. Without a release all is skipped, but once one was committed its absence fails.
"""
# RUN:
import functools
import pathlib
import shutil
import sys
import tempfile
import typing

from tests.checks import Checks, run
from tests.golden.case_output import make_call
from tests.golden.named_cases import audited_parts
from tests.golden.plain_cases import calls_of
from tests.kit import Kit, find_kit, has_libraries, read_uses
from tests.places import TEST_DATA, TOP
from tools.release import kit_line
from tools.release_build import (
    COMPILERS, CRATES, ReleaseError, Stamp, build_programs, crates_of, digest_crates, read_libc,
)
from tools.release_files import SUMS
from tools.release_reading import Release, check_whole, find_program

FOLDER = TOP / "release"
RENEW = "a release that is made anew: scripts/release.sh release"
MANY_CASES = 100
# Builds the programs of a stamp in a folder.
Builder = typing.Callable[[Stamp, pathlib.Path], None]


def was_committed() -> bool:
    """Returns whether a release was ever committed, as far as git knows."""
    name = f"{FOLDER.name}/{SUMS}"
    if not shutil.which("git"):
        return False
    return bool(run(["git", "-C", TOP, "log", "-1", "--format=%h", "--", name]).out.strip())


def differing(stamp: Stamp, kit: typing.Optional[Kit]) -> list[str]:
    """Returns which of crates, kit and libc differ from those of a release."""
    uses = kit.uses if kit else read_uses((TOP / "crates.txt").read_text())
    try:
        libc = read_libc()
    except ReleaseError:
        libc = ("unknown", "unknown")
    pairs = {
        "crates": digest_crates(uses) == stamp.crates,
        "kit": kit is not None and kit_line() == stamp.kit,
        "libc": libc == (stamp.libc, stamp.linker),
    }
    return [name for name, is_same in pairs.items() if not is_same]


def crates_below(kit: Kit) -> list[str]:
    """Returns the crates below the programs, of which `rt ci` leaves libraries."""
    return [crate for crate in crates_of(kit.uses) if crate not in CRATES.values()]


def compare_bytes(checks: Checks, release: Release, build: Builder) -> None:
    """Builds the programs anew and compares them with those of the release."""
    with tempfile.TemporaryDirectory() as name:
        room = pathlib.Path(name)
        try:
            build(release.stamp, room)
        except ReleaseError as why:
            checks.is_true("builds_anew", False, "programs of this checkout", why)
            return
        for place in COMPILERS:
            for program in CRATES:
                made = (room / place / program).read_bytes()
                is_same = made == find_program(release, place, program)
                checks.is_true(
                    f"same_bytes/{place}/{program}", is_same, RENEW,
                    "the crates of this checkout make other bytes",
                )


def compare_with_checkout(
    checks: Checks, release: Release, differ: list[str], build: typing.Optional[Builder]
) -> None:
    """Compares the programs with those of this checkout, as far as that can be done here."""
    if build and not {"kit", "libc"} & set(differ):
        compare_bytes(checks, release, build)
        return
    if not build:
        checks.skips("same_bytes", f"missing: rt; {', '.join(differ)} differ from the release's")
        return
    print(f"release: other {', '.join(differ)} than those of the release: bytes are not compared")
    if "crates" in differ:
        checks.count_missing("crates", RENEW)


def compare_cases(checks: Checks, release: Release) -> None:
    """Compares the ends of a hundred cases with what they must be."""
    calls = calls_of(TEST_DATA)
    step = max(1, len(calls) // MANY_CASES)
    expected = {case.name: case for case in audited_parts()}
    with tempfile.TemporaryDirectory() as name:
        for place in COMPILERS:
            program = pathlib.Path(name) / place
            program.write_bytes(find_program(release, place, "district-audit"))
            program.chmod(0o755)
            for call in calls[::step][:MANY_CASES]:
                came, wanted = make_call(program, call).end, expected[call.name]
                checks.is_same_text(f"cases/{place}/{call.name}", came.text, wanted.text)


def check_commit(checks: Checks, commit: str) -> None:
    """Checks that the release is of a commit below this one, where git knows the commit."""
    if not shutil.which("git"):
        return
    known = run(["git", "-C", TOP, "cat-file", "-e", f"{commit}^{{commit}}"])
    if known.status == 0:
        end = run(["git", "-C", TOP, "merge-base", "--is-ancestor", commit, "HEAD"])
        checks.is_true("commit", end.status == 0, "a commit below HEAD", commit)


def main() -> int:
    checks = Checks("release")
    if not FOLDER.exists():
        if was_committed():
            checks.is_true("there", False, RENEW, f"there is no folder {FOLDER.name}")
        else:
            checks.skips("there", "no release was made yet; scripts/release.sh release makes one")
        return checks.finish()
    release = check_whole(checks, FOLDER)
    if release is None:
        return checks.finish()
    check_commit(checks, release.stamp.commit)
    kit = find_kit()
    build = functools.partial(build_programs, kit) if kit else None
    differ = differing(release.stamp, kit)
    can_build = kit is not None and not {"kit", "libc"} & set(differ)
    if not can_build or kit is None or has_libraries(checks, crates_below(kit)):
        compare_with_checkout(checks, release, differ, build)
    compare_cases(checks, release)
    return checks.finish()


if __name__ == "__main__":
    sys.exit(main())
