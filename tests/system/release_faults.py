"""The checks of the test `release` find a release that is stale, damaged, or put together wrongly.

A release of stand-ins is made, with the archives and the wheel of this checkout: programs in C that
answer --version. Each fault is planted in a copy, and a named check must find it.
"""
# RUN:
# NEEDS: gcc git
import io
import os
import pathlib
import shutil
import sys
import tempfile
import typing
import unittest.mock
from contextlib import redirect_stdout

from tests.checks import Checks, run
from tests.kit import read_uses
from tests.places import TOP
from tests.system import release as test
from tools.release_build import COMPILERS, CRATES, Stamp, digest_crates
from tools.release_files import (
    SUMS, Entry, programs_in, write_programs, write_release, write_sums, write_wheel,
)
from tools.release_reading import check_whole

PROGRAM = """#include <libgen.h>
#include <stdio.h>
int main(int count, char **words) {
    printf("%s VERSION\\ncommit COMMIT\\nKIT\\n", basename(words[0]));
    return count > 9 ? DIFFERENT : 0;
}
"""
USES = read_uses((TOP / "crates.txt").read_text())


class Made(typing.NamedTuple):
    """A release of stand-ins: its files, and the room with its programs."""

    folder: pathlib.Path
    room: pathlib.Path
    stamp: Stamp


def build(stamp: Stamp, room: pathlib.Path, *words: str, different: int = 0) -> None:
    """Leaves stand-ins in the folders of both compilers."""
    text = PROGRAM.replace("VERSION", stamp.version).replace("COMMIT", stamp.commit)
    for number, place in enumerate(COMPILERS):
        source = room / f"{place}.c"
        number += different
        source.write_text(text.replace("KIT", stamp.kit).replace("DIFFERENT", str(number)))
        (room / place).mkdir()
        for name in CRATES:
            made = ["gcc", *(words or ["-static"]), "-s", "-o", room / place / name, source]
            assert run(made).status == 0, "gcc is there, and links statically"


def make(room: pathlib.Path, stamp: Stamp, *words: str) -> Made:
    """Makes a release of stand-ins."""
    folder = room / "release"
    folder.mkdir(parents=True)
    build(stamp, room, *words)
    write_release(folder, room, stamp, USES)
    return Made(folder, room, stamp)


def failures(check: typing.Callable[[Checks], object]) -> list[str]:
    """Returns the names of the checks that fail."""
    said = io.StringIO()
    with redirect_stdout(said), unittest.mock.patch.dict(os.environ, CI="1"):
        check(Checks("stand_in"))
    fronts = [line for line in said.getvalue().splitlines() if line.startswith("FAILED ")]
    return [line.partition("stand_in/")[2] for line in fronts]


def whole(folder: pathlib.Path) -> list[str]:
    return failures(lambda checks: check_whole(checks, folder))


# ---- faults


def change_a_byte(made: Made) -> None:
    path = next(made.folder.glob("*-linux-x86_64.tar.gz"))
    data = bytearray(path.read_bytes())
    data[len(data) // 2] ^= 1
    path.write_bytes(bytes(data))


def leave_a_file(made: Made) -> None:
    (made.folder / "district-audit-0.0.9.spdx.json").write_text("{}\n")


def swap_a_program_of_the_wheel(made: Made) -> None:
    """Puts the second compiler's program into the wheel, with a fitting record and sums."""
    next(made.folder.glob("*.whl")).unlink()
    room = made.room / "swapped"
    shutil.copytree(made.room / "bin", room / "bin")
    shutil.copyfile(made.room / "second" / "district-audit", room / "bin" / "district-audit")
    write_wheel(made.folder, room, made.stamp)
    write_sums(made.folder)


def take_another_origin(made: Made) -> None:
    """Gives the programs of the archive the origins of a build of another commit."""
    other = made.stamp._replace(commit="5" * 40)

    def origins(folder: pathlib.Path, stamp: Stamp, compiler: str) -> dict[str, Entry]:
        theirs = programs_in(folder, other, compiler)
        ours = programs_in(folder, stamp, compiler)
        return {**ours, "district-audit.origin": theirs["district-audit.origin"]}

    with unittest.mock.patch("tools.release_files.programs_in", origins):
        write_programs(made.folder, made.room, made.stamp, 0)
    write_sums(made.folder)


FAULTS: dict[str, tuple[typing.Callable[[Made], None], str]] = {
    "changed_byte": (change_a_byte, "sums"),
    "left_file": (leave_a_file, "sums"),
    "swapped_program": (swap_a_program_of_the_wheel, "wheel_program/district-audit"),
    "origin_of_another_build": (take_another_origin, "origin/bin/district-audit"),
}


def check_planted(checks: Checks, room: pathlib.Path, stamp: Stamp) -> Made:
    """Plants each fault in a copy of a release. Returns the release."""
    made = make(room / "made", stamp)
    checks.is_equal("whole", whole(made.folder), [])
    for name, (plant, found) in FAULTS.items():
        copy = made._replace(folder=room / name)
        shutil.copytree(made.folder, copy.folder)
        plant(copy)
        came = whole(copy.folder)
        checks.is_true(f"finds/{name}", found in came, found, came)
    dynamic = make(room / "dynamic", stamp, "-O1")
    came = whole(dynamic.folder)
    found = "static/bin/district-audit"
    checks.is_true("finds/dynamic_program", found in came, found, came)
    return made


def check_stale(checks: Checks, made: Made, room: pathlib.Path) -> None:
    """Compares a release with a checkout whose crates make other programs."""
    release = check_whole(Checks("stand_in"), made.folder)
    assert release is not None
    whole = release

    def rebuild(stamp: Stamp, folder: pathlib.Path) -> None:
        build(stamp, folder, different=3)

    def compare(differ: list[str], builder: typing.Optional[test.Builder]) -> list[str]:
        return failures(
            lambda one: test.compare_with_checkout(one, whole, differ, builder)
        )

    checks.is_equal("same_programs", compare([], build), [])
    every = [f"same_bytes/{place}/{name}" for place in COMPILERS for name in CRATES]
    checks.is_equal("finds/stale_release", compare(["crates"], rebuild), every)
    checks.is_equal("neutral_change", compare(["crates"], build), [])
    checks.is_equal("finds/stale_with_another_kit", compare(["crates", "kit"], rebuild), ["crates"])
    checks.is_equal("another_libc", compare(["libc"], rebuild), [])
    checks.is_equal("no_kit", compare(["kit"], None), [])


def check_same_files(checks: Checks, made: Made, room: pathlib.Path) -> None:
    """Makes the release once more in another folder, and compares the bytes of all files."""
    again = make(room / "a longer path" / "below", made.stamp)
    files = [sorted(path.name for path in one.folder.iterdir()) for one in (made, again)]
    checks.is_equal("same_names", files[0], files[1])
    differ = [
        name
        for name in files[0]
        if (made.folder / name).read_bytes() != (again.folder / name).read_bytes()
    ]
    checks.is_equal("same_files", differ, [])
    listed = run(["sha256sum", "--check", "--quiet", SUMS], folder=again.folder)
    checks.has_status("sums_that_sha256sum_reads", listed)


def main() -> int:
    checks = Checks("release_faults")
    commit = run(["git", "-C", TOP, "rev-parse", "HEAD"]).out.strip()
    changed = run(["git", "-C", TOP, "status", "--porcelain", "--", "crates", "python"]).out
    if len(commit) != 40 or changed:
        checks.skips("commit", "a release is of a commit, and here are changes or is no git")
        return checks.finish()
    text = (TOP / "python" / "pyproject.toml").read_text()
    version = text.partition('\nversion = "')[2].partition('"')[0]
    stamp = Stamp(version, commit, "a-kit 7 logic 0123", digest_crates(USES), "libc 1", "ld 2")
    with tempfile.TemporaryDirectory() as name:
        room = pathlib.Path(name)
        made = check_planted(checks, room, stamp)
        check_stale(checks, made, room)
        check_same_files(checks, made, room)
    return checks.finish()


if __name__ == "__main__":
    sys.exit(main())
