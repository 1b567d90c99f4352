"""Reads a release, and checks that its files belong together.

The checks are named in the test `release`; `tests/system/release_faults.py` plants the faults that
they must find.
"""
from __future__ import annotations

import base64
import csv
import hashlib
import io
import pathlib
import re
import tarfile
import tempfile
import typing
import zipfile

from tests.checks import Checks, run
from tests.kit import read_uses
from tools.release_build import COMPILERS, CRATES, Elf, Stamp, crates_of, digest_sources, read_elf
from tools.release_files import ORIGIN, SUMS

X86_64 = 62
Files = dict[str, bytes]


class Release(typing.NamedTuple):
    """The contents of a release."""

    folder: pathlib.Path
    stamp: Stamp
    programs: Files
    """The files of the archive of programs, without the folder that has them all."""
    sources: Files
    """The files of the archive of sources, in the same form."""
    wheel: Files


def read_tar(path: pathlib.Path) -> Files:
    """Returns the files of an archive by their names below its folder; a link is its target."""
    with tarfile.open(path) as archive:
        found = {}
        for member in archive.getmembers():
            name = member.name.partition("/")[2]
            file = archive.extractfile(member) if member.isfile() or member.issym() else None
            if file is not None:
                found[name] = file.read()
        return found


def read_stamp(folder: pathlib.Path) -> Stamp:
    """Returns what a release says that it was built from. Raises ValueError or OSError."""
    lines = (folder / ORIGIN).read_text().splitlines()
    said = dict(line.split(" ", 1) for line in lines)
    if list(said) != list(Stamp._fields):
        raise ValueError(f"the lines of {ORIGIN} are {', '.join(said)}")
    return Stamp(**said)


def read_release(folder: pathlib.Path) -> Release:
    """Returns the contents of a release. Raises ValueError, OSError or an error of an archive."""
    stamp = read_stamp(folder)
    wheels = sorted(folder.glob(f"district_audit-{stamp.version}-py3-none-*.whl"))
    if len(wheels) != 1:
        raise ValueError(f"there are {len(wheels)} wheels of {stamp.version}")
    with zipfile.ZipFile(wheels[0]) as archive:
        wheel = {name: archive.read(name) for name in archive.namelist()}
    top = f"district-audit-{stamp.version}"
    programs = read_tar(folder / f"{top}-linux-x86_64.tar.gz")
    return Release(folder, stamp, programs, read_tar(folder / f"{top}-source.tar.gz"), wheel)


# ---- checks


def check_sums(checks: Checks, folder: pathlib.Path) -> bool:
    """Checks that each file has its SHA-256, and that there is no other file."""
    sums = folder / SUMS
    lines = sums.read_text().splitlines() if sums.exists() else []
    listed = {name: digest for digest, _, name in (line.partition("  ") for line in lines)}
    there = {
        path.name: hashlib.sha256(path.read_bytes()).hexdigest()
        for path in folder.iterdir()
        if path.name not in (SUMS, f"{SUMS}.minisig")
    }
    differ = sorted(name for name in {*listed, *there} if listed.get(name) != there.get(name))
    return checks.is_equal("sums", differ, [])


def check_record(checks: Checks, wheel: Files) -> None:
    """Checks that the wheel's record has each file with its SHA-256."""
    names = [name for name in wheel if name.endswith(".dist-info/RECORD")]
    rows = list(csv.reader(io.StringIO(wheel[names[0]].decode()))) if names else []
    listed = {row[0]: row[1] for row in rows if row[0] not in names}
    made = {
        name: "sha256=" + base64.urlsafe_b64encode(hashlib.sha256(data).digest()).decode()[:-1]
        for name, data in wheel.items()
        if name not in names
    }
    differ = sorted(name for name in {*listed, *made} if listed.get(name) != made.get(name))
    checks.is_equal("wheel_record", differ, [])
    licenses = [name for name in wheel if name.endswith("/licenses/LICENSE")]
    checks.is_equal("wheel_license", len(licenses), 1)


def program_in_wheel(release: Release, name: str) -> typing.Optional[bytes]:
    """Returns a file that the wheel leaves beside Python, or None."""
    return release.wheel.get(f"district_audit-{release.stamp.version}.data/scripts/{name}")


def find_program(release: Release, place: str, name: str) -> bytes:
    """Returns a program of the archive, also under its second name; nothing if it is missing."""
    path = f"{place}/{name}"
    return release.programs.get(path, b"")


def check_program(checks: Checks, release: Release, place: str, name: str) -> None:
    """Checks one program: its form, its origin, and its answer to --version."""
    program, stamp, front = find_program(release, place, name), release.stamp, f"{place}/{name}"
    elf = read_elf(program)
    checks.is_equal(f"static/{front}", elf, Elf(X86_64, is_static=True, has_symbols=False))
    text = release.programs.get(f"{front}.origin", b"").decode("utf-8", "replace")
    origin = dict(line.partition(" ")[::2] for line in text.splitlines())
    expected = {
        "sha256": hashlib.sha256(program).hexdigest(), "commit": stamp.commit, "kit": stamp.kit,
        "proved": "yes", "compiler": COMPILERS[place], "libc": stamp.libc, "linker": stamp.linker,
        "crates": stamp.crates,
    }
    checks.is_equal(f"origin/{front}", origin, expected)
    if elf is not None:
        with tempfile.TemporaryDirectory() as room:
            file = pathlib.Path(room) / name
            file.write_bytes(program)
            file.chmod(0o755)
            said = run([file, "--version"]).out
        wanted = f"{name} {stamp.version}\ncommit {stamp.commit}\n{stamp.kit}\n"
        checks.is_same_text(f"version/{front}", said, wanted)


def check_wheel(checks: Checks, release: Release) -> None:
    """Checks that the wheel has the package of the sources, and the programs of the archive."""
    check_record(checks, release.wheel)
    package = {
        name.partition("/")[2]: data
        for name, data in release.sources.items()
        if re.fullmatch(r"python/district_audit/(\w+\.py|py\.typed)", name)
    }
    differ = sorted(name for name, data in package.items() if release.wheel.get(name) != data)
    checks.is_true("wheel_package", package and not differ, "the package of the sources", differ)
    for name in CRATES:
        for file in (name, f"{name}.origin"):
            is_same = program_in_wheel(release, file) == release.programs.get(f"bin/{file}")
            expected = f"bin/{file} of the archive"
            checks.is_true(f"wheel_program/{file}", is_same, expected, "another")


def check_sources(
    checks: Checks, release: Release, uses: typing.Mapping[str, list[str]]
) -> None:
    """Checks that the archive of sources is of the commit, and has the crates of the programs."""
    commit = release.sources.get("COMMIT", b"").decode().strip()
    checks.is_equal("source_commit", commit, release.stamp.commit)
    digest = digest_sources(release.sources, crates_of(uses))
    checks.is_equal("source_crates", digest, release.stamp.crates)
    inside = sorted(name for name in release.sources if name.startswith("release/"))
    checks.is_equal("source_without_release", inside, [])


def check_whole(checks: Checks, folder: pathlib.Path) -> typing.Optional[Release]:
    """Checks that a release is whole and its files belong together. Returns None if unreadable."""
    check_sums(checks, folder)
    try:
        release = read_release(folder)
    except (OSError, ValueError, KeyError, tarfile.TarError, zipfile.BadZipFile, EOFError) as why:
        checks.is_true("readable", False, "files as scripts/release.sh writes them", why)
        return None
    for place in COMPILERS:
        for name in CRATES:
            check_program(checks, release, place, name)
        builds = find_program(release, "builds", "llvm" if place == "bin" else "rattle")
        program = find_program(release, place, "district-audit")
        checks.is_true(f"builds/{place}", builds == program, f"{place}/district-audit", "another")
    check_wheel(checks, release)
    text = release.sources.get("crates.txt", b"").decode()
    check_sources(checks, release, read_uses(text))
    return release
