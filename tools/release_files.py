"""Writes the files of a release: archives, the wheel, the bill of materials and the checksums.

The same contents give the same bytes: names are sorted, owners are left out, and each time is that
of the commit.
"""
from __future__ import annotations

import gzip
import hashlib
import importlib.util
import io
import json
import pathlib
import tarfile
import typing
import uuid

from tests.checks import run
from tests.places import TOP
from tools.release_build import COMPILERS, CRATES, ReleaseError, Stamp, expect, origin_text

# The files in the archive of programs beside them. A folder means all files of the commit below.
# One that is not there yet is left out.
BESIDE = (
    "CHANGELOG.md", "CITATION.cff", "LICENSE", "README.md", "SECURITY.md", "docs/claims",
    "docs/user", "examples", "python/README.md", "r", "scripts/recheck.py",
    "scripts/two_compilers.sh", "scripts/usage.sh",
)
SUMS = "SHA256SUMS"
# The file that says what a release was built from.
ORIGIN = "release.origin"


class Entry(typing.NamedTuple):
    """A file of an archive, or a link if `target` is not empty."""

    data: bytes = b""
    is_program: bool = False
    target: str = ""


def git(*words: str) -> str:
    """Returns what git prints in this checkout. Raises ReleaseError if it fails."""
    end = run(["git", "-C", TOP, *words])
    expect(end, f"git {words[0]} failed")
    return end.out


def write_tar(path: pathlib.Path, entries: typing.Mapping[str, Entry], time: int) -> None:
    """Writes a compressed archive whose bytes depend on nothing but its contents."""
    buffer = io.BytesIO()
    with tarfile.open(fileobj=buffer, mode="w", format=tarfile.PAX_FORMAT) as archive:
        for name, entry in sorted(entries.items()):
            one = tarfile.TarInfo(name)
            one.mtime, one.mode = time, 0o755 if entry.is_program else 0o644
            if entry.target:
                one.type, one.linkname = tarfile.SYMTYPE, entry.target
            one.size = len(entry.data)
            archive.addfile(one, io.BytesIO(entry.data))
    path.write_bytes(gzip.compress(buffer.getvalue(), 9, mtime=0))


def programs_in(folder: pathlib.Path, stamp: Stamp, compiler: str) -> dict[str, Entry]:
    """Returns the programs of a folder, each with its file `.origin`."""
    entries = {}
    for name in CRATES:
        data = (folder / name).read_bytes()
        entries[name] = Entry(data, is_program=True)
        entries[f"{name}.origin"] = Entry(origin_text(data, stamp, compiler).encode())
    return entries


def link_second_name(entries: dict[str, Entry]) -> None:
    """Makes one of the two names of the program over folders a link, if both are the same bytes."""
    if entries["audit_gather"] == entries["audit_slots"]:
        entries["audit_gather"] = Entry(target="audit_slots")


def write_programs(out: pathlib.Path, room: pathlib.Path, stamp: Stamp, time: int) -> None:
    """Writes the archive of the programs, with documents, examples and the scripts that check."""
    entries = {}
    for place, compiler in COMPILERS.items():
        programs = programs_in(room / place, stamp, compiler)
        link_second_name(programs)
        for name, entry in programs.items():
            entries[f"{place}/{name}"] = entry
    # The names under which scripts/two_compilers.sh finds the two builds.
    for name, place in (("llvm", "bin"), ("rattle", "second")):
        entries[f"builds/{name}"] = Entry(target=f"../{place}/district-audit")
    there = [name for name in BESIDE if (TOP / name).exists()]
    for name in git("ls-files", "-z", "--", *there).split("\0"):
        if name:
            file = TOP / name
            entries[name] = Entry(file.read_bytes(), bool(file.stat().st_mode & 0o100))
    top = f"district-audit-{stamp.version}-linux-x86_64"
    named = {f"{top}/{name}": entry for name, entry in entries.items()}
    write_tar(out / f"{top}.tar.gz", named, time)


def write_source(out: pathlib.Path, stamp: Stamp) -> None:
    """Writes the archive of the commit, without the last release. Its file COMMIT names the commit.
    """
    top = f"district-audit-{stamp.version}"
    tar, note = out / "source.tar", out / "COMMIT"
    note.write_text(f"{stamp.commit}\n")
    git("archive", "--format=tar", f"--prefix={top}/", f"--add-file={note}", "-o", str(tar),
        stamp.commit, ":(exclude)release")
    (out / f"{top}-source.tar.gz").write_bytes(gzip.compress(tar.read_bytes(), 9, mtime=0))
    tar.unlink()
    note.unlink()


def write_wheel(out: pathlib.Path, room: pathlib.Path, stamp: Stamp) -> None:
    """Writes the wheel with the package and the programs that LLVM compiled."""
    place = TOP / "python" / "backend" / "in_tree.py"
    spec = importlib.util.spec_from_file_location("in_tree", place)
    if spec is None or spec.loader is None:
        raise ReleaseError(f"{place} cannot be read")
    backend = importlib.util.module_from_spec(spec)
    spec.loader.exec_module(backend)
    if backend.VERSION != stamp.version:
        raise ReleaseError(f"python/pyproject.toml is of version {backend.VERSION}")
    entries = programs_in(room / "bin", stamp, COMPILERS["bin"])
    backend.build_release_wheel(str(out), {name: one.data for name, one in entries.items()})


def bill_of_materials(
    files: typing.Iterable[pathlib.Path], stamp: Stamp, uses: typing.Mapping[str, list[str]],
    created: str,
) -> dict[str, object]:
    """Returns what the release consists of, as SPDX 2.3 has it."""
    outside = sorted({name for row in uses.values() for name in row if name not in uses} | {"std"})
    parts = [("kit-" + name, f"{name} (Rattle library)", stamp.kit) for name in outside]
    parts += [("libc", "GNU C library, libgcc and start files", stamp.libc)]
    packages = [package("auditor", "district-audit", stamp.version, "MIT")]
    packages += [package(one, name, version, "NOASSERTION") for one, name, version in parts]
    relations = [("SPDXRef-DOCUMENT", "DESCRIBES", "SPDXRef-auditor")]
    relations += [("SPDXRef-auditor", "STATIC_LINK", f"SPDXRef-{one}") for one, _, _ in parts]
    measured = [(path.name, hashlib.sha256(path.read_bytes()).hexdigest()) for path in files]
    return {
        "spdxVersion": "SPDX-2.3",
        "dataLicense": "CC0-1.0",
        "SPDXID": "SPDXRef-DOCUMENT",
        "name": f"district-audit-{stamp.version}",
        "documentNamespace": uuid.uuid5(uuid.NAMESPACE_OID, "\n".join(stamp.lines())).urn,
        "creationInfo": {"created": created, "creators": ["Tool: scripts/release.sh"]},
        "packages": packages,
        "files": [
            {
                "SPDXID": f"SPDXRef-file-{number}",
                "fileName": f"./{name}",
                "checksums": [{"algorithm": "SHA256", "checksumValue": digest}],
            }
            for number, (name, digest) in enumerate(measured)
        ],
        "relationships": [
            {"spdxElementId": one, "relationshipType": kind, "relatedSpdxElement": other}
            for one, kind, other in relations
        ],
    }


def package(name: str, title: str, version: str, license_name: str) -> dict[str, object]:
    """Returns a package of the bill of materials."""
    return {
        "SPDXID": f"SPDXRef-{name}",
        "name": title,
        "versionInfo": version,
        "downloadLocation": "NOASSERTION",
        "filesAnalyzed": False,
        "licenseConcluded": license_name,
        "licenseDeclared": license_name,
        "copyrightText": "NOASSERTION",
    }


def write_release(
    out: pathlib.Path, room: pathlib.Path, stamp: Stamp, uses: typing.Mapping[str, list[str]]
) -> None:
    """Writes all files of a release but a signature to an empty folder."""
    time = int(git("show", "-s", "--format=%ct", stamp.commit))
    created = git("show", "-s", "--format=%cd", "--date=format-local:%Y-%m-%dT%H:%M:%SZ",
                  stamp.commit).strip()
    write_wheel(out, room, stamp)
    write_programs(out, room, stamp, time)
    write_source(out, stamp)
    (out / ORIGIN).write_text("".join(f"{line}\n" for line in stamp.lines()))
    bill = bill_of_materials(sorted(out.iterdir()), stamp, uses, created)
    text = json.dumps(bill, indent=1) + "\n"
    (out / f"district-audit-{stamp.version}.spdx.json").write_text(text)
    write_sums(out)


def write_sums(out: pathlib.Path) -> None:
    """Writes the SHA-256 of each file of a folder, in the form that sha256sum reads."""
    lines = [
        f"{hashlib.sha256(path.read_bytes()).hexdigest()}  {path.name}\n"
        for path in sorted(out.iterdir())
        if path.name != SUMS
    ]
    (out / SUMS).write_text("".join(lines))
