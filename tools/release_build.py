"""Builds the programs of a release: static files without symbols, from proved crates.

The crates of the programs are proved once more, with commit and kit in their answer to --version,
over the libraries that the gate left in this checkout. Two compilers then make an object each, and
gcc links it with the kit's C parts and the static C library.
"""
from __future__ import annotations

import concurrent.futures
import hashlib
import pathlib
import re
import shutil
import struct
import typing

from tests.checks import End, run
from tests.kit import Kit, library_of
from tests.places import TOP

# The crate of each program. The program over folders goes by two names.
CRATES = {
    "district-audit": "audit_program",
    "audit_slots": "audit_folders",
    "audit_gather": "audit_folders",
}
# The compilers of proved code, by the folder of their programs.
COMPILERS = {"bin": "llvm", "second": "rattle"}
SOURCES = ("src", "specs", "proofs")
# The files that gcc links statically beside an object: each decides bytes of the program.
STATIC_PARTS = (
    "crt1.o", "crti.o", "crtbeginT.o", "crtend.o", "crtn.o", "libc.a", "libgcc.a", "libgcc_eh.a",
)


class ReleaseError(Exception):
    """A reason not to make a release: what is wrong, where, and what to do."""


class Stamp(typing.NamedTuple):
    """The answer of the programs of a release to --version, and all that their bytes depend on."""

    version: str
    commit: str
    kit: str
    crates: str
    """The digest of the sources of the programs' crates, and of those below them."""
    libc: str
    """The C library's version, and the digest of all that is linked statically."""
    linker: str

    def lines(self) -> list[str]:
        """Returns a line for each field: its name and its value."""
        return [f"{name} {value}" for name, value in self._asdict().items()]


class Elf(typing.NamedTuple):
    """The head of an executable."""

    machine: int
    is_static: bool
    has_symbols: bool


def expect(end: End, what: str) -> None:
    """Raises ReleaseError unless a program ended well."""
    if end.status != 0:
        said = (end.out + end.note).strip()[-600:]
        raise ReleaseError(f"{what}: status {end.status}: {said or 'no word'}")


# ---- identity


def crates_of(kit_uses: typing.Mapping[str, list[str]]) -> list[str]:
    """Returns the repository's crates that are part of a program, sorted."""
    found: set[str] = set()
    todo = [crate for crate in set(CRATES.values()) if crate in kit_uses]
    while todo:
        crate = todo.pop()
        if crate not in found:
            found.add(crate)
            todo += [one for one in kit_uses[crate] if one in kit_uses]
    return sorted(found)


def digest_files(files: typing.Mapping[str, bytes]) -> str:
    """Returns the SHA-256 over names and bytes of files, in order of their names."""
    digest = hashlib.sha256()
    for name, data in sorted(files.items()):
        digest.update(f"{name}\0{hashlib.sha256(data).hexdigest()}\n".encode())
    return digest.hexdigest()


def digest_sources(files: typing.Mapping[str, bytes], crates: typing.Iterable[str]) -> str:
    """Returns the digest of the files of a checkout that these crates are proved and built from."""
    fronts = tuple(f"crates/{crate}/{part}/" for crate in crates for part in SOURCES)
    named = ("crates.txt", "HANDLES")
    return digest_files(
        {name: data for name, data in files.items() if name.startswith(fronts) or name in named}
    )


def digest_crates(uses: typing.Mapping[str, list[str]]) -> str:
    """Returns the digest of all that the programs of this checkout are proved and built from."""
    crates = crates_of(uses)
    folders = [TOP / "crates" / crate / part for crate in crates for part in SOURCES]
    paths = [path for folder in folders for path in folder.rglob("*") if path.is_file()]
    paths += [TOP / "crates.txt", TOP / "HANDLES"]
    files = {str(path.relative_to(TOP)): path.read_bytes() for path in paths if path.exists()}
    return digest_sources(files, crates)


def digest_libraries(uses: typing.Mapping[str, list[str]]) -> str:
    """Returns the digest of the libraries below the programs that the gate left here.

    Raises ReleaseError if one is missing.
    """
    names = [crate for crate in crates_of(uses) if crate not in CRATES.values()]
    missing = [name for name in names if not library_of(name).is_dir()]
    if missing:
        raise ReleaseError(f"there are no libraries of {' '.join(missing)}: run bash .ci/run")
    paths = [path for name in names for path in library_of(name).rglob("*") if path.is_file()]
    return digest_files({str(path.relative_to(TOP)): path.read_bytes() for path in paths})


def read_libc() -> tuple[str, str]:
    """Returns the C library with the digest of all static parts, and the linker.

    Raises ReleaseError if gcc or a part is missing.
    """
    if not shutil.which("gcc"):
        raise ReleaseError("gcc is missing, which links the programs: apt-get install gcc")
    digest = hashlib.sha256()
    for name in STATIC_PARTS:
        path = pathlib.Path(run(["gcc", f"-print-file-name={name}"]).out.strip())
        if not path.is_absolute():
            raise ReleaseError(f"gcc finds no {name}: apt-get install libc6-dev")
        digest.update(path.read_bytes())
    version = run(["dpkg-query", "-W", "-f", "${Version}", "libc6-dev"])
    known = version.out.strip() if version.status == 0 else "of unknown version"
    linker = (run(["ld", "--version"]).out.splitlines() or ["unknown"])[0]
    return f"{known} {digest.hexdigest()[:16]}", linker


# ---- building


def copy_sources(room: pathlib.Path, stamp: Stamp) -> None:
    """Writes the crates of the programs to a folder, with commit and kit, beside links to others.
    """
    (room / "crates").mkdir()
    for folder in sorted((TOP / "crates").iterdir()):
        copied = room / "crates" / folder.name
        if folder.name not in CRATES.values():
            copied.symlink_to(folder)
            continue
        shutil.copytree(folder, copied, ignore=shutil.ignore_patterns("out"))
        file = copied / "src" / "this_build.rt"
        text = file.read_text()
        for name, value in (("commit", stamp.commit), ("kit", stamp.kit)):
            text, count = re.subn(f'^( *{name}): "unknown",$', f'\\1: "{value}",', text, flags=re.M)
            if count != 1:
                raise ReleaseError(f"{file.name} of {folder.name} has no line {name}: \"unknown\"")
        file.write_text(text)


def link_static(kit: Kit, built: pathlib.Path, program: pathlib.Path) -> None:
    """Links an object to a static program without symbols."""
    words = ["gcc", "-static", "-s", "-Wl,--build-id=none", "-o", program, built]
    expect(run([*words, *kit.c_libraries()]), f"{program.name} does not link")
    elf = read_elf(program.read_bytes())
    if elf is None or not elf.is_static or elf.has_symbols:
        raise ReleaseError(f"{program.name} is no static file without symbols: gcc made {elf}")


def build_crate(
    kit: Kit, room: pathlib.Path, crate: str, compilers: typing.Iterable[str]
) -> None:
    """Proves a program's crate in the folder `work` of a room, and leaves its programs in the room.

    Raises ReleaseError if the crate is not proved, or a program not built.
    """
    work = room / "work"
    folder, checked = work / "crates" / crate, work / f"{crate}.checked"
    end = kit.prove(folder, crate, checked)
    expect(end, f"{crate} is not proved")
    if not re.search(r"^logic=proved ", end.out + end.note, re.M):
        raise ReleaseError(f"{crate} is not proved: {(end.out + end.note)[-300:]}")
    for place in compilers:
        built = work / f"{crate}.{place}.o"
        compiled = kit.compile(folder, crate, checked, COMPILERS[place], built)
        expect(compiled, f"{COMPILERS[place]} does not compile {crate}")
        (room / place).mkdir(exist_ok=True)
        for name in (name for name, of in CRATES.items() if of == crate):
            link_static(kit, built, room / place / name)


def build_programs(
    kit: Kit, stamp: Stamp, room: pathlib.Path, compilers: typing.Iterable[str] = COMPILERS
) -> None:
    """Leaves the programs in the folders `bin` and `second` of a room. Crates are proved at once.

    Raises ReleaseError if a crate is not proved, or a program not built.
    """
    work = room / "work"
    work.mkdir()
    copy_sources(work, stamp)
    places, crates = list(compilers), set(CRATES.values())
    with concurrent.futures.ThreadPoolExecutor() as pool:
        ends = [pool.submit(build_crate, kit, room, crate, places) for crate in crates]
    for end in ends:
        end.result()
    shutil.rmtree(work)


# ---- what a program is


def read_elf(data: bytes) -> typing.Optional[Elf]:
    """Returns what the head of a 64-bit executable says; None if the bytes are no such file.

    Static is what asks for no loader and has no dynamic section.
    """
    if len(data) < 64 or data[:6] != b"\x7fELF\x02\x01":
        return None
    machine = struct.unpack_from("<H", data, 18)[0]
    parts, sections = struct.unpack_from("<QQ", data, 32)
    part_size, part_count, section_size, section_count = struct.unpack_from("<4H", data, 54)
    kinds = kinds_of(data, parts, part_size, part_count, 0)
    tables = kinds_of(data, sections, section_size, section_count, 4)
    dynamic, loader, symbols = 2, 3, 2
    return Elf(machine, not {dynamic, loader} & set(kinds), symbols in tables)


def kinds_of(data: bytes, start: int, size: int, count: int, place: int) -> list[int]:
    """Returns the number at a place of each row of a table."""
    rows = [start + row * size + place for row in range(count)]
    return [struct.unpack_from("<I", data, row)[0] for row in rows if row + 4 <= len(data)]


def origin_text(program: bytes, stamp: Stamp, compiler: str) -> str:
    """Returns the text of the file `.origin` beside a program of a release."""
    lines = [
        f"sha256 {hashlib.sha256(program).hexdigest()}",
        f"commit {stamp.commit}",
        f"kit {stamp.kit}",
        "proved yes",
        f"compiler {compiler}",
        f"libc {stamp.libc}",
        f"linker {stamp.linker}",
        f"crates {stamp.crates}",
    ]
    return "".join(f"{line}\n" for line in lines)
