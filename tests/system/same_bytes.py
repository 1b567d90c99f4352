"""Checks that a clean clone at another path builds the same bytes.

The auditor is built in a clean clone with a longer path, over the libraries that `rt ci` left in
this checkout, and compared with the program that `rt ci` built here. If there is none, or if the
checkout has changes, a second clone is built. One library is proved and built again, too. No path
stands in any of these files. A library's checked proofs, which are no code, are compared only if
both were written alike.
"""
# RUN:
# NEEDS: rt
import os
import pathlib
import shutil
import sys
import tempfile
import typing

from tests.checks import Checks, End, run
from tests.kit import Kit, has_libraries, kit_of, library_of
from tests.places import TOP

PROGRAM, LIBRARY = "audit_program", "chacha_draws"
# The files of a library with its checked proofs: whole as `rt check` writes them, or their
# statements alone as `rt ci` does.
PROOFS = ("format", "toolchain/checked.a", "toolchain/checked.json")


def link_or_copy(source: str, target: str) -> None:
    """Gives a file a second name, or copies it to another file system."""
    try:
        os.link(source, target)
    except OSError:
        shutil.copy2(source, target)


def clean_clone(kit: Kit, path: pathlib.Path) -> End:
    """Clones the checkout and gives the clone the libraries below the program."""
    end = run(["git", "clone", "-q", TOP, path])
    for name in kit.below(PROGRAM):
        library = pathlib.Path("crates", name, "out", "rlib", f"{name}.rlib")
        shutil.copytree(TOP / library, path / library, copy_function=link_or_copy)
    return end


def files_of(folder: pathlib.Path) -> dict[str, pathlib.Path]:
    """Returns the files below a folder by their names in it."""
    return {str(path.relative_to(folder)): path for path in folder.rglob("*") if path.is_file()}


def has_text(path: pathlib.Path, texts: typing.Iterable[str]) -> bool:
    """Returns True if a file has one of these texts."""
    data = path.read_bytes()
    return any(text.encode() in data for text in texts)


def library_again(
    checks: Checks, kit: Kit, clone: pathlib.Path, paths: list[str]
) -> None:
    """Proves and builds a library in a clone, and compares it with the checkout's."""
    name = f"{LIBRARY}.rlib"
    built = clone / "crates" / LIBRARY / "out" / "rlib" / name
    shutil.rmtree(built)
    words = ["build", *kit.words(LIBRARY, "src/lib.rt")]
    words += [*kit.logic(), "--links", f"{LIBRARY}=", "--statements", "-o", str(built)]
    end = kit.rattle(clone / "crates" / LIBRARY, words)
    checks.has_status("library_builds", end)
    here, there = files_of(library_of(LIBRARY)), files_of(built)
    checks.is_equal("library_files", sorted(there), sorted(here))
    is_alike = here["format"].read_bytes() == there["format"].read_bytes()
    compared = [part for part in here if is_alike or part not in PROOFS]
    checks.is_true("library_compared", "toolchain/mir.json" in compared, "the code is compared")
    differ = [part for part in compared if here[part].read_bytes() != there[part].read_bytes()]
    checks.is_equal("library_bytes", differ, [])
    named = [part for part, path in there.items() if has_text(path, paths)]
    checks.is_equal("library_names_no_path", named, [])


def built_program(
    checks: Checks, kit: Kit, clone: pathlib.Path, checked: pathlib.Path
) -> pathlib.Path:
    """Builds and links the auditor in a clone; the first time it is proved, too."""
    folder = clone / "crates" / PROGRAM
    if not checked.exists():
        checks.has_status("program_is_proved", kit.prove(folder, PROGRAM, checked))
    made = folder / "out" / PROGRAM
    made.parent.mkdir(exist_ok=True)
    built = pathlib.Path(f"{made}.o")
    checks.has_status("program_builds", kit.compile(folder, PROGRAM, checked, "llvm", built))
    words = ["--target", "x86_64-unknown-linux-gnu", "--toolchain", str(kit.folder / "toolchain")]
    words += ["-o", str(made), str(built), *kit.c_libraries()]
    checks.has_status("program_links", run([kit.folder / "bin" / "rattle-link", *words]))
    return made


def own_program() -> typing.Optional[pathlib.Path]:
    """Returns the program that `rt ci` built in this checkout, if that has no changes."""
    own = TOP / "crates" / PROGRAM / "out" / PROGRAM
    changed = run(["git", "-C", TOP, "status", "--porcelain", "--", "crates", "crates.txt"]).out
    return own if own.exists() and not changed else None


def compare_builds(checks: Checks, made: list[pathlib.Path], paths: list[str]) -> None:
    """Compares two builds of the auditor, and looks for paths in the first."""
    if not all(path.exists() for path in made):
        return
    checks.is_true("two_files", not os.path.samefile(*made), "two files")
    one, other = (path.read_bytes() for path in made)
    checks.is_true("same_bytes", one == other, "the same bytes", place_of(one, other))
    checks.is_equal("program_names_no_path", has_text(made[0], paths), False)


def place_of(one: bytes, other: bytes) -> str:
    """Returns where two files differ."""
    if len(one) != len(other):
        return f"{len(one)} and {len(other)} bytes"
    return f"byte {next((at for at, (a, b) in enumerate(zip(one, other)) if a != b), None)}"


def main() -> int:
    checks = Checks("same_bytes")
    checks.is_equal("differing_bytes_are_found", place_of(b"abc", b"abd"), "byte 2")
    kit = kit_of(checks)
    if kit is None:
        return checks.finish()
    below = kit.below(PROGRAM)
    if not has_libraries(checks, below):
        return checks.finish()
    with tempfile.TemporaryDirectory() as name:
        room, own = pathlib.Path(name), own_program()
        clones = [room / "a longer path" / "with folders" / "below"]
        clones += [] if own else [room / "a"]
        paths = [str(TOP), str(room)]
        for clone in clones:
            clone.parent.mkdir(exist_ok=True, parents=True)
            checks.has_status(f"clones_{clone.name}", clean_clone(kit, clone))
        named = [
            crate
            for crate in below
            if any(has_text(file, paths) for file in files_of(library_of(crate)).values())
        ]
        checks.is_equal("libraries_name_no_path", named, [])
        library_again(checks, kit, clones[0], paths)
        made = [built_program(checks, kit, clone, room / "checked") for clone in clones]
        compare_builds(checks, [*made, *([own] if own else [])], paths)
    return checks.finish()


if __name__ == "__main__":
    sys.exit(main())
