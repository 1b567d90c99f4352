"""Paths of files and programs, and a Python with the modules that a test needs."""
import functools
import hashlib
import os
import pathlib
import shutil
import subprocess
import sys
import typing

TOP = pathlib.Path(__file__).resolve().parent.parent
EXAMPLES = TOP / "examples"
DATA = EXAMPLES / "data"
TEST_DATA = TOP / "tests" / "data"
CASES = TOP / "crates" / "case_runner"

# The variables that name the programs, and the crates whose folders have them where the variable
# is not set.
PROGRAMS = {
    "auditor": ("DISTRICT_AUDIT", "audit_program"),
    "folders": ("DISTRICT_AUDIT_FOLDERS", "audit_folders"),
}
# Begins the line before a program is built. `tests/run` shows this line at once.
BUILDS = "building a missing program"


def package_environment() -> dict[str, str]:
    """Returns the environment in which Python finds the package of this checkout."""
    paths = [str(TOP / "python"), os.environ.get("PYTHONPATH", "")]
    return {**os.environ, "PYTHONPATH": os.pathsep.join(path for path in paths if path)}


def package_command(name: str, python: str = sys.executable) -> list[str]:
    """Returns the words that call a command of the package, such as `prepare`."""
    code = f"import sys; from district_audit.commands import {name}; sys.exit({name}())"
    return [python, "-c", code]


@functools.lru_cache(maxsize=None)
def python_with(*modules: str) -> typing.Optional[str]:
    """Returns a Python that has all of these modules, or None."""
    words = [str(TOP / "scripts" / "needs.sh"), "python", *modules]
    end = subprocess.run(words, capture_output=True, text=True, check=False)
    return end.stdout.strip() if end.returncode == 0 else None


def program(name: str) -> pathlib.Path:
    """Returns the path of the auditor, or of the program over its folders (`folders`).

    That is what its variable names, or what `rt ci` and `rt run` leave in the crate's folder.
    If it is missing there, it is taken from the release if there is one of these crates, or else
    proved and built, after a line on standard error that says so. Raises FileNotFoundError if there
    is no program.
    """
    variable, crate = PROGRAMS[name]
    released = None if os.environ.get(variable) else released_program(name)
    if released is not None and not os.access(TOP / "crates" / crate / "out" / crate, os.X_OK):
        return released
    path = pathlib.Path(os.environ.get(variable) or TOP / "crates" / crate / "out" / crate)
    is_missing = not os.environ.get(variable) and not os.access(path, os.X_OK)
    if is_missing and shutil.which("rt"):
        print(f"{BUILDS}: rt run in crates/{crate} proves it, for up to half an hour",
              file=sys.stderr, flush=True)
        subprocess.run(
            ["rt", "run"],
            cwd=TOP / "crates" / crate,
            stdin=subprocess.DEVNULL,
            capture_output=True,
            check=False,
        )
    if not os.access(path, os.X_OK):
        raise FileNotFoundError(f"there is no program {path}; the variable {variable} may name it")
    return path.resolve()


@functools.lru_cache(maxsize=None)
def released_program(name: str) -> typing.Optional[pathlib.Path]:
    """Returns the release's program, unpacked below out/release, or None without a release.

    It is the program of the commit of the release. `tests/run release` says whether that has the
    crates of this checkout.
    """
    found = sorted((TOP / "release").glob("district-audit-*-linux-x86_64.tar.gz"))
    if not found:
        return None
    place = TOP / "out" / "release" / hashlib.sha256(found[-1].read_bytes()).hexdigest()[:16]
    path = place / "bin" / {"auditor": "district-audit", "folders": "audit_slots"}[name]
    if not path.exists():
        place.mkdir(parents=True, exist_ok=True)
        words = ["tar", "xzf", str(found[-1]), "-C", str(place), "--strip-components=1"]
        subprocess.run(words, check=True)
        replace_links(place)
    return path if os.access(path, os.X_OK) else None


def replace_links(folder: pathlib.Path) -> None:
    """Replaces each link below a folder by a copy of its file, since `rt ci` refuses links."""
    links = [path for path in folder.rglob("*") if path.is_symlink()]
    targets = [link.resolve() for link in links]
    for link, target in zip(links, targets):
        link.unlink()
        shutil.copy2(target, link)


def origin_of(path: typing.Union[str, pathlib.Path]) -> dict[str, str]:
    """Returns what the file `.origin` beside a program says of it, by the first word of each line.

    A link is followed. Without such a file, or if it is the file of another program, nothing is
    returned.
    """
    path = pathlib.Path(path).resolve()
    beside = path.with_name(path.name + ".origin")
    if not beside.is_file():
        return {}
    lines = (line.partition(" ") for line in beside.read_text().splitlines())
    origin = {name: text for name, _, text in lines}
    is_its = origin.get("sha256") == hashlib.sha256(path.read_bytes()).hexdigest()
    return origin if is_its else {}


def link_programs(folder: pathlib.Path) -> tuple[pathlib.Path, pathlib.Path, pathlib.Path]:
    """Returns links in a folder to the program over folders, by each of its names.

    It does what the name says under which it is called: `audit_folders`, `audit_slots` and
    `audit_gather`.
    """
    links = tuple(folder / name for name in ("audit_folders", "audit_slots", "audit_gather"))
    for link in links:
        link.symlink_to(program("folders"))
    return links[0], links[1], links[2]
