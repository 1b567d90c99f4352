"""Runs every command of GUIDE in its order, and README's example in Python, as a user types them.

    python3 -m tests.system.guide_commands AUDITOR FOLDERS
    python3 -m tests.system.guide_commands installed

The second takes package and programs from PATH, as the wheel of a release leaves them there, and
tests that no other is used. Numbers of steps, walks and workers are smaller than in the text, and
made graphs stand for those of the reader. What needs a further package that is missing is left out,
after a line with its name. `document_commands` compares the outputs.
"""
# RUN: {auditor} {folders}
# QUICK
from __future__ import annotations

import json
import os
import pathlib
import re
import shlex
import shutil
import sys
import tempfile
import typing

from tests.checks import Checks, run
from tests.places import TOP, released_program
from tests.system.document_commands import BLOCK, OUTPUT

GUIDE, README = TOP / "docs" / "user" / "GUIDE.md", TOP / "README.md"
KINDS = re.compile(r"^```(\w*)\n", re.MULTILINE)
# A block that is shown and not typed: an output, or the start of a file.
SHOWN = re.compile(rf"{OUTPUT.pattern}|two_compilers: |slot \d|id,")
# The commands that need a package which the block does not install, by a word of the command.
PACKAGES = {
    "gerrychain": "gerrychain", "graph_from": "geopandas", "pandas": "pandas",
    "to_frame": "pandas", ".plot(": "matplotlib", "district-audit-picture": "matplotlib",
}
# The most that a number behind a word may be.
MOST = {"steps": 20000, "hub-steps": 1000, "announced": 40000, "ends": 99, "workers": 2}
SIDE = 60


class Block(typing.NamedTuple):
    """A block of code of a document."""

    name: str
    is_python: bool
    text: str


def blocks_of(path: pathlib.Path) -> list[Block]:
    """Returns the blocks of a document that a reader runs."""
    text = path.read_text(encoding="utf-8")
    found = []
    for number, match in enumerate(BLOCK.finditer(text)):
        head = KINDS.match(match[0])
        is_python = head is not None and head[1] == "python"
        if is_python or not SHOWN.match(match[1]):
            found.append(Block(f"{path.stem}_{number}", is_python, match[1]))
    return found


def make_smaller(text: str) -> str:
    """Returns a command with less work."""
    def limit(found: re.Match[str]) -> str:
        return found[1] + str(min(int(found[3]), MOST[found[2]]))

    text = re.sub(rf"(--({'|'.join(MOST)}) )(\d+)", limit, text)
    # Python has these words with underscores.
    names = "|".join(MOST).replace("-", "_")
    text = re.sub(
        rf"\b(({names})=)([\d_]+)",
        lambda found: f"{found[1]}{min(int(found[3]), MOST[found[2].replace('_', '-')])}", text,
    )
    text = text.replace("choose_weight(prepared)", "choose_weight(prepared, neutral=3, steps=4096)")
    # Short walks cannot show a less epsilon.
    return re.sub('epsilon="[0-9.]+"', 'epsilon="0.001"', text)


# ---- the reader's files


def rough_graph() -> dict[str, object]:
    """Returns a graph with six districts that are equal in population."""
    nodes, adjacency = [], []
    for unit in range(SIDE * SIDE):
        row, column = divmod(unit, SIDE)
        first = unit * 7919 % 7
        district = str(1 + row * 2 // SIDE * 3 + column * 3 // SIDE)
        nodes.append({"id": unit, "TOTPOP": 10, "DEM": first, "REP": 7 - first, "CD": district})
        below = [unit + SIDE] * (row + 1 < SIDE)
        adjacency.append([{"id": one} for one in [unit + 1] * (column + 1 < SIDE) + below])
    return {"directed": False, "multigraph": False, "nodes": nodes, "adjacency": adjacency}


def fill(room: pathlib.Path) -> None:
    """Leaves the files that the commands expect in a room."""
    graph = rough_graph()
    (room / "rough.json").write_text(json.dumps(graph))
    nodes = typing.cast("list[dict[str, object]]", graph["nodes"])
    for name in ("commission.csv", "court.csv"):
        rows = "".join(f"{node['id']},{node['CD']}\n" for node in nodes)
        (room / name).write_text("id,district\n" + rows)
    for name in ("examples", "scripts", "release"):
        if (TOP / name).is_dir():
            shutil.copytree(TOP / name, room / name)
    (room / "audit").mkdir()
    (room / "audit" / "key").write_text("5" * 64)


# A script that draws the precincts of GUIDE's first page: squares in six districts, of nearly equal
# population.
PRECINCTS = """
import geopandas
from shapely.geometry import box

units = [(x, y) for y in range(24) for x in range(24)]
geopandas.GeoDataFrame(
    {
        "GEOID20": [f"{x:02}{y:02}" for x, y in units],
        "TOTPOP": [990 + (x * 7 + y * 13) % 21 for x, y in units],
        "DEM": [100 + (x * 31 + y * 17) % 60 for x, y in units],
        "REP": [120 + (x * 11 + y * 5) % 30 for x, y in units],
        "CD": [str(1 + x // 8 + 3 * (y // 12)) for x, y in units],
    },
    geometry=[box(1000 * x, 1000 * y, 1000 * x + 1000, 1000 * y + 1000) for x, y in units],
    crs="EPSG:32617",
).to_file("precincts.shp")
"""


def make_builds(room: pathlib.Path, auditor: str) -> None:
    """Leaves the builds of two compilers: those of a release, or else the auditor for both."""
    found = released_program("auditor")
    places = ("bin", "second")
    builds = [found.parent.parent / place / found.name for place in places] if found else []
    (room / "builds").mkdir()
    for name, build in zip(("llvm", "rattle"), builds or [pathlib.Path(auditor)] * 2):
        shutil.copy2(build, room / "builds" / name)


def make_programs(room: pathlib.Path, auditor: str, folders: str) -> dict[str, str]:
    """Makes the programs of the checkout by their names. Returns the environment with them."""
    place = room / "bin"
    place.mkdir()
    names = {"district-audit": auditor, "audit_slots": folders, "audit_gather": folders}
    for name, program in names.items():
        (place / name).symlink_to(os.path.abspath(program))
    project = (TOP / "python" / "pyproject.toml").read_text()
    for name, module, call in re.findall(r'^([\w-]+) = "([\w.]+):(\w+)"$', project, re.M):
        code = f"import sys; from {module} import {call}; sys.exit({call}())"
        words = f'exec {shlex.quote(sys.executable)} -c {shlex.quote(code)} "$@"\n'
        (place / name).write_text("#!/bin/sh\n" + words)
        (place / name).chmod(0o755)
    (place / "python3").symlink_to(sys.executable)
    return {"PATH": f"{place}{os.pathsep}{os.environ['PATH']}", "PYTHONPATH": str(TOP / "python")}


# ---- running


def find_missing(command: str, has: typing.Callable[[str], bool]) -> typing.Optional[str]:
    """Returns the package that a command needs and that is not there, or None."""
    packages = [package for word, package in PACKAGES.items() if word in command]
    return next((package for package in packages if not has(package)), None)


def split_block(block: Block) -> list[str]:
    """Returns the commands of a block. A script and a document in a command are whole."""
    if block.text.startswith("#!") or "<<" in block.text:
        return [block.text]
    if block.is_python:
        return re.findall(r"^\S.*\n(?:^(?:[ \t]+\S.*)?\n)*", block.text, re.MULTILINE)
    return re.sub(r" *\\\n *", " ", block.text).splitlines(keepends=True)


class Reader:
    """A reader who types the commands of a document in a room."""

    def __init__(
        self, checks: Checks, room: pathlib.Path, more: dict[str, str], is_installed: bool
    ) -> None:
        self.checks, self.room, self.more, self.is_installed = checks, room, more, is_installed
        self.count = 0

    def has(self, package: str) -> bool:
        """Returns whether the reader's Python has a package."""
        code = f"import importlib.util, sys; sys.exit(not importlib.util.find_spec('{package}'))"
        return run(["python3", "-c", code], folder=self.room, more=self.more).status == 0

    def choose(self, block: Block) -> str:
        """Returns the commands of a block that can be run here. Names what is left out."""
        kept = []
        for number, command in enumerate(split_block(block)):
            missing = find_missing(command, self.has)
            if command.startswith("pip ") and not self.is_installed:
                missing = missing or "an environment for the wheel"
            if missing is None:
                kept.append(command)
                continue
            self.checks.skips(f"{block.name}_{number}", f"missing: {missing}")
            if "units =" in command:
                return ""
        return make_smaller("".join(kept))

    def run_block(self, block: Block, front: str = "") -> None:
        """Runs a block, after further lines, if something of it is left."""
        text = self.choose(block)
        if not text.strip():
            return
        words = ["python3", "-c", front + text]
        if not block.is_python:
            path = self.room / f"{block.name}.sh"
            path.write_text(front + text.replace("/srv/audit", str(self.room / "audit")))
            words = ["bash", "-e", str(path)]
        end = run(words, folder=self.room, more=self.more)
        stops = end.status == 7 and "--budget" in text
        self.checks.has_status(block.name, end, 7 if stops else 0)
        self.count += 1


def check_installed(checks: Checks, reader: Reader) -> None:
    """Checks that package and programs are those beside the Python in PATH."""
    place = pathlib.Path(shutil.which("python3") or "").parent
    for name in ("district-audit", "audit_slots", "audit_gather"):
        checks.is_equal(f"{name}_beside_python", shutil.which(name), str(place / name))
    code = "from district_audit import program as p; print(p.__file__, p.find_program('audit'))"
    end = run(["python3", "-c", code], folder=reader.room)
    checks.is_true("own_package", str(TOP) not in end.out and not end.status, place, end)


def read_guide(reader: Reader) -> None:
    """Runs the commands of GUIDE, and rechecks the report that they made."""
    key, files = f"KEY={'5' * 64}\n", [reader.room / name for name in ("graph.json", "report")]
    whole: dict[pathlib.Path, bytes] = {}
    for block in blocks_of(GUIDE):
        for path, data in whole.items():
            path.write_bytes(data)
        reader.run_block(block, "" if block.is_python else key)
        if not whole and all(path.exists() for path in files):
            # The script of a later block audits in a folder of its own. Others write a report, too.
            whole = {path: path.read_bytes() for path in files}
            shutil.copy(files[0], reader.room / "audit")
    report = reader.room / "audit" / "report"
    reader.checks.is_true("report_of_the_script", report.exists(), "a report", "none")
    words = ["scripts/recheck.py", "graph.json", "report", "--sample", "3", "--seed", "a text"]
    end = run(["python3", *words], folder=reader.room, more=reader.more)
    reader.checks.has_status("recheck", end)


def main() -> int:
    checks = Checks("guide_commands")
    with tempfile.TemporaryDirectory() as name:
        room = pathlib.Path(name).resolve()
        is_installed = sys.argv[1:] == ["installed"]
        more = {} if is_installed else make_programs(room, *sys.argv[1:])
        fill(room)
        make_builds(room, shutil.which("district-audit") or "" if is_installed else sys.argv[1])
        reader = Reader(checks, room, more, is_installed)
        if is_installed:
            check_installed(checks, reader)
        if reader.has("geopandas"):
            end = run(["python3", "-c", PRECINCTS], folder=room, more=reader.more)
            checks.has_status("precincts", end)
        read_guide(reader)
        for block in blocks_of(README):
            if block.is_python:
                reader.run_block(block, "graph = 'examples/data/grid.json'\n")
        checks.is_true("commands", reader.count >= 12, "at least 12 blocks", reader.count)
    return checks.finish()


if __name__ == "__main__":
    sys.exit(main())
