"""The check of a study: its files, program, preparation and words against its manifest."""
from __future__ import annotations

import argparse
import csv
import io
import pathlib
import sys
import typing

from .arguments import TABLE
from .custody import Custody, File, PathLike, Program, find_versions, read_program
from .errors import ProgramMissing, ReportRefused
from .manifest import Entry, Manifest, ManifestRefused
from .program import find_program
from .report import Report
from .study import load_manifest


class Checked(typing.NamedTuple):
    """The comparison of a thing with its entry in a manifest; `agrees` is None if it was not made.
    """

    what: str
    agrees: bool | None
    line: str


def compare(what: str, wanted: File, path: pathlib.Path | None, word: str = "") -> Checked:
    """Compares a file with what a manifest says of it; `path` is None where none is known."""
    if path is None or not path.is_file():
        where = "no file is named" if path is None else f"{path} is not there"
        named = f" (--{word or what} {'FOLDER' if word == 'raw' else 'FILE'})"
        return Checked(what, None, f"{what} {wanted.name}: not checked, {where}{named}")
    found = File.measure(path)
    if found.is_same(wanted):
        return Checked(what, True, f"{what} {path}: agrees, sha256 {wanted.sha256}")
    return Checked(
        what,
        False,
        (
            f"{what} {path}: DIFFERS: the manifest says sha256 {wanted.sha256},"
            f" {wanted.size} bytes; the file has {found.sha256},"
            f" {found.size} bytes"
        ),
    )


# ---- the words and the report


def faults_of_report(entry: Entry, report: Report) -> list[str]:
    """Returns what a report says of itself otherwise than the words and the graph of its entry."""
    words = dict(zip(entry.command[1::2], entry.command[2::2]))

    def number(name: str) -> str:
        default = TABLE[name].default
        return words.get("--" + name.replace("_", "-"), str(default))

    setting = report.setting
    pairs = [
        ("key", report.key, words.get("--key", "").lower()),
        ("questions", ",".join(report.asks), words.get("--ask", "")),
        ("slack", str(report.rules.slack), number("slack")),
        ("number of walks", str(setting.walks), number("walks")),
        ("steps", str(setting.steps), number("steps")),
        ("number of ends", str(setting.ends), number("ends")),
        ("hub steps", str(setting.hub_steps), number("hub_steps")),
        ("stop", str(setting.stop), number("stop")),
    ]
    faults = [
        f"the report has another {what} than the words"
        if what not in ("questions", "steps", "hub steps")
        else f"the report has other {what} than the words"
        for what, here, there in pairs
        if here != there
    ]
    if report.source is not None and report.source.sha256 != entry.graph.sha256:
        faults.append("the report names another source than the manifest's graph")
    return faults


def check_words(manifest: Manifest, entry: Entry, path: pathlib.Path) -> Checked:
    """Compares what the reports in a file say of themselves with the words and the graph."""
    text = path.read_bytes().decode("utf-8", "surrogateescape")
    if manifest.kind == "plan":
        read = Report.parse_plans(text)
    else:
        read = [(entry.names[0], Report.parse(text))]
    faults = faults_of_report(entry, read[0][1])
    if tuple(name for name, _ in read) != entry.names:
        faults.append("the file has other plans than the manifest")
    if faults:
        return Checked("words", False, f"words: DIFFER: {'; '.join(faults)}")
    return Checked(
        "words",
        True,
        (
            "words: the report's key, questions and numbers, and its source where it names one, are"
            " the manifest's"
        ),
    )


# ---- the program and the packages


def check_origin(wanted: Program, path: pathlib.Path | None, is_told: bool) -> Checked:
    """Compares a program's origin, the file beside it, with the manifest, if this tells it."""
    said = f"commit {wanted.commit or 'unknown'}, toolchain {wanted.toolchain or 'unknown'}"
    said += f", {wanted.proof}"
    if path is None or not path.is_file():
        return Checked("origin", None, f"origin: not checked, the manifest says {said}")
    found = read_program(path)
    if not found.file.is_same(wanted.file):
        return Checked("origin", None, f"origin: not checked: {path} is another program")
    if not is_told:
        line = f"origin: not checked: a manifest of format 1 tells no build, so it counts as {said}"
        return Checked("origin", None, line)
    if found == Program(found.file):
        line = f"origin: not checked: no origin of {path} lies beside it; the manifest says {said}"
        return Checked("origin", None, line)
    here = (found.commit, found.toolchain, found.is_proved)
    if here != (wanted.commit, wanted.toolchain, wanted.is_proved):
        return Checked(
            "origin",
            False,
            (
                f"origin: DIFFERS: the manifest says {said}; beside {path} it is commit"
                f" {found.commit or 'unknown'}, toolchain {found.toolchain or 'unknown'},"
                f" {found.proof}"
            ),
        )
    return Checked("origin", True, f"origin: agrees, {said}")


def check_versions(wanted: typing.Mapping[str, str]) -> Checked:
    """Compares the packages that are installed here; others are no disagreement of the study."""
    here = find_versions()
    other = [
        f"{name} {version} (here {here.get(name, 'not installed')})"
        for name, version in sorted(wanted.items())
        if here.get(name) != version
    ]
    if other:
        return Checked("versions", None, f"versions: others here: {'; '.join(other)}")
    return Checked("versions", True, "versions: the same packages are installed here")


# ---- the preparation


def check_preparation(
    manifest: Manifest, place: pathlib.Path, raw: pathlib.Path | None
) -> list[Checked]:
    """Compares the raw files and the table of changes with the preparation."""
    custody = manifest.preparation
    if custody is None:
        return []
    found = []
    for file in custody.files:
        path = (place.parent if raw is None else raw) / file.name
        found.append(compare("raw file", file, path, "raw"))
    if manifest.changes is None:
        if custody.edits:
            line = "changes: DIFFER: the preparation has changes, and the manifest no table of them"
            found.append(Checked("changes", False, line))
        return found
    path = place.with_name(manifest.changes.name)
    one = compare("changes", manifest.changes, path)
    if one.agrees:
        faults = faults_of_changes(custody, path.read_bytes().decode("utf-8", "surrogatepass"))
        if faults:
            one = Checked("changes", False, f"changes {path}: DIFFERS: {'; '.join(faults)}")
    return [*found, one]


def faults_of_changes(custody: Custody, text: str) -> list[str]:
    """Returns what a table of changes has otherwise than the kinds in the manifest."""
    rows = list(csv.reader(io.StringIO(text)))
    by_kind: dict[str, list[str]] = {}
    for row in rows[1:]:
        if len(row) != 2:
            return ["a row has not two cells"]
        units = by_kind.setdefault(row[0], [])
        units += [row[1]] if row[1] else []
    if rows[:1] != [["kind", "unit"]] or set(by_kind) != {edit.kind for edit in custody.edits}:
        return ["the kinds of changes are others than in the manifest"]
    return [
        f"{edit.kind!r} has other units than in the manifest"
        for edit in custody.edits
        if len(by_kind[edit.kind]) != edit.count
        or by_kind[edit.kind][:len(edit.units)] != [str(unit) for unit in edit.units]
    ]


# ---- all of it


def verify(
    manifest: PathLike,
    graph: PathLike | None = None,
    report: PathLike | None = None,
    program: PathLike | None = None,
    raw: PathLike | None = None,
) -> list[Checked]:
    """Compares a study with its manifest: reports, graphs, program and its build, words, raw files,
    changes, and the versions of packages.

    A file that is not named is looked for beside the manifest, by its name; for the program there
    is no such place. `graph` is that of all reports, `report` that of the only one, and `raw` the
    folder of the raw files. Raises OSError, and ManifestRefused or ReportRefused for what is no
    manifest or no report.
    """
    place = pathlib.Path(manifest)
    made = load_manifest(place)
    if report is not None and len(made.reports) > 1:
        raise ManifestRefused(
            "the manifest has several reports, which are looked for beside it: leave report out"
        )
    found: list[Checked] = []
    for entry in made.reports:
        path = place.with_name(entry.report.name) if report is None else pathlib.Path(report)
        found.append(compare("report", entry.report, path))
        if found[-1].agrees:
            found.append(check_words(made, entry, path))
    for file in dict.fromkeys(entry.graph for entry in made.reports):
        path = place.with_name(file.name) if graph is None else pathlib.Path(graph)
        found.append(compare("graph", file, path))
    tool = None if program is None else pathlib.Path(program)
    found.append(compare("program", made.program.file, tool))
    # Only a manifest of format 1 has no version of Python or R.
    found.append(check_origin(made.program, tool, bool({"python", "R"} & made.versions.keys())))
    found += check_preparation(made, place, None if raw is None else pathlib.Path(raw))
    return [*found, check_versions(made.versions)]


def status_of(checked: typing.Sequence[Checked]) -> int:
    """Returns 0 if nothing differs and all reports and graphs were checked, else 1."""
    needed = [one for one in checked if one.what in ("report", "graph")]
    is_whole = bool(needed) and all(one.agrees for one in needed)
    return 0 if is_whole and all(one.agrees is not False for one in checked) else 1


def find_installed() -> str | None:
    """Returns the path of the installed program, if there is one."""
    try:
        return find_program("audit")
    except ProgramMissing:
        return None


def verify_command(words: typing.Sequence[str]) -> int:
    """Runs the command `python -m district_audit verify`; returns its exit status."""
    parser = argparse.ArgumentParser(
        prog="python -m district_audit verify",
        description=(
            "Compares a study with its manifest. Status 0: the reports and graphs agree, and"
            " nothing differs; 1: something differs or is missing; 2: no manifest or no report."
        ),
    )
    parser.add_argument("manifest", help="the manifest, as REPORT.manifest.json")
    parser.add_argument(
        "--graph", help="the graph; by default the file of its name beside the manifest"
    )
    parser.add_argument("--report", help="the report; by default the file of its name there")
    parser.add_argument("--program", help="the program; by default the one that is installed")
    parser.add_argument("--raw", help="the folder of the raw files; by default the manifest's")
    named = parser.parse_args(words)
    try:
        program = named.program or find_installed()
        checked = verify(named.manifest, named.graph, named.report, program, named.raw)
    except (ManifestRefused, ReportRefused, OSError, UnicodeDecodeError) as why:
        print(f"verify: {why}", file=sys.stderr)
        return 2
    for one in checked:
        print(one.line)
    good, bad, open_ = (
        sum(one.agrees is value for one in checked) for value in (True, False, None)
    )
    print(f"{good} agree, {bad} differ, {open_} not checked")
    return status_of(checked)
