"""Studies: all reports of one question as files, with one manifest.

`audit_to_file` makes an audit and writes its study; `NamedReports.to_files` writes that of an
audit that was made. `load_study` and `Report.load` read them again, with all that is needed to
count each number of the question.
"""
from __future__ import annotations

import csv
import dataclasses
import io
import os
import pathlib
import re
import tempfile
import typing

from . import calls
from .arguments import Words, plain_words, refuse, tested_elections
from .custody import Call, Custody, File, PathLike, find_versions, write_whole
from .deciding import find_announced, refuse_other_number
from .elections import ElectionReports, each_election
from .errors import NotProved, TypeRefused
from .graphs import Foreign
from .limits import LimitReports
from .manifest import (
    CHANGES_SUFFIX,
    GRAPH_SUFFIX,
    SUFFIX,
    Entry,
    Manifest,
    ManifestRefused,
)
from .preparing import Preparation, Prepared
from .program import find_program, refuse_unproved_program
from .report import Audited, Batch, Report
from .results import NamedReports, PlanReports
from .warnings import read as read_warning

Pairs = typing.Sequence[tuple[str, Report]]
# The words of the program whose values are columns, by the names of the package.
COLUMN_WORDS = {f"--{name.replace('_', '-')}": name for name in calls.COLUMNS}


# ---- writing


def audit_to_file(
    report: PathLike,
    graph: object,
    *,
    elections: calls.Elections | None = None,
    table: object = None,
    decides: str | None = None,
    folder: PathLike | None = None,
    progress: bool = False,
    program: PathLike | None = None,
    slots: PathLike | None = None,
    **words: object,
) -> Report | NamedReports:
    """Audits a plan as `run` does, or several as `plans` does, and writes the study as files.

    Parameters
    ----------
    report
        The path of the report. The manifest is `REPORT.manifest.json`. Unless `graph` is the
        path of a file that goes to the program as it is, `REPORT.graph.json` has the bytes that the
        program read. `REPORT.changes.csv` has each change of the preparation. With `elections`,
        the report of each is `REPORT.NAME`.
    elections, table
        The elections, as for `run`, or the table of plans, as for `plans`.
    decides
        The number that was announced before the run as the one that counts, as "ends seats:low"
        or, of an election or plan, "GOV18 ends seats:low".
    graph, folder, progress, program, slots, **words
        As for `run` and `plans`.

    Returns
    -------
    Report, ElectionReports or PlanReports

    Raises what `run` raises, ValueError before the walk if there is no number of this name, and
    OSError where a file cannot be written.
    """
    path = pathlib.Path(report)
    probe(path)
    refuse_unproved_program(find_program("audit", program))
    if decides is not None:
        names = names_before(graph, elections, table, words)
        refuse_other_number(decides, names, plain_words("run" if table is None else "plans", words))
    given: dict[str, Foreign] = {**words, "program": program}
    if table is not None:
        if elections is not None:
            ways = each_election(tested_elections(elections, False, "audit_to_file"))
            refuse(
                TypeRefused, "audit_to_file", "table", table,
                "elections are given too, and a study has plans or elections: write a study of the"
                f" plans for each election, with {ways}, and announce one number of all (decides),"
                " since each page counts the numbers of its own study",
            )
        given.update(folder=folder, progress=progress)
        found: Report | NamedReports = calls.plans(graph, table, **given)
    else:
        given.update(folder=folder, progress=progress, slots=slots)
        found = calls.run(graph, elections=elections, **given)
    found.to_files(path, decides)
    return found


def names_before(
    graph: object, elections: calls.Elections | None, table: object, words: Words
) -> list[str] | None:
    """Returns the names of the reports that a call will make; None for those of a table."""
    if table is not None:
        return None
    kept = graph.elections if isinstance(graph, Prepared) and not words.get("first") else None
    named = elections if elections is not None else kept
    return [str(name) for name in named] if isinstance(named, typing.Mapping) and named else [""]


def probe(path: pathlib.Path) -> None:
    """Raises OSError, before anything is audited, if no file can be written in a path's folder."""
    with tempfile.NamedTemporaryFile(dir=path.parent, prefix=f".{path.name}."):
        pass


def refuse_unproved(reports: typing.Iterable[Report]) -> None:
    """Raises NotProved if a report says that its program was built without a proof."""
    if not all(report.proved for report in reports):
        raise NotProved(
            "a report of a build without a proof is not for files: audit with a proved program"
        )


def call_of(report: Report) -> Call:
    """Returns the call that made a report. Raises ValueError if it is not known."""
    call = None if report.audited is None else report.audited.call
    if call is None or call.data is None:
        raise ValueError(
            "the report was read from a text, so that its call is not known: write the study of"
            " what run, plans or audit_to_file answered"
        )
    return call


def write_study(path: PathLike, pairs: Pairs, decides: str | None = None) -> Manifest:
    """Writes the reports of one call, and their manifest; see `audit_to_file` for the files.

    Raises ValueError if the reports were not made by calls of this package, or by several builds of
    the program, or if no number is named as `decides` says; OSError.
    """
    place = pathlib.Path(path)
    refuse_unproved(report for _, report in pairs)
    batch = pairs[0][1].batch if pairs else None
    kind = "report" if batch is None else batch.kind
    if not pairs or len(pairs) != (1 if batch is None else len(batch.names)):
        raise ValueError("a study has all reports of a call: give what run or plans answered")
    if decides is not None:
        find_announced(pairs, decides)
    made = [call_of(report) for _, report in pairs]
    if any(call.program != made[0].program for call in made):
        raise ValueError("the reports were made by several builds of the program: audit again")
    custody = made[0].custody
    if any(call.custody != custody for call in made):
        raise ValueError(
            "the reports were made of several preparations: prepare the graph once, and audit what"
            " prepare answered"
        )
    graphs = write_graphs(place, pairs, made)
    entries = write_reports(place, kind, pairs, made, graphs)
    changes = None if custody is None else write_changes(place, custody)
    warned = [one for _, report in pairs for one in report.warnings]
    audited = pairs[0][1].audited
    limits_from = None if audited is None else audited.limits_from
    manifest = Manifest(
        kind, tuple(entries), made[0].program, custody, changes,
        tuple(dict.fromkeys((one.kind, str(one)) for one in warned)), decides,
        limits_from, find_versions(), os.cpu_count() or 1,
    )
    write_whole(place.with_name(place.name + SUFFIX), str(manifest).encode("utf-8"))
    return manifest


def announce(report: Report, decides: str | None) -> Report:
    """Returns a report that knows the number that the manifest of its study names."""
    audited = report.audited
    if audited is None or audited.call is None:
        return report
    call = dataclasses.replace(audited.call, decides=decides)
    return dataclasses.replace(report, audited=dataclasses.replace(audited, call=call))


def write_graphs(
    place: pathlib.Path, pairs: Pairs, made: typing.Sequence[Call]
) -> dict[str, File]:
    """Returns the file of each graph by its SHA-256; those that are no files are written."""
    found: dict[str, File] = {}
    for (name, _), call in zip(pairs, made):
        data = call.data or b""
        here = File.from_bytes("graph", data)
        if here.sha256 in found:
            continue
        if call.path is not None and pathlib.Path(call.path).is_file():
            file = File.measure(call.path)
            if file.is_same(here):
                found[here.sha256] = file
                continue
        end = f".{safe_name(name)}{GRAPH_SUFFIX}" if found else GRAPH_SUFFIX
        path = place.with_name(place.name + end)
        write_whole(path, data)
        found[here.sha256] = File.from_bytes(path.name, data)
    return found


def write_reports(
    place: pathlib.Path, kind: str, pairs: Pairs, made: typing.Sequence[Call],
    graphs: typing.Mapping[str, File],
) -> list[Entry]:
    """Writes the text of each call of the program, and returns what the manifest says of them."""
    names = [name for name, _ in pairs]
    if kind == "plan":
        parts = [(place.name, tuple(names), pairs[0][1], made[0], text_of_plans(pairs))]
    else:
        ends = [""] if kind == "report" else [f".{one}" for one in unique_names(names)]
        parts = [
            (place.name + end, (name,), report, call, str(report))
            for end, (name, report), call in zip(ends, pairs, made)
        ]
    entries = []
    for file_name, of, report, call, text in parts:
        data = encode(text)
        write_whole(place.with_name(file_name), data)
        audited = typing.cast(Audited, report.audited)
        graph = graphs[File.from_bytes("", call.data or b"").sha256]
        entries.append(
            Entry(
                of, call.words, graph, audited.sha256, File.from_bytes(file_name, data),
                call.started, call.ended,
            )
        )
    return entries


def safe_name(name: str) -> str:
    """Returns a name as the end of a file's name: letters, digits, points and lines alone."""
    return re.sub("[^A-Za-z0-9._-]", "_", name) or "_"


def unique_names(names: typing.Iterable[str]) -> list[str]:
    """Returns an end of a file's name for each name; no two are equal, also without case."""
    taken = {end[1:].lower() for end in (SUFFIX, GRAPH_SUFFIX, CHANGES_SUFFIX)}
    found = []
    for name in names:
        one = safe_name(name)
        while one.lower() in taken or one.lower().endswith(GRAPH_SUFFIX):
            one += "_"
        taken.add(one.lower())
        found.append(one)
    return found


def table_of_changes(custody: Custody) -> bytes:
    """Returns each change of a preparation as a row of CSV: its kind and the unit's id."""
    rows = io.StringIO()
    writer = csv.writer(rows, lineterminator="\n")
    writer.writerow(("kind", "unit"))
    for edit in custody.edits:
        writer.writerows((edit.kind, unit) for unit in edit.units or ("",))
    return rows.getvalue().encode("utf-8", "surrogatepass")


def write_changes(place: pathlib.Path, custody: Custody) -> File | None:
    """Writes the table of all changes of a preparation, if there are any."""
    if not custody.edits:
        return None
    path, data = place.with_name(place.name + CHANGES_SUFFIX), table_of_changes(custody)
    write_whole(path, data)
    return File.from_bytes(path.name, data)


# ---- loading


def load_manifest(path: PathLike) -> Manifest:
    """Reads a manifest's file. Raises OSError and ManifestRefused."""
    try:
        return Manifest.parse(pathlib.Path(path).read_text(encoding="utf-8"))
    except UnicodeDecodeError as error:
        raise ManifestRefused(f"the manifest is not UTF-8: {error}") from None


def load_report(path: PathLike, manifest: PathLike | None = None) -> Report:
    """Returns the report in a file, with what its manifest says; see `Report.load`."""
    place = pathlib.Path(path)
    data = place.read_bytes()
    report = Report.parse(data.decode("utf-8", "surrogateescape"))
    if manifest is not None:
        return add_manifest(report, load_manifest(manifest))
    found = find_manifest(place.parent, data)
    return report if found is None else add_manifest(report, found)


def find_manifest(folder: pathlib.Path, data: bytes) -> Manifest | None:
    """Returns the manifest in a folder that names a report with these bytes, if there is one.

    Raises ManifestRefused if several name it, and do not say the same.
    """
    found, here = [], File.from_bytes("", data)
    for path in sorted(folder.glob("*" + SUFFIX)):
        try:
            manifest = load_manifest(path)
        except (ManifestRefused, OSError):
            continue
        if any(entry.report.is_same(here) for entry in manifest.reports):
            found.append(manifest)
    if len({manifest.names for manifest in found}) > 1:
        raise ManifestRefused(
            f"several manifests in {str(folder)!r} name this report, and other reports beside it:"
            " say which one counts (manifest=..)"
        )
    return found[0] if found else None


def add_manifest(report: Report, manifest: Manifest) -> Report:
    """Returns a report with what a manifest says of its call and of the reports beside it.

    Raises ManifestRefused if the manifest does not name the report.
    """
    here = File.from_bytes("", encode(str(report)))
    for entry in manifest.reports:
        if entry.report.is_same(here):
            return join(report, manifest, entry, entry.names[0])
    raise ManifestRefused("the manifest does not name this report: none of its SHA-256 is equal")


def add_manifest_to_plans(plans: Pairs, manifest: Manifest) -> list[tuple[str, Report]]:
    """Returns all reports of a call of `plans` with what a manifest says of them.

    Raises ManifestRefused if the manifest is that of other reports.
    """
    here = File.from_bytes("", encode(text_of_plans(plans)))
    for entry in manifest.reports:
        if entry.report.is_same(here):
            return [(name, join(report, manifest, entry, name)) for name, report in plans]
    raise ManifestRefused(
        "the manifest does not name these reports of plans: give all of one call, in order"
    )


def encode(text: str) -> bytes:
    """Returns the bytes of a text of the program, which may have been read with surrogates."""
    return text.encode("utf-8", "surrogateescape")


def text_of_plans(pairs: Pairs) -> str:
    """Returns the text that the program wrote of several plans."""
    return "".join(f"plan {name}\n{report}" for name, report in pairs)


def join(report: Report, manifest: Manifest, entry: Entry, name: str) -> Report:
    """Returns the report of an entry with its call and its batch."""
    call = Call(
        entry.command, manifest.program, entry.started, entry.ended, None, None,
        manifest.preparation, manifest.decides,
    )
    columns = {
        COLUMN_WORDS[word]: value
        for word, value in zip(entry.command[1::2], entry.command[2::2])
        if word in COLUMN_WORDS
    }
    given = {} if manifest.preparation is None else manifest.preparation.arguments
    rules = {
        one: given[one]
        for one in calls.PREPARING
        if one != "assignment" and one in given and not isinstance(given[one], dict)
    }
    warned = tuple(read_warning(kind, text) for kind, text in manifest.warnings)
    audited = Audited(
        entry.map_sha256, columns, typing.cast(Preparation, rules), call,
        warned, manifest.limits_from,
    )
    names = manifest.names
    batch = Batch(manifest.kind, names, names.index(name)) if manifest.kind != "report" else None
    return dataclasses.replace(report, audited=audited, batch=batch)


def load_study(manifest: PathLike) -> NamedReports:
    """Returns all reports that a manifest names, which lie beside it, with their names.

    Raises OSError if a report is missing; ManifestRefused if the manifest is none, or if a report
    has other bytes than the manifest says; ReportRefused.
    """
    place = pathlib.Path(manifest)
    made = load_manifest(place)
    pairs: list[tuple[str, Report]] = []
    for entry in made.reports:
        data = place.with_name(entry.report.name).read_bytes()
        if not File.from_bytes("", data).is_same(entry.report):
            raise ManifestRefused(f"{entry.report.name} has other bytes than the manifest says")
        text = data.decode("utf-8", "surrogateescape")
        read = (
            Report.parse_plans(text)
            if made.kind == "plan"
            else [(entry.names[0], Report.parse(text))]
        )
        if tuple(name for name, _ in read) != entry.names:
            raise ManifestRefused(f"{entry.report.name} has other plans than the manifest says")
        pairs += [(name, join(report, made, entry, name)) for name, report in read]
    kinds: dict[str, type[NamedReports]] = {
        "plan": PlanReports, "election": ElectionReports, "limit": LimitReports,
    }
    return kinds.get(made.kind, NamedReports)(pairs)
