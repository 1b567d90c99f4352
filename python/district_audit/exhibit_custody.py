"""The chain of custody on an exhibit's page: program, raw files, preparation and warnings."""
from __future__ import annotations

import typing

from .custody import Custody, Program
from .report import Report

UNKNOWN = (
    "not known, since the manifest of the report is not there: NOT PROVED for all that this page"
    " knows"
)
NOT_PROVED = (
    "NOT PROVED: the program that made this report is no build that its makers proved, for all that"
    " the file beside it says. What this page says of the proof does not hold of its numbers."
)
# A page names this many units of each kind of change.
SHOWN_ON_PAGE = 10


def program_of(report: Report) -> Program | None:
    """Returns the program that made a report, if it is known."""
    call = None if report.audited is None else report.audited.call
    return None if call is None else call.program


def program_line(report: Report) -> str:
    """Returns the program in one line, for a picture."""
    program = program_of(report)
    return f"program {UNKNOWN}" if program is None else str(program)


def custody_of(report: Report) -> Custody | None:
    """Returns the preparation of a report's graph, if there was one and it is known."""
    call = None if report.audited is None else report.audited.call
    return None if call is None else call.custody


def reversal(report: Report) -> str:
    """Returns which steps are as likely as which."""
    if report.rules.cut_weight is None:
        return "each step is as likely as its reverse"
    return (
        "each step is reversible: the chance of a plan times that of a step from it to another plan"
        " is the chance of the other plan times that of the step back"
    )


def about_proof(report: Report) -> str:
    """Returns what is proved of the program, and whether it is the one that made the report."""
    program = program_of(report)
    said = (
        "every plan visited is"
        " legal, every count, rank, bound and p-value is the one that its definition says, and"
        f" {reversal(report)}"
    )
    if program is None:
        return (
            f"Proved by machine, about the program as its project builds it: {said}. Whether that"
            " program made this report this page cannot know, since the manifest is not there."
        )
    if program.is_proved:
        return (
            "Proved by machine, about the program with the SHA-256 below, according to the file"
            f" that its build left beside it: {said}."
        )
    return f"{NOT_PROVED} Of the program as its project builds it, it is proved that {said}."


def program_rows(report: Report) -> list[tuple[str, str]]:
    """Returns the rows of the table of hashes on the program."""
    program = program_of(report)
    if program is None:
        return [("program", UNKNOWN)]
    return [
        (f"SHA-256 of the program, {program.file.size} bytes", program.file.sha256),
        ("commit of the program", program.commit or "unknown"),
        ("toolchain of the program", program.toolchain or "unknown"),
        ("proof of the program", program.proof),
    ]


def raw_rows(custody: Custody | None) -> list[tuple[str, str]]:
    """Returns the rows of the table of hashes on the raw files."""
    files = () if custody is None else custody.files
    return [(f"SHA-256 of {file.name}, {file.size} bytes", file.sha256) for file in files]


def show(value: object) -> str:
    """Returns an argument without the marks of a programming language."""
    if isinstance(value, dict):
        return ", ".join(f"{name} ({show(of)})" for name, of in value.items())
    if isinstance(value, (list, tuple)):
        is_nested = any(isinstance(one, (list, tuple)) for one in value)
        return (", " if is_nested else " and ").join(map(show, value))
    return str(value)


def preparation_lines(custody: Custody) -> list[str]:
    """Returns the arguments of the preparation and its changes, a line for each."""
    said = [f"{name} = {show(value)}" for name, value in sorted(custody.arguments.items())]
    found = [f"Arguments: {'; '.join(said)}."] if said else []
    for edit in custody.edits:
        units = ", ".join(map(str, edit.units[:SHOWN_ON_PAGE]))
        more = edit.count - SHOWN_ON_PAGE
        end = f" and {more:,} more, which the table of changes names" if more > 0 else ""
        found.append(f"{edit}{f': {units}{end}' if units else ''}.")
    return found or ["Nothing was changed."]


def limits_line(report: Report) -> str:
    """Returns where the limits come from, as the makers of the report said; empty without it."""
    said = None if report.audited is None else report.audited.limits_from
    return "" if said is None else f"The makers say where the limits come from: {said}."


def versions_line(custody: Custody) -> str:
    """Returns the versions of the packages that took part."""
    said = [f"{name} {version}" for name, version in custody.versions.items()]
    return f"Versions: {', '.join(said)}."


def warnings_of(reports: typing.Iterable[Report]) -> list[str]:
    """Returns the texts of the warnings of some reports and of their preparations, each once."""
    found: list[str] = []
    for report in reports:
        custody = custody_of(report)
        found += [] if custody is None else [text for _, text in custody.warnings]
        found += map(str, report.warnings)
    return list(dict.fromkeys(found))
