"""Manifests: the records of the commands, graph and program that made the reports of one question.

A *study* is all reports of one question: one report, or those of several elections, plans or
limits. Its manifest names all of them, so that none can be left out unnoticed. `study.py` writes
and loads studies, and `verify.py` compares their files with the manifest.
"""
from __future__ import annotations

import dataclasses
import json
import re
import typing

from .custody import SHOWN_UNITS, Custody, Edit, File, Program
from .graphs import Json

FORMAT, FORMAT_OF_ONE = "district-audit manifest 2", "district-audit manifest 1"
SUFFIX, GRAPH_SUFFIX, CHANGES_SUFFIX = ".manifest.json", ".graph.json", ".changes.csv"
KINDS = ("report", "election", "plan", "limit")
HASH = re.compile("[0-9a-f]{64}")
TIME = re.compile(r"\d{4}-\d\d-\d\dT\d\d:\d\d:\d\d\+00:00")


class ManifestRefused(ValueError):
    """A text that is not a manifest, or a manifest that is not that of a report."""


@dataclasses.dataclass(frozen=True)
class Entry:
    """One call of the program: its words, what it read, and the file that it wrote."""

    names: tuple[str, ...]
    """The name of the election or limit, or those of the plans; one empty name for a report by
    itself.
    """
    command: tuple[str, ...]
    """The words of the program; its standard input is the graph."""
    graph: File
    """The bytes that the program read; for several plans their table is among them."""
    map_sha256: str
    """The SHA-256 of the graph alone."""
    report: File
    started: str
    """When the call began, in UTC, as `2026-05-04T12:34:56+00:00`."""
    ended: str


@dataclasses.dataclass(frozen=True)
class Manifest:
    """All reports of one question, and the graph, preparation and program that made them."""

    kind: str
    """report, election, plan or limit: in what the reports differ."""
    reports: tuple[Entry, ...]
    program: Program
    preparation: Custody | None
    """The preparation; None if the graph went to the program as it was."""
    changes: File | None
    """The table of all changes of the preparation; None if there are none."""
    warnings: tuple[tuple[str, str], ...]
    """The kind and the text of each warning of the reports."""
    decides: str | None
    """The number that was announced as the one that counts, as "ends seats:low"."""
    limits_from: str | None
    """The source of the limits, as the call said; None if it did not."""
    versions: typing.Mapping[str, str]
    """The versions of Python and of the packages that were installed."""
    processors: int
    """The number of the machine's processors."""

    @property
    def names(self) -> tuple[str, ...]:
        """The names of all reports."""
        return tuple(name for entry in self.reports for name in entry.names)

    def __str__(self) -> str:
        """Returns the manifest as JSON, in lines."""
        value = {
            "format": FORMAT,
            "kind": self.kind,
            "reports": [write_entry(entry) for entry in self.reports],
            "program": write_program(self.program),
            "preparation": None if self.preparation is None else write_custody(self.preparation),
            "changes": None if self.changes is None else write_file(self.changes),
            "warnings": write_warnings(self.warnings),
            "decides": self.decides,
            "limits_from": self.limits_from,
            "versions": dict(self.versions),
            "processors": self.processors,
        }
        return json.dumps(value, indent=1) + "\n"

    @classmethod
    def parse(cls, text: str) -> Manifest:
        """Reads a manifest, of this format or of the one before. Raises ManifestRefused."""
        try:
            value = json.loads(text)
        except (ValueError, RecursionError) as error:
            raise ManifestRefused(f"the manifest is not valid JSON: {error}") from None
        if isinstance(value, dict) and value.get("format") == FORMAT_OF_ONE:
            return read_manifest_of_one(value)
        names = ("format", *(field.name for field in dataclasses.fields(cls)))
        value = fields(value, "the manifest", names)
        if value["format"] != FORMAT:
            raise ManifestRefused(f"the format is not {FORMAT!r}")
        if value["kind"] not in KINDS:
            raise ManifestRefused(f"the kind is not one of {', '.join(KINDS)}")
        entries = tuple(read_entry(one) for one in list_in(value["reports"], "the reports"))
        if not entries:
            raise ManifestRefused("the manifest names no report")
        decides, limits_from = value["decides"], value["limits_from"]
        preparation, changes = value["preparation"], value["changes"]
        return cls(
            value["kind"],
            entries,
            read_program(value["program"]),
            None if preparation is None else read_custody(preparation),
            None if changes is None else read_file(changes, "the table of changes"),
            read_warnings(value["warnings"]),
            None if decides is None else text_of(decides, "decides"),
            None if limits_from is None else text_of(limits_from, "limits_from"),
            texts_by_name(value["versions"], "the versions"),
            count_of(value["processors"], "the number of processors", 1),
        )


def read_manifest_of_one(value: Json) -> Manifest:
    """Returns a manifest of the format before, which names one report and no build of its program.
    """
    value = fields(
        value, "the manifest",
        ("format", "command", "graph", "report", "program", "package", "started", "ended",
         "processors"),
    )
    graph = read_file(value["graph"], "the graph")
    entry = Entry(
        ("",), texts(value["command"], "the command"), graph, graph.sha256,
        read_file(value["report"], "the report"), time_of(value["started"], "started"),
        time_of(value["ended"], "ended"),
    )
    return Manifest(
        "report", (entry,), Program(read_file(value["program"], "the program")), None, None, (),
        None, None, {"district-audit": text_of(value["package"], "the version of the package")},
        count_of(value["processors"], "the number of processors", 1),
    )


# ---- values of JSON


def fields(value: Json, what: str, names: typing.Sequence[str]) -> dict[str, Json]:
    """Returns an object that has exactly these names. Raises ManifestRefused."""
    if not isinstance(value, dict) or set(value) != set(names):
        raise ManifestRefused(f"{what} must have exactly the names {', '.join(sorted(names))}")
    return value


def list_in(value: Json, what: str) -> list[Json]:
    if not isinstance(value, list):
        raise ManifestRefused(f"{what} are not a list")
    return value


def text_of(value: Json, what: str) -> str:
    if not isinstance(value, str):
        raise ManifestRefused(f"{what} is not a text")
    return value


def texts(value: Json, what: str) -> tuple[str, ...]:
    """Returns a list of texts, which is not empty."""
    is_texts = isinstance(value, list) and all(isinstance(word, str) for word in value)
    if not is_texts or not value:
        raise ManifestRefused(f"{what} is not a list of texts")
    return tuple(value)


def texts_by_name(value: Json, what: str) -> dict[str, str]:
    if not isinstance(value, dict) or not all(isinstance(one, str) for one in value.values()):
        raise ManifestRefused(f"{what} are not texts by their names")
    return value


def count_of(value: Json, what: str, least: int = 0) -> int:
    if type(value) is not int or value < least:
        raise ManifestRefused(f"{what} is not a whole number of at least {least}")
    return value


def time_of(value: Json, what: str) -> str:
    if not isinstance(value, str) or not TIME.fullmatch(value):
        raise ManifestRefused(f"{what} is not a time such as 2026-05-04T12:34:56+00:00")
    return value


def hash_of(value: Json, what: str) -> str:
    if not isinstance(value, str) or not HASH.fullmatch(value):
        raise ManifestRefused(f"the sha256 of {what} is not 64 hexadecimal digits")
    return value


# ---- parts of a manifest


def write_file(file: File) -> dict[str, Json]:
    return {"name": file.name, "sha256": file.sha256, "bytes": file.size}


def read_file(value: Json, what: str) -> File:
    """Returns a file of a manifest. Raises ManifestRefused."""
    value = fields(value, what, ("name", "sha256", "bytes"))
    name = value["name"]
    if not isinstance(name, str) or name in ("", ".", "..") or "/" in name or "\0" in name:
        raise ManifestRefused(f"the name of {what} is not the name of a file")
    return File(
        name, hash_of(value["sha256"], what), count_of(value["bytes"], f"the bytes of {what}")
    )


def write_entry(entry: Entry) -> dict[str, Json]:
    return {
        "names": list(entry.names),
        "command": list(entry.command),
        "graph": write_file(entry.graph),
        "map_sha256": entry.map_sha256,
        "report": write_file(entry.report),
        "started": entry.started,
        "ended": entry.ended,
    }


def read_entry(value: Json) -> Entry:
    value = fields(
        value, "an entry of the reports", [field.name for field in dataclasses.fields(Entry)]
    )
    return Entry(
        texts(value["names"], "the names of a report"),
        texts(value["command"], "the command"),
        read_file(value["graph"], "the graph"),
        hash_of(value["map_sha256"], "the map"),
        read_file(value["report"], "the report"),
        time_of(value["started"], "started"),
        time_of(value["ended"], "ended"),
    )


def write_program(program: Program) -> dict[str, Json]:
    return {
        **write_file(program.file),
        "commit": program.commit,
        "toolchain": program.toolchain,
        "proved": program.is_proved,
    }


def read_program(value: Json) -> Program:
    names = ("name", "sha256", "bytes", "commit", "toolchain", "proved")
    value = fields(value, "the program", names)
    file = read_file({name: value[name] for name in names[:3]}, "the program")
    if type(value["proved"]) is not bool:
        raise ManifestRefused("proved, of the program, is neither true nor false")
    commit, toolchain = (
        None if value[name] is None else text_of(value[name], f"the {name}") for name in names[3:5]
    )
    return Program(file, commit, toolchain, value["proved"])


def write_warnings(warnings: typing.Iterable[tuple[str, str]]) -> list[dict[str, str]]:
    return [{"kind": kind, "text": text} for kind, text in warnings]


def read_warnings(value: Json) -> tuple[tuple[str, str], ...]:
    found = [fields(one, "a warning", ("kind", "text")) for one in list_in(value, "the warnings")]
    return tuple(
        (text_of(one["kind"], "the kind of a warning"), text_of(one["text"], "a warning"))
        for one in found
    )


def write_custody(custody: Custody) -> dict[str, Json]:
    return {
        "files": [write_file(file) for file in custody.files],
        "arguments": dict(custody.arguments),
        "changes": [
            {
                "kind": edit.kind,
                "count": edit.count,
                "first": list(edit.units[:SHOWN_UNITS]),
                "moved": edit.moved,
                "of_values": edit.is_of_values,
            }
            for edit in custody.edits
        ],
        "warnings": write_warnings(custody.warnings),
        "versions": dict(custody.versions),
    }


def read_custody(value: Json) -> Custody:
    names = ("files", "arguments", "changes", "warnings", "versions")
    value = fields(value, "the preparation", names)
    if not isinstance(value["arguments"], dict):
        raise ManifestRefused("the arguments of the preparation are not an object")
    return Custody(
        tuple(read_file(one, "a raw file") for one in list_in(value["files"], "the raw files")),
        value["arguments"],
        tuple(read_edit(one) for one in list_in(value["changes"], "the changes")),
        read_warnings(value["warnings"]),
        texts_by_name(value["versions"], "the versions of the preparation"),
    )


def read_edit(value: Json) -> Edit:
    value = fields(value, "a change", ("kind", "count", "first", "moved", "of_values"))
    count = count_of(value["count"], "the count of a change")
    units = list_in(value["first"], "the first units of a change")
    if len(units) != min(count, SHOWN_UNITS) or not all(type(one) in (int, str) for one in units):
        raise ManifestRefused("the first units of a change are not the ids of as many units")
    if type(value["moved"]) not in (int, float) or type(value["of_values"]) is not bool:
        raise ManifestRefused("moved or of_values of a change is no number, or neither true nor "
                              "false")
    return Edit(
        text_of(value["kind"], "the kind of a change"), count, tuple(units), value["moved"],
        value["of_values"],
    )
