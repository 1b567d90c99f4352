"""Ids and labels as people have them: which values are missing, which are usable, and which of them
would be mistaken for each other.

A missing value that becomes a label makes a district of its own, and an audit of another map. So
each input of the package is tested here before anything is walked, and what is refused is named by
the id of its unit.
"""
from __future__ import annotations

import decimal
import json
import math
import numbers
import re
import typing
import unicodedata

from .errors import PrepareRefused
from .graphs import as_json, as_text, is_missing, is_whole, plain

# Texts that other programs write for a missing value: pandas, numpy, Python, R, spreadsheets, JSON.
MISSING_TEXTS = frozenset(
    ("nan", "NaN", "NAN", "-nan", "<NA>", "NA", "N/A", "n/a", "#N/A", "NaT", "None", "null", "NULL")
)
# Beyond this a float no longer tells whole numbers apart.
MOST_EXACT = 2**53
WHOLE_TEXT = re.compile(r"([+-]?)0*([0-9]+)(?:\.0*)?")

Pairs = typing.Sequence[tuple[object, object]]


def kind_of(value: object) -> str | None:
    """Returns the kind of an id or a label: a text, a whole number, a float or a tuple.

    Returns None for a value that is none of these: a bool, a float that is not whole or too great
    to be exact, a list with such a value, and any other object.
    """
    if isinstance(value, str):
        return "text"
    if is_whole(value):
        return "whole number"
    if isinstance(value, (numbers.Real, decimal.Decimal)) and not isinstance(value, bool):
        number = typing.cast(float, value)
        if not is_missing(number) and math.isfinite(number) and number == math.floor(number):
            return "float" if abs(number) <= MOST_EXACT else None
        return None
    if isinstance(value, (tuple, list)):
        return "tuple" if all(is_part(part) for part in value) else None
    return None


def is_part(value: object) -> bool:
    """Returns whether a value may stand in a tuple that is an id or a label."""
    if isinstance(value, numbers.Real) and not isinstance(value, bool):
        return math.isfinite(value)
    return kind_of(value) is not None


def why_no_label(value: object) -> str:
    """Says why a value, which is not missing, cannot be an id or a label; '' where it can."""
    if isinstance(value, str):
        return "reads as a missing value" if value.strip() in MISSING_TEXTS else ""
    if kind_of(value) is not None:
        return ""
    if type(value).__name__ in ("bool", "bool_"):
        return "is a bool, and not a text or a whole number"
    if isinstance(value, (numbers.Real, decimal.Decimal)):
        return "is a float that is not a whole number"
    return f"is a {type(value).__name__}, and not a text or a whole number"


def look_of(text: str) -> str:
    """Returns what a reader takes a label for.

    White space at its ends, repeated spaces, the composition of accented letters, and leading zeros
    and `.0` of a whole number are looked through.
    """
    plain = " ".join(unicodedata.normalize("NFC", text).split())
    found = WHOLE_TEXT.fullmatch(plain) if plain.isascii() else None
    if found is None:
        return plain
    return ("-" if found[1] == "-" and found[2] != "0" else "") + found[2]


def find_missing(labels: Pairs, column: str) -> list[str]:
    """Returns a line for each unit whose label is missing."""
    return [f"unit {as_json(unit)} has no {column}" for unit, label in labels if is_missing(label)]


def faults_in(labels: Pairs, column: str) -> list[str]:
    """Returns a line for each unit whose label is unusable or would be mistaken for another one.

    `labels` are pairs of a unit's id and its label in `column`. Missing labels are passed over.
    Labels of one column are of one kind: `1`, `1.0` and `"1"` never stand beside each other. No two
    of them look alike, as `"1"` and `"01"`, or `"A"` and `"A "`.
    """
    there = [(unit, label) for unit, label in labels if not is_missing(label)]
    why = [(unit, label, why_no_label(label)) for unit, label in there]
    found = [
        f"unit {as_json(unit)}: {column}, which is {as_json(label)}, {said}"
        for unit, label, said in why
        if said
    ]
    return found or find_mixed(there, column) or find_alike(there, column)


def find_mixed(labels: Pairs, column: str) -> list[str]:
    """Returns a line for each unit whose label is of another kind than most labels are."""
    by_kind: dict[str, list[tuple[object, object]]] = {}
    for unit, label in labels:
        by_kind.setdefault(str(kind_of(label)), []).append((unit, label))
    if len(by_kind) < 2:
        return []
    most = max(by_kind, key=lambda kind: len(by_kind[kind]))
    return [
        f"unit {as_json(unit)}: {column}, which is {as_json(label)}, is a {kind}, where"
        f" {len(by_kind[most])} labels are {most}s"
        for kind, units in by_kind.items()
        if kind != most
        for unit, label in units
    ]


def find_alike(labels: Pairs, column: str) -> list[str]:
    """Returns a line for each unit whose label differs from another only in how it is written."""
    by_look: dict[str, dict[str, list[object]]] = {}
    for unit, label in labels:
        text = as_text(label)
        by_look.setdefault(look_of(text), {}).setdefault(text, []).append(unit)
    found = []
    for texts in by_look.values():
        most = max(texts, key=lambda text: len(texts[text]))
        found += [
            f"unit {as_json(unit)}: {column}, which is {as_json(text)}, differs from"
            f" {as_json(most)} only in how it is written"
            for text, units in texts.items()
            if text != most
            for unit in units
        ]
    return found


def test_labels_of(data: bytes, columns: typing.Mapping[str, object]) -> None:
    """Refuses labels in the program's graph that the program takes and that would be mistaken.

    `columns` has the columns' names by the words district and region. To the program an empty text
    is a label, and `1` and `"1"` are two. What the program itself refuses is left to it.
    """
    try:
        nodes = json.loads(data.decode("utf-8"))["nodes"]
        units = [node["id"] for node in nodes]
    except (ValueError, KeyError, TypeError):
        return
    faults: list[str] = []
    for word in ("district", "region"):
        column = columns.get(word)
        if not isinstance(column, str) or word == "region" and not column:
            continue
        labels = [(unit, node.get(column)) for unit, node in zip(units, nodes)]
        if all(plain(label) is not None for _, label in labels):
            faults += find_missing(labels, column) + faults_in(labels, column)
    if faults:
        raise PrepareRefused(f"{len(faults)} labels of the graph are refused", faults)


def find_repeated(ids: typing.Iterable[object]) -> list[object]:
    """Returns the ids that stand there more than once as texts, each once, as they came first."""
    first: dict[str, object] = {}
    twice: dict[str, object] = {}
    for one in ids:
        text = as_text(one)
        if text in first:
            twice.setdefault(text, first[text])
        first.setdefault(text, one)
    return list(twice.values())
