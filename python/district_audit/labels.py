"""Translation of the numbers in a line of the program into the user's own ids and labels."""
from __future__ import annotations

import csv
import io
import json
import re
import typing

from .graphs import as_json, sort_labels, plain

# The words before a number in the program's lines, and what they count.
COUNTED = re.compile(r"\b(units?|nodes?|district|region) ([0-9]+)(?: and ([0-9]+))?")


class Labels(typing.NamedTuple):
    """Ids and labels in the order by which the program counts them from 0."""

    units: typing.Sequence[object]
    districts: typing.Sequence[object]
    regions: typing.Sequence[object]


def labels_of(data: bytes, columns: typing.Mapping[str, object]) -> Labels:
    """Returns the ids and labels of the program's input, as far as it can be read.

    `columns` has the names of the columns, by the words `district` and `region`.
    """
    try:
        root = json.loads(data.decode("utf-8"))
        nodes = [node if isinstance(node, dict) else {} for node in root["nodes"]]
    except (ValueError, KeyError, TypeError):
        return Labels([], [], [])

    def column(name: object) -> typing.Sequence[object]:
        labels = [plain(node.get(name)) for node in nodes] if name else [None]
        known = [label for label in labels if label is not None]
        return sort_labels(known) if len(known) == len(labels) else []

    return Labels(
        [node.get("id") for node in nodes], column(columns.get("district")),
        column(columns.get("region")),
    )


def find_json_fault(data: bytes) -> str:
    """Returns the line and column where the program finds invalid JSON, and why; '' if unknown.

    Python's reader takes NaN and Infinity, which are not JSON.
    """
    try:
        text = data.decode("utf-8")
    except UnicodeDecodeError as error:
        return f"{place_in(data[:error.start].decode('utf-8'))}: this is not UTF-8"
    if text.startswith("\ufeff"):
        return "line 1, column 1: a byte order mark stands before the text"
    try:
        json.loads(text, parse_constant=refused_constant)
    except json.JSONDecodeError as error:
        return f"line {error.lineno}, column {error.colno}: {error.msg}"
    except ValueError as error:
        # A constant stands outside of all texts: each text is passed over as a whole.
        for found in re.finditer(r'"(?:[^"\\]|\\.)*"|-?(?:NaN|Infinity)', text):
            if found[0] == str(error):
                return f"{place_in(text[:found.start()])}: {found[0]} is not JSON (write null)"
    return ""


def refused_constant(name: str) -> object:
    raise ValueError(name)


def place_in(before: str) -> str:
    """Returns the line and the column behind a text, from 1."""
    lines = before.split("\n")
    return f"line {len(lines)}, column {len(lines[-1]) + 1}"


def plan_labels(table: str, name: str) -> typing.Sequence[object]:
    """Returns the labels of the first plan of this name in a table of plans, in their order by
    bytes; none if the table cannot be read.
    """
    records = [row for row in csv.reader(io.StringIO(table, newline="")) if row]
    if not records or name not in records[0][1:]:
        return []
    place = records[0].index(name, 1)
    labels = {row[place] for row in records[1:] if len(row) > place}

    in_bytes = sorted(label.encode("utf-8", "surrogateescape") for label in labels)
    return [label.decode("utf-8", "surrogateescape") for label in in_bytes]


def translate(line: str, labels: Labels, table: str = "") -> str:
    """Returns the meaning of a line's numbers, as 'region 5 is "Kings"; unit 2 is "v"'; '' where
    nothing is known, or the label is the number.

    `table` is the table of plans, whose labels count in a line on one of its plans.
    """
    kind, _, rest = line.partition(":")
    if kind.startswith("plan "):
        labels = labels._replace(districts=plan_labels(table, kind[len("plan "):]))
    elif kind not in ("plan", "graph", "table"):
        return ""
    lists = {
        "unit": labels.units,
        "node": labels.units,
        "district": labels.districts,
        "region": labels.regions,
    }
    said = []
    for what, *found in COUNTED.findall(rest):
        known = lists[what.rstrip("s")]
        for number in (int(one) for one in found if one):
            if number < len(known) and known[number] != number:
                said.append(f"{what.rstrip('s')} {number} is {as_json(known[number])}")
    return "; ".join(dict.fromkeys(said))
