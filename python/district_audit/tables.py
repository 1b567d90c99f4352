"""Tables of plans: each plan tested against the graph, and the table as CSV for the program."""
from __future__ import annotations

import csv
import dataclasses
import io
import json
import os
import re
import typing

from .errors import PrepareRefused
from .graphs import as_json, as_text, is_missing, plain, list_ids
from .values import faults_in, kind_of, find_missing, find_repeated

MOST_PLANS = 4096
# A field of CSV and what ends it. The groups are the text between its quotes, the text behind them,
# a field without quotes, and its end.
FIELD = re.compile(
    r'(?:"([^"]*(?:""[^"]*)*)(?:"([^,\r\n"][^,\r\n]*)?|\Z)|([^,\r\n]*))(,|[\r\n]|\Z)'
)


@dataclasses.dataclass
class Known:
    """The graph's units, by id, and the number of districts of the enacted plan."""

    units: list[object]
    districts: int

    @classmethod
    def read(cls, data: bytes, district: object) -> Known | None:
        """Reads this from the program's graph; None where the program will refuse the graph."""
        try:
            nodes = json.loads(data.decode("utf-8"))["nodes"]
            units = [node["id"] for node in nodes]
            labels = {plain(node[district]) for node in nodes}
        except (ValueError, KeyError, TypeError):
            return None
        return None if None in labels else cls(units, len(labels))


class Named(typing.NamedTuple):
    """A plan of a table: its name, and pairs of a unit's id and its label."""

    name: str
    labels: list[tuple[object, object]]


def table_of(table: object, known: Known | None, districts: str) -> bytes:
    """Returns a table of plans as CSV for the program, after it was tested.

    Raises PrepareRefused if a label is missing, unusable or would be mistaken for another one,
    if the units are not those of the graph, each once, or if a plan has another number of
    districts than the enacted plan and `districts` is not "any".
    """
    if isinstance(table, (bytes, bytearray, memoryview, str, os.PathLike)):
        data = bytes_of(table)
        plans = plans_of_csv(data)
        if plans is not None:
            test(plans, known, districts)
        return data
    plans = plans_of(table)
    test(plans, known, districts)
    return write_csv(plans)


def bytes_of(table: str | os.PathLike[str] | bytes | bytearray | memoryview) -> bytes:
    """Returns the bytes of a table that is the text, bytes or path of a CSV file."""
    if isinstance(table, str) and "\n" in table:
        return table.encode("utf-8")
    if isinstance(table, (str, os.PathLike)):
        with open(table, "rb") as file:
            return file.read()
    return bytes(table)


# ---- reading


def records_of(text: str) -> typing.Iterator[list[str]]:
    """Yields the records of CSV as the program reads it; Python's reader has limits of its own."""
    if '"' not in text:
        yield from (line[0].split(",") for line in re.finditer("[^\r\n]+", text))
        return
    record: list[str] = []
    for found in FIELD.finditer(text):
        quoted, behind, plain_field, end = found.groups()
        if quoted is not None:
            record.append(quoted.replace('""', '"') + (behind or ""))
        elif plain_field or record or end == ",":
            record.append(plain_field)
        if record and end != ",":
            yield record
            record = []


def count_plans(text: str) -> int:
    """Returns the number of plans with that of the graph, as the first record of a table says."""
    return len(next(records_of(text.removeprefix("\ufeff")), [""]))


def plans_of_csv(data: bytes) -> list[Named] | None:
    """Returns the plans of a CSV file; None where it is unreadable, which the program refuses."""
    try:
        records = list(records_of(data.decode("utf-8-sig")))
    except UnicodeDecodeError:
        return None
    if not records or len({len(record) for record in records}) != 1:
        return None
    head, *rows = records
    return [
        Named(name, [(row[0], row[place]) for row in rows])
        for place, name in enumerate(head[1:], 1)
    ]


def plans_of(table: object) -> list[Named]:
    """Returns the plans of a dict, of a DataFrame, or of what has items() as these have."""
    if not hasattr(table, "items"):
        raise PrepareRefused(
            "a table of plans must be a dict from names to assignments, a DataFrame with the units'"
            " ids as its index, or the text, bytes or path of a CSV file, not of type"
            f" {kind_name(table)}"
        )
    named = list(table.items())
    if named and not any(
        hasattr(plan, "items") or hasattr(plan, "assignment") for _, plan in named
    ):
        raise PrepareRefused(
            "a table of plans must be a dict from names to assignments, and this seems to be one"
            ' assignment: write {"name": assignment}'
        )
    for name, _ in named:
        test_name(name)
    twice = find_repeated(name for name, _ in named)
    if twice:
        raise PrepareRefused(f"several plans of the table have the same name: {list_ids(twice)}")
    if not 1 <= len(named) <= MOST_PLANS:
        raise PrepareRefused(f"a table must have 1 to {MOST_PLANS} plans, not {len(named)}")
    return [Named(str(name), read_assignment(plan, str(name))) for name, plan in named]


def test_name(name: object) -> None:
    """Refuses a name that the program cannot write on a line of its own."""
    is_empty = isinstance(name, str) and not name
    if not is_empty and (is_missing(name) or kind_of(name) not in ("text", "whole number")):
        raise PrepareRefused(f"a plan's name must be a text, not {as_json(name)}")
    text = str(name)
    if not 1 <= len(text) <= 100 or not all(" " <= letter <= "~" for letter in text):
        raise PrepareRefused(
            f"the plan's name {as_json(text)} is not usable: a name must have 1 to 100 ASCII"
            " characters from the space to ~"
        )


def read_assignment(plan: object, name: str) -> list[tuple[object, object]]:
    """Returns the pairs of a plan: a dict, a Partition, its assignment, or a column of a frame."""
    while not hasattr(plan, "items") and hasattr(plan, "assignment"):
        plan = plan.assignment
    if not hasattr(plan, "items"):
        raise PrepareRefused(
            f"plan {name} must be a dict from units to labels, a Partition or a column of a"
            f" DataFrame, not of type {kind_name(plan)}"
        )
    if hasattr(plan, "columns"):
        raise PrepareRefused(
            f"plan {name} is a whole {kind_name(plan)}: name one of its columns"
        )
    return list(plan.items())


def kind_name(value: object) -> str:
    return type(value).__name__


# ---- testing


def test(plans: list[Named], known: Known | None, districts: str) -> None:
    """Refuses plans of which an audit would be wrong; see `table_of`."""
    faults: list[str] = []
    for name, labels in plans:
        of_plan = units_in(labels, known)
        label = "label"
        of_plan += find_missing(labels, label) + faults_in(labels, label)
        faults += [f"plan {name}: {fault}" for fault in of_plan]
    if faults:
        raise PrepareRefused(f"{len(faults)} values of the table of plans are refused", faults)
    if known is not None and districts != "any":
        for name, labels in plans:
            test_count(name, len({as_text(label) for _, label in labels}), known)


def units_in(labels: list[tuple[object, object]], known: Known | None) -> list[str]:
    """Returns a line for each unit that is unusable, repeated, missing, or none of the graph's."""
    ids = [unit for unit, _ in labels]
    bad = [
        f"the id in place {place} is missing" for place, unit in enumerate(ids) if is_missing(unit)
    ]
    bad += [
        f"unit {as_json(unit)}: not an id of a unit"
        for unit in ids
        if not is_missing(unit) and kind_of(unit) is None
    ]
    if bad:
        return bad
    found = [f"unit {as_json(unit)} has several labels" for unit in find_repeated(ids)]
    if known is None:
        return found
    there, wanted = {as_text(unit) for unit in ids}, {as_text(unit) for unit in known.units}
    found += [
        f"unit {as_json(unit)} is not in the graph" for unit in ids if as_text(unit) not in wanted
    ]
    found += [
        f"unit {as_json(unit)} has no label" for unit in known.units if as_text(unit) not in there
    ]
    if there and wanted and not there & wanted:
        return [
            f"none of its ids is a unit's: its first id is {as_json(ids[0])}, and the graph's first"
            f" is {as_json(known.units[0])} (of a DataFrame, the index must have the units' ids:"
            " frame.set_index(column))"
        ]
    return found


def test_count(name: str, count: int, known: Known) -> None:
    """Refuses a plan with another number of districts than the enacted plan."""
    if count != known.districts:
        hint = ""
        if count == len(known.units):
            # The likely mistake where a column has a label of its own for each unit.
            hint = (
                "; if this column has the units' ids, make it the index:"
                f" frame.set_index({name!r})"
            )
        raise PrepareRefused(
            f"plan {name} has {count} districts, and the enacted plan has"
            f' {known.districts} (districts="any" takes it all the same){hint}'
        )


# ---- writing


def pad(labels: typing.Sequence[object]) -> list[str]:
    """Returns labels as texts. Whole numbers get zeros in front, to one width.

    The program orders the texts of a table by their bytes, and the numbers of a graph by value: so
    a plan has its districts in the same order in a table as in a graph.
    """
    found = [as_text(label) for label in labels]
    are_whole = all(text.isascii() and text.isdigit() and text == str(int(text)) for text in found)
    width = max(map(len, found), default=0)
    return [text.zfill(width) for text in found] if are_whole else found


def write_csv(plans: list[Named]) -> bytes:
    """Returns plans, which have the same units, as CSV."""
    by_unit = [
        dict(
            zip(map(as_text, (unit for unit, _ in labels)), pad([label for _, label in labels]))
        )
        for _, labels in plans
    ]
    for (name, _), plan in zip(plans, by_unit):
        if plan.keys() != by_unit[0].keys():
            raise PrepareRefused(f"the plans {plans[0].name} and {name} have different units")
    room = io.StringIO()
    rows = csv.writer(room, lineterminator="\n")
    rows.writerow(["id", *(name for name, _ in plans)])
    rows.writerows([unit, *(plan[unit] for plan in by_unit)] for unit in by_unit[0])
    return room.getvalue().encode("utf-8")
