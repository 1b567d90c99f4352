"""The districts of a plan: a table of each, and every fault of the plan, in the user's labels.

The package computes this for people. Whether a plan is legal, the program says, which names the
first fault alone.
"""
from __future__ import annotations

import dataclasses
import json
import typing
from fractions import Fraction

from .arguments import Words, count_in, text_in
from .decimals import round_down
from .errors import PrepareRefused
from .graphs import Label, Row
from .judging import Judged, parts_of
from .lengths import Lengths, lengths_of
from .preparing import Choices
from .warnings import MapWarning


@dataclasses.dataclass(frozen=True)
class District:
    """One district of a plan. People and votes are heads; shares are parts of 1."""

    label: Label
    """Its label in the graph."""
    number: int
    """Its number to the auditor, from 0."""
    units: int
    population: int
    deviation: Fraction
    """The difference between its population and the ideal one, in people."""
    deviation_share: Fraction | None
    """The deviation as a part of the ideal population; None where nobody lives anywhere."""
    first: int
    second: int
    """The votes of both parties."""
    first_share: Fraction | None
    """The first party's part of both parties' votes; None without votes."""
    group: int | None
    """The people of the group; None where no group was named."""
    group_of: int | None
    group_share: Fraction | None
    """The group's part of its whole; None without a group, or where the whole is nobody."""
    regions: tuple[Label, ...] | None
    """The regions in which it lies; None where no column of regions was named."""
    split_regions: int | None
    """The number of these that lie in other districts, too."""
    parts: int
    """The number of its contiguous parts: 1 in a legal plan."""


class Plan(typing.NamedTuple):
    """The districts, cut edges and faults of a plan."""

    districts: tuple[District, ...]
    """By their numbers."""
    edges: int
    cut_edges: int
    faults: tuple[str, ...]
    """Every fault, in the user's labels; empty where the plan is legal."""
    cut_length: int | None = None
    """The total length of the cut edges; None where no column of lengths was named."""


class Table(typing.NamedTuple):
    """A graph that the program reads, as it stands in its JSON."""

    rows: dict[Label, Row]
    neighbors: dict[Label, list[Label]]
    lengths: Lengths | None = None
    """The lengths of the edges; None where no column of them is named."""


def table_of(data: bytes, length: str | None = None) -> Table | None:
    """Reads the program's graph; None where its shape is one that the program refuses."""
    try:
        root = json.loads(data.decode("utf-8"))
        nodes, adjacency = root["nodes"], root["adjacency"]
        rows = {node["id"]: node for node in nodes}
        found: dict[Label, set[Label]] = {unit: set() for unit in rows}
        for node, entries in zip(nodes, adjacency):
            for entry in entries:
                if entry["id"] != node["id"]:
                    found[node["id"]].add(entry["id"])
                    found[entry["id"]].add(node["id"])
        edges = (
            ((node["id"], entry["id"]), entry)
            for node, entries in zip(nodes, adjacency)
            for entry in entries
        )
        lengths = lengths_of(length, edges, rows) if length else None
    except (ValueError, KeyError, TypeError, PrepareRefused):
        return None
    place = {unit: number for number, unit in enumerate(rows)}
    return Table(
        rows, {unit: sorted(others, key=place.__getitem__) for unit, others in found.items()},
        lengths,
    )


def plan_of(data: bytes, named: Words) -> Plan | None:
    """Returns the districts and the faults of a plan; None where the graph itself is refused.

    `named` has the columns and the limits by the program's words.
    """
    table = table_of(data, text_in(named, "length"))
    if table is None or not table.rows:
        return None
    choices = choices_of(named)
    try:
        judged = Judged(table.rows, table.neighbors, choices, table.lengths)
        cut = judged.cut_edges
        faults = list(judged.refusals)
        if not any(row[choices.first] + row[choices.second] for row in table.rows.values()):
            faults.append("no votes: both parties have none in any unit")
        edges = sum(map(len, table.neighbors.values())) // 2
        return Plan(
            districts_of(judged, table), edges, cut, tuple(faults), judged.cut_length
        )
    except (KeyError, TypeError, ValueError):
        return None


def slips_in(data: bytes, named: Words) -> list[MapWarning]:
    """Returns the likely mistakes in the program's graph; none where the program refuses it."""
    table = table_of(data)
    if table is None or not table.rows:
        return []
    choices = dataclasses.replace(choices_of(named), length=None, show_all=False)
    try:
        return Judged(table.rows, table.neighbors, choices).warnings
    except (KeyError, TypeError, ValueError):
        return []


def choices_of(named: Words) -> Choices:
    """Returns columns and limits, which are named by the program's words, as those of `prepare`."""
    return Choices(
        str(named["pop"]),
        str(named["first"]),
        str(named["second"]),
        str(named["district"]),
        region=text_in(named, "region"),
        slack=count_in(named, "slack"),
        max_split=count_in(named, "max_split"),
        max_splits=count_in(named, "max_splits"),
        max_split_regions=count_in(named, "max_split_regions"),
        group=text_in(named, "group"),
        group_of=text_in(named, "group_of"),
        group_districts=count_in(named, "group_districts"),
        group_share=count_in(named, "group_share"),
        show_all=True,
        length=text_in(named, "length"),
        max_length=count_in(named, "max_length"),
        max_cut=count_in(named, "max_cut"),
    )


def districts_of(judged: Judged, table: Table) -> tuple[District, ...]:
    """Returns the districts of a plan, by their numbers."""
    choices = judged.choices
    total = sum(row[choices.population] for row in table.rows.values())
    ideal = Fraction(total, len(judged.districts))
    lies_in: dict[Label, set[Label]] = {}
    if choices.region:
        for row in table.rows.values():
            lies_in.setdefault(row[choices.region], set()).add(row[choices.district])
    found = []
    for number, label in enumerate(judged.districts):
        members = judged.members[label]
        rows = [table.rows[unit] for unit in members]
        sums = {column: sum(row[column] for row in rows) for column in choices.counted}
        first, second = sums[choices.first], sums[choices.second]
        group, whole = (sums[choices.group], sums[choices.whole]) if choices.group else (None, None)
        regions = (
            tuple(dict.fromkeys(row[choices.region] for row in rows)) if choices.region else None
        )
        found.append(
            District(
                label,
                number,
                len(members),
                sums[choices.population],
                sums[choices.population] - ideal,
                part(sums[choices.population] - ideal, ideal),
                first,
                second,
                part(first, first + second),
                group,
                whole,
                part(group, whole),
                regions,
                None if regions is None else sum(len(lies_in[region]) > 1 for region in regions),
                len(parts_of(members, judged.neighbours)),
            )
        )
    return tuple(found)


def part(count: Fraction | int | None, whole: Fraction | int | None) -> Fraction | None:
    """Returns a part of a whole; None where there is none."""
    return None if count is None or not whole else Fraction(count) / Fraction(whole)


# ---- as a table

COLUMNS = (
    "district",
    "number",
    "units",
    "population",
    "deviation",
    "deviation_share",
    "first",
    "second",
    "first_share",
    "group",
    "group_of",
    "group_share",
    "regions",
    "split_regions",
    "parts",
)


def rows_of(districts: typing.Sequence[District], exact: bool = False) -> list[list[object]]:
    """Returns a row for each district, with the columns `COLUMNS`; `regions` is their number."""

    def plain_of(value: object) -> object:
        return float(value) if isinstance(value, Fraction) and not exact else value

    return [
        [
            plain_of(value)
            for value in (
                one.label,
                one.number,
                one.units,
                one.population,
                one.deviation,
                one.deviation_share,
                one.first,
                one.second,
                one.first_share,
                one.group,
                one.group_of,
                one.group_share,
                None if one.regions is None else len(one.regions),
                one.split_regions,
                one.parts,
            )
        ]
        for one in districts
    ]


def shown_rows(districts: typing.Sequence[District]) -> tuple[list[str], list[list[str]]]:
    """Returns the titles and the cells of a table for people, without its empty columns.

    Decimals are rounded down, as in all tables of districts.
    """

    def cell(name: str, value: object) -> str:
        if value is None:
            return ""
        if name.endswith("share"):
            sign = "+" if name == "deviation_share" else ""
            return f"{round_down(100 * typing.cast(Fraction, value), 2, sign)} %"
        if name == "deviation":
            return round_down(typing.cast(Fraction, value), 1, "+", ",")
        return (
            f"{value:,}"
            if isinstance(value, int) and name not in ("district", "number")
            else (str(value))
        )

    rows = rows_of(districts, exact=True)
    kept = [at for at, name in enumerate(COLUMNS) if any(row[at] is not None for row in rows)]
    return (
        [COLUMNS[at].replace("_", " ") for at in kept],
        [[cell(COLUMNS[at], row[at]) for at in kept] for row in rows],
    )
