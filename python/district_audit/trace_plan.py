"""The plans of a trace: the graph's columns, and a current plan whose tallies follow its moves."""
from __future__ import annotations

import decimal
import json
import math
import numbers
import typing
from fractions import Fraction

from .arguments import Words
from .graphs import (
    Foreign,
    Label,
    Row,
    as_json,
    as_text,
    hashable,
    sort_labels,
    is_missing,
    is_whole,
    plain,
    raw_of,
)
from .preparing import Prepared


def whole_number(value: object, rule: str) -> int:
    """Returns a count of people or votes as a whole number; ValueError says why it is none.

    `rule` is that of `prepare` for a number that is not whole: error, nearest or floor.
    """
    if isinstance(value, bool) or not isinstance(value, (numbers.Real, decimal.Decimal)):
        raise ValueError("is not a number")
    if is_whole(value):
        whole = int(typing.cast(int, value))
    else:
        if not math.isfinite(value):
            raise ValueError("is not a number")
        exact = Fraction(value if isinstance(value, (decimal.Decimal, Fraction)) else float(value))
        if exact.denominator != 1 and rule == "error":
            raise ValueError("is not whole (choose numbers='nearest' or 'floor')")
        whole = round(exact) if rule == "nearest" else math.floor(exact)
    if whole < 0:
        raise ValueError("is negative")
    return whole


def places_of(values: typing.Sequence[object], written: typing.Sequence[Label]) -> list[int]:
    """Returns for each written id or label the place of the value that it was written for.

    A value is written as it is where all are texts or whole numbers, and else all are written as
    texts.
    """
    for way in (plain, as_text):
        found: dict[object, int] = {}
        for place, value in enumerate(values):
            found.setdefault(way(value), place)
        if all(one in found for one in written):
            return [found[one] for one in written]
    missing = next(one for one in written if one not in found)
    raise ValueError(f"{as_json(missing)} is not in the graph")


class UnitTable:
    """The units of a trace with their columns, neighbors and enacted districts.

    Units and districts have the auditor's numbers, from 0: units in the order of `nodes`, districts
    in the order of their labels. `ids` and `labels` have the graph's own ids and labels by these
    numbers.
    """

    def __init__(self, data: bytes, graph: object, district: str, rules: Words) -> None:
        """Reads the units from `data`, the program's input, and from `graph`, its source."""
        root = json.loads(data.decode("utf-8"))
        self.rows: list[Row] = root["nodes"]
        self.adjacency: list[list[Row]] = root["adjacency"]
        self.numbers = str(rules.get("numbers") or "error")
        self.missing = str(rules.get("missing") or "error")
        written_ids = [row["id"] for row in self.rows]
        written = sort_labels(row[district] for row in self.rows)
        number = {label: place for place, label in enumerate(written)}
        self.start = [number[row[district]] for row in self.rows]
        self.is_prepared = isinstance(graph, Prepared)
        raw = raw_of(graph.data if isinstance(graph, Prepared) else graph)
        places = places_of([hashable(node.get("id")) for node in raw.nodes], written_ids)
        self.own_rows = [raw.nodes[place] for place in places]
        self.ids = [hashable(row.get("id")) for row in self.own_rows]
        self.unit_of = {unit: place for place, unit in enumerate(self.ids)}
        own_labels = self.enacted_labels(district, rules.get("assignment"))
        self.labels = [own_labels[place] for place in places_of(own_labels, written)]
        self.columns: dict[str, list[int]] = {}
        self.by_region: dict[str, list[int]] = {}
        self.around: list[list[int]] | None = None
        self.by_length: dict[str, list[dict[int, int]]] = {}

    def enacted_labels(self, district: str, assignment: Foreign) -> list[object]:
        """Returns each unit's own district label, from its column or from an assignment."""
        if assignment is None:
            return [row.get(district) for row in self.own_rows]
        while not hasattr(assignment, "items") and hasattr(assignment, "assignment"):
            assignment = assignment.assignment
        given = dict(assignment.items())
        return [given[unit] for unit in self.ids]

    def values(self, column: str) -> list[object]:
        """Returns a column as it stands: as the program read it, or else as the graph has it."""
        if not any(column in row for row in (*self.rows[:1], *self.own_rows)):
            there = sorted({str(key) for row in self.own_rows for key in row} - {"id"})
            kept = " (prepare keeps further ones by keep=[..])" if self.is_prepared else ""
            raise KeyError(f"no unit has a column {column}; the columns are {', '.join(there)}"
                           + kept)
        return [row[column] if column in row else own.get(column)
                for row, own in zip(self.rows, self.own_rows)]

    def column(self, name: str) -> list[int]:
        """Returns a column of counts of people or votes, by unit.

        A column that the program reads has the values that it read. Another is read from the graph
        by the rules `numbers` and `missing` of the call. Raises KeyError if no unit has it,
        and ValueError with the unit's id if a value is missing, negative or not whole.
        """
        if name not in self.columns:
            self.columns[name] = [self.count(name, unit, value)
                                  for unit, value in zip(self.ids, self.values(name))]
        return self.columns[name]

    def count(self, name: str, unit: object, value: object) -> int:
        """Returns one unit's count in a column."""
        if is_missing(value):
            if self.missing == "zero":
                return 0
            raise ValueError(f"unit {as_json(unit)} has no {name} (choose missing='zero')")
        try:
            return whole_number(value, self.numbers)
        except ValueError as why:
            raise ValueError(f"unit {as_json(unit)}: {name}, which is {as_json(value)}, {why}"
                             ) from None

    def regions(self, name: str) -> list[int]:
        """Returns a column of region labels, as counties, as numbers from 0. Errors as `column`."""
        if name not in self.by_region:
            values = [hashable(value) for value in self.values(name)]
            for unit, value in zip(self.ids, values):
                if is_missing(value):
                    raise ValueError(f"unit {as_json(unit)} has no {name}")
            number: dict[object, int] = {}
            self.by_region[name] = [number.setdefault(value, len(number)) for value in values]
        return self.by_region[name]

    @property
    def neighbors(self) -> list[list[int]]:
        """The neighbors of each unit, each once and without the unit itself."""
        if self.around is None:
            place = {row["id"]: number for number, row in enumerate(self.rows)}
            found: list[set[int]] = [set() for _ in self.rows]
            for unit, entries in enumerate(self.adjacency):
                for entry in entries:
                    other = place[entry["id"]]
                    if other != unit:
                        found[unit].add(other)
                        found[other].add(unit)
            self.around = [sorted(those) for those in found]
        return self.around

    def lengths(self, name: str) -> list[dict[int, int]]:
        """Returns the length of the edge to each neighbor of each unit.

        Raises KeyError if no edge that the program read has the column, and ValueError if an edge
        has no whole number in it.
        """
        if name not in self.by_length:
            place = {row["id"]: number for number, row in enumerate(self.rows)}
            if not any(name in entry for entries in self.adjacency for entry in entries):
                raise KeyError(f"no edge that the program read has a column {name}")
            found: list[dict[int, int]] = [{} for _ in self.rows]
            for unit, entries in enumerate(self.adjacency):
                for entry in entries:
                    other, value = place[entry["id"]], entry.get(name)
                    if not is_whole(value):
                        raise ValueError(
                            f"edge {as_json(self.ids[unit])} - {as_json(self.ids[other])}: no whole"
                            f" number in the column {name}"
                        )
                    if other != unit:
                        found[unit][other] = found[other][unit] = int(typing.cast(int, value))
            self.by_length[name] = found
        return self.by_length[name]


class Tally(typing.Protocol):
    """A number of the current plan that is kept up to date unit by unit."""

    def move(self, unit: int, old: int, new: int) -> None:
        """Takes in that a unit leaves one district for another; the plan still has the old one."""


class Totals:
    """The total of a column in each district."""

    def __init__(self, values: list[int], plan: list[int], districts: int) -> None:
        self.values = values
        self.sums = [0] * districts
        for value, district in zip(values, plan):
            self.sums[district] += value

    def move(self, unit: int, old: int, new: int) -> None:
        """Moves the unit's value."""
        self.sums[old] -= self.values[unit]
        self.sums[new] += self.values[unit]


class Cut:
    """The number of cut edges."""

    def __init__(self, neighbors: list[list[int]], plan: list[int]) -> None:
        self.neighbors, self.plan = neighbors, plan
        self.edges = sum(plan[unit] != plan[other] for unit, those in enumerate(neighbors)
                         for other in those if unit < other)

    def move(self, unit: int, old: int, new: int) -> None:
        """Counts the edges that are cut now, and those that are no longer."""
        around = [self.plan[other] for other in self.neighbors[unit]]
        self.edges += around.count(old) - around.count(new)


class CutLength:
    """The total length of the cut edges."""

    def __init__(self, lengths: list[dict[int, int]], plan: list[int]) -> None:
        self.lengths, self.plan = lengths, plan
        self.total = sum(
            length for unit, those in enumerate(lengths) for other, length in those.items()
            if unit < other and plan[unit] != plan[other]
        )

    def move(self, unit: int, old: int, new: int) -> None:
        """Adds the lengths of the edges that are cut now, and takes off those no longer cut."""
        for other, length in self.lengths[unit].items():
            district = self.plan[other]
            self.total += length * ((district == old) - (district == new))


class Splits:
    """The number of units of each region in each district, and how regions are split."""

    def __init__(self, regions: list[int], plan: list[int]) -> None:
        self.regions = regions
        self.counts: list[dict[int, int]] = [{} for _ in range(max(regions, default=-1) + 1)]
        for region, district in zip(regions, plan):
            self.counts[region][district] = self.counts[region].get(district, 0) + 1
        self.splits = sum(len(those) - 1 for those in self.counts)
        self.split_regions = sum(len(those) > 1 for those in self.counts)

    def move(self, unit: int, old: int, new: int) -> None:
        """Moves one unit of a region."""
        counts = self.counts[self.regions[unit]]
        before = len(counts)
        counts[old] -= 1
        if counts[old] == 0:
            del counts[old]
        counts[new] = counts.get(new, 0) + 1
        self.splits += len(counts) - before
        self.split_regions += (len(counts) > 1) - (before > 1)


Kind = typing.TypeVar("Kind", bound=Tally)


class Plan:
    """A plan that changes unit by unit, by the auditor's numbers of units and districts."""

    def __init__(self, table: UnitTable, districts: typing.Sequence[int]) -> None:
        self.table = table
        self.districts = list(districts)
        self.tallies: dict[typing.Hashable, Tally] = {}
        self.turn = 0
        """The number of its changes: a sample of an earlier turn is stale."""

    @property
    def district_count(self) -> int:
        """The number of districts."""
        return len(self.table.labels)

    def reset(self, districts: typing.Sequence[int]) -> None:
        """Makes it another plan."""
        self.districts = list(districts)
        self.tallies.clear()
        self.turn += 1

    def move(self, units: typing.Sequence[int], districts: typing.Sequence[int]) -> None:
        """Moves each unit to the district at its place."""
        tallies = list(self.tallies.values())
        for unit, new in zip(units, districts):
            for tally in tallies:
                tally.move(unit, self.districts[unit], new)
            self.districts[unit] = new
        self.turn += 1

    def tally(self, key: typing.Hashable, made: typing.Callable[[], Kind]) -> Kind:
        """Returns the tally that goes by a key, which is made at its first use."""
        if key not in self.tallies:
            self.tallies[key] = made()
        return typing.cast(Kind, self.tallies[key])

    def totals(self, column: str) -> list[int]:
        """Returns the total of a column in each district, by the district's number."""
        tally = self.tally(("totals", column), lambda: Totals(
            self.table.column(column), self.districts, self.district_count))
        return list(tally.sums)

    def cut_edges(self) -> int:
        """Returns the number of edges between districts."""
        return self.tally("cut", lambda: Cut(self.table.neighbors, self.districts)).edges

    def cut_length(self, column: str) -> int:
        """Returns the total length of the edges between districts, by a column of lengths."""
        return self.tally(("length", column),
                          lambda: CutLength(self.table.lengths(column), self.districts)).total

    def splits(self, column: str) -> Splits:
        """Returns how the regions of a column are split."""
        return self.tally(("splits", column),
                          lambda: Splits(self.table.regions(column), self.districts))
