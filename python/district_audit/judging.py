"""The reasons for which the auditor would refuse a plan, in the user's labels.

They help people who mend a file before a call. The program alone decides whether a plan is legal.
"""
from __future__ import annotations

import functools
import typing

from . import own_limits, slips
from .decimals import percent_down
from .graphs import SHOWN, Label, Row, as_json, sort_labels, list_ids
from .report import HALF_SHARE
from .warnings import AllUnitsFrozen, DistrictCannotChange, DistrictFrozen, MapWarning

if typing.TYPE_CHECKING:
    from .lengths import Lengths
    from .preparing import Choices

MOST_UNITS, MOST_EDGES, MOST_REGIONS = 100_000, 400_000, 5000


def parts_of(
    members: typing.Iterable[Label], neighbours: dict[Label, list[Label]]
) -> list[list[Label]]:
    """Returns the connected parts of some units, greatest first."""
    left, parts = dict.fromkeys(members), []
    while left:
        part, todo = [], [left.popitem()[0]]
        while todo:
            unit = todo.pop()
            part.append(unit)
            for other in neighbours[unit]:
                if other in left:
                    del left[other]
                    todo.append(other)
        parts.append(part)
    return sorted(parts, key=len, reverse=True)


class Judged:
    """Counts of a prepared graph, and what the auditor would refuse it for."""

    def __init__(
        self,
        rows: dict[Label, Row],
        neighbours: dict[Label, list[Label]],
        choices: Choices,
        lengths: Lengths | None = None,
    ) -> None:
        self.rows, self.neighbours, self.choices = rows, neighbours, choices
        self.notes: list[str] = []
        self.refusals: list[str] = []
        self.warnings: list[MapWarning] = []
        self.cut_length: int | None = None
        self.place = {unit: i for i, unit in enumerate(rows)}
        self.members: dict[Label, list[Label]] = {}
        for unit, row in rows.items():
            self.members.setdefault(row[choices.district], []).append(unit)
        self.districts = sort_labels(self.members)
        self.number = {label: i for i, label in enumerate(self.districts)}
        self.regions = (
            sort_labels(row[choices.region] for row in rows.values()) if choices.region else []
        )
        self.shown = functools.partial(list_ids, everything=choices.show_all)
        self.own: dict[str, int] = {}
        """The plan's own numbers, by the names of the limits that count them."""
        self.warn_of_parts()
        self.judge_districts()
        self.judge_sizes()
        self.judge_cut()
        if choices.region:
            self.judge_regions(choices.region)
        if choices.group:
            self.judge_group(choices.group, choices.whole)
        if choices.length and lengths is not None:
            self.judge_length(choices.length, lengths)
        if choices.freeze:
            self.judge_frozen(choices.freeze)
        self.warnings += slips.slips_of(self)
        if not self.refusals:
            limits = {name: getattr(choices, name) for name in self.own}
            self.warnings += own_limits.limits_at_own(limits, self.own)

    def sums_of(self, column: str) -> dict[Label, int]:
        """Returns the total of a column in each district."""
        return {
            label: sum(self.rows[unit][column] for unit in self.members[label])
            for label in self.districts
        }

    def name_district(self, district: Label) -> str:
        return f"district {as_json(district)}"

    def number_of(self, district: Label) -> str:
        """Returns the auditor's number of a district in brackets; '' if it equals the label."""
        number = self.number[district]
        return "" if district == number else f" (the auditor's district {number})"

    def sort_units(self, units: typing.Iterable[Label]) -> list[Label]:
        return sorted(units, key=self.place.__getitem__)

    def warn_of_parts(self) -> None:
        """Adds notes on units without a neighbor, other small parts of the graph, and districts
        that no walk can change.
        """
        alone = [unit for unit in self.rows if not self.neighbours[unit]]
        if alone:
            self.notes.append(f"units without a neighbor: {len(alone)}: {self.shown(alone)}")
        parts = parts_of(self.rows, self.neighbours)
        if len(parts) < 2:
            return
        self.notes.append(
            f"the graph is in {len(parts)} parts, and a district lies in one of them (join=[(A, B)]"
            " makes neighbors of two units)"
        )
        small = [part for part in parts[1:] if len(part) > 1]
        for part in small[:SHOWN]:
            self.notes.append(f"a part of {len(part)} units: {self.shown(self.sort_units(part))}")
        if len(small) > SHOWN:
            self.notes.append(f"and {len(small) - SHOWN} further small parts")
        for part in parts:
            labels = {self.rows[unit][self.choices.district] for unit in part}
            if len(labels) == 1 and len(self.members[min(labels, key=str)]) == len(part):
                self.notes.append(
                    f"district {as_json(min(labels, key=str))} is a part of its own, of"
                    f" {len(part)} units: no walk can change it"
                )

    def is_small(self, label: Label) -> bool:
        """Returns whether a district has a tenth of the usual units or fewer: a label may be a
        slip.
        """
        return 10 * len(self.members[label]) * len(self.members) <= len(self.rows)

    def name_size(self, label: Label) -> str:
        """Returns the name of a district; of a small one also its units."""
        name, members = self.name_district(label), self.members[label]
        if not self.is_small(label):
            return name
        many = f"{len(members)} unit{'' if len(members) == 1 else 's'}"
        return f"a {name} of {many} ({self.shown(self.sort_units(members))})"

    def judge_districts(self) -> None:
        choices = self.choices
        for label, members in self.members.items():
            for part in parts_of(members, self.neighbours)[1:]:
                self.refusals.append(
                    f"{self.name_district(label)} is in several parts; {len(part)} of its"
                    f" {len(members)} units lie apart:"
                    f" {self.shown(self.sort_units(part))}{self.number_of(label)}"
                )
        total = sum(row[choices.population] for row in self.rows.values())
        if self.members:
            shares = 10000 * len(self.members)
            low, high = (
                -(-(10000 - choices.slack) * total // shares),
                (10000 + choices.slack) * total // shares,
            )
            strays: list[str] = []
            for label, members in self.members.items():
                people = sum(self.rows[unit][choices.population] for unit in members)
                if not low <= people <= high:
                    (strays if self.is_small(label) else self.refusals).append(
                        f"{self.name_size(label)} has {people} people, outside {low} to {high}"
                        f" (slack={choices.slack}){self.number_of(label)}"
                    )
            # A label that is a slip changes the ideal population of all districts.
            self.refusals[:0] = strays
        edges = sum(len(those) for those in self.neighbours.values()) // 2
        self.notes.append(
            f"{len(self.rows)} units, {edges} edges, {len(self.members)} districts, {total} people"
        )

    def judge_sizes(self) -> None:
        edges = sum(len(those) for those in self.neighbours.values()) // 2
        if not 2 <= len(self.members) <= 200:
            self.refusals.append(f"{len(self.members)} districts, not 2 to 200")
        for count, what, most in (
            (len(self.rows), "units", MOST_UNITS), (edges, "edges", MOST_EDGES),
            (len(self.regions), "regions", MOST_REGIONS),
        ):
            if count > most:
                self.refusals.append(f"{count} {what}, more than {most}")

    def judge_regions(self, column: str) -> None:
        """Adds notes and refusals on the number of districts in each region."""
        choices = self.choices
        split: dict[Label, set[Label]] = {}
        for row in self.rows.values():
            split.setdefault(row[column], set()).add(row[choices.district])
        if not split:
            return
        widest = max(split, key=lambda label: len(split[label]))
        self.own["max_split"] = len(split[widest])
        self.notes.append(
            f"{len(split)} regions in {column}; {as_json(widest)} lies in the most districts,"
            f" {len(split[widest])}"
        )
        over = [label for label, districts in split.items() if len(districts) > choices.max_split]
        if over:
            numbers = [i for i, label in enumerate(self.regions) if label in set(over)]
            listed = ", ".join(map(str, numbers[:SHOWN])) + (
                f" and {len(numbers) - SHOWN} more" if len(numbers) > SHOWN else ""
            )
            self.refusals.append(
                f"regions that lie in more than {choices.max_split} districts: {len(over)}:"
                f" {self.shown(over)} (the auditor's numbers: {listed})"
            )
        self.judge_splits(
            {label: len(districts) for label, districts in split.items() if len(districts) > 1}
        )

    def judge_splits(self, split: dict[Label, int]) -> None:
        """Adds notes and refusals on the splits in all and the number of split regions.

        `split` has the number of districts of each split region.
        """
        splits = sum(split.values()) - len(split)
        self.own.update(max_splits=splits, max_split_regions=len(split))
        self.notes.append(
            f"{len(split)} regions lie in more than one district, with {splits} splits in"
            f" all{': ' + self.shown(sort_labels(split)) if split else ''}"
        )
        if splits > self.choices.max_splits:
            self.refusals.append(f"{splits} splits of regions, more than {self.choices.max_splits}")
        if len(split) > self.choices.max_split_regions:
            self.refusals.append(
                f"{len(split)} regions lie in more than one district, more than"
                f" {self.choices.max_split_regions}"
            )

    def judge_group(self, group: str, whole: str) -> None:
        """Adds notes and refusals on the districts in which a group has more than the share."""
        share = self.choices.group_share
        more = "a majority" if share == HALF_SHARE else f"more than {share} of 10000"
        sums = {
            label: [
                sum(self.rows[unit][column] for unit in self.members[label])
                for column in (group, whole)
            ]
            for label in self.districts
        }
        most = [label for label, (part, of) in sums.items() if 10_000 * part > share * of]
        parts = ", ".join(f"{as_json(label)} ({percent(*sums[label])})" for label in most)
        self.notes.append(
            f"{group} has {more} of {whole} in {len(most)} of {len(sums)} districts"
            + (f": {parts}" if most else "")
        )
        self.own["group_districts"] = len(most)
        over = [unit for unit, row in self.rows.items() if row[group] > row[whole]]
        if over:
            self.notes.append(
                f"units with more in {group} than in {whole}: {len(over)}: {self.shown(over)}"
            )
        if len(most) < self.choices.group_districts:
            self.refusals.append(
                f"{group} has {more} in {len(most)} districts, fewer than"
                f" {self.choices.group_districts}"
            )

    @property
    def cut_edges(self) -> int:
        """The number of edges between two districts."""
        district = self.choices.district
        both = sum(
            self.rows[unit][district] != self.rows[other][district]
            for unit, others in self.neighbours.items()
            for other in others
        )
        return int(both) // 2

    def judge_cut(self) -> None:
        self.own["max_cut"] = self.cut_edges
        if self.cut_edges > self.choices.max_cut:
            self.refusals.append(f"{self.cut_edges} cut edges, more than {self.choices.max_cut}")

    def judge_length(self, column: str, lengths: Lengths) -> None:
        """Adds notes and refusals on the total length of the edges between districts."""
        district = self.choices.district
        cut = [
            lengths.get(unit, other)
            for unit, those in self.neighbours.items()
            for other in those
            if self.place[unit] < self.place[other]
            and self.rows[unit][district] != self.rows[other][district]
        ]
        self.cut_length = self.own["max_length"] = total = sum(cut)
        self.notes.append(f"{len(cut)} edges between districts, with {total} of {column} in all")
        if total > self.choices.max_length:
            self.refusals.append(
                f"edges between districts have {total} of {column}, more than"
                f" {self.choices.max_length}"
            )

    def judge_frozen(self, column: str) -> None:
        """Counts frozen units, and warns of districts that no unit leaves or no walk changes."""
        frozen = {unit for unit, row in self.rows.items() if row[column] > 0}
        self.notes.append(f"{len(frozen)} of {len(self.rows)} units are frozen by {column}")
        if frozen and len(frozen) == len(self.rows):
            self.warnings.append(
                AllUnitsFrozen(f"all units are frozen by {column}: no walk can change the plan")
            )
            return
        whole = [label for label in self.districts if frozen.issuperset(self.members[label])]
        closed = [
            label
            for label in whole
            if all(frozen.issuperset(self.neighbours[unit]) for unit in self.members[label])
        ]
        if whole:
            self.warnings.append(
                DistrictFrozen(
                    f"all units of these districts are frozen by {column}, so that no unit leaves"
                    f" them: {self.shown(whole)}"
                )
            )
        if closed:
            self.warnings.append(
                DistrictCannotChange(
                    "no walk can change these districts, since the units around them are frozen,"
                    f" too: {self.shown(closed)}"
                )
            )


def percent(part: int, whole: int) -> str:
    """Returns a part in percent, rounded down at two places; 'of nobody' without a whole."""
    return f"{percent_down(part, whole)} %" if whole else "of nobody"
