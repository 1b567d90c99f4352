"""The district table of an exhibit: sums of a graph's columns, after it is matched to a report."""
from __future__ import annotations

import dataclasses
import os
import typing

from .errors import PrepareRefused
from .graphs import Label, Raw, sort_labels, is_whole, plain, raw_of
from .lengths import lengths_of
from .preparing import Preparation, Prepared, flag_of, prepare
from .report import HALF_SHARE, Report

BILLION = 1_000_000_000
NOT_AUDITED = (
    "the graph has other bytes than those that the report was made of; give the file, the bytes or"
    " the answer of `prepare` that was audited"
)
Columns = typing.Mapping[str, str]


@dataclasses.dataclass(frozen=True)
class District:
    """The sums of one district: units, people, votes, and the group if there is one."""

    label: Label
    units: int
    population: int
    first: int
    second: int
    group: int | None
    whole: int | None
    """The number of those of whom the group may be the majority."""

    @property
    def is_won_by_first(self) -> bool:
        return self.first > self.second


def columns_of(report: Report, graph: object, columns: Columns | None) -> dict[str, str]:
    """Returns the names of the columns, by the words pop, first, second, district and so on.

    The report's own line has them if the run was asked for its source; otherwise they come from
    the argument, or else from a prepared graph. The result is empty if none of them has names.

    Raises ValueError if the argument differs from the report's own line: another election's votes
    would be shown as those of the report.
    """
    given = {name: column for name, column in (columns or {}).items() if column}
    if "population" in given:
        given["pop"] = given.pop("population")
    source = report.source
    every: dict[str, str | None] = {}
    if source is not None:
        every = dict(
            pop=source.population, first=source.first, second=source.second,
            district=source.district, region=source.region, group=source.group,
            group_of=source.group_of, freeze=source.freeze, length=source.length,
        )
    elif report.audited is not None:
        every = dict(report.audited.columns)
    else:
        return {**(graph.columns if isinstance(graph, Prepared) else {}), **given}
    for name, column in given.items():
        if every.get(name) not in (None, column):
            raise ValueError(
                f"the report was made of the column {every[name]!r} for {name}, and not of"
                f" {column!r}"
            )
    return {name: column for name, column in every.items() if column}


@dataclasses.dataclass(frozen=True)
class Graph:
    """The graph of an exhibit."""

    data: bytes
    """The bytes that the program reads."""
    columns: Columns
    is_exact: bool
    """True if the bytes were compared with those of the report."""


def graph_of(report: Report, graph: object, columns: Columns, is_of_plans: bool) -> Graph | None:
    """Returns the graph of an exhibit; ValueError if it is not that of the report."""
    if graph is None:
        return None
    refuse_another_plan(report)
    refuse_missing_columns(report, columns)
    data = data_of(report, graph, columns)
    return Graph(data, columns, is_exact(report, data, is_of_plans))


def refuse_another_plan(report: Report) -> None:
    """Raises ValueError if a report is not on the graph's own plan: the graph has only that plan's
    districts.
    """
    batch = report.batch
    if batch is not None and batch.kind == "plan" and batch.place:
        raise ValueError(
            f"this is the report on plan {batch.name}, but the table would be of plan"
            f" {batch.names[0]}, whose districts the graph has: leave graph out, or for a table of"
            f" {batch.name} audit prepared=prepare(graph, .., assignment=..) with the same key, and"
            " give graph=prepared"
        )


def data_of(report: Report, graph: object, columns: Columns) -> bytes:
    """Returns the bytes that the program reads of a graph.

    An object of networkx or GerryChain is prepared as for the call that made the report.
    """
    if isinstance(graph, Prepared):
        return graph.data
    if isinstance(graph, (bytes, bytearray, memoryview)):
        return bytes(graph)
    if isinstance(graph, (str, os.PathLike)):
        with open(graph, "rb") as file:
            return file.read()
    rules: Preparation = {} if report.audited is None else report.audited.rules
    try:
        return prepare(
            graph,
            population=columns["pop"],
            first=columns["first"],
            second=columns["second"],
            district=columns["district"],
            region=columns.get("region"),
            group=columns.get("group"),
            group_of=columns.get("group_of"),
            freeze=columns.get("freeze"),
            length=columns.get("length"),
            **rules,
        ).data
    except PrepareRefused as why:
        raise ValueError(f"{NOT_AUDITED}: {why.why}") from why


def is_exact(report: Report, data: bytes, is_of_plans: bool) -> bool:
    """Returns whether these are the bytes of the report; false if the report does not say.

    Raises ValueError if they are other bytes. The source of several plans has their table in its
    bytes, too.
    """
    if report.audited is not None:
        is_same = report.audited.is_of(data)
    elif report.source is not None and not is_of_plans:
        is_same = report.source.is_of(data)
    else:
        return False
    if not is_same:
        raise ValueError(NOT_AUDITED)
    return True


def columns_needed(report: Report) -> dict[str, str]:
    """Returns why the command of a report needs a column, by the words of these columns."""
    rules = report.rules
    needed = {word: "" for word in ("pop", "first", "second", "district")}
    needed.update({} if rules.regions is None else {"region": f"{rules.regions} regions"})
    needed.update(
        {}
        if rules.group_districts is None
        else {"group": f"group-districts {rules.group_districts} of {rules.majorities or 0}"}
    )
    needed.update({} if rules.frozen is None else {"freeze": f"frozen {rules.frozen}"})
    needed.update({} if rules.cut_length is None else {"length": f"cut-length {rules.cut_length}"})
    return needed


def refuse_missing_columns(report: Report, columns: Columns) -> None:
    """Raises ValueError if `columns` does not name a column that the report was made of."""
    needed = columns_needed(report)
    missing = [word for word in needed if word not in columns]
    if missing:
        why = [
            word + (f" (the report has {needed[word]})" if needed[word] else "") for word in missing
        ]
        words = ", ".join(f"{word}=.." for word in needed)
        raise ValueError(
            f"the exhibit needs the names of the columns {', '.join(why)}: give"
            f" columns=dict({words})"
        )


def districts_of(report: Report, graph: Graph) -> list[District]:
    """Returns the sums of each district, in the auditor's order.

    Raises ValueError if the graph is not the one of the report: other counts, people or scores.
    """
    raw, columns = raw_of(graph.data), graph.columns
    labels = {node.get("id"): label_of(node, columns["district"]) for node in raw.nodes}
    by_label: dict[Label, list[dict[str, object]]] = {}
    for node in raw.nodes:
        by_label.setdefault(labels[node.get("id")], []).append(node)
    found = [district_of(label, by_label[label], columns) for label in sort_labels(by_label)]
    edges = {frozenset(pair) for pair in raw.pairs if pair[0] != pair[1]}
    cut = sum(len({labels[end] for end in edge}) == 2 for edge in edges)
    has_length = report.rules.cut_length is not None
    length = cut_length_of(raw, labels, columns.get("length") if has_length else None)
    refuse_another_graph(report, found, len(edges), cut, length)
    refuse_other_rules(report, raw, found, length, columns)
    return found


def cut_length_of(
    raw: Raw, labels: typing.Mapping[object, Label], column: str | None
) -> int | None:
    """Returns the total length of the edges between districts; None without a column of them."""
    if not column:
        return None
    pairs = typing.cast("list[tuple[Label, Label]]", raw.pairs)
    try:
        found = lengths_of(column, zip(pairs, raw.attributes), typing.cast("set[Label]", {*labels}))
    except PrepareRefused as why:
        raise ValueError(f"{why.why}: give the prepared graph") from why
    return sum(
        length for edge, length in found.whole.items() if len({labels[end] for end in edge}) == 2
    )


def label_of(node: typing.Mapping[str, object], column: str, what: str = "district") -> Label:
    label = plain(node.get(column))
    if label is None:
        raise ValueError(f"unit {node.get('id')!r} has no label of a {what} in column {column!r}")
    return label


def district_of(label: Label, nodes: list[dict[str, object]], columns: Columns) -> District:
    def total(column: str) -> int:
        values = [node.get(column) for node in nodes]
        for node, value in zip(nodes, values):
            if not is_whole(value):
                raise ValueError(
                    f"unit {node.get('id')!r} has no whole number in column {column!r}: give the"
                    " prepared graph"
                )
        return sum(int(typing.cast(int, value)) for value in values)

    group = columns.get("group")
    whole = columns.get("group_of") or columns["pop"]
    return District(
        label,
        len(nodes),
        total(columns["pop"]),
        total(columns["first"]),
        total(columns["second"]),
        total(group) if group else None,
        total(whole) if group else None,
    )


def refuse_another_graph(
    report: Report, districts: list[District], edges: int, cut: int, length: int | None
) -> None:
    """Raises ValueError if a graph with these districts cannot be that of the report."""
    pairs = [
        ("units", sum(one.units for one in districts), report.units),
        ("edges", edges, report.edges),
        ("districts", len(districts), report.districts),
        ("people", sum(one.population for one in districts), report.population),
    ]
    starts = {
        line.score: line.start.numerator
        for line in (*report.walks, *report.stops, *report.ends, *report.serial)
    }
    scores = numerators(districts, cut, length)
    pairs += [
        ("as the numerator of " + score, scores[score], start) for score, start in starts.items()
    ]
    for what, here, there in pairs:
        if here != there:
            raise ValueError(
                f"this is not the graph of the report: the graph has {here} {what}, and the report"
                f" {there}"
            )


def refuse_other_rules(
    report: Report, raw: Raw, districts: list[District], length: int | None, columns: Columns
) -> None:
    """Raises ValueError if the columns of the rules have other counts than the report."""
    rules = report.rules
    pairs: list[tuple[str, str, int | None, int | None]] = []
    regions = {} if rules.regions is None else regions_in(raw, columns)
    if rules.regions is not None:
        pairs.append(("region", "regions", len(regions), rules.regions))
    if rules.group_districts is not None:
        share = HALF_SHARE if rules.group_share is None else rules.group_share
        most = sum(10_000 * (one.group or 0) > share * (one.whole or 0) for one in districts)
        what = "districts with a majority of the group"
        pairs.append(("group", what, most, rules.majorities or 0))
    if rules.frozen is not None:
        pairs.append(("freeze", "frozen units", frozen_in(raw, columns["freeze"]), rules.frozen))
    if rules.cut_length is not None:
        pairs.append(("length", "as the length of its cut edges", length, rules.cut_length))
    for word, what, here, there in pairs:
        if here != there:
            of = f" of {columns['group_of']!r}" if word == "group" and "group_of" in columns else ""
            raise ValueError(
                f"{word}={columns[word]!r} is not the report's column: with it{of} the graph has"
                f" {here} {what}, and the report {there}"
            )
    if regions:
        refuse_broken_limits(report, columns, [len(found) for found in regions.values()])


def regions_in(raw: Raw, columns: Columns) -> dict[Label, set[Label]]:
    """Returns the districts in which each region lies."""
    found: dict[Label, set[Label]] = {}
    for node in raw.nodes:
        region = label_of(node, columns["region"], "region")
        found.setdefault(region, set()).add(label_of(node, columns["district"]))
    return found


def refuse_broken_limits(report: Report, columns: Columns, districts: list[int]) -> None:
    """Raises ValueError if the enacted plan, which is legal, breaks a limit on these regions.

    `districts` has the number of districts of each region.
    """
    rules, column = report.rules, columns["region"]
    is_named = report.source is not None or report.audited is not None
    if column == columns["district"] and not is_named:
        raise ValueError(
            f"region={column!r} is the column of the districts, too: a report of such regions must"
            " name its columns (source=True)"
        )
    split = [count for count in districts if count > 1]
    for what, here, most in (
        ("districts in a region", max(districts), rules.max_split),
        ("splits of regions", sum(split) - len(split), rules.max_splits),
        ("split regions", len(split), rules.max_split_regions),
    ):
        if most is not None and here > most:
            raise ValueError(
                f"region={column!r} is not the report's column: with it the graph has {here}"
                f" {what}, and the report allows {most}"
            )


def frozen_in(raw: Raw, column: str) -> int:
    """Returns the number of units with `true` or a number above 0."""
    flags = [flag_of(node.get(column)) for node in raw.nodes]
    for node, flag in zip(raw.nodes, flags):
        if flag is None:
            raise ValueError(
                f"unit {node.get('id')!r} has neither true, false nor a whole number in column"
                f" {column!r}: give the prepared graph"
            )
    return sum(map(bool, flags))


def numerators(districts: list[District], cut: int, length: int | None = None) -> dict[str, int]:
    """Returns the numerator of each score, as docs/claims/DEFINITIONS.md defines them."""
    shares = sorted(
        one.first * BILLION // (one.first + one.second) if one.first + one.second else BILLION // 2
        for one in districts
    )
    middle = shares[(len(shares) - 1) // 2] + shares[len(shares) // 2]
    first = sum(
        one.first - one.second if one.is_won_by_first else 2 * one.first for one in districts
    )
    second = sum(
        2 * one.second if one.is_won_by_first else one.second - one.first for one in districts
    )
    return {
        "seats": sum(one.is_won_by_first for one in districts),
        "gap": second - first,
        "mean-median": len(shares) * middle - 2 * sum(shares),
        "cut-edges": cut,
        **({} if length is None else {"cut-length": length}),
    }
