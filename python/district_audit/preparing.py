"""The preparation of a graph: bytes that the auditor accepts, and a list of every change."""
from __future__ import annotations

import collections
import dataclasses
import decimal
import html
import json
import math
import numbers
import typing
from fractions import Fraction

from . import custody, judging, lengths, slips
from .arguments import (
    OTHERS,
    RULES,
    TABLE,
    count_in,
    document,
    plain_words,
    test_count,
    test_names,
    tested_elections,
)
from .errors import PrepareRefused, TypeRefused
from .geography import MapGraph, find_map
from .graphs import (
    Foreign,
    Label,
    Node,
    Pair,
    Raw,
    Row,
    as_json,
    as_text,
    hashable,
    is_missing,
    is_whole,
    from_numpy,
    raw_of,
    make_renaming,
    list_ids,
)
from .values import find_alike, faults_in, kind_of, find_repeated, why_no_label
from .warnings import MapWarning, emit
from .wording import plural

MOST_BYTES, MOST_VALUE, MOST_CUT_LENGTH = 67_108_864, 1_000_000_000, TABLE["max_length"].most
MOST_CUT = TABLE["max_cut"].most


class Preparation(typing.TypedDict, total=False):
    """The arguments of `prepare` that the program does not have."""

    numbers: str
    missing: str
    join: typing.Sequence[Pair]
    keep: typing.Sequence[str]
    fill_region: Label | None
    own_region: bool
    assignment: object


@dataclasses.dataclass
class Choices:
    """Everything that was said to `prepare`."""

    population: str
    first: str
    second: str
    district: str
    region: str | None = None
    numbers: str = "error"
    missing: str = "error"
    assignment: object = None
    join: typing.Sequence[Pair] = ()
    keep: typing.Sequence[str] = ()
    fill_region: Label | None = None
    own_region: bool = False
    slack: int = 500
    max_split: int = 200
    max_splits: int = 995_000
    max_split_regions: int = 5000
    group: str | None = None
    group_of: str | None = None
    group_districts: int = 0
    show_all: bool = False
    elections: typing.Mapping[str, tuple[str, str]] = dataclasses.field(default_factory=dict)
    group_share: int = 5000
    freeze: str | None = None
    length: str | None = None
    max_length: int = MOST_CUT_LENGTH
    max_cut: int = MOST_CUT

    @property
    def whole(self) -> str:
        """The column of those of whom the group may be the majority."""
        return self.group_of or self.population

    @property
    def votes(self) -> list[tuple[str, str]]:
        """The columns of both parties' votes in each election."""
        return list(dict.fromkeys(self.elections.values())) or [(self.first, self.second)]

    @property
    def counted(self) -> list[str]:
        """The columns of numbers, each once."""
        group = (self.group, self.whole) if self.group else ()
        votes = [column for both in self.votes for column in both]
        return list(dict.fromkeys((self.population, *votes, *group)))

    @property
    def labelled(self) -> list[str]:
        return [self.district] + ([self.region] if self.region else [])


@dataclasses.dataclass
class Change:
    """One kind of change."""

    what: str
    """The kind, in words."""
    units: list[Label] = dataclasses.field(default_factory=list)
    """The ids of the units that it was made to; empty where it is said of the whole."""
    moved: float = 0
    """The change of the sum of its column, in people or votes."""
    is_of_values: bool = False
    """True if a unit's value, or the set of units and edges, became another one. False if only the
    way of writing it changed.
    """

    def text(self, everything: bool = False) -> str:
        """Returns the change in one line, with its first ten ids or all."""
        if not self.units:
            return self.what
        moved = f", which changes the column's sum by {self.moved:.6g}" if self.moved else ""
        return (
            f"{self.what}: {len(self.units)} unit{'s' if len(self.units) > 1 else ''}{moved}:"
            f" {list_ids(self.units, everything)}"
        )

    def __str__(self) -> str:
        return self.text()


class Changes:
    """The changes by kind, with the ids of the units."""

    def __init__(self) -> None:
        self.by_kind: dict[str, Change] = {}
        self.rounded: dict[str, Fraction] = {}

    def add(
        self,
        kind: str,
        unit: Label | None = None,
        difference: float = 0,
        is_of_values: bool = False,
    ) -> None:
        change = self.by_kind.setdefault(kind, Change(kind, is_of_values=is_of_values))
        change.units += [] if unit is None else [unit]
        change.moved += difference


@dataclasses.dataclass(repr=False)
class Prepared:
    """The answer of `prepare`. It may be taken apart as a pair: `data, changes = prepare(..)`."""

    data: bytes
    """The graph for the program, as one line of JSON."""
    changes: list[Change]
    """The changes; each is a text under `str`."""
    notes: list[str]
    """Counts of units, edges, parts and regions."""
    warnings: list[MapWarning]
    """Likely mistakes, each of a class of its own; `str` of it is a line."""
    refusals: list[str]
    """For what the auditor would refuse the plan; empty where it accepts it."""
    units: list[Label]
    """The units' ids, as written, in the order by which the auditor counts them from 0."""
    districts: list[Label]
    """The districts' labels, in the order by which the auditor counts them from 0."""
    regions: list[Label]
    """Each region's label; empty where no column of regions was named."""
    columns: dict[str, str]
    """The columns that were written, by the program's words: pop, first, second, district, and
    region, group, group_of, freeze and length where they were named. With elections, first and
    second are not among them.
    """
    elections: dict[str, tuple[str, str]] = dataclasses.field(default_factory=dict)
    """The columns of votes by the name of their election; empty where `elections` was left out."""
    rules: dict[str, int] = dataclasses.field(default_factory=dict)
    """The slack and the limits that are not the default. They hold in each call that gives no
    other.
    """
    custody: custody.Custody | None = None
    """How `data` was made of the graph: files, arguments, changes and versions."""

    def __iter__(self) -> typing.Iterator[Foreign]:
        return iter((self.data, self.changes))

    def __repr__(self) -> str:
        state = plural(len(self.refusals), "refusal") if self.refusals else "the auditor accepts it"
        kept = "; ".join(("", *self.kept))
        return (
            f"<Prepared: {len(self.units)} units, {len(self.districts)} districts,"
            f" {plural(len(self.changes), 'change')}, {plural(len(self.warnings), 'warning')};"
            f" {state}{kept}>"
        )

    @property
    def kept(self) -> list[str]:
        """The rules and the elections of each call that gives no others."""
        rules = ", ".join(f"{name}={value}" for name, value in self.rules.items())
        found = [f"rules {rules}"] if rules else []
        return found + ([f"elections {', '.join(self.elections)}"] if self.elections else [])

    def _repr_html_(self) -> str:
        parts = [f"<p>{html.escape(repr(self)[1:-1])}</p>"]
        sections: list[tuple[str, typing.Sequence[object]]] = [
            ("What the auditor would refuse", self.refusals), ("Warnings", self.warnings),
            ("Changes", self.changes), ("Notes", self.notes),
        ]
        for title, lines in sections:
            if lines:
                items = "".join(f"<li>{html.escape(str(line))}</li>" for line in lines)
                parts.append(f"<p>{title}</p><ul>{items}</ul>")
        return "".join(parts)


# The arguments of `prepare` that may be left out.
DEFAULTS: dict[str, Foreign] = {
    "first": None, "second": None, "elections": None, "district": None, "assignment": None,
    "region": None, "group": None, "group_of": None, "numbers": "error", "missing": "error",
    "join": (), "keep": (), "fill_region": None, "own_region": False, "slack": None,
    "tolerance": None, "freeze": None, "length": None, "show_all": False,
    **{name: TABLE[name].default for name in RULES if name != "slack"},
}


@document
def prepare(
    graph: object,
    *,
    population: str,
    first: str | None = None,
    second: str | None = None,
    elections: typing.Mapping[str, tuple[str, str]] | None = None,
    district: str | None = None,
    assignment: object = None,
    region: str | None = None,
    group: str | None = None,
    group_of: str | None = None,
    numbers: str = "error",
    missing: str = "error",
    join: typing.Sequence[Pair] = (),
    keep: typing.Sequence[str] = (),
    fill_region: Label | None = None,
    own_region: bool = False,
    slack: int | None = None,
    tolerance: float | None = None,
    max_split: int = 200,
    max_splits: int = 995_000,
    max_split_regions: int = 5000,
    group_districts: int = 0,
    group_share: int = 5000,
    freeze: str | None = None,
    length: str | None = None,
    max_length: int = MOST_CUT_LENGTH,
    max_cut: int = MOST_CUT,
    show_all: bool = False,
    **unknown: object,
) -> Prepared:
    """Makes bytes that the auditor accepts of a graph, and lists every change.

    A file is JSON in networkx's adjacency or node-link layout; GraphML and GML are read where
    networkx is installed. Columns of people, votes and a group are counts of heads. `slack` and the
    limits are those of the audit, for telling what would be refused. A length of an edge that is
    not whole becomes the nearest whole number, halves the even one; one that is missing, below 0
    or another one in the other direction is refused, and units that are joined have a length of 0.

    PARAMETERS

    Returns
    -------
    Prepared
        `data` goes to the program; `changes`, `warnings`, `notes` and `refusals` say what was done
        and found.

    Raises
    ------
    PrepareRefused
        A ValueError: something is refused; `faults` has a line for each value, with its unit's id.
    MissingExtra
        An ImportError: the file can be read only by networkx, which is not installed.
    """
    given = dict(locals())
    prepared = prepare_map(given.pop("graph"), given)
    emit(prepared.warnings, 2)
    return prepared


def prepare_map(graph: object, given: typing.Mapping[str, Foreign]) -> Prepared:
    """Prepares a graph by the arguments of `prepare`, and gives no warning to Python."""
    named = {**DEFAULTS, **given}
    test_names("prepare", named.pop("unknown", {}), (*TABLE, *OTHERS))
    for name, good in (
        ("numbers", ("error", "nearest", "floor")), ("missing", ("error", "zero", "drop")),
    ):
        if named[name] not in good:
            raise PrepareRefused(f"{name} must be one of {', '.join(good)}, not {named[name]!r}")
    test_columns(named)
    said = plain_words("prepare", {name: named.pop(name) for name in ("slack", "tolerance")})
    named["slack"] = said.get("slack", TABLE["slack"].default)
    for name in RULES:
        test_count("prepare", TABLE[name], named[name])
    elections = named["elections"]
    votes = votes_of(named.pop("first"), named.pop("second"), elections)
    named["fill_region"] = test_choices(
        named["population"], votes, named["district"], named["fill_region"], named["own_region"]
    )
    taken = {
        *(named[name] for name in ("population", "region", "group", "group_of", "freeze")),
        *(column for both in votes.values() for column in both),
    }
    named["district"] = named["district"] or free_name(taken)
    named["first"], named["second"] = next(iter(votes.values()))
    named["elections"] = {} if elections is None else votes
    named["slack"] = count_in(said, "slack")
    raw = find_map(graph)
    prepared = prepare_raw(raw_of(raw), Choices(**named))
    if isinstance(raw, MapGraph):
        prepared.notes += [f"map: {line}" for line in str(raw.report).splitlines()]
        prepared.warnings += raw.warnings if named["length"] else []
    arguments = {
        name: value
        for name, value in given.items()
        if name in DEFAULTS and not is_default(value, DEFAULTS[name]) or name == "population"
    }
    told = [(one.kind, str(one)) for one in prepared.warnings]
    files = raw.files if isinstance(raw, MapGraph) else []
    made = custody.record(graph, arguments, prepared.changes, told, files)
    return dataclasses.replace(prepared, custody=made)


def is_default(value: object, default: object) -> bool:
    """Returns whether an argument says what holds without it."""
    if value is default:
        return True
    return isinstance(value, (str, int, tuple)) and type(value) is type(default) \
        and value == default


def test_columns(named: typing.Mapping[str, object]) -> None:
    """Refuses an argument that needs a column which is not named."""
    if (named["district"] is None) == (named["assignment"] is None):
        raise PrepareRefused(
            "the districts are given twice or not at all: give either district or assignment"
        )
    if named["group_of"] and not named["group"]:
        raise PrepareRefused("group_of is given without group: name the column of the group")
    if named["max_length"] != MOST_CUT_LENGTH and not named["length"]:
        raise PrepareRefused("max_length is given without length: name the column of the lengths")


def votes_of(
    first: str | None, second: str | None, elections: typing.Mapping[str, tuple[str, str]] | None
) -> dict[str, tuple[str, str]]:
    """Returns the columns of both parties' votes by the name of their election, '' where there is
    one.
    """
    if elections is not None and (first is not None or second is not None):
        raise PrepareRefused(
            "elections is given, and first or second too: each election has its own columns"
        )
    if elections is not None:
        return tested_elections(elections, False, "prepare")
    if first is None or second is None:
        raise TypeRefused(
            (
                f"prepare: the argument {'first' if first is None else 'second'} is missing (or"
                " elections)"
            ),
            "first",
        )
    return {"": (first, second)}


def test_choices(
    population: str,
    votes: typing.Mapping[str, tuple[str, str]],
    district: str | None,
    fill_region: Label | None,
    own_region: bool,
) -> Label | None:
    """Refuses what would prepare another audit than the one that is meant; returns `fill_region`.
    """
    for first, second in votes.values():
        if first == second:
            raise PrepareRefused(f"both parties' votes are the column {first}")
        if district is not None and district in (population, first, second):
            raise PrepareRefused(
                f"the column {district} is named as that of districts and of people or votes"
            )
    if fill_region is not None:
        if own_region:
            raise PrepareRefused(
                "fill_region and own_region are both given: each says what a unit without a"
                " region has"
            )
        fault = "is missing" if is_missing(fill_region) else why_no_label(fill_region)
        if fault:
            raise PrepareRefused(f"fill_region, which is {as_json(fill_region)}, {fault}")
    return fill_region


def free_name(taken: typing.Collection[str | None]) -> str:
    """Returns an unused name for the column that an assignment becomes."""
    name = "assignment"
    while name in taken:
        name += "_"
    return name


# ---- columns


def refuse_unknown(nodes: list[Node], choices: Choices) -> None:
    """Refuses a column that no unit has, or has a value in: most likely its name is misspelt."""
    frozen = [choices.freeze] if choices.freeze else []
    for column in (*choices.counted, *choices.labelled, *choices.keep, *frozen):
        if nodes and all(is_missing(node.get(column)) for node in nodes):
            there = sorted({str(key) for node in nodes for key in node} - {"id"})
            if any(column in node for node in nodes):
                raise PrepareRefused(f"no unit has a value in the column {column}")
            # A shapefile cuts long names, two of which may then differ in their last characters.
            is_long = len(column) > 10
            cut = [name for name in there if is_long and len(name) <= 10 and name[:8] == column[:8]]
            hint = f" (a shapefile cuts names to 10 characters: {' or '.join(cut)}?)" if cut else ""
            raise PrepareRefused(
                f"no unit has a column {column}{hint}; the columns are {', '.join(there) or 'none'}"
            )


def assign(nodes: list[Node], choices: Choices) -> list[Node]:
    """Returns the nodes with the districts of the assignment, if one was given."""
    given: Foreign = choices.assignment
    if given is None:
        return nodes
    while not hasattr(given, "items") and hasattr(given, "assignment"):
        given = given.assignment
    if not hasattr(given, "items"):
        raise PrepareRefused(
            "an assignment must be a dict from units to districts, or have items() as one, not of"
            f" type {type(given).__name__}"
        )
    if hasattr(given, "columns"):
        raise PrepareRefused(
            f"an assignment must be one column, not a whole {type(given).__name__}: name one of its"
            " columns"
        )
    pairs = list(given.items())
    test_units(pairs)
    left = dict(pairs)
    found = [{**node, choices.district: left.pop(hashable(node.get("id")), None)} for node in nodes]
    if left:
        raise PrepareRefused(
            f"the assignment names an unknown unit: {list_ids(left)}{hint_of_kind(left, nodes)}"
        )
    return found


def test_units(pairs: typing.Sequence[tuple[object, object]]) -> None:
    """Refuses an assignment with an id that is missing or unusable, or that stands there twice."""
    ids = [unit for unit, _ in pairs]
    faults = [
        f"the id in place {place} is missing" for place, unit in enumerate(ids) if is_missing(unit)
    ]
    faults += [
        f"{as_json(unit)} is not an id of a unit"
        for unit in ids
        if not is_missing(unit) and kind_of(unit) is None
    ]
    if not faults:
        faults = [f"unit {as_json(unit)} has several districts" for unit in find_repeated(ids)]
    if faults:
        raise PrepareRefused(f"{len(faults)} units of the assignment are refused", faults)


def hint_of_kind(left: typing.Iterable[object], nodes: list[Node]) -> str:
    """Says which kinds the ids have, where they would be the same as texts."""
    by_text = {as_text(node["id"]): node["id"] for node in nodes if not is_missing(node.get("id"))}
    for one in left:
        other = by_text.get(as_text(one))
        if other is not None:
            return (
                f" ({as_json(one)} is a {kind_of(one)}, and the graph's {as_json(other)} a"
                f" {kind_of(other)})"
            )
    return ""


# ---- numbers


def number_of(value: object, rule: str) -> tuple[int, str, Fraction]:
    """Returns the whole number that is written for a value, the change in a few words, and the
    value as it was.

    The words are '' if nothing was changed. Raises PrepareRefused if the value is not usable.
    """
    done = ""
    if isinstance(value, str):
        try:
            value = float(value) if any(letter in value for letter in ".eE") else int(value)
        except ValueError:
            raise PrepareRefused("is not a number") from None
        done = "texts read as numbers"
    if (
        isinstance(value, bool)
        or not isinstance(value, (numbers.Real, decimal.Decimal))
        or not is_whole(value)
        and not math.isfinite(value)
    ):
        raise PrepareRefused("is not a number")
    exact = (
        Fraction(int(value))
        if is_whole(value)
        else Fraction(value) if isinstance(value, decimal.Decimal) else Fraction(float(value))
    )
    if not is_whole(value):
        if exact.denominator == 1:
            done = done or "whole floats written as whole numbers"
        elif rule == "error":
            raise PrepareRefused('is not whole (choose numbers="nearest" or "floor")')
        else:
            done = f"fractions made whole by `{rule}`"
    whole = round(exact) if rule == "nearest" else math.floor(exact)
    if not 0 <= whole <= MOST_VALUE:
        raise PrepareRefused(f"is not from 0 to {MOST_VALUE}")
    return whole, done, exact


def flag_of(value: object) -> bool | int | None:
    """Returns true, false or a whole number as the program takes it for a frozen unit, else None.
    """
    try:
        plain = json.loads(json.dumps(value, default=from_numpy, allow_nan=False))
    except (TypeError, ValueError):
        return None
    if isinstance(plain, float) and plain.is_integer():
        plain = int(plain)
    return plain if type(plain) in (bool, int) and 0 <= plain <= MOST_VALUE else None


class Rows:
    """The values that are written for each unit that stays, by its id."""

    def __init__(
        self,
        choices: Choices,
        labels_of: dict[str, typing.Callable[[object], Label]],
        changes: Changes,
    ) -> None:
        self.choices, self.labels_of, self.changes = choices, labels_of, changes
        self.rows: dict[Label, Row] = {}
        self.faults: list[str] = []
        # The values before they were made whole, for each column of numbers that had any.
        self.before: dict[str, dict[Label, Fraction]] = {column: {} for column in choices.counted}

    def take(self, name: Label, node: Node) -> None:
        """Takes one unit in, or leaves it out, or notes why its values are refused."""
        row: Row = {}
        stays = [self.count(name, node, column, row) for column in self.choices.counted]
        stays += [self.label(name, node, column, row) for column in self.choices.labelled]
        if self.choices.freeze:
            self.flag(name, node.get(self.choices.freeze), self.choices.freeze, row)
        for column in self.choices.keep:
            if column in node:
                self.keep(name, node[column], column, row)
        if all(stays):
            self.rows[name] = row

    def flag(self, name: Label, value: object, column: str, row: Row) -> None:
        """Writes whether a unit is frozen: true, false or a whole number."""
        if is_missing(value):
            self.faults.append(f"unit {as_json(name)}: {column} is missing")
            return
        plain = flag_of(value)
        if plain is None:
            self.faults.append(
                f"unit {as_json(name)}: {column}, which is {as_json(value)}, is neither true, false"
                " nor a whole number from 0 to 1,000,000,000"
            )
            return
        row[column] = plain

    def keep(self, name: Label, value: object, column: str, row: Row) -> None:
        """Writes a value that is kept and not audited; a missing one as null, which is a change."""
        if is_missing(value):
            row[column] = None
            self.changes.add(
                f"column {column}, which is kept: missing values written as null", name
            )
            return
        try:
            row[column] = json.loads(json.dumps(value, default=from_numpy, allow_nan=False))
        except ValueError:
            self.faults.append(
                f"unit {as_json(name)}: {column}, which is {as_json(value)}, cannot be kept: JSON"
                " has no such value"
            )

    def drop(self, name: Label, column: str) -> bool:
        self.changes.add(f"units left out, for a missing {column}", name, is_of_values=True)
        return False

    def count(self, name: Label, node: Node, column: str, row: Row) -> bool:
        """Writes a number of people, of votes or of a group. Whether the unit stays."""
        value = node.get(column)
        if is_missing(value):
            if self.choices.missing == "drop":
                return self.drop(name, column)
            if self.choices.missing == "zero":
                row[column] = 0
                self.changes.add(f"column {column}: missing values made 0", name, is_of_values=True)
            else:
                self.faults.append(
                    f'unit {as_json(name)} has no {column} (choose missing="zero" or "drop")'
                )
            return True
        try:
            row[column], done, exact = number_of(value, self.choices.numbers)
        except PrepareRefused as why:
            self.faults.append(f"unit {as_json(name)}: {column}, which is {as_json(value)}, {why}")
            return True
        self.before[column][name] = exact
        if done:
            self.changes.add(
                f"column {column}: {done}", name, float(row[column] - exact), row[column] != exact
            )
        return True

    def label(self, name: Label, node: Node, column: str, row: Row) -> bool:
        """Writes a district or a region. Whether the unit stays."""
        choices, value = self.choices, node.get(column)
        is_region = column == choices.region
        if not is_missing(value):
            row[column] = self.labels_of[column](value)
        elif is_region and choices.fill_region is not None:
            row[column] = self.labels_of[column](choices.fill_region)
            self.changes.add(
                f"column {column}: missing regions made {as_json(row[column])}", name,
                is_of_values=True,
            )
        elif is_region and choices.own_region:
            row[column] = f"no {column}: unit {as_text(name)}"
            self.changes.add(
                f"column {column}: units without a region made regions of their own", name,
                is_of_values=True,
            )
        elif choices.missing == "drop":
            return self.drop(name, column)
        else:
            way = (
                'fill_region=LABEL, own_region=True or missing="drop"'
                if is_region
                else 'missing="drop"'
            )
            self.faults.append(f"unit {as_json(name)} has no {column} (choose {way})")
        return True


# ---- edges


def neighbours_of(
    pairs: typing.Sequence[tuple[Label, Label]],
    rows: typing.Iterable[Label],
    names: typing.Sequence[Label],
    changes: Changes,
) -> dict[Label, set[Label]]:
    """Returns the neighbors of each unit that stays."""
    known = set(names)
    found: dict[Label, set[Label]] = {unit: set() for unit in rows}
    for one, other in pairs:
        for end in (one, other):
            if end not in known:
                raise PrepareRefused(f"an edge names {as_json(end)}, which is not a unit")
        if one == other:
            changes.add("edges from a unit to itself, left out", one)
        elif one in found and other in found:
            found[one].add(other)
            found[other].add(one)
    return found


def unit_named(
    said: object, name_of: typing.Callable[[object], Label], units: typing.Collection[Label]
) -> Label:
    """Returns the unit that a user named to be joined; on a command line every id is a text."""
    candidates: list[Label] = [name_of(said)] if not is_missing(said) else []
    if isinstance(said, str) and said.lstrip("-").isdigit():
        candidates.append(int(said))
    for name in candidates:
        if name in units:
            return name
    raise PrepareRefused(
        f"{as_json(said)}, which is to be joined, is not a unit: the ids are {list_ids(units)}"
    )


def join(
    choices: Choices,
    neighbours: dict[Label, set[Label]],
    name_of: typing.Callable[[object], Label],
    changes: Changes,
) -> None:
    """Makes neighbors of the pairs that were named."""
    for pair in choices.join:
        one, other = (unit_named(end, name_of, neighbours) for end in pair)
        if one == other:
            raise PrepareRefused(f"{as_json(one)} cannot be joined to itself")
        done = "were neighbors already" if other in neighbours[one] else "made neighbors"
        changes.add(
            f"units {as_json(one)} and {as_json(other)} {done}",
            is_of_values=other not in neighbours[one],
        )
        neighbours[one].add(other)
        neighbours[other].add(one)


# ---- the whole


def names_of(raw: Raw, changes: Changes) -> tuple[list[Label], typing.Callable[[object], Label]]:
    """Returns the ids that are written, and the function from the graph's ids to them."""
    ids = [node.get("id") for node in raw.nodes]
    if any(is_missing(one) for one in ids):
        raise PrepareRefused(
            f"node {next(place for place, one in enumerate(ids) if is_missing(one))} has no id"
        )
    name_of, changed = make_renaming(ids + [end for pair in raw.pairs for end in pair])
    if changed:
        changes.add("ids: some are neither texts nor whole numbers, so all are written as texts")
    names = [name_of(one) for one in ids]
    faults = [
        f"node {place} has {as_json(one)}, which is not an id of a unit"
        for place, one in enumerate(ids)
        if kind_of(one) is None
    ]
    if faults:
        raise PrepareRefused(f"{len(faults)} ids are refused", faults)
    twice = [name for name, count in collections.Counter(names).items() if count > 1]
    if twice:
        raise PrepareRefused(f"several units have the same id: {list_ids(twice)}")
    twice = typing.cast(list[Label], find_repeated(names))
    if twice:
        raise PrepareRefused(
            'several units have ids that differ only in their kind, as 1 and "1" do:'
            f" {list_ids(twice)}"
        )
    return names, name_of


def labels_in(
    nodes: list[Node], choices: Choices, changes: Changes
) -> dict[str, typing.Callable[[object], Label]]:
    """Returns for each column of labels the function from the graph's labels to those written."""
    found = {}
    for column in choices.labelled:
        there = [node[column] for node in nodes if not is_missing(node.get(column))]
        filled = (
            [choices.fill_region]
            if column == choices.region
            and choices.fill_region is not None
            and len(there) < len(nodes)
            else []
        )
        found[column], changed = make_renaming([*there, *filled])
        if changed:
            changes.add(
                f"labels in {column}: some are neither texts nor whole numbers, so all are written"
                " as texts"
            )
        elif is_mixed_by_choice(nodes, column, there, choices):
            found[column] = as_text
            changes.add(
                f"labels in {column}: written as texts, since those of units without a region are"
            )
    return found


def is_mixed_by_choice(
    nodes: list[Node], column: str, there: list[object], choices: Choices
) -> bool:
    """Returns whether a region for units that have none is of another kind than the others."""
    if column != choices.region or len(there) == len(nodes):
        return False
    if choices.fill_region is not None:
        return len({kind_of(value) for value in (*there, choices.fill_region)}) > 1
    return choices.own_region and {kind_of(value) for value in there} != {"text"}


def faults_of_labels(
    names: list[Label], nodes: list[Node], choices: Choices
) -> list[str]:
    """Returns a line for each unit whose district or region is unusable, or would be mistaken for
    another.
    """
    faults = []
    for column in choices.labelled:
        labels = [(name, node.get(column)) for name, node in zip(names, nodes)]
        faults += faults_in(labels, column)
    return faults


def prepare_raw(raw: Raw, choices: Choices) -> Prepared:
    changes = Changes()
    if raw.is_directed:
        changes.add("the graph is directed: each edge is read as one in both directions")
    nodes = assign(raw.nodes, choices)
    refuse_unknown(nodes, choices)
    if choices.length:
        lengths.test_column(choices.length, raw.attributes)
    names, name_of = names_of(raw, changes)
    taken = Rows(choices, labels_in(nodes, choices, changes), changes)
    taken.faults += faults_of_labels(names, nodes, choices)
    for name, node in zip(names, nodes):
        taken.take(name, node)
    if not taken.faults and choices.region:
        taken.faults += find_alike(
            [(name, row[choices.region]) for name, row in taken.rows.items()], choices.region
        )
    if taken.faults:
        raise PrepareRefused(f"{len(taken.faults)} values are refused", taken.faults)
    rows = taken.rows
    pairs = [(name_of(one), name_of(other)) for one, other in raw.pairs]
    found = neighbours_of(pairs, rows, names, changes)
    long = lengths_in(choices, zip(pairs, raw.attributes), rows, changes)
    join(choices, found, name_of, changes)
    place = {unit: i for i, unit in enumerate(rows)}
    neighbours = {unit: sorted(those, key=place.__getitem__) for unit, those in found.items()}
    written = {*choices.counted, *choices.labelled, *choices.keep, choices.freeze}
    others = sorted({str(key) for node in nodes for key in node} - {"id", *written})
    if others:
        changes.add("columns left out: " + ", ".join(others))
    data = data_of(rows, neighbours, choices.length, long)
    judged = judging.Judged(rows, neighbours, choices, long)
    refusals = judged.refusals + (
        [f"more than {MOST_BYTES} bytes"] if len(data) > MOST_BYTES else []
    )
    columns = dict(
        zip(
            ("pop", "first", "second", "district", "region"),
            (choices.population, choices.first, choices.second, *choices.labelled),
        )
    )
    if choices.elections:
        del columns["first"], columns["second"]
    columns.update(
        {
            name: column
            for name, column in (
                ("group", choices.group), ("group_of", choices.group_of),
                ("freeze", choices.freeze), ("length", choices.length),
            )
            if column
        }
    )
    rules = {
        name: int(getattr(choices, name))
        for name in RULES
        if int(getattr(choices, name)) != TABLE[name].default
    }
    return Prepared(
        data, list(changes.by_kind.values()), judged.notes,
        slips.of_missing(judged, taken.before) + slips.of_rounding(judged, taken.before)
        + slips.of_lengths(choices.length, long) + judged.warnings,
        refusals, list(rows), judged.districts, judged.regions, columns, dict(choices.elections),
        rules,
    )


def lengths_in(
    choices: Choices,
    edges: typing.Iterable[tuple[tuple[Label, Label], lengths.Attributes]],
    units: typing.Collection[Label],
    changes: Changes,
) -> lengths.Lengths | None:
    """Returns the lengths of the edges, or None without a column of them.

    Adds to `changes` the number of lengths that were made whole.
    """
    if not choices.length:
        return None
    found = lengths.lengths_of(choices.length, edges, units)
    if found.rounded:
        changes.add(
            f"lengths of edges in {choices.length}: {found.rounded} of {len(found.whole)} made"
            " whole by `nearest`, halves the even one, which changes their sum by"
            f" {float(found.moved):.6g}",
            is_of_values=True,
        )
    return found


def data_of(
    rows: dict[Label, Row],
    neighbours: dict[Label, list[Label]],
    length: str | None = None,
    found: lengths.Lengths | None = None,
) -> bytes:
    """Returns the graph in networkx's adjacency layout, as one line."""

    def entry(unit: Label, other: Label) -> dict[str, object]:
        there = {} if length is None or found is None else {length: found.get(unit, other)}
        return {**there, "id": other}

    try:
        text = json.dumps(
            {
                "directed": False,
                "multigraph": False,
                "graph": [],
                "nodes": [dict(row, id=unit) for unit, row in rows.items()],
                "adjacency": [
                    [entry(unit, other) for other in those] for unit, those in neighbours.items()
                ],
            },
            separators=(",", ":"),
            allow_nan=False,
        )
    except (TypeError, ValueError) as error:
        raise PrepareRefused(
            f"a column that is kept has a value that JSON cannot express: {error}"
        ) from error
    return text.encode("utf-8")
