"""The program's texts as values: reports, check texts, and the reports of several plans.

Reading is strict: impossible forms and wrong arithmetic are refused, with the number of the line.
A forged count passes: only a recomputation (`scripts/recheck.py`) finds it. `str` of what was read
is the text again, byte for byte. Counts are `int`, scores `Start` (which is never shortened; its
`fraction` is a `Fraction`), and bounds and p-values `Decimal` with the report's nine places, which
are rounded up.
"""
from __future__ import annotations

import dataclasses
import hashlib
import html
import json
import math
import re
import typing
from decimal import Decimal
from fractions import Fraction

from . import own_limits
from .arguments import MOST_WEIGHT, SCORES
from .effect import Effect, Number, test_effects
from .errors import ReportRefused, extra
from .program import NOT_PROVED

if typing.TYPE_CHECKING:
    import os

    import matplotlib.axes
    import matplotlib.figure
    import pandas

    from .custody import Call
    from .districts import District, Plan
    from .preparing import Preparation
    from .warnings import MapWarning

    PathLike = typing.Union[str, "os.PathLike[str]"]

BILLION = 10**9
MOST_UNITS, MOST_EDGES, MOST_DISTRICTS, MOST_REGIONS, MOST_TRAJECTORIES, MOST_CUT, MOST_SLACK = (
    100_000, 400_000, 200, 5000, 100_000, 400_000, 10_000,
)
MOST_SPLITS, MOST_BYTES = 995_000, 67_108_864
MOST_SHARE, HALF_SHARE = 10_000, 5000
MOST_LENGTH = 2**32 - 1
MOST_CUT_LENGTH = MOST_EDGES * MOST_LENGTH
TAILS = ("low", "high")
# The meaning of the nine numbers of a line `shift`.
SEATS = ("-4 or fewer", "-3", "-2", "-1", "0", "+1", "+2", "+3", "+4 or more")

NUMBER = "(0|[1-9][0-9]*)"
WHOLE = "(0|-?[1-9][0-9]*)"
NINE = r"((?:0|[1-9][0-9]*)\.[0-9]{9})"
QUARTERS = r"([1-9][0-9]?(?:\.(?:25|5|75))?)"
ASK = f"({'|'.join(SCORES)}) ({'|'.join(TAILS)}) start {WHOLE}/{NUMBER}"


# ---- what a report has


@dataclasses.dataclass(frozen=True)
class Rules:
    """The rules of legal plans, beside contiguous districts."""

    slack: int
    """The greatest deviation from the ideal population, in hundredths of a percent."""
    low: int
    """The least population of a district that is within the bounds, in people."""
    high: int
    """The greatest."""
    max_cut: int | None = None
    """The most edges between districts that a plan may have; None: any number."""
    max_split: int | None = None
    """The most districts among which a region may be split; None: there are no regions."""
    regions: int | None = None
    """The number of regions; None: no column of regions was named."""
    max_splits: int | None = None
    """The most splits of regions in all. A region has one less than the number of its districts.
    None: this and the next are not limited.
    """
    max_split_regions: int | None = None
    """The most regions that may lie in more than one district."""
    group_districts: int | None = None
    """The least number of districts in which the group must have a majority; None: no group."""
    majorities: int | None = None
    """The number of districts in which the start plan gives the group a majority."""
    group_share: int | None = None
    """The share of a district above which the group has a majority, in hundredths of a percent;
    None: one half.
    """
    frozen: int | None = None
    """The number of units that keep the start plan's districts; None: no column of them was named.
    """
    cut_length: int | None = None
    """The total length of the edges between the start plan's districts; None: no column of lengths
    was named.
    """
    max_length: int | None = None
    """The greatest total length of the edges between districts; None: any length."""
    cut_weight: Fraction | None = None
    """The weight of each cut edge, in 64ths; None: none, so that all plans weigh the same."""
    pieces: int | None = None
    """The greatest change of the number of cut edges in one step; None: there is no weight."""


@dataclasses.dataclass(frozen=True)
class Source:
    """The bytes that were read and their columns, which a text names if `source` asks for it."""

    sha256: str
    """The 64 hexadecimal digits of the SHA-256 of all bytes that were read; for several plans the
    table is among them.
    """
    size: int
    """The number of these bytes."""
    population: str
    first: str
    second: str
    district: str
    region: str | None = None
    """The column of regions; None: none was named."""
    group: str | None = None
    """The column of the group; None: none was named."""
    group_of: str | None = None
    """The column of those of whom the group may be the majority: the column of populations, where
    no other was named.
    """
    freeze: str | None = None
    """The column of frozen units; None: none was named."""
    length: str | None = None
    """The column of the edges' lengths; None: none was named."""

    def lines(self) -> list[str]:
        words = ["columns", *map(quote, (self.population, self.first, self.second, self.district))]
        words += [] if self.region is None else ["region", quote(self.region)]
        words += (
            []
            if self.group is None
            else ["group", quote(self.group), "of", quote(self.group_of or "")]
        )
        words += [] if self.freeze is None else ["freeze", quote(self.freeze)]
        words += [] if self.length is None else ["length", quote(self.length)]
        return [f"source sha256 {self.sha256} bytes {self.size}", " ".join(words)]

    def is_of(self, data: bytes) -> bool:
        """Returns whether these are the bytes that were read."""
        return len(data) == self.size and hashlib.sha256(data).hexdigest() == self.sha256


@dataclasses.dataclass(frozen=True)
class Audited:
    """The graph that the package sent to the program, and the arguments that prepared it.

    It is no part of the report's text: a report that was read from a file has none.
    """

    sha256: str
    """The 64 hexadecimal digits of the SHA-256 of the graph's bytes."""
    columns: typing.Mapping[str, str]
    """The names of the columns, by the words pop, first, second, district and so on."""
    rules: Preparation
    """The arguments of `prepare`, except an assignment."""
    call: Call | None = None
    """The call that made the report, or what the manifest says of it."""
    warnings: tuple[MapWarning, ...] = ()
    """Likely mistakes in the map, and in the question about it."""
    limits_from: str | None = None
    """The source of the limits, as the call says; None if it does not."""

    def is_of(self, data: bytes) -> bool:
        """Returns whether these are the bytes that the program read."""
        return hashlib.sha256(data).hexdigest() == self.sha256


@dataclasses.dataclass(frozen=True)
class Batch:
    """The reports that one call made together, and which of them this one is.

    It is no part of the report's text: a report that was read by itself has none.
    """

    kind: str
    """plan or election."""
    names: tuple[str, ...]
    """The names of the plans or elections, in order; of plans, the graph's own plan is the first.
    """
    place: int
    """The place of this report among them, from 0."""

    @property
    def name(self) -> str:
        """The name of the plan or election of this report."""
        return self.names[self.place]

    @property
    def others(self) -> list[str]:
        """The names of the others."""
        return [name for place, name in enumerate(self.names) if place != self.place]


def join_batch(
    kind: str, pairs: typing.Iterable[tuple[str, Report]]
) -> list[tuple[str, Report]]:
    """Returns the reports of one call, each of which knows that there are others."""
    found = list(pairs)
    names = tuple(name for name, _ in found)
    return [
        (name, dataclasses.replace(report, batch=Batch(kind, names, place)))
        for place, (name, report) in enumerate(found)
    ]


def weight_text(weight: Fraction) -> str:
    """Returns a weight as the program writes it: 33, 33.25, 33.5 or 33.75."""
    whole, rest = divmod(int(4 * weight), 4)
    return f"{whole}.{('25', '5', '75')[rest - 1]}" if rest else str(whole)


def pieces_of(units: int, districts: int) -> int:
    """Returns the greatest change of cut edges that a draw of 64 bits can weigh in one step."""
    pieces = 0
    while units * districts * MOST_WEIGHT ** (pieces + 2) <= 2**64:
        pieces += 1
    return pieces


def quote(text: str) -> str:
    """Returns a text as the program writes it: as JSON, with the shortest escapes."""
    return json.dumps(text, ensure_ascii=False)


@dataclasses.dataclass(frozen=True)
class Setting:
    """The numbers and lengths of the trajectories."""

    walks: int
    """The number of outlier trajectories."""
    steps: int
    """The steps of each."""
    ends: int
    """The number of trajectories of the parallel test."""
    hub_steps: int
    """The steps to the hub, and of each of these trajectories."""
    stop: int = 0
    """The number of ends in the tail after which a test stops; 0: none stops early."""


@dataclasses.dataclass(frozen=True)
class Start:
    """The start plan's score, as the report writes it: it is never shortened."""

    numerator: int
    denominator: int

    @property
    def fraction(self) -> Fraction:
        return Fraction(self.numerator, self.denominator)

    @property
    def decimal(self) -> float:
        """The score as a decimal number, for people; `fraction` is exact."""
        return self.numerator / self.denominator

    def __str__(self) -> str:
        return f"{self.numerator}/{self.denominator}"


@dataclasses.dataclass(frozen=True)
class Line:
    """A line of a test: its question, and the start plan's score."""

    score: str
    """seats, mean-median, gap, cut-edges or cut-length."""
    tail: str
    """low or high."""
    start: Start

    @property
    def ask(self) -> str:
        """The question, as the word --ask has it."""
        return f"{self.score}:{self.tail}"

    def words(self) -> str:
        return f"{self.score} {self.tail} start {self.start}"


@dataclasses.dataclass(frozen=True)
class Walk(Line):
    """One outlier trajectory and one question."""

    number: int
    """The number of the trajectory, from 0."""
    moved: int
    """The number of its steps that changed the plan."""
    count: int
    """The number of visited plans in the tail, the start plan among them."""
    of: int
    """The number of visited plans: one more than the steps."""
    bound: Decimal
    """The square root of 2 count/of, rounded up at nine places."""

    @property
    def part(self) -> Fraction:
        """The part of the visited plans that is in the tail."""
        return Fraction(self.count, self.of)

    @property
    def sharp_bound(self) -> Decimal:
        """The square root of (2 count - 1)/of, rounded up at nine places.

        It holds as `bound` does, which is the published one: docs/user/READING_A_REPORT.md proves
        it. Which of the two decides has to be named before the run.
        """
        return root_up(2 * self.count - 1, self.of)

    def __str__(self) -> str:
        return (
            f"walk {self.number} moved {self.moved} {self.words()} count {self.count} of"
            f" {self.of} bound {self.bound:f}"
        )


@dataclasses.dataclass(frozen=True)
class Pair(Line):
    """Two outlier trajectories together, and one question."""

    first: int
    """The number of the first trajectory."""
    second: int
    """The number of the second."""
    count: int
    """The number of plans in the tail that both visited, the start plan once among them."""
    of: int
    """The number of plans that both visited, the start plan once among them."""
    bound: Decimal
    """count / q, rounded up at nine places, for q plans visited by each trajectory."""

    @classmethod
    def of_walks(cls, one: Walk, other: Walk) -> Pair:
        """Returns the pair of two trajectories with the same question."""
        count = one.count + other.count - 1
        return cls(
            one.score, one.tail, one.start, one.number, other.number, count, 2 * one.of - 1,
            round_up(count, one.of),
        )

    @property
    def part(self) -> Fraction:
        """The part of the visited plans that is in the tail."""
        return Fraction(self.count, self.of)

    def __str__(self) -> str:
        return (
            f"pair {self.first} {self.second} {self.words()} count {self.count} of {self.of}"
            f" bound {self.bound:f}"
        )


def pair_up(walks: typing.Sequence[Walk]) -> tuple[Pair, ...]:
    """Returns the pairs of trajectories 0 and 1, 2 and 3 and so on, with each question in turn.

    An odd last trajectory has no pair.
    """
    by_number: dict[int, list[Walk]] = {}
    for walk in walks:
        by_number.setdefault(walk.number, []).append(walk)
    numbers = sorted(by_number)
    return tuple(
        Pair.of_walks(one, other)
        for first, second in zip(numbers[::2], numbers[1::2])
        for one, other in zip(by_number[first], by_number[second])
    )


@dataclasses.dataclass(frozen=True)
class Ends(Line):
    """The parallel test of one question."""

    rank: int
    """One more than the number of ends in the tail."""
    of: int
    """One more than the number of ends."""
    p: Decimal
    """rank/of, rounded up at nine places."""

    def __str__(self) -> str:
        return f"ends {self.words()} rank {self.rank} of {self.of} p {self.p:f}"


@dataclasses.dataclass(frozen=True)
class Stop(Line):
    """The sequential test of one question."""

    place: int
    """The number of ends after which it stops."""
    top: int
    """The value is top/of."""
    of: int
    p: Decimal
    """The value, rounded up at nine places."""

    def __str__(self) -> str:
        return f"stop {self.words()} place {self.place} value {self.top}/{self.of} p {self.p:f}"


@dataclasses.dataclass(frozen=True)
class Serial(Line):
    """The serial test of one question."""

    place: int
    """The start plan's place in the run, from 0."""
    rank: int
    """The number of plans of the run in the tail, the start plan once among them."""
    of: int
    """The number of plans of the run."""
    p: Decimal
    """rank/of, rounded up at nine places."""

    def __str__(self) -> str:
        return (
            f"serial {self.words()} place {self.place} rank {self.rank} of {self.of}"
            f" p {self.p:f}"
        )


@dataclasses.dataclass(frozen=True)
class Shift:
    """The differences between the first party's seats and the start plan's, over all visited plans;
    `SEATS` names the nine numbers.
    """

    counts: tuple[int, ...]

    def __str__(self) -> str:
        return "shift " + " ".join(map(str, self.counts))


# ---- reading lines


def refuse(number: int, why: str) -> typing.NoReturn:
    raise ReportRefused(number, why)


class Reader:
    """The lines of a text, one after the other."""

    def __init__(self, lines: typing.Sequence[str], number: int = 1) -> None:
        self.lines, self.place, self.first = lines, 0, number

    @property
    def number(self) -> int:
        """The number of the next line."""
        return self.first + self.place

    def next(self) -> str | None:
        return self.lines[self.place] if self.place < len(self.lines) else None

    def is_at(self, word: str) -> bool:
        line = self.next()
        return line is not None and line.split(" ")[0] == word

    def take(self, form: str, example: str) -> list[str]:
        """Returns the groups of a regular expression that must match the whole next line.
        """
        line = self.next()
        if line is None:
            refuse(self.number, f"the text ends where a line `{example}` is expected")
        found = re.fullmatch(form, line)
        if found is None:
            refuse(self.number, f"it does not have the form of a line `{example}`")
        self.place += 1
        return list(found.groups())

    def numbers(self, form: str, example: str) -> list[int]:
        return [int(word) for word in self.take(form.replace("N", NUMBER), example)]

    def ask_that(self, holds: bool, why: str) -> None:
        """Refuses the line that was taken last where something does not hold."""
        if not holds:
            refuse(self.number - 1, why)


def lines_of(text: str) -> list[str]:
    """Returns the lines of a text; refuses one whose last line does not end with a line feed."""
    lines = text.split("\n")
    if lines[-1] != "":
        refuse(len(lines), "the text ends within a line")
    return lines[:-1]


class Head(typing.NamedTuple):
    units: int
    edges: int
    districts: int
    population: int
    rules: Rules

    def lines(self) -> list[str]:
        rules = self.rules
        lines = [
            f"units {self.units} edges {self.edges} districts {self.districts}",
            f"population {self.population} slack {rules.slack} low {rules.low} high {rules.high}",
        ]
        lines += [] if rules.max_cut is None else [f"max-cut {rules.max_cut}"]
        lines += (
            []
            if rules.regions is None
            else [f"max-split {rules.max_split or 0} regions {rules.regions}"]
        )
        lines += (
            []
            if rules.max_splits is None
            else [f"max-splits {rules.max_splits} max-split-regions {rules.max_split_regions or 0}"]
        )
        lines += (
            []
            if rules.group_districts is None
            else [f"group-districts {rules.group_districts} of {rules.majorities or 0}"]
        )
        lines += [] if rules.group_share is None else [f"group-share {rules.group_share}"]
        lines += [] if rules.frozen is None else [f"frozen {rules.frozen}"]
        lines += [] if rules.cut_length is None else [f"cut-length {rules.cut_length}"]
        lines += [] if rules.max_length is None else [f"max-length {rules.max_length}"]
        return lines + (
            []
            if rules.cut_weight is None
            else [
                f"cut-weight {weight_text(rules.cut_weight)} of {MOST_WEIGHT} pieces"
                f" {rules.pieces}"
            ]
        )


def source_of(lines: Reader) -> Source | None:
    """Returns the source, if the text names one."""
    if not lines.is_at("source"):
        return None
    sha256, count = lines.take(
        "source sha256 ([0-9a-f]{64}) bytes N".replace("N", NUMBER), "source sha256 H bytes n"
    )
    lines.ask_that(1 <= int(count) <= MOST_BYTES, "the byte count is out of range")
    (said,) = lines.take("columns (.*)", 'columns "P" "A" "B" "D"')
    names, words = columns_in(lines, said)
    known = words[:-1] if words[-1:] == ["length"] else words
    known = known[:-1] if known[-1:] == ["freeze"] else known
    lines.ask_that(
        known in ([], ["region"], ["group", "of"], ["region", "group", "of"]),
        "the further columns are `region`, `group` with `of`, and `freeze`, in this order",
    )
    found = dict(zip(words, names[4:]))
    lines.ask_that(
        "" not in [found.get(word) for word in ("region", "group", "freeze", "length")]
        and (found.get("of") != "" or names[0] == ""),
        "the name of a further column is empty",
    )
    population, first, second, district = names[:4]
    return Source(
        sha256, int(count), population, first, second, district, found.get("region"),
        found.get("group"), found.get("of"), found.get("freeze"), found.get("length"),
    )


def columns_in(lines: Reader, said: str) -> tuple[list[str], list[str]]:
    """Returns the names in a line of columns, and the words before each but the first four."""
    names: list[str] = []
    words: list[str] = []
    at = 0
    while at <= len(said):
        if len(names) >= 4 and not said.startswith('"', at):
            words.append(said[at:].split(" ")[0])
            at += len(words[-1]) + 1
        try:
            name, end = json.JSONDecoder().raw_decode(said, at)
        except ValueError:
            name, end = None, at
        lines.ask_that(
            isinstance(name, str)
            and quote(name) == said[at:end]
            and said[end:end + 1] in ("", " "),
            "its names are not JSON texts",
        )
        names.append(name)
        at = end + 1
    lines.ask_that(
        len(names) == 4 + len(words),
        "it needs the names of four columns, and then each further column behind its kind",
    )
    return names, words


def has_rule(lines: Reader, word: str, is_named: bool | None) -> bool:
    """Returns whether the line of a rule that needs a column stands next.

    If the text names its columns, the line stands exactly if it names the column of the rule.
    """
    is_there = lines.is_at(word)
    if is_named is not None and is_there != is_named:
        refuse(
            lines.number,
            (
                "the line `columns` names no column for this rule"
                if is_there
                else f"a line that begins with `{word}` is expected here"
            ),
        )
    return is_there


def rules_of(
    lines: Reader, units: int, edges: int, districts: int, source: Source | None
) -> dict[str, int]:
    """Returns the rules that are set, by the names of their fields."""
    found: dict[str, int] = {}
    if lines.is_at("max-cut"):
        (found["max_cut"],) = lines.numbers("max-cut N", "max-cut c")
        lines.ask_that(found["max_cut"] < MOST_CUT, "a limit at its default has no line")
    if has_rule(lines, "max-split", None if source is None else source.region is not None):
        most, regions = lines.numbers("max-split N regions N", "max-split s regions q")
        lines.ask_that(
            1 <= most <= MOST_DISTRICTS and 1 <= regions <= min(MOST_REGIONS, units),
            "the limit or the number of regions is out of range",
        )
        found.update(max_split=most, regions=regions)
        if lines.is_at("max-splits"):
            splits, split_regions = lines.numbers(
                "max-splits N max-split-regions N", "max-splits s max-split-regions k"
            )
            lines.ask_that(
                splits <= MOST_SPLITS
                and split_regions <= MOST_REGIONS
                and (splits, split_regions) != (MOST_SPLITS, MOST_REGIONS),
                "the limits are out of range, or both at their defaults",
            )
            found.update(max_splits=splits, max_split_regions=split_regions)
    if has_rule(lines, "group-districts", None if source is None else source.group is not None):
        least, majorities = lines.numbers("group-districts N of N", "group-districts m of t")
        lines.ask_that(
            least <= majorities <= districts,
            "the count of majorities is below the limit, or above the number of districts",
        )
        found.update(group_districts=least, majorities=majorities)
        if lines.is_at("group-share"):
            (found["group_share"],) = lines.numbers("group-share N", "group-share p")
            lines.ask_that(
                found["group_share"] <= MOST_SHARE and found["group_share"] != HALF_SHARE,
                "the share is out of range, or at its default",
            )
    if has_rule(lines, "frozen", None if source is None else source.freeze is not None):
        (found["frozen"],) = lines.numbers("frozen N", "frozen n")
        lines.ask_that(found["frozen"] <= units, "the count is above the number of units")
    if has_rule(lines, "cut-length", None if source is None else source.length is not None):
        (found["cut_length"],) = lines.numbers("cut-length N", "cut-length n")
        lines.ask_that(
            found["cut_length"] <= edges * MOST_LENGTH,
            "the length is too great for this number of edges",
        )
        if lines.is_at("max-length"):
            (found["max_length"],) = lines.numbers("max-length N", "max-length l")
            lines.ask_that(
                found["cut_length"] <= found["max_length"] < MOST_CUT_LENGTH,
                "the limit is below the length of the start plan's cut edges, or out of range",
            )
    return found


# Rules without any limit, which `head_of` fills.
WITHOUT = Rules(0, 0, 0)


def weight_in(
    lines: Reader, units: int, districts: int
) -> tuple[Fraction | None, int | None]:
    """Returns the weight of a cut edge and the number of its pieces, if there is a weight."""
    if not lines.is_at("cut-weight"):
        return None, None
    weight, pieces = lines.take(
        f"cut-weight {QUARTERS} of {MOST_WEIGHT} pieces {NUMBER}", "cut-weight t of 64 pieces m"
    )
    lines.ask_that(Fraction(weight) < MOST_WEIGHT, "the weight is out of range, or at its default")
    lines.ask_that(
        int(pieces) == pieces_of(units, districts),
        "the number of pieces is not that of the units and districts",
    )
    return Fraction(weight), int(pieces)


def head_of(lines: Reader, source: Source | None) -> Head:
    units, edges, districts = lines.numbers(
        "units N edges N districts N", "units n edges e districts D"
    )
    lines.ask_that(
        2 <= districts <= MOST_DISTRICTS and districts <= units <= MOST_UNITS,
        "the number of units or districts is out of range",
    )
    lines.ask_that(
        units - districts <= edges <= min(MOST_EDGES, units * (units - 1) // 2),
        "contiguous districts cannot have this number of edges",
    )
    population, slack, low, high = lines.numbers(
        "population N slack N low N high N", "population t slack b low l high h"
    )
    lines.ask_that(
        population <= BILLION * units and slack <= MOST_SLACK, "population or slack is out of range"
    )
    shares = 10_000 * districts
    lines.ask_that(
        low == -(-(10_000 - slack) * population // shares)
        and high == (10_000 + slack) * population // shares
        and low <= high,
        "the bounds are not those of the population and the slack",
    )
    found = rules_of(lines, units, edges, districts, source)
    weight, pieces = weight_in(lines, units, districts)
    rules = dataclasses.replace(WITHOUT, slack=slack, low=low, high=high, cut_weight=weight)
    rules = dataclasses.replace(rules, pieces=pieces, **found)
    return Head(units, edges, districts, population, rules)


def setting_of(lines: Reader) -> Setting:
    walks, steps, ends, hub_steps = lines.numbers(
        "walks N steps N ends N hub-steps N", "walks M steps k ends m hub-steps r"
    )
    lines.ask_that(
        1 <= walks + ends <= MOST_TRAJECTORIES
        and 1 <= steps <= BILLION
        and 1 <= hub_steps <= BILLION,
        "a number is out of range",
    )
    stop = 0
    if lines.is_at("stop") and len((lines.next() or "").split(" ")) == 2:
        (stop,) = lines.numbers("stop N", "stop h")
        lines.ask_that(
            1 <= stop <= MOST_TRAJECTORIES and ends >= 1,
            "the number of ends in the tail is out of range",
        )
    return Setting(walks, steps, ends, hub_steps, stop)


def round_up(top: int, of: int) -> Decimal:
    """Returns top/of, rounded up at nine places, as the report writes it."""
    whole, rest = divmod(-(-top * BILLION // of), BILLION)
    return Decimal(f"{whole}.{rest:09}")


def bound_of(count: int, of: int) -> Decimal:
    """Returns the square root of 2 count/of, rounded up at nine places."""
    return root_up(2 * count, of)


def root_up(top: int, of: int) -> Decimal:
    """Returns the square root of top/of, rounded up at nine places."""
    least = -(-top * BILLION * BILLION // of)
    root = math.isqrt(least)
    whole, rest = divmod(root if root * root >= least else root + 1, BILLION)
    return Decimal(f"{whole}.{rest:09}")


class Tests:
    """The lines of the tests.

    All have the same questions, in the same order, and the same start.
    """

    def __init__(self, lines: Reader, head: Head, setting: Setting) -> None:
        self.lines, self.head, self.setting = lines, head, setting
        self.starts: dict[str, Start] = {}
        self.asks = self.find_asks()

    def find_asks(self) -> list[tuple[str, str]]:
        """Returns the questions, from the lines of the first trajectory, or from those of the first
        test if there are no outlier walks.
        """
        first = "walk 0 " if self.setting.walks else "stop " if self.setting.stop else "ends "
        asks: list[tuple[str, str]] = []
        for number, line in enumerate(self.lines.lines[self.lines.place:], self.lines.number):
            found = re.search(f" ({'|'.join(SCORES)}) ({'|'.join(TAILS)}) start ", line)
            if not line.startswith(first) or found is None:
                break
            if (found[1], found[2]) in asks or len(asks) == 4:
                refuse(number, "a question is asked twice, or there are more than four")
            asks.append((found[1], found[2]))
        if not asks:
            refuse(
                self.lines.number, f"a line that begins with `{first.strip()}` is expected here"
            )
        return asks

    def line(self, ask: tuple[str, str], form: str, example: str) -> tuple[Start, list[str]]:
        """Returns the start's score in the next line, and the words before and after it.

        In the form, A stands for the question, N for a number and Z for a number with nine places.
        """
        at = form[: form.index("A")].count("N")
        words = self.lines.take(
            form.replace("N", NUMBER).replace("Z", NINE).replace("A", ASK), example
        )
        score, tail, top, below = words[at:at + 4]
        self.lines.ask_that((score, tail) == ask, f"{ask[0]}:{ask[1]} is expected here")
        return self.start(score, int(top), int(below)), words[:at] + words[at + 4:]

    def start(self, score: str, top: int, below: int) -> Start:
        """Returns the start's score; refuses one that no legal plan of this report can have."""
        head, start = self.head, Start(top, below)
        if score in ("seats", "cut-edges"):
            most = (
                head.districts
                if score == "seats"
                else (
                    head.edges
                    if head.rules.max_cut is None
                    else min(head.edges, head.rules.max_cut)
                )
            )
            is_good = below == 1 and 0 <= top <= most
        elif score == "cut-length":
            is_good = below == 1 and top == head.rules.cut_length
        elif score == "mean-median":
            is_good = below == 2 * head.districts * BILLION and abs(top) <= below
        elif score == "gap":
            is_good = (
                0 < below <= 4 * BILLION * head.units and below % 2 == 0 and 2 * abs(top) <= below
            )
        else:
            raise ValueError(f"unknown score {score}")
        self.lines.ask_that(is_good, "no plan has this score")
        self.lines.ask_that(
            self.starts.setdefault(score, start) == start,
            "the start plan's score differs from that on an earlier line",
        )
        return start

    def both_tails(
        self, found: typing.Sequence[Line], counts: typing.Sequence[int], least: int
    ) -> None:
        """Refuses counts of both tails of a score that leave out a plan: each is in one, an equal
        one in both.
        """
        for one, count in zip(found, counts):
            for other, others in zip(found, counts):
                if one.score == other.score and one.tail == "low" and other.tail == "high":
                    self.lines.ask_that(
                        count + others >= least, f"some plan is in neither tail of {one.score}"
                    )

    def walks(self) -> tuple[Walk, ...]:
        found: list[Walk] = []
        for number in range(self.setting.walks):
            found += self.walk(number)
        return tuple(found)

    def walk(self, number: int) -> list[Walk]:
        """Reads the lines of one trajectory."""
        found: list[Walk] = []
        for ask in self.asks:
            start, words = self.line(
                ask, "walk N moved N A count N of N bound Z",
                "walk j moved v SCORE TAIL start x/y count c of q bound z",
            )
            of_walk, moved, count, of = map(int, words[:4])
            walk = Walk(*ask, start, of_walk, moved, count, of, Decimal(words[4]))
            found.append(walk)
            self.lines.ask_that(walk.number == number, f"walk {number} is expected here")
            self.lines.ask_that(
                walk.moved == found[0].moved and walk.moved <= self.setting.steps,
                "the moves differ from an earlier line, or are above the steps",
            )
            self.lines.ask_that(
                walk.of == self.setting.steps + 1 and 1 <= walk.count <= walk.of,
                "the count of visited plans is out of range",
            )
            self.lines.ask_that(
                walk.moved > 0 or walk.count == walk.of,
                "with no moves, every visited plan is the start plan",
            )
            self.lines.ask_that(
                walk.bound == bound_of(walk.count, walk.of), "the bound is not that of the count"
            )
        self.both_tails(found, [walk.count for walk in found], self.setting.steps + 2)
        return found

    def pairs(self, walks: tuple[Walk, ...]) -> None:
        """Reads the lines of pairs, which follow from the lines of walks."""
        found = pair_up(walks)
        if not found:
            refuse(self.lines.number, "a pair needs two walks")
        for pair in found:
            _, words = self.line(
                (pair.score, pair.tail), "pair N N A count N of N bound Z",
                "pair j l SCORE TAIL start x/y count c of n bound z",
            )
            self.lines.ask_that(
                words[:2] == [str(pair.first), str(pair.second)],
                f"pair {pair.first} {pair.second} is expected here",
            )
            self.lines.ask_that(
                words[2:4] == [str(pair.count), str(pair.of)],
                "the counts are not those of both walks, with the start plan counted once",
            )
            self.lines.ask_that(
                words[4] == f"{pair.bound:f}", "the bound is not that of the count"
            )

    def shift(self, walks: tuple[Walk, ...]) -> Shift:
        counts = self.lines.numbers("shift" + 9 * " N", "shift " + " ".join("c" * 9))
        setting = self.setting
        self.lines.ask_that(
            sum(counts) == setting.walks * (setting.steps + 1) and counts[4] >= setting.walks,
            "the numbers do not add up to the plans that are visited",
        )
        for tail, part in (("low", counts[:5]), ("high", counts[4:])):
            visits = [walk.count for walk in walks if walk.ask == "seats:" + tail]
            self.lines.ask_that(
                not visits or sum(visits) == sum(part),
                f"the numbers disagree with the lines on seats:{tail}",
            )
        return Shift(tuple(counts))

    def stops(self) -> tuple[Stop, ...]:
        found, enough, ends = [], self.setting.stop, self.setting.ends
        for ask in self.asks:
            start, words = self.line(
                ask, "stop A place N value N/N p Z",
                "stop SCORE TAIL start x/y place l value t/o p z",
            )
            place, top, of = map(int, words[:3])
            stop = Stop(*ask, start, place, top, of, Decimal(words[3]))
            early = stop.top == enough and stop.of == stop.place and enough <= stop.place <= ends
            late = 1 <= stop.top <= enough and stop.of == ends + 1 and stop.place == ends
            self.lines.ask_that(early or late, "no test stops at this place")
            self.lines.ask_that(
                stop.p == round_up(stop.top, stop.of), "p is not that of the value"
            )
            found.append(stop)
        return tuple(found)

    def ends(self) -> tuple[Ends, ...]:
        found, of = [], self.setting.ends + 1
        for ask in self.asks:
            start, words = self.line(
                ask, "ends A rank N of N p Z", "ends SCORE TAIL start x/y rank g of q p z"
            )
            one = Ends(*ask, start, int(words[0]), int(words[1]), Decimal(words[2]))
            self.rank_that_is(one.rank, one.of, of, one.p)
            found.append(one)
        self.both_tails(found, [one.rank for one in found], of + 1)
        return tuple(found)

    def serial(self) -> tuple[Serial, ...]:
        found, of = [], self.setting.steps + 1
        for ask in self.asks:
            start, words = self.line(
                ask, "serial A place N rank N of N p Z",
                "serial SCORE TAIL start x/y place t rank g of q p z",
            )
            one = Serial(
                *ask, start, int(words[0]), int(words[1]), int(words[2]), Decimal(words[3])
            )
            found.append(one)
            self.lines.ask_that(
                of & of - 1 == 0, "the number of plans of a serial run is a power of two"
            )
            self.lines.ask_that(
                one.place == found[0].place and one.place < of,
                "the start plan's place is out of range, or differs from an earlier line",
            )
            self.rank_that_is(one.rank, one.of, of, one.p)
        self.both_tails(found, [one.rank for one in found], of + 1)
        return tuple(found)

    def rank_that_is(self, rank: int, total: int, of: int, p: Decimal) -> None:
        self.lines.ask_that(total == of and 1 <= rank <= of, "the rank is out of range")
        self.lines.ask_that(p == round_up(rank, of), "p is not that of the rank")


def make_cells(test: str, line: Line) -> dict[str, object]:
    """Returns what each row of a frame has: the test, the question, and the start's score."""
    return {
        "test": test,
        "ask": line.ask,
        "score": line.score,
        "tail": line.tail,
        "start": line.start,
    }


# ---- the texts


def add_decimal(row: typing.Sequence[object]) -> list[object]:
    """Returns a row whose score has decimals beside its fraction, if it is not a whole number.
    """
    return [
        (
            f"{cell} = {cell.decimal:.6g}"
            if isinstance(cell, Start) and cell.denominator != 1
            else cell
        )
        for cell in row
    ]


def table(rows: typing.Iterable[typing.Sequence[object]], titles: typing.Sequence[str]) -> str:
    """Returns a plain table in HTML."""

    def row_of(tag: str, row: typing.Sequence[object]) -> str:
        texts = (
            "" if cell is None else f"{cell:f}" if isinstance(cell, Decimal) else str(cell)
            for cell in row
        )
        return f"<tr>{''.join(f'<{tag}>{html.escape(text)}</{tag}>' for text in texts)}</tr>"

    body = "".join(row_of("td", row) for row in rows)
    return f"<table><thead>{row_of('th', titles)}</thead><tbody>{body}</tbody></table>"


@dataclasses.dataclass(frozen=True, repr=False)
class PlanCheck:
    """The text of `check`: the plan is legal. Populations are numbers of people.

    From `check` it also has the table of the districts, and with strict=False the faults of a plan
    that the program refused.
    """

    units: int
    edges: int
    districts: int
    population: int
    rules: Rules
    source: Source | None = None
    """The bytes and columns that were read; None if the text does not name them."""
    table: tuple[District, ...] = dataclasses.field(default=(), compare=False)
    """The districts, by their numbers. The package computes them; a text alone has none."""
    cut_edges: int | None = dataclasses.field(default=None, compare=False)
    """The number of edges between districts; None of a text alone."""
    faults: tuple[str, ...] = ()
    """Every fault of the plan, in the user's labels; empty where the program found it legal."""
    cut_length: int | None = dataclasses.field(default=None, compare=False)
    """The total length of the edges between districts; None of a text alone, and where no column
    of lengths was named.
    """

    @property
    def is_legal(self) -> bool:
        """Returns whether the program found the plan legal."""
        return not self.faults

    def add_plan(self, plan: Plan) -> PlanCheck:
        """Adds the districts to what the program wrote."""
        return dataclasses.replace(
            self, table=plan.districts, cut_edges=plan.cut_edges, cut_length=plan.cut_length
        )

    @property
    def own_numbers(self) -> dict[str, int]:
        """The plan's own numbers by the names of the limits that count them, as facts: a limit is
        not to be made from them. Empty of a text alone.
        """
        share = own_limits.HALF if self.rules.group_share is None else self.rules.group_share
        return own_limits.own_numbers(self.table, self.cut_edges, self.cut_length, share)

    @classmethod
    def from_plan(cls, plan: Plan, edges: int, rules: Rules) -> PlanCheck:
        """Returns what is known of a plan that the program refused."""
        units, population = (
            sum(getattr(one, name) for one in plan.districts) for name in ("units", "population")
        )
        return cls(
            units, edges, len(plan.districts), population, rules, None, plan.districts,
            plan.cut_edges, plan.faults, plan.cut_length,
        )

    def to_frame(self, exact: bool = False) -> pandas.DataFrame:
        """Returns a pandas DataFrame with a row for each district.

        `district` is its label, `number` its number to the auditor; `units`, `population`, `first`,
        `second`, `group` and `group_of` are counts; `deviation` is in people, and `deviation_share`
        a part of the ideal population; `first_share` is the first party's part of both parties'
        votes, `group_share` the group's part of `group_of`; `regions` is the number of regions in
        which the district lies, and `split_regions` how many of these lie in others, too; `parts`
        is the number of its contiguous parts. Shares are floats; with exact=True they are Fraction.

        Raises MissingExtra, an ImportError, if pandas is not installed.
        """
        from . import districts

        frame = extra("pandas").DataFrame(
            districts.rows_of(self.table, exact), columns=list(districts.COLUMNS)
        )
        whole = [
            name
            for name in districts.COLUMNS
            if name not in ("district", "deviation") and not name.endswith("share")
        ]
        return frame.astype({name: "Int64" for name in whole})

    def __repr__(self) -> str:
        state = "legal" if self.is_legal else f"{len(self.faults)} faults"
        return (
            f"<PlanCheck: {state}, {self.units} units, {self.districts} districts,"
            f" {self.population} people>"
        )

    def _repr_html_(self) -> str:
        from . import decimals, districts

        rules = self.rules
        about = (
            f"{self.units} units, {self.edges} edges, {self.districts} districts,"
            f" {self.population} people; {rules.low} to {rules.high} people a district"
        )
        about += "" if self.cut_edges is None else f"; {self.cut_edges} cut edges"
        about += "" if self.cut_length is None else f"; cut length {self.cut_length}"
        faults = "".join(f"<li>{html.escape(fault)}</li>" for fault in self.faults)
        titles, rows = districts.shown_rows(self.table)
        state = f"The plan is refused:<ul>{faults}</ul>" if faults else "The plan is legal."
        return f"<p>{html.escape(about)}</p><div>{state}</div>" + (
            f"{table(rows, titles)}<p>{decimals.ROUNDED_DOWN}</p>" if rows else ""
        )

    @classmethod
    def parse(cls, text: str) -> PlanCheck:
        """Returns a check text as a value.

        Raises ReportRefused, with the number of the line, if its form or its arithmetic is
        impossible. A forged count passes: only a recomputation finds it.
        """
        lines = Reader(lines_of(text))
        lines.take("plan-check 1", "plan-check 1")
        source = source_of(lines)
        head = head_of(lines, source)
        finish(lines)
        return cls(*head, source)

    def __str__(self) -> str:
        if self.faults:
            return "\n".join(["the plan is refused:", *self.faults, ""])
        head = Head(self.units, self.edges, self.districts, self.population, self.rules)
        return "\n".join(
            [
                "plan-check 1", *([] if self.source is None else self.source.lines()),
                *head.lines(), "end", "",
            ]
        )


def finish(lines: Reader) -> None:
    """Reads the line `end`; refuses any text after it."""
    lines.take("end", "end")
    if lines.next() is not None:
        refuse(lines.number, "text follows the line `end`")


COLUMNS = ("test", "walk", "ask", "start", "moved", "place", "count", "of", "bound", "p")
# The columns of a frame, each with one meaning, and those of them that are whole numbers.
FRAME = (
    "test", "walk", "second_walk", "ask", "score", "tail", "start", "moved", "visited", "in_tail",
    "share", "bound", "rank", "of", "stopped_after", "start_place", "p",
)
FLOAT_COLUMNS = ("start", "share", "bound", "p")
WHOLE_COLUMNS = (
    "walk", "second_walk", "moved", "visited", "in_tail", "rank", "of", "stopped_after",
    "start_place",
)


def split_unproved(text: str) -> tuple[str, str]:
    """Returns the line that says that there is no proof, or nothing, and the rest of a text."""
    found = NOT_PROVED.match(text)
    return (found[0], text[found.end():]) if found else ("", text)


@dataclasses.dataclass(frozen=True, repr=False)
class Report:
    """A report. `str` of it is its text, byte for byte."""

    key: str
    """The key's 64 hexadecimal digits."""
    units: int
    edges: int
    districts: int
    population: int
    """In people."""
    rules: Rules
    setting: Setting
    walks: tuple[Walk, ...]
    """A line for each outlier trajectory and question."""
    shift: Shift | None
    """The histogram of seats, where it was asked for."""
    stops: tuple[Stop, ...]
    """The sequential tests, one for each question; empty where nothing stops early."""
    ends: tuple[Ends, ...]
    """The parallel tests, one for each question; empty where there are no ends."""
    serial: tuple[Serial, ...]
    """The serial tests, one for each question; empty where it was not asked for."""
    source: Source | None = None
    """The bytes and columns that were read; None if the text does not name them."""
    audited: Audited | None = dataclasses.field(default=None, compare=False)
    """The graph of the call that made this report; None for a text that was read."""
    batch: Batch | None = dataclasses.field(default=None, compare=False)
    """The plans or elections among which this report is one; None if it is by itself."""
    has_pairs: bool = False
    """True if the text has lines of pairs, as `pairs=True` asks for."""
    unproved: str = ""
    """The first line of a text that says that its program was built without a proof."""

    @classmethod
    def parse(cls, text: str) -> Report:
        """Returns the text of a report as a value.

        Raises ReportRefused, with the number of the line, if its form or its arithmetic is
        impossible. A forged count passes: only a recomputation finds it.
        """
        front, rest = split_unproved(text)
        lines = Reader(lines_of(rest))
        report = cls.read(lines)
        if lines.next() is not None:
            refuse(lines.number, "text follows the line `end`")
        return dataclasses.replace(report, unproved=front) if front else report

    @property
    def proved(self) -> bool:
        """False if the text says that its program was built without a proof."""
        return not self.unproved

    @classmethod
    def load(cls, path: PathLike, manifest: PathLike | None = None) -> Report:
        """Returns the report in a file, with what its manifest says of the call that made it, and
        of the other reports of its question.

        The manifest is the one in the file's folder that names the report by its SHA-256, or the
        one that is given. Without one the report is as `parse` reads it.

        Raises OSError; ReportRefused if the file is no report; ManifestRefused if the given
        manifest does not name it.
        """
        from .study import load_report

        return load_report(path, manifest)

    def to_files(self, path: PathLike, decides: str | None = None) -> None:
        """Writes the report and its manifest `PATH.manifest.json`; see `audit_to_file`. Pages of
        the report then know the announced number, as those of the file do.

        Raises ValueError if the report was read from a text, if it is one of several, or if it has
        no number that is named as `decides` says; OSError.
        """
        from .study import announce, write_study

        write_study(path, [("", self)], decides)
        # The call that made a report is no part of its value.
        object.__setattr__(self, "audited", announce(self, decides).audited)

    @classmethod
    def parse_plans(cls, text: str) -> list[tuple[str, Report]]:
        """Returns the name and the report of each plan in a text of `plans`, in order.

        Names may be equal. Raises ReportRefused, with the number of the line, if the program cannot
        have written the text.
        """
        front, rest = split_unproved(text)
        lines, found = Reader(lines_of(rest)), []
        while lines.next() is not None:
            (name,) = lines.take("plan (.*)", "plan NAME")
            found.append((name, dataclasses.replace(cls.read(lines), unproved=front)))
        if not found:
            refuse(1, "there is no plan")
        return join_batch("plan", found)

    @classmethod
    def read(cls, lines: Reader) -> Report:
        """Reads the next report from some lines."""
        (version,) = lines.take("district-audit ([12])", "district-audit 1")
        source = source_of(lines)
        (key,) = lines.take("key ([0-9a-f]{64})", "key K")
        head, setting = head_of(lines, source), setting_of(lines)
        tests = Tests(lines, head, setting)
        walks = tests.walks()
        has_pairs = lines.is_at("pair")
        if has_pairs:
            tests.pairs(walks)
        shift = tests.shift(walks) if version == "2" else None
        stops = tests.stops() if setting.stop else ()
        ends = tests.ends() if setting.ends and not setting.stop else ()
        serial = tests.serial() if lines.is_at("serial") else ()
        lines.take("end", "end")
        return cls(
            key, *head, setting, walks, shift, stops, ends, serial, source, has_pairs=has_pairs
        )

    def __str__(self) -> str:
        setting = self.setting
        head = Head(self.units, self.edges, self.districts, self.population, self.rules)
        lines = [
            f"district-audit {1 if self.shift is None else 2}",
            *([] if self.source is None else self.source.lines()),
            "key " + self.key,
            *head.lines(),
            (
                f"walks {setting.walks} steps {setting.steps} ends {setting.ends} hub-steps"
                f" {setting.hub_steps}"
            ),
        ]
        lines += [f"stop {setting.stop}"] if setting.stop else []
        lines += map(str, (*self.walks, *self.pair_lines))
        lines += [] if self.shift is None else [str(self.shift)]
        lines += map(str, (*self.stops, *self.ends, *self.serial))
        return self.unproved + "\n".join([*lines, "end", ""])

    @property
    def pairs(self) -> tuple[Pair, ...]:
        """Each pair of outlier trajectories (0 and 1, 2 and 3, ..) with each question.

        They follow from the counts of the walks, so a report without lines of pairs has them, too.
        Under the null hypothesis a pair's bound of z or less has probability at most z:
        docs/user/READING_A_REPORT.md has the proof. Never multiply bounds with each other.
        """
        return pair_up(self.walks)

    @property
    def pair_lines(self) -> tuple[Pair, ...]:
        """The pairs if the text has them, and nothing otherwise."""
        return self.pairs if self.has_pairs else ()

    def combine_pairs(self) -> dict[str, Decimal]:
        """Returns one bound for all pairs of a question, by question, in the report's order.

        With one pair it is the pair's bound. With several it is twice the mean of count/q over the
        pairs, for q plans of a walk, rounded up at nine places. Twice the mean of p-values is a
        p-value however they depend on each other (Vovk and Wang, Biometrika 107, 2020). All walks
        start at the same plan, so a product of bounds would say too much. Announce before the run
        that this number decides. A question without a pair is left out.
        """
        found = {}
        for ask in self.asks:
            pairs = [pair for pair in self.pairs if pair.ask == ask]
            total, plans = sum(pair.count for pair in pairs), self.setting.steps + 1
            if len(pairs) == 1:
                found[ask] = pairs[0].bound
            elif pairs:
                found[ask] = round_up(2 * total, len(pairs) * plans)
        return found

    @property
    def warnings(self) -> tuple[MapWarning, ...]:
        """Likely mistakes in the map that was audited, and in the question about it.

        A report that was read from a file has only those that its own text shows.
        """
        if self.audited is not None:
            return self.audited.warnings
        from .slips import of_report

        return tuple(of_report(self))

    @property
    def asks(self) -> tuple[str, ...]:
        """The questions, in the order in which they were asked."""
        return tuple(dict.fromkeys(line.ask for line in (*self.walks, *self.stops, *self.ends)))

    def rows(self) -> list[tuple[object, ...]]:
        """Returns a row for each line of a test, with the columns `COLUMNS`; a value that the test
        does not have is None.
        """
        rows: list[tuple[object, ...]] = []
        rows += [
            (
                "walk", walk.number, walk.ask, walk.start, walk.moved, None, walk.count, walk.of,
                walk.bound, None,
            )
            for walk in self.walks
        ]
        rows += [
            (
                "pair", f"{pair.first} {pair.second}", pair.ask, pair.start, None, None, pair.count,
                pair.of, pair.bound, None,
            )
            for pair in self.pair_lines
        ]
        rows += [
            ("stop", None, one.ask, one.start, None, one.place, one.top, one.of, None, one.p)
            for one in self.stops
        ]
        rows += [
            ("ends", None, one.ask, one.start, None, None, one.rank, one.of, None, one.p)
            for one in self.ends
        ]
        return rows + [
            ("serial", None, one.ask, one.start, None, one.place, one.rank, one.of, None, one.p)
            for one in self.serial
        ]

    def named_rows(self) -> list[dict[str, object]]:
        """Returns a row for each line of a test, by the names in `FRAME`."""
        rows: list[dict[str, object]] = []
        for walk in self.walks:
            rows.append(
                dict(
                    walk=walk.number, moved=walk.moved, visited=walk.of, in_tail=walk.count,
                    share=walk.part, bound=walk.bound, **make_cells("walk", walk),
                )
            )
        for pair in self.pair_lines:
            rows.append(
                dict(
                    walk=pair.first, second_walk=pair.second, visited=pair.of, in_tail=pair.count,
                    share=pair.part, bound=pair.bound, **make_cells("pair", pair),
                )
            )
        for stop in self.stops:
            rows.append(
                dict(
                    rank=stop.top, of=stop.of, stopped_after=stop.place, p=stop.p,
                    **make_cells("stop", stop),
                )
            )
        for one in self.ends:
            rows.append(dict(rank=one.rank, of=one.of, p=one.p, **make_cells("ends", one)))
        for run in self.serial:
            rows.append(
                dict(
                    rank=run.rank, of=run.of, start_place=run.place, p=run.p,
                    **make_cells("serial", run),
                )
            )
        return rows

    def to_frame(self, exact: bool = False) -> pandas.DataFrame:
        """Returns a pandas DataFrame with a row for each line of a test.

        `test` is walk, pair, stop, ends or serial; `ask` is `score`, a colon and `tail`; `start` is
        the enacted plan's score. Of a walk: `walk` is its number, `moved` the number of steps that
        changed the plan, `visited` the number of plans visited, `in_tail` how many of them are as
        extreme as the enacted plan, itself among them, `share` their part, and `bound` the report's
        bound. Of a pair of walks the same, for both together; `second_walk` is the number of the
        second. A report has pairs here if it was asked for them. Of the other tests: `rank` of `of`
        is the enacted plan's rank, and `p` the p-value; of a test that stops early these are the
        two numbers of its value, and `stopped_after` the number of ends that it took; `start_place`
        is the enacted plan's place in a serial run, from 0.

        Whole numbers are nullable integers (Int64): what a test does not have is NA. Scores, bounds
        and p-values are floats; with exact=True they are Fraction and Decimal.

        Raises MissingExtra, an ImportError, if pandas is not installed.
        """
        pandas = extra("pandas")

        def plain(value: object) -> object:
            if isinstance(value, Start):
                value = value.fraction
            return float(value) if isinstance(value, (Fraction, Decimal)) and not exact else value

        rows = [[plain(row.get(name)) for name in FRAME] for row in self.named_rows()]
        kinds = {name: "Int64" for name in WHOLE_COLUMNS}
        # A column without a value would else be one of objects, which nothing compares.
        kinds.update({} if exact else {name: "float64" for name in FLOAT_COLUMNS})
        return pandas.DataFrame(rows, columns=list(FRAME)).astype(kinds)

    def effect(self, epsilon: Number, alpha: Number) -> dict[str, Effect]:
        """Returns for each ask the test that separates an effect's size from its significance.

        A walk shows the enacted plan as an epsilon-outlier if its `count` is at most epsilon times
        its `of`; the enacted plan itself is in the count. The result says on how many of the m
        walks that is so, and bounds the chance of that many or more for a plan that is not among
        the alpha most fragile legal plans (of a run with a weight on cut edges, counted by their
        chances): P(X >= that many), where X is binomial of m trials
        with chance sqrt(2 epsilon / alpha) each. `p` is that tail, computed in exact arithmetic
        and rounded up at nine places. A plan's fragility is its chance to be an epsilon-outlier
        on a walk from it.

        `pair_p` is the same for pairs of walks. A pair shows an outlier if its count is at most
        c, the greatest whole number in epsilon times its plans, and each of the pairs does so with
        chance at most c / (alpha q), for q plans of a walk. Fragile means here: likely to be an
        outlier of a pair. Name before the run which of `p` and `pair_p` decides.

        Parameters
        ----------
        epsilon : Fraction, Decimal, str or int
            At least 1 / (steps + 1) and at most 1, as "0.0001" or "1/10000".
        alpha : Fraction, Decimal, str or int
            Above 0 and at most 1. At 2 epsilon and below the bound is 1 and says nothing.

        Returns
        -------
        dict of str to Effect
            By ask, as "cut-edges:low", in the report's order.

        Conditions: fix epsilon, alpha, the asks, and the number and length of the walks before
        the run. The enacted plan need not be random. The walks must be random, and independent of
        each other, which rests on the key. If several asks, epsilons or alphas are tested,
        multiply the least p by their number.

        Raises TypeError for a float (give it as a text) and other types; ValueError for a number
        out of range and for a report without walks.

        Source: Chikina, Frieze, Mattingly and Pegden, 'Separating effect from significance in
        Markov chain tests', Statistics and Public Policy 7 (2020).
        """
        return test_effects(self, epsilon, alpha)

    def exhibit(
        self,
        path: PathLike,
        *,
        title: str = "Outlier test of a districting plan",
        parties: tuple[str, str] | None = None,
        graph: object = None,
        columns: typing.Mapping[str, str] | None = None,
        command: str | None = None,
        notes: typing.Sequence[str] = (),
        epsilon: Number | None = None,
        alpha: Number | None = None,
        decides: str | None = None,
        manifest: PathLike | None = None,
        names: typing.Mapping[str, str] | None = None,
        geometry: object = None,
        plan: object = None,
        ids: str | None = None,
    ) -> None:
        """Writes the report as one self-contained page of HTML, for a court.

        The page has the questions and definitions, the methods, the numbers, figures, the theorems
        with their assumption, what the report does not say, hashes, the command, and the report in
        full. It loads nothing and prints in black and white. For a report out of several plans or
        elections, it names all of these and counts the bounds and p-values of all.

        Parameters
        ----------
        path : path
            The file to write, as "exhibit.html".
        title : str
            The heading of the page.
        parties : tuple of two str
            The names of the parties, in the order of the columns `first` and `second`.
        graph : Prepared, bytes, path, or a graph of networkx or GerryChain
            The graph of the report, for a table of the enacted plan's districts. For a report of
            `plans` on another plan than the graph's own, leave it out. It is compared
            with the report byte by byte, an object after it is prepared as for the run, if the
            report is that of a call of this package or has the line `source`.
        columns : dict
            The columns by the words pop, first, second, district, region, group, group_of, freeze
            and length; if left out, those of the report's own line or of the call that made it. If
            given, each column of a rule of the report must be there: the printed command needs
            it, and its counts are compared with those of the report.
        command : str
            The command to print; if left out, it is written from the report.
        notes : sequence of str
            Paragraphs of your own below the heading: the data, the plan, how the key was chosen.
        epsilon, alpha : Fraction, Decimal, str or int
            With both, the page has the test of `effect` too.
        decides : str
            The number that was announced before the run as the one that counts: the word of its
            line and the ask, as "ends seats:low", "walk 0 gap:high" or, of an election or plan,
            "GOV18 ends seats:low". Left out it is that of the manifest. Without one the page
            multiplies the least number by the number of all.
        manifest : path
            The manifest of a report that was read from a text. `Report.load` finds it. Without a
            manifest the page cannot know how many numbers were computed for the question, and says
            so.
        names : dict
            What the page calls the group, the regions and the unit of length, as {"group": "Black
            voting-age population", "region": "counties", "length": "meters"}.
        geometry : GeoDataFrame, GeoSeries, or dict of shapely geometries by unit
            The units' areas, for a map of the enacted plan's districts. It needs shapely, and the
            graph: the report's own, of a call of this package, or `graph`.
        plan : Sample of a trace, or dict of districts by unit, or a list of these
            Plans whose maps are drawn beside that of the enacted plan, with a sentence on how their
            cut edges compare. Samples of a list need `frozen()`.
        ids : str
            The column of a GeoDataFrame that has the units' ids; if left out, the index or the only
            column that has all of them.

        Raises ManifestRefused, a ValueError, if the manifest does not name the report; ValueError
        if the graph or a column is not that of the report, if a column is missing, or if a graph is
        given for another plan than the graph's own.
        """
        from . import exhibit

        options = exhibit.Options(
            title, parties, graph, columns, command, notes, epsilon, alpha, decides, manifest,
            names, geometry, plan, ids,
        )
        exhibit.write(path, [("", self)], options)

    def plot(
        self,
        name: PathLike | None = None,
        *,
        ax: matplotlib.axes.Axes | None = None,
        title: str | None = None,
        parties: typing.Sequence[str] | None = None,
        scores: typing.Sequence[str] | str | None = None,
        names: typing.Mapping[str, str] | None = None,
    ) -> matplotlib.figure.Figure:
        """Draws the report, and returns the matplotlib figure.

        Parameters
        ----------
        name : path, optional
            The file to write, as "picture.png", "picture.svg" or "picture.pdf". A name without the
            end of a format is that of two files, NAME.png and NAME.svg.
        ax : matplotlib Axes, optional
            The first panel alone, the walks or else the rank tests, is drawn there.
        title : str, optional
            What stands above the figure, or above the Axes.
        parties : pair of str, optional
            The names of the first and the second party.
        scores : str or list of str, optional
            The scores, as "seats", or questions, as "gap:high", that are drawn; all where left out.
        names : dict, optional
            Names for the group, the regions and the unit of length, as for `exhibit`.

        Raises
        ------
        ValueError
            No line of the report has one of these scores.
        MissingExtra
            An ImportError, where matplotlib is not installed.
        """
        from . import picture

        figure = picture.draw(
            self, ax=ax, title=title, parties=parties, scores=scores, names=names
        )
        if name is not None:
            picture.save(figure, name)
        return figure

    def plot_map(
        self,
        geometry: object,
        name: PathLike | None = None,
        *,
        graph: object = None,
        columns: typing.Mapping[str, str] | None = None,
        plan: object = None,
        ids: str | None = None,
        title: str | None = None,
    ) -> matplotlib.figure.Figure:
        """Draws a map of the enacted plan's districts, and of other plans' beside it.

        Parameters
        ----------
        geometry : GeoDataFrame, GeoSeries, or dict of shapely geometries by unit
            The units' areas.
        name : path, optional
            The file to write, as for `plot`.
        graph : as for `exhibit`, optional
            The graph that was audited; if left out, that of the call that made the report.
        columns : dict, optional
            The columns, as for `exhibit`, if the report does not name them.
        plan : Sample of a trace, or dict of districts by unit, or a list of these, optional
            The plans that are drawn beside the enacted one. Samples of a list need `frozen()`.
        ids : str, optional
            The column of a GeoDataFrame that has the units' ids; if left out, the index or the only
            column that has all of them.
        title : str, optional
            The title above the maps.

        Raises
        ------
        ValueError
            A unit has no shape or no district, or the graph is not that of the report.
        MissingExtra
            An ImportError, where matplotlib or shapely is not installed.
        """
        from . import district_map, map_figures, picture

        maps = district_map.maps_of(
            self, geometry, graph=graph, columns=columns, plan=plan, ids=ids
        )
        figure = map_figures.plot_maps(maps, title)
        if name is not None:
            picture.save(figure, name)
        return figure

    def __repr__(self) -> str:
        setting = self.setting
        walked = [f"{setting.walks} walks of {setting.steps} steps"] if setting.walks else []
        walked += [f"{setting.ends} ends of {setting.hub_steps} steps"] if setting.ends else []
        return (
            f"<Report: {self.units} units, {self.districts} districts, {', '.join(walked)};"
            f" {', '.join(self.asks)}; key {self.key[:8]}..>"
        )

    def _repr_html_(self) -> str:
        from . import wording

        rules = self.rules
        limits = [
            f"{rules.low} to {rules.high} people a district",
            *wording.describe_limits(rules, wording.Names(), self.edges, self.districts),
        ]
        about = (
            f"{self.units} units, {self.edges} edges, {self.districts} districts,"
            f" {self.population} people; {'; '.join(limits)}; key {self.key}"
        )
        about += (
            ""
            if self.source is None
            else f"; source sha256 {self.source.sha256}, {self.source.size} bytes"
        )
        shift = (
            ""
            if self.shift is None
            else table([self.shift.counts], ["seats " + word for word in SEATS])
        )
        return f"<p>{html.escape(about)}</p>{table(map(add_decimal, self.rows()), COLUMNS)}{shift}"
