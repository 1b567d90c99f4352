"""Numbers of a map that mean nothing, or not what was meant, each as a warning.

All of them are found in the values that the program reads, in the user's ids and labels. What is
lost where numbers are made whole is found in the values from before.
"""
from __future__ import annotations

import typing
from fractions import Fraction

from .arguments import TABLE, Words
from .decimals import round_down
from .graphs import Label, as_json
from .warnings import (
    ColumnRounded,
    CompactnessUnderLimit,
    DistrictRounded,
    DistrictWithoutPeople,
    DistrictWithoutVotes,
    LengthsRounded,
    LooseTolerance,
    MapWarning,
    MoreVotesThanPeople,
    NoCompactnessLimit,
    NoPeople,
    OneSidedVotes,
    PercentagesNotCounts,
    SharesNotCounts,
    SmallGroupShare,
)
from .words import word_of

if typing.TYPE_CHECKING:
    from .judging import Judged
    from .lengths import Lengths
    from .report import Report

PARTISAN = ("seats", "mean-median", "gap")
# Arguments that limit how sprawling a plan may be, each with the value that limits nothing.
COMPACT = {
    "max_cut": 400_000, "max_length": TABLE["max_length"].most, "cut_weight": 64,
}
LEAST_SHARE = 100
# From this slack on, in hundredths of a percent, a percentage was most likely given as a part.
LOOSE_SLACK = 5000

# For each column of numbers the value of each unit before it was made whole.
Before = typing.Mapping[str, typing.Mapping[Label, Fraction]]


def slips_of(judged: Judged) -> list[MapWarning]:
    """Returns the warnings of a map's people, votes and group."""
    found = of_people(judged) + of_slack(judged.choices.slack)
    for pair in judged.choices.votes:
        found += of_votes(judged, *pair)
    if judged.choices.group:
        found += of_share(judged.choices.group_share)
    return found


def of_people(judged: Judged) -> list[MapWarning]:
    """Returns a warning if there are no people, or none in a district."""
    column = judged.choices.population
    sums = judged.sums_of(column)
    if sums and not any(sums.values()):
        return [
            NoPeople(
                f"column {column}: the population is 0 in every unit, so that every plan is within"
                " the bounds on population"
            )
        ]
    empty = [label for label, people in sums.items() if not people]
    if not empty:
        return []
    return [DistrictWithoutPeople(f"districts without people in {column}: {judged.shown(empty)}")]


def of_votes(judged: Judged, first: str, second: str) -> list[MapWarning]:
    """Returns the warnings of districts without votes, and of more votes than people."""
    population, both = judged.choices.population, f"{first} and {second}"
    votes = {unit: row[first] + row[second] for unit, row in judged.rows.items()}
    people = {unit: row[population] for unit, row in judged.rows.items()}
    found: list[MapWarning] = []
    without = [
        label
        for label, members in judged.members.items()
        if not any(votes[unit] for unit in members)
    ]
    if without:
        found.append(
            DistrictWithoutVotes(
                f"districts without votes in {both}, which nobody wins and which have no share:"
                f" {judged.shown(without)}"
            )
        )
    cast, there = sum(votes.values()), sum(people.values())
    if cast > there:
        found.append(
            MoreVotesThanPeople(f"{cast} votes in {both}, and {there} people in {population}")
        )
    over = [unit for unit in votes if votes[unit] and votes[unit] >= 2 * people[unit]]
    if over:
        found.append(
            MoreVotesThanPeople(
                f"units with at least twice as many votes in {both} as people in {population}:"
                f" {len(over)} of {len(votes)}: {judged.shown(over)}"
            )
        )
    return found


def of_share(share: int) -> list[MapWarning]:
    """Returns a warning of a group's share below one percent."""
    if share >= LEAST_SHARE:
        return []
    return [
        SmallGroupShare(
            f"group_share={share} is {share / 100:g} percent, since it counts hundredths of a"
            f" percent: for {share} percent write {100 * share}, for a majority 5000"
        )
    ]


def of_slack(slack: int) -> list[MapWarning]:
    """Returns a warning of a tolerance on population of a half and more."""
    if slack < LOOSE_SLACK:
        return []
    return [
        LooseTolerance(
            f"slack={slack} lets a district have {slack / 100:g} percent more or fewer people than"
            f" the ideal: for {slack / 10_000:g} percent write tolerance={slack / 1_000_000:g}"
        )
    ]


def of_question(command: str, named: Words) -> list[MapWarning]:
    """Returns a warning of a partisan question where no argument limits compactness, and of one on
    compactness where a limit does.
    """
    if command not in ("run", "plans") or "ask" not in named:
        return []
    asks = word_of(named["ask"]).split(",")
    given = [
        name for name, limits_nothing in COMPACT.items()
        if str(named.get(name, limits_nothing)) != str(limits_nothing)
    ]
    return of_limited(asks, given) if given else of_asks(asks)


def of_limited(asks: typing.Sequence[str], given: typing.Sequence[str]) -> list[MapWarning]:
    """Returns a warning of a question on compactness under a limit on it; a weight is none."""
    limits = [name for name in given if name != "cut_weight"]
    compact = [ask for ask in asks if ask.split(":")[0] in ("cut-edges", "cut-length")]
    if not limits or not compact:
        return []
    return [
        CompactnessUnderLimit(
            f"{', '.join(compact)}: if {' or '.join(limits)} is tight, nearly all compared plans"
            " stand at the limit, and neutral plans are outliers, too (cut_weight has no such edge)"
        )
    ]


def of_report(report: Report) -> list[MapWarning]:
    """Returns the warnings that a report's own text shows."""
    found: list[MapWarning] = []
    if not report.population:
        found.append(NoPeople("the population is 0 in every unit"))
    found += of_slack(report.rules.slack)
    rules = report.rules
    given = [name for name in COMPACT if getattr(rules, name) is not None]
    return found + (of_limited(report.asks, given) if given else of_asks(report.asks))


def of_asks(asks: typing.Iterable[str]) -> list[MapWarning]:
    """Returns a warning if one of these questions is partisan, and nothing limits compactness."""
    partisan = [ask for ask in asks if ask.split(":")[0] in PARTISAN]
    if not partisan:
        return []
    return [
        NoCompactnessLimit(
            f"{', '.join(partisan)}: no rule limits compactness, so that most of the compared"
            " plans are far more sprawling than an enacted plan (max_cut, max_length or cut_weight"
            " limits this)"
        )
    ]


# ---- missing values and rounding


def of_missing(judged: Judged, before: Before) -> list[MapWarning]:
    """Returns a warning of units with votes of one party, where those of the other were missing.

    A missing value was made 0, and has no value from before.
    """
    found: list[MapWarning] = []
    for first, second in judged.choices.votes:
        for gone, kept in ((first, second), (second, first)):
            units = [
                unit for unit, row in judged.rows.items()
                if unit not in before[gone] and unit in before[kept] and row[kept]
            ]
            if units:
                found.append(
                    OneSidedVotes(
                        f"units whose votes in {gone} were missing and became 0, and that keep"
                        f" their votes in {kept}: {len(units)} of {len(judged.rows)}:"
                        f" {judged.shown(units)}"
                    )
                )
    return found


def of_rounding(judged: Judged, before: Before) -> list[MapWarning]:
    """Returns warnings of columns that are no counts of heads, and of losses where fractions were
    made whole.
    """
    choices, found, percentages = judged.choices, list[MapWarning](), set[str]()
    broken = {
        column
        for column, values in before.items()
        if any(value.denominator != 1 for value in values.values())
    }
    for first, second in choices.votes:
        if broken & {first, second} and add_to_hundred(before[first], before[second]):
            percentages |= {first, second}
            found.append(
                PercentagesNotCounts(
                    f"columns {first} and {second} look like percentages and not like counts: they"
                    " add up to 100 in each unit"
                )
            )
    of_columns: list[MapWarning] = []
    for column in choices.counted:
        if column in broken:
            values = {u: value for u, value in before[column].items() if u in judged.rows}
            of_columns += of_column(judged, column, values, column in percentages)
    return of_columns + found


def add_to_hundred(
    one: typing.Mapping[Label, Fraction], other: typing.Mapping[Label, Fraction]
) -> bool:
    """Returns whether two columns add up to about 100 in each unit that has both."""
    both = [(value, other[unit]) for unit, value in one.items() if unit in other]
    return bool(both) and all(99 <= left + right <= 101 for left, right in both)


def of_column(
    judged: Judged, column: str, values: typing.Mapping[Label, Fraction], is_percent: bool
) -> list[MapWarning]:
    """Returns the warnings of one column whose values are not all whole."""
    rows, population = judged.rows, judged.choices.population
    people = sum(row[population] for row in rows.values())
    whole = sum(values.values())
    lost = sum(abs(rows[unit][column] - value) for unit, value in values.items())
    if all(value <= 1 for value in values.values()):
        return [
            SharesNotCounts(
                f"column {column} looks like shares and not like counts: all its values are from 0"
                " to 1, and made whole they say nothing"
            )
        ]
    is_small = all(value <= 100 for value in values.values())
    if is_small and column != population and not is_percent and people > 1000 * len(rows):
        return [
            PercentagesNotCounts(
                f"column {column} may have percentages and not counts: all its values are from 0 to"
                f" 100, and a unit has {people // len(rows)} people on average"
            )
        ]
    found = of_districts(judged, column, values)
    if lost * 100 > whole:
        found.insert(
            0,
            ColumnRounded(
                f"column {column}: making its values whole changes them by"
                f" {float(100 * lost / whole) if whole else 100:.3g} percent in all"
            ),
        )
    return found


def of_districts(
    judged: Judged, column: str, values: typing.Mapping[Label, Fraction]
) -> list[MapWarning]:
    """Returns a warning if making a column whole changes a district's total by more than one."""
    moved: dict[Label, Fraction] = {
        label: sum(
            (judged.rows[unit][column] - values[unit] for unit in members if unit in values),
            Fraction(0),
        )
        for label, members in judged.members.items()
    }
    over = [label for label in judged.districts if abs(moved[label]) > 1]
    if not over:
        return []
    most = max(abs(moved[label]) for label in over)
    worst = next(label for label in over if abs(moved[label]) == most)
    return [
        DistrictRounded(
            f"column {column}: making its values whole changes the total of {len(over)} of"
            f" {len(moved)} districts by more than 1, and of {as_json(worst)} the most, by"
            f" {round_down(moved[worst], 2, '+')}: {judged.shown(over)}"
        )
    ]


def of_lengths(column: str | None, found: Lengths | None) -> list[MapWarning]:
    """Returns a warning if making lengths whole changes them by more than one percent."""
    whole = Fraction(0) if found is None else sum(found.exact.values(), Fraction(0))
    if found is None or found.lost * 100 <= whole:
        return []
    return [
        LengthsRounded(
            f"lengths of edges in {column}: making them whole changes them by"
            f" {float(100 * found.lost / whole):.3g} percent in all; multiply them first, as to"
            " centimeters"
        )
    ]
