"""The arguments of calls: what each means, what is allowed, and tests of both before any call.

One table, `TABLE`, has the words of the program with their ranges and defaults, in the order in
which the program judges them. It makes the docstrings, and each refusal: which argument, what was
given, what is allowed, and the likely mistake. `line` of a refusal is what the program itself would
write.
"""
from __future__ import annotations

import dataclasses
import difflib
import inspect
import math
import re
import typing
from decimal import Decimal
from fractions import Fraction

from .errors import TypeRefused, ValueRefused
from .graphs import is_whole

# The arguments of a call by their names: each has a type of its own, which `test_words` looks at.
Words = typing.Mapping[str, object]
Call = typing.TypeVar("Call", bound=typing.Callable[..., object])

MAPS, WALKS = ("check", "run", "plans", "trace"), ("run", "make", "plans", "trace")
ALL, RUNS, SAVES = (*WALKS, "check"), ("run", "make", "plans"), ("run", "make")
MOST_ASKS, MOST_TRAJECTORIES = 4, 100_000
SCORES = ("seats", "mean-median", "gap", "cut-edges", "cut-length")
TAILS = ("low", "high")
# As much as 400,000 edges of the greatest length have.
MOST_CUT_LENGTH = 400_000 * (2**32 - 1)
DIGITS = re.compile("0|[1-9][0-9]*")
MOST_WEIGHT = 64
WEIGHT = re.compile(r"[1-9][0-9]?(\.(25|5|75))?")


class AsPrepared:
    """The default of an argument that `prepare` has, too; None says that there is none."""

    def __repr__(self) -> str:
        return "AS_PREPARED"


AS_PREPARED = AsPrepared()
# Columns of a prepared graph that a call goes without where it says None.
LEFT_BY_NONE = ("region", "group", "group_of", "freeze", "length")
# Rules that `prepare` is given, too, each with the column that it needs.
RULES = {
    "slack": "", "max_cut": "", "max_split": "region", "max_splits": "region",
    "max_split_regions": "region",
    "group_districts": "group", "group_share": "group", "max_length": "length",
}
ONE_ELECTION = "call it once for each election, with that election's first and second"
OF_COLUMN = "Left out it is the column that `prepare` was given; None means none."
OF_RULE = "Left out it is what `prepare` was given; None means the default."
# The arguments in hundredths of a percent.
OF_PERCENT = ("slack", "group_share")


@dataclasses.dataclass(frozen=True)
class Argument:
    """A word of the program as an argument."""

    name: str
    kind: str
    """column, count, flag, key, ask, ids or weight."""
    commands: tuple[str, ...]
    text: str
    least: int = 0
    most: int = 0
    default: object = None
    is_needed: bool = False

    @property
    def word(self) -> str:
        return "--" + self.name.replace("_", "-")

    @property
    def allowed(self) -> str:
        """The allowed values, in words."""
        if self.kind == "count":
            unit = ", in hundredths of a percent" if self.name in OF_PERCENT else ""
            return f"{self.name} is a whole number from {self.least} to {self.most}{unit}"
        return (
            f"{self.name} is "
            + {
                "column": "the name of a column, a text",
                "flag": "True or False",
                "key": "64 hexadecimal digits, or 32 bytes",
                "ask": (
                    f"1 to {MOST_ASKS} different questions, each a score ({', '.join(SCORES)}),"
                    f" a colon and a tail ({', '.join(TAILS)})"
                ),
                "ids": 'a number, a pair of numbers, a range, "A-B", "walks" or "ends"',
                "weight": "a number from 1 to 64 in steps of one quarter, as 33 or 33.25",
            }[self.kind]
        )

    @property
    def type_text(self) -> str:
        """Its type, and its default where there is one, as a docstring has them."""
        kind = {
            "column": "str",
            "count": "int",
            "flag": "bool",
            "key": "str or bytes",
            "ask": "str or list of str",
            "ids": "int, tuple, range or str",
            "weight": "int, float, Fraction or str",
        }[self.kind]
        shown = "" if self.default in (None, "") else f", default {self.default}"
        return kind + ("" if self.is_needed else shown or ", optional")


def count(
    name: str, commands: tuple[str, ...], least: int, most: int, default: int, text: str
) -> Argument:
    return Argument(name, "count", commands, text, least, most, default)


TABLE = {
    argument.name: argument
    for argument in (
        Argument("pop", "column", MAPS, "The same as `population`.", is_needed=True),
        Argument("first", "column", MAPS, "The column of the first party's votes.", is_needed=True),
        Argument(
            "second", "column", MAPS, "The column of the second party's votes.", is_needed=True
        ),
        Argument(
            "district",
            "column",
            MAPS,
            "The column of the enacted plan's districts. Left out where `assignment` is given.",
            is_needed=True,
        ),
        Argument(
            "size", "count", ("make",),
            "The size of the grid: 10 times as many rows and columns. 1 to 30.", 1, 30,
            is_needed=True,
        ),
        count(
            "slack",
            ALL,
            0,
            10_000,
            500,
            (
                "How far a district may be from the ideal population, in"
                " hundredths of a percent: 0 to 10000. 500 is 5 percent."
            ),
        ),
        Argument(
            "key",
            "key",
            WALKS,
            (
                "The key of all draws: 64 hexadecimal digits or 32 bytes, as"
                " `key_of(text)` makes it. The same key makes the same report."
            ),
            is_needed=True,
        ),
        count(
            "walks", WALKS, 0, MOST_TRAJECTORIES, 1,
            "The number of outlier trajectories: 0 to 100000.",
        ),
        count("steps", WALKS, 1, 10**9, 1000, "The steps of each outlier trajectory: 1 to 10^9."),
        count(
            "ends",
            WALKS,
            0,
            MOST_TRAJECTORIES,
            0,
            "The number of trajectories to ends of the parallel test: 0 to 100000.",
        ),
        count(
            "hub_steps",
            WALKS,
            1,
            10**9,
            1000,
            (
                "The steps from the enacted plan to the hub, and of"
                " each trajectory to an end: 1 to 10^9."
            ),
        ),
        Argument(
            "ask",
            "ask",
            WALKS,
            (
                "The test statistics, each with its tail: 1 to 4, as"
                ' `["seats:low", "cut-edges:high"]`.'
            ),
            is_needed=True,
        ),
        count(
            "workers", RUNS, 1, 32, 1,
            "The number of threads: 1 to 32. The report does not depend on it.",
        ),
        count(
            "budget",
            SAVES,
            0,
            MOST_TRAJECTORIES,
            MOST_TRAJECTORIES,
            "The most trajectories that this run walks: 0 to 100000. Needs `save`.",
        ),
        count(
            "save",
            SAVES,
            0,
            MOST_TRAJECTORIES,
            0,
            (
                "A checkpoint is saved each time that so many more"
                " trajectories are walked: 0 to 100000. 0 saves nothing."
            ),
        ),
        Argument(
            "resume", "flag", SAVES,
            "Whether the run goes on from the newest checkpoint of its folder.", default=False,
        ),
        count(
            "max_cut", ALL, 0, 400_000, 400_000,
            "The most edges between districts that a plan may have: 0 to 400000.",
        ),
        Argument(
            "shift", "flag", RUNS, "Whether the report has the histogram of seats.", default=False
        ),
        count(
            "stop",
            RUNS,
            0,
            MOST_TRAJECTORIES,
            0,
            (
                "The number of ends in the tail after which the"
                " parallel test stops early: 0 to 100000. 0 stops none."
            ),
        ),
        Argument(
            "serial",
            "flag",
            RUNS,
            "Whether the serial test is made; `steps` plus 1 must be a power of two.",
            default=False,
        ),
        Argument("region", "column", MAPS, "The column of regions, as counties.", default=""),
        count(
            "max_split",
            MAPS,
            1,
            200,
            200,
            "The most districts among which a region may be split: 1 to 200. Needs `region`.",
        ),
        count(
            "parts",
            SAVES,
            1,
            MOST_TRAJECTORIES,
            1,
            (
                "The number of parts into which the trajectories"
                " are dealt, as for several machines: 1 to 100000. Needs `save`."
            ),
        ),
        count(
            "part", SAVES, 0, MOST_TRAJECTORIES, 0,
            "The part that this run walks: 0 to `parts` - 1.",
        ),
        count(
            "max_splits",
            MAPS,
            0,
            995_000,
            995_000,
            (
                "The most splits of regions in all; a region in k"
                " districts counts k - 1. 0 to 995000, which limits nothing. Needs `region`."
            ),
        ),
        count(
            "max_split_regions",
            MAPS,
            0,
            5000,
            5000,
            (
                "The most regions that may lie in more than one"
                " district: 0 to 5000, which limits nothing. Needs `region`."
            ),
        ),
        Argument("group", "column", MAPS, "The column of a group of people, in heads.", default=""),
        Argument(
            "group_of",
            "column",
            MAPS,
            (
                "The column of those of whom the group may be the majority,"
                " as all of voting age. The column of populations where it is left out."
            ),
            default="",
        ),
        count(
            "group_districts",
            MAPS,
            0,
            200,
            0,
            (
                "The least number of districts in which the group has a"
                " majority: 0 to 200. Needs `group`."
            ),
        ),
        Argument(
            "source",
            "flag",
            MAPS,
            "Whether the text has the SHA-256 of what was read, and the names of the columns.",
            default=False,
        ),
        Argument(
            "ids",
            "ids",
            ("trace",),
            "The trajectories of that run, one after the other: an id, a pair of the first and the"
            ' last, a range, or a text as "0-3", "walks" or "ends". The walks have the ids from 0,'
            " the trajectories to ends those behind.",
            default=0,
        ),
        count(
            "thin",
            ("trace",),
            1,
            10**9,
            1000,
            "N: the plans after 0, N, 2N, .. steps are shown. 1 to 10^9.",
        ),
        count(
            "group_share",
            MAPS,
            0,
            10_000,
            5000,
            (
                "The share of a district above which the group has a majority"
                " there, in hundredths of a percent: 0 to 10000. Needs `group`."
            ),
        ),
        Argument(
            "freeze",
            "column",
            MAPS,
            "The column that says which units keep their districts: true, or a whole number"
            " above 0.",
            default="",
        ),
        Argument(
            "length",
            "column",
            MAPS,
            "The column of the edges' lengths, as GerryChain's `shared_perim`: whole numbers from"
            " 0 to 4294967295. `prepare` makes others whole. The score `cut-length` needs it.",
            default="",
        ),
        count(
            "max_length",
            MAPS,
            0,
            MOST_CUT_LENGTH,
            MOST_CUT_LENGTH,
            (
                "The greatest total length of the edges between districts: 0 to 1717986918000000,"
                " which limits nothing. Needs `length`."
            ),
        ),
        Argument(
            "pairs",
            "flag",
            RUNS,
            "Whether the report has lines on pairs of walks; needs two walks or more.",
            default=False,
        ),
        Argument(
            "cut_weight",
            "weight",
            ALL,
            "The weight of each cut edge, in 64ths: 1 to 64 in steps of one quarter. A plan is then"
            " drawn with a chance proportional to (cut_weight/64)^(cut edges). 64 weighs nothing.",
            default=64,
        ),
        Argument(
            "blind",
            "flag",
            SAVES,
            "Whether nothing of any score is printed, as `pilot` asks for.",
            default=False,
        ),
    )
}
# Words of the program that `run` and `make` do not take: `pilot` passes them on.
OF_PILOT = ("blind",)

# Arguments that the program does not have, with their types.
OTHERS = {
    "graph": (
        "object",
        (
            "A graph of networkx or GerryChain, or anything with `nodes(data=True)` and"
            " `adjacency()`, which is prepared as `prepare` does it. Or bytes, a path, or the"
            " answer of `prepare`, which go to the program as they are."
        ),
    ),
    "table": (
        "dict, DataFrame, str, bytes or path",
        (
            "The plans: a dict from names to assignments, a"
            " DataFrame with the units' ids as its index and a plan in each column, or the text,"
            " bytes or path of a CSV file with the ids in its first column. Units are matched by"
            " their ids, never by their place."
        ),
    ),
    "districts": (
        '{"same", "any"}, default "same"',
        "Whether a plan may have another number of districts than the enacted plan.",
    ),
    "population": ("str", "The column of populations, in people."),
    "tolerance": (
        "float, optional",
        (
            "How far a district may be from the ideal population, as a part"
            " of it: 0.05 is 5 percent. In place of `slack`."
        ),
    ),
    "scores": (
        "str, list or dict, optional",
        (
            "The same as `ask`, or a dict from scores to tails:"
            ' `{"seats": "low", "gap": ("low", "high")}`.'
        ),
    ),
    "elections": (
        "dict, optional",
        (
            "Several elections: a dict from names to pairs of columns, the"
            " first and the second party's votes. In place of `first` and `second`."
        ),
    ),
    "assignment": (
        "dict, Series or Partition, optional",
        "The enacted plan, in place of the column `district`: the district of each unit by its id.",
    ),
    "numbers": (
        '{"error", "nearest", "floor"}, optional',
        "For numbers that are not whole, as for `prepare`.",
    ),
    "missing": ('{"error", "zero", "drop"}, optional', "For missing values, as for `prepare`."),
    "join": ("list of pairs, optional", "Pairs of units to be made neighbors, as for `prepare`."),
    "keep": ("list of str, optional", "Further columns that stay, as for `prepare`."),
    "fill_region": (
        "str or int, optional",
        "The region of units that have none, as for `prepare`.",
    ),
    "own_region": (
        "bool, optional",
        "Whether each unit without a region is a region of its own, as for `prepare`.",
    ),
    "show_all": (
        "bool, default False",
        "Whether notes and changes have every id, where else they have the first ten.",
    ),
    "limits_from": (
        "str, optional",
        'Where the limits come from, as "law" or "older plans". It is kept with the report. Left'
        " out, a limit that is the enacted plan's own number, or nearly, gives the warning"
        " `LimitAtOwnNumber`.",
    ),
    "strict": (
        "bool, default True",
        "Whether an illegal plan is refused. With False the answer has its `faults`.",
    ),
    "folder": (
        "path, optional",
        "The folder of the checkpoints. The current one where it is left out.",
    ),
    "overwrite": (
        "bool, default False",
        "Whether a run that saves may write over another run's checkpoints in the folder; else"
        " these are refused before anything is walked.",
    ),
    "progress": (
        'bool or "steps", default False',
        "Whether a bar shows how many trajectories are walked, which needs `save`; without it, how"
        ' long the run has taken. With "steps" it shows the steps of the first trajectory, which a'
        " second process walks again: it takes one more processor for the time of one trajectory.",
    ),
    "program": ("path, optional", "The program, where it is not in the folders of PATH."),
    "slots": ("path, optional", "The program `audit_slots`, for a bar that asks it. Not needed."),
    "last": (
        "bool, default False",
        "Whether the last plan is shown, too, where N does not divide the steps. It is no plan of"
        " the N-step chain, and has no place in `outlier_test`.",
    ),
}


# Arguments that mean something else to one call.
OF_CALLS: dict[str, dict[str, tuple[str, str]]] = {
    "prepare": {
        "graph": (
            "object",
            (
                "A graph of networkx or GerryChain, or anything with `nodes(data=True)` and"
                " `adjacency()`; the path of a file; or the bytes of a JSON file."
            ),
        ),
        "numbers": (
            '{"error", "nearest", "floor"}, default "error"',
            (
                "For a number that is not whole: it is refused, becomes the nearest whole number"
                " (halves the even one), or the greatest that is not above it."
            ),
        ),
        "missing": (
            '{"error", "zero", "drop"}, default "error"',
            (
                "For a value that is absent, None, NaN or empty: it is refused, becomes 0 in a"
                " column of people, votes or a group, or its unit is left out."
            ),
        ),
        "join": ("list of pairs, optional", "Pairs of units to be made neighbors, as an island's."),
        "keep": ("list of str, optional", "Further columns that stay as they are, unaudited."),
        "fill_region": ("str or int, optional", "The region of each unit that has none."),
        "own_region": (
            "bool, default False",
            "Whether each unit without a region is a region of its own.",
        ),
    },
    "trace": {
        "ask": (
            "str or list of str, optional",
            "The scores that the program computes for each plan, each with its tail; cut edges"
            " where it is left out.",
        ),
        "scores": ("str, list or dict, optional", "The same as `ask`."),
        "elections": (
            "dict, optional",
            "The columns of both parties' votes by an election's name, as"
            ' `{"GOV18": ("G18D", "G18R")}`. One walk serves all of them. Where `first` and'
            " `second` are left out, the program reads those of the first election.",
        ),
        "thin": (
            "int, optional",
            "N: the plans after 0, N, 2N, .. steps are shown. 1 to 10^9. Left out it is 1000, and"
            ' with ids="ends" `hub_steps`, so that each trajectory to an end shows its hub and its'
            " end.",
        ),
        "progress": ("bool, default False", "Whether a bar shows how many steps are walked."),
    },
    "plans": {
        "resume": (
            "bool, default False",
            "Whether the audit goes on with what is saved in its folder. Needs `save`.",
        ),
        "overwrite": (
            "bool, default False",
            "Whether the audit may take away another one's checkpoints of plans in the folder.",
        ),
        "progress": ("bool, default False", "Whether a bar shows how many plans are done."),
    },
    "read_trace": {
        "text": ("path", "The file that the program wrote."),
        "graph": (
            "object",
            "The graph that was traced. Where the trace has the line `source`, another graph is"
            " refused by its SHA-256.",
        ),
        "elections": ("dict, optional", "As for `trace`."),
        "ask": ("str or list of str, optional", "The questions of the text."),
        "scores": ("str, list or dict, optional", "The same as `ask`."),
    },
}


def document(function: Call) -> Call:
    """Puts a section `Parameters` in place of the line PARAMETERS of a docstring."""
    if function.__doc__:
        found = ["Parameters", "----------"]
        own = OF_CALLS.get(function.__name__, {})
        for name in inspect.signature(function).parameters:
            if name in own:
                kind, text = own[name]
            elif name in TABLE:
                kind, text = TABLE[name].type_text, TABLE[name].text
            elif name in OTHERS:
                kind, text = OTHERS[name]
            else:
                continue
            if function.__name__ in (*MAPS, "read_trace") and name in LEFT_BY_NONE:
                text = f"{text} {OF_COLUMN}"
            elif function.__name__ in MAPS and name in RULES:
                text = f"{text} {OF_RULE}"
            found += [f"{name} : {kind}", f"    {text}"]
        function.__doc__ = inspect.cleandoc(function.__doc__).replace(
            "PARAMETERS", "\n".join(found)
        )
    return function


# ---- refusing


def shorten(value: object) -> str:
    """Returns a value as it was written, cut where it is long."""
    text = repr(value)
    return text if len(text) <= 60 else text[:57] + "..."


def refuse(
    kind: type[TypeRefused] | type[ValueRefused],
    command: str,
    name: str,
    given: object,
    allowed: str,
    hint: str = "",
    line: str = "",
) -> typing.NoReturn:
    """Raises a refusal in Python's terms, with the line that the program would write."""
    said = f"{command}({name}={shorten(given)}): {allowed}" + (f"; {hint}" if hint else "")
    raise kind(said, name, given, allowed, hint, line or f"words: bad value for {word(name)}")


def word(name: str) -> str:
    return "--" + name.replace("_", "-")


def close_to(name: str, names: typing.Iterable[str]) -> str:
    """Returns the name that was most likely meant; '' where none is like it."""
    found = difflib.get_close_matches(name, list(names), 1, 0.6)
    return found[0] if found else ""


def test_names(
    command: str, unknown: typing.Mapping[str, object], names: typing.Iterable[str]
) -> None:
    """Refuses an argument that a call does not have."""
    for name, value in unknown.items():
        near = close_to(name, names)
        if name in TABLE:
            where = ", ".join(TABLE[name].commands)
            allowed = f"{command} has no argument {name} (only {where})"
        elif name == "elections" and command in MAPS:
            allowed = f"{command} takes one election"
        else:
            allowed = f"{command} has no argument {name}"
        hint = f"did you mean {near}?" if near and name not in TABLE else ""
        hint = ONE_ELECTION if name == "elections" and command in MAPS else hint
        refuse(
            TypeRefused, command, name, value, allowed, hint, f"words: unknown name {word(name)}"
        )


# ---- what stands in place of other arguments


def plain_words(command: str, given: Words) -> dict[str, object]:
    """Returns the arguments that were given, with the names that the program has.

    `population`, `tolerance` and `scores` become `pop`, `slack` and `ask`.
    """
    named = {name: value for name, value in given.items() if value is not None}
    for other, name, change in (
        ("population", "pop", None), ("tolerance", "slack", slack_of), ("scores", "ask", ask_of),
    ):
        if other not in named:
            continue
        value = named.pop(other)
        if name in named:
            refuse(TypeRefused, command, other, value, f"{name} is given too, and says the same")
        named[name] = value if change is None else change(command, value)
    if "cut_weight" in named:
        named["cut_weight"] = weight_of(named["cut_weight"])
    return named


def weight_of(value: object) -> object:
    """Returns a weight as the program takes it: a whole number, or a text as 33.25.

    Another value is returned as it is. A text has to have the program's form already.
    """
    is_number = isinstance(value, (int, float, Fraction, Decimal)) and not isinstance(value, bool)
    if not is_number or value != value or abs(typing.cast(float, value)) > MOST_WEIGHT:
        return value
    quarters = 4 * Fraction(typing.cast(float, value))
    if quarters.denominator != 1:
        return value
    whole, rest = divmod(int(quarters), 4)
    return f"{whole}.{('25', '5', '75')[rest - 1]}" if rest else whole


def slack_of(command: str, tolerance: object) -> int:
    """Returns a part of the ideal population in hundredths of a percent."""
    allowed = "tolerance is a number from 0 to 1, as 0.05 for 5 percent"
    try:
        part = float(typing.cast(float, tolerance))
    except (TypeError, ValueError):
        refuse(TypeRefused, command, "tolerance", tolerance, allowed)
    if isinstance(tolerance, (bool, str)):
        refuse(TypeRefused, command, "tolerance", tolerance, allowed)
    if not 0 <= part <= 1:
        hint = f"for {part:g} percent write tolerance={part / 100:g}" if 1 < part <= 100 else ""
        refuse(ValueRefused, command, "tolerance", tolerance, allowed, hint)
    slack = round(10_000 * part)
    if abs(10_000 * part - slack) > 1e-6:
        refuse(
            ValueRefused, command, "tolerance", tolerance,
            "tolerance is a whole number of hundredths of a percent",
            f"write tolerance={slack / 10_000:g}",
        )
    return slack


def ask_of(command: str, scores: object) -> object:
    """Returns questions, which may be a dict from scores to tails, as a list."""
    if not isinstance(scores, typing.Mapping):
        return scores
    found = []
    for score, tails in scores.items():
        found += [
            f"{score}:{tail}" for tail in (tails if isinstance(tails, (list, tuple)) else (tails,))
        ]
    return found


def tested_elections(
    elections: object, saves: bool, command: str = "run"
) -> dict[str, tuple[str, str]]:
    """Returns elections by name; refuses anything but a dict from names to pairs of columns.

    Each election has a folder of its name if checkpoints are saved.
    """
    allowed = 'elections is a dict from names to pairs of columns, as {"GOV18": ("G18D", "G18R")}'
    if not isinstance(elections, typing.Mapping) or not elections:
        refuse(TypeRefused, command, "elections", elections, allowed)
    found = {}
    for name, columns in elections.items():
        is_pair = isinstance(columns, (tuple, list)) and len(columns) == 2
        if not isinstance(name, str) or not name or not is_pair:
            refuse(TypeRefused, command, "elections", elections, allowed)
        if not all(isinstance(column, str) for column in columns):
            refuse(TypeRefused, command, "elections", elections, allowed)
        if saves and (name in (".", "..") or set(name) & set("/\\\0")):
            refuse(
                ValueRefused,
                "run",
                "elections",
                elections,
                f"with save, each election has a folder of its name, and {name!r} cannot be one",
            )
        found[name] = (columns[0], columns[1])
    return found


# ---- testing


def test_words(command: str, named: Words) -> None:
    """Refuses what the program would refuse, in its order: unknown, missing, then bad arguments.

    `read_trace` calls no program. It has those arguments of `trace` that the head of the text is
    compared with, and needs only `district`.
    """
    is_read = command == "read_trace"
    there = {
        name: row
        for name, row in TABLE.items()
        if ("trace" if is_read else command) in row.commands
        and not (is_read and name in ("ids", "thin", "source"))
    }
    test_names(command, {name: named[name] for name in named if name not in there}, there)
    for name, row in there.items():
        if row.is_needed and name not in named and (name == "district" or not is_read):
            shown_name = "population" if name == "pop" else name
            hint = {
                "key": ' (key_of("the announced text") makes one)',
                "district": " (or assignment)",
                "ask": " (or scores)",
                "first": " (or elections)" if command in ("run", "trace") else "",
                "second": " (or elections)" if command in ("run", "trace") else "",
            }.get(name, "")
            raise TypeRefused(
                f"{command}: the argument {shown_name} is missing{hint}", shown_name, None,
                row.allowed, hint, f"words: {row.word} is missing",
            )
    for name, row in there.items():
        if name in named:
            test_value(command, row, named)
        elif name == "ends":
            test_sum(command, row, named)
    if "pairs" in there and flag(named, "pairs") and (number(named, "walks") or 0) < 2:
        refuse(
            ValueRefused, command, "pairs", named["pairs"], "pairs need two walks",
            "write walks=2", "words: pairs need two walks",
        )


def test_value(command: str, row: Argument, named: Words) -> None:
    """Refuses a value that is of no use, alone or beside the others."""
    value = named[row.name]
    {
        "column": test_column,
        "count": test_count,
        "flag": test_flag,
        "key": test_key,
        "ask": test_ask,
        "ids": test_ids,
        "weight": test_weight,
    }[row.kind](command, row, value)
    why = find_conflict(command, row.name, named)
    if why and row.name == "ends" and number(named, "ends") == 0:
        test_sum(command, row, named)
    if why:
        refuse(ValueRefused, command, row.name, value, *why)


def test_column(command: str, row: Argument, value: object) -> None:
    if not isinstance(value, str):
        refuse(TypeRefused, command, row.name, value, row.allowed)
    if command == "plans" and row.name == "district" and "\n" in value:
        refuse(
            ValueRefused, command, row.name, value,
            "its name has no line feed, since it is written on a line of its own",
        )


def test_count(command: str, row: Argument, value: object) -> None:
    if isinstance(value, str) and DIGITS.fullmatch(value):
        value = int(value)
    if not is_whole(value):
        refuse(TypeRefused, command, row.name, value, row.allowed, hint_of_count(row, value))
    if not row.least <= int(typing.cast(int, value)) <= row.most:
        refuse(ValueRefused, command, row.name, value, row.allowed)


def hint_of_count(row: Argument, value: object) -> str:
    """Returns the likely mistake if a value is not a whole number."""
    if isinstance(value, float) and row.name in OF_PERCENT and 0 < value <= 100:
        percent = 100 * value if value < 1 else value
        whole = round(100 * percent)
        writes = [f"{row.name}={whole}"] if whole else []
        writes += [f"tolerance={percent / 100:g}"] if row.name == "slack" else []
        return f"for {percent:g} percent write {' or '.join(writes)}" if writes else ""
    if isinstance(value, float) and value.is_integer():
        return f"write {row.name}={int(value)}"
    if isinstance(value, float) and row.least <= value <= row.most:
        # A least number is rounded up, so that no limit becomes looser.
        near = math.ceil(value) if row.name == "group_districts" else math.floor(value)
        return f"write {row.name}={near}"
    return ""


def test_weight(command: str, row: Argument, value: object) -> None:
    form = value if isinstance(value, str) else str(value) if is_whole(value) else ""
    if not isinstance(value, (int, float, str, Fraction, Decimal)) or isinstance(value, bool):
        refuse(TypeRefused, command, row.name, value, row.allowed)
    if not WEIGHT.fullmatch(form) or not 1 <= Fraction(form) <= MOST_WEIGHT:
        refuse(ValueRefused, command, row.name, value, row.allowed)


def test_flag(command: str, row: Argument, value: object) -> None:
    if type(value).__name__ in ("bool", "bool_"):
        return
    if isinstance(value, str) and value in ("yes", "no"):
        return
    is_number = isinstance(value, int) and value in (0, 1)
    hint = f"write {row.name}={bool(value)}" if is_number else ""
    refuse(TypeRefused, command, row.name, value, row.allowed, hint)


def test_key(command: str, row: Argument, value: object) -> None:
    if isinstance(value, (bytes, bytearray)):
        if len(value) != 32:
            refuse(
                ValueRefused, command, row.name, value, row.allowed, f"these are {len(value)} bytes"
            )
    elif not isinstance(value, str):
        refuse(TypeRefused, command, row.name, value, row.allowed)
    elif not re.fullmatch("[0-9a-fA-F]{64}", value):
        hint = f"key=key_of({shorten(value)}) makes a key of any text"
        refuse(ValueRefused, command, row.name, value, row.allowed, hint)


def test_ask(command: str, row: Argument, value: object) -> None:
    if not isinstance(value, (str, list, tuple)):
        refuse(TypeRefused, command, row.name, value, row.allowed)
    asks = value.split(",") if isinstance(value, str) else value
    for ask in asks:
        if not isinstance(ask, str):
            refuse(TypeRefused, command, row.name, value, row.allowed)
        if "," in ask:
            refuse(
                ValueRefused, command, row.name, value, row.allowed,
                f"{ask!r} is several: make a list of them",
            )
        score, _, tail = ask.partition(":")
        if score not in SCORES or tail not in TAILS:
            refuse(ValueRefused, command, row.name, value, row.allowed, hint_of_ask(ask))
    twice = sorted({ask for ask in asks if list(asks).count(ask) > 1})
    if twice:
        refuse(ValueRefused, command, row.name, value, row.allowed, f"{twice[0]!r} is repeated")
    if len(asks) > MOST_ASKS:
        refuse(
            ValueRefused,
            command,
            row.name,
            value,
            row.allowed,
            (
                f"these are {len(asks)}: ask {MOST_ASKS} in each of several calls with the same"
                " key, which walk the same plans"
            ),
        )
    if not asks:
        refuse(ValueRefused, command, row.name, value, row.allowed)


def test_ids(command: str, row: Argument, value: object) -> None:
    if pair_of(value, 0, 0) is None:
        is_known = isinstance(value, (int, str, tuple, list, range))
        refuse(ValueRefused if is_known else TypeRefused, command, row.name, value, row.allowed)


def pair_of(ids: object, walks: int, ends: int) -> tuple[int, int] | None:
    """Returns the first and the last of some ids; None where the value names none.

    The order of both, and whether a run has them, is not tested.
    """
    if isinstance(ids, str):
        named = {"walks": (0, walks - 1), "ends": (walks, walks + ends - 1)}
        numbers = ids.split("-")
        if len(numbers) > 2 or not all(DIGITS.fullmatch(one) for one in numbers):
            return named.get(ids)
        return int(numbers[0]), int(numbers[-1])
    if isinstance(ids, range):
        return (ids[0], ids[-1]) if ids and ids.step == 1 else None
    pair = ids if isinstance(ids, (tuple, list)) else (ids, ids)
    if len(pair) != 2 or not all(is_whole(one) for one in pair):
        return None
    return int(pair[0]), int(pair[1])


def hint_of_ask(ask: str) -> str:
    score, _, tail = ask.partition(":")
    near = score if score in SCORES else close_to(score.replace("_", "-"), SCORES)
    if not near:
        return f"there is no score {score!r}"
    tails = [tail] if tail in TAILS else TAILS
    return f"{ask!r}: did you mean " + " or ".join(f"{near}:{one}" for one in tails) + "?"


# ---- what rests on other arguments


def number(named: Words, name: str) -> int | None:
    """Returns a count that is given or by default; None if it is not a number."""
    value = named.get(name, TABLE[name].default)
    if isinstance(value, str):
        return int(value) if DIGITS.fullmatch(value) else None
    return int(typing.cast(int, value)) if is_whole(value) else None


def count_in(named: Words, name: str) -> int:
    """Returns a count that is given or by default, of arguments that were tested."""
    return int(typing.cast(int, named.get(name, TABLE[name].default)))


def text_in(named: Words, name: str) -> str | None:
    """Returns the name of a column, of arguments that were tested; None where none is named."""
    value = named.get(name)
    return str(value) if value else None


def flag(named: Words, name: str) -> bool:
    return named.get(name) in (True, "yes")


def test_sum(command: str, row: Argument, named: Words) -> None:
    """Refuses too few or too many trajectories where `ends` is left out."""
    why = find_conflict(command, "ends", named)
    if why:
        refuse(
            ValueRefused, command, "walks", named.get("walks", 1), *why,
            line="words: bad value for --ends",
        )


def find_conflict(command: str, name: str, named: Words) -> tuple[str, str] | None:
    """Returns what is asked of a value beside the others, and a hint, where it is not met."""
    test = BESIDE.get(name)
    return test(named) if test is not None and command in TABLE[name].commands else None


def test_beside(command: str, name: str, named: Words) -> None:
    """Refuses a value that was given and is of no use beside the others."""
    why = find_conflict(command, name, named) if name in named else None
    if why:
        refuse(ValueRefused, command, name, named[name], *why)


Why = typing.Optional[tuple[str, str]]


def ends_beside(named: Words) -> Why:
    walks, ends = number(named, "walks"), number(named, "ends")
    if walks is None or ends is None or 1 <= walks + ends <= MOST_TRAJECTORIES:
        return None
    hint = "walks=1 walks one outlier trajectory" if walks + ends == 0 else ""
    return f"walks and ends together are 1 to {MOST_TRAJECTORIES}", hint


def budget_beside(named: Words) -> Why:
    budget, walks, ends = (number(named, name) for name in ("budget", "walks", "ends"))
    if budget is None or walks is None or ends is None or number(named, "save") != 0:
        return None
    if budget >= walks + ends:
        return None
    return (
        f"without save, a budget below the {walks + ends} trajectories would lose its work",
        "save=1 saves after each trajectory",
    )


def stop_beside(named: Words) -> Why:
    if number(named, "stop") in (None, 0):
        return None
    if number(named, "ends") == 0:
        return "stop needs a parallel test", "ends=99 makes one of 99 trajectories to ends"
    if number(named, "save") != 0 or flag(named, "resume"):
        return "a test that stops early saves nothing", "leave out save and resume"
    return None


def serial_beside(named: Words) -> Why:
    steps = number(named, "steps")
    if not flag(named, "serial") or steps is None or (steps + 1) & steps == 0:
        return None
    less = (1 << (steps + 1).bit_length() - 1) - 1
    return (
        "the serial test needs steps plus 1 to be a power of two",
        f"write steps={max(less, 1)} or steps={2 * less + 1}",
    )


def regions_beside(name: str) -> typing.Callable[[Words], Why]:
    def test(named: Words) -> Why:
        if named.get("region") or number(named, name) in (None, TABLE[name].default):
            return None
        return (
            f"{name} limits regions, and region is not given",
            'region="COUNTY" names their column',
        )

    return test


def parts_beside(named: Words) -> Why:
    parts = number(named, "parts")
    if parts is None or parts <= 1 or number(named, "save") != 0:
        return None
    return "parts above 1 needs save, since what a part finds is gathered later", "write save=1"


def part_beside(named: Words) -> Why:
    part, parts = number(named, "part"), number(named, "parts")
    if part is None or parts is None or part < parts:
        return None
    return f"part is from 0 to parts - 1, which is {parts - 1}", ""


def format_shown(named: Words) -> dict[str, str]:
    """Returns the ids and the thinning of a trace, as the program takes them."""
    ids = named.get("ids", TABLE["ids"].default)
    walks, ends = number(named, "walks") or 0, number(named, "ends") or 0
    first, last = pair_of(ids, walks, ends) or (0, 0)
    other = "hub_steps" if isinstance(ids, str) and ids == "ends" else "thin"
    thin = named.get("thin", number(named, other))
    return {"ids": str(first) if first == last else f"{first}-{last}", "thin": str(thin)}


def ids_beside(named: Words) -> Why:
    walks, ends = number(named, "walks"), number(named, "ends")
    if walks is None or ends is None or not 1 <= walks + ends <= MOST_TRAJECTORIES:
        return None
    first, last = pair_of(named["ids"], walks, ends) or (0, 0)
    if 0 <= first <= last < walks + ends:
        return None
    known = [f"{walks} walks (0 to {walks - 1})"] if walks else ["no walks"]
    known += [f"{ends} trajectories to ends ({walks} to {walks + ends - 1})"] if ends else []
    return f"ids are those of {' and '.join(known)}, the first one first", ""


def group_of_beside(named: Words) -> Why:
    if named.get("group") or not named.get("group_of"):
        return None
    return "group_of says of whom the group is a part, and group is not given", ""


def group_districts_beside(named: Words) -> Why:
    if named.get("group") or number(named, "group_districts") in (None, 0):
        return None
    return "group_districts counts districts of a group, and group is not given", ""


def group_share_beside(named: Words) -> Why:
    if named.get("group") or number(named, "group_share") in (None, 5000):
        return None
    return "group_share is the share of a group, and group is not given", ""


def ask_beside(named: Words) -> Why:
    given = named.get("ask", ())
    listed = given.split(",") if isinstance(given, str) else given
    asks = typing.cast(typing.Sequence[object], listed)
    if named.get("length") or not any(str(ask).startswith("cut-length:") for ask in asks):
        return None
    return (
        "the score cut-length needs the edges' lengths, and length is not given",
        'length="shared_perim" names their column in a graph of GerryChain',
    )


def blind_beside(named: Words) -> Why:
    if not flag(named, "blind"):
        return None
    return "a blind run has no report", "district_audit.pilot(..) makes one"


def max_length_beside(named: Words) -> Why:
    if named.get("length") or number(named, "max_length") in (None, MOST_CUT_LENGTH):
        return None
    return (
        "max_length limits the lengths of edges, and length is not given",
        'length="shared_perim" names their column in a graph of GerryChain',
    )


BESIDE: dict[str, typing.Callable[[Words], Why]] = {
    "ends": ends_beside,
    "budget": budget_beside,
    "stop": stop_beside,
    "serial": serial_beside,
    "max_split": regions_beside("max_split"),
    "parts": parts_beside,
    "part": part_beside,
    "max_splits": regions_beside("max_splits"),
    "max_split_regions": regions_beside("max_split_regions"),
    "group_of": group_of_beside,
    "group_districts": group_districts_beside,
    "ids": ids_beside,
    "group_share": group_share_beside,
    "ask": ask_beside,
    "max_length": max_length_beside,
    "blind": blind_beside,
}
