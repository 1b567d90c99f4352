"""The calls of the program: check, run, plans and make."""
from __future__ import annotations

import dataclasses
import hashlib
import os
import typing
import warnings
from fractions import Fraction

from . import own_limits
from . import progress as bars
from . import slips
from .arguments import (
    AS_PREPARED,
    LEFT_BY_NONE,
    RULES,
    TABLE,
    AsPrepared,
    Words,
    count_in,
    document,
    plain_words,
    refuse,
    format_shown,
    test_beside,
    test_words,
    tested_elections,
    text_in,
)
from .custody import Custody
from .districts import Plan, plan_of, slips_in
from .elections import ElectionReports, each_election
from .errors import GraphChanged, GraphRefused, PrepareRefused, TypeRefused
from .geography import FILES
from .graphs import Foreign, refuse_form
from .preparing import Preparation, Prepared, prepare_map
from .program import Ended, PathLike, call, find_program
from .report import Audited, PlanCheck, Report, Rules, join_batch
from .results import PlanReports
from .running import (
    Together,
    Way,
    add_call,
    begin_call,
    execute,
    make_error,
    warn_of_frozen,
)
from .saved_plans import Saving, saving_of, walk_plans
from .tables import Known, count_plans, table_of
from .values import test_labels_of
from .warnings import LimitAtOwnNumber, LooseTolerance, MapWarning, SmallGroupShare, emit
from .words import words_of

if typing.TYPE_CHECKING:
    from .words import Ask, Key

# The arguments of `prepare` that the program does not have.
PREPARING = ("numbers", "missing", "join", "keep", "fill_region", "own_region", "assignment")
# Arguments of calls that are neither words of the program nor of `prepare`.
NO_WORDS = (
    "graph", "table", "districts", "folder", "overwrite", "progress", "program", "slots", "strict",
    "elections", "unknown", "text", "last",
)

COLUMNS = ("pop", "first", "second", "district", "region", "group", "group_of", "freeze", "length")

Elections = typing.Mapping[str, tuple[str, str]]
Weight = typing.Union[int, float, str, Fraction]


@dataclasses.dataclass(frozen=True)
class Given:
    """The bytes and words of a call of the program."""

    data: bytes
    words: list[str]
    named: dict[str, object]
    """The words by their names."""
    rules: Preparation = dataclasses.field(default_factory=lambda: Preparation())
    """The arguments of `prepare`."""
    table: str = ""
    """The table of plans, where there is one."""
    path: str | None = None
    """The path of the graph, if it was one whose bytes go to the program as they are."""
    custody: Custody | None = None
    """The preparation of the graph."""
    warnings: tuple[MapWarning, ...] = ()
    """Likely mistakes in the map, and in the question about it."""
    limits_from: str | None = None
    """The source of the limits, as the user says."""

    @property
    def audited(self) -> Audited:
        """The graph and its preparation, as a report keeps them."""
        columns = {name: str(self.named[name]) for name in COLUMNS if self.named.get(name)}
        rules = self.rules.copy()
        rules.pop("assignment", None)
        digest = hashlib.sha256(self.data).hexdigest()
        return Audited(
            digest, columns, rules, warnings=self.warnings, limits_from=self.limits_from
        )


def words_in(arguments: Words) -> dict[str, object]:
    """Returns the words among the arguments of a call, and what is unknown behind them."""
    words = {
        name: value
        for name, value in arguments.items()
        if name not in NO_WORDS and value is not AS_PREPARED
    }
    return {**words, **typing.cast(Words, arguments["unknown"])}


def prepare_call(command: str, graph: object, words: Words) -> Given:
    """Returns the bytes and the words of a call, after all arguments were tested.

    A graph's object, and whatever comes with an assignment or a rule, is prepared. Bytes, a path
    and what `prepare` answered go to the program as they are.
    """
    named = plain_words(command, words)
    path, made = None, graph.custody if isinstance(graph, Prepared) else None
    limits_from = own_limits.source_of_limits(command, named.pop("limits_from", None))
    taken = {name: named.pop(name) for name in PREPARING if name in named}
    rules = typing.cast(Preparation, taken)
    test_districts(named, rules)
    known: list[MapWarning] | None = None
    if isinstance(graph, Prepared):
        named = {**find_kept(command, graph, words, named), **named}
        if "assignment" in rules:
            named.pop("district", None)
        known, graph = graph.warnings, graph.data
    named = tested_words(command, named, rules)
    if isinstance(graph, (bytes, bytearray, memoryview, str, os.PathLike)) and not rules:
        data = bytes_of_graph(graph)
        path = os.fspath(graph) if isinstance(graph, (str, os.PathLike)) else None
        test_labels_of(data, named)
        found = find_slips(command, data, named) if known is None else of_call(known, named)
    else:
        prepared = prepare_graph(graph, named, rules)
        data, found, known, made = prepared.data, prepared.warnings, None, prepared.custody
        named.update(prepared.columns)
    found = [one for one in found if not isinstance(one, LimitAtOwnNumber)]
    found += slips.of_question(command, named)
    if command != "read_trace" and limits_from is None:
        found = found + at_own_numbers(data, named)
    if command != "read_trace":
        emit([one for one in found if known is None or one not in known], 3)
    return Given(
        data, words_of(command, named), named, rules, "", path, made, tuple(found), limits_from
    )


def must_prepare(graph: object, words: Words) -> bool:
    """Returns whether a graph has to be prepared before the program can read it."""
    is_bytes = isinstance(graph, (bytes, bytearray, memoryview, str, os.PathLike))
    return not is_bytes or any(words.get(name) is not None for name in PREPARING)


def test_districts(named: Words, rules: Preparation) -> None:
    """Refuses districts that are given twice."""
    if "assignment" in rules and "district" in named:
        raise PrepareRefused(
            "district and assignment are both given: give only one of them"
        )


def tested_words(command: str, named: Words, rules: Preparation) -> dict[str, object]:
    """Tests the words of a call, and returns those that do not say what holds without them."""
    test_words(command, {**named, "district": "assignment"} if "assignment" in rules else named)
    if named.get("first") is not None and named.get("first") == named.get("second"):
        raise PrepareRefused(f"both parties' votes are the column {named['first']}")
    named = {name: value for name, value in named.items() if not is_default(name, value)}
    if command != "trace":
        return named
    shown = format_shown(named)
    return {**{name: named[name] for name in named if name not in shown}, **shown}


def find_kept(command: str, graph: Prepared, words: Words, named: Words) -> dict[str, object]:
    """Returns the columns and the rules of a prepared graph that hold in a call."""
    left = {} if command == "read_trace" else rules_left(graph, words, named)
    return {**columns_left(graph, words), **left}


def find_slips(command: str, data: bytes, named: Words) -> list[MapWarning]:
    """Returns the likely mistakes in a graph that was not prepared."""
    return [] if command == "read_trace" else slips_in(data, named)


def of_call(known: list[MapWarning], named: Words) -> list[MapWarning]:
    """Returns a prepared map's warnings, and those of a group's share and a slack that a call gives
    anew.
    """
    share = slips.of_share(count_in(named, "group_share")) if named.get("group") else []
    others = [one for one in known if not isinstance(one, (SmallGroupShare, LooseTolerance))]
    return others + share + slips.of_slack(count_in(named, "slack"))


def at_own_numbers(data: bytes, named: Words) -> list[MapWarning]:
    """Returns warnings of limits that are the enacted plan's own numbers, or nearly."""
    plan = plan_of(data, named) if own_limits.has_limits(named) else None
    if plan is None or plan.faults:
        return []
    share = own_limits.share_of(named)
    own = own_limits.own_numbers(plan.districts, plan.cut_edges, plan.cut_length, share)
    return own_limits.limits_at_own(named, own)


def columns_left(graph: Prepared, words: Words) -> dict[str, str]:
    """Returns the columns of a prepared graph without those that are None in a call."""
    none = {name for name in LEFT_BY_NONE if name in words and words[name] is None}
    if "group" in none:
        none.add("group_of")
    return {name: column for name, column in graph.columns.items() if name not in none}


def rules_left(graph: Prepared, words: Words, named: Words) -> dict[str, int]:
    """Returns the rules of a prepared graph for which a call gives no other value.

    A rule about a column does not hold where the call goes without the column.
    """
    return {
        name: value
        for name, value in graph.rules.items()
        if name not in words
        and name not in named
        and not (RULES[name] in words and not words[RULES[name]])
    }


def is_default(name: str, value: object) -> bool:
    """Returns whether an argument says what holds without it."""
    row = TABLE.get(name)
    return row is not None and isinstance(value, type(row.default)) and value == row.default


def bytes_of_graph(graph: PathLike | bytes | bytearray | memoryview) -> bytes:
    """Returns the bytes of a graph that is a path or bytes."""
    if isinstance(graph, str) and graph.lstrip()[:1] == "{":
        raise PrepareRefused(
            "the graph is a text of JSON, which is taken for a path: write graph.encode()"
        )
    if isinstance(graph, (str, os.PathLike)):
        name = os.fspath(graph)
        if name.lower().endswith((*FILES, ".graphml", ".gml", ".gz")):
            is_map = name.lower().endswith(FILES)
            way = f"graph_from({name!r}, id=..)" if is_map else repr(name)
            raise PrepareRefused(
                f"{name} is not what the program reads: prepare it first, prepare({way}, ..)"
            )
        with open(graph, "rb") as file:
            data = file.read()
        if data[:2] == b"\x1f\x8b":
            raise PrepareRefused(
                f"{name} is compressed by gzip, which prepare({name!r}, ..) reads: prepare it first"
            )
        refuse_form(data, name)
        return data
    return bytes(graph)


def prepare_graph(
    graph: object, named: Words, rules: Preparation, elections: Elections | None = None
) -> Prepared:
    """Prepares a graph for a call, and warns of values that are others then.

    With elections, the columns of all are prepared, and `first` and `second` do not count.
    """
    for name in ("pop", "first", "second"):
        if name not in named:
            raise TypeError(f"the column {name!r} is missing")
    columns: dict[str, object] = {
        name: text_in(named, name) for name in COLUMNS if name != "pop"
    }
    if elections is not None:
        columns.update(first=None, second=None, elections=elections)
    limits = {name: count_in(named, name) for name in RULES}
    prepared = prepare_map(
        graph, {"population": str(named["pop"]), **columns, **limits, **rules}
    )
    changed = [str(change) for change in prepared.changes if change.is_of_values]
    if changed:
        warnings.warn(GraphChanged("\n".join(changed)), stacklevel=4)
    return prepared


# ---- check


@document
def check(
    graph: object,
    *,
    population: str | None = None,
    first: str | None = None,
    second: str | None = None,
    district: str | None = None,
    assignment: object = None,
    slack: int | AsPrepared | None = AS_PREPARED,
    tolerance: float | None = None,
    max_cut: int | AsPrepared | None = AS_PREPARED,
    cut_weight: Weight = 64,
    region: str | AsPrepared | None = AS_PREPARED,
    max_split: int | AsPrepared | None = AS_PREPARED,
    max_splits: int | AsPrepared | None = AS_PREPARED,
    max_split_regions: int | AsPrepared | None = AS_PREPARED,
    group: str | AsPrepared | None = AS_PREPARED,
    group_of: str | AsPrepared | None = AS_PREPARED,
    group_districts: int | AsPrepared | None = AS_PREPARED,
    group_share: int | AsPrepared | None = AS_PREPARED,
    freeze: str | AsPrepared | None = AS_PREPARED,
    length: str | AsPrepared | None = AS_PREPARED,
    max_length: int | AsPrepared | None = AS_PREPARED,
    limits_from: str | None = None,
    source: bool = False,
    numbers: str | None = None,
    missing: str | None = None,
    join: object = None,
    keep: object = None,
    fill_region: object = None,
    own_region: bool | None = None,
    strict: bool = True,
    program: PathLike | None = None,
    pop: str | None = None,
    **unknown: object,
) -> PlanCheck:
    """Judges a plan: is every district contiguous, and every population within the bounds?

    PARAMETERS

    Returns
    -------
    PlanCheck
        The program's text as values, and the package's table of the districts: populations,
        deviations, votes and shares, group shares and regions (`.table`, `.to_frame()`).

    Raises
    ------
    ValueRefused, TypeRefused
        An argument is refused; these are also a ValueError and a TypeError.
    GraphRefused
        The graph or the plan is refused. `faults` has every fault of the plan, in your labels, and
        `check` the table of its districts. With strict=False the answer has them.
    PrepareRefused
        A value of the graph or of the assignment is refused, by the id of its unit.
    MemoryRefused, ReadFault, WriteFault, ProgramMissing
    """
    asked = prepare_call("check", graph, add_first_election(graph, words_in(locals())))
    ended = call(find_program("audit", program), asked.words, asked.data)
    plan = plan_of(asked.data, asked.named) if ended.status in (0, 2) else None
    if ended.status == 0:
        answer = PlanCheck.parse(ended.text)
        return answer if plan is None else answer.add_plan(plan)
    error = make_error(ended, asked)
    if plan is None or not isinstance(error, GraphRefused) or not plan.faults:
        raise error
    if not ended.line.startswith("plan: "):
        raise error
    answer = PlanCheck.from_plan(plan, plan.edges, rules_of(plan, asked.named))
    if not strict:
        return answer
    error.faults, error.check = list(plan.faults), answer
    raise error


def add_first_election(graph: object, words: dict[str, object]) -> dict[str, object]:
    """Returns the words, with the columns of a prepared map's first election if none are named.

    Whether a plan is legal does not depend on votes.
    """
    if isinstance(graph, Prepared) and graph.elections:
        if words["first"] is None and words["second"] is None:
            words["first"], words["second"] = next(iter(graph.elections.values()))
    return words


def rules_of(plan: Plan, named: Words) -> Rules:
    """Returns the rules of a plan that the program refused."""
    slack, count = count_in(named, "slack"), 10_000 * max(len(plan.districts), 1)
    people = sum(one.population for one in plan.districts)
    return Rules(slack, -(-(10_000 - slack) * people // count), (10_000 + slack) * people // count)


# ---- run and make


@typing.overload
def run(graph: object, *, elections: None = None, **words: Foreign) -> Report:
    ...


@typing.overload
def run(graph: object, *, elections: Elections, **words: Foreign) -> ElectionReports:
    ...


@document
def run(
    graph: object,
    *,
    population: str | None = None,
    first: str | None = None,
    second: str | None = None,
    elections: Elections | None = None,
    district: str | None = None,
    assignment: object = None,
    key: Key | None = None,
    ask: Ask | None = None,
    scores: object = None,
    walks: int = 1,
    steps: int = 1000,
    ends: int = 0,
    hub_steps: int = 1000,
    stop: int = 0,
    serial: bool = False,
    shift: bool = False,
    pairs: bool = False,
    slack: int | AsPrepared | None = AS_PREPARED,
    tolerance: float | None = None,
    max_cut: int | AsPrepared | None = AS_PREPARED,
    cut_weight: Weight = 64,
    region: str | AsPrepared | None = AS_PREPARED,
    max_split: int | AsPrepared | None = AS_PREPARED,
    max_splits: int | AsPrepared | None = AS_PREPARED,
    max_split_regions: int | AsPrepared | None = AS_PREPARED,
    group: str | AsPrepared | None = AS_PREPARED,
    group_of: str | AsPrepared | None = AS_PREPARED,
    group_districts: int | AsPrepared | None = AS_PREPARED,
    group_share: int | AsPrepared | None = AS_PREPARED,
    freeze: str | AsPrepared | None = AS_PREPARED,
    length: str | AsPrepared | None = AS_PREPARED,
    max_length: int | AsPrepared | None = AS_PREPARED,
    limits_from: str | None = None,
    source: bool = False,
    workers: int = 1,
    save: int = 0,
    resume: bool = False,
    budget: int = 100_000,
    parts: int = 1,
    part: int = 0,
    folder: PathLike | None = None,
    overwrite: bool = False,
    progress: bool | str = False,
    numbers: str | None = None,
    missing: str | None = None,
    join: object = None,
    keep: object = None,
    fill_region: object = None,
    own_region: bool | None = None,
    program: PathLike | None = None,
    slots: PathLike | None = None,
    pop: str | None = None,
    **unknown: object,
) -> Report | ElectionReports:
    """Audits a plan.

    PARAMETERS

    Returns
    -------
    Report
        The report; `str` of it is the program's text, byte for byte.
    ElectionReports
        With `elections`: a report for each, by its name. The same key repeats the same walk of
        plans for each election; see `ElectionReports` for what several tests let one say.

    Raises
    ------
    WorkLeft
        The budget is used up, and trajectories are left.
    CheckpointRefused, CheckpointUnreadable, SaveFault
        A checkpoint in `folder` is unusable, or was not saved. CheckpointRefused names the
        arguments that differ from those of the run that saved it.
    Interrupted
        Ctrl-C stopped the program. The message says what is saved and how to go on.
    ValueRefused, TypeRefused, GraphRefused, PrepareRefused, MemoryRefused, ReadFault, WriteFault,
    ProgramMissing
        As for `check`.

    Warns
    -----
    FrozenWalk
        A trajectory changed the plan never, or fewer times than there are units.
    GraphChanged
        Values of a graph were changed where it was prepared.
    LimitAtOwnNumber
        A limit is the enacted plan's own number, or nearly, and `limits_from` is left out.
    """
    words = words_in(locals())
    way = Way(folder, progress, program, slots, overwrite)
    kept = graph.elections if isinstance(graph, Prepared) and first is second is None else None
    chosen = elections if elections is not None else kept or None
    if chosen is None:
        return execute(prepare_call("run", graph, words), way)
    if first is not None or second is not None:
        refuse(
            TypeRefused, "run", "elections", elections,
            "first and second are given too: each election has its own columns",
        )
    saves = str(save) != "0" or resume not in (False, None, "no")
    named = tested_elections(chosen, saves)
    graph, words = prepare_once(graph, words, named)
    asked = {
        name: prepare_call("run", graph, {**words, "first": one, "second": other})
        for name, (one, other) in named.items()
    }
    reports = Together(asked, way, saves).execute()
    return ElectionReports(join_batch("election", share_warnings(reports)))


def prepare_once(
    graph: object, words: Words, elections: Elections | None = None
) -> tuple[object, dict[str, object]]:
    """Returns a graph that several runs share, prepared where it has to be, and their words.

    So all runs read the same bytes, and one record says how these were made. The words that the
    preparation took are left out.
    """
    if isinstance(graph, Prepared) or not must_prepare(graph, words):
        return graph, dict(words)
    votes: list[tuple[object, object]] = [*(elections or {}).values()]
    for one, other in votes or [(words.get("first"), words.get("second"))]:
        named = plain_words("run", {**words, "first": one, "second": other})
        own_limits.source_of_limits("run", named.pop("limits_from", None))
        taken = {name: named.pop(name) for name in PREPARING if name in named}
        rules = typing.cast(Preparation, taken)
        test_districts(named, rules)
        named = tested_words("run", named, rules)
    prepared = prepare_graph(graph, named, rules, elections)
    emit(prepared.warnings, 3)
    return prepared, {name: value for name, value in words.items() if name not in PREPARING}


def share_warnings(pairs: list[tuple[str, Report]]) -> list[tuple[str, Report]]:
    """Returns the reports of one map, each with the warnings of all."""
    found = tuple(dict.fromkeys(one for _, report in pairs for one in report.warnings))
    return [
        (
            name,
            dataclasses.replace(
                report,
                audited=report.audited and dataclasses.replace(report.audited, warnings=found),
            ),
        )
        for name, report in pairs
    ]


@document
def make(
    *,
    size: int | None = None,
    key: Key | None = None,
    ask: Ask | None = None,
    scores: object = None,
    walks: int = 1,
    steps: int = 1000,
    ends: int = 0,
    hub_steps: int = 1000,
    stop: int = 0,
    serial: bool = False,
    shift: bool = False,
    pairs: bool = False,
    slack: int | None = None,
    tolerance: float | None = None,
    max_cut: int | None = None,
    cut_weight: Weight = 64,
    workers: int = 1,
    save: int = 0,
    resume: bool = False,
    budget: int = 100_000,
    parts: int = 1,
    part: int = 0,
    folder: PathLike | None = None,
    overwrite: bool = False,
    progress: bool | str = False,
    program: PathLike | None = None,
    slots: PathLike | None = None,
    **unknown: object,
) -> Report:
    """Audits a grid that the program makes itself, as a trial of sizes and times.

    PARAMETERS

    Returns
    -------
    Report

    Raises
    ------
    As `run`.
    """
    named = plain_words("make", words_in(locals()))
    test_words("make", named)
    named = {name: value for name, value in named.items() if not is_default(name, value)}
    asked = Given(b"", words_of("make", named), named)
    return execute(asked, Way(folder, progress, program, slots, overwrite))


# ---- several plans


@document
def plans(
    graph: object,
    table: object,
    *,
    districts: str = "same",
    population: str | None = None,
    first: str | None = None,
    second: str | None = None,
    district: str | None = None,
    assignment: object = None,
    key: Key | None = None,
    ask: Ask | None = None,
    scores: object = None,
    walks: int = 1,
    steps: int = 1000,
    ends: int = 0,
    hub_steps: int = 1000,
    stop: int = 0,
    serial: bool = False,
    shift: bool = False,
    pairs: bool = False,
    slack: int | AsPrepared | None = AS_PREPARED,
    tolerance: float | None = None,
    max_cut: int | AsPrepared | None = AS_PREPARED,
    cut_weight: Weight = 64,
    region: str | AsPrepared | None = AS_PREPARED,
    max_split: int | AsPrepared | None = AS_PREPARED,
    max_splits: int | AsPrepared | None = AS_PREPARED,
    max_split_regions: int | AsPrepared | None = AS_PREPARED,
    group: str | AsPrepared | None = AS_PREPARED,
    group_of: str | AsPrepared | None = AS_PREPARED,
    group_districts: int | AsPrepared | None = AS_PREPARED,
    group_share: int | AsPrepared | None = AS_PREPARED,
    freeze: str | AsPrepared | None = AS_PREPARED,
    length: str | AsPrepared | None = AS_PREPARED,
    max_length: int | AsPrepared | None = AS_PREPARED,
    limits_from: str | None = None,
    source: bool = False,
    workers: int = 1,
    save: int = 0,
    resume: bool = False,
    folder: PathLike | None = None,
    overwrite: bool = False,
    progress: bool = False,
    numbers: str | None = None,
    missing: str | None = None,
    join: object = None,
    keep: object = None,
    fill_region: object = None,
    own_region: bool | None = None,
    program: PathLike | None = None,
    pop: str | None = None,
    **unknown: object,
) -> PlanReports:
    """Audits the graph's own plan, and then each plan of a table.

    A label that is missing (None, NaN, pandas.NA, an empty text, a text as "nan" or "NA"), that is
    no text or whole number, or that would be mistaken for another one (`1`, `1.0` and `"1"`, `"A"`
    and `"A "`), is refused with the id of its unit. A float that is whole stands for its digits.

    With `save`, the program judges all plans first. Then a run of each plan saves in a folder of
    its own, `plan-0000` for the graph's own plan and `plan-0001` for the first one of the table.
    The runs share the processors. The reports have the same bytes as without `save`.

    PARAMETERS

    Returns
    -------
    PlanReports
        A list of pairs, the name of a plan and its report. The own plan comes first; its name is
        that of the column of districts, or `assignment`.

    Raises
    ------
    PrepareRefused
        The table, or a value of it, is refused, by the id of its unit.
    CheckpointRefused
        The folder has plans of another graph or table, or of other words than `workers` and
        `save`, or of another program: `differs` says which.
    CheckpointUnreadable, SaveFault
        Another call uses the folder; a checkpoint was not saved, of the plan that is named.
    Interrupted
        Ctrl-C stopped the program. The message says how many plans are done, and how to go on.
    ValueRefused, TypeRefused, GraphRefused, MemoryRefused, ReadFault, WriteFault, ProgramMissing
        As for `check`.
    """
    if districts not in ("same", "any"):
        raise PrepareRefused(f'districts must be "same" or "any", not {districts!r}')
    if isinstance(graph, Prepared) and graph.elections and first is second is None:
        refuse(
            TypeRefused, "plans", "graph", graph,
            "the map was prepared with elections, and plans takes one: give"
            f" {each_election(graph.elections)}",
        )
    words = words_in(locals())
    ways = {"save": words.pop("save"), "resume": words.pop("resume")}
    saving = saving_of({**ways, "folder": folder, "overwrite": overwrite, "progress": progress})
    asked = prepare_call("plans", graph, words)
    if saving is not None:
        test_beside("plans", "stop", {**asked.named, **ways})
    audited = asked.audited
    text = table_of(table, Known.read(asked.data, asked.named.get("district")), districts)
    line = b"".join(asked.data.split(b"\n"))
    shown_table = text.decode("utf-8", "surrogateescape")
    asked = dataclasses.replace(asked, data=line + b"\n" + text, table=shown_table, path=None)
    path = find_program("audit", program)
    made = begin_call(asked, path)
    ended = call_plans(path, asked, saving, count_plans(shown_table) if progress else None)
    if ended.status:
        raise make_error(ended, asked)
    audited = add_call(audited, made)
    reports = PlanReports(
        (name, dataclasses.replace(report, audited=audited))
        for name, report in Report.parse_plans(ended.unproved + ended.text)
    )
    warn_of_frozen(reports.pairs, 3)
    return reports


def call_plans(path: str, asked: Given, saving: Saving | None, shown: int | None) -> Ended:
    """Returns how `plans` ends; a bar shows how many of `shown` plans are done, if there is one."""
    watch = None if shown is None else bars.PlanCount(shown, bars.new_bar("plans", "plan"))
    try:
        if watch is not None:
            watch()
        if saving is not None:
            return walk_plans(path, asked.words, asked.data, saving, watch)
        return call(path, asked.words, asked.data, read=None if watch is None else watch.read)
    finally:
        if watch is not None:
            watch.end()
