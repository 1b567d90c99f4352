"""Traces: the plans that a run's trajectories visit, one sample after the other.

The program's `trace` writes a plan after every N-th step of a trajectory. `trace` calls it and
`read_trace` reads a text that it wrote before. Both return a `Trace`, an iterator of samples that
holds one plan at a time, whatever the length of the text.
"""
from __future__ import annotations

import collections.abc
import operator
import os
import time
import typing
from fractions import Fraction

from . import progress as bars
from . import scores as score_functions
from .arguments import AS_PREPARED, AsPrepared, Words, document, tested_elections
from .calls import Given, prepare_call, words_in
from .errors import extra
from .graphs import Foreign
from .preparing import Prepared
from .program import PathLike, find_program
from .running import few_moves, warn_of_few_moves
from .trace_head import compare_head
from .trace_plan import Plan, UnitTable, places_of
from .trace_rows import NAME, Row, Samples
from .trace_text import FileLines, Lines, ProgramLines, Shown, Text, Trajectory, plan_line

if typing.TYPE_CHECKING:
    import pandas

    from .words import Ask, Key

Ids = typing.Union[int, str, range, tuple[int, int]]
"""An id, a text as "0-3", "walks" or "ends", a range, or the first and the last id."""
Elections = typing.Mapping[str, tuple[str, str]]
Score = typing.Callable[["Sample"], object]
Scores = typing.Union[typing.Mapping[str, Score], typing.Sequence[typing.Union[str, Score]]]


class StaleSample(RuntimeError):
    """A sample whose plan was asked for after the trace went on to the next."""


# ---- samples

class Assignment(typing.Mapping[Foreign, Foreign]):
    """A sample's plan: a mapping from the graph's own node ids to the plan's own district labels.

    It reads the trace's current plan and copies nothing. `dict(assignment)` copies it.
    """

    def __init__(self, sample: Sample) -> None:
        self.sample = sample

    def __repr__(self) -> str:
        return f"<Assignment of {self.sample!r}>"

    def __getitem__(self, unit: Foreign) -> Foreign:
        plan = self.sample.plan
        return plan.table.labels[plan.districts[plan.table.unit_of[unit]]]

    def __iter__(self) -> typing.Iterator[Foreign]:
        return iter(self.sample.plan.table.ids)

    def __len__(self) -> int:
        return len(self.sample.plan.table.ids)

    def items(self) -> typing.ItemsView[Foreign, Foreign]:
        """Returns the pairs of id and label, as a view of a copy."""
        plan = self.sample.plan
        labels = plan.table.labels
        return {unit: labels[district]
                for unit, district in zip(plan.table.ids, plan.districts)}.items()


class Sample:
    """A plan that a trajectory visits.

    `id`, `step`, `moves` and `scores` stay as they are. The plan itself (`assignment`, `totals` and
    every score computed of it) is the trace's current one, which is changed in place: once the
    trace has gone on, asking for it raises `StaleSample`. `frozen()` returns a sample that keeps a
    copy of the plan.
    """

    def __init__(self, trace: Trace, plan: Plan, trajectory: Trajectory, shown: Shown) -> None:
        self.trace = trace
        self.id: int = trajectory.number
        """The trajectory: 0 to walks - 1 for the walks, then those of the ends."""
        self.step = shown.step
        """The number of steps from the first plan of the trajectory."""
        self.moves = shown.moves
        """The number of these steps that changed the plan."""
        self.numerators = shown.numerators
        """The numerator of each ask's score, in the order of the asks."""
        self.is_last = shown.step == trajectory.steps
        """True for the trajectory's last plan."""
        self._plan, self._turn = plan, plan.turn

    def __repr__(self) -> str:
        return f"<Sample id={self.id} step={self.step} moves={self.moves}>"

    @property
    def plan(self) -> Plan:
        """The plan by the auditor's numbers. Raises StaleSample once the trace has gone on."""
        if self._turn != self._plan.turn:
            raise StaleSample(f"the trace has gone on from step {self.step} of trajectory "
                              f"{self.id}: call frozen() on a sample to keep its plan")
        return self._plan

    @property
    def scores(self) -> dict[str, Fraction]:
        """The value of each score that was asked, as the program computed it, by its name."""
        return {ask.score: Fraction(top, ask.start.denominator)
                for ask, top in zip(self.trace.head.asks, self.numerators)}

    @property
    def assignment(self) -> Assignment:
        """The district label of each node, as a mapping that copies nothing."""
        return Assignment(self)

    def totals(self, column: str) -> dict[Foreign, int]:
        """Returns the total of a column of people or votes in each district, by its label.

        Any column of whole numbers of the graph will do. The time depends on the moves since the
        last sample, and not on the number of units.

        Raises KeyError if no unit has the column, and ValueError with the unit's id if a value is
        missing, negative or not whole.
        """
        plan = self.plan
        return dict(zip(plan.table.labels, plan.totals(column)))

    def frozen(self) -> Sample:
        """Returns the same sample with a copy of its plan, which stays when the trace goes on."""
        copied = Sample.__new__(Sample)
        copied.__dict__.update(self.__dict__)
        copied._plan = Plan(self.plan.table, self.plan.districts)
        copied._turn = copied._plan.turn
        return copied

    def partition(self, graph: Foreign, **more: object) -> Foreign:
        """Returns a GerryChain Partition of a graph with this plan.

        `graph` is a GerryChain Graph with the same nodes, and the other arguments are those of
        `gerrychain.Partition`, as `updaters`. Raises ValueError if a node is not a unit of the
        trace, and MissingExtra if GerryChain is not installed.
        """
        gerrychain = extra("gerrychain")
        table, districts = self.plan.table, self.plan.districts
        nodes = list(graph.nodes)
        written = [row["id"] for row in table.rows]
        if len(nodes) != len(written):
            raise ValueError(f"the graph has {len(nodes)} nodes, and the plan {len(written)} units")
        assignment = {nodes[place]: table.labels[district]
                      for place, district in zip(places_of(nodes, written), districts)}
        return gerrychain.Partition(graph, assignment=assignment, **more)


# ---- the iterator of samples

class Trace(typing.Iterator[Sample]):
    """An iterator of the samples of a trace. It may be walked once.

    A `with` block, or `close()`, ends the program where not all samples are wanted. Where the text
    ends too early, is none that the program writes, or the program ends with a status other than 0,
    the iterator raises `TraceRefused` or the status's exception.
    """

    def __init__(self, lines: Lines, sent: Given, graph: object, words: Words, *,
                 ids: tuple[int, int] | None = None, elections: Elections | None = None,
                 last: bool = False, progress: bool = False, is_read: bool = False) -> None:
        """Reads the head of the trace.

        `graph` and `words` are those of the call, and `sent` has the bytes and words made of them.
        `ids` are the first and the last that were asked for. `is_read` is true for a text from a
        file, whose head is compared with the graph."""
        self.lines = lines
        self.text = Text(lines)
        self.elections: dict[str, tuple[str, str]] = dict(elections or {})
        """The columns of both parties' votes in each election, by its name."""
        self.unchecked: tuple[str, ...] = ()
        """A text for each part of a read trace's head that could not be compared with the graph."""
        try:
            # The program's own refusal of a graph comes before whatever this finds in it.
            self.head, line = self.text.head()
            self.trajectory = self.text.trajectory(line, self.head, None)
            self.table = UnitTable(sent.data, graph, str(sent.named["district"]), words)
            self.election = self.read_columns(sent.named)
            self.length = str(sent.named.get("length", ""))
            self.check(sent.data, ids)
            self.plan = Plan(self.table, self.table.start)
            for columns in self.elections.values():
                # A missing column or value is reported now, and not after a walk of hours.
                for column in columns:
                    self.table.column(column)
            if is_read:
                self.unchecked = compare_head(self, sent.named, words)
        except BaseException:
            lines.close()
            raise
        self.last = last
        self.final_id = None if ids is None else ids[1]
        self.form = plan_line(len(self.head.asks))
        self.bar = Bar(self.steps_in_all()) if progress else None
        self.hub: Shown | None = None
        self.done = 0
        """The steps of the trajectories that were read to their ends."""
        self.moved: dict[int, tuple[int, int]] = {}
        """The moves and the steps of each of these trajectories."""
        self.is_closed = False
        self.begin(self.trajectory)

    @property
    def proved(self) -> bool:
        """False if the program said that it was built without a proof."""
        return not self.text.unproved

    def read_columns(self, named: Words) -> tuple[str, str]:
        """Returns the columns of both parties' votes that the program read; '' if unknown."""
        if self.head.source is not None:
            return self.head.source.first, self.head.source.second
        return str(named.get("first", "")), str(named.get("second", ""))

    def check(self, data: bytes, ids: tuple[int, int] | None) -> None:
        """Refuses a head that is not one of this graph, or not of the ids that were asked for."""
        head, table = self.head, self.table
        if (head.units, head.districts) != (len(table.ids), len(table.labels)):
            self.text.refuse(f"it has {head.units} units and {head.districts} districts, and the "
                             f"graph has {len(table.ids)} and {len(table.labels)}")
        if head.source is not None and not head.source.is_of(data):
            self.text.refuse("its SHA-256 is that of another file")
        if ids is not None and self.trajectory.number != ids[0]:
            self.text.refuse("it begins with another trajectory than was asked for")

    def steps_in_all(self) -> int:
        """Returns the number of steps of all trajectories that were asked for."""
        first = self.trajectory.number
        final = first if self.final_id is None else self.final_id
        setting = self.head.setting
        return sum(setting.steps if one < setting.walks else setting.hub_steps
                   for one in range(first, final + 1))

    def __repr__(self) -> str:
        head, one = self.head, self.trajectory
        state = "closed" if self.is_closed else f"at step {self.before.step} of {one.steps}"
        return (f"<Trace of {head.units} units, {head.districts} districts: "
                f"trajectory {one.number} {state}, thin {one.thin}>")

    def __iter__(self) -> Trace:
        return self

    def __next__(self) -> Sample:
        try:
            sample = self.sample()
        except BaseException:
            self.close()
            raise
        if sample is None:
            self.close()
            raise StopIteration
        return sample

    def __enter__(self) -> Trace:
        return self

    def __exit__(self, *_error: object) -> None:
        self.close()

    def __del__(self) -> None:
        if "lines" in self.__dict__:
            self.lines.close()

    def close(self) -> None:
        """Ends the program, or closes the file. No further sample comes."""
        self.is_closed = True
        self.lines.close()
        if self.bar is not None:
            self.bar.end()
            self.bar = None

    def begin(self, one: Trajectory) -> None:
        """Stands before the first line of a trajectory."""
        self.trajectory, self.place = one, 0
        self.before = Shown(0, 0, tuple(ask.start.numerator for ask in self.head.asks), [], [])
        if self.plan.districts != self.table.start:
            self.plan.reset(self.table.start)

    def sample(self) -> Sample | None:
        """Reads on to the next sample; None at the end of the text."""
        while not self.is_closed:
            if self.place < self.trajectory.line_count:
                shown = self.read_plan()
                if self.last or shown.step % self.trajectory.thin == 0:
                    self.plan.move(shown.units, shown.districts)
                    return Sample(self, self.plan, self.trajectory, shown)
                continue
            self.done += self.trajectory.steps
            self.moved[self.trajectory.number] = self.before.moves, self.trajectory.steps
            line = self.text.line("the line `end`")
            if line == "end":
                self.text.ask_that(self.final_id in (None, self.trajectory.number),
                                   f"trajectories up to {self.final_id} are missing")
                self.text.end()
                few = few_moves("trajectory", self.moved, self.head.units)
                warn_of_few_moves([few] if few else [], 3)
                return None
            self.begin(self.text.trajectory(line, self.head, self.trajectory))
        return None

    def read_plan(self) -> Shown:
        """Reads the next line of a plan."""
        one = self.trajectory
        shown = self.text.read_plan(self.form, one.find_step(self.place))
        self.judge(one, self.before, shown)
        self.before, self.place = shown, self.place + 1
        if self.bar is not None:
            self.bar.show(self.done + shown.step)
        return shown

    def judge(self, one: Trajectory, before: Shown, shown: Shown) -> None:
        """Refuses a line that cannot come behind the line before, or be the first."""
        ask_that, units, plan = self.text.ask_that, shown.units, self.plan.districts
        ask_that(units == sorted(set(units)), "its units are not in rising order")
        ask_that(not units or units[-1] < self.head.units, "a unit's number is out of range")
        ask_that(max(shown.districts, default=0) < self.head.districts,
                 "a district's number is out of range")
        ask_that(not any(map(operator.eq, map(plan.__getitem__, units), shown.districts)),
                 "a unit already is in that district")
        made = shown.moves - before.moves
        ask_that(0 <= made <= shown.step - before.step, "the number of moves is out of range")
        most = made
        if self.place == 0 and one.number >= self.head.setting.walks:
            self.hub = self.hub or shown
            ask_that(shown == self.hub, "all trajectories to ends begin at one hub")
            most = one.steps
        ask_that(len(units) <= most, "more units changed than steps changed the plan")
        ask_that(bool(units) or bool(made) or shown.numerators == before.numerators,
                 "the scores changed although no step changed the plan")

    # ---- what may be made of it

    @property
    def enacted(self) -> Sample:
        """The enacted plan, as a frozen sample at step 0 with the scores of the lines `ask`."""
        start = tuple(ask.start.numerator for ask in self.head.asks)
        first = Trajectory(0, self.head.setting.steps, 1)
        return Sample(self, Plan(self.table, self.table.start), first, Shown(0, 0, start, [], []))

    def columns_of(self, election: str | tuple[str, str] | None) -> tuple[str, str]:
        """Returns the columns of an election: those of a name, a pair of columns as it is, or
        where it is None those that the program read. Raises KeyError for an unknown name."""
        if election is None:
            return self.election
        if isinstance(election, str):
            if election not in self.elections:
                raise KeyError(f"there is no election {election}; the elections are "
                               f"{', '.join(self.elections) or 'none: pass elections=...'}")
            return self.elections[election]
        first, second = election
        return first, second

    def rows(self, scores: Scores, exact: bool = True) -> typing.Iterator[dict[str, object]]:
        """Walks the rest of the trace, and yields a dict for each sample: id, step, moves, and each
        score.

        `scores` is a mapping from names to functions of a sample, or a sequence of such functions
        and of names of functions in `district_audit.scores`. A named score of votes is computed for
        each of the trace's elections, as `seats GOV18`; without elections for the columns that the
        program read. `cut_length` is that of the trace's `length`. A score that is a list or a
        mapping gives a column for each of its values, as `ordered_shares 1`. With exact=False a
        Fraction becomes the nearest float, which can make equal what was not and never turns an
        order around.
        """
        functions = functions_of(scores, self.elections, self.length)
        for sample in self:
            row: dict[str, object] = {"id": sample.id, "step": sample.step, "moves": sample.moves}
            for name, function in functions.items():
                row.update(cells(name, function(sample), exact))
            yield row

    def to_frame(self, scores: Scores, exact: bool = False) -> pandas.DataFrame:
        """Walks the rest of the trace, and returns a pandas DataFrame with a row for each sample.

        Its columns are those of `rows`. Fractions are floats, or with exact=True Fractions, as
        `outlier_test` compares them exactly. Its `attrs` say which plans its rows are of, for the
        tests. Raises MissingExtra if pandas is not installed.
        """
        pandas = extra("pandas")
        thin, setting = self.trajectory.thin, self.head.setting
        functions = functions_of(scores, self.elections, self.length)
        enacted: dict[str, object] = {}
        if setting.ends and (self.final_id is None or self.final_id >= setting.walks):
            for name, function in functions.items():
                enacted.update(cells(name, function(self.enacted), exact))
        found = list(self.rows(functions, exact))
        frame = pandas.DataFrame(found)
        frame.attrs[NAME] = self.describe(
            [(int(typing.cast(int, one["id"])), int(typing.cast(int, one["step"])))
             for one in found], enacted, thin
        )
        return frame

    def describe(self, rows: typing.Iterable[Row], enacted: typing.Mapping[str, object],
                 thin: int = 0) -> Samples:
        """Returns the run that rows of samples are of, for tests on them."""
        one = self.head.setting
        return Samples(tuple(rows), one.walks, one.steps, one.ends, one.hub_steps,
                       thin or self.trajectory.thin, enacted)

    def assignments(self) -> pandas.DataFrame:
        """Walks the rest of the trace, and returns a pandas DataFrame of its plans.

        It has a row for each sample, labeled by id and step, and a column for each unit, named by
        its id, with the label of its district. It takes a value for each sample and unit, so
        choose `thin` by the memory. Raises MissingExtra if pandas is not installed.
        """
        pandas = extra("pandas")
        labels, rows, plans = self.table.labels, [], []
        for sample in self:
            rows.append((sample.id, sample.step))
            plans.append([labels[district] for district in sample.plan.districts])
        index = pandas.MultiIndex.from_tuples(rows, names=["id", "step"]) if rows else None
        units = pandas.Index(self.table.ids, tupleize_cols=False)
        return pandas.DataFrame(plans, index=index, columns=units)


def functions_of(scores: Scores, elections: Elections, length: str = "") -> dict[str, Score]:
    """Returns a function for each column of scores; `length` is the column of edges' lengths."""
    if isinstance(scores, str) or callable(scores):
        scores = [scores]
    if isinstance(scores, collections.abc.Mapping):
        return dict(scores)
    chosen: dict[str, Score] = {}
    for score in scores:
        if not isinstance(score, str):
            chosen[getattr(score, "__name__", repr(score))] = score
        elif score in score_functions.OF_PLANS:
            chosen[score] = score_functions.OF_PLANS[score]
        elif score == "cut_length":
            chosen[score] = make_length_score(length)
        elif score not in score_functions.OF_VOTES:
            known = (*score_functions.OF_PLANS, "cut_length", *score_functions.OF_VOTES)
            raise ValueError(f"there is no score {score}; by name there are {', '.join(known)}")
        elif not elections:
            chosen[score] = score_functions.OF_VOTES[score]
        else:
            chosen.update(
                (f"{score} {name}", make_election_score(score, name)) for name in elections
            )
    return chosen


def make_length_score(column: str) -> Score:
    """Returns the score of the cut edges' total length; raises ValueError without a column."""
    if not column:
        raise ValueError('the score cut_length needs lengths: trace(.., length="shared_perim")')
    return lambda sample: score_functions.cut_length(sample, column)


def make_election_score(score: str, election: str) -> Score:
    """Returns a score of votes for one election."""
    function = score_functions.OF_VOTES[score]
    return lambda sample: function(sample, election)


def cells(name: str, value: object, exact: bool) -> dict[str, object]:
    """Returns the columns of one score of one sample."""
    if isinstance(value, collections.abc.Mapping):
        return {f"{name} {key}": plain(one, exact) for key, one in value.items()}
    if isinstance(value, (list, tuple)):
        return {f"{name} {place}": plain(one, exact) for place, one in enumerate(value, 1)}
    return {name: plain(value, exact)}


def plain(value: object, exact: bool) -> object:
    """Returns a value, a Fraction as a float unless exact ones are wanted."""
    return float(value) if isinstance(value, Fraction) and not exact else value


class StepBar(bars.TqdmBar):
    """tqdm's bar, which counts steps."""

    def show(self, done: int, total: int) -> None:
        """Draws how many of all steps are done."""
        if self.bar is None:
            self.bar = self.tqdm(total=total, unit="step", unit_scale=True, desc="walked")
        super().show(done, total)


class Bar:
    """A progress bar over the steps of a trace, drawn at most twice a second and a hundred times in
    all, since each time is a line where it is no terminal's."""

    def __init__(self, total: int) -> None:
        self.total, self.due, self.percent = total, 0.0, -1
        plain_or_tqdm = bars.new_bar()
        self.bar = (StepBar(plain_or_tqdm.tqdm) if isinstance(plain_or_tqdm, bars.TqdmBar)
                    else plain_or_tqdm)

    def show(self, done: int) -> None:
        """Draws how many steps are done."""
        percent = 100 * done // max(1, self.total)
        if done < self.total and (time.monotonic() < self.due or percent == self.percent):
            return
        self.due, self.percent = time.monotonic() + 0.5, percent
        self.bar.show(done, self.total)

    def end(self) -> None:
        """Leaves the bar as it is."""
        self.bar.end()


# ---- the calls

@document
def trace(
    graph: object,
    *,
    ids: Ids = 0,
    thin: int | None = None,
    population: str | None = None,
    first: str | None = None,
    second: str | None = None,
    elections: Elections | None = None,
    district: str | None = None,
    assignment: object = None,
    key: Key | None = None,
    ask: Ask | None = None,
    scores: object = None,
    walks: int = 1,
    steps: int = 1000,
    ends: int = 0,
    hub_steps: int = 1000,
    slack: int | AsPrepared | None = AS_PREPARED,
    tolerance: float | None = None,
    max_cut: int | AsPrepared | None = AS_PREPARED,
    cut_weight: int | float | str | Fraction = 64,
    region: str | AsPrepared | None = AS_PREPARED,
    max_split: int | AsPrepared | None = AS_PREPARED,
    max_splits: int | AsPrepared | None = AS_PREPARED,
    max_split_regions: int | AsPrepared | None = AS_PREPARED,
    group: str | AsPrepared | None = AS_PREPARED,
    group_of: str | AsPrepared | None = AS_PREPARED,
    group_districts: int | AsPrepared | None = AS_PREPARED,
    group_share: int | AsPrepared | None = AS_PREPARED,
    freeze: str | AsPrepared | None = AS_PREPARED,
    length: str | AsPrepared | None = AS_PREPARED,
    max_length: int | AsPrepared | None = AS_PREPARED,
    limits_from: str | None = None,
    source: bool = False,
    last: bool = False,
    progress: bool = False,
    numbers: str | None = None,
    missing: str | None = None,
    join: object = None,
    keep: object = None,
    fill_region: object = None,
    own_region: bool | None = None,
    program: PathLike | None = None,
    pop: str | None = None,
    **unknown: object,
) -> Trace:
    """Walks trajectories of a run and returns an iterator of the plans at every N-th step.

    PARAMETERS

    The other arguments of `run` (`workers`, `budget`, `save`, `resume`, `shift`, `stop`, `serial`,
    `parts`, `part`) are no part of the job, and are not taken.

    Returns
    -------
    Trace
        It yields a `Sample` for each plan and holds no more than one plan. The program walks as
        fast as it is read: it waits while the samples are not taken.

    Raises
    ------
    ValueRefused, TypeRefused, GraphRefused, PrepareRefused, MemoryRefused, ReadFault, WriteFault,
    ProgramMissing
        As for `check`, at the call; or, where the program ends with another status than 0, at the
        sample at which this shows.
    TraceRefused
        The program's text is not whole.
    KeyError
        No unit has a column of an election.
    ValueError
        A value in such a column is missing, negative or not whole.

    Warns
    -----
    FrozenWalk
        At the end of the trace, if a trajectory changed the plan never, or fewer times than there
        are units.
    GraphChanged
        Values of a graph were changed where it was prepared.
    """
    elections = find_elections(graph, elections)
    words = add_elections("trace", words_in(locals()), elections)
    if words["ask"] is None and words["scores"] is None:
        words["ask"] = "cut-edges:low"
    sent = prepare_call("trace", graph, words)
    shown_ids = [int(one) for one in str(sent.named["ids"]).split("-")]
    return Trace(ProgramLines(find_program("audit", program), sent), sent, graph, words,
                 ids=(shown_ids[0], shown_ids[-1]), elections=elections, last=last,
                 progress=progress)


def find_elections(graph: object, elections: Elections | None) -> Elections | None:
    """Returns the elections of a call, or else those that a map was prepared with."""
    if elections is None and isinstance(graph, Prepared) and graph.elections:
        return graph.elections
    return elections


def add_elections(
    command: str, words: Words, elections: Elections | None
) -> dict[str, object]:
    """Returns the words, with the columns of the first election where none are named."""
    named = dict(words)
    if elections is not None:
        columns = tested_elections(elections, False, command)
        if named["first"] is None and named["second"] is None:
            named["first"], named["second"] = next(iter(columns.values()))
    return named


@document
def read_trace(
    text: PathLike,
    graph: object,
    *,
    population: str | None = None,
    first: str | None = None,
    second: str | None = None,
    elections: Elections | None = None,
    district: str | None = None,
    assignment: object = None,
    key: Key | None = None,
    ask: Ask | None = None,
    scores: object = None,
    walks: int | None = None,
    steps: int | None = None,
    ends: int | None = None,
    hub_steps: int | None = None,
    slack: int | None = None,
    tolerance: float | None = None,
    max_cut: int | None = None,
    cut_weight: int | float | str | Fraction | None = None,
    region: str | AsPrepared | None = AS_PREPARED,
    max_split: int | None = None,
    max_splits: int | None = None,
    max_split_regions: int | None = None,
    group: str | AsPrepared | None = AS_PREPARED,
    group_of: str | AsPrepared | None = AS_PREPARED,
    group_districts: int | None = None,
    group_share: int | None = None,
    freeze: str | AsPrepared | None = AS_PREPARED,
    length: str | AsPrepared | None = AS_PREPARED,
    max_length: int | None = None,
    last: bool = False,
    numbers: str | None = None,
    missing: str | None = None,
    join: object = None,
    keep: object = None,
    fill_region: object = None,
    own_region: bool | None = None,
    pop: str | None = None,
    **unknown: object,
) -> Trace:
    """Reads a trace that the program wrote to a file, and returns an iterator as `trace` does.

    The head of the text is compared with the graph: units, edges, districts, population, the number
    of regions, the group's majorities, and the enacted plan's value of each score. What else is
    given, as `key`, `steps` or `slack`, is compared with the text, too. `Trace.unchecked` says what
    could not be compared: without the line `source` a text of another graph with the same totals
    passes.

    PARAMETERS

    Returns
    -------
    Trace

    Raises
    ------
    TraceRefused
        It is no whole trace of this graph.
    ValueRefused, TypeRefused, PrepareRefused
        As for `check`.
    OSError
        The file cannot be read.

    Warns
    -----
    HeadNotCompared
        A column that the comparison needs is not named.
    FrozenWalk
        As for `trace`.
    """
    words = words_in(locals())
    elections = find_elections(graph, elections)
    sent = prepare_call("read_trace", graph, add_elections("read_trace", words, elections))
    return Trace(FileLines(open(os.fspath(text), "rb")), sent, graph, words, elections=elections,
                 last=last, is_read=True)
