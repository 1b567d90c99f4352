"""Walks that show no score: how far they lead, and how long a run will take; and how far ends lie.

`pilot` is for the time before a run: it never shows a score, so that nobody can choose by one.
`compare_ends` is for the time after: it walks a run's ends again, and shows what a rank can say.
"""
from __future__ import annotations

import dataclasses
import statistics
import sys
import typing
from fractions import Fraction

from .arguments import refuse
from .errors import AuditError, TypeRefused
from .traces import Sample, trace
from .words import key_of

if typing.TYPE_CHECKING:
    from .graphs import Foreign
    from .words import Key

# Arguments with which a score would be chosen.
OF_SCORES = ("ask", "scores", "elections")
MOST_STEPS = 10**9


@dataclasses.dataclass(frozen=True)
class Pilot:
    """The result of `pilot`. It has nothing of any score."""

    units: int
    """The number of units of the map."""
    steps: int
    """The steps of each walk of the pilot."""
    moved: tuple[int, ...]
    """The steps of each walk that changed the plan."""
    changed: tuple[int, ...]
    """The units whose district at the end of each walk is another one than in the enacted plan."""
    seconds: float
    """The processor time of one step on this machine, in seconds."""
    announced: int
    """The steps of a walk whose time is asked for."""

    @property
    def announced_seconds(self) -> float:
        """The time that a walk of the announced length takes on one processor, in seconds."""
        return self.seconds * self.announced

    def __str__(self) -> str:
        """Returns the result in some lines."""
        lines = [
            f"walk {number}: {moved} of {self.steps} steps changed the plan; at its end"
            f" {changed} of {self.units} units lie in another district than at its start"
            for number, (moved, changed) in enumerate(zip(self.moved, self.changed))
        ]
        lines.append(
            f"a walk of {self.announced} steps takes about {self.announced_seconds:.0f} seconds on"
            " one processor"
        )
        if 2 * max(self.changed) < self.units:
            lines.append(
                "less than half of the units changed: longer walks compare with more different"
                " plans"
            )
        return "\n".join(lines)


def differing(sample: Sample) -> int:
    """Returns the number of units whose district is another one than in the enacted plan."""
    plan = sample.plan
    return sum(map(int.__ne__, plan.districts, plan.table.start))


def program_seconds() -> float:
    """Returns the processor time of all programs that this process has waited for, in seconds.

    A clock would count what other processes of a busy machine do.
    """
    # Only Unix has this module, and other parts of the package need no program.
    import resource

    used = resource.getrusage(resource.RUSAGE_CHILDREN)
    return used.ru_utime + used.ru_stime


def pilot(
    graph: object,
    *,
    steps: int = 1_000_000,
    announced: int = MOST_STEPS,
    walks: int = 2,
    key: Key | None = None,
    **words: Foreign,
) -> Pilot:
    """Walks from the enacted plan, and shows how far and how fast, but nothing of any score.

    Use it to choose the steps of a run, its slack and its limits before the run is announced.
    Disclose it as a pilot. Its draws are not those of the run.

    Parameters
    ----------
    graph : object
        As for `run`.
    steps : int, default 1000000
        The steps of each walk of the pilot: 1 to 10^9.
    announced : int, default 1000000000
        The steps of a walk of the run, whose time is estimated: 1 to 10^9.
    walks : int, default 2
        The number of walks of the pilot.
    key : str or bytes, optional
        A key for the pilot. Left out, it is that of the text "pilot". Never use that of the run.
    **words
        Columns, slack and rules, as for `trace`; no questions.

    Returns
    -------
    Pilot

    Raises TypeRefused for a question, ValueRefused for a number out of range, and what `trace`
    raises.
    """
    for name in OF_SCORES:
        if words.get(name) is not None:
            refuse(TypeRefused, "pilot", name, words[name], "a pilot asks no question")
    for name, value in (("walks", walks), ("announced", announced)):
        if isinstance(value, bool) or not isinstance(value, int) or not 1 <= value <= MOST_STEPS:
            refuse(TypeRefused, "pilot", name, value, f"{name} is a whole number from 1 to 10^9")
    common: dict[str, Foreign] = {**words, "key": key_of("pilot") if key is None else key}
    before = program_seconds()
    with trace(graph, walks=1, steps=1, thin=1, **common) as one_step:
        units = sum(1 for _ in next(one_step).assignment)
    begun = program_seconds()
    moved, changed = [], []
    with trace(graph, ids="walks", walks=walks, steps=steps, thin=steps, **common) as walked:
        for sample in walked:
            if sample.is_last:
                moved.append(sample.moves)
                changed.append(differing(sample))
    # The time of a walk of one step is that of the start.
    taken = max(0.0, program_seconds() - begun - (begun - before))
    return Pilot(units, steps, tuple(moved), tuple(changed), taken / (walks * steps), announced)


# ---- after a run


@dataclasses.dataclass(frozen=True)
class EndCounts:
    """How the ends of a parallel test compare with the enacted plan in one question."""

    ask: str
    """The question, as seats:low."""
    more: int
    """The ends that are strictly more extreme than the enacted plan."""
    equal: int
    """The ends with the enacted plan's score. They are ranked before it, and weaken the test."""
    less: int
    """The ends that are less extreme."""

    @property
    def rank(self) -> int:
        """The enacted plan's rank, as the report has it."""
        return self.more + self.equal + 1


@dataclasses.dataclass(frozen=True)
class EndsTable:
    """The result of `compare_ends`."""

    units: int
    """The number of units of the map."""
    changed: tuple[int, ...]
    """The units of each end that lie in another district than in the enacted plan."""
    asks: tuple[EndCounts, ...]
    """The counts of each question, in order."""

    def __str__(self) -> str:
        """Returns the result in some lines."""
        ends = len(self.changed)
        median = statistics.median_low(self.changed)
        lines = [
            f"{ends} ends: {min(self.changed)} to {max(self.changed)}, in the middle {median}, of"
            f" {self.units} units lie in another district than in the enacted plan"
        ]
        lines += [
            f"{one.ask}: {one.more} ends are strictly more extreme, {one.equal} equal, {one.less}"
            f" less extreme; rank {one.rank} of {ends + 1}"
            for one in self.asks
        ]
        return "\n".join(lines)


def compare_ends(graph: object, *, ends: int, hub_steps: int, **words: Foreign) -> EndsTable:
    """Walks the ends of a run again, and compares each with the enacted plan.

    It shows the power of a parallel test: ends that share most units with the enacted plan, or
    equal it in score as with `seats`, cannot show it as extreme. Call it after the run, with the
    run's own key, numbers and questions.

    Parameters
    ----------
    graph : object
        As for `run`.
    ends, hub_steps : int
        Those of the run.
    **words
        The other arguments of the run that `trace` has: columns, key, ask, walks, slack, rules.

    Returns
    -------
    EndsTable

    Raises what `trace` raises. It walks on one processor.
    """
    changed: list[int] = []
    counts: dict[str, list[int]] = {}
    common: dict[str, Foreign] = {**words, "thin": hub_steps}
    with trace(graph, ids="ends", ends=ends, hub_steps=hub_steps, **common) as walked:
        asks = walked.head.asks
        counts = {ask.ask: [0, 0, 0] for ask in asks}
        for sample in walked:
            if not sample.is_last:
                continue
            changed.append(differing(sample))
            for ask, top in zip(asks, sample.numerators):
                more = Fraction(top, ask.start.denominator) - ask.start.fraction
                sign = (more > 0) - (more < 0)
                counts[ask.ask][1 - sign if ask.tail == "high" else 1 + sign] += 1
        units = walked.head.units
    found = tuple(EndCounts(ask, *three) for ask, three in counts.items())
    return EndsTable(units, tuple(changed), found)


# ---- the command

USAGE = """Usage: district-audit-pilot GRAPH WORDS

Walks from the plan of a graph, and prints how far the walks lead and how long a walk of the run
will take, but nothing of any score. GRAPH is a file that the auditor accepts. WORDS are words of
district-audit run on the map and its rules (--pop, --first, --second, --district, --slack and so
on), and of the pilot:
    --steps K      the steps of each walk of the pilot; 1000000 by default
    --announced K  the steps of a walk of the run, whose time is estimated; 1000000000 by default
    --walks M      the number of walks of the pilot; 2 by default
    --key K        a key of the pilot, and never that of the run
Disclose each pilot. The program itself walks blind with district-audit run --blind yes.
The exit status is 0, or 1 if the words are refused, or that of the program.
"""


def main(words: typing.Sequence[str] | None = None) -> int:
    """Runs the command district-audit-pilot; returns its exit status."""
    given = list(sys.argv[1:] if words is None else words)
    if given in ([], ["--help"], ["-h"]):
        print(USAGE, end="")
        return 0
    graph, rest = given[0], given[1:]
    names = [name[2:].replace("-", "_") for name in rest[::2] if name.startswith("--")]
    if len(rest) % 2 or len(names) != len(rest) // 2:
        print(
            "district-audit-pilot: after GRAPH each name, as --pop, has a value; --help says more",
            file=sys.stderr,
        )
        return 1
    named: dict[str, Foreign] = dict(zip(names, rest[1::2]))
    numbers = {
        name: int(named[name]) for name in ("steps", "announced", "walks")
        if name in named and str(named[name]).isdecimal()
    }
    try:
        print(pilot(graph, **{**named, **numbers}))
    except (AuditError, OSError, ValueError, TypeError) as why:
        print(f"district-audit-pilot: {why}", file=sys.stderr)
        return getattr(why, "status", 0) or 1
    return 0
