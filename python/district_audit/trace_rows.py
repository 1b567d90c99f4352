"""Which plans of a trace the values of a test are, and what the test's theorem does not cover.

A frame of `Trace.to_frame` keeps a `Samples` among its `attrs`, and so do its parts and columns in
pandas. Without it, as in a frame that was read from a file, the columns `id` and `step` are judged.
"""
from __future__ import annotations

import collections.abc
import dataclasses
import typing

from .graphs import Foreign, is_whole

if typing.TYPE_CHECKING:
    from .traces import Score, Trace

NAME = "district_audit"
Row = tuple[int, int]
"""The trajectory and the step of a sample."""


@dataclasses.dataclass(frozen=True)
class Samples:
    """The rows of a frame, and the run that they are of."""

    rows: tuple[Row, ...]
    """For each row of the whole frame its trajectory and step; rows are labeled from 0."""
    walks: int
    steps: int
    ends: int
    hub_steps: int
    thin: int
    enacted: typing.Mapping[str, object]
    """The enacted plan's cells; empty where the trace has no trajectory to an end."""

    def __deepcopy__(self, _memo: object) -> Samples:
        """Returns itself: pandas copies the attributes of a frame again and again."""
        return self


class Values(typing.NamedTuple):
    """The values of a test, and the samples that they are of as far as this is known."""

    values: typing.Iterable[Foreign]
    rows: list[Row] | None = None
    samples: Samples | None = None
    enacted: Foreign = None


def values_of(values: Foreign, score: Foreign, needs_enacted: bool = False) -> Values:
    """Returns the values of a trace, of a frame of one, of a column of that, or as they are.

    Raises TypeError where no one score is named, and ValueError for a trace that went on.
    """
    if hasattr(values, "rows") and hasattr(values, "enacted"):
        return read_trace_rows(values, score, needs_enacted)
    if hasattr(values, "columns"):
        return read_frame(values, score)
    if score is not None:
        raise TypeError("score names a column of a frame or a score of a trace: values have none")
    attrs = getattr(values, "attrs", None)
    samples = attrs.get(NAME) if isinstance(attrs, dict) else None
    if isinstance(samples, Samples):
        labels = list(values.index)
        places = range(len(samples.rows))
        if all(is_whole(label) and label in places for label in labels):
            rows: list[Row] = [samples.rows[int(label)] for label in labels]
            return Values(values, rows, samples, samples.enacted.get(str(values.name)))
    return Values(values)


def read_trace_rows(trace: Trace, score: Foreign, needs_enacted: bool) -> Values:
    """Walks a whole trace, and returns one score of each of its samples."""
    if trace.is_closed or trace.done or trace.place:
        raise ValueError(
            "the trace was read before: a test needs all of its samples, so make it anew"
        )
    function = function_of(trace, score)
    name, enacted = "score", function(trace.enacted) if needs_enacted else None
    samples = trace.describe((), {})
    found = list(trace.rows({name: function}))
    if found and name not in found[0]:
        raise TypeError("the score is a list or a mapping: a test needs one number of each plan")
    rows = [(int(one["id"]), int(one["step"])) for one in typing.cast("list[Foreign]", found)]
    kept = [row[1] % samples.thin == 0 or row[1] == samples.hub_steps for row in rows]
    values = [one[name] for one, is_kept in zip(found, kept) if is_kept]
    return Values(values, [row for row, is_kept in zip(rows, kept) if is_kept], samples, enacted)


def function_of(trace: Trace, score: Foreign) -> Score:
    """Returns the function of a score: one by its name, as `seats` or `seats GOV18`, or itself."""
    from .traces import functions_of

    if score is None:
        raise TypeError("of a trace, name the score: outlier_test(trace, tail, score)")
    if isinstance(score, collections.abc.Mapping):
        named: dict[str, Score] = dict(score)
    else:
        base = score.split(" ")[0] if isinstance(score, str) else score
        named = functions_of([base], trace.elections, trace.length)
    if isinstance(score, str) and score in named:
        return named[score]
    if len(named) != 1:
        raise TypeError(f"name one score: {', '.join(map(repr, named))}")
    return next(iter(named.values()))


def read_frame(frame: Foreign, score: Foreign) -> Values:
    """Returns one column of a frame of a trace."""
    columns = list(frame.columns)
    missing = [name for name in ("id", "step") if name not in columns]
    if missing or score is None:
        raise TypeError(
            "of a table, name the column: outlier_test(frame, tail, score)"
            if score is None
            else f"this is no frame of a trace, since it has no column {missing[0]}: give the"
            " values themselves, the enacted plan's first"
        )
    if score not in columns:
        others = [name for name in columns if name not in ("id", "step", "moves")]
        raise TypeError(f"the frame has no column {score!r}; it has {others}")
    samples = frame.attrs.get(NAME)
    samples = samples if isinstance(samples, Samples) else None
    rows = [(int(one), int(step)) for one, step in zip(frame["id"], frame["step"])]
    enacted = samples.enacted.get(str(score)) if samples is not None else None
    return Values(frame[score], rows, samples, enacted)


# ---- what a theorem does not cover


def refuse_no_walk(found: Values) -> None:
    """Raises ValueError unless the samples are those of one walk from the enacted plan."""
    rows, samples = found.rows, found.samples
    if rows is None or not rows:
        return
    ids = list(dict.fromkeys(one for one, _ in rows))
    if len(ids) > 1:
        raise ValueError(
            f"the samples are of {len(ids)} trajectories: each walk is a test of its own"
            f" (frame[frame.id == {ids[0]}])"
        )
    if samples is not None and ids[0] >= samples.walks:
        raise ValueError(
            f"trajectory {ids[0]} leads from the hub to an end, and does not begin at the"
            " enacted plan: its end belongs into rank_test"
        )
    steps = [step for _, step in rows]
    if steps[0] != 0:
        raise ValueError(
            f"the first sample is at step {steps[0]}, and the enacted plan at step 0: the theorem"
            " is on the whole walk from the enacted plan, so that no beginning may be left out"
        )
    thin = samples.thin if samples is not None else max(1, *steps[1:2])
    for place, step in enumerate(steps):
        if step != place * thin:
            raise ValueError(
                f"a sample at step {place * thin} is missing, and one at step {step} stands there:"
                " the theorem is on a walk of every N-th plan, in order and without a further last"
                " plan"
            )
    if samples is not None and steps[-1] + samples.thin <= samples.steps:
        raise ValueError(
            f"the samples end at step {steps[-1]}, and the walk at step {samples.steps}: the number"
            " of steps is fixed before the walk, so all samples count"
        )


def ends_of(found: Values) -> typing.Iterable[Foreign]:
    """Returns the enacted plan's value and that of each end, of a trace or its frame.

    Values whose samples are not known are returned as they are. Raises ValueError unless the
    samples have each end once, and the enacted plan is known.
    """
    rows, samples = found.rows, found.samples
    if rows is None:
        return found.values
    if samples is None:
        raise ValueError(
            "this frame does not say which of its rows are ends: give the trace itself, or the"
            " values, the enacted plan's first"
        )
    walks = sorted({one for one, _ in rows if one < samples.walks})
    if walks or not rows:
        raise ValueError(
            f"trajectory {walks[0] if walks else 0} is a walk from the enacted plan: the rank test"
            ' is on the ends (ids="ends")'
        )
    values = [
        (one, value)
        for (one, step), value in zip(rows, found.values)
        if step == samples.hub_steps
    ]
    wanted = list(range(samples.walks, samples.walks + samples.ends))
    if [one for one, _ in values] != wanted:
        raise ValueError(
            f"{len(values)} of {samples.ends} ends are there: the rank test is on all of them,"
            ' in order (ids="ends", and thin=hub_steps or last=True)'
        )
    if found.enacted is None:
        raise ValueError("the enacted plan's value is not known: give the trace itself")
    return [found.enacted, *(value for _, value in values)]
