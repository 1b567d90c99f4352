"""Several elections on one map: the same walk of plans, scored with other votes."""
from __future__ import annotations

import pathlib
import typing

from .errors import WorkLeft
from .program import PathLike
from .results import NamedReports


class ElectionReports(NamedReports):
    """The reports of one plan under several elections: a mapping from their names, in order.

    All have the same key, so all visit the same plans, walk by walk: proposals and rules do not
    depend on votes. `["GOV18"]` is the report of an election, and `to_frame()` one table of all.

    Multiplicity: each bound or p-value covers one test, that is one election, one score and, for
    the outlier test, one walk. If m tests were computed, a claim that rests on the smallest value
    at level alpha needs m times that value to be below alpha (Bonferroni's rule). The rule asks for
    no independence, so it holds although the elections share their walks. Count every test that was
    computed, not those that are reported, and choose elections and scores before any report is
    seen. Lines on cut edges and their length do not depend on votes: they are equal in all reports,
    and count once. `Report.exhibit` of each report names the elections, and counts so.
    """

    what = "election"


def each_election(elections: typing.Mapping[str, tuple[str, str]]) -> str:
    """Returns the arguments of a call for each election, in words."""
    return " or ".join(
        f'first="{one}", second="{other}" for {name}'
        for name, (one, other) in elections.items()
    )


def folder_of(folder: PathLike | None, name: str) -> pathlib.Path:
    """Returns the folder of an election's checkpoints, which is made where it is not there."""
    place = pathlib.Path(folder if folder is not None else ".")
    if not place.is_dir():
        raise FileNotFoundError(f"folder={str(place)!r}: there is no such folder")
    (place / name).mkdir(exist_ok=True)
    return place / name


def name_election(
    error: WorkLeft, name: str, ended: int, count: int, done: int | None = None
) -> WorkLeft:
    """Names the election in which work is left, number `ended` + 1 of `count`.

    `done` trajectories of all elections are walked; left out, those of the elections before it and
    its own.
    """
    done = ended * error.total + error.done if done is None else done
    left = WorkLeft(
        error.line,
        f"election {name}, number {ended + 1} of {count};"
        f" {done} of {count * error.total} in all elections; the same"
        " call with resume=True goes on",
    )
    left.election, left.part_is_done = name, error.part_is_done
    return left
