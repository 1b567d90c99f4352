"""Warnings of numbers that mean nothing, or not what was meant: a class for each slip.

`str` of a warning is one line, which names the column, district or unit. `prepare` and the calls
give each to Python's `warnings`, so that a filter of Python can silence one class or make it an
error. `Prepared.warnings` and `Report.warnings` list them, an exhibit prints them, and a manifest
keeps them by class and text.
"""
from __future__ import annotations

import typing
import warnings as python_warnings

from .errors import FrozenWalk, GraphChanged, HeadNotCompared

__all__ = [
    "AllUnitsFrozen", "BordersNotShared", "ColumnRounded", "CompactnessUnderLimit",
    "CoordinatesInDegrees", "DistrictCannotChange", "DistrictFrozen", "DistrictRounded",
    "DistrictWithoutPeople", "DistrictWithoutVotes", "FrozenWalk", "GraphChanged",
    "HeadNotCompared", "LengthsRounded", "LimitAtOwnNumber", "LooseTolerance", "MapWarning",
    "MoreVotesThanPeople", "NoCompactnessLimit", "NoPeople", "OneSidedVotes",
    "PercentagesNotCounts", "SharesNotCounts", "SmallGroupShare", "emit", "read",
]


class MapWarning(UserWarning):
    """A likely mistake in a map or in the question about it. `str` of it is one line."""

    @property
    def kind(self) -> str:
        """The name of its class, as a manifest keeps it."""
        return type(self).__name__

    def __eq__(self, other: object) -> bool:
        return type(self) is type(other) and str(self) == str(other)

    def __hash__(self) -> int:
        return hash((self.kind, str(self)))


class NoPeople(MapWarning):
    """The population is 0 in every unit, so every plan is within its bounds."""


class DistrictWithoutPeople(MapWarning):
    """A district of the enacted plan has no people."""


class DistrictWithoutVotes(MapWarning):
    """A district of the enacted plan has no votes, so it has no share of votes."""


class LooseTolerance(MapWarning):
    """Districts may have half more or fewer people than the ideal: a percentage, most likely."""


class MoreVotesThanPeople(MapWarning):
    """There are more votes than people in all, or at least twice as many in a unit."""


class OneSidedVotes(MapWarning):
    """A unit has votes of one party, and those of the other were missing and became 0."""


class SharesNotCounts(MapWarning):
    """A column has values from 0 to 1 that are not whole: shares, and not counts."""


class PercentagesNotCounts(MapWarning):
    """A column seems to have percentages, and not counts."""


class ColumnRounded(MapWarning):
    """Making a column whole changes its values by more than one percent in all."""


class DistrictRounded(MapWarning):
    """Making a column whole changes a district's total by more than one."""


class LengthsRounded(MapWarning):
    """Making lengths of edges whole changes them by more than one percent in all."""


class SmallGroupShare(MapWarning):
    """`group_share` is below 1 percent, so nearly every district has such a share."""


class NoCompactnessLimit(MapWarning):
    """A partisan question, where no rule limits how sprawling the compared plans are."""


class CompactnessUnderLimit(MapWarning):
    """A question about cut edges or their length under a limit on them, where neutral plans are
    outliers, too.
    """


class LimitAtOwnNumber(MapWarning):
    """A limit equals the enacted plan's own number, or exceeds it by less than a tenth.

    `limits_from="law"`, or another text on where the limits come from, silences it in a call.
    """


class BordersNotShared(MapWarning):
    """Neighboring polygons do not meet on common lines, so lengths and perimeters are wrong."""


class CoordinatesInDegrees(MapWarning):
    """Coordinates are longitudes and latitudes, in which lengths and areas mean nothing."""


class AllUnitsFrozen(MapWarning):
    """All units are frozen, so no walk changes the plan."""


class DistrictFrozen(MapWarning):
    """All units of a district are frozen, so none leaves it."""


class DistrictCannotChange(MapWarning):
    """All units of a district and around it are frozen."""


def read(kind: str, text: str) -> MapWarning:
    """Returns the warning with a class's name and a text, as a manifest keeps both.

    A name that this version of the package does not know gives a plain `MapWarning`.
    """
    found = globals().get(kind)
    if isinstance(found, type) and issubclass(found, MapWarning):
        return found(text)
    return MapWarning(text)


def emit(found: typing.Iterable[MapWarning], level: int) -> None:
    """Gives each warning to Python's `warnings`.

    `level` is the `stacklevel` that the caller of this function would write.
    """
    for one in found:
        python_warnings.warn(one, stacklevel=level + 1)
