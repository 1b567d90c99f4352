"""Limits that are the enacted plan's own numbers, and warnings of them.

A limit that is computed from the enacted plan puts it at the edge of the legal plans, and makes it
look extreme: docs/user/READING_A_REPORT.md has exact probabilities.
"""
from __future__ import annotations

import collections
import typing

from .arguments import TABLE, Words, count_in, refuse, text_in
from .errors import TypeRefused
from .warnings import LimitAtOwnNumber, MapWarning

if typing.TYPE_CHECKING:
    from .districts import District

HALF = 5000
# The things that each limit counts, in words.
COUNTED = {
    "max_cut": "cut edges",
    "max_split": "districts in one region",
    "max_splits": "splits of regions",
    "max_split_regions": "split regions",
    "max_length": "as the length of its cut edges",
    "group_districts": "districts with a majority of the group",
}


def own_numbers(
    districts: typing.Sequence[District],
    cut_edges: int | None,
    cut_length: int | None,
    share: int = HALF,
) -> dict[str, int]:
    """Returns a plan's own numbers, by the names of the limits that count them.

    A number that needs a column of regions, a group or lengths is left out without it. `share` is
    the share of a district above which the group has a majority, in hundredths of a percent.
    """
    found = {} if cut_edges is None else {"max_cut": cut_edges}
    found.update({} if cut_length is None else {"max_length": cut_length})
    if districts and districts[0].regions is not None:
        many = collections.Counter(region for one in districts for region in one.regions or ())
        found["max_split"] = max(many.values())
        found["max_splits"] = sum(many.values()) - len(many)
        found["max_split_regions"] = sum(count > 1 for count in many.values())
    if districts and districts[0].group is not None:
        found["group_districts"] = sum(
            10_000 * (one.group or 0) > share * (one.group_of or 0) for one in districts
        )
    return found


def has_limits(named: Words) -> bool:
    """Returns whether a call sets one of the limits."""
    return any(count_in(named, name) != TABLE[name].default for name in COUNTED)


def limits_at_own(named: Words, own: typing.Mapping[str, int]) -> list[MapWarning]:
    """Returns a warning of each limit of a call that is, or is nearly, the plan's own number."""
    found: list[MapWarning] = []
    for name, number in own.items():
        limit = count_in(named, name)
        if limit == TABLE[name].default:
            continue
        is_near = limit == number
        if name != "group_districts":
            is_near = is_near or number <= limit and 10 * (limit - number) < number
        if is_near:
            said = (
                f"{name}={limit}, and the enacted plan has {number} {COUNTED[name]}: a limit made"
                " from the enacted plan makes it look extreme, and p-values false. Take limits from"
                " the law or from older plans, and if this one is, say limits_from=\"law\" or the"
                " like"
            )
            found.append(LimitAtOwnNumber(said))
    return found


def source_of_limits(command: str, value: object) -> str | None:
    """Returns where the limits come from, as the user says. Raises TypeRefused if it is no text."""
    if value is None:
        return None
    if not isinstance(value, str) or not value.strip():
        refuse(
            TypeRefused, command, "limits_from", value,
            'limits_from is a text on where the limits come from, as "law" or "older plans"',
        )
    return value


def share_of(named: Words) -> int:
    """Returns the share above which the group has a majority, in hundredths of a percent."""
    return count_in(named, "group_share") if text_in(named, "group") else HALF
