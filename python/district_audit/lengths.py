"""Lengths of the edges of a graph, as GerryChain's `shared_perim`, made whole.

The program reads whole numbers from 0 to 4,294,967,295, the same in both directions. A length that
is not whole becomes the nearest whole number, halves the even one.
"""
from __future__ import annotations

import decimal
import numbers
import typing
from fractions import Fraction

from .errors import PrepareRefused
from .graphs import Label, as_json, is_missing, is_whole

MOST_LENGTH = 4_294_967_295

Edge = typing.FrozenSet[Label]
Between = tuple[Label, Label]
Attributes = typing.Mapping[str, object]


class Lengths(typing.NamedTuple):
    """The lengths of the edges that stay."""

    whole: dict[Edge, int]
    """The whole number that is written for each edge."""
    exact: dict[Edge, Fraction]
    """The length of each edge before it was made whole."""

    @property
    def rounded(self) -> int:
        """The number of edges with a length that was not whole."""
        return sum(length.denominator != 1 for length in self.exact.values())

    @property
    def lost(self) -> Fraction:
        """The sum of the changes of all lengths, each without its sign."""
        return sum((abs(self.whole[edge] - self.exact[edge]) for edge in self.exact), Fraction(0))

    @property
    def moved(self) -> Fraction:
        """The change of the sum of all lengths."""
        return sum((self.whole[edge] - self.exact[edge] for edge in self.exact), Fraction(0))

    def get(self, one: Label, other: Label) -> int:
        """Returns the length of an edge; 0 for units that were joined."""
        return self.whole.get(frozenset((one, other)), 0)


def exact_of(value: object) -> Fraction:
    """Returns a length without rounding; raises PrepareRefused if the value is not a length."""
    if is_missing(value):
        raise PrepareRefused("is missing")
    if isinstance(value, bool) or not isinstance(value, (numbers.Real, decimal.Decimal)):
        raise PrepareRefused(f"which is {as_json(value)}, is not a number")
    try:
        found = Fraction(int(value)) if is_whole(value) else Fraction(
            value if isinstance(value, (decimal.Decimal, Fraction)) else float(value)
        )
    except (ValueError, OverflowError):
        raise PrepareRefused(f"which is {as_json(value)}, is not a number") from None
    if found < 0:
        raise PrepareRefused(f"which is {as_json(value)}, is below 0")
    if round(found) > MOST_LENGTH:
        raise PrepareRefused(f"which is {as_json(value)}, is above {MOST_LENGTH}")
    return found


def lengths_of(
    column: str, edges: typing.Iterable[tuple[Between, Attributes]], units: typing.Collection[Label]
) -> Lengths:
    """Reads the lengths of the edges between these units.

    Raises PrepareRefused with a line for each edge whose length is missing, not a number, below 0,
    above 4,294,967,295 or another one in the other direction, with the ids of its two units.
    """
    exact: dict[Edge, Fraction] = {}
    faults = []
    for (one, other), attributes in edges:
        if one == other or one not in units or other not in units:
            continue
        edge, name = frozenset((one, other)), f"edge {as_json(one)} - {as_json(other)}"
        try:
            found = exact_of(attributes.get(column))
        except PrepareRefused as why:
            comma = "" if why.why == "is missing" else ","
            faults.append(f"{name}: {column}{comma} {why.why}")
            continue
        if exact.setdefault(edge, found) != found:
            faults.append(
                f"{name}: {column} is {show_length(exact[edge])} in one place and"
                f" {show_length(found)} in another"
            )
    if faults:
        raise PrepareRefused(f"{len(faults)} lengths of edges are refused", faults)
    return Lengths({edge: round(length) for edge, length in exact.items()}, exact)


def show_length(length: Fraction) -> str:
    """Returns a length in digits."""
    return str(length.numerator) if length.denominator == 1 else repr(float(length))


def test_column(column: str, attributes: typing.Sequence[Attributes]) -> None:
    """Refuses a column of lengths in which no edge has a value: most likely it is misspelt."""
    if not attributes or any(not is_missing(one.get(column)) for one in attributes):
        return
    there = sorted({str(key) for one in attributes for key in one} - {"id", "source", "target"})
    if column in there:
        raise PrepareRefused(f"no edge has a value in the column {column}")
    raise PrepareRefused(
        f"no edge has a column {column}; the columns are {', '.join(there) or 'none'}"
    )
