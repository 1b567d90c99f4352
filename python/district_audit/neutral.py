"""Neutral plans: drawn by recursive bisection of random spanning trees, without votes.

A map is cut in two with as many people as the districts of each side need, and each side again. A
cut removes one edge of a random spanning tree, so both sides are contiguous and compact. Neither
the enacted plan nor votes are read.
"""
from __future__ import annotations

import heapq
import random
import typing

from .graphs import Foreign

Unit = Foreign
Neighbors = typing.Mapping[Foreign, typing.Sequence[Foreign]]
TREES, TRIES = 40, 400


class Map(typing.NamedTuple):
    """The map that neutral plans are drawn from."""

    neighbors: Neighbors
    """The neighbors of each unit."""
    people: typing.Mapping[Foreign, int]
    """The people of each unit."""
    low: int
    """The least population of a district."""
    high: int
    """The greatest."""


def spanning_tree(
    units: set[Unit], whole: Map, dice: random.Random
) -> list[tuple[Unit, Unit | None]]:
    """Returns each unit with its parent in a random spanning tree, parents first.

    The tree grows from a random unit by the edge of the least random weight that leaves it. Fewer
    units are returned if these are not contiguous.
    """
    order = sorted(units, key=str)
    first = order[dice.randrange(len(order))]
    found: list[tuple[Unit, Unit | None]] = []
    seen: set[Unit] = set()
    edges: list[tuple[float, int, Unit, Unit | None]] = [(0.0, 0, first, None)]
    count = 0
    while edges:
        _, _, unit, parent = heapq.heappop(edges)
        if unit in seen:
            continue
        seen.add(unit)
        found.append((unit, parent))
        for other in whole.neighbors[unit]:
            if other in units and other not in seen:
                count += 1
                heapq.heappush(edges, (dice.random(), count, other, unit))
    return found


def cut_tree(
    tree: list[tuple[Unit, Unit | None]], whole: Map, few: int, many: int, dice: random.Random
) -> set[Unit] | None:
    """Returns the units below a random edge that leaves people for `few` and `many` districts.

    None if there is no such edge.
    """
    people = {unit: whole.people[unit] for unit, _ in tree}
    for unit, parent in reversed(tree):
        if parent is not None:
            people[parent] += people[unit]
    total = people[tree[0][0]]
    good = [
        unit
        for unit, parent in tree
        if parent is not None
        and whole.low * few <= people[unit] <= whole.high * few
        and whole.low * many <= total - people[unit] <= whole.high * many
    ]
    if not good:
        return None
    below = {good[dice.randrange(len(good))]}
    for unit, parent in tree:
        if parent in below:
            below.add(unit)
    return below


def bisect(
    units: set[Unit], whole: Map, districts: int, dice: random.Random
) -> list[set[Unit]] | None:
    """Returns the districts of a random plan of some units; None if no cut was found."""
    if districts == 1:
        return [units]
    few = districts // 2
    for _ in range(TREES):
        tree = spanning_tree(units, whole, dice)
        if len(tree) < len(units):
            return None
        sizes = (few, districts - few) if dice.random() < 0.5 else (districts - few, few)
        below = cut_tree(tree, whole, *sizes, dice)
        if below is not None:
            one = bisect(below, whole, sizes[0], dice)
            other = bisect(units - below, whole, sizes[1], dice) if one is not None else None
            return None if one is None or other is None else one + other
    return None


def neutral_plans(whole: Map, districts: int, seed: str) -> typing.Iterator[dict[Unit, int]]:
    """Yields neutral plans one after the other, from units to districts counted from 1.

    The same seed draws the same plans. Raises ValueError if no plan is found in many tries.
    """
    dice = random.Random(seed)
    units = set(whole.neighbors)
    while True:
        for _ in range(TRIES):
            found = bisect(units, whole, districts, dice)
            if found is not None:
                break
        else:
            raise ValueError(
                f"no neutral plan of {districts} districts with {whole.low} to {whole.high} people"
                f" was found in {TRIES} tries: give plans=[..], or a greater slack"
            )
        yield {unit: number for number, part in enumerate(found, 1) for unit in part}


def cut_edges(plan: typing.Mapping[Foreign, object], neighbors: Neighbors) -> int:
    """Returns the number of edges between two districts of a plan."""
    both = sum(
        plan[unit] != plan[other] for unit, others in neighbors.items() for other in others
    )
    return both // 2
