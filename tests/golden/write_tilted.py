"""Writes a table of two plans for ny8.json: one that hurts a party on purpose, and a neutral one.

`neutral` is the first plan that `district_audit.neutral` draws from the text "neutral plans", by
recursive bisection of random spanning trees: it reads neither votes nor PLAN8. `tilted` begins with
it, and is changed by random flips that keep all districts contiguous, within 10 percent of the
ideal population, and at most 160 cut edges, as many as neutral plans have. A flip that helps the
party of the column OWNING is made ever more rarely.
"""
from __future__ import annotations

import argparse
import csv
import math
import random
import sys

import district_audit
from district_audit import neutral, weighing
from district_audit.districts import table_of

from tests.places import DATA

STEPS, MOST_CUT, MARGIN, HEAT = 300_000, 160, 1500, 0.03


class Plan:
    """A plan that is changed flip by flip, with its sums."""

    def __init__(self, whole: neutral.Map, lead: dict[str, int], start: dict[str, int]) -> None:
        self.whole, self.lead, self.of = whole, lead, dict(start)
        self.near = {str(unit): list(map(str, many)) for unit, many in whole.neighbors.items()}
        self.people = {str(unit): count for unit, count in whole.people.items()}
        self.sizes = dict.fromkeys(start.values(), 0)
        self.leads = dict.fromkeys(start.values(), 0)
        for unit, district in start.items():
            self.sizes[district] += self.people[unit]
            self.leads[district] += lead[unit]
        self.cut = neutral.cut_edges(self.of, self.near)

    def is_contiguous_without(self, unit: str) -> bool:
        """Returns whether the rest of a unit's district is contiguous, and not empty."""
        district = self.of[unit]
        rest = {one for one, other in self.of.items() if other == district and one != unit}
        found = [min(rest)] if rest else []
        seen = set(found)
        for one in found:
            new = [other for other in self.near[one] if other in rest and other not in seen]
            seen.update(new)
            found += new
        return bool(rest) and len(found) == len(rest)

    def added_cuts(self, unit: str, there: int) -> int:
        """Returns the number of cut edges that a flip adds."""
        around = [self.of[other] for other in self.near[unit]]
        return around.count(self.of[unit]) - around.count(there)

    def is_allowed(self, unit: str, there: int) -> bool:
        """Returns whether a flip keeps the bounds of people and of cut edges."""
        here, moved = self.of[unit], self.people[unit]
        return (
            here != there
            and self.sizes[here] - moved >= self.whole.low
            and self.sizes[there] + moved <= self.whole.high
            and self.cut + self.added_cuts(unit, there) <= MOST_CUT
        )

    def gain(self, unit: str, there: int) -> float:
        """Returns how much a flip helps the party, in districts that it nearly wins."""
        here, moved = self.of[unit], self.lead[unit]
        after = chance(self.leads[here] - moved) + chance(self.leads[there] + moved)
        return after - chance(self.leads[here]) - chance(self.leads[there])

    def flip(self, unit: str, there: int) -> None:
        here = self.of[unit]
        self.cut += self.added_cuts(unit, there)
        for district, sign in ((here, -1), (there, 1)):
            self.sizes[district] += sign * self.people[unit]
            self.leads[district] += sign * self.lead[unit]
        self.of[unit] = there


def chance(lead: int) -> float:
    """Returns a number near 1 for a district that is won clearly, and near 0 for one lost so."""
    return 1 / (1 + math.exp(-max(-50.0, min(50.0, lead / MARGIN))))


def tilt(plan: Plan) -> None:
    """Changes a plan so that the party wins fewer districts."""
    dice = random.Random("tilted")
    units = list(plan.near)
    for step in range(STEPS):
        unit = units[dice.randrange(len(units))]
        there = plan.of[plan.near[unit][dice.randrange(len(plan.near[unit]))]]
        luck, heat = dice.random(), HEAT * (1 - step / STEPS)
        if not plan.is_allowed(unit, there):
            continue
        gain = plan.gain(unit, there)
        if (gain <= 0 or luck < math.exp(-gain / heat)) and plan.is_contiguous_without(unit):
            plan.flip(unit, there)


def main() -> None:
    argparse.ArgumentParser(
        prog="python3 -m tests.golden.write_tilted", description=__doc__
    ).parse_args()
    prepared = district_audit.prepare(
        DATA / "ny8.json", population="POP8", first="OWNING", second="OTHERS", district="PLAN8",
        slack=1000, numbers="nearest", missing="error",
    )
    whole, districts = weighing.map_of(prepared, {}, district_audit.key_of("neutral plans"))
    drawn = next(neutral.neutral_plans(whole, districts, "neutral plans"))
    start = {str(unit): district for unit, district in drawn.items()}
    table = table_of(prepared.data, None)
    assert table is not None
    lead = {str(unit): int(row["OWNING"]) - int(row["OTHERS"]) for unit, row in table.rows.items()}
    plan = Plan(whole, lead, start)
    tilt(plan)
    writer = csv.writer(sys.stdout, lineterminator="\n")
    writer.writerow(["id", "tilted", "neutral"])
    writer.writerows([unit, plan.of[unit], start[unit]] for unit in plan.near)


if __name__ == "__main__":
    main()
