"""Measures how often neutral plans are outliers: without a limit, under a limit, with a weight.

Usage: python3 -m bench.neutral PROGRAM [--plans N] [--steps K] [--weighted-steps K] [--map NAME ..]
    [--workers N]
PROGRAM is the built program, with PYTHONPATH=python for the package. On each map N (20) neutral
plans are drawn, by recursive bisection of random spanning trees. Each is tested as if it were the
enacted plan, with 39 ends of K steps: 1,000,000, and 2,000,000 under a limit and with a weight. The
limit is 1.02 times the most cut edges of a neutral plan. The weight is that of `choose_weight`,
which sees neither an enacted plan nor votes. Rank 1 or 2 of 40 is flagged: chance flags one plan of
20 in one tail, and two in both. Prints a table of docs/dev/MEASUREMENTS.md. The maps are 281 tracts
of New York with eight districts (`ny8`; owners and others stand for votes), a grid of 30 by 30 with
ten (`grid`), and a map of triangles of 36 by 35 with eleven (`triangles`), both with drawn votes.
"""
from __future__ import annotations

import argparse
import concurrent.futures
import json
import random
import statistics
import typing
import warnings

import district_audit
from district_audit import neutral, weighing
from district_audit.graphs import Foreign

ENDS, FLAGGED = 39, 2
ASKS = ["cut-edges:low", "gap:low", "mean-median:low"]
Words = dict[str, typing.Union[str, int]]
Plan = dict[typing.Hashable, int]


def draw_map(rows: int, columns: int, districts: int, has_diagonals: bool) -> bytes:
    """Returns a grid, or one whose squares all have a diagonal, with drawn people and votes."""
    dice = random.Random(rows * columns)
    count = rows * columns
    steps = [(0, 1), (1, 0), *([(1, 1)] if has_diagonals else [])]
    adjacency: list[list[dict[str, int]]] = [[] for _ in range(count)]
    for row in range(rows):
        for column in range(columns):
            for down, right in steps:
                if row + down < rows and column + right < columns:
                    one, other = row * columns + column, (row + down) * columns + column + right
                    adjacency[one].append({"id": other})
                    adjacency[other].append({"id": one})
    nodes = []
    for unit in range(count):
        lean = 50 + 25 * ((unit % columns) / columns - 0.5)
        first = round(lean + dice.uniform(-15, 15))
        nodes.append(
            {"id": unit, "people": 100, "a": first, "b": 100 - first,
             "d": unit * districts // count}
        )
    root = {"directed": False, "multigraph": False, "graph": [], "nodes": nodes,
            "adjacency": adjacency}
    return json.dumps(root).encode()


def maps_of() -> dict[str, tuple[bytes, Words]]:
    """Returns the graph of each map, and its columns and slack."""
    york = district_audit.prepare(
        "examples/data/ny8.json", population="POP8", first="OWNING", second="OTHERS",
        district="PLAN8", numbers="nearest",
    ).data
    drawn: Words = dict(pop="people", first="a", second="b", district="d", slack=500)
    return {
        "ny8": (
            york, dict(pop="POP8", first="OWNING", second="OTHERS", district="PLAN8", slack=1000),
        ),
        "grid": (draw_map(30, 30, 10, False), drawn),
        "triangles": (draw_map(36, 35, 11, True), drawn),
    }


def flags_of(
    graph: bytes, plans: list[Plan], words: Words, more: Words, steps: int,
    args: argparse.Namespace,
) -> list[str]:
    """Returns the plans flagged in cut edges, in the gap and in mean-median, and the share of the
    units that the middle end of the middle plan has in another district, in percent.
    """
    columns = {name: value for name, value in words.items() if name != "district"}
    given = typing.cast(dict[str, Foreign], {**columns, **more})

    def compare(plan: Plan) -> district_audit.EndsTable:
        return district_audit.compare_ends(
            graph, ends=ENDS, hub_steps=steps, walks=0, assignment=plan,
            key=district_audit.key_of("neutral plans"), ask=ASKS, program=args.program, **given,
        )

    with concurrent.futures.ThreadPoolExecutor(args.workers) as pool:
        tables = list(pool.map(compare, plans))
    flagged = [0, 0, 0]
    for table in tables:
        for place, ask in enumerate(table.asks):
            # All questions are about the tail `low`; the other tail has the other ends.
            tails = [ask.more] if place == 0 else [ask.more, ask.less]
            flagged[place] += any(ends + ask.equal + 1 <= FLAGGED for ends in tails)
    changed = statistics.median(statistics.median(table.changed) for table in tables)
    return [*map(str, flagged), f"{100 * changed / tables[0].units:.0f}"]


def measure(name: str, args: argparse.Namespace) -> None:
    """Prints the rows of one map."""
    graph, words = maps_of()[name]
    key = district_audit.key_of("neutral plans")
    given: dict[str, Foreign] = {**words, "program": args.program}
    whole, districts = weighing.map_of(graph, given, key)
    drawn = neutral.neutral_plans(whole, districts, "neutral plans")
    plans: list[Plan] = [dict(next(drawn)) for _ in range(args.plans)]
    cuts = sorted(neutral.cut_edges(plan, whole.neighbors) for plan in plans)
    shown = f"{cuts[0]} to {cuts[-1]}"
    chains: list[tuple[str, Words, int]] = [("none", {}, args.steps)]
    limit = cuts[-1] * 102 // 100
    chains.append((f"limit {limit}", {"max_cut": limit}, args.weighted_steps))
    if not args.no_weight:
        choice = district_audit.choose_weight(
            graph, plans=plans, steps=args.weighted_steps, key=key, **given
        )
        weight = choice.weight
        chains.append((f"weight {weight}", {"cut_weight": weight}, args.weighted_steps))
    for chain, more, steps in chains:
        flags = " | ".join(flags_of(graph, plans, words, more, steps, args))
        print(f"| {name} | {shown} | {chain} | {steps} | {flags} |", flush=True)


def main() -> None:
    parser = argparse.ArgumentParser(description=__doc__)
    parser.add_argument("program")
    parser.add_argument("--plans", type=int, default=20)
    parser.add_argument("--steps", type=int, default=1_000_000)
    parser.add_argument("--weighted-steps", type=int, default=2_000_000)
    parser.add_argument("--workers", type=int, default=4, help="the plans tested at a time")
    parser.add_argument("--map", nargs="*", default=["ny8", "grid", "triangles"])
    parser.add_argument("--no-weight", action="store_true",
                        help="leave out the weight, as for a program without one")
    args = parser.parse_args()
    # Neutral plans are no findings, and neither are their short walks.
    warnings.simplefilter("ignore")
    print("| map | cut edges of neutral plans | chain | steps | `cut-edges:low` | `gap` |"
          " `mean-median` | units changed, % |\n|---|---|---|---|---|---|---|---|")
    for name in args.map:
        measure(name, args)


if __name__ == "__main__":
    main()
