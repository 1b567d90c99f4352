"""Measures what several plans cost in one call, beside one call for each: sixteen plans of a table
and the graph's own, on a map of 9,000 units.

Usage: python3 -m bench.plans_cost PROGRAM [STEPS [ROUNDS]]
       python3 -m bench.plans_cost --write > FILE
PROGRAM is the built program, STEPS the length of a walk (1,000,000, if not said), and the best of
ROUNDS (3) runs counts. The map is a grid of 90 rows and 100 columns with drawn votes, always the
same. A district is a run of about 900 units along a path that winds through all rows, or through
all columns, so that it hangs together; each plan cuts the path at other places. Prints processor
seconds and the most memory of the call on all plans, of a call on the own plan alone, and of one
call for each plan, and whether the reports are the same. With `--write` it writes the input of the
call alone: the graph, a line feed and the table. Ends with 1 where they are not the same. Nothing
is needed but Python.
"""
import argparse
import json
import random
import sys
import typing

from tests.parsers import measuring_parser
from bench.cost_table import Run, best_of, run_once

Place = tuple[int, int]
# The district of each place.
Plan = dict[Place, int]

ROWS, COLUMNS, DISTRICTS, PLANS = 90, 100, 10, 16
WORDS = (
    "--pop pop --first a --second b --district d --slack 1000 --ask seats:low,cut-edges:low --key"
    .split()
    + ["0" * 64]
)


def wind_through(by_rows: bool) -> typing.Iterator[Place]:
    """Yields the places along a path through all rows, or all columns, each the other way than the
    one before.
    """
    lines, others = (ROWS, COLUMNS) if by_rows else (COLUMNS, ROWS)
    for line in range(lines):
        for at in range(others) if line % 2 == 0 else reversed(range(others)):
            yield (line, at) if by_rows else (at, line)


def plan_of(number: int) -> Plan:
    """Returns the district of each place in the plan with this number."""
    size = ROWS * COLUMNS // DISTRICTS
    cuts = [size * d + (7 * number + 3 * d) % 41 - 20 for d in range(1, DISTRICTS)]
    return {
        place: sum(at >= cut for cut in cuts)
        for at, place in enumerate(wind_through(number % 2 == 0))
    }


def graph_of(plan: Plan) -> str:
    """Returns the text of the graph, with this plan as its own."""
    chance = random.Random(9000)
    number = {
        place: at
        for at, place in enumerate(
            (row, column) for row in range(ROWS) for column in range(COLUMNS)
        )
    }
    nodes = [
        {
            "id": at,
            "pop": 100,
            "a": chance.randint(0, 500),
            "b": chance.randint(0, 500),
            "d": plan[place],
        }
        for place, at in number.items()
    ]
    adjacency = [
        [
            {"id": number[other]}
            for other in (
                (row - 1, column), (row, column - 1), (row, column + 1), (row + 1, column),
            )
            if other in number
        ]
        for row, column in number
    ]
    return json.dumps(
        {
            "directed": False,
            "multigraph": False,
            "graph": [],
            "nodes": nodes,
            "adjacency": adjacency,
        }
    )


def table_of(plans: list[Plan]) -> str:
    """Returns the text of the table of these plans."""
    places = [(row, column) for row in range(ROWS) for column in range(COLUMNS)]
    lines = [["id", *(f"plan{number}" for number in range(1, len(plans) + 1))]]
    lines += [[str(at), *(str(plan[place]) for plan in plans)] for at, place in enumerate(places)]
    return "\n".join(",".join(line) for line in lines) + "\n"


def best(program: str, words: list[str], data: str, rounds: int) -> Run:
    return best_of([run_once(program, words, data.encode()) for _ in range(rounds)])


def main(program: str, steps: int, rounds: int, write: bool) -> None:
    plans = [plan_of(number) for number in range(PLANS + 1)]
    graph, table = graph_of(plans[0]), table_of(plans[1:])
    if write:
        print(graph, table, sep="\n", end="")
        return
    words = [*WORDS, "--steps", str(steps)]
    least = run_once("/bin/true", [], b"").megabytes
    whole = best(program, ["plans", *words], graph + "\n" + table, rounds)
    alone = [best(program, ["run", *words], graph_of(plan), rounds) for plan in plans]
    same = whole.text == "".join(
        f"plan {'d' if at == 0 else f'plan{at}'}\n{run.text}" for at, run in enumerate(alone)
    )
    print(f"all {len(plans)} plans in one call: {whole.seconds:.2f} s, {whole.megabytes:.0f} MB")
    print(f"the own plan alone: {alone[0].seconds:.2f} s, {alone[0].megabytes:.0f} MB")
    print(
        f"each plan in a call of its own: {sum(run.seconds for run in alone):.2f} s,"
        f" {max(run.megabytes for run in alone):.0f} MB"
    )
    print(f"what the system counts for any program: {least:.0f} MB")
    print("the same reports" if same else "other reports")
    sys.exit(0 if same else 1)


def arguments() -> argparse.Namespace:
    parser = measuring_parser("plans_cost", __doc__, 1000000)
    parser.add_argument("--write", action="store_true", help="write the input of the call alone")
    return parser.parse_args()


if __name__ == "__main__":
    main(**vars(arguments()))
