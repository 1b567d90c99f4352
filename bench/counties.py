"""Measures what rules on counties and on a group cost, on a map of 3000 units, 60 counties and ten
districts.

Usage: python3 -m bench.counties PROGRAM [STEPS [ROUNDS]]
       python3 -m bench.counties --write > FILE
       python3 -m bench.counties --small > groups.json
PROGRAM is the built program, STEPS the length of a walk (10,000,000, if not said), and the best of
ROUNDS (3) runs counts. The map is a grid of 50 rows and 60 columns, half of whose squares have a
diagonal, with drawn people, votes, people of voting age and of these the members of a group, always
the same. A county is a block of five rows and ten columns, and a district is five rows: six whole
counties; in three districts the group has a majority. The walk is made without rules, with each
rule alone and with all at once. Prints a table of docs/dev/MEASUREMENTS.md: for each the processor
seconds without the reading (as of a walk of one step) for each million steps, those beside a walk
without rules, and how many of a thousand steps moved. With `--write` it writes the map alone, and
with `--small` a map of 120 units in six counties and four districts, each of which has the half of
a county that it shares with another; in two the group has a majority. Nothing is needed but Python.
"""
import argparse
import json
import random
import resource
import subprocess
import sys
import typing

from tests.parsers import measuring_parser


Place = tuple[int, int]

ROWS, COLUMNS = 50, 60
WORDS = (
    "run --pop pop --first a --second b --district d --slack 1000 --ask cut-edges:low --key".split()
    + ["0" * 64]
)
REGION, GROUP = ["--region", "county"], [
    "--group", "bvap", "--group-of", "vap", "--group-districts", "3",
]
SPLITS, SPLIT_REGIONS = ["--max-splits", "60"], ["--max-split-regions", "30"]
RULES: dict[str, list[str]] = {
    "none": [],
    **{f"`--max-split {most}`": [*REGION, "--max-split", str(most)] for most in (4, 3, 2, 1)},
    "`--max-splits 60`": [*REGION, *SPLITS],
    "`--max-split-regions 30`": [*REGION, *SPLIT_REGIONS],
    "`--group-districts 3`": GROUP,
    "all rules": [
        "--max-cut", "2000", *REGION, "--max-split", "3", *SPLITS, *SPLIT_REGIONS, *GROUP,
    ],
}


def neighbours_of(chance: random.Random, rows: int, columns: int) -> dict[Place, set[Place]]:
    """Returns the neighbors of each place: those of a grid, and some diagonals."""
    near: dict[Place, set[Place]] = {
        (row, column): set() for row in range(rows) for column in range(columns)
    }

    def join(one: Place, other: Place) -> None:
        near[one].add(other)
        near[other].add(one)

    for row, column in near:
        if row + 1 < rows:
            join((row, column), (row + 1, column))
        if column + 1 < columns:
            join((row, column), (row, column + 1))
        if row + 1 < rows and column + 1 < columns and chance.random() < 0.5:
            join((row, column), (row + 1, column + 1))
    return near


def map_of(
    rows: int,
    columns: int,
    district: typing.Callable[[int, int], int],
    county: typing.Callable[[int, int], str],
    share: typing.Callable[[int, int], int],
) -> str:
    """Returns a map as the text of a file.

    `district` and `county` give those of a place, and `share` the percentage of its people of
    voting age who are of the group.
    """
    chance, of_age = random.Random(3000), random.Random(3001)
    near = neighbours_of(chance, rows, columns)
    number = {place: at for at, place in enumerate(near)}
    nodes: list[dict[str, object]] = []
    for place, at in number.items():
        people = chance.randint(900, 1100)
        adults = people * of_age.randint(70, 85) // 100
        nodes.append(
            {
                "id": at,
                "pop": people,
                "a": chance.randint(0, 500),
                "b": chance.randint(0, 500),
                "d": district(*place),
                "county": county(*place),
                "vap": adults,
                "bvap": adults * (share(*place) + of_age.randint(-15, 15)) // 100,
            }
        )
    adjacency = [[{"id": number[other]} for other in sorted(others)] for others in near.values()]
    return json.dumps(
        {
            "directed": False,
            "multigraph": False,
            "graph": [],
            "nodes": nodes,
            "adjacency": adjacency,
        }
    )


def county_map() -> str:
    return map_of(
        ROWS,
        COLUMNS,
        lambda row, column: row // 5,
        lambda row, column: f"county {row // 5}.{column // 10}",
        lambda row, column: 60 if row < 10 else 52 if row < 15 else 20,
    )


def small_map() -> str:
    """Returns two columns of three counties each; the middle county of each column is half in the
    upper district of the column, and half in the lower.
    """
    return map_of(
        12,
        10,
        lambda row, column: 1 + row // 6 + 2 * (column // 5),
        lambda row, column: f"county {row // 4}.{column // 5}",
        lambda row, column: 25 if column > 4 else 60 if row < 6 else 52,
    )


def seconds_of(program: str, words: list[str], text: str) -> tuple[float, str]:
    """Returns the processor seconds of a run, and its report."""
    before = resource.getrusage(resource.RUSAGE_CHILDREN)
    run = subprocess.run([program, *words], input=text, capture_output=True, text=True, check=False)
    after = resource.getrusage(resource.RUSAGE_CHILDREN)
    if run.returncode:
        sys.exit(f"counties: status {run.returncode}: {run.stderr}")
    return after.ru_utime + after.ru_stime - before.ru_utime - before.ru_stime, run.stdout


def best(program: str, words: list[str], text: str, rounds: int) -> tuple[float, str]:
    return min(seconds_of(program, words, text) for _ in range(rounds))


def main(program: str, steps: int, rounds: int) -> None:
    text = county_map()
    first: typing.Optional[float] = None
    print(
        (
            "| rules | a million steps, s | beside none | moves of a thousand steps"
            " |\n|---|---|---|---|"
        ),
        flush=True,
    )
    for name, rule in RULES.items():
        short, _ = best(program, [*WORDS, *rule, "--steps", "1"], text, rounds)
        whole, report = best(program, [*WORDS, *rule, "--steps", str(steps)], text, rounds)
        moved = next(line.split()[3] for line in report.splitlines() if line.startswith("walk "))
        each = (whole - short) * 10**6 / steps
        first = first or each
        print(
            f"| {name} | {each:.3f} | {each / first:.2f} | {1000 * int(moved) / steps:.1f} |",
            flush=True,
        )


def arguments() -> argparse.Namespace:
    parser = measuring_parser("counties", __doc__, 10000000)
    parser.add_argument("--write", action="store_true", help="write the map alone")
    parser.add_argument("--small", action="store_true", help="write a map of 120 units")
    return parser.parse_args()


if __name__ == "__main__":
    words = arguments()
    if words.write or words.small:
        print(county_map() if words.write else small_map())
    else:
        main(words.program, words.steps, words.rounds)
