"""Compares reports on real maps, byte for byte, with those of the plain model in model.py.

Usage: python3 -m tests.differential.compare_maps PROGRAM MAPS [RUNS [SEED [PROCESSES]]]
PROGRAM is the built program, and MAPS the folder that `real_maps.sh fetch MAPS` makes. Each run
takes in turn one of the 24 plans of the twelve maps, prepared once, and draws the key, the
tolerance, the sizes of the tests, the asks, the workers, and some of a limit on cut edges, regions
with limits of each kind, a group, the origin, the tally of seats, early stops and the serial test;
some runs are checks, and some calls of `plans` with the map's other plan as a table. The numbers of
steps are such that the model takes about a second. Status, text and note must be the model's.
Prints each run that differs, and at the end how many ended how on which map. Ends with 1 where a
run differed.
"""
from __future__ import annotations

import argparse
import csv
import dataclasses
import io
import json
import multiprocessing
import pathlib
import random
import shlex
import subprocess
import sys
import tempfile
import typing
from collections import Counter
from collections.abc import Sequence

from tests.parsers import add_draws, comparing_parser
from tests.oracle import model
from tests.places import package_command, package_environment

ASKS = model.SCORES[:4]
# A node of a graph, or the entry of a neighbor: its values by their columns.
Entry = dict[str, typing.Union[int, str]]


class Graph(typing.TypedDict):
    """A graph as JSON has it: its nodes, and the entries of each node's neighbors."""

    nodes: list[Entry]
    adjacency: list[list[Entry]]


@dataclasses.dataclass(frozen=True)
class Prepared:
    """A prepared plan: the map, the tolerance, the words that name the columns, the region column
    and its greatest split, the file, and the column of districts.
    """

    name: str
    tolerance: int
    columns: list[str]
    region: tuple[str, int] | None
    path: pathlib.Path
    column: str


@dataclasses.dataclass(frozen=True)
class Run:
    """The map, the command and the status of a run, and what differs from the model."""

    name: str
    command: str
    status: int
    difference: str


def prepare_plans(maps: pathlib.Path, folder: pathlib.Path) -> list[Prepared]:
    """Prepares the plan of each line of the list of plans."""
    every = []
    for line in (maps / "plans").read_text(encoding="utf-8").splitlines():
        name, districts, tolerance, column, region, split, said = line.split("\t")
        words = shlex.split(said)
        out = folder / f"{name}-{districts}.json"
        subprocess.run(
            [
                *package_command("prepare"), str(maps / f"{name}.json"), *words, "--district",
                column, "--slack", tolerance, "--out", str(out),
            ],
            check=True,
            capture_output=True,
            env=package_environment(),
        )
        every.append(
            Prepared(
                name,
                int(tolerance),
                [*words[:6], "--district", column],
                None if region == "-" else (region, int(split)),
                out,
                column,
            )
        )
    return every


def cut_by(graph: Graph, column: str) -> int:
    """Returns the number of cut edges."""
    district = {node["id"]: node[column] for node in graph["nodes"]}
    pairs = {
        frozenset((node["id"], other["id"]))
        for node, those in zip(graph["nodes"], graph["adjacency"])
        for other in those
    }
    return sum(len({district[one] for one in pair}) == 2 for pair in pairs if len(pair) == 2)


def split_by(graph: Graph, column: str, region: str) -> tuple[int, int]:
    """Returns the number of splits of regions, and of split regions."""
    parts = Counter(
        one for one, _ in {(node[region], node[column]) for node in graph["nodes"]}
    )
    return sum(parts.values()) - len(parts), sum(count > 1 for count in parts.values())


def majorities_of(graph: Graph, column: str, group: str, whole: str) -> int:
    """Returns the number of districts in which the group has more than half of the whole."""
    margin: Counter[int | str] = Counter()
    for node in graph["nodes"]:
        margin[node[column]] += 2 * int(node[group]) - int(node[whole])
    return sum(one > 0 for one in margin.values())


def draw_limit(chance: random.Random, number: int) -> str:
    """Returns a limit near the number that is there."""
    return str(max(0, number + chance.choice((-1, 0, 0, 0, 1, 3))))


def rule_words(chance: random.Random, graph: Graph, plan: Prepared) -> list[str]:
    """Returns words of drawn rules."""
    column, region, columns = plan.column, plan.region, plan.columns
    words = (
        ["--max-cut", str(max(0, cut_by(graph, column) + chance.choice((-1, 0, 5, 40))))]
        if chance.random() < 0.2
        else []
    )
    if region and chance.random() < 0.5:
        words += ["--region", region[0]] + (
            ["--max-split", str(max(1, region[1] + chance.choice((-1, 0, 0, 1))))]
            if chance.random() < 0.6
            else []
        )
        for name, number in zip(
            ("--max-splits", "--max-split-regions"), split_by(graph, column, region[0])
        ):
            words += [name, draw_limit(chance, number)] if chance.random() < 0.5 else []
    if chance.random() < 0.4:
        group, whole = chance.sample(columns[1:6:2], 2)
        words += [
            "--group",
            group,
            *(["--group-of", whole] if whole != columns[1] or chance.random() < 0.5 else []),
        ]
        words += (
            [
                "--group-districts",
                str(
                    max(
                        0,
                        majorities_of(graph, column, group, whole)
                        + chance.choice((1, 0, 0, 0, -1)),
                    )
                ),
            ]
            if chance.random() < 0.9
            else []
        )
    return words + (["--source", "yes"] if chance.random() < 0.2 else [])


def table_of(chance: random.Random, graph: Graph, column: str) -> bytes:
    """Returns a table with one plan or two: the map's own under other labels, with its records in
    another order.
    """
    ids = [(str(node["id"]), str(node[column])) for node in graph["nodes"]]
    names = ["proposal"] + ["second"] * chance.randrange(2)
    text = io.StringIO()
    out = csv.writer(text, lineterminator="\n")
    out.writerow(["id", *names])
    out.writerows(
        [one, *(f"D{label}" for _ in names)] for one, label in chance.sample(ids, len(ids))
    )
    return text.getvalue().encode("utf-8")


def words_of(
    chance: random.Random, plan: Prepared, rules: Sequence[str], units: int
) -> tuple[list[str], bool]:
    """Returns words of a check, a run or `plans`, and whether they are of `plans`."""
    tolerance = plan.tolerance
    words = [
        *plan.columns,
        "--slack",
        str(
            chance.choice((tolerance, tolerance, 2 * tolerance))
            if chance.random() < 0.9
            else tolerance // 2
        ),
        *rules,
    ]
    if chance.random() < 0.1:
        return ["check", *words], False
    whole = max(60, 600000 // units)
    walks, ends = chance.randint(0, 2), chance.choice((0, 0, 2, 5))
    walks += walks + ends == 0
    serial = chance.random() < 0.25
    steps = whole // (walks + ends + 2 * serial)
    steps = 2 ** (steps.bit_length() - 1) - 1 if serial else steps
    words += [
        "--key", f"{chance.getrandbits(256):064x}", "--walks", str(walks), "--steps", str(steps),
        "--ends", str(ends), "--hub-steps", str(max(1, whole // 6)), "--workers",
        str(chance.choice((1, 2, 4))),
    ]
    words += [
        "--ask",
        ",".join(
            f"{score}:{chance.choice(('low', 'high'))}"
            for score in chance.sample(ASKS, chance.randint(1, 4))
        ),
    ]
    words += ["--serial", "yes"] if serial else []
    words += ["--shift", "yes"] if chance.random() < 0.3 else []
    words += ["--stop", str(chance.randint(1, 2))] if ends and chance.random() < 0.5 else []
    several = chance.random() < 0.1
    return ["plans" if several else "run", *words], several


def one_run(task: tuple[int, int, str, Prepared]) -> Run:
    place, seed, program, plan = task
    chance = random.Random(f"{seed} {place}")
    data = plan.path.read_bytes()
    graph: Graph = json.loads(data)
    rules = rule_words(chance, graph, plan)
    words, several = words_of(chance, plan, rules, len(graph["nodes"]))
    if several:
        data = json.dumps(graph).encode() + b"\n" + table_of(chance, graph, plan.column)
    wanted = model.audit(words, data, [None, None])
    found = subprocess.run([program, *words], input=data, capture_output=True, check=False)
    same = (found.returncode, found.stdout, found.stderr) == (
        wanted.status, wanted.out.encode(), wanted.note.encode(),
    )
    difference = (
        ""
        if same
        else (
            f"run {place} of seed {seed} on {plan.path.name}: {shlex.join(words)}\nwanted"
            f" {wanted}\nfound {found}"
        )
    )
    return Run(plan.name, words[0], wanted.status, difference)


def main(program: str, maps: str, runs: int, seed: int, processes: int) -> int:
    ends: Counter[tuple[str, int]] = Counter()
    moved: Counter[str] = Counter()
    wrong = 0
    with tempfile.TemporaryDirectory() as folder, multiprocessing.Pool(processes) as pool:
        plans = prepare_plans(pathlib.Path(maps), pathlib.Path(folder))
        tasks = [(place, seed, program, plans[place % len(plans)]) for place in range(runs)]
        for one in pool.imap_unordered(one_run, tasks):
            ends[one.command, one.status] += 1
            moved[one.name] += 1
            wrong += one.difference != ""
            print(one.difference, end="\n" if one.difference else "", flush=True)
    for (command, status), times in sorted(ends.items()):
        print(f"{times} of {command} with status {status}")
    print(" ".join(f"{name} {times}" for name, times in sorted(moved.items())))
    print(f"{runs} runs on real maps, {wrong} differ")
    return 1 if wrong else 0


def arguments() -> argparse.Namespace:
    parser = comparing_parser("compare_maps", __doc__)
    parser.add_argument("maps", help="the folder that `real_maps.sh fetch` makes")
    add_draws(parser, 400)
    return parser.parse_args()


if __name__ == "__main__":
    sys.exit(main(**vars(arguments())))
