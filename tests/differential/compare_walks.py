"""Compares the auditor's reports, byte for byte, with those of a plain program on drawn graphs.

Usage: python3 -m tests.differential.compare_walks PROGRAM [GRAPHS [SEED]]
PROGRAM is the built program. Each graph (20, if not said) is a drawn grid with diagonals and holes,
with drawn districts, populations and votes, as networkx writes it; half of them have a drawn limit
on cut edges, half drawn regions that may be split among few districts, of which half may be split
few times in all and half of which few may be split, half a drawn group that is to keep a majority
in some districts, half the serial test, half the tally of seats, half the origin, and a third
parallel tests that stop early. The plain program is the model in model.py, which walks every end,
and keeps nothing along a walk. Here networkx reads the edges, and says whether each district of a
changed plan is connected. Ends with status 0 where all reports are the same, and prints how many
were.
"""
# RUN: {auditor} 5 2
# NEEDS: networkx
# QUICK
from __future__ import annotations

import argparse
import json
import random
import subprocess
import sys
import typing
from collections.abc import Sequence

import networkx

from tests.oracle import model

BASE = "--pop POP --first A --second B --district CD".split()
ASKED = model.SCORES[:4]  # no edge here has a length
# The district of each unit.
Plan = list[int]
# The name of a region.
Label = typing.Union[int, str]


class NetworkxJob(model.Job):
    """A job of the model whose edges networkx reads, and whose connections networkx finds."""

    def __init__(self, setting: model.Setting, data: bytes) -> None:
        graph = model.read_graph(data, setting)
        simple = networkx.Graph(
            networkx.readwrite.json_graph.adjacency_graph(json.loads(data))
        )
        simple.remove_edges_from(list(networkx.selfloop_edges(simple)))
        self.graph = networkx.convert_node_labels_to_integers(simple)
        edges = sorted((min(edge), max(edge)) for edge in self.graph.edges)
        if edges != graph.edges:
            raise ValueError("the model reads other edges than networkx")
        super().__init__(setting, graph, model.origin_of(setting, data))

    def find_reached(self, members: set[int]) -> set[int]:
        """Returns the members to which paths within them lead from the least one."""
        within = self.graph.subgraph(members)
        return set(networkx.node_connected_component(within, min(members)))


class Drawn(typing.NamedTuple):
    """The text of a drawn graph, and the words of its columns, its slack, its key and its rules."""

    text: str
    words: list[str]

    def job(self, *more: str) -> NetworkxJob:
        """Returns the job of a run with further words; raises model.Refused."""
        words = ["run", *self.words, *more]
        if "--ask" not in more:
            words += ["--ask", "cut-edges:low"]
        return NetworkxJob(model.Setting(words), self.text.encode())


def report(drawn: Drawn, words: Sequence[str]) -> str:
    """Returns the report of a run with further words."""
    job = drawn.job(*words)
    text: str = model.report(job, model.select_outcomes(job, ("networkx", job.digest())))
    return text


def drawn_graph(chance: random.Random) -> networkx.Graph:
    wide, high = chance.randint(3, 7), chance.randint(3, 7)
    graph = networkx.grid_2d_graph(wide, high)
    for x in range(wide - 1):
        for y in range(high - 1):
            if chance.random() < 0.5:
                graph.add_edge((x, y), (x + 1, y + 1))
            elif chance.random() < 0.3:
                graph.add_edge((x + 1, y), (x, y + 1))
    for unit in list(graph.nodes):
        if chance.random() < 0.1 and networkx.is_connected(
            graph.subgraph(set(graph.nodes) - {unit})
        ):
            graph.remove_node(unit)
    return networkx.convert_node_labels_to_integers(graph)


def drawn_plan(chance: random.Random, graph: networkx.Graph, districts: int) -> list[int]:
    """Returns districts that grow from drawn units, one neighbor at a time."""
    seeds = chance.sample(sorted(graph.nodes), districts)
    plan = {unit: d for d, unit in enumerate(seeds)}
    while len(plan) < len(graph):
        unit = chance.choice(sorted(plan))
        free = [v for v in sorted(graph.neighbors(unit)) if v not in plan]
        if free:
            plan[chance.choice(free)] = plan[unit]
    return [plan[unit] for unit in range(len(graph))]


def drawn_regions(chance: random.Random, graph: networkx.Graph, plan: Plan) -> list[Label]:
    """Returns regions with drawn names that grow as districts do, a few units of which lie
    elsewhere; half of them are within a district each.
    """
    count = chance.randint(1, len(graph))
    regions = drawn_plan(chance, graph, count)
    if chance.random() < 0.5:
        return [f"{region} of {district}" for region, district in zip(regions, plan)]
    names = chance.sample(range(10 * count), count)
    return [
        names[chance.choice(regions) if chance.random() < 0.1 else region] for region in regions
    ]


class Columns(typing.NamedTuple):
    """The columns of a drawn graph: people, votes of both parties, and districts."""

    people: list[int]
    first: list[int]
    second: list[int]
    plan: Plan


def document(graph: networkx.Graph, columns: Columns, more: dict[str, Sequence[object]]) -> str:
    """Returns the text of a graph with its columns and further ones, as networkx writes it."""
    whole = graph.copy()
    named = dict(zip(("POP", "A", "B", "CD"), columns), **more)
    for unit in whole.nodes:
        whole.nodes[unit].update({name: column[unit] for name, column in named.items()})
    return json.dumps(networkx.adjacency_data(whole))


def add_rules(
    chance: random.Random, graph: networkx.Graph, columns: Columns, drawn: Drawn
) -> Drawn:
    """Returns the job with drawn rules that its start plan obeys, most of them closely."""
    plan, words = columns.plan, list(drawn.words)
    more: dict[str, Sequence[object]] = {}
    if chance.random() < 0.5:
        more["COUNTY"] = drawn_regions(chance, graph, plan)
        words += ["--region", "COUNTY"]
    if chance.random() < 0.5:
        is_own = chance.random() < 0.5
        own = [chance.randint(0, 9) for _ in plan]
        more["WHOLE"] = own if is_own else columns.people
        more["GROUP"] = [chance.randint(0, 9) // 2 + 4 * (district % 2) for district in plan]
        words += ["--group", "GROUP", *(["--group-of", "WHOLE"] if is_own else [])]
    drawn = Drawn(document(graph, columns, more), words)
    job = drawn.job()
    limits = [("--max-cut", job.cut(plan) + chance.randint(0, 3))]
    if job.regions:
        widest = max(job.districts_of_regions(plan))
        limits += [
            ("--max-split", min(200, widest + chance.choice((0, 0, 0, 1, 200)))),
            ("--max-splits", job.splits(plan) + chance.choice((0, 0, 1, 2))),
            ("--max-split-regions", job.split_regions(plan) + chance.choice((0, 0, 1, 2))),
        ]
    if job.group:
        least = max(0, job.majorities(plan) - chance.choice((0, 0, 0, 1)))
        words += ["--group-districts", str(least)]
    for name, limit in limits:
        words += [name, str(limit)] if chance.random() < 0.5 else []
    return Drawn(drawn.text, words)


def drawn_columns(chance: random.Random, graph: networkx.Graph, districts: int) -> Columns:
    people, first, second = ([chance.randint(low, 9) for _ in graph] for low in (1, 0, 0))
    first[0] += 1
    return Columns(people, first, second, drawn_plan(chance, graph, districts))


def judge(
    graph: networkx.Graph, columns: Columns, key: bytes, slacks: Sequence[int]
) -> Drawn | None:
    """Returns the job with the least of these slacks with which its plan is legal, or None."""
    text = document(graph, columns, {})
    for slack in slacks:
        drawn = Drawn(text, [*BASE, "--slack", str(slack), "--key", key.hex()])
        try:
            drawn.job()
        except model.Refused:
            continue
        return drawn
    return None


def drawn_job(chance: random.Random) -> Drawn:
    while True:
        graph = drawn_graph(chance)
        columns = drawn_columns(chance, graph, chance.randint(2, 4))
        drawn = judge(graph, columns, chance.randbytes(32), range(1000, 10001, 1000))
        if drawn:
            return add_rules(chance, graph, columns, drawn)


def draw_asks(chance: random.Random) -> list[str]:
    """Returns the word --ask with four scores in a drawn order, and a drawn tail of each."""
    scores = chance.sample(ASKED, len(ASKED))
    return ["--ask", ",".join(f"{score}:{chance.choice(model.TAILS)}" for score in scores)]


def call_run(program: str, drawn: Drawn, words: Sequence[str]) -> str:
    """Returns all that a run with further words writes."""
    run = subprocess.run(
        [program, "run", *drawn.words, *words], input=drawn.text, capture_output=True, text=True
    )
    return run.stdout + run.stderr


def draw_words(chance: random.Random) -> list[str]:
    """Returns the words of the trajectories, of the tests, and of what the report shows."""
    words = ["--shift", "yes"] if chance.random() < 0.5 else []
    words += ["--source", "yes"] if chance.random() < 0.5 else []
    steps, ends, hub_steps = chance.randint(20, 120), chance.randint(0, 3), chance.randint(10, 60)
    if chance.random() < 0.5:
        words += ["--serial", "yes"]
        steps = 2 ** chance.randint(1, 7) - 1
    if chance.random() < 1 / 3:
        ends, hub_steps = chance.choice((1, 3, 20, 70)), 10
        words += ["--stop", str(chance.randint(1, ends))]
    walks = chance.randint(1, 3)
    for name, number in (
        ("--walks", walks), ("--steps", steps), ("--ends", ends), ("--hub-steps", hub_steps)
    ):
        words += [name, str(number)]
    return words + draw_asks(chance)


def main(program: str, graphs: int = 20, seed: int = 1) -> int:
    chance = random.Random(seed)
    same = moved = 0
    for number in range(graphs):
        drawn, words = drawn_job(chance), draw_words(chance)
        wanted = report(drawn, words)
        workers = ["--workers", str(chance.randint(1, 4))]
        answer = call_run(program, drawn, [*words, *workers])
        moved += sum(
            int(line.split()[3]) for line in wanted.splitlines() if line.startswith("walk ")
        )
        if answer == wanted:
            same += 1
        else:
            print(f"graph {number} of seed {seed}: wanted\n{wanted}but found\n{answer}")
    print(f"same in {same} of {graphs} reports, with {moved // 4} moves")
    return 0 if same == graphs else 1


def arguments() -> argparse.Namespace:
    parser = argparse.ArgumentParser(
        prog="python3 -m tests.differential.compare_walks", description=__doc__,
        formatter_class=argparse.RawDescriptionHelpFormatter,
    )
    parser.add_argument("program", help="the built auditor")
    parser.add_argument("graphs", nargs="?", type=int, default=20, help="how many graphs are drawn")
    parser.add_argument("seed", nargs="?", type=int, default=1, help="what they are drawn from")
    return parser.parse_args()


if __name__ == "__main__":
    sys.exit(main(**vars(arguments())))
