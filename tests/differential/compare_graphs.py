"""Compares what the auditor's `check` answers with what networkx reads of the same file.

Usage: python3 -m tests.differential.compare_graphs PROGRAM GRAPH POP FIRST SECOND DISTRICT SLACK
PROGRAM is the built program. Each of the three columns is tried as the population, and fifty drawn
plans are judged as well, whose answers depend on single edges: networkx says whether each district
hangs together. Ends with status 0 and prints how many answers were the same.
"""
# RUN: {auditor} examples/data/cycle.json pop a b d 5000
# NEEDS: networkx
# QUICK
from __future__ import annotations

import argparse
import json
import random
import subprocess
import sys
import typing
from collections.abc import Sequence

import networkx

# The value of an arbitrary JSON text, whose types nobody knows.
Json = typing.Any


def read(document: Json) -> networkx.Graph:
    """Returns the graph as networkx reads it, without edges from a node to itself."""
    simple = networkx.Graph(networkx.readwrite.json_graph.adjacency_graph(document))
    simple.remove_edges_from(list(networkx.selfloop_edges(simple)))
    return simple


def rank(label: int | str) -> tuple[int, int | bytes]:
    if isinstance(label, str):
        return 1, label.encode()
    return 0, label


def predict(document: Json, pop: str, district: str, slack: int) -> str:
    """Returns the check text, or the line that says why the plan is refused."""
    graph = read(document)
    units = list(graph.nodes)
    labels = sorted({graph.nodes[unit][district] for unit in units}, key=rank)
    plan = [labels.index(graph.nodes[unit][district]) for unit in units]
    people = [graph.nodes[unit][pop] for unit in units]
    total = sum(people)
    low = -(-(10000 - slack) * total // (10000 * len(labels)))
    high = (10000 + slack) * total // (10000 * len(labels))
    members = [[u for u in range(len(units)) if plan[u] == d] for d in range(len(labels))]
    for d, those in enumerate(members):
        amount = sum(people[u] for u in those)
        if not low <= amount <= high:
            return f"plan: district {d} has population {amount}, outside {low} to {high}\n"
    for d, those in enumerate(members):
        within = graph.subgraph(units[u] for u in those)
        reached = networkx.node_connected_component(within, units[those[0]])
        lost = [u for u in those if units[u] not in reached]
        if lost:
            return f"plan: district {d} has no path from unit {those[0]} to unit {lost[0]}\n"
    return (
        "plan-check 1\n"
        f"units {len(units)} edges {graph.number_of_edges()} districts {len(labels)}\n"
        f"population {total} slack {slack} low {low} high {high}\n"
        "end\n"
    )


def call_check(program: str, document: Json, columns: Sequence[str], slack: int) -> str:
    words = [
        "check", "--pop", columns[0], "--first", columns[1], "--second", columns[2], "--district",
        columns[3], "--slack", str(slack),
    ]
    run = subprocess.run(
        [program, *words], input=json.dumps(document), capture_output=True, text=True
    )
    return run.stdout + run.stderr


def draw_plan(document: Json, district: str, chance: random.Random) -> Json:
    """Returns the graph with a plan of five districts that grow from drawn units, and a few stray
    units.
    """
    graph = read(document)
    units = list(graph.nodes)
    plan = {}
    border = []
    for d, unit in enumerate(chance.sample(units, min(5, len(units)))):
        plan[unit] = d
        border.append(unit)
    while border:
        unit = border.pop(chance.randrange(len(border)))
        for other in graph.neighbors(unit):
            if other not in plan:
                plan[other] = plan[unit]
                border.append(other)
    if chance.random() < 0.7:
        plan[chance.choice(units)] = chance.randrange(5)
    other = json.loads(json.dumps(document))
    for node in other["nodes"]:
        node[district] = plan.get(node["id"], 0)
    return other


def main(
    program: str, path: str, pop: str, first: str, second: str, district: str, slack: int
) -> None:
    columns = [pop, first, second, district]
    with open(path) as file:
        document = json.load(file)
    cases = [(document, columns, slack)]
    cases += [(document, [column, pop, first, district], 10000) for column in columns[:3]]
    numbers = random.Random(1)
    cases += [(draw_plan(document, district, numbers), columns, 10000) for _ in range(50)]
    answers = set()
    for case, names, allowed in cases:
        wanted = predict(case, names[0], names[3], allowed)
        got = call_check(program, case, names, allowed)
        if got != wanted:
            sys.exit(f"not the same:\n{got}wanted:\n{wanted}")
        answers.add(wanted)
    print(f"same in {len(cases)} cases, with {len(answers)} different answers")


def arguments() -> argparse.Namespace:
    parser = argparse.ArgumentParser(
        prog="python3 -m tests.differential.compare_graphs", description=__doc__,
        formatter_class=argparse.RawDescriptionHelpFormatter,
    )
    parser.add_argument("program", help="the built auditor")
    parser.add_argument("path", help="a file with a graph")
    parser.add_argument("pop", help="the column of people")
    parser.add_argument("first", help="the column of one party's votes")
    parser.add_argument("second", help="the column of the other's")
    parser.add_argument("district", help="the column of districts")
    parser.add_argument("slack", type=int, help="hundredths of a percent")
    return parser.parse_args()


if __name__ == "__main__":
    main(**vars(arguments()))
