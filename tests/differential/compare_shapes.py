"""Compares the auditor's reports, byte for byte, with those of a plain program on graphs of every
shape: with holes, without faces, or all faces.

Usage: python3 -m tests.differential.compare_shapes PROGRAM [GRAPHS [SEED [STEPS]]]
PROGRAM is the built program. It may know from the faces of a graph that a unit can leave its
district, where the plain program of compare_walks.py asks networkx about each changed plan. So the
graphs, 50 if not said, are in turn trees, rings, double rings with some of their spokes, wheels,
complete graphs, tori, drawn grids with holes, graphs of which drawn units have a ring of others
round them, and squares whose units also touch at corners; each with drawn districts, populations,
votes and names of units, and one walk of so many steps, 2000 if not said, and a few ends. Ends with
status 0 where all reports are the same, and prints how many of each shape there were, and the moves
in them.
"""
# RUN: {auditor} 9 2 500
# NEEDS: networkx
from __future__ import annotations

import argparse
import itertools
import random
import sys
from collections import Counter

import networkx

from tests.differential.compare_walks import (
    Drawn, call_run, drawn_columns, drawn_graph, judge, report,
)

ASKS = "seats:low,mean-median:high,gap:low,cut-edges:high"


def tree(chance: random.Random) -> networkx.Graph:
    count = chance.randint(4, 40)
    graph = networkx.Graph()
    graph.add_node(0)
    for unit in range(1, count):
        graph.add_edge(unit, chance.randrange(max(0, unit - chance.choice((1, 3, 40))), unit))
    return graph


def ring(chance: random.Random) -> networkx.Graph:
    return networkx.cycle_graph(chance.randint(4, 40))


def double_ring(chance: random.Random) -> networkx.Graph:
    """Returns two rings, one inside the other, with some of the spokes between them, and now and
    then a slanting one.
    """
    count = chance.randint(3, 16)
    graph = networkx.cycle_graph(count)
    networkx.add_cycle(graph, range(count, 2 * count))
    spokes = [at for at in range(count) if chance.random() < 0.7] or [0]
    for at in spokes:
        graph.add_edge(at, count + at)
        if chance.random() < 0.3:
            graph.add_edge(at, count + (at + 1) % count)
    return graph


def wheel(chance: random.Random) -> networkx.Graph:
    return networkx.wheel_graph(chance.randint(5, 30))


def complete(chance: random.Random) -> networkx.Graph:
    return networkx.complete_graph(chance.randint(4, 14))


def torus(chance: random.Random) -> networkx.Graph:
    graph = networkx.grid_2d_graph(chance.randint(3, 7), chance.randint(3, 7), periodic=True)
    if chance.random() < 0.5:
        wide, high = 1 + max(x for x, _ in graph), 1 + max(y for _, y in graph)
        graph.add_edges_from(
            ((x, y), ((x + 1) % wide, (y + 1) % high))
            for x, y in list(graph)
            if chance.random() < 0.5
        )
    return graph


def add_rings(chance: random.Random) -> networkx.Graph:
    """Returns a drawn graph of which some units have a ring round them that alone touches them, and
    now and then a ring round that.
    """
    graph = drawn_graph(chance)
    for unit in [each for each in list(graph) if chance.random() < 0.15]:
        for _ in range(chance.choice((1, 1, 2))):
            outside = list(graph.neighbors(unit))
            count = max(3, len(outside))
            names = range(len(graph), len(graph) + count)
            graph.remove_edges_from([(unit, other) for other in outside])
            networkx.add_cycle(graph, names)
            graph.add_edges_from((unit, name) for name in names)
            graph.add_edges_from(zip(names, outside))
    return graph


def touch_at_corners(chance: random.Random) -> networkx.Graph:
    """Returns a square whose units are neighbors across some corners, too, and of which now and
    then a unit is gone, so that all its neighbors meet at a point.
    """
    wide, high = chance.randint(3, 7), chance.randint(3, 7)
    graph = networkx.grid_2d_graph(wide, high)
    share = chance.choice((0.2, 0.6, 1.0))
    for x, y in [(x, y) for x in range(wide - 1) for y in range(high - 1)]:
        if chance.random() < share:
            graph.add_edges_from([((x, y), (x + 1, y + 1)), ((x + 1, y), (x, y + 1))])
    for unit in [each for each in list(graph) if chance.random() < 0.1]:
        around = list(graph.neighbors(unit))
        graph.remove_node(unit)
        graph.add_edges_from(itertools.combinations(around, 2))
    return graph


SHAPES = {
    "tree": tree,
    "ring": ring,
    "double ring": double_ring,
    "wheel": wheel,
    "complete": complete,
    "torus": torus,
    "holes": drawn_graph,
    "ringed": add_rings,
    "corners": touch_at_corners,
}


def renumber(chance: random.Random, graph: networkx.Graph) -> networkx.Graph:
    """Returns the graph with its units numbered in a drawn order."""
    names = list(graph)
    chance.shuffle(names)
    relabelled = networkx.Graph()
    relabelled.add_nodes_from(range(len(names)))
    place = {name: at for at, name in enumerate(names)}
    relabelled.add_edges_from((place[u], place[v]) for u, v in graph.edges)
    return relabelled


def drawn_job(chance: random.Random, shape: str) -> Drawn:
    while True:
        graph = renumber(chance, SHAPES[shape](chance))
        columns = drawn_columns(chance, graph, chance.randint(2, min(5, len(graph) // 2)))
        drawn = judge(graph, columns, chance.randbytes(32), (3000, 6000, 9000, 10000))
        if drawn:
            return drawn


def main(program: str, graphs: int = 50, seed: int = 1, steps: int = 2000) -> int:
    chance = random.Random(seed)
    same: Counter[str] = Counter()
    tried: Counter[str] = Counter()
    moves: Counter[str] = Counter()
    for number in range(graphs):
        shape = list(SHAPES)[number % len(SHAPES)]
        drawn = drawn_job(chance, shape)
        words = [
            "--walks", "1", "--steps", str(steps), "--ends", "3", "--hub-steps", str(steps // 10),
            "--ask", ASKS,
        ]
        wanted = report(drawn, words)
        answer = call_run(program, drawn, [*words, "--workers", str(chance.randint(1, 4))])
        tried[shape] += 1
        same[shape] += answer == wanted
        moves[shape] += int(
            next(line for line in wanted.splitlines() if line.startswith("walk ")).split()[3]
        )
        if answer != wanted:
            print(f"graph {number} of seed {seed}, {shape}: wanted\n{wanted}but found\n{answer}")
    for shape, count in tried.items():
        print(f"{shape}: same in {same[shape]} of {count} reports, with {moves[shape]} moves")
    return 0 if same == tried else 1


def arguments() -> argparse.Namespace:
    parser = argparse.ArgumentParser(
        prog="python3 -m tests.differential.compare_shapes", description=__doc__,
        formatter_class=argparse.RawDescriptionHelpFormatter,
    )
    parser.add_argument("program", help="the built auditor")
    parser.add_argument("graphs", nargs="?", type=int, default=50, help="how many graphs are drawn")
    parser.add_argument("seed", nargs="?", type=int, default=1, help="what they are drawn from")
    parser.add_argument("steps", nargs="?", type=int, default=2000, help="the length of a walk")
    return parser.parse_args()


if __name__ == "__main__":
    sys.exit(main(**vars(arguments())))
