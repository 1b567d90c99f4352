"""Writes a grid of 12 rows and 25 columns with networkx, in the layout of GerryChain's
`Graph.to_json`.

Every unit has 100 people and 100 votes, which a fixed rule divides; the districts are six bands of
two rows.
"""
import argparse
import json
import sys

import networkx

ROWS = 12
COLUMNS = 25


def main() -> None:
    argparse.ArgumentParser(
        prog="python3 -m tests.golden.write_grid", description=__doc__
    ).parse_args()
    grid = networkx.grid_2d_graph(ROWS, COLUMNS)
    graph = networkx.convert_node_labels_to_integers(grid, label_attribute="place")
    for unit in graph.nodes:
        row, column = graph.nodes[unit].pop("place")
        first = (37 * row + 53 * column + 11 * row * column) % 101
        graph.nodes[unit].update(
            TOTPOP=100, DEM=first, REP=100 - first, CD=f"{row // 2 + 1:02}", area=1.0 + column / 4,
        )
    for one, other in graph.edges:
        graph.edges[one, other]["shared_perim"] = 1.0
    json.dump(networkx.readwrite.json_graph.adjacency_data(graph), sys.stdout)


if __name__ == "__main__":
    main()
