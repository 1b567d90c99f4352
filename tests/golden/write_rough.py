"""Writes a grid of 10 rows and 10 columns with networkx, as rough as files from joined tables are.

It has floats, missing values, labels that are floats, and a county that is NaN. The package's
command `district-audit-prepare` makes it fit for the auditor.

Every unit has about 100 people; the districts are five bands of two rows.
"""
import argparse
import json
import sys

import networkx

SIDE = 10


def main() -> None:
    argparse.ArgumentParser(
        prog="python3 -m tests.golden.write_rough", description=__doc__
    ).parse_args()
    graph = networkx.convert_node_labels_to_integers(
        networkx.grid_2d_graph(SIDE, SIDE), label_attribute="place"
    )
    for unit in graph.nodes:
        row, column = graph.nodes[unit].pop("place")
        first = (37 * row + 53 * column + 11 * row * column) % 101
        graph.nodes[unit].update(
            boundary_node=row in (0, SIDE - 1) or column in (0, SIDE - 1),
            TOTPOP=100.0 + (0.5 if (row + column) % 7 == 0 else 0.0),
            DEM=float(first),
            REP=100.0 - first,
            CD=float(row // 2 + 1),
            COUNTY=float("nan") if unit == 17 else f"C{column // 5}",
        )
    graph.nodes[42]["DEM"] = float("nan")
    graph.nodes[42]["REP"] = None
    for one, other in graph.edges:
        graph.edges[one, other]["shared_perim"] = 1.0
    json.dump(networkx.readwrite.json_graph.adjacency_data(graph), sys.stdout)


if __name__ == "__main__":
    main()
