"""Writes a table of two plans for grid.json with pandas, as an analyst does who compares proposals
with the enacted plan.

The first column has the ids of the graph's units, and each further one a plan: `blocks`, two rows
of three blocks, with texts as labels, and `columns`, six bands from the west to the east, with
numbers.
"""
import argparse
import json
import sys

import pandas

from tests.places import DATA

COLUMNS = 25


def main() -> None:
    argparse.ArgumentParser(
        prog="python3 -m tests.golden.write_plans", description=__doc__
    ).parse_args()
    graph = json.loads((DATA / "grid.json").read_text())
    table = pandas.DataFrame({"id": [node["id"] for node in graph["nodes"]]})
    row, column = table["id"] // COLUMNS, table["id"] % COLUMNS
    rows = int(row.max()) + 1
    side = pandas.cut(column, [-1, 7, 15, COLUMNS], labels=["west", "middle", "east"]).astype(str)
    table["blocks"] = (row < rows // 2).map({True: "north ", False: "south "}) + side
    table["columns"] = (column * rows + row) // 50 + 1
    table.to_csv(sys.stdout, index=False)


if __name__ == "__main__":
    main()
