#!/usr/bin/env python3
"""Audits a graph of networkx and draws a picture. Usage: python3 audit.py [NAME], which writes
NAME.png and NAME.svg.

The script needs networkx, matplotlib and the package: pip install ../python. The graph is a grid of
12 by 25 units.
"""
import sys

import district_audit
import networkx

if "--help" in sys.argv:
    sys.exit(print(__doc__))
graph = networkx.grid_2d_graph(12, 25)
for row, column in graph.nodes:
    votes = (37 * row + 53 * column + 11 * row * column) % 101
    graph.nodes[row, column].update(TOTPOP=100.0, DEM=votes, REP=100 - votes)
plan = {(row, column): f"{row // 2 + 1:02}" for row, column in graph.nodes}

prepared = district_audit.prepare(
    graph, population="TOTPOP", first="DEM", second="REP", assignment=plan
)
print(*prepared.changes, *prepared.warnings, *prepared.notes, sep="\n")
print(district_audit.check(prepared))
key = district_audit.key_of("the text that was announced, with the numbers of the lottery")
report = district_audit.run(
    prepared, slack=1000, key=key, walks=2, steps=20000, ends=99, hub_steps=2000, workers=4,
    shift=True, ask=["seats:low", "gap:high", "cut-edges:low"],
)
for line in report.walks:
    part = f"{float(line.part):.3g} of the visited plans"
    print(f"walk {line.number}, {line.ask}: {part}, bound {line.bound}")
report.plot(sys.argv[1] if len(sys.argv) > 1 else "picture")
