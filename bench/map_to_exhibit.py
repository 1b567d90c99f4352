#!/usr/bin/env python3
"""Measures the way from a shapefile to an exhibit, without the walk, in processor seconds.

    DISTRICT_AUDIT=PROGRAM PYTHONPATH=python python3 bench/map_to_exhibit.py [SIDE]

The map is drawn: SIDE by SIDE units, 36 by default, with twelve crooked pieces of border to each
neighbor. Three elections are audited by walks of a few steps. geopandas is needed.
"""
import pathlib
import random
import sys
import tempfile
import time
import warnings

import district_audit
import geopandas
import shapely.geometry

PIECES, SIZE, ROOM = 12, 900.0, random.Random(5)
Point = tuple[float, float]
Corner = tuple[int, int]
ELECTIONS = {"one": ("a", "b"), "two": ("c", "e"), "three": ("g", "h")}


def draw_borders(side: int) -> dict[tuple[Corner, Corner], list[Point]]:
    """Returns a crooked line between each two neighboring corners of a grid, in both directions."""
    corners = {
        (x, y): (500_000 + SIZE * x + ROOM.uniform(-200, 200),
                 4_000_000 + SIZE * y + ROOM.uniform(-200, 200))
        for x in range(side + 1) for y in range(side + 1)
    }
    found = {}
    for x, y in corners:
        for end in ((x + 1, y), (x, y + 1)):
            if end in corners:
                (p, q), (r, s) = corners[x, y], corners[end]
                line = [
                    (p + (r - p) * at / PIECES + ROOM.uniform(-12, 12) * (0 < at < PIECES),
                     q + (s - q) * at / PIECES + ROOM.uniform(-12, 12) * (0 < at < PIECES))
                    for at in range(PIECES + 1)
                ]
                found[(x, y), end], found[end, (x, y)] = line, line[::-1]
    return found


def draw_map(side: int) -> geopandas.GeoDataFrame:
    """Returns a map of side by side units, with people, votes and eight districts."""
    borders = draw_borders(side)
    rows, shapes = [], []
    for x in range(side):
        for y in range(side):
            ring = [(x, y), (x + 1, y), (x + 1, y + 1), (x, y + 1)]
            lines = [borders[one, other] for one, other in zip(ring, ring[1:] + ring[:1])]
            shapes.append(shapely.geometry.Polygon([one for line in lines for one in line[:-1]]))
            votes = {name: 300 + ROOM.randrange(100) for name in "abcegh"}
            rows.append({"GEOID": f"{x:03}{y:03}", "pop": 1500, "d": 8 * x // side, **votes})
    return geopandas.GeoDataFrame(rows, geometry=shapes, crs="EPSG:32618")


def main() -> int:
    side = int(sys.argv[1]) if len(sys.argv) > 1 else 36
    warnings.simplefilter("ignore")
    with tempfile.TemporaryDirectory() as name:
        folder = pathlib.Path(name)
        draw_map(side).to_file(folder / "map.shp")
        times = [("", time.process_time())]
        graph = district_audit.graph_from(folder / "map.shp", id="GEOID")
        times.append(("graph_from", time.process_time()))
        prepared = district_audit.prepare(
            graph, population="pop", elections=ELECTIONS, district="d", slack=2000,
            length="shared_perim",
        )
        times.append(("prepare", time.process_time()))
        reports = district_audit.run(
            prepared, elections=ELECTIONS, key="0" * 64, ask="gap:high", steps=1000,
        )
        times.append(("run, without the program", time.process_time()))
        reports["one"].exhibit(str(folder / "exhibit.html"))
        times.append(("exhibit", time.process_time()))
    print(f"{graph!r}")
    for (_, before), (what, after) in zip(times, times[1:]):
        print(f"{what}: {after - before:.2f} s")
    return 0


if __name__ == "__main__":
    sys.exit(main())
