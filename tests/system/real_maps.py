"""Dual graphs of real maps, from polygons that Debian ships, with start plans; and what the plain
model answers on them.

Usage: python3 -m tests.system.real_maps make PACKAGES OUT [NAME]..
           writes OUT/NAME.json for each map, and a line for each of its plans to OUT/plans
       python3 -m tests.system.real_maps published PACKAGES
           compares the edges of three maps with the packages' lists of neighbors
       python3 -m tests.system.real_maps model WORDS.. < GRAPH
           ends as the auditor has to, by the plain model of model.py: text, note and status
       python3 -m tests.system.real_maps modules
           ends with 0 where the modules that `make` needs are there
PACKAGES is a folder in which the packages are unpacked, or / where they are installed:
r-cran-spdata, r-cran-sf, r-cran-maps and python3-libpysal. Debian's python3-shapely and
python3-pyshp are needed. real_maps.sh downloads and unpacks all, and runs this.

Two units are neighbours where their borders share a line of some length (rook adjacency). The
units, their names and their neighbours are real in all maps; lines of no length count as none. No
package has votes by polygons; in place of votes stand two other counts, real ones where there are
some:

    map          units                         people                    in place of votes
    nc           counties of North Carolina    births 1974-78            non-white, and white births
    georgia      counties of Georgia           residents 1990            Black residents, and others
    stl          counties round St. Louis      residents, sum of         homicides 1979-84, and
                                               1988-93                   1988-93
    auckland     census areas of Auckland      children under five 1981  deaths under five 1977-85,
                                                                         and that from the children
    ny8          tracts of eight counties      residents 1980            residents by the share of
                 of upstate New York                                     owned homes, and others
    boston       tracts of Boston              residents 1970            houses worth less than
                                                                         20,000 dollars, and others
    olinda       census sectors of Olinda      the census's count V014   made up
    albuquerque  tracts of Albuquerque         made up                   made up
    tokyo        wards and towns round Tokyo   made up                   made up
    virginia     counties, cities of Virginia  made up                   made up
    texas        counties of Texas             made up                   made up
    counties     counties of the 48 states     made up                   made up

What is made up follows from the SHA-256 of the unit's id. Start plans are cut out of random trees,
again and again in two, within 0.8 of the tolerance; they were never enacted. A line of OUT/plans
has, between tabs: the map, the number of districts, the tolerance in hundredths of a percent, the
plan's column, the column of regions or -, among how many districts the plan splits one, and the
words for prepare.py.

Sources and licences: nc, auckland, ny8 and boston are from spData (CC0 1.0), olinda is from sf (MIT
or GPL 2), texas and counties are from maps (GPL 2), all others from libpysal (BSD, three clauses).
Two of them, nc and ny8, lie in this folder as this script writes them.
"""
from __future__ import annotations

import argparse
import dataclasses
import hashlib
import json
import math
import pathlib
import random
import shlex
import struct
import sys
import typing
from collections.abc import Callable, Container, Sequence

from tests.oracle import model

# The values of a unit by their columns. The types of a shapefile's columns are not known.
Row = dict[str, typing.Any]
Derive = Callable[[Row], Row]
# Two units, the smaller first.
Edge = tuple[int, int]

# The columns of houses by their worth, in the tracts of Boston: below 20,000 dollars, and above.
CHEAP = ("cu5k", "c5_7_5", "C7_5_10", "C10_15", "C15_20")
DEAR = ("C20_25", "C25_35", "C35_50", "co50k")
TOLERANCES = (1000, 1500, 2000, 3000, 5000)


class Source(typing.NamedTuple):
    """The source of a map, and its columns. A column that is None is made up."""

    file: str
    """The shapefile; or the map of the package maps, and behind a colon how the names of the
    counties begin that are taken.
    """
    unit: str
    """The column with the units' ids; empty where there is none, and places stand in for them."""
    label: str | None
    """One with their names."""
    people: str | None
    first: str | None
    second: str | None
    region: str | None
    districts: tuple[int, ...]
    """Of how many districts there is a plan."""
    derive: Derive = lambda row: {}
    """The columns that the source has in another form."""
    published: str | None = None
    """A list of neighbours that the package has; it names units by their places, from 1."""


def split_in_two(people: str, share: Callable[[Row], float], part: str, rest: str) -> Derive:
    """Returns what makes two columns: how many of a number of people a share of them is, as a
    float, and how many are left.
    """
    return lambda row: {
        part: row[people] * share(row),
        rest: row[people] - row[people] * share(row),
    }


def share_of_black(row: Row) -> float:
    share: float = row["PctBlack"]
    return share / 100


def share_of_owners(row: Row) -> float:
    share: float = row["PCTOWNHOME"]
    return share


SOURCES = {
    "nc": Source(
        "spData/shapes/sids",
        "FIPS",
        "NAME",
        "BIR74",
        "NWBIR74",
        "WBIR74",
        None,
        (2, 11),
        lambda row: {"WBIR74": row["BIR74"] - row["NWBIR74"]},
    ),
    "georgia": Source(
        "examples/georgia/G_utm",
        "AreaKey",
        None,
        "TotPop90",
        "BLACK",
        "OTHERS",
        None,
        (2, 8),
        split_in_two("TotPop90", share_of_black, "BLACK", "OTHERS"),
    ),
    "stl": Source(
        "examples/stl/stl_hom", "FIPS", "NAME", "PO8893", "HC7984", "HC8893", "STATE_NAME", (2, 5),
        published="examples/stl/stl_hom_rook",
    ),
    "auckland": Source(
        "spData/shapes/auckland",
        "",
        None,
        "Und5_81",
        "M77_85",
        "OTHERS",
        None,
        (2, 8),
        lambda row: {"OTHERS": row["Und5_81"] - row["M77_85"]},
    ),
    "ny8": Source(
        "spData/shapes/NY8_utm18",
        "AREAKEY",
        "AREANAME",
        "POP8",
        "OWNING",
        "OTHERS",
        "COUNTY",
        (2, 8),
        lambda row: {
            "COUNTY": row["AREAKEY"][:5],
            **split_in_two("POP8", share_of_owners, "OWNING", "OTHERS")(row),
        },
    ),
    "boston": Source(
        "spData/shapes/boston_tracts",
        "poltract",
        None,
        "POP",
        "CHEAP",
        "DEAR",
        "TOWN",
        (2, 9),
        lambda row: {
            "CHEAP": sum(row[name] for name in CHEAP),
            "DEAR": sum(row[name] for name in DEAR),
        },
    ),
    "olinda": Source(
        "sf/shape/olinda1", "CD_GEOCODI", None, "V014", None, None, "NM_BAIR", (2, 10)
    ),
    "albuquerque": Source(
        "examples/10740/10740", "STFID", None, None, None, None, "FIPSSTCO", (2, 9),
        published="examples/10740/10740_rook",
    ),
    "tokyo": Source(
        "examples/tokyo/tokyomet262",
        "GEOCODE",
        "AREANAME",
        None,
        None,
        None,
        "PREF",
        (2, 13),
        lambda row: {"PREF": row["GEOCODE"][:2]},
    ),
    "virginia": Source(
        "examples/virginia/virginia", "FIPS", "NAME", None, None, None, None, (2, 11),
        published="examples/virginia/virginia_rook",
    ),
    "texas": Source("maps/mapdata/county:texas,", "NAME", None, None, None, None, None, (2, 13)),
    "counties": Source("maps/mapdata/county:", "NAME", None, None, None, None, "STATE", (2, 13)),
}


# ---- polygons


class Point(typing.Protocol):
    """The part of a point of shapely that is used."""

    x: float
    y: float


class Polygon(typing.Protocol):
    """The part of a polygon of shapely that is used."""

    bounds: tuple[float, float, float, float]
    length: float
    is_valid: bool
    centroid: Point

    def intersection(self, other: Polygon) -> Polygon: ...


class MapData(typing.NamedTuple):
    """The rows of a map's units, the pairs of neighbors, and the middle of each unit."""

    rows: list[Row]
    edges: list[Edge]
    middles: list[tuple[float, ...]]


def file_of(packages: pathlib.Path, name: str) -> pathlib.Path:
    """Returns a file of a package, by the end of its path."""
    path = pathlib.PurePath(name)
    roots = (
        [packages]
        if packages != pathlib.Path("/")
        else [packages / "usr" / "lib" / "R", packages / "usr" / "lib" / "python3"]
    )
    found = sorted(
        one
        for root in roots
        for one in root.rglob(path.name)
        if one.as_posix().endswith("/" + name)
    )
    if not found:
        raise FileNotFoundError(f"there is no {name} in the packages below {packages}")
    return found[0]


def shapes_of(packages: pathlib.Path, source: Source) -> tuple[list[Row], list[Polygon]]:
    """Returns the rows of a shapefile, and their polygons."""
    import shapefile
    from shapely.geometry import shape
    from shapely.validation import make_valid

    with shapefile.Reader(
        str(file_of(packages, source.file + ".shp")), encoding="latin1"
    ) as reader:
        names = [field[0] for field in reader.fields[1:]]
        rows = [dict(zip(names, record)) for record in reader.records()]
        polygons = [shape(one.__geo_interface__) for one in reader.shapes()]
    return rows, [polygon if polygon.is_valid else make_valid(polygon) for polygon in polygons]


def rook(polygons: Sequence[Polygon]) -> list[Edge]:
    """Returns the pairs of polygons whose borders share a line of some length."""
    boxes = [polygon.bounds for polygon in polygons]

    def may_touch(one: Sequence[float], other: Sequence[float]) -> bool:
        return bool(
            one[0] <= other[2] and other[0] <= one[2] and one[1] <= other[3] and other[1] <= one[3]
        )

    return [
        (i, j)
        for i, box in enumerate(boxes)
        for j in range(i + 1, len(boxes))
        if may_touch(box, boxes[j]) and polygons[i].intersection(polygons[j]).length > 0
    ]


def lines_of(packages: pathlib.Path, source: Source) -> MapData:
    """Returns a map of the package maps, whose lines have the polygon at their left and at their
    right: rows, edges and middles. The polygons of one county are one unit.
    """
    file, _, front = source.file.partition(":")
    labels = [
        line.split("\t")[0].split(":")[0]
        for line in file_of(packages, file + ".N").read_text(encoding="latin1").splitlines()
    ]
    names = sorted({label for label in labels if label.startswith(front)})
    place = {name: i for i, name in enumerate(names)}
    unit_of = [None, *(place.get(label) for label in labels)]
    data = file_of(packages, file + ".L").read_bytes()
    edges: set[Edge] = set()
    points: list[list[tuple[float, float]]] = [[] for _ in names]
    for line in range(struct.unpack_from("<ii", data)[1]):
        offset, count, left, right = struct.unpack_from("<iHhh", data, 8 + 28 * line)
        x, y = struct.unpack_from("<2f", data, offset)
        sides = [unit for side in (left, right) if (unit := unit_of[max(side, 0)]) is not None]
        for unit in sides:
            points[unit].append((x, y))
        if count > 1 and len(sides) == 2 and sides[0] != sides[1]:
            edges.add((min(sides), max(sides)))
    middles = [tuple(math.fsum(values) / len(those) for values in zip(*those)) for those in points]
    rows: list[Row] = [{"NAME": name, "STATE": name.split(",")[0]} for name in names]
    return MapData(rows, sorted(edges), middles)


def read(packages: pathlib.Path, source: Source) -> MapData:
    """Reads a map of the packages."""
    if ":" in source.file:
        return lines_of(packages, source)
    rows, polygons = shapes_of(packages, source)
    middles = [(polygon.centroid.x, polygon.centroid.y) for polygon in polygons]
    return MapData(rows, rook(polygons), [*middles])


# ---- graphs


def parts_of(near: Sequence[set[int]]) -> list[list[int]]:
    """Returns the parts of a graph, the smallest first."""
    left, parts = set(range(len(near))), []
    while left:
        todo = [min(left)]
        left.discard(todo[0])
        part = []
        while todo:
            part.append(todo.pop())
            todo += [other for other in near[part[-1]] if other in left]
            left.difference_update(near[part[-1]])
        parts.append(sorted(part))
    return sorted(parts, key=lambda part: (len(part), part))


def joins_of(near: Sequence[set[int]], middles: Sequence[Sequence[float]]) -> list[Edge]:
    """Pairs that make one part of a graph: each time the smallest part is joined by the units whose
    middles are nearest. They are made neighbours.
    """
    found = []
    while len(parts := parts_of(near)) > 1:
        inside = set(parts[0])
        pairs = ((i, j) for i in parts[0] for j in range(len(near)) if j not in inside)
        i, j = min(pairs, key=lambda pair: (math.dist(middles[pair[0]], middles[pair[1]]), pair))
        near[i].add(j)
        near[j].add(i)
        found.append((i, j))
    return found


def make_number(unit: object, what: str, low: int, high: int) -> int:
    """Returns a whole number from low to high - 1 that follows from a unit's id."""
    digest = hashlib.sha256(f"{what} {unit}".encode()).digest()
    return low + int.from_bytes(digest[:8], "big") % (high - low)


# ---- start plans


def tree_of(
    start: int, members: Container[int], near: Sequence[set[int]], draw: Callable[[], float]
) -> tuple[list[int], dict[int, int]]:
    """Returns a random tree of all members: an order in which each unit comes after the one that it
    hangs on, and that.
    """
    order: list[int] = []
    above: dict[int, int] = {}
    edges = [(start, start)]
    while edges:
        at = int(draw() * len(edges))
        edges[at], edges[-1] = edges[-1], edges[at]
        unit, parent = edges.pop()
        if unit not in above:
            above[unit] = parent
            order.append(unit)
            edges += [
                (other, unit)
                for other in sorted(near[unit])
                if other in members and other not in above
            ]
    return order, above


class Area(typing.NamedTuple):
    """Connected units, and of how many districts they are to be."""

    members: set[int]
    districts: int


@dataclasses.dataclass(frozen=True)
class Partition:
    """The neighbors and the people of all units, the bounds of a district, and a drawn fraction."""

    near: Sequence[set[int]]
    people: Sequence[int]
    low: float
    high: float
    draw: Callable[[], float]


def cut_of(area: Area, whole: Partition) -> tuple[Area, Area] | None:
    """Returns two parts of an area along a drawn tree, or None where this tree has none."""
    (members, count), low, high = area, whole.low, whole.high
    ordered = sorted(members)
    root = ordered[int(whole.draw() * len(ordered))]
    order, above = tree_of(root, members, whole.near, whole.draw)
    below = {unit: whole.people[unit] for unit in order}
    for unit in reversed(order[1:]):
        below[above[unit]] += below[unit]
    total = below[order[0]]
    best: tuple[float, int, int] | None = None
    for unit in order[1:]:
        for j in range(1, count):
            if low * j <= below[unit] <= high * j and low * (count - j) <= total - below[
                unit
            ] <= high * (count - j):
                worth = abs(below[unit] / j - total / count)
                if best is None or (worth, unit) < best[:2]:
                    best = worth, unit, j
    if best is None:
        return None
    part = {best[1]}
    for unit in order:
        if unit != order[0] and above[unit] in part:
            part.add(unit)
    return Area(part, best[2]), Area(set(members) - part, count - best[2])


def partition(
    near: Sequence[set[int]], people: Sequence[int], count: int, tolerance: float, seed: str
) -> list[int] | None:
    """Returns a plan of connected districts, each within the tolerance (a part of the ideal
    population); None if a bounded search has none.
    """
    draw, ideal = random.Random(seed).random, sum(people) / count
    whole = Partition(near, people, ideal * (1 - tolerance), ideal * (1 + tolerance), draw)
    for _ in range(60 if max(people) <= whole.high else 0):
        todo, done = [Area(set(range(len(near))), count)], []
        while todo:
            area = todo.pop()
            if area.districts == 1:
                done.append(area.members)
                continue
            cuts = (cut_of(area, whole) for _ in range(20))
            cut = next((one for one in cuts if one is not None), None)
            if cut is None:
                break
            todo += cut
        if len(done) == count:
            place = {unit: i for i, part in enumerate(sorted(done, key=min)) for unit in part}
            return [place[unit] for unit in range(len(near))]
    return None


# ---- the whole


def clean(value: object) -> object:
    """Returns a value as JSON has it; an absent text is missing."""
    if value in ("", None):
        return None
    return value.decode("latin1") if isinstance(value, bytes) else value


def round_number(value: float | None) -> int:
    """Returns a number as `prepare` writes it with `--numbers nearest --missing zero`."""
    return 0 if value is None else round(value)


class Plan(typing.NamedTuple):
    """A plan: its number of districts, its tolerance, its column, and among how many districts it
    splits a region.
    """

    districts: int
    tolerance: int
    column: str
    split: int


class RealMap:
    """A map: its nodes, edges, the words for prepare.py, and its plans."""

    def __init__(self, name: str, source: Source, packages: pathlib.Path) -> None:
        rows, self.edges, middles = read(packages, source)
        self.name, self.source = name, source
        self.columns = dict(
            pop=source.people or "TOTPOP", first=source.first or "FIRST",
            second=source.second or "SECOND",
        )
        self.nodes = [self.node_of(place, row) for place, row in enumerate(rows)]
        self.near: list[set[int]] = [set() for _ in rows]
        for i, j in self.edges:
            self.near[i].add(j)
            self.near[j].add(i)
        written = [sorted(those) for those in self.near]
        self.adjacency = [[{"id": self.nodes[j]["id"]} for j in those] for those in written]
        self.joins = [
            (self.nodes[i]["id"], self.nodes[j]["id"]) for i, j in joins_of(self.near, middles)
        ]
        self.plans = [plan for plan in map(self.plan_of, source.districts) if plan]

    def node_of(self, place: int, row: Row) -> Row:
        source = self.source
        row = {**row, **source.derive(row)}
        unit = row[source.unit] if source.unit else place
        kept = [source.label, *([source.region] if source.region else [])]
        node = {column: clean(row[column]) for column in kept if column}
        for what, column, low, high in (
            ("pop", source.people, 1000, 9000), ("first", source.first, 100, 2000),
            ("second", source.second, 100, 2000),
        ):
            node[self.columns[what]] = (
                clean(row[column]) if column else make_number(unit, what, low, high)
            )
        return {**node, "id": unit}

    def plan_of(self, districts: int) -> Plan | None:
        """Draws a plan, and writes it into a column of the nodes; None if none is found."""
        people = [round_number(node[self.columns["pop"]]) for node in self.nodes]
        for tolerance in TOLERANCES:
            plan = partition(
                self.near, people, districts, 0.8 * tolerance / 10000, f"{self.name} {districts}"
            )
            if plan is not None:
                split: dict[object, set[int]] = {}
                column, region = f"PLAN{districts}", self.source.region
                for node, district in zip(self.nodes, plan):
                    node[column] = f"{district + 1:02}"
                    split.setdefault(node.get(region) if region else None, set()).add(district)
                split.pop(None, None)
                most = max(map(len, split.values()), default=0)
                return Plan(districts, tolerance, column, most)
        print(f"real_maps: {self.name}: no plan of {districts} districts", file=sys.stderr)
        return None

    def words(self) -> list[str]:
        """Returns the words for prepare.py, but the column of the plan."""
        words = [
            word for what, column in self.columns.items() for word in ("--" + what, column)
        ] + ["--numbers", "nearest", "--missing", "zero"]
        if self.source.region:
            words += ["--region", self.source.region]
            words += (
                ["--own-region"]
                if any(node[self.source.region] is None for node in self.nodes)
                else []
            )
        return words + [word for pair in self.joins for word in ("--join", *map(str, pair))]

    def write(self, folder: pathlib.Path) -> list[str]:
        root = {
            "directed": False,
            "multigraph": False,
            "graph": [],
            "nodes": self.nodes,
            "adjacency": self.adjacency,
        }
        (folder / (self.name + ".json")).write_text(
            json.dumps(root, ensure_ascii=True), encoding="ascii"
        )
        return [
            "\t".join(
                (
                    self.name, str(districts), str(tolerance), column, self.source.region or "-",
                    str(split), shlex.join(self.words()),
                )
            )
            for districts, tolerance, column, split in self.plans
        ]


def make(packages: pathlib.Path, folder: pathlib.Path, names: Sequence[str]) -> None:
    unknown = sorted(set(names) - set(SOURCES))
    if unknown:
        raise SystemExit(f"real_maps: there is no map {unknown[0]}; there are {', '.join(SOURCES)}")
    folder.mkdir(parents=True, exist_ok=True)
    lines = [
        line
        for name in names or SOURCES
        for line in RealMap(name, SOURCES[name], packages).write(folder)
    ]
    (folder / "plans").write_text("".join(line + "\n" for line in lines), encoding="utf-8")


def compare_published(packages: pathlib.Path) -> int:
    """Returns the number of maps with exactly the edges of the packages' lists of neighbors, and
    the others.
    """
    wrong, tried = 0, 0
    for name, source in SOURCES.items():
        if source.published is None:
            continue
        _, edges, _ = read(packages, source)
        words = file_of(packages, source.published + ".gal").read_text(encoding="ascii").split("\n")
        theirs = {
            frozenset((int(one.split()[0]), int(other)))
            for one, others in zip(words[1::2], words[2::2])
            for other in others.split()
        }
        ours = {frozenset((i + 1, j + 1)) for i, j in edges}
        tried += 1
        if theirs != ours:
            wrong += 1
            print(
                f"WRONG {name}: {len(ours - theirs)} edges are not in the published list, and"
                f" {len(theirs - ours)} of it are lacking"
            )
    print(f"the edges of {tried - wrong} of {tried} maps are those of the published lists")
    return 1 if wrong else 0


def answer(words: Sequence[str]) -> int:
    """Ends as the auditor has to: its text, its note and its status."""
    end = model.audit(words, sys.stdin.buffer.read(), [None, None])
    sys.stdout.write(end.out)
    sys.stderr.write(end.note)
    return end.status


def main(words: argparse.Namespace) -> int:
    if words.command == "model":
        return answer(words.words)
    if words.command == "modules":
        import shapefile  # noqa: F401
        import shapely.geometry  # noqa: F401
    elif words.command == "published":
        return compare_published(pathlib.Path(words.packages))
    else:
        make(pathlib.Path(words.packages), pathlib.Path(words.out), words.names)
    return 0


def arguments() -> argparse.Namespace:
    parser = argparse.ArgumentParser(
        prog="python3 -m tests.system.real_maps", description=__doc__,
        formatter_class=argparse.RawDescriptionHelpFormatter,
    )
    commands = parser.add_subparsers(dest="command", required=True)
    maker = commands.add_parser("make", help="make maps")
    maker.add_argument("packages", help="the folder with the packages")
    maker.add_argument("out", help="the folder that gets the maps")
    maker.add_argument("names", nargs="*", help="the maps; all if none is named")
    lists = commands.add_parser("published", help="compare edges with published lists")
    lists.add_argument("packages", help="the folder with the packages")
    plain = commands.add_parser("model", help="end as the auditor has to")
    plain.add_argument("words", nargs=argparse.REMAINDER, help="the words of the auditor")
    commands.add_parser("modules", help="end with 0 where the modules for `make` are there")
    return parser.parse_args()


if __name__ == "__main__":
    sys.exit(main(arguments()))
