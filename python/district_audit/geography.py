"""Dual graphs of maps: a GeoDataFrame, or a file that geopandas reads, as a shapefile.

geopandas reads, and shapely does all geometry. Lengths and areas are in the units of the map's
coordinates: use a projected system, as a state plane, and not degrees.
"""
from __future__ import annotations

import dataclasses
import os
import typing
import warnings as python_warnings

from .custody import SHAPEFILE
from .errors import PrepareRefused, extra
from .graphs import Foreign, Label, as_json, as_text, is_missing, list_ids
from .judging import parts_of
from .values import find_repeated, kind_of
from .warnings import BordersNotShared, CoordinatesInDegrees, MapWarning

PathLike = typing.Union[str, "os.PathLike[str]"]
# The ends of names of files that geopandas reads.
FILES = (".shp", ".gpkg", ".geojson", ".zip", ".fgb", ".parquet")
SHARED, OUTER, AREA = "shared_perim", "boundary_perim", "area"
# A border that is shorter than this part of the shorter perimeter is reported as a sliver, and an
# overlap counts from this part of the smaller area on: below are errors of rounding.
SLIVER, OVERLAP = 1e-3, 1e-9
# Below this part of shared borders, lengths and perimeters are wrong.
LEAST_SHARED = 0.9

Pair = tuple[Label, Label]


@dataclasses.dataclass(frozen=True)
class MapReport:
    """The likely faults of a map, by the units' ids."""

    islands: list[Label]
    """The units without a neighbor."""
    pieces: list[Label]
    """The units of several polygons that do not touch."""
    slivers: list[tuple[Pair, float]]
    """Neighbors whose common border is shorter than a thousandth of the shorter perimeter, and its
    length.
    """
    overlaps: list[tuple[Pair, float]]
    """Units that lie over each other, and the area where they do."""
    gaps: list[tuple[list[Label], float]]
    """The areas inside of the map that no unit covers, as lakes and errors do: the units around
    each, and its area.
    """
    shared: float
    """The part of the borders between neighbors that both polygons have."""
    nearest: dict[Label, Label] = dataclasses.field(default_factory=dict)
    """The unit that is nearest to each island."""
    parts: list[tuple[list[Label], Pair]] = dataclasses.field(default_factory=list)
    """The parts of several units that no border joins to the greatest part, as a river leaves
    them: the units of each, and the nearest pair of one of them and a unit elsewhere.
    """

    def __str__(self) -> str:
        """Returns a line for each kind."""
        pairs = [("slivers", self.slivers), ("overlaps", self.overlaps)]
        apart = [f"{one} (nearest {self.nearest[one]})" if one in self.nearest else one
                 for one in self.islands]
        lines = [f"islands, units without a neighbor: {describe(apart)}",
                 f"units of several polygons: {describe(self.pieces)}"]
        apart = [f"{len(units)} units (nearest {one} - {other})"
                 for units, (one, other) in self.parts]
        lines.insert(1, f"parts of several units that no border joins: {describe(apart)}")
        for what, found in pairs:
            names = [f"{one} - {other} ({size:.4g})" for (one, other), size in found]
            lines.append(f"{what}: {describe(names)}")
        around = [f"{size:.4g} between {list_ids(units)}" for units, size in self.gaps]
        lines.append(f"gaps: {describe(around)}")
        lines.append(f"borders that both neighbors have: {100 * self.shared:.2f} percent")
        return "\n".join(lines)


def describe(found: typing.Sequence[object]) -> str:
    """Returns a count, and the first ten of what is counted."""
    return f"{len(found)}: {list_ids(found)}" if found else "none"


class MapGraph:
    """The dual graph of a map, as `prepare` takes it: `nodes(data=True)` and `adjacency()`."""

    def __init__(
        self, rows: dict[Label, dict[str, object]], shapes: dict[Label, Foreign],
        borders: dict[Label, dict[Label, float]], report: MapReport,
    ) -> None:
        self.rows, self.geometry, self.borders = rows, shapes, borders
        self.report = report
        self.warnings: list[MapWarning] = []
        """Reasons for which lengths and areas of the map are wrong."""
        self.files: list[str] = []
        """The paths of the files that were read."""

    def nodes(self, data: bool = False) -> list[Foreign]:
        """Returns the units' ids, with their columns if `data` is true."""
        return list(self.rows.items()) if data else list(self.rows)

    def adjacency(self) -> typing.Iterator[tuple[Label, dict[Label, dict[str, float]]]]:
        """Yields each unit's id and its neighbors, with the length of the common border."""
        for unit, others in self.borders.items():
            yield unit, {other: {SHARED: length} for other, length in others.items()}

    def __len__(self) -> int:
        return len(self.rows)

    def __repr__(self) -> str:
        edges = sum(map(len, self.borders.values())) // 2
        return f"<MapGraph: {len(self.rows)} units, {edges} edges>"


def graph_from(
    map: Foreign,
    id: str | None = None,
    *,
    tolerance: float = 0,
    queen: bool = False,
    layer: str | None = None,
) -> MapGraph:
    """Makes the dual graph of a map: units with a common border are neighbors.

    Parameters
    ----------
    map
        A GeoDataFrame, or the path of a file that geopandas reads, as a shapefile or a GeoPackage.
    id
        The column of the units' ids. Of a GeoDataFrame it may be left out: its index has the ids
        then.
    tolerance
        How far apart the borders of neighbors may be, in the units of the coordinates. With 0 a
        border is common where both polygons have the same line.
    queen
        Whether units that share just a point are neighbors, too.
    layer
        The layer of a file with several.

    Returns
    -------
    MapGraph
        For `prepare`. Its edges have `shared_perim`, the length of the common border, and its units
        their columns, `boundary_perim` (the length of the border that no other unit shares) and
        `area`. `report` tells islands, parts, slivers, overlaps and gaps; `geometry` has the
        polygons.

    Raises
    ------
    PrepareRefused
        The file cannot be read, or a unit has no id, no polygon, or an invalid one.
    MissingExtra
        geopandas or shapely is not installed.
    """
    extra("geopandas")
    files: list[str] = []
    if isinstance(map, (str, os.PathLike)):
        files, map = list_files(os.fspath(map)), read_map(os.fspath(map), layer)
    if tolerance < 0:
        raise PrepareRefused(f"tolerance is {tolerance}: it must be 0 or more")
    ids = ids_of(map, id, files)
    shapes = dict(zip(ids, map.geometry))
    test_shapes(shapes)
    borders = borders_of(shapes, tolerance, queen)
    found = MapGraph(rows_of(map, ids, id, shapes, borders), shapes, borders,
                     report_of(shapes, borders))
    found.files = files
    found.warnings = warnings_of(shapes, found.report.shared, getattr(map, "crs", None))
    return found


# ---- reading


def list_files(name: str) -> list[str]:
    """Returns the path of a map, and those of the other files of a shapefile."""
    stem, end = os.path.splitext(name)
    more = [stem + other for other in SHAPEFILE] if end.lower() == ".shp" else []
    return [name, *(other for other in more if os.path.exists(other))]


def read_map(name: str, layer: str | None) -> Foreign:
    """Returns the GeoDataFrame in a file."""
    if not os.path.exists(name):
        raise PrepareRefused(f"{name} cannot be read: there is no such file")
    geopandas = extra("geopandas")
    try:
        if name.endswith(".parquet"):
            return geopandas.read_parquet(name)
        return geopandas.read_file(name, **({} if layer is None else {"layer": layer}))
    except Exception as error:  # geopandas and its readers have many
        why = f"{name} cannot be read by geopandas: {error}"
        if layer is not None:
            why += f" (layer={layer!r} names a layer of the file; without it the first is read)"
        elif name.lower().endswith(".zip"):
            why += " (a zip archive has to hold a shapefile: unpack another file first)"
        raise PrepareRefused(why) from error


def ids_of(map: Foreign, id: str | None, files: typing.Sequence[str]) -> list[Label]:
    """Returns the units' ids. Refuses those that are missing, unusable or repeated."""
    columns = [str(name) for name in map.columns if name != map.geometry.name]
    if id is None and files:
        unique = [name for name in columns if map[name].is_unique]
        example = unique[0] if unique else "GEOID20"
        raise PrepareRefused(
            f"name the column of the units' ids: graph_from({files[0]!r}, id={example!r}); the"
            f" columns are {', '.join(columns) or 'none'}"
        )
    if id is not None and id not in columns:
        raise PrepareRefused(f"there is no column {id}; the columns are {', '.join(columns)}")
    found = list(map.index if id is None else map[id])
    faults = [
        f"row {place}: {as_json(one)} is missing or not an id of a unit"
        for place, one in enumerate(found)
        if is_missing(one) or kind_of(one) is None
    ]
    faults += [f"several rows have the id {as_json(one)}" for one in find_repeated(found)]
    if faults:
        raise PrepareRefused(f"{len(faults)} ids of the map are refused", faults)
    return [one.item() if hasattr(one, "item") else one for one in found]


def test_shapes(shapes: typing.Mapping[Label, Foreign]) -> None:
    """Refuses units without a polygon, and polygons that are invalid, each by its id."""
    explain = extra("shapely.validation").explain_validity
    faults = []
    for unit, shape in shapes.items():
        if shape is None or shape.is_empty:
            faults.append(f"unit {as_json(unit)} has no geometry")
        elif shape.geom_type not in ("Polygon", "MultiPolygon"):
            faults.append(f"unit {as_json(unit)} is a {shape.geom_type}, and not a polygon")
        elif not shape.is_valid:
            faults.append(
                f"unit {as_json(unit)}: its polygon is invalid: {explain(shape)}"
                " (gdf.geometry.buffer(0) repairs most)"
            )
    if faults:
        raise PrepareRefused(f"{len(faults)} polygons of the map are refused", faults)


# ---- borders


def borders_of(
    shapes: typing.Mapping[Label, Foreign], tolerance: float, queen: bool
) -> dict[Label, dict[Label, float]]:
    """Returns for each unit its neighbors, with the length of the common border."""
    found: dict[Label, dict[Label, float]] = {unit: {} for unit in shapes}
    lines = {unit: shape.boundary for unit, shape in shapes.items()}
    for one, other in pairs_near(shapes, tolerance):
        if tolerance:
            length = length_within(lines[one], lines[other], tolerance)
            # At a common corner the boundaries are near each other, too.
            length = length if length > 4 * tolerance else 0.0
        else:
            length = float(lines[one].intersection(lines[other]).length)
        touches = queen and shapes[one].distance(shapes[other]) <= tolerance
        if length > 0 or touches:
            found[one][other] = found[other][one] = length
    return found


def pairs_near(
    shapes: typing.Mapping[Label, Foreign], distance: float
) -> typing.Iterator[Pair]:
    """Yields each pair of units whose polygons may be so near, once, in the map's order."""
    tree_of = extra("shapely.strtree").STRtree
    box = extra("shapely.geometry").box
    ids, polygons = list(shapes), list(shapes.values())
    with python_warnings.catch_warnings():
        # shapely 1 tells that its trees will answer places, for which we are prepared.
        python_warnings.simplefilter("ignore")
        tree = tree_of(polygons)
    place_of = {id(polygon): place for place, polygon in enumerate(polygons)}
    for place, polygon in enumerate(polygons):
        left, low, right, high = polygon.bounds
        around = box(left - distance, low - distance, right + distance, high + distance)
        # shapely 2 answers places, and shapely 1 the polygons themselves.
        near = [
            int(one) if not hasattr(one, "bounds") else place_of[id(one)]
            for one in tree.query(around)
        ]
        for other in sorted(set(near)):
            if other > place:
                yield ids[place], ids[other]


def length_within(one: Foreign, other: Foreign, distance: float) -> float:
    """Returns how long two lines are where they are within a distance, on the average."""
    here = one.intersection(other.buffer(distance)).length
    there = other.intersection(one.buffer(distance)).length
    return float(here + there) / 2


def rows_of(
    map: Foreign, ids: list[Label], id: str | None, shapes: typing.Mapping[Label, Foreign],
    borders: typing.Mapping[Label, typing.Mapping[Label, float]],
) -> dict[Label, dict[str, object]]:
    """Returns each unit's columns, with its area and the border that it shares with nobody.

    A column of the map keeps its values, if it has one of these names.
    """
    columns = [name for name in map.columns if name not in (map.geometry.name, id)]
    values = {str(name): list(map[name]) for name in columns}
    rows: dict[Label, dict[str, object]] = {}
    for place, unit in enumerate(ids):
        shape = shapes[unit]
        outer = float(shape.length) - sum(borders[unit].values())
        rows[unit] = {
            AREA: float(shape.area), OUTER: max(0.0, outer),
            **{name: found[place] for name, found in values.items() if name != "id"},
        }
    return rows


# ---- what looks wrong


def report_of(
    shapes: typing.Mapping[Label, Foreign],
    borders: typing.Mapping[Label, typing.Mapping[Label, float]],
) -> MapReport:
    """Returns what looks wrong in a map."""
    slivers, overlaps = [], []
    for one, others in borders.items():
        for other, length in others.items():
            shorter = min(shapes[one].length, shapes[other].length)
            if as_key(one) < as_key(other) and 0 < length < SLIVER * shorter:
                slivers.append(((one, other), length))
    for one, other in pairs_near(shapes, 0):
        if shapes[one].intersects(shapes[other]) and not shapes[one].touches(shapes[other]):
            area = float(shapes[one].intersection(shapes[other]).area)
            if area > OVERLAP * min(shapes[one].area, shapes[other].area):
                overlaps.append(((one, other), area))
    pieces = [unit for unit, shape in shapes.items()
              if shape.geom_type == "MultiPolygon" and len(shape.geoms) > 1]
    islands = [unit for unit, others in borders.items() if not others]
    shared = measure_shared(shapes, pairs_near(shapes, width_of(shapes)))
    return MapReport(islands, pieces, slivers, overlaps, gaps_of(shapes), shared,
                     nearest_of(shapes, islands), parts_apart(shapes, borders))


def parts_apart(
    shapes: typing.Mapping[Label, Foreign],
    borders: typing.Mapping[Label, typing.Mapping[Label, float]],
) -> list[tuple[list[Label], Pair]]:
    """Returns the parts of several units but for the greatest, each with its nearest pair."""
    join = extra("shapely.ops").unary_union
    parts = parts_of(shapes, {unit: list(others) for unit, others in borders.items()})
    found = []
    for part in parts[1:]:
        if len(part) > 1:
            inner = set(part)
            units = [unit for unit in shapes if unit in inner]
            others = [unit for unit in shapes if unit not in inner]
            here, there = extra("shapely.ops").nearest_points(
                join([shapes[unit] for unit in units]), join([shapes[unit] for unit in others])
            )
            one = min(units, key=lambda unit: float(shapes[unit].distance(here)))
            other = min(others, key=lambda unit: float(shapes[unit].distance(there)))
            found.append((units, (one, other)))
    return found


def nearest_of(
    shapes: typing.Mapping[Label, Foreign], islands: typing.Iterable[Label]
) -> dict[Label, Label]:
    """Returns the unit that is nearest to each of some units, of equal ones the first."""
    return {
        one: min((other for other in shapes if other != one),
                 key=lambda other: float(shapes[one].distance(shapes[other])))
        for one in islands
        if len(shapes) > 1
    }


def as_key(unit: Label) -> tuple[bool, str]:
    return isinstance(unit, str), as_text(unit)


def gaps_of(shapes: typing.Mapping[Label, Foreign]) -> list[tuple[list[Label], float]]:
    """Returns the holes of the whole map, greatest first, with the units around each."""
    polygon_of = extra("shapely.geometry").Polygon
    whole = extra("shapely.ops").unary_union(list(shapes.values()))
    parts = list(getattr(whole, "geoms", [whole]))
    holes = [polygon_of(ring) for part in parts for ring in part.interiors]
    found = [([unit for unit, shape in shapes.items() if shape.intersects(hole)], float(hole.area))
             for hole in holes]
    return sorted(found, key=lambda one: -one[1])


def width_of(shapes: typing.Mapping[Foreign, Foreign]) -> float:
    """Returns a hundredth of the root of the median area of a map's units."""
    areas = sorted(float(shape.area) for shape in shapes.values())
    return float(areas[len(areas) // 2] ** 0.5) / 100 if areas else 0.0


def measure_shared(
    shapes: typing.Mapping[Foreign, Foreign], pairs: typing.Iterable[tuple[Foreign, Foreign]]
) -> float:
    """Returns the part of the borders between these pairs of units that both polygons have.

    The borders between neighbors are the parts of their boundaries that are within a hundredth of a
    unit's usual width of the other polygon. Neighbors that are drawn apart share nothing of these.
    """
    width = width_of(shapes)
    both = near = 0.0
    for one, other in pairs:
        lines = shapes[one].boundary, shapes[other].boundary
        same = float(lines[0].intersection(lines[1]).length)
        # Behind each end of a border the lines are near for another width, and so at a corner.
        length = length_within(*lines, width) - 2 * width
        both += same
        near += max(same, length if length > 6 * width else 0)
    return min(1.0, both / near) if near else 1.0


def warnings_of(
    shapes: typing.Mapping[Foreign, Foreign], shared: float, system: Foreign
) -> list[MapWarning]:
    """Returns what makes the lengths and areas of a map wrong."""
    found: list[MapWarning] = []
    if are_degrees(shapes.values(), system):
        found.append(
            CoordinatesInDegrees(
                "the map's coordinates are degrees, in which lengths and areas mean nothing:"
                " project it first, as gdf.to_crs(gdf.estimate_utm_crs())"
            )
        )
    if shared < LEAST_SHARED:
        found.append(
            BordersNotShared(
                f"only {100 * shared:.1f} percent of the borders between neighbors are lines that"
                " both polygons have, so that lengths and perimeters are wrong: repair the map, or"
                " give graph_from a tolerance"
            )
        )
    return found


def find_map(graph: object) -> object:
    """Returns the dual graph of a GeoDataFrame, and anything else as it is.

    Raises PrepareRefused for the path of a map, which says what to write instead.
    """
    if isinstance(graph, (str, os.PathLike)):
        return graph_from(graph) if os.fspath(graph).lower().endswith(FILES) else graph
    if hasattr(graph, "columns") and hasattr(graph, "geometry"):
        return graph_from(graph)
    if hasattr(graph, "columns"):
        raise PrepareRefused(
            f"a {type(graph).__name__} has no polygons: give a GeoDataFrame, or a graph and"
            " assignment=frame[column]"
        )
    return graph


def are_degrees(shapes: typing.Iterable[Foreign], system: Foreign) -> bool:
    """Returns whether coordinates are longitudes and latitudes.

    Without a coordinate system they are taken for such if all are in their range and most are no
    whole numbers.
    """
    if system is not None:
        return bool(getattr(system, "is_geographic", False))
    corners: list[float] = []
    for shape in shapes:
        left, low, right, high = shape.bounds
        if not (-180 <= left and right <= 180 and -90 <= low and high <= 90):
            return False
        corners += [left, low, right, high]
    return 2 * sum(not float(one).is_integer() for one in corners) > len(corners)
