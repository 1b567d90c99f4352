"""Maps of districts: the units' shapes joined by district, for a page or a picture.

A map is drawn by this package from shapes that the user gives; no part of it is proved.
"""
from __future__ import annotations

import dataclasses
import math
import typing

from .errors import extra
from .exhibit_districts import columns_of, graph_of, refuse_another_plan
from .graphs import Foreign, Label, list_ids, plain, raw_of, sort_labels
from .report import Report

# The fills of districts; neighbors have different ones, as far as there are enough. None is white,
# so that a lake does not look like a district.
SHADES = ("#e4e4e4", "#c0c0c0", "#9c9c9c", "#d2d2d2", "#aeaeae", "#8c8c8c")
# A caption names places without units from this part of a square with the map's width on.
LEAST_HOLE = 1e-4
# A border is drawn as exactly as this part of the map's width.
FINENESS = 1500
Point = tuple[float, float]
Ring = list[Point]


@dataclasses.dataclass(frozen=True)
class Area:
    """A district on a map, in parts of the map's width; the second coordinate goes down."""

    label: str
    rings: list[Ring]
    """The outlines of its parts and of their holes."""
    at: Point
    """A point inside of its greatest part, for the label."""
    shade: str
    more: list[tuple[Point, float]]
    """A point inside of each other part, and how far the part's border is from it."""


@dataclasses.dataclass(frozen=True)
class DistrictMap:
    """The districts of one plan."""

    title: str
    areas: list[Area]
    height: float
    """The height of the map, as a part of its width."""
    cut: int
    """The cut edges of the plan."""
    has_holes: bool
    """True if a place within the map, such as a lake, has no unit."""


@dataclasses.dataclass(frozen=True)
class MapGraph:
    """The part of a graph that a map needs: the districts and the neighbors of its units."""

    districts: dict[Label, Label]
    pairs: list[tuple[Label, Label]]

    @classmethod
    def read(cls, data: bytes, column: str) -> MapGraph:
        """Returns the districts in a column of a graph that the program reads."""
        raw = raw_of(data)
        found: dict[Label, Label] = {}
        for node in raw.nodes:
            unit, label = plain(node.get("id")), plain(node.get(column))
            if unit is None or label is None:
                raise ValueError(f"unit {node.get('id')!r} has no district in column {column!r}")
            found[unit] = label
        return cls(found, typing.cast("list[tuple[Label, Label]]", raw.pairs))


def graph_of_map(
    report: Report, graph: object, columns: typing.Mapping[str, str] | None
) -> MapGraph:
    """Returns the graph of a report: the given one, or that of the call that made the report.

    Raises ValueError if there is none, or if it is another one.
    """
    refuse_another_plan(report)
    call = None if report.audited is None else report.audited.call
    named = columns_of(report, graph, columns)
    if graph is not None:
        found = graph_of(report, graph, named, False)
        data = None if found is None else found.data
    else:
        data = None if call is None or call.data is None else call.data.split(b"\n")[0]
    if data is None or "district" not in named:
        raise ValueError(
            "a map needs the graph that was audited, which has the units' districts: give graph=.."
            " (and columns=.., if the report does not name them)"
        )
    return MapGraph.read(data, named["district"])


def maps_of(
    report: Report,
    geometry: object,
    *,
    graph: object = None,
    columns: typing.Mapping[str, str] | None = None,
    plan: object = None,
    ids: str | None = None,
) -> list[DistrictMap]:
    """Returns the map of the enacted plan and, if `plan` is given, those of other plans.

    `plan` is one plan, or a list of them. Raises ValueError if a unit has no shape or no district,
    and MissingExtra without shapely.
    """
    extra("shapely")
    found = graph_of_map(report, graph, columns)
    shapes = shapes_of(geometry, list(found.districts), ids)
    maps = [draw_districts("The enacted plan", found.districts, found.pairs, shapes)]
    others = [] if plan is None else list(plan) if isinstance(plan, (list, tuple)) else [plan]
    for one in others:
        title, other = read_plan(one, list(found.districts))
        maps.append(draw_districts(title, other, found.pairs, shapes))
    return maps


def read_plan(plan: Foreign, units: list[Label]) -> tuple[str, dict[Label, Label]]:
    """Returns the title and the districts of a sample of a trace, or of a mapping by unit."""
    title = "Another plan"
    if hasattr(plan, "assignment"):
        is_sample = hasattr(plan, "step") and hasattr(plan, "id")
        title = f"The plan of walk {plan.id} after {plan.step:,} steps" if is_sample else title
        plan = plan.assignment
    if not hasattr(plan, "items"):
        raise ValueError("a plan is a sample of a trace, or a dict of districts by unit")
    given = dict(plan.items())
    missing = [unit for unit in units if unit not in given]
    if missing:
        raise ValueError(f"the plan has no district for the units {list_ids(missing)}")
    return title, {unit: typing.cast(Label, plain(given[unit])) for unit in units}


# ---- shapes


def shapes_of(geometry: Foreign, units: list[Label], ids: str | None) -> dict[Label, Foreign]:
    """Returns the shape of each unit, from a GeoDataFrame, a GeoSeries or a mapping.

    An id is found as it is, or else as a text. Raises ValueError if a unit has no shape.
    """
    pairs = pairs_of(geometry, units, ids)
    exact = dict(pairs)
    by_text = {str(unit): shape for unit, shape in pairs}
    found = {unit: exact.get(unit, by_text.get(str(unit))) for unit in units}
    missing = [
        unit for unit, shape in found.items() if shape is None or getattr(shape, "is_empty", True)
    ]
    if missing:
        raise ValueError(
            f"{len(missing)} units have no shape in geometry: {list_ids(missing)}; give the shapes"
            " by the units' ids (ids=.. names the column of a GeoDataFrame)"
        )
    return found


def pairs_of(
    geometry: Foreign, units: list[Label], ids: str | None
) -> list[tuple[object, Foreign]]:
    """Returns the pairs of an id and a shape."""
    if hasattr(geometry, "columns") and hasattr(geometry, "geometry"):
        column = ids or column_of_ids(geometry, units)
        if column is not None and column not in geometry.columns:
            raise ValueError(f"ids={column!r} is no column of the geometry")
        keys = geometry.index if column is None else geometry[column]
        named = [plain(key) for key in keys]
        if len({*named}) != len(named):
            raise ValueError(f"the ids in {column or 'the index'!r} of the geometry are not unique")
        return list(zip(named, geometry.geometry))
    if hasattr(geometry, "items"):
        return [(plain(unit), shape) for unit, shape in geometry.items()]
    raise ValueError(
        "geometry is a GeoDataFrame, a GeoSeries, or a dict of shapely geometries by unit, not of"
        f" type {type(geometry).__name__}"
    )


def column_of_ids(geometry: Foreign, units: list[Label]) -> str | None:
    """Returns the column that has all units' ids; None for the index, which comes first.

    Raises ValueError if none has them, or several.
    """
    wanted = {str(unit) for unit in units}
    if wanted <= {str(plain(key)) for key in geometry.index}:
        return None
    found = [
        str(column)
        for column in geometry.columns
        if column != geometry.geometry.name
        and wanted <= {str(plain(value)) for value in geometry[column]}
    ]
    if len(found) != 1:
        what = f"the columns {', '.join(found)} all have" if found else "no column has"
        raise ValueError(f"{what} the ids of all units: say which one it is (ids=..)")
    return found[0]


def draw_districts(
    title: str,
    districts: typing.Mapping[Label, Label],
    pairs: typing.Iterable[tuple[Label, Label]],
    shapes: typing.Mapping[Label, Foreign],
) -> DistrictMap:
    """Returns the map of a plan."""
    from shapely.geometry import Polygon
    from shapely.ops import polylabel, unary_union

    by_label: dict[Label, list[Foreign]] = {}
    for unit, label in districts.items():
        shape = shapes[unit]
        by_label.setdefault(label, []).append(shape if shape.is_valid else shape.buffer(0))
    whole = {label: unary_union(by_label[label]) for label in sort_labels(by_label)}
    bounds = [shape.bounds for shape in whole.values()]
    left, low = min(box[0] for box in bounds), min(box[1] for box in bounds)
    right, high = max(box[2] for box in bounds), max(box[3] for box in bounds)
    size = max(right - left, (high - low) / 2) or 1.0
    shades = shade_districts(districts, pairs, list(whole))

    def place(point: typing.Sequence[float]) -> Point:
        return (point[0] - left) / size, (high - point[1]) / size

    areas = []
    for label, shape in whole.items():
        parts = parts_of(shape.simplify(size / FINENESS)) or parts_of(shape)
        rings = [ring for part in parts for ring in (part.exterior, *part.interiors)]
        greatest, *others = sorted(parts, key=lambda part: -float(part.area))
        inner = greatest.representative_point()
        middles = [(part, polylabel(part, size / FINENESS)) for part in others]
        areas.append(
            Area(
                str(label), [[place(point) for point in ring.coords] for ring in rings],
                place((inner.x, inner.y)), shades[label],
                [
                    (place((one.x, one.y)), float(one.distance(part.exterior)) / size)
                    for part, one in middles
                ],
            )
        )
    holes = (
        abs(Polygon(ring).area)
        for part in parts_of(unary_union(list(whole.values()))) for ring in part.interiors
    )
    # The file lists each edge from both of its units.
    cut = len({frozenset(pair) for pair in pairs if districts[pair[0]] != districts[pair[1]]})
    has_holes = any(hole >= LEAST_HOLE * size**2 for hole in holes)
    return DistrictMap(title, areas, (high - low) / size, cut, has_holes)


def parts_of(shape: Foreign) -> list[Foreign]:
    """Returns the polygons of a shape that are not empty."""
    parts = list(shape.geoms) if hasattr(shape, "geoms") else [shape]
    return [part for part in parts if hasattr(part, "exterior") and not part.is_empty]


def shade_districts(
    districts: typing.Mapping[Label, Label],
    pairs: typing.Iterable[tuple[Label, Label]],
    labels: typing.Sequence[Label],
) -> dict[Label, str]:
    """Returns a fill for each district, another one than those of its neighbors."""
    beside: dict[Label, set[Label]] = {label: set() for label in labels}
    for one, other in pairs:
        here, there = districts[one], districts[other]
        if here != there:
            beside[here].add(there)
            beside[there].add(here)
    found: dict[Label, str] = {}
    for place, label in enumerate(labels):
        taken = {found[other] for other in beside[label] if other in found}
        free = [shade for shade in SHADES if shade not in taken]
        found[label] = free[0] if free else SHADES[place % len(SHADES)]
    return found


# ---- labels


class Placed(typing.NamedTuple):
    """A label of a map: its text, its middle and the size of its font."""

    words: str
    x: float
    y: float
    size: float


def place_labels(
    drawn: DistrictMap,
    wide: float,
    sizes: typing.Sequence[float],
    measure: typing.Callable[[str, float], float],
) -> tuple[list[Placed], list[str]]:
    """Returns the labels that have room on a map of some width, and those that have none.

    No two labels meet, and each is inside of the map. A label that has no room becomes smaller. A
    further part of a district has the label, too, if it has room for it.
    """
    found: list[Placed] = []
    boxes: list[tuple[float, float, float, float]] = []
    left_out = []
    high = drawn.height * wide
    parts = [(area.label, area.at, math.inf, True) for area in drawn.areas]
    parts += [(area.label, at, room, False) for area in drawn.areas for at, room in area.more]
    for label, at, room, is_first in parts:
        for size in sizes:
            half, tall = measure(label, size) / 2 + 1, size * 0.62
            if 2 * half > wide or 2 * tall > high or math.hypot(half, tall) > room * wide:
                continue
            x = min(max(at[0] * wide, half), wide - half)
            y = min(max(at[1] * wide, tall), high - tall)
            box = (x - half, x + half, y - tall, y + tall)
            if all(
                box[1] <= other[0] or other[1] <= box[0] or box[3] <= other[2] or other[3] <= box[2]
                for other in boxes
            ):
                boxes.append(box)
                found.append(Placed(label, x, y, size))
                break
        else:
            left_out += [label] * is_first
    return found, left_out
