"""Compactness of districts from the units' shapes, by shapely.

Lengths and areas are floats in the units of the geometry's own coordinates: use a projected one, as
a state plane, and not degrees. Sums are correctly rounded whatever their order (`math.fsum`), so a
score is a function of the plan alone, as the outlier test asks for.
"""
from __future__ import annotations

import math
import typing

from .errors import extra
from .geography import measure_shared, warnings_of
from .graphs import Foreign, as_json
from .warnings import MapWarning, emit

if typing.TYPE_CHECKING:
    from .trace_plan import Plan, UnitTable
    from .traces import Sample

Point = tuple[float, float]
Circle = tuple[float, float, float]


class Geometries(typing.Protocol):
    """A mapping from the graph's node ids to polygons, or a column of a GeoDataFrame."""

    def items(self) -> typing.Iterable[tuple[Foreign, Foreign]]:
        """Returns the pairs of id and polygon."""


class Shapes:
    """The units' polygons, with what compactness needs of them."""

    def __init__(self, geometries: Geometries) -> None:
        """Takes a mapping from the graph's node ids to shapely polygons, as the column `geometry`
        of a GeoDataFrame whose index are the ids. Raises MissingExtra if shapely is not
        installed."""
        extra("shapely")
        self.by_unit: dict[object, Foreign] = dict(geometries.items())
        self.measures: Measures | None = None
        self.system = getattr(geometries, "crs", None)
        self.warnings: list[MapWarning] = []
        """Reasons for which lengths and areas are wrong, once they were measured."""

    def find_warnings(self, table: UnitTable) -> list[MapWarning]:
        """Returns the warnings of the polygons of a trace's units."""
        shapes = {place: self.by_unit[unit] for place, unit in enumerate(table.ids)}
        pairs = [(one, other) for one, others in enumerate(table.neighbors) for other in others
                 if one < other]
        return warnings_of(shapes, measure_shared(shapes, pairs), self.system)

    def measure(self, plan: Plan) -> Measures:
        """Returns what was measured of a plan's units. Raises ValueError if a unit has no shape."""
        if self.measures is None or self.measures.table is not plan.table:
            self.measures = Measures(plan.table, self.by_unit)
            self.warnings = self.find_warnings(plan.table)
            emit(self.warnings, 2)
        return self.measures


class Measures:
    """Areas, perimeters, shared boundaries and hulls of the units of a trace."""

    def __init__(self, table: UnitTable, by_unit: typing.Mapping[object, Foreign]) -> None:
        self.table = table
        missing = [unit for unit in self.table.ids if unit not in by_unit]
        if missing:
            raise ValueError(f"unit {as_json(missing[0])} has no shape")
        shapes = [by_unit[unit] for unit in self.table.ids]
        self.areas = [float(shape.area) for shape in shapes]
        self.perimeters = [float(shape.length) for shape in shapes]
        self.hulls: list[list[Point]] = [hull_points(shape) for shape in shapes]
        # For each unit its neighbors by number, and the length of the boundary with each.
        self.shared: list[list[tuple[int, float]]] = [[] for _ in shapes]
        for unit, others in enumerate(self.table.neighbors):
            for other in others:
                if unit < other:
                    both = shapes[unit].boundary.intersection(shapes[other].boundary)
                    length = float(both.length)
                    self.shared[unit].append((other, length))
                    self.shared[other].append((unit, length))


class Members:
    """The units of each district, and the numbers of districts that are still those computed."""

    def __init__(self, plan: list[int], districts: int) -> None:
        self.units: list[set[int]] = [set() for _ in range(districts)]
        for unit, district in enumerate(plan):
            self.units[district].add(unit)
        self.known: dict[tuple[str, int], float] = {}

    def move(self, unit: int, old: int, new: int) -> None:
        """Moves a unit, and forgets what was computed of both districts."""
        self.units[old].discard(unit)
        self.units[new].add(unit)
        self.known = {key: value for key, value in self.known.items() if key[1] not in (old, new)}


def hull_points(shape: Foreign) -> list[Point]:
    """Returns the corners of a shape's convex hull."""
    hull = shape.convex_hull
    line = hull.exterior if hull.geom_type == "Polygon" else hull
    return [(float(point[0]), float(point[1])) for point in line.coords]


def by_district(sample: Sample, shapes: Shapes, name: str,
                compute: typing.Callable[[Measures, set[int]], float]) -> dict[Foreign, float]:
    """Returns a number of each district by its label, computed anew where a district changed."""
    plan = sample.plan
    measures = shapes.measure(plan)
    members = plan.tally(("members", id(shapes)),
                         lambda: Members(plan.districts, plan.district_count))
    for district, units in enumerate(members.units):
        if (name, district) not in members.known:
            members.known[name, district] = compute(measures, units)
    return {label: members.known[name, district]
            for district, label in enumerate(plan.table.labels)}


def polsby_popper(sample: Sample, shapes: Shapes) -> dict[Foreign, float]:
    """Returns the Polsby-Popper score of each district, by its label: 4 pi A/P^2.

    A is the district's area and P its perimeter, 1 for a circle and less for all else. P is the
    units' perimeters less twice the boundaries between neighbors of one district, so it holds where
    the units cover the district without gaps or overlaps, and where units that share a boundary are
    neighbors in the graph. D. D. Polsby, R. D. Popper, "The third criterion", Yale Law and Policy
    Review 9 (1991).
    """
    return by_district(sample, shapes, "polsby_popper", polsby_popper_of)


def polsby_popper_of(measures: Measures, units: set[int]) -> float:
    """Returns the score of one district."""
    inner = [-length for unit in units for other, length in measures.shared[unit] if other in units]
    # Each inner boundary stands there from both sides, so twice in all.
    perimeter = math.fsum([*(measures.perimeters[unit] for unit in units), *inner])
    area = math.fsum(measures.areas[unit] for unit in units)
    return 4 * math.pi * area / perimeter ** 2


def reock(sample: Sample, shapes: Shapes) -> dict[Foreign, float]:
    """Returns the Reock score of each district, by its label: its area over that of the least
    circle around it.

    1 for a circle. E. C. Reock, "A note: Measuring compactness as a requirement of legislative
    apportionment", Midwest Journal of Political Science 5 (1961).
    """
    return by_district(sample, shapes, "reock", reock_of)


def reock_of(measures: Measures, units: set[int]) -> float:
    """Returns the score of one district."""
    from shapely.geometry import MultiPoint
    # In order of the units, so that the same district gives the same number.
    points = [point for unit in sorted(units) for point in measures.hulls[unit]]
    radius = least_circle(hull_points(MultiPoint(points)))[2]
    area = math.fsum(measures.areas[unit] for unit in units)
    return area / (math.pi * radius ** 2)


# ---- the least circle around some points

def least_circle(points: typing.Sequence[Point]) -> Circle:
    """Returns center and radius of the least circle around some points, by Welzl's method.

    E. Welzl, "Smallest enclosing disks (balls and ellipsoids)", 1991, with the points taken in a
    fixed order, so that the same points give the same circle.
    """
    ordered = sorted(set(points))
    # A fixed order that is not that of the hull, in which the method would be slow.
    ordered = ordered[::2] + ordered[1::2][::-1]
    circle: Circle = (*ordered[0], 0.0)
    for place, point in enumerate(ordered):
        if not is_inside(circle, point):
            circle = circle_with(ordered[:place], point)
    return circle


def circle_with(points: typing.Sequence[Point], edge: Point) -> Circle:
    """Returns the least circle around some points that has a further point on its edge."""
    circle: Circle = (*edge, 0.0)
    for place, point in enumerate(points):
        if not is_inside(circle, point):
            circle = circle_of_two(edge, point)
            for third in points[:place]:
                if not is_inside(circle, third):
                    circle = circle_of_three(edge, point, third)
    return circle


def is_inside(circle: Circle, point: Point) -> bool:
    """Returns whether a point is in a circle, or so near that floats cannot tell."""
    return math.hypot(point[0] - circle[0], point[1] - circle[1]) <= circle[2] * (1 + 1e-12)


def circle_of_two(one: Point, other: Point) -> Circle:
    """Returns the circle that has two points at the ends of a diameter."""
    x, y = (one[0] + other[0]) / 2, (one[1] + other[1]) / 2
    return x, y, max(math.hypot(one[0] - x, one[1] - y), math.hypot(other[0] - x, other[1] - y))


def circle_of_three(one: Point, other: Point, third: Point) -> Circle:
    """Returns the circle through three points; that of the two farthest if they lie on a line."""
    bx, by = other[0] - one[0], other[1] - one[1]
    cx, cy = third[0] - one[0], third[1] - one[1]
    twice = 2 * (bx * cy - by * cx)
    if twice == 0:
        pairs = ((one, other), (one, third), (other, third))
        return max((circle_of_two(*pair) for pair in pairs), key=lambda circle: circle[2])
    squares = bx * bx + by * by, cx * cx + cy * cy
    x = (cy * squares[0] - by * squares[1]) / twice
    y = (bx * squares[1] - cx * squares[0]) / twice
    return one[0] + x, one[1] + y, math.hypot(x, y)
