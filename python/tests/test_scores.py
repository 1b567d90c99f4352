"""Scores on numbers that were worked by hand, and compactness against other ways to measure it."""
import itertools
import math
import random
import typing
import unittest
from fractions import Fraction

import common
from common import anything
import district_audit
import trace_model
from district_audit import compactness, scores

LABELS = ("one", "two", "three", "four")
# Two rows of four units, each column a district, with the votes of both parties, a group of those
# of
# voting age, and counties: Ash in three districts, Birch in two, Cedar in one.
ROWS = (
    (
        (30, 20, 21, 50, "Ash"), (20, 30, 20, 40, "Ash"), (28, 22, 30, 40, "Ash"),
        (10, 40, 20, 25, "Cedar"),
    ),
    (
        (40, 10, 30, 50, "Ash"), (25, 25, 30, 60, "Birch"), (20, 30, 10, 40, "Birch"),
        (30, 20, 10, 25, "Cedar"),
    ),
)


# The two votes, the group, its whole, and the county of each place, by rows.
Rows = typing.Sequence[typing.Sequence[tuple[int, int, int, int, str]]]


def graph_of(rows: Rows) -> common.Root:
    """Returns the rows as a graph in networkx's adjacency layout."""
    places = [(row, column) for row in range(len(rows)) for column in range(len(rows[0]))]
    nodes = [
        dict(
            zip(("a", "b", "bvap", "vap", "county"), rows[row][column]), id=f"{row}{column}", pop=1,
            d=LABELS[column],
        )
        for row, column in places
    ]
    around = [
        [
            (row + up, column + right)
            for up, right in ((0, 1), (1, 0), (0, -1), (-1, 0))
            if (row + up, column + right) in places
        ]
        for row, column in places
    ]
    return {
        "directed": False,
        "multigraph": False,
        "graph": [],
        "nodes": nodes,
        "adjacency": [[{"id": f"{row}{column}"} for row, column in those] for those in around],
    }


class ScoreCase(common.FolderCase):
    """Tests on samples of hand-made graphs."""

    def trace(
        self,
        root: common.Root,
        lines: str = "0 0 6",
        steps: int = 1,
        start: int = 6,
        **more: common.Value,
    ) -> district_audit.Trace:
        """Returns a trace of a graph, whose lines of plans are given."""
        nodes, labels = root["nodes"], {node["d"] for node in root["nodes"]}
        edges = {
            frozenset((node["id"], other["id"]))
            for node, others in zip(nodes, root["adjacency"])
            for other in others
        }
        text = "\n".join(
            [
                "district-trace 1",
                "key " + common.KEY,
                f"units {len(nodes)} edges {len(edges)} districts {len(labels)}",
                f"population {len(nodes)} slack 10000 low 0 high {2 * len(nodes) // len(labels)}",
                f"walks 1 steps {steps} ends 0 hub-steps 1",
                f"ask cut-edges low start {start}/1",
                f"trace id 0 steps {steps} thin 1",
                lines,
                "end",
                "",
            ]
        )
        path = self.folder / "trace"
        path.write_text(text, encoding="ascii")
        return district_audit.read_trace(
            path, trace_model.encode(root), **trace_model.COLUMNS, **more
        )

    def sample(self, rows: Rows = ROWS, **more: common.Value) -> district_audit.Sample:
        """Returns the sample of the enacted plan."""
        return next(self.trace(graph_of(rows), "0 0 6\n1 0 6", **more))


class ByHand(ScoreCase):
    """Votes by district are 70 to 30, 45 to 55, 48 to 52 and 40 to 60, so the shares .70, .45, .48,
    .40.

    The auditor's order of districts is that of their labels: four, one, three, two.
    """

    def test_shares(self) -> None:
        sample = self.sample()
        self.assertEqual(sample.totals("a"), {"one": 70, "two": 45, "three": 48, "four": 40})
        self.assertEqual(list(sample.totals("a")), ["four", "one", "three", "two"])
        self.assertEqual(
            scores.vote_shares(sample),
            {
                "one": Fraction(7, 10),
                "two": Fraction(9, 20),
                "three": Fraction(12, 25),
                "four": Fraction(2, 5),
            },
        )
        self.assertEqual(
            scores.ordered_shares(sample),
            [Fraction(2, 5), Fraction(9, 20), Fraction(12, 25), Fraction(7, 10)],
        )
        self.assertEqual(
            [scores.highest_share(sample, k) for k in (1, 2, 3, 4)],
            [Fraction(7, 10), Fraction(12, 25), Fraction(9, 20), Fraction(2, 5)],
        )
        self.assertEqual(scores.highest_share(sample, 1, ("b", "a")), Fraction(3, 5))
        for k in (0, 5, -1):
            with self.assertRaises(IndexError):
                scores.highest_share(sample, k)

    def test_seats_and_gap(self) -> None:
        """Wasted by the first: 20 + 45 + 48 + 40 = 153; by the second: 30 + 5 + 2 + 10 = 47; of
        400."""
        self.assertEqual(
            (scores.seats(self.sample()), scores.seats(self.sample(), ("b", "a"))), (1, 3)
        )
        self.assertEqual(scores.efficiency_gap(self.sample()), Fraction(47 - 153, 400))

    def test_a_tie_is_the_seconds(self) -> None:
        """50 to 50 in one district: the first wastes 50, the second none; elsewhere 20 and 30."""
        rows = (
            ((25, 25, 0, 1, "A"), (30, 20, 0, 1, "A")),
            ((25, 25, 0, 1, "A"), (40, 10, 0, 1, "A")),
        )
        root = graph_of(rows)
        sample = next(self.trace(root, "0 0 2\n1 0 2", start=2))
        self.assertEqual((scores.seats(sample), scores.seats(sample, ("b", "a"))), (1, 0))
        self.assertEqual(scores.efficiency_gap(sample), Fraction(0 + 30 - 50 - 20, 200))

    def test_mean_median(self) -> None:
        """The mean share is 2.03/4 = .5075, and the median (.45 + .48)/2 = .465."""
        self.assertEqual(
            scores.mean_median(self.sample()), Fraction(465, 1000) - Fraction(5075, 10000)
        )

    def test_mean_median_rounds_shares_down(self) -> None:
        """Shares 1/3, 1/2, 2/3: rounded down at nine places the mean is 1.499999999/3."""
        rows = (((1, 2, 0, 1, "A"), (1, 1, 0, 1, "A"), (2, 1, 0, 1, "A")),)
        sample = next(self.trace(graph_of(rows), "0 0 2\n1 0 2", start=2))
        self.assertEqual(
            scores.mean_median(sample),
            Fraction(1, 2) - Fraction(333333333 + 500000000 + 666666666, 3 * 10**9),
        )

    def test_partisan_bias(self) -> None:
        """Above the mean share .5075 is one of four: 1/4 - 1/2. In the other party's view three:
        1/4."""
        self.assertEqual(
            (scores.partisan_bias(self.sample()), scores.partisan_bias(self.sample(), ("b", "a"))),
            (Fraction(-1, 4), Fraction(1, 4)),
        )

    def test_declination(self) -> None:
        """Lost are .40, .45, .48, with the mean 133/300, and won is .70: the slopes are
        (1 - 266/300) 4/3 = 34/225 and (1.4 - 1) 4 = 8/5, the tangent (8/5 - 34/225)/(1 + 272/1125).
        """
        sample = self.sample()
        self.assertEqual(scores.declination_tangent(sample), Fraction(1630, 1397))
        self.assertAlmostEqual(
            anything(scores.declination(sample)),
            2 / math.pi * (math.atan(1.6) - math.atan(34 / 225)), 12,
        )
        self.assertEqual(scores.declination_tangent(sample, ("b", "a")), Fraction(-1630, 1397))
        rows = tuple(tuple((cell[0] + 90, *cell[1:]) for cell in row) for row in ROWS)
        self.assertIsNone(scores.declination_tangent(self.sample(rows)))
        self.assertIsNone(scores.declination(self.sample(rows)))

    def test_the_tangent_orders_as_the_declination(self) -> None:
        dice, found = random.Random(3), []
        for _ in range(60):
            rows = tuple(
                tuple((dice.randint(1, 99), dice.randint(1, 99), 0, 1, "A") for _ in range(4))
                for _ in range(2)
            )
            sample = self.sample(rows)
            shares = scores.ordered_shares(sample)
            lost, won = [float(s) for s in shares if s <= 0.5], [
                float(s) for s in shares if s > 0.5
            ]
            if lost and won:
                angles = math.atan((1 - 2 * sum(lost) / len(lost)) * 4 / len(lost)), math.atan(
                    (2 * sum(won) / len(won) - 1) * 4 / len(won)
                )
                found.append(
                    (scores.declination_tangent(sample), 2 / math.pi * (angles[1] - angles[0]))
                )
        self.assertGreater(len(found), 30)
        found.sort()
        for (_, low), (_, high) in zip(found, found[1:]):
            self.assertLessEqual(low, high + 1e-9)

    def test_competitive(self) -> None:
        """The margins are .40, .10, .04 and .20 of the votes; a margin that is met exactly
        counts."""
        sample = self.sample()
        for margin, count in (
            (0, 0), (0.04, 1), ("0.0399", 0), (0.1, 2), (Fraction(99, 1000), 1),
            (Fraction(1, 5), 3), (1, 4),
        ):
            self.assertEqual(scores.competitive(sample, anything(margin)), count, margin)
        for margin in (-0.1, 5, "x"):
            with self.assertRaises(ValueError):
                scores.competitive(sample, anything(margin))

    def test_majorities(self) -> None:
        """The group is 51 of 100, 50 of 100, 40 of 80 and 30 of 50 in districts one to four."""
        sample = self.sample()
        self.assertEqual(
            scores.group_shares(sample, "bvap", "vap"),
            {
                "one": Fraction(51, 100),
                "two": Fraction(1, 2),
                "three": Fraction(1, 2),
                "four": Fraction(3, 5),
            },
        )
        self.assertEqual(scores.majorities(sample, "bvap", "vap"), 2)
        for part, count in ((0.6, 0), (0.59, 1), (0.51, 1), ("0.5099", 2), (Fraction(2, 5), 4)):
            self.assertEqual(scores.majorities(sample, "bvap", "vap", anything(part)), count, part)

    def test_counties(self) -> None:
        """Ash lies in three districts and Birch in two: split 2 + 1 times."""
        self.assertEqual(
            (scores.splits(self.sample(), "county"), scores.split_regions(self.sample(), "county")),
            (3, 2),
        )

    def test_cut_edges(self) -> None:
        """Three edges between columns in each of two rows."""
        self.assertEqual(scores.cut_edges(self.sample()), 6)

    def test_after_moves(self) -> None:
        """The first unit of the second row goes to district two, and then the second to three.

        Three edges are cut in the first row. In the second row two are cut each time: those to the
        right of the second and the third unit, and then of the first and the third.
        Between the rows one is cut after the first move, and two after the second. Ash stays in
        three districts; Birch lies in two, and then in three alone.

        Units by rising number are 00, 01, 02, 03, 10, 11, 12, 13; district 2 is three and 3 is two.
        """
        trace = self.trace(graph_of(ROWS), "0 0 6\n1 1 6 4:3\n2 2 7 5:2", steps=2)
        found = [
            (
                scores.cut_edges(sample), sample.totals("a"), scores.splits(sample, "county"),
                scores.split_regions(sample, "county"),
            )
            for sample in trace
        ]
        self.assertEqual(
            found,
            [
                (6, {"one": 70, "two": 45, "three": 48, "four": 40}, 3, 2),
                (6, {"one": 30, "two": 85, "three": 48, "four": 40}, 3, 2),
                (7, {"one": 30, "two": 60, "three": 73, "four": 40}, 2, 1),
            ],
        )

    def test_no_votes(self) -> None:
        """Without votes a share is one half, and there is no gap."""
        rows = tuple(tuple((0, 0, 0, 0, "A") for _ in row) for row in ROWS)
        sample = self.sample(rows)
        self.assertEqual(
            (scores.ordered_shares(sample), scores.seats(sample), scores.mean_median(sample)),
            ([Fraction(1, 2)] * 4, 0, 0),
        )
        self.assertEqual(scores.group_shares(sample, "bvap", "vap"), dict.fromkeys(LABELS))
        with self.assertRaises(ValueError):
            scores.efficiency_gap(sample)

    def test_elections(self) -> None:
        root = graph_of(ROWS)
        sample = next(self.trace(root, "0 0 6\n1 0 6", elections={"turned": ("b", "a")}))
        self.assertEqual(
            (
                scores.seats(sample), scores.seats(sample, "turned"),
                scores.seats(sample, ("b", "a")),
            ),
            (1, 3, 3),
        )
        with self.assertRaisesRegex(KeyError, "the elections are turned"):
            scores.seats(sample, "other")
        trace = self.trace(
            root, "0 0 6\n1 0 6", elections={"turned": ("b", "a"), "same": ("a", "b")}
        )
        rows = list(trace.rows(["seats", "cut_edges"]))
        self.assertEqual(
            rows[0],
            {"id": 0, "step": 0, "moves": 0, "seats turned": 3, "seats same": 1, "cut_edges": 6},
        )
        trace = self.trace(root, "0 0 6\n1 0 6")
        rows = list(
            trace.rows(
                {
                    "shares": scores.vote_shares,
                    "gap": scores.efficiency_gap,
                    "list": scores.ordered_shares,
                },
                exact=False,
            )
        )
        self.assertEqual(
            rows[1],
            {
                "id": 0,
                "step": 1,
                "moves": 0,
                "shares four": 0.4,
                "shares one": 0.7,
                "shares three": 0.48,
                "shares two": 0.45,
                "gap": -0.265,
                "list 1": 0.4,
                "list 2": 0.45,
                "list 3": 0.48,
                "list 4": 0.7,
            },
        )
        with self.assertRaisesRegex(ValueError, "there is no score seatz"):
            list(self.trace(root, "0 0 6\n1 0 6").rows(["seatz"]))


class Compactness(ScoreCase):
    """Areas, boundaries and circles, where shapely is installed."""

    def setUp(self) -> None:
        super().setUp()
        common.needs("shapely")

    def squares(self) -> dict[str, common.Value]:
        from shapely.geometry import box

        return {
            f"{row}{column}": box(column, row, column + 1, row + 1)
            for row in range(2)
            for column in range(4)
        }

    def test_rectangles(self) -> None:
        """A district of one by two: 4 pi 2/6^2, and 2 over the circle with the radius sqrt(5)/2."""
        sample, shapes = self.sample(), compactness.Shapes(self.squares())
        for label, score in compactness.polsby_popper(sample, shapes).items():
            self.assertAlmostEqual(score, 8 * math.pi / 36, 12, label)
        for label, score in compactness.reock(sample, shapes).items():
            self.assertAlmostEqual(score, 2 / (math.pi * 5 / 4), 12, label)

    def test_shapes_of_a_frame(self) -> None:
        """The column of a frame whose index are the ids has items(), as a dict."""
        pandas = common.needs("pandas")
        shapes = compactness.Shapes(pandas.Series(self.squares(), dtype=object))
        wanted = compactness.polsby_popper(self.sample(), compactness.Shapes(self.squares()))
        self.assertEqual(compactness.polsby_popper(self.sample(), shapes), wanted)

    def test_a_corner(self) -> None:
        """Unit 10 goes to district two, three squares in an L: perimeter 8; and one square is
        left."""
        trace = self.trace(graph_of(ROWS), "0 0 6\n1 1 6 4:3")
        shapes = compactness.Shapes(self.squares())
        found = [
            (compactness.polsby_popper(sample, shapes), compactness.reock(sample, shapes))
            for sample in trace
        ]
        self.assertAlmostEqual(found[1][0]["two"], 4 * math.pi * 3 / 64, 12)
        self.assertAlmostEqual(found[1][0]["one"], math.pi / 4, 12)
        self.assertAlmostEqual(found[1][1]["one"], 2 / math.pi, 12)
        self.assertAlmostEqual(found[1][1]["two"], 3 / (math.pi * 2), 12)
        self.assertEqual(found[0][0]["four"], found[1][0]["four"])

    def test_walks_against_unions(self) -> None:
        """Along a walk over rough quadrilaterals the scores are those of each district's union,
        with the
        circle found among all pairs and triples of corners; and a plan has one score, however it
        came.
        """
        from shapely.geometry import Polygon
        from shapely.ops import unary_union

        dice = random.Random(8)
        corner = {
            (x, y): (x + dice.uniform(-0.3, 0.3), y + dice.uniform(-0.3, 0.3))
            for x in range(6)
            for y in range(5)
        }
        ids = [10 * y + x for y in range(4) for x in range(5)]
        shape = {
            10 * y
            + x: Polygon([corner[x, y], corner[x + 1, y], corner[x + 1, y + 1], corner[x, y + 1]])
            for y in range(4)
            for x in range(5)
        }
        root = {
            "nodes": [{"id": unit, "pop": 1, "a": 1, "b": 1, "d": unit // 20} for unit in ids],
            "adjacency": [
                [
                    {"id": other}
                    for other in ids
                    if other in (unit - 1, unit + 1, unit - 10, unit + 10)
                ]
                for unit in ids
            ],
        }
        plan, lines = [unit // 20 for unit in ids], ["0 0 5"]
        for step in range(1, 13):
            place = dice.randrange(len(ids))
            plan[place] = 1 - plan[place]
            lines.append(f"{step} {step} 5 {place}:{plan[place]}")
        trace = self.trace(root, "\n".join(lines), steps=12, start=5)
        shapes = compactness.Shapes(shape)
        for sample in trace:
            assignment = dict(sample.assignment)
            ours = compactness.polsby_popper(sample, shapes), compactness.reock(sample, shapes)
            for label in (0, 1):
                union = unary_union([shape[unit] for unit in ids if assignment[unit] == label])
                self.assertAlmostEqual(
                    ours[0][label], 4 * math.pi * union.area / union.length**2, 9
                )
                points = compactness.hull_points(union)
                self.assertAlmostEqual(
                    ours[1][label], union.area / (math.pi * slow_radius(points) ** 2), 9
                )
            fresh = compactness.Shapes(shape)
            self.assertEqual(
                (
                    compactness.polsby_popper(sample.frozen(), fresh),
                    compactness.reock(sample.frozen(), fresh),
                ),
                ours,
            )

    def test_circles(self) -> None:
        dice = random.Random(4)
        for count in (1, 2, 3, 4, 5, 8, 12):
            for _ in range(30):
                points = [
                    (
                        (dice.randint(0, 6), dice.randint(0, 6))
                        if count < 6
                        else (dice.random(), dice.random())
                    )
                    for _ in range(count)
                ]
                x, y, radius = compactness.least_circle(points)
                self.assertAlmostEqual(radius, slow_radius(points), 9, points)
                self.assertTrue(
                    all(
                        math.hypot(px - x, py - y) <= radius * (1 + 1e-9) + 1e-12
                        for px, py in points
                    ),
                    points,
                )

    def test_a_unit_without_a_shape(self) -> None:
        squares = self.squares()
        del squares["12"]
        with self.assertRaisesRegex(ValueError, 'unit "12" has no shape'):
            compactness.reock(self.sample(), compactness.Shapes(squares))


def slow_radius(points: typing.Iterable[compactness.Point]) -> float:
    """Returns the radius of the least circle around some points, among all circles through two or
    three.
    """
    corners = list(dict.fromkeys(points))
    found = [(corners[0], 0.0)]
    for (ax, ay), (bx, by) in itertools.combinations(corners, 2):
        found.append((((ax + bx) / 2, (ay + by) / 2), math.hypot(ax - bx, ay - by) / 2))
    for (ax, ay), (bx, by), (cx, cy) in itertools.combinations(corners, 3):
        twice = 2 * (ax * (by - cy) + bx * (cy - ay) + cx * (ay - by))
        if abs(twice) > 1e-12:
            squares = ax * ax + ay * ay, bx * bx + by * by, cx * cx + cy * cy
            x = (squares[0] * (by - cy) + squares[1] * (cy - ay) + squares[2] * (ay - by)) / twice
            y = (squares[0] * (cx - bx) + squares[1] * (ax - cx) + squares[2] * (bx - ax)) / twice
            found.append(((x, y), math.hypot(x - ax, y - ay)))
    return min(
        radius
        for (x, y), radius in found
        if all(math.hypot(px - x, py - y) <= radius + 1e-9 for px, py in points)
    )


if __name__ == "__main__":
    unittest.main()
