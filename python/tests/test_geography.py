"""Dual graphs of maps: compared with an independent computation by shapely's predicates."""
import contextlib
import gzip
import io
import json
import os
import pathlib
import random
import typing
import unittest
import warnings
import zipfile

import common
from common import anything
import district_audit
from district_audit import MapGraph, PrepareRefused, geography, graph_from
from district_audit.warnings import BordersNotShared, CoordinatesInDegrees

METERS = "EPSG:32618"


def box(x: float, y: float, width: float = 1, height: float = 1) -> common.Value:
    """Returns a rectangle."""
    return common.needs("shapely.geometry").box(x, y, x + width, y + height)


def frame_of(shapes: typing.Mapping[str, common.Value], system: typing.Optional[str] = METERS
             ) -> common.Value:
    """Returns a GeoDataFrame of shapes by their ids, with people, votes and districts."""
    geopandas = common.needs("geopandas")
    ids = list(shapes)
    return geopandas.GeoDataFrame(
        {
            "GEOID": ids, "pop": [100] * len(ids), "b": [25] * len(ids),
            "a": [20 + place % 7 for place in range(len(ids))],
            "d": [str(1 + (2 * place) // len(ids)) for place in range(len(ids))],
        },
        geometry=list(shapes.values()), crs=system,
    )


def grid(columns: int = 4, rows: int = 3, size: float = 1000) -> common.Value:
    """Returns a grid of squares, column by column, whose coordinates are in meters."""
    return frame_of({
        f"{x}.{y}": box(x * size + 500_000, y * size + 4_000_000, size, size)
        for x in range(columns) for y in range(rows)
    })


def drawn_map(seed: int) -> common.Value:
    """Returns polygons with crooked borders that cover a square: the faces of a drawn grid."""
    lines = common.needs("shapely.geometry")
    rng, side = random.Random(seed), 6
    corner = {(x, y): (x * 100 + rng.uniform(-30, 30), y * 100 + rng.uniform(-30, 30))
              for x in range(side + 1) for y in range(side + 1)}
    middle = {}
    for x, y in corner:
        for i, j in ((1, 0), (0, 1)):
            if (x + i, y + j) in corner:
                one, other = corner[x, y], corner[x + i, y + j]
                middle[frozenset(((x, y), (x + i, y + j)))] = tuple(
                    (p + q) / 2 + rng.uniform(-9, 9) for p, q in zip(one, other))
    shapes = {}
    for x in range(side):
        for y in range(side):
            ring = [(x, y), (x + 1, y), (x + 1, y + 1), (x, y + 1)]
            points = []
            for one, other in zip(ring, ring[1:] + ring[:1]):
                points += [corner[one], middle[frozenset((one, other))]]
            shapes[f"{x}.{y}"] = lines.Polygon(points)
    return frame_of(shapes)


def edges_of(graph: MapGraph) -> dict[tuple[str, str], float]:
    return {(str(one), str(other)): entry["shared_perim"] for one, others in graph.adjacency()
            for other, entry in others.items()}


class Neighbors(unittest.TestCase):
    """Neighbors and lengths, by brute force over all pairs and by hand."""

    def brute(self, frame: common.Value, queen: bool) -> set[tuple[str, str]]:
        """Returns all pairs by the matrix of nine intersections: the boundaries have a line, or the
        polygons a point, in common.
        """
        found = set()
        for one, shape in zip(frame["GEOID"], frame.geometry):
            for other, by in zip(frame["GEOID"], frame.geometry):
                matrix = shape.relate(by)
                if one != other and (matrix[4] == "1" or queen and shape.intersects(by)):
                    found.add((one, other))
        return found

    def test_they_are_those_of_all_pairs(self) -> None:
        for frame in (grid(), grid(1, 5), drawn_map(1), drawn_map(2)):
            for queen in (False, True):
                graph = graph_from(frame, "GEOID", queen=queen)
                self.assertEqual(set(edges_of(graph)), self.brute(frame, queen))

    def test_holes_and_units_of_several_polygons(self) -> None:
        shapes = common.needs("shapely.geometry")
        ring = shapes.Polygon([(0, 0), (9, 0), (9, 9), (0, 9)],
                              [[(3, 3), (6, 3), (6, 6), (3, 6)]])
        frame = frame_of({
            "ring": ring, "inner": box(3, 3, 3, 3), "east": box(9, 0, 2, 4),
            "two": shapes.MultiPolygon([box(9, 4, 2, 2), box(20, 20, 1, 1)]),
            "far": box(40, 40, 1, 1),
        })
        graph = graph_from(frame, "GEOID")
        self.assertEqual(set(edges_of(graph)), self.brute(frame, False))
        self.assertEqual(edges_of(graph)["ring", "inner"], 12)
        self.assertEqual((graph.report.islands, graph.report.pieces), (["far"], ["two"]))
        self.assertEqual(graph.report.nearest, {"far": "two"})
        self.assertIn('without a neighbor: 1: "far (nearest two)"', str(graph.report))
        self.assertEqual(graph.rows["ring"]["boundary_perim"], 36 + 12 - 12 - 4 - 2)
        self.assertEqual(graph.report.parts, [])
        self.assertIn("parts of several units that no border joins: none", str(graph.report))

    def test_parts_beyond_a_river(self) -> None:
        """Only single units without a neighbor were told, with what to join them to."""
        frame = frame_of({
            "a": box(0, 0, 2, 2), "b": box(2, 0, 2, 2), "c": box(0, 2, 2, 2), "d": box(9, 9, 1, 1),
            "e": box(4.5, 1.5, 2, 2), "f": box(6.5, 1.5, 2, 2),
        })
        report = graph_from(frame, "GEOID").report
        self.assertEqual(report.parts, [(["e", "f"], ("e", "b"))])
        self.assertEqual(report.nearest, {"d": "f"})
        self.assertIn('no border joins: 1: "2 units (nearest e - b)"', str(report))

    def test_lengths_of_a_grid(self) -> None:
        graph = graph_from(grid(), "GEOID")
        self.assertEqual(set(edges_of(graph).values()), {1000.0})
        self.assertEqual(len(edges_of(graph)) // 2, 3 * 3 + 4 * 2)
        self.assertEqual({row["area"] for row in graph.rows.values()}, {1e6})
        self.assertEqual(graph.rows["0.0"]["boundary_perim"], 2000)
        self.assertEqual(graph.rows["1.1"]["boundary_perim"], 0)
        self.assertEqual(graph_from(grid(), "GEOID", queen=True).borders["0.0"]["1.1"], 0)

    def test_lengths_add_up_to_the_perimeters(self) -> None:
        frame = drawn_map(7)
        graph = graph_from(frame, "GEOID")
        edges = edges_of(graph)
        outline = common.needs("shapely.ops").unary_union(list(frame.geometry)).length
        self.assertAlmostEqual(
            sum(anything(row["boundary_perim"]) for row in graph.rows.values()), outline, places=6)
        for unit, shape in zip(frame["GEOID"], frame.geometry):
            own = sum(length for (one, _), length in edges.items() if one == unit)
            self.assertAlmostEqual(
                own + anything(graph.rows[unit]["boundary_perim"]), shape.length, places=6)

    def test_a_tolerance_bridges_what_is_drawn_apart(self) -> None:
        apart = frame_of({f"{x}.{y}": box(x * 1000, y * 1000, 998, 998)
                          for x in range(4) for y in range(3)})
        self.assertEqual(edges_of(graph_from(apart, "GEOID")), {})
        graph = graph_from(apart, "GEOID", tolerance=3)
        self.assertEqual(set(edges_of(graph)), set(edges_of(graph_from(grid(), "GEOID"))))
        for length in edges_of(graph).values():
            self.assertAlmostEqual(length, 998, delta=8)
        self.assertEqual(set(edges_of(graph_from(apart, "GEOID", tolerance=3, queen=True))),
                         set(edges_of(graph_from(grid(), "GEOID", queen=True))))
        with self.assertRaises(PrepareRefused):
            graph_from(apart, "GEOID", tolerance=-1)


class Reports(unittest.TestCase):
    """Faults of a map, in its report and its warnings."""

    def test_a_sound_map(self) -> None:
        for frame in (grid(), drawn_map(3)):
            graph = graph_from(frame, "GEOID")
            report = graph.report
            self.assertEqual(
                (report.islands, report.pieces, report.slivers, report.overlaps, report.gaps),
                ([], [], [], [], []))
            self.assertGreater(report.shared, 0.99)
            self.assertEqual(graph.warnings, [])
            self.assertIn("gaps: none", str(report))

    def test_overlaps_gaps_and_slivers(self) -> None:
        shapes = common.needs("shapely.geometry")
        frame = frame_of({
            "a": box(0, 0, 1000, 1000), "b": box(990, 0, 1000, 1000),
            "c": box(0, 1000, 900, 1000), "d": box(910, 1000, 1080, 1000),
            "e": shapes.box(0, 2000, 1990, 2400), "f": shapes.box(1990, 2399.5, 3000, 2900),
        })
        report = graph_from(frame, "GEOID").report
        self.assertEqual([pair for pair, _ in report.overlaps], [("a", "b")])
        self.assertAlmostEqual(report.overlaps[0][1], 10 * 1000)
        (units, area), = report.gaps
        self.assertEqual((sorted(map(str, units)), area), (["a", "c", "d", "e"], 10 * 1000))
        self.assertEqual([pair for pair, _ in report.slivers], [("e", "f")])
        self.assertAlmostEqual(report.slivers[0][1], 0.5)
        for part in ("overlaps: 1", "gaps: 1", "slivers: 1"):
            self.assertIn(part, str(report))

    def test_borders_that_are_not_shared(self) -> None:
        for gap, is_told in ((0, False), (0.5, True), (-0.5, True)):
            frame = frame_of({f"{x}.{y}": box(x * 1000, y * 1000, 1000 - gap, 1000)
                              for x in range(5) for y in range(5)})
            graph = graph_from(frame, "GEOID")
            kinds = [BordersNotShared] if is_told else []
            self.assertEqual([type(one) for one in graph.warnings], kinds, gap)
            self.assertAlmostEqual(graph.report.shared, 0.5 if is_told else 1, delta=0.02)

    def test_degrees(self) -> None:
        small = {f"{x}": box(-75.25 + x / 64, 40.125, 1 / 64, 1 / 64) for x in range(5)}
        for system, shapes, is_told in (
            ("EPSG:4326", small, True), (None, small, True), (METERS, small, False),
            (None, {f"{x}": box(x, 0) for x in range(5)}, False),
        ):
            graph = graph_from(frame_of(shapes, system), "GEOID")
            self.assertEqual(
                [type(one) for one in graph.warnings], [CoordinatesInDegrees] if is_told else [])

    def test_refusals_name_the_unit(self) -> None:
        shapes = common.needs("shapely.geometry")
        bow = shapes.Polygon([(0, 0), (2, 2), (2, 0), (0, 2)])
        for shape, why in (
            (None, 'unit "x" has no geometry'), (shapes.Polygon(), 'unit "x" has no geometry'),
            (shapes.Point(1, 1), 'unit "x" is a Point, and not a polygon'),
            (bow, 'unit "x": its polygon is invalid: Self-intersection'),
        ):
            with self.assertRaises(PrepareRefused) as caught:
                graph_from(frame_of({"w": box(5, 5), "x": shape}), "GEOID")
            self.assertEqual(len(caught.exception.faults), 1)
            self.assertIn(why, caught.exception.faults[0])
        frame = grid()
        for column, values, why in (
            ("GEOID", ["x"] * 12, 'several rows have the id "x"'),
            ("GEOID", [None, *range(11)], "row 0: NaN is missing"),
        ):
            frame[column] = values
            with self.assertRaises(PrepareRefused) as caught:
                graph_from(frame, column)
            self.assertIn(why, str(caught.exception))
        with self.assertRaises(PrepareRefused) as caught:
            graph_from(grid(), "GEOID20")
        self.assertIn("no column GEOID20; the columns are GEOID, pop", str(caught.exception))


class Files(common.FolderCase):
    """Maps and graphs in files of each kind."""

    COLUMNS: common.Words = dict(population="pop", first="a", second="b", district="d", slack=3000)

    def nodes(self, prepared: district_audit.Prepared) -> list[common.Words]:
        found: list[common.Words] = json.loads(prepared.data)["nodes"]
        return found

    def test_a_shapefile_and_a_geopackage(self) -> None:
        frame = grid()
        wanted = district_audit.prepare(graph_from(frame, "GEOID"), **self.COLUMNS,
                                        length="shared_perim")
        for name in ("map.shp", "map.gpkg", "map.geojson"):
            path = self.folder / name
            frame.to_file(path)
            graph = graph_from(path, id="GEOID")
            prepared = district_audit.prepare(graph, **self.COLUMNS, length="shared_perim")
            self.assertEqual(self.nodes(prepared), self.nodes(wanted))
            self.assertEqual(graph.files[0], str(path))
            custody = anything(prepared.custody)
            self.assertEqual(custody.files[0].name, name)
            if name == "map.shp":
                self.assertEqual({file.name for file in custody.files} - {"map.cpg"},
                                 {"map.shp", "map.shx", "map.dbf", "map.prj"})
            with self.assertRaises(PrepareRefused) as caught:
                district_audit.prepare(path, **self.COLUMNS)
            self.assertIn(f"graph_from({str(path)!r}, id='GEOID')", str(caught.exception))
            with self.assertRaises(PrepareRefused) as caught:
                district_audit.check(path, **self.COLUMNS)
            self.assertIn(f"prepare(graph_from({str(path)!r}, id=..), ..)", str(caught.exception))
        self.assertEqual(wanted.warnings, [])
        self.assertIn("map: gaps: none", wanted.notes)

    def test_a_frame_is_prepared_by_its_index(self) -> None:
        frame = grid().set_index("GEOID")
        prepared = district_audit.prepare(frame, **self.COLUMNS, length="shared_perim")
        self.assertEqual(prepared.units, list(frame.index))
        numbered = district_audit.prepare(grid(), **self.COLUMNS)
        self.assertEqual(numbered.units, list(range(12)))
        with self.assertRaises(PrepareRefused) as caught:
            district_audit.prepare(common.needs("pandas").DataFrame({"pop": [1]}), **self.COLUMNS)
        self.assertIn("a DataFrame has no polygons", str(caught.exception))

    def test_lengths_in_degrees_are_warned_of_where_they_count(self) -> None:
        frame = frame_of({f"{x}": box(-75 + x, 40, 1, 1) for x in range(6)}, "EPSG:4326")
        for more, kinds in (({}, []), ({"length": "shared_perim"}, [CoordinatesInDegrees])):
            with warnings.catch_warnings(record=True) as caught:
                warnings.simplefilter("always", district_audit.MapWarning)
                prepared = district_audit.prepare(frame, **self.COLUMNS, **anything(more))
            self.assertEqual([type(one) for one in prepared.warnings], kinds)
            self.assertEqual([one.category for one in caught
                              if issubclass(one.category, district_audit.MapWarning)], kinds)

    def test_graphs_in_files(self) -> None:
        root = common.example("cycle.json")
        wanted = district_audit.prepare(root, **common.COLUMNS, slack=5000).data
        text = json.dumps(root).encode()
        node_link = {
            "directed": False, "multigraph": False, "graph": {}, "nodes": root["nodes"],
            "links": [{"source": node["id"], "target": entry["id"]}
                      for node, entries in zip(root["nodes"], root["adjacency"])
                      for entry in entries],
        }
        for name, data in (
            ("g.json", text), ("g.json.gz", gzip.compress(text)),
            ("link.json", json.dumps(node_link).encode()),
            ("link.json.gz", gzip.compress(json.dumps(node_link).encode())),
            ("mark.json", b"\xef\xbb\xbf" + text),
        ):
            (self.folder / name).write_bytes(data)
            for path in (self.folder / name, str(self.folder / name)):
                self.assertEqual(
                    district_audit.prepare(path, **common.COLUMNS, slack=5000).data, wanted, name)

    def test_files_that_are_no_graph_are_named(self) -> None:
        for name, data, why in (
            ("g.json.bz2", b"BZh91AY&SY", "is compressed by bzip2: write `bunzip2`"),
            ("g.json.xz", b"\xfd7zXZ\x00", "is compressed by xz"),
            ("g.json.zst", b"\x28\xb5\x2f\xfd", "is compressed by zstd"),
            ("g.json.gz", gzip.compress(b"{}" * 99)[:20], "cannot be read"),
            ("u.json", "{}".encode("utf-16"), "is UTF-16 and not UTF-8"),
            ("l.json", '{"é": 1}'.encode("latin-1"), "is not UTF-8 at byte 2"),
            ("m.json", b'{"type": "FeatureCollection", "features": []}', "is GeoJSON, a map"),
            ("g", b"SQLite format 3\x00", "is a GeoPackage: write graph_from"),
        ):
            path = self.folder / name
            path.write_bytes(data)
            with self.assertRaises(PrepareRefused) as caught:
                district_audit.prepare(path, **common.COLUMNS)
            self.assertIn(f"{path} {why}", str(caught.exception))
            if "compressed" in why or "UTF-16" in why or "GeoPackage" in why:
                with self.assertRaises(PrepareRefused) as caught:
                    district_audit.check(path, **common.COLUMNS)
                self.assertIn(f"{path} {why}", str(caught.exception))
        packed = self.folder / "packed"
        packed.write_bytes(gzip.compress(b"{}"))
        with self.assertRaisesRegex(PrepareRefused, "compressed by gzip, which prepare"):
            district_audit.check(packed, **common.COLUMNS)
        for name in ("none.shp", "none.json"):
            with self.assertRaises(PrepareRefused) as caught:
                district_audit.prepare(self.folder / name, **common.COLUMNS)
            self.assertIn(f"{self.folder / name} cannot be read", str(caught.exception))

    def test_maps_that_cannot_be_read_are_named(self) -> None:
        common.needs("geopandas")
        (self.folder / "bad.shp").write_bytes(b"x" * 200)
        with self.assertRaises(PrepareRefused) as caught:
            graph_from(self.folder / "bad.shp", id="GEOID")
        self.assertIn("bad.shp cannot be read by geopandas", str(caught.exception))
        with self.assertRaises(PrepareRefused) as caught:
            graph_from(self.folder / "bad.shp", id="GEOID", layer="x")
        self.assertIn("layer='x' names a layer of the file", str(caught.exception))
        with zipfile.ZipFile(self.folder / "g.zip", "w") as archive:
            archive.writestr("g.json", "{}")
        with self.assertRaises(PrepareRefused) as caught:
            graph_from(self.folder / "g.zip", id="GEOID")
        self.assertIn("a zip archive has to hold a shapefile", str(caught.exception))

    def test_without_geopandas(self) -> None:
        def fail(module: str) -> None:
            raise district_audit.MissingExtra(module)

        self.addCleanup(setattr, geography, "extra", getattr(geography, "extra"))
        setattr(geography, "extra", fail)
        with self.assertRaises(district_audit.MissingExtra) as caught:
            graph_from(pathlib.Path("x.shp"), id="GEOID")
        self.assertIn("apt-get install python3-geopandas", str(caught.exception))
        self.assertEqual(caught.exception.extra, "maps")


class Guide(common.ProgramCase):
    """The first page of the guide, from a shapefile to an exhibit."""

    def test_its_code_runs(self) -> None:
        text = (common.TOP / "docs" / "user" / "GUIDE.md").read_text(encoding="utf-8")
        code = text.split("```python\n")[1].split("```")[0]
        self.assertIn("graph_from(", code)
        for long, short in (("1_000_000", "2000"), ("ends=999", "ends=9"), ("100_000", "100"),
                            ("workers=8", "workers=1"),
                            ("weight(prepared)", "weight(prepared, neutral=3, steps=2048)")):
            self.assertIn(long, code)
            code = code.replace(long, short)
        frame = grid(12, 5).rename(
            columns={"GEOID": "GEOID20", "pop": "TOTPOP", "a": "DEM", "b": "REP", "d": "CD"})
        frame.to_file(self.folder / "precincts.shp")
        self.addCleanup(os.chdir, os.getcwd())
        os.chdir(self.folder)
        with common.environment(DISTRICT_AUDIT=self.program), \
                contextlib.redirect_stdout(io.StringIO()) as said:
            exec(compile(code.replace("tolerance=0.01", "tolerance=0.1"), "GUIDE", "exec"), {})
        self.assertIn("islands, units without a neighbor: none", said.getvalue())
        page = (self.folder / "exhibit.html").read_text(encoding="utf-8")
        self.assertIn("Republican Party", page)
        self.assertIn("the p-value of the parallel test on gap:high, election GOV18", page)
        self.assertIn("Neither the enacted plan nor votes were looked at.", page)
        manifest = json.loads((self.folder / "report.manifest.json").read_text(encoding="utf-8"))
        names = {file["name"] for file in manifest["preparation"]["files"]}
        self.assertIn("precincts.shp", names)


if __name__ == "__main__":
    unittest.main()
