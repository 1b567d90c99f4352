"""Maps of districts: shapes are found by their units, and labels have room."""
from __future__ import annotations

import html
import itertools
import re
import unittest

import common
from test_exhibit import COLUMNS, Page
from district_audit import Report, district_map, exhibit_text, map_figures, measuring

GRAPH = common.EXAMPLES / "data" / "grid.json"
ROW = 20


class Maps(common.FolderCase):
    def setUp(self) -> None:
        super().setUp()
        common.needs("shapely")
        self.report = Report.parse(common.readme_report())
        self.units = [node["id"] for node in common.example("grid.json")["nodes"]]

    def squares(self) -> dict[object, common.Value]:
        """Returns a unit square for each unit of the grid, in its rows."""
        from shapely.geometry import box

        return {
            unit: box(place % ROW, place // ROW, place % ROW + 1, place // ROW + 1)
            for place, unit in enumerate(self.units)
        }

    def maps(self, geometry: object, **words: common.Value) -> list[district_map.DistrictMap]:
        given: common.Words = dict(graph=GRAPH, columns=COLUMNS)
        return district_map.maps_of(self.report, geometry, **{**given, **words})

    def test_areas_of_districts_are_those_of_their_units(self) -> None:
        """The outline of each district has the area of its squares: one each, by hand."""
        from shapely.geometry import Point, Polygon

        (drawn,) = self.maps(self.squares())
        nodes = common.example("grid.json")["nodes"]
        self.assertEqual(drawn.height, len(nodes) / ROW / ROW)
        for area in drawn.areas:
            units = sum(node["CD"] == area.label for node in nodes)
            shape = Polygon(area.rings[0], area.rings[1:])
            self.assertAlmostEqual(shape.area * ROW**2, units, places=6)
            self.assertTrue(shape.contains(Point(area.at)))
        self.assertEqual({area.label for area in drawn.areas}, {node["CD"] for node in nodes})

    def test_neighbors_have_different_fills(self) -> None:
        (drawn,) = self.maps(self.squares())
        shade = {area.label: area.shade for area in drawn.areas}
        root = common.example("grid.json")
        district = {node["id"]: node["CD"] for node in root["nodes"]}
        for node, entries in zip(root["nodes"], root["adjacency"]):
            for entry in entries:
                one, other = district[node["id"]], district[entry["id"]]
                if one != other:
                    self.assertNotEqual(shade[one], shade[other])

    def test_a_lake_is_no_district(self) -> None:
        """A white district looked like the lake beside it, and no page said which is which."""
        from shapely.geometry import box

        squares = self.squares()
        (dry,) = self.maps(squares)
        self.assertFalse(dry.has_holes)
        self.assertNotIn("White places", map_figures.map_figure([dry], "maps"))
        place = 5 * ROW + 5
        squares[self.units[place]] = box(5, 5, 5.5, 5.5)
        (wet,) = self.maps(squares)
        self.assertTrue(wet.has_holes)
        self.assertIn(
            "White places within the map have no unit.", map_figures.map_figure([dry, wet], "maps")
        )
        shades = {shade for drawn in (dry, wet) for shade in (one.shade for one in drawn.areas)}
        self.assertFalse({"#fff", "#ffffff", "white"} & shades)

    def test_each_part_of_a_district_has_its_label(self) -> None:
        """The columns 0 to 7 and 14 to 19 are one district, in two parts 7.5 by 15 or more."""
        plan = {
            unit: "middle" if 8 <= place % ROW < 14 else "A"
            for place, unit in enumerate(self.units)
        }
        drawn = self.maps(self.squares(), plan=plan)[1]
        figure = map_figures.map_figure([drawn], "maps")
        places = [float(x) for x in re.findall('<text x="([0-9.]+)"[^>]*>A</text>', figure)]
        wide = 900 / ROW
        self.assertEqual(len(places), 2)
        self.assertTrue(0 < places[0] < 8 * wide and 14 * wide < places[1] < 900, places)
        # A part that has no room keeps its fill alone.
        thin = {
            unit: "A" if place % ROW in (0, 19) else "B" for place, unit in enumerate(self.units)
        }
        drawn = self.maps(self.squares(), plan=thin)[1]
        labels, left_out = district_map.place_labels(drawn, 100, (13.0,), lambda *_: 30)
        self.assertEqual(([one.words for one in labels].count("A"), left_out), (1, []))

    def test_a_plan_of_a_trace_stands_beside(self) -> None:
        other = {unit: str(place // 150) for place, unit in enumerate(self.units)}

        class Sample:
            id, step, assignment = 3, 12_000, other

        maps = self.maps(self.squares(), plan=Sample())
        self.assertEqual(
            [one.title for one in maps],
            ["The enacted plan", "The plan of walk 3 after 12,000 steps"],
        )
        self.assertEqual([area.label for area in maps[1].areas], ["0", "1"])
        with self.assertRaisesRegex(ValueError, "no district for the units 0"):
            self.maps(self.squares(), plan={unit: "1" for unit in self.units[1:]})

    def test_frames_and_mappings(self) -> None:
        geopandas = common.needs("geopandas")
        squares = self.squares()
        wanted = self.maps(squares)
        shapes = list(squares.values())
        by_index = geopandas.GeoDataFrame(geometry=shapes, index=self.units)
        names = [str(unit) for unit in self.units]
        by_column = geopandas.GeoDataFrame({"GEOID": names, "x": 1}, geometry=shapes)
        by_column.index = [f"row {place}" for place in range(len(shapes))]
        for frame in (by_index, by_index.geometry, by_column):
            self.assertEqual(self.maps(frame), wanted)
        self.assertEqual(self.maps(by_column, ids="GEOID"), wanted)
        both = by_column.assign(OTHER=names)
        with self.assertRaisesRegex(ValueError, "GEOID, OTHER all have the ids"):
            self.maps(both)
        with self.assertRaisesRegex(ValueError, "no column has the ids"):
            self.maps(by_column.drop(columns="GEOID"))
        with self.assertRaisesRegex(ValueError, "is no column"):
            self.maps(by_column, ids="geoid")

    def test_what_is_refused(self) -> None:
        squares = self.squares()
        last = self.units[-1]
        with self.assertRaisesRegex(ValueError, f"1 units have no shape in geometry: {last}"):
            self.maps({unit: shape for unit, shape in squares.items() if unit != last})
        with self.assertRaisesRegex(ValueError, "not of type list"):
            self.maps(list(squares.values()))
        with self.assertRaisesRegex(ValueError, "needs the graph"):
            self.maps(squares, graph=None)

    def test_the_exhibit_has_the_map(self) -> None:
        path = self.folder / "page.html"
        self.report.exhibit(
            path, graph=GRAPH, columns=COLUMNS, geometry=self.squares(),
            plan={unit: "one" for unit in self.units},
        )
        text = path.read_text(encoding="utf-8")
        page = Page(text)
        self.assertEqual(page.faults, [])
        self.assertIn("Map. The enacted plan and another plan", page.text)
        (figure,) = re.findall("<figure><figcaption[^>]*><b>Map.*?</figure>", text, re.S)
        self.assertEqual(figure.count("<path "), 6 + 1)
        for label in ("01", "06", "one"):
            self.assertIn(f">{label}</text>", figure)

    def test_several_plans_and_what_they_look_like(self) -> None:
        """README's plan has 125 cut edges; those of the others are counted in the file."""
        root = common.example("grid.json")
        halves = {unit: str(place // 150) for place, unit in enumerate(self.units)}
        mixed = {unit: str(place % 2) for place, unit in enumerate(self.units)}
        few, many = (
            sum(plan[node["id"]] != plan[entry["id"]] for node, entries in
                zip(root["nodes"], root["adjacency"]) for entry in entries) // 2
            for plan in (halves, mixed)
        )
        self.assertLess(few, 125)
        self.assertGreater(many, 125)
        plans = [halves, mixed, halves, mixed]
        maps = self.maps(self.squares(), plan=plans)
        self.assertEqual([one.cut for one in maps], [125, few, many, few, many])
        path = self.folder / "page.html"
        self.report.exhibit(
            path, graph=GRAPH, columns=COLUMNS, geometry=self.squares(), plan=plans
        )
        text = path.read_text(encoding="utf-8")
        page = Page(text)
        self.assertEqual(page.faults, [])
        self.assertIn("Map. The enacted plan and 4 other plans", page.text)
        self.assertIn("the enacted plan has 125 cut edges", page.text)
        self.assertIn(f"the plans shown beside it have {few} to {many}.", page.text)
        (figure,) = re.findall("<figure><figcaption[^>]*><b>Map.*?</figure>", text, re.S)
        self.assertEqual(figure.count("<path "), 6 + 4 * 2)
        places = re.findall(r'<text x="([\d.]+)" y="([\d.]+)"[^>]*bold[^>]*>', figure)
        self.assertEqual(len({x for x, _ in places}), 3, "three maps in a row")
        self.assertEqual(len({y for _, y in places}), 2, "two rows")
        height = float(re.findall(r'viewBox="0 0 [\d.]+ (\d+)"', figure)[0])
        for number in re.findall(r"[ML] [\d.]+ ([\d.]+)", figure):
            self.assertLessEqual(float(number), height)

    def test_words_on_how_plans_look(self) -> None:
        for others, said in (
            ([158, 188], "have 158 to 188. "), ([158], "has 158. "),
            ([126, 130], "more compact than those of these plans"),
            ([124], "more sprawling than those of this plan"),
            ([124, 126], "is not set apart from these plans"),
            ([125, 130], "is not set apart from these plans"),
        ):
            with self.subTest(others=others):
                self.assertIn(said, exhibit_text.compare_looks(125, others))

    def test_the_picture_has_the_map(self) -> None:
        common.needs("matplotlib")
        path = self.folder / "map.svg"
        one = {unit: "one" for unit in self.units}
        figure = self.report.plot_map(
            self.squares(), path, graph=GRAPH, columns=COLUMNS, title="The map",
            plan=[one, one, one],
        )
        self.assertEqual([len(axes.patches) for axes in figure.axes], [6, 1, 1, 1])
        boxes = [axes.get_position() for axes in figure.axes]
        for low, high in itertools.combinations(boxes, 2):
            self.assertFalse(low.overlaps(high))
        words = re.sub("<[^>]*>", " ", path.read_text(encoding="utf-8"))
        for word in ("The map", "The enacted plan", "Another plan", "01", "06", "one"):
            self.assertIn(word, words)
        drawn_by = figure.canvas.get_renderer()
        for text in (*figure.texts, *(text for axes in figure.axes for text in axes.texts)):
            box = text.get_window_extent(drawn_by)
            self.assertTrue(0 <= box.x0 and box.x1 <= figure.bbox.x1, text)
            self.assertTrue(0 <= box.y0 and box.y1 <= figure.bbox.y1, text)


class Labels(unittest.TestCase):
    def crowd(self, label: str, count: int) -> district_map.DistrictMap:
        """Returns a map of many districts whose labels stand close to each other."""
        areas = [
            district_map.Area(
                f"{label}{place}", [[(0, 0), (1, 0), (1, 1)]],
                ((place * 7 % 40) / 40, (place * 11 % 40) / 40), "#fff", [],
            )
            for place in range(count)
        ]
        return district_map.DistrictMap("The enacted plan", areas, 1.0, 0, False)

    def test_labels_do_not_meet_and_none_is_lost_in_silence(self) -> None:
        for label, count in (("", 200), ("District of the long name ", 60), ("W" * 300, 3)):
            drawn = self.crowd(label, count)
            figure = html.unescape(map_figures.map_figure([drawn, drawn], "maps"))
            found = re.findall(
                r'<text x="([\d.]+)" y="([\d.]+)" text-anchor="middle" class="at(\d+)"[^>]*>'
                "([^<]*)</text>", figure,
            )
            boxes = []
            for x, y, size, words in found:
                half = measuring.width(words, float(size)) / 2
                boxes.append((float(x) - half, float(x) + half, float(y) - float(size) * 0.76,
                              float(y) + float(size) * 0.24))
            for box in boxes:
                self.assertTrue(0 <= box[0] and box[1] <= 900, box)
            for one, other in itertools.combinations(boxes, 2):
                is_beside = one[1] <= other[0] or other[1] <= one[0]
                is_above = one[3] <= other[2] or other[3] <= one[2]
                self.assertTrue(is_beside or is_above, (one, other))
            shown = {words for _, _, _, words in found}
            for area in drawn.areas:
                if area.label not in shown:
                    self.assertIn("Districts whose label has no room: ", figure)
                    self.assertIn(area.label, figure.split("no room: ")[1])


if __name__ == "__main__":
    unittest.main()
