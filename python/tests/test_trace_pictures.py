"""Pictures of traces, and the code of docs/user/TRACES.md."""
import contextlib
import io
import os
import re
import statistics
import typing
import unittest
from fractions import Fraction

import common
import gerrychain_model
import test_pictures
from common import anything
import district_audit
from district_audit import trace_pictures
from trace_model import tracing_program

GUIDE = common.TOP / "docs" / "user" / "TRACES.md"


class Pictures(common.FolderCase):
    def setUp(self) -> None:
        super().setUp()
        common.needs("matplotlib")

    def save(self, draw: typing.Callable[[str], object]) -> str:
        """Returns the texts of a picture's SVG; both files are there, in gray alone, and the same
        each time.
        """
        both = []
        for name in ("first", "second"):
            draw(str(self.folder / name))
            both.append([(self.folder / (name + end)).read_bytes() for end in (".png", ".svg")])
        self.assertEqual(both[0], both[1])
        self.assertEqual(both[0][0][:8], b"\x89PNG\r\n\x1a\n")
        svg = both[0][1].decode("utf-8")
        colors = set(re.findall("#([0-9a-f]{6})", svg)) | {
            digit * 6 for digit in re.findall("#([0-9a-f])\\1{2}\\b", svg)
        }
        self.assertTrue(colors)
        self.assertEqual(
            {color for color in colors if len({color[:2], color[2:4], color[4:]}) > 1}, set()
        )
        return re.sub("<[^>]*>", "", svg)

    def test_histogram(self) -> None:
        values = [Fraction(7, 2), *[Fraction(n % 11, 2) for n in range(100)]]
        text = self.save(
            lambda name: trace_pictures.histogram(values, title="Title", label="Label", name=name)
        )
        for word in ("Title", "Label", "enacted plan 3.5", "plans (of 101)"):
            self.assertIn(word, text)
        (axes,) = trace_pictures.histogram(values).axes
        self.assertEqual(sum(bar.get_height() for bar in axes.patches), 101)
        self.assertIn([3.5, 3.5], [list(line.get_xdata()) for line in axes.lines])
        (axes,) = trace_pictures.histogram([2, 3, 3, 5], enacted=4).axes
        self.assertEqual(
            [(bar.get_x(), bar.get_height()) for bar in axes.patches],
            [(1.5, 1), (2.5, 2), (3.5, 0), (4.5, 1)],
        )

    def test_texts_fit_with_extreme_names(self) -> None:
        """Each text is inside the canvas, and no two meet; axes have no powers of ten."""
        long = "The Very Long Established Progressive Conservative Union Party " * 3
        millions = [10**9 + 10**6 * place for place in range(50)]
        words: common.Words = dict(title=long, label=long)
        figures = [
            trace_pictures.histogram(millions, plans=long, **words),
            trace_pictures.histogram([Fraction(k, 7) for k in range(99)], **words),
            trace_pictures.box_plot([[Fraction(k, 40)] * 38 for k in range(30)], **words),
            trace_pictures.running(
                {10**6 + w: [(0, 5), (10**9, 4 * 10**8)] for w in range(4)}, **words
            ),
        ]
        for figure in figures:
            for text, box in test_pictures.boxes_of(figure):
                self.assertNotRegex(text, r"1e|10\^")
                self.assertTrue(0 <= box.x0 and box.x1 <= figure.bbox.x1, text)
                self.assertTrue(0 <= box.y0 and box.y1 <= figure.bbox.y1, text)
            test_pictures.assert_apart(self, figure)
            offsets = [axis.get_offset_text().get_text() for axis in (
                figure.axes[0].xaxis, figure.axes[0].yaxis
            )]
            self.assertEqual(offsets, ["", ""])

    def test_boxes(self) -> None:
        rows = [[Fraction(k, 100), Fraction(100 + k, 300)] for k in range(101)]
        text = self.save(
            lambda name: trace_pictures.box_plot(
                rows, enacted=[Fraction(1, 4), Fraction(3, 5)], title="Title", name=name
            )
        )
        for word in ("Title", "enacted plan", "one half", "101 plans"):
            self.assertIn(word, text)
        (axes,) = trace_pictures.box_plot(rows, enacted=[Fraction(1, 4), Fraction(3, 5)]).axes
        drawn = [(list(line.get_xdata()), list(line.get_ydata())) for line in axes.lines]
        self.assertIn(([1, 2], [0.25, 0.6]), drawn)
        for place in (1, 2):
            median = statistics.median(float(row[place - 1]) for row in rows)
            self.assertTrue(
                any(
                    len(ys) == 2
                    and abs(ys[0] - median) + abs(ys[1] - median) < 1e-9
                    and sum(xs) == 2 * place
                    for xs, ys in drawn
                )
            )
            for end in (1, 99):
                self.assertTrue(
                    any(
                        sum(xs) == 2 * place
                        and any(abs(y - float(rows[end][place - 1])) < 1e-9 for y in ys)
                        for xs, ys in drawn
                    )
                )
        for bad in ([], [[1, 2], [1]], [[1, None]]):
            with self.assertRaises(ValueError):
                trace_pictures.box_plot(anything(bad))
        with self.assertRaises(ValueError):
            trace_pictures.box_plot([[1, 2]], enacted=[1])

    def test_running(self) -> None:
        walks = {3: [(0, 5), (10, 7)], 4: [(0, 5), (10, 4)]}
        text = self.save(lambda name: trace_pictures.running(walks, label="Label", name=name))
        for word in ("trajectory 3", "trajectory 4", "enacted plan 5", "Label", "steps"):
            self.assertIn(word, text)
        (axes,) = trace_pictures.running(walks).axes
        self.assertEqual([list(line.get_ydata()) for line in axes.lines], [[5, 7], [5, 4], [5, 5]])
        many = {walk: [(0, 5), (10, walk)] for walk in range(9)}
        self.assertIn(
            "9 trajectories",
            self.save(lambda name: trace_pictures.running(many, enacted=2, name=name)),
        )
        for bad in ({}, {0: []}, {0: [(0, float("nan"))]}):
            with self.assertRaises(ValueError):
                trace_pictures.running(anything(bad))


class Guide(common.FolderCase):
    def test_its_code_prints_what_it_says(self) -> None:
        """Each block of code is run, in order and in one folder, and prints the text behind it."""
        for module in ("pandas", "matplotlib"):
            common.needs(module)
        program = tracing_program()
        (self.folder / "examples").symlink_to(common.EXAMPLES)
        blocks = re.findall(
            "^```(python|text)\n(.*?)^```$", GUIDE.read_text(encoding="utf-8"),
            re.DOTALL | re.MULTILINE,
        )
        self.assertGreaterEqual(len(blocks), 7)
        names: dict[str, object]
        names, wanted, said = {}, [], []
        before = os.getcwd()
        os.chdir(self.folder)
        try:
            with common.environment(DISTRICT_AUDIT=program), gerrychain_model.install():
                for kind, block in blocks:
                    if kind == "text":
                        wanted.append(block)
                        continue
                    out = io.StringIO()
                    with contextlib.redirect_stdout(out):
                        exec(compile(block, str(GUIDE), "exec"), names)  # pylint: disable=exec-used
                    said += [out.getvalue()] if out.getvalue() else []
        finally:
            os.chdir(before)
        self.assertEqual(said, wanted)
        for name in ("boxes", "histogram", "running", "flips", "recom"):
            for end in (".png", ".svg"):
                self.assertGreater((self.folder / (name + end)).stat().st_size, 1000)
        self.check_ensemble(names)

    def check_ensemble(self, names: typing.Mapping[str, common.Value]) -> None:
        """Flips and ReCom are scored by one function, begin with the enacted plan, and differ."""
        found, beside = names["found"], names["beside"]
        self.assertEqual({way: len(plans) for way, plans in found.items()},
                         {"flips": 201, "recom": 200})
        self.assertEqual(found["flips"][0], found["recom"][0])
        self.assertEqual(dict(beside.sum()), {"flips": 201, "recom": 200})
        self.assertEqual(set(beside.index), {seats for plans in found.values()
                                             for seats, _ in plans})
        for plans in found.values():
            self.assertGreater(len({tuple(shares) for _, shares in plans}), 30)
            for seats, shares in plans:
                self.assertEqual(seats, sum(share > 0.5 for share in shares))
                self.assertEqual(shares, sorted(shares))
        # The updater's values of a plan of the trace are those of the package's exact scores.
        with district_audit.trace(
            common.EXAMPLES / "data" / "grid.json", steps=200_000, thin=1000, cut_weight=24,
            program=tracing_program(), **names["run"],
        ) as trace:
            for sample, (seats, shares) in zip(trace, found["flips"]):
                self.assertEqual(seats, district_audit.scores.seats(sample, "GOV18"))
                exact = district_audit.scores.ordered_shares(sample, "GOV18")
                self.assertEqual([float(share) for share in exact], shares)

    def test_it_names_what_there_is(self) -> None:
        text = GUIDE.read_text(encoding="utf-8")
        listed = text.split("## The scores at hand")[1].split("`district_audit.compactness`")[0]
        there = {
            name
            for name, value in vars(district_audit.scores).items()
            if callable(value) and getattr(value, "__module__", "") == "district_audit.scores"
        }
        named = set(re.findall("`([a-z_]+)`", listed))
        self.assertLessEqual(named, there)
        self.assertEqual(there - named, {"votes", "share", "vote_shares", "declination", "exactly"})


if __name__ == "__main__":
    unittest.main()
