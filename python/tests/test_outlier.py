"""The outlier test and the rank test on numbers that were worked by hand."""
import random
import typing
import unittest
from fractions import Fraction

import common
from common import anything
import district_audit
from district_audit.report import bound_of


class OfValues(unittest.TestCase):
    """The tests of any values, on numbers worked by hand."""

    def test_counts_and_bounds(self) -> None:
        """Four of 3, 1, 2, 3, 5 are at most 3: the root of 8/5 is 1.2649110640.. Three are at least
        3: the root of 6/5 is 1.0954451150.. Both are rounded up."""
        for tail, wanted in (
            ("low", "low count 4 of 5 bound 1.264911065"),
            ("high", "high count 3 of 5 bound 1.095445116"),
        ):
            self.assertEqual(str(district_audit.outlier_test([3, 1, 2, 3, 5], tail)), wanted)
        self.assertEqual(
            str(district_audit.outlier_test([0, *[1] * 49], "low")),
            "low count 1 of 50 bound 0.200000000",
        )
        self.assertEqual(
            district_audit.outlier_test(iter([Fraction(1, 3), Fraction(1, 3), 0]), "high").part,
            Fraction(2, 3),
        )

    def test_texts_and_tables_are_no_values(self) -> None:
        """Texts compare by their letters: of "99" and "100" the second is less."""
        for values in (["99", "100"], "99", b"99", {1: 2, 3: 4}, [1, "2"]):
            with self.subTest(values=values), self.assertRaises(TypeError):
                district_audit.outlier_test(values, "low")

    def test_ranks(self) -> None:
        self.assertEqual(
            str(district_audit.rank_test([2, 1, 2, 3, 4, 5, 6], "low")),
            "low rank 3 of 7 p 0.428571429",
        )
        self.assertEqual(
            str(district_audit.rank_test([9, *range(9)], "high")), "high rank 1 of 10 p 0.100000000"
        )
        self.assertEqual(
            str(district_audit.rank_test([2, 1, 3], "high")), "high rank 2 of 3 p 0.666666667"
        )

    def test_bounds_are_the_least_of_nine_places(self) -> None:
        for count, of in ((1, 3), (1, 2), (2, 100001), (7, 7), (1, 10**9 + 1), (123456, 999983)):
            bound, step = Fraction(bound_of(count, of)), Fraction(1, 10**9)
            self.assertGreaterEqual(bound**2, Fraction(2 * count, of))
            self.assertLess((bound - step) ** 2, Fraction(2 * count, of))

    def test_what_is_no_test(self) -> None:
        for values, tail in (
            ([1, 2], "up"), ([], "low"), ([1], "low"), ([1, None], "low"),
            ([float("nan"), 1], "high"), ([1, float("nan")], "high"),
        ):
            for test in (district_audit.outlier_test, district_audit.rank_test):
                with self.subTest(values=values, tail=tail), self.assertRaises(ValueError):
                    test(anything(values), tail)
        with self.assertRaises(TypeError):
            district_audit.outlier_test([1, "2"], "low")

    def test_floats_of_exact_values_never_count_fewer(self) -> None:
        dice = random.Random(5)
        for _ in range(200):
            values = [
                Fraction(dice.randint(0, 9), 9) + Fraction(dice.randint(0, 2), 10**18)
                for _ in range(20)
            ]
            for tail in ("low", "high"):
                exact, rounded = (
                    district_audit.outlier_test(some, tail).count
                    for some in (values, map(float, values))
                )
                self.assertGreaterEqual(rounded, exact)


class OfTraces(common.ProgramCase):
    """Tests of a trace and its frame, which refuse what their theorem does not cover."""

    def trace(self, **more: common.Value) -> district_audit.Trace:
        words: common.Words = dict(
            common.WORDS, key=common.KEY, walks=2, steps=60, ends=5, hub_steps=20, thin=4,
            program=self.program, elections={"one": ("a", "b")},
        )
        return district_audit.trace(
            common.EXAMPLES / "data" / "cycle.json", **{**words, **more}
        )

    def refuse(self, why: str, call: typing.Callable[[], object],
               kind: type[Exception] = ValueError) -> None:
        with self.assertRaises(kind) as caught:
            call()
        self.assertIn(why, str(caught.exception))

    def test_a_trace_its_frame_and_its_values_agree(self) -> None:
        """Of one walk: the trace itself, the frame, a column of it, and the values by hand."""
        common.needs("pandas")
        for walk in (0, 1):
            for tail in ("low", "high"):
                values = [district_audit.scores.seats(sample, "one")
                          for sample in self.trace(ids=walk)]
                self.assertEqual(len(values), 16)
                wanted = district_audit.outlier_test(values, tail)
                frame = self.trace(ids="walks").to_frame(["seats", "cut_edges"])
                own = frame[frame.id == walk]
                for found in (
                    district_audit.outlier_test(self.trace(ids=walk), tail, "seats"),
                    district_audit.outlier_test(self.trace(ids=walk), tail, "seats one"),
                    district_audit.outlier_test(
                        self.trace(ids=walk), tail,
                        lambda sample: district_audit.scores.seats(sample, "one")),
                    district_audit.outlier_test(own, tail, "seats one"),
                    district_audit.outlier_test(own["seats one"], tail),
                    district_audit.outlier_test(own["seats one"].to_list(), tail),
                ):
                    self.assertEqual(found, wanted)

    def test_ranks_of_a_trace(self) -> None:
        """The enacted plan and the five ends, by the trace, its frame and by hand."""
        common.needs("pandas")
        trace = self.trace(ids="ends", thin=None)
        values = [district_audit.scores.cut_edges(trace.enacted)]
        values += [district_audit.scores.cut_edges(one) for one in trace if one.is_last]
        self.assertEqual(len(values), 6)
        for tail in ("low", "high"):
            wanted = district_audit.rank_test(values, tail)
            ways: list[common.Words] = [{"thin": None}, {"thin": 7, "last": True}, {"thin": 1}]
            for more in ways:
                made: common.Words = dict(ids="ends", **more)
                frame = self.trace(**made).to_frame(["cut_edges"])
                for found in (district_audit.rank_test(self.trace(**made), tail, "cut_edges"),
                              district_audit.rank_test(frame, tail, "cut_edges"),
                              district_audit.rank_test(frame["cut_edges"], tail)):
                    self.assertEqual(found, wanted)

    def test_what_the_theorem_of_one_walk_does_not_cover(self) -> None:
        pandas = common.needs("pandas")
        walks = self.trace(ids="walks").to_frame(["cut_edges"])
        one = walks[walks.id == 0]
        ends = self.trace(ids="ends", thin=4).to_frame(["cut_edges"])
        last = self.trace(ids=0, thin=7, last=True).to_frame(["cut_edges"])

        def bare(frame: common.Value) -> object:
            """Returns the frame as it comes back from a file."""
            return pandas.DataFrame(frame.to_dict("list"))

        def outlier(frame: object, score: object = "cut_edges") -> typing.Callable[[], object]:
            return lambda: district_audit.outlier_test(frame, "low", score)

        for why, frame in (
            ("of 2 trajectories: each walk is a test of its own", walks),
            ("the first sample is at step 8", one[2:]),
            ("the first sample is at step 60", one[::-1]),
            ("a sample at step 8 is missing", one.drop(index=2)),
            ("a sample at step 63 is missing, and one at step 60", last),
        ):
            self.refuse(why, outlier(frame))
            self.refuse(why, outlier(bare(frame)))
            self.refuse(why, outlier(anything(frame)["cut_edges"], None))
        for why, frame in (
            ("trajectory 2 leads from the hub", ends[ends.id == 2]),
            ("the samples end at step 16, and the walk at step 60", one[:5]),
            ("a sample at step 4 is missing", one[::2]),
        ):
            self.refuse(why, outlier(frame))
            self.refuse(why, outlier(anything(frame)["cut_edges"], None))
        self.refuse("of 2 trajectories", outlier(self.trace(ids="walks")))
        self.refuse("leads from the hub", outlier(self.trace(ids=3, thin=4)))
        begun = self.trace(ids=0)
        next(begun)
        next(begun)
        self.refuse("the trace was read before", outlier(begun))
        self.refuse("the first sample is at step 8", outlier(begun.to_frame(["cut_edges"])))

    def test_what_the_rank_test_does_not_cover(self) -> None:
        pandas = common.needs("pandas")
        ends = self.trace(ids="ends", thin=4).to_frame(["cut_edges"])
        walks = self.trace(ids="walks").to_frame(["cut_edges"])
        every = self.trace(ids="0-6").to_frame(["cut_edges"])

        def rank(frame: object, score: object = "cut_edges") -> typing.Callable[[], object]:
            return lambda: district_audit.rank_test(frame, "low", score)

        for why, frame in (
            ("trajectory 0 is a walk from the enacted plan", walks),
            ("trajectory 0 is a walk from the enacted plan", every),
            ("4 of 5 ends are there", ends[ends.id != 3]),
            ("0 of 5 ends are there", ends[ends.step == 0]),
            ("10 of 5 ends are there", pandas.concat([ends, ends])),
        ):
            self.refuse(why, rank(frame))
            self.refuse(why, rank(anything(frame)["cut_edges"], None))
        self.refuse("trajectory 0 is a walk", rank(self.trace(ids="walks")))
        self.refuse("0 of 5 ends", rank(self.trace(ids="ends", thin=7)))
        self.refuse("does not say which of its rows are ends",
                    rank(pandas.DataFrame(ends.to_dict("list"))))

    def test_what_is_no_score(self) -> None:
        pandas = common.needs("pandas")
        frame = self.trace(ids=0).to_frame(["cut_edges"])
        for why, values, score in (
            ("of a trace, name the score", self.trace(), None),
            ("of a table, name the column", frame, None),
            ("the frame has no column 'gap'; it has ['cut_edges']", frame, "gap"),
            ("it has no column step", pandas.DataFrame({"id": [0, 0], "x": [1, 2]}), "x"),
            ("a list or a mapping", self.trace(), "ordered_shares"),
            ("values have none", [1, 2], "x"),
        ):
            self.refuse(why, lambda: district_audit.outlier_test(values, "low", score), TypeError)

    def test_assignments(self) -> None:
        """The frame of plans has each sample's plan, in the graph's own ids and labels."""
        pandas = common.needs("pandas")
        wanted = {(one.id, one.step): dict(one.assignment) for one in self.trace(ids="walks")}
        frame = self.trace(ids="walks").assignments()
        self.assertEqual(frame.shape, (32, 4))
        self.assertEqual(list(frame.index), list(wanted))
        for place, plan in wanted.items():
            self.assertEqual(frame.loc[place].to_dict(), plan)
        self.assertIsInstance(frame.index, pandas.MultiIndex)


if __name__ == "__main__":
    unittest.main()
