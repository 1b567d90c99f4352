"""Arguments of calls: each refusal in Python's terms, and the same verdict as the program's."""
import inspect
import pickle
import random
import re
import typing
import unittest

import common
from common import anything
import district_audit
from district_audit import arguments, program, words

CYCLE = common.EXAMPLES / "data" / "cycle.json"
BASE: common.Words = dict(common.COLUMNS, slack=5000, key=common.KEY, steps=8, ask="gap:low")


class Refusals(common.ProgramCase):
    """None of these calls the program: it is one that does not exist."""

    def refuse(
        self,
        said: str,
        kind: type[Exception] = ValueError,
        call: typing.Callable[..., object] = district_audit.run,
        **words: common.Value,
    ) -> district_audit.ArgumentRefused:
        parts = [CYCLE] if call is not district_audit.make else []
        parts += anything([{}]) if call is district_audit.plans else []
        with self.assertRaises(kind) as caught:
            call(*parts, program="/there/is/none", **words)
        error = caught.exception
        assert isinstance(error, district_audit.ArgumentRefused)
        self.assertIsInstance(error, district_audit.WordsRefused)
        self.assertEqual(str(error), said)
        self.assertEqual(error.status, 1)
        return error

    def test_likely_mistakes(self) -> None:
        """For each: what was given, the kind of error, what is said, and what would be right."""
        slack = "slack is a whole number from 0 to 10000, in hundredths of a percent"
        ask = (
            "ask is 1 to 4 different questions, each a score (seats, mean-median, gap, cut-edges,"
            " cut-length),"
            " a colon and a tail (low, high)"
        )
        five = ["gap:low", "gap:high", "seats:low", "seats:high", "cut-edges:low"]
        needs = 'limits regions, and region is not given; region="COUNTY" names their column'
        for given, kind, said in (
            (
                {"slack": 0.05},
                TypeError,
                f"run(slack=0.05): {slack}; for 5 percent write slack=500 or tolerance=0.05",
            ),
            (
                {"slack": 10.5},
                TypeError,
                f"run(slack=10.5): {slack}; for 10.5 percent write slack=1050 or tolerance=0.105",
            ),
            (
                {"group": "G", "group_share": 0.35},
                TypeError,
                (
                    "run(group_share=0.35): group_share is a whole number from 0 to 10000, in"
                    " hundredths of a percent; for 35 percent write group_share=3500"
                ),
            ),
            (
                {"group": "G", "group_share": 34.77},
                TypeError,
                (
                    "run(group_share=34.77): group_share is a whole number from 0 to 10000, in"
                    " hundredths of a percent; for 34.77 percent write group_share=3477"
                ),
            ),
            ({"slack": -1}, ValueError, f"run(slack=-1): {slack}"),
            ({"slack": True}, TypeError, f"run(slack=True): {slack}"),
            ({"slack": "5%"}, TypeError, f"run(slack='5%'): {slack}"),
            (
                {"steps": 1e6},
                TypeError,
                (
                    "run(steps=1000000.0): steps is a whole number from 1 to"
                    " 1000000000; write steps=1000000"
                ),
            ),
            (
                {"steps": 0}, ValueError,
                "run(steps=0): steps is a whole number from 1 to 1000000000",
            ),
            (
                {"stepz": 9}, TypeError,
                "run(stepz=9): run has no argument stepz; did you mean steps?",
            ),
            ({"size": 3}, TypeError, "run(size=3): run has no argument size (only make)"),
            (
                {"ask": five},
                ValueError,
                (
                    "run(ask=['gap:low', 'gap:high', 'seats:low', 'seats:high',"
                    f" 'cut-e...): {ask}; these are 5: ask 4 in each of several calls with the same"
                    " key,"
                    " which walk the same plans"
                ),
            ),
            (
                {"ask": "gap"}, ValueError,
                f"run(ask='gap'): {ask}; 'gap': did you mean gap:low or gap:high?",
            ),
            (
                {"ask": "cut_edges:low"},
                ValueError,
                f"run(ask='cut_edges:low'): {ask}; 'cut_edges:low': did you mean cut-edges:low?",
            ),
            ({"ask": []}, ValueError, f"run(ask=[]): {ask}"),
            ({"ask": 7}, TypeError, f"run(ask=7): {ask}"),
            (
                {"ask": "gap:low,gap:low"}, ValueError,
                f"run(ask='gap:low,gap:low'): {ask}; 'gap:low' is repeated",
            ),
            (
                {"parts": 2},
                ValueError,
                (
                    "run(parts=2): parts above 1 needs save, since what a part"
                    " finds is gathered later; write save=1"
                ),
            ),
            ({"part": 1}, ValueError, "run(part=1): part is from 0 to parts - 1, which is 0"),
            ({"max_split": 2}, ValueError, f"run(max_split=2): max_split {needs}"),
            ({"max_splits": 2}, ValueError, f"run(max_splits=2): max_splits {needs}"),
            (
                {"group_districts": 2},
                ValueError,
                (
                    "run(group_districts=2): group_districts counts"
                    " districts of a group, and group is not given"
                ),
            ),
            (
                {"group_share": 4000},
                ValueError,
                "run(group_share=4000): group_share is the share of a group, and group is not"
                " given",
            ),
            (
                {"group_of": "v"},
                ValueError,
                (
                    "run(group_of='v'): group_of says of whom the group is a"
                    " part, and group is not given"
                ),
            ),
            (
                {"key": "tomorrow"},
                ValueError,
                (
                    "run(key='tomorrow'): key is 64 hexadecimal digits, or"
                    " 32 bytes; key=key_of('tomorrow') makes a key of any text"
                ),
            ),
            (
                {"key": b"1"},
                ValueError,
                "run(key=b'1'): key is 64 hexadecimal digits, or 32 bytes; these are 1 bytes",
            ),
            (
                {"key": None},
                TypeError,
                'run: the argument key is missing (key_of("the announced text") makes one)',
            ),
            ({"population": None}, TypeError, "run: the argument population is missing"),
            (
                {"district": None}, TypeError,
                "run: the argument district is missing (or assignment)",
            ),
            ({"population": 3}, TypeError, "run(pop=3): pop is the name of a column, a text"),
            (
                {"walks": 0},
                ValueError,
                (
                    "run(walks=0): walks and ends together are 1 to 100000;"
                    " walks=1 walks one outlier trajectory"
                ),
            ),
            (
                {"budget": 0},
                ValueError,
                (
                    "run(budget=0): without save, a budget below the 1"
                    " trajectories would lose its work; save=1 saves after each trajectory"
                ),
            ),
            (
                {"stop": 2},
                ValueError,
                (
                    "run(stop=2): stop needs a parallel test; ends=99 makes one of"
                    " 99 trajectories to ends"
                ),
            ),
            (
                {"stop": 2, "ends": 9, "save": 1},
                ValueError,
                "run(stop=2): a test that stops early saves nothing; leave out save and resume",
            ),
            (
                {"serial": True, "steps": 1000},
                ValueError,
                (
                    "run(serial=True): the serial test needs"
                    " steps plus 1 to be a power of two; write steps=511 or steps=1023"
                ),
            ),
            ({"resume": 1}, TypeError, "run(resume=1): resume is True or False; write resume=True"),
            (
                {"pop": "pop"}, TypeError,
                "run(population='pop'): pop is given too, and says the same",
            ),
            (
                {"scores": "gap:low"}, TypeError,
                "run(scores='gap:low'): ask is given too, and says the same",
            ),
            (
                {"tolerance": 0.05}, TypeError,
                "run(tolerance=0.05): slack is given too, and says the same",
            ),
            (
                {"slack": None, "tolerance": 5},
                ValueError,
                (
                    "run(tolerance=5): tolerance is a number"
                    " from 0 to 1, as 0.05 for 5 percent; for 5 percent write tolerance=0.05"
                ),
            ),
            (
                {"slack": None, "tolerance": 0.00123},
                ValueError,
                (
                    "run(tolerance=0.00123): tolerance is"
                    " a whole number of hundredths of a percent; write tolerance=0.0012"
                ),
            ),
            (
                {"slack": None, "tolerance": float("nan")},
                ValueError,
                "run(tolerance=nan): tolerance is a number from 0 to 1, as 0.05 for 5 percent",
            ),
        ):
            with self.subTest(given=given):
                error = self.refuse(said, kind, **{**BASE, **anything(given)})
                name = next(iter(anything(given))) if len(anything(given)) == 1 else error.argument
                self.assertIn(error.argument, {name, "pop", "population", "walks"})

    def test_other_calls(self) -> None:
        for call, given, said in (
            (
                district_audit.check,
                {"walks": 2},
                "check(walks=2): check has no argument walks (only run, make, plans, trace)",
            ),
            (
                district_audit.plans, {"budget": 2},
                "plans(budget=2): plans has no argument budget (only run, make)",
            ),
            (
                district_audit.make,
                {"region": "c"},
                "make(region='c'): make has no argument region (only check, run, plans, trace)",
            ),
        ):
            needed = {
                district_audit.check: ("key", "steps", "ask"),
                district_audit.plans: (),
                district_audit.make: tuple(common.COLUMNS),
            }[call]
            base = {name: value for name, value in BASE.items() if name not in needed}
            with self.subTest(call=call):
                self.refuse(said, TypeError, call=anything(call), **{**base, **anything(given)})

    def test_values_of_numpy_are_those_of_python(self) -> None:
        numpy = common.needs("numpy")
        given: common.Words = {
            **BASE,
            "slack": numpy.int64(5000),
            "steps": numpy.int32(8),
            "shift": numpy.bool_(True),
        }
        wanted = district_audit.run(
            CYCLE, program=self.program, **anything({**BASE, "shift": True})
        )
        self.assertEqual(district_audit.run(CYCLE, program=self.program, **given), wanted)

    def test_what_stands_in_place_of_others(self) -> None:
        base = {name: value for name, value in BASE.items() if name not in ("slack", "ask")}
        for tolerance, scores in (
            (0.5, {"gap": "low", "seats": ("low", "high")}),
            (0.5, ["gap:low", "seats:low", "seats:high"]), (0.5, "gap:low,seats:low,seats:high"),
        ):
            found = district_audit.run(
                CYCLE, program=self.program, tolerance=tolerance, scores=scores, **base
            )
            self.assertEqual(
                (found.rules.slack, found.asks), (5000, ("gap:low", "seats:low", "seats:high"))
            )
        for part, slack in ((0.05, 500), (0.01, 100), (0.0001, 1), (0, 0), (1, 10000), (0.07, 700)):
            self.assertEqual(arguments.slack_of("run", part), slack)


# For the drawn arguments: values that are good, at an end, past it, or of no use.
DRAWN: dict[str, list[object]] = {
    "slack": [0, 500, 10000, 10001, -1, "7", "07", "x"],
    "walks": [0, 1, 2, 100000, 100001],
    "steps": [1, 7, 8, 1000, 0, 10**9, 10**9 + 1],
    "ends": [0, 1, 3, 99999, 100000, 100001],
    "hub_steps": [1, 5, 0],
    "ask": [
        "gap:low", "seats:low,seats:high", "", "gap:mid", "gap:low,gap:low",
        "gap:low,gap:high,seats:low,seats:high",
        "gap:low,gap:high,seats:low,seats:high,cut-edges:low",
    ],
    "workers": [1, 32, 0, 33],
    "budget": [0, 1, 3, 100000, 100001],
    "save": [0, 1, 100001, "00", "x"],
    "resume": [True, False, "yes", "no", "maybe"],
    "max_cut": [0, 400000, 400001],
    "shift": [True, False],
    "stop": [0, 1, 100001],
    "serial": [True, False],
    "region": ["", "c"],
    "max_split": [1, 200, 0, 201],
    "parts": [1, 2, 0, 100001],
    "part": [0, 1, 2, 100001],
    "max_splits": [0, 995000, 995001],
    "max_split_regions": [0, 5000, 5001],
    "group": ["", "g"],
    "group_of": ["", "w"],
    "group_districts": [0, 1, 200, 201],
    "group_share": [5000, 0, 10000, 10001],
    "freeze": ["", "f"],
    "length": ["", "l"],
    "max_length": [1717986918000000, 0, 1717986917999999, 1717986918000001],
    "source": [True, False],
    "pairs": [True, False, "yes", "no", "maybe"],
    "cut_weight": [
        33, 64, 1, "64", "1", "33.25", "1.75", "63.75", 0, 65, "0.75", "64.25", "33.0", "33.50",
        "33.1", "33.", ".25", "033", "33,25", "x", "",
    ],
    # With True, `run` and `make` refuse what the program takes: `pilot` is the call for it.
    "blind": [False, "no", "maybe", ""],
    "size": [1, 30, 0, 31],
    "key": [common.KEY, common.KEY[1:], "F" * 64, "g" * 64],
    "ids": ["0", 0, "0-0", "0-1", "1", "1-0", "0-3", 100000, "00", "0-", "-0", "0-1-2", "x", ""],
    "thin": [1, 7, "5", 10**9, 0, 10**9 + 1, "07", "x"],
    "stepz": [1],
    "pop": ["p", ""],
    "first": ["a"],
    "second": ["b"],
    "district": ["d", "d\nd", ""],
}


class Program(common.ProgramCase):
    """The package refuses exactly the arguments that the program refuses, by the same line."""

    def verdicts(self, command: str, named: arguments.Words) -> tuple[str, str]:
        """Returns the lines of the package and of the program; '' where the words are taken.

        The graph is no JSON, so the program walks nothing.
        """
        try:
            arguments.test_words(command, named)
            own = ""
        except district_audit.ArgumentRefused as why:
            own = why.line
        if command == "make" and not own:
            return own, own
        line = program.call(self.program, words.words_of(command, named), b"[").line
        return own, line if line.startswith("words: ") else ""

    def test_drawn_arguments(self) -> None:
        chance = random.Random(57)
        seen = set()
        for number in range(400):
            command = chance.choice(arguments.ALL)
            named = {}
            for name in chance.sample(list(DRAWN), chance.randrange(3, 12)):
                named[name] = (
                    DRAWN[name][0] if chance.random() < 0.4 else chance.choice(DRAWN[name])
                )
            for name, row in arguments.TABLE.items():
                if command not in row.commands and chance.random() < 0.97:
                    named.pop(name, None)
                elif row.is_needed and command in row.commands and chance.random() < 0.97:
                    named.setdefault(name, DRAWN[name][0])
            if chance.random() < 0.97:
                named.pop("stepz", None)
            with self.subTest(number=number, command=command, named=named):
                own, line = self.verdicts(command, named)
                self.assertEqual(own, line)
                seen.add(own)
        self.assertGreater(len(seen), 25, "the drawn arguments are too much alike")

    def test_one_bad_value_after_the_other(self) -> None:
        """Each value of each argument beside good ones; no chance is in it."""
        columns = {name: DRAWN[name][0] for name in ("pop", "first", "second", "district")}
        good: common.Words = {**columns, "key": common.KEY, "ask": "gap:low"}
        for command in ("run", "trace"):
            for name, values in DRAWN.items():
                for value in values:
                    with self.subTest(command=command, name=name, value=value):
                        own, line = self.verdicts(command, {**good, name: value})
                        self.assertEqual(own, line)

    def test_a_blind_run(self) -> None:
        """The program walks blind, unless it saves or resumes; the package has `pilot` for it."""
        columns = {name: DRAWN[name][0] for name in ("pop", "first", "second", "district")}
        good: common.Words = {**columns, "key": common.KEY, "ask": "gap:low", "blind": True}
        bad = "words: bad value for --blind"
        for more, wanted in (({}, ""), ({"save": 1}, bad), ({"resume": True}, bad)):
            with self.subTest(more=more):
                own, line = self.verdicts("run", {**good, **anything(more)})
                self.assertEqual((own, line), (bad, wanted))

    def test_steps_of_a_serial_test(self) -> None:
        """Each number of steps up to 40, of which 1, 3, 7, 15 and 31 are good."""
        base = {name: DRAWN[name][0] for name in ("pop", "first", "second", "district")}
        taken = []
        for steps in range(1, 41):
            named = {**base, "key": common.KEY, "ask": "gap:low", "serial": True, "steps": steps}
            own, line = self.verdicts("run", named)
            self.assertEqual(own, line, steps)
            taken += [] if own else [steps]
        self.assertEqual(taken, [1, 3, 7, 15, 31])


class Signatures(unittest.TestCase):
    """Signatures as `run?` shows them: each argument with its default and its meaning."""

    CALLS = {
        "check": district_audit.check,
        "run": district_audit.run,
        "plans": district_audit.plans,
        "make": district_audit.make,
        "trace": district_audit.trace,
    }
    # Arguments of calls on a map that `prepare` has, too.
    PREPARED = (*arguments.LEFT_BY_NONE, *arguments.RULES)
    # Arguments of `plans` for which the package calls `run`.
    BY_RUNS = (("plans", "save"), ("plans", "resume"))
    # Defaults of a call that are not the program's.
    OWN = {("trace", "ask"): None, ("trace", "thin"): None}

    def test_each_word_of_the_program_is_an_argument_with_its_default(self) -> None:
        for command, call in self.CALLS.items():
            there = inspect.signature(anything(call)).parameters
            for name, row in arguments.TABLE.items():
                if name in arguments.OF_PILOT:
                    continue
                with self.subTest(command=command, name=name):
                    is_word = command in row.commands or (command, name) in self.BY_RUNS
                    self.assertEqual(name in there, is_word)
                    if name not in there:
                        continue
                    default = None if row.is_needed else row.default
                    default = self.OWN.get((command, name), default)
                    if name in self.PREPARED:
                        default = None if command == "make" else arguments.AS_PREPARED
                    self.assertEqual(there[name].default, default)

    def test_the_table_is_that_of_the_formats(self) -> None:
        """The ranges and defaults are those of docs/user/FORMATS.md."""
        text = (common.TOP / "docs" / "user" / "FORMATS.md").read_text(encoding="utf-8")
        rows = re.findall(
            r"^\| `--([a-z-]+)` \| ([a-z, ]+) \| (.*) \| (.*) \|$", text, re.MULTILINE
        )
        named = {name.replace("-", "_"): rest for name, *rest in rows}
        self.assertEqual(list(named), list(arguments.TABLE))
        for name, (commands, value, default) in named.items():
            row = arguments.TABLE[name]
            wanted = arguments.ALL if commands == "all" else tuple(commands.split(", "))
            with self.subTest(name=name):
                self.assertEqual(set(row.commands), set(wanted))
                if row.kind == "count" and name != "part":
                    self.assertIn(f"{row.least} to {row.most}", value)
                if row.kind == "count" and not row.is_needed:
                    self.assertEqual(default, str(row.default))

    def test_each_argument_has_its_meaning(self) -> None:
        for call in (*self.CALLS.values(), district_audit.read_trace):
            text = inspect.getdoc(call) or ""
            self.assertIn("\nParameters\n----------\n", text)
            for name in inspect.signature(anything(call)).parameters:
                with self.subTest(call=call.__name__, name=name):
                    self.assertEqual(name != "unknown", f"\n{name} : " in text)


class Pickling(unittest.TestCase):
    def test_exceptions(self) -> None:
        try:
            district_audit.run(CYCLE, **anything({**BASE, "slack": 0.05}))
        except district_audit.TypeRefused as why:
            found: list[BaseException] = [why]
        refused = district_audit.GraphRefused("plan: no votes", "labels")
        refused.faults = ["one", "two"]
        other = district_audit.CheckpointRefused("checkpoint: other job", "steps was 1 and is 2")
        other.differs = ["steps was 1 and is 2"]
        found += [
            refused, other, district_audit.WorkLeft("stopped: 5 of 12 done"),
            district_audit.ProgramFailed(-9, ""), district_audit.MissingExtra("pandas"),
            district_audit.ReportRefused(3, "why"), district_audit.PrepareRefused("why", ["a"]),
            district_audit.Interrupted("stopped", 3, 9, "folder"),
        ]
        for error in found:
            with self.subTest(error=error):
                again = pickle.loads(pickle.dumps(error))
                self.assertEqual(
                    (type(again), str(again), again.__dict__),
                    (type(error), str(error), error.__dict__),
                )

    def test_answers(self) -> None:
        report = district_audit.Report.parse(common.readme_report())
        prepared = district_audit.prepare(CYCLE, **common.COLUMNS)
        named = district_audit.PlanReports([("d", report)])
        for one in (report, prepared, named):
            again = pickle.loads(pickle.dumps(one))
            self.assertEqual((type(again), again), (type(one), one))


if __name__ == "__main__":
    unittest.main()
