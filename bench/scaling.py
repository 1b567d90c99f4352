"""Measures how much faster more workers make each kind of run, beside a plain program.

Usage: python3 -m bench.scaling PROGRAM [--plain OTHER] [--most N] [--steps N] [--rounds N]
PROGRAM is the built auditor, and OTHER a program with the words of `make`. OTHER makes the walks
and the ends only: it need not save, stop early or read plans. Each kind of run is made by one
worker, by two, and so on up to N (the machine's processors), in turns, so that other work of the
machine weighs on all alike. The best of the rounds (3) counts. A walk has N steps (a million).
Prints a row for each kind, program and number of workers: the seconds by the clock, how many times
as fast as one worker, and the seconds of the processors as a multiple of one worker's. Where that
multiple is about 1 and the speed is low, workers wait, or other work has the processors; where it
grows with the workers, they do more work, or get in each other's way. The last line gives the load
of the machine before and after. The exit status is 1 if a program ends with another than 0.
"""
import os
import sys
import tempfile
import time
import typing

from bench.cost_table import KEY, run_once
from bench.plans_cost import PLANS, WORDS, graph_of, plan_of, table_of
from tests.parsers import parser_of


class Kind(typing.NamedTuple):
    """A kind of run: its words without the number of workers, and its input."""

    words: list[str]
    data: bytes = b""
    is_plain: bool = False
    """True if the plain program makes it, too."""


class Spent(typing.NamedTuple):
    """The seconds of a run, by the clock and of the processors."""

    clock: float
    processors: float


def kinds_of(steps: int) -> dict[str, Kind]:
    """Returns the kinds of run; each walks about 16 times this number of steps."""
    walks = ["--walks", "16", "--steps", str(steps)]
    ends = ["--walks", "0", "--hub-steps", "1000", "--steps", "1000", "--ends"]
    plans = [plan_of(number) for number in range(PLANS)]
    several = f"{graph_of(plans[0])}\n{table_of(plans[1:])}".encode()
    count = max(1, 16 * steps // 1000)

    def grid(size: int, *words: str) -> list[str]:
        return ["make", "--size", str(size), *KEY, *words]

    return {
        "16 walks": Kind(grid(10, *walks), is_plain=True),
        "16 walks, a save after each": Kind(grid(10, *walks, "--save", "1")),
        f"at most {count} ends of 1000 steps, `--stop 20`": Kind(
            grid(3, *ends, str(count), "--stop", "20")
        ),
        "`plans`, 16 plans of one walk": Kind(["plans", *WORDS, "--steps", str(steps)], several),
        f"{count} ends of 1000 steps, 900 units": Kind(grid(3, *ends, str(count)), is_plain=True),
        f"{count} ends of 1000 steps, 10000 units": Kind(
            grid(10, *ends, str(count)), is_plain=True
        ),
    }


def measure(program: str, kind: Kind, workers: int) -> Spent:
    """Makes a run in an empty folder, where it may save."""
    here = os.getcwd()
    with tempfile.TemporaryDirectory() as room:
        os.chdir(room)
        try:
            begin = time.perf_counter()
            run = run_once(program, [*kind.words, "--workers", str(workers)], kind.data)
            return Spent(time.perf_counter() - begin, run.seconds)
        finally:
            os.chdir(here)


def rows_of(
    name: str, kind: Kind, programs: list[tuple[str, str]], most: int, rounds: int
) -> list[str]:
    """Measures a kind of run, and returns its rows."""
    cases = [(title, path, count) for count in range(1, most + 1) for title, path in programs]
    spent: dict[tuple[str, int], list[Spent]] = {(title, count): [] for title, _, count in cases}
    for _ in range(rounds):
        for title, path, count in cases:
            spent[title, count].append(measure(path, kind, count))
    best = {
        case: Spent(min(run.clock for run in runs), min(run.processors for run in runs))
        for case, runs in spent.items()
    }
    return [
        f"| {name} | {title} | {count} | {best[title, count].clock:.2f} |"
        f" {best[title, 1].clock / best[title, count].clock:.2f} |"
        f" {best[title, count].processors / best[title, 1].processors:.2f} |"
        for title, _ in programs
        for count in range(1, most + 1)
    ]


def main(program: str, plain: typing.Optional[str], most: int, steps: int, rounds: int) -> None:
    load = os.getloadavg()[0]
    print("| run | program | workers | seconds | times as fast | processor time |")
    print("|---|---|---|---|---|---|")
    for name, kind in kinds_of(steps).items():
        programs = [("auditor", os.path.abspath(program))]
        if plain is not None and kind.is_plain:
            programs.append(("plain", os.path.abspath(plain)))
        for row in rows_of(name, kind, programs, most, rounds):
            print(row)
        sys.stdout.flush()
    print(
        f"\nLoad of the machine with {os.cpu_count()} processors: {load:.1f} before,"
        f" {os.getloadavg()[0]:.1f} after."
    )


if __name__ == "__main__":
    PARSER = parser_of("bench.scaling", __doc__)
    PARSER.add_argument("program", help="the built auditor")
    PARSER.add_argument("--plain", metavar="OTHER", help="a program with the words of `make`")
    PARSER.add_argument("--most", type=int, default=os.cpu_count() or 1, help="the most workers")
    PARSER.add_argument("--steps", type=int, default=1_000_000, help="the length of a walk")
    PARSER.add_argument("--rounds", type=int, default=3, help="of how many runs the best counts")
    main(**vars(PARSER.parse_args()))
