"""Measures what saving costs: many workers beside one, with and without `--save`, on a machine as
it is or kept busy.

Usage: python3 saving_cost.py PROGRAM [--walks N] [--steps N] [--save N] [--workers N,N,..] [--busy
           N] [--rounds N] [--memory FOLDER] [--judge]
PROGRAM is the built auditor. It walks 20,000 trajectories of ten steps on the grid of size 3 and
saves after every thousandth, where nothing else is said, with 1, 4 and 32 workers. Each is run
without saving, saving in a folder in memory (`--memory`, /dev/shm where nothing is said), where a
sync takes no time, and saving in a folder of the disk. All are run in turn, ROUNDS times (5), so
that other work of the machine weighs on all alike, and the median counts. With `--busy N` it keeps
N processes busy beside it. Prints for each number of workers the three times in seconds, what
saving in memory takes beside no saving, and what saving on the disk takes beside one worker. Ends
with 1 where a report is not the same as that of one worker without saving, or, with `--judge`,
where the first ratio is above 1.2 or the second above 1. Nothing is needed but Python.
"""
import argparse
import os
import statistics
import subprocess
import sys
import tempfile
import time
import typing

WAYS = ["no saving", "in memory", "on disk"]
# A number of workers, and one of WAYS.
Way = tuple[int, str]
# Works for as long as this script does, however that ends.
BUSY = "import os\nparent = os.getppid()\nwhile os.getppid() == parent: pass"


def words_of(args: argparse.Namespace, workers: int, save: int) -> list[str]:
    return [
        "make", "--size", "3", "--slack", "5000", "--ask", "cut-edges:low", "--key", "0" * 64,
        "--walks", str(args.walks), "--steps", str(args.steps), "--workers", str(workers), "--save",
        str(save),
    ]


def run_once(
    args: argparse.Namespace, workers: int, save: int, parent: typing.Optional[str]
) -> tuple[float, bytes]:
    """Returns the seconds of a run, and its report."""
    with tempfile.TemporaryDirectory(dir=parent) as folder:
        begun = time.monotonic()
        run = subprocess.run(
            [os.path.abspath(args.program), *words_of(args, workers, save)], cwd=folder,
            capture_output=True, check=False,
        )
        seconds = time.monotonic() - begun
    if run.returncode != 0:
        sys.exit(f"{args.program} ended with {run.returncode}: {run.stderr.decode()}")
    return seconds, run.stdout


def measure_rounds(args: argparse.Namespace) -> tuple[dict[Way, float], bool]:
    """Returns the seconds of each round by the number of workers and the way, and whether all
    reports are the same.
    """
    seconds: dict[Way, list[float]] = {}
    reports = set()
    for _ in range(args.rounds):
        for workers in args.workers:
            for way, save, parent in zip(
                WAYS, [0, args.save, args.save], [None, args.memory, None]
            ):
                took, report = run_once(args, workers, save, parent)
                seconds.setdefault((workers, way), []).append(took)
                reports.add(report)
    return {key: statistics.median(times) for key, times in seconds.items()}, len(reports) == 1


def table_of(args: argparse.Namespace, seconds: dict[Way, float]) -> tuple[list[str], bool]:
    """Returns the lines of the table, and whether each ratio is as wanted."""
    lines, good = [
        (
            "| workers | no saving | in memory | on disk | in memory / no saving | on disk / on"
            " disk with one |"
        ),
        "|---|---|---|---|---|---|",
    ], True
    one = seconds[args.workers[0], "on disk"]
    for workers in args.workers:
        none, memory, disk = (seconds[workers, way] for way in WAYS)
        good = good and memory <= 1.2 * none and disk <= one
        lines.append(
            f"| {workers} | {none:.3f} | {memory:.3f} | {disk:.3f} | {memory / none:.2f} |"
            f" {disk / one:.2f} |"
        )
    return lines, good


def main() -> None:
    parser = argparse.ArgumentParser(
        description=__doc__, formatter_class=argparse.RawDescriptionHelpFormatter
    )
    parser.add_argument("program")
    for name, number in (
        ("--walks", 20000), ("--steps", 10), ("--save", 1000), ("--busy", 0), ("--rounds", 5),
    ):
        parser.add_argument(name, type=int, default=number)
    parser.add_argument(
        "--workers", type=lambda text: [int(part) for part in text.split(",")], default=[1, 4, 32]
    )
    parser.add_argument("--memory", default="/dev/shm")
    parser.add_argument("--judge", action="store_true")
    args = parser.parse_args()
    others = [subprocess.Popen([sys.executable, "-c", BUSY]) for _ in range(args.busy)]
    try:
        seconds, same = measure_rounds(args)
    finally:
        for other in others:
            other.kill()
            other.wait()
    lines, good = table_of(args, seconds)
    print(*lines, sep="\n")
    if not same:
        print("reports differ")
    sys.exit(0 if same and (good or not args.judge) else 1)


main()
