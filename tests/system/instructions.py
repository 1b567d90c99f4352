"""Counts the instructions of fixed runs, and compares them with recorded numbers.

Usage: python3 -m tests.system.instructions PROGRAM FOLDERS [NAME..]
       python3 -m tests.system.instructions PROGRAM FOLDERS --record
PROGRAM is the auditor and FOLDERS the program audit_folders, both proved builds as rt leaves them.
valgrind's callgrind counts, so the numbers do not depend on what else the machine does: each run
may take at most 1.15 of its number in instructions.json. That file has a table for each kit that
was measured, by the line of `rt version`. With another kit, a run may take at most 1.5 of the
greatest number that any kit has for it, and a line says so. The runs are those in which work done
in vain, or again and again, would show: walks with each score and with rules, starts on large
graphs, saves, a run that goes on from many outcomes, gatherings, several plans. On six maps the
searches in a thousand steps are counted, too (calls of the function that searches); they may be
1.15 of their number and half a search more. In one run of four workers each thread has to work.
--record writes the numbers of this build as those of its kit. Record anew only with a reason, and
name it in the commit.
Prints a line for each run, and FAILED with its name for each that takes too much. The last line
counts; the status is 1 if one failed. Where valgrind is missing, or no numbers are recorded, what
needs them counts as skipped. With a processor to itself it takes about two minutes.
"""
# RUN: {auditor} {folders}
# NEEDS: valgrind
from __future__ import annotations

import json
import os
import pathlib
import re
import shutil
import subprocess
import sys
import tempfile
import time
from typing import Iterator, NamedTuple, Optional, Sequence

from tests.oracle import model
from tests.places import DATA, TEST_DATA, origin_of, package_command, package_environment


RECORD = TEST_DATA / "instructions.json"
MOST_TIMES, MORE_SEARCHES = 1.15, 0.5
# With a kit that was not measured, since compilers differ; work done again and again takes more.
MOST_TIMES_OF_OTHERS = 1.5
# Parts of the names of functions that search whether a unit may leave its district.
SEARCHES = "decide_by_search"
THREADS, LIMITS = "threads_of_four_workers", "limits_of_kits"
KEY = ["--key", "5" * 64]
SMALL = [*"run --pop pop --first a --second b --district d --slack 5000".split(), *KEY]
GRID = [*"run --pop TOTPOP --first DEM --second REP --district CD --slack 1000".split(), *KEY]
MADE = ["make", "--size", "3", "--slack", "1000", *KEY]
CALLED = re.compile(r"^calls=(\d+) ")
FUNCTION = re.compile(r"^cfn=\((\d+)\)(?: (.*))?$|^fn=\((\d+)\)(?: (.*))?$")


class Run(NamedTuple):
    """A run: the program's words, its input, and what lies in its folder and beside it."""

    words: list[str]
    graph: bytes = b""
    files: dict[str, bytes] = {}
    tool: str = "district-audit"
    steps: int = 0
    """The number of steps that are walked, where searches are counted."""


class Counted(NamedTuple):
    """The cost of a run."""

    instructions: int
    searches: Optional[float]
    """The number of searches in a thousand steps; None where they cannot be seen."""
    is_stripped: bool = False
    """True if the program has no names of functions, as those of a release."""


# ---- the runs


def example(name: str) -> bytes:
    return (DATA / name).read_bytes()


def prepare(name: str, *words: str) -> bytes:
    """Returns an example map as prepare.py prepares it."""
    with tempfile.TemporaryDirectory() as room:
        out = pathlib.Path(room) / name
        subprocess.run(
            [
                *package_command("prepare"), str(DATA / name), *words, "--slack", "1000", "--out",
                str(out),
            ],
            env=package_environment(),
            capture_output=True,
            check=True,
        )
        return out.read_bytes()


def square(side: int, queen: bool, apart: int = 1, bands: int = 4) -> bytes:
    """Returns a square of units in bands.

    With `queen` the units at corners are neighbors, too: at each `apart`-th corner of each
    `apart`-th row of corners.
    """
    nodes, edges = [], []
    for unit in range(side * side):
        row, column = divmod(unit, side)
        first = unit * 7919 % 101
        band = row * bands // side
        nodes.append({"pop": 1, "a": first, "b": 100 - first, "d": band, "id": unit})
        right, below = column + 1 < side, row + 1 < side
        edges += [(unit, unit + 1)] * right + [(unit, unit + side)] * below
        if queen and right and below and row % apart == 0 and column % apart == 0:
            edges += [(unit, unit + side + 1), (unit + 1, unit + side)]
    adjacency: list[list[dict[str, int]]] = [[] for _ in nodes]
    for one, other in edges:
        adjacency[one].append({"id": other})
    return json.dumps({"nodes": nodes, "adjacency": adjacency}).encode()


def checkpoint(words: list[str], graph: bytes, ids: Sequence[int], steps: int) -> bytes:
    """Returns a checkpoint with made-up outcomes that the job can have."""
    digest = model.job_of(model.Setting(words), graph).digest()
    outcomes = {
        one: model.Outcome(one % steps, [1 + one % steps], model.NO_BINS) for one in ids
    }
    return model.checkpoint(digest, 0, outcomes)


def several_plans(graph: bytes) -> bytes:
    """Returns a graph as one line, and a table that has its plan eight times, by other labels."""
    plans = range(8)
    rows = ["id," + ",".join(f"plan{plan}" for plan in plans)]
    for node in json.loads(graph)["nodes"]:
        rows.append(f"{node['id']}," + ",".join(f"{plan}x{node['d']}" for plan in plans))
    return graph.replace(b"\n", b"") + ("\n" + "\n".join(rows) + "\n").encode()


def walks() -> dict[str, Run]:
    """Returns the starts and the walks."""
    rules = [*"--region county --max-splits 30 --group a --group-of b --group-districts 0".split()]
    cut, steps = ["--ask", "cut-edges:low"], ["--steps", "200000"]
    stopping = "--walks 0 --ends 999 --hub-steps 100 --stop 20 --ask cut-edges:high".split()
    short = "--walks 0 --ends 99 --hub-steps 1000".split()
    return {
        "check_a_grid": Run(["check", *GRID[1:11]], example("grid.json")),
        "start_on_900_units": Run([*MADE, "--steps", "1", *cut]),
        "start_on_10000_units": Run(["make", "--size", "10", *MADE[3:], "--steps", "1", *cut]),
        "walk_cut_edges": Run([*MADE, *steps, *cut]),
        # Its number is that of the walk without a weight: a refused flip saves the later tests.
        "walk_with_a_weight": Run([*MADE, *steps, *cut, "--cut-weight", "24"]),
        "walk_mean_median": Run([*MADE, *steps, "--ask", "mean-median:low"]),
        "walk_gap_and_seats": Run([*MADE, *steps, "--ask", "gap:high,seats:low", "--shift", "yes"]),
        "walk_with_rules": Run(
            [*SMALL, "--steps", "100000", *cut, *rules], add_counties(square(40, False))
        ),
        "walk_a_serial_test": Run([*MADE, "--steps", "65535", *cut, "--serial", "yes"]),
        "parallel_test": Run(
            [*MADE, *"--walks 0 --ends 99 --hub-steps 1000".split(), "--ask", "seats:high"]
        ),
        "parallel_test_that_stops": Run([*MADE, *stopping]),
        "ends_of_100_steps": Run([*MADE, *"--walks 0 --ends 999 --hub-steps 100".split(), *cut]),
        "short_ends_on_2500_units": Run(["make", "--size", "5", *MADE[3:], *short, *cut]),
        "short_ends_on_10000_units": Run(["make", "--size", "10", *MADE[3:], *short, *cut]),
        "several_plans": Run(
            ["plans", *SMALL[1:], "--steps", "1000", "--ask", "gap:low"],
            several_plans(square(40, False)),
        ),
    }


def savings() -> dict[str, Run]:
    """Returns the saves and the gatherings."""
    cycle, short = example("cycle.json"), ["--steps", "8", "--ask", "gap:low"]
    many = [*SMALL, "--walks", "30000", *short]
    first = checkpoint(many, cycle, range(20000), 8)
    second = checkpoint(many, cycle, range(10000, 30000), 8)
    own, both = {"audit-0.ckpt": first}, {"../p/audit-0.ckpt": first, "../q/audit-0.ckpt": second}
    on = ["--save", "20000", "--resume", "yes", "--budget", "1"]
    return {
        "save_after_each_trajectory": Run([*SMALL, "--walks", "150", *short, "--save", "1"], cycle),
        "save_after_each_hundredth": Run(
            [*SMALL, "--walks", "6000", *short, "--save", "100"], cycle
        ),
        "resume_from_20000_outcomes": Run([*many, *on], cycle, own),
        "slots_of_20000_outcomes": Run(many, cycle, own, "audit_slots"),
        "gather_20000_and_20000_outcomes": Run(
            ["../p", "../q", *many], cycle, both, "audit_gather"
        ),
    }


def searches() -> dict[str, Run]:
    """Returns the walks whose searches are counted."""
    births = ("BIR74", "NWBIR74", "WBIR74")
    nc, two = make_words(*births, "PLAN11"), make_words(*births, "PLAN2")
    ny8 = ("POP8", "OWNING", "OTHERS", "PLAN8")
    return {
        "searches_on_a_grid": make_search(GRID, example("grid.json")),
        "searches_on_nc": make_search(nc, prepare("nc.json", *nc[1:9])),
        "searches_round_a_lake": make_search(two, prepare("nc.json", *two[1:9])),
        "searches_on_ny8": make_search(
            make_words(*ny8), prepare("ny8.json", *make_words(*ny8)[1:9], "--numbers", "nearest")
        ),
        "searches_with_corners": make_search(SMALL, square(24, True)),
        "searches_with_some_corners": make_search(SMALL, square(27, True, 3, 9)),
    }


def add_counties(graph: bytes) -> bytes:
    """Returns a graph whose units are in counties, by tens."""
    root = json.loads(graph)
    for node in root["nodes"]:
        node["county"] = node["id"] // 10
    return json.dumps(root).encode()


def make_words(population: str, first: str, second: str, district: str) -> list[str]:
    return [
        "run", "--pop", population, "--first", first, "--second", second, "--district", district,
        "--slack", "1000", *KEY,
    ]


def make_search(words: list[str], graph: bytes) -> Run:
    return Run([*words, "--steps", "100000", "--ask", "cut-edges:low"], graph, steps=100000)


# ---- counting


def calls_of(text: str, name: str) -> int:
    """Returns how often functions with a name like this are called, by what callgrind writes."""
    names: dict[str, str] = {}
    called, count = "", 0
    for line in text.splitlines():
        if found := FUNCTION.match(line):
            number = found[1] or found[3]
            names[number] = found[2] or found[4] or names.get(number, "")
            called = names[number] if found[1] else ""
        elif called and (calls := CALLED.match(line)):
            count += int(calls[1]) if name in called else 0
            called = ""
    return count


class Room:
    """The programs, and a folder for each run."""

    def __init__(self, top: pathlib.Path, program: str, folders: str) -> None:
        self.top, self.program = top, os.path.abspath(program)
        (top / "district-audit").symlink_to(self.program)
        for tool in ("audit_slots", "audit_gather"):
            (top / tool).symlink_to(os.path.abspath(folders))
        data = pathlib.Path(program).read_bytes()
        self.sees_searches = SEARCHES.encode() in data
        self.is_stripped = b".symtab\0" not in data

    def folder(self, run: Run) -> pathlib.Path:
        """Makes the run's folder anew, with its files."""
        for name in ("here", "p", "q"):
            shutil.rmtree(self.top / name, ignore_errors=True)
            (self.top / name).mkdir()
        for path, data in run.files.items():
            (self.top / "here" / path).write_bytes(data)
        return self.top / "here"

    def count(self, name: str, run: Run) -> Counted:
        """Makes a run under callgrind. Raises RuntimeError where it does not end well."""
        out = self.top / "calls"
        command = [
            "valgrind", "--tool=callgrind", f"--callgrind-out-file={out}", str(self.top / run.tool),
            *run.words,
        ]
        done = subprocess.run(
            command, input=run.graph, capture_output=True, cwd=self.folder(run), check=False
        )
        note = done.stderr.decode(errors="replace")
        found = re.search(r"Collected : (\d+)", note)
        if done.returncode not in (0, 7) or found is None:
            raise RuntimeError(f"{name} ends with status {done.returncode}: {note[-300:]}")
        if not run.steps or not self.sees_searches:
            return Counted(int(found[1]), None, self.is_stripped)
        calls = calls_of(out.read_text(errors="replace"), SEARCHES)
        return Counted(int(found[1]), calls * 1000 / run.steps)


def busy_threads(room: Room) -> tuple[int, int]:
    """Returns how many threads of a run of four workers used a processor, and their number."""
    words = [*MADE, *"--walks 64 --steps 300000 --ask cut-edges:low --workers 4".split()]
    seen: dict[str, int] = {}
    with subprocess.Popen(
        [room.program, *words], stdin=subprocess.DEVNULL, stdout=subprocess.DEVNULL,
        stderr=subprocess.DEVNULL,
    ) as process:
        while process.poll() is None:
            for thread in pathlib.Path(f"/proc/{process.pid}/task").glob("*/stat"):
                try:
                    fields = thread.read_text().rpartition(")")[2].split()
                    seen[thread.parent.name] = int(fields[11])
                except (OSError, IndexError):
                    continue
            time.sleep(0.005)
    return sum(ticks > 0 for ticks in seen.values()), len(seen)


# ---- the comparison

Result = tuple[str, Optional[bool], str]


Numbers = dict[str, dict[str, float]]


class Limits(NamedTuple):
    """The numbers that runs are compared with."""

    runs: Numbers
    times: float
    """The most that a run may take, as a multiple of its number of instructions."""


def choose_limits(kits: dict[str, Numbers], kit: str) -> Limits:
    """Returns the numbers of a kit; for one that was not measured the greatest of all kits."""
    if kit in kits:
        return Limits(kits[kit], MOST_TIMES)
    greatest: Numbers = {}
    for runs in kits.values():
        for name, numbers in runs.items():
            known = greatest.setdefault(name, dict(numbers))
            known.update({key: max(known.get(key, 0), one) for key, one in numbers.items()})
    return Limits(greatest, MOST_TIMES_OF_OTHERS)


def check_limits() -> Result:
    """Checks which numbers stand for a kit that was measured, and for another."""
    kits: dict[str, Numbers] = {
        "a": {"walk": {"instructions": 100}},
        "b": {"walk": {"instructions": 90, "searches": 2}, "start": {"instructions": 7}},
    }
    greatest: Numbers = {"walk": {"instructions": 100, "searches": 2}, "start": {"instructions": 7}}
    expected = [Limits(kits["a"], 1.15), Limits(greatest, 1.5)]
    came = [choose_limits(kits, kit) for kit in ("a", "c")]
    verdicts = [compare_run("walk", Counted(number, None), came[0])[1] for number in (115, 116)]
    verdicts += [compare_run("start", Counted(number, None), came[1])[1] for number in (10, 11)]
    is_good = came == expected and verdicts == [True, False, True, False]
    return LIMITS, is_good, f"{came} and {verdicts}; expected {expected}"


def compare_run(name: str, came: Counted, limits: Limits) -> Result:
    """Compares what a run took with its numbers; None says that there are none."""
    wanted = limits.runs.get(name)
    said = f"{came.instructions} instructions"
    if came.searches is not None:
        said += f", {came.searches:.3f} searches in a thousand steps"
    if wanted is None:
        return name, None, f"{said}; no numbers are recorded"
    times = came.instructions / wanted["instructions"]
    said += f"; {times:.3f} of the recorded {wanted['instructions']}"
    if times > limits.times:
        return name, False, f"{said}, and at most {limits.times} is expected"
    if "searches" in wanted and came.searches is None and came.is_stripped:
        return name, True, f"{said}; searches cannot be seen in a program without names"
    if "searches" in wanted and came.searches is None:
        return name, False, f"{said}; the program has no function {SEARCHES}"
    most = MOST_TIMES * wanted.get("searches", 0) + MORE_SEARCHES
    if came.searches is not None and came.searches > most:
        return name, False, f"{said}; at most {most:.3f} searches are expected"
    return name, True, said


def threads(room: Room) -> Result:
    """Sees that all four workers of a run work."""
    busy, there = busy_threads(room)
    said = f"{busy} of {there} threads used a processor, at least 4 are expected"
    return THREADS, busy >= 4, said


def kit_of(program: str) -> str:
    """Returns the line of the kit that built a program: that of its `.origin`, or of this machine.
    """
    origin = origin_of(program)
    if "kit" in origin or shutil.which("rt") is None:
        return origin.get("kit", "unknown")
    done = subprocess.run(["rt", "version"], capture_output=True, text=True, check=False)
    return done.stdout.strip() or "unknown"


def recorded_kits() -> dict[str, Numbers]:
    """Returns the recorded numbers of each kit that was measured."""
    kits: dict[str, Numbers] = {}
    if RECORD.exists():
        kits = json.loads(RECORD.read_text(encoding="utf-8"))
    return kits


def record(room: Room, chosen: dict[str, Run]) -> int:
    counted = {name: room.count(name, run) for name, run in chosen.items()}
    numbers: dict[str, dict[str, float]] = {}
    for name, came in counted.items():
        numbers[name] = {"instructions": came.instructions}
        if came.searches is not None:
            numbers[name]["searches"] = round(came.searches, 3)
    kit = kit_of(room.program)
    text = json.dumps({**recorded_kits(), kit: numbers}, indent=1) + "\n"
    RECORD.write_text(text, encoding="utf-8")
    print(f"instructions.py: {len(numbers)} runs recorded for {kit}")
    return 0


def compare_runs(room: Room, chosen: dict[str, Run], names: Sequence[str]) -> Iterator[Result]:
    """Makes the runs and compares each; without a number only those that are named are made."""
    kits, kit = recorded_kits(), kit_of(room.program)
    limits = choose_limits(kits, kit)
    if kit not in kits:
        print(
            f"no numbers are recorded for {kit}: each run is compared with the greatest number of"
            f" {', '.join(kits) or 'no kit'}, and at most {limits.times} of that is expected",
            flush=True,
        )
    if not names or LIMITS in names:
        yield check_limits()
    if not names or THREADS in names:
        yield threads(room)
    for name, run in chosen.items():
        if shutil.which("valgrind") is None:
            yield name, None, "valgrind is not installed"
        elif name not in limits.runs and name not in names:
            yield name, None, "no numbers are recorded; --record writes them"
        else:
            yield compare_run(name, room.count(name, run), limits)


def compare(room: Room, chosen: dict[str, Run], names: Sequence[str]) -> int:
    """Prints a line for each run, and their count; the status of the script."""
    results = []
    for name, is_good, line in compare_runs(room, chosen, names):
        front = {None: "skipped ", True: "", False: "FAILED "}[is_good]
        print(f"{front}{name}: {line}", flush=True)
        results.append(is_good)
    passed, failed, skipped = (results.count(value) for value in (True, False, None))
    print(f"instructions.py: {passed} passed, {failed} failed, {skipped} skipped")
    return 1 if failed else 0


def main(program: str, folders: str, *names: str) -> int:
    every = {**walks(), **savings(), **searches()}
    unknown = [name for name in names if name not in (*every, "--record", THREADS, LIMITS)]
    if unknown:
        print(f"no such run: {unknown[0]}; there are: {', '.join(every)}", file=sys.stderr)
        return 2
    # In memory, where there is such a folder: a save does not wait for a disk there.
    memory = "/dev/shm" if os.access("/dev/shm", os.W_OK) else None
    with tempfile.TemporaryDirectory(dir=memory) as top:
        room = Room(pathlib.Path(top), program, folders)
        if "--record" in names:
            return record(room, every)
        chosen = {name: run for name, run in every.items() if not names or name in names}
        return compare(room, chosen, names)


if __name__ == "__main__":
    sys.exit(main(*sys.argv[1:]))
