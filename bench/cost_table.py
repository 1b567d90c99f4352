"""Measures the cost of an audit: runs a program on graphs of several sizes, and writes a table in
Markdown with its times.

Usage: python3 -m bench.cost_table PROGRAM [--steps N] [--most UNITS] [--maps FOLDER] [--into FILE]
       python3 -m bench.cost_table workers PROGRAM [--plain OTHER] [--steps N] [--into FILE]
PROGRAM is the built auditor. Each row is one graph: its units, edges and districts, how long it
takes to the first step (read, judged, with one worker ready), what a million further steps of one
walk take (measured over N, ten million where nothing is said), both in seconds of the processor,
what each worker beyond the first adds to the start, and the most memory with one worker. The graphs
are grids of `make`; the tracts of ny8.json with two districts and with eight, and with `--maps` the
counties that real_maps.py made in FOLDER, with two and with thirteen; and grids with both
diagonals, which the script writes as files, with texts as ids. With `--most` graphs with more units
are left out. A line below the table gives the time of 10^9 steps. `workers` walks 16 trajectories
of N steps (ten million) on the grid of size 10, by one worker and by four, and prints the speed of
four as a multiple of one's, by the clock. With `--plain` it does so for OTHER too, a program with
the same words. The two run in turns, so that other work of the machine weighs on both alike. With
`--into` the text replaces the lines of FILE between BEGIN and END below, each with its kind. Each
number is the best of three runs. The exit status is 1 if a program ends with another than 0.
"""
import argparse
import json
import os
import shlex
import subprocess
import sys
import tempfile
import time
import typing

from tests.places import DATA, package_command, package_environment

BEGIN = {
    "table": "<!-- written by bench/cost_table.py -->",
    "workers": "<!-- written by bench/cost_table.py workers -->",
}
END = "<!-- end of what it wrote -->"
TRACTS = "--pop POP8 --first OWNING --second OTHERS --numbers nearest --missing zero"
KEY = ["--key", "0" * 64, "--slack", "1000", "--ask", "cut-edges:low,gap:high"]
COLUMNS = ["--pop", "pop", "--first", "a", "--second", "b", "--district", "d"]


def make_crossed_grid(rows: int, columns: int, districts: int) -> bytes:
    """Returns the bytes of a grid with both diagonals of each square: texts as ids, bands of rows
    as districts.
    """
    names = [[f"p{row * columns + column}" for column in range(columns)] for row in range(rows)]
    nodes, near = [], []
    for row in range(rows):
        for column in range(columns):
            unit = row * columns + column
            nodes.append(
                {
                    "id": names[row][column],
                    "pop": 100,
                    "a": 37 * unit % 101,
                    "b": 53 * unit % 97,
                    "d": str(row * districts // rows),
                }
            )
            near.append(
                [
                    {"id": names[r][c]}
                    for r in range(max(0, row - 1), min(rows, row + 2))
                    for c in range(max(0, column - 1), min(columns, column + 2))
                    if (r, c) != (row, column)
                ]
            )
    return json.dumps(
        {"directed": False, "multigraph": False, "graph": [], "nodes": nodes, "adjacency": near}
    ).encode()


class Run(typing.NamedTuple):
    """The cost of a run, and the text that it wrote."""

    seconds: float
    megabytes: float
    text: str


def run_once(program: str, words: list[str], data: bytes) -> Run:
    """Runs a program on these bytes, and counts the seconds of the processor."""
    with tempfile.TemporaryFile() as source, tempfile.TemporaryFile() as written:
        source.write(data)
        source.seek(0)
        child = subprocess.Popen([program, *words], stdin=source, stdout=written)
        _, status, usage = os.wait4(child.pid, 0)
        child.returncode = os.waitstatus_to_exitcode(status)
        if child.returncode != 0:
            sys.exit(f"{program} {' '.join(words)} ended with {child.returncode}")
        written.seek(0)
        seconds = usage.ru_utime + usage.ru_stime
        return Run(seconds, usage.ru_maxrss / 1024, written.read().decode())


def best(program: str, words: list[str], data: bytes) -> Run:
    runs = [run_once(program, words, data) for _ in range(3)]
    return best_of(runs)


def best_of(runs: list[Run]) -> Run:
    """Returns the least seconds and the most memory of some runs, with the text of the first."""
    return Run(
        min(run.seconds for run in runs), max(run.megabytes for run in runs), runs[0].text
    )


def megabytes(memory: float) -> str:
    """Returns a size of memory as text; what this script itself takes is the least to be seen."""
    least = run_once("/bin/true", [], b"").megabytes
    return f"{memory:.0f}" if memory > least + 1 else f"at most {memory:.0f}"


def prepare_map(path: str, words: list[str], column: str) -> tuple[bytes, list[str]]:
    """Returns the bytes of a real map with the plan of this column as its districts, and the words
    of `run` for it.
    """
    with tempfile.NamedTemporaryFile(suffix=".json") as graph:
        done = subprocess.run(
            [
                *package_command("prepare"), path, *words, "--district", column, "--slack", "1000",
                "--out", graph.name,
            ],
            stderr=subprocess.PIPE,
            text=True,
            check=False,
            env=package_environment(),
        )
        if done.returncode != 0:
            sys.exit(done.stderr)
        return graph.read(), ["run", *words[:6], "--district", column]


def real_maps(folder: typing.Optional[str]) -> list[tuple[str, str, list[str], tuple[int, int]]]:
    """Returns the name, file, words for prepare.py and districts of each map."""
    maps = [("tracts of upstate New York", str(DATA / "ny8.json"), shlex.split(TRACTS), (2, 8))]
    if folder is not None:
        with open(f"{folder}/plans", encoding="utf-8") as file:
            words = next(
                line.rstrip("\n").split("\t")[6] for line in file if line.startswith("counties\t")
            )
        maps.append(
            (
                "counties of the United States", f"{folder}/counties.json", shlex.split(words),
                (2, 13),
            )
        )
    return maps


def row_of(
    program: str, name: str, command: list[str], data: bytes, steps: int
) -> tuple[str, float]:
    """Returns the row, and the seconds for a million steps."""
    words = [*command, *KEY]
    start, memory, report = best(program, [*words, "--steps", "1"], data)
    more, _, _ = best(program, [*words, "--steps", "1", "--walks", "5", "--workers", "5"], data)
    alone, _, _ = best(program, [*words, "--steps", "1", "--walks", "5", "--workers", "1"], data)
    walked, _, _ = best(program, [*words, "--steps", str(steps)], data)
    units, edges, districts = next(
        line.split()[1::2] for line in report.split("\n") if line.startswith("units ")
    )
    million = max(0.0, walked - start) * 1e6 / steps
    row = (
        f"| {name} | {units} | {edges} | {districts} | {start:.2f} | {million:.3f} |"
        f" {max(0.0, more - alone) / 4:.2f} | {megabytes(memory)} |"
    )
    return row, million


def format_range(least: float, most: float) -> str:
    """Returns in words the time of 10^9 steps, from the least and most seconds for a million."""
    (low, unit), (high, last) = (
        (1000 * million, "seconds") if million < 0.1 else (1000 * million / 60, "minutes")
        for million in (least, most)
    )
    if unit != last:
        return f"{low:.0f} {unit} to {high:.0f} {last}"
    return (
        f"{low:.0f} {unit}" if f"{low:.0f}" == f"{high:.0f}" else f"{low:.0f} to {high:.0f} {unit}"
    )


def format_times(of: typing.Mapping[str, list[float]]) -> str:
    """Returns the time of a walk of 10^9 steps by the table, on each kind of graph."""
    said = "; ".join(
        f"{kind} {format_range(min(seconds), max(seconds))}"
        for kind, seconds in of.items()
        if seconds
    )
    return f"By these rows a walk of 10^9 steps takes: {said}."


def table(program: str, steps: int, most: int, folder: typing.Optional[str]) -> str:
    lines = [
        (
            "| graph | units | edges | districts | start, s | a million steps, s | each further"
            " worker, s | memory, MB |"
        ),
        "|---|---|---|---|---|---|---|---|",
    ]
    of: dict[str, list[float]] = {
        "on the grids of `make`": [],
        "on real maps with eight districts or more": [],
        "on real maps with two districts": [],
        "with diagonals": [],
    }

    def add(kind: str, name: str, command: list[str], data: bytes) -> None:
        row, million = row_of(program, name, command, data, steps)
        lines.append(row)
        of[kind].append(million)

    for size in (size for size in (1, 3, 10, 30) if 100 * size * size <= most):
        add("on the grids of `make`", f"`make --size {size}`", ["make", "--size", str(size)], b"")
    for name, path, words, counts in real_maps(folder):
        for districts in counts:
            data, command = prepare_map(path, words, f"PLAN{districts}")
            if len(json.loads(data)["nodes"]) <= most:
                add(
                    (
                        "on real maps with"
                        f" {'two districts' if districts == 2 else 'eight districts or more'}"
                    ),
                    name,
                    command,
                    data,
                )
    for rows, columns in (
        shape for shape in ((30, 30), (100, 100), (250, 400)) if shape[0] * shape[1] <= most
    ):
        data = make_crossed_grid(rows, columns, 10)
        add(
            "with diagonals",
            f"a file of {len(data) / 1e6:.1f} MB, {rows} by {columns} with diagonals",
            ["run", *COLUMNS],
            data,
        )
    return "\n".join([*lines, "", format_times(of)])


def measure_seconds(program: str, words: list[str]) -> float:
    begin = time.perf_counter()
    run_once(program, words, b"")
    return time.perf_counter() - begin


def workers(program: str, plain: typing.Optional[str], steps: int) -> str:
    """Returns the speed of four workers as a multiple of one's, of both programs, in turns."""
    words = ["make", "--size", "10", *KEY, "--walks", "16", "--steps", str(steps), "--workers"]
    programs = [("the auditor", program)] + ([("a plain program", plain)] if plain else [])
    times: dict[tuple[str, str], list[float]] = {
        (name, count): [] for name, _ in programs for count in ("1", "4")
    }
    for _ in range(3):
        for count in ("1", "4"):
            for name, path in programs:
                times[name, count].append(measure_seconds(path, [*words, count]))
    lines = [
        f"| 16 walks of {steps} steps | one worker, s | four workers, s | times as fast |",
        "|---|---|---|---|",
    ]
    for name, _ in programs:
        one, four = min(times[name, "1"]), min(times[name, "4"])
        lines.append(f"| {name} | {one:.2f} | {four:.2f} | {one / four:.2f} |")
    return "\n".join(lines)


def write(text: str, kind: str, into: typing.Optional[str]) -> None:
    if into is None:
        print(text)
        return
    with open(into, encoding="utf-8") as file:
        page = file.read()
    before, rest = page.split(BEGIN[kind], 1)
    after = rest.split(END, 1)[1]
    with open(into, "w", encoding="utf-8") as file:
        file.write(f"{before}{BEGIN[kind]}\n{text}\n{END}{after}")


def main(kind: str, words: argparse.Namespace) -> None:
    program = os.path.abspath(words.program)
    if kind == "workers":
        text = workers(program, words.plain and os.path.abspath(words.plain), words.steps)
    else:
        text = table(program, words.steps, words.most, words.maps)
    write(text, kind, words.into)


def arguments(kind: str, given: list[str]) -> argparse.Namespace:
    parser = argparse.ArgumentParser(
        prog="python3 -m bench.cost_table", description=__doc__,
        formatter_class=argparse.RawDescriptionHelpFormatter,
    )
    parser.add_argument("program", help="the built auditor")
    parser.add_argument("--steps", type=int, default=10_000_000, help="the length of a walk")
    parser.add_argument("--into", metavar="FILE", help="the file that gets the table")
    if kind == "workers":
        parser.add_argument("--plain", metavar="OTHER", help="a program with the same words")
    else:
        parser.add_argument("--most", type=int, default=100_000, help="the most units of a graph")
        parser.add_argument("--maps", metavar="FOLDER", help="the folder with the twelve real maps")
    return parser.parse_args(given)


if __name__ == "__main__":
    KIND = "workers" if sys.argv[1:2] == ["workers"] else "table"
    main(KIND, arguments(KIND, sys.argv[2 if KIND == "workers" else 1:]))
