"""Compares calls with a weight on cut edges, pairs of walks and pilots, byte for byte, with those
of the plain model in model.py.

Usage: python3 -m tests.differential.compare_weights PROGRAM GATHERER [RUNS [SEED [PROCESSES]]]
PROGRAM is the built auditor, GATHERER the built `audit_gather`. Each of RUNS (300) runs draws, from
SEED (1), a graph and rules as compare_rules.py does. In a third of the graphs one unit touches all
others, so that a flip changes more cut edges than a step may. Most runs have a drawn weight, from
1 to 64 by quarters, and half the pairs of walks. In turn they are checks, runs of which some are
serial, grids that are made, pilots, traces, reports of several plans, runs that are resumed (some
with another weight), runs whose parts are gathered from folders, and words that are refused.
Status, text, note and files must be the model's. Prints each run that differs, and how many runs of
each kind there were. Ends with 1 where a run differed.
"""
# RUN: {auditor} {gatherer} 60 1
from __future__ import annotations

import argparse
import collections
import json
import multiprocessing
import pathlib
import random
import subprocess
import sys
import tempfile
import typing
from collections.abc import Callable, Sequence

from tests.differential.compare_rules import (
    BASE, Graph, audit_words, drawn_graph, drawn_rules, files, reach_plan, table_of,
)
from tests.oracle import model
from tests.parsers import add_draws, comparing_parser

Counts = collections.Counter[str]
NO_WORDS: list[str] = []


class Programs(typing.NamedTuple):
    """The paths of the auditor and of the gatherer."""

    auditor: str
    gatherer: str


class Result(typing.NamedTuple):
    """A count for each trait of a run, and what differs from the model; "" if nothing does."""

    traits: Counts
    difference: str


# ---- what is drawn


def add_hub(chance: random.Random, graph: Graph) -> None:
    """Makes a drawn unit a neighbor of all others."""
    hub = chance.randrange(len(graph["nodes"]))
    near = {entry["id"] for entry in graph["adjacency"][hub]}
    for unit in range(len(graph["nodes"])):
        if unit != hub and unit not in near:
            length = chance.randint(0, 9)
            graph["adjacency"][hub].append({"id": unit, "l": length})
            graph["adjacency"][unit].append({"id": hub, "l": length})


def drawn_weight(chance: random.Random) -> str:
    """Returns a weight by quarters; low ones freeze walks, so they are rare."""
    least = chance.choice((1, 20, 40, 56))
    return f"{chance.randint(least, 63)}{chance.choice(('', '.25', '.5', '.75'))}"


def new_words(chance: random.Random) -> list[str]:
    """Returns words of a weight and of pairs of walks."""
    weight = ["--cut-weight", drawn_weight(chance)]
    if chance.random() < 0.1:
        weight = chance.choice((["--cut-weight", "64"], NO_WORDS))
    pairs = ["--pairs", chance.choice(("yes", "yes", "yes", "no"))]
    return [*weight, *(pairs if chance.random() < 0.6 else [])]


def many_walks(chance: random.Random, words: Sequence[str]) -> list[str]:
    """Returns words of an audit with two to five walks."""
    walks = list(words)
    walks[walks.index("--walks") + 1] = str(chance.randint(2, 5))
    return walks


def leave_out(words: Sequence[str], *names: str) -> list[str]:
    """Returns the words without these names and their values."""
    pairs = zip(words[::2], words[1::2])
    return [word for pair in pairs for word in pair if pair[0] not in names]


class Drawn(typing.NamedTuple):
    """A graph with another plan, and the words of a run with them."""

    graph: Graph
    other: list[int]
    words: list[str]

    @property
    def data(self) -> bytes:
        """The bytes that a call reads."""
        return json.dumps(self.graph).encode()


def drawn_run(chance: random.Random) -> Drawn:
    graph, other = drawn_graph(chance)
    if chance.random() < 1 / 3:
        add_hub(chance, graph)
    rules = drawn_rules(chance, graph) if chance.random() < 0.5 else []
    audit = many_walks(chance, audit_words(chance, "--length" in rules))
    words = [*BASE, "--slack", chance.choice(("10000", "10000", "6000")), *rules, *audit]
    return Drawn(graph, other, [*words, *new_words(chance)])


# ---- calls

# Words, and what is read.
Call = tuple[list[str], bytes]


def compare(program: str, call: Call, slots: model.Slots, folder: str) -> str:
    """Makes a call in a folder. Returns what differs from the model, which begins with these slots.

    With several workers the order of the outcomes in slots is not known.
    """
    words, data = call
    wanted = model.audit(words, data, slots)
    done = subprocess.run(
        [program, *words], input=data, capture_output=True, check=False, cwd=folder
    )
    found = model.End(done.returncode, done.stdout.decode(), done.stderr.decode(), files(folder))
    is_alone = "--workers" not in words or words[words.index("--workers") + 1] == "1"
    if found == wanted or not is_alone and found[:3] == wanted[:3]:
        return ""
    return f"{' '.join(words)}\n{data.decode()}\nwanted {wanted}\nfound {found}\n"


def compare_alone(program: str, *call: object) -> str:
    """Makes a call of words and bytes in an empty folder."""
    words, data = typing.cast(Call, call)
    with tempfile.TemporaryDirectory() as folder:
        return compare(program, (words, data), [None, None], folder)


def run_check(chance: random.Random, programs: Programs, one: Drawn) -> str:
    names = ("--pop", "--first", "--second", "--district", "--slack", "--cut-weight", "--source")
    pairs = zip(one.words[::2], one.words[1::2])
    words = [word for pair in pairs for word in pair if pair[0] in names]
    return compare_alone(programs.auditor, ["check", *words], one.data)


def run_plain(chance: random.Random, programs: Programs, one: Drawn) -> str:
    has_ends = one.words[one.words.index("--ends") + 1] != "0"
    stop = ["--stop", "1"] if has_ends and chance.random() < 0.3 else []
    return compare_alone(programs.auditor, ["run", *one.words, *stop], one.data)


def run_make(chance: random.Random, programs: Programs, one: Drawn) -> str:
    words = [
        "make", "--size", "1", "--key", chance.randbytes(32).hex(), "--walks", "2", "--steps",
        str(chance.randint(1, 60)), "--slack", "2000", "--ask", "gap:low,cut-edges:high",
        *new_words(chance),
    ]
    grid = model_grid(words)
    wanted = model.audit(["run", *BASE_OF_GRID, *words[3:]], grid, [None, None])
    done = subprocess.run(
        [programs.auditor, *words], input=b"", capture_output=True, check=False
    )
    found = (done.returncode, done.stdout.decode(), done.stderr.decode())
    return "" if found == wanted[:3] else f"{' '.join(words)}\nwanted {wanted}\nfound {found}\n"


BASE_OF_GRID = "--pop pop --first a --second b --district district".split()


def model_grid(words: Sequence[str]) -> bytes:
    """Returns the grid of size 1 of `make`, as networkx writes it."""
    votes = [draw % 101 for draw in model.draws(bytes.fromhex(words[4]), 2**32, 100)]
    nodes = [
        {"a": a, "b": 100 - a, "district": u // 10, "id": u, "pop": 100}
        for u, a in enumerate(votes)
    ]
    near = [
        [v for v in (u - 10, u - 1, u + 1, u + 10) if 0 <= v < 100
         and (u // 10 == v // 10 or u % 10 == v % 10)]
        for u in range(100)
    ]
    rows = [[{"id": v} for v in row] for row in near]
    return json.dumps({"nodes": nodes, "adjacency": rows}).encode()


def run_pilot(chance: random.Random, programs: Programs, one: Drawn) -> str:
    return compare_alone(programs.auditor, ["run", *one.words, "--blind", "yes"], one.data)


def run_trace(chance: random.Random, programs: Programs, one: Drawn) -> str:
    words = leave_out(one.words, "--pairs", "--serial", "--shift", "--workers")
    count = sum(int(words[words.index(name) + 1]) for name in ("--walks", "--ends"))
    ids = f"{chance.randrange(count)}-{count - 1}"
    thin = str(chance.choice((1, 7, 1000)))
    return compare_alone(
        programs.auditor, ["trace", *words, "--ids", ids, "--thin", thin], one.data
    )


def run_plans(chance: random.Random, programs: Programs, one: Drawn) -> str:
    other = reach_plan(one.words, one.data, one.other)
    return compare_alone(
        programs.auditor, ["plans", *one.words], one.data + b"\n" + table_of(one.graph, other)
    )


def run_resumed(chance: random.Random, programs: Programs, one: Drawn) -> str:
    """Stops a run, and resumes it; a quarter with another weight, which is another job."""
    second = list(one.words)
    if "--cut-weight" in second and chance.random() < 0.25:
        second[second.index("--cut-weight") + 1] = drawn_weight(chance)
    if "--pairs" in second and chance.random() < 0.3:
        second[second.index("--pairs") + 1] = chance.choice(("yes", "no"))
    saving = ["--save", "1", "--budget", str(chance.randint(0, 3))]
    with tempfile.TemporaryDirectory() as folder:
        first = (["run", *one.words, *saving], one.data)
        difference = compare(programs.auditor, first, [None, None], folder)
        last = (["run", *second, "--save", "2", "--resume", "yes"], one.data)
        return difference + compare(programs.auditor, last, files(folder), folder)


def run_gathered(chance: random.Random, programs: Programs, one: Drawn) -> str:
    """Walks two or three parts in folders, gathers them, and writes the report of all."""
    count, difference = chance.randint(2, 3), ""
    with tempfile.TemporaryDirectory() as folder:
        names = [f"part {part}" for part in range(count)]
        for part, name in enumerate(names):
            pathlib.Path(folder, name).mkdir()
            words = ["run", *one.words, "--save", "1", "--parts", str(count), "--part", str(part)]
            path = str(pathlib.Path(folder, name))
            difference += compare(programs.auditor, (words, one.data), [None, None], path)
        if difference or any(slot is None for slot in files(path)[:1]):
            return difference  # the words or the plan are refused
        done = subprocess.run(
            [programs.gatherer, *names, "run", *one.words], input=one.data, capture_output=True,
            check=False, cwd=folder,
        )
        if done.returncode:
            return f"gathering: status {done.returncode}: {done.stderr.decode()}"
        last = (["run", *one.words, "--save", "1", "--resume", "yes"], one.data)
        return compare(programs.auditor, last, files(folder), folder)


def run_refused(chance: random.Random, programs: Programs, one: Drawn) -> str:
    """Makes a call with a value that may be refused, or with words that may not be together."""
    weights = (
        "0", "65", "x", "", "1", "0.75", "33.0", "33.50", "033", "33.", ".5", "+33", "64.25",
        "64.0", "64", "33.125", "33,5", "1.75", "33.25 ", "33.25",
    )
    words = leave_out(one.words, "--cut-weight", "--pairs")
    words += chance.choice((
        ["--cut-weight", chance.choice(weights)],
        ["--pairs", chance.choice(("yes", "no", "Yes", ""))],
        ["--blind", chance.choice(("yes", "no", "1"))],
        ["--blind", "yes", "--save", chance.choice(("0", "1", "x"))],
        ["--blind", "yes", "--resume", chance.choice(("yes", "no"))],
        ["--cut-weight", "33", "--cut-weight", "33"],
        ["--pairs", "yes", "--blind", "yes"],
    ))
    words[words.index("--walks") + 1] = str(chance.randint(0, 2))
    command = chance.choice(("run", "run", "run", "check", "plans", "trace", "make"))
    return compare_alone(programs.auditor, [command, *words], one.data)


Kind = Callable[[random.Random, Programs, Drawn], str]
KINDS: dict[str, tuple[Kind, int]] = {
    "checked": (run_check, 5),
    "plain": (run_plain, 30),
    "made": (run_make, 5),
    "pilots": (run_pilot, 5),
    "traced": (run_trace, 15),
    "several plans": (run_plans, 8),
    "resumed": (run_resumed, 17),
    "gathered": (run_gathered, 10),
    "refused words": (run_refused, 5),
}


def one_run(task: tuple[int, int, Programs]) -> Result:
    place, seed, programs = task
    chance = random.Random(f"{seed} {place}")
    shares = [share for _, share in KINDS.values()]
    name = chance.choices(list(KINDS), shares)[0]
    one = drawn_run(chance)
    difference = KINDS[name][0](chance, programs, one)
    traits = collections.Counter([name])
    if name not in ("refused words", "made"):
        traits["weighted"] += "--cut-weight" in one.words
        traits["with pairs"] += ["--pairs", "yes"] in [one.words[k:k + 2] for k in
                                                       range(0, len(one.words), 2)]
        traits["serial"] += "--serial" in one.words
    named = f"run {place} of seed {seed}, {name}: " if difference else ""
    return Result(traits, named + difference)


def main(
    program: str, gatherer: str, runs: int = 300, seed: int = 1, processes: int = 4
) -> int:
    paths = (str(pathlib.Path(one).absolute()) for one in (program, gatherer))
    traits: Counts = collections.Counter()
    programs, wrong = Programs(*paths), 0
    with multiprocessing.Pool(processes) as pool:
        tasks = [(place, seed, programs) for place in range(runs)]
        for one in pool.imap_unordered(one_run, tasks):
            traits.update(one.traits)
            wrong += one.difference != ""
            print(one.difference, end="", flush=True)
    print(", ".join(f"{count} {name}" for name, count in sorted(traits.items())))
    print(f"{runs} runs, {wrong} differ")
    return 1 if wrong else 0


def arguments() -> argparse.Namespace:
    parser = comparing_parser("compare_weights", __doc__)
    parser.add_argument("gatherer", help="the built audit_gather")
    add_draws(parser, 300)
    return parser.parse_args()


if __name__ == "__main__":
    sys.exit(main(**vars(arguments())))
