"""Compares checks, runs and reports of several plans whose rules are drawn together, byte for byte,
with those of the plain model in model.py.

Usage: python3 -m tests.differential.compare_rules PROGRAM [RUNS [SEED [PROCESSES]]]
PROGRAM is the built program. Each of RUNS (300) runs draws, from SEED (1), a grid with diagonals,
districts and regions that grow in it, and a group that lives in some districts more than in others;
and rules, each of which half of the runs have: the most cut edges, among how many districts a
region may be split, how often regions may be split in all and how many of them, in how many
districts the group has a majority, of the population or of a column of its own, above which share
it has one, which units are frozen, and how long the cut edges are in all. Most limits are those
that the start plan just keeps; an eighth of the runs have one that it breaks. A sixth of the graphs
have a value in a column of the group or of frozen units that may be refused, an eighth one in that
of lengths, and a few lack one. A third of the audits are made by two runs over files, the second of
which may have another rule. Status, text, note and files must be the model's. Prints each run that
differs; how many ended how; and for each rule in how many audits it was set, and in how many of
those a walk without it finds something else. Ends with 1 where a run differed. Nothing is needed
but Python.
"""
# RUN: {auditor} 60 1
from __future__ import annotations

import argparse
import dataclasses
import json
import multiprocessing
import pathlib
import random
import subprocess
import sys
import tempfile
import typing
from collections import Counter
from collections.abc import Sequence

from tests.parsers import add_draws, comparing_parser
from tests.oracle import model

BASE = "--pop pop --first a --second b --district d".split()
ASKS = model.SCORES[:4]
RULES = (
    "--max-cut", "--max-split", "--max-splits", "--max-split-regions", "--group-districts",
    "--max-length",
)
# Those that the start plan cannot break.
OTHERS = ("--group-share", "--freeze")
# The words for the whole of which the group is a part.
WHOLES: list[list[str]] = [[], [], ["--group-of", "w"], ["--group-of", "pop"]]
FILES = ("audit-0.ckpt", "audit-1.ckpt")
# A node of a graph, or the entry of a neighbor: its values by their columns.
Entry = dict[str, object]


class Graph(typing.TypedDict):
    """A graph as JSON has it: its nodes, and the entries of each node's neighbors."""

    nodes: list[Entry]
    adjacency: list[list[Entry]]


@dataclasses.dataclass(frozen=True)
class Run:
    """The command, the status and the kind of note of each call; the rules of an audit and those
    that change it; and what differs from the model.
    """

    ends: list[tuple[str, int, str]]
    rules: list[str]
    felt: list[str]
    difference: str


# ---- graphs


def neighbours_of(chance: random.Random, wide: int, high: int) -> list[set[int]]:
    """Returns the neighbours of each unit of a grid with some diagonals."""
    near: list[set[int]] = [set() for _ in range(wide * high)]
    for at in range(wide * high):
        across, down = at % wide + 1 < wide, at // wide + 1 < high
        for other in (
            [at + 1] * across
            + [at + wide] * down
            + [at + wide + 1] * (across and down and chance.random() < 0.4)
        ):
            near[at].add(other)
            near[other].add(at)
    return near


def grow_parts(chance: random.Random, near: Sequence[set[int]], count: int) -> list[int]:
    """Returns the part of each unit, of this number of parts that grow from drawn units."""
    part = dict(zip(chance.sample(range(len(near)), count), range(count)))
    while len(part) < len(near):
        unit = chance.choice(sorted(part))
        free = sorted(near[unit] - set(part))
        if free:
            part[chance.choice(free)] = part[unit]
    return [part[unit] for unit in range(len(near))]


def draw_even_parts(chance: random.Random, near: Sequence[set[int]], count: int) -> list[int]:
    """Returns parts that are drawn anew until none has more than 3/2 of its share."""
    while True:
        parts = grow_parts(chance, near, count)
        if max(Counter(parts).values()) * 2 * count <= 3 * len(near):
            return parts


def drawn_graph(chance: random.Random) -> tuple[Graph, list[int]]:
    """Returns a graph, and another plan for its units."""
    near = neighbours_of(chance, chance.randint(4, 7), chance.randint(4, 7))
    plan, other = (draw_even_parts(chance, near, chance.randint(2, 4)) for _ in range(2))
    regions = (
        grow_parts(chance, near, chance.randint(1, 9))
        if chance.random() < 0.7
        else [2 * district + chance.randrange(2) for district in plan]
    )
    scale = chance.choice((1, 1, 1, 10**8))
    nodes: list[Entry] = []
    for at, district in enumerate(plan):
        pop, whole = chance.randint(1, 9), chance.randint(0, 9)
        nodes.append(
            {
                "id": at,
                "pop": pop * scale,
                "a": chance.randint(0, 9),
                "b": chance.randint(1, 9),
                "d": district,
                "r": f"county {regions[at]}",
                "g": (chance.randint(0, pop) + (chance.random() < 0.3) * (district % 2)) * scale,
                "w": whole * scale,
                "f": chance.choice((True, False, False, False, 0, 0, 1, 7)),
            }
        )
    if chance.random() < 1 / 6:
        chance.choice(nodes)[chance.choice("ggwff")] = chance.choice(
            (-1, 0, 10**9, 10**9 + 1, 2**64, 1.0, "1", True, None)
        )
    if chance.random() < 1 / 20:
        del chance.choice(nodes)[chance.choice("gwrf")]
    return {"nodes": nodes, "adjacency": drawn_edges(chance, near)}, other


def drawn_edges(chance: random.Random, near: Sequence[set[int]]) -> list[list[Entry]]:
    """Returns the entries of each unit's neighbors with their lengths; in an eighth of the graphs
    one has a value that may be refused, or none.
    """
    most = chance.choice((1, 9, 9, 1000, 2**32 - 1))
    lengths: dict[tuple[int, int], int] = {}
    entries: list[list[Entry]] = []
    for unit, those in enumerate(near):
        entries.append([])
        for other in sorted(those):
            edge = min(unit, other), max(unit, other)
            if edge not in lengths:
                lengths[edge] = chance.randint(0, most)
            entries[-1].append({"id": other, "l": lengths[edge]})
    every = [entry for those in entries for entry in those]
    if chance.random() < 1 / 8:
        chance.choice(every)["l"] = chance.choice(
            (-1, 0, 2**32 - 1, 2**32, 2**64, 1.0, "1", True, None)
        )
    if chance.random() < 1 / 20:
        del chance.choice(every)["l"]
    if chance.random() < 1 / 20:
        del entries[chance.randrange(len(entries))][-1]
    return entries


# ---- words


def measure_start(graph: Graph, words: Sequence[str]) -> dict[str, int]:
    """Returns the start plan's number for each rule, without limits; 1 for a refused graph."""
    try:
        job = model.job_of(
            model.Setting(["check", *BASE, "--slack", "10000", *words]), json.dumps(graph).encode()
        )
    except model.Refused:
        return dict.fromkeys(RULES, 1)
    most = max(job.districts_of_regions(job.plan), default=1)
    numbers = (
        job.cut(job.plan), most, job.splits(job.plan), job.split_regions(job.plan),
        job.majorities(job.plan), job.cut_length(job.plan),
    )
    return dict(zip(RULES, numbers))


def drawn_rules(chance: random.Random, graph: Graph) -> list[str]:
    """Returns words of rules."""
    columns = ["--region", "r"] if chance.random() < 0.75 else []
    columns += (
        ["--group", "g", *chance.choice(WHOLES)]
        if chance.random() < 0.75
        else []
    )
    if "--group" in columns and chance.random() < 0.5:
        shares = (0, 2500, 3333, 4500, 4999, 5000, 5001, 6000, 10000)
        columns += ["--group-share", str(chance.choice(shares))]
    columns += ["--freeze", "f"] if chance.random() < 0.4 else []
    columns += ["--length", "l"] if chance.random() < 0.5 else []
    names = [
        name
        for name in RULES
        if model.WITH_COLUMN.get(name, "--max-cut") in [*columns, "--max-cut"]
    ]
    broken = chance.choice(names) if chance.random() < 1 / 8 else None
    words = columns[:]
    for name, number in measure_start(graph, columns).items():
        more = (
            -1
            if name == broken
            else (
                number * chance.randint(0, 20) // 100
                if name == "--max-length"
                else chance.choice((0, 0, 1)) if name != "--max-cut" else chance.randint(0, 8)
            )
        )
        if name == broken or name in names and chance.random() < 0.5:
            words += [
                name,
                str(
                    max(
                        int(name == "--max-split"),
                        number - more if name == "--group-districts" else number + more,
                    )
                ),
            ]
    return words + (
        ["--source", chance.choice(("yes", "yes", "no"))] if chance.random() < 0.4 else []
    )


def audit_words(chance: random.Random, has_lengths: bool) -> list[str]:
    serial = chance.random() < 0.2
    walks, ends = chance.randint(0, 2), chance.choice((0, 0, 2, 4))
    words = [
        "--key",
        f"{chance.getrandbits(256):064x}",
        "--walks",
        str(walks + (walks + ends == 0)),
        "--ends",
        str(ends),
        "--workers",
        str(chance.choice((1, 1, 2, 4))),
        "--steps",
        str(2 ** chance.randint(5, 8) - 1 if serial else chance.randint(100, 400)),
        "--hub-steps",
        "60",
    ]
    words += [
        "--ask",
        ",".join(
            f"{score}:{chance.choice(('low', 'high'))}"
            for score in chance.sample(
                (*ASKS, "cut-length") if has_lengths or chance.random() < 0.02 else ASKS,
                chance.randint(1, 4),
            )
        ),
    ]
    return (
        words + ["--serial", "yes"] * serial + (["--shift", "yes"] if chance.random() < 0.2 else [])
    )


def reach_plan(words: Sequence[str], data: bytes, other: model.Plan) -> model.Plan:
    """Returns a plan that a walk under these words reaches, so that it keeps the rules; the other
    one where the graph is refused.
    """
    try:
        job = model.job_of(model.Setting(["run", *words]), data)
    except model.Refused:
        return other
    return job.walk(tuple(job.plan), 0, 60)[0][-1]


def table_of(graph: Graph, other: model.Plan) -> bytes:
    """Returns a table with two plans: another, and the graph's own under other labels."""
    rows = [
        f"{node['id']},{district},D{node['d']}" for node, district in zip(graph["nodes"], other)
    ]
    return "\n".join(["id,other,own", *rows, ""]).encode()


def change_rule(chance: random.Random, words: Sequence[str]) -> list[str]:
    """Returns the words with one number of a rule changed, where they have one."""
    limits = (*RULES, "--group-share")
    more, places = list(words), [at for at, name in enumerate(words) if name in limits]
    if places:
        at = chance.choice(places)
        more[at + 1] = str(int(words[at + 1]) + 1)
    return more


def calls_of(
    chance: random.Random, graph: Graph, other: model.Plan
) -> list[tuple[list[str], bytes]]:
    """Returns the calls of one run: words, and what is read; two where the second goes on from the
    files of the first.
    """
    rules, data, kind = drawn_rules(chance, graph), json.dumps(graph).encode(), chance.random()
    base = [*BASE, "--slack", chance.choice(("10000", "10000", "10000", "6000")), *rules]
    if kind < 0.15:
        return [(["check", *base], data)]
    words = [*base, *audit_words(chance, "--length" in rules)]
    if kind < 0.3:
        return [
            (
                ["plans", *words],
                data
                + b"\n"
                + table_of(
                    graph, reach_plan(words, data, other) if chance.random() < 0.8 else other
                ),
            )
        ]
    if kind < 0.7:
        stop = (
            ["--stop", "1"]
            if words[words.index("--ends") + 1] != "0" and chance.random() < 0.3
            else []
        )
        return [(["run", *words, *stop], data)]
    second = change_rule(chance, words) if chance.random() < 0.3 else words
    return [
        (["run", *words, "--save", "1", "--budget", str(chance.randint(0, 3))], data),
        (["run", *second, "--save", "2", "--resume", "yes"], data),
    ]


# ---- runs


def remove_rule(words: Sequence[str], name: str | None) -> list[str]:
    """Returns the words of a walk without the rule, without files."""
    pairs = [
        (one, value)
        for one, value in zip(words[1::2], words[2::2])
        if one not in (name, "--save", "--budget", "--resume", "--stop")
    ]
    return [words[0], *(word for pair in pairs for word in pair)]


def find_effects(words: Sequence[str], data: bytes) -> tuple[list[str], list[str]]:
    """Returns which rules the words set, and which of them change what the walks find."""
    is_set = [name for name in (*RULES, *OTHERS) if name in words]
    every = [
        line
        for line in model.audit(remove_rule(words, None), data, [None, None]).out.splitlines()
        if " moved " in line
    ]
    return is_set, [
        name
        for name in is_set
        if every
        != [
            line
            for line in model.audit(remove_rule(words, name), data, [None, None]).out.splitlines()
            if " moved " in line
        ]
    ]


def files(folder: str) -> list[bytes | None]:
    return [
        pathlib.Path(folder, name).read_bytes() if pathlib.Path(folder, name).exists() else None
        for name in FILES
    ]


def one_run(task: tuple[int, int, str]) -> Run:
    place, seed, program = task
    chance, difference = random.Random(f"{seed} {place}"), ""
    ends: list[tuple[str, int, str]] = []
    rules: tuple[list[str], list[str]] = ([], [])
    graph, other = drawn_graph(chance)
    calls = calls_of(chance, graph, other)
    slots: list[bytes | None] = [None, None]
    with tempfile.TemporaryDirectory() as folder:
        for words, data in calls:
            wanted = model.audit(words, data, slots)
            done = subprocess.run(
                [program, *words], input=data, capture_output=True, check=False, cwd=folder
            )
            found = model.End(
                done.returncode, done.stdout.decode(), done.stderr.decode(), files(folder)
            )
            is_known = words[words.index("--workers") + 1] == "1" if "--workers" in words else True
            if found != wanted and (is_known or found[:3] != wanted[:3]):
                difference += (
                    f"run {place} of seed {seed}: {' '.join(words)}\n{data.decode()}\nwanted"
                    f" {wanted}\nfound {found}\n"
                )
            ends.append(
                (
                    words[0],
                    wanted.status,
                    "".join(" " if letter.isdigit() else letter for letter in wanted.note),
                )
            )
            slots = found.slots
    if ends[-1][0] == "run" and ends[-1][1] == 0:
        rules = find_effects(*calls[-1])
    return Run(ends, *rules, difference)


def main(program: str, runs: int = 300, seed: int = 1, processes: int = 4) -> int:
    program, wrong = str(pathlib.Path(program).resolve()), 0
    ends: Counter[tuple[str, int]] = Counter()
    is_set: Counter[str] = Counter()
    turns: Counter[str] = Counter()
    notes: set[str] = set()
    with multiprocessing.Pool(processes) as pool:
        for one in pool.imap_unordered(
            one_run, [(place, seed, program) for place in range(runs)]
        ):
            ends.update((command, status) for command, status, _ in one.ends)
            notes.update(note for _, _, note in one.ends)
            is_set.update(one.rules)
            turns.update(one.felt)
            wrong += one.difference != ""
            print(one.difference, end="", flush=True)
    print(
        ", ".join(
            f"{times} of {command} with status {status}"
            for (command, status), times in sorted(ends.items())
        )
    )
    print(
        ", ".join(
            f"{name} set in {is_set[name]} audits and felt in {turns[name]}"
            for name in (*RULES, *OTHERS)
        )
    )
    print(f"{runs} runs with drawn rules, {len(notes)} kinds of notes, {wrong} differ")
    return 1 if wrong else 0


def arguments() -> argparse.Namespace:
    parser = comparing_parser("compare_rules", __doc__)
    add_draws(parser, 300)
    return parser.parse_args()


if __name__ == "__main__":
    sys.exit(main(**vars(arguments())))
