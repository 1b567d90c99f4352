#!/usr/bin/env python3
"""Re-checks a report of the district plan auditor by recomputing it.

  recheck.py GRAPH REPORT [words of the run] [--id 0,3,serial | --sample K --seed TEXT]
             [--walks-unchecked yes] [--checkpoints FOLDER]
             [--trace FILE [--segments K --seed TEXT] [--skip-hub yes]]

GRAPH is what the auditor read, or the word `make`. Words of the run are compared with the report.
Those of columns are needed if the report has no line `columns`, and --size for `make`.

All is recomputed, unless one of these words is given:
  --id          recomputes these trajectories
  --sample      recomputes the walks, the serial test, and K trajectories to ends
  --trace       recomputes the segments of a trace: all, or with --segments K of each trajectory
  --checkpoints recomputes the outcomes of checkpoints: all, those of --id, or as by --sample
  --walks-unchecked yes   leaves out the walks and the serial test that no --id names

The status is 0 if all agrees, and 1 if something differs. It is 2 if something cannot be checked,
or if walks or the serial test were not recomputed and --walks-unchecked was not given.

This program was written from two pages, docs/claims/KERNEL.md and docs/user/FORMATS.md. It needs
Python 3.8 and no other file. Comments such as `KERNEL 3` name the section with the rule.
"""
from __future__ import annotations

import csv
import hashlib
import io
import json
import math
import re
import struct
import sys
from functools import lru_cache
from itertools import chain, product, zip_longest
from pathlib import Path
from typing import Dict, Iterable, Iterator, List, NamedTuple, Optional, Sequence, Set, Tuple

BILLION = 10 ** 9
WORD = 2 ** 32 - 1  # a word of 32 bits that are all 1
BATCH = 512  # the number of ChaCha20 blocks that are computed together
SCORES = ("seats", "mean-median", "gap", "cut-edges", "cut-length")
TAILS = ("low", "high")
EVEN = 256  # four times the weight 64, which is no weight
SERIAL = -1  # the number of the serial test among the trajectories

# The limits that are not set (FORMATS, the words).
LIMITS = {
    "max-cut": 400000, "max-split": 200, "max-splits": 995000, "max-split-regions": 5000,
    "group-districts": 0, "group-share": 5000, "max-length": 1717986918000000,
}
# The numbers at the head of a report, by the first word of their line (FORMATS, the report).
HEAD = {
    "population": ["slack"], "max-cut": ["max-cut"], "max-split": ["max-split"],
    "max-splits": ["max-splits", "max-split-regions"], "group-districts": ["group-districts"],
    "group-share": ["group-share"], "max-length": ["max-length"],
    "walks": ["walks", "steps", "ends", "hub-steps"],
}
COUNTS = ("--pop", "--first", "--second", "--group", "--group-of")
COLUMNS = (
    "--pop", "--first", "--second", "--district", "--region", "--group", "--group-of", "--freeze",
    "--length",
)
# The first word of a line that only a run with the column has.
SHOWN_BY = {
    "--pop": "units", "--first": "units", "--second": "units", "--district": "units",
    "--region": "max-split", "--group": "group-districts", "--freeze": "frozen",
    "--length": "cut-length",
}
OF_THE_CHECK = (
    "--id", "--sample", "--seed", "--walks-unchecked", "--trace", "--segments", "--skip-hub",
    "--checkpoints",
)
OF_THE_RUN = (
    *COLUMNS, "--size", "--slack", "--key", "--walks", "--steps", "--ends", "--hub-steps", "--ask",
    "--workers", "--budget", "--save", "--resume", "--shift", "--stop", "--serial", "--source",
    "--parts", "--part", "--pairs", "--cut-weight", "--blind", *(f"--{name}" for name in LIMITS),
)

# The findings of a trajectory (KERNEL 6): its moves; for each ask the count of a walk, or the value
# of an end; and the nine bins of a walk.
Tally = Tuple[int, List[int], List[int]]
Ask = Tuple[str, str]  # a score and a tail
Entry = Dict[str, object]  # an object of a JSON text

WRONG: List[str] = []  # the differences that were found
UNCHECKED: List[str] = []  # what was not recomputed
DONE = {"comparisons": 0, "steps": 0}


# ---- comparing and printing


def split_words(line: Sequence[object]) -> List[str]:
    """Returns the words of a line, or the members of a list as texts."""
    if isinstance(line, str):
        return line.split(" ")
    return [str(member) for member in line]


def same(where: str, expected: Sequence[object], found: Sequence[object]) -> None:
    """Compares two lines or lists word by word, and notes the first word that differs."""
    DONE["comparisons"] += 1
    before = "the start"
    both = zip_longest(split_words(expected), split_words(found), fillvalue="nothing")
    for place, (want, word) in enumerate(both, 1):
        if want != word:
            WRONG.append(f"{where}, word {place} after {before}: expected {want}, found {word}")
            return
        before = want


def print_digest(what: str, data: bytes) -> None:
    print(f"sha256 {hashlib.sha256(data).hexdigest()} of {what}")


def print_sample(what: str, some: Sequence[int], every: Sequence[int]) -> None:
    """Prints how many of all were recomputed, and which, and how easily a wrong one is missed."""
    is_sample = 0 < len(some) < len(every)
    names = ", ".join("serial" if number == SERIAL else str(number) for number in some)
    named = f" ({names})" if is_sample else ""
    chance = 1 - len(some) / max(1, len(every))
    print(f"{what}: {len(some)} of {len(every)} walked again{named}; a single wrong one among "
          f"these escaped with chance {chance:.6f}.")


def divide_up(top: int, of: int) -> int:
    """Returns a quotient, rounded up."""
    return -(-top // of)


def format_billionths(number: int) -> str:
    """Returns a number of billionths as a text (KERNEL 7)."""
    return f"{number // BILLION}.{number % BILLION:09d}"


# ---- draws


# RFC 8439, section 2.3: four columns, then four diagonals.
QUARTERS = (
    (0, 4, 8, 12), (1, 5, 9, 13), (2, 6, 10, 14), (3, 7, 11, 15),
    (0, 5, 10, 15), (1, 6, 11, 12), (2, 7, 8, 13), (3, 4, 9, 14),
)


def mix_quarter(x: List[int], a: int, b: int, c: int, d: int, mask: int) -> None:
    """Does a quarter round of RFC 8439, section 2.1, on many blocks at once."""
    for p, q, r, turn in ((a, b, d, 16), (c, d, b, 12), (a, b, d, 8), (c, d, b, 7)):
        x[p] = (x[p] + x[q]) & mask
        turned = (x[r] ^ x[p]) << turn
        x[r] = (turned | turned >> 32) & mask


@lru_cache(maxsize=8)
def batch(key: bytes, stream: int, number: int) -> List[int]:
    """Returns the draws of BATCH blocks of a stream (KERNEL 2).

    Numbers of Python have any length. So one number holds the same word of all blocks, 64 bits
    apart, and each operation is done once for all blocks.
    """
    form = f"<{BATCH}Q"
    ones = (2 ** (64 * BATCH) - 1) // (2 ** 64 - 1)  # a 1 for each block
    mask = WORD * ones
    blocks = range(number * BATCH, (number + 1) * BATCH)
    counter = int.from_bytes(struct.pack(form, *blocks), "little")
    first = [word * ones for word in struct.unpack("<12I", b"expand 32-byte k" + key)]
    first += [counter & mask, counter >> 32 & mask]
    first += [(stream & WORD) * ones, (stream >> 32) * ones]
    x = list(first)
    for _ in range(10):
        for a, b, c, d in QUARTERS:
            mix_quarter(x, a, b, c, d, mask)
    words = [(mixed + before) & mask for mixed, before in zip(x, first)]
    rows = []  # row i has draw i of each block
    for low, high in zip(words[::2], words[1::2]):
        row = (low | high << 32).to_bytes(8 * BATCH, "little")
        rows.append(struct.unpack(form, row))
    return list(chain.from_iterable(zip(*rows)))


def draws_of(key: bytes, stream: int, begin: int, end: int) -> Iterator[int]:
    """Returns the draws begin to end - 1 of a stream (KERNEL 2)."""
    size = 8 * BATCH
    batches = range(begin - begin % size, end, size)
    return chain.from_iterable(
        batch(key, stream, first // size)[max(begin - first, 0):end - first] for first in batches)


# ---- parsing the report


def number_in(line: str, name: str) -> int:
    """Returns the number behind a name in a line of the head."""
    words = line.split(" ")
    if name not in words[:-1] or not words[words.index(name) + 1].isdecimal():
        raise ValueError(f"the line `{line}` has no number behind {name}")
    return int(words[words.index(name) + 1])


class Report:
    """A report, or the text of a pilot, and the run that it describes."""

    def __init__(self, lines: List[str]) -> None:
        self.lines = lines
        self.is_pilot = lines[0] == "walk-pilot 1"
        self.is_shift = lines[0] == "district-audit 2"
        self.source = [line for line in lines[1:3] if line.startswith(("source ", "columns "))]
        self.is_serial = any(line.startswith("serial ") for line in lines)
        self.is_paired = any(line.startswith("pair ") for line in lines)
        self.first_words = {line.split(" ")[0] for line in lines}
        self.n = self.read_numbers()
        self.key = bytes.fromhex(self.find("key").split(" ")[1])
        self.weight_text = "64"
        if "cut-weight" in self.first_words:
            self.weight_text = self.find("cut-weight").split(" ")[1]
        self.weight = read_weight(self.weight_text)
        self.asks = self.read_asks()

    def find(self, first_word: str) -> str:
        """Returns the first line that begins with a word."""
        for line in self.lines:
            if line.startswith(first_word + " "):
                return line
        raise ValueError(f"the report has no line `{first_word}`")

    def read_numbers(self) -> Dict[str, int]:
        """Returns the numbers of the head by name; the limits that are not set are LIMITS."""
        n: Dict[str, int] = {**LIMITS, "stop": 0}
        for first_word, names in HEAD.items():
            if first_word in self.first_words or first_word in ("population", "walks"):
                line = self.find(first_word)
                n.update((name, number_in(line, name)) for name in names)
        after = self.lines.index(self.find("walks")) + 1
        if re.fullmatch(r"stop \d+", self.lines[after]):
            n["stop"] = number_in(self.lines[after], "stop")
        return n

    def read_asks(self) -> List[Ask]:
        """Returns the asks: those of walk 0, or without walks those of the parallel test."""
        if self.is_pilot:
            return []
        has_walks = self.n["walks"] > 0
        form = r"walk 0 moved \d+" if has_walks else r"(?:ends|stop)"
        found = [re.match(form + r" (\S+) (\S+) start ", line) for line in self.lines]
        asks = [(match[1], match[2]) for match in found if match]
        for score, tail in asks:
            if tail not in TAILS:
                raise ValueError(f"unknown tail {tail}")
            if score not in SCORES:
                raise ValueError(f"unknown score {score}")
        if not asks:
            raise ValueError("the report has no line with a score")
        return asks

    def words(self) -> Dict[str, str]:
        """Returns the words of the run that the report shows, except those of columns."""
        words = {f"--{name}": str(number) for name, number in self.n.items()}
        words["--key"] = self.key.hex()
        words["--cut-weight"] = self.weight_text
        words["--blind"] = yes_or_no(self.is_pilot)
        if not self.is_pilot:
            words["--ask"] = ",".join(f"{score}:{tail}" for score, tail in self.asks)
            words["--shift"] = yes_or_no(self.is_shift)
            words["--serial"] = yes_or_no(self.is_serial)
            words["--pairs"] = yes_or_no(self.is_paired)
        return words

    def count_ends(self) -> int:
        """Returns how many trajectories to ends count: with --stop, those up to the last place."""
        if self.is_pilot:
            return 0
        places = [number_in(line, "place") for line in self.lines if
                  line.startswith("stop ") and " place " in line]
        return min(max(places, default=self.n["ends"]), self.n["ends"])


def yes_or_no(is_yes: bool) -> str:
    return "yes" if is_yes else "no"


def read_weight(text: str) -> int:
    """Returns four times a weight, such as 133 for `33.25` (FORMATS, the words)."""
    found = re.fullmatch(r"([1-9]\d?)(|\.25|\.5|\.75)", text)
    quarters = ["", ".25", ".5", ".75"]
    weight = 4 * int(found[1]) + quarters.index(found[2]) if found else 0
    if not 4 <= weight <= EVEN:
        raise ValueError(f"{text} is no weight from 1 to 64 by quarters")
    return weight


def split_columns(line: str) -> List[str]:
    """Returns the words of a line `columns`, in which each column's name is a JSON text."""
    words: List[str] = []
    at = 0
    while at < len(line):
        if line[at] == '"':
            word, end = json.JSONDecoder().raw_decode(line, at)
        else:
            end = (line + " ").index(" ", at)
            word = line[at:end]
        words.append(word)
        at = end + 1
    return words


def format_columns(names: Dict[str, str]) -> str:
    """Returns the line `columns` of a run with these columns (FORMATS, the report)."""
    words = ["columns"]
    for name in COLUMNS:
        if name in names:
            title = {"--group-of": "of"}.get(name, name[2:])
            words += [title] if name not in COLUMNS[:4] else []
            words.append(json.dumps(names[name], ensure_ascii=False))
    return " ".join(words)


def find_columns(report: Report, words: Dict[str, str], is_make: bool) -> Dict[str, str]:
    """Returns the names of the run's columns by their words."""
    names = {name: words[name] for name in COLUMNS if words.get(name)}
    if len(report.source) == 2:
        row = split_columns(report.source[1])
        names = dict(zip(COLUMNS[:4], row[1:5]))
        for title, column in zip(row[5::2], row[6::2]):
            names["--group-of" if title == "of" else f"--{title}"] = column
    elif not is_make:
        for name, line in SHOWN_BY.items():
            needed = {line, "max-length"} if name == "--length" else {line}
            shown = sorted(needed & report.first_words)
            if name not in names and shown:
                raise ValueError(f"the report has a line `{shown[0]}`: give {name} COLUMN")
    if "--group" in names:
        names.setdefault("--group-of", names["--pop"])
    return names


def compare_words(report: Report, names: Dict[str, str], words: Dict[str, str]) -> None:
    """Compares the words that the report shows with those that were given."""
    reported = {**report.words(), **names}
    for name in sorted(reported.keys() & words.keys()):
        given = words[name].lower() if name == "--key" else words[name]
        same(f"word {name}", given, reported[name])


# ---- parsing the map


class Map(NamedTuple):
    """The edges of a map, and its columns by their words; one that is not named is empty.

    Column `--length` has a number for each edge, the others have one for each unit.
    """

    edges: List[Tuple[int, int]]
    columns: Dict[str, List[int]]


def read_whole(text: str) -> float:
    """Returns a number without a point as JSON's readers keep it: of 64 bits, or a float."""
    if text != "-0" and -2 ** 63 <= int(text) < 2 ** 64:
        return int(text)
    return float(text)


def whole_numbers(values: Sequence[object], or_flags: bool = False) -> List[int]:
    """Returns values as whole numbers, if all are such numbers, or flags where these may be."""
    numbers = [
        int(value) for value in values
        if isinstance(value, int) and (or_flags or not isinstance(value, bool))
    ]
    if len(numbers) < len(values):
        raise ValueError("a column of counts or lengths has a value that is not a whole number")
    return numbers


def number_labels(labels: Sequence[object]) -> List[int]:
    """Numbers labels in rising order: whole numbers by value, then texts (KERNEL 1)."""
    numbers = sorted({label for label in labels if isinstance(label, int)})
    texts = sorted({label for label in labels if isinstance(label, str)})
    rising: List[object] = [*numbers, *texts]
    place = {label: number for number, label in enumerate(rising)}
    return [place[label] for label in labels]


def read_edges(
    nodes: List[Entry], adjacency: List[List[Entry]], names: Dict[str, str]
) -> Tuple[List[Tuple[int, int]], List[int]]:
    """Returns the edges in rising order, and the length of each (KERNEL 1)."""
    number = {node["id"]: unit for unit, node in enumerate(nodes)}
    lengths: Dict[Tuple[int, int], object] = {}
    for unit, row in enumerate(adjacency):
        for entry in row:
            other = number[entry["id"]]
            edge = (min(unit, other), max(unit, other))
            if unit != other:
                lengths[edge] = entry[names["--length"]] if "--length" in names else 0
    edges = sorted(lengths)
    return edges, whole_numbers([lengths[edge] for edge in edges])


def read_map(text: str, names: Dict[str, str], labels: Dict[str, str]) -> Map:
    """Returns the map of a graph (FORMATS, the graph).

    Labels has the districts of a plan of a table, by the units' ids, or is empty.
    """
    root = json.loads(text, parse_int=read_whole)
    nodes: List[Entry] = root["nodes"]

    def values(name: str) -> List[object]:
        return [node[names[name]] for node in nodes] if name in names else []

    columns = {name: whole_numbers(values(name)) for name in COUNTS}
    frozen = whole_numbers(values("--freeze"), or_flags=True)
    columns["--freeze"] = [int(number > 0) for number in frozen]
    columns["--region"] = number_labels(values("--region"))
    districts = values("--district")
    if labels:
        districts = [labels[str(node["id"])] for node in nodes]
    columns["--district"] = number_labels(districts)
    edges, columns["--length"] = read_edges(nodes, root["adjacency"], names)
    return Map(edges, columns)


def make_map(size: int, key: bytes) -> Map:
    """Returns the grid of `make` (FORMATS, the grid of make)."""
    side = 10 * size
    units = range(side * side)
    right = [(unit, unit + 1) for unit in units if (unit + 1) % side]
    below = [(unit, unit + side) for unit in units[:-side]]
    votes = [draw % 101 for draw in draws_of(key, 2 ** 32, 0, side * side)]
    columns: Dict[str, List[int]] = {name: [] for name in COLUMNS}
    columns["--pop"] = [100 for _ in units]
    columns["--first"] = votes
    columns["--second"] = [100 - vote for vote in votes]
    columns["--district"] = [unit // side // size for unit in units]
    columns["--length"] = [0 for _ in right + below]
    return Map(sorted(right + below), columns)


# ---- the job


class Job:
    """The run of a report: its map, its rules, its start plan, and the start plan's scores."""

    def __init__(self, report: Report, names: Dict[str, str], data: bytes, map_: Map) -> None:
        self.report = report
        self.names = names
        self.n = report.n
        self.key = report.key
        self.asks = report.asks
        self.origin = f"source sha256 {hashlib.sha256(data).hexdigest()} bytes {len(data)}"
        self.edges, self.columns = map_
        self.start = self.columns["--district"]
        self.far: List[Dict[int, int]] = [{} for _ in self.start]  # neighbors, with lengths
        for (u, v), length in zip(self.edges, self.columns["--length"]):
            self.far[u][v] = length
            self.far[v][u] = length
        self.near = [list(row) for row in self.far]
        self.counts = {name: self.columns[name] for name in COUNTS if self.columns[name]}
        self.frozen = {u for u, is_frozen in enumerate(self.columns["--freeze"]) if is_frozen}
        self.set_rules()
        self.set_weight()
        walk = Walk(self, self.start)
        self.seats = walk.score("seats")
        self.majorities = walk.count_majorities()
        self.cut_length = walk.length
        self.values = walk.values()
        self.texts = self.format_asks()
        self.place = next(draws_of(self.key, 2 ** 33, 0, 1)) % (self.n["steps"] + 1)  # KERNEL 7

    def set_rules(self) -> None:
        """Sets the bounds of population (KERNEL 4, rule 2), and which rules there are."""
        n, columns = self.n, self.columns
        self.districts = max(self.start) + 1
        self.total = sum(columns["--pop"])
        shares = 10000 * self.districts
        self.low = divide_up((10000 - n["slack"]) * self.total, shares)
        self.high = (10000 + n["slack"]) * self.total // shares
        self.regions = len(set(columns["--region"]))
        self.has_splits = self.regions > 0 and (
            n["max-splits"] < LIMITS["max-splits"]
            or n["max-split-regions"] < LIMITS["max-split-regions"])
        self.has_group = "--group" in self.counts
        self.has_share = self.has_group and n["group-share"] != LIMITS["group-share"]
        self.has_frozen = len(columns["--freeze"]) > 0
        self.has_lengths = "--length" in self.names

    def set_weight(self) -> None:
        """Sets the number of pairs, the pieces, and the limit of draws (KERNEL 3)."""
        self.weight = self.report.weight
        self.pairs = len(self.start) * self.districts
        self.pieces = 0
        while self.pairs * 64 ** (self.pieces + 2) <= 2 ** 64:
            self.pieces += 1
        whole = self.pairs if self.weight == EVEN else self.pairs * 64 ** self.pieces
        self.limit = 2 ** 64 // whole * whole

    def format_asks(self) -> List[str]:
        """Returns the words of each ask: score, tail, and the start plan's score (KERNEL 5)."""
        votes = sum(self.columns["--first"]) + sum(self.columns["--second"])
        below = {"mean-median": 2 * self.districts * BILLION, "gap": 2 * votes}
        return [f"{score} {tail} start {value}/{below.get(score, 1)}"
                for (score, tail), value in zip(self.asks, self.values)]

    def is_taken(self, draw: int, cut: int, added: int) -> bool:
        """Returns if the weight lets a draw add cut edges to a number of them (KERNEL 3)."""
        if abs(added) > self.pieces:
            return False
        if added <= 0:
            return True
        limit = 1
        for edge in range(cut, cut + added):
            limit *= (self.weight + 3 - edge % 4) // 4
        digits: int = draw // self.pairs % 64 ** added
        return digits < limit

    def is_in_tail(self, ask: int, value: int) -> bool:
        """Returns if a value of an ask is in its tail (KERNEL 6)."""
        if self.asks[ask][1] == "low":
            return value <= self.values[ask]
        return value >= self.values[ask]

    def way(self, trajectory: int) -> Tuple[int, int, int]:
        """Returns the stream of a walk or an end, and its first and last step (KERNEL 2)."""
        if trajectory < self.n["walks"]:
            return 2 * trajectory, 0, self.n["steps"]
        return 2 * (trajectory - self.n["walks"]) + 3, 0, self.n["hub-steps"]

    def head_lines(self) -> List[str]:
        """Returns the lines of a report's head behind its title (FORMATS, the report)."""
        n = self.n
        lines = [self.origin, format_columns(self.names)][:len(self.report.source)]
        lines.append(f"key {self.key.hex()}")
        lines.append(f"units {len(self.start)} edges {len(self.edges)} districts {self.districts}")
        lines.append(f"population {self.total} slack {n['slack']} low {self.low} high {self.high}")
        lines += self.rule_lines()
        if self.weight < EVEN:
            lines.append(f"cut-weight {self.report.weight_text} of 64 pieces {self.pieces}")
        lines.append(f"walks {n['walks']} steps {n['steps']} ends {n['ends']} "
                     f"hub-steps {n['hub-steps']}")
        return lines

    def rule_lines(self) -> List[str]:
        """Returns the lines of the head on the rules that are set (FORMATS, the report)."""
        n = self.n
        cut_length = self.has_lengths and not self.report.is_pilot
        both = f"max-splits {n['max-splits']} max-split-regions {n['max-split-regions']}"
        lines = [
            (n["max-cut"] < LIMITS["max-cut"], f"max-cut {n['max-cut']}"),
            (self.regions > 0, f"max-split {n['max-split']} regions {self.regions}"),
            (self.has_splits, both),
            (self.has_group, f"group-districts {n['group-districts']} of {self.majorities}"),
            (self.has_share, f"group-share {n['group-share']}"),
            (self.has_frozen, f"frozen {len(self.frozen)}"),
            (cut_length, f"cut-length {self.cut_length}"),
            (n["max-length"] < LIMITS["max-length"], f"max-length {n['max-length']}"),
        ]
        return [line for is_set, line in lines if is_set]


# ---- a plan, and the steps of the chain


class Walk:
    """A plan with its sums, and with the number of each unit's neighbors in each district."""

    def __init__(self, job: Job, plan: Sequence[int]) -> None:
        self.job, self.plan = job, list(plan)
        d = job.districts
        self.sums = {name: [0] * d for name in COUNTS}
        self.touch = [0] * (len(plan) * d)  # neighbors of a unit in a district
        self.is_open = bytearray(len(plan) * d)  # if a unit could join another district
        self.spread = [0] * (job.regions * d)  # units of a region in a district
        self.parts = [0] * job.regions  # districts of a region
        self.cut = self.length = 0
        for (u, v), length in zip(job.edges, job.columns["--length"]):
            if plan[u] != plan[v]:
                self.cut += 1
                self.length += length
        for unit, district in enumerate(plan):
            self.add(unit, district, 1)

    def add(self, unit: int, district: int, sign: int) -> None:
        """Adds a unit to the sums of a district, or takes it away, if the sign is -1."""
        job, touch, is_open = self.job, self.touch, self.is_open
        plan, d = self.plan, job.districts
        for name, column in job.counts.items():
            self.sums[name][district] += sign * column[unit]
        for v in job.near[unit]:
            pair = v * d + district
            touch[pair] += sign
            is_open[pair] = touch[pair] > 0 and plan[v] != district
        if job.regions:
            region = job.columns["--region"][unit]
            pair = region * d + district
            self.spread[pair] += sign
            if self.spread[pair] == (1 if sign > 0 else 0):
                self.parts[region] += sign

    def move(self, unit: int, into: int) -> None:
        """Moves a unit into another district."""
        plan, out = self.plan, self.plan[unit]
        at = unit * self.job.districts
        self.cut += self.touch[at + out] - self.touch[at + into]
        for v, length in self.job.far[unit].items():
            self.length += length * ((plan[v] == out) - (plan[v] == into))
        self.add(unit, out, -1)
        plan[unit] = into
        self.add(unit, into, 1)
        self.is_open[at + into] = 0
        self.is_open[at + out] = self.touch[at + out] > 0

    # Scores (KERNEL 5)

    def score(self, name: str) -> int:
        """Returns the numerator of a score."""
        if name == "cut-edges":
            return self.cut
        if name == "cut-length":
            return self.length
        votes = list(zip(self.sums["--first"], self.sums["--second"]))
        if name == "seats":
            return sum(first > second for first, second in votes)
        if name == "gap":
            return sum(wasted_votes(first, second) for first, second in votes)
        if name == "mean-median":
            return mean_less_median(votes)
        raise ValueError(f"unknown score {name}")

    def values(self) -> List[int]:
        """Returns the numerator for each ask."""
        return [self.score(score) for score, _ in self.job.asks]

    def marks(self) -> List[int]:
        """Returns the asks in whose tail the plan is, then its bin, counted behind all asks."""
        job = self.job
        marks = [ask for ask, value in enumerate(self.values()) if job.is_in_tail(ask, value)]
        bin_of_plan = min(8, max(0, self.score("seats") - job.seats + 4))  # KERNEL 6
        return [*marks, len(job.asks) + bin_of_plan]

    # Legal plans (KERNEL 4)

    def count_majorities(self) -> int:
        """Returns the number of districts in which the group has a majority (rule 7)."""
        share = self.job.n["group-share"]
        both = zip(self.sums["--group"], self.sums["--group-of"])
        return sum(10000 * part > share * whole for part, whole in both)

    def is_within_limits(self) -> bool:
        """Returns if rules 3 to 7 and 9 hold."""
        n, parts = self.job.n, self.parts
        if self.cut > n["max-cut"] or self.length > n["max-length"]:
            return False
        if self.count_majorities() < n["group-districts"]:
            return False
        return not parts or (
            max(parts) <= n["max-split"]
            and sum(parts) - len(parts) <= n["max-splits"]
            and sum(part > 1 for part in parts) <= n["max-split-regions"])

    def joins(self, units: List[int], hidden: List[int], sizes: Sequence[int]) -> bool:
        """Returns if paths within their district, but not through hidden units, join the units.

        Searches that find at most so many units as sizes say come first: often a small one is done
        before the district's border is found.
        """
        for size, first in product((*sizes, len(self.plan)), units):
            is_known, is_joined = self.search(units, first, hidden, size)
            if is_known:
                return is_joined
        return False

    def search(
        self, units: List[int], first: int, hidden: List[int], size: int
    ) -> Tuple[bool, bool]:
        """Searches from one unit. Returns if the answer is known, and if all units are joined."""
        plan, near = self.plan, self.job.near
        own = plan[first]
        queue = [first]
        missing = set(units) - {first}
        for v in (first, *hidden):
            plan[v] = -1  # while the search lasts: found, or not to be found
        for u in queue:
            if not missing or len(queue) > size:
                break
            for v in near[u]:
                if plan[v] == own:
                    plan[v] = -1
                    queue.append(v)
                    missing.discard(v)
        for v in (*queue, *hidden):
            plan[v] = own
        return not missing or len(queue) <= size, not missing

    def is_legal(self) -> bool:
        """Returns if all rules hold for the whole plan."""
        job = self.job
        members: List[List[int]] = [[] for _ in range(job.districts)]
        for unit, district in enumerate(self.plan):
            members[district].append(unit)
        return (
            all(job.low <= people <= job.high for people in self.sums["--pop"])
            and all(self.joins(units, [], []) for units in members)
            and self.is_within_limits()
            and all(self.plan[unit] == job.start[unit] for unit in job.frozen))

    # Steps (KERNEL 3)

    def try_move(self, unit: int, into: int, draw: int) -> bool:
        """Moves a unit if its new plan is legal and the weight lets this draw take it."""
        job, plan = self.job, self.plan
        out, amount = plan[unit], job.columns["--pop"][unit]
        people = self.sums["--pop"]
        if unit in job.frozen:
            return False
        if people[out] - amount < job.low or people[into] + amount > job.high:
            return False
        if job.weight < EVEN:
            at = unit * job.districts
            added = self.touch[at + out] - self.touch[at + into]
            if not job.is_taken(draw, self.cut, added):
                return False
        mates = [v for v in job.near[unit] if plan[v] == out]
        if not self.joins(mates, [unit], (8, 64)):
            return False
        self.move(unit, into)
        if not self.is_within_limits():
            self.move(unit, out)
            return False
        return True

    def go(self, stream: int, begin: int, end: int, with_first: bool) -> Tally:
        """Makes the steps from begin to end - 1, and tallies the plans after each of them.

        With the first plan, the plan before them is tallied, too. A plan's marks are counted when
        it changes: as often as it was visited.
        """
        job, is_open = self.job, self.is_open
        d, pairs, limit = job.districts, job.pairs, job.limit
        asks = len(job.asks)
        tally = [0] * (asks + 9)
        moved = 0
        marks = self.marks()
        since = begin - with_first
        for step, draw in enumerate(draws_of(job.key, stream, begin, end), begin):
            pair = draw % pairs
            if is_open[pair] and draw < limit and self.try_move(*divmod(pair, d), draw):
                for mark in marks:
                    tally[mark] += step - since
                moved += 1
                marks = self.marks()
                since = step
        for mark in marks:
            tally[mark] += end - since
        DONE["steps"] += end - begin
        return moved, tally[:asks], tally[asks:]


def wasted_votes(first: int, second: int) -> int:
    """Returns twice the second party's wasted votes less twice the first's (KERNEL 5)."""
    if first > second:
        return 2 * second - (first - second)
    return (second - first) - 2 * first


def mean_less_median(votes: List[Tuple[int, int]]) -> int:
    """Returns the numerator of `mean-median` (KERNEL 5)."""
    shares = []
    for first, second in votes:
        both = first + second
        shares.append(first * BILLION // both if both else BILLION // 2)
    shares.sort()
    d = len(shares)
    medians = shares[(d - 1) // 2] + shares[d // 2]
    return d * medians - 2 * sum(shares)


# ---- the check of a report


class Check:
    """A check of a job's report, trace and checkpoints."""

    def __init__(self, job: Job, words: Dict[str, str]) -> None:
        self.job = job
        self.words = words
        self.n = job.n
        self.hub_plan: List[int] = []
        self.walked: Dict[int, Tally] = {}  # trajectories that were recomputed as a whole
        self.known: Dict[int, Tally] = {}  # and those that a trace or a checkpoint shows
        self.ends = range(self.n["walks"], self.n["walks"] + job.report.count_ends())
        self.walks = list(range(self.n["walks"]))
        if job.report.is_serial:
            self.walks.insert(0, SERIAL)

    # Trajectories (KERNEL 6)

    def hub(self) -> List[int]:
        if not self.hub_plan:
            walk = Walk(self.job, self.job.start)
            walk.go(1, 0, self.n["hub-steps"], False)
            self.hub_plan = walk.plan
        return self.hub_plan

    def find(self, trajectory: int) -> Tally:
        """Returns what a trajectory finds, by recomputing it once."""
        if trajectory not in self.walked:
            is_end = trajectory >= self.n["walks"]
            walk = Walk(self.job, self.hub() if is_end else self.job.start)
            found = (self.find_serial() if trajectory == SERIAL
                     else walk.go(*self.job.way(trajectory), True))
            if is_end:
                found = (found[0], walk.values(), [0] * 9)
            self.walked[trajectory] = found
        return self.walked[trajectory]

    def find_serial(self) -> Tally:
        """Returns the ranks of the serial test (KERNEL 7). The start plan counts once."""
        job, place = self.job, self.job.place
        there = Walk(job, job.start).go(2 ** 33 + 1, 0, place, True)
        back = Walk(job, job.start).go(2 ** 33 + 2, 0, self.n["steps"] - place, False)
        ranks = [one + other for one, other in zip(there[1], back[1])]
        return there[0] + back[0], ranks, [0] * 9

    # The choice (KERNEL 8)

    def pick(self, count: str, kind: str, numbers: Iterable[int]) -> List[int]:
        """Returns as many of the numbers as a word says, chosen by the seed; all without it."""
        seed = self.words.get("--seed", "")

        def digest(number: int) -> bytes:
            return hashlib.sha256(f"{seed} {kind} {number}".encode()).digest()

        ranked = sorted(numbers, key=digest)
        return sorted(ranked[:int(self.words.get(count, len(ranked)))])

    def choose(self, walks: Sequence[int], ends: Sequence[int]) -> List[int]:
        """Returns those of some walks and ends that are to be recomputed."""
        if "--id" in self.words:
            given = self.words["--id"].replace("serial", str(SERIAL)).split(",")
            return [int(number) for number in given]
        if self.words.get("--walks-unchecked") == "yes":
            walks = []
        return [*walks, *self.pick("--sample", "trajectory", ends)]

    def run(self) -> None:
        """Checks all that the words ask for."""
        is_report_alone = "--trace" not in self.words and "--checkpoints" not in self.words
        if "--id" in self.words or is_report_alone:
            self.recompute()
        if "--trace" in self.words:
            data = Path(self.words["--trace"]).read_bytes()
            print_digest(f"trace {self.words['--trace']}", data)
            TraceCheck(self, data.decode("utf-8").split("\n")).run()
        if "--checkpoints" in self.words:
            folder = Path(self.words["--checkpoints"])
            for path in sorted(folder.glob("audit-[01].ckpt")) or [folder / "audit-0.ckpt"]:
                CheckpointCheck(self, path).run()
        ReportCheck(self).run()
        self.print_risks()
        self.note_unchecked()

    def recompute(self) -> None:
        """Recomputes the chosen trajectories of the report."""
        every = [*self.walks, *self.ends]
        for number in self.choose(self.walks, self.ends):
            if number not in every:
                raise ValueError(f"there is no trajectory {number} that counts")
            self.known[number] = self.find(number)
        for what, some in (("walks", self.walks), ("trajectories to ends", list(self.ends))):
            if some:
                print_sample(f"report: {what}", [n for n in some if n in self.walked], some)

    # Open questions

    def print_risks(self) -> None:
        """Prints how easily a sample of ends misses a rank that matters."""
        some = len([number for number in self.ends if number in self.walked])
        every = self.n["ends"]
        if self.n["stop"] or not 0 < some < every:
            return
        for line in self.job.report.lines:
            found = re.match(r"ends (\S+ \S+) .* rank (\d+) of ", line)
            if found:
                for part in (20, 100, 1000):
                    print_risk(found[1], int(found[2]), part, some, every)

    def note_unchecked(self) -> None:
        """Notes the walks of which the report's lines were not recomputed."""
        walks = [number for number in self.walks if not self.known.get(number, (0, [], []))[2]]
        if self.job.report.is_pilot:
            walks = [number for number in self.walks if number not in self.known]
        names = ["the serial test" if number == SERIAL else f"walk {number}" for number in walks]
        UNCHECKED.extend(names)


def print_risk(ask: str, rank: int, part: int, some: int, every: int) -> None:
    """Prints with which chance ends stay hidden that carry a rank across a p-value of 1/part.

    Some of every end were recomputed.
    """
    greatest = (every + 1) // part
    if greatest == 0:
        return
    other = greatest if rank > greatest else greatest + 1
    wrong = abs(rank - other)
    hidden = math.comb(every - wrong, some) / math.comb(every, some)
    print(f"report: ends {ask} rank {rank} of {every + 1}: rank {other}, across p = 1/{part}, "
          f"takes {wrong} wrong ends; that many all escaped with chance {hidden:.6f}.")


class ReportCheck:
    """The lines that a report has to have.

    A number that the known trajectories do not tell is taken from the report if it is possible.
    """

    def __init__(self, check: Check) -> None:
        self.job = check.job
        self.n = check.n
        self.known = check.known
        self.lines = check.job.report.lines
        self.visits = check.n["steps"] + 1
        self.counts: Dict[Tuple[int, int], int] = {}  # by walk and ask
        self.out: List[str] = []

    def run(self) -> None:
        self.out.append(self.lines[0] if self.job.report.is_pilot
                        else f"district-audit {2 if self.job.report.is_shift else 1}")
        self.out += self.job.head_lines()
        if self.n["stop"]:
            self.out.append(f"stop {self.n['stop']}")
        if self.job.report.is_pilot:
            self.add_pilot()
        else:
            self.add_results()
        expected = [*self.out, "end", ""]
        both = zip_longest(expected, self.lines, fillvalue="nothing")
        for number, (line, found) in enumerate(both, 1):
            same(f"report line {number}", line, found)

    def add_results(self) -> None:
        """Adds the lines of a report behind its head, in their order (FORMATS, the report)."""
        self.add_walks()
        if self.job.report.is_paired:
            self.add_pairs()
        if self.job.report.is_shift:
            self.add_shift()
        for ask, text in enumerate(self.job.texts if self.n["ends"] else []):
            self.add_ends(ask, text)
        for ask, text in enumerate(self.job.texts if self.job.report.is_serial else []):
            self.add_serial(ask, text)

    def read(self, word: int, low: int, high: int) -> int:
        """Returns the number that is the word of the report's next line, moved into a range."""
        line = self.lines[len(self.out)] if len(self.out) < len(self.lines) else ""
        words = line.split(" ")
        number = words[word] if word < len(words) else ""
        return min(max(int(number) if number.isdecimal() else low, low), high)

    def add_pilot(self) -> None:
        for walk in range(self.n["walks"]):
            moved = self.known[walk][0] if walk in self.known else self.read(3, 0, self.visits - 1)
            self.out.append(f"walk {walk} moved {moved}")

    def add_walks(self) -> None:
        """Adds the lines `walk`, with counts and bounds (KERNEL 6 and 7)."""
        for walk, (ask, text) in product(range(self.n["walks"]), enumerate(self.job.texts)):
            unknown: Tally = (self.read(3, 0, self.visits - 1), [], [])
            moved, counts, _ = self.known.get(walk, unknown)
            count = counts[ask] if counts else self.read(9, 1, self.visits)
            self.counts[walk, ask] = count
            # The least r with r * r * visits >= 2 * count * 10 ** 18.
            bound = math.isqrt((2 * count * BILLION ** 2 - 1) // self.visits) + 1
            self.out.append(f"walk {walk} moved {moved} {text} count {count} of {self.visits} "
                            f"bound {format_billionths(bound)}")

    def add_pairs(self) -> None:
        """Adds the lines `pair` (KERNEL 7)."""
        for first in range(0, self.n["walks"] - 1, 2):
            for ask, text in enumerate(self.job.texts):
                count = self.counts[first, ask] + self.counts[first + 1, ask] - 1
                bound = divide_up(count * BILLION, self.visits)
                self.out.append(f"pair {first} {first + 1} {text} count {count} of "
                                f"{2 * self.visits - 1} bound {format_billionths(bound)}")

    def add_shift(self) -> None:
        """Adds the line `shift`, the sum of the bins of all walks (KERNEL 6)."""
        every = self.n["walks"] * self.visits
        known = [self.known[walk][2] for walk in range(self.n["walks"]) if walk in self.known]
        known = [bins for bins in known if any(bins)]
        bins = [sum(column) for column in zip([0] * 9, *known)]
        if len(known) < self.n["walks"]:
            bins = [self.read(place, least, every) for place, least in enumerate(bins, 1)]
            same("report: the sum of the line shift", [every], [sum(bins)])
        self.out.append("shift " + " ".join(str(number) for number in bins))

    def add_ends(self, ask: int, text: str) -> None:
        """Adds a line `ends` or `stop` (KERNEL 7)."""
        hits: List[Optional[bool]] = []  # of each end, if it is in the tail; None if not known
        for end in range(self.n["walks"], self.n["walks"] + self.n["ends"]):
            is_known = end in self.known
            hits.append(self.job.is_in_tail(ask, self.known[end][1][ask]) if is_known else None)
        if self.n["stop"]:
            self.out.append(f"stop {text} {self.format_stop(hits)}")
            return
        of = self.n["ends"] + 1
        rank = self.read(6, 1 + hits.count(True), of - hits.count(False))
        p_value = divide_up(rank * BILLION, of)
        self.out.append(f"ends {text} rank {rank} of {of} p {format_billionths(p_value)}")

    def format_stop(self, hits: List[Optional[bool]]) -> str:
        """Returns the place, the value and the p-value of early stopping (KERNEL 7).

        Those of the report stand if ends that are not known may give them.
        """
        place, top, of = find_stop([hit is True for hit in hits], self.n["stop"])
        words = self.lines[len(self.out)].split(" ")
        claim = (int(words[6]), *(int(number) for number in words[8].split("/")))
        if self.is_possible(hits, claim):
            place, top, of = claim
        p_value = divide_up(top * BILLION, of)
        return f"place {place} value {top}/{of} p {format_billionths(p_value)}"

    def is_possible(self, hits: List[Optional[bool]], claim: Tuple[int, ...]) -> bool:
        """Returns if the known ends allow this place and value."""
        place, top, of = claim
        first, enough = hits[:place], self.n["stop"]
        if place < 1 or len(first) != place:
            return False
        is_stopped = (top, of) == (enough, place) and first[-1] is not False
        is_through = place == len(hits) and of == place + 1 and top <= enough
        total = top if is_stopped else top - 1
        least = first.count(True)
        return (is_stopped or is_through) and least <= total <= least + first.count(None)

    def add_serial(self, ask: int, text: str) -> None:
        """Adds a line `serial` (KERNEL 7)."""
        is_known = SERIAL in self.known
        rank = self.known[SERIAL][1][ask] if is_known else self.read(8, 1, self.visits)
        p_value = divide_up(rank * BILLION, self.visits)
        self.out.append(f"serial {text} place {self.job.place} rank {rank} of {self.visits} "
                        f"p {format_billionths(p_value)}")


def find_stop(hits: List[bool], enough: int) -> Tuple[int, int, int]:
    """Returns the place of early stopping, and the numerator and denominator of the value."""
    total = 0
    for place, is_hit in enumerate(hits, 1):
        total += is_hit
        if total == enough:
            return place, total, place
    return len(hits), total + 1, len(hits) + 1


# ---- the check of a trace


class TraceCheck:
    """The check of a trace (FORMATS, the trace; KERNEL 8)."""

    def __init__(self, check: Check, lines: List[str]) -> None:
        self.check = check
        self.job = check.job
        self.n = check.n
        self.lines = lines
        self.last_values: List[int] = []  # those of the last plan of a section

    def run(self) -> None:
        asks = [f"ask {text}" for text in self.job.texts]
        head = ["district-trace 1", *self.job.head_lines(), *asks]
        titles = [at for at, line in enumerate(self.lines) if line.startswith("trace ")]
        both = zip_longest(head, self.lines[:titles[0]], fillvalue="nothing")
        for number, (line, found) in enumerate(both, 1):
            same(f"trace line {number}", line, found)
        for at, end in zip(titles, [*titles[1:], len(self.lines) - 2]):
            self.check_section(at + 1, self.lines[at], self.lines[at + 1:end])
        same("trace: its end", "end ", " ".join(self.lines[-2:]))

    def check_section(self, at: int, title: str, rows: List[str]) -> None:
        """Checks the section of a trajectory: its title, and the line of each plan.

        The first, the last, and some inner segments are recomputed. The first line of an
        end's section is the hub, which is recomputed unless --skip-hub is given.
        """
        number = number_in(title, "id")
        thin = number_in(title, "thin")
        most = self.n["walks"] + self.n["ends"] - 1
        stream, _, steps = self.job.way(number)
        same(f"trace line {at}", f"trace id {min(number, most)} steps {steps} thin {thin}", title)
        places = [*range(0, steps, thin), steps]
        same(f"trace line {at}: number of plans", [len(places)], [len(rows)])
        middle = range(1, len(places) - 2)
        some = self.check.pick("--segments", f"segment-{number}", middle)
        chosen = {0, *some, len(places) - 2}
        first: Optional[List[int]] = self.job.start
        if number >= self.n["walks"]:
            first = None if "--skip-hub" in self.check.words else self.check.hub()
        moved, counts, bins = self.check_rows(at + 1, rows, places, stream, chosen, first)
        if number >= self.n["walks"]:
            counts, bins = self.last_values, []
        elif len(some) < len(middle):
            counts, bins = [], []  # the counts depend on all segments
        self.check.known.setdefault(number, (moved, counts, bins))
        print_sample(f"trace of id {number}: {len(rows)} plans, inner segments", some, middle)

    def check_rows(
        self, at: int, rows: List[str], places: List[int], stream: int, chosen: Set[int],
        first: Optional[List[int]],
    ) -> Tally:
        """Checks the rows of a section, and recomputes the chosen segments behind them.

        At is the number of the first row's line, places are the steps of the rows, and first is
        the first plan, if it is known. Returns the moves, and the counts of these segments.
        """
        asks = len(self.job.asks)
        plan = self.job.start
        moved = 0
        total = [0] * (asks + 9)
        expected = first
        for n, (place, line) in enumerate(zip(places, rows)):
            row = line.split(" ")
            shown = self.read_plan(plan, row)
            if expected is None:  # the segment before was not recomputed
                expected = shown
                moved = min(max(moved, int(row[1])), place)
            self.compare_row(f"trace line {at + n}", [place, moved], plan, expected, line)
            walk = Walk(self.job, shown)
            same(f"trace line {at + n}, the plan is legal", [True], [walk.is_legal()])
            self.last_values = walk.values()
            plan = shown
            moved = int(row[1])
            expected = None
            if n in chosen:
                more, counts, bins = walk.go(stream, place, places[n + 1], n == 0)
                expected = walk.plan
                moved += more
                total = [sum(both) for both in zip(total, counts + bins)]
        return moved, total[:asks], total[asks:]

    def read_plan(self, before: Sequence[int], row: List[str]) -> List[int]:
        """Returns the plan of a row, which shows the units whose district changed."""
        plan = list(before)
        for word in row[2 + len(self.job.asks):]:
            unit, district = word.split(":")
            plan[int(unit)] = int(district)
        return plan

    def compare_row(
        self, where: str, numbers: List[int], before: Sequence[int], plan: List[int], line: str
    ) -> None:
        """Compares a row with the numbers of steps and moves, the values and the changes."""
        values = Walk(self.job, plan).values()
        changes = [f"{unit}:{district}" for unit, district in enumerate(plan)
                   if district != before[unit]]
        same(where, [*numbers, *values, *changes], line)


# ---- the check of a checkpoint


class CheckpointCheck:
    """The check of a checkpoint (FORMATS, the checkpoint)."""

    FORMS = {1: ">IQ4q", 2: ">IQ4q9I"}  # an outcome, by the version

    def __init__(self, check: Check, path: Path) -> None:
        self.check = check
        self.job = check.job
        self.n = check.n
        self.path = path

    def run(self) -> None:
        data = self.path.read_bytes()
        print_digest(f"checkpoint {self.path}", data)
        magic, version, job, generation, count = struct.unpack(">8sI32sII", data[:52].ljust(52))
        form = self.FORMS.get(version, "")
        is_intact = (
            magic == b"DISTCKPT" and form != "" and generation <= 2
            and len(data) == 84 + struct.calcsize(form) * count
            and hashlib.sha256(data[:-32]).digest() == data[-32:])
        if not is_intact:
            WRONG.append(f"{self.path}: no intact checkpoint")
            return
        same(f"{self.path}: digest of the job", digest_of(self.job), job.hex())
        found: Dict[int, List[int]] = {}  # moves, four values and nine bins, by id
        for number, *row in struct.iter_unpack(form, data[52:-32]):
            found[number] = [*row, *[0] * 9][:14]
        self.compare(found, count)

    def compare(self, found: Dict[int, List[int]], count: int) -> None:
        """Compares the outcomes with trajectories that are recomputed."""
        walks, every = self.n["walks"], self.n["walks"] + self.n["ends"]
        ids = [number for number in sorted(found) if number < every]
        same(f"{self.path}: ids", [*ids, count], [*found, len(ids)])
        ends = [number for number in ids if number >= walks]
        numbers = self.check.choose([n for n in ids if n < walks], ends)
        numbers = [number for number in numbers if number in found]
        for number in numbers:
            moved, values, bins = self.check.find(number)
            self.check.known[number] = (moved, values, bins)
            if not any(found[number][5:]):
                bins = [0] * 9  # a run without --shift saves none
            row = [moved, *values, *[0] * (4 - len(values)), *bins]
            same(f"{self.path}: outcome {number}", row, found[number])
        asks = len(self.job.asks)
        for number in ids:  # the report must fit the outcomes that were not recomputed, too
            row = found[number]
            self.check.known.setdefault(number, (row[0], row[1:1 + asks], []))
        print_sample(f"{self.path}: outcomes", numbers, ids)


def pack(numbers: Iterable[int], form: str = "I") -> bytes:
    """Returns big-endian numbers, each of four bytes, or of eight in the form Q."""
    return b"".join(struct.pack(">" + form, number) for number in numbers)


def digest_form(job: Job) -> int:
    """Returns the number behind `district-job` (FORMATS, the checkpoint)."""
    if job.weight < EVEN:
        return 6
    if job.has_lengths and job.edges:
        return 5
    if job.has_share or job.has_frozen:
        return 4
    if job.has_splits or job.has_group:
        return 3
    return 2 if job.regions or job.n["max-cut"] < LIMITS["max-cut"] else 1


def digest_of(job: Job) -> str:
    """Returns the digest of a job: parts 1 to 11 (FORMATS, the checkpoint)."""
    n, columns = job.n, job.columns
    parts = [b"district-job %d" % digest_form(job)]
    parts.append(pack([len(job.start), len(job.edges), job.districts]))
    parts.append(pack(chain.from_iterable(job.edges)))
    units = zip(columns["--pop"], columns["--first"], columns["--second"], job.start)
    parts += [pack(counts, "Q") + pack([district]) for *counts, district in units]
    parts += [pack([n["slack"]]), job.key]
    parts.append(pack([n["walks"], n["steps"], n["ends"], n["hub-steps"], len(job.asks)]))
    parts += [pack([SCORES.index(score), TAILS.index(tail)]) for score, tail in job.asks]
    parts += rule_parts(job)
    if job.has_lengths and job.edges:
        parts += [b"length", pack([n["max-length"]], "Q")]
        parts += [pack(length for _, length in sorted(row.items())) for row in job.far]
    if job.weight < EVEN:
        parts.append(pack([job.weight]))
    return hashlib.sha256(b"".join(parts)).hexdigest()


def rule_parts(job: Job) -> List[bytes]:
    """Returns parts 4 to 9 of a digest."""
    n, columns = job.n, job.columns
    parts: List[bytes] = []
    if job.regions:
        parts.append(pack([n["max-split"], *columns["--region"]]))
    if job.has_splits:
        parts.append(pack([n["max-splits"], n["max-split-regions"]]))
    if job.has_group:
        both = zip(columns["--group"], columns["--group-of"])
        parts += [pack([n["group-districts"]]), pack(chain.from_iterable(both), "Q")]
    if job.has_share:
        parts += [b"group-share", pack([n["group-share"]])]
    if job.has_frozen:
        parts += [b"freeze", pack(columns["--freeze"])]
    if parts or n["max-cut"] < LIMITS["max-cut"]:
        parts.insert(0, pack([n["max-cut"]]))
    return parts


# ---- the whole check


def job_of(
    data: bytes, graph: bytes, lines: List[str], words: Dict[str, str], labels: Dict[str, str]
) -> Job:
    """Returns the job of a report. A plan of a table has a label for each unit's id."""
    report = Report(lines)
    is_make = data == b"make"
    names = find_columns(report, words, is_make)
    compare_words(report, names, words)
    if is_make:
        return Job(report, names, data, make_map(int(words["--size"]), report.key))
    return Job(report, names, data, read_map(graph.decode("utf-8"), names, labels))


def check_all(data: bytes, text: str, words: Dict[str, str]) -> None:
    """Checks a report, or the reports of several plans (FORMATS, several plans)."""
    first, *parts = re.split(r"^plan (.*)\n", text, flags=re.M)
    if first or not parts:
        Check(job_of(data, data, text.split("\n"), words, {}), words).run()
        return
    graph, _, table = data.partition(b"\n")
    records = csv.reader(io.StringIO(table.decode("utf-8-sig"), newline=""))
    names, *rows = [record for record in records if record]
    plans = list(zip(parts[::2], parts[1::2]))
    own = ""
    for column, (plan, report) in enumerate(plans):
        print(f"plan {plan}")
        wrong, unchecked = len(WRONG), len(UNCHECKED)
        labels = {row[0]: row[column] for row in rows} if column else {}
        job = job_of(data, graph, report.split("\n"), words, labels)
        Check(job, words).run()
        WRONG[wrong:] = [f"plan {plan}: {line}" for line in WRONG[wrong:]]
        UNCHECKED[unchecked:] = [f"plan {plan}: {name}" for name in UNCHECKED[unchecked:]]
        own = job.names["--district"]
    same("the plans", [own, *names[1:]], [plan for plan, _ in plans])
    ids = {row[0] for row in rows}
    same("the table's units", [len(job.start)] * 2, [len(rows), len(ids)])


def read_words(args: List[str]) -> Optional[Dict[str, str]]:
    """Returns the words behind both files, or None if they are not pairs of known words."""
    words = dict(zip(args[2::2], args[3::2]))
    is_known = all(name in OF_THE_CHECK or name in OF_THE_RUN for name in words)
    return words if len(args) >= 2 and len(args) % 2 == 0 and is_known else None


def main(args: List[str]) -> int:
    words = read_words(args)
    if words is None:
        print(__doc__)
        return 2
    for name in ("--sample", "--segments"):
        if name in words and "--seed" not in words:
            print(f"cannot be checked: {name} without --seed: give the text of the public lottery")
            return 2
    WRONG.clear()
    UNCHECKED.clear()
    try:
        data = b"make" if args[0] == "make" else Path(args[0]).read_bytes()
        text = Path(args[1]).read_bytes()
        if args[0] != "make":
            print_digest(f"graph {args[0]}", data)
        print_digest(f"report {args[1]}", text)
        check_all(data, text.decode("utf-8"), words)
    except (OSError, ValueError, LookupError, ArithmeticError, csv.Error) as error:
        print(*WRONG, f"cannot be checked: {type(error).__name__}: {error}", sep="\n")
        return 2
    return conclude(words)


def conclude(words: Dict[str, str]) -> int:
    """Prints all differences and the last lines, and returns the status."""
    print(*WRONG, f"{DONE['comparisons']} comparisons and {DONE['steps']} steps", sep="\n")
    result = f"{len(WRONG)} disagreements" if WRONG else "all that was asked agrees"
    if UNCHECKED:
        result += f"; NOT CHECKED: {', '.join(UNCHECKED)}"
    print(result)
    if WRONG:
        return 1
    return 2 if UNCHECKED and words.get("--walks-unchecked") != "yes" else 0


if __name__ == "__main__":
    sys.exit(main(sys.argv[1:]))
