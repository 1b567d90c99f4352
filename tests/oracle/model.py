"""A plain model of the auditor: what it must answer for words, a graph and two slots. It imports
nothing of the other tests.

`audit(words, graph, slots, ...)` answers an `End`: the status, the text on standard output, the
note on standard error, and both slots. Words, notes and standard output are bytes; a slot is bytes
or None. JSON is read as serde_json reads it: by Python's json with whole numbers of 64 bits, at
most 127 levels, and neither lone surrogates nor numbers too great for a float. One worker is
assumed for the slots.
"""
from __future__ import annotations

import csv
import dataclasses
import functools
import hashlib
import io
import json
import math
import re
import struct
import typing
from collections import Counter
from collections.abc import Mapping, Sequence

BILLION = 10**9
MOST_INPUT = 67108864
MOST_SLOT = 84 + 80 * 100000
MOST_CUT = 400000
MOST_REGIONS = 5000
MOST_SPLITS = 995000
MOST_LENGTH = 400000 * (2**32 - 1)
NO_WEIGHT = 256  # of 256: four times the 64 of the words
SCORES = ("seats", "mean-median", "gap", "cut-edges", "cut-length")
TAILS = ("low", "high")
BASE = ("--pop", "--first", "--second", "--district")
TABLE = (
    *BASE, "--size", "--slack", "--key", "--walks", "--steps", "--ends", "--hub-steps", "--ask",
    "--workers", "--budget", "--save", "--resume", "--max-cut", "--shift", "--stop", "--serial",
    "--region", "--max-split", "--parts", "--part", "--max-splits", "--max-split-regions",
    "--group", "--group-of", "--group-districts", "--source", "--ids", "--thin", "--group-share",
    "--freeze", "--length", "--max-length", "--pairs", "--cut-weight", "--blind",
)
OF_TRACES = ("--ids", "--thin")
OPTIONAL_COLUMNS = ("--region", "--group", "--group-of", "--freeze")
OF_A_FILE = (
    "--region", "--max-split", "--max-splits", "--max-split-regions", "--group", "--group-of",
    "--group-districts", "--source", "--group-share", "--freeze", "--length", "--max-length",
)
COMMANDS = {
    "check": (*BASE, "--slack", "--max-cut", *OF_A_FILE, "--cut-weight"),
    "run": tuple(name for name in TABLE if name not in ("--size", *OF_TRACES)),
    "make": tuple(name for name in TABLE if name not in (*BASE, *OF_A_FILE, *OF_TRACES)),
    "plans": tuple(
        name
        for name in TABLE
        if name
        not in (
            "--size", "--budget", "--save", "--resume", "--parts", "--part", "--blind", *OF_TRACES,
        )
    ),
    "trace": tuple(
        name
        for name in TABLE
        if name
        not in (
            "--size", "--workers", "--budget", "--save", "--resume", "--shift", "--stop",
            "--serial", "--parts", "--part", "--pairs", "--blind",
        )
    ),
}
DEFAULTS = {
    "--slack": "500",
    "--walks": "1",
    "--steps": "1000",
    "--ends": "0",
    "--hub-steps": "1000",
    "--workers": "1",
    "--budget": "100000",
    "--save": "0",
    "--resume": "no",
    "--max-cut": "400000",
    "--shift": "no",
    "--stop": "0",
    "--serial": "no",
    "--region": "",
    "--max-split": "200",
    "--parts": "1",
    "--part": "0",
    "--max-splits": "995000",
    "--max-split-regions": "5000",
    "--group": "",
    "--group-of": "",
    "--group-districts": "0",
    "--source": "no",
    "--ids": "0",
    "--thin": "1000",
    "--group-share": "5000",
    "--freeze": "",
    "--length": "",
    "--max-length": str(MOST_LENGTH),
    "--pairs": "no",
    "--cut-weight": "64",
    "--blind": "no",
}
RANGES = {
    "--size": (1, 30),
    "--slack": (0, 10000),
    "--walks": (0, 100000),
    "--steps": (1, BILLION),
    "--ends": (0, 100000),
    "--hub-steps": (1, BILLION),
    "--workers": (1, 32),
    "--budget": (0, 100000),
    "--save": (0, 100000),
    "--max-cut": (0, MOST_CUT),
    "--stop": (0, 100000),
    "--max-split": (1, 200),
    "--parts": (1, 100000),
    "--part": (0, 99999),
    "--max-splits": (0, MOST_SPLITS),
    "--max-split-regions": (0, MOST_REGIONS),
    "--group-districts": (0, 200),
    "--thin": (1, BILLION),
    "--group-share": (0, 10000),
    "--max-length": (0, MOST_LENGTH),
}
# Which column has to be named where the value of a name is not the default.
WITH_COLUMN = {
    "--max-split": "--region",
    "--max-splits": "--region",
    "--max-split-regions": "--region",
    "--group-of": "--group",
    "--group-districts": "--group",
    "--group-share": "--group",
    "--max-length": "--length",
}
NO_BINS = (0,) * 9
ALL_ASKS = {f"{score}:{tail}": (score, tail) for score in SCORES for tail in TAILS}

# The district of each unit.
Plan = Sequence[int]
# Two units, the smaller first.
Edge = tuple[int, int]
# An object of a JSON text.
Entry = dict[str, object]
# A score and a tail.
Ask = tuple[str, str]
# The bytes of both slots, or None where a slot is absent.
Slots = Sequence[typing.Optional[bytes]]
# The numbers of an outcome in a checkpoint: its id, its moves, four values and nine bins.
Record = tuple[int, ...]
Label = typing.TypeVar("Label", bound=typing.Hashable)


class End(typing.NamedTuple):
    """The end of a call."""

    status: int
    out: str
    note: str
    slots: list[bytes | None]


class Outcome(typing.NamedTuple):
    """The outcome of a trajectory: its moves, a value for each ask, and the histogram of seats."""

    moved: int
    values: Sequence[int]
    bins: Sequence[int]


@dataclasses.dataclass(frozen=True)
class Graph:
    """The parts of a graph that are read.

    What no column is named for is empty: regions, frozen units (else a truth value for each unit),
    lengths (else one for each edge) and the group (else two lists: the group's, and the whole's).
    """

    edges: list[Edge]
    people: list[int]
    first: list[int]
    second: list[int]
    plan: list[int]
    districts: int
    regions: list[int]
    group: list[list[int]]
    frozen: list[bool]
    lengths: list[int]


@dataclasses.dataclass(frozen=True)
class Origin:
    """The digest of the bytes that were read, and their number."""

    sha256: bytes
    length: int


class Refused(Exception):
    """A refusal: its status and its note."""

    def __init__(self, status: int, note: str) -> None:
        super().__init__(note)
        self.status, self.note = status, note


# ---- words


def number(text: str) -> int | None:
    """Returns the number that a text is, or None."""
    is_plain = text.isascii() and text.isdigit() and (text == "0" or text[0] != "0")
    return int(text) if is_plain and len(text) < 64 else None


def quarters(text: str) -> int | None:
    """Returns four times the weight that a text is, from 4 to 256, or None: `33`, `33.25`, `33.5`
    and `33.75`, but not `33.0` or `33.50`.
    """
    whole, point, part = text.partition(".")
    parts = {"": 0, ".25": 1, ".5": 2, ".75": 3}
    units, more = number(whole), parts.get(point + part)
    if units is None or more is None or not 4 <= 4 * units + more <= NO_WEIGHT:
        return None
    return 4 * units + more


def ids_of(text: str) -> tuple[int | None, int | None]:
    """Returns the first and the last id of a range `A-B`, or of `A`; None for one that is no
    number.
    """
    first, dash, last = text.partition("-")
    return number(first), number(last if dash else first)


class Setting:
    """The setting of words, or Refused."""

    def __init__(self, words: Sequence[str]) -> None:
        if not words:
            raise Refused(1, "words: no command")
        self.command = words[0]
        if self.command not in COMMANDS:
            raise Refused(1, f"words: unknown command {self.command}")
        names = COMMANDS[self.command]
        self.value = self.pairs(words[1:], names)
        for name in names:
            if name not in self.value and name not in DEFAULTS:
                raise Refused(1, f"words: {name} is missing")
        self.value = {**DEFAULTS, **self.value}
        for name in names:
            if not self.is_good(name):
                raise Refused(1, f"words: bad value for {name}")
        if self.value["--pairs"] == "yes" and self.get("--walks") < 2:
            raise Refused(1, "words: pairs need two walks")
        self.numbers()

    @staticmethod
    def pairs(words: Sequence[str], names: Sequence[str]) -> dict[str, str]:
        value: dict[str, str] = {}
        for at in range(0, len(words), 2):
            name = words[at]
            if name not in names:
                raise Refused(1, f"words: unknown name {name}")
            if name in value:
                raise Refused(1, f"words: {name} is given twice")
            if at + 1 == len(words):
                raise Refused(1, f"words: no value for {name}")
            value[name] = words[at + 1]
        return value

    def get(self, name: str) -> int:
        return int(number(self.value[name]) or 0)

    def is_good(self, name: str) -> bool:
        text = self.value[name]
        if name in WITH_COLUMN and text != DEFAULTS[name] and not self.value[WITH_COLUMN[name]]:
            return False
        if name not in RANGES:
            return self.is_good_text(name, text)
        low, high = RANGES[name]
        return number(text) is not None and low <= self.get(name) <= high and self.fits_others(name)

    def is_good_text(self, name: str, text: str) -> bool:
        """Returns whether the value of a name without a range is good."""
        if name == "--key":
            return re.fullmatch("[0-9a-fA-F]{64}", text) is not None
        if name == "--ask":
            asks = text.split(",")
            is_known = all(ask in ALL_ASKS for ask in asks)
            needs_length = any(ask.startswith("cut-length:") for ask in asks)
            if needs_length and not self.value["--length"]:
                return False
            return is_known and len(asks) <= 4 and len(set(asks)) == len(asks)
        if name == "--serial" and text == "yes":
            plans = self.get("--steps") + 1
            return plans & plans - 1 == 0
        if name == "--cut-weight":
            return quarters(text) is not None
        if name == "--blind" and text == "yes":
            return not self.keeps_slots()
        if name in ("--resume", "--shift", "--serial", "--source", "--pairs", "--blind"):
            return text in ("yes", "no")
        if name == "--ids":
            first, last = ids_of(text)
            if first is None or last is None:
                return False
            return bool(first <= last < self.get("--walks") + self.get("--ends"))
        return name != "--district" or self.command != "plans" or "\n" not in text

    def fits_others(self, name: str) -> bool:
        """Returns whether a number within its range is good beside the other values."""
        total = self.get("--walks") + self.get("--ends")
        if name == "--ends":
            return 1 <= total <= 100000
        if name == "--budget":
            return self.value["--save"] != "0" or total <= self.get("--budget")
        if name == "--stop" and self.get("--stop"):
            return self.get("--ends") >= 1 and not self.keeps_slots()
        if name == "--parts":
            return self.get("--parts") == 1 or self.get("--save") >= 1
        return name != "--part" or self.get("--part") < self.get("--parts")

    def keeps_slots(self) -> bool:
        """Returns whether the run saves or resumes."""
        return self.get("--save") != 0 or self.value["--resume"] == "yes"

    def numbers(self) -> None:
        value = self.value
        self.weight = quarters(value["--cut-weight"]) or NO_WEIGHT
        self.pairs_walks, self.blind = value["--pairs"] == "yes", value["--blind"] == "yes"
        self.slack, self.max_cut = self.get("--slack"), self.get("--max-cut")
        self.columns = (
            tuple(value[name] for name in BASE)
            if self.command != "make"
            else ("pop", "a", "b", "district")
        )
        self.region, self.source = value["--region"], value["--source"] == "yes"
        self.group = (
            (value["--group"], value["--group-of"] or self.columns[0]) if value["--group"] else ()
        )
        self.max_split, self.max_splits, self.max_split_regions, self.group_districts = (
            self.get(name)
            for name in ("--max-split", "--max-splits", "--max-split-regions", "--group-districts")
        )
        self.group_share, self.freeze = self.get("--group-share"), value["--freeze"]
        self.length, self.max_length = value["--length"], self.get("--max-length")
        self.asks: list[Ask] = []
        if self.command == "check":
            self.total, self.save, self.stop, self.resume, self.shift, self.serial = (
                0, 0, 0, False, False, False,
            )
            return
        self.key = bytes.fromhex(value["--key"])
        self.walks, self.steps, self.ends, self.hub_steps = (
            self.get(name) for name in ("--walks", "--steps", "--ends", "--hub-steps")
        )
        self.total = self.walks + self.ends
        self.asks = [ALL_ASKS[ask] for ask in value["--ask"].split(",")]
        self.budget, self.save, self.workers, self.stop = (
            self.get(name) for name in ("--budget", "--save", "--workers", "--stop")
        )
        self.parts, self.part = self.get("--parts"), self.get("--part")
        self.resume, self.shift, self.serial = (
            value[name] == "yes" for name in ("--resume", "--shift", "--serial")
        )
        self.size = self.get("--size") if self.command == "make" else 0


# ---- the graph


class NotJson(Exception):
    pass


def parse_whole(text: str) -> int | float:
    """Returns a whole number of 64 bits, or a float, as serde_json keeps it."""
    if len(text) < 25 and text != "-0":
        value = int(text)
        if -(2**63) <= value < 2**64:
            return value
    return fraction(text)


def fraction(text: str) -> float:
    value = float(text)
    if math.isinf(value):
        raise NotJson
    return value


def no_constant(_text: str) -> typing.NoReturn:
    raise NotJson


STRING = re.compile(rb'"(?:[^"\\]|\\.)*"', re.DOTALL)
NO_BRACKET = re.compile(rb"[^][{}]+")


def depth(data: bytes) -> int:
    """Returns how deep brackets stand within brackets, outside texts."""
    level = most = 0
    for byte in NO_BRACKET.sub(b"", STRING.sub(b"", data)):
        level += 1 if byte in b"[{" else -1
        most = max(most, level)
    return most


def has_lone_surrogate(data: bytes) -> bool:
    return any(re.search("[\ud800-\udfff]", json.loads(text)) for text in STRING.findall(data))


def parse(data: bytes) -> object:
    """Returns the value of a JSON text, or raises NotJson."""
    try:
        value: object = json.loads(
            data.decode("utf-8"), parse_int=parse_whole, parse_float=fraction,
            parse_constant=no_constant,
        )
    except (ValueError, RecursionError) as error:
        raise NotJson from error
    if depth(data) > 127 or b"\\u" in data and has_lone_surrogate(data):
        raise NotJson
    return value


def is_id(value: object) -> bool:
    return type(value) in (int, str)


def refuse(note: str) -> typing.NoReturn:
    raise Refused(2, f"graph: {note}")


def shape(root: object) -> tuple[list[object], list[list[object]]]:
    """Returns the lists of nodes and of neighbors, or refuses the shape."""

    def bad(part: str) -> typing.NoReturn:
        refuse(f"bad shape of {part}")

    if type(root) is not dict:
        bad("root")
    nodes, adjacency = root.get("nodes"), root.get("adjacency")
    if type(nodes) is not list:
        bad("nodes")
    if type(adjacency) is not list or any(type(entry) is not list for entry in adjacency):
        bad("adjacency")
    for part in ("directed", "multigraph"):
        if part in root and type(root[part]) is not bool:
            bad(part)
    if root.get("directed"):
        refuse("directed")
    if len(nodes) != len(adjacency):
        refuse(f"{len(nodes)} nodes and {len(adjacency)} adjacency entries")
    if len(nodes) > 100000:
        refuse(f"{len(nodes)} units, more than 100000")
    return nodes, adjacency


def entries_of(values: list[object], kind: str, owner: str = "") -> list[Entry]:
    """Returns the values, or refuses the first that is no object with a usable id."""
    entries: list[Entry] = []
    for at, value in enumerate(values):
        if type(value) is not dict or not is_id(value.get("id")):
            refuse(f"{kind} {at}{owner} has no usable id")
        entries.append(value)
    return entries


def places_of(nodes: Sequence[Entry]) -> dict[object, int]:
    """Returns the place of each id, or refuses the first that two nodes have."""
    places: dict[object, int] = {}
    for at, node in enumerate(nodes):
        if node["id"] in places:
            refuse(f"nodes {places[node['id']]} and {at} have the same id")
        places[node["id"]] = at
    return places


def neighbours_of(adjacency: list[list[object]]) -> list[list[Entry]]:
    """Returns the entries of each node's neighbors, or refuses the first without a usable id."""
    return [entries_of(row, "neighbour", f" of node {at}") for at, row in enumerate(adjacency)]


def edges_of(places: dict[object, int], adjacency: Sequence[list[Entry]]) -> list[Edge]:
    for at, entry in enumerate(adjacency):
        for place, one in enumerate(entry):
            if one["id"] not in places:
                refuse(f"neighbour {place} of node {at} is unknown")
    pairs = {
        (min(at, places[one["id"]]), max(at, places[one["id"]]))
        for at, entry in enumerate(adjacency)
        for one in entry
    }
    edges = sorted(pair for pair in pairs if pair[0] < pair[1])
    if len(edges) > 400000:
        refuse(f"{len(edges)} edges, more than 400000")
    return edges


def lengths_of(
    places: dict[object, int], adjacency: Sequence[list[Entry]], edges: Sequence[Edge], column: str
) -> list[int]:
    """Returns the length of each edge, or refuses one; none where no column is named."""
    if not column:
        return []
    every = [
        (at, place, one) for at, entry in enumerate(adjacency) for place, one in enumerate(entry)
    ]
    for at, place, one in every:
        if column not in one:
            refuse(f"neighbour {place} of node {at} has no attribute {column}")
    lengths = [length_in(at, place, one, column) for at, place, one in every]
    found: dict[Edge, int] = {}
    for (at, place, one), length in zip(every, lengths):
        other = places[one["id"]]
        if found.setdefault((min(at, other), max(at, other)), length) != length:
            refuse(
                f"neighbour {place} of node {at} has another number in attribute {column} than the"
                " same edge before"
            )
    return [found[edge] for edge in edges]


def length_in(at: int, place: int, entry: Entry, column: str) -> int:
    """Returns the length that an entry of a neighbor has, or refuses it."""
    value = entry[column]
    if type(value) is not int or not 0 <= value < 2**32:
        refuse(
            f"neighbour {place} of node {at} has no whole number from 0 to 4294967295 in"
            f" attribute {column}"
        )
    return value


def count_in(at: int, node: Entry, column: str) -> int:
    """Returns the whole number from 0 to a billion that a node has in a column, or refuses it."""
    value = node[column]
    if type(value) is not int or not 0 <= value <= BILLION:
        refuse(f"node {at} has no whole number from 0 to 1000000000 in column {column}")
    return value


def flag_in(at: int, node: Entry, column: str) -> bool:
    """Returns whether a column of frozen units is true or above 0, or refuses another value."""
    value = node[column]
    if type(value) is bool:
        return value
    if type(value) is not int or not 0 <= value <= BILLION:
        refuse(
            f"node {at} has no true, false or whole number from 0 to 1000000000 in column {column}"
        )
    return value > 0


def columns_of(
    nodes: Sequence[Entry], columns: Sequence[str], group: Sequence[str], freeze: Sequence[str]
) -> tuple[list[list[int]], list[object], list[bool]]:
    """Returns the number columns with those of a group behind them, the labels, and which units are
    frozen, or refuses the first value that is not as it must be.
    """
    for at, node in enumerate(nodes):
        for column in (*columns, *group, *freeze):
            if column not in node:
                refuse(f"node {at} has no column {column}")
    names = (*columns[:3], *group)
    rows: list[list[int]] = []
    frozen: list[bool] = []
    for at, node in enumerate(nodes):
        rows.append([count_in(at, node, column) for column in names])
        frozen += [flag_in(at, node, column) for column in freeze]
    labels = [node[columns[3]] for node in nodes]
    for at, label in enumerate(labels):
        if not is_id(label):
            refuse(f"node {at} has no usable label")
    return [[row[place] for row in rows] for place in range(len(names))], labels, frozen


def number_labels(labels: Sequence[Label]) -> tuple[int, list[int]]:
    """Returns the number of labels, and each one's place among them in rising order, numbers before
    texts.
    """
    different = sorted(set(labels), key=lambda label: (type(label) is str, label))
    place = {label: at for at, label in enumerate(different)}
    return len(different), [place[label] for label in labels]


def regions_of(nodes: Sequence[Entry], column: str) -> list[int]:
    """Returns the region of each unit, or refuses a label; none where no column is named."""
    if not column:
        return []
    for at, node in enumerate(nodes):
        if column not in node:
            refuse(f"node {at} has no column {column}")
    for at, node in enumerate(nodes):
        if not is_id(node[column]):
            refuse(f"node {at} has no usable label in column {column}")
    count, regions = number_labels([node[column] for node in nodes])
    if count > MOST_REGIONS:
        refuse(f"{count} regions, more than 5000")
    return regions


def read_graph(data: bytes, setting: Setting) -> Graph:
    """Returns the parts of a graph that words ask for, or refuses it."""
    freeze = [setting.freeze] if setting.freeze else []
    if len(data) > MOST_INPUT:
        refuse(f"more than {MOST_INPUT} bytes")
    try:
        root = parse(data)
    except NotJson:
        refuse("not JSON")
    values, rows = shape(root)
    nodes = entries_of(values, "node")
    places = places_of(nodes)
    adjacency = neighbours_of(rows)
    edges = edges_of(places, adjacency)
    (people, first, second, *both), labels, frozen = columns_of(
        nodes, setting.columns, setting.group, freeze
    )
    districts, plan = number_labels(labels)
    if not 2 <= districts <= 200:
        refuse(f"{districts} districts, not 2 to 200")
    lengths = lengths_of(places, adjacency, edges, setting.length)
    return Graph(
        edges, people, first, second, plan, districts, regions_of(nodes, setting.region), both,
        frozen, lengths,
    )


# ---- tables


def refuse_table(note: str) -> typing.NoReturn:
    raise Refused(2, f"table: {note}")


def records_of(data: bytes) -> list[list[bytes]]:
    """Returns the records of a table, each a list of fields of bytes: no empty lines, no byte order
    mark, and any line end.
    """
    text = data.removeprefix(b"\xef\xbb\xbf").decode("latin-1")
    rows = csv.reader(io.StringIO(text, newline=""))
    return [[field.encode("latin-1") for field in row] for row in rows if row]


def is_text(field: bytes) -> bool:
    try:
        field.decode("utf-8")
    except UnicodeDecodeError:
        return False
    return True


class TablePlan(typing.NamedTuple):
    """A plan of a table: its name, its number of districts, and the district of each unit."""

    name: str
    districts: int
    plan: list[int]


def plans_of(data: bytes, ids: Sequence[bytes]) -> list[TablePlan]:
    """Returns the plans of a table, or refuses it."""
    records = records_of(data)
    names = names_of(records)
    rows = rows_of(records, units_by_id(ids))
    for unit, one in enumerate(ids):
        if one not in rows:
            refuse_table(f"unit {unit} is missing")
    made = []
    for plan, name in enumerate(names):
        districts, start = number_labels([rows[one][plan + 1] for one in ids])
        if not 2 <= districts <= 200:
            refuse_table(f"plan {plan} has {districts} districts, not 2 to 200")
        made.append(TablePlan(name.decode("ascii"), districts, start))
    return made


def names_of(records: Sequence[list[bytes]]) -> list[bytes]:
    """Returns the names of the plans, which the first record of a table has behind the ids'."""
    for at, record in enumerate(records):
        if len(record) != len(records[0]) or not all(is_text(field) for field in record):
            refuse_table(f"record {at} is unreadable")
    if not records or len(records[0]) < 2:
        refuse_table("no header")
    names = records[0][1:]
    if len(names) > 4096:
        refuse_table(f"{len(names)} plans, more than 4096")
    for plan, name in enumerate(names):
        if not re.fullmatch(rb"[ -~]{1,100}", name):
            refuse_table(f"plan {plan} has no usable name")
    return names


def units_by_id(ids: Sequence[bytes]) -> dict[bytes, int]:
    """Returns the number of each unit by its id."""
    units: dict[bytes, int] = {}
    for unit, one in enumerate(ids):
        if one in units:
            refuse_table(f"units {units[one]} and {unit} share an id")
        units[one] = unit
    return units


def rows_of(records: Sequence[list[bytes]], units: dict[bytes, int]) -> dict[bytes, list[bytes]]:
    """Returns the record of each unit by its id."""
    for at, record in enumerate(records[1:]):
        if record[0] not in units:
            refuse_table(f"record {at + 1} names no unit")
    rows: dict[bytes, list[bytes]] = {}
    for at, record in enumerate(records[1:]):
        if record[0] in rows:
            refuse_table(f"record {at + 1} repeats a unit")
        rows[record[0]] = record
    return rows


# ---- draws


def block(key: bytes, stream: int, place: int) -> list[int]:
    start = [
        *struct.unpack("<4I", b"expand 32-byte k"), *struct.unpack("<8I", key), place & 0xFFFFFFFF,
        place >> 32, stream & 0xFFFFFFFF, stream >> 32,
    ]
    x = start[:]
    for _ in range(10):
        for a, b, c, d in (
            (0, 4, 8, 12), (1, 5, 9, 13), (2, 6, 10, 14), (3, 7, 11, 15), (0, 5, 10, 15),
            (1, 6, 11, 12), (2, 7, 8, 13), (3, 4, 9, 14),
        ):
            for p, q, r, turn in ((a, b, d, 16), (c, d, b, 12), (a, b, d, 8), (c, d, b, 7)):
                x[p] = (x[p] + x[q]) & 0xFFFFFFFF
                mixed = x[r] ^ x[p]
                x[r] = ((mixed << turn) | (mixed >> (32 - turn))) & 0xFFFFFFFF
    words = [(u + v) & 0xFFFFFFFF for u, v in zip(x, start)]
    return [words[at] | words[at + 1] << 32 for at in range(0, 16, 2)]


@functools.lru_cache(maxsize=4096)
def draws(key: bytes, stream: int, count: int) -> list[int]:
    return [draw for place in range(-(-count // 8)) for draw in block(key, stream, place)][:count]


# ---- the weight on cut edges


def pieces(pairs: int) -> int:
    """Returns the greatest change of cut edges in a step, by the number of pairs of a unit and a
    district: the greatest m with pairs * 64^(m + 1) <= 2^64.
    """
    most = 0
    while pairs * 64 ** (most + 2) <= 2**64:
        most += 1
    return most


def factor(weight: int, edge: int) -> int:
    """Returns the factor of a plan's cut edge of this number, from 0, in units of 1 / 64, by four
    times the weight. The factors of four in a row add up to that.
    """
    return (weight + 3 - edge % 4) // 4


def factors(weight: int, cut: int, added: int) -> int:
    """Returns the product of the factors of the cut edges that are added to a number of them."""
    return math.prod(factor(weight, edge) for edge in range(cut, cut + added))


def takes(weight: int, pairs: int, most: int, draw: int, cut: int, added: int) -> bool:
    """Returns whether a draw makes a legal change that adds cut edges to a number of them, or takes
    some away, if added is below 0.
    """
    whole = pairs * 64**most
    if draw >= 2**64 // whole * whole or abs(added) > most:
        return False
    return added <= 0 or draw // pairs % 64**added < factors(weight, cut, added)


# ---- the job


class Job:
    """A graph, its plan and a setting, where the plan is not refused."""

    def __init__(self, setting: Setting, graph: Graph, origin: Origin | None = None) -> None:
        self.setting, self.origin = setting, origin
        self.edges, self.lengths = graph.edges, graph.lengths
        self.people, self.first, self.second = graph.people, graph.first, graph.second
        self.plan, self.districts = graph.plan, graph.districts
        self.regions, self.group, self.frozen = graph.regions, graph.group, graph.frozen
        self.units, self.population = len(self.plan), sum(self.people)
        self.neighbours: list[list[int]] = [[] for _ in self.plan]
        for u, v in self.edges:
            self.neighbours[u].append(v)
            self.neighbours[v].append(u)
        shares = 10000 * self.districts
        self.low = -(-(10000 - setting.slack) * self.population // shares)
        self.high = (10000 + setting.slack) * self.population // shares
        self.judge()

    def judge(self) -> None:
        if any(score == "gap" for score, _ in self.setting.asks) and not sum(self.first) + sum(
            self.second
        ):
            raise Refused(2, "plan: no votes")
        sums = self.sums(self.plan, self.people)
        for district, people in enumerate(sums):
            if not self.low <= people <= self.high:
                raise Refused(
                    2,
                    (
                        f"plan: district {district} has population {people}, outside {self.low} to"
                        f" {self.high}"
                    ),
                )
        for district in range(self.districts):
            members = {u for u, d in enumerate(self.plan) if d == district}
            lost = members - self.find_reached(members)
            if lost:
                raise Refused(
                    2,
                    (
                        f"plan: district {district} has no path from unit {min(members)} to unit"
                        f" {min(lost)}"
                    ),
                )
        self.judge_rules()

    def judge_rules(self) -> None:
        """Raises Refused if the plan breaks one of the rules that were set."""
        if self.cut(self.plan) > self.setting.max_cut:
            raise Refused(
                2, f"plan: {self.cut(self.plan)} cut edges, more than {self.setting.max_cut}"
            )
        for region, districts in enumerate(self.districts_of_regions(self.plan)):
            if districts > self.setting.max_split:
                raise Refused(
                    2,
                    (
                        f"plan: region {region} lies in {districts} districts, more than"
                        f" {self.setting.max_split}"
                    ),
                )
        if self.splits(self.plan) > self.setting.max_splits:
            raise Refused(
                2,
                (
                    f"plan: {self.splits(self.plan)} splits of regions, more than"
                    f" {self.setting.max_splits}"
                ),
            )
        if self.split_regions(self.plan) > self.setting.max_split_regions:
            raise Refused(
                2,
                (
                    f"plan: {self.split_regions(self.plan)} regions lie in more than one district,"
                    f" more than {self.setting.max_split_regions}"
                ),
            )
        if self.majorities(self.plan) < self.setting.group_districts:
            share = self.setting.group_share
            most = "a majority in" if share == 5000 else f"more than {share} of 10000 in"
            raise Refused(
                2,
                (
                    f"plan: the group has {most} {self.majorities(self.plan)} districts,"
                    f" fewer than {self.setting.group_districts}"
                ),
            )
        self.judge_length()

    def judge_length(self) -> None:
        """Raises Refused if the cut edges are too long."""
        if self.cut_length(self.plan) > self.setting.max_length:
            raise Refused(
                2,
                (
                    f"plan: cut edges of total length {self.cut_length(self.plan)}, more than"
                    f" {self.setting.max_length}"
                ),
            )

    def sums(self, plan: Plan, column: Sequence[int]) -> list[int]:
        sums = [0] * self.districts
        for district, amount in zip(plan, column):
            sums[district] += amount
        return sums

    def find_reached(self, members: set[int]) -> set[int]:
        """Returns the members to which paths within them lead from the least one."""
        found, todo = {min(members)}, [min(members)]
        while todo:
            for v in self.neighbours[todo.pop()]:
                if v in members and v not in found:
                    found.add(v)
                    todo.append(v)
        return found

    def cut(self, plan: Plan) -> int:
        return sum(plan[u] != plan[v] for u, v in self.edges)

    def cut_length(self, plan: Plan) -> int:
        """Returns the total length of the cut edges; 0 where edges have no lengths."""
        return sum(
            length for (u, v), length in zip(self.edges, self.lengths) if plan[u] != plan[v]
        )

    def districts_of_regions(self, plan: Plan) -> list[int]:
        """Returns for each region the number of districts that a plan gives to its units."""
        pairs = Counter(region for region, _ in set(zip(self.regions, plan)))
        return [pairs[region] for region in sorted(pairs)]

    def splits(self, plan: Plan) -> int:
        """Returns the number of splits of regions: for each one less than the number of its
        districts.
        """
        return sum(districts - 1 for districts in self.districts_of_regions(plan))

    def split_regions(self, plan: Plan) -> int:
        """Returns the number of regions in more than one district."""
        return sum(districts > 1 for districts in self.districts_of_regions(plan))

    def majorities(self, plan: Plan) -> int:
        """Returns the number of districts in which the group has more than its share of the whole;
        0 without a group.
        """
        if not self.group:
            return 0
        members, whole = (self.sums(plan, column) for column in self.group)
        return sum(
            10000 * part > self.setting.group_share * all_of_it
            for part, all_of_it in zip(members, whole)
        )

    def is_within_rules(self, plan: Plan) -> bool:
        setting = self.setting
        return (
            self.cut(plan) <= setting.max_cut
            and all(districts <= setting.max_split for districts in self.districts_of_regions(plan))
            and self.splits(plan) <= setting.max_splits
            and self.split_regions(plan) <= setting.max_split_regions
            and self.majorities(plan) >= setting.group_districts
            and self.cut_length(plan) <= setting.max_length
            and all(
                plan[unit] == self.plan[unit]
                for unit, is_frozen in enumerate(self.frozen)
                if is_frozen
            )
        )

    def is_legal(self, plan: Plan) -> bool:
        if any(not self.low <= people <= self.high for people in self.sums(plan, self.people)):
            return False
        for district in range(self.districts):
            members = {u for u, d in enumerate(plan) if d == district}
            if not members or self.find_reached(members) != members:
                return False
        return self.is_within_rules(plan)

    def is_taken(self, before: Plan, after: Plan, draw: int) -> bool:
        """Returns whether the weight on cut edges lets this draw make this change."""
        if self.setting.weight == NO_WEIGHT:
            return True
        pairs, cut = self.units * self.districts, self.cut(before)
        most, added = pieces(pairs), self.cut(after) - cut
        return takes(self.setting.weight, pairs, most, draw, cut, added)

    def step(self, plan: Plan, draw: int) -> Plan:
        """Returns the plan after a step with this draw."""
        pairs = self.units * self.districts
        if draw >= 2**64 // pairs * pairs:
            return plan
        unit, district = divmod(draw % pairs, self.districts)
        changed = (*plan[:unit], district, *plan[unit + 1:])
        if plan[unit] == district or not self.is_taken(plan, changed, draw):
            return plan
        return changed if self.is_legal(changed) else plan

    def walk(self, plan: Plan, stream: int, steps: int) -> tuple[list[Plan], int]:
        """Returns the plans visited, and the moves."""
        visited, moved = [plan], 0
        for draw in draws(self.setting.key, stream, steps):
            following = self.step(plan, draw)
            moved += following != plan
            plan = following
            visited.append(plan)
        return visited, moved

    def value(self, plan: Plan, score: str) -> int:
        pairs = list(zip(self.sums(plan, self.first), self.sums(plan, self.second)))
        if score == "seats":
            return sum(a > b for a, b in pairs)
        if score == "gap":
            return sum(3 * b - a if a > b else b - 3 * a for a, b in pairs)
        if score == "cut-edges":
            return self.cut(plan)
        if score == "cut-length":
            return self.cut_length(plan)
        if score != "mean-median":
            raise ValueError(f"unknown score {score}")
        shares = sorted(a * BILLION // (a + b) if a + b else BILLION // 2 for a, b in pairs)
        count = self.districts
        return count * (shares[(count - 1) // 2] + shares[count // 2]) - 2 * sum(shares)

    def denominator(self, score: str) -> int:
        if score == "mean-median":
            return 2 * self.districts * BILLION
        if score == "gap":
            return 2 * (sum(self.first) + sum(self.second))
        if score not in ("seats", "cut-edges", "cut-length"):
            raise ValueError(f"unknown score {score}")
        return 1

    def has_split_limits(self) -> bool:
        """Returns whether there are regions whose splits, or whose split ones, are limited."""
        return bool(self.regions) and (
            self.setting.max_splits < MOST_SPLITS or self.setting.max_split_regions < MOST_REGIONS
        )

    def digest(self) -> bytes:
        setting = self.setting
        further = self.has_split_limits() or self.group
        limited = setting.max_cut < MOST_CUT or self.regions or self.group or self.frozen
        has_share = self.group and setting.group_share != 5000
        version = 4 if has_share or self.frozen else 3 if further else 2 if limited else 1
        version = 5 if self.lengths else version
        version = 6 if setting.weight != NO_WEIGHT else version
        parts = [f"district-job {version}".encode()]
        parts += [struct.pack(">3I", self.units, len(self.edges), self.districts)]
        parts += [struct.pack(">2I", *edge) for edge in self.edges]
        parts += [
            struct.pack(">3QI", *unit)
            for unit in zip(self.people, self.first, self.second, self.plan)
        ]
        parts += [
            struct.pack(">I", setting.slack),
            setting.key,
            struct.pack(">4I", setting.walks, setting.steps, setting.ends, setting.hub_steps),
            struct.pack(">I", len(setting.asks)),
        ]
        parts += [
            struct.pack(">2I", SCORES.index(score), TAILS.index(tail))
            for score, tail in setting.asks
        ]
        parts += [struct.pack(">I", setting.max_cut)] if limited else []
        parts += (
            [struct.pack(f">{len(self.regions) + 1}I", setting.max_split, *self.regions)]
            if self.regions
            else []
        )
        parts += (
            [struct.pack(">2I", setting.max_splits, setting.max_split_regions)]
            if self.has_split_limits()
            else []
        )
        parts += [struct.pack(">I", setting.group_districts)] if self.group else []
        parts += [struct.pack(">2Q", *both) for both in zip(*self.group)]
        parts += [b"group-share", struct.pack(">I", setting.group_share)] if has_share else []
        parts += [b"freeze", struct.pack(f">{self.units}I", *self.frozen)] if self.frozen else []
        if self.lengths:
            length = dict(zip(self.edges, self.lengths))
            both = [(u, v) for u, near in enumerate(self.neighbours) for v in sorted(near)]
            parts += [b"length", struct.pack(">Q", setting.max_length)]
            parts += [struct.pack(">I", length[min(one), max(one)]) for one in both]
        parts += [struct.pack(">I", setting.weight)] if setting.weight != NO_WEIGHT else []
        return hashlib.sha256(b"".join(parts)).digest()


OUTCOMES: dict[typing.Hashable, list[Outcome]] = {}


def is_inside(value: int, start: int, tail: str) -> bool:
    return bool(value <= start if tail == "low" else value >= start)


def histogram_of(job: Job, visited: Sequence[Plan]) -> tuple[int, ...]:
    """Returns the histogram of seats against the start's: 4 fewer or less, 3 fewer, up to 4 more or
    above.
    """
    start, bins = job.value(job.plan, "seats"), [0] * 9
    for plan in visited:
        bins[max(-4, min(4, job.value(plan, "seats") - start)) + 4] += 1
    return tuple(bins)


def outcomes(job: Job, key: typing.Hashable) -> list[Outcome]:
    """Returns the moves, the values and the bins of each trajectory, by id; those from the hub have
    bins of 0.
    """
    if key in OUTCOMES:
        return OUTCOMES[key]
    setting, plan, found = job.setting, tuple(job.plan), []
    start = [job.value(plan, score) for score, _ in setting.asks]
    for walk in range(setting.walks):
        visited, moved = job.walk(plan, 2 * walk, setting.steps)
        found.append(
            Outcome(
                moved,
                [
                    sum(is_inside(job.value(one, score), first, tail) for one in visited)
                    for first, (score, tail) in zip(start, setting.asks)
                ],
                histogram_of(job, visited),
            )
        )
    hub = job.walk(plan, 1, setting.hub_steps)[0][-1] if setting.ends else plan
    for end in range(setting.ends):
        visited, moved = job.walk(hub, 2 * end + 3, setting.hub_steps)
        values = [job.value(visited[-1], score) for score, _ in setting.asks]
        found.append(Outcome(moved, values, NO_BINS))
    if len(OUTCOMES) > 20000:
        OUTCOMES.clear()
    OUTCOMES[key] = found
    return found


def select_outcomes(job: Job, key: typing.Hashable) -> list[Outcome]:
    """Returns the outcomes, with histograms only where the job asks for them."""
    return [
        Outcome(moved, values, bins if job.setting.shift else NO_BINS)
        for moved, values, bins in outcomes(job, key)
    ]


def stop_of(values: Sequence[int], start: int, tail: str, enough: int) -> tuple[int, int, int]:
    """Returns the least number of values that have enough in the tail, and their part; else all
    values, and one more than those in the tail.
    """
    count = 0
    for place, value in enumerate(values, 1):
        count += is_inside(value, start, tail)
        if count == enough:
            return place, enough, place
    return len(values), count + 1, len(values) + 1


def serial(job: Job) -> tuple[int, list[int]]:
    """Returns the place of the start plan in one run through it, and for each ask how many plans of
    the run are in its tail.
    """
    setting, plan = job.setting, tuple(job.plan)
    place = draws(setting.key, 2**33, 1)[0] % (setting.steps + 1)
    forward, backward = (
        job.walk(plan, 2**33 + 1, place)[0],
        job.walk(plan, 2**33 + 2, setting.steps - place)[0],
    )
    run = backward[:0:-1] + forward
    return place, [
        sum(is_inside(job.value(one, score), job.value(plan, score), tail) for one in run)
        for score, tail in setting.asks
    ]


# ---- texts


def billionths(n: int) -> str:
    return f"{n // BILLION}.{n % BILLION:09d}"


def bound(count: int, of: int) -> int:
    least = -(-2 * count * BILLION * BILLION // of)
    root = math.isqrt(least)
    return root if root * root >= least else root + 1


def head(job: Job, is_blind: bool = False) -> list[str]:
    """Returns the lines on the map and the rules; blind, without the start plan's length."""
    setting = job.setting
    lines = [
        f"units {job.units} edges {len(job.edges)} districts {job.districts}",
        f"population {job.population} slack {setting.slack} low {job.low} high {job.high}",
    ]
    lines += [f"max-cut {setting.max_cut}"] if setting.max_cut < MOST_CUT else []
    lines += (
        [f"max-split {setting.max_split} regions {len(set(job.regions))}"] if job.regions else []
    )
    lines += (
        [f"max-splits {setting.max_splits} max-split-regions {setting.max_split_regions}"]
        if job.has_split_limits()
        else []
    )
    lines += (
        [f"group-districts {setting.group_districts} of {job.majorities(job.plan)}"]
        if job.group
        else []
    )
    has_share = job.group and setting.group_share != 5000
    lines += [f"group-share {setting.group_share}"] if has_share else []
    lines += [f"frozen {sum(job.frozen)}"] if job.frozen else []
    has_length = setting.length and not is_blind
    lines += [f"cut-length {job.cut_length(job.plan)}"] if has_length else []
    lines += [f"max-length {setting.max_length}"] if setting.max_length < MOST_LENGTH else []
    if setting.weight != NO_WEIGHT:
        most = pieces(job.units * job.districts)
        lines.append(f"cut-weight {setting.value['--cut-weight']} of 64 pieces {most}")
    return lines


def quote(text: str) -> str:
    """Returns a text as JSON writes it, with the shortest escapes, and only where JSON wants one.
    """
    return json.dumps(text, ensure_ascii=False)


def origin_lines(job: Job) -> list[str]:
    """Returns the lines of the source, if the words ask for them."""
    if job.origin is None:
        return []
    setting = job.setting
    words = ["columns", *(quote(column) for column in setting.columns)]
    words += ["region", quote(setting.region)] if setting.region else []
    words += (
        ["group", quote(setting.group[0]), "of", quote(setting.group[1])] if setting.group else []
    )
    words += ["freeze", quote(setting.freeze)] if setting.freeze else []
    words += ["length", quote(setting.length)] if setting.length else []
    return [f"source sha256 {job.origin.sha256.hex()} bytes {job.origin.length}", " ".join(words)]


def check_text(job: Job) -> str:
    return "\n".join(["plan-check 1", *origin_lines(job), *head(job), "end", ""])


def p_value(top: int, of: int) -> str:
    return f"p {billionths(-(-top * BILLION // of))}"


def part(rank: int, of: int) -> str:
    """Returns a rank among a number of plans, and their fraction."""
    return f"rank {rank} of {of} {p_value(rank, of)}"


def setting_line(setting: Setting) -> str:
    return (
        f"walks {setting.walks} steps {setting.steps} ends {setting.ends} hub-steps"
        f" {setting.hub_steps}"
    )


def front(job: Job, title: str, is_blind: bool = False) -> list[str]:
    """Returns the lines of a report before those of its walks."""
    setting = job.setting
    return [
        title,
        *origin_lines(job),
        f"key {setting.key.hex()}",
        *head(job, is_blind),
        setting_line(setting),
        *([f"stop {setting.stop}"] if setting.stop else []),
    ]


def pilot(job: Job, found: Sequence[Outcome]) -> str:
    """Returns the text of a blind run, which has nothing of any score."""
    moves = [f"walk {walk} moved {one.moved}" for walk, one in enumerate(found)]
    lines = front(job, "walk-pilot 1", is_blind=True)
    return "\n".join([*lines, *moves[: job.setting.walks], "end", ""])


def pair_lines(setting: Setting, words: Sequence[str], found: Sequence[Outcome]) -> list[str]:
    """Returns a line for each question about each pair of walks: of all plans that both visit, the
    start plan once, how many are in the tail.
    """
    visits, lines = setting.steps + 1, []
    for first in range(0, setting.walks - 1, 2):
        both = zip(found[first].values, found[first + 1].values)
        for ask, (one, other) in zip(words, both):
            count = one + other - 1
            lines.append(
                f"pair {first} {first + 1} {ask} count {count} of {2 * visits - 1} bound"
                f" {billionths(-(-count * BILLION // visits))}"
            )
    return lines


def report(job: Job, found: Sequence[Outcome]) -> str:
    """Returns the report on these outcomes, given by rising id as moves, values and bins."""
    setting = job.setting
    lines = front(job, f"district-audit {2 if setting.shift else 1}")
    start = [job.value(job.plan, score) for score, _ in setting.asks]
    words = [
        f"{score} {tail} start {first}/{job.denominator(score)}"
        for first, (score, tail) in zip(start, setting.asks)
    ]
    for walk, (moved, counts, _) in enumerate(found[: setting.walks]):
        for ask, count in zip(words, counts):
            lines.append(
                f"walk {walk} moved {moved} {ask} count {count} of {setting.steps + 1} bound"
                f" {billionths(bound(count, setting.steps + 1))}"
            )
    lines += pair_lines(setting, words, found) if setting.pairs_walks else []
    if setting.shift:
        lines.append(
            " ".join(["shift", *(str(sum(one[2][place] for one in found)) for place in range(9))])
        )
    for place, (_, tail) in enumerate(setting.asks if setting.stop else []):
        at, top, of = stop_of(
            [values[place] for _, values, _ in found[setting.walks:]], start[place], tail,
            setting.stop,
        )
        lines.append(f"stop {words[place]} place {at} value {top}/{of} {p_value(top, of)}")
    for place, (_, tail) in enumerate(setting.asks if setting.ends and not setting.stop else []):
        rank = 1 + sum(
            is_inside(values[place], start[place], tail) for _, values, _ in found[setting.walks:]
        )
        lines.append(f"ends {words[place]} {part(rank, setting.ends + 1)}")
    if setting.serial:
        place, ranks = serial(job)
        lines += [
            f"serial {ask} place {place} {part(rank, setting.steps + 1)}"
            for ask, rank in zip(words, ranks)
        ]
    return "\n".join([*lines, "end", ""])


# ---- checkpoints


def seal(front: bytes) -> bytes:
    return front + hashlib.sha256(front).digest()


def checkpoint(
    digest: bytes, generation: int, found: Mapping[int, Outcome], version: int = 2
) -> bytes:
    """Returns the bytes of a checkpoint of outcomes, a map from the id to the moves, the values and
    the bins; in version 1 without the bins.
    """
    records = []
    for one, (moved, values, bins) in sorted(found.items()):
        records.append(struct.pack(">IQ4q", one, moved, *values, *[0] * (4 - len(values))))
        records += [struct.pack(">9I", *bins)] if version == 2 else []
    return seal(
        b"DISTCKPT"
        + struct.pack(">I", version)
        + digest
        + struct.pack(">2I", generation, len(found))
        + b"".join(records)
    )


@dataclasses.dataclass(frozen=True)
class Slot:
    """The state of a slot: its fault; or None, the digest of its job, its generation and records.
    """

    fault: str | None
    job: bytes = b""
    generation: int = 0
    records: Sequence[Record] = ()


def decode(data: bytes | None) -> Slot:
    """Returns a slot as it is, whatever the job."""
    fault = size_fault(data)
    if data is None or fault:
        return Slot(fault)
    fault = head_fault(data)
    if fault:
        return Slot(fault)
    version, generation = (struct.unpack_from(">I", data, at)[0] for at in (8, 44))
    records = [
        (*one, *NO_BINS)[:15]
        for one in struct.iter_unpack(">IQ4q" if version == 1 else ">IQ4q9I", data[52:-32])
    ]
    if any(one[0] >= other[0] for one, other in zip(records, records[1:])):
        return Slot("bad order")
    if seal(data[:-32]) != data:
        return Slot("bad digest")
    return Slot(None, data[12:44], generation, records)


def size_fault(data: bytes | None) -> str:
    """Returns the fault of a slot that is no file or has too many or too few bytes; '' if none."""
    if data is None:
        return "absent"
    if len(data) > MOST_SLOT:
        return "too long"
    return "too short" if len(data) < 84 else ""


def head_fault(data: bytes) -> str:
    """Returns the fault in the head of a slot; '' if there is none."""
    version, generation, count = (struct.unpack_from(">I", data, at)[0] for at in (8, 44, 48))
    if data[:8] != b"DISTCKPT":
        return "bad magic"
    if version not in (1, 2):
        return "bad version"
    if generation > 2:
        return "bad generation"
    size = 44 if version == 1 else 80
    return "bad count" if count > 100000 or len(data) != 84 + size * count else ""


def fits(setting: Setting, one: Record) -> bool:
    is_walk, asks = one[0] < setting.walks, len(setting.asks)
    values, bins = one[2:6], one[6:]
    return (
        one[0] < setting.total
        and one[1] <= (setting.steps if is_walk else setting.hub_steps)
        and not any(values[asks:])
        and (not is_walk or all(1 <= count <= setting.steps + 1 for count in values[:asks]))
        and (not any(bins) or is_walk and sum(bins) == setting.steps + 1)
    )


def check_slot(setting: Setting, digest: bytes, data: bytes | None) -> Slot:
    slot = decode(data)
    if (
        slot.fault is None
        and slot.job == digest
        and not all(fits(setting, one) for one in slot.records)
    ):
        return Slot("unfit")
    return slot


def newest(slots: Sequence[Slot]) -> int | None:
    intact = [at for at in (0, 1) if slots[at].fault is None]
    if len(intact) == 2:
        return 1 if slots[1].generation == (slots[0].generation + 1) % 3 else 0
    return intact[0] if intact else None


def initial_outcomes(slots: Sequence[Slot], digest: bytes, setting: Setting) -> dict[int, Outcome]:
    """Returns the outcomes from which a run goes on: without bins where it asks for none, and else
    the walks that have theirs and all ends.
    """
    if all(slot.fault == "absent" for slot in slots):
        return {}
    at = newest(slots)
    if at is None:
        raise Refused(8, f"checkpoint: slot 0 {slots[0].fault}, slot 1 {slots[1].fault}")
    if slots[at].job != digest:
        raise Refused(8, f"checkpoint: other job {slots[at].job.hex()}, this job {digest.hex()}")
    asks = len(setting.asks)
    found = {one[0]: Outcome(one[1], list(one[2:2 + asks]), one[6:]) for one in slots[at].records}
    if not setting.shift:
        return {one: outcome._replace(bins=NO_BINS) for one, outcome in found.items()}
    return {
        one: outcome for one, outcome in found.items() if one >= setting.walks or any(outcome.bins)
    }


def outcomes_in(slot: Slot) -> dict[int, Outcome]:
    """Returns the outcomes of a slot by id, each with four values and nine bins."""
    return {one[0]: Outcome(one[1], one[2:6], one[6:]) for one in slot.records}


# ---- traces


def trajectory_plans(job: Job, number: int, hub: Plan) -> list[Plan]:
    """Returns the plans that the trajectory with this id visits."""
    setting = job.setting
    if number < setting.walks:
        return job.walk(tuple(job.plan), 2 * number, setting.steps)[0]
    return job.walk(hub, 2 * (number - setting.walks) + 3, setting.hub_steps)[0]


def trajectory_lines(job: Job, number: int, thin: int, hub: Plan) -> list[str]:
    """Returns the lines of the trajectory with this id, by the model's walk."""
    setting, visited = job.setting, trajectory_plans(job, number, hub)
    before: Plan = tuple(job.plan)
    steps = len(visited) - 1
    lines, moved, shown = (
        [f"trace id {number} steps {steps} thin {thin}"], 0, {*range(0, steps, thin), steps},
    )
    for step in range(steps + 1):
        moved += step > 0 and visited[step] != visited[step - 1]
        if step in shown:
            values = [str(job.value(visited[step], score)) for score, _ in setting.asks]
            changes = [f"{u}:{d}" for u, d in enumerate(visited[step]) if d != before[u]]
            lines.append(" ".join([str(step), str(moved), *values, *changes]))
            before = visited[step]
    return lines


def trace_text(job: Job, first: int, last: int, thin: int) -> str:
    """Returns the trace of the trajectories from the first id to the last."""
    setting, start = job.setting, tuple(job.plan)
    hub = job.walk(start, 1, setting.hub_steps)[0][-1]
    asks = [
        f"ask {score} {tail} start {job.value(start, score)}/{job.denominator(score)}"
        for score, tail in setting.asks
    ]
    lines = [
        "district-trace 1",
        *origin_lines(job),
        f"key {setting.key.hex()}",
        *head(job),
        setting_line(setting),
        *asks,
    ]
    for number in range(first, last + 1):
        lines += trajectory_lines(job, number, thin, hub)
    return "\n".join([*lines, "end", ""])


def ask_trace(job: Job) -> str:
    """Returns the trace of the trajectories that the words ask for, by good words."""
    first, last = ids_of(job.setting.value["--ids"])
    if first is None or last is None:
        raise ValueError("the range of ids is no range")
    return trace_text(job, first, last, job.setting.get("--thin"))


# ---- the whole call


def run(job: Job, slots: Slots) -> End:
    setting, digest = job.setting, job.digest()
    uses_slots = setting.save or setting.resume
    seen = [check_slot(setting, digest, data) for data in slots] if uses_slots else []
    found = initial_outcomes(seen, digest, setting) if setting.resume else {}
    todo = [one for one in range(setting.part, setting.total, setting.parts) if one not in found][
        : setting.budget
    ]
    every = select_outcomes(job, digest) if todo else []
    after, counts, slot, generation = list(slots), [], 0, 0
    if setting.save:
        at = newest(seen)
        if at is not None:
            slot, generation = 1 - at, (seen[at].generation + 1) % 3
        counts = list(range(setting.save, len(todo) + 1, setting.save))
        counts += [len(todo)] if not counts or counts[-1] != len(todo) else []
    for count in counts:
        after[slot] = checkpoint(
            digest, generation, {**found, **{one: every[one] for one in todo[:count]}}
        )
        slot, generation = 1 - slot, (generation + 1) % 3
    found = {**found, **{one: every[one] for one in todo}}
    if len(found) < setting.total:
        return End(7, "", f"stopped: {len(found)} of {setting.total} done\n", after)
    text = pilot if setting.blind else report
    return End(0, text(job, [found[one] for one in sorted(found)]), "", after)


def origin_of(setting: Setting, data: bytes) -> Origin | None:
    """Returns the origin of a job of these bytes, where the words ask for it."""
    return Origin(hashlib.sha256(data).digest(), len(data)) if setting.source else None


def job_of(setting: Setting, graph: bytes) -> Job:
    return Job(setting, read_graph(graph, setting), origin_of(setting, graph))


def jobs_of(setting: Setting, data: bytes) -> list[tuple[str, Job]]:
    """Returns the name and the job of each plan: of the graph's own, and of each plan of the table
    behind the first line feed.
    """
    graph, _, table = data.partition(b"\n")
    if len(data) > MOST_INPUT:
        refuse(f"more than {MOST_INPUT} bytes")
    read, origin = read_graph(graph, setting), origin_of(setting, data)
    nodes = entries_of(shape(parse(graph))[0], "node")
    plans = plans_of(table, [str(node["id"]).encode("utf-8") for node in nodes])
    jobs = [(setting.columns[3], Job(setting, read, origin))]
    for name, districts, plan in plans:
        changed = dataclasses.replace(read, plan=plan, districts=districts)
        try:
            jobs.append((name, Job(setting, changed, origin)))
        except Refused as refusal:
            raise Refused(2, refusal.note.replace("plan:", f"plan {name}:", 1)) from refusal
    return jobs


def audit(words: Sequence[str], graph: bytes, slots: Slots) -> End:
    """Returns how a call with ample memory, over files that do not fail, must end."""
    try:
        setting = Setting(words)
        if setting.command == "plans":
            return End(
                0,
                "".join(
                    f"plan {name}\n{report(job, select_outcomes(job, job.digest()))}"
                    for name, job in jobs_of(setting, graph)
                ),
                "",
                list(slots),
            )
        job = job_of(setting, graph)
        if setting.command == "check":
            return End(0, check_text(job), "", list(slots))
        if setting.command == "trace":
            return End(0, ask_trace(job), "", list(slots))
        return run(job, slots)
    except Refused as refusal:
        return End(refusal.status, "", refusal.note + "\n", list(slots))
