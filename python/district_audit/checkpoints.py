"""Checkpoints of a folder: the number of trajectories that are saved, and the job that they are of.

The checkpoints are the program's; they are read here by docs/user/FORMATS.md and never written.
Beside them the package keeps `audit-job.json`, which has the arguments of the run, so that a
refused checkpoint can be explained.
"""
from __future__ import annotations

import dataclasses
import hashlib
import json
import os
import pathlib
import typing

from .arguments import TABLE, Words
from .graphs import sort_labels, plain
from .progress import Look

SLOTS = ("audit-0.ckpt", "audit-1.ckpt")
RECORD = "audit-job.json"
# Bytes of an outcome by the version of its checkpoint.
OUTCOME = {1: 44, 2: 80}
MOST_BYTES = 8_000_084
# Arguments that do not belong to a job: with others the checkpoints stay good.
NO_JOB = frozenset(
    (
        "workers",
        "budget",
        "save",
        "resume",
        "shift",
        "serial",
        "parts",
        "part",
        "source",
        "pairs",
        "pop",
        "first",
        "second",
        "district",
        "region",
        "group",
        "group_of",
        "freeze",
        "length",
    )
)


class Record(typing.TypedDict):
    """The record of a job beside its checkpoints."""

    words: list[str]
    job: dict[str, str]
    """The arguments that belong to the job, by their names."""
    graph: dict[str, str]
    """Digests of the parts of the graph, by what they are."""
    sha256: str


@dataclasses.dataclass(frozen=True)
class Slot:
    """An intact checkpoint."""

    generation: int
    done: int
    """The number of trajectories that it has."""
    digest: str
    """Its job's digest, 64 hexadecimal digits."""
    ids: tuple[int, ...] = dataclasses.field(default=(), repr=False)
    """The trajectories that it has."""


def slot_of(data: bytes) -> Slot | None:
    """Returns the checkpoint in these bytes; None where it is damaged."""
    version, generation, done = (int.from_bytes(data[at:][:4], "big") for at in (8, 44, 48))
    if data[:8] != b"DISTCKPT" or version not in OUTCOME or generation > 2:
        return None
    if len(data) != 84 + OUTCOME[version] * done:
        return None
    if hashlib.sha256(data[:-32]).digest() != data[-32:]:
        return None
    size = OUTCOME[version]
    places = range(52, 52 + size * done, size)
    ids = tuple(int.from_bytes(data[at:at + 4], "big") for at in places)
    return Slot(generation, done, data[12:44].hex(), ids)


def slots_in(folder: pathlib.Path) -> list[Slot | None]:
    """Returns the two slots of a folder; None for one that is absent, unreadable or damaged."""
    found: list[Slot | None] = []
    for name in SLOTS:
        path = folder / name
        try:
            is_file = path.is_file() and path.stat().st_size <= MOST_BYTES
            found.append(slot_of(path.read_bytes()) if is_file else None)
        except OSError:
            found.append(None)
    return found


def newest_of(slots: typing.Sequence[Slot | None]) -> Slot | None:
    """Returns the newest of the two slots, as the program finds it."""
    first, second = slots
    if first is None or second is None:
        return first or second
    return second if second.generation == (first.generation + 1) % 3 else first


def look_in(folder: pathlib.Path, total: int) -> Look:
    """Tells how many trajectories are saved in a folder, and nothing of what was found."""
    slots = slots_in(folder)
    newest = newest_of(slots)
    return Look("\n".join(map(str, slots)), 0 if newest is None else newest.done, total)


def is_part_done(folder: pathlib.Path, parts: int, part: int, total: int) -> bool:
    """Returns whether the newest checkpoint of a folder has all trajectories of a part.

    Part i of n has the trajectories whose number leaves i when it is divided by n.
    """
    newest = newest_of(slots_in(folder))
    return newest is not None and set(newest.ids).issuperset(range(part, total, parts))


# ---- the job


def digest_of(values: object) -> str:
    return hashlib.sha256(json.dumps(values).encode()).hexdigest()


def aspects_of(data: bytes, named: Words) -> dict[str, str]:
    """Returns digests of what the graph gives to a job, by name; {} where it is unreadable."""
    try:
        root = json.loads(data.decode("utf-8"))
        nodes = root["nodes"]
        place = {node["id"]: number for number, node in enumerate(nodes)}
        pairs = {
            tuple(sorted((number, place[entry["id"]])))
            for number, entries in enumerate(root["adjacency"])
            for entry in entries
        }
        found = {"the neighbors": digest_of(sorted(pairs))}
        for name, what in (
            ("pop", "the populations"),
            ("first", "the votes of the first party"),
            ("second", "the votes of the second party"),
            ("group", "the people of the group"),
            ("group_of", "the people of the group's whole"),
            ("freeze", "the frozen units"),
        ):
            if named.get(name):
                found[what] = digest_of([node[named[name]] for node in nodes])
        if named.get("length"):
            lengths = {
                (*sorted((number, place[entry["id"]])), entry[named["length"]])
                for number, entries in enumerate(root["adjacency"])
                for entry in entries
            }
            found["the lengths of edges"] = digest_of(sorted(lengths))
        for name, what in (("district", "the districts"), ("region", "the regions")):
            if named.get(name):
                labels = [plain(node[named[name]]) for node in nodes]
                if None in labels:
                    return {}
                ordered = sort_labels(typing.cast("list[int | str]", labels))
                number = {label: at for at, label in enumerate(ordered)}
                found[what] = digest_of([number[label] for label in labels if label is not None])
    except (ValueError, KeyError, TypeError):
        return {}
    return found


def record_of(
    command: str, data: bytes, named: Words, words: typing.Sequence[str]
) -> Record:
    """Returns what is kept of a job beside its checkpoints."""
    given = dict(zip(words[1::2], words[2::2]))
    job: dict[str, str] = {}
    for name, row in TABLE.items():
        if command in row.commands and name not in NO_JOB:
            value = given.get(row.word, row.default)
            if value is not None:
                job[name] = str(value).lower() if name == "key" else str(value)
    aspects = aspects_of(data, named) if data else {}
    return {
        "words": list(words),
        "job": job,
        "graph": aspects,
        "sha256": hashlib.sha256(data).hexdigest(),
    }


def read_record(folder: pathlib.Path) -> Record | None:
    """Returns what is kept in a folder; None where nothing readable is."""
    try:
        found = json.loads((folder / RECORD).read_text(encoding="utf-8"))
        is_good = isinstance(found["job"], dict) and isinstance(found["graph"], dict)
    except (OSError, ValueError, KeyError, TypeError):
        return None
    return typing.cast(Record, found) if is_good else None


def write_record(folder: pathlib.Path, record: Record | None) -> None:
    """Keeps a record in a folder, or takes it away. A folder that takes no file stays without."""
    path = folder / RECORD
    part = path.with_suffix(".part")
    try:
        if record is None:
            path.unlink()
            return
        part.write_text(json.dumps(record, indent=1) + "\n", encoding="utf-8")
        os.replace(part, path)
    except OSError:
        pass


def differences(before: Record, now: Record) -> list[str]:
    """Returns a text for each argument, or part of the graph, in which two jobs differ."""
    found = []
    for name in dict.fromkeys((*before["job"], *now["job"])):
        one, other = before["job"].get(name), now["job"].get(name)
        if one != other:
            found.append(f"{name} was {one or 'left out'} and is {other or 'left out'}")
    for what in dict.fromkeys((*before["graph"], *now["graph"])):
        if before["graph"].get(what) != now["graph"].get(what):
            found.append(f"{what} differ")
    return found
