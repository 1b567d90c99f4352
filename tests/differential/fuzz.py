"""Broken files, checkpoints and words, drawn at random: the program must answer each as the plain
model in model.py does.

Usage: python3 -m tests.differential.fuzz PROGRAM [RUNS [SEED [PROCESSES]]]
Each run takes good words, a good graph and good slots of either version of the format, with bins
and without, breaks some of them (bits, bytes, slices, doubled keys, bins, numbers at the ends of
their ranges, names and values of words), and runs the program in a folder of its own with at most
120 seconds and 2 GB. The status, both texts and both files must be exactly the model's. Prints each
run that differs, with what is needed to make it again, and at the end how many runs ended with
which status, and how many different notes there were. Ends with 1 where a run differed.
"""
# RUN: {auditor} 300 1
from __future__ import annotations

import argparse
import dataclasses
import json
import multiprocessing
import os
import random
import re
import resource
import shutil
import struct
import subprocess
import sys
import tempfile
import typing
from collections import Counter
from collections.abc import Iterable, Sequence

from tests.oracle import model

BASE = "--pop pop --first a --second b --district d".split()
KEYS = ("0" * 64, "1" * 64, "2b7e151628aed2a6abf7158809cf4f3c762e7160f38b4da56a784d9045190cfe")
LIMITS = (
    "0", "1", "2", "30", "31", "32", "33", "199", "200", "201", "9999", "10000", "10001", "99999",
    "100000", "100001", "399999", "400000", "400001", "999999999", "1000000000", "1000000001",
    "4294967295", "4294967296", "9223372036854775807", "9223372036854775808",
    "18446744073709551615", "18446744073709551616", "-1", "-0", "01", "+1", "1.0", "1e3", "1E400",
    "", " 1", "1 ", "0x1", "\u0661",
)
TOKENS = [
    *LIMITS[:-5], "-9223372036854775808", "-9223372036854775809", "1e400", "1e-400", "0e999", "NaN",
    "Infinity", "-Infinity", "true", "false", "null", '""', '"1"', '"\\u0031"', '"\\ud800"',
    '"\\udc00"', '"\\ud83d\\ude00"', '"\\x"', "[]", "{}", "[1]", '{"id":0}', "[" * 126 + "]" * 126,
    "[" * 130 + "]" * 130, '{"a":' * 40 + "1" + "}" * 40, "9" * 400, "0.1", ".1", "1.", "\ufeff",
    "\u00e9",
]
NAMES = (
    "pop", "a", "b", "d", "r", "s", "g", "w", "id", "nodes", "adjacency", "directed", "multigraph",
    "graph", "l",
)
MOST_WORK = 3000
# The time that a run may take. It only ends one that hangs, so it leaves room for a busy machine.
SECONDS = 120
NO_WORDS: list[str] = []
Node = dict[str, typing.Union[int, str]]


class Call(typing.NamedTuple):
    """The words of a call, what it reads, and its slots."""

    words: list[str]
    data: bytes
    slots: list[bytes | None]


@dataclasses.dataclass
class Found:
    """The number of runs by their status, the notes, and the calls that differ, each with its
    difference.
    """

    counts: Counter[int] = dataclasses.field(default_factory=Counter)
    notes: set[str] = dataclasses.field(default_factory=set)
    differing: list[tuple[str, Call]] = dataclasses.field(default_factory=list)


def node(at: int, pop: int, a: int, b: int, d: int | str, name: str | None = None) -> Node:
    return {
        "pop": pop,
        "a": a,
        "b": b,
        "d": d,
        "r": f"{d}{at // 2 % 2}",
        "s": at % 3,
        "g": (3 * at + a) % 4,
        "w": (at + b) % 6,
        "id": at if name is None else name,
    }


def graph(nodes: Sequence[Node], edges: Iterable[tuple[int, int]], spaced: bool) -> bytes:
    places: dict[int | str, list[Node]] = {one["id"]: [] for one in nodes}
    for u, v in edges:
        places[nodes[u]["id"]].append({"l": 3 * (u + v) % 7, "id": nodes[v]["id"]})
        places[nodes[v]["id"]].append({"l": 3 * (u + v) % 7, "id": nodes[u]["id"]})
    whole = {
        "directed": False,
        "multigraph": False,
        "graph": [],
        "nodes": nodes,
        "adjacency": list(places.values()),
    }
    return json.dumps(whole, separators=(", ", ": ") if spaced else (",", ":")).encode()


def grid(wide: int, high: int, chance: random.Random) -> bytes:
    units = [(row, column) for row in range(high) for column in range(wide)]
    nodes = [
        node(
            at, chance.randint(1, 3), chance.randint(0, 9), chance.randint(0, 9), row * 2 // high,
            f"{row}-{column}",
        )
        for at, (row, column) in enumerate(units)
    ]
    edges = [
        (at, at + step)
        for at, (row, column) in enumerate(units)
        for step, fits in ((1, column + 1 < wide), (wide, row + 1 < high))
        if fits
    ]
    return graph(nodes, edges, True)


def good_graphs() -> list[bytes]:
    chance = random.Random(7)
    path = [node(0, 1, 3, 1, 1), node(1, 1, 1, 2, 1), node(2, 1, 1, 2, 2), node(3, 1, 2, 1, 2)]
    cycle = [
        node(0, 1, 3, 1, "01", "w"), node(1, 1, 1, 2, "01", "x"), node(2, 1, 1, 2, "02", "y"),
        node(3, 1, 2, 1, "02", "z"),
    ]
    three = [node(0, 1, 6, 4, 1), node(1, 1, 1, 3, 1), node(2, 1, 5, 5, 2), node(3, 1, 1, 3, 3)]
    two = [node(0, 1, 1, 0, 1), node(1, 1, 0, 1, 2)]
    line = [(0, 1), (1, 2), (2, 3)]
    return [
        graph(path, line, False), graph(cycle, [*line, (3, 0)], True), graph(three, line, False),
        graph(two, [(0, 1)], False), grid(3, 4, chance), grid(4, 4, chance),
    ]


def good_words(chance: random.Random) -> list[str]:
    if chance.random() < 0.25:
        return [
            "check", *BASE, "--slack", chance.choice(["5000", "1000", "10000", "0"]),
            *chance.choice([NO_WORDS, ["--max-cut", "2"]]), *regions(chance), *group(chance),
            *source(chance), *lengths(chance, []),
        ]
    asks = chance.sample(sorted(model.ALL_ASKS), chance.randint(1, 4))
    words = [
        "run", *BASE, "--slack", chance.choice(["5000", "5000", "10000"]), "--key",
        chance.choice(KEYS), "--ask", ",".join(asks), "--walks", str(chance.randint(1, 6)),
        "--steps", chance.choice(["8", "1", "20", "7", "15", "31", "11"]),
    ]
    if chance.random() < 0.4:
        words += ["--ends", str(chance.randint(1, 4)), "--hub-steps", chance.choice(["8", "20"])]
        if chance.random() < 0.3:
            words += ["--stop", chance.choice(["0", "1", "2", "3", "4"])]
    if chance.random() < 0.15:
        words += ["--max-cut", chance.choice(["2", "3", "8"])]
    words += [*regions(chance), *group(chance), *source(chance), *lengths(chance, asks)]
    if chance.random() < 0.1:
        words += ["--workers", chance.choice(["1", "2", "3"])]
    if chance.random() < 0.25:
        words += ["--serial", chance.choice(["yes", "yes", "no"])]
    return words


def regions(chance: random.Random) -> list[str]:
    if chance.random() < 0.7:
        return []
    column = chance.choice(("r", "r", "s", "s", "d", ""))
    limits = (
        ("--max-split", ("1", "1", "2", "200")), ("--max-splits", ("0", "1", "2", "3", "995000")),
        ("--max-split-regions", ("0", "1", "2", "5000")),
    )
    return [
        "--region",
        column,
        *(
            word
            for name, numbers in limits
            if chance.random() < 0.5
            for word in (name, chance.choice(numbers))
        ),
    ]


def group(chance: random.Random) -> list[str]:
    if chance.random() < 0.7:
        return []
    words = ["--group", chance.choice(("g", "g", "g", "a", "pop", ""))] + (
        ["--group-of", chance.choice(("w", "w", "b", ""))] if chance.random() < 0.6 else []
    )
    return words + (
        ["--group-districts", chance.choice(("0", "1", "1", "2", "200"))]
        if chance.random() < 0.8
        else []
    )


def lengths(chance: random.Random, asks: Sequence[str]) -> list[str]:
    """Returns words of lengths: most often where an ask needs them."""
    is_asked = any(ask.startswith("cut-length") for ask in asks)
    if chance.random() < (0.1 if is_asked else 0.8):
        return []
    return ["--length", chance.choice(("l", "l", "l", "l", "id", ""))] + (
        ["--max-length", chance.choice(("0", "3", "6", "9", "20", "1717986918000000"))]
        if chance.random() < 0.6
        else []
    )


def source(chance: random.Random) -> list[str]:
    return ["--source", chance.choice(("yes", "yes", "no"))] if chance.random() < 0.3 else []


def tally(chance: random.Random) -> list[str]:
    return ["--shift", chance.choice(["yes", "yes", "yes", "no"])] if chance.random() < 0.5 else []


def saving(chance: random.Random) -> list[str]:
    words = tally(chance)
    if chance.random() < 0.9:
        words += ["--save", chance.choice(["1", "2", "3", "100"])]
        if chance.random() < 0.6:
            words += ["--budget", str(chance.randint(0, 6))]
        if chance.random() < 0.3:
            parts = chance.choice((1, 2, 3, 7))
            words += ["--parts", str(parts), "--part", str(chance.randrange(parts))]
    if chance.random() < 0.8:
        words += ["--resume", "yes"]
    return words


# ---- what is broken


def broken_bytes(data: bytes, chance: random.Random, tokens: Sequence[str]) -> bytes:
    """Returns the bytes with a few changes."""
    text = bytearray(data)
    for _ in range(chance.choice((1, 1, 1, 2, 3, 8))):
        at = chance.randrange(len(text) + 1)
        end = min(len(text), at + chance.choice((1, 1, 2, 4, 8, 40)))
        kind = chance.randrange(8)
        if kind == 0 and at < len(text):
            text[at] ^= 1 << chance.randrange(8)
        elif kind == 1 and at < len(text):
            text[at] = chance.randrange(256)
        elif kind == 2:
            del text[at:end]
        elif kind == 3:
            text[at:at] = text[at:end]
        elif kind == 4:
            other = chance.randrange(len(text) + 1)
            text[at:end] = text[other:other + end - at]
        elif kind == 5 and chance.random() < 0.3:
            del text[at:]
        elif tokens:
            text[at:end if kind == 6 else at] = chance.choice(tokens).encode()
        else:
            text[at:end] = bytes(chance.choice((0, 1, 255)) for _ in range(end - at))
    return bytes(text)


def tokens_of(text: str) -> list[tuple[int, int]]:
    """Returns the places of the numbers, texts and words of a JSON text."""
    return [match.span() for match in re.finditer(r'"[^"]*"|-?[0-9.eE+]+|true|false|null', text)]


def broken_json(data: bytes, chance: random.Random) -> bytes:
    """Returns a graph with some values, keys or entries changed, which mostly is JSON still."""
    if chance.random() < 0.35:
        return broken_bytes(data, chance, TOKENS)
    text = data.decode()
    for _ in range(chance.choice((1, 1, 1, 2, 3))):
        start, end = chance.choice(tokens_of(text))
        kind = chance.randrange(4)
        if kind == 0:
            text = text[:start] + chance.choice(TOKENS) + text[end:]
        elif kind == 1:
            at, after = chance.choice(tokens_of(text))
            text = text[:start] + text[at:after] + text[end:]
        elif kind == 2:
            brace = text.find("{", chance.randrange(len(text)))
            name = chance.choice(NAMES)
            text = (
                text[: brace + 1]
                + json.dumps(name)
                + ":"
                + chance.choice(TOKENS)
                + ","
                + text[brace + 1:]
                if brace >= 0
                else text
            )
        else:
            close = text.find("}", start)
            name = chance.choice(NAMES)
            text = (
                text[:close] + "," + json.dumps(name) + ":" + chance.choice(TOKENS) + text[close:]
                if close >= 0
                else text
            )
    return text.encode()


def reseal(data: bytes, chance: random.Random) -> bytes:
    """Returns a checkpoint of which numbers are changed, and the digest at its end is right."""
    front = bytearray(data[:-32])
    for _ in range(chance.choice((1, 1, 2))):
        at = chance.choice((8, 44, 48, *range(52, max(53, len(front) - 4), 4)))
        front[at:at + 4] = struct.pack(
            ">I",
            chance.choice(
                (0, 1, 2, 3, 4, 8, 9, 10, 16, 20, 21, 32, 100000, 100001, 2**31, 2**32 - 1)
            ),
        )
    return model.seal(bytes(front))


def downgrade(data: bytes) -> bytes:
    """Returns a good checkpoint in the first version of the format."""
    return model.checkpoint(data[12:44], data[47], model.outcomes_in(model.decode(data)), 1)


def replace_histogram(data: bytes, chance: random.Random) -> bytes:
    """Returns a good checkpoint of which one outcome has other bins: none, some that add up as they
    have to, or that do so but for a multiple of 2^32.
    """
    found = model.outcomes_in(model.decode(data))
    if not found:
        return data
    one = chance.choice(sorted(found))
    visits = chance.choice((2, 8, 9, 16, 21, 32))
    bins = [0] * 9
    for _ in range(visits):
        bins[chance.randrange(9)] += 1
    if chance.random() < 0.3:
        bins = chance.choice(
            (
                [0] * 9, [visits, *[2**31] * 2, *[0] * 6], [2**32 - 1, visits + 1, *[0] * 7],
                [2**32 - 1] * 9, [0] * 8 + [visits],
            )
        )
    found[one] = found[one]._replace(bins=bins)
    return model.checkpoint(data[12:44], data[47], found)


def broken_slot(data: bytes | None, chance: random.Random) -> bytes | None:
    if data is None or chance.random() < 0.05:
        return chance.choice(
            (
                None,
                b"",
                bytes(83),
                bytes(84),
                bytes(model.MOST_SLOT + 1) if chance.random() < 0.02 else bytes(200),
            )
        )
    kind = chance.random()
    if kind < 0.2:
        return replace_histogram(data, chance)
    if kind < 0.3:
        data = downgrade(data)
    return reseal(data, chance) if chance.random() < 0.5 else broken_bytes(data, chance, ())


def broken_words(good: Sequence[str], chance: random.Random) -> list[str]:
    words = list(good)
    for _ in range(chance.choice((1, 1, 2))):
        at = chance.randrange(len(words) + 1)
        kind = chance.randrange(7)
        if kind == 0 and at < len(words):
            del words[at]
        elif kind == 1:
            words.insert(
                at,
                chance.choice(
                    (
                        *model.TABLE, *LIMITS, "run", "check", "make", "audit", "--", "--Pop",
                        "-pop", "\u00e9", "a b", "a\nb",
                    )
                ),
            )
        elif kind in (2, 3) and len(words) > 2:
            place = chance.randrange(2, len(words), 2)
            words[place] = chance.choice(LIMITS)
        elif kind == 4:
            words += [
                chance.choice(model.TABLE),
                chance.choice(
                    (
                        *LIMITS, "yes", "no", "Yes", "seats:low", "gap:low,gap:low", "seats:low,",
                        "seats", "maybe",
                    )
                ),
            ]
        elif kind == 5 and at < len(words):
            words[at] = (
                words[at][:-1]
                if chance.random() < 0.5
                else words[at] + chance.choice(("0", "x", ",", ":low"))
            )
        elif len(words) > 4:
            words[1:3], words[3:5] = words[3:5], words[1:3]
    return [word.replace("\0", "") for word in words]


# ---- one run


def draw_call(chance: random.Random, graphs: Sequence[bytes]) -> Call:
    """Draws a call: words, a graph and slots, some of them broken."""
    data, words = chance.choice(graphs), good_words(chance)
    slots: list[bytes | None] = [None, None]
    kind = chance.choice(("graph", "graph", "slots", "slots", "words", "chain", "all"))
    if words[0] == "run" and kind != "graph":
        if kind in ("slots", "chain", "all") or chance.random() < 0.3:
            start = ["--save", chance.choice(("1", "2")), "--budget", str(chance.randint(0, 6))]
            for _ in range(chance.randint(1, 2)):
                slots = (
                    model.audit([*words, *start, *tally(chance)], data, slots).slots
                    if is_small(words)
                    else slots
                )
                start = [*start[:4], "--resume", "yes"]
        if chance.random() < 0.15:
            slots = [slot and downgrade(slot) for slot in slots]
        words += saving(chance)
        if kind in ("slots", "all"):
            for at in chance.choice(((0,), (1,), (0, 1))):
                slots[at] = broken_slot(slots[at], chance)
            if chance.random() < 0.1:
                slots.reverse()
    if kind in ("graph", "all"):
        data = broken_json(data, chance)
    if kind in ("words", "all"):
        words = broken_words(words, chance)
    return Call(words, data, slots)


def is_small(words: Sequence[str]) -> bool:
    try:
        setting = model.Setting(words)
    except model.Refused:
        return True
    if setting.command == "check":
        return True
    is_few = (setting.walks + setting.serial) * setting.steps + (
        setting.ends + 1
    ) * setting.hub_steps * (setting.ends > 0) <= MOST_WORK
    return is_few and setting.command == "run"


def limit_memory() -> None:
    resource.setrlimit(resource.RLIMIT_AS, (2 << 30, 2 << 30))


def run_program(
    program: str, words: Sequence[str], data: bytes, folder: str
) -> tuple[int, bytes, bytes]:
    """Returns the status and both texts of a run."""
    done = subprocess.run(
        [program, *words], input=data, stdout=subprocess.PIPE, stderr=subprocess.PIPE, cwd=folder,
        timeout=SECONDS, check=False,
    )
    return done.returncode, done.stdout, done.stderr


def files(folder: str) -> list[bytes | None]:
    slots: list[bytes | None] = []
    for at in (0, 1):
        path = f"{folder}/audit-{at}.ckpt"
        slots.append(open(path, "rb").read() if os.path.exists(path) else None)
    return slots


def place_files(folder: str, slots: model.Slots) -> None:
    for at, data in enumerate(slots):
        path = f"{folder}/audit-{at}.ckpt"
        if data is not None:
            with open(path, "wb") as file:
                file.write(data)
        elif os.path.exists(path):
            os.remove(path)


def differs(program: str, folder: str, call: Call) -> tuple[str | None, model.End]:
    """Returns what differs from the model, or None, and the end that the model says."""
    wanted = model.audit(*call)
    place_files(folder, call.slots)
    try:
        status, out, note = run_program(program, call.words, call.data, folder)
    except subprocess.TimeoutExpired:
        return f"no end within {SECONDS} seconds", wanted
    after = files(folder)
    if status != wanted.status:
        return f"status {status} and not {wanted.status}: {note[:200]!r}", wanted
    if out != wanted.out.encode():
        return f"output {out[:300]!r} and not {wanted.out.encode()[:300]!r}", wanted
    if note != wanted.note.encode("utf-8", "surrogateescape"):
        return f"note {note[:200]!r} and not {wanted.note.encode()[:200]!r}", wanted
    is_known = "--workers" not in call.words or status in (1, 2, 8)
    if is_known and after != wanted.slots:
        return "the files differ", wanted
    return None, wanted


def work(program: str, runs: int, seed: int) -> Found:
    """Makes runs, and returns what was found in them."""
    os.nice(19)
    limit_memory()
    chance, graphs, found = random.Random(seed), good_graphs(), Found()
    folder = tempfile.mkdtemp()
    for _ in range(runs):
        call = draw_call(chance, graphs)
        if not is_small(call.words):
            call = call._replace(data=b"")
            if call.words and call.words[0] == "make":
                continue
        why, wanted = differs(program, folder, call)
        found.counts[wanted.status] += 1
        found.notes.add(wanted.note)
        if why:
            found.differing.append((why, call))
    shutil.rmtree(folder)
    return found


def main(program: str, runs: int = 1000, seed: int = 1, processes: int = 2) -> int:
    program, share, all_found = os.path.abspath(program), 500, Found()
    with multiprocessing.Pool(processes) as pool:
        jobs = [
            pool.apply_async(work, (program, min(share, runs - at), seed * 1000003 + at))
            for at in range(0, runs, share)
        ]
        for done, job in enumerate(jobs):
            found = job.get()
            all_found.counts.update(found.counts)
            all_found.notes |= found.notes
            all_found.differing += found.differing
            for why, call in found.differing:
                print(
                    "DIFFERS:", why, "\n words", call.words, "\n graph", call.data, "\n slots",
                    [slot and slot.hex() for slot in call.slots], flush=True,
                )
            if done % 20 == 19:
                print(
                    f"{sum(all_found.counts.values())} runs, {len(all_found.differing)} differ",
                    file=sys.stderr, flush=True,
                )
    counts, differing = all_found.counts, len(all_found.differing)
    ended = ", ".join(f"{count} with status {status}" for status, count in sorted(counts.items()))
    print(
        f"{sum(counts.values())} runs, {ended}; {len(all_found.notes)} different notes; {differing}"
        " differ from the model"
    )
    return 1 if differing else 0


def arguments() -> argparse.Namespace:
    parser = argparse.ArgumentParser(
        prog="python3 -m tests.differential.fuzz", description=__doc__,
        formatter_class=argparse.RawDescriptionHelpFormatter,
    )
    parser.add_argument("program", help="the built auditor")
    parser.add_argument("runs", nargs="?", type=int, default=1000, help="how many runs are drawn")
    parser.add_argument("seed", nargs="?", type=int, default=1, help="what they are drawn from")
    parser.add_argument(
        "processes", nargs="?", type=int, default=2, help="how many run at one time"
    )
    return parser.parse_args()


if __name__ == "__main__":
    sys.exit(main(**vars(arguments())))
