"""Compares the command `plans` with the plain model, on random graphs and tables.

Usage: python3 -m tests.differential.compare_plans PROGRAM [COUNT [SEED]]
Makes COUNT (1000) graphs of 4 to 9 units with a table of up to nine plans, seldom forty, from SEED
(1): many good, and others broken in each of the ways that a table can be, with quotes, empty lines,
each line end, byte order marks and ids of each kind. Compares status, output and note with what
`model.py` answers, for a random number of workers. Prints how many tables ended how, and ends with
1 at the first that did not end as it has to. Nothing is needed but Python.
"""
# RUN: {auditor} 20 3
# QUICK
from __future__ import annotations

import argparse
import json
import random
import subprocess
import sys
from collections import Counter
from collections.abc import Sequence

from tests.oracle import model

ASKS = ("seats:low", "cut-edges:low,gap:high", "mean-median:high", "seats:high,cut-edges:high")


def id_of(kind: int, unit: int) -> int | str:
    """Returns the id of a unit, of one of five kinds."""
    ids = (str(unit), unit, unit - 3, f"unit {unit}", f'é,"{unit}"')
    return ids[kind]


def graph_of(chance: random.Random) -> tuple[list[int | str], dict[str, object]]:
    """Returns a graph of a path with some more edges, with ids of one of several kinds, and a plan
    of its own.
    """
    units = chance.randint(4, 9)
    kind = chance.randrange(5)
    ids = [id_of(kind, at) for at in range(units)]
    if chance.random() < 0.03:
        ids[1] = str(ids[0]) if type(ids[0]) is int else 0
        ids[0] = ids[0] if type(ids[0]) is int else "0"
    near: list[set[int]] = [set() for _ in ids]
    for at in range(units):
        for other in {at + 1} | {chance.randrange(units) for _ in range(chance.randrange(2))}:
            if other < units and other != at:
                near[at].add(other)
                near[other].add(at)
    nodes = [
        {
            "id": one,
            "pop": chance.randint(1, 3),
            "a": chance.randrange(9),
            "b": chance.randrange(9),
            "d": 0,
            "r": chance.randrange(3),
            "g": chance.randrange(4),
            "w": chance.randrange(6),
        }
        for one in ids
    ]
    for node, district in zip(nodes, plan_of(chance, units)):
        node["d"] = district
    return ids, {
        "nodes": nodes,
        "adjacency": [[{"id": ids[other]} for other in sorted(near[at])] for at in range(units)],
    }


def plan_of(chance: random.Random, units: int) -> list[int]:
    """Returns a plan of two or three runs of units, seldom one that is no plan."""
    if chance.random() < 0.05:
        return [chance.randrange(3) for _ in range(units)]
    first = chance.randint(1, units - 1)
    second = chance.randint(first, units) if chance.random() < 0.5 else units
    return [0 if at < first else 1 if at < second else 2 for at in range(units)]


def quote(chance: random.Random, field: str) -> str:
    if chance.random() < 0.2 or any(sign in field for sign in ',"\n\r'):
        return '"' + field.replace('"', '""') + '"'
    return field


def table_of(chance: random.Random, ids: Sequence[int | str]) -> bytes:
    """Returns a table of some plans, at random broken."""
    count = chance.randint(1, 9) if chance.random() < 0.97 else chance.choice((0, 16, 17, 40))
    labels = [
        chance.choice((["A", "B", "C"], ["1", "10", "9"], ["x y", "é", ""])) for _ in range(count)
    ]
    records = [["id", *(chance.choice(("plan", "plan ", " ")) + str(at) for at in range(count))]]
    plans = [plan_of(chance, len(ids)) for _ in range(count)]
    for unit, one in enumerate(ids):
        records.append([str(one), *(labels[at][plans[at][unit]] for at in range(count))])
    if chance.random() < 0.5:
        records[1:] = chance.sample(records[1:], len(ids))
    broken = chance.randrange(14)
    break_records(chance, broken, records, count)
    end = chance.choice(("\n", "\r\n", "\r"))
    lines = [",".join(quote(chance, field) for field in record) for record in records]
    if chance.random() < 0.1:
        lines.insert(chance.randrange(len(lines)), "")
    text = end.join(lines) + (end if chance.random() < 0.8 else "")
    data = ("\ufeff" if chance.random() < 0.1 else "").encode() + text.encode()
    if broken == 6:
        place = chance.randrange(len(data) + 1)
        data = (
            data[:place] + chance.choice((b"\xff", b'"', b",", b"\n", b"\r", b"\0")) + data[place:]
        )
    elif broken == 7:
        data = data[: chance.randrange(len(data) + 1)]
    return data


def break_records(
    chance: random.Random, broken: int, records: list[list[str]], count: int
) -> None:
    """Breaks the records of a table in the way that this number chooses, if it chooses one."""
    at = chance.randrange(len(records))
    if broken == 0:
        del records[at]
    elif broken == 1:
        records.insert(chance.randrange(len(records)), records[at])
    elif broken == 2:
        records[at].append("more")
    elif broken == 3:
        records[at][0] = chance.choice(("other", "", "00"))
    elif broken == 4 and count:
        names = ("", "a b", " ", "a\tb", "é", "n" * 101, "n" * 100)
        records[0][chance.randint(1, count)] = chance.choice(names)
    elif broken == 5 and count:
        column = chance.randint(1, count)
        for record in records[1:]:
            record[column] = "same"


def words_of(chance: random.Random) -> list[str]:
    words = [
        "plans", "--pop", "pop", "--first", "a", "--second", "b", "--district", "d", "--slack",
        chance.choice(("10000", "5000")), "--walks", str(chance.randint(0, 2)), "--steps",
        chance.choice(("7", "15", "20")), "--ends", str(chance.randrange(4)), "--hub-steps", "5",
        "--ask", chance.choice(ASKS), "--workers", str(chance.randint(1, 8)), "--key",
        f"{chance.getrandbits(256):064x}",
    ]
    for more in (
        ["--region", "r"], ["--region", "r", "--max-split", "2"], ["--max-cut", "4"],
        ["--shift", "yes"], ["--stop", "1"], ["--serial", "yes"], ["--group", "g"],
        ["--group", "g", "--group-of", "w", "--group-districts", "1"], ["--source", "yes"],
    ):
        words += more if chance.random() < 0.15 and more[0] not in words else []
    for more in (["--max-splits", "2"], ["--max-split-regions", "2"]):
        words += more if chance.random() < 0.4 and "--region" in words else []
    return words


def main(program: str, count: int, seed: int) -> None:
    chance = random.Random(seed)
    ends: Counter[str] = Counter()
    for place in range(count):
        ids, graph = graph_of(chance)
        data = json.dumps(graph).encode() + (
            b"\n" + table_of(chance, ids) if chance.random() < 0.98 else b""
        )
        words = words_of(chance)
        wanted = model.audit(words, data, [None, None])
        found = subprocess.run([program, *words], input=data, capture_output=True, check=False)
        if (found.returncode, found.stdout, found.stderr) != (
            wanted.status, wanted.out.encode(), wanted.note.encode(),
        ):
            print(
                f"table {place} of seed {seed}: {words}\n{data!r}\nwanted {wanted}\nfound {found}"
            )
            sys.exit(1)
        ends[
            (
                wanted.note.split(":")[0]
                + ":"
                + wanted.note.split(":")[1].translate(str.maketrans("", "", "0123456789"))
                if wanted.note
                else "reports"
            )
        ] += 1
    for what, times in ends.most_common():
        print(times, what.strip())


def arguments() -> argparse.Namespace:
    parser = argparse.ArgumentParser(
        prog="python3 -m tests.differential.compare_plans", description=__doc__,
        formatter_class=argparse.RawDescriptionHelpFormatter,
    )
    parser.add_argument("program", help="the built auditor")
    parser.add_argument(
        "count", nargs="?", type=int, default=1000, help="how many graphs are drawn"
    )
    parser.add_argument("seed", nargs="?", type=int, default=1, help="what they are drawn from")
    return parser.parse_args()


if __name__ == "__main__":
    main(**vars(arguments()))
