"""Whole calls over empty slots, by the plain model in model.py: how the auditor must end for each
line of the files `cases` and `graphs`.

Usage: python3 -m tests.golden.plain_cases FOLDER
FOLDER has both files, as tests/data. A line of `cases` has a name, the file of the graph in
crates/case_runner/data, and the arguments. A line of `graphs` has a name, and the text of a graph
that is checked, or `hex` and its bytes in hexadecimal digits. The graph of `make` is the grid,
whose votes are drawn from the key. A line of a grid of more than 400 units is left out: this would
take an hour.
"""
from __future__ import annotations

import argparse
import json
import pathlib
import typing
from collections.abc import Sequence

from tests.checks import End
from tests.golden.named_cases import lines_of
from tests.oracle import model
from tests.places import CASES

CHECK = "check --pop pop --first a --second b --district d --slack 1000".split()


class Call(typing.NamedTuple):
    """The name of a case, the arguments of its call, and the bytes on standard input."""

    name: str
    words: list[str]
    data: bytes


def grid(size: int, key: bytes) -> bytes:
    """Returns the text of the grid that `make` audits. It has ten times its size in rows and
    columns, and its votes are drawn from the key.
    """
    side = 10 * size
    first = [draw % 101 for draw in model.draws(key, 2**32, side * side)]
    beside = [
        [
            v
            for v in (u - side, u - 1, u + 1, u + side)
            if 0 <= v < side * side and (v % side == u % side or v // side == u // side)
        ]
        for u in range(side * side)
    ]
    nodes = [
        {"a": first[u], "b": 100 - first[u], "district": u // side // size, "id": u, "pop": 100}
        for u in range(side * side)
    ]
    root = {
        "adjacency": [[{"id": v} for v in near] for near in beside],
        "directed": False,
        "graph": [],
        "multigraph": False,
        "nodes": nodes,
    }
    return json.dumps(root, separators=(",", ":")).encode()


def setting_of(words: Sequence[str]) -> model.Setting | None:
    """Returns the setting of words that are accepted, or None."""
    try:
        return model.Setting(words)
    except model.Refused:
        return None


def graph_of(words: Sequence[str], data: bytes) -> bytes:
    """Returns the bytes of the graph of a call."""
    setting = setting_of(words)
    return grid(setting.size, setting.key) if setting and setting.command == "make" else data


def is_great(words: Sequence[str]) -> bool:
    setting = setting_of(words)
    return setting is not None and setting.command == "make" and setting.size > 2


def call_of(name: str, line: str, is_graph: bool) -> Call:
    """Returns the call of the rest of a line of `cases`, or of `graphs`."""
    if is_graph:
        data = bytes.fromhex(line[4:]) if line.startswith("hex ") else line.encode()
        return Call(name, CHECK, data)
    file, *words = line.split()
    return Call(name, words, (CASES / "data" / file).read_bytes())


def calls_of(folder: pathlib.Path) -> list[Call]:
    """Returns the calls of both files."""
    return [
        call_of(name, line, file == "graphs")
        for file in ("cases", "graphs")
        for name, line in lines_of(folder / file)
    ]


def text_of(end: End) -> str:
    """Returns what is compared of the end of a call."""
    return f"status {end.status}\n{end.out}{end.note}"


def main(folder: str) -> None:
    for name, words, data in calls_of(pathlib.Path(folder)):
        if not is_great(words):
            end = model.audit(words, graph_of(words, data), [None, None])
            print(f"case {name}\n{text_of(End(end.status, end.out, end.note))}", end="")


def arguments() -> argparse.Namespace:
    parser = argparse.ArgumentParser(
        prog="python3 -m tests.golden.plain_cases", description=__doc__,
        formatter_class=argparse.RawDescriptionHelpFormatter,
    )
    parser.add_argument("folder", metavar="FOLDER", help="the folder tests/data")
    return parser.parse_args()


if __name__ == "__main__":
    main(**vars(arguments()))
