"""Graphs as people have them: objects of networkx or GerryChain, files of JSON, GraphML or GML, and
bytes.
"""
from __future__ import annotations

import decimal
import gzip
import json
import math
import numbers
import os
import typing

from .errors import PrepareRefused, extra

SHOWN = 10

# The package uses `Any` in these two lines alone. `Json` is a value of JSON, whose type depends
# on its place. `Foreign` is a value of the user or of a library without types, such as an argument
# as it is passed, an id or a label of the graph, a frame, or a polygon.
Json = typing.Any
Foreign = typing.Any
# A unit's columns, as the program reads them.
Row = dict[str, Json]

Label = typing.Union[int, str]
Pair = tuple[object, object]
# The attributes of a unit, its id among them, before anything of them is changed.
Node = dict[str, object]


class GraphLike(typing.Protocol):
    """The methods of a graph of networkx or GerryChain that are called here."""

    def nodes(self, data: bool) -> typing.Iterable[tuple[object, typing.Mapping[str, object]]]:
        """Returns each unit's id and attributes."""

    def adjacency(self) -> typing.Iterable[tuple[object, typing.Iterable[object]]]:
        """Returns each unit's id and its neighbors, as a mapping to attributes or as ids alone."""


class Raw(typing.NamedTuple):
    """A graph before anything of it is changed."""

    nodes: list[Node]
    """The attributes of each unit, its id among them, as `id`."""
    pairs: list[Pair]
    """The ids that are neighbours, as they stand in the graph."""
    is_directed: bool
    attributes: list[typing.Mapping[str, object]]
    """The attributes of each pair, as its length."""


def list_ids(ids: typing.Iterable[object], everything: bool = False) -> str:
    """Returns ids as JSON, joined by commas: the first ten, or all if `everything` is true."""
    texts = [as_json(one) for one in ids]
    some = (
        texts
        if everything or len(texts) <= SHOWN
        else texts[:SHOWN] + [f"and {len(texts) - SHOWN} more"]
    )
    return ", ".join(some)


def as_json(value: object) -> str:
    """Returns a value as JSON in one line, for people."""
    return json.dumps(value, ensure_ascii=False, default=from_numpy)


def from_numpy(value: object) -> object:
    """Returns a number of numpy as Python's, and any other value as a text."""
    if type(value).__name__ in ("bool_", "bool"):
        return bool(value)
    if is_whole(value):
        return int(typing.cast(int, value))
    return float(value) if isinstance(value, numbers.Real) else str(value)


# ---- reading


def raw_of(graph: object) -> Raw:
    """Returns a graph of any kind that `prepare` takes as its nodes and edges.

    Raises PrepareRefused if the graph cannot be read, and MissingExtra if reading it needs networkx
    and that is not installed.
    """
    if isinstance(graph, (bytes, bytearray, memoryview)):
        return read_root(parse(bytes(graph), "the graph"), "the graph")
    if isinstance(graph, (str, os.PathLike)):
        return read_file(os.fspath(graph))
    if isinstance(graph, dict):
        return read_root(graph, "the graph")
    if hasattr(graph, "nodes") and hasattr(graph, "adjacency"):
        return read_object(typing.cast(GraphLike, graph))
    raise PrepareRefused(
        "a graph must be an object with nodes(data=True) and adjacency(), a path, or bytes, not of"
        f" type {type(graph).__name__}"
    )


def read_object(graph: GraphLike) -> Raw:
    """Returns the nodes and edges of an object of networkx or of GerryChain."""
    nodes = [{**attributes, "id": node} for node, attributes in graph.nodes(data=True)]
    edges = [
        ((node, other), one)
        for node, others in graph.adjacency()
        for other in others
        for one in attributes_of(graph, others, other)
    ]
    is_directed = getattr(graph, "is_directed", None)
    return Raw(
        nodes, [pair for pair, _ in edges], bool(is_directed()) if callable(is_directed) else False,
        [one for _, one in edges],
    )


def attributes_of(
    graph: GraphLike, others: typing.Iterable[object], other: object
) -> list[typing.Mapping[str, object]]:
    """Returns the attributes of each edge to the neighbor `other`.

    A multigraph may have several such edges. An edge has no attributes if the graph's adjacency
    lists ids alone.
    """
    found = others[other] if isinstance(others, typing.Mapping) else {}
    is_multigraph = getattr(graph, "is_multigraph", None)
    if callable(is_multigraph) and is_multigraph():
        return list(found.values())
    return [found if isinstance(found, typing.Mapping) else {}]


def read_file(name: str) -> Raw:
    """Reads the graph in a file; GraphML and GML are read by networkx."""
    if name.endswith((".graphml", ".gml")):
        networkx = extra("networkx")
        try:
            return read_object(
                networkx.read_graphml(name)
                if name.endswith(".graphml")
                else networkx.read_gml(name)
            )
        except Exception as error:  # networkx and its readers of XML have many
            raise PrepareRefused(f"{name} cannot be read: {error}") from error
    try:
        with open(name, "rb") as file:
            data = file.read()
    except OSError as error:
        raise PrepareRefused(f"{name} cannot be read: {error}") from error
    return read_root(parse(data, name), name)


# Beginnings of files that are no text of UTF-8, and what to do with such a file.
FORMS = (
    (b"BZh", "is compressed by bzip2: write `bunzip2` and its name first"),
    (b"\xfd7zXZ", "is compressed by xz: write `unxz` and its name first"),
    (b"\x28\xb5\x2f\xfd", "is compressed by zstd: write `unzstd` and its name first"),
    (b"PK\x03\x04", "is a zip archive: unpack it first, or give a zipped shapefile to graph_from"),
    (b"\xff\xfe", "is UTF-16 and not UTF-8: `iconv -f UTF-16 -t UTF-8` changes it"),
    (b"\xfe\xff", "is UTF-16 and not UTF-8: `iconv -f UTF-16 -t UTF-8` changes it"),
    (b"SQLite format 3", "is a GeoPackage: write graph_from(name, id=..)"),
    (b"\x00\x00\x27\x0a", "is a shapefile: write graph_from(name, id=..)"),
)


def refuse_form(data: bytes, name: str) -> None:
    """Refuses a file that is compressed, in another encoding or a map, and says what to do."""
    for start, why in FORMS:
        if data.startswith(start):
            raise PrepareRefused(f"{name} {why}")


def parse(data: bytes, name: str) -> object:
    """Returns the JSON in bytes, which may be compressed by gzip."""
    try:
        data = gzip.decompress(data) if data[:2] == b"\x1f\x8b" else data
        refuse_form(data, name)
        root = json.loads(data.decode("utf-8-sig"))
    except UnicodeDecodeError as error:
        raise PrepareRefused(
            f"{name} is not UTF-8 at byte {error.start}: `iconv -f LATIN1 -t UTF-8` changes most"
        ) from error
    except (ValueError, EOFError, OSError) as error:
        if isinstance(error, PrepareRefused):
            raise
        raise PrepareRefused(f"{name} cannot be read: {error}") from error
    if isinstance(root, dict) and root.get("type") == "FeatureCollection":
        raise PrepareRefused(f"{name} is GeoJSON, a map: write graph_from(name, id=..)")
    return root


def read_root(root: object, name: str) -> Raw:
    """Returns the graph in the root object of networkx's adjacency or node-link layout."""
    nodes = root.get("nodes") if isinstance(root, dict) else None
    if (
        not isinstance(root, dict)
        or not isinstance(nodes, list)
        or not all(isinstance(node, dict) for node in nodes)
    ):
        raise PrepareRefused(
            f"{name} is not a graph of networkx: it has no list `nodes` of objects"
        )
    edges = list(edges_of(root, nodes))
    return Raw(
        nodes, [pair for pair, _ in edges], bool(root.get("directed")), [one for _, one in edges]
    )


def edges_of(
    root: dict[str, Json], nodes: list[Node]
) -> typing.Iterator[tuple[Pair, typing.Mapping[str, object]]]:
    """Yields the two ids of each edge, and its attributes."""
    if isinstance(root.get("adjacency"), list):
        if len(root["adjacency"]) != len(nodes):
            raise PrepareRefused(
                f"{len(nodes)} nodes and {len(root['adjacency'])} adjacency entries"
            )
        for node, entries in zip(nodes, root["adjacency"]):
            for entry in entries:
                yield (hashable(node.get("id")), hashable(entry.get("id"))), entry
        return
    for key in ("links", "edges"):
        if isinstance(root.get(key), list):
            for entry in root[key]:
                yield (hashable(entry.get("source")), hashable(entry.get("target"))), entry
            return
    raise PrepareRefused("the graph has none of the lists `adjacency`, `links` and `edges`")


def hashable(value: object) -> object:
    """Returns an id as networkx has it: a list, as JSON has a grid's pairs, becomes a tuple."""
    return tuple(map(hashable, value)) if isinstance(value, list) else value


# ---- values


def is_missing(value: object) -> bool:
    """Returns whether a value is absent, null, NaN, a text of nothing but white space, or what
    pandas or numpy write for a missing value.
    """
    if value is None or isinstance(value, str) and not value.strip():
        return True
    if type(value).__name__ in ("NAType", "NaTType", "MaskedConstant"):
        return True
    if isinstance(value, decimal.Decimal):
        return value.is_nan()
    if isinstance(value, (numbers.Real, numbers.Rational)):
        return not isinstance(value, numbers.Rational) and math.isnan(value)
    # datetime64("NaT"), complex NaN, and whatever else is not equal to itself.
    try:
        return bool(value != value)
    except (TypeError, ValueError):
        return False


def is_whole(value: object) -> bool:
    """Returns whether a value is a whole number, of Python or of numpy."""
    return isinstance(value, numbers.Integral) and not isinstance(value, bool)


def plain(value: object) -> Label | None:
    """Returns a value that the auditor takes as an id or a label: a text, or a whole number that
    fits 64 bits. Returns None for any other value.
    """
    if isinstance(value, str):
        return str(value)
    if is_whole(value) and -(2**63) <= int(typing.cast(int, value)) < 2**64:
        return int(typing.cast(int, value))
    return None


def as_text(value: object) -> str:
    """Returns an id or a label of any kind as a text: a whole float as its digits."""
    if isinstance(value, str):
        return str(value)
    if is_whole(value):
        return str(int(typing.cast(int, value)))
    if isinstance(value, (numbers.Real, decimal.Decimal)) and not isinstance(value, bool):
        number = typing.cast(float, value)
        if math.isfinite(number) and number == math.floor(number):
            return str(math.floor(number))
    return json.dumps(value, default=str)


def make_renaming(values: typing.Sequence[object]) -> tuple[typing.Callable[[object], Label], bool]:
    """Returns a function from raw ids or labels to the written ones, and whether it changes any.

    If one of them must be written as a text, all of them are.
    """
    if all(plain(value) is not None for value in values):
        return (lambda value: typing.cast(Label, plain(value))), False
    return as_text, True


def sort_labels(labels: typing.Iterable[Label]) -> list[Label]:
    """Returns the different labels in the order in which the auditor numbers them from 0: rising,
    whole numbers before texts.
    """
    return sorted(set(labels), key=lambda label: (isinstance(label, str), label))
