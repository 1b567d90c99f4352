"""The chain of custody: the files that were read, what was done to them, and the program that read
the result.

A report keeps a `Call` while it is in memory; a manifest keeps it in a file.
"""
from __future__ import annotations

import dataclasses
import datetime
import hashlib
import importlib.metadata
import json
import os
import pathlib
import platform
import tempfile
import typing

from .graphs import Foreign, Json, Label, as_json, from_numpy

PathLike = typing.Union[str, "os.PathLike[str]"]

# A manifest names this many units of each kind of change; the table of changes has all.
SHOWN_UNITS = 100
# The packages that may take part in the preparation of a graph.
PACKAGES = (
    "district-audit", "geopandas", "gerrychain", "networkx", "numpy", "pandas", "pyogrio",
    "fiona", "shapely",
)
# The files that belong to a shapefile, beside the one with its geometries.
SHAPEFILE = (".shx", ".dbf", ".prj", ".cpg")
# The end of the name of the file that says how a program was built.
ORIGIN = ".origin"


@dataclasses.dataclass(frozen=True)
class File:
    """A file, by its name without folders, its SHA-256 in hexadecimal digits and its size."""

    name: str
    sha256: str
    size: int

    @classmethod
    def measure(cls, path: PathLike) -> File:
        """Returns what the file at a path is. Raises OSError."""
        digest, size = hashlib.sha256(), 0
        with open(path, "rb") as file:
            while piece := file.read(1 << 20):
                digest.update(piece)
                size += len(piece)
        return cls(pathlib.Path(path).name, digest.hexdigest(), size)

    @classmethod
    def from_bytes(cls, name: str, data: bytes) -> File:
        """Returns the file of a name that has these bytes."""
        return cls(name, hashlib.sha256(data).hexdigest(), len(data))

    def is_same(self, other: File) -> bool:
        """Returns whether two files have the same bytes, whatever their names."""
        return (self.sha256, self.size) == (other.sha256, other.size)


# ---- preparation


@dataclasses.dataclass(frozen=True)
class Edit:
    """One kind of change that `prepare` made to a graph."""

    kind: str
    """The kind, in words."""
    count: int
    """The number of units that it was made to; 0 where it is of the whole graph."""
    units: tuple[Label, ...]
    """The ids of these units; of a manifest that was read, the first hundred."""
    moved: float = 0
    """The change of the sum of its column, in people or votes."""
    is_of_values: bool = False
    """True if a unit's value, or the set of units and edges, became another one."""

    def __str__(self) -> str:
        if not self.count:
            return self.kind
        moved = f", which changes the column's sum by {self.moved:.6g}" if self.moved else ""
        return f"{self.kind}: {self.count} unit{'' if self.count == 1 else 's'}{moved}"


class ChangeLike(typing.Protocol):
    """A change as `prepare` lists it."""

    what: str
    units: list[Label]
    moved: float
    is_of_values: bool


@dataclasses.dataclass(frozen=True)
class Custody:
    """How the bytes that the program reads were made of what the user gave."""

    files: tuple[File, ...] = ()
    """The raw files; a shapefile is several. Empty for a graph that was in memory."""
    arguments: typing.Mapping[str, Json] = dataclasses.field(default_factory=dict)
    """The arguments of `prepare` that were given, as JSON has them."""
    edits: tuple[Edit, ...] = ()
    """The changes, by kind."""
    warnings: tuple[tuple[str, str], ...] = ()
    """The kind and the text of each warning."""
    versions: typing.Mapping[str, str] = dataclasses.field(default_factory=dict)
    """The version of Python and of each package that may have taken part."""


def record(
    graph: object,
    arguments: typing.Mapping[str, object],
    changes: typing.Iterable[ChangeLike] = (),
    warnings: typing.Iterable[tuple[str, str]] = (),
    files: typing.Iterable[PathLike] = (),
) -> Custody:
    """Returns the record of a preparation.

    Parameters
    ----------
    graph
        What was prepared. The files at a path are measured, all those of a shapefile; of bytes the
        SHA-256 is kept.
    arguments
        The arguments of `prepare`; those that are None, False or empty are left out.
    changes, warnings
        What `prepare` found: its changes, and the kind and text of each warning.
    files
        The paths of further files that were read, as that of a GeoDataFrame.

    Raises OSError if a file cannot be read.
    """
    kept = {name: as_argument(value) for name, value in arguments.items() if is_given(value)}
    edits = tuple(
        Edit(one.what, len(one.units), tuple(one.units), float(one.moved), one.is_of_values)
        for one in changes
    )
    read = [*files_of(graph), *(File.measure(path) for path in files)]
    return Custody(tuple(dict.fromkeys(read)), kept, edits, tuple(warnings), find_versions())


def is_given(value: object) -> bool:
    """Returns whether an argument says anything."""
    if value is None or value is False:
        return False
    return not (isinstance(value, (str, bytes, tuple, list, dict)) and not value)


def files_of(graph: object) -> list[File]:
    """Returns the raw files of a graph that is a path or bytes."""
    if isinstance(graph, (bytes, bytearray, memoryview)):
        return [File.from_bytes("bytes", bytes(graph))]
    if not isinstance(graph, (str, os.PathLike)):
        return []
    path = pathlib.Path(graph)
    if not path.is_file():
        return []
    more = [path.with_suffix(end) for end in SHAPEFILE] if path.suffix.lower() == ".shp" else []
    return [File.measure(one) for one in [path, *more] if one.is_file()]


def as_argument(value: Foreign) -> Json:
    """Returns an argument as JSON has it; of a long one its type, length and SHA-256."""
    if value is None or isinstance(value, (bool, int, float, str)):
        return value
    if isinstance(value, typing.Mapping) and len(value) <= SHOWN_UNITS:
        return {str(key): as_argument(one) for key, one in value.items()}
    if isinstance(value, (tuple, list, set, frozenset)) and len(value) <= SHOWN_UNITS:
        return [as_argument(one) for one in value]
    if isinstance(value, os.PathLike):
        return os.fspath(value)
    while not hasattr(value, "items") and hasattr(value, "assignment"):
        value = value.assignment
    has_items = hasattr(value, "items")
    many = [list(pair) for pair in value.items()] if has_items else list_entries(value)
    if many is None:
        return as_json(value)
    text = json.dumps(many, ensure_ascii=False, default=from_numpy)
    digest = hashlib.sha256(text.encode("utf-8", "surrogatepass")).hexdigest()
    return {"type": type(value).__name__, "entries": len(many), "sha256": digest}


def list_entries(value: Foreign) -> list[object] | None:
    """Returns the entries of a value that has any, or else None."""
    if isinstance(value, (tuple, list)):
        return list(value)
    return sorted(value, key=repr) if isinstance(value, (set, frozenset)) else None


def find_versions() -> dict[str, str]:
    """Returns the versions of Python and of the packages that are installed here."""
    from . import __version__

    found = {"python": platform.python_version(), "district-audit": __version__}
    for name in PACKAGES[1:]:
        try:
            found[name] = importlib.metadata.version(name)
        except importlib.metadata.PackageNotFoundError:
            continue
    return found


# ---- the program and its call


@dataclasses.dataclass(frozen=True)
class Program:
    """The program that made a report, with what is known of its build."""

    file: File
    commit: str | None = None
    """The commit of the sources; None: it is not known."""
    toolchain: str | None = None
    """The version of the tools that built it; None: it is not known."""
    is_proved: bool = False
    """True if the file with the build's origin, which names this program's SHA-256, says so."""

    @property
    def proof(self) -> str:
        """`proved` or `NOT PROVED`."""
        return "proved" if self.is_proved else "NOT PROVED"

    def __str__(self) -> str:
        return (
            f"program sha256 {self.file.sha256}, commit {self.commit or 'unknown'}, {self.proof}"
        )


def read_program(path: PathLike) -> Program:
    """Returns the program at a path, with what the file `NAME.origin` beside it says of its build.

    The file counts only if it names the SHA-256 of this program. Raises OSError.
    """
    file = File.measure(path)
    for place in dict.fromkeys((os.path.abspath(path), os.path.realpath(path))):
        said = read_origin(place + ORIGIN)
        if said.get("sha256") == file.sha256:
            commit = text_or_none(said.get("commit", said.get("checkout")))
            return Program(file, commit, text_or_none(said.get("kit")), said.get("proved") == "yes")
    return Program(file)


def read_origin(path: str) -> dict[str, str]:
    """Returns the lines of an origin by their first words; nothing if it cannot be read."""
    try:
        text = pathlib.Path(path).read_text(encoding="utf-8")
    except (OSError, UnicodeDecodeError):
        return {}
    pairs = (line.partition(" ") for line in text.splitlines())
    return {word: rest for word, _, rest in pairs}


def text_or_none(value: str | None) -> str | None:
    """Returns a text of an origin, or None for one that is not known."""
    return None if value in (None, "", "unknown") else value


@dataclasses.dataclass(frozen=True)
class Call:
    """One call of the program: what made a report."""

    words: tuple[str, ...]
    """The words of the program; its standard input is the graph."""
    program: Program
    started: str
    """When the call began, in UTC, as `2026-05-04T12:34:56+00:00`."""
    ended: str
    data: bytes | None = dataclasses.field(default=None, repr=False)
    """The bytes that the program read; None for a report that was read from its file."""
    path: str | None = None
    """The path of the file with these bytes, if the graph was one."""
    custody: Custody | None = None
    """The preparation of the graph; None if it went to the program as it was."""
    decides: str | None = None
    """The number that the manifest names as the one that counts, as "ends seats:low"."""


def read_clock() -> str:
    """Returns the time in UTC, as `2026-05-04T12:34:56+00:00`."""
    return datetime.datetime.now(datetime.timezone.utc).isoformat(timespec="seconds")


# ---- files that are whole or not there


def write_whole(path: PathLike, data: bytes) -> None:
    """Writes a file so that it has all of these bytes or, after an interruption, its old ones.

    The bytes go to another file in the same folder, are forced to the disk, and get the name then.
    Raises OSError.
    """
    place = pathlib.Path(path)
    handle, room = tempfile.mkstemp(prefix=f".{place.name}.", suffix=".new", dir=place.parent)
    try:
        with os.fdopen(handle, "wb") as file:
            file.write(data)
            file.flush()
            os.fsync(file.fileno())
        os.chmod(room, mode_of(place))
        os.replace(room, place)
    except BaseException:
        pathlib.Path(room).unlink(missing_ok=True)
        raise
    sync_folder(place.parent)


def mode_of(place: pathlib.Path) -> int:
    """Returns the permissions that a file has, or that a new one gets."""
    if place.exists():
        return place.stat().st_mode & 0o777
    mask = os.umask(0)
    os.umask(mask)
    return 0o666 & ~mask


def sync_folder(folder: pathlib.Path) -> None:
    """Forces a new name to the disk, where the system can do so for a folder."""
    try:
        handle = os.open(folder, os.O_RDONLY)
    except OSError:
        return
    try:
        os.fsync(handle)
    except OSError:
        pass
    finally:
        os.close(handle)
