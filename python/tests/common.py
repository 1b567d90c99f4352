"""Helpers of the tests: the real program, and the handling of what is not installed."""
import contextlib
import importlib.util
import json
import os
import pathlib
import re
import stat
import tempfile
import types
import typing
import unittest
import warnings

import district_audit

TOP = pathlib.Path(__file__).resolve().parent.parent.parent
EXAMPLES = TOP / "examples"
OUTPUTS = (TOP / "tests" / "data" / "case_output", TOP / "crates" / "case_runner" / "stdout")
KEY = "0" * 64
# The tests of the package use `Any` in this line alone. A value of JSON, or of an argument of a
# call: each argument has a type of its own, and tests pass wrong ones, too.
Value = typing.Any
# The arguments of a call by their names, and the root of a graph's JSON.
Words = dict[str, Value]
Root = dict[str, Value]

WORDS: Words = dict(pop="pop", first="a", second="b", district="d", slack=5000)
COLUMNS: Words = dict(population="pop", first="a", second="b", district="d")
WALK: Words = dict(WORDS, key=KEY, walks=12, steps=8, ask="gap:low")


def fail_or_skip(what: str) -> typing.NoReturn:
    """Fails where the variable CI is set; elsewhere skips the test, which is counted."""
    if os.environ.get("CI"):
        raise AssertionError(f"{what} is missing, and CI is set")
    raise unittest.SkipTest(f"{what} is missing")


def needs(module: str) -> types.ModuleType:
    """Returns the module, or does what `fail_or_skip` does."""
    whole = module.split(".")[0]
    if importlib.util.find_spec(whole) is None:
        fail_or_skip(whole)
    return importlib.import_module(module)


def build_program(crate: str, variable: str) -> str:
    """Returns the real program that the test command leaves in out/, or the one that a variable
    names.
    """
    path = os.environ.get(variable) or str(TOP / "crates" / crate / "out" / crate)
    if not os.access(path, os.X_OK):
        fail_or_skip(f"the program of crates/{crate}")
    return path


def slots(folder: pathlib.Path) -> str:
    """Returns the program `audit_slots`: a link of that name in the folder, or what a variable
    names.
    """
    if os.environ.get("DISTRICT_AUDIT_SLOTS"):
        return os.environ["DISTRICT_AUDIT_SLOTS"]
    link = pathlib.Path(folder) / "audit_slots"
    link.symlink_to(build_program("audit_folders", "DISTRICT_AUDIT_SLOTS"))
    return str(link)


class FolderCase(unittest.TestCase):
    """Tests that each have an empty folder."""

    def setUp(self) -> None:
        # Walks of a few steps, as tests take them, change few units.
        warnings.simplefilter("ignore", district_audit.FrozenWalk)
        # Their maps have a few people, who cast more votes than they are.
        warnings.simplefilter("ignore", district_audit.MapWarning)
        room = tempfile.TemporaryDirectory()
        self.addCleanup(room.cleanup)
        self.folder = pathlib.Path(room.name)


class ProgramCase(FolderCase):
    """Tests that call the real program."""

    def setUp(self) -> None:
        super().setUp()
        self.program = build_program("audit_program", "DISTRICT_AUDIT")

    def with_little_memory(self) -> str:
        """Returns a program that gets too little memory.

        A build with the address sanitizer reserves terabytes, and is refused memory in another way.
        """
        if b"AddressSanitizer" in pathlib.Path(self.program).read_bytes():
            few = f"allocator_may_return_null=1:max_allocation_size_mb=1:log_path={self.folder}/log"
            return self.wrapper(f"ASAN_OPTIONS={few} exec PROGRAM")
        return self.wrapper("ulimit -v 60000; exec PROGRAM")

    def wrapper(self, line: str) -> str:
        """Returns a program that runs the real one under other circumstances; in the line, PROGRAM
        stands for it with its words.
        """
        path = self.folder / "wrapper"
        call = line.replace("PROGRAM", f"'{self.program}' \"$@\"")
        path.write_text(f"#!/bin/sh\n{call}\n")
        path.chmod(path.stat().st_mode | stat.S_IXUSR)
        return str(path)


class StandInGraph:
    """A stand-in with only the parts of GerryChain's documented Graph that the package uses."""

    def __init__(self, root: Root) -> None:
        self.root = root

    def nodes(self, data: bool = False) -> list[tuple[object, dict[str, object]]]:
        assert data is True
        return [
            (node["id"], {key: value for key, value in node.items() if key != "id"})
            for node in self.root["nodes"]
        ]

    def adjacency(self) -> typing.Iterator[tuple[object, dict[object, object]]]:
        for node, entries in zip(self.root["nodes"], self.root["adjacency"]):
            yield node["id"], {entry["id"]: {} for entry in entries}


class StandInAssignment:
    """A stand-in for a Partition's assignment, of which the package uses items()."""

    def __init__(self, districts: typing.Mapping[Value, object]) -> None:
        self.districts = districts

    def items(self) -> typing.Iterable[tuple[object, object]]:
        return self.districts.items()


class StandInPartition:
    """A stand-in for a Partition, of which the package uses the assignment."""

    def __init__(self, districts: typing.Mapping[Value, object]) -> None:
        self.assignment = StandInAssignment(districts)


def example(name: str) -> Root:
    root: Root = json.loads((EXAMPLES / "data" / name).read_text(encoding="utf-8"))
    return root


def blocks_of(text: str) -> typing.Iterator[str]:
    """Yields the reports that a document prints."""
    for block in re.findall("^```\\w*\n(.*?)^```$", text, re.DOTALL | re.MULTILINE):
        if block.startswith("district-audit"):
            yield block


def readme_report() -> str:
    """Returns the report on grid.json in examples/README.md, which READING_A_REPORT explains."""
    text = (EXAMPLES / "README.md").read_text(encoding="utf-8")
    return next(block for block in blocks_of(text) if "ends seats" in block)


def groups_report() -> str:
    """Returns the report on groups.json in examples/README.md, with each rule and the source; the
    plain model prints it.
    """
    text = (EXAMPLES / "README.md").read_text(encoding="utf-8").split("\n## groups.json\n")[1]
    return next(blocks_of(text))


def anything(value: object) -> Value:
    """Returns a value of a type that no checker judges, such as one that a call must refuse."""
    return value


def find_in(form: str, text: str) -> re.Match[str]:
    """Returns the place of a form in a text; asserts that there is one."""
    found = re.search(form, text)
    assert found is not None, f"{form} is not in the text"
    return found


@contextlib.contextmanager
def environment(**values: typing.Optional[str]) -> typing.Iterator[None]:
    """Variables of the environment, for a while; None takes one away."""
    before = {name: os.environ.get(name) for name in values}
    try:
        for name, value in values.items():
            os.environ.pop(name, None)
            if value is not None:
                os.environ[name] = value
        yield
    finally:
        for name, value in before.items():
            os.environ.pop(name, None)
            if value is not None:
                os.environ[name] = value
