"""The named cases of the crate `case_runner` and of the auditor: lines, and parts of outputs.

A line of a file is `NAME REST`. The output of a case begins with a line `case NAME`.
"""
import pathlib
import re
import sys
import typing

from tests.checks import Checks, run
from tests.places import CASES, TEST_DATA

NAME = re.compile("[a-z]+(_[a-z0-9]+)*")
COMMANDS = ("check", "run", "make", "plans", "trace")
# The number of words of a line of `case_runner` before the file of its graph, without the name.
WORDS_BEFORE = 11
# The file of the lines that `case_runner` runs, and those that the auditor runs.
LINES = CASES / "data" / "cases"
AUDITED = (TEST_DATA / "cases", TEST_DATA / "graphs")


class Case(typing.NamedTuple):
    """A name, and a text that belongs to it: the rest of a line, or a part of an output."""

    name: str
    text: str


def lines_of(path: pathlib.Path) -> list[Case]:
    """Returns the lines of a file of cases; a line without a space has an empty rest."""
    lines = path.read_text().split("\n")[:-1]
    return [Case(*line.partition(" ")[::2]) for line in lines]


def is_question(words: typing.Sequence[str]) -> bool:
    """Returns whether the words ask for a text about the program, which no model prints."""
    if len(words) == 2:
        return words[0] in COMMANDS and words[1] == "--help"
    return list(words) in (["--help"], ["--version"])


def words_of(line: str) -> list[str]:
    """Returns the file of the graph and the arguments of the rest of a line of `case_runner`."""
    return line.split()[WORDS_BEFORE:]


def parts_of(output: str) -> list[Case]:
    """Returns the parts of an output, without the lines of the names.

    A text before the first name is a part with an empty name.
    """
    front, *rest = re.split("^case (.*)\n", output, flags=re.M)
    parts = [Case(name, text) for name, text in zip(rest[::2], rest[1::2])]
    return [Case("", front), *parts] if front else parts


def stdout_parts() -> list[Case]:
    """Returns the parts that `case_runner` must print."""
    return parts_of((CASES / "stdout").read_text())


def audited_parts() -> list[Case]:
    """Returns the statuses and texts with which the auditor must end."""
    return parts_of((TEST_DATA / "case_output").read_text())


def find_repeated(names: typing.Sequence[str]) -> list[str]:
    """Returns the names that occur more than once."""
    return sorted({name for name in names if names.count(name) > 1})


def check_order(
    checks: Checks, check: str, came: typing.Sequence[str], expected: typing.Sequence[str]
) -> None:
    """Checks that two lists of names are equal; shows five names from where they differ."""
    pairs = enumerate(zip(came, expected))
    place = next((at for at, (one, other) in pairs if one != other), min(len(came), len(expected)))
    checks.is_true(
        check,
        came == expected,
        f"from case {place}: {', '.join(expected[place:place + 5])}",
        ", ".join(came[place:place + 5]),
    )


def compare(
    checks: Checks,
    front: str,
    came: typing.Sequence[Case],
    expected: typing.Sequence[Case],
) -> None:
    """Checks that two outputs have the same cases in the same order, and the same text for each.

    Each case is one check, named for the case.
    """
    names = [case.name for case in expected]
    check_order(checks, f"{front}/order", [case.name for case in came], names)
    texts = dict(came)
    for name, text in expected:
        if name in texts:
            checks.is_same_text(f"{front}/{name}", texts[name], text)
        else:
            checks.is_true(f"{front}/{name}", False, text, "no such case")


def compare_with_model(
    checks: Checks,
    model: str,
    folder: pathlib.Path,
    expected: typing.Sequence[Case],
    names: typing.Sequence[str],
) -> None:
    """Checks the parts of these names against what a plain program prints of a folder's lines.

    It must print each of these cases, and no other.
    """
    end = run([sys.executable, "-m", f"tests.golden.{model}", folder])
    if checks.has_status(f"{model}/ends", end):
        came = [part for part in expected if part.name in set(names)]
        compare(checks, model, came, parts_of(end.out))
