"""For the tests in Python: named checks that are counted.

A check that fails prints its name, what was expected and what came. The last line counts.
"""
import os
import pathlib
import subprocess
import typing

from tests.places import TOP

Text = typing.Union[str, bytes]


def brief(value: object, most: int = 400) -> str:
    """Returns a value as one line of at most this number of characters."""
    text = value.decode("utf-8", "replace") if isinstance(value, bytes) else str(value)
    line = text.rstrip("\n").replace("\n", "|")
    return line if len(line) <= most else line[:most] + " .."


class End(typing.NamedTuple):
    """How a program ended: its status, its output and what it wrote on standard error."""

    status: int
    out: str
    note: str


def run(
    words: typing.Sequence[object],
    data: typing.Optional[bytes] = None,
    folder: typing.Optional[pathlib.Path] = None,
    more: typing.Optional[typing.Mapping[str, str]] = None,
    seconds: float = 3600,
) -> End:
    """Runs a program on these bytes in a folder, with further variables of the environment.

    A program that does not end in time has the status 124.
    """
    try:
        end = subprocess.run(
            [str(word) for word in words],
            input=b"" if data is None else data,
            timeout=seconds,
            cwd=folder or TOP,
            capture_output=True,
            check=False,
            env={**os.environ, **(more or {})},
        )
    except subprocess.TimeoutExpired:
        return End(124, "", f"not ended after {seconds:.0f} seconds")
    texts = (text.decode("utf-8", "surrogateescape") for text in (end.stdout, end.stderr))
    return End(end.returncode, *texts)


class Checks:
    """The checks of one test."""

    def __init__(self, test: str) -> None:
        self.test = test
        self.passed = self.failed = self.skipped = 0

    def is_true(self, name: str, condition: object, expected: object, came: object = "") -> bool:
        """Counts a check that holds where the condition does."""
        if condition:
            self.passed += 1
        else:
            self.failed += 1
            print(
                f"FAILED {self.test}/{name}\n  expected: {brief(expected)}\n"
                f"  came: {brief(came)}",
                flush=True,
            )
        return bool(condition)

    def is_equal(self, name: str, came: object, expected: object) -> bool:
        """Counts a check that holds where both values are equal."""
        return self.is_true(name, came == expected, expected, came)

    def is_same_text(self, name: str, came: Text, expected: Text) -> bool:
        """Counts a check that holds where both texts are equal; shows them from where they differ.
        """
        if came == expected:
            return self.is_true(name, True, "")
        pairs = enumerate(zip(came, expected))
        place = next(
            (at for at, (one, other) in pairs if one != other), min(len(came), len(expected))
        )
        front = max(0, place - 80)
        return self.is_true(
            name, False, f"from byte {front}: {brief(expected[front:])}", brief(came[front:])
        )

    def has_status(self, name: str, end: End, status: int = 0) -> bool:
        """Counts a check that holds where a program ended with this status."""
        return self.is_true(
            name,
            end.status == status,
            f"status {status}",
            f"status {end.status}: {brief((end.out + end.note)[-1500:], 1500)}",
        )

    def has_line(self, name: str, text: str, part: str) -> bool:
        """Counts a check that holds where a text has this part."""
        return self.is_true(name, part in text, part, text[-1500:])

    def count_missing(self, name: str, what: str) -> None:
        """Counts a check that needs what is not here: failed where CI is set, else skipped."""
        if os.environ.get("CI"):
            self.is_true(name, False, f"{what}, for the variable CI is set", "missing")
        else:
            self.skips(name, f"missing: {what}")

    def skips(self, name: str, why: str) -> None:
        """Counts a check that cannot run here, for what nobody could install."""
        self.skipped += 1
        print(f"SKIPPED {self.test}/{name}: {why}", flush=True)

    def finish(self) -> int:
        """Prints the counts, and returns the exit status."""
        print(f"{self.test}: {self.passed} passed, {self.failed} failed, {self.skipped} skipped")
        return 1 if self.failed else 0
