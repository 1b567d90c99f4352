"""The order in which saves of the auditor make, write and sync files, and what they leave.

strace tells the calls of a run, as power_cuts.py reads them. Each check has the name of its case.
"""
# RUN: {auditor}
# NEEDS: strace
import argparse
import pathlib
import sys
import tempfile
import typing
from collections.abc import Sequence

from tests.checks import Checks
from tests.oracle import model
from tests.system.power_cuts import CYCLE, NAMES, RESUMED, SAVED, Step, can_trace, trace

# Six trajectories are walked, and there is a save after each second one.
SIX = ["--budget", "6"]


class SaveCase(typing.NamedTuple):
    """A run over both slots, and what it does to the slots and to their folder."""

    name: str
    words: list[str]
    slots: model.Slots
    calls: list[str]


def saves(*slots: str) -> list[str]:
    """Returns the calls that write and sync slots, each of which exists."""
    return [call for slot in slots for call in (f"empty {slot}", f"write {slot}", f"sync {slot}")]


def makes(slot: str) -> list[str]:
    """Returns the calls that make a slot, and store its name in the folder."""
    return [f"make {slot}", f"write {slot}", f"sync {slot}", "sync folder"]


def cases() -> list[SaveCase]:
    """Returns the cases. Before its first save a process stores the slot that another has left, and
    after this save the folder.
    """
    six = model.audit([*SAVED, *SIX], CYCLE, [None, None]).slots
    four = model.audit([*SAVED, "--budget", "4"], CYCLE, [None, None]).slots
    return [
        SaveCase(
            "saves_in_an_empty_folder",
            [*SAVED, *SIX],
            [None, None],
            [*makes("0"), *makes("1"), *saves("0")],
        ),
        SaveCase(
            "saves_over_both_slots",
            [*RESUMED, *SIX],
            six,
            ["sync 0", "sync folder", *saves("1"), "sync folder", *saves("0", "1")],
        ),
        SaveCase(
            "saves_without_the_first_slot",
            [*RESUMED, *SIX],
            [None, four[1]],
            ["sync 1", "sync folder", *makes("0"), *saves("1", "0")],
        ),
    ]


def words_of(steps: Sequence[Step]) -> list[str]:
    """Returns the calls in words. The pieces of a write are one call, and so are opening a file and
    emptying it.
    """
    words: list[str] = []
    for step in steps:
        word = "sync folder" if step.what == "sync folder" else f"{step.what} {step.file}"
        if step.what == "cut" and words[-1:] == [f"open {step.file}"]:
            words[-1] = f"empty {step.file}"
        elif step.what != "close" and not (step.what == "write" and words[-1:] == [word]):
            words.append(word)
    return words


def read_slots(folder: pathlib.Path) -> list[typing.Optional[bytes]]:
    paths = [folder / name for name in NAMES]
    return [path.read_bytes() if path.exists() else None for path in paths]


def check_files(checks: Checks, auditor: str, room: pathlib.Path) -> None:
    """A checkpoint of more than 9000 bytes is saved in an absent slot, and one that is shorter over
    20,000 bytes.
    """
    words = [{"12": "240", "2": "120"}.get(word, word) for word in SAVED]
    slots: model.Slots = [bytes(20000), None]
    steps = trace(auditor, room / "files", words, slots)
    checks.is_true("slots_in_files/calls", steps, "calls on both slots", words_of(steps))
    expected = model.audit(words, CYCLE, slots).slots
    sizes = [len(slot or b"") for slot in expected]
    checks.is_true("slots_in_files/sizes", 9000 < sizes[0] < 20000 and sizes[1], "both", sizes)
    checks.is_equal("slots_in_files", read_slots(room / "files"), list(expected))


def main() -> int:
    parser = argparse.ArgumentParser(description=__doc__)
    parser.add_argument("auditor", type=pathlib.Path)
    auditor = str(parser.parse_args().auditor.resolve())
    checks = Checks("save_calls")
    if not can_trace():
        checks.count_missing("trace", "strace with the right to trace")
        return checks.finish()
    with tempfile.TemporaryDirectory() as name:
        room = pathlib.Path(name)
        for case in cases():
            steps = trace(auditor, room / case.name, case.words, case.slots)
            checks.is_equal(case.name, words_of(steps), case.calls)
            expected = model.audit(case.words, CYCLE, case.slots).slots
            checks.is_equal(f"{case.name}/files", read_slots(room / case.name), list(expected))
        check_files(checks, auditor, room)
    return checks.finish()


if __name__ == "__main__":
    sys.exit(main())
