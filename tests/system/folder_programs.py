"""Tests of what `audit_slots` prints, and of what it and `audit_gather` refuse. Both are one
program, which does what its name says.
"""
# RUN: {auditor}
# QUICK
import argparse
import os
import pathlib
import re
import sys
import tempfile
import typing

from tests.checks import Checks, End, run
from tests.oracle import model
from tests.places import DATA, link_programs, package_command, package_environment

COLUMNS = "--pop TOTPOP --first DEM --second REP --district CD".split()
JOB = ["run", *COLUMNS, "--key", "0" * 64, *"--walks 6 --steps 100 --ask cut-edges:low".split()]
WORDS = [*JOB, "--slack", "1000"]
FOUR = (
    "slot 0: version 2 generation 0 outcomes 2 digest D\n"
    "slot 1: version 2 generation 1 outcomes 4 digest D\nnewest: slot 1\n"
)


class Room:
    """A folder with a run's slots, the programs, a graph and the checks."""

    def __init__(self, checks: Checks, auditor: pathlib.Path, room: pathlib.Path) -> None:
        self.checks, self.auditor, self.room = checks, auditor, room
        self.both, self.slots, self.gatherer = link_programs(room)
        self.folder = room / "run"
        self.folder.mkdir()
        words = ["--numbers", "nearest", "--missing", "zero", "--out", room / "graph.json"]
        end = run(
            [*package_command("prepare"), DATA / "rough.json", *COLUMNS, *words],
            more=package_environment(),
        )
        checks.has_status("graph_is_prepared", end)
        self.graph = (room / "graph.json").read_bytes()

    def slot(self, number: int) -> pathlib.Path:
        return self.folder / f"audit-{number}.ckpt"

    def run(self, *words: object, seconds: float = 3600) -> End:
        """Runs a program in the folder of the slots."""
        return run(words, self.graph, self.folder, seconds=seconds)

    def says(self, name: str, text: str, *words: str) -> None:
        """`audit_slots` with these words has to print this text, with D in place of a digest."""
        end = self.run(self.slots, *words)
        came = re.sub(r"digest [0-9a-f]+$", "digest D", end.out, flags=re.M)
        self.checks.is_true(name, came == text, text, came + end.note)

    def refuses(
        self, name: str, program: pathlib.Path, status: int, note: str, *words: object
    ) -> None:
        """A program has to end soon with this status and note, and to print nothing."""
        end = self.run(program, *words, seconds=20)
        self.checks.is_equal(name, end, End(status, "", note + "\n"))


def try_slots(room: Room) -> None:
    none = "slot 0: absent\nslot 1: absent\nnewest: none\n"
    room.says("no_slot", none + "done: 0 of 6\n", *WORDS)
    end = room.run(room.auditor, *WORDS, "--save", "2", "--budget", "4")
    room.checks.has_status("run_is_halted", end, 7)
    room.says("slots_without_words", FOUR)
    room.says("slots_of_a_run", FOUR + "done: 4 of 6\n", *WORDS)
    room.says(
        "slots_of_another_job", FOUR + "done: the newest is another job's\n", *JOB, "--slack", "900"
    )
    with open(room.slot(0), "ab") as file:
        file.write(b"x")
    room.slot(1).write_bytes(b"x")
    room.says(
        "damaged_slots",
        "slot 0: bad count\nslot 1: too short\nnewest: none\ndone: no slot is intact\n",
        *WORDS,
    )
    end = run([room.slots, "check", "--pop", "TOTPOP"])
    room.checks.has_status("words_of_a_check", end, 1)


def try_long_slot(room: Room) -> None:
    """A slot may have 100,000 outcomes, and not a byte more."""
    room.slot(0).unlink()
    outcomes = {number: model.Outcome(0, [], model.NO_BINS) for number in range(100000)}
    data = model.checkpoint(bytes(32), 1, outcomes)
    room.slot(1).write_bytes(data)
    end = room.run(room.slots)
    room.checks.has_line(
        "longest_slot", end.out, "\nslot 1: version 2 generation 1 outcomes 100000 digest "
    )
    room.checks.has_status("longest_slot_ends", end)
    with open(room.slot(1), "ab") as file:
        file.write(b"x")
    room.says(
        "slot_a_byte_too_long",
        "slot 0: absent\nslot 1: too long\nnewest: none\ndone: no slot is intact\n",
        *WORDS,
    )
    room.slot(1).unlink()


def try_words(room: Room) -> None:
    room.refuses(
        "words_of_plans", room.slots, 1, "words: unknown command plans", "plans", *COLUMNS, "--key",
        "0" * 64, "--ask", "gap:low",
    )
    room.refuses(
        "check_with_columns", room.slots, 1, "words: unknown command check", "check", *COLUMNS
    )
    room.refuses(
        "bad_value", room.slots, 1, "words: bad value for --walks",
        *("06" if word == "6" else word for word in WORDS),
    )
    room.refuses(
        "missing_column", room.slots, 2, "graph: node 0 has no column NONE",
        *("NONE" if word == "TOTPOP" else word for word in WORDS),
    )
    room.refuses("no_name", room.both, 1, "words: neither slots nor gather")
    end, named = room.run(room.both, "slots"), room.run(room.slots)
    room.checks.is_equal("name_as_first_word", end, named)


def try_odd_files(room: Room) -> None:
    """Unreadable slots are not reported as absent, and a pipe in a slot's place is not waited for.
    """
    fault = "checkpoint load fault"
    room.slot(0).symlink_to("audit-0.ckpt")
    room.refuses("link_to_itself", room.slots, 6, fault, *WORDS)
    room.slot(0).unlink()
    room.slot(1).mkdir()
    room.refuses("folder_in_a_slots_place", room.slots, 6, fault)
    room.slot(1).rmdir()
    os.mkfifo(room.slot(0))
    room.refuses("pipe_in_a_slots_place", room.slots, 6, fault, *WORDS)
    room.refuses(
        "pipe_in_a_gathered_folder", room.gatherer, 6, fault, "--look", "yes", room.folder, *WORDS
    )
    room.slot(0).unlink()


def through_shell(room: Room, redirection: str, *words: str) -> End:
    """Runs `audit_slots` with its input or output somewhere else."""
    line = f'exec "$0" "$@" {redirection}'
    return room.run("bash", "-c", line, room.slots, *words)


def try_streams(room: Room) -> None:
    end = through_shell(room, "> /dev/full")
    room.checks.is_equal("failed_write", end, End(5, "", "write fault\n"))
    end = through_shell(room, f"< '{room.room}'", *WORDS)
    room.checks.is_equal("failed_read", (end.status, end.note), (4, "read fault\n"))


PARTS: list[typing.Callable[[Room], None]] = [
    try_slots, try_long_slot, try_words, try_odd_files, try_streams,
]


def main() -> int:
    parser = argparse.ArgumentParser(description=__doc__)
    parser.add_argument("auditor", type=pathlib.Path)
    auditor = parser.parse_args().auditor.resolve()
    checks = Checks("folder_programs")
    with tempfile.TemporaryDirectory() as name:
        room = Room(checks, auditor, pathlib.Path(name))
        for part in PARTS:
            part(room)
    return checks.finish()


if __name__ == "__main__":
    sys.exit(main())
