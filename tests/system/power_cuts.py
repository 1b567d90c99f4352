"""Cuts the power at each moment of runs that save, and sees that the next run goes on from what may
then be stored, or is refused by name.

Usage: python3 -m tests.system.power_cuts PROGRAM [STATES [SEED]]
`strace` tells the calls of the program on its two files: of a run of six saves, and of runs that go
on where that run was killed between two of its calls, whose last writes may not be stored yet.
After each call the script lists what both files may hold where the power is cut then: a file's name
is stored for sure only once its folder was synced since it was made, and its bytes only once it was
synced itself. Until then each cut of the file to no bytes, each piece of what was written, and its
length without its bytes, may be stored or not, whatever came before or after it. Which of these are
tried: all up to each piece, each piece alone, all but each piece, and some drawn ones; of two files
that are not stored, drawn pairs. Of all states so many are drawn (all where no number is given). In
each the program is resumed: status, report, note and files have to be those of the plain model in
model.py, and a run that ends well has to write the one report. No save that the program has taken
for done may be lost, neither by the run that made it nor by one that goes on after it was killed.
Prints how many states there were, and each that is not so; ends with 1 where there is one. Says so
where strace cannot trace.
"""
# RUN: {auditor} 150 1
# NEEDS: strace
from __future__ import annotations

import argparse
import dataclasses
import itertools
import os
import pathlib
import random
import re
import subprocess
import sys
import tempfile
import typing
from collections.abc import Iterable, Iterator, Sequence
from concurrent.futures import ThreadPoolExecutor

from tests.oracle import model
from tests.places import DATA

CYCLE = (DATA / "cycle.json").read_bytes()
NAMES = ("audit-0.ckpt", "audit-1.ckpt")
WHOLE = [
    "run", *"--pop pop --first a --second b --district d --slack 5000".split(), "--key", "0" * 64,
    "--walks", "12", "--steps", "8", "--ask", "gap:low",
]
SAVED = [*WHOLE, "--save", "2"]
RESUMED = [*SAVED, "--resume", "yes"]
CALL = re.compile(r"^\d+\s+(\w+)\((.*)\)\s+= (-?\d+)")
TEXT = re.compile(r'"((?:\\x[0-9a-f]{2})*)"(\.\.\.)?')
HARMLESS = {
    "read", "close", "fstat", "newfstatat", "stat", "lstat", "statx", "access", "lseek", "readlink",
    "execve",
}


# ---- the calls of a run


def bytes_in(said: str) -> bytes:
    """Returns the bytes of the first text of a call, which strace shows as hexadecimal digits."""
    found = TEXT.search(said)
    if found is None or found[2]:
        raise ValueError(f"a text is not shown whole: {said[:100]}")
    return bytes.fromhex(found[1].replace("\\x", ""))


def whole_lines(text: str) -> Iterator[str]:
    """Yields the lines of a trace; a call that another thread's cut in two is one line again."""
    begun: dict[str, str] = {}
    for line in text.splitlines():
        process = line.split(None, 1)[0]
        if line.endswith("<unfinished ...>"):
            begun[process] = line.removesuffix("<unfinished ...>")
        elif "resumed>" in line and process in begun:
            yield begun.pop(process) + line.partition("resumed>")[2]
        else:
            yield line


# The bytes of both files, or None where a file is absent.
State = tuple[typing.Optional[bytes], typing.Optional[bytes]]
FOLDER = -1


class Step(typing.NamedTuple):
    """A change by a call: its kind, and the file, by its place in NAMES, or the folder. A write and
    a cut to a length also have a place, and a write has bytes.
    """

    what: str
    file: int
    place: int = 0
    data: bytes = b""


class Replay:
    """The open files of a traced run, by the numbers that the system gave them."""

    def __init__(self) -> None:
        self.files: dict[int, int] = {}
        """The two files that are written, by their places in NAMES."""
        self.read: dict[int, int] = {}
        self.at: dict[int, int] = {}
        """The place in each written file at which the next byte is written."""
        self.folders: set[int] = set()

    def steps(self, line: str) -> Iterator[Step]:
        """Yields what a line of the trace does to the files and to their folder."""
        found = CALL.match(line)
        if not found:
            return
        call, said, answer = found[1], found[2], int(found[3])
        if call == "openat":
            yield from self.open(said, answer)
            return
        digits = re.match(r"\d+", said)
        number = int(digits[0]) if digits else -1
        if call == "close":
            yield from self.close(number)
        elif call in ("fsync", "fdatasync") and answer == 0:
            yield from self.sync(call, number)
        elif call == "write" and number in self.files and answer >= 0:
            yield Step("write", self.files[number], self.at[number], bytes_in(said)[:answer])
            self.at[number] += answer
        elif call == "ftruncate" and number in self.files and answer == 0:
            yield Step("cut", self.files[number], int(said.split(",")[1]))
        elif answer >= 0 and call not in ("fsync", "fdatasync", *HARMLESS):
            self.refuse_unknown(line, said, number)

    def open(self, said: str, answer: int) -> Iterator[Step]:
        name = bytes_in(said).decode() if answer >= 0 else ""
        if name == ".":
            self.folders.add(answer)
        if name not in NAMES:
            return
        file = NAMES.index(name)
        if "O_RDONLY" in said:
            self.read[answer] = file
            return
        self.files[answer], self.at[answer] = file, 0
        yield Step("make" if "O_EXCL" in said else "open", file)
        if "O_TRUNC" in said:
            yield Step("cut", file)

    def close(self, number: int) -> Iterator[Step]:
        if number in self.files:
            yield Step("close", self.files.pop(number))
        else:
            self.folders.discard(number)
            self.read.pop(number, None)

    def sync(self, call: str, number: int) -> Iterator[Step]:
        file = self.files.get(number, self.read.get(number))
        if file is not None:
            yield Step("sync", file)
        elif call == "fsync" and number in self.folders:
            yield Step("sync folder", FOLDER)

    def refuse_unknown(self, line: str, said: str, number: int) -> None:
        """Raises ValueError for a call on one of the files that cannot be replayed."""
        shown = said.replace("\\x", "")
        if number in self.files or any(name.encode().hex() in shown for name in NAMES):
            raise ValueError(f"a call that this script cannot replay: {line[:100]}")


def calls_of(text: str) -> Iterator[Step]:
    """Yields what a run did to the two files and to their folder, in turn."""
    replay = Replay()
    for line in whole_lines(text):
        yield from replay.steps(line)


def place(folder: pathlib.Path, slots: model.Slots) -> None:
    folder.mkdir()
    for name, data in zip(NAMES, slots):
        if data is not None:
            (folder / name).write_bytes(data)


def trace(
    program: str, folder: pathlib.Path, words: Sequence[str], slots: model.Slots
) -> list[Step]:
    """Returns the calls of a run over files with these bytes."""
    place(folder, slots)
    trace = folder.with_suffix(".trace")
    subprocess.run(
        [
            "strace", "-f", "-qq", "-xx", "-s", "9000000", "-o", trace, "-e", "trace=%file,%desc",
            program, *words,
        ],
        input=CYCLE,
        cwd=folder,
        capture_output=True,
        timeout=600,
        check=False,
    )
    return list(calls_of(trace.read_text()))


def can_trace() -> bool:
    try:
        return (
            subprocess.run(
                ["strace", "-o", "/dev/null", "true"], capture_output=True, timeout=20, check=False
            ).returncode
            == 0
        )
    except OSError:
        return False


# ---- what may be stored


class File:
    """A file: the bytes that a program reads now, those stored for sure, and those that may be
    stored.
    """

    def __init__(self) -> None:
        self.now: bytes | None = None
        self.stored = b""
        self.pending: list[Step] = []
        self.is_named = False

    def make(self) -> None:
        self.now = b""

    def change(self, step: Step) -> None:
        assert self.now is not None
        self.pending.append(step)
        self.now = apply(self.now, [step])

    def sync(self) -> None:
        assert self.now is not None
        self.stored, self.pending = self.now, []

    def states(self, draw: random.Random, drawn: int) -> set[bytes | None]:
        """Returns the texts that may be there if the power is cut now, None for no file."""
        if self.now is None:
            return {None}
        steps = [piece for step in self.pending for piece in pieces(step, draw)]
        chosen = [steps[:count] for count in range(len(steps) + 1)]
        chosen += [[step] for step in steps] + [
            steps[:place] + steps[place + 1:] for place in range(len(steps))
        ]
        chosen += [
            [step for step in steps if draw.random() < 0.5]
            for _ in range(drawn if len(steps) > 2 else 0)
        ]
        found: set[bytes | None] = {apply(self.stored, some) for some in chosen}
        return found if self.is_named else found | {None}


def apply(data: bytes, steps: Sequence[Step]) -> bytes:
    """Returns the bytes after these steps: cuts to a length, writes at a place, and lengths without
    bytes of their own.
    """
    for what, _, place, more in steps:
        if what == "cut":
            data = data[:place].ljust(place, b"\0")
        else:
            data = data[:place].ljust(place, b"\0") + more + data[place + len(more):]
    return data


def pieces(step: Step, draw: random.Random) -> list[Step]:
    """Returns the parts of a step that may be stored each without the others: of a write its
    length, as zeros and as other bytes, and pieces of its bytes.
    """
    what, file, place, data = step
    if what == "cut" or not data:
        return [step]
    marks = sorted(
        {
            0, 8, 12, 44, 48, 52, len(data) - 32, len(data) - 1, len(data),
            *(draw.randrange(len(data)) for _ in range(6)),
        }
    )
    marks = [mark for mark in marks if 0 <= mark <= len(data)]
    length = [Step("write", file, place + len(data) - 1, bytes([byte])) for byte in (0, 0xA5)]
    return length + [
        Step("write", file, place + low, data[low:high]) for low, high in zip(marks, marks[1:])
    ]


class Disk:
    """Both files, and how many outcomes the last save has that a program takes for done."""

    def __init__(self) -> None:
        self.files, self.done = (File(), File()), 0

    def take(self, call: Step) -> None:
        """Takes a call as done."""
        if call.what == "sync folder":
            for file in self.files:
                file.is_named = file.now is not None
            return
        file = self.files[call.file]
        if call.what == "make":
            file.make()
        elif call.what in ("cut", "write"):
            file.change(call)
        elif call.what == "sync":
            file.sync()
        elif call.what == "close":
            self.done = outcomes(file.now)

    def read_state(self) -> State:
        return self.files[0].now, self.files[1].now

    def read_stored(self) -> tuple[tuple[bool, bool], ...]:
        """Returns whether each file and its name is stored for sure."""
        return tuple((not file.pending, file.is_named) for file in self.files)

    def states(self, draw: random.Random, drawn: int) -> list[State]:
        """Returns what both files may hold if the power is cut now."""
        zero, one = (
            sorted(file.states(draw, drawn), key=lambda data: (data is not None, data))
            for file in self.files
        )
        pairs = list(itertools.product(zero, one))
        return pairs if len(pairs) <= 400 else draw.sample(pairs, 400)


def outcomes(data: bytes | None) -> int:
    """Returns the number of outcomes of a file, 0 if it is no checkpoint."""
    slot = model.decode(data)
    return 0 if slot.fault else len(slot.records)


def outcomes_in(slots: State) -> int:
    """Returns the number of outcomes of the newest file."""
    newest = model.newest([model.decode(data) for data in slots])
    return 0 if newest is None else outcomes(slots[newest])


# ---- the states


@dataclasses.dataclass(frozen=True)
class States:
    """The states of the first run and those of each run that goes on where it was killed, each with
    the most outcomes that had been saved; the number of the first one's calls, and of the others.
    """

    first: dict[State, int]
    later: dict[State, int]
    calls: int
    kills: int


def list_states(
    disk: Disk, calls: Sequence[Step], draw: random.Random, drawn: int, found: dict[State, int]
) -> None:
    """Lists what may be stored before, between and after these calls: for each state the most
    outcomes that had been saved.
    """
    for count in range(len(calls) + 1):
        if count:
            disk.take(calls[count - 1])
        for state in disk.states(draw, drawn):
            found[state] = max(found.get(state, 0), disk.done)


def all_states(program: str, folder: pathlib.Path, draw: random.Random, drawn: int) -> States:
    """Traces the first run, and each that goes on where the first was killed."""
    found: dict[State, int] = {}
    later: dict[State, int] = {}
    tried = set()
    first = trace(program, folder / "first", SAVED, (None, None))
    list_states(Disk(), first, draw, drawn, found)
    for count in range(1, len(first) + 1):
        disk = Disk()
        for call in first[:count]:
            disk.take(call)
        mark = disk.read_state(), disk.read_stored()
        if mark in tried:
            continue
        tried.add(mark)
        list_states(
            disk, trace(program, folder / f"killed {count}", RESUMED, disk.read_state()), draw,
            drawn, later,
        )
    return States(found, later, len(first), len(tried))


def drawn_states(states: Iterable[State], count: int, draw: random.Random) -> list[State]:
    """Returns this number of the states, or all if there are no more."""
    ordered = sorted(states, key=str)
    return ordered if len(ordered) <= count else draw.sample(ordered, count)


def find_fault(program: str, folder: pathlib.Path, slots: State, wanted: model.End) -> str | None:
    """Returns what is wrong if a run goes on from this state, or None."""
    place(folder, slots)
    end = subprocess.run(
        [program, *RESUMED], input=CYCLE, cwd=folder, capture_output=True, timeout=60, check=False
    )
    stored = [(folder / name).read_bytes() if (folder / name).exists() else None for name in NAMES]
    for part, one, other in (
        ("status", end.returncode, wanted.status), ("report", end.stdout, wanted.out.encode()),
        ("note", end.stderr, wanted.note.encode()), ("files", stored, list(wanted.slots)),
    ):
        if one != other:
            return f"{part} {str(one)[:200]} and not {str(other)[:200]}"
    return None


def describe(slots: State) -> str:
    return (
        f"files of {' and '.join('no' if data is None else str(len(data)) for data in slots)} bytes"
    )


def find_lost(states: dict[State, int]) -> list[str]:
    """Returns the states in which a save is lost."""
    left = [(slots, outcomes_in(slots), kept) for slots, kept in states.items()]
    return [
        f"{describe(slots)}: {one} outcomes are left of {kept} that were saved"
        for slots, one, kept in left
        if one < kept
    ]


def resume(
    program: str, folder: pathlib.Path, chosen: Sequence[State], report: str
) -> tuple[dict[int, int], list[str]]:
    """Returns the numbers of states that ended with the report and that were refused, and what is
    wrong.
    """
    ends, wrong = {0: 0, 8: 0}, []
    runs: list[tuple[pathlib.Path, State, model.End]] = []
    for number, slots in enumerate(chosen):
        wanted = model.audit(RESUMED, CYCLE, list(slots))
        if wanted.status not in ends or wanted.status == 0 and wanted.out != report:
            wrong.append(f"{describe(slots)}: the model ends with status {wanted.status}")
            continue
        ends[wanted.status] += 1
        runs.append((folder / f"state {number}", slots, wanted))
    with ThreadPoolExecutor(os.cpu_count()) as pool:
        for (_, slots, _), why in zip(runs, pool.map(lambda run: find_fault(program, *run), runs)):
            if why:
                wrong.append(f"{describe(slots)}: {why}")
    return ends, wrong


def main(program: str, states: int = 0, seed: int = 1) -> int:
    if not can_trace():
        print("SKIPPED power_cuts: strace is not installed, or may not trace here")
        print("power_cuts: 0 passed, 0 failed, 1 skipped")
        return 0
    program, draw = os.path.abspath(program), random.Random(seed)
    with tempfile.TemporaryDirectory() as name:
        folder = pathlib.Path(name)
        every = all_states(program, folder, draw, 60)
        found, later = every.first, every.later
        most = (states + 1) // 2 or len(found) + len(later)
        wrong = find_lost(found) + find_lost(later)
        chosen = drawn_states(found, most, draw) + drawn_states(later, most, draw)
        ends, wrongs = resume(program, folder, chosen, model.audit(WHOLE, CYCLE, [None, None]).out)
        wrong += wrongs
    for one in wrong[:20]:
        print("WRONG:", one)
    print(
        f"{len(found)} states of a run of {every.calls} calls and {len(later)} of the {every.kills}"
        f" runs that go on where it was killed. Of {len(chosen)} that were resumed {ends[0]} ended"
        f" with the one report, and {ends[8]} were refused by name. {len(wrong)} are not as they"
        " have to be"
    )
    return 1 if wrong or not every.calls or not ends[0] or not ends[8] else 0


def arguments() -> argparse.Namespace:
    parser = argparse.ArgumentParser(
        prog="python3 -m tests.system.power_cuts", description=__doc__,
        formatter_class=argparse.RawDescriptionHelpFormatter,
    )
    parser.add_argument("program", help="the built auditor")
    parser.add_argument(
        "states", nargs="?", type=int, default=0,
        help="from how many states a run goes on; all, if 0",
    )
    parser.add_argument("seed", nargs="?", type=int, default=1, help="what they are drawn from")
    return parser.parse_args()


if __name__ == "__main__":
    sys.exit(main(**vars(arguments())))
