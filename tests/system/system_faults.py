"""Runs the auditor on a system that fails at a given call, and at its limits.

Usage: python3 -m tests.system.system_faults PROGRAM [JOBS]
A run must have the status, the texts and the files that the plain model, tests/oracle/model.py,
gives. The parts:

- faults that strace injects into calls on the checkpoints, standard input and output
- reads and writes of seven bytes, every other one interrupted, by a library that gcc builds
- files at the limits of size, depth, units, edges, districts, regions, splits and groups
- checkpoints of both versions of the format, at the limits of size and count
- values of words at the ends of their ranges
- saves cut off by a limit on files
- a folder that cannot be written and threads that are refused, as another user
- slots that become pipes while a run walks; its report must be that of a run that saves nothing
- the outcomes that workers buffer at each save, for which the model gives nothing: they must be few

Needed are strace with the right to trace, for the faults and the buffered outcomes; gcc, for short
reads and writes; and root, for the other user. A part whose need is missing says so in one line and
counts as skipped. If strace is not installed, `tests/run` skips all parts, or fails if the variable
CI is set.

The faults of calls, short reads and writes, the limit on files and the other user are tried over
JOBS jobs (1 by default), which differ in key and questions; all else over the first alone. No
argument chooses one fault. folder_faults.py has the faults of audit_slots and audit_gather.

Prints one line for each part, and a line `WRONG: RUN: ..` for each run that differs. The last line
counts the runs, and the skipped parts. The status is 1 if a run differs.
"""
# RUN: {auditor}
# NEEDS: strace
from __future__ import annotations

import argparse
import json
import os
import pathlib
import re
import resource
import shutil
import signal
import stat
import subprocess
import sys
import tempfile
import time
import typing
from collections.abc import Callable, Mapping, Sequence

from tests.oracle import model
from tests.system import power_cuts
from tests.places import DATA

CYCLE = (DATA / "cycle.json").read_bytes()
BASE = "--pop pop --first a --second b --district d".split()
CHAIN = [
    "run", *BASE, "--slack", "5000", "--key", "0" * 64, "--walks", "12", "--steps", "8", "--ask",
    "gap:low",
]
ASKS = (
    "gap:low", "cut-edges:low,gap:high", "seats:high,mean-median:low",
    "mean-median:high,gap:low,cut-edges:high,seats:low",
)
CHECK = ["check", *BASE, "--slack", "5000"]
NAMES = ("audit-0.ckpt", "audit-1.ckpt")
NOBODY = 65534
SHORT = r"""
#define _GNU_SOURCE
#include <dlfcn.h>
#include <errno.h>
#include <unistd.h>

static __thread int turn;

static int interrupted(void) {
    turn = !turn;
    if (turn) errno = EINTR;
    return turn;
}

ssize_t read(int fd, void *to, size_t size) {
    static ssize_t (*real)(int, void *, size_t);
    if (!real) real = dlsym(RTLD_NEXT, "read");
    return interrupted() ? -1 : real(fd, to, size < 7 ? size : 7);
}

ssize_t write(int fd, const void *from, size_t size) {
    static ssize_t (*real)(int, const void *, size_t);
    if (!real) real = dlsym(RTLD_NEXT, "write");
    return interrupted() ? -1 : real(fd, from, size < 7 ? size : 7);
}
"""


# A node of a graph, or the entry of a neighbor: its values by their columns.
Node = dict[str, object]
# Maps the bytes of a save that fails to those that it leaves in its slot.
Left = Callable[[bytes], typing.Optional[bytes]]


class End(typing.NamedTuple):
    """The end of a run."""

    status: int
    out: bytes
    note: bytes
    slots: list[bytes | None]


class Skipped(str):
    """The line of a part that was not tried, since what it needs is missing."""


class Room:
    """A folder in which runs are made, and what was wrong."""

    def __init__(self, program: str, folder: pathlib.Path) -> None:
        self.program, self.folder, self.slots = program, folder, folder / "slots"
        self.wrong: list[str] = []
        self.count = 0
        self.chain = CHAIN

    def place(self, slots: model.Slots) -> None:
        if self.slots.exists():
            self.slots.chmod(0o755)
            shutil.rmtree(self.slots)
        self.slots.mkdir()
        for name, data in zip(NAMES, slots):
            if data is not None:
                (self.slots / name).write_bytes(data)

    def read_slots(self) -> list[bytes | None]:
        return [
            (self.slots / name).read_bytes() if (self.slots / name).exists() else None
            for name in NAMES
        ]

    def run(
        self,
        words: Sequence[str],
        graph: bytes,
        before: Sequence[str] = (),
        given: Mapping[str, str] | None = None,
        prepared: Callable[[], None] | None = None,
    ) -> End:
        """Returns how a run over the slots ends."""
        graph_file, out_file = self.folder / "graph", self.folder / "out"
        graph_file.write_bytes(graph)
        with open(graph_file, "rb") as source, open(out_file, "wb") as out:
            done = subprocess.run(
                [*before, self.program, *words], stdin=source, stdout=out, stderr=subprocess.PIPE,
                cwd=self.slots, env={**os.environ, **(given or {})}, preexec_fn=prepared,
                timeout=120, check=False,
            )
        return End(done.returncode, out_file.read_bytes(), done.stderr, self.read_slots())

    def judge(
        self, name: str, end: End, status: int, out: str, note: str, slots: Sequence[bytes | None]
    ) -> None:
        self.count += 1
        for part, found, wanted in (
            ("status", end.status, status), ("output", end.out, out.encode()),
            ("note", end.note, note.encode()), ("files", end.slots, list(slots)),
        ):
            if found != wanted:
                self.wrong.append(f"{name}: {part} {str(found)[:200]} and not {str(wanted)[:200]}")
                return

    def compare(
        self,
        name: str,
        words: Sequence[str],
        graph: bytes,
        slots: model.Slots = (None, None),
        given: Mapping[str, str] | None = None,
    ) -> None:
        """Makes a run that must end as one on a system that does not fail."""
        self.place(slots)
        wanted = model.audit(words, graph, list(slots))
        self.judge(
            name, self.run(words, graph, given=given), wanted.status, wanted.out, wanted.note,
            wanted.slots,
        )


# ---- faults injected by strace


def save(
    words: Sequence[str], slots: model.Slots, fails: Mapping[int, Left]
) -> list[bytes | None]:
    """Returns the files after a run of which the saves with these numbers fail; the functions say
    what each of these leaves.
    """
    setting = model.Setting(words)
    job = model.job_of(setting, CYCLE)
    digest = job.digest()
    seen = [model.check_slot(setting, digest, data) for data in slots]
    found = model.initial_outcomes(seen, digest, setting) if setting.resume else {}
    todo = [one for one in range(setting.total) if one not in found][: setting.budget]
    every, after = model.select_outcomes(job, digest), list(slots)
    newest = model.newest(seen)
    slot, generation = (0, 0) if newest is None else (1 - newest, (seen[newest].generation + 1) % 3)
    number, last = 0, -1
    for count in [*range(setting.save, len(todo) + 1, setting.save), len(todo)]:
        if count == last:
            continue
        number += 1
        data = model.checkpoint(
            digest, generation, {**found, **{one: every[one] for one in todo[:count]}}
        )
        if number in fails:
            after[slot] = fails[number](data)
            continue
        after[slot], last = data, count
        slot, generation = 1 - slot, (generation + 1) % 3
    return after


def keep_all(data: bytes) -> bytes:
    return data


def drop_all(_data: bytes) -> bytes:
    return b""


def keep_front(count: int) -> Left:
    return lambda data: data[:count]


ABSENT: list[bytes | None] = [None, None]
NO_WORDS: list[str] = []
FAULT, DONE = (9, "checkpoint save fault\n"), (0, "")


class Injections:
    """Runs of a chain in which strace has single calls fail."""

    def __init__(self, room: Room) -> None:
        self.room = room
        self.first = model.audit(
            [*room.chain, "--save", "2", "--budget", "5"], CYCLE, [None, None]
        ).slots
        self.report = model.audit(room.chain, CYCLE, [None, None]).out
        self.fresh = [*room.chain, "--save", "2"]
        self.resumed = [*self.fresh, "--resume", "yes"]

    def run(
        self,
        name: str,
        words: Sequence[str],
        slots: model.Slots,
        call: str,
        path: str | pathlib.Path,
        what: str,
        end: tuple[int, str],
        files: Sequence[bytes | None],
    ) -> None:
        self.room.place(slots)
        trace = [
            "strace", "-f", "-qq", "-o", "/dev/null", "-P", str(path), "-P",
            str(self.room.slots / path), "-e", f"trace={call}", "-e", f"inject={call}:{what}",
        ]
        came = self.room.run(words, CYCLE, before=trace)
        said = b"".join(
            line
            for line in came.note.splitlines(True)
            if not line.startswith(b"strace: Requested path ")
        )
        wanted, note = end
        self.room.judge(
            name,
            came._replace(note=said),
            wanted,
            self.report if wanted in (0, 9) else "",
            note,
            files,
        )

    def fail_saves(self) -> None:
        """Has the writes and syncs of single saves fail or be interrupted."""
        for number in (1, 2, 3, 4, 5, 6):
            # save k is the (k + 1) div 2th of its slot while none fails
            path, when = NAMES[(number + 1) % 2], (number + 1) // 2
            self.run(
                f"save {number} is not synced", self.fresh, ABSENT, "fsync", path,
                f"error=EIO:when={when}", FAULT, save(self.fresh, ABSENT, {number: keep_all}),
            )
            self.run(
                f"save {number} has no room", self.fresh, ABSENT, "write", path,
                f"error=ENOSPC:when={when}", FAULT, save(self.fresh, ABSENT, {number: drop_all}),
            )
            self.run(
                f"save {number} is interrupted", self.fresh, ABSENT, "write", path,
                f"error=EINTR:when={when}", DONE, save(self.fresh, ABSENT, {}),
            )
            self.run(
                f"the sync of save {number} is interrupted", self.fresh, ABSENT, "fsync", path,
                f"error=EINTR:when={when}", DONE, save(self.fresh, ABSENT, {}),
            )
        for when, number in ((1, 1), (2, 2)):
            self.run(
                f"the folder of save {number} is not synced", self.fresh, ABSENT, "fsync",
                self.room.slots, f"error=EIO:when={when}", FAULT,
                save(self.fresh, ABSENT, {number: keep_all}),
            )

    def fail_folder(self) -> None:
        """Has the closing of files, and calls on the folder, fail."""
        paths: list[str | pathlib.Path] = [*NAMES, self.room.slots]
        for path in paths:
            self.run(
                f"the closing of {path} fails", self.fresh, ABSENT, "close", path, "error=EIO",
                DONE, save(self.fresh, ABSENT, {}),
            )
        self.run(
            "no save is synced", self.fresh, ABSENT, "fsync", NAMES[0], "error=EIO", FAULT,
            save(self.fresh, ABSENT, dict.fromkeys(range(1, 9), keep_all)),
        )
        self.run(
            "the folder is never synced", self.fresh, ABSENT, "fsync", self.room.slots, "error=EIO",
            FAULT, save(self.fresh, ABSENT, dict.fromkeys(range(1, 9), keep_all)),
        )
        for error in ("EINVAL", "EOPNOTSUPP"):
            self.run(
                f"the folder is never synced, and the system says why: {error}", self.fresh, ABSENT,
                "fsync", self.room.slots, f"error={error}", DONE, save(self.fresh, ABSENT, {}),
            )
        for error in ("EOPNOTSUPP", "ENOLCK", "ENOSYS"):
            self.run(
                f"there are no locks of folders: {error}", self.resumed, self.first, "flock",
                self.room.slots, f"error={error}", DONE, save(self.resumed, self.first, {}),
            )
        for error in ("EINVAL", "EIO"):
            self.run(
                f"the folder cannot be locked: {error}", self.resumed, self.first, "flock",
                self.room.slots, f"error={error}", (6, "checkpoint load fault\n"),
                list(self.first),
            )

    def hold_folder(self) -> None:
        """Has another run hold the folder, and the newest file never be stored."""
        for name, words, slots in (
            ("going on", self.resumed, self.first), ("a new run", self.fresh, self.first),
            ("a run in an empty folder", self.fresh, ABSENT),
        ):
            self.run(
                f"another run holds the folder: {name}", words, slots, "flock", self.room.slots,
                "error=EAGAIN", (6, "checkpoint: another run holds the folder\n"), list(slots),
            )
        places: list[tuple[str | pathlib.Path, str]] = [
            (NAMES[0], "newest file"), (self.room.slots, "folder"),
        ]
        for path, what in places:
            self.run(
                f"the {what} is not synced before the first save", self.resumed, self.first,
                "fsync", path, "error=EIO:when=1", FAULT,
                save(self.resumed, self.first, {1: lambda data: self.first[1]}),
            )
        # A process that cannot have the newest file stored makes no save: each attempt would be
        # its first.
        other = model.audit(
            [*self.room.chain, "--save", "2", "--budget", "4"], CYCLE, [None, None]
        ).slots
        for slots, newest in (
            (self.first, 0), (other, 1), ([self.first[0], None], 0), ([None, other[1]], 1),
        ):
            for error in ("EIO", "ENOSPC", "EDQUOT"):
                self.run(
                    f"the newest file, in slot {newest}, is never synced: {error}", self.resumed,
                    slots, "fsync", NAMES[newest], f"error={error}", FAULT, list(slots),
                )
            self.run(
                f"the folder is never synced, and the newest file is in slot {newest}",
                self.resumed,
                slots,
                "fsync",
                self.room.slots,
                "error=EIO",
                FAULT,
                list(slots),
            )

    def fail_files(self) -> None:
        """Has looking at files and opening them fail."""
        for path in NAMES:
            self.run(
                f"{path} cannot be looked at", self.resumed, self.first, "statx", path, "error=EIO",
                (6, "checkpoint load fault\n"), self.first,
            )
        self.run(
            "a new file is refused", self.fresh, ABSENT, "openat", NAMES[0], "error=EACCES:when=2",
            FAULT, save(self.fresh, ABSENT, {1: lambda data: None}),
        )
        self.run(
            "an old file is not opened", self.resumed, self.first, "openat", NAMES[1],
            "error=EMFILE:when=3", FAULT,
            save(self.resumed, self.first, {1: lambda data: self.first[1]}),
        )
        for path in NAMES:
            for error in ("EACCES", "EIO", "EMFILE", "ELOOP", "ENOTDIR"):
                self.run(
                    f"{path} cannot be opened: {error}", self.resumed, self.first, "openat", path,
                    f"error={error}:when=1", (6, "checkpoint load fault\n"), self.first,
                )
                self.run(
                    f"{path} cannot be opened by a new run: {error}", self.fresh, self.first,
                    "openat", path, f"error={error}:when=1", (6, "checkpoint load fault\n"),
                    self.first,
                )
            self.run(
                f"{path} cannot be opened: out of memory", self.resumed, self.first, "openat",
                path, "error=ENOMEM:when=1", (3, "memory\n"), self.first,
            )
            self.run(
                f"the opening of {path} is interrupted", self.resumed, self.first, "openat", path,
                "error=EINTR:when=1", DONE, save(self.resumed, self.first, {}),
            )
            for when in (1, 2):
                self.run(
                    f"read {when} of {path} fails", self.resumed, self.first, "read", path,
                    f"error=EIO:when={when}", (6, "checkpoint load fault\n"), self.first,
                )
                self.run(
                    f"read {when} of {path} is interrupted", self.resumed, self.first, "read", path,
                    f"error=EINTR:when={when}", DONE, save(self.resumed, self.first, {}),
                )
        graph, out = self.room.folder / "graph", self.room.folder / "out"
        for when in (1, 2):
            self.run(
                f"read {when} of the graph fails", self.resumed, self.first, "read", graph,
                f"error=EIO:when={when}", (4, "read fault\n"), self.first,
            )
            self.run(
                f"read {when} of the graph is interrupted", self.resumed, self.first, "read", graph,
                f"error=EINTR:when={when}", DONE, save(self.resumed, self.first, {}),
            )
        for error in ("EIO", "ENOSPC", "EPIPE", "EFBIG"):
            self.run(
                f"the report is not written: {error}", self.resumed, self.first, "write", out,
                f"error={error}:when=1", (5, "write fault\n"), save(self.resumed, self.first, {}),
            )
        self.run(
            "the writing of the report is interrupted", self.resumed, self.first, "write", out,
            "error=EINTR:when=1", DONE, save(self.resumed, self.first, {}),
        )


def inject_faults(room: Room) -> str:
    if not power_cuts.can_trace():
        return Skipped("no faults injected: strace is not installed, or may not trace here")
    faults = Injections(room)
    faults.fail_saves()
    faults.fail_folder()
    faults.hold_folder()
    faults.fail_files()
    return "faults injected by strace"


# ---- a few bytes a call


def shorten_calls(room: Room) -> str:
    if shutil.which("gcc") is None:
        return Skipped("no short reads and writes: gcc is not installed")
    source, library = room.folder / "short.c", room.folder / "short.so"
    source.write_text(SHORT)
    subprocess.run(["gcc", "-shared", "-fPIC", "-O1", "-o", library, source, "-ldl"], check=True)
    given, slots = {"LD_PRELOAD": str(library)}, ABSENT
    for more in (NO_WORDS, ["--resume", "yes"], ["--resume", "yes"]):
        words = [*room.chain, "--save", "2", "--budget", "5", *more]
        room.compare("seven bytes a call", words, CYCLE, slots, given=given)
        slots = model.audit(words, CYCLE, slots).slots
    room.compare("seven bytes a call", CHECK, CYCLE, given=given)
    room.compare("seven bytes a call", CHECK, CYCLE[:300], given=given)
    room.compare("seven bytes a call", ["audit"], CYCLE, given=given)
    return "seven bytes a call, every other call interrupted"


def limit_files(room: Room) -> str:
    """Limits the length of files: a save is cut off in its middle, and the other slot holds what
    was saved before.
    """

    def limit_size() -> None:
        signal.signal(signal.SIGXFSZ, signal.SIG_IGN)
        resource.setrlimit(resource.RLIMIT_FSIZE, (600, 600))

    words = [*room.chain, "--save", "2", "--budget", "11"]
    room.place([None, None])
    end = room.run(words, CYCLE, prepared=limit_size)
    # saves of 2, 4 and 6 outcomes fit; those of 8, 10 and 11 do not
    files = save(words, [None, None], {number: keep_front(600) for number in (4, 5, 6)})
    room.judge("files of at most 600 bytes", end, 9, "", "checkpoint save fault\n", files)
    return "saves cut off by a limit on files"


# ---- limits


def node(at: object, district: object, pop: int = 1, a: int = 1, b: int = 1) -> Node:
    return {"pop": pop, "a": a, "b": b, "d": district, "id": at}


def text(nodes: Sequence[Node], adjacency: Sequence[Sequence[Node]]) -> bytes:
    return json.dumps({"nodes": nodes, "adjacency": adjacency}, separators=(",", ":")).encode()


def path_of(count: int, district: Callable[[int], int]) -> bytes:
    return text(
        [node(at, district(at)) for at in range(count)],
        [[{"id": at + 1}] if at + 1 < count else [] for at in range(count)],
    )


def many_edges(count: int) -> bytes:
    units = 895
    nodes = [node(at, at * 2 // units) for at in range(units)]
    adjacency: list[list[Node]] = [[] for _ in range(units)]
    pairs = ((u, v) for step in range(1, units) for u in range(units - step) for v in (u + step,))
    for (u, v), _ in zip(pairs, range(count)):
        adjacency[u].append({"id": v})
    return text(nodes, adjacency)


def limits(room: Room) -> str:
    room.compare("the most bytes", CHECK, CYCLE + b" " * (model.MOST_INPUT - len(CYCLE)))
    room.compare("a byte too many", CHECK, CYCLE + b" " * (model.MOST_INPUT + 1 - len(CYCLE)))
    for deep in (126, 127):
        for one, other in ((b"[", b"]"), (b'{"a":', b"}")):
            nested = one * deep + b"1" + other * deep
            room.compare(
                f"{deep + 1} levels", CHECK, CYCLE.replace(b'"graph": []', b'"graph": ' + nested)
            )
    limits_of_counts(room)
    limits_of_values(room)
    return "files at the limits"


def limits_of_counts(room: Room) -> None:
    """Checks as many units, edges, districts, regions and majorities as may be, and one more."""
    for count in (100000, 100001):
        room.compare(
            f"{count} units", CHECK, path_of(count, lambda at: at // 50000 if at < 100000 else 1)
        )
    for count in (400000, 400001):
        room.compare(f"{count} edges", CHECK, many_edges(count))
    for count in (1, 2, 200, 201):
        room.compare(f"{count} districts", CHECK, path_of(count, lambda at: at))
    for count in (5000, 5001):
        room.compare(
            f"{count} regions", [*CHECK, "--region", "id"],
            path_of(count, lambda at: at * 2 // count),
        )
    for most in (1, 199, 200):
        room.compare(
            "a region in 200 districts", [*CHECK, "--region", "pop", "--max-split", str(most)],
            path_of(200, lambda at: at),
        )
    for name, numbers in (("--max-splits", (198, 199)), ("--max-split-regions", (0, 1))):
        for most in numbers:
            room.compare(
                "a region in 200 districts", [*CHECK, "--region", "pop", name, str(most)],
                path_of(200, lambda at: at),
            )
    for count in (199, 200, 201):
        room.compare(
            f"{count} majorities", [*CHECK, "--group", "a", "--group-districts", str(count)],
            path_of(200, lambda at: at),
        )


def limits_of_values(room: Room) -> None:
    """Checks the greatest and least numbers and labels, and those past them."""
    for low, high in ((0, 1), (10**9, 10**9 + 1), (10**9 - 1, 10**9), (-1, 0)):
        for number in (low, high):
            nodes = [node(0, 0, number, number, 0), node(1, 1, number, 0, number)]
            for score in ("gap:low", "mean-median:high", "seats:low"):
                room.compare(
                    f"numbers of {number}", [*CHAIN[:-1], score], text(nodes, [[{"id": 1}], []])
                )
            room.compare(f"numbers of {number}", CHECK, text(nodes, [[{"id": 1}], []]))
            room.compare(
                f"a group of {number}",
                [*CHECK, "--group", "a", "--group-of", "b", "--group-districts", "1"],
                text(nodes, [[{"id": 1}], []]),
            )
    for label in (
        2**64 - 1, 2**64, -(2**63), -(2**63) - 1, -0.0, "", "\u0000", "\U0001f5f3",
    ):
        room.compare(
            f"the label and id {label!r}", CHECK,
            text([node(label, 0), node(7, label)], [[{"id": 7}], []]),
        )


def checkpoints(room: Room) -> str:
    """Checks checkpoints with the most outcomes and with one more, of both versions, for runs with
    the tally of seats and without.
    """
    words = replace_values(CHAIN, {"--walks": "100000", "--steps": "1", "--resume": "yes"})
    own = model.job_of(model.Setting(words), CYCLE).digest()
    bins = (0, 0, 0, 1, 1, 0, 0, 0, 0)
    most = {one: model.Outcome(one % 2, [1 + one % 2], bins) for one in range(100000)}
    for version in (1, 2):
        for more in (
            NO_WORDS, ["--workers", "4"], ["--shift", "yes", "--save", "1", "--budget", "0"]
        ):
            room.compare(
                f"100000 outcomes of version {version}", [*words, *more], CYCLE,
                (model.checkpoint(own, 1, most, version), None),
            )
        other = {one: outcome for one, outcome in most.items() if one > 0}
        room.compare(
            f"another job's 99999 outcomes of version {version}", words, CYCLE,
            (None, model.checkpoint(bytes(32), 1, other, version)),
        )
        room.compare(
            f"100001 outcomes of version {version}", words, CYCLE,
            (model.checkpoint(own, 1, {**most, 100000: most[0]}, version), None),
        )
    chain = replace_values(CHAIN, {"--steps": "7"})
    plain, binned = (
        model.audit([*chain, "--save", "100", "--shift", shift], CYCLE, [None, None]).slots[0]
        for shift in ("no", "yes")
    )
    slot = model.decode(plain)
    first = dict(list(model.outcomes_in(slot).items())[:5])
    old = model.checkpoint(slot.job, 0, first, 1)
    for slots in ((old, None), (old, binned), (binned, old), (plain, None), (binned, plain)):
        for shift in ("no", "yes"):
            for serial in ("no", "yes"):
                said = [*chain, "--resume", "yes", "--shift", shift, "--serial", serial]
                room.compare("checkpoints of both versions", said, CYCLE, slots)
                room.compare(
                    "checkpoints of both versions", [*said, "--save", "5", "--budget", "7"], CYCLE,
                    slots,
                )
    return "checkpoints at the limits, and of both versions"


def replace_values(words: Sequence[str], values: Mapping[str, str]) -> list[str]:
    """Returns the words, some names of which have other values or come anew."""
    given = {**dict(zip(words[1::2], words[2::2])), **values}
    return [words[0], *(word for pair in given.items() for word in pair)]


def ranges(room: Room) -> str:
    """Checks each number word at both ends of its range and past them, and the words of yes and no.

    The graph of a run is no JSON, so that good words end with status 2.
    """
    for command in ("check", "run", "make"):
        words = {"check": CHECK, "run": CHAIN, "make": ["make", "--size", "1", *CHAIN[11:]]}[
            command
        ]
        for name, (low, high) in model.RANGES.items():
            if name not in model.COMMANDS[command] or command == "make" and name != "--size":
                continue
            for number in (low - 1, low, high, high + 1, 2**32 + low, 2**64 + low):
                said = replace_values(words, {name: str(number)})
                if command == "make" and number in range(low, high + 1):
                    continue
                room.compare(f"{name} {number}", said, b"")
    ranges_of_rules(room)
    ranges_of_words(room)
    return "values of words at the ends of their ranges"


def ranges_of_rules(room: Room) -> None:
    """Checks the limits of rules with and without the column that they need."""
    for number in (0, 1, 2, 199, 200, 201, 2**32 + 1):
        for region in ("d", "b", ""):
            room.compare(
                f"--max-split {number}",
                replace_values(CHECK, {"--max-split": str(number), "--region": region}), CYCLE,
            )
    for name, column in (
        ("--max-splits", "--region"), ("--max-split-regions", "--region"),
        ("--group-districts", "--group"),
    ):
        low, high = model.RANGES[name]
        for number in (low, low + 1, high - 1, high, high + 1, 2**32 + 1):
            for value in ("d", "a", ""):
                room.compare(
                    f"{name} {number}", replace_values(CHECK, {name: str(number), column: value}),
                    CYCLE,
                )
    for group in ("a", ""):
        for whole in ("b", "d", ""):
            room.compare(
                f"--group {group} --group-of {whole}",
                replace_values(CHECK, {"--group": group, "--group-of": whole}), CYCLE,
            )


def ranges_of_words(room: Room) -> None:
    """Checks words of yes and no, and the numbers of steps that a serial test takes."""
    for name in ("--resume", "--shift", "--serial", "--source"):
        for value in ("yes", "no", "Yes", "maybe", "", "yes ", "1"):
            words = replace_values(CHAIN, {"--steps": "7", name: value})
            room.compare(f"{name} {value}", words, b"")
            room.compare(f"{name} {value}", replace_values(CHECK, {name: value}), CYCLE)
    for steps in (
        "0", "08", "1", "2", "3", "7", "8", "9", "1023", "1024", "536870910", "536870911",
        "536870912", "1000000000", "1000000001",
    ):
        room.compare(
            f"--serial yes with --steps {steps}",
            replace_values(CHAIN, {"--steps": steps, "--serial": "yes"}), b"",
        )
        room.compare(
            f"--serial maybe with --steps {steps}",
            replace_values(CHAIN, {"--steps": steps, "--serial": "maybe", "--shift": "maybe"}),
            b"",
        )


# ---- a slot that changes while a run walks


def is_walking(process: subprocess.Popen[bytes]) -> bool:
    """Returns whether a run has its threads: slots were looked at, and nothing is saved yet."""
    return len(os.listdir(f"/proc/{process.pid}/task")) > 1


def stop(process: subprocess.Popen[bytes]) -> bool:
    """Stops a run as soon as it walks; whether it did not end before."""
    while process.poll() is None:
        try:
            if is_walking(process):
                process.send_signal(signal.SIGSTOP)
                break
        except FileNotFoundError:
            break
        time.sleep(0.001)
    while process.poll() is None and not re.search(
        r"^State:\s+T", pathlib.Path(f"/proc/{process.pid}/status").read_text(), re.MULTILINE
    ):
        time.sleep(0.001)
    return process.poll() is None


def walk_over(
    room: Room, words: Sequence[str], change: Callable[[], None]
) -> tuple[int | str, bytes, bytes] | None:
    """Returns how a run ends under whose slots something changes while it walks; None where it had
    saved before.
    """
    room.place([None, None])
    process = subprocess.Popen(
        [room.program, *words], stdin=subprocess.PIPE, stdout=subprocess.PIPE,
        stderr=subprocess.PIPE, cwd=room.slots,
    )
    try:
        assert process.stdin is not None
        process.stdin.write(CYCLE)
        process.stdin.close()
        process.stdin = None
        if not stop(process) or any(room.slots.iterdir()):
            return None
        change()
        process.send_signal(signal.SIGCONT)
        out, note = process.communicate(timeout=90)
        return process.returncode, out, note
    except subprocess.TimeoutExpired:
        return "none within 90 seconds", b"", b""
    finally:
        process.kill()
        process.wait()


def pipes(room: Room) -> str:
    """Checks that no save opens a pipe, which would wait for ever for a reader.

    Each save fails, and the run goes on to its report.
    """
    for place in (0, 1):
        steps = 1000000
        end: tuple[int | str, bytes, bytes] | None = None
        while end is None and steps <= 256000000:
            words = replace_values(
                room.chain, {"--walks": "4", "--steps": str(steps), "--workers": "2"}
            )
            end = walk_over(
                room, [*words, "--save", "1"], lambda: os.mkfifo(room.slots / NAMES[place])
            )
            steps *= 4
        name = f"slot {place} becomes a pipe while the run walks"
        room.count += 1
        report = subprocess.run(
            [room.program, *words], input=CYCLE, capture_output=True, cwd=room.folder, check=False
        ).stdout
        if end != (9, report, b"checkpoint save fault\n"):
            room.wrong.append(
                f"{name}: {str(end)[:300]} and not status 9, the whole report and the note of a"
                " failed save"
            )
        elif not (room.slots / NAMES[place]).is_fifo() or (room.slots / NAMES[1 - place]).exists():
            room.wrong.append(
                f"{name}: the folder holds {sorted(one.name for one in room.slots.iterdir())}, and"
                " not the pipe alone"
            )
    return "slots that become pipes while a run walks"


# ---- outcomes that workers buffer

# This number of workers has room for 25 outcomes each between two saves. A walk takes so long that
# they hardly ever wait for one another, and another worker has one walk under way at most. Over
# loaded processors a few outcomes more may be buffered while a save is made. Workers that buffer an
# outcome at each save, and never hand it in, have many at the last ten saves.
BUFFERING = {"--workers": "4", "--walks": "4040", "--steps": "60000", "--save": "101"}
SAVES, LAST, MOST_MISSING = 40, 10, 9


def count_missing(room: Room, words: Sequence[str]) -> list[int]:
    """Returns for each save of a run the number of ids below its greatest without an outcome."""
    counts: list[int] = []
    written: dict[int, bytes] = {}
    folder = room.folder / "traced"
    shutil.rmtree(folder, ignore_errors=True)
    for step in power_cuts.trace(room.program, folder, words, [None, None]):
        if step.what in ("make", "open"):
            written[step.file] = b""
        elif step.what == "write":
            written[step.file] += step.data
        elif step.what == "sync" and written.get(step.file):
            ids = [one[0] for one in model.decode(written.pop(step.file)).records]
            counts.append(ids[-1] + 1 - len(ids))
    return counts


def check_buffered(room: Room) -> str:
    """Checks what a kill after a save loses: workers buffer outcomes only while another one posts,
    and hand them in as soon as it is done.
    """
    if not power_cuts.can_trace():
        return Skipped(
            "no outcomes counted that workers hold: strace is not installed, or may not trace here"
        )
    words = replace_values(room.chain, BUFFERING)
    counts = count_missing(room, words)
    room.count += 1
    middles = [
        sorted(some)[len(some) // 2] if some else 0 for some in (counts[:LAST], counts[-LAST:])
    ]
    if len(counts) != SAVES or max(middles) > MOST_MISSING:
        room.wrong.append(
            f"outcomes that workers hold: of the ids before its last one each save lacks {counts},"
            f" whose medians over the first and the last {LAST} are {middles}; {SAVES} saves and"
            f" medians of at most {MOST_MISSING} are expected"
        )
    return "outcomes that workers hold at each save"


# ---- another user


def other_user(room: Room) -> str:
    if os.getuid() != 0:
        return Skipped("no folder of another user, and threads not refused: not run as root")
    room.folder.chmod(0o755)
    program, room.program = room.program, str(room.folder / "program")
    shutil.copy(program, room.program)

    def nobody(limit: int | None = None) -> Callable[[], None]:
        def prepare() -> None:
            if limit is not None:
                resource.setrlimit(resource.RLIMIT_NPROC, (limit, limit))
            os.setgroups([])
            os.setgid(NOBODY)
            os.setuid(NOBODY)

        return prepare

    report = model.audit(room.chain, CYCLE, [None, None]).out
    first = model.audit([*room.chain, "--save", "2", "--budget", "5"], CYCLE, [None, None]).slots
    for slots, more in ((ABSENT, NO_WORDS), (first, ["--resume", "yes"])):
        room.place(slots)
        for name in NAMES:
            if (room.slots / name).exists():
                (room.slots / name).chmod(0o444)
        end = room.run([*room.chain, "--save", "2", *more], CYCLE, prepared=nobody())
        room.judge(
            "a folder that cannot be written", end, 9, report, "checkpoint save fault\n",
            list(slots),
        )
    room.place(first)
    (room.slots / NAMES[1]).chmod(stat.S_IWUSR)
    room.judge(
        "a file that cannot be read",
        room.run([*room.chain, "--save", "2", "--resume", "yes"], CYCLE, prepared=nobody()),
        6,
        "",
        "checkpoint load fault\n",
        first,
    )
    for more in (NO_WORDS, ["--save", "3"], ["--save", "1", "--budget", "7"]):
        for workers in ("2", "32"):
            words = [*room.chain, *more]
            room.place([None, None])
            room.slots.chmod(0o777)
            wanted = model.audit(words, CYCLE, [None, None])
            end = room.run([*words, "--workers", workers], CYCLE, prepared=nobody(1))
            room.judge(
                f"{workers} workers where threads are refused", end, wanted.status, wanted.out,
                wanted.note, wanted.slots,
            )
    room.program = program
    return "a folder and a file of another user, and threads that are refused"


def chain_of(number: int) -> list[str]:
    """Returns the words of a job: those of CHAIN with another key and other questions."""
    return replace_values(
        CHAIN, {"--key": f"{number:x}".rjust(64, "0"), "--ask": ASKS[number % len(ASKS)]}
    )


def main(program: str, jobs: int = 1) -> int:
    skipped = 0
    parts = [
        (part, number)
        for number in range(jobs)
        for part in (inject_faults, shorten_calls, limit_files, other_user)
    ]
    with tempfile.TemporaryDirectory() as name:
        room = Room(os.path.abspath(program), pathlib.Path(name))
        for part, number in [
            (limits, 0), (checkpoints, 0), (ranges, 0), (pipes, 0), (check_buffered, 0), *parts,
        ]:
            room.chain = chain_of(number)
            count, wrong = room.count, len(room.wrong)
            said = part(room)
            skipped += isinstance(said, Skipped)
            print(
                (
                    said
                    if isinstance(said, Skipped)
                    else (
                        f"{said}: {room.count - count} runs, {len(room.wrong) - wrong} not as they"
                        " have to be"
                    )
                ),
                flush=True,
            )
    for one in room.wrong:
        print("WRONG:", one)
    print(
        f"system_faults.py: {room.count - len(room.wrong)} passed, {len(room.wrong)} failed,"
        f" {skipped} skipped"
    )
    return 1 if room.wrong else 0


def arguments() -> argparse.Namespace:
    parser = argparse.ArgumentParser(
        prog="python3 -m tests.system.system_faults", description=__doc__,
        formatter_class=argparse.RawDescriptionHelpFormatter,
    )
    parser.add_argument("program", help="the built auditor")
    parser.add_argument(
        "jobs", nargs="?", type=int, default=1,
        help="how many jobs the faults of calls are tried over",
    )
    return parser.parse_args()


if __name__ == "__main__":
    sys.exit(main(**vars(arguments())))
