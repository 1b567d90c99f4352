"""Folders for audit_slots and audit_gather: checkpoints to put there, calls, and cases with names.

`Room.check` makes a call that has to end as folder_model.py says: status, both texts, and the files
of every folder. A case is a function of a room; `run_cases` runs those of a script.
"""
from __future__ import annotations

import contextlib
import fcntl
import os
import pathlib
import resource
import shutil
import signal
import subprocess
import sys
import tempfile
from typing import BinaryIO, Callable, Iterator, Mapping, NamedTuple, Optional, Sequence

from tests.oracle import model
from tests.places import DATA
from tests.system import folder_model, power_cuts
from tests.system.folder_model import Folder, Outcomes

CYCLE = (DATA / "cycle.json").read_bytes()
NAMES = ("audit-0.ckpt", "audit-1.ckpt")
RUN = [*"run --pop pop --first a --second b --district d --slack 5000 --walks 12 --steps 8".split(),
       "--ask", "gap:low", "--key", "0" * 64]
LOOK = ["--look", "yes"]
WITH_LOOK: list[list[str]] = [[], LOOK]
WITH_RUN: list[list[str]] = [[], RUN]
WITH_FOLDER: list[list[str]] = [[], ["../p"]]
KINDS = ("folder", "loop", "pipe", "link to nothing", "device")
LOAD_FAULT, SAVE_FAULT = "checkpoint load fault\n", "checkpoint save fault\n"


def replace_value(name: str, value: str) -> list[str]:
    """Returns the words of the run with another value of a name that they have."""
    at = RUN.index(name)
    return [*RUN[:at + 1], value, *RUN[at + 2:]]


# ---- checkpoints

JOB = model.job_of(model.Setting(RUN), CYCLE)
DIGEST = JOB.digest()
OTHER = model.job_of(model.Setting(replace_value("--slack", "9000")), CYCLE).digest()
PLAIN: Outcomes = dict(enumerate(model.select_outcomes(JOB, DIGEST)))
BINNED: Outcomes = dict(enumerate(model.outcomes(JOB, DIGEST)))


def alter(outcome: model.Outcome) -> model.Outcome:
    """Returns another outcome that the job can have: the number of moves differs."""
    return outcome._replace(moved=outcome.moved ^ 1)


def pick(ids: Sequence[int], *others: int, found: Optional[Outcomes] = None) -> Outcomes:
    """Returns the outcomes with these ids; those of `others` are changed."""
    found = PLAIN if found is None else found
    return {one: alter(found[one]) if one in others else found[one] for one in ids}


def make_slot(outcomes: Outcomes, generation: int = 0, digest: bytes = DIGEST) -> bytes:
    return model.checkpoint(digest, generation, outcomes)


def folder_of(outcomes: Outcomes, is_locked: bool = False) -> Folder:
    """Returns a folder whose slot 0 has these outcomes, and whose slot 1 is absent."""
    return Folder((make_slot(outcomes), None), is_locked=is_locked)


def make_damaged() -> dict[str, bytes]:
    """Returns slots that hold no checkpoint of this job, each with one fault."""
    good = make_slot(pick(range(4)), 1)
    front = good[:-32]
    return {
        "empty": b"",
        "too short": good[:83],
        "too long": bytes(model.MOST_SLOT + 1),
        "bad magic": model.seal(b"DISTCKPS" + front[8:]),
        "bad version": model.seal(front[:8] + bytes([0, 0, 0, 3]) + front[12:]),
        "bad generation": make_slot(pick(range(4)), 3),
        "bad count": good + b"x",
        "bad digest": good[:-1] + bytes([good[-1] ^ 1]),
        "unfit": make_slot({0: PLAIN[0]._replace(moved=9)}, 1),
    }


# ---- the room

class End(NamedTuple):
    status: int
    out: str
    note: str
    files: Mapping[str, Sequence[Optional[bytes]]]


def forbid_writes() -> None:
    """Lets the process write no byte to any file."""
    signal.signal(signal.SIGXFSZ, signal.SIG_IGN)
    resource.setrlimit(resource.RLIMIT_FSIZE, (0, 0))


class Room:
    """Folders in which calls are made, and what was wrong with those of the current case."""

    def __init__(self, top: pathlib.Path, folders: str) -> None:
        self.top, self.here = top, top / "here"
        self.tools = {}
        # By each name: a program of a release lies under that of one of both tools.
        for tool in ("audit_slots", "audit_gather", "audit_folders"):
            self.tools[tool] = str(top / tool)
            os.symlink(folders, top / tool)
        self.folders_program = self.tools["audit_folders"]
        self.wrong: list[str] = []

    def path(self, name: str) -> pathlib.Path:
        return self.here / name

    def place(self, folders: Mapping[str, Folder], kind: str) -> None:
        """Makes the folders; what stands in place of an unreadable slot is of this kind."""
        for old in self.top.iterdir():
            if old.is_dir() and not old.is_symlink():
                shutil.rmtree(old)
        self.here.mkdir()
        for name, folder in folders.items():
            self.path(name).mkdir(exist_ok=True)
            for at, data in enumerate(folder.slots):
                if at in folder.unreadable:
                    self.place_unreadable(self.path(name) / NAMES[at], kind)
                elif data is not None:
                    (self.path(name) / NAMES[at]).write_bytes(data)

    @staticmethod
    def place_unreadable(path: pathlib.Path, kind: str) -> None:
        if kind == "folder":
            path.mkdir()
        elif kind == "pipe":
            os.mkfifo(path)
        else:
            targets = {"loop": path.name, "link to nothing": "elsewhere", "device": "/dev/null"}
            path.symlink_to(targets[kind])

    def files(self, name: str) -> list[Optional[bytes]]:
        paths = [self.path(name) / one for one in NAMES]
        return [path.read_bytes() if path.is_file() and not path.is_symlink() else None
                for path in paths]

    @contextlib.contextmanager
    def locks_of(self, folders: Mapping[str, Folder]) -> Iterator[None]:
        """Locks the folders that are to be locked, as runs do."""
        locks = []
        for name, folder in folders.items():
            if folder.is_locked:
                locks.append(os.open(self.path(name), os.O_RDONLY))
                fcntl.flock(locks[-1], fcntl.LOCK_EX | fcntl.LOCK_NB)
        try:
            yield
        finally:
            for lock in locks:
                os.close(lock)

    def call(
        self,
        command: Sequence[str],
        graph: bytes,
        out: Optional[str] = None,
        prepared: Optional[Callable[[], None]] = None,
    ) -> subprocess.CompletedProcess[bytes]:
        """Makes a call in the working folder; `out` is a file for its standard output."""
        if out is None:
            return self.call_into(subprocess.PIPE, command, graph, prepared)
        with open(out, "wb") as stdout:
            return self.call_into(stdout, command, graph, prepared)

    def call_into(
        self,
        stdout: int | BinaryIO,
        command: Sequence[str],
        graph: bytes,
        prepared: Optional[Callable[[], None]],
    ) -> subprocess.CompletedProcess[bytes]:
        return subprocess.run(
            command, input=graph, stdout=stdout, stderr=subprocess.PIPE, cwd=self.here,
            preexec_fn=prepared, timeout=60, check=False,
        )

    def find_end(
        self,
        command: Sequence[str],
        folders: Mapping[str, Folder],
        graph: bytes = CYCLE,
        kind: str = "folder",
        out: Optional[str] = None,
        prepared: Optional[Callable[[], None]] = None,
    ) -> End:
        self.place(folders, kind)
        with self.locks_of(folders):
            try:
                done = self.call(command, graph, out, prepared)
            except subprocess.TimeoutExpired:
                return End(-1, "", "no end within a minute", {})
        out, note = (done.stdout or b"").decode(), done.stderr.decode()
        return End(done.returncode, out, note, {name: self.files(name) for name in folders})

    def compare(
        self, what: str, end: End, wanted: model.End, folders: Mapping[str, Folder]
    ) -> None:
        """Notes the first part of an end that is not as wanted."""
        files = {name: [None if at in folder.unreadable else data
                        for at, data in enumerate(folder.slots)]
                 for name, folder in folders.items()}
        for name in folders:
            if self.path(name).resolve() == self.here.resolve():
                files[name] = list(wanted.slots)
        for part, came, expected in (("status", end.status, wanted.status),
                                     ("output", end.out, wanted.out),
                                     ("note", end.note, wanted.note),
                                     ("files", dict(end.files), files)):
            if came != expected:
                self.wrong.append(f"{what}: {part}: expected {shorten(expected)},"
                                  f" came {shorten(came)}"
                                  + (f" ({end.note.strip()})" if part == "status" else ""))
                return

    def check(
        self,
        tool: str,
        words: list[str],
        folders: Mapping[str, Folder],
        said: Optional[str] = None,
        graph: bytes = CYCLE,
        kind: str = "folder",
    ) -> None:
        """Makes a call that has to end as the model says; `said` is its text or its note."""
        folders = {".": Folder(), **folders}
        models = {"audit_slots": folder_model.slots, "audit_gather": folder_model.gather}
        wanted = models[tool](words, graph, folders)
        what = name_call(tool, words)
        if said is not None and said not in (wanted.out, wanted.note):
            self.wrong.append(f"{what}: the model says {wanted.out + wanted.note!r}, not {said!r}")
        end = self.find_end([self.tools[tool], *words], folders, graph, kind)
        self.compare(what, end, wanted, folders)

    def slots(
        self,
        words: list[str],
        folders: Mapping[str, Folder],
        said: Optional[str] = None,
        graph: bytes = CYCLE,
        kind: str = "folder",
    ) -> None:
        self.check("audit_slots", words, folders, said, graph, kind)

    def gather(
        self,
        words: list[str],
        folders: Mapping[str, Folder],
        said: Optional[str] = None,
        graph: bytes = CYCLE,
        kind: str = "folder",
    ) -> None:
        self.check("audit_gather", words, folders, said, graph, kind)

    def expect(self, what: str, came: object, expected: object) -> None:
        if came != expected:
            self.wrong.append(f"{what}: expected {shorten(expected)}, came {shorten(came)}")


def name_call(tool: str, words: Sequence[str]) -> str:
    """Returns a call as a short text: the words of the usual run are its first one."""
    short = [*words[:-len(RUN)], "run .."] if list(words[-len(RUN):]) == RUN else words
    return " ".join([tool, *short])


def shorten(value: object) -> str:
    """Returns a value as a text that is short enough to read; files by their lengths."""
    if isinstance(value, dict):
        return str({name: [None if data is None else f"{len(data)} bytes, sum {sum(data)}"
                           for data in slots] for name, slots in value.items()})
    return repr(value)[:600]


Case = Callable[[Room], None]
CASES: dict[str, Case] = {}
TRACED: set[str] = set()
MOUNTED: set[str] = set()


def case(function: Case) -> Case:
    """Adds a case under the name of its function."""
    CASES[function.__name__] = function
    return function


def traced_case(function: Case) -> Case:
    """Adds a case that needs strace."""
    TRACED.add(function.__name__)
    return case(function)


def mounted_case(function: Case) -> Case:
    """Adds a case that mounts file systems in a namespace of its own."""
    MOUNTED.add(function.__name__)
    return case(function)


def can_mount() -> bool:
    """Returns True if this process may mount a file system where no other process sees it."""
    if shutil.which("unshare") is None:
        return False
    with tempfile.TemporaryDirectory() as place:
        words = ["unshare", "-m", "mount", "-t", "tmpfs", "none", place]
        return subprocess.run(words, capture_output=True, check=False).returncode == 0


def run_case(room: Room, name: str) -> bool:
    """Runs a case and prints what was wrong; whether nothing was."""
    room.wrong = []
    CASES[name](room)
    for why in room.wrong[:3]:
        print(f"FAILED {name}: {why}", flush=True)
    return not room.wrong


def run_cases(script: str, folders: str, names: Sequence[str]) -> int:
    """Runs the cases with these names, or all, and prints their count; the status of the script."""
    unknown = [name for name in names if name not in CASES]
    if unknown:
        print(f"no such case: {unknown[0]}; there are: {', '.join(CASES)}", file=sys.stderr)
        return 2
    chosen, skipped = list(names or CASES), []
    if not power_cuts.can_trace():
        skipped = [name for name in chosen if name in TRACED]
        for name in skipped:
            print(f"skipped {name}: strace is not installed, or may not trace here")
    if MOUNTED.intersection(chosen) and not can_mount():
        for name in MOUNTED.intersection(chosen):
            skipped.append(name)
            print(f"skipped {name}: file systems cannot be mounted here")
    with tempfile.TemporaryDirectory() as top:
        room = Room(pathlib.Path(top), os.path.abspath(folders))
        ended = [run_case(room, name) for name in chosen if name not in skipped]
    failed = ended.count(False)
    print(f"{script}: {len(ended) - failed} passed, {failed} failed, {len(skipped)} skipped")
    return 1 if failed else 0
