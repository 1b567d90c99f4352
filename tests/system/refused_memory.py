"""Refuses the program one allocation after the other, and sees that nothing is lost.

Usage: python3 -m tests.system.refused_memory PROGRAM [DRAWN|each [SEED]]
       python3 -m tests.system.refused_memory PROGRAM jobs COUNT [SEED]
       python3 -m tests.system.refused_memory FOLDERS folders
Builds a small library with gcc that stands before the C library's allocations and refuses the one
with a given number, or that one and all after it, and runs the program under it for each number
from 1 until a run ends in which none was refused: over an outlier trajectory, the parallel test, a
run with a long way to its hub that saves, the serial test with the tally of seats, a run of three
workers, a run with regions, one with each rule and the origin, one that stops early, one of several
plans, three traces, of which one walks a long way, a made grid, each run of a chain that is halted
and resumed, and one that goes on from the first version of the format with the tally. The status
must be 3 or the run's own; after 3 the output must be empty and both files as before; else output,
note and files must be those of the run with all its memory. Status 3 must come early: where a run
takes more than a second of a processor, in less than a tenth of that, since nothing is walked
before all memory is taken. A machine that others use can delay a run, so a late run is repeated,
and is wrong only if it is late each time. With a number only so many allocations of each run are
refused, alone and with all after them by turns, drawn each from an equal part of those that the run
makes. With `each` every one is refused once: a call that does not return where there is no memory
for it is found so, which no contract says of a function that may wait for another thread. With
`jobs` every allocation is refused, alone and with all after it, in so many jobs that are drawn as
fuzz.py draws them before it breaks some: words of every kind, a graph, and slots as earlier runs
left them. Where several workers save, which outcomes a save has depends on chance, and the files
are not compared. With `folders` the program is audit_folders, and every allocation is refused,
alone and with all after it, in calls of audit_slots and of audit_gather: a look, gatherings, and
one that is refused in several lines. Out of memory while a folder is read has to be reported, never
as a slot that cannot be read or as a folder that differs. After status 3 no folder has changed.
Prints how many runs there were, and before that each that is not so, with what differs. After three
runs that do not end, no more are made. The last line counts the runs; ends with 1 where one is not
so. Where gcc is missing, that counts as skipped.
"""
# RUN: {auditor} each
# RUN refused_memory_of_folders: {folders} folders
# NEEDS: gcc dynamic
from __future__ import annotations

import argparse
import json
import os
import pathlib
import random
import resource
import shutil
import subprocess
import sys
import tempfile
import typing
from collections.abc import Iterable, Mapping, Sequence

from tests.differential import fuzz
from tests.oracle import model
from tests.places import DATA, TEST_DATA
from tests.system import folder_model

LIBRARY = r"""
#define _GNU_SOURCE
#include <dlfcn.h>
#include <errno.h>
#include <fcntl.h>
#include <stdlib.h>
#include <string.h>
#include <stdatomic.h>
#include <sys/mman.h>
#include <unistd.h>

static atomic_long own;
static atomic_long *count = &own;
static long number = -1;
static int all;

static long read_number(void) {
    const char *said = getenv("REFUSE"), *file = getenv("ALLOCATIONS");
    int fd = file ? open(file, O_RDWR | O_CREAT | O_TRUNC, 0600) : -1;
    if (fd >= 0 && ftruncate(fd, sizeof own) == 0) {
        void *shared = mmap(NULL, sizeof own, PROT_READ | PROT_WRITE, MAP_SHARED, fd, 0);
        if (shared != MAP_FAILED) count = shared;
    }
    if (fd >= 0) close(fd);
    all = getenv("REFUSE_ALL") != NULL;
    return said ? atol(said) : 0;
}

static int refused(void) {
    if (number < 0) number = read_number();
    long now = atomic_fetch_add(count, 1) + 1;
    if (number == 0 || now < number || (now > number && !all)) return 0;
    const char *mark = getenv("REFUSED_MARK");
    int fd = mark ? open(mark, O_CREAT | O_WRONLY, 0600) : -1;
    if (fd >= 0) close(fd);
    errno = ENOMEM;
    return 1;
}

static void *next(const char *name) { return dlsym(RTLD_NEXT, name); }

void *malloc(size_t size) {
    static void *(*real)(size_t);
    if (!real) real = next("malloc");
    return refused() ? NULL : real(size);
}

static char early[4096];
static size_t early_used;

void *calloc(size_t n, size_t size) {
    static void *(*real)(size_t, size_t);
    static int looking;
    if (!real) {
        if (looking) {
            void *piece = early + early_used;
            early_used += (n * size + 15) / 16 * 16;
            return piece;
        }
        looking = 1;
        real = next("calloc");
    }
    return refused() ? NULL : real(n, size);
}

void *realloc(void *old, size_t size) {
    static void *(*real)(void *, size_t);
    if (!real) real = next("realloc");
    return refused() ? NULL : real(old, size);
}

void *aligned_alloc(size_t alignment, size_t size) {
    static void *(*real)(size_t, size_t);
    if (!real) real = next("aligned_alloc");
    return refused() ? NULL : real(alignment, size);
}

int posix_memalign(void **to, size_t alignment, size_t size) {
    static int (*real)(void **, size_t, size_t);
    if (!real) real = next("posix_memalign");
    return refused() ? ENOMEM : real(to, alignment, size);
}

void free(void *old) {
    static void (*real)(void *);
    if ((char *)old >= early && (char *)old < early + sizeof early) return;
    if (!real) real = next("free");
    real(old);
}"""
BASE = "--pop pop --first a --second b --district d".split()
KEY = ["--key", "0" * 64]
CHAIN = ["run", *BASE, "--slack", "5000", *KEY, "--walks", "12", "--steps", "8", "--ask", "gap:low"]
TWO = (
    b'{"directed":false,"multigraph":false,"graph":[],"nodes":[{"pop":1,"a":1,"b":0,"d":1,"id":0},'
    b'{"pop":1,"a":0,"b":1,"d":2,"id":1}],"adjacency":[[{"id":1}],[{"id":0}]]}'
)
SAVED = ["--save", "2", "--budget", "5"]
OLD = "first version"
# The number of turns of a tenth of a second after which a run counts as one that does not end.
# Turns are counted, since a clock also goes on while the machine stands still.
TURNS = 1200
NO_END = f"none after {TURNS} turns of a tenth of a second"
# The number of runs that do not end after which no more are made.
MOST_HUNG = 3
# The number of times that a run is made before it counts as late.
LATE_TRIES = 3
# The bytes of the files that are there, by their names.
Files = Mapping[str, bytes]


class End(typing.NamedTuple):
    """The end of a run, the files, and whether an allocation was refused."""

    status: int | str
    out: bytes
    note: bytes
    files: Files
    is_refused: bool


def runs() -> dict[str, list[tuple[list[str], bytes]]]:
    """Chains of runs, each the words and the graph; the first of a chain starts with no file, and
    that of OLD with one of the first version.
    """
    cycle, counties = ((DATA / name).read_bytes() for name in ("cycle.json", "counties.json"))
    return {
        "check": [(["check", *BASE, "--slack", "5000"], cycle)],
        "one walk": [
            (
                [
                    "run", *BASE, "--slack", "5000", *KEY, "--steps", "8", "--ask",
                    "gap:low,gap:high",
                ],
                cycle,
            )
        ],
        "parallel test": [
            (
                [
                    "run", *BASE, *KEY, "--steps", "3", "--ends", "2", "--hub-steps", "8", "--ask",
                    "gap:low",
                ],
                TWO,
            )
        ],
        "long hub": [
            (
                [
                    "run", *BASE, *KEY, "--steps", "3", "--ends", "2", "--hub-steps", "30000000",
                    "--ask", "gap:low", "--save", "1",
                ],
                TWO,
            )
        ],
        "serial test": [
            (
                [
                    "run", *BASE, "--slack", "5000", *KEY, "--steps", "7", "--ask",
                    "gap:low,seats:high", "--serial", "yes", "--shift", "yes",
                ],
                cycle,
            )
        ],
        "three workers": [([*CHAIN, "--workers", "3"], cycle)],
        "regions": [
            (
                [
                    "run", *BASE, "--slack", "5000", *KEY, "--walks", "3", "--steps", "7", "--ask",
                    "gap:low", "--region", "county", "--max-split", "2", "--serial", "yes",
                    "--workers", "2",
                ],
                counties,
            )
        ],
        "each rule": [
            (
                [
                    "run", *BASE, "--slack", "5000", *KEY, "--walks", "2", "--steps", "7", "--ask",
                    "gap:low", "--region", "county", "--max-splits", "2", "--max-split-regions",
                    "2", "--group", "a", "--group-of", "b", "--group-districts", "1", "--source",
                    "yes",
                ],
                counties,
            )
        ],
        "early stops": [
            (
                [
                    "run", *BASE, "--slack", "5000", *KEY, "--steps", "8", "--ends", "5",
                    "--hub-steps", "8", "--stop", "2", "--ask", "gap:low,cut-edges:high",
                    "--workers", "2",
                ],
                cycle,
            )
        ],
        "several plans": [
            (
                [
                    "plans", *BASE, "--slack", "5000", *KEY, "--steps", "7", "--ends", "2",
                    "--hub-steps", "4", "--ask", "gap:low", "--serial", "yes", "--workers", "2",
                    "--group", "a", "--source", "yes",
                ],
                add_plans(cycle),
            )
        ],
        "trace": [
            (
                [
                    "trace", *BASE, "--slack", "5000", *KEY, "--walks", "2", "--steps", "8",
                    "--ends", "1", "--hub-steps", "8", "--ask", "gap:low", "--ids", "1-2", "--thin",
                    "3",
                ],
                cycle,
            )
        ],
        "trace by rules": [
            (
                [
                    "trace", *BASE, "--slack", "5000", *KEY, "--steps", "7", "--ask", "gap:low",
                    "--region", "county", "--max-splits", "2", "--group", "a", "--group-of", "b",
                    "--group-districts", "1", "--source", "yes", "--thin", "2",
                ],
                counties,
            )
        ],
        "long trace": [
            (
                [
                    "trace", *BASE, *KEY, "--ends", "1", "--hub-steps", "30000000", "--ask",
                    "gap:low", "--ids", "1", "--thin", "10000000",
                ],
                TWO,
            )
        ],
        "make": [
            (
                [
                    "make", "--size", "1", "--slack", "3000", *KEY, "--steps", "50", "--ask",
                    "mean-median:low,cut-edges:high",
                ],
                b"",
            )
        ],
        "chain": [
            ([*CHAIN, *SAVED], cycle), ([*CHAIN, *SAVED, "--resume", "yes"], cycle),
            ([*CHAIN, *SAVED, "--resume", "yes"], cycle),
        ],
        OLD: [
            ([*CHAIN, *SAVED, "--resume", "yes", "--shift", "yes"], cycle),
            ([*CHAIN, "--save", "3", "--resume", "yes", "--shift", "yes"], cycle),
            ([*CHAIN, "--save", "3", "--resume", "yes", "--workers", "3"], cycle),
        ],
    }


def add_plans(graph: bytes) -> bytes:
    """Returns the graph as one line, and a table with two more plans of its units."""
    ids = [unit["id"] for unit in json.loads(graph)["nodes"]]
    half = len(ids) // 2
    rows = [f"{name},{int(at < half)},{'xy'[0 < at <= half]}" for at, name in enumerate(ids)]
    return graph.replace(b"\n", b"") + "\n".join(["", "id,halves,turned", *rows, ""]).encode()


def build(folder: pathlib.Path) -> pathlib.Path:
    source, library = folder / "refuse.c", folder / "refuse.so"
    source.write_text(LIBRARY)
    subprocess.run(["gcc", "-shared", "-fPIC", "-O1", "-o", library, source, "-ldl"], check=True)
    return library


def wait_for(process: subprocess.Popen[bytes], given: bytes) -> tuple[int | str, bytes, bytes]:
    """Returns the status and both texts of a process, which gets this input. One that does not end
    is killed; then its note says where its threads wait.
    """
    data: bytes | None = given
    for _ in range(TURNS):
        try:
            out, note = process.communicate(data, timeout=0.1)
            return process.returncode, out, note
        except subprocess.TimeoutExpired:
            data = None
    note = describe_threads(process.pid).encode()
    process.kill()
    process.communicate()
    return NO_END, b"", note


def describe_threads(process: int) -> str:
    """Returns the state of each thread of a process, and the call of the kernel in which it waits.

    A thread that waits for another one sleeps (S) on a futex, one that waits for a disk does not
    sleep (D), and one that computes runs (R).
    """
    found = []
    for task in sorted(pathlib.Path(f"/proc/{process}/task").iterdir()):
        try:
            state = (task / "stat").read_text().rpartition(")")[2].split()[0]
            found.append(f"{state} {(task / 'wchan').read_text()}")
        except OSError:
            found.append("ended")
    return f"threads: {', '.join(found)}"


class Room:
    """A folder for the runs, with the library and the two files."""

    def __init__(self, program: str, folder: pathlib.Path) -> None:
        self.program, self.library, self.mark, self.slots = (
            program, build(folder), folder / "mark", folder / "slots",
        )
        self.counted, self.seconds = folder / "counted", 0.0
        self.slots.mkdir()

    def place(self, files: Files) -> None:
        shutil.rmtree(self.slots)
        self.slots.mkdir()
        for name, data in files.items():
            (self.slots / name).write_bytes(data)

    def files(self) -> dict[str, bytes]:
        return {path.name: path.read_bytes() for path in self.slots.iterdir()}

    def run(
        self,
        words: Sequence[str],
        graph: bytes,
        files: Files,
        number: int = 0,
        is_all: bool = False,
    ) -> End:
        """Runs the program over these files."""
        self.place(files)
        self.mark.unlink(missing_ok=True)
        given = {
            **os.environ,
            "LD_PRELOAD": str(self.library),
            "REFUSE": str(number),
            "REFUSED_MARK": str(self.mark),
            "ALLOCATIONS": str(self.counted),
        }
        if is_all:
            given["REFUSE_ALL"] = "1"
        begun = measure_seconds()
        with subprocess.Popen(
            [self.program, *words], stdin=subprocess.PIPE, stdout=subprocess.PIPE,
            stderr=subprocess.PIPE, cwd=self.slots, env=given,
        ) as process:
            status, out, note = wait_for(process, graph)
        self.seconds = measure_seconds() - begun
        return End(status, out, note, self.files(), self.mark.exists())


class Folders(Room):
    """The working folder, and two others beside it."""

    NAMES = ("slots", "p", "q")

    def place(self, files: Files) -> None:
        for name in self.NAMES:
            shutil.rmtree(self.slots.parent / name, ignore_errors=True)
            (self.slots.parent / name).mkdir()
        for name, data in files.items():
            (self.slots / name).write_bytes(data)

    def files(self) -> dict[str, bytes]:
        return {
            os.path.relpath(path, self.slots): path.read_bytes()
            for name in self.NAMES
            for path in (self.slots.parent / name).iterdir()
        }


def folder_calls() -> dict[str, tuple[list[str], dict[str, bytes]]]:
    """Calls of both programs: the words, and what the folders hold."""
    job = model.job_of(model.Setting(CHAIN), (DATA / "cycle.json").read_bytes())
    digest, every = job.digest(), dict(enumerate(model.outcomes(job, job.digest())))

    def files(name: str, *parts: Iterable[int]) -> dict[str, bytes]:
        return {
            f"{name}audit-{at}.ckpt": model.checkpoint(digest, at, {one: every[one] for one in ids})
            for at, ids in enumerate(parts)
        }

    own, others = files("", range(2), range(3)), {
        **files("../p/", range(2, 5), range(2, 6)),
        **files("../q/", range(5, 9)),
    }
    changed = {one: every[one]._replace(moved=every[one].moved ^ 1) for one in range(5, 9)}
    differing = {**others, "../q/audit-0.ckpt": model.checkpoint(digest, 0, changed)}
    both = ["../p", "../q", *CHAIN]
    return {
        "audit_slots": (["slots"], own),
        "audit_slots of another folder": (["slots", "../p", *CHAIN], others),
        "audit_gather that looks": (["gather", "--look", "yes", *both], {**own, **others}),
        "audit_gather": (["gather", *both], {**own, **others}),
        "audit_gather into an empty folder": (["gather", *both], others),
        "audit_gather that is refused": (
            ["gather", "../nowhere", "../elsewhere", *both],
            differing,
        ),
    }


def refuse_folders(room: Room, tally: Tally) -> None:
    """Refuses each allocation of the calls on folders; each call has to end with the model's status
    where none is refused.
    """
    graph = (DATA / "cycle.json").read_bytes()
    for name, (words, files) in folder_calls().items():
        tries = Tries(room, name, words, graph, files)
        wanted = predict(words, graph, files)
        if (tries.own.status, tries.own.out.decode(), tries.own.note.decode()) != wanted:
            tries.found.append(f"{name}: {tries.own[:3]} and not {wanted}")
        tries.refuse_each()
        tally.add(tries)
        if tally.is_over():
            return


def predict(words: Sequence[str], graph: bytes, files: Files) -> tuple[int, str, str]:
    """Returns the model's status and both texts."""

    def slots(name: str) -> folder_model.Folder:
        return folder_model.Folder([files.get(f"{name}audit-{at}.ckpt") for at in (0, 1)])

    folders = {".": slots(""), "../p": slots("../p/"), "../q": slots("../q/")}
    end = (folder_model.slots if words[0] == "slots" else folder_model.gather)(
        words[1:], graph, folders
    )
    return end.status, end.out, end.note


def measure_seconds() -> float:
    """Returns the seconds of a processor that all runs up to now took."""
    return resource.getrusage(resource.RUSAGE_CHILDREN).ru_utime


def find_wrong(end: End, own: End, files: Files, is_known: bool) -> str | None:
    """Returns what is wrong with an end, or None.

    With `is_known` it is known which outcomes each save has, as it is of one worker.
    """
    if end.status == 3 and own.status != 3:
        wanted = End(3, b"", end.note if end.note == b"memory\n" else b"", files, True)
        return compare_ends(end, wanted, True)
    return compare_ends(end, own, is_known)


def compare_ends(end: End, wanted: End, is_known: bool) -> str | None:
    """Returns what of an end is not as wanted, or None. With `is_known` the files count, too."""
    pairs: list[tuple[str, object, object]] = [
        ("output", end.out, wanted.out), ("note", end.note, wanted.note),
    ]
    if is_known:
        names = sorted({*end.files, *wanted.files})
        pairs += [(name, end.files.get(name), wanted.files.get(name)) for name in names]
    differing = [
        f"{name} {str(came)[:200]} and not {str(other)[:200]}"
        for name, came, other in pairs
        if came != other
    ]
    if end.status == wanted.status and not differing:
        return None
    expected = "" if end.status == wanted.status else f" and not {wanted.status}"
    return "; ".join([f"status {end.status}{expected}", *differing])


def draw_allocations(made: int, most: int, draw: random.Random) -> list[tuple[int, bool]]:
    """Returns a few allocations, each from an equal part of all, and whether all after it are
    refused too.
    """
    parts = min(most, made)
    return [
        (draw.randint(made * part // parts + 1, made * (part + 1) // parts), part % 2 == 1)
        for part in range(parts)
    ]


class Tries:
    """The number of runs of one job with refused memory, the number that ended with 3, and the
    wrong ones.
    """

    def __init__(
        self, room: Room, name: str, words: Sequence[str], graph: bytes, files: Files
    ) -> None:
        self.room, self.name, self.job, self.files = room, name, (words, graph, files), files
        self.own, self.seconds = room.run(*self.job), room.seconds
        self.made = int.from_bytes(room.counted.read_bytes(), sys.byteorder)
        self.is_known = "--workers" not in words or "--save" not in words
        self.count, self.threes, self.hung = 0, 0, int(self.own.status == NO_END)
        self.found = [f"{name}: no end with all memory: {self.own.note!r}"] if self.hung else []

    def refuse(self, number: int, is_all: bool) -> bool:
        """Makes the run without an allocation, and answers whether there was one to refuse."""
        end = self.room.run(*self.job, number, is_all)
        self.count += end.is_refused
        self.threes += end.status == 3
        self.hung += end.status == NO_END
        why = find_wrong(end, self.own, self.files, self.is_known)
        if end.status == 3 and not why:
            why = self.find_late(number, is_all)
        if why:
            self.found.append(
                f"{self.name}, allocation {number}{' and all after it' if is_all else ''}: {why}"
            )
        return end.is_refused

    def find_late(self, number: int, is_all: bool) -> str | None:
        """Returns what is wrong with the time of the last run, which ended with 3, or None."""
        seconds = [self.room.seconds]
        while 1 < self.seconds < 10 * seconds[-1]:
            if len(seconds) == LATE_TRIES:
                return (
                    f"status 3 after {', '.join(f'{one:.2f}' for one in seconds)} seconds of a"
                    f" processor, where the run itself takes {self.seconds:.2f}"
                )
            end = self.room.run(*self.job, number, is_all)
            why = find_wrong(end, self.own, self.files, self.is_known)
            if end.status != 3 or why:
                return f"status 3, and when repeated status {end.status}: {why}"
            seconds.append(self.room.seconds)
        return None

    def refuse_each(self) -> None:
        for is_all in (False, True):
            number = 1
            while self.hung < MOST_HUNG and self.refuse(number, is_all):
                number += 1

    def refuse_some(self, most: int, draw: random.Random) -> None:
        """Refuses at most this number of allocations."""
        for number, is_all in draw_allocations(self.made, most, draw):
            if self.hung < MOST_HUNG:
                self.refuse(number, is_all)


class Tally:
    """The sums over all jobs."""

    def __init__(self) -> None:
        self.count, self.threes, self.hung = 0, 0, 0
        self.found: list[str] = []

    def is_over(self) -> bool:
        """Returns whether the number of runs that did not end is that after which no more are made.
        """
        return self.hung >= MOST_HUNG

    def add(self, tries: Tries) -> None:
        for one in tries.found:
            print("WRONG:", one)
        print(
            (
                f"{tries.name}: status {tries.own.status}, {tries.count} runs with refused memory,"
                f" {tries.threes} of them with status 3"
            ),
            flush=True,
        )
        self.count, self.threes = self.count + tries.count, self.threes + tries.threes
        self.hung, self.found = self.hung + tries.hung, self.found + tries.found


def refuse_runs(room: Room, most: int, draw: random.Random, tally: Tally) -> None:
    for name, chain in runs().items():
        files: Files = (
            {"audit-0.ckpt": (TEST_DATA / "version_1.ckpt").read_bytes()} if name == OLD else {}
        )
        for place, (words, graph) in enumerate(chain):
            tries = Tries(room, f"{name} {place + 1}", words, graph, files)
            if most:
                tries.refuse_some(most, draw)
            else:
                tries.refuse_each()
            tally.add(tries)
            if tally.is_over():
                return
            files = tries.own.files


def drawn_job(
    draw: random.Random, graphs: Sequence[bytes]
) -> tuple[list[str], bytes, dict[str, bytes]]:
    """Words, a graph, and slots as up to two earlier runs left them."""
    graph, words = draw.choice(graphs), fuzz.good_words(draw)
    slots: list[bytes | None] = [None, None]
    if words[0] == "run":
        for number in range(draw.randint(0, 2)):
            before = [
                *words, "--save", "2", "--budget", str(draw.randint(0, 6)),
                *(["--resume", "yes"] if number else []), *fuzz.tally(draw),
            ]
            slots = model.audit(before, graph, slots).slots
        words = [*words, *fuzz.saving(draw)]
    return (
        words,
        graph,
        {f"audit-{at}.ckpt": data for at, data in enumerate(slots) if data is not None},
    )


def main(program: str, drawn: str = "0", *more: str) -> int:
    if shutil.which("gcc") is None:
        print("no memory refused: gcc is not installed")
        print("refused_memory.py: 0 passed, 0 failed, 1 skipped")
        return 0
    jobs, more = (int(more[0]), more[1:]) if drawn == "jobs" else (0, more)
    draw, tally = random.Random(int(more[0]) if more else 1), Tally()
    with tempfile.TemporaryDirectory() as name:
        room = (Folders if drawn == "folders" else Room)(
            os.path.abspath(program), pathlib.Path(name)
        )
        if drawn == "folders":
            refuse_folders(room, tally)
        elif drawn == "jobs":
            graphs = fuzz.good_graphs()
            for number in range(jobs):
                tries = Tries(room, f"job {number + 1}", *drawn_job(draw, graphs))
                tries.refuse_each()
                tally.add(tries)
                if tally.is_over():
                    break
        else:
            refuse_runs(room, sys.maxsize if drawn == "each" else int(drawn), draw, tally)
    count, threes, found = tally.count, tally.threes, tally.found
    if not threes:
        found.append("no run ended with status 3")
        print("WRONG:", found[-1], "- does the program take its memory from the C library?")
    print(
        f"{count} runs with refused memory, {threes} with status 3 and all others with their own;"
        f" {len(found)} wrong"
    )
    print(f"refused_memory.py: {max(count - len(found), 0)} passed, {len(found)} failed, 0 skipped")
    return 1 if found else 0


def arguments() -> argparse.Namespace:
    parser = argparse.ArgumentParser(
        prog="python3 -m tests.system.refused_memory", description=__doc__,
        formatter_class=argparse.RawDescriptionHelpFormatter,
    )
    parser.add_argument("program", help="the built auditor")
    parser.add_argument(
        "drawn",
        nargs="?",
        default="0",
        help="how many allocations are refused in each run; `each`, or `jobs`",
    )
    parser.add_argument("more", nargs="*", help="the number of jobs, and what all is drawn from")
    return parser.parse_args()


if __name__ == "__main__":
    words = arguments()
    sys.exit(main(words.program, words.drawn, *words.more))
