"""Named cases of audit_slots and audit_gather over real folders.

Usage: python3 -m tests.system.folder_cases FOLDERS [NAME..]
FOLDERS is the program audit_folders. With names, only these cases run. Each call has to end as
folder_model.py says: status, both texts, the files of every folder. Where a rule is easy to get
wrong, the expected text also stands in the case itself. Cases that trace calls count as skipped
where strace is missing or may not trace.
Prints the name of each case that fails, with what was expected and what came. The last line counts
the cases; the status is 1 if one failed.
"""
# RUN: {folders}
from __future__ import annotations

import os
import re
import subprocess
import sys
import time
from typing import Optional, Sequence

from tests.oracle import model
from tests.system import folder_model, power_cuts
from tests.system.folder_model import Folder
from tests.system.folder_room import (
    BINNED,
    CYCLE,
    KINDS,
    LOAD_FAULT,
    LOOK,
    NAMES,
    OTHER,
    RUN,
    SAVE_FAULT,
    WITH_FOLDER,
    WITH_LOOK,
    WITH_RUN,
    Room,
    forbid_writes,
    case,
    make_damaged,
    folder_of,
    mounted_case,
    run_cases,
    make_slot,
    pick,
    traced_case,
    replace_value,
)


# ---- audit_slots


@case
def slots_of_another_folder(room: Room) -> None:
    """The folder in the words is looked at, not the working folder."""
    here = folder_of(pick(range(2)))
    other = Folder((make_slot(pick(range(5))), make_slot(pick(range(7)), 1)))
    room.slots(["../p"], {".": here, "../p": other})
    room.slots(["../p", *RUN], {".": here, "../p": other})
    room.slots([str(room.here), *RUN], {".": here, str(room.here): here})
    room.slots(["../p", *RUN], {".": here, "../p": Folder()})
    room.slots(RUN, {".": here, "../p": other})
    room.slots(["./run"], {".": here, "./run": other})
    room.slots(["./-h"], {".": here, "./-h": other})


@case
def slots_of_no_folder(room: Room) -> None:
    """In a folder that does not exist both slots are absent."""
    room.slots(
        ["../nowhere", *RUN], {".": folder_of(pick(range(2)))},
        said="slot 0: absent\nslot 1: absent\nnewest: none\ndone: 0 of 12\n",
    )


@case
def slots_of_a_file(room: Room) -> None:
    """A file in place of a folder is a failed load, not two absent slots."""
    for words in WITH_RUN:
        place = room.tools["audit_slots"]
        end = room.find_end([place, "../audit_slots", *words], {".": Folder()})
        room.compare(
            "a file in place of a folder", end, model.End(6, "", LOAD_FAULT, [None, None]),
            {".": Folder()},
        )


@case
def slots_unreadable_is_not_absent(room: Room) -> None:
    """A slot that cannot be read is a failed load, whichever it is and whatever the other holds."""
    good = make_slot(pick(range(4)))
    for kind in KINDS:
        for at in (0, 1):
            for other in (None, good):
                folder = Folder((None, other) if at == 0 else (other, None), unreadable=(at,))
                for words in WITH_RUN:
                    room.slots(["../p", *words], {"../p": folder}, kind=kind, said=LOAD_FAULT)
                    room.slots(words, {".": folder}, kind=kind, said=LOAD_FAULT)


@case
def slots_refuses_words_before_it_reads(room: Room) -> None:
    """Refused words, then the graph, then the slots."""
    bad = Folder(unreadable=(0, 1))
    for name, value in (("--walks", "012"), ("--ask", "gap"), ("--key", "0")):
        room.slots(
            ["../p", *replace_value(name, value)], {"../p": bad},
            said=f"words: bad value for {name}\n",
        )
    room.slots(["../p", "nothing"], {"../p": bad}, said="words: unknown command nothing\n")
    room.slots(["../p", *RUN], {"../p": bad}, graph=b"{", said="graph: not JSON\n")
    room.slots(["../p", *replace_value("--slack", "0")], {"../p": bad}, graph=CYCLE)
    room.slots(["../p", *RUN], {"../p": bad}, said=LOAD_FAULT)


@case
def slots_refuses_commands_that_save_nothing(room: Room) -> None:
    """`check` and `plans` are unknown, behind a folder too, before their own words are read."""
    for command in (name for name in model.COMMANDS if name not in folder_model.SAVING):
        for folder in WITH_FOLDER:
            room.slots(
                [*folder, command, "--nothing"], {"../p": Folder(unreadable=(0,))},
                said=f"words: unknown command {command}\n",
            )


@case
def slots_each_fault_is_named(room: Room) -> None:
    """Each damaged slot by its fault, beside a good one and alone."""
    good = make_slot(pick(range(4)))
    for data in make_damaged().values():
        for slots in ((data, good), (good, data), (data, None), (None, data), (data, data)):
            room.slots(RUN, {".": Folder(slots)})
    room.slots(RUN, {".": Folder((make_slot(pick(range(4)), 0, OTHER), None))})
    room.slots(RUN, {".": Folder((make_slot(pick(range(4))), make_slot(pick(range(3)), 1, OTHER)))})


@case
def slots_of_a_locked_folder(room: Room) -> None:
    """It takes no lock: a run in the folder is not in the way."""
    room.slots(["../p", *RUN], {"../p": folder_of(pick(range(3)), is_locked=True)})


@case
def slots_text_cannot_be_written(room: Room) -> None:
    folders = {".": folder_of(pick(range(2)))}
    end = room.find_end([room.tools["audit_slots"], *RUN], folders, out="/dev/full")
    room.compare(
        "audit_slots to a full device", end,
        model.End(5, "", "write fault\n", list(folders["."].slots)), folders,
    )


# ---- audit_gather: what is refused, and in which order


@case
def neither_slots_nor_gather(room: Room) -> None:
    """Under another name the first word says which of both programs is meant."""
    said = model.End(1, "", "words: neither slots nor gather\n", [None, None])
    calls: list[list[str]] = [[], ["slot"], ["Gather"], LOOK, RUN, ["../p", "slots"]]
    for words in calls:
        end = room.find_end([room.folders_program, *words], {".": Folder()})
        room.compare(f"audit_folders {' '.join(words)}", end, said, {".": Folder()})


@case
def gather_asks_for_a_folder(room: Room) -> None:
    """No folder is refused before the words of the run; with `--look yes` none is needed."""
    own = {".": folder_of(pick(range(3)))}
    calls: list[list[str]] = [
        RUN, ["--look", "no", *RUN], ["run", "--nothing"], ["check"], [], ["--look", "no"],
    ]
    for words in calls:
        room.gather(words, own, said="words: no folder\n")
    room.gather([*LOOK, *RUN], own, said="working folder: 3 outcomes\ndone: 3 of 12\n")
    room.gather(LOOK, own, said="words: no command\n")
    room.gather([*LOOK, "../p"], own, said="words: no command\n")
    room.gather(["../p"], own, said="words: no command\n")


@case
def gather_look_alone(room: Room) -> None:
    """A bad value of `--look` comes before all others."""
    for words in (
        ["--look"], ["--look", "maybe", *RUN], ["--look", "Yes", "../p", *RUN], ["--look", "run"],
        ["--look", ""],
    ):
        room.gather(words, {".": Folder(unreadable=(0,))}, said="words: bad value for --look\n")


@case
def gather_refuses_words_before_it_reads(room: Room) -> None:
    """Refused words, then the graph, then the slots of the working folder, then the folders."""
    bad = Folder(unreadable=(0, 1))
    folders = {".": bad, "../p": bad}
    for look in WITH_LOOK:
        for name, value in (("--walks", "012"), ("--ask", "gap"), ("--key", "0")):
            room.gather(
                [*look, "../p", *replace_value(name, value)], folders,
                said=f"words: bad value for {name}\n",
            )
        room.gather([*look, "../p", *RUN], folders, graph=b"{", said="graph: not JSON\n")
        room.gather([*look, "../p", *RUN], folders, said=LOAD_FAULT)


@case
def gather_refuses_commands_that_save_nothing(room: Room) -> None:
    """`check` and `plans` behind folders are unknown, before their own words are read."""
    for command in (name for name in model.COMMANDS if name not in folder_model.SAVING):
        for look in WITH_LOOK:
            words = [*look, "../p", "../q", command, "--nothing"]
            room.gather(
                words, {".": Folder(unreadable=(0,))}, said=f"words: unknown command {command}\n"
            )


@case
def gather_of_a_file(room: Room) -> None:
    """A file in place of a folder is a slot that cannot be read; others are still looked at."""
    folders = {".": Folder(), "../p": folder_of(pick(range(2)))}
    tool = room.tools["audit_gather"]
    end = room.find_end([tool, "../audit_slots", "../p", *RUN], folders)
    said = "gather: folder ../audit_slots: a slot cannot be read\n"
    room.compare("a file in place of a folder", end, model.End(10, "", said, [None, None]), folders)
    end = room.find_end([tool, *LOOK, "../audit_slots", "../p", *RUN], folders)
    said = (
        "working folder: no checkpoint\nfolder ../audit_slots: a slot cannot be read\n"
        "folder ../p: 2 outcomes, 2 new\ndone: 2 of 12\n"
    )
    room.compare(
        "a look at a file in place of a folder", end, model.End(0, said, "", [None, None]), folders
    )


# ---- audit_gather: what is found


@case
def gather_unreadable_is_not_absent(room: Room) -> None:
    """A slot that cannot be read is reported as unreadable, and never as no checkpoint."""
    good = make_slot(pick(range(4)))
    said = "gather: folder ../p: a slot cannot be read\n"
    for kind in KINDS:
        for at in (0, 1):
            for other in (None, good):
                folder = Folder((None, other) if at == 0 else (other, None), unreadable=(at,))
                folders = {"../p": folder, "../q": folder_of(pick(range(2)))}
                room.gather(["../q", "../p", *RUN], folders, kind=kind, said=said)
                room.gather([*LOOK, "../p", "../q", *RUN], folders, kind=kind)
                own = {".": folder, "../q": folders["../q"]}
                room.gather(["../q", *RUN], own, kind=kind, said=LOAD_FAULT)
                room.gather([*LOOK, "../q", *RUN], own, kind=kind, said=LOAD_FAULT)


@case
def gather_one_slot_is_damaged(room: Room) -> None:
    """It is said where the other slot is there and is no checkpoint that can be taken."""
    good = make_slot(pick(range(4)))
    for data in make_damaged().values():
        for slots in ((data, good), (good, data)):
            folders = {"../p": Folder(slots), "../q": folder_of(pick(range(6)))}
            for words in (["../p", "../q", *RUN], [*LOOK, "../p", *RUN]):
                room.gather(words, folders)
            room.gather(["../q", *RUN], {".": Folder(slots), "../q": folders["../q"]})
    room.gather(
        ["../p", *RUN],
        {"../p": Folder((make_damaged()["bad digest"], good))},
        said=(
            "working folder: no checkpoint\n"
            "folder ../p: 4 outcomes, 4 new, one slot is damaged\ndone: 4 of 12\n"
        ),
    )


@case
def gather_an_older_slot_is_not_damaged(room: Room) -> None:
    """Nothing is said of an absent slot, an older checkpoint, or an older one of another job."""
    newest = make_slot(pick(range(4)), 1)
    for older in (None, make_slot(pick(range(2))), make_slot(pick(range(2)), 0, OTHER)):
        room.gather(
            ["../p", *RUN],
            {"../p": Folder((older, newest))},
            said="working folder: no checkpoint\nfolder ../p: 4 outcomes, 4 new\ndone: 4 of 12\n",
        )
    room.gather(
        ["../p", *RUN], {"../p": Folder((newest, make_slot(pick(range(2)), 2, OTHER)))},
        said="gather: folder ../p: another job's checkpoint\n",
    )


@case
def gather_each_reason_in_turn(room: Room) -> None:
    """Each folder that cannot be gathered has a line of its own, in the order of the words."""
    bad = make_damaged()["bad digest"]
    folders = {
        ".": Folder((make_slot(pick(range(2)), 0, OTHER), None)),
        "../p": folder_of(pick(range(3))),
        "../empty": Folder(),
        "../other": Folder((make_slot(pick(range(2)), 0, OTHER), None)),
        "../bad": Folder((bad, bad)),
        "../locked": folder_of(pick(range(3)), is_locked=True),
        "../unread": Folder((None, make_slot(pick(range(3)))), unreadable=(0,)),
        "../differs": folder_of(pick(range(3), 1)),
    }
    names = [name for name in folders if name != "."]
    room.gather(
        [*names, *RUN],
        folders,
        said=(
            "gather: working folder: another job's checkpoint\n"
            "gather: folder ../empty: no checkpoint\n"
            "gather: folder ../other: another job's checkpoint\n"
            "gather: folder ../bad: no slot is intact\n"
            "gather: folder ../locked: a run holds it\n"
            "gather: folder ../unread: a slot cannot be read\n"
            "gather: outcome 1 differs in ../p and ../differs\n"
        ),
    )
    room.gather([*LOOK, *names, *RUN], folders)
    folders["."] = Folder((bad, None))
    room.gather([*names, *RUN], folders)


@case
def gather_three_folders_differ_at_different_ids(room: Room) -> None:
    """The least id of which the folder differs, and the first folder that differs at that id."""
    later, least = folder_of(pick((5, 6))), folder_of(pick((2, 3)))
    folders = {"../p": later, "../q": least, "../r": folder_of(pick((2, 5), 2, 5))}
    room.gather(
        ["../p", "../q", "../r", *RUN], folders, said="gather: outcome 2 differs in ../q and ../r\n"
    )
    room.gather(
        ["../q", "../p", "../r", *RUN], folders, said="gather: outcome 2 differs in ../q and ../r\n"
    )
    own = {".": later, "../q": least, "../r": folders["../r"]}
    room.gather(["../q", "../r", *RUN], own, said="gather: outcome 2 differs in ../q and ../r\n")
    own = {".": least, "../q": later, "../r": folders["../r"]}
    room.gather(["../q", "../r", *RUN], own, said="gather: outcome 2 differs in . and ../r\n")


@case
def gather_names_the_first_that_differs(room: Room) -> None:
    """Of those gathered before it, the working folder is the first."""
    one, other = folder_of(pick((0,))), folder_of(pick((0,), 0))
    room.gather(
        ["../p", "../q", *RUN], {".": one, "../p": other, "../q": one},
        said="gather: outcome 0 differs in . and ../p\n",
    )
    room.gather(
        ["../p", "../q", *RUN], {".": one, "../p": one, "../q": other},
        said="gather: outcome 0 differs in . and ../q\n",
    )
    room.gather(
        ["../p", "../q", "../r", *RUN],
        {"../p": one, "../q": other, "../r": other},
        said=(
            "gather: outcome 0 differs in ../p and ../q\n"
            "gather: outcome 0 differs in ../p and ../r\n"
        ),
    )
    plain, binned = pick((0,)), pick((0,), found=BINNED)
    bins = list(binned[0].bins)
    at = next(place for place, count in enumerate(bins) if count)
    bins[at], bins[at - 1] = bins[at] - 1, bins[at - 1] + 1
    moved = {0: binned[0]._replace(bins=tuple(bins))}
    room.gather(
        ["../p", "../q", "../r", *RUN],
        {"../p": folder_of(plain), "../q": folder_of(binned), "../r": folder_of(moved)},
        said="gather: outcome 0 differs in ../q and ../r\n",
    )


@case
def gather_does_not_read_a_locked_folder(room: Room) -> None:
    """A locked folder has no part in what is said of others."""
    one, other = pick((0,)), pick((0,), 0)
    locked = folder_of(one, is_locked=True)
    said = "gather: folder ../p: a run holds it\n"
    room.gather(
        ["../p", "../q", "../r", *RUN],
        {"../p": locked, "../q": folder_of(one), "../r": folder_of(other)},
        said=said + "gather: outcome 0 differs in ../q and ../r\n",
    )
    room.gather(
        ["../q", "../p", "../r", *RUN],
        {"../p": locked, "../q": folder_of(one), "../r": folder_of(other)},
        said=said + "gather: outcome 0 differs in ../q and ../r\n",
    )
    room.gather(["../p", "../q", *RUN], {"../p": locked, "../q": folder_of(other)}, said=said)
    room.gather(["../p", *RUN], {"../p": Folder(unreadable=(0, 1), is_locked=True)}, said=said)
    room.gather([*LOOK, "../p", *RUN], {"../p": locked})
    own = {".": Folder(unreadable=(0, 1), is_locked=True), "../p": folder_of(one)}
    room.gather(["../p", *RUN], own, said="checkpoint: another run holds the folder\n")
    room.gather([*LOOK, "../p", *RUN], {".": locked, "../p": folder_of(one)})


@case
def gather_the_working_folder_among_the_folders(room: Room) -> None:
    """It is read though this process holds its lock, by whatever name, and has nothing new."""
    own = folder_of(pick(range(3)))
    for name in (".", "../here", str(room.here), "./", "../p/../here"):
        room.gather(
            [name, "../p", *RUN],
            {".": own, "../p": folder_of(pick(range(2, 6))), name: own},
            said=(
                "working folder: 3 outcomes\n"
                f"folder {name}: 3 outcomes, 0 new\n"
                "folder ../p: 4 outcomes, 3 new\ndone: 6 of 12\n"
            ),
        )
    room.gather([".", *RUN], {}, said="gather: folder .: no checkpoint\n")


# ---- audit_gather: the save and the text


@case
def gather_text_cannot_be_written(room: Room) -> None:
    """The save stands where only the text cannot be written."""
    own, words = folder_of(pick(range(3))), ["../p", *RUN]
    folders = {".": own, "../p": folder_of(pick(range(2, 6)))}
    wanted = folder_model.gather(words, CYCLE, folders)
    command = [room.tools["audit_gather"], *words]
    end = room.find_end(command, folders, out="/dev/full")
    room.compare(
        "audit_gather to a full device", end, model.End(5, "", "write fault\n", wanted.slots),
        folders,
    )
    end = room.find_end(["sh", "-c", 'exec "$@" >&-', "sh", *command], folders)
    room.compare(
        "audit_gather to a closed output", end, model.End(5, "", "write fault\n", wanted.slots),
        folders,
    )
    look = [room.tools["audit_gather"], *LOOK, *words]
    end = room.find_end(look, folders, out="/dev/full")
    room.compare(
        "a look to a full device", end, model.End(5, "", "write fault\n", list(own.slots)), folders
    )


@case
def gather_save_fails(room: Room) -> None:
    """If the save fails, nothing is printed, and the newest slot of the working folder stays."""
    command = [room.tools["audit_gather"], "../p", *RUN]
    newest = make_slot(pick(range(3)), 1)
    cases: list[tuple[Folder, list[Optional[bytes]]]] = [
        (Folder(), [b"", None]), (Folder((None, newest)), [b"", newest]),
        (Folder((make_slot(pick(range(2))), newest)), [b"", newest]),
    ]
    for own, after in cases:
        folders = {".": own, "../p": folder_of(pick(range(2, 6)))}
        end = room.find_end(command, folders, prepared=forbid_writes)
        room.compare("a save that has no room", end, model.End(9, "", SAVE_FAULT, after), folders)


@case
def gather_saves_where_the_next_is_due(room: Room) -> None:
    """In the slot that is not the newest, with the next generation."""
    other = folder_of(pick(range(2, 6)))
    for generation in (0, 1, 2):
        last, next_one = make_slot(pick(range(3)), generation), (generation + 1) % 3
        for slots in (
            (last, None), (None, last), (last, make_slot(pick(range(4)), next_one)),
            (make_slot(pick(range(4)), next_one), last),
        ):
            room.gather(["../p", *RUN], {".": Folder(slots), "../p": other})
    room.gather(
        ["../p", "../q", *RUN],
        {"../p": folder_of(pick((0, 1), found=BINNED)), "../q": folder_of(pick((1, 2)))},
    )


# ---- words and standard input


@case
def words_that_are_no_text(room: Room) -> None:
    """Words that are no text are refused words, whichever program gets them."""
    for tool in ("audit_slots", "audit_gather"):
        place = os.fsencode(room.tools[tool])
        done = subprocess.run([place, b"\xff"], capture_output=True, check=False)
        end = (done.returncode, done.stdout, done.stderr)
        room.expect(f"{tool} of a word that is no text", end, (1, b"", b"words: not text\n"))


def call_with_late_graph(room: Room, tool: str, words: Sequence[str]) -> int:
    """Returns the status of a call over a pipe that does not block and is empty at first."""
    end, start = os.pipe()
    os.set_blocking(end, False)
    command = [room.tools[tool], *words]
    with subprocess.Popen(
        command, stdin=end, stdout=subprocess.PIPE, stderr=subprocess.PIPE, cwd=room.here
    ) as program:
        os.close(end)
        time.sleep(0.3)
        with os.fdopen(start, "wb") as graph:
            graph.write(CYCLE)
        program.communicate(timeout=60)
    return program.returncode


@case
def graph_comes_late(room: Room) -> None:
    """A graph that is not there yet is waited for."""
    folders = {".": folder_of(pick(range(2))), "../p": folder_of(pick(range(4)))}
    for tool in ("audit_slots", "audit_gather"):
        room.place(folders, "folder")
        room.expect(f"the status of {tool}", call_with_late_graph(room, tool, ["../p", *RUN]), 0)


# ---- the lock, by the calls of the program

# Mounts two file systems, whose top folders have one inode number, copies slots to them, and calls
# a program in the first while the second is locked.
TWO_SYSTEMS = """
mount -t tmpfs none "$1" && mount -t tmpfs none "$2" || exit 77
[ "$(stat -c %i "$1")" = "$(stat -c %i "$2")" ] || exit 78
cp "$3"/*.ckpt "$1" && cp "$4"/*.ckpt "$2" && cd "$1" || exit 79
shift 4
exec "$@"
"""


@mounted_case
def gather_tells_folders_of_two_systems_apart(room: Room) -> None:
    """A folder with the working folder's inode number on another device is locked all the same."""
    folders = {"../p": folder_of(pick(range(2))), "../q": folder_of(pick(range(4)))}
    room.place({".": Folder(), **folders, "../one": Folder(), "../two": Folder()}, "folder")
    places = [str(room.path(name)) for name in ("../one", "../two", "../p", "../q")]
    two = places[1]
    lock = ["flock", "--nonblock", two, room.tools["audit_gather"], two, *RUN]
    words = ["unshare", "-m", "sh", "-c", TWO_SYSTEMS, "sh", *places, *lock]
    done = room.call(words, CYCLE)
    wanted = (10, b"", f"gather: folder {two}: a run holds it\n".encode())
    room.expect("a gathering", (done.returncode, done.stdout, done.stderr), wanted)


OPENED = re.compile(r'^\d+ +openat\([^,]*, "([^"]*)"[^)]*\) += (\d+)')
LOCKED = re.compile(r"^\d+ +flock\((\d+), LOCK_EX\|LOCK_NB\) += 0")
CLOSED = re.compile(r"^\d+ +close\((\d+)\) += 0")


def unlocked_reads(trace: str) -> list[str]:
    """Returns the slots that a program opened while it did not hold the lock of their folder."""
    folders: dict[str, str] = {}
    locks: dict[str, str] = {}
    plain = []
    for line in power_cuts.whole_lines(trace):
        if found := OPENED.match(line):
            name, number = found[1], found[2]
            folders[number] = os.path.normpath(name)
            is_locked = (os.path.dirname(os.path.normpath(name)) or ".") in locks.values()
            if name.endswith(NAMES) and not is_locked:
                plain.append(name)
        elif found := LOCKED.match(line):
            locks[found[1]] = folders.get(found[1], "")
        elif found := CLOSED.match(line):
            locks.pop(found[1], None)
    return plain


@traced_case
def gather_reads_each_slot_under_the_lock(room: Room) -> None:
    """Both slots of each folder are opened while it is locked; a look takes no lock."""
    folders = {
        ".": Folder((make_slot(pick(range(2))), make_slot(pick(range(3)), 1))),
        "../p": Folder((make_slot(pick(range(4))), make_slot(pick(range(5)), 1))),
        "../q": Folder((make_slot(pick(range(4, 8))), make_slot(pick(range(4, 9)), 1))),
    }
    trace = room.top / "trace"
    before = ["strace", "-f", "-qq", "-o", str(trace), "-e", "trace=openat,flock,close"]
    for words, opened in ((["../p", "../q", *RUN], 6), ([*LOOK, "../p", *RUN], 4)):
        end = room.find_end([*before, room.tools["audit_gather"], *words], folders)
        room.expect(f"the status of {' '.join(words)}", end.status, 0)
        calls = trace.read_text()
        count = len(
            {
                found[1]
                for line in calls.splitlines()
                if "O_RDONLY" in line
                for found in [OPENED.match(line)]
                if found and found[1].endswith(NAMES)
            }
        )
        room.expect("how many slots are opened", count, opened)
        if words[0] == "--look":
            room.expect("how often a look takes a lock", calls.count("flock("), 0)
        else:
            room.expect("the slots that are opened without the lock", unlocked_reads(calls), [])


if __name__ == "__main__":
    sys.exit(run_cases("folder_cases.py", sys.argv[1], sys.argv[2:]))
