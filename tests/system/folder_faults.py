"""Fails single calls of audit_slots and audit_gather by strace, and names what must come of it.

Usage: python3 -m tests.system.folder_faults FOLDERS [NAME..]
FOLDERS is the program audit_folders. With names, only these cases run. Opens, looks, reads, writes
and syncs of the slots fail, of the working folder and of the folders that are gathered, once or
every time. Each call has to end with the status, both texts and the files that the case says.
Prints the name of each case that fails, with what was expected and what came. The last line counts
the cases; the status is 1 if one failed. Where strace is missing or may not trace, all count as
skipped.
"""
# RUN: {folders}
# NEEDS: strace
from __future__ import annotations

import sys
from typing import Mapping, Optional, Sequence

from tests.oracle import model
from tests.system import folder_model
from tests.system.folder_model import Folder
from tests.system.folder_room import (
    CYCLE,
    LOAD_FAULT,
    LOOK,
    NAMES,
    RUN,
    SAVE_FAULT,
    Room,
    name_call,
    run_cases,
    make_slot,
    folder_of,
    pick,
    traced_case,
)


ERRORS = ("EACCES", "EIO", "EMFILE", "ELOOP", "ENOTDIR")
# A gathering: the working folder and the two others have two slots each, and slot 1 is the newest.
OWN = Folder((make_slot(pick(range(2))), make_slot(pick(range(3)), 1)))
FOLDERS = {
    ".": OWN,
    "../p": Folder((make_slot(pick(range(4))), make_slot(pick(range(5)), 1))),
    "../q": Folder((make_slot(pick(range(4, 7))), make_slot(pick(range(4, 9)), 1))),
}
GATHER = ["../p", "../q", *RUN]
DONE = folder_model.gather(GATHER, CYCLE, FOLDERS)
UNTOUCHED = list(OWN.slots)
Slots = Sequence[Optional[bytes]]


def refuse(status: int, note: str, slots: Slots = UNTOUCHED) -> model.End:
    return model.End(status, "", note, list(slots))


def refuse_unread(name: str) -> model.End:
    return refuse(10, f"gather: folder {name}: a slot cannot be read\n")


def fails(
    room: Room,
    tool: str,
    words: list[str],
    path: str,
    call: str,
    what: str,
    wanted: model.End,
    folders: Mapping[str, Folder] = FOLDERS,
) -> None:
    """Makes a call of which system calls on a path fail; `path` is as the program says it."""
    trace = [
        "strace", "-f", "-qq", "-o", "/dev/null", "-P", path, "-P", str(room.path(path)), "-e",
        f"trace={call}", "-e", f"inject={call}:{what}",
    ]
    end = room.find_end([*trace, room.tools[tool], *words], folders)
    note = "".join(
        line for line in end.note.splitlines(True) if not line.startswith("strace: Requested path ")
    )
    room.compare(
        f"{name_call(tool, words)} with {call} of {path}: {what}", end._replace(note=note), wanted,
        folders,
    )


def gather_fails(room: Room, path: str, call: str, what: str, wanted: model.End) -> None:
    fails(room, "audit_gather", GATHER, path, call, what, wanted)


def slots_fail(room: Room, path: str, call: str, what: str, wanted: model.End) -> None:
    """Makes a call of audit_slots on another folder, and one on the working folder."""
    fails(room, "audit_slots", ["../p", *RUN], f"../p/{path}", call, what, wanted)
    fails(room, "audit_slots", RUN, f"./{path}", call, what, wanted)
    fails(room, "audit_slots", [], f"./{path}", call, what, wanted)


# ---- slots that cannot be read


@traced_case
def slots_opening_fails(room: Room) -> None:
    """A slot that is there and cannot be opened is a failed load, whatever the error."""
    for name in NAMES:
        for error in ERRORS:
            slots_fail(room, name, "openat", f"error={error}", refuse(6, LOAD_FAULT))
        slots_fail(room, name, "statx", "error=EIO", refuse(6, LOAD_FAULT))


@traced_case
def slots_reading_fails(room: Room) -> None:
    """A slot that was opened and cannot be read is a failed load."""
    for name in NAMES:
        for when in (1, 2):
            slots_fail(room, name, "read", f"error=EIO:when={when}", refuse(6, LOAD_FAULT))


@traced_case
def slots_interrupted(room: Room) -> None:
    """An interrupted opening or read is made again."""
    wanted = folder_model.slots(["../p", *RUN], CYCLE, FOLDERS)
    for name in NAMES:
        for call in ("openat", "read"):
            fails(
                room, "audit_slots", ["../p", *RUN], f"../p/{name}", call, "error=EINTR:when=1",
                wanted,
            )


@traced_case
def slots_out_of_memory(room: Room) -> None:
    """Out of memory is reported as such, also where the system says it."""
    for name in NAMES:
        slots_fail(room, name, "openat", "error=ENOMEM", refuse(3, "memory\n"))


@traced_case
def gather_opening_fails(room: Room) -> None:
    """A slot of a folder that cannot be opened is named in the folder's line."""
    for name in NAMES:
        for error in ERRORS:
            gather_fails(room, f"../q/{name}", "openat", f"error={error}", refuse_unread("../q"))
        gather_fails(room, f"../p/{name}", "statx", "error=EIO", refuse_unread("../p"))


@traced_case
def gather_reading_fails(room: Room) -> None:
    """A slot of a folder that was opened and cannot be read is named in the folder's line."""
    for folder in ("../p", "../q"):
        for name in NAMES:
            for when in (1, 2):
                gather_fails(
                    room, f"{folder}/{name}", "read", f"error=EIO:when={when}",
                    refuse_unread(folder),
                )
                gather_fails(room, f"{folder}/{name}", "read", f"error=EINTR:when={when}", DONE)


@traced_case
def gather_reading_fails_in_a_look(room: Room) -> None:
    """With `--look yes` the other folders are still told of."""
    words = [*LOOK, *GATHER]
    for name in NAMES:
        folders = {**FOLDERS, "../p": FOLDERS["../p"]._replace(unreadable=(0,))}
        wanted = folder_model.gather(words, CYCLE, folders)
        fails(room, "audit_gather", words, f"../p/{name}", "read", "error=EIO", wanted)


@traced_case
def gather_own_slots_fail(room: Room) -> None:
    """A slot of the working folder that cannot be read is a failed load, and nothing is saved."""
    for name in NAMES:
        for call in ("openat", "read", "statx"):
            gather_fails(room, name, call, "error=EIO", refuse(6, LOAD_FAULT))
        gather_fails(room, name, "openat", "error=ENOMEM", refuse(3, "memory\n"))


@traced_case
def gather_out_of_memory(room: Room) -> None:
    """Out of memory while a folder is read is status 3, not a slot that cannot be read."""
    for folder in ("../p", "../q"):
        for name in NAMES:
            gather_fails(room, f"{folder}/{name}", "openat", "error=ENOMEM", refuse(3, "memory\n"))


# ---- locks


@traced_case
def gather_lock_is_taken(room: Room) -> None:
    """A folder whose lock is taken is not read, at whichever of its slots that is seen."""
    locked = refuse(10, "gather: folder ../p: a run holds it\n")
    for error in ("EAGAIN", "EAGAIN:when=1"):
        gather_fails(room, "../p/.", "flock", f"error={error}", locked)
    gather_fails(
        room, ".", "flock", "error=EAGAIN", refuse(6, "checkpoint: another run holds the folder\n")
    )


@traced_case
def gather_without_locks(room: Room) -> None:
    """Folders on a file system without locks are read without them."""
    for error in ("EOPNOTSUPP", "ENOLCK", "ENOSYS"):
        for path in (".", "../p/."):
            gather_fails(room, path, "flock", f"error={error}", DONE)


@traced_case
def gather_lock_fails(room: Room) -> None:
    """A lock that fails for another reason is a failed load, and nothing is read without it."""
    for error in ("EINVAL", "EIO"):
        gather_fails(room, "../p/.", "flock", f"error={error}", refuse_unread("../p"))
        gather_fails(room, ".", "flock", f"error={error}", refuse(6, LOAD_FAULT))
    for error in ("EACCES", "EMFILE"):
        gather_fails(room, "../p/.", "openat", f"error={error}", refuse_unread("../p"))


# ---- the save of a gathering


def tear_slot(data: bytes) -> list[Optional[bytes]]:
    """Returns the working folder's slots after a save that left these bytes in slot 0."""
    return [data, OWN.slots[1]]


@traced_case
def gather_save_is_not_written(room: Room) -> None:
    """A save that fails is status 9 without a text, and the newest slot stays as it was."""
    for error in ("ENOSPC", "EIO", "EFBIG", "EDQUOT"):
        gather_fails(
            room, NAMES[0], "write", f"error={error}", refuse(9, SAVE_FAULT, tear_slot(b""))
        )
    gather_fails(room, NAMES[0], "write", "error=EINTR:when=1", DONE)


@traced_case
def gather_save_is_not_synced(room: Room) -> None:
    """A save of which the system does not say that it is stored is no save."""
    gather_fails(room, NAMES[0], "fsync", "error=EIO", refuse(9, SAVE_FAULT, DONE.slots))
    gather_fails(room, NAMES[0], "fsync", "error=EINTR:when=1", DONE)


@traced_case
def gather_newest_slot_is_never_synced(room: Room) -> None:
    """Before its save it waits for the slot that may be the newest; else nothing is written."""
    gather_fails(room, NAMES[1], "fsync", "error=EIO", refuse(9, SAVE_FAULT))


@traced_case
def gather_folder_is_never_synced(room: Room) -> None:
    """Before its save it waits for the folder, too, unless the system cannot store folders."""
    gather_fails(room, ".", "fsync", "error=EIO", refuse(9, SAVE_FAULT))
    for error in ("EINVAL", "EOPNOTSUPP"):
        gather_fails(room, ".", "fsync", f"error={error}", DONE)


@traced_case
def gather_new_slot_is_refused(room: Room) -> None:
    """Nothing is saved if no file can be made."""
    own = {**FOLDERS, ".": folder_of(pick(range(3)))}
    for error in ("EACCES", "EROFS", "ENOSPC"):
        fails(
            room, "audit_gather", GATHER, NAMES[1], "openat", f"error={error}",
            refuse(9, SAVE_FAULT, own["."].slots), own,
        )


@traced_case
def gather_text_fails(room: Room) -> None:
    """The save stands where the text cannot be written: the first write is that of the save."""
    for error in ("EIO", "ENOSPC", "EPIPE"):
        trace = [
            "strace", "-f", "-qq", "-o", "/dev/null", "-e", "trace=write", "-e",
            f"inject=write:error={error}:when=2",
        ]
        end = room.find_end([*trace, room.tools["audit_gather"], *GATHER], FOLDERS)
        room.compare(
            f"a text that is not written: {error}", end,
            model.End(5, "", "write fault\n", DONE.slots), FOLDERS,
        )


if __name__ == "__main__":
    sys.exit(run_cases("folder_faults.py", sys.argv[1], sys.argv[2:]))
