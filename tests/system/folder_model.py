"""A plain model of audit_slots and audit_gather, over model.py.

`slots(words, graph, folders)` and `gather(words, graph, folders)` return the `model.End` of a call
whose arguments are `words`. `folders` maps the names in the words to `Folder`s; `.` is the working
folder, and a name that is not in the map is a folder that does not exist. The `slots` of the end
are those of the working folder.
"""
from __future__ import annotations

from typing import Mapping, NamedTuple, Optional, Sequence

from tests.oracle import model
from tests.oracle.model import Outcome

SAVING = ("run", "make")
REFUSED = 10
Outcomes = dict[int, Outcome]


class Folder(NamedTuple):
    """A folder: both slots' bytes, the slots that cannot be read, whether its lock is taken."""

    slots: Sequence[Optional[bytes]] = (None, None)
    unreadable: Sequence[int] = ()
    is_locked: bool = False


class Finding(NamedTuple):
    """A folder's outcomes or None, and the text that describes it."""

    outcomes: Optional[Outcomes]
    text: str
    damaged: bool = False


def outcomes_of(data: bytes) -> Outcomes:
    """Returns the outcomes of a checkpoint by id."""
    return model.outcomes_in(model.decode(data))


def differ(one: Outcome, other: Outcome) -> bool:
    """Returns whether two outcomes of an id differ, apart from a histogram that one does not have.
    """
    both_have_histograms = any(one.bins) and any(other.bins)
    return one[:2] != other[:2] or (both_have_histograms and one.bins != other.bins)


def merge(one: Outcome, other: Outcome) -> Outcome:
    """Returns the outcome with bins, where one of two has them."""
    return one if any(one.bins) else other


# ---- the words

def split_words(words: Sequence[str]) -> tuple[Sequence[str], Sequence[str]]:
    """Returns the words before the first command, and the others."""
    count = next((at for at, word in enumerate(words) if word in model.COMMANDS), len(words))
    return words[:count], words[count:]


def job_of(words: Sequence[str], graph: bytes) -> model.Job:
    """Returns the job of the words of a run.

    Raises model.Refused where the words or the graph are refused.
    """
    if words and words[0] in model.COMMANDS and words[0] not in SAVING:
        raise model.Refused(1, f"words: unknown command {words[0]}")
    return model.job_of(model.Setting(words), graph)


# ---- audit_slots

def slot_line(place: int, data: Optional[bytes]) -> str:
    slot = model.decode(data)
    if slot.fault is not None:
        return f"slot {place}: {slot.fault}"
    assert data is not None
    version = int.from_bytes(data[8:12], "big")
    counts = f"version {version} generation {slot.generation} outcomes {len(slot.records)}"
    return f"slot {place}: {counts} digest {slot.job.hex()}"


def done_line(job: model.Job, slots: Sequence[Optional[bytes]]) -> str:
    digest = job.digest()
    seen = [model.check_slot(job.setting, digest, data) for data in slots]
    at = model.newest(seen)
    if all(slot.fault == "absent" for slot in seen):
        return f"done: 0 of {job.setting.total}"
    if at is None:
        return "done: no slot is intact"
    if seen[at].job != digest:
        return "done: the newest is another job's"
    return f"done: {len(seen[at].records)} of {job.setting.total}"


def slots(words: Sequence[str], graph: bytes, folders: Mapping[str, Folder]) -> model.End:
    """Returns the end of a call of audit_slots."""
    is_named = bool(words) and words[0] not in model.COMMANDS
    name, rest = (words[0], words[1:]) if is_named else (".", words)
    own, folder = folders.get(".", Folder()), folders.get(name, Folder())
    try:
        job = job_of(rest, graph) if rest else None
        if folder.unreadable:
            raise model.Refused(6, "checkpoint load fault")
    except model.Refused as refusal:
        return model.End(refusal.status, "", refusal.note + "\n", list(own.slots))
    newest = model.newest([model.decode(data) for data in folder.slots])
    lines = [slot_line(place, data) for place, data in enumerate(folder.slots)]
    lines.append("newest: none" if newest is None else f"newest: slot {newest}")
    lines += [done_line(job, folder.slots)] if job else []
    return model.End(0, "\n".join(lines) + "\n", "", list(own.slots))


# ---- audit_gather

def look_into(job: model.Job, folder: Folder, asks_lock: bool) -> Finding:
    """Returns what is found in a folder by itself."""
    if asks_lock and folder.is_locked:
        return Finding(None, "a run holds it")
    if folder.unreadable:
        return Finding(None, "a slot cannot be read")
    digest = job.digest()
    seen = [model.check_slot(job.setting, digest, data) for data in folder.slots]
    at = model.newest(seen)
    if all(slot.fault == "absent" for slot in seen):
        return Finding(None, "no checkpoint")
    if at is None:
        return Finding(None, "no slot is intact")
    if seen[at].job != digest:
        return Finding(None, "another job's checkpoint")
    data = folder.slots[at]
    assert data is not None
    outcomes = outcomes_of(data)
    is_damaged = any(slot.fault not in (None, "absent") for slot in seen)
    return Finding(outcomes, f"{len(outcomes)} outcomes", is_damaged)


def describe_damage(finding: Finding) -> str:
    return ", one slot is damaged" if finding.damaged else ""


class Gathering:
    """The outcomes gathered so far, together and by folder."""

    def __init__(self) -> None:
        self.together: Outcomes = {}
        self.parts: list[tuple[str, Outcomes]] = []

    def add(self, name: str, outcomes: Outcomes) -> Optional[str]:
        """Adds the outcomes of a folder, unless one differs; then returns the text that says so."""
        for one in sorted(outcomes):
            if one in self.together and differ(self.together[one], outcomes[one]):
                other = next(part for part, some in self.parts
                             if one in some and differ(some[one], outcomes[one]))
                return f"outcome {one} differs in {other} and {name}"
        self.parts.append((name, outcomes))
        for one, outcome in outcomes.items():
            known = self.together.get(one)
            self.together[one] = outcome if known is None else merge(known, outcome)
        return None


def gather_folders(
    job: model.Job, names: Sequence[str], folders: Mapping[str, Folder], looks: bool
) -> tuple[Gathering, list[str], list[str]]:
    """Returns what is gathered, a line for each folder, the working one first, and the refusals."""
    gathering, own = Gathering(), look_into(job, folders.get(".", Folder()), False)
    lines = [f"working folder: {own.text}{describe_damage(own)}"]
    is_refused = own.outcomes is None and own.text != "no checkpoint"
    refusals = lines[:] if is_refused else []
    if own.outcomes is not None:
        gathering.add(".", own.outcomes)
    for name in names:
        finding = look_into(job, folders.get(name, Folder()), not looks)
        if finding.outcomes is None:
            lines.append(f"folder {name}: {finding.text}")
            refusals.append(lines[-1])
            continue
        new = len(set(finding.outcomes) - set(gathering.together))
        refusal = gathering.add(name, finding.outcomes)
        line = f"folder {name}: {finding.text}, {new} new{describe_damage(finding)}"
        lines.append(refusal or line)
        refusals += [refusal] if refusal else []
    return gathering, lines, refusals


def save(
    job: model.Job, slots_before: Sequence[Optional[bytes]], outcomes: Outcomes
) -> list[Optional[bytes]]:
    """Returns the slots of the working folder after the save of these outcomes."""
    digest = job.digest()
    seen = [model.check_slot(job.setting, digest, data) for data in slots_before]
    at = model.newest(seen)
    slot, generation = (0, 0) if at is None else (1 - at, (seen[at].generation + 1) % 3)
    after = list(slots_before)
    after[slot] = model.checkpoint(digest, generation, outcomes)
    return after


def gather(words: Sequence[str], graph: bytes, folders: Mapping[str, Folder]) -> model.End:
    """Returns the end of a call of audit_gather."""
    own, looks = folders.get(".", Folder()), False
    try:
        if list(words[:1]) == ["--look"]:
            if list(words[1:2]) not in (["yes"], ["no"]):
                raise model.Refused(1, "words: bad value for --look")
            looks, words = words[1] == "yes", words[2:]
        names, rest = split_words(words)
        if not names and not looks:
            raise model.Refused(1, "words: no folder")
        job = job_of(rest, graph)
        if own.is_locked and not looks:
            raise model.Refused(6, "checkpoint: another run holds the folder")
        if own.unreadable:
            raise model.Refused(6, "checkpoint load fault")
    except model.Refused as refusal:
        return model.End(refusal.status, "", refusal.note + "\n", list(own.slots))
    gathering, lines, refusals = gather_folders(job, names, folders, looks)
    if refusals and not looks:
        note = "".join(f"gather: {line}\n" for line in refusals)
        return model.End(REFUSED, "", note, list(own.slots))
    after = list(own.slots) if looks else save(job, own.slots, gathering.together)
    lines.append(f"done: {len(gathering.together)} of {job.setting.total}")
    return model.End(0, "\n".join([*lines, ""]), "", after)
