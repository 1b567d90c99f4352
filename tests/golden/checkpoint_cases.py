"""Runs with a keeper of two slots, by a plain program, and files of slots.

Usage: python3 -m tests.golden.checkpoint_cases FOLDER
Writes into FOLDER, as crates/case_runner/data, the files of the slots that are no good checkpoint,
each with one fault alone, and of some that are, in both versions of the format. fault_cases.py asks
this module how runs end. All of it is by the model in model.py; this module adds the keeper, whose
loads and saves may fail, and which trajectories a call begins.
"""
from __future__ import annotations

import argparse
import dataclasses
import hashlib
import pathlib
import struct
from collections.abc import Callable, Mapping, Sequence

from tests.golden.plain_cases import graph_of
from tests.oracle import model
from tests.oracle.model import NO_BINS, Outcome


@dataclasses.dataclass(frozen=True)
class End:
    """The end of a call, and the ids that it began."""

    status: int
    ids: Sequence[int]
    out: str
    note: str


class Keeper:
    """Two slots, each bytes or None, and the numbers of the load and of the save that fail.

    Where `kept` is not 0, the run is stopped within that save, which leaves so many bytes; then no
    later save changes anything.
    """

    def __init__(
        self, slots: Sequence[bytes | None], failing_load: int, failing_save: int, kept: int
    ) -> None:
        self.slots, self.failing_load = list(slots), failing_load
        self.failing_save, self.kept = failing_save, kept
        self.saves = 0

    def load_all(self) -> list[bytes | None] | None:
        """Returns both slots, or None where a load fails."""
        return self.slots if self.failing_load not in (1, 2) else None

    def save(self, slot: int, data: bytes) -> bool:
        """Saves a slot, and returns whether that went well; a save that fails leaves the first
        half.
        """
        self.saves += 1
        if self.kept and self.saves >= self.failing_save:
            if self.saves == self.failing_save:
                self.slots[slot] = data[: self.kept]
            return False
        is_good = self.saves != self.failing_save
        self.slots[slot] = data if is_good else data[: len(data) // 2]
        return is_good


def place(slots: Sequence[model.Slot]) -> tuple[int, int]:
    """Returns the slot and the generation of the next checkpoint."""
    number = model.newest(slots)
    return (0, 0) if number is None else (1 - number, (slots[number].generation + 1) % 3)


def save_in_turn(
    every: int,
    slots: Sequence[model.Slot],
    keeper: Keeper,
    wanted: bytes,
    posts: int,
    find_after: Callable[[int], Mapping[int, Outcome]],
) -> bool:
    """Returns whether no save failed: one after each batch of posts, and a last one for the rest.

    find_after returns what is known after a number of posts.
    """
    if not every:
        return True
    answers: dict[int, bool] = {}
    at = place(slots)
    due = range(every, posts + 1, every)
    for count in [*due, posts]:
        if not answers.get(count):
            is_good = keeper.save(at[0], model.checkpoint(wanted, at[1], find_after(count)))
            answers[count] = answers.get(count, True) and is_good
            at = (1 - at[0], (at[1] + 1) % 3) if is_good else at
    return all(answers.values())


def find_begun(job: model.Job, every: Mapping[int, Outcome]) -> list[int]:
    """Returns the ids that are walked where tests stop early: all walks, and ends in rounds of 64,
    128 and so on until each test has stopped.
    """
    setting, count = job.setting, 0
    start = [job.value(job.plan, score) for score, _ in setting.asks]
    while True:
        ends = [every[setting.walks + end].values for end in range(count)]
        tops = [
            sum(model.is_inside(one[place], start[place], tail) for one in ends)
            for place, (_, tail) in enumerate(setting.asks)
        ]
        if count == setting.ends or all(top >= setting.stop for top in tops):
            return list(range(setting.walks + count))
        count = min(setting.ends, 2 * count + 64)


def predict_run(job: model.Job, slots: Sequence[model.Slot], keeper: Keeper) -> End:
    """Returns how a run ends over the slots that it looked at, if it did."""
    setting, wanted = job.setting, job.digest()
    found = model.initial_outcomes(slots, wanted, setting) if setting.resume else {}
    every = dict(enumerate(model.select_outcomes(job, wanted)))
    write = model.pilot if setting.blind else model.report
    if setting.stop:
        return End(0, find_begun(job, every), write(job, list(every.values())), "")
    missing = [number for number in every if number not in found]
    todo = [number for number in missing if number % setting.parts == setting.part]
    todo = todo[: setting.budget]

    def find_after(count: int) -> dict[int, Outcome]:
        return {**found, **{number: every[number] for number in todo[:count]}}

    is_saved = save_in_turn(setting.save, slots, keeper, wanted, len(todo), find_after)
    last, text = find_after(len(todo)), ""
    if len(last) == setting.total:
        text = write(job, [last[number] for number in sorted(last)])
    if not is_saved:
        return End(9, todo, text, "checkpoint save fault")
    if not text:
        return End(7, todo, "", f"stopped: {len(last)} of {setting.total} done")
    return End(0, todo, text, "")


def audit(words: Sequence[str], text: str, keeper: Keeper) -> End:
    """Returns how a whole call ends."""
    try:
        setting = model.Setting(words)
        job = model.job_of(setting, graph_of(words, text.encode()))
        if setting.command == "check":
            return End(0, [], model.check_text(job), "")
        slots: list[model.Slot] = []
        if setting.save or setting.resume:
            loaded = keeper.load_all()
            if loaded is None:
                return End(6, [], "", "checkpoint load fault")
            slots = [model.check_slot(setting, job.digest(), data) for data in loaded]
        return predict_run(job, slots, keeper)
    except model.Refused as refusal:
        return End(refusal.status, [], "", refusal.note)


def show_slot(number: int, data: bytes | None) -> str:
    if data is None:
        return f"slot {number} absent"
    return f"slot {number} {len(data)} bytes sha256 {hashlib.sha256(data).hexdigest()}"


def line_of_ids(ids: Sequence[int]) -> str:
    """Returns the line on the ids that a call began: their number, and those below 64, each once.
    """
    return " ".join([f"announced {len(ids)}:", *(str(one) for one in sorted(set(ids)) if one < 64)])


def slot_of(folder: pathlib.Path, said: str, before: bytes | None) -> bytes | None:
    if said in ("absent", "same"):
        return before if said == "same" else None
    if said == "spoilt":
        if before is None:
            raise ValueError("a slot that is absent cannot be spoilt")
        return before[:-1] + bytes([255 - before[-1]])
    return bytes(model.MOST_SLOT + 1) if said == "long" else (folder / said).read_bytes()


def parts_of(words: str, text: str) -> tuple[bytes, dict[int, Outcome], dict[int, Outcome]]:
    """Returns the digest of a job, and what its trajectories find, with bins and without."""
    job = model.job_of(model.Setting(words.split()), text.encode())
    found = model.outcomes(job, job.digest())
    plain = [outcome._replace(bins=NO_BINS) for outcome in found]
    return job.digest(), dict(enumerate(plain)), dict(enumerate(found))


def make_damaged(words: str, text: str) -> dict[str, bytes]:
    """Checkpoints of twelve walks on the cycle of four units: with one fault alone, and some good
    ones.
    """
    own, every, binned = parts_of(words, text)
    five, ten = ({number: every[number] for number in range(count)} for count in (5, 10))
    front = model.checkpoint(own, 0, five)[:-32]
    moved, values, _ = every[0]

    def make_single(
        number: int, moves: int, counts: Sequence[int], bins: Sequence[int] = NO_BINS
    ) -> bytes:
        return model.checkpoint(own, 0, {number: Outcome(moves, counts, bins)})

    some = {number: every[number] for number in (1, 3, 11)}
    return {
        "too_short": model.checkpoint(own, 0, {})[:-1],
        "bad_magic": model.seal(b"DISTCKPS" + front[8:]),
        "bad_version": model.seal(front[:8] + struct.pack(">I", 3) + front[12:]),
        "bad_generation": model.checkpoint(own, 3, five),
        "bad_count": model.seal(front[:48] + struct.pack(">I", 6) + front[52:]),
        "bad_width": model.seal(front[:8] + struct.pack(">I", 1) + front[12:]),
        "bad_order": model.seal(
            front[:48] + struct.pack(">I", 2) + 2 * make_single(0, moved, values)[52:-32]
        ),
        "unfit_id": make_single(12, moved, values),
        "unfit_moves": make_single(0, 9, values),
        "unfit_visits": make_single(0, moved, [10]),
        "unfit_value": make_single(0, moved, [*values, 1]),
        "unfit_zero": make_single(0, moved, [0]),
        "unfit_second": make_single(0, moved, [1, 1]),
        "unfit_bins": make_single(0, moved, values, [0, 0, 0, 7, 3, 0, 0, 0, 0]),
        "five": model.checkpoint(own, 1, five),
        "ten": model.checkpoint(own, 0, ten),
        "gaps": model.checkpoint(own, 2, some),
        "old_five": model.checkpoint(own, 0, five, version=1),
        "old_ten": model.checkpoint(own, 2, ten, version=1),
        "mixed": model.checkpoint(own, 1, {**five, **{one: binned[one] for one in some}}),
    }


def damaged_ends(words: str, text: str) -> dict[str, bytes]:
    """Checkpoints of three walks and five other trajectories, of which one has bins, or none."""
    own, every, binned = parts_of(words, text)
    number = 3
    return {
        "unfit_end": model.checkpoint(
            own, 0, {**binned, number: every[number]._replace(bins=[0, 0, 0, 0, 9, 0, 0, 0, 0])}
        ),
        "ends": model.checkpoint(own, 0, {one: every[one] for one in (0, 3, 4)}),
    }


def write_files(folder: pathlib.Path) -> None:
    words = (
        "run --pop pop --first a --second b --district d --slack 5000 --walks 12 --steps 8 --ask"
        " gap:low --key "
        + 64 * "0"
    )
    ends = words.replace("--walks 12", "--walks 3 --ends 5 --hub-steps 8")
    text = (folder / "cycle.json").read_text()
    for name, data in {**make_damaged(words, text), **damaged_ends(ends, text)}.items():
        (folder / f"{name}.ckpt").write_bytes(data)


def arguments() -> argparse.Namespace:
    parser = argparse.ArgumentParser(
        prog="python3 -m tests.golden.checkpoint_cases", description=__doc__,
        formatter_class=argparse.RawDescriptionHelpFormatter,
    )
    parser.add_argument("folder", type=pathlib.Path, help="the folder crates/case_runner/data")
    return parser.parse_args()


if __name__ == "__main__":
    write_files(**vars(arguments()))
