"""Runs of which one call after the other fails, runs where none can, and runs whose gate watches:
what `case_runner` must print for each line of its file `cases`, by a plain program.

Usage: python3 -m tests.golden.fault_cases FOLDER
FOLDER has this file and those that it names, as crates/case_runner/data; the crate `case_format`
says what a line has. Runs, checkpoints and trajectories are those of checkpoint_cases.py, over a
source that gives at most so many bytes a call, its end being a call of its own, and an output that
takes as many; of an outside that cannot fail only the status, the ids and the note are shown.
Reports of several plans are those of model.py: a plan is walked, and then its title is written in
three pieces and its report in one. Of a trace all lines before the first trajectory are written in
one piece, and each further line in one. A line that asks for a text about the program is left out.
"""
from __future__ import annotations

import argparse
import dataclasses
import pathlib
from collections.abc import Iterable, Sequence

from tests.oracle import model
from tests.golden.checkpoint_cases import End, Keeper, audit, line_of_ids, show_slot, slot_of
from tests.golden.named_cases import is_question, lines_of, words_of

Slots = Sequence["bytes | None"]


@dataclasses.dataclass(frozen=True)
class FaultCase:
    """A run of a line: its kind, the text, the words, the calls that fail, what a stop leaves, the
    most bytes of a call, and whether the gate holds callers.
    """

    kind: str
    text: str
    words: list[str]
    read: int
    write: int
    load: int
    save: int
    kept: int
    most: int
    held: int


def calls_for(count: int, most: int) -> int:
    """Returns the number of calls that move a number of bytes."""
    return -(-count // most)


def join_lines(parts: Iterable[str]) -> str:
    """Returns the parts that are not empty, each ended by a line feed."""
    return "".join(part.removesuffix("\n") + "\n" for part in parts if part)


def audit_plans(words: Sequence[str], text: str, failing_write: int, most: int) -> End:
    """Returns how a call on several plans ends, where the write with this number fails, if one
    does.
    """
    setting = model.Setting(words)
    ids: list[int] = []
    out, writes = "", 0
    for name, job in model.jobs_of(setting, text.encode()):
        ids += range(setting.total)
        report = model.report(job, model.select_outcomes(job, job.digest()))
        for piece in ("plan ", name, "\n", report):
            if writes < failing_write <= writes + calls_for(len(piece), most):
                return End(
                    5, ids, out + piece[: most * (failing_write - 1 - writes)], "write fault"
                )
            writes += calls_for(len(piece), most)
            out += piece
    return End(0, ids, out, "")


def audit_trace(words: Sequence[str], text: str, failing_write: int, most: int) -> End:
    """Returns how a trace ends, where the write with this number fails, if one does."""
    whole = model.audit(words, text.encode(), [None, None])
    lines = whole.out.splitlines(keepends=True)
    head = next(k for k, line in enumerate(lines) if line.startswith("trace id "))
    out, writes = "", 0
    for piece in ("".join(lines[:head]), *lines[head:]):
        if writes < failing_write <= writes + calls_for(len(piece), most):
            return End(5, [], out + piece[: most * (failing_write - 1 - writes)], "write fault")
        writes += calls_for(len(piece), most)
        out += piece
    return End(whole.status, [], out, whole.note)


# The commands whose calls are not those of checkpoint_cases.py.
IN_PIECES = {"plans": audit_plans, "trace": audit_trace}


def end_of(case: FaultCase, keeper: Keeper) -> End:
    """Returns how a run ends."""
    words, most = case.words, case.most
    reads = calls_for(len(case.text.encode()), most) + 1
    if 0 < case.read <= reads and words[0] != "make":
        return End(4, [], "", "read fault")
    if case.write == 1 and words[0] == "run" and case.kind == "text":
        # Nothing is written, so the trajectories need not be walked here.
        return End(5, range(model.Setting(words).total), "", "write fault")
    if words[0] in IN_PIECES:
        return IN_PIECES[words[0]](words, case.text, case.write, most)
    end = audit(words, case.text, keeper)
    if case.write and case.write <= calls_for(len(end.out), most):
        return End(5, end.ids, end.out[: most * (case.write - 1)], "write fault")
    return end


def parts_after(case: FaultCase, keeper: Keeper) -> list[str]:
    """Returns what is printed after the note, for the kind of a line."""
    if case.kind in ("slots", "each"):
        return [show_slot(place, data) for place, data in enumerate(keeper.slots)]
    return [f"saves {keeper.saves} early 0"] if case.kind == "saves" else []


def run_once(case: FaultCase, slots: Slots) -> tuple[str, Slots, int]:
    """Returns the output of a run, the slots that it leaves, and its status."""
    keeper = Keeper(slots, case.load, case.save, case.kept)
    end = end_of(case, keeper)
    ids = ("waited, " if case.held else "") + line_of_ids(end.ids)
    out = "" if case.kind == "sure" else end.out
    parts = [f"status {end.status}", ids, out + end.note, *parts_after(case, keeper)]
    return join_lines(parts), slots if case.kind == "sure" else keeper.slots, end.status


def text_of(folder: pathlib.Path, line: str, before: Slots) -> tuple[str, Slots]:
    """Returns the output of the rest of a line, and the slots that its last run leaves."""
    kind, *fields = line.split()
    file, *words = words_of(line)
    texts, run, status = [line + "\n"], 0, -1
    while run == 0 or kind == "each" and status not in (0, 7):
        run += 1
        numbers = [run if one == "n" else int(one) for one in (*fields[:6], fields[8])]
        said = zip(fields[6:8], before)
        case = FaultCase(kind, (folder / file).read_text(), words, *numbers)
        text, before, status = run_once(case, [slot_of(folder, one, slot) for one, slot in said])
        texts.append(f"run {run}\n" + text if kind == "each" else text)
    return "".join(texts), before


def main(folder: str) -> None:
    data = pathlib.Path(folder)
    slots: Slots = [None, None]
    for name, line in lines_of(data / "cases"):
        # A walk whose time is taken would take too long here. Its gate sees the first id at once.
        if line.startswith("time "):
            print(f"case {name}\n{line}\nstatus 0\nannounced 1: 0\nin the first half true")
        elif not is_question(words_of(line)[1:]):
            text, slots = text_of(data, line, slots)
            print(f"case {name}\n{text}", end="")


def arguments() -> argparse.Namespace:
    parser = argparse.ArgumentParser(
        prog="python3 -m tests.golden.fault_cases", description=__doc__,
        formatter_class=argparse.RawDescriptionHelpFormatter,
    )
    parser.add_argument("folder", metavar="FOLDER", help="the folder crates/case_runner/data")
    return parser.parse_args()


if __name__ == "__main__":
    main(**vars(arguments()))
