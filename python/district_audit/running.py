"""Runs of the program for reports, with their checkpoints, displays and exceptions."""
from __future__ import annotations

import concurrent.futures
import dataclasses
import os
import pathlib
import tempfile
import threading
import typing
import warnings

from . import checkpoints, custody
from . import labels as naming
from . import progress as bars
from .arguments import TABLE, Words, count_in, refuse
from .elections import folder_of, name_election
from .errors import (
    CheckpointRefused,
    FrozenWalk,
    GraphRefused,
    Interrupted,
    SaveFault,
    TypeRefused,
    ValueRefused,
    WorkLeft,
    error_of,
)
from .program import Ended, PathLike, call, find_program
from .report import Audited, Report
from .words import words_of

if typing.TYPE_CHECKING:
    import subprocess

    from .calls import Given


@dataclasses.dataclass(frozen=True)
class Way:
    """How a call runs: the folder of its checkpoints, its display, and its programs."""

    folder: PathLike | None = None
    progress: bool | str = False
    program: PathLike | None = None
    slots: PathLike | None = None
    overwrite: bool = False


class Running:
    """One run of the program, which is judged before it begins."""

    def __init__(self, asked: Given, way: Way) -> None:
        """Refuses a folder that is not there, takes no file, or has another run's checkpoints.

        Raises FileNotFoundError, OSError, ValueRefused, TypeRefused or ProgramMissing.
        """
        self.asked, self.way = asked, way
        self.path = find_program("audit", way.program)
        self.place = pathlib.Path(way.folder) if way.folder is not None else pathlib.Path()
        if not self.place.is_dir():
            raise FileNotFoundError(f"folder={str(self.place)!r}: there is no such folder")
        self.saves = str(asked.named.get("save", 0)) != "0"
        self.resumes = asked.named.get("resume") in (True, "yes")
        if way.progress not in (True, False, "steps"):
            allowed = 'progress is True, False or "steps"'
            refuse(ValueRefused, asked.words[0], "progress", way.progress, allowed)
        if way.overwrite and self.resumes:
            refuse(
                TypeRefused, asked.words[0], "overwrite", True,
                "resume is given too: resume=True goes on, and overwrite=True starts anew",
            )
        if self.saves:
            self.test_folder()
        self.job = Job(asked, self.place, self.saves, self.resumes)

    def test_folder(self) -> None:
        """Refuses checkpoints that the run would write over, and a folder that takes no file."""
        there = [name for name in checkpoints.SLOTS if (self.place / name).exists()]
        if there and not self.resumes and not self.way.overwrite:
            newest = checkpoints.newest_of(checkpoints.slots_in(self.place))
            done = f"{newest.done} trajectories of a run" if newest else "an unreadable checkpoint"
            refuse(
                ValueRefused, self.asked.words[0], "folder", str(self.place.absolute()),
                f"the folder has {done} in {' and '.join(there)}, which this call would write over",
                "resume=True goes on with them, overwrite=True starts anew, and another folder"
                " keeps both",
            )
        with tempfile.NamedTemporaryFile(dir=self.place, prefix=".audit-"):
            pass

    def execute(self, watch: Display | None) -> Report:
        """Runs the program to its end and returns the report. Raises what `run` raises."""
        asked, made = self.asked, begin_call(self.asked, self.path)
        self.job.begin()
        try:
            ended = call(self.path, asked.words, asked.data, self.way.folder, watch)
        except KeyboardInterrupt:
            raise self.job.make_interrupted() from None
        self.job.end(ended.status)
        if ended.status:
            error = make_error(ended, asked)
            if isinstance(error, WorkLeft):
                error.part_is_done = self.is_part_done()
            raise self.job.explain(error) if isinstance(error, CheckpointRefused) else error
        report = Report.parse(ended.unproved + ended.text)
        if asked.data:
            report = dataclasses.replace(report, audited=add_call(asked.audited, made))
        return report

    def is_part_done(self) -> bool:
        """Returns whether all trajectories of the run's own part are saved."""
        parts, part = (count_in(self.asked.named, name) for name in ("parts", "part"))
        return checkpoints.is_part_done(self.place, parts, part, total_of(self.asked))

    def new_watch(self) -> bars.Watch | bars.Clock | None:
        """Returns the display of the run; None where none is wanted."""
        if not self.way.progress:
            return None
        total = total_of(self.asked)
        if self.way.progress == "steps" and self.asked.data:
            return self.new_step_clock(total)
        if not self.saves:
            return bars.Clock(total)
        return bars.Watch(self.look, total, self.resumes, bars.new_bar())

    def new_step_clock(self, total: int) -> bars.StepClock:
        """Returns the display of the steps of the run's first trajectory."""
        named = self.asked.named
        steps = count_in(named, "steps" if walks_of(self.asked) else "hub_steps")
        words = words_of("trace", trace_words(named, steps))
        return bars.StepClock(total, steps, [self.path, *words], self.asked.data)

    def look(self) -> bars.Look:
        """Returns how many trajectories are saved."""
        if self.way.slots is None:
            return checkpoints.look_in(self.place, total_of(self.asked))
        path = find_program("slots", self.way.slots)
        return bars.look(path, self.asked.words, self.asked.data, self.place)


Display = typing.Callable[["subprocess.Popen[bytes]"], None]
Answer = typing.TypeVar("Answer")


def execute(asked: Given, way: Way) -> Report:
    """Runs the program once, with its display. Raises what `run` raises."""
    one = Running(asked, way)
    watch = one.new_watch()
    try:
        report = one.execute(watch)
    finally:
        if watch is not None:
            watch.end()
    warn_of_frozen([("", report)], 4)
    return report


# ---- several runs


def count_beside(workers: int, count: int) -> int:
    """Returns how many of these runs go on at the same time, each with this number of threads."""
    return max(1, min(count, (os.cpu_count() or 1) // workers))


class Skipped(Exception):
    """A run that did not begin or was stopped, since another one had failed."""


class SideBySide(typing.Generic[Answer]):
    """Runs side by side over the processors, under one display. The first that fails ends all."""

    def __init__(self) -> None:
        self.is_stopped = threading.Event()
        self.lock = threading.Lock()
        self.watch: bars.Watch | bars.Clock | bars.PlanCount | None = None

    def collect(self, names: typing.Sequence[str], together: int) -> dict[str, Answer]:
        """Runs all, at most `together` of them at the same time, and returns what each answers.

        Raises what the first of the names raised; Interrupted after Ctrl-C.
        """
        is_interrupted = False
        futures: dict[str, concurrent.futures.Future[Answer]] = {}
        with concurrent.futures.ThreadPoolExecutor(together) as pool:
            try:
                for name in names:
                    futures[name] = pool.submit(self.execute_or_skip, name)
                concurrent.futures.wait(futures.values())
            except KeyboardInterrupt:
                self.is_stopped.set()
                is_interrupted = True
            except BaseException:
                self.is_stopped.set()
                raise
        errors = [error for one in futures.values() if (error := one.exception()) is not None]
        for error in errors:
            if not is_interrupted and not isinstance(error, Skipped):
                raise error
        if errors or is_interrupted:
            raise self.make_interrupted()
        return {name: future.result() for name, future in futures.items()}

    def execute_or_skip(self, name: str) -> Answer:
        """Runs one; does nothing once another has failed."""
        if self.is_stopped.is_set():
            raise Skipped
        try:
            return self.execute_one(name)
        except KeyboardInterrupt:
            raise Skipped from None
        except BaseException:
            self.is_stopped.set()
            raise

    def execute_one(self, name: str) -> Answer:
        """Runs one."""
        raise NotImplementedError

    def make_interrupted(self) -> Interrupted:
        """Returns the exception for runs that Ctrl-C stopped."""
        raise NotImplementedError

    def show(self, process: subprocess.Popen[bytes]) -> None:
        """Draws the display of all; ends this process once another has failed."""
        if self.is_stopped.is_set():
            raise KeyboardInterrupt
        if self.watch is not None and self.lock.acquire(blocking=False):
            try:
                self.watch(process)
            finally:
                self.lock.release()


class Together(SideBySide["Report | WorkLeft"]):
    """The runs of several elections, side by side over the processors, under one display.

    With a budget they run one behind the other, and the first with work left ends the call.
    """

    def __init__(self, asked: typing.Mapping[str, Given], way: Way, saves: bool) -> None:
        """Judges all runs; if they save, each has a folder of its election's name."""
        super().__init__()
        self.named: dict[str, Running] = {}
        for name, one in asked.items():
            place = folder_of(way.folder, name) if saves else way.folder
            self.named[name] = Running(one, dataclasses.replace(way, folder=place))

    def execute(self) -> list[tuple[str, Report]]:
        """Runs all, and returns the reports in order. Raises what `run` raises."""
        self.watch = self.new_watch()
        try:
            found = self.collect(list(self.named), self.count_together())
        finally:
            if self.watch is not None:
                self.watch.end()
        self.refuse_work_left(found)
        reports = [(name, one) for name, one in found.items() if isinstance(one, Report)]
        warn_of_frozen(reports, 4, "election")
        return reports

    def count_together(self) -> int:
        """Returns how many elections run at the same time."""
        asked = next(iter(self.named.values())).asked
        if asked.named.get("budget") is not None:
            return 1
        return count_beside(count_in(asked.named, "workers"), len(self.named))

    def execute_one(self, name: str) -> Report | WorkLeft:
        """Runs one election."""
        one = self.named[name]
        try:
            return one.execute(self.show)
        except WorkLeft as left:
            if one.asked.named.get("budget") is not None:
                raise name_election(
                    left, name, list(self.named).index(name), len(self.named)
                ) from None
            return left

    def refuse_work_left(self, found: typing.Mapping[str, Report | WorkLeft]) -> None:
        """Raises WorkLeft, with its election's name, where one has work left."""
        left = {name: one for name, one in found.items() if isinstance(one, WorkLeft)}
        if left:
            name, error = next(iter(left.items()))
            done = sum(one.done if isinstance(one, WorkLeft) else error.total
                       for one in found.values())
            raise name_election(error, name, list(found).index(name), len(found), done)

    def make_interrupted(self) -> Interrupted:
        """Returns the exception for runs that Ctrl-C stopped."""
        total = sum(total_of(one.asked) for one in self.named.values())
        first = next(iter(self.named.values()))
        if not first.saves:
            return first.job.make_interrupted()
        done = sum(one.job.count_own() for one in self.named.values())
        place = str(first.place.parent.absolute())
        goes_on = (
            f"; the same call with resume=True goes on in the same folder, {place!r}; of"
            " trajectories under way nothing is kept"
        )
        many = f"stopped: {done} of {total} done in {len(self.named)} elections"
        return Interrupted(many + (goes_on if done else ""), done, total, place)

    def new_watch(self) -> bars.Watch | bars.Clock | None:
        """Returns one display for all, with the elections' names."""
        first = next(iter(self.named.values()))
        name = ", ".join(self.named)
        if not first.way.progress:
            return None
        total = sum(total_of(one.asked) for one in self.named.values())
        if first.way.progress == "steps":
            return first.new_watch()
        if not first.saves:
            return bars.Clock(total, name=name)
        return bars.Watch(self.look, total, True, bars.new_bar(name))

    def look(self) -> bars.Look:
        """Returns how many trajectories of all elections are saved."""
        looks = [(one, one.look()) for one in self.named.values()]
        done = [seen.done or 0 for one, seen in looks if one.resumes or one.job.has_new_slots()]
        total = sum(total_of(one.asked) for one in self.named.values())
        return bars.Look("\n".join(seen.slots for _, seen in looks), sum(done), total)


# ---- exceptions and warnings


def make_error(ended: Ended, asked: Given) -> Exception:
    """Returns the exception for a call that did not end with 0."""
    graph = asked.data.split(b"\n")[0] if asked.table else asked.data
    said = naming.translate(ended.line, naming.labels_of(graph, asked.named), asked.table)
    if ended.line == "graph: not JSON":
        said = naming.find_json_fault(graph)
    error = error_of(ended.status, ended.line, said)
    if isinstance(error, GraphRefused) and " has no whole number from 0 to " in ended.line:
        argument = "length=.." if " in attribute " in ended.line else 'numbers="nearest"'
        error.hint = f"prepare(.., {argument}) makes fractions whole and names missing values"
    if isinstance(error, SaveFault) and ended.text:
        error.report = Report.parse(ended.unproved + ended.text)
    return error


def warn_of_frozen(
    reports: typing.Sequence[tuple[str, Report]], level: int, what: str = "plan"
) -> None:
    """Warns of walks that changed the plan never, or fewer times than there are units.

    `level` is the number of calls between the warning and the user. The names are those of plans
    or elections, as `what` says.
    """
    said = []
    for name, report in reports:
        steps = report.setting.steps
        moved = {walk.number: (walk.moved, steps) for walk in report.walks}
        few = few_moves("walk", moved, report.units)
        said += [f"{what} {name}: {few}" if name else few] if few else []
    warn_of_few_moves(said, level + 1)


def few_moves(what: str, moved: typing.Mapping[int, tuple[int, int]], units: int) -> str:
    """Returns which trajectories made fewer moves than there are units, in words; '' if none.

    `moved` has the moves and the steps of each trajectory by its number.
    """
    few = [number for number, (moves, _) in moved.items() if moves < units]
    if not few:
        return ""
    number = min(few, key=lambda one: moved[one])
    moves, steps = moved[number]
    many = "walks" if what == "walk" else "trajectories"
    return (
        f"{what} {number} changed the plan {moves} times in {steps} steps ({len(few)} of"
        f" {len(moved)} {many} fewer times than there are units, {units})"
    )


def warn_of_few_moves(said: list[str], level: int) -> None:
    """Warns with these texts, if there are any."""
    if said:
        why = (
            "such walks say little about other plans, and nothing where they changed none: walk"
            " more steps, or loosen slack or the rules"
        )
        warnings.warn(FrozenWalk("\n".join([*said, why])), stacklevel=level + 1)


# ---- the record of a call


def begin_call(asked: Given, path: PathLike) -> custody.Call:
    """Returns the record of a call of the program at a path, which begins now."""
    now = custody.read_clock()
    return custody.Call(
        tuple(asked.words), custody.read_program(path), now, now, asked.data, asked.path,
        asked.custody,
    )


def add_call(audited: Audited, made: custody.Call) -> Audited:
    """Returns what a report keeps of its graph and of the call that made it, which ends now."""
    return dataclasses.replace(
        audited, call=dataclasses.replace(made, ended=custody.read_clock())
    )


def walks_of(asked: Given) -> int:
    """Returns the number of outlier walks of a run."""
    return count_in(asked.named, "walks")


def total_of(asked: Given) -> int:
    """Returns the number of trajectories of a run."""
    return walks_of(asked) + count_in(asked.named, "ends")


def trace_words(named: Words, steps: int) -> dict[str, object]:
    """Returns the words of a trace of a run's first trajectory, at a hundred of its steps."""
    there = {name for name, row in TABLE.items() if "trace" in row.commands}
    return {**{name: named[name] for name in named if name in there}, "thin": max(1, steps // 100)}


class Job:
    """The package's record of a run, which lies beside its checkpoints."""

    def __init__(self, asked: Given, place: pathlib.Path, saves: bool, resumes: bool) -> None:
        self.asked, self.place, self.saves, self.resumes = asked, place, saves, resumes
        self.slots = checkpoints.slots_in(place) if saves or resumes else []
        self.before = checkpoints.read_record(place) if saves or resumes else None
        self.record: checkpoints.Record | None = None

    def begin(self) -> None:
        """Keeps the arguments of a run that saves, so that they are there if it is killed."""
        if self.saves or self.resumes:
            self.record = checkpoints.record_of(
                self.asked.words[0], self.asked.data, self.asked.named, self.asked.words
            )
        if self.saves and (not self.resumes or self.before is None):
            checkpoints.write_record(self.place, self.record)

    def end(self, status: int) -> None:
        """Keeps the arguments of the job whose checkpoints lie there now."""
        if not self.saves:
            return
        has_saved = status in (0, 7) or status == 9 and self.has_new_slots()
        if has_saved:
            checkpoints.write_record(self.place, self.record)
        elif not self.has_new_slots():
            checkpoints.write_record(self.place, self.before)

    def has_new_slots(self) -> bool:
        return checkpoints.slots_in(self.place) != self.slots

    def make_interrupted(self) -> Interrupted:
        """Returns the exception for a run that Ctrl-C stopped; its message says what is saved."""
        total = total_of(self.asked)
        if not self.saves:
            return Interrupted(
                "stopped; nothing was saved (save=1 saves after each trajectory)", 0, total
            )
        done = self.count_own()
        if done == 0:
            return Interrupted(
                f"stopped: 0 of {total} done, and nothing was saved yet", 0, total, str(self.place)
            )
        return Interrupted(
            (
                f"stopped: {done} of {total} done; the same call with resume=True goes on in the"
                f" same folder, {str(self.place.absolute())!r}; of trajectories under way nothing"
                " is kept"
            ),
            done,
            total,
            str(self.place),
        )

    def count_own(self) -> int:
        """Returns the number of this run's trajectories that are saved."""
        newest = checkpoints.newest_of(checkpoints.slots_in(self.place))
        is_own = self.resumes or self.has_new_slots()
        if not is_own:
            self.end(1)
        return newest.done if newest is not None and is_own else 0

    def explain(self, error: CheckpointRefused) -> CheckpointRefused:
        """Names the arguments in which another job differs, as far as they were kept."""
        if not error.line.startswith("checkpoint: other job"):
            return error
        if self.before is None or self.record is None:
            said = f"no arguments of that job are kept in {str(self.place.absolute())!r}"
            return CheckpointRefused(error.line, said)
        differs = checkpoints.differences(self.before, self.record)
        why = "; ".join(differs) or "it differs in nothing that was kept"
        other = CheckpointRefused(error.line, f"{why}; another folder keeps both jobs")
        other.differs = differs
        return other
