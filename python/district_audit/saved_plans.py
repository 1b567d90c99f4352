"""Audits of several plans that save: a run of each plan, in a folder of its own.

The command `plans` saves nothing. Here it judges all plans first, with walks of one step. Then
`run` walks each plan, with checkpoints: its report is the one that `plans` writes for the plan,
except for the lines `source` and `columns`, which `plans` has written while it judged.

Beside the plans' folders lies `plans-job.json`, which says of what audit they are.
"""
from __future__ import annotations

import dataclasses
import errno
import fcntl
import hashlib
import json
import os
import pathlib
import re
import typing

from . import checkpoints
from . import progress as bars
from .arguments import TABLE, count_in, flag, refuse, test_value
from .custody import File, write_whole
from .errors import (
    CheckpointRefused,
    CheckpointUnreadable,
    Interrupted,
    TypeRefused,
    ValueRefused,
    error_of,
)
from .graphs import sort_labels
from .program import Ended, PathLike, call
from .running import SideBySide, Skipped, count_beside
from .tables import records_of
from .words import word_of

GOES_ON = "the same call with resume=True goes on"
ANEW = "overwrite=True starts anew"
RECORD, FORMAT = "plans-job.json", "district-audit plans 1"
BUSY = "checkpoint: another run holds the folder"
# The system has no locks of folders, or none on this disk: calls go on without one.
NO_LOCKS = (errno.ENOLCK, errno.EOPNOTSUPP, errno.ENOSYS)
# Words of the walks, which the call that judges all plans leaves out.
OF_WALKS = frozenset(
    ("--walks", "--steps", "--ends", "--hub-steps", "--stop", "--shift", "--serial", "--pairs",
     "--workers")
)
# The end of a unit for each number of its district.
NUMBERS = [b"%d}" % number for number in range(256)]
OF_COLUMNS = ("--pop", "--first", "--second", "--region", "--group", "--group-of", "--freeze")


@dataclasses.dataclass(frozen=True)
class Saving:
    """How an audit of plans saves: after how many trajectories, and in which folder."""

    save: str
    resumes: bool = False
    folder: pathlib.Path = pathlib.Path()
    overwrite: bool = False


def saving_of(given: typing.Mapping[str, object]) -> Saving | None:
    """Returns how a call of `plans` saves, from its arguments; None where it saves nothing."""
    named = {name: value for name, value in given.items() if value not in (None, False)}
    for name in ("save", "resume"):
        if name in named:
            test_value("plans", TABLE[name], named)
    if named.pop("progress", True) is not True:
        refuse(ValueRefused, "plans", "progress", given["progress"], "progress is True or False")
    if count_in(named, "save") == 0:
        for name in ("resume", "folder", "overwrite"):
            if named.get(name) not in (None, "no"):
                refuse(
                    TypeRefused, "plans", name, given[name],
                    f"{name} is for an audit that saves", "save=1 saves after each trajectory",
                )
        return None
    resumes, folder = flag(named, "resume"), typing.cast(PathLike, named.get("folder", "."))
    if resumes and "overwrite" in named:
        refuse(
            TypeRefused, "plans", "overwrite", True,
            "resume is given too: resume=True goes on, and overwrite=True starts anew",
        )
    return Saving(word_of(named["save"]), resumes, pathlib.Path(folder), "overwrite" in named)


def walk_plans(
    program: str, words: typing.Sequence[str], data: bytes, saving: Saving,
    watch: bars.PlanCount | None = None,
) -> Ended:
    """Audits plans in a folder, and returns how `plans` ends with these words and this input.

    `program` is the path of the program, and `data` the graph, a line feed and the table. What is
    walked already is not walked again. Raises what `Store` and `PlanRuns.execute` raise.
    """
    given = dict(zip(words[1::2], words[2::2]))
    store = Store(saving, record_of(program, given, data))
    runs = PlanRuns(program, given, data, store, saving.save)
    runs.watch = watch
    try:
        judged = runs.judge()
        return judged if judged.status else judged._replace(text=runs.execute(judged))
    except Interrupted:
        raise
    except KeyboardInterrupt:
        raise runs.make_interrupted() from None
    finally:
        store.close()


# ---- the graph of each plan


class PlanGraphs:
    """The graph of each plan as `run` reads it: with what the words name, and a column of the plan.

    The program has accepted the graph, the table and the words before.
    """

    def __init__(self, data: bytes, given: typing.Mapping[str, str]) -> None:
        graph, _, table = data.partition(b"\n")
        root = json.loads(graph.decode("utf-8"))
        nodes, length = root["nodes"], given.get("--length", "")
        names = [given.get(word, "") for word in OF_COLUMNS]
        kept = dict.fromkeys(["id", *names[:3], *(name for name in names[3:] if name)])
        self.column = "d"
        while self.column in kept:
            self.column += "d"
        self.units = [
            as_bytes({name: node[name] for name in kept})[:-1]
            + b"," + as_bytes(self.column) + b":" for node in nodes
        ]
        entries = dict.fromkeys(["id", *([length] if length else [])])
        near = [[{name: one[name] for name in entries} for one in row] for row in root["adjacency"]]
        head = {name: root[name] for name in ("directed", "multigraph") if name in root}
        self.front = as_bytes({**head, "adjacency": near})[:-1] + b',"nodes":['
        self.plans = [number_labels([node[given["--district"]] for node in nodes])]
        self.plans += plans_in(table, [str(node["id"]) for node in nodes])

    def graph(self, plan: int) -> bytes:
        """Returns the bytes of a plan's graph; 0 is the graph's own plan."""
        nodes = [unit + NUMBERS[number] for unit, number in zip(self.units, self.plans[plan])]
        return self.front + b",".join(nodes) + b"]}"


def as_bytes(value: object) -> bytes:
    """Returns a value as JSON without white space."""
    return json.dumps(value, ensure_ascii=False, separators=(",", ":")).encode("utf-8")


def number_labels(labels: typing.Sequence[typing.Union[int, str]]) -> bytes:
    """Returns the number of each label, in the order in which the program numbers districts."""
    number = {label: at for at, label in enumerate(sort_labels(labels))}
    return bytes(number[label] for label in labels)


def plans_in(table: bytes, ids: typing.Sequence[str]) -> list[bytes]:
    """Returns for each plan of a table the number of each unit's district, by the units' ids."""
    unit_of = {one: at for at, one in enumerate(ids)}
    head, *rows = records_of(table.decode("utf-8-sig"))
    seen: list[dict[str, int]] = [{} for _ in head[1:]]
    plans = [bytearray(len(ids)) for _ in seen]
    for one, *labels in rows:
        unit = unit_of[one]
        for plan, known, label in zip(plans, seen, labels):
            plan[unit] = known.setdefault(label, len(known))
    # Districts are numbered in the order in which they were seen first, and then by their labels.
    places = [number_labels(list(known)).ljust(256) for known in seen]
    return [bytes(plan.translate(place)) for plan, place in zip(plans, places)]


# ---- the record of the folder


class Record(typing.NamedTuple):
    """The record of an audit of plans, beside the folders of the plans."""

    sha256: dict[str, str]
    """The SHA-256 of the graph, of the table of plans and of the program, by what it is of."""
    words: dict[str, str]
    """The words of `plans` by their names, all but `workers`."""


def record_of(program: str, given: typing.Mapping[str, str], data: bytes) -> Record:
    """Returns the record of an audit. Raises OSError if the program's file cannot be read."""
    graph, _, table = data.partition(b"\n")
    words: dict[str, str] = {}
    for name, row in TABLE.items():
        if "plans" in row.commands and name != "workers":
            value = given.get(row.word, "" if row.default is None else word_of(row.default))
            words[name] = value.lower() if name == "key" else value
    sha256 = {
        "graph": hashlib.sha256(graph).hexdigest(),
        "table of plans": hashlib.sha256(table).hexdigest(),
        "program": File.measure(program).sha256,
    }
    return Record(sha256, words)


def write_record(record: Record) -> bytes:
    value = {"format": FORMAT, **record._asdict()}
    return (json.dumps(value, indent=1) + "\n").encode("utf-8")


def read_record(folder: pathlib.Path) -> Record | None:
    """Returns the record in a folder; None if there is none that can be read. Raises OSError."""
    try:
        found = json.loads((folder / RECORD).read_bytes())
        record = Record(dict(found["sha256"]), dict(found["words"]))
        texts = [*record.sha256.values(), *record.words.values()]
    except FileNotFoundError:
        return None
    except (ValueError, KeyError, TypeError):
        return None
    is_good = found.get("format") == FORMAT and all(isinstance(one, str) for one in texts)
    return record if is_good else None


def differences(before: Record, now: Record) -> list[str]:
    """Returns a text for each part in which two audits differ."""
    found = [
        f"the {what} is another one (its SHA-256 was {before.sha256.get(what)} and is {digest})"
        for what, digest in now.sha256.items() if before.sha256.get(what) != digest
    ]
    for name in dict.fromkeys((*before.words, *now.words)):
        one, other = before.words.get(name), now.words.get(name)
        if one != other:
            found.append(f"{name} was {one or 'left out'} and is {other or 'left out'}")
    return found


# ---- the folder


class Store:
    """The folder of an audit of plans: its record, a lock, and a folder of each plan."""

    def __init__(self, saving: Saving, record: Record) -> None:
        """Refuses a folder that is not there, that another call has, or that has another audit.

        Raises FileNotFoundError, OSError, CheckpointUnreadable, CheckpointRefused or ValueRefused.
        """
        self.place, self.record, self.resumes = saving.folder, record, saving.resumes
        if not self.place.is_dir():
            raise FileNotFoundError(f"folder={str(self.place)!r}: there is no such folder")
        self.handle = os.open(self.place, os.O_RDONLY)
        try:
            self.lock()
            if not saving.overwrite:
                self.test_folder()
        except BaseException:
            self.close()
            raise

    def close(self) -> None:
        """Ends the lock."""
        os.close(self.handle)

    def lock(self) -> None:
        """Takes the lock of the folder, so that no two calls write there."""
        try:
            fcntl.flock(self.handle, fcntl.LOCK_EX | fcntl.LOCK_NB)
        except BlockingIOError:
            raise CheckpointUnreadable(BUSY, f"another call uses {self.where}") from None
        except OSError as error:
            if error.errno not in NO_LOCKS:
                raise

    @property
    def where(self) -> str:
        return repr(str(self.place.absolute()))

    def folder(self, plan: int) -> pathlib.Path:
        """Returns the folder of a plan; 0 is the graph's own plan."""
        return self.place / f"plan-{plan:04}"

    def slots(self) -> list[pathlib.Path]:
        """Returns the checkpoints of all plans that lie there."""
        return sorted(
            path / name
            for path in self.place.glob("plan-*") if re.fullmatch(r"plan-\d{4}", path.name)
            for name in checkpoints.SLOTS if os.path.lexists(path / name)
        )

    def test_folder(self) -> None:
        """Refuses the checkpoints of another audit, and those that the call would write over."""
        before, ways = read_record(self.place), f"{ANEW}, another folder keeps both"
        has_record = os.path.lexists(self.place / RECORD)
        if not has_record and not self.slots():
            return
        if not self.resumes:
            refuse(
                ValueRefused, "plans", "folder", str(self.place.absolute()),
                "the folder has an audit of plans, which this call would write over",
                f"resume=True goes on with it, {ways}",
            )
        if before is None:
            what = f"{RECORD} in {self.where} cannot be read" if has_record else (
                f"{self.where} has checkpoints of plans and no {RECORD}"
            )
            raise CheckpointRefused("checkpoint: other job", f"{what}; {ways}")
        found = differences(before, self.record)
        if found:
            error = CheckpointRefused("checkpoint: other job", f"{'; '.join(found)}; {ways}")
            error.differs = found
            raise error

    def begin(self) -> None:
        """Keeps the record; unless the call goes on, takes away the checkpoints of before first.

        Raises OSError if the folder takes no file.
        """
        if not self.resumes:
            (self.place / RECORD).unlink(missing_ok=True)
            for path in self.slots():
                path.unlink()
        write_whole(self.place / RECORD, write_record(self.record))

    def count_saved(self, plans: int, each: int) -> tuple[int, int]:
        """Returns how many plans are whole, and how many trajectories are saved in all of them."""
        newest = (
            checkpoints.newest_of(checkpoints.slots_in(self.folder(plan))) for plan in range(plans)
        )
        done = [0 if one is None else one.done for one in newest]
        return done.count(each), sum(done)


def is_first_save_torn(folder: pathlib.Path) -> bool:
    """Returns whether the first save of a plan failed or was cut off, so that nothing is saved."""
    first, second = (folder / name for name in checkpoints.SLOTS)
    is_alone = first.is_file() and not os.path.lexists(second)
    return is_alone and checkpoints.slots_in(folder)[0] is None


# ---- the runs


class PlanRuns(SideBySide[str]):
    """The runs of all plans of an audit, side by side over the processors."""

    def __init__(
        self, program: str, given: typing.Mapping[str, str], data: bytes, store: Store, save: str
    ) -> None:
        super().__init__()
        self.program, self.given, self.data = program, given, data
        self.store, self.save = store, save
        self.names: list[str] = []

    def judge(self) -> Ended:
        """Returns how `plans` ends with these words, but for walks of one step.

        So the first plan that is refused is named before anything is walked.
        """
        kept = {word: value for word, value in self.given.items() if word not in OF_WALKS}
        return call(self.program, flatten("plans", {**kept, "--steps": "1"}), self.data)

    def execute(self, judged: Ended) -> str:
        """Runs all plans, and returns the text that `plans` would write.

        Raises the exception for the status of the first run that failed; OSError; Interrupted.
        """
        self.store.begin()
        self.names = re.findall(r"(?:\A|\nend\n)plan (.*)", judged.text)
        self.graphs = PlanGraphs(self.data, self.given)
        has_source = self.given.get("--source") == "yes"
        source = judged.text.split("\n")[2:4] if has_source else []
        together = count_beside(int(self.given.get("--workers", "1")), len(self.names))
        texts = self.collect([str(plan) for plan in range(len(self.names))], together)
        found = []
        for name, text in zip(self.names, texts.values()):
            first, rest = text.split("\n", 1)
            found.append("\n".join([f"plan {name}", first, *source, rest]))
        return "".join(found)

    def execute_one(self, name: str) -> str:
        """Runs one plan and returns its report."""
        plan = int(name)
        folder = self.store.folder(plan)
        folder.mkdir(exist_ok=True)
        data = self.graphs.graph(plan)
        ended = self.call_plan(folder, data, self.store.resumes)
        if ended.status == CheckpointRefused.status and is_first_save_torn(folder):
            ended = self.call_plan(folder, data, False)
        if ended.status:
            raise self.make_error(ended, plan)
        with self.lock:
            if isinstance(self.watch, bars.PlanCount):
                self.watch.done += 1
                self.watch()
        return ended.text

    def call_plan(self, folder: pathlib.Path, data: bytes, resumes: bool) -> Ended:
        """Returns how `run` ends for the plan in a graph, with checkpoints in a folder.

        A run of a call that was killed may still go on in the folder: this one waits for its end.
        """
        kept = {word: value for word, value in self.given.items() if word != "--source"}
        words = flatten("run", {
            **kept, "--district": self.graphs.column, "--save": self.save,
            "--resume": word_of(resumes),
        })
        while True:
            ended = call(self.program, words, data, folder, self.show)
            if ended.line != BUSY:
                return ended
            if self.is_stopped.wait(0.2):
                raise Skipped

    def make_error(self, ended: Ended, plan: int) -> Exception:
        """Returns the exception for a run that failed, with its plan's name."""
        folder = self.store.folder(plan).absolute()
        is_damaged = ended.status == CheckpointRefused.status
        without = f"without {' and '.join(checkpoints.SLOTS)} there, " if is_damaged else ""
        said = f"plan {self.names[plan]} in {str(folder)!r}; {without}{GOES_ON}"
        return error_of(ended.status, ended.line, said)

    def make_interrupted(self) -> Interrupted:
        """Returns the exception for runs that Ctrl-C stopped; its message says what is saved."""
        if not self.names:
            return Interrupted("stopped while the plans were judged, before anything was walked")
        plans = len(self.names)
        each = int(self.given.get("--walks", "1")) + int(self.given.get("--ends", "0"))
        whole, done = self.store.count_saved(plans, each)
        all_of = plans * each
        said = f"stopped: {whole} of {plans} plans done, {done} of {all_of} trajectories saved"
        if done:
            said += f" in {self.store.where}; {GOES_ON}; of trajectories under way nothing is kept"
        return Interrupted(said, done, all_of, str(self.store.place.absolute()))


def flatten(command: str, given: typing.Mapping[str, str]) -> list[str]:
    """Returns a command and its words."""
    return [command, *(part for pair in given.items() for part in pair)]
