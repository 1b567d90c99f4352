"""Exceptions of calls: one for each status of the program, and a few of the package's own.
"""
from __future__ import annotations

import importlib
import types
import typing

if typing.TYPE_CHECKING:
    from .report import PlanCheck, Report


class AuditError(Exception):
    """A call that ended with a status other than 0.

    `status` is the program's status, and `line` the line that it wrote to standard error, without
    its line end. `labels` says the same in the user's own labels, as 'region 5 is "Kings"', where
    the line has numbers and the graph was at hand; else it is empty.
    """

    status = 0

    def __init__(self, line: str, labels: str = "") -> None:
        super().__init__(f"{line} ({labels})" if labels else line)
        self.line, self.labels = line, labels

    def __reduce__(self) -> tuple[object, ...]:
        return type(self), (self.line, self.labels), self.__dict__


class WordsRefused(AuditError):
    """Status 1: the words are refused; the line names the first that is unknown, missing or bad."""

    status = 1


class ArgumentRefused(WordsRefused):
    """An argument that is refused before the program is called.

    `argument` is its name, `given` its value, `allowed` says what is allowed, and `hint` the likely
    mistake, or is empty. `line` is what the program itself would write.
    """

    def __init__(
        self,
        said: str,
        argument: str = "",
        given: object = None,
        allowed: str = "",
        hint: str = "",
        line: str = "",
    ) -> None:
        super().__init__(said)
        self.argument, self.given, self.allowed, self.hint = argument, given, allowed, hint
        self.line = line

    def __reduce__(self) -> tuple[object, ...]:
        return type(self), (
            str(self), self.argument, self.given, self.allowed, self.hint, self.line,
        )


class ValueRefused(ArgumentRefused, ValueError):
    """An argument of the right type whose value is not allowed, alone or beside the others."""


class TypeRefused(ArgumentRefused, TypeError):
    """An argument that is unknown, missing, given twice, or of another type."""


class GraphRefused(AuditError):
    """Status 2: the graph, the table of plans, or a plan is refused, by the first fault in the
    order of docs/user/FORMATS.md.

    From `check`, `faults` has every fault of the plan in the user's labels, and `check` the table
    of its districts; else they are empty and None. `hint` says what mends the graph, or is empty.
    """

    status = 2
    hint = ""
    faults: typing.Sequence[str] = ()
    check: PlanCheck | None = None

    def __str__(self) -> str:
        said = super().__str__() + (f"; {self.hint}" if self.hint else "")
        return "\n  ".join([said + "; all faults:", *self.faults]) if len(self.faults) > 1 else said


class MemoryRefused(AuditError, MemoryError):
    """Status 3: the system gave too little memory. Nothing was written."""

    status = 3


class ReadFault(AuditError):
    """Status 4: the graph could not be read."""

    status = 4


class WriteFault(AuditError):
    """Status 5: the text could not be written; a front of it may be."""

    status = 5


class CheckpointUnreadable(AuditError):
    """Status 6: a checkpoint is there and could not be loaded, or another run holds the folder.

    Nothing was changed.
    """

    status = 6


class WorkLeft(AuditError):
    """Status 7: the budget is used up, and `done` of `total` trajectories are walked.

    The same call with resume=True goes on. `election` is the name of the election that these are
    of, or is empty without `elections`. `part_is_done` is true where the run's own part (`parts`,
    `part`) is complete, so that only other parts are left.
    """

    status = 7
    election = ""
    part_is_done = False

    def __init__(self, line: str, labels: str = "") -> None:
        super().__init__(line, labels)
        words = line.split(" ")
        if len(words) != 5 or words[0] != "stopped:" or not (words[1] + words[3]).isdigit():
            raise ProgramFailed(self.status, line)
        self.done, self.total = int(words[1]), int(words[3])


class CheckpointRefused(AuditError):
    """Status 8: no checkpoint is whole, or the newest is another job's. Nothing was changed.

    In the second case, `differs` has a text for each argument and part of the graph that differs
    from the run that wrote the checkpoint, as far as the package kept them.
    """

    status = 8
    differs: typing.Sequence[str] = ()


class SaveFault(AuditError):
    """Status 9: a checkpoint could not be saved.

    All else is done: `report` is the report, or None where work is left.
    """

    status = 9
    report: Report | None = None


class ProgramFailed(Exception):
    """A call that ended as the program never does by itself, as after a signal.

    `status` is negative for a signal, as in `subprocess`.
    """

    def __init__(self, status: int, line: str) -> None:
        super().__init__(f"the program ended with status {status}: {line or 'it said nothing'}")
        self.status, self.line = status, line

    def __reduce__(self) -> tuple[object, ...]:
        return type(self), (self.status, self.line)


class ProgramMissing(FileNotFoundError):
    """An installed program that was not found."""


class WrongProgram(ProgramMissing):
    """A program that was found and must not be used: of another version than the package, made for
    another processor, damaged, or another program.
    """


class NotProved(ValueError):
    """A report of a build that was made without a proof, where only a proved one may be used."""


class MissingExtra(ImportError):
    """An optional module that is not installed, or cannot be imported.

    The message says what the module is for and how to install it.

    `name` is the module, as in every ImportError, and `extra` the name of the extra that has it.
    """

    def __init__(self, module: str) -> None:
        module = module.split(".")[0]
        self.extra, what = EXTRAS[module]
        debian = (
            "" if module == "gerrychain" else f"Debian: apt-get install python3-{module}; else: "
        )
        super().__init__(
            (
                f"{module} is missing, which {what}: it is the extra `{self.extra}` ({debian}pip"
                f" install {module})"
            ),
            name=module,
        )

    def __reduce__(self) -> tuple[object, ...]:
        return type(self), (self.name,)


# For each optional module without which something cannot be done: the extra that has it, and what
# it does.
EXTRAS = {
    "networkx": ("graphs", "reads files of GraphML and GML"),
    "pandas": ("frames", "makes tables"),
    "matplotlib": ("pictures", "draws pictures"),
    "shapely": ("shapes", "measures compactness"),
    "geopandas": ("maps", "reads shapefiles and other maps"),
    "gerrychain": ("partitions", "makes partitions"),
}


def extra(module: str) -> types.ModuleType:
    """Imports and returns an optional module; raises MissingExtra if that fails."""
    try:
        return importlib.import_module(module)
    except ImportError as why:
        raise MissingExtra(module) from why


class Interrupted(KeyboardInterrupt):
    """A run that Ctrl-C stopped. The message says how many trajectories are saved, and what to do.

    `done` of `total` trajectories are saved in `folder`; `done` is 0 if none is.
    """

    def __init__(self, said: str, done: int = 0, total: int = 0, folder: str = "") -> None:
        super().__init__(said)
        self.done, self.total, self.folder = done, total, folder

    def __reduce__(self) -> tuple[object, ...]:
        return type(self), (str(self), self.done, self.total, self.folder)


class ReportRefused(ValueError):
    """A text with a form or arithmetic that no text of the program has.

    `number` is that of the first line at which this shows, from 1.
    """

    def __init__(self, number: int, why: str) -> None:
        super().__init__(f"line {number}: {why}")
        self.number, self.why = number, why

    def __reduce__(self) -> tuple[object, ...]:
        return type(self), (self.number, self.why)


class PrepareRefused(ValueError):
    """A graph, an assignment or a table of plans that is refused before the program is called.

    `why` says it in one line, and `faults` has a line for each value that is refused, with the id
    of its unit. The message is both, with the first ten faults.
    """

    SHOWN = 10

    def __init__(self, why: str, faults: typing.Sequence[str] = ()) -> None:
        self.why, self.faults = why, list(faults)
        some = (
            self.faults
            if len(self.faults) <= self.SHOWN
            else [
                *self.faults[: self.SHOWN],
                f"and {len(self.faults) - self.SHOWN} more (see .faults)",
            ]
        )
        super().__init__("\n  ".join([why + ":", *some]) if some else why)

    def __reduce__(self) -> tuple[type[PrepareRefused], tuple[str, list[str]]]:
        return type(self), (self.why, self.faults)


class FrozenWalk(UserWarning):
    """A trajectory that says little: its changes of the plan are fewer than the units."""


class HeadNotCompared(UserWarning):
    """A part of a trace's head that was not compared with the graph: a column is not named."""


class GraphChanged(UserWarning):
    """Values of a graph that a call changed to prepare it; the message says which."""


BY_STATUS: dict[int, type[AuditError]] = {
    kind.status: kind
    for kind in (
        WordsRefused, GraphRefused, MemoryRefused, ReadFault, WriteFault, CheckpointUnreadable,
        WorkLeft, CheckpointRefused, SaveFault,
    )
}


def error_of(status: int, line: str, labels: str = "") -> Exception:
    """Returns the exception for a status other than 0, with the program's line."""
    kind = BY_STATUS.get(status)
    return ProgramFailed(status, line) if kind is None else kind(line, labels)
