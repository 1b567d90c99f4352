"""Displays of a run's progress: the number of saved trajectories, and none of the results.

A test is spoiled if somebody sees its results before its end and may stop it there. The number of
saved trajectories comes from the checkpoints, or from the program `audit_slots`. A run that saves
nothing shows how long it has taken.
"""
from __future__ import annotations

import os
import re
import subprocess
import sys
import tempfile
import time
import typing

from .program import PathLike, stop

WIDTH = 40
# More bytes than a line of a plan has, with a change of each unit.
TAIL = 2_000_000


class Bar(typing.Protocol):
    """A progress bar: `show` gets the count and the total again and again, and `end` is called
    once.
    """

    def show(self, done: int, total: int) -> None:
        ...

    def end(self) -> None:
        ...


class PlainBar:
    """A bar in one line of a terminal, by Python alone; elsewhere a line each time that the number
    changes.
    """

    def __init__(self, stream: typing.TextIO | None = None, name: str = "") -> None:
        self.stream = stream or sys.stderr
        self.name = f"{name}: " if name else ""
        self.is_terminal = self.stream.isatty()
        self.last: tuple[int, int] | None = None

    def show(self, done: int, total: int) -> None:
        if (done, total) == self.last:
            return
        self.last = done, total
        text = f"{self.name}walked {done} of {total}"
        if self.is_terminal:
            full = WIDTH * done // max(total, 1)
            bar = "#" * full + "." * (WIDTH - full)
            self.stream.write(f"\r[{bar}] {text} ")
        else:
            self.stream.write(text + "\n")
        self.stream.flush()

    def end(self) -> None:
        if self.is_terminal and self.last is not None:
            self.stream.write("\n")
            self.stream.flush()


class Ticker(typing.Protocol):
    """A bar of tqdm, as far as it is used here."""

    n: int

    def refresh(self) -> object:
        """Draws the bar."""

    def close(self) -> object:
        """Leaves the bar as it is."""


class TqdmBar:
    """A bar by tqdm, which also draws in notebooks."""

    def __init__(
        self, tqdm: typing.Callable[..., Ticker], name: str = "", unit: str = "walk"
    ) -> None:
        self.tqdm, self.name, self.unit = tqdm, name, unit
        self.bar: Ticker | None = None

    def show(self, done: int, total: int) -> None:
        if self.bar is None:
            self.bar = self.tqdm(total=total, unit=self.unit, desc=self.name or "walked")
        self.bar.n = done
        self.bar.refresh()

    def end(self) -> None:
        if self.bar is not None:
            self.bar.close()


def new_bar(name: str = "", unit: str = "walk") -> Bar:
    """Returns tqdm's bar where it is installed, else a plain one, with the name of what it shows.
    """
    try:
        from tqdm.auto import tqdm
    except ImportError:
        return PlainBar(name=name)
    return TqdmBar(tqdm, name, unit)


class PlanCount:
    """The display of how many plans are audited: those whose reports are whole."""

    def __init__(self, total: int, bar: Bar) -> None:
        self.total, self.bar = total, bar
        self.done, self.rest = 0, b""

    def __call__(self, _process: object = None) -> None:
        self.bar.show(self.done, self.total)

    def read(self, piece: bytes) -> None:
        """Counts the reports that end in the next piece of a text of `plans`."""
        *lines, self.rest = (self.rest + piece).split(b"\n")
        self.done += lines.count(b"end")
        self()

    def end(self) -> None:
        self()
        self.bar.end()


class Look(typing.NamedTuple):
    """The answer of `audit_slots`."""

    slots: str
    """Its lines on the slots, which change with each save."""
    done: int | None
    """The number of this job's trajectories in the newest slot; None where no slot is of this job.
    """
    total: int | None


def look(program: str, words: typing.Sequence[str], data: bytes, folder: PathLike | None) -> Look:
    """Asks once how far the run in a folder is; its words are those of the run."""
    end = subprocess.run(
        [program, *words], cwd=folder, input=data, stdout=subprocess.PIPE,
        stderr=subprocess.DEVNULL, check=False,
    )
    text = end.stdout.decode("utf-8", "replace")
    found = re.search(r"^done: ([0-9]+) of ([0-9]+)$", text, re.MULTILINE)
    slots = "\n".join(line for line in text.splitlines() if line.startswith("slot "))
    return Look(slots, int(found[1]), int(found[2])) if found else Look(slots, None, None)


class Clock:
    """The display of the time that a run without checkpoints has taken.

    Its first line comes within a second. A terminal then renews it each second; elsewhere a line
    comes after 10 seconds, and each time that the time has doubled.
    """

    def __init__(
        self, total: int, stream: typing.TextIO | None = None, name: str = ""
    ) -> None:
        self.stream = stream or sys.stderr
        self.name = f"{name}: " if name else ""
        self.is_terminal = self.stream.isatty()
        self.total, self.began = total, time.monotonic()
        self.due = 0.3
        self.has_shown = False
        self.done = 0

    def describe(self, seconds: float) -> str:
        return (
            f"{self.name}walking {self.total} trajectories for {seconds:.0f} s (save=1 shows how"
            " many are walked)"
        )

    def __call__(self, _process: object = None) -> None:
        seconds = time.monotonic() - self.began
        if seconds < self.due:
            return
        self.due = seconds + 1 if self.is_terminal else max(10, 2 * seconds)
        text = self.describe(seconds)
        self.stream.write(f"\r{text} " if self.is_terminal else text + "\n")
        self.stream.flush()
        self.has_shown = True

    def end(self) -> None:
        if self.is_terminal and self.has_shown:
            self.stream.write("\n")
            self.stream.flush()


class StepClock(Clock):
    """The display of the steps of a run's first trajectory, which a second process walks again.

    That process runs `trace`, so it takes one more processor for the time of one trajectory, and
    the memory of one more graph. The report does not depend on it.
    """

    def __init__(
        self,
        total: int,
        steps: int,
        command: typing.Sequence[str],
        data: bytes,
        stream: typing.TextIO | None = None,
    ) -> None:
        """Starts the second process: `command` is the program with the words of `trace`, and `data`
        is the graph.
        """
        super().__init__(total, stream)
        self.steps = steps
        self.graph, self.text = tempfile.TemporaryFile(), tempfile.TemporaryFile()
        self.graph.write(data)
        self.graph.seek(0)
        self.process = subprocess.Popen(
            list(command), stdin=self.graph, stdout=self.text, stderr=subprocess.DEVNULL
        )

    def describe(self, seconds: float) -> str:
        """Returns the step of the last whole line of the trace, in words."""
        step = self.step()
        if step is None:
            return super().describe(seconds)
        done = f"{step} of {self.steps} steps in {seconds:.0f} s"
        return f"first of {self.total} trajectories: {done}"

    def step(self) -> int | None:
        """Returns the step of the last whole line of a plan; None before the first."""
        # The process shares the file's place, where it writes next: a seek would move that too.
        file = self.text.fileno()
        start = max(0, os.fstat(file).st_size - TAIL)
        lines = os.pread(file, TAIL, start).split(b"\n")[:-1]
        if lines[-1:] == [b"end"]:
            return self.steps
        steps = [line.split(b" ")[0] for line in lines[1:] if line[:1].isdigit()]
        return int(steps[-1]) if steps else None

    def end(self) -> None:
        """Ends the second process."""
        if self.process.poll() is None:
            stop(self.process)
        self.graph.close()
        self.text.close()
        super().end()


class Watch:
    """The display of a run's saved trajectories, which looks for them now and then.

    A look takes as long as reading the graph, and looks take less than a tenth of the time.
    """

    def __init__(
        self, ask: typing.Callable[[], Look], total: int, is_resumed: bool, bar: Bar
    ) -> None:
        self.ask, self.total, self.bar = ask, total, bar
        self.is_resumed = is_resumed
        self.due = 0.0
        self.done = 0
        # Slots from before the run are its own only where it goes on from them.
        self.before = None if is_resumed else ask().slots

    def __call__(self, _process: object = None) -> None:
        if time.monotonic() < self.due:
            return
        began = time.monotonic()
        self.take(self.ask())
        self.due = time.monotonic() + max(0.5, 9 * (time.monotonic() - began))

    def take(self, seen: Look) -> None:
        if seen.slots != self.before and seen.done is not None and seen.total is not None:
            self.before = None
            self.done, self.total = seen.done, seen.total
        self.bar.show(self.done, self.total)

    def end(self) -> None:
        """Looks a last time, and ends the bar."""
        self.take(self.ask())
        self.bar.end()
