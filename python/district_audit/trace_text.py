"""The text of a trace: where its lines come from, and what each of them says.

Reading is strict: a text of impossible form or arithmetic is refused, with the number of the
line. Lines are read one by one, so a text of any length takes no more memory than its longest line.
"""
from __future__ import annotations

import dataclasses
import re
import subprocess
import tempfile
import typing

from . import labels as naming
from .calls import Given
from .errors import ReportRefused, error_of
from .program import NOT_PROVED, stop
from .report import ASK, BILLION, Line, Reader, Rules, Setting, Source, Start, head_of
from .report import setting_of, source_of

# A head has fewer lines than this.
MOST_HEAD_LINES = 64


class TraceRefused(ReportRefused):
    """A text that is not a complete trace of the program, or is one of another graph. `number` is
    that of the first line at which this shows, from 1."""


@dataclasses.dataclass(frozen=True)
class TraceHead:
    """The lines of a trace before its first plan."""

    key: str
    """The key's 64 hexadecimal digits."""
    units: int
    edges: int
    districts: int
    population: int
    """In people."""
    rules: Rules
    setting: Setting
    asks: tuple[Line, ...]
    """For each ask its score, its tail and the enacted plan's value."""
    source: Source | None = None
    """The bytes and columns that were read; None if the trace does not name them."""


# ---- where the lines come from

class Lines(typing.Protocol):
    """The lines of a text, and the checks after the last."""

    def read(self) -> bytes:
        """Returns the next line with its line end, or nothing at the end of the text."""

    def finish(self) -> None:
        """Raises what went wrong with the text's source."""

    def close(self) -> None:
        """Releases the source; a second call does nothing."""


class FileLines:
    """The lines of an open file."""

    def __init__(self, file: typing.BinaryIO) -> None:
        self.file = file

    def read(self) -> bytes:
        """Returns the next line."""
        return self.file.readline()

    def finish(self) -> None:
        """Returns at once: a file has no error to raise after its text."""

    def close(self) -> None:
        """Closes the file."""
        self.file.close()


class ProgramLines:
    """The lines that a running program writes."""

    def __init__(self, program: str, sent: Given) -> None:
        self.sent = sent
        # Files in place of pipes: the program never waits for its input or for its note.
        self.graph = tempfile.TemporaryFile()
        self.note = tempfile.TemporaryFile()
        self.graph.write(sent.data)
        self.graph.seek(0)
        self.process = subprocess.Popen([program, *sent.words], stdin=self.graph,
                                        stdout=subprocess.PIPE, stderr=self.note)

    def read(self) -> bytes:
        """Returns the next line that the program writes."""
        assert self.process.stdout is not None
        return self.process.stdout.readline()

    def finish(self) -> None:
        """Waits for the program's end; raises the exception of its status if that is not 0."""
        status = self.process.wait()
        if status == 0:
            return
        self.note.seek(0)
        line = self.note.read().decode("utf-8", "surrogateescape")
        line = NOT_PROVED.sub("", line, count=1) if NOT_PROVED.match(line) else line
        line = line.removesuffix("\n")
        said = naming.translate(line, naming.labels_of(self.sent.data, self.sent.named))
        raise error_of(status, line, said)

    def close(self) -> None:
        """Ends the program if it still runs."""
        if self.process.poll() is None:
            stop(self.process)
        for file in (self.process.stdout, self.graph, self.note):
            if file is not None:
                file.close()


# ---- reading

class Trajectory(typing.NamedTuple):
    """A trajectory of a trace."""

    number: int
    steps: int
    thin: int

    def find_step(self, place: int) -> int:
        """Returns the step of the line at a place, from 0."""
        return min(place * self.thin, self.steps)

    @property
    def line_count(self) -> int:
        """The number of its lines."""
        return -(-self.steps // self.thin) + 1


class Shown(typing.NamedTuple):
    """A line of a plan."""

    step: int
    moves: int
    numerators: tuple[int, ...]
    units: list[int]
    """The units that are in another district than in the line before, by rising number."""
    districts: list[int]
    """The district of each of these."""


class Text:
    """The lines of a trace, each of which is refused where the program cannot have written it."""

    def __init__(self, lines: Lines) -> None:
        self.lines = lines
        self.number = 0
        """The number of the line that was read last, from 1."""
        self.unproved = ""
        """The first line, in which the program said that it was built without a proof; or empty."""

    def refuse(self, why: str) -> typing.NoReturn:
        """Raises TraceRefused at the line that was read last."""
        raise TraceRefused(self.number, why)

    def ask_that(self, holds: bool, why: str) -> None:
        """Refuses the line that was read last where something does not hold."""
        if not holds:
            self.refuse(why)

    def line(self, expected: str) -> str:
        """Returns the next line. Where it is not whole the source's own fault comes first."""
        line = self.lines.read()
        self.number += 1
        if not line.endswith(b"\n"):
            self.lines.finish()
            self.refuse("the text ends within a line" if line else
                        f"the text ends where {expected} is expected")
        return line[:-1].decode("utf-8", "surrogateescape")

    def end(self) -> None:
        """Refuses anything behind the last line, and raises the source's own fault."""
        behind = self.lines.read()
        self.lines.finish()
        self.number += 1
        self.ask_that(not behind, "text follows the line `end`")

    def head(self) -> tuple[TraceHead, str]:
        """Returns the head, and the line behind it, which begins with `trace`."""
        said: list[str] = []
        while True:
            line = self.line("a line `trace id i steps S thin N`")
            if line.startswith("trace "):
                break
            if self.number == 1 and NOT_PROVED.fullmatch(line):
                self.unproved = line
                continue
            said.append(line)
            self.ask_that(len(said) < MOST_HEAD_LINES, "no line `trace` ends the head")
            self.ask_that(said[0] == "district-trace 1", "it is not `district-trace 1`")
        try:
            return self.parsed_head(Reader(said)), line
        except TraceRefused:
            raise
        except ReportRefused as why:
            raise TraceRefused(why.number, why.why) from None

    def parsed_head(self, lines: Reader) -> TraceHead:
        """Returns the head of its lines."""
        lines.take("district-trace 1", "district-trace 1")
        source = source_of(lines)
        key, = lines.take("key ([0-9a-f]{64})", "key K")
        head, setting = head_of(lines, source), setting_of(lines)
        lines.ask_that(setting.stop == 0, "a trace cannot have a line `stop`")
        asks: list[Line] = []
        while lines.next() is not None or not asks:
            score, tail, top, below = lines.take("ask " + ASK, "ask SCORE TAIL start a/b")
            ask = Line(score, tail, Start(int(top), int(below)))
            lines.ask_that(all(ask.ask != other.ask for other in asks), "this question is repeated")
            lines.ask_that(below == str(denominator(score, head.districts, ask.start)),
                           "the denominator is not that of this score")
            asks.append(ask)
        return TraceHead(key, *head, setting, tuple(asks), source)

    def trajectory(self, line: str, head: TraceHead, before: Trajectory | None) -> Trajectory:
        """Returns the trajectory of a line `trace`, which comes behind another or first."""
        found_words = re.fullmatch("trace id ([0-9]+) steps ([0-9]+) thin ([0-9]+)", line)
        if found_words is None:
            self.refuse("it does not have the form `trace id i steps S thin N`")
        one = Trajectory(*map(int, found_words.groups()))
        setting = head.setting
        steps = setting.steps if one.number < setting.walks else setting.hub_steps
        self.ask_that(one.number < setting.walks + setting.ends, "the id is out of range")
        self.ask_that(one.steps == steps, "the trajectory has another number of steps")
        self.ask_that(1 <= one.thin <= BILLION, "the thinning is out of range")
        if before is not None:
            self.ask_that(one.number == before.number + 1 and one.thin == before.thin,
                          "the sections must be in order of rising id")
        return one

    def read_plan(self, form: re.Pattern[str], step: int) -> Shown:
        """Returns the next line of a plan, which must have the form and be that of the step."""
        line = self.line(f"the plan after {step} steps")
        parts = form.fullmatch(line)
        if parts is None:
            self.refuse("it does not have the form of a plan's line with these asks")
        self.ask_that(parts[1] == str(step), f"the plan after {step} steps is expected here")
        pairs = list(map(int, parts[4].replace(":", " ").split()))
        numerators = tuple(map(int, parts[3].split()))
        return Shown(step, int(parts[2]), numerators, pairs[::2], pairs[1::2])


def plan_line(asks: int) -> re.Pattern[str]:
    """Returns the form of a line of a plan with this number of scores: step, moves, scores,
    changes.
    """
    number = "(?:0|[1-9][0-9]*)"
    return re.compile(f"({number}) ({number})((?: (?:0|-?[1-9][0-9]*)){{{asks}}})"
                      f"((?: {number}:{number})*)")


def denominator(score: str, districts: int, start: Start) -> int:
    """Returns the denominator that a score has; that of the gap is any even number above 0."""
    if score == "gap":
        return start.denominator if start.denominator > 0 and start.denominator % 2 == 0 else 0
    if score == "mean-median":
        return 2 * districts * BILLION
    if score in ("seats", "cut-edges", "cut-length"):
        return 1
    raise ValueError(f"unknown score {score}")
