"""The commands: district-audit-prepare, district-audit-picture and district-audit-run."""
from __future__ import annotations

import argparse
import os
import pathlib
import signal
import subprocess
import sys
import typing

from . import checkpoints
from . import labels as naming
from . import progress as bars
from .arguments import MOST_CUT_LENGTH
from .preparing import MOST_CUT
from .errors import (
    ArgumentRefused,
    AuditError,
    MissingExtra,
    PrepareRefused,
    ProgramFailed,
    ProgramMissing,
    ReportRefused,
)
from .preparing import Prepared, prepare_map
from .program import Ended, call, feed, find_program, stop
from .report import Report
from .saved_plans import Saving, walk_plans
from .tables import count_plans
from .values import test_labels_of

GOES_ON = "the same command with --resume yes goes on in this folder"
NOTHING_SAVED = "nothing was saved (--save 1 saves after each trajectory)"
# Arguments that texts of the package name, and the words of the command in their place.
IN_WORDS = (
    ('(choose numbers="nearest" or "floor")', "(choose --numbers nearest or floor)"),
    ('(choose missing="zero" or "drop")', "(choose --missing zero or drop)"),
    ('(choose missing="drop")', "(choose --missing drop)"),
    (
        '(choose fill_region=LABEL, own_region=True or missing="drop")',
        "(choose --fill-region LABEL, --own-region or --missing drop)",
    ),
    ("(join=[(A, B)] makes", "(--join A B makes"),
    ("(slack=", "(--slack "),
)
# Words of the command whose argument of `prepare` has another name.
NAMES = {"pop": "population"}
PREPARE = """Turns a file of GerryChain or networkx into one that the auditor accepts.

It prints every change. FILE is JSON in networkx's adjacency layout, which GerryChain's
Graph.to_json writes, or in its node-link layout. If networkx is installed, FILE may also be GraphML
or GML, with a name that ends with .graphml or .gml. Otherwise only Python itself is needed.

--numbers is for a number in a column of people, votes or a group that is not whole:
    error    it is refused (the default); a whole number written as a float, as 12.0, is taken
    nearest  the nearest whole number, halves to the even one
    floor    the greatest whole number that is not above it
--missing is for a value that is absent, null, NaN or an empty text:
    error    it is refused (the default)
    zero     0, in a column of people, votes or a group; a missing district or region is refused
    drop     its unit is left out, and the unit's edges with it
A column that no unit has is always refused.
--slack is that of the audit, in hundredths of a percent of the ideal population, 500 by default.
--region keeps a column of regions, as counties. The notes give the most districts in one region,
the number of split regions, and the splits in all. --max-split, --max-splits and
--max-split-regions are those of the audit, and limit nothing by default. --fill-region makes one
region of all units that have none. --own-region makes each of them a region of its own.
--group keeps the column of a group. The notes list the districts in which it has a majority of
--group-of, with its shares there, rounded down. --group-of names a column, which is kept too; the
default is the people. --group-districts and --group-share are those of the audit, 0 and 5000 by
default.
--freeze keeps the column of frozen units: each has true, false or a whole number in it.
--length keeps a column of the edges, as GerryChain's shared_perim. A length that is not whole
becomes the nearest whole number, halves the even one. A length is refused if it is missing, below 0
or another one in the other direction. Units that are joined have a length of 0. The notes give the
total length of the edges between districts. --max-length is that of the audit, and limits nothing
by default.
--join makes two units neighbors, as an island and what it belongs to. It may be given again.
--keep keeps a further column, as it is; all others are left out. --all prints all ids, and not only
the first ten.

The graph goes to --out, or to standard output. Standard error lists the changes, and the reasons
for which the auditor would refuse the file. The exit status is 0 if the auditor accepts the file, 1
if it was written and would be refused, and 2 if it was not written.
"""
PICTURE = """Draws a report of the auditor as one picture, in PNG and in SVG.

REPORT is a file with a report, or - for standard input. NAME.png and NAME.svg are written.
matplotlib is needed.

The picture shows, for each question and walk, the part of the visited plans that is at least as
extreme as the enacted plan, and the bound that follows. For each rank test it shows the rank of the
enacted plan among its trajectories. It has the histogram of seats if the report has one. All is
black, gray and white: shapes and words distinguish. An incomplete or changed report is refused.
"""
RUN = """Usage: district-audit-run WORDS < GRAPH > REPORT

Runs the auditor with these words. They are those of `run`, or of `make`, `check` or `plans` if that
is the first of them. Standard output, exit status and diagnostic are the program's own. If the run
saves and standard error is a terminal, a bar shows the progress. If the program refuses the graph,
a second line gives the graph's own ids and labels for its numbers. A run with --part whose own part
is complete ends with 0 in place of 7, as schedulers want it, and a line says so. Ctrl-C ends the
run, and a line says how to go on.

`plans` has --save and --resume here, as `run` has them. Each plan is saved in a folder of its own,
and the text comes once all plans are done. A working folder with plans of another graph, table,
program or words is refused with status 8.
"""
# Ways to go on in texts of the package, and those of the command in their place.
OF_COMMAND = (
    ("the same call with resume=True goes on", "the same command with --resume yes goes on"),
    ("resume=True goes on", "--resume yes goes on"),
    ("overwrite=True starts anew", "without its plans-job.json and plan-* it starts anew"),
)


def print_line(text: str) -> None:
    for argument, word in IN_WORDS:
        text = text.replace(argument, word)
    print("prepare: " + text, file=sys.stderr)


# ---- prepare


def prepare_words() -> argparse.ArgumentParser:
    parser = argparse.ArgumentParser(
        description=PREPARE, formatter_class=argparse.RawDescriptionHelpFormatter
    )
    parser.add_argument("file")
    for column in ("pop", "first", "second", "district"):
        parser.add_argument("--" + column, required=True)
    parser.add_argument("--numbers", choices=("error", "nearest", "floor"), default="error")
    parser.add_argument("--missing", choices=("error", "zero", "drop"), default="error")
    parser.add_argument("--slack", type=int, default=500)
    parser.add_argument("--region")
    parser.add_argument("--max-split", type=int, default=200)
    parser.add_argument("--max-splits", type=int, default=995_000)
    parser.add_argument("--max-split-regions", type=int, default=5000)
    parser.add_argument("--group")
    parser.add_argument("--group-of")
    parser.add_argument("--group-districts", type=int, default=0)
    parser.add_argument("--group-share", type=int, default=5000)
    parser.add_argument("--freeze")
    parser.add_argument("--length")
    parser.add_argument("--max-length", type=int, default=MOST_CUT_LENGTH)
    parser.add_argument("--max-cut", type=int, default=MOST_CUT)
    ways = parser.add_mutually_exclusive_group()
    ways.add_argument("--fill-region", metavar="LABEL")
    ways.add_argument("--own-region", action="store_true")
    parser.add_argument("--join", nargs=2, metavar=("A", "B"), action="append", default=[])
    parser.add_argument("--keep", action="append", default=[])
    parser.add_argument("--out")
    parser.add_argument("--all", action="store_true")
    return parser


def print_findings(prepared: Prepared, everything: bool) -> None:
    """Prints the changes, warnings, notes and refusals of a prepared graph."""
    for change in prepared.changes:
        print_line(change.text(everything))
    for warning in prepared.warnings:
        print_line(f"warning: {warning}")
    for note in prepared.notes:
        print_line(note)
    for refusal in prepared.refusals:
        print_line("the auditor would refuse it: " + refusal)


def prepare(words: typing.Sequence[str] | None = None) -> int:
    """Runs the command district-audit-prepare; returns its exit status."""
    args = prepare_words().parse_args(words)
    try:
        named = dict(vars(args))
        prepared = prepare_map(
            named.pop("file"),
            {
                NAMES.get(name, name): value
                for name, value in named.items()
                if name not in ("out", "all")
            }
            | {"show_all": args.all},
        )
        print_findings(prepared, args.all)
        if args.out:
            with open(args.out, "wb") as file:
                file.write(prepared.data)
        else:
            sys.stdout.buffer.write(prepared.data)
            sys.stdout.flush()
    except (PrepareRefused, MissingExtra, OSError) as why:
        faults = why.faults if isinstance(why, PrepareRefused) else []
        some = faults if args.all else faults[:10]
        for fault in some:
            print_line(fault)
        said = why.why if isinstance(why, PrepareRefused) else str(why)
        print_line(
            "not written:"
            f" {said}{', of which these are the first' if len(some) < len(faults) else ''}"
        )
        return 2
    return 1 if prepared.refusals else 0


# ---- picture


def picture(words: typing.Sequence[str] | None = None) -> int:
    """Runs the command district-audit-picture; returns its exit status."""
    parser = argparse.ArgumentParser(
        description=PICTURE, formatter_class=argparse.RawDescriptionHelpFormatter
    )
    parser.add_argument("report", metavar="REPORT")
    parser.add_argument("name", metavar="NAME")
    args = parser.parse_args(words)
    try:
        if args.report == "-":
            data = sys.stdin.buffer.read()
        else:
            with open(args.report, "rb") as file:
                data = file.read()
        text = data.decode("utf-8", "surrogateescape")
        Report.parse(text).plot(args.name)
    except MissingExtra as why:
        print(f"picture: not drawn: {why}", file=sys.stderr)
        return 3
    except ReportRefused as why:
        print(f"picture: not drawn: the report is incomplete or changed: {why}", file=sys.stderr)
        return 2
    except (OSError, ValueError) as why:
        print(f"picture: not drawn: {why}", file=sys.stderr)
        return 2
    return 0


# ---- run


def value_of(words: typing.Sequence[str], name: str, default: str) -> str:
    """Returns the value after a word, or the default. Only the display of progress uses it."""
    pairs = dict(zip(words[1::2], words[2::2]))
    return pairs.get(name, default)


def total_of(words: typing.Sequence[str]) -> int:
    counts = (value_of(words, "--walks", "1"), value_of(words, "--ends", "0"))
    return sum(int(count) for count in counts if count.isascii() and count.isdigit())


def run(words: typing.Sequence[str] | None = None) -> int:
    """Runs the command district-audit-run; returns its exit status."""
    given = list(sys.argv[1:] if words is None else words)
    return call_with(given)


def call_with(words: list[str]) -> int:
    """Runs the program with these words; returns its exit status."""
    if words[:1] in ([], ["-h"], ["--help"]):
        print(RUN, file=sys.stderr)
        return 0 if words else 1
    if words[0] not in ("run", "make", "check", "plans"):
        words.insert(0, "run")
    saves = value_of(words, "--save", "0") != "0"
    try:
        program = find_program("audit")
    except ProgramMissing as why:
        print(f"district-audit-run: {why}", file=sys.stderr)
        return 127
    data = b"" if words[0] == "make" else sys.stdin.buffer.read()
    if words[0] != "make":
        warn_of_labels(graph_in(data, words), words)
    if words[0] == "plans" and saves:
        return save_plans(program, words, data)
    watch = None
    if saves and sys.stderr.isatty():
        total, is_resumed = total_of(words), value_of(words, "--resume", "no") == "yes"
        watch = bars.Watch(
            lambda: checkpoints.look_in(pathlib.Path(), total), total, is_resumed, bars.PlainBar()
        )
    return status_of_part(words, pass_through([program, *words], data, watch, saves))


def graph_in(data: bytes, words: typing.Sequence[str]) -> bytes:
    """Returns the graph in the input of a command."""
    return data.partition(b"\n")[0] if words[0] == "plans" else data


def save_plans(program: str, words: list[str], data: bytes) -> int:
    """Runs `plans` with checkpoints in the working folder; returns the exit status."""
    pairs = [words[at:at + 2] for at in range(1, len(words), 2)]
    plain = [one for pair in pairs if pair[0] not in ("--save", "--resume") for one in pair]
    for judged in (["plans", *plain], ["run", *words[1:]]):
        # Without a graph the program judges the words alone.
        ended = call(program, judged, b"")
        if ended.status == 1:
            print(ended.line, file=sys.stderr)
            return 1
    table = data.partition(b"\n")[2].decode("utf-8", "replace")
    watch = None
    if sys.stderr.isatty():
        watch = bars.PlanCount(count_plans(table), bars.PlainBar(name="plans"))
    saving = Saving(value_of(words, "--save", "0"), value_of(words, "--resume", "no") == "yes")
    signal.signal(signal.SIGTERM, lambda number, _frame: sys.exit(128 + number))
    try:
        ended = walk_plans(program, ["plans", *plain], data, saving, watch)
    except KeyboardInterrupt as why:
        return print_fault(f"\ndistrict-audit-run: {why}", 130)
    except ArgumentRefused as why:
        return print_fault(f"district-audit-run: {why.allowed}; {why.hint}", 8)
    except AuditError as why:
        return print_fault(f"{why.line}\ndistrict-audit-run: {why.labels}", why.status)
    except ProgramFailed as why:
        status = why.status if why.status >= 0 else 128 - why.status
        return print_fault(f"district-audit-run: {why}", status)
    except OSError as why:
        return print_fault(f"checkpoint save fault\ndistrict-audit-run: {why}", 9)
    finally:
        if watch is not None:
            watch.end()
    return write_plans(ended, data, words)


def print_fault(said: str, status: int) -> int:
    """Prints why a command failed, in its own words, and returns its status."""
    for text, own in OF_COMMAND:
        said = said.replace(text, own)
    print(said, file=sys.stderr)
    return status


def write_plans(ended: Ended, data: bytes, words: typing.Sequence[str]) -> int:
    """Writes what a call of `plans` wrote, and returns its status."""
    note = ended.unproved + (ended.line + "\n" if ended.line else "")
    sys.stderr.buffer.write(note.encode("utf-8", "surrogateescape"))
    sys.stderr.flush()
    if ended.status:
        print_labels(ended.line, data, words)
        return ended.status
    try:
        text = ended.unproved + ended.text
        sys.stdout.buffer.write(text.encode("utf-8", "surrogateescape"))
        sys.stdout.flush()
    except OSError:
        # Python would try to write the rest again at its end.
        os.dup2(os.open(os.devnull, os.O_WRONLY), sys.stdout.fileno())
        return print_fault("write fault", 5)
    return 0


def print_labels(line: str, data: bytes, words: typing.Sequence[str]) -> None:
    """Prints the graph's own ids and labels for the numbers in a line of the program, if any."""
    names = {name: value_of(words, "--" + name, "") for name in ("district", "region")}
    graph = graph_in(data, words)
    table = data[len(graph) + 1:].decode("utf-8", "surrogateescape")
    said = naming.translate(line, naming.labels_of(graph, names), table)
    if said:
        print("district-audit-run: " + said, file=sys.stderr)


def status_of_part(words: list[str], status: int) -> int:
    """Returns 0 in place of 7 where the run's own part is complete, and says so."""
    parts, part = value_of(words, "--parts", "1"), value_of(words, "--part", "0")
    if status != 7 or parts == "1" or not (parts + part).isdigit():
        return status
    if not checkpoints.is_part_done(pathlib.Path(), int(parts), int(part), total_of(words)):
        return status
    said = f"part {part} of {parts} is complete, and other parts are not here: status 0, not 7"
    print(f"district-audit-run: {said}", file=sys.stderr)
    return 0


def warn_of_labels(data: bytes, words: typing.Sequence[str]) -> None:
    """Warns of labels that the program takes for districts or regions of their own."""
    try:
        test_labels_of(
            data, {name: value_of(words, "--" + name, "") for name in ("district", "region")}
        )
    except PrepareRefused as why:
        for fault in why.faults[:10]:
            print(f"district-audit-run: warning: {fault}", file=sys.stderr)


def pass_through(command: list[str], data: bytes, watch: bars.Watch | None, saves: bool) -> int:
    """Runs the program on our own outputs, and adds lines on standard error alone."""
    signal.signal(signal.SIGTERM, lambda number, _frame: sys.exit(128 + number))
    rest = GOES_ON if saves else NOTHING_SAVED
    with subprocess.Popen(command, stdin=subprocess.PIPE, stderr=subprocess.PIPE) as process:
        try:
            note = read_note(process, data, watch)
        except SystemExit:
            stop(process)
            raise
        except KeyboardInterrupt:
            stop(process)
            print(f"\ndistrict-audit-run: stopped; {rest}", file=sys.stderr)
            return 130
    if watch is not None:
        watch.end()
    sys.stderr.buffer.write(note)
    sys.stderr.flush()
    if process.returncode == 2:
        line = note.decode("utf-8", "surrogateescape").removesuffix("\n")
        print_labels(line, data, command[1:])
    if process.returncode >= 0:
        return process.returncode
    said = f"the program was stopped by signal {-process.returncode}; {rest}"
    print(f"district-audit-run: {said}", file=sys.stderr)
    return 128 - process.returncode


def read_note(process: subprocess.Popen[bytes], data: bytes, watch: bars.Watch | None) -> bytes:
    """Returns the program's standard error, and shows its progress meanwhile."""
    feed(process, data)
    while True:
        try:
            return process.communicate(timeout=0.1)[1]
        except subprocess.TimeoutExpired:
            if watch is not None:
                watch()
