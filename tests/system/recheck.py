#!/usr/bin/env python3
"""Tests scripts/recheck.py: that it passes right texts and finds planted faults.

  python3 -m tests.system.recheck [PROGRAM [JOBS [SEED]]]

PROGRAM is the built auditor; without it, the one that the variable DISTRICT_AUDIT names, or the one
in crates/audit_program/out, which is built there if it is missing. Right reports come from the
program. Faulty ones come from the plain model in tests/oracle/model.py, in which one function is
replaced by a wrong one. JOBS jobs (12 by default) are drawn, audited by the program and re-checked.
The last line counts the checks. If the program does not know the words of pairs, of a weight and of
a pilot, jobs with these words are audited by the plain model alone, and one check is skipped.
"""
# RUN: {auditor}
# NEEDS: networkx
from __future__ import annotations

import contextlib
import csv
import dataclasses
import hashlib
import importlib.util
import io
import json
import math
import os
import random
import re
import struct
import subprocess
import sys
import tempfile
import types
import typing
from collections.abc import Callable, Iterator, Sequence
from fractions import Fraction
from pathlib import Path
from unittest import mock

from tests import places
from tests.oracle import model

TOP = Path(__file__).resolve().parents[2]
EXAMPLES = TOP / "examples" / "data"
ZEROS = "0" * 64
NO_WORDS: list[str] = []
UNCHECKED = ["--walks-unchecked", "yes"]
CYCLE = ["--pop", "pop", "--first", "a", "--second", "b", "--district", "d"]
REAL_KEY = "25625133bdfe4640fd1099604c66ef5bdc9757e9aac463095ef41e04bb2def94"


def module(path: Path, name: str) -> types.ModuleType:
    spec = importlib.util.spec_from_file_location(name, path)
    assert spec is not None and spec.loader is not None
    loaded = importlib.util.module_from_spec(spec)
    sys.modules[name] = loaded  # where dataclasses look for the module of a class
    spec.loader.exec_module(loaded)
    return loaded


recheck = module(TOP / "scripts" / "recheck.py", "recheck")

# The functions of the model that a fault replaces; those of one fault are of one type.
Function = Callable[..., typing.Any]
Wrong = Callable[[Function], Function]
Walk = Callable[[model.Job, model.Plan, int, int], tuple[list[model.Plan], int]]
Block = Callable[[bytes, int, int], list[int]]
IsLegal = Callable[[model.Job, model.Plan], bool]


class Counts:
    passed = failed = skipped = 0

    def judge(self, name: str, is_right: bool, what: str = "") -> None:
        if is_right:
            self.passed += 1
        else:
            self.failed += 1
            print(f"recheck: {name} failed: {what}", file=sys.stderr)


COUNTS = Counts()


def call_recheck(*words: object) -> tuple[int, str]:
    """Returns the status and the text of a call of recheck."""
    recheck.WRONG.clear()
    with contextlib.redirect_stdout(io.StringIO()) as text:
        status = recheck.main([str(word) for word in words])
    return status, text.getvalue()


def says(name: str, status: int, text: str, *words: object) -> None:
    """Passes where recheck has this status, and prints this text among others."""
    came, printed = call_recheck(*words)
    is_right = came == status and text in printed
    COUNTS.judge(name, is_right, f"expected status {status} and '{text}', got {came}: {printed}")


def agrees(name: str, *words: object) -> None:
    status, text = call_recheck(*words)
    COUNTS.judge(name, status == 0, f"expected status 0, got {status}: {text}")


def differs(name: str, place: str, *words: object) -> None:
    """Passes where the status is 1 and some line begins with the place of the fault."""
    status, text = call_recheck(*words)
    is_named = any(line.startswith(place) for line in text.splitlines())
    COUNTS.judge(
        name, status == 1 and is_named, f"expected status 1 and '{place}', got {status}: {text}"
    )


def run(
    auditor: str, words: Sequence[str], graph: bytes, folder: str = "."
) -> subprocess.CompletedProcess[bytes]:
    return subprocess.run(
        [auditor, *words], input=graph, capture_output=True, cwd=folder, check=False
    )


# ---- the generator and the examples


def vectors() -> None:
    """Draws of RFC 8439: appendix A.1, vectors 1 and 2, and the example of section 2.3.2."""
    for key, stream, place, draw in (
        (bytes(32), 0, 0, 0x903DF1A0ADE0B876),
        (bytes(32), 0, 8, 0x7A385155BEE7079F),
        (bytes(range(32)), 0x4A000000, 8 * 0x0900000000000001, 0x15593BD1E4E7F110),
    ):
        found = next(recheck.draws_of(key, stream, place, place + 1))
        COUNTS.judge(f"draw {place} of stream {stream}", found == draw, f"{found:x} for {draw:x}")


def unknown_score() -> None:
    """Checks that a score without a definition is an error, and is not computed as another one."""
    job = types.SimpleNamespace(districts=1)
    walk = types.SimpleNamespace(job=job, sums={"--first": [1], "--second": [2]})
    came = "no error"
    try:
        recheck.Walk.score(walk, "ratio")
    except ValueError as error:
        came = str(error)
    COUNTS.judge("unknown score", came == "unknown score ratio", came)


def prepare(name: str, *words: str) -> bytes:
    command = places.package_command("prepare")
    return subprocess.run(
        [*command, EXAMPLES / name, *words], env=places.package_environment(), capture_output=True,
        check=True,
    ).stdout


def cases() -> Iterator[tuple[str, list[str], str | bytes]]:
    """Yields a name, the words and the graph of each example."""
    real = ["--slack", "1000", "--key", REAL_KEY, "--steps", "2047", "--hub-steps", "500"]
    births = ["--pop", "BIR74", "--first", "NWBIR74", "--second", "WBIR74", "--district", "PLAN11"]
    homes = ["--pop", "POP8", "--first", "OWNING", "--second", "OTHERS", "--district", "PLAN8"]
    grid = ["--pop", "TOTPOP", "--first", "DEM", "--second", "REP", "--district", "CD"]
    groups = [
        "--slack", "1000", "--region", "county", "--max-splits", "3", "--group", "bvap",
        "--max-split-regions", "3", "--group-of", "vap", "--group-districts", "2",
    ]
    small = ["--slack", "5000", "--key", ZEROS.upper(), "--walks", "2", "--steps", "63"]
    yield "path", [*CYCLE, *small, "--ask", "gap:low,cut-edges:low"], "path.json"
    yield "cycle", [
        *CYCLE, *small, "--ends", "20", "--hub-steps", "9", "--stop", "3", "--shift", "yes",
        "--serial", "yes", "--max-cut", "3", "--ask",
        "gap:low,seats:high,mean-median:low,cut-edges:high",
    ], "cycle.json"
    yield "counties", [
        *CYCLE, *small, "--region", "county", "--max-split", "1", "--ask", "gap:low",
    ], "counties.json"
    yield "groups", [
        *CYCLE, *groups, "--source", "yes", "--key", REAL_KEY, "--steps", "1000", "--ends", "5",
        "--hub-steps", "300", "--ask", "mean-median:high,cut-edges:low",
    ], "groups.json"
    yield "grid", [
        *grid, "--slack", "1000", "--key", REAL_KEY, "--steps", "5000", "--ends", "3",
        "--hub-steps", "2000", "--ask", "seats:low,gap:high,cut-edges:low",
    ], "grid.json"
    yield "nc", [
        *births, *real, "--walks", "2", "--ends", "19", "--serial", "yes", "--ask",
        "mean-median:high,cut-edges:low",
    ], prepare("nc.json", *births, "--slack", "1000")
    yield "ny8", [
        *homes, *real, "--region", "COUNTY", "--max-split", "4", "--ends", "9", "--shift", "yes",
        "--ask", "gap:high,cut-edges:low",
    ], prepare("ny8.json", *homes, "--slack", "1000", "--numbers", "nearest", "--region", "COUNTY")


def examples(auditor: str, room: Path) -> None:
    for name, words, graph in cases():
        data = (EXAMPLES / graph).read_bytes() if isinstance(graph, str) else graph
        (room / "graph").write_bytes(data)
        (room / "report").write_bytes(run(auditor, ["run", *words], data).stdout)
        agrees(name, room / "graph", room / "report", *words)
        agrees(f"{name}, one trajectory", room / "graph", room / "report", *words, "--id", "0",
               *UNCHECKED)
    words = [
        "--slack", "1000", "--key", ZEROS, "--steps", "4095", "--serial", "yes", "--ends", "2",
        "--ask", "cut-edges:low,gap:high",
    ]
    (room / "report").write_bytes(run(auditor, ["make", "--size", "2", *words], b"").stdout)
    agrees("make", "make", room / "report", "--size", "2", *words)


# ---- planted faults

FAULTY = [
    *CYCLE, "--slack", "5000", "--key", ZEROS, "--walks", "2", "--steps", "40", "--ends", "6",
    "--hub-steps", "17", "--shift", "yes", "--ask", "gap:low,cut-edges:low",
]


def trace_of(job: model.Job, thin: int) -> str:
    """Returns the trace of all trajectories by the plain model."""
    setting = job.setting
    texts = [
        f"{score} {tail} start {job.value(job.plan, score)}/{job.denominator(score)}"
        for score, tail in setting.asks
    ]
    lines = [
        "district-trace 1",
        f"key {setting.key.hex()}",
        *model.head(job),
        (
            f"walks {setting.walks} steps {setting.steps} ends {setting.ends} "
            f"hub-steps {setting.hub_steps}"
        ),
        *(f"ask {text}" for text in texts),
    ]
    hub = job.walk(tuple(job.plan), 1, setting.hub_steps)[0][-1]
    for number in range(setting.walks + setting.ends):
        end = number - setting.walks
        steps = setting.steps if end < 0 else setting.hub_steps
        plans, _ = job.walk(
            tuple(job.plan) if end < 0 else hub, 2 * number if end < 0 else 2 * end + 3, steps
        )
        lines.append(f"trace id {number} steps {steps} thin {thin}")
        last = job.plan
        for at in [*range(0, steps, thin), steps]:
            moved = sum(a != b for a, b in zip(plans[:at], plans[1:at + 1]))
            changes = [f"{u}:{d}" for u, d in enumerate(plans[at]) if d != last[u]]
            values = [job.value(plans[at], score) for score, _ in setting.asks]
            lines.append(" ".join(map(str, [at, moved, *values, *changes])))
            last = plans[at]
    return "\n".join([*lines, "end", ""])


@dataclasses.dataclass(frozen=True)
class Fault:
    """A fault of the model: its name, the function of a class or a module that is replaced, what
    makes the wrong function of the right one, and how the line begins that names the fault.
    """

    name: str
    owner: object
    function: str
    wrong: Wrong
    place: str


@contextlib.contextmanager
def replace(owner: object, name: str, wrong: Wrong) -> Iterator[None]:
    right = getattr(owner, name)
    setattr(owner, name, wrong(right))
    model.OUTCOMES.clear()
    model.draws.cache_clear()
    yield
    setattr(owner, name, right)
    model.OUTCOMES.clear()
    model.draws.cache_clear()


def skip_step(right: Walk) -> Walk:
    return lambda job, plan, stream, steps: walk(
        job,
        plan,
        [*model.draws(job.setting.key, stream, steps + 1)][:8]
        + [*model.draws(job.setting.key, stream, steps + 1)][9:],
    )


def walk(job: model.Job, plan: model.Plan, draws: list[int]) -> tuple[list[model.Plan], int]:
    """Returns the plain model's walk with these draws."""
    with mock.patch.object(model, "draws", lambda key, stream, count: draws):
        return WALK(job, plan, 0, len(draws))


WALK = model.Job.walk


def swap_halves(right: Block) -> Block:
    def halves(key: bytes, stream: int, place: int) -> list[int]:
        return [(draw >> 32) | (draw & 0xFFFFFFFF) << 32 for draw in right(key, stream, place)]

    return halves


def wrong_hub(right: Walk) -> Walk:
    """Takes the start plan for the hub."""
    return lambda job, plan, stream, steps: right(job, plan, stream, steps * (stream != 1))


def swap_streams(right: Walk) -> Walk:
    """Gives walks 0 and 1 each other's stream."""
    return lambda job, plan, stream, steps: right(
        job, plan, {0: 2, 2: 0}.get(stream, stream), steps
    )


def loose_bounds(right: IsLegal) -> IsLegal:
    """Allows a district one person too many, or too few."""

    def is_legal(job: model.Job, plan: model.Plan) -> bool:
        low, high = job.low, job.high
        job.low, job.high = low - 1, high + 1
        try:
            return right(job, plan)
        finally:
            job.low, job.high = low, high

    return is_legal


MODEL_FAULTS = (
    Fault("a skipped step", model.Job, "walk", skip_step, "report line"),
    Fault("a wrong draw order", model, "block", swap_halves, "report line"),
    Fault(
        "a miscounted tie",
        model,
        "is_inside",
        lambda right: lambda value, start, tail: value != start and right(value, start, tail),
        "report line 6, word 10 after count",
    ),
    Fault("a wrong hub", model.Job, "walk", wrong_hub, "report line 11, word 7 after rank"),
    Fault("swapped streams", model.Job, "walk", swap_streams, "report line"),
    Fault(
        "a bound that is rounded down",
        model,
        "bound",
        lambda right: lambda count, of: right(count, of) - 1,
        "report line 6, word 14 after bound",
    ),
    Fault("loose population bounds", model.Job, "is_legal", loose_bounds, "report line"),
    Fault(
        "districts that are not connected",
        model.Job,
        "find_reached",
        lambda right: lambda job, members: members,
        "report line",
    ),
    Fault(
        "a wrong rank",
        model,
        "part",
        lambda right: lambda rank, of: right(rank - 1, of),
        "report line 11, word 7 after rank",
    ),
)


def wheel() -> str:
    """Returns a hub and a ring of six units: one district may have a hole or break in two."""
    votes = [(3, 1), (1, 2), (1, 2), (2, 1), (0, 4), (5, 1), (2, 2)]
    return wheel_of(votes, [int(u in (0, 1, 2, 6)) for u in range(7)])


def wheel_of(votes: Sequence[tuple[int, int]], plan: Sequence[int]) -> str:
    """Returns a hub and a ring of the other units."""
    last = len(plan) - 1
    nodes = [
        {"id": u, "pop": 1, "a": a, "b": b, "d": district}
        for u, ((a, b), district) in enumerate(zip(votes, plan))
    ]
    ring = [
        [{"id": 0}, {"id": 1 + u % last}, {"id": 1 + (u + last - 2) % last}]
        for u in range(1, last + 1)
    ]
    hub = [{"id": u} for u in range(1, last + 1)]
    return json.dumps({"nodes": nodes, "adjacency": [hub, *ring]})


def right_texts(auditor: str, graph: bytes, room: Path) -> tuple[model.Job, str, str]:
    """Returns the job of a graph, and the report and the trace by the plain model, which are those
    of the program.
    """
    setting = model.Setting(["run", *FAULTY])
    job = model.job_of(setting, graph)
    report = model.audit(["run", *FAULTY], graph, [None, None]).out
    trace = trace_of(job, 7)
    (room / "graph").write_bytes(graph)
    (room / "right").write_text(report)
    (room / "trace").write_text(trace)
    COUNTS.judge(
        "the model's report", run(auditor, ["run", *FAULTY], graph).stdout.decode() == report,
        "it is not the program's",
    )
    end = run(
        auditor,
        [
            "trace",
            "--ids",
            "0-7",
            "--thin",
            "7",
            *(
                word
                for k, word in enumerate(FAULTY)
                if "--shift" not in FAULTY[max(0, k - 1):k + 1]
            ),
        ],
        graph,
    )
    if b"unknown command trace" in end.stderr:
        print("recheck: not tried, for the program has no traces: its own trace")
        COUNTS.skipped += 1
    else:
        COUNTS.judge("the model's trace", end.stdout.decode() == trace, end.stderr.decode())
    agrees("a right report", room / "graph", room / "right", *FAULTY)
    agrees("a right trace", room / "graph", room / "right", *FAULTY, "--trace", room / "trace")
    agrees(
        "segments of a right trace", room / "graph", room / "right", *CYCLE, "--trace",
        room / "trace", "--segments", "1", "--seed", "a public text", *UNCHECKED,
    )
    return job, report, trace


def model_faults(graph: bytes, room: Path, job: model.Job, report: str) -> None:
    for fault in MODEL_FAULTS:
        with replace(fault.owner, fault.function, fault.wrong):
            bad = model.audit(["run", *FAULTY], graph, [None, None]).out
            bad_trace = trace_of(job, 7)
        (room / "bad").write_text(bad)
        COUNTS.judge(f"{fault.name}: another report", bad != report, "the report is the same")
        differs(fault.name, fault.place, room / "graph", room / "bad", *FAULTY)
        (room / "bad trace").write_text(bad_trace)
        if bad_trace != (room / "trace").read_text():
            differs(
                f"{fault.name}, in a trace", "trace line", room / "graph", room / "right", *CYCLE,
                "--trace", room / "bad trace",
            )


def changed_digits(room: Path, report: str) -> None:
    """Changes each digit of the report in turn."""
    missed = []
    for at, digit in enumerate(report):
        if digit.isdigit():
            bad = report[:at] + str((int(digit) + 1) % 10) + report[at + 1:]
            (room / "bad").write_text(bad)
            if call_recheck(room / "graph", room / "bad", *FAULTY)[0] == 0:
                missed.append(bad[:at].count("\n") + 1)
    COUNTS.judge("each changed digit", not missed, f"not found in the lines {missed}")


def unknown_tail(room: Path, report: str) -> None:
    """A report on a tail that is neither low nor high is an error, and no tail of another name."""
    (room / "tail").write_text(re.sub(r" (low|high) start ", r" \1er start ", report))
    status, text = call_recheck(room / "graph", room / "tail", *FAULTY)
    is_right = status == 2 and "ValueError: unknown tail " in text
    COUNTS.judge("an unknown tail", is_right, f"status {status}: {text}")


def trace_faults(room: Path, job: model.Job, trace: str) -> None:
    """Checks a trace with a wrong plan, a missing line, and a plan that is not legal."""
    lines = trace.split("\n")
    title = next(n for n, line in enumerate(lines) if line.startswith("trace id 0"))
    row = next(n for n in range(title + 2, len(lines)) if ":" in lines[n])
    merged = " ".join(f"{u}:0" for u, district in enumerate(job.plan) if district)
    for name, place, bad in (
        (
            "a wrong plan", f"trace line {row + 1}",
            [*lines[:row], lines[row].rsplit(" ", 1)[0], *lines[row + 1:]],
        ),
        ("a missing line", f"trace line {row + 1}", [*lines[:row], *lines[row + 1:]]),
        (
            "an illegal plan",
            f"trace line {title + 2}, the plan is legal",
            [*lines[: title + 1], f"{lines[title + 1]} {merged}", *lines[title + 2:]],
        ),
    ):
        (room / "bad trace").write_text("\n".join(bad))
        differs(name, place, room / "graph", room / "right", *CYCLE, "--trace", room / "bad trace")


def checkpoint_faults(room: Path, job: model.Job) -> None:
    """Checks a changed number of an outcome below a right SHA-256, in both versions."""
    found = dict(enumerate(model.outcomes(job, "checkpoints")))
    for version in (1, 2):
        folder = room / f"version {version}"
        folder.mkdir()
        path = folder / "audit-0.ckpt"
        right = model.checkpoint(job.digest(), 0, found, version)
        path.write_bytes(right)
        words = [room / "graph", room / "right", *CYCLE, "--checkpoints", folder]
        agrees(f"a right checkpoint of version {version}", *words)
        agrees(f"an outcome of version {version}", *words, "--sample", "1", "--seed", "x")
        values = found[4].values
        changed = found[4]._replace(values=[values[0] + 1, values[1]])
        bad = model.checkpoint(job.digest(), 0, {**found, 4: changed}, version)
        path.write_bytes(bad)
        differs(f"a changed outcome of version {version}", f"{path}: outcome 4, word 2", *words)
        path.write_bytes(model.seal(right[:12] + bytes(32) + right[44:-32]))
        differs(f"another job's digest in version {version}", f"{path}: digest", *words)
        path.write_bytes(right[:-1] + bytes([right[-1] ^ 1]))
        differs(f"a damaged file of version {version}", f"{path}: no intact", *words)
        path.write_bytes(struct.pack("8s", b"DISTCKPT"))
        differs(f"a short file of version {version}", f"{path}: no intact", *words)


TABLE = """id,hub and ring,"halves"
0,x,7
1,x,7
2,y,7
3,y,10
4,y,10
5,y,10
6,y,7
"""


def plans_input(room: Path, name: str, table: str) -> bytes:
    """Writes the wheel, as one line, with a table behind it, and returns the bytes."""
    data: bytes = wheel().encode() + b"\n" + table.encode()
    (room / name).write_bytes(data)
    return data


def plan_reports(auditor: str, room: Path) -> str:
    """Returns the reports of three plans by the plain model, which are those of the program."""
    data = plans_input(room, "plans", TABLE.replace("hub and ring", "hub-and-ring"))
    text = model.audit(["plans", *FAULTY], data, [None, None]).out
    (room / "plan reports").write_text(text)
    came = run(auditor, ["plans", *FAULTY], data).stdout.decode()
    COUNTS.judge("the model's reports of plans", came == text, "they are not the program's")
    agrees("right reports of plans", room / "plans", room / "plan reports", *FAULTY)
    agrees("one trajectory of each plan", room / "plans", room / "plan reports", *CYCLE, "--id",
           "1", *UNCHECKED)
    return text


def plans_faults(auditor: str, room: Path) -> None:
    """Faults in the reports of several plans, each named with its plan."""
    text = plan_reports(auditor, room)
    own, ring, halves = re.split(r"(?m)^(?=plan )", text)[1:]
    shown = re.sub(r"count (\d+)", lambda found: f"count {int(found[1]) % 41 + 1}", ring, count=1)
    for name, place, bad in (
            ("a wrong count in a plan", "plan hub-and-ring: report line 6, word 10 after count",
             own + shown + halves),
            ("the report of another plan", "plan halves: report line",
             own + ring + ring.replace("hub-and-ring", "halves")),
            ("a plan that is left out", "the plans, word 3", own + ring),
            ("plans in another order", "plan halves: report line", own + halves + ring),
            ("a plan of another name", "the plans, word 2",
             text.replace("plan hub-and-ring", "plan hub")),
            ("a text behind the plans", "plan halves: report line 14", text + "more\n")):
        (room / "bad plans").write_text(bad)
        differs(name, place, room / "plans", room / "bad plans", *FAULTY)
    for fault, place in (
            (MODEL_FAULTS[0], "plan d: report line"),
            (MODEL_FAULTS[2], "plan halves: report line 6, word 10 after count")):
        with replace(fault.owner, fault.function, fault.wrong):
            bad = model.audit(["plans", *FAULTY], (room / "plans").read_bytes(), [None, None]).out
        (room / "bad plans").write_text(bad)
        differs(f"{fault.function}: a wrong model of several plans", place, room / "plans",
                room / "bad plans", *FAULTY)
    right = TABLE.replace("hub and ring", "hub-and-ring")
    plans_input(room, "moved", right.replace("2,y,7", "2,y,10"))
    differs("a unit of another district", "plan halves: report line", room / "moved",
            room / "plan reports", *FAULTY)
    plans_input(room, "twice", right + "6,y,7\n")
    differs("a unit that stands twice", "the table's units, word 1", room / "twice",
            room / "plan reports", *FAULTY)
    plans_input(room, "short", right.replace("6,y,7\n", ""))
    status, text = call_recheck(room / "short", room / "plan reports", *FAULTY)
    COUNTS.judge("a unit that is missing", status == 2, text)


def faults(auditor: str, room: Path) -> None:
    graph = wheel().encode()
    job, report, trace = right_texts(auditor, graph, room)
    model_faults(graph, room, job, report)
    changed_digits(room, report)
    unknown_tail(room, report)
    trace_faults(room, job, trace)
    checkpoint_faults(room, job)
    plans_faults(auditor, room)
    status, text = call_recheck(room / "graph", room / "right", *CYCLE, "--id", "0,8")
    COUNTS.judge("a trajectory that is not there", status == 2, text)
    # An end alone: the rank has to be possible.
    bad = re.sub(r"rank \d+ of 7 p .*", "rank 8 of 7 p 1.142857143", report)
    (room / "bad").write_text(bad)
    differs(
        "an impossible rank", "report line 11", room / "graph", room / "bad", *CYCLE, "--id", "3"
    )


def columns_left_out(auditor: str, room: Path) -> None:
    """Checks that a report without the line `columns` needs each column in words, and asks for it.
    """
    root = json.loads(wheel())
    for u, node in enumerate(root["nodes"]):
        node.update(county=u % 2, group=0, frozen=u == 0)
    for row in root["adjacency"]:
        for entry in row:
            entry["length"] = 1
    graph = json.dumps(root).encode()
    words = [*CYCLE, "--region", "county", "--group", "group", "--freeze", "frozen", "--length",
             "length", "--slack", "5000", "--key", ZEROS, "--steps", "9", "--ask", "gap:low"]
    (room / "columns graph").write_bytes(graph)
    (room / "columns report").write_bytes(run(auditor, ["run", *words], graph).stdout)
    both = room / "columns graph", room / "columns report"
    agrees("all columns are given", *both, *words)
    for name, line in (
        ("--pop", "units"), ("--first", "units"), ("--second", "units"), ("--district", "units"),
        ("--region", "max-split"), ("--group", "group-districts"), ("--freeze", "frozen"),
        ("--length", "cut-length"),
    ):
        at = words.index(name)
        said = (f"cannot be checked: ValueError: the report has a line `{line}`: give {name}"
                " COLUMN\n")
        says(f"{name} is left out", 2, said, *both, *words[:at], *words[at + 2:])
    says("no column is given", 2, "the report has a line `units`: give --pop COLUMN\n", *both)


# ---- samples, and what they leave open

SAMPLED = [
    *CYCLE, "--slack", "5000", "--key", ZEROS, "--walks", "2", "--steps", "40", "--ends", "19",
    "--hub-steps", "17", "--ask", "gap:low,cut-edges:low",
]


def samples(room: Path) -> None:
    """Samples leave out trajectories to ends only, and tell what they leave out."""
    graph = wheel().encode()
    report = model.audit(["run", *SAMPLED], graph, [None, None]).out
    both = room / "graph", room / "right"
    both[0].write_bytes(graph)
    both[1].write_text(report)
    seed = ["--seed", "a public text"]
    for path in both:
        digest = hashlib.sha256(path.read_bytes()).hexdigest()
        says(f"the digest of {path.name}", 0, f"sha256 {digest} of ", *both, *SAMPLED)
    says("walks of a sample", 0, "report: walks: 2 of 2 walked again; ", *both, *CYCLE, "--sample",
         "3", *seed)
    # The least of printf 'a public text trajectory 2' | sha256sum and so on, to 20.
    says("a sample is named", 0, "trajectories to ends: 3 of 19 walked again (3, 16, 17);", *both,
         *CYCLE, "--sample", "3", *seed)
    for name in ("--sample", "--segments"):
        said = f"cannot be checked: {name} without --seed"
        says(f"{name} without a seed", 2, said, *both, *CYCLE, name, "3")
    says("walks that are left out", 2, "agrees; NOT CHECKED: walk 1\n", *both, *CYCLE, "--id", "0")
    says("walks that may be left out", 0, "agrees; NOT CHECKED: walk 0, walk 1\n", *both, *CYCLE,
         "--sample", "3", *seed, *UNCHECKED)
    bad = re.sub(r"count \d+ of 41 bound .*", "count 1 of 41 bound 0.220863053", report, count=1)
    (room / "bad").write_text(bad)
    differs("a forged count beside a sample", "report line 6, word 10 after count", both[0],
            room / "bad", *CYCLE, "--sample", "1", *seed)
    forged_stop(room, graph)


def forged_stop(room: Path, graph: bytes) -> None:
    """A test that is said to have stopped earlier than it did."""
    report = model.audit(["run", *SAMPLED, "--stop", "3"], graph, [None, None]).out
    stop = re.search(r"stop \S+ low .* place (\d+) value 3/\d+ p .*", report)
    assert stop is not None and int(stop[1]) > 3, report
    forged = re.sub(r"place .*", "place 3 value 3/3 p 1.000000000", stop[0])
    bad = report.replace(stop[0], forged)
    (room / "right").write_text(report)
    (room / "bad").write_text(bad)
    agrees("a test that stopped", room / "graph", room / "right", *SAMPLED)
    differs("a stop that is forged", "report line", room / "graph", room / "bad", *SAMPLED)


def risks() -> None:
    """Chances that wrong ends stay hidden, worked by hand as products of fractions."""
    for rank, part, some, wrong in ((41, 1000, 20, 40), (41, 20, 20, 10), (1, 20, 20, 50)):
        chance = math.prod(Fraction(999 - wrong - k, 999 - k) for k in range(some))
        with contextlib.redirect_stdout(io.StringIO()) as text:
            recheck.print_risk("gap low", rank, part, some, 999)
        said = f" {wrong} wrong ends; that many all escaped with chance {float(chance):.6f}."
        COUNTS.judge(f"risk of rank {rank} at 1/{part}", said in text.getvalue(), text.getvalue())


def linked_checkpoint(room: Path) -> None:
    """A rank that the outcomes of a checkpoint do not give, none of which is recomputed."""
    graph = wheel().encode()
    job = model.job_of(model.Setting(["run", *SAMPLED]), graph)
    found = model.outcomes(job, job.digest())
    folder = room / "linked"
    folder.mkdir()
    data = model.checkpoint(job.digest(), 0, dict(enumerate(found)))
    (folder / "audit-0.ckpt").write_bytes(data)
    report = model.report(job, found)
    rank = re.search(r"ends gap low .* rank (\d+) of 20 p .*", report)
    assert rank is not None and rank[1] != "1"
    (room / "right").write_text(report)
    (room / "bad").write_text(
        report.replace(rank[0], re.sub(r"rank .*", "rank 1 of 20 p 0.050000000", rank[0])))
    words = ["--checkpoints", folder, "--sample", "1", "--seed", "x"]
    agrees("a checkpoint of the report", room / "graph", room / "right", *CYCLE, *words)
    differs("a rank of another checkpoint", "report line 10, word 7 after rank", room / "graph",
            room / "bad", *CYCLE, *words)


# ---- pairs, weights and pilots

WEIGHED = [
    *CYCLE, "--slack", "10000", "--key", ZEROS, "--walks", "4", "--steps", "998", "--ends", "3",
    "--hub-steps", "100", "--pairs", "yes", "--ask", "gap:low,cut-edges:high",
]
Pairs = Callable[[model.Setting, Sequence[str], Sequence[model.Outcome]], list[str]]
Takes = Callable[[int, int, int, int, int, int], bool]


def change_pairs(change: Callable[[int, int], tuple[int, str]]) -> Callable[[Pairs], Pairs]:
    """Returns a fault that prints another count and bound of a pair, by its count and visits."""

    def wrong(right: Pairs) -> Pairs:
        def lines(
            setting: model.Setting, words: Sequence[str], found: Sequence[model.Outcome]
        ) -> list[str]:
            new = []
            for line in right(setting, words, found):
                row = line.split(" ")
                count, bound = change(int(row[8]), setting.steps + 1)
                new.append(" ".join([*row[:8], str(count), *row[9:12], bound]))
            return new

        return lines

    return wrong


def bound_of(top: int, of: int) -> str:
    return model.billionths(-(-top * model.BILLION // of))


def next_pair(right: Pairs) -> Pairs:
    """Takes walks 1 and 2 for the second pair."""
    return lambda setting, words, found: [
        line.replace("pair 2 3", "pair 1 2")
        for line in right(setting, words, [found[0], found[1], found[1], found[2]])
    ]


def other_question(right: Pairs) -> Pairs:
    """Gives each question the counts of the other one."""
    return lambda setting, words, found: right(
        setting, words, [one._replace(values=one.values[::-1]) for one in found]
    )


PAIR_FAULTS = (
    Fault("the start counted twice", model, "pair_lines",
          change_pairs(lambda count, of: (count + 1, bound_of(count + 1, of))), "report line"),
    Fault("a bound of all visited plans", model, "pair_lines",
          change_pairs(lambda count, of: (count, bound_of(count, 2 * of - 1))), "report line"),
    Fault("a bound of a pair that is rounded down", model, "pair_lines",
          change_pairs(lambda count, of: (count, model.billionths(count * model.BILLION // of))),
          "report line"),
    Fault("pairs that share a walk", model, "pair_lines", next_pair, "report line"),
    Fault("the counts of another question", model, "pair_lines", other_question, "report line"),
)


def change_takes(takes: Takes) -> Callable[[Takes], Takes]:
    """Returns a fault of the rule of the weight: another one."""
    return lambda right: takes


TAKES = model.takes
WEIGHT_FAULTS = (
    Fault("great falls are taken", model, "takes", change_takes(
        lambda q, n, m, draw, cut, added: added < -m or TAKES(q, n, m, draw, cut, added)), ""),
    Fault("only the first piece", model, "takes", change_takes(
        lambda q, n, m, draw, cut, added: abs(added) <= m
        and TAKES(q, n, m, draw, cut, min(1, added))), ""),
    Fault("one piece more", model, "takes", change_takes(
        lambda q, n, m, draw, cut, added: TAKES(q, n, m, draw, cut, added)
        and (added <= 0 or draw // n % 64 ** (added + 1) < model.factors(q, cut, added + 1))), ""),
    Fault("the quotient of another draw", model, "takes", change_takes(
        lambda q, n, m, draw, cut, added: TAKES(q, n, m, draw ^ 2**63, cut, added)), ""),
    Fault("falls are weighed", model, "takes", change_takes(
        lambda q, n, m, draw, cut, added: TAKES(q, n, m, draw, cut + min(added, 0), abs(added))),
        ""),
    Fault("factors that are not rounded", model, "factor",
          lambda right: lambda weight, edge: weight // 4, ""),
)


def weighed_wheel(weight: str, plan: Sequence[int]) -> tuple[list[str], bytes]:
    """Returns the words and the graph of a run with a weight on a wheel."""
    votes = [(5 * unit % 7, 3 * unit % 5 + 1) for unit in range(len(plan))]
    return [*WEIGHED, "--cut-weight", weight], wheel_of(votes, plan).encode()


def weights(room: Path) -> None:
    """Right and faulty reports with pairs and weights, and texts of pilots, by the plain model."""
    for weight, faults in (("64", PAIR_FAULTS), ("45.25", PAIR_FAULTS), ("60.75", WEIGHT_FAULTS)):
        # The hub's first move takes 14 cut edges away, more than the 8 pieces of 42 pairs.
        words, graph = weighed_wheel(weight, [0] * 4 + [1] * 17)
        report = model.audit(["run", *words], graph, [None, None]).out
        (room / "graph").write_bytes(graph)
        (room / "right").write_text(report)
        agrees(f"a report with pairs and the weight {weight}", room / "graph", room / "right",
               *words)
        for fault in faults:
            with replace(fault.owner, fault.function, fault.wrong):
                bad = model.audit(["run", *words], graph, [None, None]).out
            (room / "bad").write_text(bad)
            differs(f"{fault.name}, weight {weight}", "report line", room / "graph", room / "bad",
                    *words)
        pilot = [word for word in words if word != "--pairs"] + ["--blind", "yes"]
        pilot.remove("yes")
        (room / "right").write_text(model.audit(["run", *pilot], graph, [None, None]).out)
        agrees(f"a pilot with the weight {weight}", room / "graph", room / "right", *pilot)
        text = (room / "right").read_text()
        (room / "bad").write_text(re.sub(r"walk 1 moved \d+", "walk 1 moved 1", text))
        differs(f"a wrong pilot, weight {weight}", "report line", room / "graph", room / "bad",
                *pilot)
    lost_draws(room)


def lost_draws(room: Path) -> None:
    """Checks the limit of draws with 15 pairs, where 4 of 1000 draws are lost with a weight."""
    words, graph = weighed_wheel("50", [0, 0, 1, 1, 2])
    words[words.index("--steps") + 1] = "8191"
    (room / "graph").write_bytes(graph)
    (room / "right").write_text(model.audit(["run", *words], graph, [None, None]).out)
    agrees("a report with lost draws", room / "graph", room / "right", *words)
    takes = change_takes(
        lambda q, n, m, draw, cut, added: TAKES(q, n, m, draw % (n * 64**m), cut, added))
    with replace(model, "takes", takes):
        (room / "bad").write_text(model.audit(["run", *words], graph, [None, None]).out)
    differs("the limit of draws without a weight", "report line", room / "graph", room / "bad",
            *words)


# ---- drawn jobs


def drawn_graph(rng: random.Random) -> bytes:
    """Draws a grid with diagonals and holes in connected districts."""
    rows, columns = rng.randrange(2, 8), rng.randrange(3, 9)
    units = [(i, j) for i in range(rows) for j in range(columns) if rng.random() < 0.95]
    places = {at: u for u, at in enumerate(units)}
    near: list[set[int]] = [set() for _ in units]
    for (i, j), u in places.items():
        for other in ((i + 1, j), (i, j + 1), *(((i + 1, j + 1),) * (rng.random() < 0.5))):
            if other in places:
                near[u].add(places[other])
                near[places[other]].add(u)
    districts = min(rng.randrange(2, 5), len(units))
    plan = {u: d for d, u in enumerate(rng.sample(range(len(units)), districts))}
    while True:
        edge = [(u, v) for u in plan for v in near[u] if v not in plan]
        if not edge:
            break
        u, v = rng.choice(edge)
        plan[v] = plan[u]
    some_labels: list[list[int | str]] = [
        [*range(districts)], ["b", "a", 7, 3], ["10", "9", "é", "z"],
    ]
    labels = rng.choice(some_labels)
    nodes = []
    for u in sorted(plan):
        vap = rng.randrange(20)
        nodes.append(
            {
                "id": rng.choice([u, str(u)]),
                "pop": rng.choice([1, 1, rng.randrange(5)]),
                "a": rng.randrange(6),
                "b": rng.randrange(6),
                "d": labels[plan[u]],
                "county": units[u][1] // 3,
                "vap": vap,
                "bvap": rng.randrange(vap + 1),
                "keep": rng.choice([True, False, False, 0, 0, 3]),
            }
        )
    keep = {u: nodes[k]["id"] for k, u in enumerate(sorted(plan))}
    adjacency = [
        [
            {"length": 7 * (u + v) % 23, "id": keep[v]}
            for v in rng.sample(sorted(near[u]), len(near[u]))
            if v in keep and (u < v or rng.random() < 0.7)
        ]
        for u in sorted(plan)
    ]
    return json.dumps({"nodes": nodes, "adjacency": adjacency, "directed": False}).encode()


def drawn_words(rng: random.Random) -> list[str]:
    """Draws the words of a run."""
    asks = rng.sample(sorted(model.ALL_ASKS), rng.randrange(1, 5))
    ends, stops = rng.choice([0, 1, 9]), rng.random() < 0.3
    words = [
        *CYCLE, "--slack", str(rng.choice([1000, 3000, 6000, 10000])), "--key",
        f"{rng.getrandbits(256):064x}", "--walks", str(rng.randrange(0 if ends else 1, 3)),
        "--steps", str(2 ** rng.randrange(1, 11) - 1), "--ends", str(ends), "--hub-steps",
        str(rng.randrange(1, 300)), "--ask", ",".join(asks),
    ]
    for name, values in (
        ("--shift", ["yes"]), ("--serial", ["yes"]), ("--source", ["yes"]),
        ("--max-cut", range(8, 60)), ("--stop", [1, 2] if ends and stops else []),
    ):
        if values and rng.random() < 0.4:
            words += [name, str(rng.choice(values))]
    if rng.random() < 0.4:
        words += [
            "--region",
            "county",
            *rng.choice(
                [
                    NO_WORDS, ["--max-split", "3"], ["--max-splits", str(rng.randrange(1, 9))],
                    ["--max-split-regions", str(rng.randrange(1, 4))],
                ]
            ),
        ]
    if rng.random() < 0.4:
        words += [
            "--group", "bvap", *rng.choice([NO_WORDS, ["--group-of", "vap"]]), "--group-districts",
            str(rng.randrange(3)), *rng.choice([NO_WORDS, ["--group-share", "4000"]]),
        ]
    if rng.random() < 0.3 or any(ask.startswith("cut-length") for ask in asks):
        words += ["--length", "length"]
        words += ["--max-length", str(rng.randrange(90, 400))] if rng.random() < 0.4 else []
    words += ["--freeze", "keep"] if rng.random() < 0.3 else []
    has_two = words[words.index("--walks") + 1] == "2"
    words += ["--pairs", "yes"] if has_two and rng.random() < 0.7 else []
    quarters = rng.choice(["", ".25", ".5", ".75"])
    words += ["--cut-weight", f"{rng.randrange(1, 64)}{quarters}"] if rng.random() < 0.5 else []
    return words + (["--blind", "yes"] if rng.random() < 0.1 else [])


def leave_out(words: Sequence[str], *names: str) -> list[str]:
    """Returns the words without these names and their values."""
    pairs = zip(words[::2], words[1::2])
    return [word for pair in pairs for word in pair if pair[0] not in names]


class Auditor:
    """The program; or the plain model, if the program does not know the newest words."""

    def __init__(self, path: str) -> None:
        self.path = path
        words = ["run", "--cut-weight", "64", "--pairs", "no", "--blind", "no"]
        self.is_new = b"unknown name" not in run(path, words, b"").stderr
        if not self.is_new:
            print("recheck: the program knows no pairs, weight and pilot: those are the model's")
            COUNTS.skipped += 1

    def call(self, words: Sequence[str], graph: bytes, folder: str = ".") -> tuple[int, bytes]:
        """Returns the status and the text of a call, which may write slots into a folder."""
        if self.is_new or not {"--cut-weight", "--pairs", "--blind"} & {*words}:
            end = run(self.path, words, graph, folder)
            return end.returncode, end.stdout
        answer = model.audit(words, graph, [None, None])
        for place, data in enumerate(answer.slots):
            if data is not None:
                Path(folder, f"audit-{place}.ckpt").write_bytes(data)
        return answer.status, answer.out.encode()


def drawn_table(rng: random.Random, job: model.Job, ids: Sequence[object]) -> bytes:
    """Draws a table of plans to which walks of a job lead, with drawn labels and line ends."""
    plans = [job.walk(tuple(job.plan), stream, rng.randrange(1, 60))[0][-1]
             for stream in range(1, rng.randrange(2, 5))]
    labels = rng.choice([["2", "10", "1", "9"], ["b", "a", "é", "z"], ['a,"b"', "c d", "", "x"]])
    out = io.StringIO(newline="")
    table = csv.writer(out, lineterminator=rng.choice(["\n", "\r\n"]))
    table.writerow(["id", *rng.sample(["one", "two", 'th"ree', "two"], len(plans))])
    for u in rng.sample(range(len(ids)), len(ids)):
        table.writerow([ids[u], *(labels[plan[u]] for plan in plans)])
    return out.getvalue().encode()


def drawn_plans(
    auditor: Auditor, room: Path, rng: random.Random, graph: bytes, words: Sequence[str]
) -> None:
    """Draws plans of a job, which the program audits, and re-checks their reports."""
    words = leave_out(words, "--blind")
    job = model.job_of(model.Setting(["run", *words]), graph)
    ids = [node["id"] for node in json.loads(graph)["nodes"]]
    data = graph + b"\n" + drawn_table(rng, job, ids)
    status, text = auditor.call(["plans", *words], data)
    (room / "plans").write_bytes(data)
    (room / "plan reports").write_bytes(text)
    COUNTS.judge(f"plans: {words}", status == 0, f"status {status}")
    agrees(f"reports of plans: {words}", room / "plans", room / "plan reports", *words,
           *rng.choice([NO_WORDS, ["--sample", "2", "--seed", "drawn"]]))


def drawn_trace(
    auditor: Auditor, room: Path, rng: random.Random, graph: bytes, words: Sequence[str]
) -> None:
    """Traces all trajectories of a job, and re-checks the trace."""
    plain = leave_out(words, "--shift", "--serial", "--stop", "--pairs", "--blind")
    last = sum(int(words[words.index(name) + 1]) for name in ("--walks", "--ends")) - 1
    thin = str(rng.choice([1, 7, 50, 1000]))
    status, text = auditor.call(["trace", "--ids", f"0-{last}", "--thin", thin, *plain], graph)
    (room / "trace").write_bytes(text)
    COUNTS.judge(f"a trace: {words}", status == 0, f"status {status}")
    agrees(
        f"the trace of a job: {words}", room / "graph", room / "report", *words, "--trace",
        room / "trace", *UNCHECKED,
        *(["--segments", "2", "--seed", "drawn"] if rng.choice([0, 1]) else []),
    )


def drawn_run(
    auditor: Auditor, room: Path, rng: random.Random, graph: bytes, words: Sequence[str]
) -> bytes:
    """Runs a job, re-checks its report and in half of all jobs its checkpoints, and returns it."""
    saving = [] if {"--stop", "--blind"} & {*words} else ["--save", "3"]
    with tempfile.TemporaryDirectory() as folder:
        status, text = auditor.call(["run", *words, *saving], graph, folder)
        COUNTS.judge(f"the run of a job: {words}", status == 0, f"status {status}")
        (room / "graph").write_bytes(graph)
        (room / "report").write_bytes(text)
        given = words if rng.random() < 0.5 or "--source" not in words else []
        checked = ["--checkpoints", folder, "--id", "0", *UNCHECKED]
        agrees(
            f"a job: {words}", room / "graph", room / "report", *given,
            *(checked if saving and rng.random() < 0.5 else []),
        )
    return text


def campaign(path: str, room: Path, jobs: int, seed: int) -> None:
    rng, done, moved, traced, many = random.Random(seed), 0, 0, 0, 0
    auditor = Auditor(path)
    while done < jobs:
        graph, words = drawn_graph(rng), drawn_words(rng)
        try:  # a call of the program is dear, and most drawn jobs are refused
            model.job_of(model.Setting(["run", *words]), graph)
        except model.Refused:
            continue
        text = drawn_run(auditor, room, rng, graph, words)
        if rng.random() < 0.3:
            drawn_plans(auditor, room, rng, graph, words)
            many += 1
        if rng.random() < 0.5 and "--blind" not in words:
            drawn_trace(auditor, room, rng, graph, words)
            traced += 1
        moved += b"moved 0" not in text
        done += 1
        if done % 50 == 0:
            print(f"recheck: {done} drawn jobs, {COUNTS.failed} failed", flush=True)
    print(f"{done} drawn jobs, of which {moved} had no walk without a move, {traced} traces, and "
          f"{many} calls on several plans")


def main(args: Sequence[str]) -> int:
    auditor = os.path.abspath(args[0]) if args else str(places.program("auditor"))
    jobs, seed = (int(word) for word in (*args[1:], *("12", "1")[len(args[1:]):]))
    with tempfile.TemporaryDirectory() as folder:
        room = Path(folder)
        if len(args) < 2:
            vectors()
            unknown_score()
        setattr(recheck, "BATCH", 64)  # for short walks
        recheck.batch.cache_clear()
        if len(args) < 2:
            examples(auditor, room)
            faults(auditor, room)
            columns_left_out(auditor, room)
            samples(room)
            risks()
            linked_checkpoint(room)
            weights(room)
        campaign(auditor, room, jobs, seed)
    skipped = f", {COUNTS.skipped} skipped" if COUNTS.skipped else ""
    print(f"recheck: {COUNTS.passed} passed, {COUNTS.failed} failed{skipped}")
    return 1 if COUNTS.failed else 0


if __name__ == "__main__":
    sys.exit(main(sys.argv[1:]))
