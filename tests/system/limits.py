"""Takes inputs that are as great as they may be, and others that are one greater: the first are
accepted, the others refused by their note. And makes a run of three million steps on 100,000 units
in 5000 regions, with rules on regions and a group, of which about every second moves one: with a
look at all units at each move it would not end in time. So is a parallel test of 100,000 ends that
stops at the last of them: with a look at all ends for each end it would not end in time. And a run
of a million steps in 5000 regions takes hardly more of a processor than the same run in five: with
a look at all regions at each move it would take many times as much. A table of 4,096 plans is
audited, and one of 4,097 is not.

Usage: python3 -m tests.system.limits PROGRAM
       python3 -m tests.system.limits walk
What each must print follows from how it is built; how many steps of the runs move is what the
second prints, by a plain loop over the draws. Prints one line, and one for each input that is not
so; ends with 1 where there is one.
"""
# RUN: {auditor}
from __future__ import annotations

import argparse
import json
import os
import resource
import subprocess
import sys
from collections.abc import Callable, Iterator, Sequence

from tests.checks import End
from tests.oracle import model
from tests.places import DATA

CYCLE = (DATA / "cycle.json").read_bytes()
COLUMNS = "--pop pop --first a --second b --district d --slack".split()
CHECK = ["check", *COLUMNS, "5000"]
KEY = "0" * 64
STEPS, UNITS, ENDS = 3000000, 100000, 100000
MOVES = 1500103
SECONDS = 60
# Runs that are alike but for the number of regions: how many steps, units and moves, how often each
# is made, and how many times the time of the one in few regions the other may take.
FEW_STEPS, FEW_UNITS, FEW_MOVES, TRIES, MOST_TIMES = 1000000, 10000, 499203, 3, 6
# A node of a graph, or the entry of a neighbor: its values by their columns.
Node = dict[str, int]


# ---- the inputs


def graph(nodes: Sequence[Node], adjacency: Sequence[Sequence[Node]]) -> bytes:
    return json.dumps({"nodes": nodes, "adjacency": adjacency}, separators=(",", ":")).encode()


def node(at: int, district: int, region: int = 0) -> Node:
    return {"id": at, "pop": 1, "a": 1, "b": 1, "d": district, "r": region}


def path(count: int, district: Callable[[int], int]) -> bytes:
    return graph(
        [node(at, district(at)) for at in range(count)],
        [[{"id": at + 1}] if at + 1 < count else [] for at in range(count)],
    )


def halves_of(count: int) -> Callable[[int], int]:
    """Returns the district of each unit, of two: a unit too many is in the second."""
    return lambda at: min(at // (count // 2), 1)


def dense(edges: int, units: int = 895) -> bytes:
    """Returns as many edges: pairs of units one apart, then pairs two apart, and so on."""
    adjacency: list[list[Node]] = [[] for _ in range(units)]
    left = edges
    for step in range(1, units):
        for unit in range(min(left, units - step)):
            adjacency[unit].append({"id": unit + step})
        left -= min(left, units - step)
    return graph([node(at, at * 2 // units) for at in range(units)], adjacency)


def two_hubs(units: int = UNITS) -> bytes:
    """Returns two units that are neighbours, each in a district of its own, and others, each of
    which has these two as its neighbours, by turns in one district and in the other. Each of the
    others may change its district at any time, and the first two never may. One column has 5000
    regions, another five.
    """
    adjacency: list[list[Node]] = [[{"id": 1}], [], *[[{"id": 0}, {"id": 1}]] * (units - 2)]
    return graph(
        [{**node(at, at % 2, at * 5000 // units), "few": at * 5 // units} for at in range(units)],
        adjacency,
    )


def moves(units: int, steps: int) -> int:
    """Returns the number of steps of a run on this graph that move a unit."""
    plan, moved = [at % 2 for at in range(units)], 0
    for draw in model.draws(bytes.fromhex(KEY), 0, steps):
        unit, district = divmod(draw % (2 * units), 2)
        if draw < 2**64 // (2 * units) * (2 * units) and unit > 1 and plan[unit] != district:
            plan[unit], moved = district, moved + 1
    return moved


# ---- what they print


def expect_check(
    units: int, edges: int, districts: int, low: int, high: int, more: str = ""
) -> End:
    return End(
        0,
        (
            f"plan-check 1\nunits {units} edges {edges} districts {districts}\npopulation"
            f" {units} slack 5000 low {low} high {high}\n{more}end\n"
        ),
        "",
    )


def refuse(note: str) -> End:
    return End(2, "", f"graph: {note}\n")


def expect_walk(
    units: int = UNITS, regions: int = 5000, steps: int = STEPS, moved: int = MOVES
) -> End:
    head = (
        f"district-audit 1\nkey {KEY}\nunits {units} edges {2 * units - 3} districts 2\npopulation"
        f" {units} slack 10000 low 0 high {units}\nmax-split 2 regions {regions}\nmax-splits 5000"
        f" max-split-regions 5000\ngroup-districts 2 of 2\nwalks 1 steps {steps} ends 0 hub-steps"
        " 1000\n"
    )
    line = (
        f"walk 0 moved {moved} cut-edges low start {units - 1}/1 count {steps + 1} of"
        f" {steps + 1} bound 1.414213563\n"
    )
    return End(0, head + line + "end\n", "")


def expect_stop() -> End:
    """Returns the place at which each test stops, if all ends have the start's value."""
    lines = [
        "seats low start 1/1", "mean-median high start 0/4000000000", "gap low start 0/4",
        "cut-edges high start 1/1",
    ]
    head = (
        f"district-audit 1\nkey {KEY}\nunits 2 edges 1 districts 2\npopulation 2 slack 5000 low 1"
        f" high 1\nwalks 0 steps 1 ends {ENDS} hub-steps 1\nstop {ENDS}\n"
    )
    return End(
        0,
        head
        + "".join(f"stop {line} place {ENDS} value {ENDS}/{ENDS} p 1.000000000\n" for line in lines)
        + "end\n",
        "",
    )


def cases() -> Iterator[tuple[str, list[str], bytes, End]]:
    """Yields the name of each input, the words, the input, and its end."""
    most = 67108864
    for more in (0, 1):
        own = expect_check(4, 4, 2, 1, 3) if not more else refuse("more than 67108864 bytes")
        yield f"{most + more} bytes", CHECK, CYCLE + b" " * (most + more - len(CYCLE)), own
    one_line = CYCLE.replace(b"\n", b"")
    yield f"{most + 1} bytes of several plans", [
        "plans", *CHECK[1:], "--key", KEY, "--ask", "gap:low",
    ], one_line + b"\n" * (most + 1 - len(one_line)), refuse("more than 67108864 bytes")
    yield "100000 units", CHECK, path(100000, lambda at: at // 50000), expect_check(
        100000, 99999, 2, 25000, 75000
    )
    yield "100001 units", CHECK, path(100001, lambda at: at // 50001), refuse(
        "100001 units, more than 100000"
    )
    yield "400000 edges", CHECK, dense(400000), expect_check(895, 400000, 2, 224, 671)
    yield "400001 edges", CHECK, dense(400001), refuse("400001 edges, more than 400000")
    yield "200 districts", CHECK, path(200, lambda at: at), expect_check(200, 199, 200, 1, 1)
    yield "201 districts", CHECK, path(201, lambda at: at), refuse("201 districts, not 2 to 200")
    yield "one district", CHECK, path(200, lambda at: 0), refuse("1 districts, not 2 to 200")
    for count in (5000, 5001):
        own = (
            expect_check(5000, 4999, 2, 1250, 3750, "max-split 200 regions 5000\n")
            if count == 5000
            else refuse("5001 regions, more than 5000")
        )
        yield f"{count} regions", [*CHECK, "--region", "id"], path(count, halves_of(count)), own
    for most, note in ((199, ""), (198, "plan: 199 splits of regions, more than 198\n")):
        own = (
            End(2, "", note)
            if note
            else expect_check(
                200,
                199,
                200,
                1,
                1,
                f"max-split 200 regions 1\nmax-splits {most} max-split-regions 5000\n",
            )
        )
        yield "a region in 200 districts", [
            *CHECK, "--region", "pop", "--max-splits", str(most),
        ], path(200, lambda at: at), own
    for most, note in (
        (200, ""),
        (199, "plan: 200 regions lie in more than one district, more than 199\n"),
    ):
        own = (
            End(2, "", note)
            if note
            else expect_check(
                400,
                399,
                2,
                100,
                300,
                f"max-split 200 regions 200\nmax-splits 995000 max-split-regions {most}\n",
            )
        )
        yield "200 split regions", [
            *CHECK, "--region", "r", "--max-split-regions", str(most),
        ], graph(
            [node(at, at // 200, at % 200) for at in range(400)],
            [[{"id": at + 1}] if at < 399 else [] for at in range(400)],
        ), own
    yield "200 majorities", [
        *CHECK, "--group", "a", "--group-of", "b", "--group-districts", "200",
    ], path(200, lambda at: at), expect_check(200, 199, 200, 1, 1, "group-districts 200 of 200\n")
    yield "100000 ends", [
        "run", *COLUMNS, "5000", "--key", KEY, "--walks", "0", "--steps", "1", "--ends", str(ENDS),
        "--hub-steps", "1", "--ask", "seats:low,mean-median:high,gap:low,cut-edges:high", "--stop",
        str(ENDS), "--workers", "2",
    ], graph(
        [{"id": at, "pop": 1, "a": 1 - at, "b": at, "d": at + 1} for at in range(2)],
        [[{"id": 1}], [{"id": 0}]],
    ), expect_stop()
    yield "three million steps", walk("r", STEPS), two_hubs(), expect_walk()
    yield from plan_cases()


def plan_cases() -> Iterator[tuple[str, list[str], bytes, End]]:
    """Yields tables with as many plans as there may be, and with one more. All plans are the
    graph's own, so that each has its report.
    """
    given, more = path(2, lambda at: at), ["--key", KEY, "--steps", "1", "--ask", "gap:low"]
    words = [*COLUMNS, "5000", *more]
    report = model.audit(["run", *words], given, [None, None]).out
    for count in (4096, 4097):
        names = [f"plan {number}" for number in range(count)]
        rows = [["id", *names], *([str(at)] * (count + 1) for at in range(2))]
        table = "".join(",".join(row) + "\n" for row in rows).encode()
        text = "".join(f"plan {name}\n{report}" for name in ("d", *names))
        end = End(0, text, "")
        if count > 4096:
            end = End(2, "", f"table: {count} plans, more than 4096\n")
        yield f"{count} plans", ["plans", *words, "--workers", "3"], given + b"\n" + table, end


def walk(region: str, steps: int) -> list[str]:
    """Returns the words of a run by all rules whose regions are those of this column."""
    return [
        "run", *COLUMNS, "10000", "--key", KEY, "--steps", str(steps), "--ask", "cut-edges:low",
        "--region", region, "--max-split", "2", "--max-splits", "5000", "--group", "a",
        "--group-of", "b", "--group-districts", "2",
    ]


def find_end(program: str, words: Sequence[str], given: bytes) -> End:
    try:
        end = subprocess.run(
            [program, *words], input=given, capture_output=True, timeout=SECONDS, check=False
        )
    except subprocess.TimeoutExpired:
        return End(124, "", f"nothing after {SECONDS} seconds")
    return End(end.returncode, end.stdout.decode(), end.stderr.decode())


def times(program: str) -> tuple[float, str]:
    """Returns the processor time of a run in 5000 regions as a multiple of one in few, and what is
    wrong, if something is. Each is made several times, by turns, and the least time of each counts,
    since others may use the processor beside it.
    """
    given = two_hubs(FEW_UNITS)
    least: dict[str, float] = {}
    for region, regions in [("few", 5), ("r", 5000)] * TRIES:
        before = resource.getrusage(resource.RUSAGE_CHILDREN).ru_utime
        found = find_end(program, walk(region, FEW_STEPS), given)
        least[region] = min(
            least.get(region, SECONDS),
            resource.getrusage(resource.RUSAGE_CHILDREN).ru_utime - before,
        )
        if found != expect_walk(FEW_UNITS, regions, FEW_STEPS, FEW_MOVES):
            return 0, f"a million steps in {regions} regions: {str(found)[:300]}"
    return least["r"] / least["few"], ""


def main(program: str) -> int:
    if program == "walk":
        print(moves(UNITS, STEPS), moves(FEW_UNITS, FEW_STEPS))
        return 0
    count, wrong, program = 0, 0, os.path.abspath(program)
    for name, words, given, wanted in cases():
        found, count = find_end(program, words, given), count + 1
        if found != wanted:
            print(f"WRONG: {name}: {str(found)[:300]} and not {str(wanted)[:300]}")
            wrong += 1
    more, fault = times(program)
    if fault or more > MOST_TIMES:
        slow = f"a run in 5000 regions takes {more:.1f} times the time of one in five"
        print(f"WRONG: {fault or f'{slow}, and not at most {MOST_TIMES}'}")
        wrong += 1
    print(f"{count + 1} inputs at the limits, {wrong} not as they have to be")
    return 1 if wrong else 0


def arguments() -> argparse.Namespace:
    parser = argparse.ArgumentParser(
        prog="python3 -m tests.system.limits", description=__doc__,
        formatter_class=argparse.RawDescriptionHelpFormatter,
    )
    parser.add_argument("program", help="the built auditor, or `walk`")
    return parser.parse_args()


if __name__ == "__main__":
    sys.exit(main(**vars(arguments())))
