#!/usr/bin/env python3
"""Are the traces of the program those of a plain model, on jobs that are drawn over a graph?

Each drawn job is traced by the program and by `model.py`, and both texts are to be the same: of one
trajectory or of a range, at a drawn number of steps, also above all steps and equal to the hub's.
Then its report is made by `run` with the same words: of each trajectory the last line has the moves
that the report tells, and of a walk a trace of each step has its counts.
"""
# RUN traces: {auditor} examples/data/grid.json TOTPOP DEM REP CD 500 --jobs 8 --seed 3
# RUN traces_with_rules: {auditor} examples/data/groups.json pop a b d 1000 --jobs 8 --seed 3 \
#     --also "--region county --max-split 3 --max-splits 4 --group bvap --group-of vap \
#     --group-districts 1"
from __future__ import annotations

import argparse
import dataclasses
import random
import subprocess
import sys
from collections.abc import Sequence

from tests.checks import End
from tests.oracle import model

SCORES = model.SCORES[:4]


@dataclasses.dataclass(frozen=True)
class Range:
    """The words of a range, its first and last id, and the number of steps of a line."""

    words: list[str]
    first: int
    last: int
    thin: int


def drawn_words(columns: Sequence[str], dice: random.Random) -> list[str]:
    asks = [
        f"{score}:{dice.choice(['low', 'high'])}"
        for score in dice.sample(SCORES, dice.randint(1, 4))
    ]
    return [
        "--pop", columns[0], "--first", columns[1], "--second", columns[2], "--district",
        columns[3], "--slack", columns[4], "--key", dice.randbytes(32).hex(), "--walks",
        str(dice.randint(1, 3)), "--steps", str(dice.randint(1, 400)), "--ends",
        str(dice.randint(0, 3)), "--hub-steps", str(dice.randint(1, 400)), "--ask", ",".join(asks),
        "--max-cut", str(dice.choice([400000, 400])),
    ]


def drawn_range(setting: model.Setting, dice: random.Random) -> Range:
    """Returns a range of the ids of a run."""
    count = setting.walks + setting.ends
    first = dice.randrange(count)
    last = dice.choice([first, dice.randrange(first, count), count - 1])
    ids = str(first) if first == last and dice.random() < 0.5 else f"{first}-{last}"
    thin = dice.choice([1, 7, 50, 1000, 10**9, setting.steps, setting.hub_steps])
    return Range(["--ids", ids, "--thin", str(thin)], first, last, thin)


def answer(program: str, command: str, words: Sequence[str], graph: bytes) -> End:
    ended = subprocess.run([program, command, *words], input=graph, capture_output=True)
    return End(ended.returncode, ended.stdout.decode(), ended.stderr.decode())


def sections(text: str) -> dict[int, list[list[str]]]:
    """Returns the lines of each trajectory of a trace, by its id."""
    found: dict[int, list[list[str]]] = {}
    lines: list[list[str]] | None = None
    for line in text.splitlines()[:-1]:
        if line.startswith("trace id "):
            lines = found.setdefault(int(line.split()[2]), [])
        elif lines is not None:
            lines.append(line.split())
    return found


def against_report(job: model.Job, text: str, report: str, thin: int) -> str | None:
    """Returns the first disagreement of a trace with the report of its words, or None."""
    setting, start = job.setting, tuple(job.plan)
    moves: dict[int, str] = {}
    counts: dict[int, list[int]] = {}
    for words in map(str.split, report.splitlines()):
        if words[0] == "walk":
            moves[int(words[1])] = words[3]
            counts.setdefault(int(words[1]), []).append(int(words[words.index("count") + 1]))
    for number, lines in sections(text).items():
        if number < setting.walks and moves[number] != lines[-1][1]:
            return f"walk {number}: {lines[-1][1]} moves, and the report has {moves[number]}"
        if number < setting.walks and thin == 1:
            starts = [job.value(start, score) for score, _ in setting.asks]
            found = [
                sum(
                    (
                        (int(line[2 + k]) <= starts[k])
                        if tail == "low"
                        else (int(line[2 + k]) >= starts[k])
                    )
                    for line in lines
                )
                for k, (_, tail) in enumerate(setting.asks)
            ]
            if found != counts[number]:
                return f"walk {number}: counts {found}, and the report has {counts[number]}"
    return None


def main() -> None:
    parser = argparse.ArgumentParser(description=__doc__)
    for name in ("program", "graph", "pop", "first", "second", "district", "slack"):
        parser.add_argument(name)
    parser.add_argument("--jobs", type=int, default=20)
    parser.add_argument("--seed", type=int, default=1)
    parser.add_argument(
        "--also", default="", help="words of rules for each job, as '--region county --max-split 3'"
    )
    given = parser.parse_args()
    dice, same, unlike = random.Random(given.seed), 0, 0
    with open(given.graph, "rb") as file:
        graph = file.read()
    for _ in range(given.jobs):
        words = (
            drawn_words([given.pop, given.first, given.second, given.district, given.slack], dice)
            + given.also.split()
        )
        setting = model.Setting(["run", *words])
        try:
            job = model.job_of(setting, graph)
        except model.Refused:
            unlike += 1
            continue
        ids = drawn_range(setting, dice)
        all_words = [*words, *ids.words]
        found = answer(given.program, "trace", all_words, graph)
        wanted = model.trace_text(job, ids.first, ids.last, ids.thin)
        if found != End(0, wanted, ""):
            sys.exit(f"differs: {' '.join(all_words)}\n{found.out}{found.note}\nnot\n{wanted}")
        report = answer(given.program, "run", words, graph).out
        fault = against_report(job, found.out, report, ids.thin)
        if fault:
            sys.exit(f"{fault}: {' '.join(all_words)}")
        same += 1
    print(f"{same} traces of {given.graph} are as the model says; {unlike} drawn jobs are refused")


if __name__ == "__main__":
    main()
