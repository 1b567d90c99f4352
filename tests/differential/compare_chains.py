"""Halts, kills and resumes the auditor on drawn graphs, and compares the last report, byte for
byte, with that of one run in one piece.

Usage: python3 -m tests.differential.compare_chains PROGRAM [GRAPHS [SEED [WORKERS [SAVE]]]]
PROGRAM is the built program. Graphs, plans, keys and limits are drawn as in compare_walks.py (20,
if not said). WORKERS and SAVE fix the number of workers and of walks after which a run saves, which
are drawn elsewhere. Each audit is made once as a chain of runs over real files in a folder of its
own, and once in one piece: each run of the chain has a drawn budget, a drawn part of a drawn number
of parts, a drawn number of workers and a drawn number of walks after which it saves, half are asked
for the serial test, half for the tally of seats and half for the origin, some are killed (as by
kill -9) after a drawn time, and after some a drawn byte of a drawn file is changed, or all files
are written again in the first version of the format, without bins. A run that finds no intact file
is begun afresh. The run in one piece is asked for the serial test, the tally and the origin where
the last run of the chain was. The newest file never has fewer outcomes that a resumed run may go on
from after it than before it. Ends with status 0 where all reports are the same, and prints how many
runs there were.
"""
# RUN: {auditor} 3 2
# NEEDS: networkx
from __future__ import annotations

import argparse
import dataclasses
import pathlib
import random
import subprocess
import sys
import tempfile
from collections.abc import Sequence

from tests.checks import End
from tests.differential import compare_walks
from tests.oracle import model

SLOTS = ("audit-0.ckpt", "audit-1.ckpt")


def spoil(chance: random.Random, folder: str) -> None:
    """Changes a byte of one file, where there is one."""
    file = pathlib.Path(folder, chance.choice(SLOTS))
    if file.exists() and file.stat().st_size > 0:
        content = bytearray(file.read_bytes())
        content[chance.randrange(len(content))] ^= 1 << chance.randrange(8)
        file.write_bytes(content)


def read_slots(folder: str) -> list[model.Slot]:
    """Returns the state of each file."""
    files = [pathlib.Path(folder, name) for name in SLOTS]
    return [model.decode(file.read_bytes() if file.exists() else None) for file in files]


def downgrade(folder: str) -> None:
    """Writes all intact files in the first version of the format, without bins."""
    for name, slot in zip(SLOTS, read_slots(folder)):
        if slot.fault is None:
            found = model.outcomes_in(slot)
            data = model.checkpoint(slot.job, slot.generation, found, version=1)
            pathlib.Path(folder, name).write_bytes(data)


def count_saved(folder: str, walks: int, shift: str) -> int:
    """Returns the number of outcomes from which a run goes on, 0 if no file is valid."""
    slots = read_slots(folder)
    newest = model.newest(slots)
    if newest is None:
        return 0
    return sum(
        shift == "no" or number >= walks or any(outcome.bins)
        for number, outcome in model.outcomes_in(slots[newest]).items()
    )


def run(program: str, words: Sequence[str], text: str, folder: str, limit: float) -> End | None:
    """Returns the status and the output of a run, or None where it was killed."""
    try:
        done = subprocess.run(
            [program, *words], input=text, capture_output=True, text=True, cwd=folder, timeout=limit
        )
    except subprocess.TimeoutExpired:
        return None
    return End(done.returncode, done.stdout, done.stderr)


@dataclasses.dataclass
class Counts:
    """The numbers of runs, of those that were killed, and of those that refused damaged files."""

    runs: int = 0
    killed: int = 0
    within: int = 0
    """The number of killed runs that had saved more before."""
    refused: int = 0


@dataclasses.dataclass(frozen=True)
class Audit:
    """The program, its words, the number of walks and the graph; and the words of workers and save,
    empty where they are drawn.
    """

    program: str
    words: list[str]
    walks: int
    text: str
    workers: str
    save: str


def chain(
    chance: random.Random, audit: Audit, folder: str, counts: Counts
) -> tuple[str, list[str]]:
    """Returns the output of the run of a chain that ends with status 0, and the words that asked
    this run for the serial test, the tally and the origin.
    """
    resume = "no"
    while True:
        shift, serial, source = (chance.choice(("no", "yes")) for _ in range(3))
        asked = ["--shift", shift, "--serial", serial, "--source", source]
        workers = audit.workers or str(chance.randint(1, 4))
        save = audit.save or str(chance.randint(1, 3))
        parts = chance.choice((1, 1, 2, 3, 7))
        more = [
            *asked, "--save", save, "--resume", resume, "--budget", str(chance.randint(0, 30)),
            "--workers", workers, "--parts", str(parts), "--part", str(chance.randrange(parts)),
        ]
        limit = chance.uniform(0.001, 0.03) if chance.random() < 0.6 else 60
        before = count_saved(folder, audit.walks, shift)
        answer = run(audit.program, audit.words + more, audit.text, folder, limit)
        counts.runs += 1
        left = count_saved(folder, audit.walks, shift)
        if resume == "yes" and left < before:
            return f"a resumed run left {left} of {before} outcomes", asked
        if answer is None:
            counts.killed += 1
            counts.within += left > before
        elif answer.status == 0:
            return answer.out, asked
        elif answer.status == 8:
            counts.refused += 1
        elif answer.status != 7:
            return f"status {answer.status}: {answer.note}", asked
        resume = "no" if answer is not None and answer.status == 8 else "yes"
        if chance.random() < 0.1:
            spoil(chance, folder)
        if chance.random() < 0.1:
            downgrade(folder)


def main(
    program: str, graphs: int = 20, seed: int = 1, workers: str = "", save: str = ""
) -> int:
    program = str(pathlib.Path(program).resolve())
    chance = random.Random(seed)
    same, counts = 0, Counts()
    for number in range(graphs):
        drawn, walks = compare_walks.drawn_job(chance), chance.randint(1, 30)
        words = [
            "run", *drawn.words, "--walks", str(walks), "--steps",
            str(2 ** chance.randint(5, 14) - 1), "--ends", str(chance.randint(0, 20)),
            "--hub-steps", str(chance.randint(10, 5000)), *compare_walks.draw_asks(chance),
        ]
        text = drawn.text
        audit = Audit(program, words, walks, text, workers, save)
        with tempfile.TemporaryDirectory() as folder:
            found, asked = chain(chance, audit, folder, counts)
            wanted = run(program, [*words, *asked], text, folder, 600)
        if wanted is None:
            print(f"graph {number} of seed {seed}: no end within 600 seconds")
        elif wanted.status == 0 and found == wanted.out:
            same += 1
        else:
            print(
                f"graph {number} of seed {seed}: wanted\n{wanted.out}{wanted.note}but found\n"
                f"{found}"
            )
    print(
        f"same in {same} of {graphs} chains of {counts.runs} runs, of which"
        f" {counts.killed} were killed, {counts.within} of them after they had saved more,"
        f" and {counts.refused} refused damaged files"
    )
    return 0 if same == graphs else 1


def arguments() -> argparse.Namespace:
    parser = argparse.ArgumentParser(
        prog="python3 -m tests.differential.compare_chains", description=__doc__,
        formatter_class=argparse.RawDescriptionHelpFormatter,
    )
    parser.add_argument("program", help="the built auditor")
    parser.add_argument("graphs", nargs="?", type=int, default=20, help="how many graphs are drawn")
    parser.add_argument("seed", nargs="?", type=int, default=1, help="what they are drawn from")
    parser.add_argument(
        "workers", nargs="?", default="", help="how many workers walk; drawn if not given"
    )
    parser.add_argument(
        "save", nargs="?", default="", help="after how many walks a run saves; drawn if not given"
    )
    return parser.parse_args()


if __name__ == "__main__":
    sys.exit(main(**vars(arguments())))
