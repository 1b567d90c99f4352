"""Draws jobs, and walks each of them whole and in parts with kills: the reports have to be the same
bytes.

Usage: python3 -m tests.differential.compare_parts PROGRAM GATHERER [JOBS [SEED [KILLS]]]
PROGRAM is the auditor, GATHERER is audit_gather. Each of JOBS drawn jobs is walked in one run that
saves nothing, and over 1, 3, 7 and 20 parts, each in a folder of its own by runs that end with
their budget used up or are killed after a drawn time, KILLS times at most for a part. Then what the
folders hold is gathered into another, some folders while their part is halfway, and a run there
goes on. Ends with 1 and the job's words where a report is another, or a program ends otherwise than
it has to.
"""
# RUN: {auditor} {gatherer} 6 3
from __future__ import annotations

import argparse
import dataclasses
import pathlib
import random
import shutil
import subprocess
import sys
import tempfile
import time
from collections.abc import Sequence

PARTS = (1, 3, 7, 20)
ASKS = (
    "seats:low", "seats:high", "mean-median:high", "gap:low", "gap:high", "cut-edges:low",
    "cut-edges:high",
)


NO_WORDS: list[str] = []
MAX_CUT = ["--max-cut", "95"]


class Wrong(Exception):
    """A run that ends otherwise than it has to."""


@dataclasses.dataclass(frozen=True)
class Programs:
    """The paths of the auditor and of audit_gather."""

    auditor: str
    gatherer: str


def drawn_words(draw: random.Random) -> list[str]:
    asks = draw.sample(ASKS, draw.randint(1, 3))
    words = [
        "make", "--size", "1", "--slack", str(draw.choice((1000, 3000, 5000))), "--walks",
        str(draw.randint(1, 9)), "--steps", str(draw.choice((10, 1000, 60000))), "--ends",
        str(draw.choice((0, 0, 1, 5, 14))), "--hub-steps", str(draw.choice((10, 2000))), "--ask",
        ",".join(asks), "--key", draw.randbytes(32).hex(),
    ]
    shift, max_cut = (draw.choice((NO_WORDS, more)) for more in (["--shift", "yes"], MAX_CUT))
    return [*words, *shift, *max_cut]


def call(folder: pathlib.Path, *words: str) -> subprocess.CompletedProcess[bytes]:
    folder.mkdir(exist_ok=True)
    return subprocess.run(
        words, cwd=folder, stdin=subprocess.DEVNULL, capture_output=True, check=False
    )


def call_and_kill(folder: pathlib.Path, seconds: float, *words: str) -> bool:
    """Starts a program and kills it after some time; whether it had not ended by then."""
    folder.mkdir(exist_ok=True)
    process = subprocess.Popen(
        words, cwd=folder, stdin=subprocess.DEVNULL, stdout=subprocess.DEVNULL,
        stderr=subprocess.DEVNULL,
    )
    time.sleep(seconds)
    process.kill()
    return process.wait() == -9


def expect(answer: subprocess.CompletedProcess[bytes], status: int, what: str) -> None:
    if answer.returncode != status:
        raise Wrong(
            f"{what} ended with status {answer.returncode} and not {status}:"
            f" {answer.stderr[:200]!r}"
        )


def clear(folder: pathlib.Path, *words: str) -> None:
    """Removes the part of one file that a kill within the first save of a folder leaves.

    Nothing was saved, and a run has to report that file.
    """
    if (
        list(folder.glob("*")) == [folder / "audit-0.ckpt"]
        and len((folder / "audit-0.ckpt").read_bytes()) < 84
    ):
        answer = call(folder, *words)
        expect(answer, 8, "a run over a part of a first save")
        (folder / "audit-0.ckpt").unlink()


def walk_part(draw: random.Random, kills: int, folder: pathlib.Path, words: Sequence[str]) -> int:
    """Walks a part to its end, or halfway, and returns the number of runs that were killed.

    It leaves a checkpoint in any case.
    """
    count = 0
    for _ in range(draw.randint(0, kills)):
        count += call_and_kill(folder, draw.choice((0.001, 0.003, 0.01, 0.03)), *words)
    clear(folder, *words)
    if draw.random() < 0.2:
        answer = call(folder, *words, "--budget", str(draw.randint(1, 3)))
        if answer.returncode not in (0, 7):
            raise Wrong(
                f"a run with a budget ended with status {answer.returncode}:"
                f" {answer.stderr[:200]!r}"
            )
        return count
    answer = call(folder, *words)
    if answer.returncode not in (0, 7):
        raise Wrong(f"a part ended with status {answer.returncode}: {answer.stderr[:200]!r}")
    return count


def compare(
    programs: Programs, draw: random.Random, kills: int, words: Sequence[str], room: pathlib.Path
) -> int:
    """Compares the reports of one job, and returns the number of runs that were killed."""
    auditor = programs.auditor
    whole = call(room / "whole", auditor, *words)
    expect(whole, 0, "the run in one piece")
    count = 0
    for parts in PARTS:
        folders, saving = [], [
            "--save", str(draw.randint(1, 3)), "--resume", "yes", "--workers",
            str(draw.randint(1, 3)),
        ]
        for part in range(parts):
            folders.append(f"../{parts}-{part}")
            count += walk_part(
                draw,
                kills,
                room / f"{parts}-{part}",
                [auditor, *words, *saving, "--parts", str(parts), "--part", str(part)],
            )
        draw.shuffle(folders)
        gathered = room / f"all-{parts}"
        end = call(gathered, programs.gatherer, *folders, *words)
        expect(end, 0, f"the gathering of {parts} parts")
        report = call(gathered, auditor, *words, *saving)
        expect(report, 0, f"the run over {parts} gathered parts")
        if report.stdout != whole.stdout:
            raise Wrong(f"the report over {parts} parts is another")
    return count


def main(program: str, gatherer: str, jobs: int = 20, seed: int = 1, kills: int = 2) -> int:
    draw, count = random.Random(seed), 0
    programs = Programs(*(str(pathlib.Path(path).absolute()) for path in (program, gatherer)))
    for job in range(jobs):
        words, room = drawn_words(draw), pathlib.Path(tempfile.mkdtemp())
        try:
            count += compare(programs, draw, kills, words, room)
        except Wrong as why:
            print(f"job {job} of {' '.join(words)}: {why}")
            return 1
        finally:
            shutil.rmtree(room)
    print(
        f"{jobs} jobs over {', '.join(map(str, PARTS))} parts: the same reports; {count} runs were"
        " killed"
    )
    return 0


def arguments() -> argparse.Namespace:
    parser = argparse.ArgumentParser(
        prog="python3 -m tests.differential.compare_parts", description=__doc__,
        formatter_class=argparse.RawDescriptionHelpFormatter,
    )
    parser.add_argument("program", help="the built auditor")
    parser.add_argument("gatherer", help="the built audit_gather")
    parser.add_argument("jobs", nargs="?", type=int, default=20, help="how many jobs are drawn")
    parser.add_argument("seed", nargs="?", type=int, default=1, help="what they are drawn from")
    parser.add_argument(
        "kills", nargs="?", type=int, default=2, help="how often a part is killed at most"
    )
    return parser.parse_args()


if __name__ == "__main__":
    sys.exit(main(**vars(arguments())))
