"""Checks that a run has a thread for each of its workers.

Usage: python3 -m tests.system.threads PROGRAM
A run with many workers is started on a job that it cannot end soon, and its threads are counted in
/proc. Then it is killed.
"""
# RUN: {auditor}
import pathlib
import subprocess
import sys
import time

from tests.checks import Checks
from tests.places import TOP

GRAPH = TOP / "examples" / "data" / "grid.json"
RUN = [
    *"run --pop TOTPOP --first DEM --second REP --district CD --slack 1000 --key".split(), "0" * 64,
    *"--walks 64 --steps 1000000000 --ask cut-edges:low".split(),
]
SECONDS = 60


def count_threads(program: str, workers: int) -> int:
    """Returns the greatest number of threads that a run was seen to have at once."""
    most = 0
    words = [program, *RUN, "--workers", str(workers)]
    null = subprocess.DEVNULL
    with open(GRAPH, "rb") as graph, subprocess.Popen(words, stdin=graph, stderr=null) as run:
        until = time.monotonic() + SECONDS
        while most < workers and time.monotonic() < until and run.poll() is None:
            most = max(most, len(list(pathlib.Path(f"/proc/{run.pid}/task").iterdir())))
            time.sleep(0.05)
        run.kill()
    return most


def main(program: str) -> int:
    checks = Checks("threads")
    for workers in (2, 9, 16, 32):
        found = count_threads(program, workers)
        checks.is_true(
            f"workers_{workers}", found >= workers, f"at least {workers} threads", found
        )
    return checks.finish()


if __name__ == "__main__":
    sys.exit(main(sys.argv[1]))
