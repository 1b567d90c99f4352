"""The jobs that users copy for GNU parallel and for Slurm: four parts, one of which had died within
its first save, are walked, gathered and reported. The report has to be that of one run.
"""
# RUN: {auditor}
import argparse
import pathlib
import re
import shlex
import shutil
import sys
import tempfile
import time

from tests.checks import Checks, run
from tests.places import DATA, EXAMPLES, TEST_DATA, link_programs

WORDS = [
    "run",
    *"--pop TOTPOP --first DEM --second REP --district CD --slack 1000 --key".split(),
    "0" * 64,
    *"--walks 6 --steps 20000 --ends 9 --hub-steps 5000 --ask cut-edges:low".split(),
]
# The text between the two lines of a job that say what to change.
CHANGED = re.compile(r"(?<=# ---- change from here)(.*?\n).*?(?=# ---- to here)", re.S)


def settings(auditor: pathlib.Path, gatherer: pathlib.Path, seconds: str) -> str:
    return "\n".join(
        [
            f"program={shlex.quote(str(auditor))}",
            f"gatherer={shlex.quote(str(gatherer))}",
            "graph=graph.json",
            "parts=4",
            "cores=1",
            "together=2",
            f"time={seconds}",
            "machines=()",
            f"words=({' '.join(WORDS)})",
            "saving=(--save 1)",
            "",
        ]
    )


def job(folder: pathlib.Path, script: str, text: str) -> pathlib.Path:
    """Copies a job to a folder of its own, with these settings and a graph."""
    folder.mkdir()
    shutil.copy(DATA / "grid.json", folder / "graph.json")
    whole = (EXAMPLES / script).read_text()
    path = folder / script
    path.write_text(CHANGED.sub(lambda found: found[1] + text, whole))
    return path


def try_parallel(checks: Checks, path: pathlib.Path, report: str) -> None:
    if shutil.which("parallel") is None:
        checks.count_missing("parallel_audit", "GNU parallel")
        return
    front = (TEST_DATA / "version_1.ckpt").read_bytes()[:50]
    for name in ("part-3", "all"):
        (path.parent / name).mkdir()
        (path.parent / name / "audit-0.ckpt").write_bytes(front)
    end = run(["bash", path], folder=path.parent)
    written = path.parent / "report"
    checks.has_status("parallel_audit_ends", end)
    checks.is_same_text(
        "parallel_audit_report", written.read_text() if written.exists() else "", report
    )


def has_slurm() -> bool:
    """Returns whether a Slurm runs here whose machine is idle."""
    if shutil.which("sbatch") is None or shutil.which("sinfo") is None:
        return False
    return "idle" in run(["sinfo", "-h", "-o", "%T"]).out


def try_slurm(checks: Checks, path: pathlib.Path, report: str) -> None:
    if not has_slurm():
        checks.skips("slurm_audit", "Slurm is not running here")
        return
    checks.has_status("slurm_audit_starts", run(["bash", path.name, "start"], folder=path.parent))
    written, end = path.parent / "report", time.monotonic() + 120
    while not written.exists() and time.monotonic() < end:
        time.sleep(1)
    checks.is_same_text(
        "slurm_audit_report", written.read_text() if written.exists() else "", report
    )


def main() -> int:
    parser = argparse.ArgumentParser(description=__doc__)
    parser.add_argument("auditor", type=pathlib.Path)
    auditor = parser.parse_args().auditor.resolve()
    checks = Checks("schedulers")
    with tempfile.TemporaryDirectory() as name:
        room = pathlib.Path(name)
        _, _, gatherer = link_programs(room)
        end = run([auditor, *WORDS], (DATA / "grid.json").read_bytes())
        checks.has_status("one_run", end)
        path = job(room / "parallel", "parallel_audit.sh", settings(auditor, gatherer, "60"))
        try_parallel(checks, path, end.out)
        path = job(room / "slurm", "slurm_audit.sh", settings(auditor, gatherer, "00:05:00"))
        try_slurm(checks, path, end.out)
    return checks.finish()


if __name__ == "__main__":
    sys.exit(main())
