"""The sample graphs and tables are what networkx and pandas write, and a checkpoint's digest is
that of a plain program.
"""
# NEEDS: networkx
# RUN: {auditor}
# QUICK
import argparse
import pathlib
import sys

from tests.checks import Checks, run
from tests.oracle import model
from tests.places import DATA, EXAMPLES, TOP, python_with

KEY = "0" * 64
CYCLE_DIGEST = "65748cd4f1dd8b36f1023bc495f442a19a59dd57bedbd5bfcdf045bc050c2449"
CYCLE = "--pop pop --first a --second b --district d --slack 5000 --steps 8".split()
GRID = "--pop TOTPOP --first DEM --second REP --district CD --slack 1000 --steps 100".split()


def check_written(checks: Checks, python: str, module: str, path: pathlib.Path) -> None:
    """A file has to be what this module writes."""
    end = run([python, "-m", module], more={"PYTHONPATH": f"{TOP / 'python'}:{TOP}"})
    checks.has_status(f"{module.rpartition('.')[2]}_ends", end)
    checks.is_same_text(
        f"{module.rpartition('.')[2]}_writes_{path.name}", end.out, path.read_text()
    )


def plans_of_table(checks: Checks, auditor: pathlib.Path) -> None:
    """The auditor has to audit each plan of plans.csv."""
    data = (DATA / "grid.json").read_bytes().replace(b"\n", b"") + b"\n"
    words = [auditor, "plans", *GRID, "--key", KEY, "--ask", "cut-edges:low"]
    end = run(words, data + (EXAMPLES / "plans.csv").read_bytes())
    names = [line for line in end.out.splitlines() if line.startswith("plan ")]
    checks.is_equal("plans_of_table", names, ["plan CD", "plan blocks", "plan columns"])


def main() -> int:
    parser = argparse.ArgumentParser(description=__doc__)
    parser.add_argument("auditor", type=pathlib.Path)
    auditor = parser.parse_args().auditor
    checks = Checks("sample_files")
    for name in ("grid", "rough"):
        check_written(checks, sys.executable, f"tests.golden.write_{name}", DATA / f"{name}.json")
    check_written(
        checks, sys.executable, "tests.golden.write_tilted", EXAMPLES / "ny8_plans.csv"
    )
    pandas = python_with("pandas")
    if pandas:
        check_written(checks, pandas, "tests.golden.write_plans", EXAMPLES / "plans.csv")
    else:
        checks.count_missing("write_plans", "pandas")
    plans_of_table(checks, auditor)
    words = ["run", *CYCLE, "--ask", "gap:low,gap:high", "--key", KEY]
    job = model.job_of(model.Setting(words), (DATA / "cycle.json").read_bytes())
    checks.is_equal("digest_of_cycle", job.digest().hex(), CYCLE_DIGEST)
    return checks.finish()


if __name__ == "__main__":
    sys.exit(main())
