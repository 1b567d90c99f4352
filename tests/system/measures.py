"""The measurements of bench/ run, and print whole tables; their numbers are not checked."""
# RUN: {auditor}
import argparse
import pathlib
import re
import sys

from tests.checks import Checks, run

SIZES = ["100|180|10", "900|1740|10", "281|764|2", "281|764|8", "900|3422|10"]


def main() -> int:
    parser = argparse.ArgumentParser(description=__doc__)
    parser.add_argument("auditor", type=pathlib.Path)
    auditor = parser.parse_args().auditor
    checks = Checks("measures")
    words = [sys.executable, "-m", "bench.cost_table", auditor, "--most", "900", "--steps", "1000"]
    end = run(words)
    checks.has_status("cost_table_ends", end)
    rows = [
        line.replace(" ", "").split("|") for line in end.out.splitlines() if line.startswith("|")
    ]
    checks.is_equal("cost_table_has_five_graphs", ["|".join(row[2:5]) for row in rows[-5:]], SIZES)
    words = [sys.executable, "-m", "bench.cost_table", "workers", auditor, "--plain", auditor]
    end = run([*words, "--steps", "1000"])
    checks.has_status("cost_table_of_workers_ends", end)
    rows = re.findall(r"^\| .* \| [0-9.]* \| [0-9.]* \| [0-9.]* \|$", end.out, re.M)
    checks.is_true("cost_table_of_workers_has_two_rows", len(rows) == 2, "2 rows", end.out)
    end = run([sys.executable, "-m", "bench.plans_cost", auditor, "100", "1"])
    checks.has_status("plans_cost_ends", end)
    return checks.finish()


if __name__ == "__main__":
    sys.exit(main())
