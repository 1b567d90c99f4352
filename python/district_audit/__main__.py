"""The command `python -m district_audit`: it prints which programs the package calls.

`--version` prints the package's version, and `verify MANIFEST` checks a manifest.
"""
import argparse
import sys

from . import __version__
from .errors import ProgramMissing
from .program import find_program
from .verifying import verify_command


def main() -> int:
    if sys.argv[1:2] == ["verify"]:
        return verify_command(sys.argv[2:])
    parser = argparse.ArgumentParser(
        prog="python -m district_audit",
        description=(
            "Prints which programs the package calls. With `verify MANIFEST` it"
            " compares a study with its manifest; `verify --help` says more."
        ),
    )
    parser.add_argument("--version", action="version", version="district_audit " + __version__)
    parser.parse_args()
    status = 0
    for which, what in (("audit", "the auditor"), ("slots", "audit_slots, which shows progress")):
        try:
            print(f"{what}: {find_program(which)}")
        except ProgramMissing as why:
            print(f"{what}: {why}")
            status = 1 if which == "audit" else status
    return status


if __name__ == "__main__":
    sys.exit(main())
