"""Checks that the list of scores stands in three files: one of the package, and one of each of the
two independent programs. All other files import it, so a new score cannot be forgotten in one.

A list is a tuple, list or set with at least four of the scores. Each independent program raises an
error for a score that it does not know, and computes no other one in its place.
"""
# RUN:
# QUICK
from __future__ import annotations

import argparse
import ast
import sys
import types
from collections.abc import Iterator

from tests.checks import Checks
from tests.oracle import model
from tests.places import TOP

FOLDERS = ("bench", "examples", "python", "scripts", "tests", "tools")
ALLOWED = ["python/district_audit/arguments.py", "scripts/recheck.py", "tests/oracle/model.py"]


def score_lists(text: str) -> Iterator[int]:
    """Yields the line of each list of scores in a Python text."""
    for node in ast.walk(ast.parse(text)):
        if isinstance(node, (ast.List, ast.Tuple, ast.Set)):
            values = [part.value for part in node.elts if isinstance(part, ast.Constant)]
            if len({*values} & {*model.SCORES}) >= 4:
                yield node.lineno


def main() -> int:
    argparse.ArgumentParser(prog="python3 -m tests.system.score_lists", description=__doc__,
                            formatter_class=argparse.RawDescriptionHelpFormatter).parse_args()
    checks, found = Checks("score_lists"), []
    paths = [path for folder in FOLDERS for path in sorted((TOP / folder).rglob("*.py"))]
    for path in paths:
        name = str(path.relative_to(TOP))
        lines = list(score_lists(path.read_text()))
        found += [name] * len(lines)
        is_right = len(lines) == (name in ALLOWED)
        checks.is_true(name, is_right, "import model.SCORES, or arguments.SCORES", f"lines {lines}")
    checks.is_equal("files with a list", sorted(found), ALLOWED)
    planted = 'ASKS = ["gap", "seats", "mean-median", "cut-edges"]'
    checks.is_equal("a fourth list is found", list(score_lists(planted)), [1])
    unknown_score(checks)
    return checks.finish()


def unknown_score(checks: Checks) -> None:
    """Checks that the model raises an error for a score that it does not know."""
    graph = (TOP / "examples" / "data" / "cycle.json").read_bytes()
    words = "check --pop pop --first a --second b --district d --slack 5000".split()
    job = model.job_of(model.Setting(words), graph)
    for call in (job.value, lambda plan, score: job.denominator(score)):
        checks.is_equal("an unknown score", error_of(call, job.plan), "ValueError: most-votes")


def error_of(call: object, plan: model.Plan) -> str:
    """Returns the error of a call for the value of a score that is not known."""
    if not isinstance(call, (types.MethodType, types.FunctionType)):
        raise TypeError("no function")
    try:
        return f"the value {call(plan, 'most-votes')}"
    except ValueError as error:
        return f"ValueError: {str(error).split(' ')[-1]}"


if __name__ == "__main__":
    sys.exit(main())
