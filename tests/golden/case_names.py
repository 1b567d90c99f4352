"""The cases have names, and their expected outputs are what plain programs print of them.

This test reads files and runs no program in Rattle; the test `case_output` runs `case_runner` and
the auditor. A failing check of a case has the name of that case.
"""
# NEEDS: networkx
# RUN:
# QUICK
import hashlib
import pathlib
import sys

from tests.checks import Checks
from tests.golden.named_cases import (
    AUDITED,
    LINES,
    NAME,
    Case,
    audited_parts,
    check_order,
    compare_with_model,
    find_repeated,
    is_question,
    lines_of,
    stdout_parts,
    words_of,
)
from tests.golden.plain_cases import grid
from tests.places import CASES


def check_names(checks: Checks, file: str, names: list[str]) -> None:
    """Each name is one, and none is there twice."""
    checks.is_true(f"{file}/has_lines", names, "a line at least", names)
    checks.is_equal(f"{file}/unnamed", [name for name in names if not NAME.fullmatch(name)], [])
    checks.is_equal(f"{file}/repeated", find_repeated(names), [])


def check_parts(
    checks: Checks, file: str, parts: list[Case], lines: list[Case], is_first: bool
) -> None:
    """Each line has its part, in the order of the lines; with `is_first` the part begins with it.
    """
    check_names(checks, file, [part.name for part in parts])
    named = {line.name for line in lines}
    in_files = [part.name for part in parts if part.name in named]
    check_order(checks, f"{file}/order", in_files, [line.name for line in lines])
    texts = dict(parts)
    for name, rest in lines if is_first else []:
        checks.is_same_text(f"{file}/{name}/line", texts.get(name, "").partition("\n")[0], rest)


def check_grid_text(checks: Checks) -> None:
    """The digest of the largest grid is that of the plain model's text."""
    text = grid(30, bytes(32))
    expected = f"text {len(text)} bytes sha256 {hashlib.sha256(text).hexdigest()}\n"
    checks.is_same_text(
        "text_of_largest_grid", dict(stdout_parts())["text_of_largest_grid"], expected
    )


def main() -> int:
    checks = Checks("case_names")
    lines = lines_of(LINES)
    audited = [line for path in AUDITED for line in lines_of(path)]
    for path in (LINES, *AUDITED):
        name = str(pathlib.Path(path.parent.name) / path.name)
        check_names(checks, name, [line.name for line in lines_of(path)])
    check_parts(checks, "stdout", stdout_parts(), lines, True)
    check_parts(checks, "case_output", audited_parts(), audited, False)
    modeled = [line.name for line in lines if not is_question(words_of(line.text)[1:])]
    compare_with_model(checks, "fault_cases", CASES / "data", stdout_parts(), modeled)
    check_grid_text(checks)
    return checks.finish()


if __name__ == "__main__":
    sys.exit(main())
