"""Runs the commands of README, GUIDE and the page of examples, and compares what they print.

A command is a block of code that calls the auditor, and the next block is its output. A command
with a key that the reader makes, and one whose output is not shown, are left out.
"""
# RUN: {auditor}
# QUICK
import argparse
import pathlib
import re
import shlex
import sys
import typing

from tests.checks import Checks, run
from tests.places import TOP

DOCUMENTS = ("README.md", "docs/user/GUIDE.md", "examples/README.md")
BLOCK = re.compile(r"^```(?:\w+)?\n(.*?)^```$", re.DOTALL | re.MULTILINE)
CALL = re.compile(r"(?:^ *|[|;] )(?:rt run --|district-audit) \w", re.MULTILINE)
OUTPUT = re.compile(r"(?:district-audit|district-trace|plan-check) \d\n|plan \S+\n")


def commands_in(text: str) -> typing.Iterator[tuple[str, str]]:
    """Yields each command of a document with the text that it prints."""
    blocks = BLOCK.findall(text)
    for block, behind in zip(blocks, blocks[1:]):
        if CALL.search(block) and OUTPUT.match(behind) and "$" not in block:
            yield block, behind


def functions(auditor: pathlib.Path) -> str:
    """Returns what the names of programs stand for in a command."""
    prepare = "from district_audit.commands import prepare; import sys; sys.exit(prepare())"
    python, code = shlex.quote(sys.executable), shlex.quote(prepare)
    return (
        f'rt() {{ {shlex.quote(str(auditor))} "${{@:3}}"; }}\n'
        f'district-audit() {{ {shlex.quote(str(auditor))} "$@"; }}\n'
        f'district-audit-prepare() {{ {python} -c {code} "$@"; }}\n'
    )


def check_other_tail(checks: Checks, auditor: pathlib.Path) -> None:
    """Checks what README says of its neutral plan, asked for the other tail."""
    text = (TOP / "README.md").read_text(encoding="utf-8")
    (said,) = re.findall(r"asked for `gap:high`, `neutral` (ranks \d+ of \d+)\)", text)
    command = next(command for command, _ in commands_in(text) if "--ask gap:low" in command)
    command = command.replace("--ask gap:low", "--ask gap:high").replace("--walks 2", "--walks 0")
    words = ["bash", "-c", functions(auditor) + command.replace("--pairs yes", "")]
    end = run(words, folder=TOP, more={"PYTHONPATH": str(TOP / "python")})
    found = re.search(r"plan neutral\nends gap high \S+ \S+ rank (\d+ of \d+) ", end.out)
    checks.is_equal("README_other_tail", f"ranks {found and found[1]}", said)


def main() -> int:
    parser = argparse.ArgumentParser(description=__doc__)
    parser.add_argument("auditor", type=pathlib.Path, help="the built auditor")
    auditor = parser.parse_args().auditor.resolve()
    checks, count = Checks("document_commands"), 0
    for name in DOCUMENTS:
        text = (TOP / name).read_text(encoding="utf-8")
        for number, (command, wanted) in enumerate(commands_in(text), 1):
            folder = TOP / "crates" / "audit_program" if "rt run" in command else TOP
            words = ["bash", "-c", functions(auditor) + command]
            end = run(words, folder=folder, more={"PYTHONPATH": str(TOP / "python")})
            checks.is_same_text(f"{pathlib.Path(name).stem}_{number}", end.out, wanted)
            count += 1
    check_other_tail(checks, auditor)
    checks.is_true("commands", count >= 12, "at least 12 commands", count)
    return checks.finish()


if __name__ == "__main__":
    sys.exit(main())
