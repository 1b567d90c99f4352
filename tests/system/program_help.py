"""Checks the answers of the three programs to `--help` and `--version` against FORMATS.md.

Usage: python3 -m tests.system.program_help AUDITOR SLOTS GATHERER
The arguments of each command, their values and their defaults are compared with the table of
docs/user/FORMATS.md, the version with that of the package, and the kit's line with the file
`.origin` beside the program. No source, document or test may name the kit of one machine.
The programs must read and write nothing else.
"""
# RUN: {auditor} {slots} {gatherer}
# QUICK
import os
import pathlib
import re
import shutil
import subprocess
import sys
import tempfile

from tests.checks import Checks, End, run
from tests.places import DATA, TOP, origin_of

COMMANDS = ("check", "run", "make", "plans", "trace")
ROW = re.compile(r"^\| `(--[a-z-]+)` \| ([a-z, ]+) \| (.*) \| ([^|]*) \|$")
VALUES = "COLUMN|yes or no|64 hex digits|SCORE:TAIL,..|ID or ID-ID|[0-9]+ to [0-9]+"
LINE = re.compile(rf"^  (--\S+) +({VALUES}) +(required|default \S+) +\S.*$")
# Values in the usage for values without a range in the table.
KINDS = (
    ("key of the column", "COLUMN"),
    ("`yes` or `no`", "yes or no"),
    ("64 hexadecimal digits", "64 hex digits"),
    ("1 to 4 asks", "SCORE:TAIL,.."),
    ("an id `A`", "ID or ID-ID"),
    ("0 to one less than `--parts`", "0 to 100000"),
)


def values_of(text: str) -> str:
    """Returns the values that the usage has for those of the table."""
    for begin, values in KINDS:
        if text.startswith(begin):
            return values
    found = re.match(r"\d+ to \d+\b", text)
    return found.group() if found else f"no values known for {text}"


def default_of(text: str) -> str:
    """Returns the default that the usage has for that of the table."""
    known = {"required": "required", "the empty text": "default none"}
    return known.get(text, "default " + text.strip("`"))


def read_documented(command: str) -> list[tuple[str, str, str]]:
    """Returns name, values and default of each argument of a command, by the table."""
    rows = []
    for line in (TOP / "docs" / "user" / "FORMATS.md").read_text().splitlines():
        found = ROW.match(line)
        if found and (found[2] == "all" or command in found[2].split(", ")):
            rows.append((found[1], values_of(found[3]), default_of(found[4])))
    return rows


def shown_arguments(text: str) -> list[tuple[str, str, str]]:
    """Returns name, values and default of each argument that a usage shows."""
    found = (LINE.match(line) for line in text.splitlines())
    return [(line[1], line[2], line[3]) for line in found if line]


def ask(program: str, *words: str) -> tuple[End, int, list[str]]:
    """Returns how a program ends over a graph, how much of it was read, and the files that the
    program left in its folder.
    """
    with tempfile.TemporaryDirectory() as name, open(DATA / "cycle.json", "rb") as graph:
        end = subprocess.run(
            [program, *words], stdin=graph, capture_output=True, check=False, cwd=name, timeout=60
        )
        read = os.lseek(graph.fileno(), 0, os.SEEK_CUR)
        left = [path.name for path in pathlib.Path(name).iterdir()]
    return End(end.returncode, end.stdout.decode(), end.stderr.decode()), read, left


def is_answered(checks: Checks, name: str, program: str, *words: str) -> str:
    """Checks that words are answered and nothing else is done. Returns the answer."""
    end, read, left = ask(program, *words)
    checks.is_equal(f"{name}_status", end.status, 0)
    checks.is_equal(f"{name}_note", end.note, "")
    checks.is_equal(f"{name}_reads", read, 0)
    checks.is_equal(f"{name}_leaves", left, [])
    with open("/dev/full", "wb") as full:
        failed = subprocess.run(
            [program, *words], stdin=subprocess.DEVNULL, stdout=full, stderr=subprocess.PIPE,
            check=False, timeout=60,
        )
    checks.is_equal(f"{name}_cut_off", (failed.returncode, failed.stderr), (5, b"write fault\n"))
    return end.out


def check_commands(checks: Checks, auditor: str) -> None:
    """Compares the arguments of each command with the table."""
    for command in COMMANDS:
        text = is_answered(checks, f"{command}_help", auditor, command, "--help")
        checks.is_equal(f"{command}_arguments", shown_arguments(text), read_documented(command))
        lines = text.splitlines()
        checks.is_true(f"{command}_lines", len(lines) <= 42, "at most 42 lines", len(lines))
        longest = max(map(len, lines))
        checks.is_true(f"{command}_columns", longest <= 100, "at most 100 columns", longest)
        checks.is_true(
            f"{command}_usage", text.startswith(f"usage: district-audit {command} "),
            f"usage: district-audit {command} ..", lines[0],
        )


def check_usages(checks: Checks, programs: dict[str, str]) -> None:
    """Checks that each usage names the program, its commands and its statuses."""
    statuses = {
        "district-audit": range(10),
        "audit_slots": range(7),
        "audit_gather": (*range(7), 9, 10),
    }
    for name, program in programs.items():
        text = is_answered(checks, f"{name}_help", program, "--help")
        checks.is_true(
            f"{name}_usage", text.startswith(f"usage: {name} "), f"usage: {name} ..", text[:40]
        )
        printed_statuses = [int(number) for number in re.findall(r"^ +(\d+)  ", text, re.M)]
        checks.is_equal(f"{name}_statuses", printed_statuses, list(statuses[name]))
        if name != "district-audit":
            checks.is_equal(f"{name}_short_help", ask(program, "-h")[0], End(0, text, ""))
    text = ask(programs["district-audit"], "--help")[0].out
    checks.is_equal("commands", re.findall(r"^  ([a-z]+) +\S", text, re.M), list(COMMANDS))


def check_versions(checks: Checks, programs: dict[str, str]) -> None:
    """Checks that each program tells the package's version, a commit and the kit's line."""
    package = (TOP / "python" / "pyproject.toml").read_text()
    version = re.findall(r'^version = "(.*)"$', package, re.M)[0]
    for name, program in programs.items():
        lines = is_answered(checks, f"{name}_version", program, "--version").split("\n")
        checks.is_equal(f"{name}_version_lines", len(lines), 4)
        checks.is_equal(f"{name}_version_is", lines[0], f"{name} {version}")
        commit = re.fullmatch("commit ([0-9a-f]{40}|unknown)", lines[1])
        checks.is_true(f"{name}_commit", commit, "a commit, or unknown", lines[1])
        kits = {"unknown", origin_of(program).get("kit", "unknown")}
        checks.is_true(f"{name}_kit", lines[2] in kits, " or ".join(sorted(kits)), lines[2])


def check_kits(checks: Checks) -> None:
    """Checks that no file names a kit. The table of the kits measured has to, and a release names
    the kit that made it.
    """
    if not shutil.which("git"):
        checks.count_missing("no_file_names_a_kit", "git")
        return
    files = run(["git", "-C", TOP, "ls-files", "-z"]).out.split("\0")
    found = [
        name
        for name in files
        if name != "tests/data/instructions.json"
        and not name.startswith("release/")
        and (TOP / name).is_file()
        and re.search(rb"rattle-kit-\d", (TOP / name).read_bytes())
    ]
    checks.is_equal("no_file_names_a_kit", found, [])


def check_others(checks: Checks, auditor: str, gatherer: str) -> None:
    """Checks that words that are like a question and are none are refused as ever."""
    refused = {
        ("--help", "check"): "words: unknown command --help\n",
        ("--version", "--help"): "words: unknown command --version\n",
        ("-h",): "words: unknown command -h\n",
        ("walk", "--help"): "words: unknown command walk\n",
        ("check", "--version"): "words: unknown name --version\n",
        ("check", "--help", "yes"): "words: unknown name --help\n",
        ("check", "--pop", "--help"): "words: --first is missing\n",
    }
    for words, note in refused.items():
        end = ask(auditor, *words)[0]
        checks.is_equal(f"refused_{'_'.join(words)}", end, End(1, "", note))
    for short in ("--help", "-h"):
        end = ask(gatherer, short, "--version")[0]
        checks.is_equal(f"gather_no_question_{short}", (end.status, end.out), (1, ""))


def main(auditor: str, slots: str, gatherer: str) -> int:
    checks = Checks("program_help")
    programs = {"district-audit": auditor, "audit_slots": slots, "audit_gather": gatherer}
    check_commands(checks, auditor)
    check_usages(checks, programs)
    check_versions(checks, programs)
    check_others(checks, auditor, gatherer)
    check_kits(checks)
    crates = ("audit_program", "audit_folders")
    builds = [TOP / "crates" / crate / "src" / "this_build.rt" for crate in crates]
    checks.is_equal("one_build", builds[0].read_text(), builds[1].read_text())
    return checks.finish()


if __name__ == "__main__":
    sys.exit(main(*sys.argv[1:]))
