"""The commands of the Python package and the script that users copy, with the real program: from a
rough file to a picture.
"""
# RUN: {auditor}
import argparse
import pathlib
import re
import sys
import tempfile
import xml.dom.minidom

from tests.checks import Checks, End, run
from tests.places import DATA, EXAMPLES, package_command, package_environment, python_with

COLUMNS = "--pop TOTPOP --first DEM --second REP --district CD".split()
SMALL = "--pop pop --first a --second b --district d".split()
CHECKED = (
    "plan-check 1\nunits 100 edges 180 districts 5\n"
    "population 10000 slack 500 low 1900 high 2100\nend\n"
)


def prepare(file: str, *words: object) -> End:
    """Prepares a sample graph."""
    return run([*package_command("prepare"), DATA / file, *words], more=package_environment())


def try_prepare(checks: Checks, auditor: pathlib.Path, room: pathlib.Path) -> None:
    end = prepare("rough.json", *COLUMNS, "--out", room / "none.json")
    checks.has_status("prepare_refuses_rough_values", end, 2)
    checks.is_true("prepare_writes_no_refused_file", not (room / "none.json").exists(), "no file")
    checks.has_line("prepare_counts_refused_values", end.note, "not written: 16 values are refused")
    graph = room / "graph.json"
    rules = ["--numbers", "nearest", "--missing", "zero"]
    end = prepare("rough.json", *COLUMNS, *rules, "--out", graph)
    checks.has_status("prepare_rounds_rough_values", end)
    checks.is_true(
        "prepare_tells_what_it_changed",
        re.search(
            "fractions made whole by .nearest.: 14 units, which changes the column's sum by -7",
            end.note,
        ),
        "14 units, which changes the column's sum by -7",
        end.note,
    )
    end = run([auditor, "check", *COLUMNS], graph.read_bytes())
    checks.is_same_text("auditor_reads_what_prepare_wrote", end.out + end.note, CHECKED)
    rules = ["--numbers", "floor", "--missing", "drop"]
    end = prepare("rough.json", *COLUMNS, *rules, "--out", room / "holes.json")
    checks.has_status("prepare_drops_units", end)
    checks.has_line("prepare_drops_edges_of_units", end.note, "99 units, 176 edges")
    end = prepare("apart.json", *SMALL, "--out", room / "apart.json")
    checks.has_status("prepare_finds_what_would_be_refused", end, 1)
    for name, part in (
        ("unit_without_neighbor", 'units without a neighbor: 1: "v"'),
        ("district_in_parts", "district 1 is in several parts"),
        ("district_of_too_few_people", "district 2 has 3 people"),
    ):
        checks.has_line(f"prepare_tells_of_{name}", end.note, part)


def try_picture(checks: Checks, auditor: pathlib.Path, room: pathlib.Path) -> None:
    words = [
        "run",
        *COLUMNS,
        "--slack",
        "1000",
        "--key",
        "0" * 64,
        "--walks",
        "2",
        "--steps",
        "2000",
        "--ends",
        "19",
        "--hub-steps",
        "500",
        "--ask",
        "seats:low,cut-edges:low",
    ]
    end = run([auditor, *words], (room / "graph.json").read_bytes())
    checks.has_status("auditor_audits_what_prepare_wrote", end)
    (room / "report").write_text(end.out)
    python = python_with("matplotlib")
    if python is None:
        checks.count_missing("picture", "matplotlib")
        return
    command = package_command("picture", python)
    end = run([*command, room / "report", room / "picture"], more=package_environment())
    if not checks.has_status("picture_draws_a_report", end):
        return
    front = (room / "picture.png").read_bytes()[:8]
    checks.is_equal("picture_writes_png", front, b"\x89PNG\r\n\x1a\n")
    text = (room / "picture.svg").read_text()
    xml.dom.minidom.parseString(text.encode())
    checks.has_line("picture_has_rows_of_walks", text, "cut-edges low, walk 1")
    checks.is_true(
        "picture_has_rows_of_ranks", re.search("rank .* of 20, p ", text), "a row with a rank of 20"
    )
    (room / "no_report").write_text(CHECKED)
    end = run([*command, room / "no_report", room / "none"], more=package_environment())
    checks.has_status("picture_refuses_what_is_no_report", end, 2)


def try_script(checks: Checks, auditor: pathlib.Path, room: pathlib.Path) -> None:
    """From a graph of networkx to a picture, as in a notebook."""
    lines = [line for line in (EXAMPLES / "audit.py").read_text().splitlines() if line]
    checks.is_true("audit_script_is_short", len(lines) <= 30, "at most 30 lines", len(lines))
    python = python_with("networkx", "matplotlib")
    if python is None:
        checks.count_missing("audit_script", "networkx or matplotlib")
        return
    words = [python, EXAMPLES / "audit.py", room / "audit"]
    end = run(words, more={**package_environment(), "DISTRICT_AUDIT": str(auditor)})
    if not checks.has_status("audit_script_ends", end):
        return
    checks.has_line("audit_script_says_what_there_is", end.out, "units 300 edges 563 districts 6\n")
    checks.has_line("audit_script_says_what_was_found", end.out, "walk 1, cut-edges:low: ")
    checks.is_true("audit_script_draws_png", (room / "audit.png").stat().st_size, "a picture")
    checks.has_line(
        "audit_script_draws_rows", (room / "audit.svg").read_text(), "cut-edges low, parallel test"
    )


def main() -> int:
    parser = argparse.ArgumentParser(description=__doc__)
    parser.add_argument("auditor", type=pathlib.Path)
    auditor = parser.parse_args().auditor
    checks = Checks("package_commands")
    with tempfile.TemporaryDirectory() as name:
        room = pathlib.Path(name)
        try_prepare(checks, auditor, room)
        try_picture(checks, auditor, room)
        try_script(checks, auditor, room)
    return checks.finish()


if __name__ == "__main__":
    sys.exit(main())
