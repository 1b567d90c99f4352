"""Rules on regions and a group: the Python package, the auditor and the program over its folders
say the same of them.
"""
# RUN: {auditor}
# QUICK
import argparse
import pathlib
import sys
import tempfile

from tests.checks import Checks, run
from tests.places import DATA, link_programs, package_command, package_environment

COLUMNS = "--pop TOTPOP --first DEM --second REP --district CD".split()
GROUPS = (
    "--pop pop --first a --second b --district d --region county --group bvap " "--group-of vap"
).split()
JOB = ["--slack", "1000", "--key", "0" * 64, *"--walks 6 --steps 100 --ask cut-edges:low".split()]
RULES = {"--max-splits": "3", "--max-split-regions": "3", "--group-districts": "1"}
OTHER_JOB = "done: the newest is another job's"


class Room:
    """A folder, the programs and the checks."""

    def __init__(self, checks: Checks, auditor: pathlib.Path, folder: pathlib.Path) -> None:
        self.checks, self.auditor, self.folder = checks, auditor, folder
        _, self.slots, _ = link_programs(folder)

    def prepare(self, name: str, file: str, wanted: int, *words: str) -> str:
        """Prepares a sample graph as NAME.json, and returns what the package says."""
        out = self.folder / f"{name}.json"
        words = (*words, "--out", str(out))
        end = run([*package_command("prepare"), DATA / file, *words], more=package_environment())
        self.checks.has_status(f"prepare_{name}", end, wanted)
        return end.note

    def check(self, name: str, *words: str) -> tuple[str, str]:
        """Returns what the auditor says of a graph that was prepared: its text and its note."""
        end = run([self.auditor, "check", *words], (self.folder / f"{name}.json").read_bytes())
        return end.out, end.note

    def run_halfway(self, name: str, graph: pathlib.Path, *words: str) -> pathlib.Path:
        """Walks four of six walks in a folder of its own, and returns the folder."""
        folder = self.folder / name
        folder.mkdir()
        more = ["--save", "2", "--budget", "4"]
        end = run([self.auditor, "run", *words, *JOB, *more], graph.read_bytes(), folder)
        self.checks.has_status(f"{name}_ends", end, 7)
        return folder

    def knows(
        self, name: str, folder: pathlib.Path, graph: pathlib.Path, line: str, *words: str
    ) -> None:
        """The program over folders has to print this line on a run with these words."""
        end = run([self.slots, "run", *words, *JOB], graph.read_bytes(), folder)
        self.checks.is_true(name, line in end.out.splitlines(), line, end.out + end.note)


def try_counties(room: Room) -> None:
    """Two counties, each of which lies in all five districts."""
    rules = [*COLUMNS, "--region", "COUNTY", "--max-split"]
    said = room.prepare(
        "counties", "rough.json", 1, *"--numbers floor --missing drop".split(), *rules, "4"
    )
    room.checks.has_line(
        "prepare_tells_of_counties_in_many_districts",
        said,
        'regions that lie in more than 4 districts: 2: "C0", "C1"',
    )
    room.checks.is_equal(
        "auditor_refuses_counties_in_many_districts",
        "".join(room.check("counties", *rules, "4")),
        "plan: region 0 lies in 5 districts, more than 4\n",
    )
    room.checks.has_line(
        "auditor_accepts_counties_in_five_districts",
        room.check("counties", *rules, "5")[0],
        "\nmax-split 5 regions 2\n",
    )
    graph = room.folder / "counties.json"
    folder = room.run_halfway("run_with_counties", graph, *rules, "5")
    room.knows("slots_know_a_run_with_counties", folder, graph, "done: 4 of 6", *rules, "5")
    room.knows("slots_know_another_limit", folder, graph, OTHER_JOB, *rules, "6")


def try_refusals(room: Room) -> None:
    """The package and the auditor refuse the same for the same reason."""
    for rule in ("--max-splits", "--max-split-regions"):
        words = [*GROUPS, rule, "1"]
        said = room.prepare(f"groups{rule}", "groups.json", 1, *words)
        front = "prepare: the auditor would refuse it: "
        refusals = [
            f"plan: {line[len(front):]}" for line in said.splitlines() if line.startswith(front)
        ]
        text, note = room.check(f"groups{rule}", *words)
        room.checks.is_equal(f"refused_alike{rule}", refusals, note.splitlines())
        room.checks.is_equal(f"refused_without_text{rule}", text, "")
    words = [*GROUPS, "--group-districts", "3"]
    said = room.prepare("majorities", "groups.json", 1, *words)
    room.checks.has_line(
        "prepare_tells_of_majorities",
        said,
        "prepare: bvap has a majority of vap in 2 of 4 districts: 1 (60.81 %), 2 (50.01 %)\n",
    )
    room.checks.is_equal(
        "auditor_refuses_three_majorities",
        "".join(room.check("majorities", *words)),
        "plan: the group has a majority in 2 districts, fewer than 3\n",
    )


def try_rules(room: Room) -> None:
    """A run with each rule is another job than one with another limit."""
    graph = DATA / "groups.json"
    words = [word for rule in RULES.items() for word in rule]
    folder = room.run_halfway("run_with_rules", graph, *GROUPS, *words)
    room.knows(
        "slots_know_a_run_with_each_rule",
        folder,
        graph,
        "done: 4 of 6",
        *GROUPS,
        *words,
        "--source",
        "yes",
    )
    for rule, limit in RULES.items():
        others = {**RULES, rule: str(int(limit) + 1)}
        words = [word for other in others.items() for word in other]
        room.knows(f"slots_know_another{rule}", folder, graph, OTHER_JOB, *GROUPS, *words)


def main() -> int:
    parser = argparse.ArgumentParser(description=__doc__)
    parser.add_argument("auditor", type=pathlib.Path)
    auditor = parser.parse_args().auditor.resolve()
    checks = Checks("rules_alike")
    with tempfile.TemporaryDirectory() as name:
        room = Room(checks, auditor, pathlib.Path(name))
        try_counties(room)
        try_refusals(room)
        try_rules(room)
    return checks.finish()


if __name__ == "__main__":
    sys.exit(main())
