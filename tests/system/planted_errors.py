"""Checks that the prover refuses each planted error.

A planted error is a file crates/CRATE/planted/NAME.edit:

    file: src/board.rt             the changed file of the crate
    only: board::is_short          the function that the prover must refuse
    old: TEXT                      a text that stands in the file exactly once
    new: TEXT                      the text in its place; more pairs may follow
    without: proofs/board/is_short answers that the changed function does not use (optional)
    goal: GOAL                     the only goal that stays open (optional)
    apart: yes                     the function calls one that another error changes (optional)

All errors of a crate but those apart are tried in one copy of it, in one call of the prover over
the libraries that `rt ci` left in this checkout. The prover checks the named functions and those
that they call in the same crate. It must refuse each named function, but none because of a refused
one that it calls, and prove all others.
"""
# RUN:
# NEEDS: rt
import concurrent.futures
import dataclasses
import functools
import itertools
import pathlib
import re
import shutil
import sys
import tempfile

from tests.checks import Checks, End
from tests.kit import Kit, has_libraries, kit_of
from tests.places import TOP

CRATES = TOP / "crates"
COUNTS = re.compile(r"^only=(\d+) proved=(\d+)$", re.M)
AT_ONCE = 4


@dataclasses.dataclass(frozen=True)
class Edit:
    """A planted error: its crate and name, the file, the refused function, and the texts."""

    crate: str
    name: str
    file: str
    only: str
    apart: bool
    without: tuple[str, ...]
    goals: tuple[str, ...]
    pairs: tuple[tuple[str, str], ...]

    @property
    def copy(self) -> str:
        """The name of the copy of the crate in which the error is tried."""
        return f"{self.crate}/{self.name}" if self.apart else self.crate


def edit_of(path: pathlib.Path) -> Edit:
    """Reads a file of a planted error."""
    rows = [line.split(": ", 1) for line in path.read_text().splitlines()]
    kinds = ("file", "only", "apart", "without", "goal", "old", "new")
    texts: dict[str, list[str]] = {kind: [] for kind in kinds}
    for kind, text in rows:
        texts[kind].append(text)
    [file], [only] = texts["file"], texts["only"]
    pairs = tuple(zip(texts["old"], texts["new"]))
    without, goals = tuple(texts["without"]), tuple(texts["goal"])
    apart = texts["apart"] == ["yes"]
    return Edit(path.parent.parent.name, path.stem, file, only, apart, without, goals, pairs)


def changed_crate(edits: list[Edit], room: pathlib.Path) -> pathlib.Path:
    """Copies a crate's text to a new folder in the room, with its errors in it."""
    folder = room / f"{edits[0].copy.replace('/', '-')}-planted"
    shutil.copytree(CRATES / edits[0].crate, folder, ignore=shutil.ignore_patterns("out"))
    for edit in edits:
        file = folder / edit.file
        text = file.read_text()
        for old, new in edit.pairs:
            text = text.replace(old, new)
        file.write_text(text)
        for answers in edit.without:
            shutil.rmtree(folder / answers)
    return folder


def try_edits(kit: Kit, room: pathlib.Path, edits: list[Edit]) -> End:
    """Asks the prover about the changed functions of a crate."""
    crate = edits[0].crate
    root = "src/main.rt" if (CRATES / crate / "src" / "main.rt").exists() else "src/lib.rt"
    asked = [word for edit in edits for word in ("--only", edit.only)]
    words = ["check", *kit.words(crate, root), *kit.logic(), *asked]
    return kit.rattle(changed_crate(edits, room), words)


def check_refusals(checks: Checks, edits: list[Edit], end: End) -> None:
    """Checks that these functions were refused, each by itself, and no other."""
    crate, copy, text = edits[0].crate, edits[0].copy, end.out + end.note
    checks.has_status(f"{copy}_status", end, 1)
    for edit in edits:
        name = re.escape(f"{crate}::{edit.only}")
        refused = re.search(rf"^fn {name}: (not proved$|no proof: (?!.*it calls `))", text, re.M)
        wanted = f"{edit.only} is not proved, for no other function's sake"
        checks.is_true(f"{crate}/{edit.name}_refused", refused, wanted, text[-1500:])
        for goal in edit.goals:
            open_goals = rf"`search` did not prove `{re.escape(goal)}`"
            alone = re.search(rf"^fn {name}: .*{open_goals}$", text, re.M)
            wanted = f"{goal} alone is open"
            checks.is_true(f"{crate}/{edit.name}_goal", alone, wanted, text[-1500:])
    counts = [(int(one), int(proved)) for one, proved in COUNTS.findall(text)]
    is_alone = [one - proved for one, proved in counts] == [len(edits)]
    checks.is_true(f"{copy}_others", is_alone, "all others proved", counts)


def main() -> int:
    checks = Checks("planted_errors")
    edits = [edit_of(path) for path in sorted(CRATES.glob("*/planted/*.edit"))]
    for edit in edits:
        text = (CRATES / edit.crate / edit.file).read_text()
        places = [text.count(old) for old, _ in edit.pairs]
        checks.is_equal(f"{edit.crate}/{edit.name}_fits", places, [1] * len(edit.pairs))
    kit = kit_of(checks)
    if kit is None or checks.failed:
        return checks.finish()
    edits.sort(key=lambda edit: edit.copy)
    copies = [list(some) for _, some in itertools.groupby(edits, lambda edit: edit.copy)]
    below = dict.fromkeys(name for some in copies for name in kit.below(some[0].crate))
    if not has_libraries(checks, below):
        return checks.finish()
    with tempfile.TemporaryDirectory() as folder:
        room = pathlib.Path(folder)
        for name in below:
            (room / name).symlink_to(CRATES / name)
        with concurrent.futures.ThreadPoolExecutor(AT_ONCE) as pool:
            ends = pool.map(functools.partial(try_edits, kit, room), copies)
            for some, end in zip(copies, ends):
                check_refusals(checks, some, end)
    return checks.finish()


if __name__ == "__main__":
    sys.exit(main())
