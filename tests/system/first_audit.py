"""`scripts/try.sh audit` uses the release as it was made, or says in one line what is wrong.

It runs in a tree of its own with a copy of the release, and with an environment of its own. Each
fault is planted there: no report may be written, and no Python traceback shown. What was damaged in
the environment is mended.
"""
# RUN:
# NEEDS: ensurepip
import os
import pathlib
import re
import shutil
import sys
import tempfile
import typing

from tests.checks import Checks, End, run
from tests.places import TOP


class Tree(typing.NamedTuple):
    """A copy of what the script uses, and the folder of its environment."""

    top: pathlib.Path
    cache: pathlib.Path

    @property
    def venv(self) -> pathlib.Path:
        return self.cache / "district-audit" / "venv"

    def wheel(self) -> pathlib.Path:
        return next((self.top / "release").glob("*.whl"))

    def audit(self, **more: str) -> End:
        """Calls the script, with the report of an earlier call removed."""
        shutil.rmtree(self.top / "out", ignore_errors=True)
        given = {"XDG_CACHE_HOME": str(self.cache), **more}
        return run([self.top / "scripts" / "try.sh", "audit"], folder=self.top, more=given)

    def report(self) -> bytes:
        path = self.top / "out" / "audit" / "report"
        return path.read_bytes() if path.exists() else b""


def make_tree(room: pathlib.Path) -> Tree:
    for name in ("release", "scripts", "examples"):
        shutil.copytree(TOP / name, room / name)
    return Tree(room, room / "cache")


def change_a_byte(path: pathlib.Path) -> None:
    data = bytearray(path.read_bytes())
    data[len(data) // 2] ^= 1
    path.write_bytes(bytes(data))


def make_stand_in(folder: pathlib.Path, name: str, text: str) -> pathlib.Path:
    """Writes a script that answers with a text."""
    folder.mkdir(exist_ok=True)
    (folder / name).write_text(f"#!/bin/sh\necho '{text}'\n")
    (folder / name).chmod(0o755)
    return folder / name


# ---- a release that is refused


def is_refused(checks: Checks, name: str, tree: Tree, said: str, **more: str) -> None:
    """Checks that one line says what is wrong, and that nothing is audited."""
    end = tree.audit(**more)
    line = re.fullmatch(f"try: .*{said}.*\n", end.note)
    checks.is_true(f"{name}/says_so", line, said, end.out + end.note)
    checks.is_equal(f"{name}/ends", (end.status, tree.report()), (1, b""))


def check_refused_releases(checks: Checks, tree: Tree) -> None:
    """Plants faults in the folder of the release."""
    folder, kept = tree.top / "release", tree.top / "kept"
    changed = [path.name for path in folder.iterdir() if path.name != "SHA256SUMS"]
    for name in changed:
        shutil.copy2(folder / name, kept)
        change_a_byte(folder / name)
        said = rf"release/ is not as it was made \({re.escape(name)}: FAILED\): load"
        is_refused(checks, f"changed_byte/{name}", tree, said)
        (folder / name).unlink()
        is_refused(checks, f"missing_file/{name}", tree, "release/ is not as it was made")
        shutil.move(kept, folder / name)
    sums = folder / "SHA256SUMS"
    text = sums.read_text()
    for fault, left in (("no_sums", ""), ("no_wheel", re.sub(r".*\.whl\n", "", text))):
        sums.write_text(left)
        is_refused(checks, fault, tree, "load the repository again")
    sums.write_text(text)
    folder.rename(kept)
    is_refused(checks, "no_release", tree, "there is no folder release: scripts/release.sh")
    kept.rename(folder)
    others = make_stand_in(tree.top / "uname", "uname", "aarch64").parent
    path = f"{others}{os.pathsep}{os.environ['PATH']}"
    said = "for Linux on x86_64, and this is aarch64 on aarch64: build them"
    is_refused(checks, "another_processor", tree, said, PATH=path)
    checks.is_true("makes_no_environment", not tree.cache.exists(), "no environment", tree.cache)


# ---- an environment that is mended


def take_another(program: pathlib.Path) -> None:
    shutil.copy(program.with_name("audit_slots"), program)


# For each fault the program that has it. Each makes the environment anew, which takes long.
FAULTS: dict[str, tuple[str, typing.Callable[[pathlib.Path], object]]] = {
    "missing_program": ("audit_gather", pathlib.Path.unlink),
    "another_program": ("district-audit", take_another),
}


def check_mended(checks: Checks, tree: Tree) -> None:
    """Plants faults in the environment, and beside it."""
    end = tree.audit()
    first = tree.report()
    checks.has_status("audits", end)
    checks.is_true("reports", first and first.decode() in end.out, "the report", end.out)
    older = tree.wheel().with_name("district_audit-0.0.9-py3-none-any.whl")
    older.write_bytes(b"another wheel")
    other = make_stand_in(tree.top / "other", "district-audit", "district-audit 0.0.9")
    end = tree.audit(DISTRICT_AUDIT=str(other), PYTHONPATH=str(TOP / "python"))
    older.unlink()
    checks.is_equal("takes_no_other", (end.status, tree.report()), (0, first))
    checks.is_true("makes_it_once", "anew" not in end.out, "the same environment", end.out)
    for name, (program, plant) in FAULTS.items():
        plant(tree.venv / "bin" / program)
        end = tree.audit()
        checks.has_line(f"{name}/says_so", end.out, "is damaged: making it anew")
        checks.is_equal(f"{name}/mends", (end.status, tree.report()), (0, first))


def check_example(checks: Checks, tree: Tree) -> None:
    """Checks that the example itself shows no traceback."""
    python, example = tree.venv / "bin" / "python", tree.top / "examples" / "audit_nc.py"
    other = make_stand_in(tree.top / "other", "district-audit", "district-audit 0.0.9")
    end = run([python, example, tree.top / "out"], more={"DISTRICT_AUDIT": str(other)})
    said = f"audit_nc: the program {other} is of version 0.0.9, and this package of "
    checks.is_true("example/says_so", end.note.startswith(said), said, end.note)
    checks.is_equal("example/ends", (end.status, end.note.count("\n")), (1, 1))


def main() -> int:
    checks = Checks("first_audit")
    if not (TOP / "release").is_dir():
        checks.skips("release", "no release was made yet; scripts/release.sh release makes one")
        return checks.finish()
    with tempfile.TemporaryDirectory() as name:
        tree = make_tree(pathlib.Path(name) / "tree")
        check_refused_releases(checks, tree)
        check_mended(checks, tree)
        check_example(checks, tree)
    return checks.finish()


if __name__ == "__main__":
    sys.exit(main())
