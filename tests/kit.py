"""Calls the compiler and prover over the libraries that `rt ci` left in this checkout."""
import pathlib
import shutil
import typing

from tests.checks import Checks, End, run
from tests.places import TOP


class Kit(typing.NamedTuple):
    """The toolchain's folder, and the crates of crates.txt with what each uses."""

    folder: pathlib.Path
    uses: dict[str, list[str]]

    def below(self, crate: str) -> list[str]:
        """Returns the repository's libraries below a crate, each after those that it uses."""
        found: list[str] = []
        for name in filter(self.uses.__contains__, self.uses[crate]):
            found += [one for one in [*self.below(name), name] if one not in found]
        return found

    def words(self, crate: str, root: str) -> list[str]:
        """Returns the words that `rt ci` gives the compiler, for a crate in its folder."""
        words = ["--crate-name", crate, root]
        for name in (one for one in self.uses[crate] if one not in self.uses):
            words += ["--extern", f"{name}={self.folder}/rlibs/{name}.rlib"]
        words += ["--extern", f"std={self.folder}/rlibs/std.rlib"]
        words += ["-L", f"dependency={self.folder}/rlibs"]
        for name in filter(self.uses.__contains__, self.uses[crate]):
            words += ["--extern", f"{name}=../{name}/out/rlib/{name}.rlib"]
        for name in self.below(crate):
            words += ["-L", f"dependency=../{name}/out/rlib"]
        return [*words, "--antt-project", f"{self.folder}/rattle/logic/antt-project.json"]

    def logic(self) -> list[str]:
        """Returns the words with which a proof runs on one processor."""
        return ["--logic-built", str(self.folder / "logic_built"), "--jobs", "1"]

    def prove(self, folder: pathlib.Path, crate: str, checked: pathlib.Path) -> End:
        """Proves a program's crate in its folder, and keeps in `checked` what was proved."""
        words = [*self.words(crate, "src/main.rt"), "--links", f"{crate}="]
        return self.rattle(folder, ["check", *words, *self.logic(), "-o", str(checked)])

    def compile(
        self, folder: pathlib.Path, crate: str, checked: pathlib.Path, compiler: str,
        made: pathlib.Path,
    ) -> End:
        """Compiles what was proved of a program's crate to an object, by `llvm` or `rattle`."""
        words = [*self.words(crate, "src/main.rt"), "--links", f"{crate}="]
        words += ["--crate-checked", str(checked), "--toolchain", str(self.folder / "toolchain")]
        return self.rattle(folder, ["build", *words, "--backend", compiler, "-o", str(made)])

    def c_libraries(self) -> list[str]:
        """Returns the C parts of the standard library, which each program is linked with."""
        return [str(self.folder / "c" / name) for name in ("libos_c.a", "liblibc_c.a")]

    def rattle(self, folder: pathlib.Path, words: list[str]) -> End:
        """Runs the compiler in a crate's folder. The libraries' folders stand beside it."""
        return run([self.folder / "bin" / "rattle", *words], folder=folder)


def kit_of(checks: Checks) -> typing.Optional[Kit]:
    """Returns the toolchain, or None, after a check that counts as skipped, if it is not here.

    The toolchain is nothing that a user could install, so its absence is no failure.
    """
    kit = find_kit()
    if kit is None:
        checks.skips("toolchain", "missing: rt, the command of the toolchain")
    return kit


def find_kit() -> typing.Optional[Kit]:
    """Returns the toolchain, or None if it is not here."""
    if not shutil.which("rt"):
        return None
    folder = pathlib.Path(run(["rt", "doc"]).out.strip().splitlines()[-1]).parent
    return Kit(folder, read_uses((TOP / "crates.txt").read_text()))


def read_uses(text: str) -> dict[str, list[str]]:
    """Returns the crates that a crates.txt lists, each with the libraries that it uses."""
    lines = (line.partition("#")[0] for line in text.splitlines())
    rows = [line.split(":") for line in lines if ":" in line]
    return {head.split()[0]: rest.split() for head, rest in rows}


def library_of(name: str) -> pathlib.Path:
    """Returns the folder of a library that `rt ci` left here."""
    return TOP / "crates" / name / "out" / "rlib" / f"{name}.rlib"


def has_libraries(checks: Checks, names: typing.Iterable[str]) -> bool:
    """Returns True if `rt ci` left these libraries here. Counts a check where it did not."""
    libraries = {name: library_of(name) for name in names}
    missing = [name for name, path in libraries.items() if not path.is_dir()]
    if missing:
        checks.count_missing("libraries", f"what rt ci builds of {' '.join(missing)}")
        return False
    # rt ci gives back what rt check had left, which does not fit its own libraries.
    left = [name for name, path in libraries.items() if (path.parent / "stamp").exists()]
    if left:
        checks.skips("libraries", f"those of {' '.join(left)} are of rt check: use a clean clone")
    return not left
