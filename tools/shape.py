"""The shape of the repository in counts, beside that of crates of the toolchain: how much has a
reader to hold in the head?

    python3 -m tools.shape           a table for this repository and two crates of the toolchain
                                     (found by `rt doc`)
    python3 -m tools.shape --many    also names each function of more than six parameters
    python3 -m tools.shape --double  also names each definition that stands in two modules or more
    python3 -m tools.shape --counts  also prints the counts that have a limit
    python3 -m tools.shape --frames  also names the functions on the way of a run from the top call
                                     to the flip
    python3 -m tools.shape check     compares the counts that have a limit with it, names what
                                     stands above it, and ends with status 1 if something does

What is counted: crates, functions and the entries of dependencies; parameters (with `self`),
`requires` and lines of a body by function; names that two or more modules of specs/ define; lemmas
of proofs/ that stand below a comment; and the calls on the shortest way from the top call to the
flip, by names as they stand in the text. A limit have: crates, those calls, types of one name,
functions that are named by a participle, functions of more than 40 lines, files of more than 500,
lines of code over 120 columns (clauses and texts are left out), lemmas that nothing cites, imports
that nothing uses, uses of the type `Any` in Python, and Python functions and methods that are named
by a participle or a particle (properties are left out, since they are read as fields). Tests are
left out, but not those in Python. The counts read the text with patterns, and not as the prover
does.
"""
import argparse
import ast
import dataclasses
import os
import re
import statistics
import subprocess
import sys
import tokenize
import typing
from collections import defaultdict, deque

from tests.checks import Checks
from tools import lint, uncited

TOP = os.path.normpath(os.path.join(os.path.dirname(os.path.abspath(__file__)), ".."))
BESIDE = ("httparse", "indexmap")

# The most of each count. A count may only fall: lower its limit with it. The aims are 36 crates,
# 18 calls to the flip, the uses of `Any` that a comment explains, and none of all others.
LIMITS = {
    "crates": 36,
    "calls_to_the_flip": 18,
    "types_of_one_name": 0,
    "functions_named_by_a_participle": 0,
    "functions_of_more_than_40_lines": 0,
    "files_of_more_than_500_lines": 0,
    "lines_over_120_columns": 0,
    "lemmas_that_nothing_cites": 0,
    "imports_that_nothing_uses": 0,
    "uses_of_any": 8,
    "python_functions_named_by_a_participle": 0,
}
# Functions of more than 40 lines with one `match` or one struct, whose arms or fields are one row
# of a table each.
TABLES = {"argument_text", "check_setting", "text"}
# Participles without `ed`, and the words that make a participle no verb: `given_by`, `led_back`.
PARTICIPLES = set(
    "begun broken built come cut done drawn driven fallen found given gone grown held hidden kept"
    " known led left lent lost made met put read risen said seen sent set shown spelt spent split"
    " spoilt spoken stood swept taken told thrown torn worn written".split()
)
VERBS = {"cut", "put", "read", "set", "split", "feed", "need", "seed", "spread"}
PARTICLES = {"after", "again", "all", "at", "back", "by", "in", "of", "once", "up", "with"}
# Public calls that the formats and the users of these crates fix.
FIXED = {"done", "ended", "moved", "saved"}
# Further words that name no action. A Python function is not named by these and particles alone.
NO_VERBS = PARTICLES | set("around beside by even for from near now only there together".split())
# Decorators that make a method a field.
FIELDS = {"property", "functools.cached_property"}
# Names as `check` has to judge them.
PLANTED = {
    "told": True, "looked": True, "taken_up": True, "sealed_again": True, "_given": True,
    "near": True, "of": True, "tell": False, "read": False, "split_by": False, "need": False,
    "drawn_graph": False, "of_file": False, "__init__": False,
}


def files(folder: str, ending: str) -> typing.Iterator[tuple[str, str]]:
    for where, folders, names in os.walk(folder):
        folders[:] = [name for name in folders if name != "out"]
        for name in sorted(names):
            if name.endswith(ending):
                with open(os.path.join(where, name), encoding="utf-8") as file:
                    yield os.path.join(where, name), file.read()


def find_closing(text: str, at: int) -> int:
    """The place after the bracket that closes the one at this place."""
    pairs = {"(": ")", "{": "}", "[": "]"}
    depth = 0
    for k in range(at, len(text)):
        if text[k] in pairs:
            depth += 1
        elif text[k] in pairs.values():
            depth -= 1
            if depth == 0:
                return k + 1
    return len(text)


def parts_of(text: str) -> int:
    """Returns the number of parameters between these brackets."""
    depth, parts, some = 0, 0, False
    for k, c in enumerate(text):
        if c in "([{<":
            depth += 1
        elif c in ")]}" or (c == ">" and text[k - 1] not in "-="):
            depth -= 1
        if c == "," and depth == 0:
            parts, some = parts + 1, False
        elif not c.isspace():
            some = True
    return parts + some


@dataclasses.dataclass(frozen=True)
class Function:
    """A function with a body: how many parameters and `requires` it has, and its text."""

    name: str
    file: str
    parameters: int
    requires: int
    body: str

    def lines(self) -> int:
        return max(0, len([line for line in self.body.splitlines() if line.strip()]) - 2)


def functions(folder: str) -> typing.Iterator[Function]:
    """The functions with a body below a folder, without tests."""
    for file, text in files(folder, ".rt"):
        text = re.sub(r"//[^\n]*", "", text)
        text = re.sub(r'"(?:[^"\\\n]|\\.)*"', '""', text)
        text = re.sub(r"'(?:[^'\\]|\\.)'", "' '", text)
        for start in re.finditer(
            r"(#\[test\]\s*)?(?:pub(?:\([a-z]+\))? )?(?:const |unsafe )*fn (\w+)", text
        ):
            if start.group(1):
                continue
            opening = text.find("(", start.end())
            end = find_closing(text, opening)
            at, requires = end, 0
            # The clauses up to the body: each clause has its own braces.
            while True:
                brace = text.find("{", at)
                stop = text.find(";", at)
                if brace < 0 or 0 <= stop < brace:
                    break
                word = re.search(r"\b(requires|ensures)\b[^{}]*$", text[at:brace])
                if not word:
                    yield Function(
                        start.group(2), file, parts_of(text[opening + 1:end - 1]), requires,
                        text[brace:find_closing(text, brace)],
                    )
                    break
                requires += word.group(1) == "requires"
                at = find_closing(text, brace)


def definitions(folder: str) -> dict[str, set[str]]:
    """Each name that stands at the left edge, or within a module's arguments, of a module of
    specs/.
    """
    found: dict[str, set[str]] = defaultdict(set)
    for file, text in files(folder, ".antt"):
        if "/specs/" not in file or file.endswith("Lib.antt"):
            continue
        for line in text.splitlines():
            plain = re.match(r"^(?:  )?(?:abbrev |unfoldable )pub ([A-Za-z_]\w*)\s*[:(]", line)
            kind = re.match(r"^(?:  )?pub (?:record|data) ([A-Za-z_]\w*)", line)
            for match in (plain, kind):
                if match:
                    found[match.group(1)].add(os.path.relpath(file, folder))
    return found


def lemmas(folder: str) -> tuple[int, int]:
    """Returns the number of lemmas, and of those below a comment."""
    all_of_them, commented = 0, 0
    for file, text in files(folder, ".antt"):
        if "/proofs/" not in file or file.endswith(
            ("Lib.antt", "Answers.antt", "Invariants.antt", "Proof.antt")
        ):
            continue
        before = ""
        for line in text.splitlines():
            if re.match(
                r"^(?:pub )?(?!use\b|mod\b|module\b|unfolding\b|open\b)[A-Za-z_][\w-]* :", line
            ):
                all_of_them += 1
                commented += before.startswith("--")
            if not line.startswith("unfolding"):
                before = line
    return all_of_them, commented


def entries() -> tuple[int, int]:
    with open(os.path.join(TOP, "crates.txt"), encoding="utf-8") as file:
        lines = [line.split("#")[0] for line in file if ":" in line.split("#")[0]]
    return len(lines), sum(len(line.split(":", 1)[1].split()) for line in lines)


def crate_of(file: str) -> str:
    return os.path.relpath(file, os.path.join(TOP, "crates")).split(os.sep)[0]


def read_dependencies() -> dict[str, set[str]]:
    with open(os.path.join(TOP, "crates.txt"), encoding="utf-8") as file:
        lines = [line.split("#")[0] for line in file if ":" in line.split("#")[0]]
    return {line.split()[0].rstrip(":"): set(line.split(":", 1)[1].split()) for line in lines}


@dataclasses.dataclass(frozen=True)
class Shape:
    """The functions below a folder, those of many parameters, the names of definitions that stand
    in two modules or more, and the rows of the table.
    """

    found: list[Function]
    many: list[Function]
    double: dict[str, set[str]]
    rows: dict[str, object]


Call = tuple[str, str]


def find_imports(text: str) -> dict[str, str]:
    """Returns the crate of each name that a file brings in."""
    brought = {}
    for path, names in re.findall(r"^use ([\w:]+)::(?:\{([^}]*)\}|\w+);", text, re.M | re.S):
        for name in names.split(","):
            brought[name.strip().split(" as ")[-1]] = path.split("::")[0]
    for path, name in re.findall(r"^use ([\w:]+)::(\w+);", text, re.M):
        brought[name] = path.split("::")[0]
    return brought


def calls_among(found: list[Function]) -> dict[Call, set[Call]]:
    """Returns the calls of each function, each by its crate and its name.

    A call without a dot is of the same crate, or of the crate from which the file brings the name
    in; one with a dot is of the same crate, or of one on which it stands.
    """
    homes: dict[str, set[str]] = defaultdict(set)
    below = read_dependencies()
    for f in found:
        homes[f.name].add(crate_of(f.file))
    calls: dict[Call, set[Call]] = defaultdict(set)
    for f in found:
        crate = crate_of(f.file)
        with open(f.file, encoding="utf-8") as file:
            brought = find_imports(file.read())
        for dot, name in re.findall(r"(\.|::|\b)(\w+)(?:::<[^()]*?>)?\(", f.body):
            near = homes[name]
            if crate in near:
                calls[crate, f.name].add((crate, name))
            elif dot == "." or name not in brought:
                calls[crate, f.name] |= {(home, name) for home in near & below.get(crate, set())}
            elif brought[name] in near:
                calls[crate, f.name].add((brought[name], name))
    return calls


def way(found: list[Function], start: Call, end: Call) -> list[Call]:
    """Returns the calls on the shortest way from one function to another."""
    calls = calls_among(found)
    before: dict[Call, typing.Optional[Call]] = {start: None}
    left = deque([start])
    while left:
        at = left.popleft()
        if at == end:
            path: list[Call] = []
            step: typing.Optional[Call] = at
            while step is not None:
                path.append(step)
                step = before[step]
            return path[::-1]
        for call in sorted(calls[at]):
            if call not in before:
                before[call] = at
                left.append(call)
    return []


def counts(folder: str) -> Shape:
    found = list(functions(folder))
    many = [f for f in found if f.parameters > 6]
    double = {name: where for name, where in definitions(folder).items() if len(where) > 1}
    all_of_them, commented = lemmas(folder)
    lines = sorted(f.lines() for f in found) or [0]
    return Shape(
        found,
        many,
        double,
        {
            "functions": len(found),
            "with more than six parameters": len(many),
            "with more than five": len([f for f in found if f.parameters > 5]),
            "`requires` by function": f"{sum(f.requires for f in found) / max(1, len(found)):.2f}",
            "lines of a body, median": f"{statistics.median(lines):g}",
            "lines of a body, longest": lines[-1],
            "names of definitions in two modules or more": len(double),
            "lemmas": all_of_them,
            "lemmas below a comment": f"{100 * commented // max(1, all_of_them)} %",
        },
    )


def is_participle(name: str) -> bool:
    """Returns true if a function has a bare participle as its name, or one with a particle."""
    first, *rest = name.split("_")
    if first in VERBS or not set(rest) <= PARTICLES:
        return False
    return first in PARTICIPLES or first.endswith("ed")


def is_no_verb(name: str) -> bool:
    """Returns true if a Python function has a participle or only particles as its name."""
    stem = name.strip("_")
    return is_participle(stem) or set(stem.split("_")) <= NO_VERBS


def python_functions() -> typing.Iterator[tuple[str, str]]:
    """Yields the name and the place of each Python function and method, without properties."""
    for path in lint.python_files(*lint.FOLDERS):
        with open(os.path.join(TOP, path), encoding="utf-8") as file:
            tree = ast.parse(file.read())
        for node in ast.walk(tree):
            if isinstance(node, (ast.FunctionDef, ast.AsyncFunctionDef)):
                marks = {ast.unparse(mark) for mark in node.decorator_list}
                if not marks & FIELDS:
                    yield node.name, f"{path}:{node.lineno}"


def types_of_one_name(folder: str) -> list[str]:
    """Returns each type name that two files declare."""
    found: dict[str, set[str]] = defaultdict(set)
    for file, text in files(folder, ".rt"):
        for name in re.findall(r"^(?:pub(?:\([a-z]+\))? )?(?:struct|enum|trait) (\w+)", text, re.M):
            found[name].add(os.path.relpath(file, folder))
    return [f"{name}: {', '.join(sorted(at))}" for name, at in sorted(found.items()) if len(at) > 1]


# A type in quotes, such as that of a cast, which names `Any`.
QUOTED = re.compile(r"^[\"'][^\n]*\btyping\.Any\b")
CLAUSE = re.compile(r"^\s*(?:ensures|requires|ghost)\b[^{;]*\{.*?\}$", re.M | re.S)


def wide_lines(folder: str) -> list[str]:
    """Returns the places of lines of code over 120 columns, without clauses and texts."""
    found = []
    for file, text in files(folder, ".rt"):
        code = re.sub(r'"(?:[^"\\\n]|\\.)*"', '""', text)
        # Clauses, `ghost use` items and tactics are written in the language of proofs.
        code = re.sub(r"^\s*#\[[^\n]*\]$", "", code, flags=re.M)
        code = CLAUSE.sub("", code)
        wide = [line for line in code.splitlines() if len(line) > 120]
        found += [f"{os.path.relpath(file, folder)}: {line.strip()[:60]}" for line in wide]
    return found


def uses_of_any() -> list[str]:
    """Returns the place of each name `Any` in the Python files, also of one in a quoted type."""
    found = []
    for path in lint.python_files(*lint.FOLDERS):
        with open(os.path.join(TOP, path), "rb") as file:
            for token in tokenize.tokenize(file.readline):
                is_name = token.type == tokenize.NAME and token.string == "Any"
                if is_name or token.type == tokenize.STRING and QUOTED.search(token.string):
                    found.append(f"{path}:{token.start[0]}")
    return found


def above_limit(folder: str) -> dict[str, list[str]]:
    """Returns what each count with a limit counts."""
    own = list(functions(folder))
    return {
        "crates": sorted(read_dependencies()),
        "calls_to_the_flip": [
            f"{crate}::{name}"
            for crate, name in way(own, ("audit_run", "audit"), ("flip_kernel", "flip"))
        ],
        "types_of_one_name": types_of_one_name(folder),
        "functions_named_by_a_participle": [
            f"{f.name} in {os.path.relpath(f.file, folder)}"
            for f in own
            if is_participle(f.name) and f.name not in FIXED
        ],
        "functions_of_more_than_40_lines": [
            f"{f.name}: {f.lines()}" for f in own if f.lines() > 40 and f.name not in TABLES
        ],
        "files_of_more_than_500_lines": [
            os.path.relpath(file, folder)
            for file, text in files(folder, ".rt") if text.count("\n") > 500
        ],
        "lines_over_120_columns": wide_lines(folder),
        "lemmas_that_nothing_cites": [
            f"{name} in {path}" for path, name in uncited.find_uncited()
        ],
        "imports_that_nothing_uses": [
            f"{name} in {path}" for path, name in uncited.unused_imports()
        ],
        "uses_of_any": uses_of_any(),
        "python_functions_named_by_a_participle": [
            f"{name} in {place}" for name, place in python_functions() if is_no_verb(name)
        ],
    }


def check() -> int:
    """Compares each count that has a limit with it."""
    checks = Checks("shape")
    checks.is_equal("judges_planted_names", {name: is_no_verb(name) for name in PLANTED}, PLANTED)
    for name, counted in above_limit(os.path.join(TOP, "crates")).items():
        most = LIMITS.get(name, 0)
        checks.is_true(
            name, len(counted) <= most, f"at most {most}", f"{len(counted)}: {'; '.join(counted)}"
        )
    return checks.finish()


def toolchain(name: str) -> typing.Optional[str]:
    try:
        guide = subprocess.run(
            ["rt", "doc"], capture_output=True, text=True, check=True
        ).stdout.strip()
    except (OSError, subprocess.CalledProcessError):
        return None
    folder = os.path.join(os.path.dirname(guide), "rattle", name)
    return folder if os.path.isdir(folder) else None


def main(words: argparse.Namespace) -> None:
    shape = counts(os.path.join(TOP, "crates"))
    crates, depends = entries()
    path = way(shape.found, ("audit_run", "audit"), ("flip_kernel", "flip"))
    table = {
        "crates": crates,
        "entries of dependencies": depends,
        "functions by crate": f"{len(shape.found) / crates:.1f}",
        **shape.rows,
        "calls from `audit` to the flip": len(path),
        "Python functions named by a participle": sum(
            is_no_verb(name) for name, _ in python_functions()
        ),
    }
    folders = {name: toolchain(name) for name in BESIDE}
    others = {name: counts(folder).rows for name, folder in folders.items() if folder}
    print("| | this repository | " + " | ".join(f"`{name}`" for name in others) + " |")
    print("| --- " * (2 + len(others)) + "|")
    for row, value in table.items():
        print(
            f"| {row} | {value} | "
            + " | ".join(str(other.get(row, "")) for other in others.values())
            + " |"
        )
    if words.many:
        for f in sorted(shape.many, key=lambda f: -f.parameters):
            print(f.parameters, f.name, os.path.relpath(f.file, TOP))
    if words.double:
        for name, where in sorted(shape.double.items()):
            print(name, ", ".join(sorted(where)))
    if words.counts:
        for name, counted in above_limit(os.path.join(TOP, "crates")).items():
            print(f"{name}: {len(counted)} of at most {LIMITS.get(name, 0)}")
    if words.frames:
        print(" > ".join(f"{crate}::{name}" for crate, name in path))


def arguments() -> argparse.Namespace:
    parser = argparse.ArgumentParser(
        prog="python3 -m tools.shape", description=__doc__,
        formatter_class=argparse.RawDescriptionHelpFormatter,
    )
    parser.add_argument("task", nargs="?", choices=["check"], help="see above")
    for name in ("--many", "--double", "--frames", "--counts"):
        parser.add_argument(name, action="store_true", help="see above")
    return parser.parse_args()


if __name__ == "__main__":
    chosen = arguments()
    if chosen.task == "check":
        sys.exit(check())
    main(chosen)
