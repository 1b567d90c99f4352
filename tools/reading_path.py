"""The definitions that a name in specs/ comes to: what a reader has to read who wants to know what
it says.

A name is followed through the `use` lines of its module, over all of this repository's crates, and
a type that stands in src/ is followed to its declaration there. What the kit defines is not
followed, and is kept apart. The lines of a definition are those of its text that are not empty,
with the comment over it, and the line `module _ ..` that it stands under, counted once.
"""
import os
import re
import typing

TOP = os.path.join(os.path.dirname(os.path.abspath(__file__)), "..")
CRATES = os.path.join(TOP, "crates")
USE = re.compile(r"(?:pub )?use Rattle\.(\w+)\.specs\.([\w.]+?)(?:\.\{(.*)\})?(?: as (\w+))?$")
DECLARED = re.compile(
    r"(?:abbrev |unfoldable )?pub (?:(record|data) )?([A-Za-z_][\w'\-]*)|(?:abbrev |unfoldable"
    r" )?(?:(record|data) )?([A-Za-z_][\w'\-]*) :"
)
WORD = re.compile(r"[A-Za-z_][A-Za-z0-9_'\-]*")
RUST_NAME = re.compile(r"\b[A-Z]\w+")
# A crate, a module of it, and a name; the name is empty if the module itself is meant.
Key = tuple[str, str, str]
ModuleKey = tuple[str, str]
# A line `module _ ..` with its place.
Place = tuple[int, str]


def indent_of(line: str) -> int:
    return len(line) - len(line.lstrip())


class Definition:
    """A definition: its crate, module and name, its lines, and the lines `module _ ..` over it by
    their places.
    """

    def __init__(self, key: Key, lines: list[str], over: typing.Sequence[Place] = ()) -> None:
        self.key, self.lines, self.over = key, lines, over

    def words(self) -> set[str]:
        """The names in it, without its comments and texts."""
        cleaned = (
            re.sub(r"--.*", "", re.sub(r'"[^"]*"', '""', line))
            for line in self.lines + [line for _, line in self.over]
        )
        return {word for line in cleaned for word in WORD.findall(line)}


class Module:
    """A module of specs/: what each name of its `use` lines stands for, and its definitions."""

    def __init__(self, crate: str, name: str) -> None:
        self.crate, self.name = crate, name
        self.uses: dict[str, Key] = {}
        self.definitions: dict[str, Definition] = {}
        self.cases: dict[str, str] = {}
        path = os.path.join(CRATES, crate, "specs", name.replace(".", "/") + ".antt")
        with open(path, encoding="utf-8") as file:
            self.read(file.read().split("\n"))

    def read(self, lines: list[str]) -> None:
        comment: list[str] = []
        over: list[Place] = []
        at = 0
        while at < len(lines):
            text = lines[at].strip()
            if text.startswith("--"):
                comment.append(lines[at])
                at += 1
                continue
            end = at + 1
            if text:
                while over and indent_of(lines[at]) <= indent_of(over[-1][1]):
                    over.pop()
                if text.startswith("module _"):
                    over.append((at, lines[at]))
                elif not self.take_use(text):
                    end = self.take_definition(lines, at, comment, over)
            comment = []
            at = end

    def take_use(self, text: str) -> bool:
        found = USE.match(text)
        if found:
            crate, module, names, alias = found.groups()
            for name in (names or "").split(","):
                parts = name.strip().split(" as ")
                if parts[0]:
                    self.uses[parts[-1]] = (crate, module, parts[0])
            if alias:
                self.uses[alias] = (crate, module, "")
        return bool(found)

    def take_definition(
        self, lines: list[str], at: int, comment: list[str], over: list[Place]
    ) -> int:
        """Adds the definition that begins here, and answers where the next one may begin."""
        found = DECLARED.match(lines[at].strip())
        if not found:
            return at + 1
        name, indent, end = found.group(2) or found.group(4), indent_of(lines[at]), at + 1
        while end < len(lines) and lines[end].strip() and self.has_more(lines[end], name, indent):
            end += 1
        self.definitions[name] = Definition(
            (self.crate, self.name, name), comment + lines[at:end], tuple(over)
        )
        if (found.group(1) or found.group(3)) == "data":
            for line in lines[at + 1:end]:
                case = re.match(r"\s+(?:pub )?([A-Za-z_][\w']*) :", line)
                if case:
                    self.cases[case.group(1)] = name
        return end

    @staticmethod
    def has_more(line: str, name: str, indent: int) -> bool:
        """The line is still the definition's: it stands further in, is an equation of the name, or
        closes a record.
        """
        deep = indent_of(line)
        equation = not line.strip().startswith("--") and re.match(
            f"({re.escape(name)}(\\s|$)|\\}}$)", line.strip()
        )
        return deep > indent or (deep == indent and bool(equation))


def declared_lines(crate: str, parts: list[str]) -> tuple[list[str], list[list[str]]]:
    """The text of a type that is declared in src/, and the types of the same file that it names."""
    name = parts[-1]
    base = os.path.join(CRATES, crate, "src", *parts[:-1])
    for path in (base + ".rt", os.path.join(base, "mod.rt")):
        if os.path.exists(path):
            with open(path, encoding="utf-8") as file:
                lines = file.read().split("\n")
            break
    else:
        return [], []
    heads = {
        m.group(1): i
        for i, m in (
            (i, re.match(r"pub (?:struct|enum) (\w+)", line)) for i, line in enumerate(lines)
        )
        if m
    }
    if name not in heads:
        return [], []
    start = end = heads[name]
    while start > 0 and re.match(r"///|#\[", lines[start - 1]):
        start -= 1
    while lines[end] != "}" and not lines[end].rstrip().endswith(";"):
        end += 1
    text = lines[start:end + 1]
    near = {
        n
        for line in text
        if not line.strip().startswith("//")
        for n in RUST_NAME.findall(line)
        if n in heads and n != name
    }
    return text, [parts[:-1] + [n] for n in sorted(near)]


class Path:
    """All that some names come to: `found` by key, and what the kit has of it."""

    modules: dict[ModuleKey, Module] = {}

    def __init__(
        self, roots: typing.Iterable[Key], left_out: typing.Iterable[ModuleKey] = ()
    ) -> None:
        self.found: dict[Key, Definition] = {}
        self.kit: set[Key] = set()
        self.missing: set[tuple[str, ...]] = set()
        self.left_out = set(left_out)
        self.waiting = list(roots)
        while self.waiting:
            self.visit(*self.waiting.pop())

    @classmethod
    def module(cls, crate: str, name: str) -> Module:
        if (crate, name) not in cls.modules:
            cls.modules[crate, name] = Module(crate, name)
        return cls.modules[crate, name]

    def visit(self, crate: str, module: str, name: str) -> None:
        if (crate, module) in self.left_out:
            return
        if not os.path.isdir(os.path.join(CRATES, crate)):
            self.kit.add((crate, module, name))
        elif module.startswith("declared."):
            self.visit_declared(crate, [p for p in module.split(".")[1:] if p != "TheVariants"])
        else:
            self.visit_definition(crate, module, name)

    def visit_declared(self, crate: str, parts: list[str]) -> None:
        key = (crate, "declared", parts[-1])
        if key in self.found:
            return
        text, near = declared_lines(crate, parts)
        if not text:
            self.missing.add((crate, ".".join(parts)))
            return
        self.found[key] = Definition(key, text)
        self.waiting.extend((crate, "declared." + ".".join(n), n[-1]) for n in near)

    def visit_definition(self, crate: str, module: str, name: str) -> None:
        here = self.module(crate, module)
        name = here.cases.get(name, name)
        if (crate, module, name) in self.found:
            return
        if name not in here.definitions:
            self.missing.add((crate, module, name))
            return
        definition = here.definitions[name]
        self.found[crate, module, name] = definition
        self.waiting.extend(
            here.uses[w] if w in here.uses else (crate, module, w)
            for w in definition.words()
            if w != name and (w in here.uses or w in here.definitions or w in here.cases)
        )

    def lines(self, crate: typing.Optional[str] = None) -> int:
        """Returns the number of lines of these definitions, or of those of one crate."""
        found = {key: d for key, d in self.found.items() if crate in (None, key[0])}
        over = {(key[:2], line) for key, d in found.items() for line in d.over}
        return sum(len([t for t in d.lines if t.strip()]) for d in found.values()) + len(over)


def fields_of(
    crate: str, module: str, name: str
) -> typing.Iterator[tuple[str, list[Key]]]:
    """The fields of a record, and the names in the type of each, as roots of a path."""
    here = Path.module(crate, module)
    for line in here.definitions[name].lines:
        found = re.match(r"\s+pub (\w+) : (.*)", line)
        if found:
            words = WORD.findall(found.group(2))
            yield found.group(1), [
                here.uses.get(w, (crate, module, w))
                for w in words
                if w in here.uses or w in here.definitions
            ]
