"""Lists the lemmas of proofs/ that nothing cites, and the imports that nothing uses.

Usage: python3 -m tools.uncited

A lemma is cited where its name stands outside of `use` lines: in another paragraph of its own file,
or in a file that names the file of the lemma. A file of lemmas named Rows has worked rows, which
are tests, and is left out. An import of specs/ or proofs/ is used where its name, or each part of
its operator, stands outside of `use` lines. The script reads the text with patterns, and not as the
prover does: a variable with the name of a lemma counts as a citation.
"""
import collections
import pathlib
import re
import typing

CRATES = pathlib.Path(__file__).resolve().parent.parent / "crates"
DECLARED = re.compile(
    r"^(?:  )?(?:abbrev |unfoldable )?(?:pub )?(?!(?:use|mod|module|unfolding|open|record|data"
    r"|abbrev|unfoldable|pub)\b)([A-Za-z_][\w'\-]*) :(?:[ \n]|$)",
    re.M,
)
WORD = re.compile(r"[A-Za-z_][A-Za-z0-9_'\-]*")
IMPORTS = re.compile(r"^ *use [\w.']+\.\{([^}]*)\} *$", re.M)
NO_LEMMAS = ("Lib", "Answers", "Invariants", "Proof", "Rows")
Words = set[str]
Names = dict[tuple[str, str], set[pathlib.Path]]


STRING = re.compile(r'"(?:[^"\\\n]|\\.)*"')


def remove_comments(text: str) -> str:
    """Returns a text without comments, and with empty strings: `--` may stand in a string."""
    return re.sub(r"(?:--|//)[^\n]*", "", STRING.sub('""', text))


def words_of(text: str) -> Words:
    """Returns the words of a text outside of comments and `use` lines."""
    lines = remove_comments(text).splitlines()
    return set(WORD.findall("\n".join(
        line for line in lines if not line.startswith(("use ", "pub use "))
    )))


def is_inside(paragraph: str, before: str) -> bool:
    """Returns true if a paragraph goes on with the declaration of the paragraph before it."""
    lines = [line for line in paragraph.splitlines() if not line.lstrip().startswith("--")]
    if not lines or not lines[0].startswith(" "):
        return False
    heads = [line for line in before.splitlines() if line and line[0] not in " -"]
    return lines[0].startswith("    ") or not (heads and heads[-1].startswith("module"))


def paragraphs(text: str) -> list[str]:
    """Returns the paragraphs of a file, each with all that goes on with its declaration."""
    found: list[str] = []
    for paragraph in re.split(r"\n{2,}", text):
        if found and is_inside(paragraph, "\n".join(found)):
            found[-1] += "\n\n" + paragraph
        else:
            found.append(paragraph)
    return found


def crate_of(path: pathlib.Path) -> str:
    return path.relative_to(CRATES).parts[0]


def read_all() -> dict[pathlib.Path, str]:
    """Returns the text of each file of code, definitions and proofs."""
    return {
        path: path.read_text(encoding="utf-8")
        for folder in sorted(CRATES.iterdir())
        for part in ("src", "specs", "proofs")
        for ending in ("*.rt", "*.antt")
        for path in sorted((folder / part).rglob(ending))
    }


def find_naming_files(texts: typing.Mapping[pathlib.Path, str]) -> Names:
    """Returns the files that name each file of lemmas, by its crate and its name."""
    found: Names = collections.defaultdict(set)
    for path, text in texts.items():
        for crate, name in re.findall(r"\bRattle\.(\w+)\.proofs\.([A-Z]\w*)", text):
            found[crate, name].add(path)
        for crate, name in re.findall(r"\b(\w+)::proofs::([A-Z]\w*)", text):
            found[crate_of(path) if crate == "crate" else crate, name].add(path)
    return found


def lemma_files(texts: typing.Mapping[pathlib.Path, str]) -> typing.Iterator[pathlib.Path]:
    for path in texts:
        parts = path.relative_to(CRATES).parts
        if len(parts) == 3 and parts[1] == "proofs" and path.stem not in NO_LEMMAS:
            yield path


def find_uncited() -> list[tuple[str, str]]:
    """Returns each lemma that nothing cites: its file and its name."""
    texts = read_all()
    words = {path: words_of(text) for path, text in texts.items()}
    names = find_naming_files(texts)
    found = []
    for path in lemma_files(texts):
        parts = paragraphs(texts[path])
        own = [words_of(part) for part in parts]
        others = names[crate_of(path), path.stem] - {path}
        for place, part in enumerate(parts):
            declared = DECLARED.findall(remove_comments(part))
            if len(declared) != 1 or part.lstrip().startswith("module"):
                continue
            near = any(declared[0] in each for at, each in enumerate(own) if at != place)
            if not near and not any(declared[0] in words[other] for other in others):
                found.append((str(path.relative_to(CRATES)), declared[0]))
    return found


def is_used(name: str, text: str) -> bool:
    """Returns true if an imported name stands in a text without comments and `use` lines."""
    if "◌" in name:
        return all(part in text for part in name.split("◌") if part)
    if WORD.fullmatch(name):
        return re.search(rf"(?<![\w'\-.]){re.escape(name)}(?![\w'\-])", text) is not None
    return name in text


def unused_imports() -> list[tuple[str, str]]:
    """Returns each import of specs/ and proofs/ that nothing uses: its file and its name."""
    found = []
    for path, text in read_all().items():
        if path.suffix != ".antt":
            continue
        imports = IMPORTS.findall(text)
        rest = remove_comments(IMPORTS.sub("", text))
        for name in (name.strip() for names in imports for name in names.split(",")):
            if not is_used(name.split(" as ")[-1].lstrip("#"), rest):
                found.append((str(path.relative_to(CRATES)), name))
    return found


def main() -> None:
    for path, name in find_uncited() + unused_imports():
        print(path, name)


if __name__ == "__main__":
    main()
