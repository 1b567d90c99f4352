"""Which definitions does the contract of the top call rest on, and do the documents say them as
they stand?

Usage: python3 definitions.py [path CRATE.MODULE.NAME | count | page | check]
With no word it prints each module of definitions of this repository that the names in the contract
of `audit`, and in the traits of its arguments, come to by imports. `path CRATE.MODULE.NAME` prints
each definition that a name comes to, `count` how many definitions and lines each clause takes.
`page` writes the quotes in docs/claims/THE_CLAIM.md and the counts in docs/claims/CLAIMS.md and
docs/claims/DEFINITIONS.md anew, behind their marks.

`check` prints nothing where docs/claims/DEFINITIONS.md lists exactly those modules, no crate of
code stands below the statement, the plain statement takes at most 130 definitions of 600 lines,
without the words of the command line, docs/claims/THE_CLAIM.md quotes each definition that it comes
to and names each clause of the contract, each premise is counted, and all quotes and counts are as
`page` writes them. Else it prints what is not so, and ends with status 1.
"""
import argparse
import os
import re
import sys
import typing

from tools.reading_path import CRATES, TOP, Key, ModuleKey, Path, fields_of

IMPORT = re.compile(
    r"^(?:ghost |pub )*use Rattle\.(\w+)\.specs\.([\w.]+?)(?:\.\{(.*?)\}| as (\w+))?;?$"
)


def text_of(*path: str) -> str:
    with open(os.path.join(CRATES, *path), encoding="utf-8") as file:
        return file.read()


def imports(text: str) -> typing.Iterator[tuple[str, str, list[str]]]:
    """Each import of a module of specs/: the crate, the module, and the names that it brings in."""
    for line in text.splitlines():
        found = IMPORT.match(line.strip())
        if found:
            crate, module, names, alias = found.groups()
            yield crate, module, [
                n.split(" as ")[-1].strip() for n in (names or "").split(",") if n.strip()
            ] + ([alias] if alias else [])


def is_own(crate: str, module: str) -> bool:
    return not module.startswith("declared") and os.path.exists(
        os.path.join(CRATES, crate, "specs", module + ".antt")
    )


def contracts_of_audit() -> typing.Iterator[tuple[str, str]]:
    """The contracts of the top call: that of `audit`, and that of `audit_plainly`, which is `audit`
    with more clauses.
    """
    for file, name in (("audit.rt", "audit"), ("plain.rt", "audit_plainly")):
        text = text_of("audit_run", "src", file)
        yield text, text[text.index(f"pub fn {name}<"):]


def starts() -> typing.Iterator[ModuleKey]:
    """The modules that the contracts of the top call name, and those that the traits of its
    arguments name.
    """
    for text, contract in contracts_of_audit():
        for crate, module, names in imports(text):
            if is_own(crate, module) and any(
                re.search(f"\\b{re.escape(n)}\\b", contract) for n in names
            ):
                yield crate, module
    for trait in ("source", "sink", "keeper", "gate"):
        for crate, module, _ in imports(text_of("audit_io", "src", trait + ".rt")):
            if is_own(crate, module):
                yield crate, module


def find_reached() -> set[ModuleKey]:
    found, left = set(), list(starts())
    while left:
        at = left.pop()
        if at in found:
            continue
        found.add(at)
        crate, module = at
        left.extend(
            (c, m) for c, m, _ in imports(text_of(crate, "specs", module + ".antt")) if is_own(c, m)
        )
    return found


def read_listed() -> set[ModuleKey]:
    """The modules that the document names, in the last column of a table or in a sentence, as
    `crate` Module, Module.
    """
    found: set[ModuleKey] = set()
    with open(os.path.join(TOP, "docs", "claims", "DEFINITIONS.md"), encoding="utf-8") as file:
        for line in file:
            text = line.rstrip().rstrip("|").split("|")[-1] if line.startswith("|") else line
            for crate, modules in re.findall(r"`(\w+)` ((?:[A-Z]\w*(?:, )?)+)", text):
                found.update((crate, m) for m in re.findall(r"[A-Z]\w*", modules))
    return found


# ---- how much there is to read

PLAIN = ("audit_statement", "Audited", "AuditsPlainly")
WORDS = [("audit_statement", "PlainArguments"), ("audit_statement", "Words")]
MOST_DEFINITIONS, MOST_LINES = 130, 600
RECORDS = [
    ("Promise", "KeepsItsPromise"),
    ("Several", "KeepsPlansPromise"),
]
WHOLE = [
    PLAIN, ("audit_statement", "PlainlyEnded", "EndsPlainly"),
    ("audit_words", "Answers", "AnswersOrAudits"),
]
# The premises of the top call, by their clauses.
PREMISES = {
    "lets": ("audit_statement", "Due", "LetsDueSaves"),
    "text": ("audit_words", "DueAnswers", "LetsAnswerOrText"),
    "note": ("audit_words", "DueAnswers", "LetsAnyLine"),
}
CLAUSE = re.compile(r"^    (requires|ensures) (\w+) \{", re.M)
# The law by which a keeper and sinks that permit everything meet the premises: file and name.
LAW = ("premises.rt", "premises_hold_if_all_is_permitted")
BOX = re.compile(r"^```text$.*?^```$", re.M | re.S)


def plain_fault() -> typing.Iterator[str]:
    """Why the plain statement is too long to be read in an hour, without the words of the command
    line, if it is.
    """
    path = Path([PLAIN], WORDS)
    if len(path.found) > MOST_DEFINITIONS or path.lines() > MOST_LINES:
        yield (
            f"the plain statement takes {len(path.found)} definitions of {path.lines()} lines, more"
            f" than {MOST_DEFINITIONS} of {MOST_LINES}"
        )


def count_row(name: str, path: Path) -> str:
    return (
        f"| {name} | {format(len(path.found), ',')} | {format(path.lines(), ',')} |"
        f" {len(path.kit)} |"
    )


def count_table() -> typing.Iterator[str]:
    """Returns the size of each clause, as the lines of a table."""
    yield "| what is read | definitions | lines | names of the kit |"
    yield "|---|---|---|---|"
    yield count_row("`plain` of `audit_plainly`", Path([PLAIN]))
    yield count_row("the same without the words of the command line", Path([PLAIN], WORDS))
    yield count_row("`ends` of `audit_plainly`", Path([WHOLE[1]]))
    for clause, root in PREMISES.items():
        yield count_row(f"premise `{clause}` of `audit_plainly`", Path([root]))
    for module, record in RECORDS:
        for field, roots in fields_of("audit_statement", module, record):
            yield count_row(f"`{record}.{field}`", Path(roots))
        yield count_row(f"`{record}`", Path([("audit_statement", module, record)]))
    yield count_row(
        "`KeepsEachPromise`",
        Path([("audit_statement", "Whole", "KeepsEachPromise")]),
    )
    yield count_row(
        "`AnswersOrAudits.answers`",
        Path([("audit_words", "Answers", "Answers"), ("audit_words", "Questions", "answer_to")]),
    )
    yield count_row("`AnswersOrAudits`", Path([WHOLE[2]]))


def crate_table() -> typing.Iterator[str]:
    """Returns the modules, definitions and lines of each crate behind the contract of
    `audit_plainly`, as a table.
    """
    yield "| crate | modules | definitions | lines |"
    yield "|---|---|---|---|"
    path = Path(WHOLE)
    for crate in sorted({key[0] for key in path.found}):
        modules = {key[1] for key in path.found if key[0] == crate} - {"declared"}
        yield (
            f"| `{crate}` | {len(modules)} | {len([k for k in path.found if k[0] == crate])} |"
            f" {format(path.lines(crate), ',')} |"
        )


# ---- what the documents quote

QUOTING = [
    os.path.join(TOP, "docs", "claims", name)
    for name in ("THE_CLAIM.md", "CLAIMS.md", "DEFINITIONS.md")
]
MARK = re.compile(r"<!-- (quote|counts|crates|contract|law)(?: (.*?))? -->$")
TABLES = {"counts": count_table, "crates": crate_table}


def quoted_names(words: str) -> typing.Iterator[Key]:
    """The definitions that a mark asks for: a crate, and then modules, each with its names."""
    crate, module = "", ""
    for word in words.split():
        if word.endswith(":"):
            crate, module = word[:-1].split(".", 1)
        else:
            yield crate, module, word


def quote(words: str) -> typing.Iterator[str]:
    """The text of these definitions, each with the line over it that names what it depends on."""
    yield "```text"
    shown: list[str] = []
    first = True
    for crate, module, name in quoted_names(words):
        path = Path([], ())
        path.visit(crate, module, name)
        definition = path.found[next(iter(path.found))]
        over = [line for _, line in definition.over]
        if not first:
            yield ""
        if over != shown[: len(over)] or len(over) > len(shown):
            yield from (line for k, line in enumerate(over) if shown[k:k + 1] != [line])
        shown, first = over, False
        yield from definition.lines
    yield "```"


def contract() -> list[str]:
    """The contract of the function that `main` calls, as it stands."""
    text = list(contracts_of_audit())[-1][1]
    return ["```text"] + text[: text.index("\n{\n")].split("\n") + ["```"]


def law() -> list[str]:
    """The contract of the law by which files and standard streams meet the premises."""
    file, name = LAW
    text = text_of("audit_run", "src", file)
    text = text[text.index(f"pub fn {name}<"):]
    return ["```text"] + text[: text.index("\n{}")].split("\n") + ["```"]


BOXES = {"contract": contract, "law": law}


def update_text(text: str) -> str:
    """The document with what its marks ask for written anew."""
    out: list[str] = []
    lines, at = text.split("\n"), 0
    while at < len(lines):
        out.append(lines[at])
        found = MARK.match(lines[at])
        at += 1
        if found and found.group(1) not in TABLES:
            kind = found.group(1)
            out.extend(quote(found.group(2)) if kind == "quote" else BOXES[kind]())
            at = lines.index("```", at) + 1 if lines[at:at + 1] == ["```text"] else at
        elif found:
            out.extend(TABLES[found.group(1)]())
            while at < len(lines) and lines[at].startswith("|"):
                at += 1
    return "\n".join(out)


def quotes_in(text: str) -> typing.Iterator[Key]:
    for line in text.split("\n"):
        found = MARK.match(line)
        if found and found.group(1) == "quote":
            yield from quoted_names(found.group(2))


def find_stale() -> typing.Iterator[str]:
    """Returns what the documents do not quote, or not as it stands."""
    for path in QUOTING:
        with open(path, encoding="utf-8") as file:
            text = file.read()
        if update_text(text) != text:
            yield f"{os.path.relpath(path, TOP)} is not what `definitions.py page` writes"
        if path == QUOTING[0]:
            shown = {
                (c, "declared" if m.startswith("declared") else m, n) for c, m, n in quotes_in(text)
            }
            for key in sorted(set(Path([PLAIN]).found) - shown):
                yield "docs/claims/THE_CLAIM.md does not quote " + ".".join(key)


def write_page() -> None:
    for path in QUOTING:
        with open(path, encoding="utf-8") as file:
            text = file.read()
        with open(path, "w", encoding="utf-8") as file:
            file.write(update_text(text))


def find_unnamed() -> typing.Iterator[str]:
    """Returns the clauses of the quoted contract of which the page says nothing, and the premises
    that are not counted.
    """
    with open(QUOTING[0], encoding="utf-8") as file:
        words = BOX.sub("", file.read())
    clauses = CLAUSE.findall("\n".join(contract()))
    for _, name in clauses:
        if f"`{name}`" not in words:
            yield f"docs/claims/THE_CLAIM.md says nothing of the clause {name}"
    premises = {name for kind, name in clauses if kind == "requires"}
    for name in sorted(premises ^ set(PREMISES)):
        yield f"tools/definitions.py does not count the premise {name}"
    for name in sorted(premises ^ {name for _, name in CLAUSE.findall("\n".join(law()))}):
        yield f"the law {LAW[1]} says nothing of the premise {name}"


# ---- the list of modules


def find_unlisted() -> typing.Iterator[str]:
    """Returns what docs/claims/DEFINITIONS.md does not list, or lists in vain."""
    modules, documented = find_reached(), read_listed()
    for crate, module in sorted(modules - documented):
        yield f"docs/claims/DEFINITIONS.md does not list {crate} {module}"
    for crate, module in sorted(m for m in documented if not is_own(*m)):
        yield f"docs/claims/DEFINITIONS.md lists what is not there: {crate} {module}"


def code_below() -> typing.Iterator[str]:
    """The crates of this repository, beside the plain types, that the modules of the statement
    name.
    """
    below = set()
    for file in os.listdir(os.path.join(CRATES, "audit_statement", "specs")):
        found = re.findall(
            r"^(?:pub )?use Rattle\.(\w+)\.", text_of("audit_statement", "specs", file), re.M
        )
        below |= {crate for crate in found if os.path.isdir(os.path.join(CRATES, crate))}
    for crate in sorted(below - {"audit_model", "audit_statement"}):
        yield f"the statement stands on code: audit_statement names {crate}"


def show_path(name: str) -> None:
    """The definitions that one name comes to, with their lines."""
    crate, module, one = name.split(".")
    path = Path([(crate, module, one)])
    for key in sorted(path.found):
        print(f"{len(path.found[key].lines):4} {'.'.join(key)}")
    print(f"{len(path.found)} definitions, {path.lines()} lines, {len(path.kit)} names of the kit")


def main(word: str, name: str) -> int:
    if word == "check":
        faults = [
            *find_unlisted(), *code_below(), *plain_fault(), *find_stale(), *find_unnamed(),
        ]
        print("\n".join(faults), end="\n" if faults else "")
        return 1 if faults else 0
    if word == "page":
        write_page()
    elif word == "count":
        print("\n".join(count_table()))
    elif word == "path":
        show_path(name)
    else:
        for crate, module in sorted(find_reached()):
            print(crate, module)
    return 0


def arguments() -> argparse.Namespace:
    parser = argparse.ArgumentParser(
        prog="python3 -m tools.definitions", description=__doc__,
        formatter_class=argparse.RawDescriptionHelpFormatter,
    )
    parser.add_argument("word", nargs="?", default="", help="check, page, count or path")
    parser.add_argument("name", nargs="?", default="", help="CRATE.MODULE.NAME, behind path")
    return parser.parse_args()


if __name__ == "__main__":
    sys.exit(main(**vars(arguments())))
