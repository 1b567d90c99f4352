#!/usr/bin/env python3
"""Checks the prose of the repository against the rules of CONTRIBUTING.md.

It reads Markdown documents, the comments of Rattle code and definitions, Python docstrings and
comments, and the comments of shell scripts. `check` compares the findings of each file with the
recorded ones and fails if a file has more. `list` prints each finding. `record` writes the counts
that may only fall; files that are not recorded may have none. `subjects` checks the subjects of
the commits since a given one. `words` prints how many words the Markdown documents have, outside
of their blocks of code and with them; `check` fails if they have more than MOST_DOCUMENT_WORDS
outside.
"""

from __future__ import annotations

import argparse
import json
import re
import subprocess
import sys
from collections.abc import Iterator
from dataclasses import dataclass
from pathlib import Path

TOP = Path(__file__).resolve().parent.parent
RECORD = TOP / "tools" / "prose_record.json"
MOST_WORDS = 40
MOST_COLUMNS = 120
MOST_SUBJECT = 72
# Of all Markdown documents together, outside of blocks of code.
MOST_DOCUMENT_WORDS = 38_000

FIRST_WORDS = re.compile(
    r"^(What|Of which|With what|Where|Whether|Who|Over what|The same|So|How many|How much|That)\b"
)
PHRASES = [
    re.compile(rf"\b{phrase}\b", re.IGNORECASE)
    for phrase in (
        "want of memory",
        "so many",
        "as many as",
        "tells of",
        "is told",
        "are told",
        "lacks",
        "outset",
        "muster",
        "recruits?",
        "hires?",
        "honest slots?",
    )
]
# The documents that quote texts fixed by the formats, or list the words themselves.
EXEMPT = {
    "CONTRIBUTING.md": "lists the words not to use",
    "tools/prose.py": "lists the words not to use",
}


@dataclass(frozen=True)
class Finding:
    """A place whose text breaks a rule."""

    path: str
    line: int
    rule: str
    text: str

    def __str__(self) -> str:
        return f"{self.path}:{self.line}: {self.rule}: {self.text.strip()[:100]}"


@dataclass(frozen=True)
class Passage:
    """A run of prose lines, with the number of its first line."""

    line: int
    text: str
    is_comment: bool


def tracked_files() -> list[str]:
    """Returns the paths of the files under version control, relative to the top."""
    said = subprocess.run(
        ["git", "ls-files"], cwd=TOP, check=True, capture_output=True, text=True
    )
    return [path for path in said.stdout.splitlines() if (TOP / path).is_file()]


def comment_passages(lines: list[str], mark: re.Pattern[str]) -> Iterator[Passage]:
    """Yields the runs of comment lines that begin with a mark."""
    start = 0
    words: list[str] = []
    for number, line in enumerate([*lines, ""], 1):
        found = mark.match(line)
        if found:
            start = start if words else number
            words.append(line.removeprefix(found[0]).strip())
        elif words:
            yield Passage(start, " ".join(words), True)
            words = []


def docstring_passages(lines: list[str]) -> Iterator[Passage]:
    """Yields the first paragraph of each Python docstring."""
    text = "\n".join(lines)
    for found in re.finditer(r'^[ \t]*"""(.*?)"""', text, re.DOTALL | re.MULTILINE):
        line = text.count("\n", 0, found.start()) + 1
        yield Passage(line, " ".join(found[1].split("\n\n")[0].split()), True)


def markdown_passages(lines: list[str]) -> Iterator[Passage]:
    """Yields the paragraphs, items and table cells of a document, without its code."""
    is_code = False
    for number, line in enumerate(lines, 1):
        if line.lstrip().startswith(("```", "~~~")):
            is_code = not is_code
        elif not is_code and line.strip() and not line.startswith(("#", "<!--")):
            cells = line.strip().strip("|").split("|") if line.startswith("|") else [line]
            for cell in cells:
                yield Passage(number, re.sub(r"`[^`]*`", "`code`", cell), False)


def word_counts(text: str) -> tuple[int, int]:
    """Returns the words of a document outside of its blocks of code, and all its words.

    A word stands between spaces and has a letter: numbers and the marks of tables are none.
    """
    outside = inside = 0
    is_code = False
    for line in text.splitlines():
        if line.lstrip().startswith(("```", "~~~")):
            is_code = not is_code
            continue
        count = sum(any(map(str.isalpha, word)) for word in line.split())
        outside += 0 if is_code else count
        inside += count if is_code else 0
    return outside, outside + inside


def document_words() -> dict[str, tuple[int, int]]:
    """Returns the counts of words of each Markdown document."""
    return {
        path: word_counts((TOP / path).read_text(encoding="utf-8"))
        for path in tracked_files()
        if path.endswith(".md")
    }


def passages(path: str, lines: list[str]) -> list[Passage]:
    """Returns the prose of a file by its kind."""
    if path.endswith(".md"):
        return list(markdown_passages(lines))
    if path.endswith(".rt"):
        return list(comment_passages(lines, re.compile(r"^\s*//[/!]?")))
    if path.endswith(".antt"):
        return list(comment_passages(lines, re.compile(r"^\s*--(?! ?--)")))
    if path.endswith(".sh"):
        return list(comment_passages(lines, re.compile(r"^\s*#(?!!)")))
    if path.endswith(".py"):
        hashes = comment_passages(lines, re.compile(r"^\s*#(?!!)"))
        return [*docstring_passages(lines), *hashes]
    return []


def sentences(text: str) -> list[str]:
    """Returns the sentences of a passage."""
    return re.split(r"(?<=[.!?:;])\s+", text)


def passage_findings(path: str, passage: Passage) -> Iterator[Finding]:
    """Yields what one passage breaks."""
    if passage.is_comment and FIRST_WORDS.match(passage.text):
        yield Finding(path, passage.line, "first word", passage.text)
    for phrase in PHRASES:
        found = phrase.search(passage.text)
        if found:
            yield Finding(path, passage.line, "phrase", found[0])
    for sentence in sentences(passage.text):
        if len(sentence.split()) > MOST_WORDS:
            yield Finding(path, passage.line, "long sentence", sentence)


def file_findings(path: str) -> list[Finding]:
    """Returns what a file breaks."""
    if path in EXEMPT:
        return []
    lines = (TOP / path).read_text(encoding="utf-8", errors="replace").splitlines()
    found = [one for passage in passages(path, lines) for one in passage_findings(path, passage)]
    if path.endswith(".rt"):
        wide = (n for n, line in enumerate(lines, 1) if len(line) > MOST_COLUMNS and "//" in line)
        found += [Finding(path, n, "wide comment", lines[n - 1]) for n in wide]
    return found


def all_findings() -> dict[str, list[Finding]]:
    """Returns the findings of each file that has some."""
    found = {path: file_findings(path) for path in tracked_files()}
    return {path: some for path, some in found.items() if some}


def read_record() -> dict[str, int]:
    """Returns the recorded count of findings by file."""
    counts: dict[str, int] = json.loads(RECORD.read_text(encoding="utf-8"))
    return counts


def check() -> int:
    """Compares the findings with the record, and returns the exit status."""
    found, before = all_findings(), read_record()
    worse = {path: some for path, some in found.items() if len(some) > before.get(path, 0)}
    for path, some in worse.items():
        print(f"prose: {path}: {len(some)} findings, recorded are {before.get(path, 0)}")
        for one in some[:20]:
            print(f"  {one}")
    outside = sum(count for count, _ in document_words().values())
    is_long = outside > MOST_DOCUMENT_WORDS
    if is_long:
        print(f"prose: the documents have {outside} words, more than {MOST_DOCUMENT_WORDS}")
    better = sum(len(found.get(path, [])) < count for path, count in before.items())
    total = sum(map(len, found.values()))
    print(f"prose: {total} findings are left; {better} files have fewer than recorded")
    failed = int(bool(worse)) + int(is_long)
    print(f"{2 - failed} passed, {failed} failed")
    return int(failed > 0)


def record() -> int:
    """Writes the count of findings of each file."""
    counts = {path: len(some) for path, some in sorted(all_findings().items())}
    RECORD.write_text(json.dumps(counts, indent=1) + "\n", encoding="utf-8")
    return 0


def show() -> int:
    """Prints each finding."""
    for some in all_findings().values():
        for one in some:
            print(one)
    return 0


def show_words() -> int:
    """Prints the counts of words of each document and of all."""
    counts = document_words()
    for path, (outside, every) in counts.items():
        print(f"{outside:6} {every:6} {path}")
    outside, every = (sum(column) for column in zip(*counts.values()))
    print(f"{outside:6} {every:6} all; the first number is without blocks of code")
    return 0


def subjects(since: str) -> int:
    """Checks the subjects of the commits since one, and returns the exit status."""
    words = ["git", "log", "--no-merges", "--format=%h %s", f"{since}..HEAD"]
    said = subprocess.run(words, cwd=TOP, check=True, capture_output=True, text=True)
    bad = [
        line
        for line in said.stdout.splitlines()
        if len(line.split(" ", 1)[1]) > MOST_SUBJECT or FIRST_WORDS.match(line.split(" ", 1)[1])
    ]
    print(*bad, sep="\n", end="\n" if bad else "")
    return int(bool(bad))


def main() -> int:
    """Runs the command that the arguments name."""
    parser = argparse.ArgumentParser(description=__doc__.split("\n\n")[0])
    commands = parser.add_subparsers(dest="command", required=True)
    commands.add_parser("check", help="fail if a file has more findings than recorded")
    commands.add_parser("list", help="print each finding")
    commands.add_parser("record", help="write the counts that may only fall")
    commands.add_parser("words", help="print how many words the documents have")
    commands.add_parser("subjects", help="check commit subjects").add_argument("since")
    given = parser.parse_args()
    if given.command == "subjects":
        return subjects(given.since)
    run = {"check": check, "list": show, "record": record, "words": show_words}
    return run[given.command]()


if __name__ == "__main__":
    sys.exit(main())
