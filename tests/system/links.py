"""Checks the links of all documents: each relative target and each anchor exists.

Paths that a text names in code marks, such as `docs/user/GUIDE.md`, are checked as well. A planted
document shows that each kind of fault is found.
"""
# RUN:
# NEEDS: git
# QUICK
import pathlib
import re
import tempfile

from tests.checks import Checks, run
from tests.places import TOP

LINK = re.compile(r"\[[^\]]*\]\(([^)\s]+)\)")
NAMED = re.compile(
    r"`((?:docs|scripts|tests|tools|bench|examples|crates|python)/[\w./-]*[\w/])(?: [^`]*)?`"
)
CODE = re.compile(r"^ *(```|~~~).*?^ *\1 *$", re.DOTALL | re.MULTILINE)


def anchor_of(heading: str) -> str:
    """Returns the anchor that GitHub gives a heading."""
    text = re.sub(r"\[([^\]]*)\]\([^)]*\)", r"\1", heading).replace("`", "")
    kept = "".join(c for c in text.strip().lower() if c.isalnum() or c in " -_")
    return kept.replace(" ", "-")


def anchors_in(text: str) -> set[str]:
    """Returns the anchors of a document; a repeated heading gets a number."""
    found: dict[str, int] = {}
    anchors = set()
    for heading in re.findall(r"^#+ +(.*)$", CODE.sub("", text), re.MULTILINE):
        anchor = anchor_of(heading)
        number = found.get(anchor, 0)
        found[anchor] = number + 1
        anchors.add(f"{anchor}-{number}" if number else anchor)
    return anchors


def link_fault(path: pathlib.Path, target: str) -> str:
    """Returns the fault of a link in a document, or an empty text."""
    name, _, anchor = target.partition("#")
    file = (path.parent / name).resolve() if name else path
    if not file.exists():
        return f"{target}: no such file"
    if anchor and (file.suffix != ".md" or anchor not in anchors_in(file.read_text())):
        return f"{target}: no such heading"
    return ""


def faults_in(path: pathlib.Path, top: pathlib.Path) -> list[str]:
    """Returns what is wrong with the links and the named paths of a document."""
    text = CODE.sub("", path.read_text(encoding="utf-8"))
    links = [link for link in LINK.findall(text) if not re.match(r"[a-z]+:", link)]
    faults = [fault for fault in (link_fault(path, link) for link in links) if fault]
    # Files that a build leaves, as in crates/*/out, are no part of a clone.
    named = [name for name in NAMED.findall(text) if "/out" not in name]
    missing = [name for name in named if not (top / name).exists()]
    return faults + [f"{name}: no such file" for name in missing]


PLANTED = """# One heading: `code`, and more

[right](other.md#a-heading) [right](#one-heading-code-and-more) `tests/run full` `tests/here.py`
[no file](missing.md) [no heading](other.md#another) [no heading](#one-heading)

```
[not read](nothing.md)
```

`tests/nothing.py` `docs/user/NOTHING.md` `crates/one/out/one`
"""


def finds_planted_faults(checks: Checks) -> None:
    """A document with a fault of each kind, and with right links beside them."""
    with tempfile.TemporaryDirectory() as folder:
        room = pathlib.Path(folder)
        (room / "tests").mkdir()
        for name in ("run", "here.py"):
            (room / "tests" / name).write_text("")
        (room / "other.md").write_text("# A heading\n\n```\n# another\n```\n")
        (room / "planted.md").write_text(PLANTED)
        checks.is_equal(
            "planted_faults",
            faults_in(room / "planted.md", room),
            [
                "missing.md: no such file",
                "other.md#another: no such heading",
                "#one-heading: no such heading",
                "tests/nothing.py: no such file",
                "docs/user/NOTHING.md: no such file",
            ],
        )
        (room / "twice.md").write_text("# Same\n\n# Same\n\n[two](#same-1) [three](#same-2)\n")
        checks.is_equal(
            "repeated_headings",
            faults_in(room / "twice.md", room),
            ["#same-2: no such heading"],
        )


def main() -> int:
    checks = Checks("links")
    finds_planted_faults(checks)
    listed = run(["git", "ls-files", "*.md"]).out.split("\n")
    documents = [TOP / name for name in listed if name and (TOP / name).exists()]
    checks.is_true("documents", len(documents) >= 15, "at least 15 documents", len(documents))
    for path in documents:
        name = str(path.relative_to(TOP))
        checks.is_equal(name, faults_in(path, TOP), [])
    return checks.finish()


if __name__ == "__main__":
    raise SystemExit(main())
