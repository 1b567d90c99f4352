#!/usr/bin/env python3
"""Shows and prints exhibits in headless Chromium: print_exhibits.py [FOLDER].

It makes an exhibit of each kind of report, takes a screenshot of each and prints it to PDF with the
network cut off. Each page must be gray throughout, all words must be in the PDF, and no sheet
may be empty. FOLDER keeps the pages and pictures, to be looked at.

It needs Chromium and poppler-utils (Debian: chromium, poppler-utils), and is skipped without them.
The last line is `print_exhibits: N passed, N failed, N skipped`.
"""
import pathlib
import re
import shutil
import subprocess
import sys
import tempfile

from common import EXAMPLES
from test_exhibit import COLUMNS, TEXTS, Page, page_of

CHROMIUM = [
    "chromium", "--headless", "--no-sandbox", "--disable-gpu", "--hide-scrollbars",
    "--host-resolver-rules=MAP * ~NOTFOUND", "--window-size=1000,3400",
]


def run(*words: str) -> None:
    subprocess.run(words, check=True, stdout=subprocess.PIPE, stderr=subprocess.PIPE, timeout=900)


def gray_faults(path: pathlib.Path) -> list[str]:
    """Returns what is wrong with a page as PPM: color, or nothing on it."""
    data = path.read_bytes()
    head = re.match(rb"P6\s(\d+)\s(\d+)\s255\s", data)
    pixels = data[head.end() if head else 0:]
    red, green, blue = pixels[0::3], pixels[1::3], pixels[2::3]
    faults = [] if red == green == blue else [f"{path.name} has color"]
    return faults + ([] if min(red) < 64 else [f"{path.name} is empty"])


def faults_of(folder: pathlib.Path, name: str, text: str) -> list[str]:
    """Makes, shows and prints one exhibit."""
    page, pdf = folder / (name + ".html"), folder / (name + ".pdf")
    page.write_text(text, encoding="utf-8")
    address = page.resolve().as_uri()
    run(*CHROMIUM, f"--screenshot={folder / (name + '.png')}", address)
    run(*CHROMIUM, "--no-pdf-header-footer", f"--print-to-pdf={pdf}", address)
    run("pdftoppm", "-r", "60", str(pdf), str(folder / name))
    run("pdftotext", str(pdf), str(folder / (name + ".txt")))
    sheets = sorted(folder.glob(name + "-*.ppm"))
    faults = [fault for sheet in sheets for fault in gray_faults(sheet)]
    printed = squeeze((folder / (name + ".txt")).read_text(encoding="utf-8"))
    words = [word for word in Page(text.split("<body>")[1]).words if word.strip()]
    lost = [word for word in words if not all(squeeze(part) in printed for part in word.split())]
    return (
        faults
        + [f"{pdf.name} lost {word!r}" for word in lost]
        + ([] if sheets else [f"{pdf.name} has no page"])
    )


def squeeze(text: str) -> str:
    """Returns a text without white space and without breaks within long words."""
    return re.sub(r"\s", "", text)


def main() -> bool:
    missing = [name for name in ("chromium", "pdftoppm", "pdftotext") if not shutil.which(name)]
    if missing:
        print(f"SKIPPED exhibits: missing: {', '.join(missing)}")
        print("print_exhibits: 0 passed, 0 failed, 1 skipped")
        return False
    with tempfile.TemporaryDirectory() as room:
        return print_all(pathlib.Path(sys.argv[1] if len(sys.argv) > 1 else room))


def print_all(folder: pathlib.Path) -> bool:
    """Makes and prints all exhibits, and returns whether one is not as it must be."""
    folder.mkdir(parents=True, exist_ok=True)
    pages = {name.replace(" ", "_"): page_of(text) for name, text in TEXTS.items()}
    pages["districts"] = page_of(
        TEXTS["seats"], graph=EXAMPLES / "data" / "grid.json", columns=COLUMNS,
        parties=("Democratic Party", "Republican Party"), title="Exhibit 12",
        notes=["The plan of 2026."], epsilon="0.0001", alpha="0.05",
    )
    bad = 0
    for name, text in pages.items():
        faults = faults_of(folder, name, text)
        bad += bool(faults)
        for fault in faults:
            print(f"FAILED exhibits/{name}\n  expected: a whole gray page\n  came: {fault}")
    print(f"print_exhibits: {len(pages) - bad} passed, {bad} failed, 0 skipped")
    return bool(bad)


if __name__ == "__main__":
    sys.exit(main())
