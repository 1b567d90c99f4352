"""Each script that takes words says with --help how it is called, and refuses a call without them.
"""
# NEEDS: networkx pandas
# RUN:
# QUICK
import sys

from tests.checks import Checks, run
from tests.places import TOP


def main() -> int:
    checks = Checks("help_texts")
    folders = (
        "bench",
        "tools",
        "tests/oracle",
        "tests/differential",
        "tests/golden",
        "tests/system",
    )
    paths = [path for folder in folders for path in sorted((TOP / folder).glob("*.py"))]
    own = "tests/system/help_texts.py"
    scripts = [path for path in paths if "argparse" in path.read_text() and path != TOP / own]
    for path in scripts:
        end = run(
            [sys.executable, "-m", str(path.relative_to(TOP))[:-3].replace("/", "."), "--help"]
        )
        checks.has_status(f"{path.stem}_ends", end)
        first = path.read_text().split('"""')[1].split()[:6]
        checks.has_line(f"{path.stem}_help", " ".join(end.out.split()), " ".join(first))
    checks.is_true("scripts_with_words", len(scripts) >= 20, "at least 20 scripts", len(scripts))
    end = run([sys.executable, "-m", "tests.differential.fuzz"])
    checks.has_status("fuzz_without_words_ends", end, 2)
    checks.is_equal("fuzz_without_words_prints", end.out, "")
    checks.is_true("fuzz_without_words_says", end.note.startswith("usage: "), "usage: ..", end.note)
    return checks.finish()


if __name__ == "__main__":
    sys.exit(main())
