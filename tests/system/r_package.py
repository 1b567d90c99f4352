"""The R package: its own tests, its vignette, and R's check of a package. R is optional: without it
the test counts as skipped.
"""
# RUN: {auditor}
import argparse
import pathlib
import re
import shutil
import sys
import tempfile

from tests.checks import Checks, End, run
from tests.places import TOP, package_environment, python_with

PACKAGE = TOP / "r" / "districtaudit"
NEEDED = ("jsonlite", "testthat", "digest")
# Prints a line for each expectation: its kind, the name of its test, and its message.
RUN_TESTS = """
library(districtaudit)
found <- testthat::test_dir(".", reporter = "silent", stop_on_failure = FALSE,
                            load_package = "installed", package = "districtaudit")
for (test in found) for (one in test$results) {
  kind <- sub("expectation_", "", class(one)[1])
  cat(kind, "\\t", test$test, "\\t", gsub("[\\n\\t]", " ", conditionMessage(one)), "\\n", sep = "")
}
"""
KNIT = 'library(districtaudit); knitr::knit("districtaudit.Rmd", quiet = TRUE)'


def call_r(words: list[object], folder: pathlib.Path, more: dict[str, str]) -> End:
    """Calls a program of R in a folder, with these variables."""
    return run(words, folder=folder, more=more, seconds=600)


def find_missing() -> str:
    """Returns what is missing of R and the packages that the tests cannot do without."""
    if shutil.which("Rscript") is None:
        return "Rscript"
    for name in NEEDED:
        code = f'quit(status = !requireNamespace("{name}", quietly = TRUE))'
        if run(["Rscript", "--vanilla", "-e", code]).status != 0:
            return f"the R package {name}"
    return ""


def write_profile(room: pathlib.Path) -> pathlib.Path:
    """Writes a profile of R that names an empty repository of packages, and returns its path.

    R's check would ask a server for the list of all packages.
    """
    listed = room / "repository" / "src" / "contrib" / "PACKAGES"
    listed.parent.mkdir(parents=True)
    listed.touch()
    profile = room / "profile"
    profile.write_text(f'options(repos = c(CRAN = "{(room / "repository").as_uri()}"))\n')
    return profile


def environment(auditor: pathlib.Path, room: pathlib.Path) -> dict[str, str]:
    """Returns the variables with which R finds the package, the program and a Python."""
    return {
        **package_environment(),
        "DISTRICT_AUDIT": str(auditor),
        "DISTRICTAUDIT_REPOSITORY": str(TOP),
        "DISTRICTAUDIT_PYTHON": python_with("networkx", "pandas") or sys.executable,
        "R_LIBS": str(room / "library"),
        "R_PROFILE": str(write_profile(room)),
        "_R_CHECK_FORCE_SUGGESTS_": "false",
        "LC_ALL": "C.UTF-8",
    }


def try_tests(checks: Checks, room: pathlib.Path, more: dict[str, str]) -> None:
    """Counts each expectation of the package's tests."""
    shutil.copytree(PACKAGE / "tests" / "testthat", room / "testthat")
    end = call_r(["Rscript", "-e", RUN_TESTS], room / "testthat", more)
    if not checks.has_status("tests_end", end):
        return
    rows = [line.split("\t") for line in end.out.splitlines() if line.count("\t") == 2]
    for kind, test, text in rows:
        name = re.sub(r"\W+", "_", test)
        if kind == "skip":
            checks.skips(name, text)
        else:
            checks.is_true(name, kind == "success", "success", f"{kind}: {text}")
    succeeded = sum(kind == "success" for kind, _, _ in rows)
    checks.is_true("tests_are_there", succeeded > 100, "more than 100", succeeded)


def try_check(checks: Checks, room: pathlib.Path, more: dict[str, str]) -> None:
    """Has R check the package. Its tests were run before."""
    end = call_r(["R", "CMD", "build", "--no-build-vignettes", PACKAGE], room, more)
    if not checks.has_status("builds", end):
        return
    words = ["R", "CMD", "check", "--no-manual", "--no-tests", "--ignore-vignettes"]
    end = call_r([*words, next(room.glob("*.tar.gz")).name], room, more)
    checks.has_status("check_ends", end)
    # A suggested package that is not installed is a note, and no fault of this one.
    wanted = "1 NOTE" if "suggested but not available" in end.out else "OK"
    found = re.findall(r"^Status: (.*)$", end.out, re.M)
    checks.is_equal("check_is_clean", found, [wanted])
    checks.is_true("check_asks_no_server", "cannot open URL" not in end.out + end.note, "no URL")


def try_vignette(checks: Checks, room: pathlib.Path, more: dict[str, str]) -> None:
    """Runs the code of the vignette with the program."""
    if run(["Rscript", "-e", 'quit(status = !requireNamespace("knitr"))']).status != 0:
        checks.skips("vignette", "missing: the R package knitr")
        return
    shutil.copy(PACKAGE / "vignettes" / "districtaudit.Rmd", room)
    checks.has_status("vignette_runs", call_r(["Rscript", "-e", KNIT], room, more))
    page = room / "districtaudit.md"
    text = page.read_text() if page.exists() else ""
    checks.has_line("vignette_shows_a_report", text, "pair")
    checks.has_line("vignette_shows_a_trace", text, "[1] 36 11")
    checks.has_line("vignette_names_a_cut_district", text, "district 3 is in 2 parts")
    checks.has_line("vignette_shows_limits", text, "cut_weight=64 ends")
    checks.has_line("vignette_verifies_its_study", text, "6 agree, 0 differ, 0 not checked")
    # The vignette shows how a missing vote is refused.
    refused = "## Error : column gov_r: a value is missing in 1 units: U01 (missing = "
    errors = re.findall("^.*Error.*$", text, re.M)
    checks.is_equal("vignette_has_one_error", [one[: len(refused)] for one in errors], [refused])


def main() -> int:
    parser = argparse.ArgumentParser(description=__doc__)
    parser.add_argument("auditor", type=pathlib.Path)
    auditor = parser.parse_args().auditor.resolve()
    checks = Checks("r_package")
    missing = find_missing()
    if missing:
        checks.skips("r_package", f"missing: {missing}")
        return checks.finish()
    with tempfile.TemporaryDirectory() as name:
        room = pathlib.Path(name)
        (room / "library").mkdir()
        more = environment(auditor, room)
        end = call_r(["R", "CMD", "INSTALL", "-l", room / "library", PACKAGE], room, more)
        if checks.has_status("installs", end):
            try_tests(checks, room, more)
            try_vignette(checks, room, more)
            try_check(checks, room, more)
    return checks.finish()


if __name__ == "__main__":
    sys.exit(main())
