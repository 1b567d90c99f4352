#!/usr/bin/env python3
"""Runs all tests of the package, as `tests/run python` does.

A run by hand needs the package installed (`pip install -e ./python`), and PYTHONPATH must name the
top of the repository, where tests of traces find the plain model.

A failed test is printed once more by its name, with what was expected and what came. The last line
counts the tests, for the test command: `python/tests: N passed, N failed, N skipped`.
"""
import pathlib
import sys
import textwrap
import unittest

here = pathlib.Path(__file__).resolve().parent
tests = unittest.defaultTestLoader.discover(str(here), top_level_dir=str(here))
found = unittest.TextTestRunner(verbosity=1, stream=sys.stderr).run(tests)
for case, why in found.skipped:
    print(f"python/tests: skipped: {case.id()}: {why}")
for case, why in found.failures + found.errors:
    print(f"FAILED python_{case.id()}")
    print(textwrap.indent(why.rstrip(), "  "))
bad = len({case.id() for case, _ in found.failures + found.errors})
print(
    f"python/tests: {max(0, found.testsRun - bad - len(found.skipped))} passed, {bad} failed,"
    f" {len(found.skipped)} skipped"
)
sys.exit(bad > 0)
