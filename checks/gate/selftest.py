"""Gives each checker wrong answers, which it has to catch.

    selftest [NAME..]

These are the tests in checks/tests, by `unittest`; NAME is one of them, as test_tally or
test_tally.Counts. They need no program that is proved. The last line is `N passed, M failed`.
"""
import sys
import unittest
from pathlib import Path

from checks.shared.places import TOP
from checks.shared.tally import Tally

TESTS = Path(__file__).resolve().parents[1] / "tests"


def suite_of(names):
    """The tests of some names, or all."""
    loader = unittest.TestLoader()
    if names:
        return loader.loadTestsFromNames(f"checks.tests.{it}" for it in names)
    return loader.discover(str(TESTS), top_level_dir=str(TOP))


def main(names):
    """Runs the tests of the checkers."""
    result = unittest.TextTestRunner(sys.stderr, verbosity=1, buffer=True).run(suite_of(names))
    bad = len(result.failures) + len(result.errors) + len(result.unexpectedSuccesses)
    bad += len(result.skipped)
    return Tally(max(result.testsRun - bad, 0), bad).end()
