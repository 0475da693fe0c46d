"""Runs every test and every example of a docstring. The last line is 'N passed, M failed, K skipped'; before it each skipped one is
named on a line 'skipped: ..'."""

from __future__ import annotations

import doctest
import importlib
import os
import pkgutil
import sys
import unittest
from pathlib import Path

import vanplan

ROOT = Path(__file__).resolve().parents[2]


def every_test() -> unittest.TestSuite:
    suite = unittest.defaultTestLoader.discover(str(Path(__file__).parent), top_level_dir=str(ROOT / "python"))
    for module in pkgutil.iter_modules(vanplan.__path__, "vanplan."):
        if module.name != "vanplan.__main__":
            suite.addTests(doctest.DocTestSuite(importlib.import_module(module.name)))
    suite.addTests(doctest.DocTestSuite(vanplan))
    return suite


def main() -> int:
    # The examples of the docstrings name files of examples/.
    os.chdir(ROOT)
    result = unittest.TextTestRunner(verbosity=2 if "-v" in sys.argv else 1).run(every_test())
    for test, reason in result.skipped:
        print(f"skipped: {test.shortDescription() or test.id()}: {reason}")
    failed = len(result.failures) + len(result.errors) + len(result.unexpectedSuccesses)
    print(f"{result.testsRun - failed - len(result.skipped)} passed, {failed} failed, {len(result.skipped)} skipped")
    return bool(failed)


sys.exit(main())
