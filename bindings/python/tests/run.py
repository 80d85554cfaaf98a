#!/usr/bin/env python3
"""Runs the tests and doctests of the package that this interpreter imports, and the examples. The last line is `N passed, M failed`."""

import doctest
import os
import pkgutil
import sys
import unittest

sys.dont_write_bytecode = True
HERE = os.path.dirname(os.path.abspath(__file__))
sys.path[:0] = [HERE, os.path.join(HERE, "..", "examples"), os.path.join(HERE, "..", "..", "..", "tools")]
import jsonb_paths


def all_tests():
    suite = unittest.defaultTestLoader.discover(HERE, top_level_dir=HERE)
    for module in pkgutil.iter_modules(jsonb_paths.__path__, "jsonb_paths."):
        if not module.name.endswith("._core"):
            suite.addTests(doctest.DocTestSuite(module.name))
    suite.addTests(doctest.DocTestSuite("jsonb_paths"))
    suite.addTests(doctest.DocFileSuite(os.path.join(HERE, "..", "README.md"), module_relative=False))
    return suite


def main():
    result = unittest.TextTestRunner(stream=sys.stdout, verbosity=0).run(all_tests())
    for test, why in result.skipped:
        print(f"skipped: {test}: {why}")
    failed = len(result.failures) + len(result.errors) + len(result.unexpectedSuccesses)
    print(f"{result.testsRun - failed - len(result.skipped)} passed, {failed} failed")
    return 1 if failed else 0


if __name__ == "__main__":
    sys.exit(main())
