"""Runs all tests of the Python package. The last line is 'N passed, M failed'.

    python3 python/tests/run.py
"""
from __future__ import annotations

import faulthandler
import os
import sys
import unittest

LONGEST = 300
"""The seconds after which the tests end, since one of them waits for something that never comes."""


def main() -> int:
    faulthandler.dump_traceback_later(LONGEST, exit=True)
    suite = unittest.defaultTestLoader.discover(os.path.dirname(os.path.abspath(__file__)))
    result = unittest.TextTestRunner(stream=sys.stdout, buffer=True).run(suite)
    # A test can have several parts that failed.
    wrong = {getattr(test, "test_case", test) for test, _ in result.failures + result.errors}
    print(f"{result.testsRun - len(wrong) - len(result.skipped)} passed, {len(wrong)} failed")
    return 0 if result.wasSuccessful() and result.testsRun else 1


if __name__ == "__main__":
    sys.exit(main())
