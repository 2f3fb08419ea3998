#!/usr/bin/env python3
"""Tests of the scripts beside the program: `aeth`, which builds and runs it, `draw` and `design`, and of README.md.

tests/scripts.py [WORD]..

Runs each test of the files `*_tests.py` beside this one whose name has one of the words, and ends with a line 'N passed,
M failed', and status 1 where one failed. What is tried stands in a folder of its own, which is removed at the end.

The program is the one that `rt ci` leaves in crates/aeth/out, or the one that `./aeth` keeps in out. Where there is
neither, tests that need it are left out, which is said.
"""
import pathlib
import sys
import unittest

sys.dont_write_bytecode = True
HERE = pathlib.Path(__file__).resolve().parent
sys.path[:0] = [str(HERE), str(HERE.parent / "draw.d"), str(HERE.parent / "common.d")]


def all_tests(suite):
    for test in suite:
        if isinstance(test, unittest.TestSuite):
            yield from all_tests(test)
        else:
            yield test


def main(words):
    found = all_tests(unittest.defaultTestLoader.discover(HERE, "*_tests.py"))
    chosen = [test for test in found if not words or any(word in test.id() for word in words)]
    result = unittest.TextTestRunner(sys.stdout, verbosity=1, descriptions=False).run(unittest.TestSuite(chosen))
    failed = len(result.failures) + len(result.errors)
    for test, why in result.skipped:
        print(f"left out: {test.id()}: {why}")
    print("tests of the scripts:")
    print(f"{result.testsRun - failed - len(result.skipped)} passed, {failed} failed")
    return 1 if failed or not result.testsRun else 0


sys.exit(main(sys.argv[1:]))
