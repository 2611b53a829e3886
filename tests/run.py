#!/usr/bin/env python3
"""Runs the tests from outside: those of each program, over the program as it was built last.

A program that was not built is a failure, also of each test that needs it beside its own, and so is one that doesn't run
with a library preloaded; `--only NAME` runs one program's tests. A test that needs software which isn't there is skipped,
with a line that names it. The status is 0 only if every other test has passed. Nothing is left out by mistake: a folder with
tests that no list names, a table that no list names and a `-k` that fits no test are errors. Each test has a verdict: one that
isn't over after TESTS_MINUTES (30) fails, and so does one with a thread that ends by an error.
"""

import argparse
import os
import signal
import sys
import threading
import time
import unittest
from pathlib import Path

TESTS = Path(__file__).resolve().parent
sys.path.insert(0, str(TESTS))

from harness import preload, programs  # noqa: E402 (the path has to be there first)


MINUTES = int(os.environ.get("TESTS_MINUTES", "30"))


class Result(unittest.TextTestResult):
    """Verdicts also of a test that doesn't end, and of its threads."""

    def __init__(self, *words, **more):
        super().__init__(*words, **more)
        self.thread_errors = []
        threading.excepthook = self.thread_errors.append
        signal.signal(signal.SIGALRM, self.end_test)

    def end_test(self, *_):
        raise AssertionError(f"it isn't over after {MINUTES} minutes")

    def startTest(self, test):
        super().startTest(test)
        signal.alarm(60 * MINUTES)

    def stopTest(self, test):
        signal.alarm(0)
        while self.thread_errors:
            error = self.thread_errors.pop()
            self.addFailure(test, (error.exc_type, error.exc_value, error.exc_traceback))
        super().stopTest(test)


def read_words():
    parser = argparse.ArgumentParser(description=__doc__.splitlines()[0])
    parser.add_argument("--program", metavar="NAME=FILE", action="append", default=[],
                        help="take the program NAME from FILE")
    parser.add_argument("--only", metavar="NAME", action="append", choices=programs.NAMES,
                        help="run the tests of this program alone")
    parser.add_argument("-k", metavar="PATTERN", action="append", dest="patterns",
                        help="only tests whose names fit the pattern or hold the word")
    parser.add_argument("-v", "--verbose", action="store_true", help="print each test's name")
    return parser.parse_args()


def tests_of(name, words):
    """One program's tests, those that the patterns fit; and whether all its files could be read."""
    loader = unittest.TestLoader()
    if words.patterns:
        loader.testNamePatterns = [word if "*" in word else f"*{word}*" for word in words.patterns]
    suite = loader.discover(str(TESTS / name), top_level_dir=str(TESTS))
    for error in loader.errors:
        print(error)
    return suite, not loader.errors


def run_tests_of(name, words):
    """Runs one program's tests, prints their summary, and answers whether all of them passed and how many ran."""
    suite, readable = tests_of(name, words)
    if words.patterns and suite.countTestCases() == 0:
        return readable, 0
    path = programs.path_of(name)
    if not path.is_file():
        print(f"tests of {name}: {path} is not there; `make test-{name}` builds it")
        return False, suite.countTestCases()
    if not preload.works_with(path):
        print(f"tests of {name}: {path} doesn't run with a library preloaded: has it a sanitizer?")
        return False, suite.countTestCases()
    begun = time.monotonic()
    result = unittest.TextTestRunner(sys.stdout, verbosity=2 if words.verbose else 0, resultclass=Result).run(suite)
    for test, reason in result.skipped:
        print(f"tests of {name}: {test.id()} is skipped: {reason}")
    run = result.testsRun - len(result.skipped)
    passed = readable and result.wasSuccessful() and (run > 0 or bool(words.patterns))
    print(f"tests of {name}: {run} run in {time.monotonic() - begun:.0f} s, {len(result.skipped)} skipped, "
          f"{'all passed' if passed else 'NOT all passed'}", flush=True)
    return passed, result.testsRun


def unlisted_folders():
    """The folders with tests that belong to no program of the list."""
    return sorted({path.parent.name for path in TESTS.glob("*/test_*.py")} - set(programs.NAMES))


def main():
    words = read_words()
    for pair in words.program:
        programs.place(*pair.split("=", 1))
    for folder in unlisted_folders():
        print(f"tests/{folder} has tests, and NAMES in tests/harness/programs.py doesn't name it")
    verdicts = [run_tests_of(name, words) for name in words.only or programs.NAMES]
    if words.patterns and sum(count for _, count in verdicts) == 0:
        print(f"no test fits -k {' -k '.join(words.patterns)}")
        return 1
    return 0 if all(passed for passed, _ in verdicts) and not unlisted_folders() else 1


if __name__ == "__main__":
    sys.exit(main())
