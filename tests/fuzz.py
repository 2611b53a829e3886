#!/usr/bin/env python3
"""Compares the programs with what the formats say, over as many random conversations and accounts as one likes.

    python3 tests/fuzz.py [--program NAME=FILE] FIRST LAST

The gate tries the first few hundred seeds; this tries those from FIRST up to LAST, names each that fails, and goes on. The
status is 0 only if none did.
"""

import argparse
import sys
import unittest
from pathlib import Path

sys.path.insert(0, str(Path(__file__).resolve().parent))

from getmail import test_mboxrd_sessions, test_random, test_sessions  # noqa: E402 (the path has to be there first)
from harness import preload, programs  # noqa: E402
from popd import test_random as test_popd  # noqa: E402


class Fuzz(unittest.TestCase):
    """Each generator over the seeds."""

    seeds = range(0)

    def each(self, check):
        for seed in self.seeds:
            with self.subTest(seed=seed):
                check(seed)

    def test_conversations(self):
        for made in (test_random.conversation_near_the_good_one, test_random.conversation_of_pieces):
            self.each(lambda seed, made=made: test_random.check_seed(self, seed, made))

    def test_accounts(self):
        with test_sessions.libraries() as libraries:
            self.each(lambda seed: test_sessions.check_seed(self, seed, libraries))

    def test_accounts_with_an_mboxrd_file(self):
        with test_sessions.libraries() as libraries, preload.library("refuse_step") as refusing:
            self.each(lambda seed: test_sessions.check_seed(self, seed, (*libraries, refusing), test_mboxrd_sessions.MboxLife))

    def test_maildirs(self):
        self.each(lambda seed: test_popd.check_seed(self, seed))


def main():
    parser = argparse.ArgumentParser(description=__doc__.splitlines()[0])
    parser.add_argument("--program", metavar="NAME=FILE", action="append", default=[],
                        help="take the program NAME from FILE")
    parser.add_argument("first", type=int, help="the first seed")
    parser.add_argument("last", type=int, help="the last seed")
    words = parser.parse_args()
    for pair in words.program:
        programs.place(*pair.split("=", 1))
    Fuzz.seeds = range(words.first, words.last + 1)
    suite = unittest.TestLoader().loadTestsFromTestCase(Fuzz)
    return 0 if unittest.TextTestRunner(sys.stdout).run(suite).wasSuccessful() else 1


if __name__ == "__main__":
    sys.exit(main())
