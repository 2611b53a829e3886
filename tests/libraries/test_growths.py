"""Memory that runs out in the libraries: each call that may answer so, with each of its growths refused in turn.

The tests of `no_memory_tests` in `crates/tests` mark where their call begins and ends, and print what it answered and
what is left; `tests/refuse_growth.c` refuses one growth in between; `rows.py` says what may be printed.
"""

import os
import re
import subprocess
import tempfile
import unittest
from concurrent.futures import ThreadPoolExecutor

from harness import preload, programs
from libraries.rows import ROWS, NotAllowed

MODULE = "no_memory_tests::"
ENDED = "\ntest result: ok\n"


def parts_of(told):
    """What was printed before the first call, and then after each call."""
    parts = [[]]
    for line in told.split("\n"):
        if line == "called":
            parts.append([])
        elif line != "answered":
            parts[-1].append(line)
    return [tuple(part) for part in parts]


class Growths(unittest.TestCase):
    @classmethod
    def setUpClass(cls):
        cls.library = cls.enterClassContext(preload.library("refuse_growth"))
        cls.pool = cls.enterClassContext(ThreadPoolExecutor(os.cpu_count()))

    def run_test(self, name, growth):
        """The fault that the call answered, or None for its row's answer; and how many growths it had till then."""
        with tempfile.TemporaryDirectory() as folder:
            changes = {"LD_PRELOAD": str(self.library), "REFUSED_WITHIN": "1", "REFUSED_GROWTH": str(growth)}
            done = subprocess.run([programs.path_of("libraries"), MODULE + name], cwd=folder, capture_output=True,
                                  env=programs.environment(**changes), timeout=programs.SECONDS)
        told = done.stdout.decode()
        if done.returncode != 0 or not told.endswith(ENDED):
            raise NotAllowed(f"{name}, growth {growth}: status {done.returncode}: {told}{done.stderr.decode()}")
        try:
            fault = ROWS[name].fault_of(parts_of(told.removesuffix(ENDED).removesuffix("\n")))
        except NotAllowed as error:
            raise NotAllowed(f"{name}, growth {growth}: {error}") from None
        return fault, int(re.search(rb"growths (\d+)", done.stderr)[1])

    def count_growths(self, name):
        """How many growths the call of a row has. Each refused one is answered as the row says, one of them by a fault."""
        fault, growths = self.run_test(name, 0)
        self.assertIsNone(fault, f"{name}: no growth was refused")
        faults = set()
        for growth, (fault, seen) in enumerate(self.pool.map(self.run_test, [name] * growths, range(1, growths + 1)), 1):
            self.assertGreaterEqual(seen, growth, f"{name}: growth {growth} was not refused")
            faults.add(fault)
        self.assertTrue(faults - {None}, f"{name}: no refused growth was told")
        return growths

    def test_each_call(self):
        for name in ROWS:
            with self.subTest(name):
                self.count_growths(name)

    def test_no_row_is_missing(self):
        listed = subprocess.run([programs.path_of("libraries"), "--list"], capture_output=True, check=True,
                                timeout=programs.SECONDS).stdout.decode()
        built = set(re.findall(rf"^{MODULE}(.*): test$", listed, re.MULTILINE))
        self.assertEqual(built, set(ROWS), "the tests of no_memory_tests, and those of rows.py")
