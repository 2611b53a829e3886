"""The times that the program prints are more than zero and no more than it took, by the clock and by the processor."""

import resource
import time
import unittest

from harness import programs
from harness.maildir import make_maildir
from probe.watched import folder_for

COUNT = 200


def told(word, path):
    """The count and the microseconds of clock and processor time that a run prints, and those that it took."""
    before, begun = resource.getrusage(resource.RUSAGE_CHILDREN), time.monotonic()
    run = programs.run("probe", word, str(path), str(COUNT))
    passed = time.monotonic() - begun
    after = resource.getrusage(resource.RUSAGE_CHILDREN)
    assert (run.status, run.err) == (0, b""), run
    count, clock, processor = map(int, run.out.split())
    worked = after.ru_utime + after.ru_stime - before.ru_utime - before.ru_stime
    return count, (clock, processor), (1e6 * passed, 1e6 * worked)


class Times(unittest.TestCase):
    def test_deliveries_and_what_is_held(self):
        maildir = make_maildir(folder_for(self) / "maildir")
        for word in ("deliver", "held"):
            with self.subTest(word):
                count, (clock, processor), (passed, worked) = told(word, maildir)
                self.assertEqual(count, COUNT)
                self.assertTrue(0 < clock <= passed, f"{clock} of {passed}")
                self.assertTrue(0 < processor <= worked, f"{processor} of {worked}")
