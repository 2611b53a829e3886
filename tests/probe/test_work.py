"""The work of the calls over a record and a listing grows with their length, and not with its square; and the times that
the program tells are no more than it took."""

import resource
import unittest

from harness import programs

FEW, MANY = 5_000, 100_000

# Twenty times as many messages cost twenty times as much, some more than that once they fill the processor's caches, or
# 400 times if each costs as much as there are messages.
MOST_TIMES = 100

# Fewer microseconds than this aren't compared.
LEAST = 2_000


def times_of(what, count):
    """The microseconds of each call in one run, and those that a processor worked for it."""
    before = resource.getrusage(resource.RUSAGE_CHILDREN)
    run = programs.run("probe", what, str(count))
    after = resource.getrusage(resource.RUSAGE_CHILDREN)
    assert (run.status, run.err) == (0, b""), run
    times = {call: int(used) for call, used in (line.split() for line in run.out.decode().splitlines())}
    return times, 1e6 * (after.ru_utime + after.ru_stime - before.ru_utime - before.ru_stime)


class Work(unittest.TestCase):
    def least(self, count):
        """The microseconds of each call: the least of three runs."""
        runs = []
        for _ in range(3):
            times, worked = times_of("session", count)
            self.assertEqual(set(times), {"join", "read", "merge", "plan", "bytes"})
            self.assertLessEqual(sum(times.values()), worked)
            runs.append(times)
        return {call: max(LEAST, min(run[call] for run in runs)) for call in runs[0]}

    def test_more_messages(self):
        few, many = self.least(FEW), self.least(MANY)
        for call, used in many.items():
            with self.subTest(call):
                self.assertLess(used, MOST_TIMES * few[call])

    def test_the_time_of_reading_is_part_of_the_run(self):
        times, worked = times_of("read", MANY)
        self.assertEqual(set(times), {"read"})
        self.assertLessEqual(times["read"], worked)
        self.assertGreater(times["read"], 0)
