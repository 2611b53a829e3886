"""The work for a listing, a text or an rc file grows with its length, and not with the square of it: a call that looks
through all rows for each row gives the same answers, so that only the time tells it from one that doesn't."""

import resource
import unittest

from getmail import conversations as known
from getmail.account import Account
from harness import programs
from harness.kernel import LOOPBACK

FEW, MANY = 5_000, 100_000

# The work for twenty times as many rows: about twenty times as much, or 400 times if each row costs as much as there are
# rows. A busy machine, and the processor's caches, may add to it.
MOST_TIMES = 100

# Less work than this isn't compared: it is that of starting the program.
LEAST_SECONDS = 0.01

# The octets of a text.
SHORT, LONG = 2_000_000, 40_000_000

# The lines of an rc file: the longer one has most of the 65,536 octets that are allowed. Ten times as many lines cost about
# ten times as much, or 100 times if each costs as much as there are lines. Both may take less than LEAST_SECONDS.
FEW_LINES, MANY_LINES = 1_000, 10_000
MOST_TIMES_LINES = 30
LEAST_SECONDS_LINES = 0.002


def listings(count):
    """The server's side of a session that lists so many messages, and refuses the first one."""
    uids = b"".join(b"%d id-%06d\r\n" % (number, number * 7 % count) for number in range(1, count + 1))
    sizes = b"".join(b"%d 100\r\n" % number for number in range(1, count + 1))
    return (known.wire("+OK", "+OK", "+OK", f"+OK {count} {100 * count}", "+OK") + uids + known.wire(".", "+OK") + sizes
            + known.wire(".", "-ERR", "+OK"))


def seconds_of(wanted, *words, given=b"", least=LEAST_SECONDS, **changes):
    """How long a processor works for a run of the program that has to leave this: the least of three runs, at least `least`."""
    seconds = []
    for _ in range(3):
        before = resource.getrusage(resource.RUSAGE_CHILDREN)
        run = programs.run("getmail", *words, given=given, **changes)
        after = resource.getrusage(resource.RUSAGE_CHILDREN)
        assert run == wanted, (run.status, run.out[-200:], run.err[-200:])
        seconds.append(after.ru_utime + after.ru_stime - before.ru_utime - before.ru_stime)
    return max(min(seconds), least)


class Work(unittest.TestCase):
    @staticmethod
    def seconds_for_listing(count, *words):
        wanted = known.printed(["USER u", "PASS *", "STAT", "UIDL", "LIST", "RETR 1", "QUIT"], f"cut {known.REFUSED}")
        return seconds_of(programs.Run(1, wanted, b""), "--rehearse", *words, given=listings(count))

    def test_a_longer_listing(self):
        for words in ([], ["-d"]):
            with self.subTest(words):
                few, many = self.seconds_for_listing(FEW, *words), self.seconds_for_listing(MANY, *words)
                self.assertLess(many, MOST_TIMES * few)

    @staticmethod
    def seconds_for_text(piece, kept, octets):
        """The work for a text of this piece again and again, of which so many octets are kept each time."""
        count = octets // len(piece)
        given = known.replies(RETR=known.wire("+OK") + piece * count + known.wire("", "."))
        wanted = known.ended("", given, length=kept * count + 1)
        return seconds_of(programs.Run(0, wanted.printed, b""), "--rehearse", given=given)

    def test_a_longer_text(self):
        for piece, kept in ((b"x" * 1000, 1000), (b"x" * 70 + b"\r\n", 71), (b"..\r\n", 2)):
            with self.subTest(piece[-10:]):
                short, long = (self.seconds_for_text(piece, kept, octets) for octets in (SHORT, LONG))
                self.assertLess(long, MOST_TIMES * short)

    @staticmethod
    def seconds_for_rc_file(count):
        """The work for an rc file with so many keys without effect, and a warning of each."""
        with Account(1, "".join(f"{number:x}=\n" for number in range(count))) as account:
            lines = [f"getmail: warning: line {14 + number}: options.{number:x} has no effect\n" for number in range(count)]
            wanted = programs.Run(1, b"", "".join([*lines, f"getmail: cannot connect to {LOOPBACK}:1\n"]).encode())
            return seconds_of(wanted, least=LEAST_SECONDS_LINES, HOME=str(account.home))

    def test_a_longer_rc_file(self):
        self.assertLess(self.seconds_for_rc_file(MANY_LINES), MOST_TIMES_LINES * self.seconds_for_rc_file(FEW_LINES))
