"""Standard input, output and error closed when the program is started, in each of the seven ways.

Nothing that the program says goes into a message, the record or the connection. A standard output that was closed is one
that can't be written.
"""

import itertools
import subprocess
import unittest

from getmail.account import Account
from getmail.mbox_account import MboxAccount
from getmail.one_account import LOGIN
from getmail.server import Server
from harness import programs

MESSAGES = [(b"a", b"one\n"), (b"b", b"two of many lines\n" * 1_000), (b"c", b"three\n")]
TEXTS = [text for _, text in MESSAGES]
EACH_DELETED = ["RETR 1", "DELE 1", "RETR 2", "DELE 2", "RETR 3", "DELE 3", "QUIT"]
CLOSED = b"getmail: cannot write standard output\n"


class Closed(unittest.TestCase):
    account_class = Account

    def setUp(self):
        self.server = Server(MESSAGES)
        self.addCleanup(self.server.close)

    def stored(self):
        """The texts of the messages that are stored, in order."""
        return [text for _, text in self.account.held()]

    def run_closed(self, closed, *words, bound="unlimited"):
        """A run against one session, with these standard files closed; no file may grow past `bound` blocks."""
        command = programs.with_closed(closed, [programs.path_of("getmail"), *words])
        thread = self.server.begin_session()
        done = subprocess.run(["sh", "-c", f'ulimit -f {bound} && exec "$@"', "sh", *command], stdin=subprocess.DEVNULL,
                              capture_output=True, env=programs.environment(HOME=str(self.account.home)),
                              restore_signals=False, timeout=programs.SECONDS)
        thread.join(programs.SECONDS)
        self.assertEqual(self.server.commands[:5], LOGIN)
        return programs.Run(done.returncode, done.stdout, done.stderr), self.server.commands[5:]

    def each_way(self, check, *cases):
        """Checks each way to close some, with each of these flags, over an account and a server that are as at the start."""
        for closed, words in itertools.product(programs.WAYS_TO_CLOSE, cases):
            with self.subTest(closed=closed, words=words), self.account_class(self.server.port) as self.account:
                self.server.messages = list(MESSAGES)
                self.server.refuses = ()
                check(closed, words)
                self.server.refuses = ()
                self.check_completed()

    def check_status(self, run, closed, words, fault=b""):
        """The status, and what was said where that isn't closed."""
        silent = "-q" in words
        self.assertEqual(run.status, 1 if fault or (1 in closed and not silent) else 0)
        self.assertEqual(run.out == b"", silent or 1 in closed)
        if 2 in closed:
            self.assertEqual(run.err, b"")
        elif "--trace" not in words:
            self.assertEqual(run.err, fault + (CLOSED if 1 in closed and run.status else b""))
        else:
            self.assertIn(b"C: QUIT\nS: +OK\n", run.err)
            self.assertTrue(run.err.endswith(CLOSED if 1 in closed else fault), run.err[-80:])

    def check_completed(self):
        """One more run with nothing closed stores the rest, and deletes all."""
        run, _ = self.run_closed((), "-q", "-d")
        self.assertEqual(run, programs.SILENT)
        self.assertEqual(self.stored(), TEXTS)
        self.assertEqual(self.server.messages, [])

    def check_whole(self, closed, words):
        run, commands = self.run_closed(closed, "-d", *words)
        self.assertEqual(commands, EACH_DELETED)
        self.assertEqual(self.stored(), TEXTS)
        self.check_status(run, closed, words)

    def check_pretended(self, closed, words):
        run, commands = self.run_closed(closed, "-d", "--pretend", *words)
        self.assertEqual((commands, self.stored(), self.server.messages), (["QUIT"], [], MESSAGES))
        self.check_status(run, closed, words)

    def check_refused_message(self, closed, words):
        """The record was appended to just before the fault is reported."""
        self.server.refuses = ("RETR 3",)
        run, commands = self.run_closed(closed, *words)
        self.assertEqual((commands, self.stored()), (["RETR 1", "RETR 2", "RETR 3", "QUIT"], TEXTS[:2]))
        self.check_status(run, closed, words, b"getmail: server refused RETR 3\n")

    def check_refused_write(self, closed, words):
        """The second message is longer than a file may be."""
        run, commands = self.run_closed(closed, "-d", *words, bound=16)
        self.assertEqual(commands, ["RETR 1", "DELE 1", "RETR 2", "RSET", "QUIT"])
        self.assertEqual(self.stored(), TEXTS[:1])
        self.check_status(run, closed, words, b"getmail: destination refused\n")

    def check_refused_record(self, closed, words):
        run, commands = self.run_closed(closed, "-d", *words, bound=0)
        self.assertEqual((commands, self.stored()), (["RSET", "QUIT"], []))
        self.check_status(run, closed, words, b"getmail: seen file refused\n")

    def test_a_good_run(self):
        self.each_way(self.check_whole, (), ("-q",), ("-v", "-v"), ("--trace",))

    def test_what_a_run_would_do(self):
        self.each_way(self.check_pretended, (), ("--trace",))

    def test_what_is_refused(self):
        for check in (self.check_refused_message, self.check_refused_write, self.check_refused_record):
            self.each_way(check, (), ("--trace",))

    def test_no_session(self):
        """Help, a rehearsal, and mistakes."""
        with Account(1) as account:
            for closed in programs.WAYS_TO_CLOSE:
                for words, status in ((("--help",), 0), (("-x",), 2), (("-r", "none"), 2), (("--rehearse",), 1)):
                    with self.subTest(closed=closed, words=words):
                        done = subprocess.run(programs.with_closed(closed, [programs.path_of("getmail"), *words]),
                                              stdin=subprocess.DEVNULL, capture_output=True, timeout=programs.SECONDS,
                                              env=programs.environment(HOME=str(account.home)))
                        self.assertEqual(done.returncode, 1 if status == 0 and 1 in closed else status)


class ClosedMbox(Closed):
    account_class = MboxAccount

    def stored(self):
        count, rest = self.account.stored(TEXTS)
        self.assertEqual(rest, b"")
        return TEXTS[:count]


if __name__ == "__main__":
    unittest.main()
