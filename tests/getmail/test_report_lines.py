"""Lines of the report go out as they are noted, up to the first deletion; a run that is killed has them in its log."""

import threading
import unittest

from getmail.account import Account
from getmail.server import MeddlingServer, Server
from harness import programs

FOUR = [(b"%d" % number, b"line %d\n" % number) for number in range(1, 5)]
LOGIN_AND_LISTINGS = 5


class Lines(unittest.TestCase):
    def setUp(self):
        self.server = Server(FOUR)
        self.addCleanup(self.server.close)
        self.account = Account(self.server.port)
        self.addCleanup(self.account.holder.cleanup)
        self.heading = b"SimplePOP3Retriever:u@127.0.0.1:%d:\n" % self.server.port

    def killed(self, commands, lines, *words):
        """The first lines that a run writes to a pipe before it is killed, while the server takes no further command after
        the fetch of that many messages and deletions, and what follows them."""
        self.server.deaf_after = LOGIN_AND_LISTINGS + commands
        thread = self.server.begin_session()
        process = self.account.start(*words)
        limit = threading.Timer(programs.SECONDS, process.kill)
        limit.start()
        try:
            first = [process.stdout.readline() for _ in range(lines)]
            self.assertTrue(self.server.deaf.wait(programs.SECONDS))
            process.kill()
            # Here, and not by `communicate`, which doesn't see what `readline` has read ahead.
            rest = process.stdout.read()
            process.communicate(timeout=programs.SECONDS)
        finally:
            limit.cancel()
            self.server.hung_up.set()
            thread.join(programs.SECONDS)
        return first, rest

    def delivered(self, *numbers):
        return [b"msg %d/4 (7 bytes) delivered\n" % number for number in numbers]

    def test_each_message_has_its_line_at_once(self):
        self.assertEqual(self.killed(3, 4), ([self.heading, *self.delivered(1, 2, 3)], b""))

    def test_nothing_is_written_after_a_deletion(self):
        self.assertEqual(self.killed(4, 2, "-d"), ([self.heading, *self.delivered(1)], b""))

    def test_a_deletion_that_is_taken_back_has_no_line(self):
        """The folder for the second message is gone after the deletion of the first one, which RSET takes back."""
        def remove_folder(command):
            if command == "RETR 2":
                (account.maildir / "tmp").rmdir()

        with MeddlingServer(FOUR, remove_folder) as server, Account(server.port) as account:
            thread = server.begin_session()
            run = account.run("-d")
            thread.join(programs.SECONDS)
            self.assertEqual(server.commands[LOGIN_AND_LISTINGS:], ["RETR 1", "DELE 1", "RETR 2", "RSET", "QUIT"])
            heading = b"SimplePOP3Retriever:u@127.0.0.1:%d:\n" % server.port
        lines = [heading, *self.delivered(1), b"1 messages (7 bytes) retrieved, 0 skipped, 0 deleted\n"]
        self.assertEqual(run, programs.Run(1, b"".join(lines), b"getmail: destination missing\n"))

    def test_a_quiet_run_writes_nothing(self):
        self.assertEqual(self.killed(3, 0, "-q"), ([], b""))
