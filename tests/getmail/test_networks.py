"""A warning, where reasons are asked for, if password and mail leave this machine unencrypted."""

import tempfile
import unittest
from pathlib import Path

from getmail import terminal
from getmail.account import Account
from getmail.server import Server, SocketServer
from harness import preload, programs
from harness.kernel import LOOPBACK

ONE = [(b"a", b"one\n")]
ELSEWHERE = "mail.example"


class Networks(unittest.TestCase):
    def setUp(self):
        self.server = self.enterContext(Server(ONE))
        self.library = str(self.enterContext(preload.library("elsewhere")))

    def account_of(self, server):
        return self.enterContext(Account(self.server.port, server=server))

    def session(self, account, *words, **changes):
        thread = self.server.begin_session()
        run = account.run(*words, **changes)
        thread.join(programs.SECONDS)
        return run

    def warning(self):
        return (f"getmail: u@{ELSEWHERE}:{self.server.port}: warning: password and mail go over the network unencrypted: "
                "use a tunnel\n").encode()

    def test_another_machine(self):
        account = self.account_of(ELSEWHERE)
        for words, told in ((("-q",), b""), (("-q", "--why"), self.warning()), (("-q", "--trace"), None),
                            (("-q", "--pretend", "--why"), self.warning())):
            with self.subTest(words):
                run = self.session(account, *words, LD_PRELOAD=self.library)
                self.assertEqual(run.status, 0, run.err)
                if told is None:
                    self.assertNotIn(b"warning", run.err)
                else:
                    self.assertEqual(run.err, told)

    def test_an_unattended_run_says_it_once(self):
        account = self.account_of(ELSEWHERE)
        for told in self.warning(), b"", b"":
            self.assertEqual(self.session(account, "--unattended", LD_PRELOAD=self.library), programs.Run(0, b"", told))

    def test_before_the_reason_of_a_fault(self):
        account = self.account_of(ELSEWHERE)
        self.server.refuses = ("STAT",)
        run = self.session(account, "-q", "--why", LD_PRELOAD=self.library)
        self.assertEqual(run.status, 1)
        self.assertTrue(run.err.startswith(self.warning() + b"getmail: server refused STAT\n"), run.err)

    def test_on_a_terminal(self):
        account = self.account_of(ELSEWHERE)
        thread = self.server.begin_session()
        status, _, shown = terminal.run(account, LD_PRELOAD=self.library)
        thread.join(programs.SECONDS)
        self.assertEqual(status, 0)
        self.assertIn(self.warning().rstrip(), terminal.screen_of(shown))

    def test_this_machine(self):
        for server in LOOPBACK, "localhost", "127.1", f"::ffff:{LOOPBACK}":
            with self.subTest(server):
                self.assertEqual(self.session(self.account_of(server), "-q", "--why"), programs.SILENT)

    def test_a_tunnel_on_a_socket(self):
        path = Path(self.enterContext(tempfile.TemporaryDirectory())) / "pop.example.org"
        account = self.enterContext(Account(110, server=path))
        with SocketServer(ONE, path) as server:
            thread = server.begin_session()
            self.assertEqual(account.run("-q", "--why"), programs.SILENT)
            thread.join(programs.SECONDS)


if __name__ == "__main__":
    unittest.main()
