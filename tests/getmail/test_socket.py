"""A server at a Unix socket, on which a tunnel listens that no other user can take or use."""

import tempfile
import unittest
from pathlib import Path

from getmail.account import Account
from getmail.server import SocketServer
from getmail.test_why import START, TUNNEL
from harness import programs, waits

TWO = [(b"a", b"one\n"), (b"b", b"two\n")]


class Sockets(unittest.TestCase):
    def setUp(self):
        self.folder = Path(self.enterContext(tempfile.TemporaryDirectory()))
        self.path = self.folder / "pop.example.org"
        self.account = self.enterContext(Account(110, server=self.path))

    def told(self, *reasons):
        """A socket is named without a port."""
        return [f"getmail: u@{self.path}: {reason}" for reason in reasons]

    def test_mail_is_fetched(self):
        """The account is that of the path and the port, which isn't used otherwise."""
        with SocketServer(TWO, self.path) as server:
            for words in (("-q",), ("-q", "-d")):
                thread = server.begin_session()
                self.assertEqual(self.account.run(*words), programs.SILENT)
                thread.join(programs.SECONDS)
            self.assertEqual(server.messages, [])
        self.assertEqual(self.account.held(), TWO)
        self.assertTrue(self.account.record.is_file())

    def test_the_report_names_it(self):
        with SocketServer(TWO, self.path) as server:
            thread = server.begin_session()
            run = self.account.run()
            thread.join(programs.SECONDS)
        self.assertEqual((run.status, run.out.decode().splitlines()[0]), (0, f"SimplePOP3Retriever:u@{self.path}:110:"))

    def test_a_path_without_a_socket(self):
        for make, reason in ((lambda: None, "No such file or directory"), (self.path.touch, "Connection refused"),
                             (lambda: (self.path.unlink(), self.path.symlink_to("nowhere")), "No such file or directory")):
            make()
            run = self.account.run("--why")
            self.assertEqual((run.status, run.err.decode().splitlines()),
                             (1, [f"getmail: cannot connect to {self.path}", *self.told(f"{self.path}: {reason}", START)]))

    def test_a_path_that_is_too_long(self):
        path = "/" + "x" * 107
        with Account(110, server=path) as account:
            run = account.run()
        self.assertEqual((run.status, run.err.decode()), (1, f"getmail: cannot connect to {path}\n"))

    def test_a_tunnel_that_reaches_no_server(self):
        """It ends the connection at once."""
        with SocketServer(TWO, self.path) as server:
            thread = server.begin_session(0)
            run = self.account.run("--why")
            thread.join(programs.SECONDS)
        self.assertEqual((run.status, run.err.decode().splitlines()),
                         (1, ["getmail: connection ended by the server",
                              *self.told("it ended before the greeting", TUNNEL)]))

    def test_each_wait_has_a_bound(self):
        hurry = waits.hurry_for(type(self))
        with SocketServer(TWO, self.path) as server:
            thread = server.begin_session()
            self.assertEqual(self.account.run("-q", **hurry.environment()), programs.SILENT)
            thread.join(programs.SECONDS)
        self.assertEqual(hurry.asked(), [("read", 180_000), ("write", 180_000)])

    def test_a_port_for_tls_is_not_used(self):
        with Account(995, server=self.path) as account, SocketServer(TWO, self.path) as server:
            thread = server.begin_session()
            self.assertEqual(account.run("-q", "--why"), programs.SILENT)
            thread.join(programs.SECONDS)

    def test_each_cut(self):
        """Whatever octet of the replies is the last: no message is lost, and none is there twice."""
        for octets in range(0, 140, 7):
            self.path.unlink(missing_ok=True)
            with self.subTest(octets), Account(110, server=self.path) as account, SocketServer(TWO, self.path) as server:
                for room in (octets, None):
                    thread = server.begin_session(room)
                    account.run("-q")
                    thread.join(programs.SECONDS)
                self.assertEqual(account.held(), TWO)


if __name__ == "__main__":
    unittest.main()
