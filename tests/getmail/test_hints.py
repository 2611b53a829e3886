"""What a fault's reasons end with, where there is one remedy: and none that misleads."""

import os
import shutil
import subprocess
import tempfile
import unittest
from pathlib import Path

from getmail import terminal
from getmail.account import Account
from getmail.server import Server, SocketServer
from getmail.test_why import MAILDIR, START, TUNNEL
from harness import programs
from harness.kernel import LOOPBACK

NOBODY = 65534
TWO = [(b"a", b"one\n"), (b"b", b"two\n")]
PORT_KEY = "server is the name or address of a host alone: port is a key of its own"
NAME = b"getmail: the flag -r names an rc file: getmail -r NAME"
TLS = "this server takes passwords over TLS alone: use a tunnel, as getmail(1) says under TLS"
DELE = "if it ends at each DELE, this server deletes nothing: set delete = false, and mail is fetched"
RIGHTS = "only who may write to a socket can connect: is it a tunnel of your own?"
LOCK = "if a run of another user left that file, remove it: it is empty"


def run_without_rights(account, *words):
    """A run by a user who isn't root, with a copy of the program that each user may run."""
    program = shutil.copy(programs.path_of("getmail"), account.home / "getmail")
    other = {}
    if os.geteuid() == 0:
        other = {"user": NOBODY, "group": NOBODY, "extra_groups": []}
        for path in (account.home, account.folder, account.rcfile, account.maildir, *account.maildir.iterdir()):
            os.chown(path, NOBODY, NOBODY)
    run = subprocess.run([program, *words], stdin=subprocess.DEVNULL, capture_output=True, timeout=programs.SECONDS,
                         env=programs.environment(HOME=str(account.home)), **other)
    return programs.Run(run.returncode, run.stdout, run.stderr)


class OfServers(unittest.TestCase):
    """Servers that take no connection."""

    def hints(self, server, run=Account.run):
        """The lines behind the fault's."""
        with Account(110, server=server) as account:
            first, *lines = run(account, "--why").err.decode().splitlines()
            name = f"u@{server}" if str(server).startswith("/") else f"u@{server}:110"
            self.assertEqual(first, f"getmail: cannot connect to {name.removeprefix('u@')}")
            self.assertTrue(all(line.startswith(f"getmail: {name}: ") for line in lines), lines)
            return [line.removeprefix(f"getmail: {name}: ") for line in lines]

    def test_what_is_no_server(self):
        for server, hint in (("127.0.0.1:110", PORT_KEY), ("mail.test.invalid:110", PORT_KEY),
                             ("~/.getmail/tunnel/pop3s", "in server no ~ stands for your home: the path of a socket begins with /"),
                             ("[::1]", "in server an address has no [ and ]"),
                             ("pop3://mail.test.invalid", "server is the name or address of a host alone, without pop3:// and "
                              "without a path")):
            with self.subTest(server):
                self.assertEqual(self.hints(server)[-1], hint)
                self.assertNotIn(START, self.hints(server))

    def test_a_path_that_is_too_long(self):
        for length, hint in ((107, START), (108, "the path of a socket has at most 107 octets")):
            self.assertEqual(self.hints("/" + "x" * (length - 1))[-1], hint)

    def test_tunnels_that_are_not_started(self):
        for server in (LOOPBACK, "localhost", "::1", "/nowhere/pop3s"):
            self.assertEqual(self.hints(server)[-1], START)

    def test_a_socket_without_rights(self):
        """Another user's: the tunnel may well be started."""
        with tempfile.TemporaryDirectory() as folder:
            os.chmod(folder, 0o755)
            path = Path(folder) / "pop3s"
            with SocketServer(TWO, path):
                path.chmod(0)
                self.assertEqual(self.hints(path, run_without_rights), [f"{path}: Permission denied", RIGHTS])


class OfSessions(unittest.TestCase):
    def setUp(self):
        self.server = self.enterContext(Server(TWO))
        self.account = self.enterContext(Account(self.server.port))

    def session(self, *words):
        thread = self.server.begin_session()
        run = self.account.run("-q", *words)
        thread.join(programs.SECONDS)
        return run

    def check_told(self, fault, *told, words=()):
        """Without `--why` the fault's line alone is written."""
        lines = [f"getmail: {fault}", *(f"getmail: {self.account.name_in_lines}: {line}" for line in told)]
        run = self.session("--why", *words)
        self.assertEqual((run.status, run.err.decode().splitlines()), (1, lines))
        run = self.session(*words)
        self.assertEqual((run.status, run.err.decode().splitlines()), (1, lines[:1]))

    def test_passwords_over_tls_alone(self):
        usual = self.server._answer
        for answer in ("-ERR [AUTH] Plaintext authentication disallowed on non-secure (SSL/TLS) connections.",
                       "-ERR Plaintext authentication disallowed on non-secure (SSL/TLS) connections."):
            for command, word in ((b"USER u", "USER"), (b"PASS sesame", "PASS")):
                with self.subTest(answer, word=word):
                    self.server._answer = lambda line: answer.encode() + b"\r\n" if line == command else usual(line)
                    self.check_told(f"server refused {word}", f"the server said: {answer}", TLS)

    def test_a_server_that_hangs_up_at_each_dele(self):
        usual = self.server._answer
        self.server._answer = lambda line: self.hang_up() if line.startswith(b"DELE ") else usual(line)
        self.check_told("connection ended by the server", "it ended in the reply to DELE 1", DELE, words=("-d",))
        self.assertEqual(self.session(), programs.SILENT)

    def hang_up(self):
        raise OSError

    def test_lines_that_end_with_lf_alone(self):
        """Octets came, so no tunnel ended the connection before the greeting."""
        self.server.greeting = b"+OK this is ready\n"
        self.server._say = lambda octets: (self.server.client.sendall(octets), self.hang_up())
        self.check_told("connection ended by the server",
                        "it ended before the greeting: 18 octets, no line with CR LF")
        self.server.greeting = b""
        self.check_told("connection ended by the server", "it ended before the greeting", TUNNEL)

    def test_lf_alone_after_the_greeting(self):
        usual = type(self.server)._say

        def say(octets):
            usual(self.server, octets if octets == self.server.greeting else octets.replace(b"\r\n", b"\n"))
            if octets != self.server.greeting:
                self.hang_up()

        self.server._say = say
        self.check_told("connection ended by the server", "it ended in the reply to USER u: 4 octets, no line with CR LF")

    def test_a_maildir_whose_disk_may_not_be_mounted(self):
        self.account.maildir.rename(self.account.home / "elsewhere")
        line = self.session("--why").err.decode().splitlines()[-1]
        self.assertEqual(line, f"getmail: {self.account.name_in_lines}: {MAILDIR}")

    def test_a_lock_of_another_user(self):
        self.account.lock.touch()
        self.account.lock.chmod(0)
        told = [f"getmail: {self.account.name_in_lines}: {line}"
                for line in (f"no lock: {self.account.lock}: Permission denied", LOCK)]
        thread = self.server.begin_session()
        run = run_without_rights(self.account, "-q", "--why")
        thread.join(programs.SECONDS)
        self.assertEqual((run.status, run.err.decode().splitlines()), (0, told))


class OfWords(unittest.TestCase):
    def test_the_name_of_an_rc_file(self):
        """clap's text stays as it is; on a terminal a line follows."""
        with Account(1) as account:
            plain = account.run("work")
            status, _, shown = terminal.run(account, "work")
            self.assertEqual((plain.status, status), (2, 2))
            self.assertEqual(shown.replace(b"\r\n", b"\n"), plain.err + NAME + b"\n")
            for words in (("--work",), ("-r", "a", "work"), ("-x", "work")):
                self.assertNotIn(NAME, terminal.run(account, *words)[2])


if __name__ == "__main__":
    unittest.main()
