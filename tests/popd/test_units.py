"""The units for systemd: that they are understood, and `popd` as popd.socket starts it, a process for each connection, also by
a real user's systemd."""

import contextlib
import re
import shutil
import socket
import subprocess
import tempfile
import threading
import unittest
from pathlib import Path

from harness import kernel, programs, user_systemd
from harness.kernel import LOOPBACK
from harness.maildir import make_maildir
from popd.service import Client, Maildir

# systemd stops a socket by itself after 200 connections in two seconds.
CROWD = 206

EXAMPLES = programs.ROOT / "examples"
UNITS = ("getmail.service", "getmail.timer", "getmail@.service", "getmail@.timer", "getmail-tunnel.service", "popd.service",
         "popd.socket", "popd@.service")


def keys_of(unit):
    """The unit's keys with their values; each occurs once."""
    return dict(re.findall(r"^(\w+)=(.*)$", (EXAMPLES / unit).read_text(), re.MULTILINE))


class Units(unittest.TestCase):
    def test_systemd_understands_them(self):
        if not shutil.which("systemd-analyze"):
            self.skipTest("systemd-analyze is not installed")
        with tempfile.TemporaryDirectory() as holder:
            for name in UNITS:
                text = re.sub(r"/usr/(local/)?bin/", f"{holder}/", (EXAMPLES / name).read_text())
                (Path(holder) / name).write_text(text)
            for name in ("getmail", "popd", "stunnel"):
                (Path(holder) / name).write_text("#!/bin/sh\n")
                (Path(holder) / name).chmod(0o755)
            for name in UNITS:
                file = Path(holder) / name.replace("@", "@1")
                if "@" in name:
                    shutil.copy(Path(holder) / name, file)
                done = subprocess.run(["systemd-analyze", "verify", "--man=no", file], capture_output=True, text=True,
                                      timeout=programs.SECONDS)
                told = [line for line in done.stderr.splitlines() if holder in line or name in line]
                self.assertEqual(told, [], name)

    def test_a_connection_starts_one_popd_whose_errors_the_client_never_sees(self):
        self.assertEqual(keys_of("popd.socket")["Accept"], "yes")
        self.assertEqual(keys_of("popd.socket")["MaxConnections"], "1")
        self.assertEqual([keys_of("popd.socket")[key] for key in ("Conflicts", "Before")], ["popd.service"] * 2)
        unit = keys_of("popd@.service")
        self.assertEqual((unit["StandardInput"], unit["StandardOutput"], unit["StandardError"]), ("socket", "socket", "journal"))

    def test_nobody_but_this_machine_is_served(self):
        self.assertEqual(keys_of("popd.socket")["ListenStream"], "127.0.0.1:1100")
        words = keys_of("popd.service")["ExecStart"].split()
        self.assertEqual(words[words.index("--listen") + 1], "127.0.0.1:1100")
        self.assertEqual(words.count("--listen"), 1)

    def test_who_reads_the_password_is_said(self):
        """In the units and in popd(8)."""
        for text in ((EXAMPLES / "popd.service").read_text(), (EXAMPLES / "popd.socket").read_text(),
                     (programs.ROOT / "man/popd.8").read_text()):
            said = " ".join(re.sub(r"^# |^\.Nm$", "popd", text, flags=re.MULTILINE).replace("popd", "").split())
            self.assertIn("Whoever holds the port while is down reads the password of the next client", said)

    def test_limits_on_time(self):
        self.assertEqual(keys_of("popd@.service")["RuntimeMaxSec"], "1h")
        self.assertEqual(keys_of("popd.socket")["TriggerLimitIntervalSec"], "0")


@unittest.skipIf(user_systemd.missing(), f"{', '.join(user_systemd.missing())} is not here")
class Real(unittest.TestCase):
    """popd.socket, started by a user's systemd."""

    def setUp(self):
        self.port = kernel.free_port()
        units = {"popd.socket": user_systemd.unit("popd.socket", ListenStream=f"{LOOPBACK}:{self.port}"),
                 "popd@.service": user_systemd.unit("popd@.service", RuntimeMaxSec="3s")}
        self.systemd = user_systemd.UserSystemd("popd", units)
        (make_maildir(self.systemd.home / "Maildir") / "new/1").write_bytes(b"one\n")
        (self.systemd.home / ".popd-password").write_text("p\n")
        (self.systemd.home / ".popd-password").chmod(0o600)
        self.enterContext(self.systemd)
        self.systemd.start("popd.socket")
        self.systemd.wait_for(lambda: kernel.listens(self.port), "popd.socket doesn't listen")

    def answers(self, *commands):
        """The answers of a session; none if another client is being served."""
        with contextlib.suppress(ConnectionError), Client(self.port) as client:
            return [client.line(), *(client.ask(command) for command in commands)]

    def served(self):
        return self.answers(b"USER daemon", b"PASS p", b"STAT", b"QUIT")

    def check_served(self):
        """A client, which comes again while another one is served, gets the mail."""
        answers = []
        self.systemd.wait_for(lambda: answers.append(self.served()) or answers[-1] and answers[-1][0], "no client is served")
        self.assertEqual(answers[-1], [b"+OK popd ready\r\n", b"+OK send PASS\r\n", b"+OK 1 messages\r\n", b"+OK 1 5\r\n",
                                       b"+OK bye\r\n"])

    def test_a_crowd_does_not_stop_it(self):
        """All connect at once; then the port is still systemd's, and the next client is served."""
        self.check_served()
        clients = []
        for _ in range(CROWD):
            clients.append(socket.socket())
            clients[-1].setblocking(False)
            clients[-1].connect_ex((LOOPBACK, self.port))
        over = threading.Event()
        over.wait(1)
        for client in clients:
            client.close()
        self.check_served()
        self.assertEqual(self.systemd.told("popd.socket", "ActiveState"), "active")

    def test_a_client_that_stays_is_sent_away(self):
        """At the limit on time, which is shorter here; then the next one is served."""
        with Client(self.port) as client:
            self.assertEqual(client.line(), b"+OK popd ready\r\n")
            self.assertEqual(client.rest(), b"")
        self.check_served()


class Started(unittest.TestCase):
    """`popd` with a connection as its standard input and output, by each program that can do that."""

    def setUp(self):
        self.maildir = Maildir()
        self.addCleanup(self.maildir.holder.cleanup)
        self.maildir.add("new", b"a", b"one\n")
        self.maildir.add("new", b"b", b"two\n")
        # So popd has something to warn of, each time that it starts.
        self.maildir.passfile.chmod(0o644)

    def words(self):
        """The words of ExecStart, with this test's program, user and files."""
        program, *words = keys_of("popd@.service")["ExecStart"].split()
        self.assertEqual(program, "/usr/local/bin/popd")
        places = {"%u": "u", "%h/.popd-password": str(self.maildir.passfile), "%h/Maildir": str(self.maildir.folder)}
        return [str(programs.path_of("popd")), *(places.get(word, word) for word in words)]

    def start(self, words, port):
        """Starts what listens for popd, and answers the file that its standard output and error go to."""
        log = tempfile.TemporaryFile()
        self.addCleanup(log.close)
        process = subprocess.Popen(words, stdin=subprocess.DEVNULL, stdout=log, stderr=log)
        self.addCleanup(process.wait, programs.SECONDS)
        self.addCleanup(process.terminate)
        self.assertTrue(kernel.wait_for_listener(process, port), f"{words[0]} doesn't listen")
        return log

    def converse(self, port):
        """A whole session that removes a message, and the next one; everything that the clients were sent."""
        got = []
        for commands in ((b"USER u", b"PASS p", b"DELE 1", b"QUIT"), (b"USER u", b"PASS p", b"STAT", b"QUIT")):
            with Client(port) as client:
                got.append(client.line())
                got += [client.ask(command) for command in commands]
                got.append(client.line())
        return got

    def check(self, words, port):
        log = self.start(words, port)
        first = [b"+OK popd ready\r\n", b"+OK send PASS\r\n", b"+OK 2 messages\r\n", b"+OK marked\r\n", b"+OK bye\r\n", b""]
        second = [b"+OK popd ready\r\n", b"+OK send PASS\r\n", b"+OK 1 messages\r\n", b"+OK 1 5\r\n", b"+OK bye\r\n", b""]
        self.assertEqual(self.converse(port), first + second)
        self.assertEqual(self.maildir.names(), [("new", b"b")])
        log.seek(0)
        told = log.read()
        self.assertEqual(told.count(b"popd: warning: "), 2, told)
        self.assertIn(b"1 messages removed", told)

    def test_by_systemd(self):
        if not shutil.which("systemd-socket-activate"):
            self.skipTest("systemd-socket-activate is not installed")
        port = kernel.free_port()
        self.check(["systemd-socket-activate", "--accept", "--inetd", "-l", f"127.0.0.1:{port}", *self.words()], port)

    def test_by_socat(self):
        if not shutil.which("socat"):
            self.skipTest("socat is not installed")
        port = kernel.free_port()
        command = " ".join(self.words())
        self.check(["socat", f"TCP-LISTEN:{port},bind=127.0.0.1,reuseaddr,fork,max-children=1", f"EXEC:{command}"], port)
