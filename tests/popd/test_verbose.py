"""`--verbose`: a line on standard error for where it listens, each login, each refused one, each QUIT that removed messages."""

import contextlib
import os
import re
import select
import socket
import unittest

from harness import programs, waits
from harness.kernel import LOOPBACK
from popd.service import Maildir, Service


class Verbose(unittest.TestCase):
    """A Maildir of its own for each test, with two messages."""

    def setUp(self):
        self.maildir = Maildir(b"secret\n")
        self.addCleanup(self.maildir.holder.cleanup)
        self.paths = [self.maildir.add("new", name, b"one\n") for name in ("a", "b")]

    def service(self, connections=1):
        return Service(self.maildir, "--verbose", "--connections", str(connections), **waits.no_pauses(self))

    def talk(self, service, *commands, name=b"u", password=b"secret"):
        """Logs in and says these commands over a connection of its own; the address that it had, and the answers."""
        with service.client() as client:
            client.line()
            answers = [client.ask(command) for command in (b"USER " + name, b"PASS " + password, *commands)]
            return f"{LOOPBACK}:{client.socket.getsockname()[1]}", answers

    def check_told(self, service, *told):
        """The server has ended and printed these lines, and no others."""
        status, err = service.finish()
        wanted = [f"popd: {line}" for line in (f"listening on {LOOPBACK}:{service.port}", *told)]
        self.assertEqual((status, err.decode().splitlines()), (0, wanted))

    def test_a_login_and_removals(self):
        with self.service(3) as service:
            first, _ = self.talk(service, b"DELE 1", b"QUIT")
            second, _ = self.talk(service, b"DELE 1", b"RSET", b"QUIT")
            third, _ = self.talk(service, b"DELE 1")
            self.check_told(service, f"{first}: logged in, 2 messages", f"{first}: 1 messages removed",
                            f"{second}: logged in, 1 messages", f"{third}: logged in, 1 messages")

    def test_a_login_is_told_while_it_goes_on(self):
        with self.service() as service:
            self.assertIn(b"popd: listening on ", service.process.stderr.readline())
            with service.client() as client:
                client.line()
                client.ask(b"USER u")
                client.ask(b"PASS secret")
                self.assertTrue(select.select([service.process.stderr], [], [], programs.NEXT_OUTPUT_SECONDS)[0])
                self.assertIn(b": logged in, 2 messages\n", service.process.stderr.readline())

    def test_refused_logins_show_nothing_of_what_was_tried(self):
        tried = ((b"u", b"secret "), (b"U", b"secret"), (b"secret", b"u"), (b"\x1b[2Jname", b"\x07word\x9b"),
                 (b"n" * 500, b"p" * 500), (b"\xff", b"%s%n"))
        with self.service(len(tried)) as service:
            told = []
            for name, password in tried:
                peer, answers = self.talk(service, b"QUIT", name=name, password=password)
                self.assertEqual(answers[1], b"-ERR refused\r\n")
                told.append(f"{peer}: login refused")
            self.check_told(service, *told)

    def test_each_refused_login_of_one_connection(self):
        again = (b"USER u", b"PASS wrong", b"PASS wrong", b"USER u", b"PASS secret", b"QUIT")
        with self.service() as service:
            peer, _ = self.talk(service, *again, password=b"wrong")
            self.check_told(service, *[f"{peer}: login refused"] * 2, f"{peer}: logged in, 2 messages")

    def test_what_is_no_login(self):
        with self.service(2) as service:
            with service.client() as client:
                client.line()
                for command in (b"PASS secret", b"STAT", b"\x1b", b"x" * 600, b"USER u", b"NOOP", b"USER v", b"QUIT"):
                    client.ask(command)
            with service.client() as client:
                client.line()
            self.check_told(service)

    def check_refused_removals(self, refused, told):
        """Of two messages that are marked, those removals are refused: a folder is in the place of the file."""
        with self.service() as service, service.client() as client:
            client.line()
            for command in (b"USER u", b"PASS secret", b"DELE 1", b"DELE 2"):
                client.ask(command)
            for path in refused:
                os.remove(path)
                os.mkdir(path)
            self.assertEqual(client.ask(b"QUIT"), b"-ERR some messages not removed\r\n")
            peer = f"{LOOPBACK}:{client.socket.getsockname()[1]}"
            self.check_told(service, f"{peer}: logged in, 2 messages", f"{peer}: {told}")

    def test_a_removal_that_is_refused(self):
        self.check_refused_removals(self.paths[:1], "1 messages removed, 1 not removed")

    def test_removals_that_are_all_refused(self):
        self.check_refused_removals(self.paths, "0 messages removed, 2 not removed")

    def test_a_login_to_an_empty_maildrop(self):
        for path in self.paths:
            os.remove(path)
        with self.service() as service:
            peer, _ = self.talk(service, b"QUIT")
            self.check_told(service, f"{peer}: logged in, 0 messages")

    def test_a_maildrop_that_cannot_be_listed(self):
        with self.service() as service:
            for path in self.paths:
                os.remove(path)
            folder = self.maildir.folder / "new"
            folder.rmdir()
            peer, answers = self.talk(service, b"QUIT")
            self.assertEqual(answers[1], b"-ERR maildrop unavailable\r\n")
            self.check_told(service, f"{peer}: maildrop unavailable", f'warning: cannot read {folder}')


def told_on_a_terminal(*words):
    """The status of a run whose standard error is a terminal, and what it shows there."""
    ours, theirs = os.openpty()
    with open(ours, "rb", buffering=0) as terminal:
        with open(theirs, "wb", buffering=0) as err:
            status = programs.run("popd", *words, err=err).status
        shown = b""
        with contextlib.suppress(OSError):
            while piece := terminal.read(65536):
                shown += piece
    return status, shown.replace(b"\r\n", b"\n")


class Beginnings(unittest.TestCase):
    """Why it can't begin, after the line that says so: with the option or on a terminal."""

    def setUp(self):
        self.maildir = Maildir()
        self.addCleanup(self.maildir.holder.cleanup)
        self.taken = socket.create_server((LOOPBACK, 0))
        self.addCleanup(self.taken.close)
        self.address = f"{LOOPBACK}:{self.taken.getsockname()[1]}"
        self.words = ("--listen", self.address, "u", self.maildir.passfile, self.maildir.folder)

    def check_told(self, fault, reason):
        self.assertEqual(programs.run("popd", *self.words), programs.Run(1, b"", f"popd: {fault}\n".encode()))
        told = f"popd: {fault}\npopd: {reason}\n".encode()
        self.assertEqual(programs.run("popd", "--verbose", *self.words), programs.Run(1, b"", told))
        self.assertEqual(told_on_a_terminal(*self.words), (1, told))

    def test_an_address_that_is_taken(self):
        self.check_told(f"cannot listen on {self.address}", f"{self.address}: Address already in use")

    def test_a_port_without_an_address(self):
        """And what else isn't of the form."""
        for address in ("1100", "localhost", f"{LOOPBACK}:", f"{LOOPBACK}:65536", "[::1]"):
            with self.subTest(address):
                self.words = ("--listen", address, *self.words[2:])
                self.check_told(f"cannot listen on {address}", f"{address}: an address is HOST:PORT, such as 127.0.0.1:1100")

    def test_a_password_file_that_is_not_there(self):
        passfile = self.maildir.passfile
        passfile.unlink()
        self.check_told(f"cannot read {passfile}", f"{passfile}: No such file or directory")

    def test_a_password_file_that_is_a_folder(self):
        self.words = ("u", self.maildir.folder, self.maildir.folder)
        self.check_told(f"cannot read {self.maildir.folder}", f"{self.maildir.folder}: Is a directory")


class Networks(unittest.TestCase):
    """Who listens beyond this machine is told, with the option or on a terminal, that nothing is encrypted."""

    def setUp(self):
        self.maildir = self.enterContext(Maildir())

    def words(self, address):
        return ("--listen", address, "--connections", "0", "u", self.maildir.passfile, self.maildir.folder)

    def told(self, address):
        """What is told with the option and on a terminal, without the lines that say where it listens."""
        self.assertEqual(programs.run("popd", *self.words(address)), programs.SILENT)
        status, shown = told_on_a_terminal(*self.words(address))
        verbose = programs.run("popd", "--verbose", *self.words(address))
        self.assertEqual((status, verbose.status), (0, 0))
        listening, *lines = re.sub(r":[0-9]+\b", ":PORT", verbose.err.decode()).splitlines()
        self.assertRegex(listening, "^popd: listening on .*:PORT$")
        self.assertEqual(re.sub(r":[0-9]+\b", ":PORT", shown.decode()).splitlines(), lines)
        return lines

    def test_all_addresses(self):
        for address in ("0.0.0.0", "[::]") if socket.has_dualstack_ipv6() else ("0.0.0.0",):
            told = f"popd: warning: {address}:PORT isn't loopback: password and mail go over the network unencrypted"
            self.assertEqual(self.told(f"{address}:0"), [told])

    def test_loopback(self):
        for address in ("127.0.0.1", "127.1.2.3", "localhost"):
            self.assertEqual(self.told(f"{address}:0"), [])

    def test_loopback_of_ipv6(self):
        try:
            socket.create_server(("::1", 0), family=socket.AF_INET6).close()
        except OSError:
            self.skipTest("there is no ::1")
        for address in ("[::1]", "[::ffff:127.0.0.1]"):
            self.assertEqual(self.told(f"{address}:0"), [])


class OverStandardStreams(unittest.TestCase):
    def run_popd(self, *words, **changes):
        with Maildir() as maildir:
            maildir.add("new", "a", b"one\n")
            given = b"USER u\r\nPASS \x1bq\r\nUSER u\r\nPASS p\r\nDELE 1\r\nQUIT\r\n"
            return programs.run("popd", *words, "u", maildir.passfile, maildir.folder, given=given, **changes)

    def test_with_the_option(self):
        told = [f"popd: standard input: {line}\n"
                for line in ("login refused", "logged in, 1 messages", "1 messages removed")]
        run = self.run_popd("--verbose")
        self.assertEqual((run.status, run.err.decode()), (0, "".join(told)))

    def test_a_client_whose_address_is_given(self):
        """As systemd gives it; what is no address isn't shown."""
        for address, port, peer in (("192.0.2.7", "40123", "192.0.2.7:40123"), ("2001:db8::7", "9", "[2001:db8::7]:9"),
                                    ("192.0.2.7", None, "standard input"), (None, "9", "standard input"),
                                    ("a\x1b[2J", "9", "standard input"), ("192.0.2.7", "99999", "standard input")):
            with self.subTest(address=address, port=port):
                run = self.run_popd("--verbose", REMOTE_ADDR=address, REMOTE_PORT=port)
                self.assertEqual({line.rsplit(": ", 1)[0] for line in run.err.decode().splitlines()}, {f"popd: {peer}"})

    def test_of_a_rehearsal(self):
        run = programs.run("popd", "--rehearse", "--verbose", given=b"USER u\r\nPASS p\r\nDELE 1\r\nQUIT\r\n")
        told = [f"popd: standard input: {line}" for line in ("logged in, 2 messages", "1 messages removed")]
        self.assertEqual((run.status, run.err.decode().splitlines()), (0, told))

    def test_without_it_nothing_is_told(self):
        run = self.run_popd()
        self.assertEqual((run.status, run.err), (0, b""))
        self.assertEqual(run.out, self.run_popd("--verbose").out)

    def test_what_standard_error_does_not_take(self):
        """Nothing of a session changes if the lines can't be written."""
        with Maildir() as maildir, open("/dev/full", "wb") as full:
            maildir.add("new", "a", b"one\n")
            run = programs.run("popd", "--verbose", "u", maildir.passfile, maildir.folder, err=full,
                               given=b"USER u\r\nPASS p\r\nDELE 1\r\nQUIT\r\n")
            self.assertEqual(run.status, 0)
            self.assertTrue(run.out.endswith(b"+OK bye\r\n"), run.out)
            self.assertEqual(maildir.names(), [])
