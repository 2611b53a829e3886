"""Sessions over loopback with a server that breaks off anywhere, into a Maildir in a real folder."""

import contextlib
import hashlib
import itertools
import os
import signal
import socket
import stat
import subprocess
import sys
import threading
import time
import unittest

from getmail.account import Account
from getmail.one_account import LOGIN
from getmail.server import Server
from harness import preload, programs
from harness.kernel import LOOPBACK

THREE = [(b"a", b"one\n"), (b"b", b".two\n\n"), (b"c", b"three\nFrom x\r\n")]

REPORT = ("SimplePOP3Retriever:u@{server}:{port}:\n"
          "msg 1/3 (4 bytes) delivered\nmsg 2/3 (6 bytes) delivered\nmsg 3/3 (14 bytes) delivered\n"
          "3 messages (24 bytes) retrieved, 0 skipped, 0 deleted\n")


class Fetching(unittest.TestCase):
    def setUp(self):
        self.server = Server(THREE)
        self.addCleanup(self.server.close)
        self.account = Account(self.server.port)
        self.addCleanup(self.account.holder.cleanup)

    def session(self, *words, octets=None, **changes):
        """One run of the program against one session of the server."""
        thread = self.server.begin_session(octets)
        run = self.account.run(*words, **changes)
        thread.join(programs.SECONDS)
        return run

    def check_held(self, messages):
        self.assertEqual(self.account.held(), sorted(messages))

    def check_good(self, run):
        self.assertEqual((run.status, run.err), (0, b""))


class Sessions(Fetching):
    def test_three_messages_are_fetched_in_order_and_reported(self):
        run = self.session()
        self.check_good(run)
        self.assertEqual(run.out.decode(), REPORT.format(server=LOOPBACK, port=self.server.port))
        self.assertEqual(self.server.commands, LOGIN + ["RETR 1", "RETR 2", "RETR 3", "QUIT"])
        self.check_held(THREE)

    def test_a_worked_report(self):
        self.server.messages = [(b"a", b"one\n"), (b"b", b"two\n"), (b"c", b"three\n")]
        self.account.rcfile.write_text(self.account.rcfile.read_text().replace("username = u", "username = fred"))
        run = self.session()
        self.check_good(run)
        self.assertEqual(run.out.decode().splitlines(), [
            f"SimplePOP3Retriever:fred@{LOOPBACK}:{self.server.port}:", "msg 1/3 (4 bytes) delivered",
            "msg 2/3 (4 bytes) delivered", "msg 3/3 (6 bytes) delivered",
            "3 messages (14 bytes) retrieved, 0 skipped, 0 deleted"])

    def test_replies_that_come_before_they_are_asked_for(self):
        with socket.create_server((LOOPBACK, 0)) as listener, Account(listener.getsockname()[1]) as account:
            listener.settimeout(programs.SECONDS)
            process = account.start("-q")
            client, _ = listener.accept()
            with client, client.makefile("rb") as commands:
                client.sendall(b"+OK\r\n" * 3 + b"+OK 3 17\r\n+OK\r\n1 a\r\n2 b\r\n3 c\r\n.\r\n"
                               b"+OK\r\n1 5\r\n2 5\r\n3 7\r\n.\r\n+OK\r\none\r\n.\r\n+OK\r\ntwo\r\n.\r\n"
                               b"+OK\r\nthree\r\n.\r\n+OK\r\n")
                told = process.communicate(timeout=programs.SECONDS)
                self.assertEqual((process.returncode, told), (0, (b"", b"")))
                asked = [line.decode().rstrip() for line in commands]
            self.assertEqual(asked, LOGIN + ["RETR 1", "RETR 2", "RETR 3", "QUIT"])
            self.assertEqual(account.held(), [(b"a", b"one\n"), (b"b", b"two\n"), (b"c", b"three\n")])

    def test_the_password_is_told_nowhere(self):
        secret = "Tr0ub4dor"
        written = self.account.rcfile.read_text().replace("password = sesame", f"password = {secret}")
        told = []
        for change in (("", ""), ("read_all = false", "read_all = false\nshow = all"), ("Maildir/", "Maildir"),
                       ("username = u", "use_apop = yes\nusername = u"), ("[retriever]", "[retriever]\nx")):
            self.account.rcfile.write_text(written.replace(*change))
            thread = self.server.begin_session()
            run = self.account.run("-vv")
            told += [run.out, run.err]
            if run.status == 2:
                # It ended before its session; the server still waits for a client.
                socket.create_connection((LOOPBACK, self.server.port), timeout=programs.SECONDS).close()
            thread.join(programs.SECONDS)
        self.account.rcfile.write_text(written)
        self.server.refuses = (f"PASS {secret}",)
        run = self.session("-vv")
        self.assertEqual(run.err, b"getmail: server refused PASS\n")
        told += [run.out, run.err, self.account.record.read_bytes()]
        told += [name.encode() for name in os.listdir(self.account.maildir / "new")]
        self.assertNotIn(secret.encode(), b"".join(told))

    def test_an_account_of_getmail6_goes_on(self):
        """What its file of old mail names is not fetched again, by the script in `examples`, which changes nothing if it is
        run again."""
        oldmail = self.account.folder / f"oldmail-{LOOPBACK}-{self.server.port}-u"
        oldmail.write_bytes(b"a\x001600000000\nc\x001600000001\ngone\x001600000002\n")
        words = [sys.executable, programs.ROOT / "examples" / "from-getmail6.py", "-g", self.account.folder, LOOPBACK,
                 str(self.server.port), "u", oldmail]
        subprocess.run(words, check=True, stdout=subprocess.DEVNULL, timeout=programs.SECONDS)
        self.check_good(self.session())
        self.assertEqual(self.server.commands, LOGIN + ["RETR 2", "QUIT"])
        self.check_held(THREE[1:2])
        before = self.account.record.read_bytes()
        again = subprocess.run(words, capture_output=True, timeout=programs.SECONDS)
        self.assertEqual((again.returncode, self.account.record.read_bytes()), (0, before))

    def test_nothing_is_fetched_twice(self):
        self.session()
        run = self.session("-q")
        self.assertEqual((run.status, run.out, run.err), (0, b"", b""))
        self.assertEqual(self.server.commands, LOGIN + ["QUIT"])
        self.check_held(THREE)

    def test_files_that_a_reader_has_taken_are_held(self):
        self.session()
        self.account.read_all_new()
        self.account.record.unlink()
        self.check_good(self.session())
        self.assertEqual(self.server.commands, LOGIN + ["QUIT"])
        self.check_held(THREE)

    def test_what_is_held_is_deleted(self):
        self.check_good(self.session("-d"))
        self.assertEqual(self.server.commands,
                         LOGIN + ["RETR 1", "DELE 1", "RETR 2", "DELE 2", "RETR 3", "DELE 3", "QUIT"])
        self.assertEqual(self.server.messages, [])
        self.check_held(THREE)

    def test_files_are_the_owners_alone(self):
        os.umask(os.umask(0))
        self.session()
        for path in [self.account.record, *(self.account.maildir / "new").iterdir()]:
            self.assertEqual(stat.S_IMODE(path.stat().st_mode), 0o600, path)

    def test_a_refused_password_stores_nothing(self):
        self.server.refuses = ("PASS sesame",)
        run = self.session()
        self.assertEqual((run.status, run.err), (1, b"getmail: server refused PASS\n"))
        self.assertEqual(self.server.commands, ["USER u", "PASS sesame", "QUIT"])
        self.check_held([])

    def test_a_refused_message_blocks_those_behind_it(self):
        self.server.refuses = ("RETR 2",)
        run = self.session()
        self.assertEqual((run.status, run.err), (1, b"getmail: server refused RETR 2\n"))
        self.check_held(THREE[:1])
        self.server.refuses = ()
        self.check_good(self.session())
        self.check_held(THREE)


    def test_a_refused_deletion_blocks_what_follows(self):
        """Each run ends at that message, and nothing after it is fetched, until it isn't to be deleted."""
        self.server.refuses = ("DELE 2",)
        for fetched in (["RETR 1", "DELE 1", "RETR 2", "DELE 2", "QUIT"], ["DELE 1", "QUIT"]):
            run = self.session("-q", "-d")
            self.assertEqual((run.status, run.err), (1, b"getmail: server refused %s\n" % fetched[-2].encode()))
            self.assertEqual(self.server.commands, LOGIN + fetched)
            self.check_held(THREE[:2])
            self.server.refuses = ("DELE 1",)
        self.session("-q", "-l")
        self.check_held(THREE)


class BrokenOff(Fetching):
    def length(self, *words):
        """The octets of all replies of an uncut session."""
        self.session(*words, octets=1 << 30)
        return (1 << 30) - self.server.room

    def check_every_cut(self, *words):
        """Each message once, in order, whatever octet is the last one; and then an uncut session."""
        with Account(self.server.port) as measured:
            self.account, kept = measured, self.account
            total = self.length(*words)
            self.account = kept
        for octets in range(total):
            with self.subTest(octets=octets), Account(self.server.port) as account:
                self.account = account
                self.server.messages = list(THREE)
                run = self.session(*words, octets=octets)
                self.assertEqual((run.status, run.err), (1, b"getmail: connection ended by the server\n"))
                held = account.held()
                self.assertEqual(held, sorted(THREE)[:len(held)])
                self.check_good(self.session(*words))
                self.check_held(THREE)

    def test_a_connection_cut_after_every_octet(self):
        self.check_every_cut("-q")

    def test_a_connection_cut_after_every_octet_while_deleting(self):
        self.check_every_cut("-q", "-d")
        self.assertEqual(self.server.messages, [])


class Killed(Fetching):
    """Runs that are killed within their session, after each reply in turn; the server then takes no further command."""

    letters = [(b"%d" % number, b"line %d\n" % number * 2000) for number in range(4)]
    # A delivery takes some milliseconds, so that the kills come during it and after it.
    pauses = (0, 0.0005, 0.002, 0.01)

    def kill_behind(self, commands, pause, *words):
        """Kills a run `pause` seconds after the reply to command number `commands`, or after the greeting if that is 0,
        and answers its process id."""
        self.server.deaf_after = commands
        thread = self.server.begin_session()
        process = self.account.start(*words)
        self.assertTrue(self.server.deaf.wait(programs.SECONDS))
        time.sleep(pause)
        process.kill()
        process.communicate(timeout=programs.SECONDS)
        self.assertEqual(process.returncode, -signal.SIGKILL)
        self.server.hung_up.set()
        thread.join(programs.SECONDS)
        self.server.deaf_after = None
        return process.pid

    def retrieved(self):
        return [command for command in self.server.commands if command.startswith("RETR")]

    def check_kill(self, commands, pause, *words):
        """What was delivered before the kill is there whole, and one more run fetches only the others. What the killed
        run was writing stays in `tmp`, under a name that no other run takes."""
        self.server.messages = list(self.letters)
        killed = self.kill_behind(commands, pause, *words)
        held = self.account.held()
        self.assertEqual(held, self.letters[:len(held)])
        self.assertIn(len(self.retrieved()) - len(held), (0, 1))
        self.check_good(self.session(*words))
        self.assertEqual(self.retrieved(), [f"RETR {number}" for number in range(len(held) + 1, len(self.letters) + 1)])
        self.check_held(self.letters)
        left = [path.name for path in (self.account.maildir / "tmp").iterdir()]
        self.assertLessEqual(len(left), 1)
        for name in left:
            self.assertRegex(name, rf"^{self.account.digest}\.[0-9a-f]+\.P{killed}R[0-9a-f]{{16}}$")

    def check_every_kill(self, *words):
        self.server.messages = list(self.letters)
        self.session(*words)
        for commands, pause in itertools.product(range(len(self.server.commands)), self.pauses):
            with self.subTest(commands=commands, pause=pause), Account(self.server.port) as account:
                self.account = account
                self.check_kill(commands, pause, *words)

    def test_a_killed_run_loses_and_doubles_nothing(self):
        self.check_every_kill("-q")

    def test_a_killed_run_that_deletes_loses_and_doubles_nothing(self):
        self.check_every_kill("-q", "-d")
        self.assertEqual(self.server.messages, [])


class Addresses(Fetching):
    """A server whose name has two addresses, 127.0.0.2 before 127.0.0.1."""

    name = "mail.example"

    def run_by_name(self, port):
        """A run whose rc file has the server's name, and its line if it can't connect."""
        self.account.rcfile.write_text(self.account.rcfile.read_text().replace(LOOPBACK, self.name))
        self.account.digest = hashlib.sha256(f"{self.name}\0{port}\0u".encode()).hexdigest()
        with preload.library("two_addresses") as library:
            return self.account.run("-q", LD_PRELOAD=str(library))

    def test_they_are_tried_in_turn(self):
        thread = self.server.begin_session()
        self.check_good(self.run_by_name(self.server.port))
        thread.join(programs.SECONDS)
        self.check_held(THREE)

    def test_none_takes_a_connection(self):
        self.server.close()
        line = f"getmail: cannot connect to {self.name}:{self.server.port}\n".encode()
        self.assertEqual(self.run_by_name(self.server.port), programs.Run(1, b"", line))


class Floods(unittest.TestCase):
    """Hostile servers: whatever they send, the program ends, with its line."""

    def check_flood(self, replies, line, *words, held=(), missing=()):
        with socket.create_server((LOOPBACK, 0)) as listener:
            listener.settimeout(programs.SECONDS)

            def serve():
                with contextlib.suppress(OSError):
                    client, _ = listener.accept()
                    with client:
                        for reply in replies:
                            client.sendall(reply)
                        # What the client sent is read, so that the end comes in order and isn't a reset.
                        client.shutdown(socket.SHUT_WR)
                        while client.recv(65536):
                            pass

            thread = threading.Thread(target=serve, daemon=True)
            thread.start()
            with Account(listener.getsockname()[1]) as account:
                for uid, text in held:
                    (account.maildir / "new" / account.name(uid, text)).write_bytes(text)
                for part in missing:
                    (account.maildir / part).rmdir()
                run = account.run("-q", *words)
                self.assertEqual((run.status, run.err), (1, line))
                self.assertEqual(account.held(), list(held))
                self.assertEqual(list(account.maildir.glob("tmp/*")), [])
            thread.join(programs.SECONDS)

    def test_a_greeting_that_never_ends(self):
        self.check_flood([b"+OK "] + [b"a" * 65536] * 64, b"getmail: reply line too long\n")

    def test_a_greeting_that_is_none(self):
        self.check_flood([b"HTTP/1.1 400 Bad Request\r\n"], b"getmail: reply not understood\n")

    # The replies up to that of RETR, whose text never ends; the program takes 268,435,456 octets of it.
    ENDLESS = [b"+OK\r\n" * 3, b"+OK 1 5\r\n+OK\r\n1 a\r\n.\r\n+OK\r\n1 5\r\n.\r\n+OK\r\n",
               *[b"a line\r\n" * 8000] * 4300]

    def test_a_message_that_never_ends(self):
        self.check_flood(self.ENDLESS, b"getmail: message too long\n")

    def test_a_message_that_never_ends_and_is_held(self):
        self.check_flood(self.ENDLESS, b"getmail: message too long\n", "-a", held=[(b"a", b"one\n")])

    def test_a_message_that_never_ends_and_is_dropped(self):
        self.check_flood(self.ENDLESS, b"getmail: destination missing\n", missing=["tmp"])

    def test_a_listing_that_never_ends(self):
        opening = b"+OK\r\n" * 3 + b"+OK 1 5\r\n+OK\r\n"
        self.check_flood([opening] + [b"1 a\r\n" * 13000] * 32, b"getmail: too many messages\n")
