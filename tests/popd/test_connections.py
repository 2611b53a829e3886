"""Connections over loopback: one after the other, ended in any way, and hostile clients."""

import contextlib
import os
import shutil
import signal
import socket
import subprocess
import tempfile
import threading
import time
import unittest
from pathlib import Path

from harness import kernel, programs, waits
from harness.kernel import LOOPBACK
from popd import expected, lines
from popd.service import Maildir, Service

READY = b"+OK popd ready\r\n"
ROOM = 1 << 20

# How long a client has to log in, and then for each command and answer, in seconds.
MINUTE, IDLE = 60, 600


class OverLoopback(unittest.TestCase):
    """A Maildir of its own for each test."""

    def setUp(self):
        self.maildir = Maildir()
        self.addCleanup(self.maildir.holder.cleanup)

    def check_reset(self, service, client, answer):
        """Resets a connection to which the server writes: that is reported, and the next and last client can log in."""
        client.reset()
        with service.client() as next_client:
            self.assertEqual(next_client.log_in(), answer)
        status, err = service.finish_after_faults()
        self.assertEqual(status, 0)
        self.assertIn(err, (b"popd: write failed\n", b"popd: read failed\n"))


class Connections(OverLoopback):
    def setUp(self):
        super().setUp()
        self.maildir.add("new", "a", b"one\n")

    def check_good_client(self, service):
        with service.client() as client:
            self.assertEqual(client.log_in(), b"+OK 1 messages\r\n")
            self.assertEqual(client.ask_lines(b"RETR 1"), b"+OK 5 octets\r\none\r\n.\r\n")
            self.assertEqual(client.ask(b"QUIT"), b"+OK bye\r\n")
            self.assertEqual(client.rest(), b"")

    def test_each_connection_begins_anew(self):
        with Service(self.maildir, "--connections", "3") as service:
            for _ in range(3):
                self.check_good_client(service)
            self.assertEqual(service.finish(), (0, b""))

    def test_folders_that_are_replaced_between_connections(self):
        """The next one is served what is there then, and may remove it."""
        with Service(self.maildir) as service:
            self.check_good_client(service)
            for part in ("new", "cur"):
                os.rename(self.maildir.folder / part, self.maildir.folder / f"{part}-before")
                os.mkdir(self.maildir.folder / part)
            self.maildir.add("cur", "later", b"later\n")
            with service.client() as client:
                self.assertEqual(client.log_in(), b"+OK 1 messages\r\n")
                client.ask(b"DELE 1")
                self.assertEqual(client.ask(b"QUIT"), b"+OK bye\r\n")
        self.assertEqual(self.maildir.names(), [])

    def test_a_server_that_is_stopped_and_goes_on(self):
        """The system interrupts its read, whose wait is bounded; the client sees nothing of it."""
        with Service(self.maildir, "--connections", "1") as service:
            with service.client() as client:
                client.log_in()
                for _ in range(3):
                    for state, sent in (("S", signal.SIGSTOP), ("T", signal.SIGCONT)):
                        kernel.wait_for_state(service.process.pid, state)
                        service.process.send_signal(sent)
                self.assertEqual(client.ask(b"NOOP"), b"+OK\r\n")
                self.assertEqual(client.ask(b"QUIT"), b"+OK bye\r\n")
            self.assertEqual(service.finish(), (0, b""))

    def test_as_many_connections_as_come(self):
        with Service(self.maildir) as service:
            for _ in range(20):
                self.check_good_client(service)
            self.assertIsNone(service.process.poll())

    def test_a_second_client_waits_for_the_first(self):
        with Service(self.maildir, "--connections", "2") as service, service.client() as first:
            first.log_in()
            with service.client() as second:
                second.give(b"USER u\r\nPASS p\r\n")
                self.assertEqual(first.ask(b"QUIT"), b"+OK bye\r\n")
                self.assertEqual(second.line() + second.line() + second.line(),
                                 READY + b"+OK send PASS\r\n+OK 1 messages\r\n")

    def test_connections_that_end_early(self):
        """The end of input is no fault: nothing is reported, and the next client is served."""
        with Service(self.maildir, "--connections", "10") as service:
            for given in (b"", b"U", b"USER u\r\n", b"USER u\r\nPASS p\r\nDELE 1\r\nQUIT\r", b"\r\n"):
                with self.subTest(given):
                    with service.client() as client:
                        client.give(given)
                        client.socket.shutdown(socket.SHUT_WR)
                        self.assertEqual(client.rest(), b"".join(expected.answers(given, self.machine())))
                    self.check_good_client(service)
            self.assertEqual(service.finish(), (0, b""))

    def machine(self):
        return expected.Machine(expected.messages_of(self.maildir.folder))

    def test_a_reset_is_told_and_the_next_client_served(self):
        with Service(self.maildir, "--connections", "2") as service:
            client = service.client()
            self.assertEqual(client.line(), READY)
            peer = b"%s:%d" % (LOOPBACK.encode(), client.socket.getsockname()[1])
            client.reset()
            self.check_good_client(service)
            self.assertEqual(service.finish(), (0, b"popd: read failed\npopd: warning: " + peer + b": read failed\n"))

    def test_a_reset_under_way_is_told_and_the_next_client_served(self):
        """The client asks for more than the sockets hold, reads none of it and resets."""
        self.maildir.add("new", "b", b"x" * 79 + b"\n" * 100_000)
        with Service(self.maildir, "--connections", "2") as service:
            client = service.client()
            client.log_in()
            client.give(b"RETR 2\r\n" * 500)
            self.assertEqual(client.file.read(1), b"+")
            self.check_reset(service, client, b"+OK 2 messages\r\n")

    def test_a_connection_that_cannot_be_taken(self):
        """With no descriptor left each one fails at once, is reported, and counts as one of those to serve; the
        server waits a second before it tries the next."""
        words = [programs.path_of("popd"), "--listen", f"{LOOPBACK}:0", "--connections", "3", "u",
                 self.maildir.passfile, self.maildir.folder]
        hurry = waits.hurry_for(type(self))
        # The file of notes has a descriptor too.
        done = subprocess.run(["sh", "-c", 'ulimit -n 5 && exec "$0" "$@"', *words], stdin=subprocess.DEVNULL,
                              capture_output=True, env=programs.environment(**hurry.environment()), timeout=programs.SECONDS)
        self.assertEqual((done.returncode, done.stdout, done.stderr), (0, b"", b"popd: read failed\n" * 3))
        self.assertEqual(hurry.slept(), [1000] * 3)

    def test_all_lines_at_once(self):
        """A client that does not wait for the answers gets all of them, in order."""
        passing = waits.time_for(type(self))
        for name, conversation in lines.CONVERSATIONS.items():
            given = lines.given(conversation) + b"QUIT\r\n"
            with self.subTest(name), Service(self.maildir, "--connections", "1", **passing.environment()) as service, \
                    service.client() as client:
                self.maildir.add("new", "a", b"one\n")
                answers = expected.answers(given, self.machine())
                client.give(given)
                self.assertEqual(client.rest(), b"".join(answers))
                self.assertEqual(service.finish(), (0, b""))


class Waits(OverLoopback):
    """A client that neither says nor takes anything has ten minutes, and one that doesn't log in a minute."""

    @classmethod
    def setUpClass(cls):
        cls.time = waits.time_for(cls)

    def setUp(self):
        super().setUp()
        self.maildir.add("new", "a", b"x" * 79 + b"\n" * 100_000)

    def service(self, **environment):
        return Service(self.maildir, "--connections", "2", **{**self.time.environment(), **environment})

    def check_next_client(self, service, *told, count=1):
        """The message that was marked is still there for the next client, and one of these lines was printed."""
        with service.client() as client:
            self.assertEqual(client.log_in(), b"+OK %d messages\r\n" % count)
            self.assertEqual(client.ask(b"QUIT"), b"+OK bye\r\n")
        status, err = service.finish_after_faults()
        self.assertEqual(status, 0)
        self.assertIn(err, told)

    def check_asked(self):
        """Each connection asks for no more than what is left of a minute; once it is logged in, as the last one is, for
        ten minutes to read, and for ten seconds for each try to write."""
        connections = []
        for word, asked in self.time.asked():
            if word == "nodelay":
                connections.append([])
            elif word != "sleep":
                connections[-1].append((word, asked))
        idle = [("read", 600_000), ("write", 10_000)]
        self.assertEqual(connections[-1][-2:], idle)
        for bounds in connections:
            before = [asked for _, asked in (bounds[:-2] if bounds[-2:] == idle else bounds)]
            self.assertEqual(before, sorted(before, reverse=True))
            self.assertLessEqual(before[0], 60_000)
            self.assertLessEqual({word for word, _ in bounds}, {"read", "write"})

    def test_a_client_that_says_nothing(self):
        for given in (b"", b"USER u", b"USER u\r\nPASS p\r\nDELE 1\r\n", b"USER u\r\nPASS p\r\nDELE 1\r\nQUIT\r"):
            with self.subTest(given), self.service() as service:
                with service.client() as silent:
                    silent.give(given)
                    for _ in range(1 + given.count(b"\r\n")):
                        self.assertTrue(silent.line())
                    self.time.give(3 * IDLE)
                    self.assertEqual(silent.rest(), b"")
                    taken = self.time.taken()
                reads = [asked for word, asked in self.time.asked() if word == "read"]
                self.assertEqual(taken, -(-reads[-1] // 1000))
                self.check_next_client(service, b"popd: read failed\n")
                self.check_asked()

    def test_the_system_ends_the_wait(self):
        """Of a client that says nothing; a minute is 0.3 s."""
        hurry = waits.hurry_for(type(self), speed=200)
        with self.service(**hurry.environment(), HURRY_TIME=None) as service, service.client() as silent:
            self.assertEqual(silent.rest(), READY)

    def test_a_client_that_takes_nothing(self):
        self.maildir.add("new", "b", b"two\n")
        with self.service() as service, service.client() as deaf:
            deaf.log_in()
            self.assertEqual(deaf.ask(b"DELE 2"), b"+OK marked\r\n")
            deaf.give(b"RETR 1\r\n" * 500)
            kernel.wait_until_taken(deaf.socket)
            self.time.give(3 * IDLE)
            self.assertTrue(service.has_told(programs.SECONDS))
            # The system takes a part of an answer, and the wait for the rest of it isn't another ten minutes.
            self.assertIn(self.time.taken(), range(IDLE, IDLE + MINUTE))
            self.check_next_client(service, b"popd: write failed\n", count=2)
            self.check_asked()

    def test_a_client_that_takes_its_time(self):
        """It takes a part every now and then, for more than ten minutes in all."""
        with self.service() as service, service.client() as slow:
            slow.log_in()
            slow.give(b"RETR 1\r\n" * 100 + b"QUIT\r\n")
            got = b""
            for _ in range(4):
                self.time.let_pass(3 * MINUTE)
                got += slow.file.read(1 << 20)
            got += slow.rest()
            self.assertEqual((got.count(b"+OK 200079 octets\r\n"), got[-9:]), (100, b"+OK bye\r\n"))
            self.check_next_client(service, b"")

    def keep_talking(self, service, piece):
        """Says a piece every five seconds until the server has had enough; how long that took, with the pauses."""
        with service.client() as client, contextlib.suppress(ConnectionError):
            for _ in range(100):
                client.give(piece)
                self.time.let_pass(5, service.has_told)
                if service.has_told():
                    break
        return self.time.taken() + sum(self.time.slept()) // 1000

    def test_a_client_that_talks_and_does_not_log_in(self):
        """A minute is all that it gets, though it never waits for long."""
        for piece in (b"x", b"NOOP\r\n", b"USER u\r\n", b"USER u\r\nPASS q\r\n"):
            with self.subTest(piece), self.service() as service:
                self.assertIn(self.keep_talking(service, piece), range(MINUTE - 10, MINUTE + 1))
                self.check_next_client(service, b"popd: read failed\n", b"popd: write failed\n")
                self.check_asked()

    def test_a_client_that_never_pauses_and_does_not_log_in(self):
        """It has a minute too, 0.3 s here, which isn't enough for all that it says."""
        lines, answers = 1_000_000, 0
        hurry = waits.hurry_for(type(self), speed=200)

        def talk():
            with contextlib.suppress(ConnectionError):
                client.give(b"NOOP\r\n" * lines)

        with self.service(**hurry.environment(), HURRY_TIME=None) as service:
            with service.client() as client:
                talker = threading.Thread(target=talk)
                talker.start()
                with contextlib.suppress(ConnectionError):
                    while piece := client.socket.recv(65_536):
                        answers += piece.count(b"\n")
                talker.join(programs.SECONDS)
            self.assertLess(answers, lines)
            self.check_next_client(service, b"popd: read failed\n", b"popd: write failed\n")

    def test_a_client_that_is_logged_in_has_its_time(self):
        """It stays for longer than a minute, and waits for four each time."""
        with self.service() as service:
            with service.client() as client:
                client.log_in()
                for _ in range(2):
                    self.time.let_pass(4 * MINUTE)
                    self.assertEqual(client.ask(b"NOOP"), b"+OK\r\n")
                self.assertEqual(client.ask(b"QUIT"), b"+OK bye\r\n")
            self.check_next_client(service, b"")

    def test_a_client_that_cannot_be_given_its_time(self):
        """The bound of a login is lifted only once that of ten minutes is set: else the client has one."""
        with self.service(HURRY_REFUSED="idle") as service:
            took = self.keep_talking(service, b"USER u\r\nPASS p\r\nDELE 1\r\n")
            self.assertIn(took, range(MINUTE - 10, MINUTE + 1))
            self.check_next_client(service, b"popd: read failed\n", b"popd: write failed\n")

    def test_waits_that_cannot_be_bounded(self):
        """A connection that might wait for ever is not served."""
        for word, got in (("read", READY), ("write", b"")):
            with self.subTest(word), self.service(HURRY_REFUSED=word) as service:
                for _ in range(2):
                    with service.client() as client:
                        self.assertEqual(client.rest(), got)
                self.assertEqual(service.finish_after_faults(), (0, b"popd: %s failed\n" % word.encode() * 2))


class Ports(OverLoopback):
    def test_a_port_below_1024_needs_a_capability_and_no_superuser(self):
        if os.geteuid() != 0 or not shutil.which("setpriv"):
            self.skipTest("only the superuser can give it, by setpriv")
        nobody = 65534
        for path in (self.maildir.holder.name, self.maildir.passfile, self.maildir.folder):
            os.chown(path, nobody, nobody)
        port = kernel.free_port(range(600, 1024))
        command = [programs.path_of("popd"), "--listen", f"{LOOPBACK}:{port}", "--connections", "0", "u",
                   self.maildir.passfile, self.maildir.folder]
        by = ["setpriv", f"--reuid={nobody}", f"--regid={nobody}", "--clear-groups"]
        capable = ["--inh-caps=+net_bind_service", "--ambient-caps=+net_bind_service"]
        for more, status in ([], 1), (capable, 0):
            done = subprocess.run([*by, *more, *command], capture_output=True, env=programs.environment(),
                                  timeout=programs.SECONDS)
            self.assertEqual((done.returncode, done.stdout), (status, b""), done.stderr)


class Guesses(OverLoopback):
    """The answers to refused passwords of a connection are held back, each longer than the one before."""

    GUESS = b"USER u\r\nPASS q\r\n"
    REFUSED = b"-ERR refused\r\n"

    @classmethod
    def setUpClass(cls):
        cls.time = waits.time_for(cls)

    def service(self, connections):
        return Service(self.maildir, "--connections", str(connections), **self.time.environment())

    def guess(self, client):
        """A wrong password is refused."""
        client.ask(b"USER u")
        self.assertEqual(client.ask(b"PASS q"), self.REFUSED)

    def test_each_waits_twice_as_long_up_to_eight_seconds(self):
        """A new connection begins anew, and the right password is answered at once."""
        with self.service(2) as service:
            for _ in range(2):
                with service.client() as client:
                    client.line()
                    for seconds in (1, 2, 4, 8, 8):
                        self.guess(client)
                        self.assertEqual(self.time.slept()[-1], 1000 * seconds)
                    client.ask(b"USER u")
                    self.assertEqual(client.ask(b"PASS p"), b"+OK 0 messages\r\n")
            self.assertEqual(service.finish(), (0, b""))
        self.assertEqual(self.time.slept(), [1000, 2000, 4000, 8000, 8000] * 2)

    def test_a_second_is_one(self):
        with Service(self.maildir, "--connections", "1") as service, service.client() as client:
            client.line()
            begun = time.monotonic()
            self.guess(client)
            self.assertGreater(time.monotonic() - begun, 0.95)
            self.assertEqual(service.process.poll(), None)

    def test_the_pauses_end_with_the_time_to_log_in(self):
        """However fast it guesses, it has ten passwords in its minute, and the next client waits no longer than that."""
        with self.service(2) as service:
            with service.client() as client, service.client() as next_client:
                client.give(self.GUESS * 1000)
                self.assertLessEqual(client.rest_or_reset().count(self.REFUSED), 10)
                self.assertEqual(next_client.line(), READY)
            self.assertEqual(service.finish_after_faults(), (0, b"popd: write failed\n"))
        slept = self.time.slept()
        self.assertEqual(slept[:9], [1000, 2000, 4000] + [8000] * 6)
        self.assertLessEqual(sum(slept), MINUTE * 1000)

    def test_what_is_no_refused_password_is_answered_at_once(self):
        with self.service(1) as service, service.client() as client:
            for command in (b"PASS q", b"USER q", b"PASS", b"STAT", b"x" * 600, b"QUIT"):
                client.ask(command)
            client.rest()
            self.assertEqual(service.finish(), (0, b""))
        self.assertEqual(self.time.slept(), [])

    def converse(self, given, output):
        """Over standard input and output; the pauses."""
        words = [programs.path_of("popd"), "u", self.maildir.passfile, self.maildir.folder]
        done = subprocess.run(words, stdin=given, stdout=output, stderr=subprocess.PIPE, timeout=programs.SECONDS,
                              env=programs.environment(**self.time.environment()))
        self.assertEqual((done.returncode, done.stderr), (0, b""))
        return self.time.slept()

    def test_standard_input(self):
        """They are held back if it is a socket, not if it is a pipe or a file."""
        ours, theirs = socket.socketpair()
        with ours, theirs:
            ours.sendall(self.GUESS * 5)
            ours.shutdown(socket.SHUT_WR)
            self.assertEqual(self.converse(theirs, theirs), [1000, 2000, 4000, 8000, 8000])
            theirs.close()
            self.assertEqual(ours.makefile("rb").read().count(self.REFUSED), 5)
        with tempfile.TemporaryFile() as file:
            file.write(self.GUESS * 5)
            file.seek(0)
            self.assertEqual(self.converse(file, subprocess.DEVNULL), [])
        reader, writer = os.pipe()
        with open(reader, "rb") as given, open(writer, "wb") as end:
            end.write(self.GUESS * 5)
            end.close()
            self.assertEqual(self.converse(given, subprocess.DEVNULL), [])


class Memory(OverLoopback):
    """Memory does not grow with what a client sends that isn't logged in, however much it is."""

    def drive(self, service, piece):
        """Sends as much of the piece as one connection may, reads all answers, and answers how many octets came."""
        with service.client() as client:
            given = piece * (expected.INPUT_LIMIT // len(piece))
            given += b"x" * (expected.INPUT_LIMIT - len(given))
            sender = threading.Thread(target=client.give, args=(given,), daemon=True)
            sender.start()
            got = sum(len(part) for part in iter(lambda: client.file.read1(1 << 20), b""))
            sender.join(programs.SECONDS)
        return got

    def test_sixteen_mebioctets_on_one_connection(self):
        name, password = b"USER " + b"n" * 500 + b"\r\n", b"PASS " + b"q" * 500 + b"\r\n"
        pieces = ((name, 15), (password, 17), (b"NOOP" + b" " * 100 + b"\r\n", 14),
                  (b"x" * 600 + b"\r\n", 18), (b"\0" * 100 + b"\r\n", 18), (b"x" * 65_536, 0), (b"\n" * 4096, 0),
                  (b"\r" * 4096, 0))
        with Service(self.maildir, "--connections", str(len(pieces) + 2)) as service:
            with service.client() as client:
                client.line()
            before = service.peak_of_memory()
            for piece, answer in pieces:
                with self.subTest(piece[:16]):
                    octets = len(READY) + answer * (expected.INPUT_LIMIT // len(piece))
                    self.assertEqual(self.drive(service, piece), octets)
                    self.assertLess(service.peak_of_memory() - before, ROOM)
            with service.client() as client:
                self.assertEqual(client.log_in(), b"+OK 0 messages\r\n")
            self.assertEqual(service.finish(), (0, b""))

    def test_a_client_that_reads_nothing(self):
        """The server waits for it, and keeps none of what it sends in the meantime."""
        with Service(self.maildir, "--connections", "2") as service:
            client = service.client()
            client.line()
            before = service.peak_of_memory()
            client.socket.settimeout(0.5)
            with self.assertRaises(socket.timeout):
                client.give(b"NOOP\r\n" * 4_000_000)
            self.assertLess(service.peak_of_memory() - before, ROOM)
            self.check_reset(service, client, b"+OK 0 messages\r\n")
