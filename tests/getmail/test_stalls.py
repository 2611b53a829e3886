"""Servers that fall silent or take nothing: each wait has an end, and what was fetched before it stays."""

import contextlib
import select
import signal
import socket
import threading
import unittest

from getmail.account import Account
from getmail.server import Server
from harness import kernel, preload, programs, waits
from harness.kernel import LOOPBACK

# The longest waits, in seconds.
CONNECT_WAIT = 60
WAIT = 180

ASKED = [("nodelay", 1), ("read", WAIT * 1000), ("write", WAIT * 1000)]

# How many times as fast the clock goes where the system ends a wait.
SPEED = 600

OPENING = b"+OK\r\n" * 3 + b"+OK 2 10\r\n+OK\r\n1 a\r\n2 b\r\n.\r\n+OK\r\n1 5\r\n2 5\r\n.\r\n"
READING_FAILED = b"getmail: reading from the server failed\n"
WRITING_FAILED = b"getmail: writing to the server failed\n"


class SilentServer:
    """Says some octets to one client, and then nothing, with the connection left open; `silent` is called at that moment."""

    def __init__(self, said, silent=lambda: None):
        self.said = said
        self.silent = silent
        self.taken = threading.Event()
        self.over = threading.Event()
        self.listener = socket.create_server((LOOPBACK, 0))
        self.listener.settimeout(programs.SECONDS)
        self.port = self.listener.getsockname()[1]

    def __enter__(self):
        self.thread = threading.Thread(target=self._serve, daemon=True)
        self.thread.start()
        return self

    def __exit__(self, *_):
        self.over.set()
        self.listener.close()
        self.thread.join(programs.SECONDS)

    def _serve(self):
        with contextlib.suppress(OSError):
            client, _ = self.listener.accept()
            self.taken.set()
            with client:
                client.sendall(self.said)
                kernel.wait_until_taken(client)
                self.silent()
                self.over.wait(programs.SECONDS)


class Stalls(unittest.TestCase):
    @classmethod
    def setUpClass(cls):
        cls.time = waits.time_for(cls)

    def fall_silent(self):
        """More time passes than a run may wait."""
        self.time.give(3 * WAIT)

    def run_into_silence(self, account, *words):
        """A run that waits for the server as long as it may, once."""
        run = account.run("-q", *words, **self.time.environment())
        self.assertEqual(self.time.taken(), WAIT)
        self.assertEqual([row for row in self.time.asked() if row[0] != "poll"], ASKED)
        return run

    def check_stall(self, said, held):
        with SilentServer(said, self.fall_silent) as server, Account(server.port) as account:
            self.assertEqual(self.run_into_silence(account), programs.Run(1, b"", READING_FAILED))
            self.assertEqual(account.held(), held)
            self.assertEqual(list((account.maildir / "tmp").iterdir()), [])

    def test_no_greeting(self):
        self.check_stall(b"", [])

    def test_the_system_ends_the_wait(self):
        hurry = waits.hurry_for(type(self), SPEED)
        with SilentServer(b"") as server, Account(server.port) as account:
            self.assertEqual(account.run("-q", **hurry.environment()), programs.Run(1, b"", READING_FAILED))

    def test_the_reason_is_the_silence(self):
        with SilentServer(b"+OK\r\n", self.fall_silent) as server, Account(server.port) as account:
            run = self.run_into_silence(account, "--why")
            told = f"getmail: u@{LOOPBACK}:{server.port}: {LOOPBACK}:{server.port}: silent for 180 seconds\n"
            self.assertEqual(run, programs.Run(1, b"", READING_FAILED + told.encode()))

    def test_half_a_line(self):
        self.check_stall(b"+OK\r\n+OK\r\n+O", [])

    def test_half_a_listing(self):
        self.check_stall(OPENING[:45], [])

    def test_half_a_message(self):
        self.check_stall(OPENING + b"+OK\r\none\r\n.\r\n+OK\r\ntw", [(b"a", b"one\n")])

    def test_no_reply_to_quit(self):
        texts = b"+OK\r\none\r\n.\r\n+OK\r\ntwo\r\n.\r\n"
        self.check_stall(OPENING + texts, [(b"a", b"one\n"), (b"b", b"two\n")])

    def test_a_port_where_no_connection_is_taken(self):
        with socket.socket() as listener, contextlib.ExitStack() as others:
            listener.bind((LOOPBACK, 0))
            listener.listen(0)
            port = listener.getsockname()[1]
            # One of these fills the queue of connections that wait to be accepted; no other connection is answered then.
            waiting = [others.enter_context(socket.socket()) for _ in range(4)]
            for client in waiting:
                client.setblocking(False)
                client.connect_ex((LOOPBACK, port))
            self.assertTrue(select.select([], waiting, [], programs.SECONDS)[1])
            with Account(port) as account:
                line = f"getmail: cannot connect to {LOOPBACK}:{port}\n".encode()
                environment = self.time.environment()
                self.time.give(3 * WAIT)
                self.assertEqual(account.run(**environment), programs.Run(1, b"", line))
            (first, asked), = self.time.asked()
            self.assertEqual(first, "poll")
            # What is left of the bound; a busy machine may have kept the program waiting meanwhile.
            self.assertTrue(CONNECT_WAIT * 500 <= asked <= CONNECT_WAIT * 1000, asked)
            self.assertEqual(self.time.taken(), -(-asked // 1000))

    def test_a_server_that_takes_its_time_is_waited_for(self):
        """An octet now and then is enough: the bound is on each wait, not on the session."""
        messages = [(b"a", b"one\n"), (b"b", b"two\n")]
        with Server(messages) as server, Account(server.port) as account:
            environment = self.time.environment()

            def pause():
                kernel.wait_until_taken(server.client)
                self.time.let_pass(WAIT // 2)

            server.pause = pause
            thread = server.begin_session()
            run = account.run("-q", **environment)
            thread.join(programs.SECONDS)
            self.assertEqual(run, programs.SILENT)
            self.assertEqual(account.held(), messages)
            self.assertGreater(self.time.taken(), 40 * WAIT)


class Stopped(unittest.TestCase):
    def stop(self, process):
        """Stops a run that waits for an octet, and lets it go on."""
        kernel.wait_for_state(process.pid, "S")
        process.send_signal(signal.SIGSTOP)
        kernel.wait_for_state(process.pid, "T")
        process.send_signal(signal.SIGCONT)

    def test_a_run_that_is_stopped_and_goes_on(self):
        """As by Ctrl-Z and `fg`, again and again: the system interrupts a read whose wait is bounded."""
        messages = [(b"a", b"one\n"), (b"b", b"two\n")]
        with Server(messages) as server, Account(server.port) as account:
            server.pause = lambda: self.stop(process)
            process = account.start("-q")
            thread = server.begin_session()
            out, err = process.communicate(timeout=programs.SECONDS)
            thread.join(programs.SECONDS)
            self.assertEqual((process.returncode, out, err), (0, b"", b""))
            self.assertEqual(account.held(), messages)


class Deaf(unittest.TestCase):
    """A server that takes nothing more from some command on: what the program sends then waits as long as its bound."""

    messages = [(b"a", b"one\n"), (b"b", b"two\n"), (b"c", b"three\n")]

    @classmethod
    def setUpClass(cls):
        cls.time = waits.time_for(cls)
        cls.filler = cls.enterClassContext(preload.library("fill_socket"))

    def run_deaf(self, server, account, commands, **environment):
        """A run whose server reads this many commands, and more time passes then than a run may wait."""
        environment["LD_PRELOAD"] = f"{self.filler} {environment.get('LD_PRELOAD', '')}"
        server.deaf_after = commands
        thread = server.begin_session()
        process = account.start("-q", FILL_BEFORE=str(commands + 1), **environment)
        self.assertTrue(server.deaf.wait(programs.SECONDS))
        self.time.give(3 * WAIT)
        out, err = process.communicate(timeout=programs.SECONDS)
        server.hung_up.set()
        thread.join(programs.SECONDS)
        server.deaf_after = None
        return programs.Run(process.returncode, out, err)

    def check_deaf(self, commands, held):
        with Server(self.messages) as server, Account(server.port, "delete = true\n") as account:
            run = self.run_deaf(server, account, commands, **self.time.environment())
            self.assertEqual(run, programs.Run(1, b"", WRITING_FAILED))
            self.assertEqual(self.time.taken(), WAIT)
            self.assertEqual([row for row in self.time.asked() if row[0] != "poll"], ASKED)
            self.assertEqual(account.held(), self.messages[:held])
            self.assertEqual(list((account.maildir / "tmp").iterdir()), [])
            thread = server.begin_session()
            self.assertEqual(account.run("-q"), programs.SILENT)
            thread.join(programs.SECONDS)
            self.assertEqual(account.held(), self.messages)
            self.assertEqual(server.messages, [])

    def test_the_system_ends_the_wait(self):
        with Server(self.messages) as server, Account(server.port) as account:
            run = self.run_deaf(server, account, 0, FILL_PART=str(SPEED))
            self.assertEqual(run, programs.Run(1, b"", WRITING_FAILED))

    def test_the_first_command(self):
        self.check_deaf(0, 0)

    def test_a_deletion(self):
        self.check_deaf(6, 1)

    def test_a_retrieval(self):
        self.check_deaf(7, 1)

    def test_quitting(self):
        self.check_deaf(11, 3)
