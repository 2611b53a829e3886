"""Hostile clients: the server's memory, its open files and the time that it works stay flat, and the next client is
served as if none of them had come.

With TESTS_TIMES there are that many times as many clients, and the tests print what they measure.
"""

import os
import socket
import threading
import time
import unittest
from pathlib import Path

from harness import kernel, programs
from popd.service import Maildir, Service

READY = b"+OK popd ready\r\n"
NAMES_AND_TEXTS = ((b"a", b"Subject: one\n\none\n"), (b"b", b"two\n" * 1000))

# Between two looks the memory may differ by what the system counts roughly, and the work by what a busy machine adds.
ROOM = 1 << 20
WORK_ROOM = 0.5

TIMES = int(os.environ.get("TESTS_TIMES", "0"))


def memory_of(process):
    """The memory that the process has now, in octets."""
    status = Path(f"/proc/{process}/status").read_text()
    return int(status.split("VmRSS:")[1].split()[0]) * 1024


def open_files_of(process):
    return len(os.listdir(f"/proc/{process}/fd"))


def seconds_of_work(process):
    """How long the process has worked, for itself and in the system."""
    fields = Path(f"/proc/{process}/stat").read_text().rpartition(")")[2].split()
    return (int(fields[11]) + int(fields[12])) / os.sysconf("SC_CLK_TCK")


def answer_to_retr(text):
    """The answer to RETR of a text without full stops at the beginning of lines."""
    body = text.replace(b"\n", b"\r\n")
    return b"+OK %d octets\r\n" % len(body) + body + b".\r\n"


class Hostile(unittest.TestCase):
    def setUp(self):
        self.maildir = Maildir()
        self.addCleanup(self.maildir.holder.cleanup)
        for name, text in NAMES_AND_TEXTS:
            self.maildir.add("new", name, text)
        self.names = self.maildir.names()
        self.service = Service(self.maildir)
        self.service.__enter__()
        self.addCleanup(self.service.__exit__)
        self.process = self.service.process.pid
        # What the server reports about broken connections is read, so that it never waits for room.
        self.reader = threading.Thread(target=self.service.process.stderr.read, daemon=True)
        self.reader.start()
        self.addCleanup(self.reader.join, programs.SECONDS)
        self.addCleanup(self.service.process.kill)

    def check_good_client(self):
        with self.service.client() as client:
            self.assertEqual(client.log_in(), b"+OK 2 messages\r\n")
            self.assertEqual(client.ask_lines(b"RETR 1"), answer_to_retr(NAMES_AND_TEXTS[0][1]))
            self.assertEqual(client.ask(b"QUIT"), b"+OK bye\r\n")
            self.assertEqual(client.rest(), b"")
        self.assertEqual(self.maildir.names(), self.names)

    def measure(self):
        """The memory in octets, the open files and the seconds of work, after a client that is served."""
        self.check_good_client()
        return memory_of(self.process), open_files_of(self.process), seconds_of_work(self.process)

    def check_flat(self, attack, times):
        """The attack, made again as often as it takes to see growth, leaves memory, open files and the next client as
        they were, and no third of it costs more work than the one before."""
        third = times // 2 * max(TIMES, 1)
        measured = []
        for _ in range(3):
            for _ in range(third):
                attack()
            measured.append(self.measure())
        memory, files, work = zip(*measured)
        second, last = work[1] - work[0], work[2] - work[1]
        if TIMES:
            print(f"{self.id()}: three times {third}: {[octets >> 10 for octets in memory]} KiB, {list(files)} files, "
                  f"{second:.2f} and {last:.2f} s")
        self.assertLess(memory[2], memory[0] + ROOM)
        self.assertEqual(files[2], files[0])
        self.assertLess(last, 2 * second + WORK_ROOM)

    def test_connections_that_are_opened_and_dropped(self):
        self.check_flat(lambda: self.service.client().close(), 400)

    def test_connections_that_are_opened_and_reset(self):
        self.check_flat(lambda: self.service.client().reset(), 400)

    def test_links_that_are_half_closed(self):
        """All lines that came whole are answered, also when nothing more can come."""
        def attack():
            with self.service.client() as client:
                client.give(b"USER u\r\nPASS p\r\nDELE 1\r\nDELE 2\r\nQUIT\r")
                client.socket.shutdown(socket.SHUT_WR)
                self.assertEqual(client.rest(), READY + b"+OK send PASS\r\n+OK 2 messages\r\n" + b"+OK marked\r\n" * 2)

        self.check_flat(attack, 200)

    def test_commands_after_quit(self):
        """They get no answer, and do nothing."""
        whole = READY + b"+OK send PASS\r\n+OK 2 messages\r\n+OK bye\r\n"

        def attack():
            with self.service.client() as client:
                client.give(b"USER u\r\nPASS p\r\nQUIT\r\nDELE 1\r\nDELE 2\r\nQUIT\r\n" + b"NOOP\r\n" * 100)
                self.assertTrue(whole.startswith(client.rest_or_reset()))

        self.check_flat(attack, 200)

    def test_lines_without_end(self):
        """Before and after logging in a line of any length takes no memory, and is one bad command when it ends."""
        def attack(*first):
            with self.service.client() as client:
                client.give(b"".join(first))
                for _ in range(16):
                    client.give(b"x" * 65_536)
                client.give(b"\r\nNOOP\r\n")
                client.socket.shutdown(socket.SHUT_WR)
                return client.rest()

        self.check_flat(lambda: self.assertEqual(attack(), READY + b"-ERR bad command\r\n-ERR not now\r\n"), 20)
        self.check_flat(lambda: self.assertTrue(attack(b"USER u\r\nPASS p\r\n").endswith(
            b"+OK 2 messages\r\n-ERR bad command\r\n+OK\r\n")), 20)

    def test_an_octet_at_a_time(self):
        """A client that drips its lines has them answered, and the server sleeps between any two octets."""
        given = b"USER u\r\nPASS p\r\nSTAT\r\nx" + b"\r\nQUIT\r\n"
        with self.service.client() as client:
            work = seconds_of_work(self.process)
            for place in range(len(given)):
                client.give(given[place:place + 1])
                kernel.wait_until_taken(client.socket)
                kernel.wait_for_state(self.process, "S")
            self.assertLess(seconds_of_work(self.process) - work, WORK_ROOM)
            self.assertEqual(client.rest().count(b"\r\n"), 6)
        self.check_good_client()

    def test_a_client_that_holds_the_line(self):
        """While one client waits, the others wait too, and are served when it is gone."""
        with self.service.client() as silent:
            self.assertEqual(silent.line(), READY)
            others = [self.service.client() for _ in range(20)]
            kernel.wait_for_state(self.process, "S")
            work = kernel.processor_time(self.process)
            time.sleep(0.05)
            self.assertEqual(kernel.processor_time(self.process), work)
        for client in others:
            with client:
                self.assertEqual(client.log_in(), b"+OK 2 messages\r\n")
        self.check_good_client()

