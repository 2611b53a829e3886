"""The line that says how far a fetch is: on a terminal only, rewritten in place, and gone at the end."""

import contextlib
import os
import pty
import select
import signal
import subprocess
import threading
import time
import unittest

from getmail import terminal
from getmail.account import Account
from getmail.server import Server, lines_of
from getmail.terminal import ERASED, LINE, TEXT, screen_of, told_in
from harness import programs

THREE = [(b"a", b"one\n"), (b"b", b"a line of a longer message\n" * 20_000), (b"c", b"three\n")]
STEP = 65_536
KILOBYTE = 1_000


class Progress(unittest.TestCase):
    def setUp(self):
        self.server = Server(THREE)
        self.addCleanup(self.server.close)
        self.account = Account(self.server.port)
        self.addCleanup(self.account.holder.cleanup)

    def run_on_terminal(self, *words, octets=None, both=False):
        """A run whose standard error, or both outputs, are a terminal: the status, standard output, the terminal's octets."""
        thread = self.server.begin_session(octets)
        answer = terminal.run(self.account, *words, both=both)
        thread.join(programs.SECONDS)
        return answer

    def told(self, shown):
        """The message, the total, the octets and the size of each line that was shown, in order."""
        self.assertEqual(LINE.sub(b"", shown).replace(ERASED, b""), b"")
        rows = LINE.findall(shown)
        self.assertEqual([row for row in rows if not TEXT.fullmatch(row)], [])
        return [told_in(TEXT.fullmatch(row)) for row in rows]

    def test_the_line_follows_the_messages_and_is_gone(self):
        status, out, shown = self.run_on_terminal()
        self.assertEqual((status, screen_of(shown)), (0, [b""]))
        told = self.told(shown)
        self.assertEqual({total for _, total, _, _ in told}, {3})
        self.assertEqual([number for number, _, octets, _ in told if octets == 0], [1, 2, 3])
        self.assertEqual(sorted(told), told)
        octets = [octets for number, _, octets, _ in told if number == 2]
        length = len(lines_of(THREE[1][1]))
        self.assertEqual({size for number, _, _, size in told if number == 2}, {length // KILOBYTE * KILOBYTE})
        self.assertTrue(all(later - earlier > STEP - KILOBYTE for earlier, later in zip(octets, octets[1:])), octets)
        self.assertTrue(length - 2 * STEP <= octets[-1] <= length, octets)
        self.assertTrue(out.endswith(b"3 messages (540010 bytes) retrieved, 0 skipped, 0 deleted\n"), out)

    def test_a_narrow_terminal(self):
        """The line is in one row at each moment, and its front is shown."""
        _, _, shown = self.run_on_terminal()
        ends = [place for place, octet in enumerate(shown) if octet == ord("\r")]
        for columns, front in ((30, b"message 2 of 3, 0.0 of 560 kB"), (20, b"message 2 of 3, 0.0")):
            screens = [screen_of(shown[:end], columns) for end in ends]
            self.assertEqual([screen for screen in screens if len(screen) > 1], [])
            self.assertIn([front], screens)
            self.assertEqual(screen_of(shown, columns), [b""])

    def test_the_units(self):
        """From a million octets on a size is in megabytes."""
        for length, words in ((2, b"0.0 of 0.0 kB"), (9_999, b"0.0 of 9.9 kB"), (10_000, b"0.0 of 10 kB"),
                              (999_999, b"0.0 of 999 kB"), (1_000_000, b"0.0 of 1.0 MB"), (12_345_678, b"0.0 of 12 MB")):
            with self.subTest(length):
                self.server.messages = [(b"%d" % length, b"x" * (length - 2) + b"\n")]
                _, _, shown = self.run_on_terminal()
                self.assertEqual(LINE.match(shown)[1], b"message 1 of 1, " + words)

    def test_the_report_stands_alone_on_the_terminal(self):
        status, _, shown = self.run_on_terminal(both=True)
        self.assertEqual(status, 0)
        screen = screen_of(shown)
        self.assertTrue(screen[0].startswith(b"SimplePOP3Retriever:"), screen)
        self.assertEqual(len(screen), 6)
        self.assertEqual(screen[-1], b"")

    def test_the_line_is_gone_before_a_fault_is_told(self):
        status, _, shown = self.run_on_terminal(octets=200_000)
        told = b"getmail: u@127.0.0.1:%d: it ended in the reply to RETR 2" % self.server.port
        self.assertEqual((status, screen_of(shown)), (1, [b"getmail: connection ended by the server", told, b""]))
        self.assertIn(b"message 2 of 3", shown)

    def test_a_reply_that_is_not_understood(self):
        self.server.refuses = ("RETR 2",)
        status, _, shown = self.run_on_terminal()
        self.assertEqual((status, screen_of(shown)[::2]), (1, [b"getmail: server refused RETR 2", b""]))

    def test_a_total_that_comes_an_octet_at_a_time(self):
        self.server.pause = lambda: time.sleep(0.0002)
        self.server.messages = [(b"%d" % number, b"") for number in range(10, 22)]
        _, _, shown = self.run_on_terminal()
        self.assertEqual([(number, total) for number, total, octets, _ in self.told(shown) if octets == 0],
                         [(number, 12) for number in range(1, 13)])

    def test_nothing_is_shown_where_nothing_is_to_be_told(self):
        self.assertEqual(self.run_on_terminal("-q"), (0, b"", b""))

    def test_nothing_is_shown_where_nothing_comes(self):
        self.run_on_terminal("-q")
        status, _, shown = self.run_on_terminal()
        self.assertEqual((status, shown), (0, b""))

    def test_a_long_listing_is_shown(self):
        """From the login on, also if nothing is to be fetched; and it is gone at the end."""
        self.server.messages = [(b"%d" % number, b"") for number in range(2_500)]
        self.account.record.write_bytes(b"getmail-seen 2\n" + b"".join(b"%d 5 1\n" % number for number in range(2_500)))
        status, _, shown = self.run_on_terminal()
        self.assertEqual(list(dict.fromkeys(LINE.findall(shown))),
                         [b"listed %d of 2500 messages" % number for number in (0, 500, 1000, 1500, 2000, 2500)])
        self.assertEqual((status, screen_of(shown)), (0, [b""]))
        status, _, shown = self.run_on_terminal("--pretend", octets=20_000, both=True)
        self.assertEqual((status, screen_of(shown)[0][:20]), (1, b"SimplePOP3Retriever:"))

    def test_the_line_stays_if_the_run_is_killed(self):
        """It says how far the run was."""
        over = threading.Event()
        self.server.pause = lambda: self.server.commands[-1:] == ["RETR 2"] and over.wait(programs.SECONDS)
        ours, theirs = pty.openpty()
        thread = self.server.begin_session()
        # (a shell's commands in the background ignore SIGINT)
        process = subprocess.Popen([programs.path_of("getmail")], stdin=subprocess.DEVNULL, stdout=subprocess.DEVNULL, stderr=theirs,
                                   env=programs.environment(HOME=str(self.account.home)),
                                   preexec_fn=lambda: signal.signal(signal.SIGINT, signal.SIG_DFL))
        shown = b""
        while b"message 2 of 3, " not in shown and select.select([ours], [], [], programs.SECONDS)[0]:
            shown += os.read(ours, 65536)
        process.send_signal(signal.SIGINT)
        process.wait(programs.SECONDS)
        over.set()
        os.close(theirs)
        with contextlib.suppress(OSError):
            while piece := os.read(ours, 65536):
                shown += piece
        os.close(ours)
        thread.join(programs.SECONDS)
        self.assertEqual(process.returncode, -signal.SIGINT)
        self.assertTrue(screen_of(shown)[-1].startswith(b"message 2 of 3, "), screen_of(shown))
        # The terminal wraps lines again.
        self.assertTrue(shown.endswith(b"\x1b[?7h"), shown[-20:])

    def test_nothing_is_shown_in_a_pipe_or_a_file(self):
        thread = self.server.begin_session()
        run = self.account.run("-v")
        thread.join(programs.SECONDS)
        self.assertEqual((run.status, run.err), (0, b""))
        self.server.begin_session()
        with open(self.account.home / "told", "wb") as told:
            subprocess.run([programs.path_of("getmail"), "-a"], stdin=subprocess.DEVNULL, stdout=told, stderr=told,
                           env=programs.environment(HOME=str(self.account.home)), timeout=programs.SECONDS)
        self.assertNotIn(b"\r", (self.account.home / "told").read_bytes())
