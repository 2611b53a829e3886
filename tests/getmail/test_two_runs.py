"""Two runs of one account at once, where no lock keeps them apart, and what a killed run left: nothing is lost and
nothing is torn.

At worst two runs leave a record that has to be mended. TESTS_KILLS is the number of rounds in which both are
killed.
"""

import os
import random
import signal
import threading
import time
import unittest

from getmail.account import Account
from getmail.server import Cut
from getmail.shared_server import SharedServer, at_once
from harness import programs
from harness.noted import noted

LONG = [(b"long", b"a line of the text\n" * 10_000)]
SOME = [(b"%d" % number, b"line %d\n" % number * 40 ** (1 + number % 3)) for number in range(5)]
NOT_UNDERSTOOD = b"getmail: seen file not understood at line "


class TwoRuns(unittest.TestCase):
    def setUp(self):
        self.server = SharedServer()
        self.addCleanup(self.server.close)
        self.account = Account(self.server.port)
        self.account.refuse_lock()
        self.addCleanup(self.account.holder.cleanup)

    def check_nothing_lost_or_torn(self, messages):
        """Each file is one of the messages, whole, and the server lacks none that isn't held."""
        held = self.account.held()
        for uid, text in held:
            whole = dict(messages)[uid]
            self.assertTrue(text == whole, f"{uid} has {len(text)} of {len(whole)} octets")
        lost = [uid for uid, text in messages if (uid, text) not in self.server.messages + held]
        self.assertEqual(lost, [], "neither held nor on the server")
        self.assertEqual(len(held), len(set(held)), "held twice")

    def check_completed(self, messages):
        """One more run, by itself, fetches the rest; if the record has to be mended, after that."""
        run = self.account.run("-q", "-d")
        if run.err.startswith(NOT_UNDERSTOOD):
            self.account.record.unlink()
            run = self.account.run("-q", "-d")
        self.assertEqual(run, programs.SILENT)
        self.server.wait_for_end()
        self.assertEqual(self.account.held(), sorted(messages))
        self.assertEqual(self.server.messages, [])

    def finish(self, process):
        out, err = process.communicate(timeout=programs.SECONDS)
        return programs.Run(process.returncode, out, err)


class AtOnce(TwoRuns):
    """Both fetch one text. The second begins while the first is in the middle of it, and one of them is cut."""

    def in_tmp(self):
        """The inodes of the files in `tmp` that hold something."""
        found = set()
        for file in (self.account.maildir / "tmp").iterdir():
            try:
                about = file.stat()
            except FileNotFoundError:
                continue
            if about.st_size:
                found.add(about.st_ino)
        return found

    def wait_for_file(self, known=frozenset()):
        """Waits until `tmp` holds a file that isn't known; the inodes of all of them."""
        deadline = time.monotonic() + programs.NEXT_OUTPUT_SECONDS
        while not self.in_tmp() - known:
            self.assertLess(time.monotonic(), deadline, "no file came into tmp")
            time.sleep(0.002)
        return self.in_tmp()

    def fetch_at_once(self, cut):
        """Runs both with `-d`; the session `cut` of the server ends in the middle of its text, after the other is over.
        Each sends half, and the rest once both have written of it."""
        both_write, other_is_over = threading.Event(), threading.Event()

        def give(session, say, octets):
            half = len(octets) // 2
            say(octets[:half])
            both_write.wait(programs.SECONDS)
            if session == cut:
                other_is_over.wait(programs.SECONDS)
                raise Cut
            say(octets[half:])

        self.server.messages = list(LONG)
        self.server.give = give
        first = self.account.start("-q", "-d")
        known = self.wait_for_file()
        second = self.account.start("-q", "-d")
        self.wait_for_file(known)
        both_write.set()
        broken, whole = (first, second) if cut == 1 else (second, first)
        whole = self.finish(whole)
        other_is_over.set()
        broken = self.finish(broken)
        self.server.wait_for_end()
        self.server.give = at_once
        return whole, broken

    def check_cut(self, cut):
        whole, broken = self.fetch_at_once(cut)
        self.check_nothing_lost_or_torn(LONG)
        self.assertEqual(whole, programs.SILENT)
        self.assertEqual(broken, programs.Run(1, b"", b"getmail: connection ended by the server\n"))
        self.assertEqual(self.account.held(), LONG)
        self.check_completed(LONG)

    def test_the_second_is_cut(self):
        self.check_cut(2)

    def test_the_first_is_cut(self):
        self.check_cut(1)


class Killed(TwoRuns):
    """Both runs killed, at moments spread over a session whose texts come in pieces."""

    ROUNDS = int(os.environ.get("TESTS_KILLS", "30"))

    def start_both(self, source, steps):
        """Both runs, and a moment of their sessions."""
        self.server.forget()
        self.server.messages = list(SOME)
        moment = self.server.moment(steps, pause=0.001)
        processes = []
        for _ in range(2):
            processes.append(self.account.start("-q", "-d"))
            time.sleep(source.uniform(0, 0.004))
        return processes, moment

    def play(self, source, steps):
        """How many runs were killed, while the server waits or a moment later."""
        processes, moment = self.start_both(source, steps)
        moment.wait(*processes)
        if source.random() < 0.5:
            moment.end()
        for process in processes:
            time.sleep(source.uniform(0, 0.003))
            process.kill()
        moment.end()
        ends = [self.finish(process).status for process in processes]
        self.assertLessEqual(set(ends), {0, 1, -signal.SIGKILL})
        self.server.wait_for_end()
        self.check_nothing_lost_or_torn(SOME)
        self.check_completed(SOME)
        return ends.count(-signal.SIGKILL)

    def length(self, source):
        """How many steps two runs have that nobody kills."""
        processes, moment = self.start_both(source, 0)
        moment.end()
        for process in processes:
            self.assertIn(self.finish(process).status, (0, 1))
        self.server.wait_for_end()
        return -moment.left

    def test_both_are_killed(self):
        source, killed = random.Random(25), 0
        length = self.length(source)
        for number in range(self.ROUNDS):
            with self.subTest(number=number), Account(self.server.port) as account:
                self.account = account
                self.account.refuse_lock()
                killed += self.play(source, length * number // self.ROUNDS)
        self.assertGreater(killed, self.ROUNDS // 4)


class Flushed(TwoRuns):
    """What a run relies on when it deletes is flushed first, also if the run that wrote it was killed before that."""

    @classmethod
    def setUpClass(cls):
        cls.noted = cls.enterClassContext(noted())

    def watch(self, account, *words, killed=None):
        run = account.run("-q", *words, **self.noted.environment(killed=killed))
        self.server.wait_for_end()
        self.assertEqual(run.status, 0 if killed is None else -signal.SIGKILL, run.err)
        return self.noted.rows()

    @staticmethod
    def place_of(rows, wanted):
        """The place of the first row that is wanted."""
        return next((place for place, (words, octets) in enumerate(rows) if wanted(words, octets)), len(rows))

    def check_flushed(self, wanted, is_flush):
        """A run is killed after the row that is wanted, and the next one flushes before it deletes."""
        self.server.messages = list(SOME)
        with Account(self.server.port) as account:
            rows = self.watch(account)
        killed = 1 + self.place_of(rows, wanted)
        self.watch(self.account, killed=killed)
        self.server.wait_for_end()
        rows = self.watch(self.account, "-d")
        deletes = self.place_of(rows, lambda words, octets: octets.startswith(b"DELE "))
        self.assertLess(deletes, len(rows))
        self.assertLess(self.place_of(rows, lambda words, octets: is_flush(rows, words)), deletes,
                        [words[0] for words, _ in rows[:deletes]])

    def test_a_name_that_was_not_flushed(self):
        new = str(self.account.maildir / "new")
        self.check_flushed(lambda words, octets: words[0] == "link" and "/new/" in words[2],
                           lambda rows, words: words == ["flush-folder", new])

    def test_a_row_of_the_record_that_was_not_flushed(self):
        self.check_flushed(lambda words, octets: words[0] == "write" and octets.startswith(b"+ "),
                           lambda rows, words: words == ["flush", str(self.account.record.stat().st_ino)])


if __name__ == "__main__":
    unittest.main()
