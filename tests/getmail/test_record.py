"""The record's file as an account finds it: of either version, cut short, with an open intent, or not a record."""

import random
import socket
import unittest

from getmail.account import Account
from getmail.server import Server
from harness import programs
from harness.kernel import LOOPBACK
from probe import grammar, record_files

THREE = [(b"a", b"one\n"), (b"b", b"two\n"), (b"c", b"three\n")]
LOGIN = ["USER u", "PASS sesame", "STAT", "UIDL", "LIST"]
ALL = [(b"a", b"1"), (b"b", b"1"), (b"c", b"1")]
ONE, TWO = b"getmail-seen 1\n", b"getmail-seen 2\n"
RANDOM_FILES = 200


def missing(data):
    """The numbers of the messages that a record of these bytes doesn't have as delivered."""
    rows = grammar.record_of(data).rows
    return [number for number, (uid, _) in enumerate(THREE, 1) if uid not in rows or rows[uid][1] == b"0"]


class Records(unittest.TestCase):
    """Sessions over a Maildir, with a record that is there before the first."""

    def setUp(self):
        self.server = Server(THREE)
        self.addCleanup(self.server.close)
        self.account = Account(self.server.port)
        self.addCleanup(self.account.holder.cleanup)

    def session(self, *fetched):
        """A session that fetches the messages of these numbers and ends well."""
        thread = self.server.begin_session()
        run = self.account.run("-q")
        thread.join(programs.SECONDS)
        self.assertEqual(run, programs.SILENT)
        self.assertEqual(self.server.commands, LOGIN + [f"RETR {number}" for number in fetched] + ["QUIT"])

    def empty_maildir(self):
        for path in (self.account.maildir / "new").iterdir():
            path.unlink()

    def rows(self):
        """The rows of the record by the grammar, as pairs of id and state; no intent is open, nothing is torn."""
        record = grammar.record_of(self.account.record.read_bytes())
        self.assertFalse(record.is_rewritten)
        return [(uid, state) for uid, (_, state) in record.rows.items()]

    def check_goes_on(self, given, *fetched):
        """One session fetches these alone and leaves version 2, a second one fetches nothing and leaves it as it is."""
        self.account.record.write_bytes(given)
        self.session(*fetched)
        left = self.account.record.read_bytes()
        self.assertEqual(left[:len(TWO)], TWO)
        self.assertEqual(self.rows(), ALL)
        self.session()
        self.assertEqual(self.account.record.read_bytes(), left)
        return left

    def test_an_old_record_alone(self):
        """Nothing is new, and the file is written anew nevertheless."""
        self.server.messages = THREE[:1]
        self.account.record.write_bytes(ONE + b"a 5 1\n")
        self.session()
        self.assertEqual(self.account.record.read_bytes(), TWO + b"a 5 1\n")
        self.assertEqual(self.account.held(), [])

    def test_an_old_record_with_groups(self):
        left = self.check_goes_on(ONE + b"a 5 0\n+ 1\na 5 1\n+ 2\nb 6 0\nc 7 0\n+ 1\nb 6 1\n", 3)
        self.assertEqual(left, TWO + b"a 5 1\nb 6 1\nc 7 0\n+ 1\nc 7 1\n")
        self.assertEqual(self.account.held(), THREE[2:])

    def test_an_old_record_with_a_torn_end(self):
        """What an append that was cut left counts for nothing, so its messages are fetched."""
        whole = ONE + b"a 5 1\nb 6 0\n+ 1\nb 6 1\n"
        for torn in (b"+", b"+ 1", b"+ 1\n", b"+ 1\nc 7 1", b"+ 2\nc 7 1\n", b"+ 2\nc 7 1\nd 8 0"):
            with self.subTest(torn=torn):
                left = self.check_goes_on(whole + torn, 3)
                self.assertEqual(left[:left.find(b"c")], TWO + b"a 5 1\nb 6 1\n")
                self.assertEqual(self.account.held(), THREE[2:])
                self.empty_maildir()

    def test_each_front_of_an_old_record(self):
        """Wherever a record of version 1 ends, each message is fetched that it doesn't have as delivered."""
        whole = ONE + b"b 6 1\n+ 2\na 5 1\nc 7 0\n+ 1\nc 7 1\n"
        for count in range(len(ONE), len(whole) + 1):
            with self.subTest(count=count):
                self.account.record.write_bytes(whole[:count])
                fetched = missing(whole[:count])
                self.session(*fetched)
                self.assertEqual(self.account.held(), [THREE[number - 1] for number in fetched])
                self.assertEqual(sorted(self.rows()), ALL)
                self.empty_maildir()

    def test_an_old_record_and_a_session_that_is_cut(self):
        """Wherever the server breaks off, the record is whole, and one more session completes it."""
        given = ONE + b"a 5 1\n+ 1\nb 6 0\n+ 2\nc"
        for octets in range(1, 330, 11):
            with self.subTest(octets=octets):
                self.account.record.write_bytes(given)
                thread = self.server.begin_session(octets)
                self.account.run("-q")
                thread.join(programs.SECONDS)
                self.session(*missing(self.account.record.read_bytes()))
                self.assertEqual(self.account.held(), THREE[1:])
                self.assertEqual(self.rows(), ALL)
                self.empty_maildir()

    def test_an_open_intent_over_a_maildir(self):
        """It is closed, its message is fetched if it isn't in the record, and the file is written anew."""
        base = TWO + b"a 5 1\nb 6 0\nc 7 1\n"
        for intent, fetched in ((b"! b 0 49\n", (2,)), (b"! a 49 49\n", (2,)), (b"+ 1\nb 6 1\n! b 0 49\n", ())):
            with self.subTest(intent=intent):
                left = self.check_goes_on(base + intent, *fetched)
                self.assertNotIn(b"!", left)
                self.assertEqual(self.account.held(), THREE[1:2] if fetched else [])
                self.empty_maildir()

    def test_a_record_that_nothing_is_wrong_with_stays(self):
        """A file of version 2 whose intents are all ended is only appended to."""
        given = TWO + b"a 5 0\n! a 0 49\n+ 1\na 5 1\n! a 0 49\n+ 1\na 5 1\n"
        left = self.check_goes_on(given, 2, 3)
        self.assertEqual(left[:len(given)], given)

    def test_an_outgrown_record(self):
        """A large file with more octets after its first rows than in them is written anew, and stands for the same."""
        given = record_files.large_file(65_537, 32_762)
        rows = grammar.record_of(given).rows
        for messages in ([], THREE):
            with self.subTest(messages=len(messages)):
                self.server.messages = messages
                self.account.record.write_bytes(given)
                self.session(*range(1, len(messages) + 1))
                left = self.account.record.read_bytes()
                self.assertLess(len(left), len(given))
                record = grammar.record_of(left)
                self.assertFalse(record.is_rewritten)
                new = {uid: record.rows[uid] for uid, _ in messages}
                self.assertEqual(record.rows, rows | new)
                self.assertEqual([state for _, state in new.values()], [b"1"] * len(messages))
                self.assertEqual(left[:left.find(b"+ 1\n") if messages else None].count(b"\n"), 1 + len(record.rows))

    def test_a_large_record_that_is_not_outgrown(self):
        """One that is a little smaller, or has as many octets in its first rows, is only appended to."""
        for size, part in ((65_536, 65_521), (65_537, 32_761)):
            with self.subTest(size=size):
                given = record_files.large_file(size, part)
                self.account.record.write_bytes(given)
                self.session(1, 2, 3)
                left = self.account.record.read_bytes()
                self.assertEqual(left[:len(given)], given)
                self.empty_maildir()


class RandomFiles(unittest.TestCase):
    """A record is written anew if it has to be, its intent closed; of another file the program names the first line that
    isn't as it should be, and touches nothing."""

    def told(self, data):
        """What the program says of a record of these bytes if the maildrop is empty, and what it leaves of them."""
        replies = b"+OK\r\n" * 3 + b"+OK 0 0\r\n+OK\r\n.\r\n+OK\r\n.\r\n+OK\r\n+OK\r\n"
        with socket.create_server((LOOPBACK, 0)) as listener, Account(listener.getsockname()[1]) as account:
            listener.settimeout(programs.SECONDS)
            account.record.write_bytes(data)
            process = account.start("-q")
            client, _ = listener.accept()
            with client:
                client.sendall(replies)
                out, err = process.communicate(timeout=programs.SECONDS)
            return process.returncode, out, err, account.record.read_bytes()

    def test_random_files(self):
        for seed in range(RANDOM_FILES):
            data = record_files.random_file(random.Random(seed))
            with self.subTest(seed=seed, data=data):
                try:
                    record = grammar.record_of(data)
                    record.intent = None
                    wanted = (0, b"", b"", record.file() if record.is_rewritten else data)
                except grammar.Fault as fault:
                    line = f"getmail: seen file not understood at line {fault.number}\n"
                    wanted = (1, b"", line.encode(), data)
                self.assertEqual(self.told(data), wanted)
