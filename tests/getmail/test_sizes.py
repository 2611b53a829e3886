"""Great sizes: a great maildrop fetched by one program from the other, with long credentials and a long rc
file, and many messages in a rehearsal and on a terminal.

A program that gives up, or is wrong, past some size is found, since each of its tables and buffers grows here.
TESTS_SIZE is the number of messages that one program fetches from the other.
"""

import os
import unittest

from getmail import expected, terminal
from getmail.account import Account
from getmail.server import Server
from harness import preload, programs
from harness.kernel import LOOPBACK
from harness.maildir import make_maildir
from popd.service import Maildir, Service

COUNT = int(os.environ.get("TESTS_SIZE", "10000"))
REHEARSED = 100_000
RC_LIMIT = 65_536
LONG_ENOUGH = 1200

USER = b"user " + b"u" * 495
PASSWORD = b"pass " + b"p" * 495

KEYS_WITHOUT_EFFECT = 60


def uid_of(number):
    return b"%06d" % number


class LongAccount(Account):
    """An account in a home with a long path, whose rc file has as many octets as one may have, in 50,000 lines: long
    credentials, a value over several lines, a long line, and keys without effect."""

    def __init__(self, port):
        super().__init__(port, user=USER.decode())
        home = self.home / ("a" * 100) / "home"
        home.mkdir(parents=True)
        self.maildir = make_maildir(home / "Maildir")
        self.folder = home / ".getmail"
        self.folder.mkdir()
        self.home = home
        self.rcfile = self.folder / "getmailrc"
        self.record = self.folder / f"seen-{self.digest}"
        self.rcfile.write_text(self.long_rc_file(port))

    def long_rc_file(self, port):
        head = (f"[retriever]\ntype = SimplePOP3Retriever\nserver = {LOOPBACK}\nport = {port}\n"
                f"username = {USER.decode()}\npassword = {PASSWORD.decode()}\n"
                "[destination]\ntype = Maildir\npath = ~/Maildir/\n[options]\nread_all = false\n")
        keys = [f"key{number} = 1\n" for number in range(KEYS_WITHOUT_EFFECT)]
        value = "long = " + "v" * 1000 + "\n" + " more\n" * 400 + "# " + "c" * 1000 + "\n"
        tail = "verbose = 1\n"
        text = head + "".join(keys) + value
        return text + "\n" * (RC_LIMIT - len(text) - len(tail)) + tail

    def warnings(self):
        """The warnings about the keys without effect."""
        rows = [(number, line.split(" ")[0]) for number, line in enumerate(self.rcfile.read_text().splitlines(), 1)
                if line.startswith(("key", "long"))]
        return "".join(f"getmail: warning: line {number}: options.{key} has no effect\n" for number, key in rows).encode()


class GreatMaildrop(unittest.TestCase):
    @classmethod
    def setUpClass(cls):
        cls.skipping = cls.enterClassContext(preload.library("skip_flushes"))

    def setUp(self):
        self.served = Maildir(PASSWORD)
        self.addCleanup(self.served.holder.cleanup)
        for number in range(COUNT):
            part = ("new", "cur")[number % 2]
            (self.served.folder / part / uid_of(number).decode()).write_bytes(b"%d\n" % number)
        service = Service(self.served, user=USER)
        service.__enter__()
        self.addCleanup(service.__exit__)
        self.account = LongAccount(service.port)
        self.addCleanup(self.account.holder.cleanup)
        self.octets = sum(len(b"%d\n" % number) for number in range(COUNT))

    def fetch(self, *words):
        """The lines of a good run."""
        run = self.account.run(*words, seconds=LONG_ENOUGH, LD_PRELOAD=str(self.skipping))
        self.assertEqual((run.status, run.err), (0, self.account.warnings()), run.out[-1000:])
        return run.out.decode().splitlines()

    def check_held(self):
        held = self.account.held()
        self.assertEqual(len(held), COUNT)
        for number, (uid, text) in enumerate(held):
            self.assertEqual((uid, text), (uid_of(number), b"%d\n" % number))

    def test_many_messages_fetched_twice(self):
        self.assertEqual(self.account.rcfile.stat().st_size, RC_LIMIT)
        lines = self.fetch("-d")
        self.assertEqual(lines[1::2][:COUNT], [f"msg {number}/{COUNT} ({len(str(number - 1)) + 1} bytes) delivered"
                                               for number in range(1, COUNT + 1)])
        self.assertEqual(lines[2::2][:COUNT], [f"msg {number}/{COUNT} deleted" for number in range(1, COUNT + 1)])
        self.assertEqual(lines[-1], f"{COUNT} messages ({self.octets} bytes) retrieved, 0 skipped, {COUNT} deleted")
        self.assertEqual(self.served.names(), [])
        self.check_held()
        # The same messages once more: the record and the files' names show that they are held.
        for number in range(COUNT):
            (self.served.folder / "new" / uid_of(number).decode()).write_bytes(b"%d\n" % number)
        self.assertEqual(self.fetch("-d")[-1], f"0 messages (0 bytes) retrieved, {COUNT} skipped, {COUNT} deleted")
        self.assertEqual(self.served.names(), [])
        self.check_held()


class GreatRehearsal(unittest.TestCase):
    def test_a_hundred_thousand_messages(self):
        rows = range(1, REHEARSED + 1)
        given = (b"+OK\r\n" * 3 + b"+OK %d 1\r\n" % REHEARSED
                 + b"+OK\r\n" + b"".join(b"%d %s\r\n" % (number, uid_of(number)) for number in rows) + b".\r\n"
                 + b"+OK\r\n" + b"".join(b"%d 3\r\n" % number for number in rows) + b".\r\n"
                 + b"+OK\r\nx\r\n.\r\n" * REHEARSED + b"+OK\r\n")
        run = programs.run("getmail", "--rehearse", given=given)
        out, status = expected.answer(given)
        self.assertEqual((run.status, run.err), (status, b""))
        self.assertTrue(run.out == out, run.out[-1000:])


class GreatProgress(unittest.TestCase):
    def test_many_messages_and_a_long_one_on_a_terminal(self):
        """Each number is shown, and no octet of the longest line is left."""
        count = 1200
        messages = [(uid_of(number), b"") for number in range(1, count)] + [(uid_of(count), b"x" * 79 + b"\n" * 5_000_000)]
        with Server(messages) as server, Account(server.port) as account, preload.library("skip_flushes") as skipping:
            thread = server.begin_session()
            status, _, shown = terminal.run(account, LD_PRELOAD=str(skipping))
            thread.join(programs.SECONDS)
        self.assertEqual((status, terminal.screen_of(shown)), (0, [b""]))
        told = [terminal.told_in(found) for found in terminal.TEXT.finditer(shown)]
        self.assertEqual(list(dict.fromkeys(number for number, _, octets, _ in told if octets == 0)), list(range(1, count + 1)))
        self.assertEqual({total for _, total, _, _ in told}, {count})
        self.assertEqual({size for number, _, _, size in told if number == count}, {10_000_000})
