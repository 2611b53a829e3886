"""Both programs of the repository together: `getmail` fetches from `popd`, which serves a Maildir of its own."""

import os
import random
import threading
import unittest

from getmail.account import Account
from harness import programs, waits
from popd.service import Maildir, Service

TEXTS = {
    b"first": b"Subject: one\n\none\n",
    b"second": b".\n..\n.x\n\n",
    b"third": b"",
    b"fourth": b"a\r\nb\rc\r\r\n\0\xff\n",
    b"fifth": b"z" * 5000 + b"\n" + b"From x\n" * 3,
    b"sixth": b"\n" * 300,
    b"seventh": b"line\n" * 30_000,
}


class Together(unittest.TestCase):
    def setUp(self):
        self.served = Maildir(b"sesame\n")
        self.addCleanup(self.served.holder.cleanup)
        service = Service(self.served, **waits.no_pauses(self))
        service.__enter__()
        self.addCleanup(service.__exit__)
        self.account = Account(service.port)
        self.addCleanup(self.account.holder.cleanup)

    def add(self, texts, part="new"):
        for uid, text in texts.items():
            self.served.add(part, uid, text)

    def fetch(self, *words):
        run = self.account.run(*words)
        self.assertEqual((run.status, run.err), (0, b""), run.out)
        return run.out.decode().splitlines()

    def check_held(self, texts):
        self.assertEqual(self.account.held(), sorted(texts.items()))

    def test_each_message_byte_for_byte(self):
        self.add(TEXTS)
        lines = self.fetch()
        self.check_held(TEXTS)
        octets = sum(len(text) for text in TEXTS.values())
        self.assertEqual(lines[-1], f"{len(TEXTS)} messages ({octets} bytes) retrieved, 0 skipped, 0 deleted")

    def test_messages_come_in_the_order_of_the_server(self):
        self.add(TEXTS)
        self.fetch("-q")
        rows = [line.split() for line in self.account.record.read_bytes().splitlines()]
        states = [(row[0], row[2]) for row in rows if len(row) == 3]
        self.assertEqual(states, [(uid, b"0") for uid in sorted(TEXTS)] + [(uid, b"1") for uid in sorted(TEXTS)])

    def test_nothing_comes_twice(self):
        self.add(TEXTS)
        self.fetch("-q")
        for _ in range(3):
            self.assertEqual(self.fetch("-q"), [])
        self.assertEqual(self.fetch()[-1], f"0 messages (0 bytes) retrieved, {len(TEXTS)} skipped, 0 deleted")
        self.check_held(TEXTS)

    def test_what_is_held_is_deleted_from_the_server(self):
        self.add(TEXTS)
        self.assertTrue(self.fetch("-d")[-1].endswith(f"{len(TEXTS)} deleted"))
        self.assertEqual(self.served.names(), [])
        self.check_held(TEXTS)

    def test_what_was_fetched_before_is_deleted_later(self):
        self.add(TEXTS)
        self.fetch("-l")
        self.assertEqual(len(self.served.names()), len(TEXTS))
        self.assertEqual(self.fetch("-d")[-1],
                         f"0 messages (0 bytes) retrieved, {len(TEXTS)} skipped, {len(TEXTS)} deleted")
        self.assertEqual(self.served.names(), [])
        self.check_held(TEXTS)

    def test_new_messages_come_behind_those_that_a_reader_has_moved(self):
        source, kept = random.Random(15), {}
        for turn in range(12):
            texts = {b"%03d-%d" % (turn, number): b"%d\n" % source.randrange(10 ** source.randrange(1, 9))
                     for number in range(source.randrange(5))}
            self.add(texts, source.choice(("new", "cur")))
            kept.update(texts)
            if source.randrange(3) == 0:
                # The record is lost; the files' names show what is held, in either folder.
                self.account.record.unlink(missing_ok=True)
            self.fetch("-q")
            self.check_held(kept)
            self.move_some(source)

    def move_some(self, source):
        """Moves and renames some of the files, as a reader does that marks messages."""
        for part in ("new", "cur"):
            for entry in os.listdir(self.account.maildir / part):
                if source.randrange(2):
                    flags = "".join(sorted(source.sample("DFPRST", source.randrange(4))))
                    os.rename(self.account.maildir / part / entry,
                              self.account.maildir / "cur" / f"{entry.split(':')[0]}:2,{flags}")

    def test_a_reader_moves_files_while_they_come(self):
        texts = {b"%04d" % number: b"%d\n" % number * 50 for number in range(400)}
        self.add(texts)
        over = threading.Event()

        def read():
            while not over.is_set():
                self.account.read_all_new()

        reader = threading.Thread(target=read)
        reader.start()
        try:
            self.fetch("-q")
            self.account.record.unlink()
            self.fetch("-q")
        finally:
            over.set()
            reader.join(programs.SECONDS)
        self.check_held(texts)

    def test_limits_of_a_session(self):
        self.account.rcfile.write_text(
            self.account.rcfile.read_text() + "max_messages_per_session = 3\nmax_message_size = 1000\n")
        small = {uid: text for uid, text in TEXTS.items() if len(text) + text.count(b"\n") <= 1000}
        self.add(TEXTS)
        self.fetch("-q")
        self.assertEqual(len(self.account.held()), 3)
        self.fetch("-q")
        self.check_held(small)

    def test_a_wrong_password(self):
        self.add(TEXTS)
        self.account.rcfile.write_text(self.account.rcfile.read_text().replace("password = sesame", "password = secret"))
        run = self.account.run("-v")
        self.assertEqual((run.status, run.err), (1, b"getmail: server refused PASS\n"))
        self.assertNotIn(b"secret", run.out)
        self.check_held({})
