"""Files of listed messages that are in the Maildir while the record doesn't show them, as a backup brings them back: each of them
is flushed before the record does, whatever a reader does to it meanwhile."""

import os
import unittest

from getmail.account import Account
from getmail.shared_server import SharedServer
from harness import preload
from harness.noted import noted

LETTERS = [(b"uid-%d" % number, b"Subject: %d\n\ntext\n" % number) for number in range(3)]

# Two files of each message, as a copy leaves them.
BOTH = (("new", ""), ("cur", ":2,F"))


class FoundFiles(unittest.TestCase):
    def setUp(self):
        self.noted = self.enterContext(noted())
        self.server = self.enterContext(SharedServer(LETTERS))
        self.account = self.enterContext(Account(self.server.port))

    def put(self, *places):
        """Puts a file of each message into each place, a folder and marks, of a Maildir that has no other files, without a
        record, and answers their inodes."""
        self.account.record.unlink(missing_ok=True)
        for folder in ("new", "cur"):
            for name in os.listdir(self.account.maildir / folder):
                (self.account.maildir / folder / name).unlink()
        inodes = set()
        for part, marks in places:
            for uid, text in LETTERS:
                path = self.account.maildir / part / (self.account.name(uid, text) + marks)
                path.write_bytes(text)
                inodes.add(path.stat().st_ino)
        return inodes

    def changes_of_run(self, *libraries, copies=1, **changes):
        """The rows of a run that ends well, after which there are so many copies of each message."""
        run = self.account.run("-q", **self.noted.environment(*libraries, **changes))
        self.server.wait_for_end()
        self.assertEqual((run.status, run.out, run.err), (0, b"", b""))
        self.assertEqual(self.account.held(), sorted(LETTERS * copies))
        return [words for words, _ in self.noted.rows()]

    def before_the_record(self, rows):
        """The rows before the record's file is made."""
        made = next(place for place, words in enumerate(rows)
                    if words[0] == "make" and str(self.account.record) in words[2])
        return rows[:made]

    def flushed_first(self, rows):
        """The files that are flushed before the record's file is made."""
        return [int(words[1]) for words in self.before_the_record(rows) if words[0] == "flush"]

    def check_flushed_first(self, rows, inodes):
        self.assertEqual(set(self.flushed_first(rows)), inodes)

    def test_each_is_flushed_once_before_the_record_shows_it(self):
        for part, marks in (("new", ""), ("cur", ":2,S")):
            with self.subTest(part=part):
                inodes = self.put((part, marks))
                self.assertEqual(sorted(self.flushed_first(self.changes_of_run())), sorted(inodes))
                self.assertEqual({words[0] for words in self.changes_of_run()}, {"send"})

    def test_those_that_the_record_shows_are_not_flushed(self):
        """One more message comes, so that the Maildir is asked what it holds."""
        inodes = self.put(("new", ""))
        self.changes_of_run()
        self.server.messages.append((b"uid-3", b"one more\n"))
        self.addCleanup(self.server.messages.pop)
        self.assertEqual(self.account.run("-q", **self.noted.environment()).status, 0)
        self.assertFalse(inodes & {int(words[1]) for words, _ in self.noted.rows() if words[0] == "flush"})

    def test_both_files_of_a_message(self):
        inodes = self.put(*BOTH)
        self.check_flushed_first(self.changes_of_run(copies=2), inodes)

    def test_what_links_lead_to(self):
        """Each folder on the way to it is flushed too: a loss of power may leave a link to nothing."""
        self.put()
        one, two = self.account.make_folders("one", "two")
        for uid, text in LETTERS:
            name = self.account.name(uid, text)
            (two / name).write_bytes(text)
            (one / name).symlink_to(f"../two/{name}")
            (self.account.maildir / "cur" / f"{name}:2,S").symlink_to(one / name)
        rows = self.changes_of_run()
        self.check_flushed_first(rows, {path.stat().st_ino for path in two.iterdir()})
        folders = [words[1] for words in self.before_the_record(rows) if words[0] == "flush-folder"]
        self.assertEqual([folders.count(str(folder)) for folder in (one, two)], [len(LETTERS)] * 2)

    def check_each(self, more_than, places, changes_at, copies=1):
        """The reader works at one moment of a run, each of them in turn. There are more moments than this number."""
        told = self.account.home / "told"
        with preload.library("reader") as reader:
            for moment in range(1, 200):
                with self.subTest(moment=moment):
                    told.unlink(missing_ok=True)
                    inodes = self.put(*places)
                    rows = self.changes_of_run(reader, copies=copies, READER_MAILDIR=str(self.account.maildir),
                                               READER_NOTE=str(told), **changes_at(moment))
                    self.check_flushed_first(rows, inodes)
                if not told.exists():
                    self.assertGreater(moment, more_than)
                    return
        self.fail("more than 200 moments")

    def test_those_that_a_reader_moves_meanwhile(self):
        """The reader works just before one of the calls by which the program reads a folder: it reads both twice, each
        with a last call that finds nothing more. It takes all files from `new`, or puts all back there."""
        self.check_each(8, [("new", "")], lambda call: {"READER_CALL": str(call)})
        self.check_each(8, BOTH, lambda call: {"READER_CALL": str(call), "READER_BACK": "1"}, copies=2)

    def test_one_that_a_reader_moves_just_before_it_is_opened(self):
        """Also if the message's other file was flushed already, or is flushed next."""
        def moved_at(opening):
            return {"READER_OPEN": str(opening)}

        self.check_each(3, [("new", "")], moved_at)
        self.check_each(6, BOTH, moved_at, copies=2)

    def test_two_that_change_places_before_one_is_opened(self):
        """Both are flushed, also if the other one was flushed already under the name that is opened next."""
        self.check_each(6, BOTH, lambda opening: {"READER_OPEN": str(opening), "READER_SWAP": "1"}, copies=2)

    def test_those_that_a_reader_moves_again_and_again(self):
        """Each of the three, twenty times."""
        inodes = self.put(("new", ""))
        with preload.library("reader") as reader:
            rows = self.changes_of_run(reader, READER_MAILDIR=str(self.account.maildir), READER_OPEN="1",
                                       READER_OPENS="60", READER_NOTE=str(self.account.home / "told"))
        self.check_flushed_first(rows, inodes)

    def test_those_that_a_reader_takes_away_meanwhile(self):
        """They weren't there, and are fetched; the others are flushed."""
        with preload.library("reader") as reader:
            for opening in range(1, 4):
                for opens in range(1, 4):
                    with self.subTest(opening=opening, opens=opens):
                        inodes = self.put(("cur", ":2,S"))
                        self.server.forget()
                        rows = self.changes_of_run(reader, READER_MAILDIR=str(self.account.maildir), READER_CALL="-1",
                                                   READER_OPEN=str(opening), READER_OPENS=str(opens), READER_AWAY="1",
                                                   READER_NOTE=str(self.account.home / "told"))
                        left = inodes & {path.stat().st_ino for path in (self.account.maildir / "cur").iterdir()}
                        fetched = [line for line in self.server.commands[1] if line.startswith("RETR")]
                        self.assertEqual(len(left) + len(fetched), len(LETTERS))
                        self.assertTrue(fetched)
                        self.assertLessEqual(left, set(self.flushed_first(rows)))


if __name__ == "__main__":
    unittest.main()
