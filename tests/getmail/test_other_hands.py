"""Whole sessions during which something happens to a folder or a disk: names that vanish between the listing and the
look at them, folders that can't be read to their end, a record whose replacement is refused, and random octets that
can't be had."""

import os
from unittest import mock

from getmail.one_account import RECORD_REFUSED, REFUSED, THREE, OneAccount
from harness import preload, programs, waits

UNREADABLE = programs.Run(2, b"", b"getmail: cannot read rc file\n")


class OtherHands(OneAccount):
    @classmethod
    def setUpClass(cls):
        cls.time = waits.time_for(cls)
        cls.library = f"{cls.enterClassContext(preload.library('other_hands'))} {cls.time.library}"

    def session(self, *words, bound=None, **others):
        """One run against one session, with what the other hands are to do."""
        changes = {f"OTHER_{what}": str(value) for what, value in others.items()}
        return super().session(*words, bound=bound, LD_PRELOAD=self.library, **changes)

    def hold_in_cur(self, uid, text, flags=":2,"):
        """Puts a held message's file into `cur`."""
        path = self.account.maildir / "cur" / (self.account.name(uid, text) + flags)
        path.write_bytes(text)
        return path

    def test_a_name_that_vanishes_after_its_folder_was_listed(self):
        """A reader has given the file another name by the time it is looked at: its message is held all the same."""
        path = self.hold_in_cur(*THREE[0])
        renamed = path.with_name(path.name + "S")
        run, commands = self.session(FROM=path, TO=renamed)
        self.assertEqual((run, commands), (programs.SILENT, ["RETR 2", "RETR 3", "QUIT"]))
        self.assertTrue(renamed.exists())
        self.assertEqual(self.account.held(), THREE)

    def test_a_file_that_is_removed_after_its_folder_was_listed(self):
        """It can't be flushed before its message is recorded; its message isn't held then, and is fetched."""
        path = self.hold_in_cur(*THREE[0])
        self.assertEqual(self.session("-d", FROM=path),
                         (programs.SILENT, ["RETR 1", "DELE 1", "RETR 2", "DELE 2", "RETR 3", "DELE 3", "QUIT"]))
        self.assertEqual(self.account.held(), THREE)

    def test_a_folder_that_cannot_be_read_to_its_end(self):
        """Nothing is fetched by half a listing: a message whose name was not read would be stored again."""
        self.hold_in_cur(*THREE[0])
        self.assertEqual(self.session("-d", BROKEN="listing"), (REFUSED, ["RSET", "QUIT"]))
        self.assertEqual(self.account.held(), THREE[:1])
        self.assertEqual(self.session("-d")[0], programs.SILENT)
        self.assertEqual(self.account.held(), THREE)

    def test_a_folder_that_changes_and_has_its_times_put_back(self):
        """It is listed again until it rests, for two seconds, and then nothing is reported."""
        self.hold_in_cur(*THREE[0])
        with mock.patch.dict(os.environ, self.time.environment(), HURRY_NAPS="1"):
            self.time.give(2)
            run, commands = self.session("-d", BRIEF=self.account.maildir / "cur" / "brief")
        self.assertEqual(self.time.taken(), 2)
        self.assertEqual((run, commands), (REFUSED, ["RSET", "QUIT"]))

    def test_a_record_whose_replacement_is_refused(self):
        """The old record stays as it was, octet for octet, and nothing is left beside it."""
        rows = b"old 5 1\nolder 6 0\n"
        for old in (b"getmail-seen 1\n" + rows, b"getmail-seen 2\n" + rows + b"+ 1\nne", b"getmail-seen 2\n" + rows + b"torn"):
            for bound in (0, 20, len(old) + 20):
                with self.subTest(old=old, bound=bound):
                    self.account.record.write_bytes(old)
                    self.assertEqual(self.session("-d", bound=bound), (RECORD_REFUSED, ["RSET", "QUIT"]))
                    self.assertEqual(self.account.record.read_bytes(), old)
                    self.assertEqual(sorted(os.listdir(self.account.folder)), ["getmailrc", self.account.lock.name, self.account.record.name])
        self.assertEqual(self.server.messages, THREE)
        self.assertEqual(self.session("-d")[0], programs.SILENT)
        self.assertEqual(self.account.held(), THREE)
        self.assertTrue(self.account.record.read_bytes().startswith(b"getmail-seen 2\n" + rows))

    def test_each_draw_of_random(self):
        """The keys of the record's table are drawn, and the mark of the files in `tmp`; there is no third draw."""
        for number in (1, 2):
            run = self.account.run("-q", LD_PRELOAD=self.library, OTHER_RANDOM=str(number))
            self.assertEqual(run, UNREADABLE)
        self.assertEqual(self.session(RANDOM=3), (programs.SILENT, ["RETR 1", "RETR 2", "RETR 3", "QUIT"]))
