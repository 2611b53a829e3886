"""Maildirs, mboxrd files and records in odd places: links, pipes and devices where files and folders should be."""

import os
import time
import unittest

from getmail.mbox_account import MboxAccount
from getmail.one_account import RECORD_REFUSED, REFUSED, THREE, OneAccount
from harness import programs
from harness.mboxrd import entries

HOURS = 3_600
TEXTS = [text for _, text in THREE]


class OddMaildirs(OneAccount):
    def files(self):
        return {path.name for part in ("new", "cur") for path in (self.account.maildir / part).iterdir()}

    def make_older(self, hours):
        """Makes the last change of each file in the Maildir this number of hours older."""
        for part in ("new", "cur"):
            for path in (self.account.maildir / part).iterdir():
                os.utime(path, (time.time() - hours * HOURS,) * 2)

    def test_tmp_is_a_link_to_delivered_mail(self):
        """What is old in it isn't taken for what killed runs left."""
        tmp = self.account.maildir / "tmp"
        tmp.rmdir()
        for part in ("new", "cur"):
            with self.subTest(part):
                tmp.symlink_to(part)
                self.server.messages = list(THREE)
                self.assertEqual(self.session("-d")[0], programs.SILENT)
                if part == "cur":
                    self.account.read_all_new()
                before = self.files()
                self.assertEqual(len(before), len(THREE))
                self.make_older(40)
                self.assertEqual(self.session("-d")[0], programs.SILENT)
                self.assertEqual(self.files(), before)
                tmp.unlink()

    def test_what_a_killed_run_left_is_there_for_an_hour(self):
        for name, hours, stays in (("61.P1R0123456789abcdef", 1.1, False), ("62.P1R0123456789abcdef", 0.9, True)):
            path = self.account.maildir / "tmp" / f"{self.account.digest}.{name}"
            path.write_bytes(b"half a text")
            os.utime(path, (time.time() - hours * HOURS,) * 2)
            self.assertEqual(self.session()[0], programs.SILENT)
            self.assertEqual(path.exists(), stays)


class OddFiles(OneAccount):
    """The record, or the mboxrd file, is no regular file: nothing is fetched, and no run waits for ever."""

    def become_mbox(self):
        """Makes the account's destination an mboxrd file."""
        self.account.holder.cleanup()
        self.account = MboxAccount(self.server.port)
        self.addCleanup(self.account.holder.cleanup)

    def check_each_kind(self, path, refused, devices=("/dev/null", "/dev/zero")):
        elsewhere = self.account.home / "elsewhere"
        os.mkfifo(elsewhere)
        for make in (lambda: os.mkfifo(path), *(lambda target=target: path.symlink_to(target)
                                                for target in (elsewhere, *devices, "nowhere"))):
            make()
            run, commands = self.session("-d")
            self.assertEqual((run, commands), (refused, ["RSET", "QUIT"]))
            self.assertEqual(self.server.messages, THREE)
            path.unlink()

    def test_a_record(self):
        self.check_each_kind(self.account.record, RECORD_REFUSED)
        self.assertEqual(self.session("-d")[0], programs.SILENT)
        self.assertEqual(self.account.held(), THREE)

    def test_a_record_of_an_mboxrd_file(self):
        self.become_mbox()
        self.check_each_kind(self.account.record, RECORD_REFUSED)
        self.assertEqual(self.session("-d")[0], programs.SILENT)
        self.assertEqual(self.account.content(), entries(TEXTS))

    def test_an_mboxrd_file(self):
        self.become_mbox()
        self.account.mbox.unlink()
        # (the superuser's run refuses a device that others may write before it connects)
        devices = () if os.geteuid() == 0 else ("/dev/null", "/dev/zero")
        self.check_each_kind(self.account.mbox, REFUSED, devices)

    def test_a_link_to_a_regular_file(self):
        self.become_mbox()
        real = self.account.home / "real"
        self.account.mbox.rename(real)
        self.account.mbox.symlink_to(real)
        self.assertEqual(self.session("-d")[0], programs.SILENT)
        self.assertTrue(self.account.mbox.is_symlink())
        self.assertEqual(self.account.content(), entries(TEXTS))


if __name__ == "__main__":
    unittest.main()
