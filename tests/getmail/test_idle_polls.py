"""Sessions in which all that is listed is recorded and nothing is to be deleted: what cron does all day."""

import os
import unittest

from getmail.account import Account
from getmail.mbox_account import MboxAccount
from getmail.shared_server import SharedServer
from harness.mboxrd import entries
from harness.noted import noted
from probe import grammar, record_files

LETTERS = [(b"uid-%d" % number, b"Subject: %d\n\ntext\n" % number) for number in range(3)]
MARK = ".P1R0123456789abcdef"
MISSING = b"getmail: destination missing\n"


class IdlePolls:
    """For an account of either kind."""

    def setUp(self):
        self.noted = self.enterContext(noted())
        self.server = self.enterContext(SharedServer(LETTERS))
        self.account = self.enterContext(self.KIND(self.server.port))
        self.check_run()
        self.assertEqual(self.stored(), self.STORED)

    def run_getmail(self, **changes):
        run = self.account.run("-q", **changes)
        self.server.wait_for_end()
        return run

    def check_run(self, status=0, err=b"", **changes):
        run = self.run_getmail(**changes)
        self.assertEqual((run.status, run.out, run.err), (status, b"", err))

    def check_told(self, path, err=MISSING):
        """A session reports that the path leads nowhere."""
        path.rename(self.account.home / "aside")
        self.check_run(1, err)
        (self.account.home / "aside").rename(path)

    def test_only_commands_are_written(self):
        """Nothing else is written, nothing is flushed, renamed or removed, and no folder is listed."""
        self.check_run(**self.noted.environment(CHANGES_LISTED="1"))
        self.assertEqual({words[0] for words, _ in self.noted.rows()}, {"send"})

    def test_an_outgrown_record_is_no_reason_to_list(self):
        """It is written anew, and no folder is listed."""
        given = record_files.large_file(65_537, 32_762)
        rows = grammar.record_of(self.account.record.read_bytes()).rows
        self.account.record.write_bytes(given + b"+ 3\n" + b"".join(b"%s 5 1\n" % uid for uid, _ in LETTERS))
        self.check_run(**self.noted.environment(CHANGES_LISTED="1"))
        left = self.account.record.read_bytes()
        self.assertEqual(grammar.record_of(left).rows.keys(), grammar.record_of(given).rows.keys() | rows.keys())
        self.assertNotIn(b"+ ", left)
        self.assertNotIn("list", {words[0] for words, _ in self.noted.rows()})
        self.assertEqual(self.stored(), self.STORED)

    def test_files_of_killed_runs_wait_for_a_session_that_fetches(self):
        """Both those in `tmp` and those beside the record."""
        left = [self.account.record.with_name(f"{self.account.record.name}.tmp{MARK}"),
                self.account.maildir / "tmp" / f"{self.account.digest}.61{MARK}"]
        for path in left:
            path.touch()
            os.utime(path, (0, 0))
        self.check_run()
        self.assertTrue(all(path.exists() for path in left))
        self.server.messages.append((b"uid-3", b"one more\n"))
        self.check_run()
        self.assertEqual([path.exists() for path in left], [False, self.KIND is not Account])


class Maildirs(IdlePolls, unittest.TestCase):
    KIND, STORED = Account, LETTERS

    def stored(self):
        return self.account.held()

    def test_a_folder_that_is_not_there_is_reported(self):
        """The Maildir's folders are looked at all the same."""
        for folder in ("new", "cur"):
            with self.subTest(folder=folder):
                self.check_told(self.account.maildir / folder)


class Mboxrds(IdlePolls, unittest.TestCase):
    KIND, STORED = MboxAccount, entries(text for _, text in LETTERS)

    def stored(self):
        return self.account.content()

    def test_a_file_that_is_not_there_is_reported(self):
        """The file is looked at all the same."""
        self.check_told(self.account.mbox)

    def test_a_file_of_another_form_is_reported(self):
        self.account.mbox.write_bytes(b"abc\n")
        self.check_run(1, b"getmail: destination is no mbox\n")


if __name__ == "__main__":
    unittest.main()
