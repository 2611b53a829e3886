"""The folder `new` is replaced while a session fetches: the names that are flushed are those of the folder that its path leads
to by then, into which the mail was put."""

import unittest

from getmail.account import Account
from getmail.shared_server import SharedServer
from harness.maildir import make_maildir
from harness.noted import noted

LETTERS = [(b"uid-%d" % number, b"Subject: %d\n\ntext\n" % number) for number in range(4)]


def put_another_in_its_place(maildir):
    (maildir / "new").rename(maildir / "old")
    (maildir / "new").mkdir()


def lead_the_link_elsewhere(maildir):
    (maildir / "second").mkdir()
    (maildir / "link").symlink_to("second")
    (maildir / "link").rename(maildir / "new")


def replace_the_maildir(maildir):
    maildir.rename(maildir.with_name("old"))
    make_maildir(maildir)


class ReplacedFolder(unittest.TestCase):
    def check(self, replace, is_link=False):
        with SharedServer(LETTERS) as server, Account(server.port) as account, noted() as noting:
            if is_link:
                (account.maildir / "new").rename(account.maildir / "first")
                (account.maildir / "new").symlink_to("first")
            texts = 0

            def give(_, say, octets):
                nonlocal texts
                texts += 1
                if texts == 2 and replace:
                    replace(account.maildir)
                say(octets)

            server.give = give
            run = account.run("-q", "-d", **noting.environment())
            server.wait_for_end()
            self.assertEqual((run.status, run.err, server.messages), (0, b"", []))
            # As the system knows the folders, each by its path at the moment of the flush.
            here = str((account.maildir / "new").resolve())
            first = str(account.maildir / "first") if is_link else here
            flushed = None
            deleted = 0
            for words, octets in noting.rows():
                if words[0] == "link" and "/new/" in words[2]:
                    flushed = None
                elif words[0] == "flush-folder":
                    flushed = words[1]
                elif words[0] == "send" and octets.startswith(b"DELE"):
                    deleted += 1
                    self.assertEqual(flushed, first if deleted == 1 else here, f"before {octets}")
            self.assertEqual(deleted, len(LETTERS))

    def test_the_folder_that_mail_is_put_into_is_flushed(self):
        for replace in (None, put_another_in_its_place, replace_the_maildir):
            with self.subTest(replace=replace and replace.__name__):
                self.check(replace)
        with self.subTest(replace="lead_the_link_elsewhere"):
            self.check(lead_the_link_elsewhere, is_link=True)


if __name__ == "__main__":
    unittest.main()
