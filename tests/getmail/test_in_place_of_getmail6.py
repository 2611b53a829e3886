"""A first run where getmail6 has fetched: it would fetch all mail again, and says what to do instead."""

import os
import unittest

from getmail.account import Account
from getmail.server import Server
from harness import preload, programs

TWO = [(b"a", b"one\n"), (b"b", b"two\n")]


class InPlaceOfGetmail6(unittest.TestCase):
    def setUp(self):
        self.server = self.enterContext(Server(TWO))
        self.account = self.enterContext(Account(self.server.port))

    def list_as(self, name, content=b"a\x001600000000\n"):
        path = self.account.folder / name
        path.write_bytes(content)
        return path

    def check_stopped(self, path, *words):
        told = (f"getmail: {path} lists what getmail6 fetched: make a record of it with from-getmail6.py, or an empty file "
                f"{self.account.record} to fetch all mail\n")
        reason = (f"getmail: {self.account.name_in_lines}: with read_all = false and no record, a run would fetch all its mail "
                  "again\n")
        if {"--why", "--unattended"} & {*words}:
            told += reason
        self.assertEqual(self.account.run("-q", *words), programs.Run(2, b"", told.encode()))
        self.assertEqual(self.account.held(), [])
        self.assertFalse(self.account.record.exists() or self.account.lock.exists())

    def check_fetches(self, *words):
        thread = self.server.begin_session()
        self.assertEqual(self.account.run("-q", *words), programs.SILENT)
        thread.join(programs.SECONDS)
        self.assertEqual(self.account.held(), TWO)

    def test_nothing_is_fetched(self):
        path = self.list_as("oldmail-mail.example.org-995-u")
        for words in ((), ("--pretend",), ("-n",), ("--why",), ("--unattended",)):
            with self.subTest(words):
                self.check_stopped(path, *words)

    def test_an_empty_record_is_the_way_out(self):
        self.list_as("oldmail-mail.example.org-995-u")
        self.account.record.touch()
        self.check_fetches()

    def test_all_mail_is_wanted(self):
        self.list_as("oldmail-mail.example.org-995-u")
        self.check_fetches("-a")

    def test_lists_of_others(self):
        for name in ("oldmail-mail.example.org-995-fred", "oldmail-mail.example.org-995-a-u", "oldmail-mail.example.org-u",
                     "oldmail--995-u", "oldmail-995-u", "old-mail.example.org-995-u", "oldmail-mail.example.org-995-uu"):
            self.list_as(name)
        (self.account.folder / "oldmail-mail.example.org-996-u").mkdir()
        self.list_as("oldmail-mail.example.org-995-u", b"")
        self.check_fetches()

    def test_names_with_marks(self):
        """getmail6 writes one `-` for each run of certain octets."""
        self.server.close()
        plain = self.account.rcfile.read_bytes()
        for user, name in (("a/b:c", "a-b-c"), ("a|b", "a-b"), ("a//b", "a-b"), ("a;b", "a-b"), ("a\\b", "a-b"), ("<a>", "-a-"),
                           ("a<|>/;:\\b", "a-b"), ("a-/b", "a--b"), ("a/-/b", "a---b"), ("fred|", "fred-"), ("||", "-"),
                           ("a b", "a b"), ("a@b.c", "a@b.c"), ("ö|ö", "ö-ö")):
            with self.subTest(user):
                self.account.rcfile.write_bytes(plain.replace(b"username = u", b"username = " + user.encode()))
                path = self.list_as(f"oldmail-127.0.0.1-110-{name}")
                run = self.account.run()
                self.assertEqual(run.status, 2)
                self.assertTrue(run.err.startswith(f"getmail: {path} lists what getmail6 fetched".encode()), run.err)
                path.unlink()

    def list_last(self):
        """A list of the user that comes after each other name of the folder."""
        for number in range(200):
            path = self.list_as(f"oldmail-host{number}.example-995-u")
            if os.listdir(self.account.folder)[-1] == path.name:
                return path
            path.unlink()
        self.fail("no name comes last")

    def test_a_list_that_comes_last(self):
        self.server.close()
        for name in ("notes", "oldmail-mail.example.org-995-fred"):
            with self.subTest(name):
                other = self.list_as(name)
                path = self.list_last()
                self.check_stopped(path)
                path.unlink()
                other.unlink()

    def test_an_empty_list_that_comes_first(self):
        self.server.close()
        self.list_as("oldmail-mail.example.org-995-u", b"")
        self.check_stopped(self.list_last())

    def test_a_record_that_cannot_be_looked_at(self):
        """It may be there, so the list is none of a program whose place is taken."""
        self.list_as("oldmail-mail.example.org-995-u")
        thread = self.server.begin_session()
        with preload.library("refuse_call") as library:
            run = self.account.run("-q", LD_PRELOAD=str(library), REFUSED_CALL="record")
        thread.join(programs.SECONDS)
        self.assertEqual(run, programs.Run(1, b"", b"getmail: seen file refused\n"))
        self.assertEqual(self.account.held(), [])

    def test_later_runs(self):
        self.check_fetches()
        self.list_as("oldmail-mail.example.org-995-u")
        self.check_fetches()


if __name__ == "__main__":
    unittest.main()
