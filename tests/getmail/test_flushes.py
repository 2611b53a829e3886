"""Which flushes a session makes, in their order: of which files, of which folders, and no others."""

import re
import unittest

from getmail.account import MEMORY, Account
from getmail.mbox_account import MboxAccount
from getmail.shared_server import SharedServer
from harness.noted import noted
from harness.power import BLOCK

LETTERS = [(b"uid-%d" % number, b"Subject: %d\n\ntext\n" % number) for number in range(3)]
NEW = (b"new", b"one more\n")
# Before a session relies on what an earlier one left: the record, its name, and the names in the Maildir.
RELIES = ["record", "folder of the record", "new", "cur"]
STORES = ["text", "new", "record"]


def blocks_of(start, octets):
    """How many blocks of the record these octets touch, which are appended where it had `start` octets."""
    return (start + len(octets) - 1) // BLOCK - start // BLOCK + 1


class Flushes(unittest.TestCase):
    def setUp(self):
        self.noted = self.enterContext(noted())
        self.server = self.enterContext(SharedServer(LETTERS))
        self.account = self.enterContext(Account(self.server.port, above=MEMORY))

    def name_of(self, path):
        """What a flushed path is called here."""
        name = str(path).removeprefix(f"{self.account.home}/")
        if name.startswith("Maildir/"):
            return "text" if name.startswith("Maildir/tmp/") else name.removeprefix("Maildir/")
        return {".getmail": "folder of the record", f".getmail/{self.account.record.name}": "record"}.get(
            name, "record made anew" if ".tmp." in name else name)

    def flushes_of_run(self, *words):
        """What a run that ends well flushes."""
        paths = {str(path.stat().st_ino): path for path in self.account.home.rglob("*")}
        run = self.account.run("-q", *words, **self.noted.environment())
        self.server.wait_for_end()
        self.assertEqual((run.status, run.out, run.err), (0, b"", b""))
        found = []
        for (word, *rest), _ in self.noted.rows():
            if word == "make":
                paths[rest[0]] = rest[1]
            elif word == "rename":
                paths = {inode: rest[1] if str(path) == rest[0] else path for inode, path in paths.items()}
            elif word == "flush":
                found.append(self.name_of(paths[rest[0]]))
            elif word == "flush-folder":
                found.append(self.name_of(rest[0]))
        return found

    def test_the_first_session(self):
        made = ["new", "cur", "record made anew", "folder of the record"]
        self.assertEqual(self.flushes_of_run(), made + STORES * len(LETTERS))

    def test_none_in_an_idle_poll(self):
        self.flushes_of_run()
        self.assertEqual(self.flushes_of_run(), [])

    def test_one_new_message(self):
        """Whether it is deleted or not."""
        self.flushes_of_run()
        for words in ((), ("-d",)):
            with self.subTest(words=words):
                self.server.messages.append((b"new%d" % len(words), b"one more\n"))
                self.assertEqual(self.flushes_of_run(*words), RELIES + ["record"] + STORES)

    def test_new_messages(self):
        """Three flushes for each, five before them, and one for each border of a block inside of what is appended to the
        record."""
        self.flushes_of_run()
        before = self.account.record.read_bytes()
        self.server.messages += [((b"%d-" % number).ljust(70, b"x"), b"text\n") for number in range(20)]
        found = self.flushes_of_run()
        groups = re.split(rb"(?m)^(?=\+ )", self.account.record.read_bytes().removeprefix(before))[1:]
        self.assertEqual(len(groups), 21)
        expected, size = list(RELIES), len(before)
        for place, group in enumerate(groups):
            expected += (["text", "new"] if place else []) + ["record"] * blocks_of(size, group)
            size += len(group)
        self.assertGreater(len(expected), 5 + 3 * 20 + 3)
        self.assertEqual(found, expected)

    def test_a_found_file(self):
        """It is flushed before the record shows it, and then there is nothing to be fetched."""
        self.flushes_of_run()
        self.server.messages.append(NEW)
        path = self.account.maildir / "cur" / f"{self.account.name(*NEW)}:2,S"
        path.write_bytes(NEW[1])
        self.assertEqual(self.flushes_of_run(), [*RELIES, f"cur/{path.name}", "record"])


class Links(unittest.TestCase):
    """A record or an mboxrd file that two links lead to, one behind the other: before the run relies on it, the names of each
    folder on the way are flushed."""

    def check_each_folder(self, account_class, path_of):
        with noted() as changes, SharedServer(LETTERS) as server, account_class(server.port) as account:
            self.assertEqual(account.run("-q").status, 0)
            server.wait_for_end()
            path, (one, two) = path_of(account), account.make_folders("one", "two")
            path.rename(two / "file")
            (one / "file").symlink_to("../two/file")
            path.symlink_to(one / "file")
            server.messages.append(NEW)
            self.assertEqual(account.run("-q", **changes.environment()).status, 0)
            server.wait_for_end()
            rows = changes.rows()
            fetching = next(place for place, (_, octets) in enumerate(rows) if octets.startswith(b"RETR"))
            folders = [words[1] for words, _ in rows[:fetching] if words[0] == "flush-folder"]
            self.assertIn([str(folder) for folder in (one, two, path.parent)],
                          [folders[place:place + 3] for place in range(len(folders))])

    def test_of_a_record(self):
        self.check_each_folder(Account, lambda account: account.record)

    def test_of_an_mboxrd_file(self):
        self.check_each_folder(MboxAccount, lambda account: account.mbox)


if __name__ == "__main__":
    unittest.main()
