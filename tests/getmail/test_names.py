"""The names of stored files: they contain the file's size, since servers and readers of a Maildir take it from there,
and files that earlier versions stored without it are held all the same."""

import mailbox
import os
import poplib
import random
import shutil
import subprocess
import tempfile
import unittest
from pathlib import Path

from getmail.account import Account
from getmail.server import Server, size_of
from harness import dovecot, kernel, preload, programs

MESSAGES = [(b"a", b"one\n"), (b"b", b""), (b"c", b"Subject: three\n\n.three\nFrom x\n"), (b"d/5", b"x" * 70_000 + b"\n"),
            (b"~" * 70, b"\n" * 300)]
LOGIN = ["USER u", "PASS sesame", "STAT", "UIDL", "LIST"]
FLAGS = ("", ":2,", ":2,S", ":2,FRS", ":1,x")


def without_size(name):
    """The name as earlier versions had it, with what a reader has put after it."""
    base, colon, flags = name.partition(":")
    return base.partition(",")[0] + colon + flags


class Names(unittest.TestCase):
    def setUp(self):
        self.server = Server(MESSAGES)
        self.addCleanup(self.server.close)
        self.account = Account(self.server.port)
        self.addCleanup(self.account.holder.cleanup)

    def fetch(self, *words):
        """A good run: the commands after the listings."""
        thread = self.server.begin_session()
        run = self.account.run("-q", *words)
        thread.join(programs.SECONDS)
        self.assertEqual(run, programs.SILENT)
        self.assertEqual(self.server.commands[:5], LOGIN)
        return self.server.commands[5:]

    def names(self):
        """The names in `new` and `cur`, with their folders."""
        return sorted((part, name) for part in ("new", "cur") for name in os.listdir(self.account.maildir / part))

    def rename(self, rename):
        """Gives each file of `new` and `cur` another folder and name."""
        for part, name in self.names():
            os.rename(self.account.maildir / part / name, self.account.maildir.joinpath(*rename(part, name)))


class Sizes(Names):
    def test_each_name_tells_the_size_of_its_file(self):
        self.fetch()
        self.assertEqual(self.names(), sorted(("new", self.account.name(uid, text)) for uid, text in MESSAGES))
        self.assertEqual(max(len(name) for _, name in self.names()), 64 + 1 + 2 * 70 + len(",S=300"))
        for _, name in self.names():
            path = self.account.maildir / "new" / name
            self.assertEqual(int(name.rpartition(",S=")[2]), path.stat().st_size)

    def test_sizes_as_pythons_mailbox_has_them(self):
        """Its keys are the names before the flags. It marks each message as read, and none comes twice."""
        self.fetch()
        box = mailbox.Maildir(self.account.maildir, create=False)
        self.assertEqual(sorted(box.keys()), sorted(self.account.name(uid, text) for uid, text in MESSAGES))
        for key in box.keys():
            self.assertEqual(len(box.get_bytes(key)), int(key.rpartition(",S=")[2]))
        texts = self.account.held()
        for key, message in list(box.items()):
            message.set_subdir("cur")
            message.set_flags("S")
            box[key] = message
        self.assertEqual(self.names(), sorted(("cur", f"{self.account.name(uid, text)}:2,S") for uid, text in MESSAGES))
        self.account.record.unlink()
        self.assertEqual(self.fetch(), ["QUIT"])
        self.assertEqual([uid for uid, _ in texts], sorted(uid for uid, _ in MESSAGES))

    @unittest.skipIf(dovecot.missing(), f"{', '.join(dovecot.missing())} is not here")
    def test_sizes_as_dovecot_serves_them(self):
        """It takes a file's size from its name: the right one from each that was stored, and a wrong one from a wrong name."""
        self.fetch()
        holder = tempfile.TemporaryDirectory()
        self.addCleanup(holder.cleanup)
        folder, port = Path(holder.name), kernel.free_port()
        folder.chmod(0o755)
        maildir = shutil.copytree(self.account.maildir, folder / "Maildir")
        dovecot.give_to_owner(maildir)
        words = dovecot.words(folder, maildir, port)
        with open(folder / "out", "wb") as log:
            server = subprocess.Popen(words, stdin=subprocess.DEVNULL, stdout=log, stderr=log)
        self.addCleanup(server.wait, programs.SECONDS)
        self.addCleanup(server.terminate)
        self.assertTrue(kernel.wait_for_listener(server, port), (folder / "out").read_text())
        self.assertEqual(self.sizes_of_dovecot(words), sorted(len(text) for _, text in MESSAGES))
        client = poplib.POP3("127.0.0.1", port, timeout=programs.SECONDS)
        self.addCleanup(client.close)
        client.user("u")
        client.pass_("sesame")
        self.assertEqual(sorted(int(row.split()[1]) for row in client.list()[1]), sorted(size_of(text) for _, text in MESSAGES))
        client.quit()
        for line in (folder / "log").read_text().splitlines():
            self.assertIn(": Info: ", line)
        wrong = maildir / "new" / "wrong,S=9999"
        wrong.write_bytes(b"Subject: x\n\nx\n")
        dovecot.give_to_owner(maildir)
        self.assertIn(9999, self.sizes_of_dovecot(words))

    def sizes_of_dovecot(self, words):
        """The sizes of the files, as the server with this configuration has them."""
        asked = subprocess.run(["doveadm", *words[2:], "-f", "flow", "fetch", "-u", "u", "size.physical", "ALL"],
                               stdout=subprocess.PIPE, timeout=programs.SECONDS)
        return sorted(int(row.removeprefix(b"size.physical=")) for row in asked.stdout.split())


class ShortNames(Names):
    """A file system whose names have at most 143 octets: unique-ids of 24 fit, whatever the number of the process."""

    def session(self, *words):
        with preload.library("short_names") as library:
            thread = self.server.begin_session()
            run = self.account.run("-q", *words, LD_PRELOAD=str(library), LONGEST_NAME="143")
            thread.join(programs.SECONDS)
        return run.status, run.err.decode().splitlines()

    def test_the_longest_unique_id(self):
        self.server.messages = [(b"x" * 24, b"one\n"), (b"y" * 30, b"two\n"), (b"z", b"three\n")]
        status, told = self.session("--why", "-d")
        self.assertEqual((status, told[0]), (1, "getmail: destination refused"))
        self.assertIn("File name too long", told[1])
        self.assertEqual(self.server.commands[5:], ["RETR 1", "DELE 1", "RETR 2", "RSET", "QUIT"])
        self.assertEqual([uid for uid, _ in self.account.held()], [b"x" * 24])
        self.assertEqual(len(self.server.messages), 3)

    def test_a_file_system_with_longer_names_later(self):
        self.server.messages = [(b"y" * 30, b"two\n"), (b"z", b"three\n")]
        self.assertEqual(self.session()[0], 1)
        self.assertEqual(self.fetch(), ["RETR 1", "RETR 2", "QUIT"])
        self.assertEqual(os.listdir(self.account.maildir / "tmp"), [])


class OldNames(Names):
    """A Maildir that an earlier version filled, or that one and this one: nothing is fetched twice, and no file renamed."""

    def check_all_held(self):
        """Nothing is fetched, with the record and without it."""
        names = self.names()
        for keeps_record in (True, False):
            if not keeps_record:
                self.account.record.unlink()
            self.assertEqual(self.fetch(), ["QUIT"])
            self.assertEqual(self.names(), names)
            self.assertEqual(self.account.held(), sorted(MESSAGES))

    def test_an_account_that_an_earlier_version_filled(self):
        self.fetch()
        self.rename(lambda part, name: (part, without_size(name)))
        self.check_all_held()
        for flags in FLAGS[1:]:
            with self.subTest(flags):
                self.rename(lambda part, name, flags=flags: ("cur", name.partition(":")[0] + flags))
                self.check_all_held()

    def test_both_forms_moved_and_marked_by_a_reader(self):
        source = random.Random(29)
        self.fetch()
        for _ in range(20):
            old = {self.account.stem(uid) for uid, _ in MESSAGES if source.randrange(2)}

            def rename(part, name):
                base = name.partition(":")[0]
                stem = base.partition(",")[0]
                text = (self.account.maildir / part / name).read_bytes()
                flags = source.choice(FLAGS)
                return "cur" if flags else "new", (stem if stem in old else f"{stem},S={len(text)}") + flags

            self.rename(rename)
            self.check_all_held()

    def test_what_is_missing_comes_beside_old_names(self):
        """Only that, under a name with its size."""
        self.fetch()
        self.rename(lambda part, name: ("cur", without_size(name) + ":2,S"))
        for place in (1, 3):
            (self.account.maildir / "cur" / (self.account.stem(MESSAGES[place][0]) + ":2,S")).unlink()
        self.account.record.unlink()
        self.assertEqual(self.fetch(), ["RETR 2", "RETR 4", "QUIT"])
        self.assertEqual(self.account.held(), sorted(MESSAGES))
        self.assertEqual([name for part, name in self.names() if part == "new"],
                         sorted(self.account.name(*MESSAGES[place]) for place in (1, 3)))

    def test_what_is_held_under_an_old_name_is_deleted(self):
        self.fetch()
        self.rename(lambda part, name: (part, without_size(name)))
        self.account.record.unlink()
        self.assertEqual(self.fetch("-d"), [f"DELE {number}" for number in range(1, len(MESSAGES) + 1)] + ["QUIT"])
        self.assertEqual(self.server.messages, [])
        self.assertEqual(self.account.held(), sorted(MESSAGES))

    def test_other_fields_after_the_stem(self):
        """A server or a mail reader may add fields of its own, as mbsync does."""
        self.fetch()
        self.rename(lambda part, name: ("cur", name.replace(",S=", ",W=9999,S=") + ",U=5:2,S"))
        names = self.names()
        self.account.record.unlink()
        self.assertEqual(self.fetch(), ["QUIT"])
        self.assertEqual(self.names(), names)


class Folder(unittest.TestCase):
    def test_a_folder_of_another_account_is_none_of_ours(self):
        """The same unique-ids under another account's digest are fetched."""
        with Server(MESSAGES) as server, Account(server.port) as account:
            for uid, text in MESSAGES:
                (account.maildir / "new" / f"{'0' * 64}.{uid.hex()},S={len(text)}").write_bytes(text)
            thread = server.begin_session()
            run = account.run("-q")
            thread.join(programs.SECONDS)
            self.assertEqual(run, programs.SILENT)
            self.assertEqual(server.commands[5:], [f"RETR {number}" for number in range(1, 6)] + ["QUIT"])


if __name__ == "__main__":
    unittest.main()
