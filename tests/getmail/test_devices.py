"""Real folders and files: disks that fill up, folders of many names, and files that others remove or create.

Each run ends with its line and leaves nothing half done, and the next one, with nothing refused, completes it.
"""

import os

from getmail.account import MEMORY, Account
from getmail.one_account import RECORD_REFUSED, REFUSED, THREE, OneAccount
from getmail.server import MeddlingServer, Server
from harness import preload, programs

EACH_FETCHED_AND_DELETED = ["RETR 1", "DELE 1", "RETR 2", "DELE 2", "RETR 3", "DELE 3"]


class Devices(OneAccount):
    def meddle(self, meanwhile):
        """Lets the server do this with each command before it answers."""
        self.server.close()
        self.server = MeddlingServer(THREE, meanwhile)
        self.addCleanup(self.server.close)
        self.account.holder.cleanup()
        self.account = Account(self.server.port)
        self.addCleanup(self.account.holder.cleanup)

    def list_only(self):
        """A session that puts the messages' ids into the record, and fetches none of them."""
        self.server.refuses = ("RETR 1",)
        self.session()
        self.server.refuses = ()
        self.assertEqual(self.account.held(), [])

    def check_completed(self, messages=THREE):
        """One more run with nothing refused: each message is held once, and none is left on the server."""
        self.assertEqual(self.session("-d")[0], programs.SILENT)
        self.assertEqual(self.account.held(), sorted(messages))
        self.assertEqual(self.server.messages, [])
        self.assertEqual(os.listdir(self.account.maildir / "tmp"), [])


class FullDisk(Devices):
    def test_a_group_of_the_record_that_is_written_in_part(self):
        """No message is deleted whose row isn't written, and the part of it that was written is no row."""
        self.list_only()
        whole = self.account.record.read_bytes()
        for part in (0, 1, 5):
            with self.subTest(part):
                run, commands = self.session("-d", bound=len(whole) + part)
                self.assertEqual((run, commands), (RECORD_REFUSED, ["RETR 1", "RSET", "QUIT"]))
                self.assertEqual(self.account.record.stat().st_size, len(whole) + part)
                self.assertEqual(self.account.record.read_bytes()[:len(whole)], whole)
                self.assertEqual(self.server.messages, THREE)
                self.assertEqual(self.account.held(), THREE[:1])
                (self.account.maildir / "new" / self.account.name(*THREE[0])).unlink()
                self.account.record.write_bytes(whole)
        self.session("-d", bound=len(whole) + 5)
        self.check_completed()

    def test_a_record_whose_replacement_is_written_in_part(self):
        """The old one stays as it was, octet for octet."""
        for messages in ([], THREE[:1]):
            with self.subTest(len(messages)), Server(messages) as self.server:
                with Account(self.server.port) as self.account:
                    self.session()
                    before = self.account.record.read_bytes() if self.account.record.exists() else None
                    self.server.messages = list(THREE)
                    run, commands = self.session("-d", bound=20)
                    self.assertEqual((run, commands), (RECORD_REFUSED, ["RSET", "QUIT"]))
                    after = self.account.record.read_bytes() if self.account.record.exists() else None
                    self.assertEqual(after, before)
                    self.assertEqual(self.server.messages, THREE)
                    self.check_completed()

    def test_a_message_that_is_written_in_part(self):
        longer = [(b"a", b"one\n"), (b"b", b"two\n" * 500), (b"c", b"three\n")]
        for bound in (1999, 1000):
            with self.subTest(bound), Server(longer) as self.server, Account(self.server.port) as self.account:
                run, commands = self.session("-d", bound=bound)
                self.assertEqual((run, commands), (REFUSED, ["RETR 1", "DELE 1", "RETR 2", "RSET", "QUIT"]))
                self.assertEqual(self.account.held(), longer[:1])
                self.assertEqual(self.server.messages, longer)
                self.assertEqual(os.listdir(self.account.maildir / "tmp"), [])
                self.check_completed(longer)


class FailedWrites(Devices):
    def test_a_fault_that_is_told_to_the_writing_handle_alone(self):
        """The record is flushed by the handle that wrote to it: by a new one no fault would be told."""
        self.list_only()
        with preload.library("refuse_call") as refusing:
            run, commands = self.session("-d", LD_PRELOAD=str(refusing), REFUSED_CALL="writer-flush",
                                         REFUSED_FILE=str(self.account.record))
        self.assertEqual((run, commands), (RECORD_REFUSED, ["RETR 1", "RSET", "QUIT"]))
        self.assertEqual(self.server.messages, THREE)
        self.check_completed()


class OtherHands(Devices):
    def test_a_record_that_is_taken_away_meanwhile(self):
        """It isn't made anew from one group, which would be a record of this message alone."""
        def take_away(command):
            if command == "RETR 2":
                self.account.record.unlink()

        self.meddle(take_away)
        run, commands = self.session("-d")
        self.assertEqual((run, commands), (RECORD_REFUSED, ["RETR 1", "DELE 1", "RETR 2", "RSET", "QUIT"]))
        self.assertFalse(self.account.record.exists())
        self.assertEqual(self.server.messages, THREE)
        self.assertEqual(self.account.held(), THREE[:2])
        self.server.meanwhile = lambda command: None
        self.check_completed()

    def test_a_record_that_is_replaced_meanwhile(self):
        """Nothing is appended to a file that has no name any more."""
        def replace(command):
            if command == "RETR 2":
                copy = self.account.home / "copy"
                copy.write_bytes(self.account.record.read_bytes())
                copy.rename(self.account.record)

        self.meddle(replace)
        run, commands = self.session("-d")
        self.assertEqual((run, commands), (RECORD_REFUSED, ["RETR 1", "DELE 1", "RETR 2", "RSET", "QUIT"]))
        self.assertEqual(self.server.messages, THREE)
        self.assertEqual(self.account.held(), THREE[:2])
        self.server.meanwhile = lambda command: None
        self.check_completed()

    def test_a_file_that_is_put_there_meanwhile(self):
        """A file of the message's own name isn't overwritten."""
        def put(command):
            if command == "RETR 2":
                (self.account.maildir / "new" / self.account.name(*THREE[1])).write_bytes(b"his\n")

        self.meddle(put)
        run, commands = self.session("-d")
        self.assertEqual((run, commands), (REFUSED, ["RETR 1", "DELE 1", "RETR 2", "RSET", "QUIT"]))
        self.assertEqual(self.account.held(), [THREE[0], (b"b", b"his\n")])
        self.assertEqual(self.server.messages, THREE)
        self.assertEqual(os.listdir(self.account.maildir / "tmp"), [])

    def test_a_look_that_fails(self):
        """A disk that can't tell whether a file is there isn't taken for one that has none."""
        with preload.library("refuse_call") as refusing:
            run, commands = self.session("-d", LD_PRELOAD=str(refusing), REFUSED_CALL="look")
        self.assertEqual((run, commands), (REFUSED, ["RETR 1", "RSET", "QUIT"]))
        self.assertEqual(self.account.held(), [])
        self.check_completed()

    def test_folders_beside_the_files(self):
        """A folder is no message, whatever its name; in `new` it stops the message of that name alone."""
        (self.account.maildir / "new" / self.account.name(*THREE[0])).mkdir()
        (self.account.maildir / "cur" / self.account.name(*THREE[2])).mkdir()
        (self.account.maildir / "cur" / (self.account.name(*THREE[1]) + ":2,S")).write_bytes(THREE[1][1])
        _, commands = self.session()
        self.assertEqual(commands, ["RETR 3", "QUIT"])
        (self.account.maildir / "new" / self.account.name(*THREE[0])).rmdir()
        _, commands = self.session()
        self.assertEqual(commands, ["RETR 1", "QUIT"])

    def test_files_of_others(self):
        """Names of other accounts and other forms, names that aren't text, and hidden files are beside those of the
        account."""
        for part in ("new", "cur"):
            for name in (b"1700000000.1_2.host", b".hidden", b"\xff\xfe", b"x" * 64 + b".61", b"a:2,S",
                         self.account.digest.encode(), self.account.digest.encode() + b".6"):
                with open(os.path.join(os.fsencode(self.account.maildir / part), name), "wb") as file:
                    file.write(b"other\n")
        run, commands = self.session("-d")
        self.assertEqual((run, commands), (programs.SILENT, EACH_FETCHED_AND_DELETED + ["QUIT"]))
        for part, count in (("new", 10), ("cur", 7)):
            self.assertEqual(len(os.listdir(os.fsencode(self.account.maildir / part))), count)


class ManyNames(Devices):
    def test_a_folder_of_many_names(self):
        """Each of them is held, whatever its place in the folder; and each is flushed, so the home is in memory."""
        count = 30_000
        messages = [(b"%05d" % number, b"") for number in range(count)]
        with Server(messages) as self.server, Account(self.server.port, above=MEMORY) as self.account:
            for number, (uid, text) in enumerate(messages):
                part, mark = (("new", ""), ("cur", ":2,S"))[number % 5 > 0]
                (self.account.maildir / part / (self.account.name(uid, text) + mark)).touch()
            run, commands = self.session()
            self.assertEqual((run, commands), (programs.SILENT, ["QUIT"]))
            self.account.record.unlink()
            (self.account.maildir / "cur" / (self.account.name(b"12346", b"") + ":2,S")).unlink()
            run, commands = self.session()
            self.assertEqual((run, commands), (programs.SILENT, ["RETR 12347", "QUIT"]))

