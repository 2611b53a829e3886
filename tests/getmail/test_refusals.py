"""What the system refuses: folders that can't be written, disks that are full, records that can't be grown.

Each run ends with its line and leaves nothing half done, and the next one, with nothing refused, completes it.
"""

import errno
import os
import resource
import shutil
import subprocess
import unittest

from getmail.account import Account
from getmail.server import Server
from harness import preload, programs

THREE = [(b"a", b"one\n" * 200), (b"b", b"two\n" * 4000), (b"c", b"three\n" * 200)]
LOGIN = ["USER u", "PASS sesame", "STAT", "UIDL", "LIST"]

REFUSED = b"getmail: destination refused\n"
MISSING = b"getmail: destination missing\n"
RECORD_REFUSED = b"getmail: seen file refused\n"

# The calls of an open file that a session makes for its record.
OF_AN_OPEN_FILE = {"fstat", "lseek", "read", "write", "fsync"}

# A user who may write only what is given to him; for the superuser no mode forbids anything.
NOBODY = 65534


class Refusals(unittest.TestCase):
    def setUp(self):
        self.server = Server(THREE)
        self.addCleanup(self.server.close)
        self.account = Account(self.server.port)
        self.addCleanup(self.account.holder.cleanup)
        self.user = {}
        self.program = programs.path_of("getmail")
        if os.geteuid() == 0:
            self.become_nobody()

    def become_nobody(self):
        """Lets the runs be those of a common user, who owns the home."""
        self.program = self.account.home / "getmail"
        shutil.copy(programs.path_of("getmail"), self.program)
        self.user = {"user": NOBODY, "group": NOBODY, "extra_groups": []}
        for folder, _, files in os.walk(self.account.home):
            for name in [".", *files]:
                self.give_away(os.path.join(folder, name))

    def give_away(self, path):
        """Gives the user a file that this test made."""
        if self.user:
            os.chown(path, NOBODY, NOBODY)

    def session(self, *words, **bounds):
        """One run against one session of the server, with its commands."""
        thread = self.server.begin_session()
        done = subprocess.run([self.program, *words], stdin=subprocess.DEVNULL, capture_output=True,
                              env=programs.environment(HOME=str(self.account.home)), timeout=programs.SECONDS,
                              **self.user, **bounds)
        thread.join(programs.SECONDS)
        return programs.Run(done.returncode, done.stdout, done.stderr), self.server.commands

    def check_refused(self, line, commands, held, **bounds):
        run, sent = self.session("-q", "-d", **bounds)
        self.assertEqual((run, sent), (programs.Run(1, b"", line), LOGIN + commands + ["RSET", "QUIT"]))
        self.assertEqual(self.account.held(), held)
        self.assertEqual(self.server.messages, THREE)
        self.assertEqual(self.in_tmp(), [])

    def in_tmp(self):
        return os.listdir(self.account.maildir / "tmp")

    def check_completed(self):
        run, _ = self.session("-q", "-d")
        self.assertEqual(run, programs.SILENT)
        self.assertEqual(self.account.held(), THREE)
        self.assertEqual(self.server.messages, [])
        self.assertEqual(self.in_tmp(), [])

    def test_a_maildir_that_cannot_be_written(self):
        for part, commands, held in (("tmp", ["RETR 1"], []), ("new", ["RETR 1"], [])):
            with self.subTest(part):
                (self.account.maildir / part).chmod(0o500)
                self.check_refused(REFUSED, commands, held)
                (self.account.maildir / part).chmod(0o700)
        self.check_completed()

    def test_the_right_that_is_missing_is_told(self):
        """With reasons: the folder that may not be written, or the file, and what gives the right. A name goes from `tmp` to
        `new`: the Maildir is named, since it isn't known which of them refused it."""
        account = f"getmail: {self.account.name_in_lines}: "
        hint = account + "it wants rights to read and write: chmod -R u+rwX gives them, if it is yours\n"
        maildir, folder, record = self.account.maildir, self.account.folder, self.account.record
        for path, mode, fault, named in ((maildir / "tmp", 0o500, REFUSED, f"{maildir}/"), (maildir / "new", 0o500, REFUSED, f"{maildir}/"),
                                         (maildir / "cur", 0o300, REFUSED, maildir / "cur"),
                                         (folder, 0o500, RECORD_REFUSED, folder), (record, 0o000, RECORD_REFUSED, record)):
            record.unlink(missing_ok=True)
            if path == record:
                record.write_bytes(b"getmail-seen 1\n")
                self.give_away(record)
            with self.subTest(path):
                path.chmod(mode)
                run, _ = self.session("-q", "--why")
                path.chmod(0o700)
                told = fault.decode() + f"{account}{named}: Permission denied\n" + hint
                self.assertEqual((run.status, run.err.decode()[-len(told):]), (1, told))
        self.check_completed()

    def test_a_maildir_that_cannot_be_listed(self):
        for part in ("new", "cur"):
            with self.subTest(part):
                (self.account.maildir / part).chmod(0o300)
                run, sent = self.session("-q", "-d")
                self.assertEqual((run, sent), (programs.Run(1, b"", REFUSED), LOGIN + ["RSET", "QUIT"]))
                (self.account.maildir / part).chmod(0o700)
        self.check_completed()

    def test_a_folder_that_is_missing(self):
        for part, commands in (("new", []), ("cur", []), ("tmp", ["RETR 1"])):
            with self.subTest(part):
                (self.account.maildir / part).rmdir()
                run, sent = self.session("-q", "-d")
                self.assertEqual((run, sent), (programs.Run(1, b"", MISSING), LOGIN + commands + ["RSET", "QUIT"]))
                self.assertFalse((self.account.maildir / part).exists())
                (self.account.maildir / part).mkdir()
                self.give_away(self.account.maildir / part)
        self.check_completed()

    def test_a_record_that_cannot_be_made(self):
        self.account.folder.chmod(0o500)
        self.check_refused(RECORD_REFUSED, [], [])
        self.account.folder.chmod(0o700)
        self.check_completed()

    def test_a_record_that_cannot_be_grown(self):
        self.server.messages = THREE[:1]
        self.session("-q")
        self.server.messages = list(THREE)
        self.account.record.chmod(0o400)
        self.check_refused(RECORD_REFUSED, [], THREE[:1])
        self.account.record.chmod(0o600)
        self.check_completed()

    def test_a_record_that_cannot_be_read(self):
        self.account.record.write_bytes(b"getmail-seen 1\n")
        self.give_away(self.account.record)
        self.account.record.chmod(0o000)
        self.check_refused(RECORD_REFUSED, [], [])
        self.account.record.chmod(0o600)
        self.check_completed()

    def test_a_record_that_is_not_understood(self):
        self.account.record.write_bytes(b"getmail-seen 1\na 5\n")
        self.give_away(self.account.record)
        self.check_refused(b"getmail: seen file not understood at line 2\n", [], [])
        self.assertEqual(self.account.record.read_bytes(), b"getmail-seen 1\na 5\n")
        self.account.record.unlink()
        self.check_completed()

    def test_files_up_to_a_size(self):
        """As on a full disk: a write is refused in the middle of a message."""
        def bound():
            resource.setrlimit(resource.RLIMIT_FSIZE, (10_000, 10_000))

        # Python ignores the signal for the bound, and so does the program, which sees an error instead.
        self.check_refused(REFUSED, ["RETR 1", "DELE 1", "RETR 2"], THREE[:1], preexec_fn=bound, restore_signals=False)
        self.check_completed()


class EachCall(unittest.TestCase):
    """Each flush and each new name of a session refused in turn, every write cut in two."""

    def test_each_refused_call(self):
        with preload.library("watch_files") as watched:
            for number in range(1, 200):
                with self.subTest(number=number), Server(THREE) as server, Account(server.port) as account:
                    changes = {"LD_PRELOAD": str(watched), "WATCH_REFUSED": str(number),
                               "WATCH_NOTE": str(account.home / "note")}
                    run = self.session(server, account, **changes)
                    refused = "refused" in (account.home / "note").read_text()
                    if refused:
                        self.assertEqual((run.status, run.out), (1, b""))
                        self.assertIn(run.err, (REFUSED, RECORD_REFUSED))
                    held = account.held()
                    self.assertEqual(held, THREE[:len(held)])
                    self.assertEqual(os.listdir(account.maildir / "tmp"), [])
                    self.assertEqual(self.session(server, account), programs.SILENT)
                    self.assertEqual(account.held(), THREE)
                    self.assertEqual(server.messages, [])
                if not refused:
                    self.assertGreater(number, 10)
                    return
        self.fail("a session has more than 200 flushes and new names")

    def session_of_known(self, library, **changes):
        """A session without `-d` of three messages, two of which the record shows and the Maildir has no more: the run, its commands,
        and the names of the calls that it made for the record."""
        with Server(THREE[:2]) as server, Account(server.port) as account:
            self.assertEqual(self.session(server, account, "-q"), programs.SILENT)
            for name in os.listdir(account.maildir / "new"):
                (account.maildir / "new" / name).unlink()
            server.messages = list(THREE)
            note = account.home / "note"
            changes |= {"LD_PRELOAD": str(library), "STEP_BELOW": str(account.record), "STEP_NOTE": str(note)}
            run = self.session(server, account, "-q", **changes)
            return run, server.commands, [line.split("\t")[0] for line in note.read_text().splitlines()]

    def test_an_open_file_that_is_told_to_be_missing(self):
        """Once the record is open, ENOENT of a call on it doesn't mean that there is none: no message is fetched twice."""
        with preload.library("refuse_step") as refuse_step:
            run, commands, steps = self.session_of_known(refuse_step)
            self.assertEqual((run, commands), (programs.SILENT, [*LOGIN, "RETR 3", "QUIT"]))
            self.assertLess(OF_AN_OPEN_FILE, set(steps))
            for number, step in enumerate(steps, 1):
                if step in OF_AN_OPEN_FILE:
                    with self.subTest(number=number, step=step):
                        run, commands, refused = self.session_of_known(refuse_step, STEP_REFUSED=str(number), STEP_ERROR=str(errno.ENOENT))
                        self.assertEqual(refused[number - 1], f"refused {step}")
                        self.assertEqual(run, programs.Run(1, b"", RECORD_REFUSED))
                        self.assertEqual([command for command in commands if command in ("RETR 1", "RETR 2")], [])

    @staticmethod
    def session(server, account, *words, **changes):
        thread = server.begin_session()
        run = account.run(*(words or ("-q", "-d")), **changes)
        thread.join(programs.SECONDS)
        return run
