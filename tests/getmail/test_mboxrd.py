"""Whole sessions into an mboxrd file: what it and the record contain, byte for byte, and each refusal's line."""

import os
import resource
import shutil
import stat
import subprocess
import unittest

from getmail.mbox_account import MBOXRD_LINES, OTHER, MboxAccount
from getmail.server import Server
from harness import preload, programs
from harness.kernel import LOOPBACK
from harness.mboxrd import entries, entry

THREE = [(b"a", b"one\n"), (b"b", b"two\n"), (b"c", b"three\n")]
TEXTS = [text for _, text in THREE]
LOGIN = ["USER u", "PASS sesame", "STAT", "UIDL", "LIST"]
RETRS = ["RETR 1", "RETR 2", "RETR 3"]
TAIL = ["RSET", "QUIT"]
REPORT = ("SimplePOP3Retriever:u@{server}:{port}:\n"
          "msg 1/3 (4 bytes) delivered\nmsg 2/3 (4 bytes) delivered\nmsg 3/3 (6 bytes) delivered\n"
          "3 messages (14 bytes) retrieved, 0 skipped, 0 deleted\n")
REFUSED = b"getmail: destination refused\n"
MISSING = b"getmail: destination missing\n"
NO_MBOX = b"getmail: destination is no mbox\n"
RECORD_REFUSED = b"getmail: seen file refused\n"

# A user who may write only what is given to him; for the superuser no mode forbids anything.
NOBODY = 65534


class Mboxrd(unittest.TestCase):
    def setUp(self):
        self.server = Server(THREE)
        self.addCleanup(self.server.close)
        self.account = MboxAccount(self.server.port)
        self.addCleanup(self.account.holder.cleanup)

    def session(self, *words, **changes):
        """One run against one session of the server."""
        thread = self.server.begin_session()
        run = self.account.run(*words, **changes)
        thread.join(programs.SECONDS)
        return run

    def check_session(self, commands, *words, run=programs.SILENT):
        """A session that sends these commands after its listings, and ends as `run`."""
        self.assertEqual((self.session("-q", *words), self.server.commands), (run, LOGIN + commands))

    def check_refused(self, line, commands=(), content=None):
        """A session that ends with this line and leaves the file as it is."""
        content = self.account.content() if content is None else content
        self.check_session([*commands, *TAIL], run=programs.Run(1, b"", line))
        self.assertEqual(self.account.content(), content)

    def set_option(self, line):
        self.account.rcfile.write_text(self.account.rcfile.read_text() + line)


class Sessions(Mboxrd):
    def test_three_messages(self):
        run = self.session()
        self.assertEqual((run.status, run.out.decode(), run.err),
                         (0, REPORT.format(server=LOOPBACK, port=self.server.port), b""))
        self.assertEqual(self.server.commands, LOGIN + RETRS + ["QUIT"])
        self.assertEqual(self.account.content(), entries(TEXTS))

    def test_the_record_by_the_byte(self):
        """Each text's intent, with the file's size and the length of the entry, comes before the text's own group."""
        with preload.library("clock") as clock:
            (clock.parent / "clock").write_text("1700000000")
            self.assertEqual(self.session("-q", LD_PRELOAD=str(clock), CLOCK=str(clock.parent / "clock")), programs.SILENT)
        self.assertEqual(self.account.record.read_bytes(),
                         b"getmail-seen 2\na 1700000000 0\nb 1700000000 0\nc 1700000000 0\n"
                         b"! a 0 49\n+ 1\na 1700000000 1\n! b 49 49\n+ 1\nb 1700000000 1\n"
                         b"! c 98 51\n+ 1\nc 1700000000 1\n")

    def test_nothing_is_fetched_twice(self):
        self.session()
        record = self.account.record.read_bytes()
        self.check_session(["QUIT"])
        self.assertEqual((self.account.content(), self.account.record.read_bytes()), (entries(TEXTS), record))

    def test_what_is_recorded_is_deleted(self):
        self.session("-q")
        self.check_session(["DELE 1", "DELE 2", "DELE 3", "QUIT"], "-d")
        self.assertEqual((self.server.messages, self.account.content()), ([], entries(TEXTS)))

    def test_what_is_stored_is_deleted(self):
        self.check_session([word for number in (1, 2, 3) for word in (f"RETR {number}", f"DELE {number}")] + ["QUIT"], "-d")
        self.assertEqual((self.server.messages, self.account.content()), ([], entries(TEXTS)))

    def test_what_was_there_stays(self):
        for old in (OTHER, OTHER * 2, entry(b"a text\n")):
            with self.subTest(old=old):
                self.account.mbox.write_bytes(old)
                self.account.record.unlink(missing_ok=True)
                self.check_session(RETRS + ["QUIT"])
                self.assertEqual(self.account.content(), old + entries(TEXTS))

    def test_messages_are_quoted(self):
        self.server.messages = [(b"a", b"From x\n>From y\n From z\n")]
        self.check_session(["RETR 1", "QUIT"])
        self.assertEqual(self.account.content(), b"From MAILER-DAEMON Thu Jan  1 00:00:00 1970\n"
                                                 b">From x\n>>From y\n From z\n\n")
        self.assertEqual(len(self.account.content()), 70)

    def test_texts_of_every_kind(self):
        texts = [b"", b"\n", b".\n..\n", b"a\r\n", b"From\nFrom:\nfrom x\n", b"\0\xff\xe4\n", b">" * 5000 + b"From x\n",
                 b"a line\n" * 50_000, b"x" * 300_000 + b"\n", b"From \n", b"\n\n\nFrom x\n\n\n"]
        self.server.messages = [(b"%d" % number, text) for number, text in enumerate(texts)]
        self.check_session([f"RETR {number}" for number in range(1, len(texts) + 1)] + ["QUIT"])
        self.assertEqual(self.account.content(), entries(texts))

    def test_all_again(self):
        """With -a each text is appended again, since nothing shows which message an entry is of."""
        self.session("-q")
        self.check_session(RETRS + ["QUIT"], "-a")
        self.assertEqual(self.account.content(), entries(TEXTS) * 2)
        self.check_session(["QUIT"])

    def test_a_few_a_session(self):
        self.set_option("max_messages_per_session = 2\n")
        self.check_session(["RETR 1", "RETR 2", "QUIT"])
        self.check_session(["RETR 3", "QUIT"])
        self.assertEqual(self.account.content(), entries(TEXTS))

    def test_a_message_that_is_refused(self):
        self.server.refuses = ("RETR 2",)
        self.check_session(["RETR 1", "RETR 2", "QUIT"], run=programs.Run(1, b"", b"getmail: server refused RETR 2\n"))
        self.assertEqual(self.account.content(), entries(TEXTS[:1]))
        self.server.refuses = ()
        self.check_session(["RETR 2", "RETR 3", "QUIT"])
        self.assertEqual(self.account.content(), entries(TEXTS))

    def test_two_accounts_of_one_file(self):
        """One after the other, each with a record of its own."""
        with Server([(b"a", b"another's\n")]) as other, MboxAccount(other.port) as second:
            second.rcfile.write_text(second.rcfile.read_text().replace("~/mbox", str(self.account.mbox)))
            self.session("-q")
            thread = other.begin_session()
            self.assertEqual(second.run("-q"), programs.SILENT)
            thread.join(programs.SECONDS)
        self.server.messages.append((b"d", b"four\n"))
        self.check_session(["RETR 4", "QUIT"])
        self.assertEqual(self.account.content(), entries([*TEXTS, b"another's\n", b"four\n"]))


class Records(Mboxrd):
    """Records that are there before the first session with an mboxrd file."""

    def test_an_old_record(self):
        self.server.messages = THREE[:1]
        self.account.record.write_bytes(b"getmail-seen 1\na 5 1\n")
        self.check_session(["QUIT"])
        self.assertEqual(self.account.record.read_bytes(), b"getmail-seen 2\na 5 1\n")
        self.assertEqual(self.account.content(), b"")

    def test_an_old_record_goes_on(self):
        self.account.record.write_bytes(b"getmail-seen 1\na 5 1\nb 5 0\n+ 1\nb 5 1\n+ 1\nc 5 0\n")
        self.check_session(["RETR 3", "QUIT"])
        self.assertEqual(self.account.record.read_bytes(),
                         b"getmail-seen 2\na 5 1\nb 5 1\nc 5 0\n! c 0 51\n+ 1\nc 5 1\n")
        self.assertEqual(self.account.content(), entries(TEXTS[2:]))

    def test_a_record_that_is_not_understood(self):
        self.account.record.write_bytes(b"getmail-seen 2\na 5 1\n! b 0 49\n")
        self.check_refused(b"getmail: seen file not understood at line 3\n")
        self.assertEqual(self.account.record.read_bytes(), b"getmail-seen 2\na 5 1\n! b 0 49\n")


class Files(Mboxrd):
    """Files that can't be appended to."""

    def test_a_file_that_is_missing(self):
        """None is made."""
        self.account.mbox.unlink()
        self.check_session(TAIL, run=programs.Run(1, b"", MISSING))
        self.assertFalse(self.account.mbox.exists())
        self.account.mbox.touch()
        self.check_session(RETRS + ["QUIT"])

    def test_a_folder_that_is_missing(self):
        self.account.rcfile.write_text(self.account.rcfile.read_text().replace("~/mbox", "~/mail/mbox"))
        self.check_session(TAIL, run=programs.Run(1, b"", MISSING))
        self.assertFalse((self.account.home / "mail").exists())

    def test_a_file_that_is_no_mbox(self):
        for content in (b"abc\n", b"\n", b"\n\n", b"From x\n", b"From x\n\ny\n", b"from x\n\n", b"From x\r\n\r\n", b"\0"):
            with self.subTest(content=content):
                self.account.mbox.write_bytes(content)
                self.check_refused(NO_MBOX, content=content)
                self.assertFalse(self.account.record.exists())

    def test_a_folder_in_its_place(self):
        self.account.mbox.unlink()
        self.account.mbox.mkdir()
        self.check_session(TAIL, run=programs.Run(1, b"", REFUSED))
        self.assertEqual(os.listdir(self.account.mbox), [])

    def test_a_great_file(self):
        """More octets than 32 bits can count; only its ends are read."""
        front, size = b"From x\n", 5 << 30
        with self.account.mbox.open("wb") as mbox:
            mbox.write(front)
            mbox.truncate(size - 2)
            mbox.seek(size - 2)
            mbox.write(b"\n\n")
        self.check_session(RETRS + ["QUIT"])
        with self.account.mbox.open("rb") as mbox:
            mbox.seek(size)
            self.assertEqual(mbox.read(), entries(TEXTS))
        self.assertIn(b"\n! c %d 51\n" % (size + 98), self.account.record.read_bytes())

    def test_files_up_to_a_size(self):
        """As on a full disk: a write is refused in the middle of an entry, and what was written is cut off again."""
        self.server.messages[1] = (b"b", b"a longer text\n" * 1000)
        texts = [text for _, text in self.server.messages]

        def bound():
            resource.setrlimit(resource.RLIMIT_FSIZE, (10_000, 10_000))

        thread = self.server.begin_session()
        # Python ignores the signal for the bound, and so does the program, which sees an error instead.
        done = subprocess.run([programs.path_of("getmail"), "-q"], capture_output=True, restore_signals=False, preexec_fn=bound,
                              env=programs.environment(HOME=str(self.account.home)), timeout=programs.SECONDS)
        thread.join(programs.SECONDS)
        self.assertEqual((done.returncode, done.stderr), (1, REFUSED))
        self.assertEqual(self.server.commands, LOGIN + RETRS[:2] + TAIL)
        self.assertEqual(self.account.content(), entries(texts[:1]))
        self.check_session(RETRS[1:] + ["QUIT"])
        self.assertEqual(self.account.content(), entries(texts))

    def test_a_device_in_its_place(self):
        """What isn't kept isn't counted as stored."""
        for device in ("/dev/null", "/dev/full", "/dev/zero"):
            with self.subTest(device):
                self.account.rcfile.write_text(self.account.rcfile.read_text().replace("~/mbox", device))
                if os.geteuid() == 0:
                    # Others may write it, so the superuser's run refuses it before it connects.
                    run = self.account.run("-q", "-d")
                    self.assertEqual((run.status, run.err.count(b"\n")), (2, 1))
                else:
                    run = self.session("-q", "-d")
                    self.assertEqual((run.status, run.err), (1, REFUSED))
                self.assertEqual(self.server.messages, THREE)
                self.account.rcfile.write_text(self.account.rcfile.read_text().replace(device, "~/mbox"))

    def test_a_link_to_a_file(self):
        self.account.mbox.rename(self.account.home / "elsewhere")
        self.account.mbox.symlink_to("elsewhere")
        self.check_session(RETRS + ["QUIT"])
        self.assertTrue(self.account.mbox.is_symlink())
        self.assertEqual((self.account.home / "elsewhere").read_bytes(), entries(TEXTS))

    def test_a_path_from_the_working_folder(self):
        self.account.rcfile.write_text(self.account.rcfile.read_text().replace("~/mbox", "mbox"))
        thread = self.server.begin_session()
        done = subprocess.run([programs.path_of("getmail"), "-q"], cwd=self.account.home, capture_output=True,
                              env=programs.environment(HOME=str(self.account.home)), timeout=programs.SECONDS)
        thread.join(programs.SECONDS)
        self.assertEqual((done.returncode, done.stdout, done.stderr), (0, b"", b""))
        self.assertEqual(self.account.content(), entries(TEXTS))

    def test_its_mode_stays(self):
        # (the superuser's run refuses a file that others may write)
        for mode in (0o600, 0o640, 0o644) if os.geteuid() == 0 else (0o600, 0o660, 0o644):
            self.account.mbox.chmod(mode)
            self.server.messages = [(b"%o" % mode, b"x\n")]
            self.check_session(["RETR 1", "QUIT"])
            self.assertEqual(stat.S_IMODE(self.account.mbox.stat().st_mode), mode)
        self.assertEqual(stat.S_IMODE(self.account.record.stat().st_mode), 0o600)

    def test_nothing_else_is_made(self):
        self.check_session(RETRS + ["QUIT"])
        self.assertEqual(sorted(os.listdir(self.account.home)), [".getmail", "Maildir", "mbox"])
        self.assertEqual(sorted(os.listdir(self.account.folder)), ["getmailrc", self.account.lock.name, self.account.record.name])
        self.assertEqual([path for path in self.account.maildir.rglob("*") if path.is_file()], [])

    def test_a_rehearsal_keeps_its_maildir(self):
        """It reads no rc file, and writes no file."""
        given = b"".join(line + b"\r\n" for line in (
            b"+OK hi", b"+OK", b"+OK", b"+OK 1 5", b"+OK", b"1 a", b".", b"+OK", b"1 5", b".", b"+OK", b"one", b".", b"+OK"))
        run = self.account.run("--rehearse", given=given)
        self.assertEqual((run.status, run.out.splitlines()[-2:]), (0, [b"stored a 4", b"ended"]))
        self.assertEqual(self.account.content(), b"")


class Modes(Mboxrd):
    """Files that a common user can't read or write."""

    def setUp(self):
        super().setUp()
        self.program, self.user = programs.path_of("getmail"), {}
        if os.geteuid() == 0:
            self.program = self.account.home / "getmail"
            shutil.copy(programs.path_of("getmail"), self.program)
            self.user = {"user": NOBODY, "group": NOBODY, "extra_groups": []}
            for folder, _, files in os.walk(self.account.home):
                for name in [".", *files]:
                    os.chown(os.path.join(folder, name), NOBODY, NOBODY)

    def session(self, *words, **changes):
        thread = self.server.begin_session()
        done = subprocess.run([self.program, *words], stdin=subprocess.DEVNULL, capture_output=True, **self.user, **changes,
                              env=programs.environment(HOME=str(self.account.home)), timeout=programs.SECONDS)
        thread.join(programs.SECONDS)
        return programs.Run(done.returncode, done.stdout, done.stderr)

    def check_completed(self):
        self.check_session(RETRS + ["QUIT"])
        self.assertEqual(self.account.content(), entries(TEXTS))

    def test_a_file_that_cannot_be_read(self):
        for mode in (0o000, 0o200):
            self.account.mbox.chmod(mode)
            self.check_refused(REFUSED)
        self.account.mbox.chmod(0o600)
        self.check_completed()

    def test_a_file_that_cannot_be_written(self):
        """The intent is open then, and the next session closes it."""
        self.account.mbox.chmod(0o400)
        self.check_refused(REFUSED, ["RETR 1"])
        self.assertEqual(self.account.known(), ([], (b"a", b"0", b"49")))
        self.account.mbox.chmod(0o600)
        self.check_completed()

    def test_a_record_that_cannot_be_made(self):
        self.account.folder.chmod(0o500)
        self.check_refused(RECORD_REFUSED)
        self.account.folder.chmod(0o700)
        self.check_completed()

    def test_a_record_that_cannot_be_grown(self):
        """The intent can't be written, so nothing is appended to the mboxrd file."""
        self.server.messages = []
        self.session("-q")
        rows = b"".join(b"%b 5 0\n" % uid for uid, _ in THREE)
        self.account.record.write_bytes(b"getmail-seen 2\n" + rows)
        if self.user:
            os.chown(self.account.record, NOBODY, NOBODY)
        self.server.messages = list(THREE)
        self.account.record.chmod(0o400)
        self.check_refused(RECORD_REFUSED, ["RETR 1"], b"")
        self.account.record.chmod(0o600)
        self.check_completed()


class Settings(unittest.TestCase):
    """What the rc file says of an mboxrd file."""

    def check_fault(self, old, new, line):
        with MboxAccount(1) as account:
            account.rcfile.write_text(account.rcfile.read_text().replace(old, new))
            self.assertEqual(account.run(), programs.Run(2, b"", line))
            self.assertEqual(account.content(), b"")

    def test_a_path_that_ends_in_a_slash(self):
        self.check_fault("~/mbox", "~/mbox/", b"getmail: destination.path has a bad form\n")

    def test_a_path_of_another_user(self):
        self.check_fault("~/mbox", "~fred/mbox", b"getmail: destination.path has a bad form\n")

    def test_other_kinds(self):
        for kind in ("mboxrd", "mbox", "Mboxcl", "MDA_external"):
            self.check_fault("Mboxrd", kind, b"getmail: destination.type unknown\n")

    def test_keys_without_effect(self):
        """Its lock and its mode aren't taken from the rc file."""
        with Server(THREE) as server, MboxAccount(server.port) as account:
            account.rcfile.write_text(account.rcfile.read_text().replace(
                MBOXRD_LINES, MBOXRD_LINES + "locktype = lockf\nfilemode = 0640\nuser = fred\n"))
            thread = server.begin_session()
            run = account.run("-q")
            thread.join(programs.SECONDS)
            warnings = [f"getmail: warning: line {line}: destination.{key} has no effect"
                        for line, key in ((11, "locktype"), (12, "filemode"), (13, "user"))]
            self.assertEqual((run.status, run.err.decode().splitlines()), (0, warnings))
            self.assertEqual(account.content(), entries(TEXTS))


if __name__ == "__main__":
    unittest.main()
