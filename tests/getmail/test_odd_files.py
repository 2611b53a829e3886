"""What has the name of a message, and is no file that can be read, stops nothing but its own message: that one is neither
fetched nor deleted, no run waits for it, and each one names its path, what is wrong with it and the account, without being
asked."""

import os
import shutil
import socket
import stat
import subprocess
import unittest

from getmail.account import Account
from getmail.server import size_of
from getmail.shared_server import SharedServer
from harness import programs
from harness.kernel import LOOPBACK
from probe import grammar

LETTERS = [(b"uid-%d" % number, b"Subject: %d\n\ntext\n" % number) for number in range(3)]

# A user for whom a file's mode counts.
NOBODY = 65534

IRREGULAR = "not a regular file"
WEEK = 604_800


def remove(path):
    os.rmdir(path) if stat.S_ISDIR(os.lstat(path).st_mode) else os.unlink(path)


def make_socket(path):
    """The path of a socket has at most 107 octets."""
    short = path.parent.parent / "s"
    with socket.socket(socket.AF_UNIX) as made:
        made.bind(str(short))
    short.rename(path)


def make_device(path):
    if os.geteuid() != 0:
        raise unittest.SkipTest("only the superuser makes devices")
    os.mknod(path, stat.S_IFCHR | 0o666, os.makedev(1, 3))


def make_link_to_a_pipe(path):
    pipe = path.parent.parent / "pipe"
    if not pipe.exists():
        os.mkfifo(pipe)
    path.symlink_to(pipe)


def make_unreadable(path):
    path.write_bytes(LETTERS[0][1])
    path.chmod(0)


KINDS = (
    ("a pipe", os.mkfifo, IRREGULAR),
    ("a socket", make_socket, IRREGULAR),
    ("a device", make_device, IRREGULAR),
    ("a link to nothing", lambda path: path.symlink_to("nowhere"), "a link that leads nowhere"),
    ("a link to itself", lambda path: path.symlink_to(path.name), "Too many levels of symbolic links"),
    ("a link to a name too long", lambda path: path.symlink_to("x" * 300), "File name too long"),
    ("a link to a pipe", make_link_to_a_pipe, IRREGULAR),
    ("a link to a folder", lambda path: path.symlink_to("/"), IRREGULAR),
    ("a file without rights", make_unreadable, "Permission denied"),
    ("a folder", os.mkdir, IRREGULAR),
)


class OddFiles(unittest.TestCase):
    def setUp(self):
        self.server = self.enterContext(SharedServer(LETTERS))
        self.account = self.enterContext(Account(self.server.port, "max_messages_per_session = 1\n"))
        self.user = {}
        self.program = programs.path_of("getmail")
        if os.geteuid() == 0:
            self.program = self.account.home / "getmail"
            shutil.copy(programs.path_of("getmail"), self.program)
            self.user = {"user": NOBODY, "group": NOBODY, "extra_groups": []}

    def give_away(self):
        for folder, folders, files in os.walk(self.account.home):
            for name in (".", *folders, *files):
                if self.user:
                    os.chown(os.path.join(folder, name), NOBODY, NOBODY, follow_symlinks=False)

    def empty(self):
        """The account is as at first."""
        self.account.record.unlink(missing_ok=True)
        self.server.messages = list(LETTERS)
        for path in self.paths():
            remove(path)

    def paths(self):
        return {path for part in ("new", "cur") for path in (self.account.maildir / part).iterdir()}

    def path_for(self, letter, part, marks=""):
        return self.account.maildir / part / (self.account.name(*letter) + marks)

    def run_getmail(self, *words):
        self.server.forget()
        done = subprocess.run([self.program, *words], stdin=subprocess.DEVNULL, capture_output=True,
                              env=programs.environment(HOME=str(self.account.home)), timeout=programs.SECONDS, **self.user)
        self.server.wait_for_end()
        return programs.Run(done.returncode, done.stdout, done.stderr)

    def age_memory(self, seconds):
        """Has unattended runs have told all that they told so many seconds earlier."""
        path, = (path for path in self.account.folder.iterdir() if path.name.startswith("told-"))
        rows = [line.split() for line in path.read_text().splitlines()]
        aged = [[*row[:2], str(int(row[2]) - seconds)] if row[0] == "said" else row for row in rows]
        path.write_text("\n".join(" ".join(row) for row in aged))

    def fetched(self):
        """What the last run sent RETR for."""
        return [command for command in self.server.commands[1] if command.startswith("RETR")]

    def told(self, path, words):
        return f"getmail: u@{LOOPBACK}:{self.server.port}: {path}: {words}\n".encode()

    def undelivered(self):
        """The unique-ids that the record shows as not delivered."""
        rows = grammar.record_of(self.account.record.read_bytes()).rows
        return {uid for uid, (_, state) in rows.items() if state == b"0"}

    def check_told(self, path, words):
        """The other messages come one by one, as the limit says, and are deleted; of this one nothing is done."""
        before = os.lstat(path)
        left_out = self.told("left out", "1 obstructed")
        for options, more, numbers in (((), b"", (0, 2)), (("--why",), left_out, (0,)), ((), b"", (0,))):
            done = self.run_getmail("-q", "-d", *options)
            self.assertEqual(done, programs.Run(0, b"", more + self.told(path, words)))
            self.assertEqual(self.server.messages, [LETTERS[number] for number in numbers])
            self.assertEqual(self.undelivered(), {LETTERS[number][0] for number in numbers})
        self.assertEqual(self.paths(), {path, *(self.path_for(letter, "new") for letter in LETTERS[1:])})
        after = os.lstat(path)
        for what in ("st_ino", "st_mode", "st_size", "st_ctime_ns"):
            self.assertEqual(getattr(after, what), getattr(before, what))

    def check_all_came(self):
        self.assertEqual((self.account.held(), self.server.messages), (LETTERS, []))

    def test_names_that_are_almost_those_of_messages(self):
        """A digit less or more, or one in upper case: nothing is told of them, and each message comes."""
        front, _, digits = self.account.name(*LETTERS[0]).partition(",")[0].partition(".")
        for part in ("new", "cur"):
            for odd in (digits[:-1], digits[:-2], digits + "6", digits + "61", digits.upper()):
                os.mkfifo(self.account.maildir / part / f"{front}.{odd}")
        self.give_away()
        self.assertEqual(self.run_getmail("-q"), programs.SILENT)
        self.assertEqual(self.fetched(), ["RETR 1"])

    def test_each_kind(self):
        """Once it is removed, its message comes."""
        for part, marks in (("new", ""), ("cur", ":2,S")):
            for kind, make, words in KINDS:
                if part == "cur" and kind == "a folder":
                    # Passed over there: no message is put into `cur`, so it is in the way of none.
                    continue
                with self.subTest(kind=kind, part=part):
                    self.empty()
                    path = self.path_for(LETTERS[0], part, marks)
                    make(path)
                    self.give_away()
                    self.check_told(path, words)
                    remove(path)
                    self.assertEqual(self.run_getmail("-q", "-d"), programs.SILENT)
                    self.assertEqual(self.fetched(), ["RETR 1"])
                    self.check_all_came()

    def test_reports(self):
        """A report and a preview say of the message that it is obstructed."""
        path = self.path_for(LETTERS[0], "new")
        os.mkfifo(path)
        self.give_away()
        front = f"SimplePOP3Retriever:u@{LOOPBACK}:{self.server.port}:\n".encode()
        size = b"%d octets" % size_of(LETTERS[0][1])
        preview = self.run_getmail("--pretend", "-d")
        self.assertEqual((preview.status, preview.err), (0, self.told(path, IRREGULAR)))
        self.assertTrue(preview.out.startswith(front + b"msg 1/3 (" + size + b") obstructed\nmsg 2/3 ("))
        self.assertTrue(preview.out.endswith(b"1 of 3 messages (0.0 kB) would be fetched, 1 deleted\n"))
        left_out = self.told("left out", "1 obstructed")
        for words, err, reason in (((), b"", b""), (("--why",), left_out, b": obstructed")):
            report = self.run_getmail("-v", "-v", *words)
            self.assertEqual((report.status, report.err), (0, err + self.told(path, IRREGULAR)))
            self.assertIn(b"msg 1/3 (" + size + b") skipped" + reason + b"\n", report.out)

    def test_a_name_that_is_taken_once_the_names_were_listed(self):
        """Nothing is put over it: the run is refused, and names the path unless a file has it, and the next one knows it."""
        path = self.path_for(LETTERS[0], "new")
        for kind, make, words in KINDS:
            with self.subTest(kind=kind):
                self.empty()
                self.give_away()
                self.server.give = lambda session, say, octets, make=make: (make(path), say(octets))
                told = b"" if kind == "a file without rights" else self.told(path, IRREGULAR)
                self.assertEqual(self.run_getmail("-q", "-d"), programs.Run(1, b"", b"getmail: destination refused\n" + told))
                self.assertEqual((self.paths(), self.server.messages), ({path}, LETTERS))
                self.assertEqual(list((self.account.maildir / "tmp").iterdir()), [])
                self.server.give = lambda session, say, octets: say(octets)
                self.give_away()
                self.check_told(path, words)

    def test_repaired(self):
        """Once it leads to a file that can be read, its message is held, as if the file had always been there."""
        def give_rights(path):
            path.chmod(0o600)

        def make_target(path):
            (path.parent / "nowhere").write_bytes(LETTERS[0][1])

        kinds = {kind: make for kind, make, _ in KINDS}
        for kind, repair in (("a file without rights", give_rights), ("a link to nothing", make_target)):
            with self.subTest(kind=kind):
                self.empty()
                path = self.path_for(LETTERS[0], "cur", ":2,S")
                kinds[kind](path)
                self.give_away()
                self.assertEqual(self.run_getmail("-q", "-d").status, 0)
                repair(path)
                self.give_away()
                for _ in LETTERS[1:]:
                    self.assertEqual(self.run_getmail("-q", "-d"), programs.SILENT)
                self.check_all_came()

    def test_beside_a_file(self):
        """A file of the message in the other folder counts, so the message is recorded and deleted, and not looked for
        again."""
        path = self.path_for(LETTERS[0], "cur", ":2,S")
        path.symlink_to("nowhere")
        self.path_for(LETTERS[0], "new").write_bytes(LETTERS[0][1])
        self.give_away()
        self.assertEqual(self.run_getmail("-q", "-d"), programs.Run(0, b"", self.told(path, "a link that leads nowhere")))
        self.assertEqual(self.server.messages, LETTERS[2:])
        self.assertEqual(self.run_getmail("-q", "-d"), programs.SILENT)
        path.unlink()
        self.check_all_came()

    def test_a_recorded_message(self):
        """It is looked for by a preview and with `read_all`, which neither fetches it again nor deletes it; else it is deleted
        when it is due."""
        self.give_away()
        for _ in LETTERS:
            self.assertEqual(self.run_getmail("-q"), programs.SILENT)
        path = self.path_for(LETTERS[0], "new")
        path.unlink()
        os.mkfifo(path)
        self.give_away()
        told = self.told(path, IRREGULAR)
        preview = self.run_getmail("--pretend")
        self.assertEqual((preview.status, preview.err), (0, told))
        self.assertIn(b" delivered before\n", preview.out)
        for words in ((), ("-d",)):
            self.assertEqual(self.run_getmail("-q", "-a", *words), programs.Run(0, b"", told))
            self.assertEqual(self.fetched(), ["RETR 2"])
        self.assertEqual(self.server.messages, LETTERS[:1])
        self.assertEqual(self.run_getmail("-q", "-d"), programs.SILENT)
        self.assertEqual((self.fetched(), self.server.messages), ([], []))

    def test_unattended(self):
        """Each path is named once, and a week later again; mending one tells none anew."""
        first, second = self.path_for(LETTERS[0], "new"), self.path_for(LETTERS[1], "new")
        os.mkfifo(first)
        self.give_away()
        line = self.told(first, IRREGULAR)
        self.assertEqual(self.run_getmail("--unattended"), programs.Run(0, b"", line))
        self.assertEqual(self.run_getmail("--unattended"), programs.SILENT)
        self.assertEqual(self.undelivered(), {LETTERS[0][0]})
        self.empty()
        os.mkfifo(first)
        os.mkfifo(second)
        self.give_away()
        self.assertEqual(self.run_getmail("--unattended"), programs.Run(0, b"", self.told(second, IRREGULAR)))
        self.assertEqual(self.run_getmail("--unattended"), programs.SILENT)
        self.age_memory(WEEK)
        self.assertEqual(set(self.run_getmail("--unattended").err.splitlines(keepends=True)),
                         {line, self.told(second, IRREGULAR)})
        second.unlink()
        self.assertEqual(self.run_getmail("--unattended"), programs.SILENT)
        self.age_memory(WEEK - 60)
        self.assertEqual(self.run_getmail("--unattended"), programs.SILENT)

    def test_a_link_to_a_file_counts(self):
        """It was flushed, so its message is recorded and deleted."""
        elsewhere = self.account.home / "elsewhere"
        elsewhere.write_bytes(LETTERS[0][1])
        self.path_for(LETTERS[0], "cur", ":2,S").symlink_to(elsewhere)
        self.give_away()
        for _ in LETTERS:
            self.assertEqual(self.run_getmail("-q", "-d"), programs.SILENT)
        self.check_all_came()


if __name__ == "__main__":
    unittest.main()
