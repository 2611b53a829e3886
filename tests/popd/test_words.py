"""The words of the command line, the password file and the link: each fault with its line and its status, in order."""

import os
import re
import socket
import tempfile
import unittest
from pathlib import Path

from harness import programs
from harness.kernel import LOOPBACK
from popd.service import Maildir

WRONG_COUNT = programs.Run(2, b"", b"popd: wrong number of arguments\n")
READY = b"+OK popd ready\r\n"
HELP = b"""
Arguments:
  [USER]      The name of the user who may log in
  [PASSFILE]  The file whose first line is the password
  [MAILDIR]   The Maildir to serve

Options:
      --listen <ADDRESS>  Serve TCP connections to ADDRESS, HOST:PORT, one after the other [standard input and output]
      --connections <N>   End after N connections
      --rehearse...       Serve two small messages to user u with password p on standard input and output
      --verbose...        Report where it listens, logins, refused logins and removals on standard error
      --trace...          Show conversations and refused calls of the system on standard error
  -h, --help              Print help
  -V, --version           Print version
"""


def told(line):
    return programs.Run(1, b"", f"popd: {line}\n".encode())


class Words(unittest.TestCase):
    def setUp(self):
        self.maildir = Maildir()
        self.addCleanup(self.maildir.holder.cleanup)
        self.served = ["u", str(self.maildir.passfile), str(self.maildir.folder)]

    def run_popd(self, *words, given=b""):
        return programs.run("popd", *words, given=given)

    def test_help(self):
        for words in (["--help"], ["--help", "a"], ["--rehearse", "--help"]):
            with self.subTest(words):
                run = self.run_popd(*words)
                self.assertEqual((run.status, run.err), (0, b""))
                self.assertIn(b"\nUsage: popd [OPTIONS] USER PASSFILE MAILDIR\n       popd --rehearse\n", run.out)
                self.assertIn(HELP, run.out)

    def test_the_version(self):
        version = re.search(r"^## (\S+),", (programs.ROOT / "CHANGELOG.md").read_text(), re.MULTILINE)[1]
        self.assertEqual(self.run_popd("--version"), programs.Run(0, f"popd {version}\n".encode(), b""))

    def test_help_that_cannot_be_written(self):
        for word in ("--help", "--version"):
            with open("/dev/full", "wb") as full:
                run = programs.run("popd", word, out=full)
            self.assertEqual(run, programs.Run(1, b"", b"popd: cannot write standard output\n"))

    def test_words_that_are_refused(self):
        for words in (["--listens"], ["-x"], ["--connections", "x"], ["--connections", "-1"],
                      ["--connections", "4294967296"],
                      ["--connections", ""], ["--connections", "1.5"], ["--connections"], ["--listen"],
                      ["--connections", "1", "--connections", "1"], ["--listen", "a:1", "--listen", "a:1"],
                      ["--rehearse=1"], ["--rehearse", "--connections", "x"]):
            for more in ([], self.served, ["u", "missing", "missing"]):
                with self.subTest(words=words, more=more):
                    run = self.run_popd(*more, *words)
                    self.assertEqual((run.status, run.out), (2, b""))
                    self.assertNotEqual(run.err, b"")
                    self.assertNotEqual(run, WRONG_COUNT)

    def test_wrong_number_of_arguments(self):
        for words in (["u"], ["u", "missing"], [*self.served, "more"], ["--rehearse", "u"],
                      ["--rehearse", *self.served],
                      ["--listen", "nonsense"], ["--listen", "nonsense", "u", "missing"], ["--connections", "0"], [""],
                      ["u", "missing", "missing", "missing"], ["--", "--rehearse"], ["--verbose"],
                      ["u", "--verbose", "missing"], [*self.served, "--", "--rehearse"], ["--rehearse", ""]):
            with self.subTest(words):
                self.assertEqual(self.run_popd(*words), WRONG_COUNT)

    def test_no_word_at_all_shows_the_usage(self):
        usage = b"Usage: popd [OPTIONS] USER PASSFILE MAILDIR\n       popd --rehearse\n"
        self.assertEqual(self.run_popd(), programs.Run(2, b"", WRONG_COUNT.err + usage))

    def test_words_that_are_no_text(self):
        for words in ([b"\xff"], [*self.served[:2], b"\xff"]):
            with self.subTest(words):
                self.assertEqual(self.run_popd(*words), WRONG_COUNT)

    def check_warning(self, told, user="u"):
        """Serves an empty input, with these warnings and no others."""
        run = self.run_popd(user, *self.served[1:])
        self.assertEqual((run.status, run.out), (0, READY))
        self.assertEqual(run.err.decode().splitlines(), [f"popd: warning: {line}" for line in told])

    def test_a_maildir_without_its_folders(self):
        folder = self.served[2]
        self.check_warning([])
        (self.maildir.folder / "new").rmdir()
        self.check_warning([f"{folder} has no folder new"])
        (self.maildir.folder / "new").write_bytes(b"")
        (self.maildir.folder / "cur").rmdir()
        self.check_warning([f"{folder} has no folder new", f"{folder} has no folder cur"])

    def test_links_to_a_folder_and_to_the_password_file(self):
        for path in self.maildir.folder / "cur", self.maildir.passfile:
            path.rename(f"{path}-elsewhere")
            path.symlink_to(f"{path}-elsewhere")
        self.check_warning([])

    def test_a_path_with_control_characters(self):
        """A warning shows them escaped, so that it stays one line and no terminal obeys it."""
        self.served[2] = str(self.maildir.folder) + "/no\n\x1b[2J"
        self.check_warning([f"{self.maildir.folder}/no\\u{{a}}\\u{{1b}}[2J has no folder {part}" for part in ("new", "cur")])

    def test_a_user_or_a_password_that_no_client_can_give(self):
        reason = "it is empty, longer than 500 octets, or has a CR, LF or NUL in it"
        self.check_warning([f"no client can give this USER: {reason}"], user="")
        self.check_warning([f"no client can give this USER: {reason}"], user="u" * 501)
        self.check_warning([], user="u" * 500)
        for password in (b"", b"\n", b"p" * 501, b"p\0q\n", b"p\rq\n"):
            with self.subTest(password):
                self.maildir.passfile.write_bytes(password)
                self.check_warning([f"no client can give this password: {reason}"])
        self.maildir.passfile.write_bytes(b"p" * 500)
        self.check_warning([])

    def test_a_password_file_that_others_may_read_or_write(self):
        for mode, told in ((0o600, []), (0o640, 1), (0o604, 1), (0o644, 1), (0o620, 1), (0o602, 1), (0o711, [])):
            with self.subTest(oct(mode)):
                self.maildir.passfile.chmod(mode)
                self.check_warning(told and [f"others than its owner may read or write {self.served[1]}"])

    def test_a_password_file_that_cannot_be_read(self):
        for name in ("missing", "missing/missing", str(self.maildir.folder), "", "a b\tc"):
            for link in ([], ["--listen", "nonsense"]):
                with self.subTest(name=name, link=link):
                    self.assertEqual(self.run_popd(*link, "u", name, "missing"), told(f"cannot read {name}"))

    def test_an_address_that_cannot_be_bound(self):
        with socket.create_server((LOOPBACK, 0)) as taken:
            for address in ("nonsense", "", ":", f"{LOOPBACK}:65536", f"{LOOPBACK}:",
                            f"{LOOPBACK}:{taken.getsockname()[1]}", "192.0.2.1:0"):
                with self.subTest(address):
                    self.assertEqual(self.run_popd("--listen", address, *self.served),
                                     told(f"cannot listen on {address}"))

    def test_no_connection_at_all(self):
        words = ("--listen", f"{LOOPBACK}:0", "--connections", "0", *self.served)
        self.assertEqual(self.run_popd(*words), programs.SILENT)
        self.assertRegex(self.run_popd("--verbose", *words).err.decode(), rf"^popd: listening on {LOOPBACK}:[1-9]\d*\n$")

    def test_words_without_effect(self):
        for words in (["--rehearse"], ["--rehearse", "--rehearse"], ["--rehearse", "--listen", "nonsense"],
                      ["--rehearse", "--verbose"], ["--verbose", "--verbose", *self.served],
                      ["--rehearse", "--connections", "0"], ["--connections", "0", *self.served],
                      ["--connections", "4294967295", *self.served], ["--", *self.served],
                      ["u", "--connections", "0", *self.served[1:]], [*self.served, "--connections", "3"]):
            with self.subTest(words):
                self.assertEqual(self.run_popd(*words), programs.Run(0, READY, b""))


class PasswordFile(unittest.TestCase):
    """The password is what is before the first LF, without a CR at its end."""

    def log_in(self, content, password):
        with Maildir(content) as maildir:
            run = programs.run("popd", "u", maildir.passfile, maildir.folder,
                               given=b"USER u\r\nPASS " + password + b"\r\n")
        self.assertEqual(run.status, 0)
        for line in run.err.splitlines():
            self.assertTrue(line.startswith(b"popd: warning: no client can give this password: "), line)
        return run.out.splitlines()[-1]

    def test_passwords_that_are_right(self):
        for content, password in ((b"p\n", b"p"), (b"p", b"p"), (b"p\r\n", b"p"), (b"p\r", b"p"), (b"p\nq\n", b"p"),
                                  (b"a b c\n", b"a b c"), (b" p \n", b" p "), (b"\xc3\xa4\n", b"\xc3\xa4"),
                                  (b"\xff\n", b"\xff"),
                                  (b"x" * 500 + b"\n", b"x" * 500), (b"p\r\nq\r\n", b"p"), (b"a\tb\n", b"a\tb")):
            with self.subTest(content):
                self.assertEqual(self.log_in(content, password), b"+OK 0 messages")

    def test_passwords_that_are_wrong(self):
        for content, password in ((b"p\n", b"q"), (b"p\n", b"p\\n"), (b"p\nq\n", b"q"), (b" p\n", b"p"),
                                  (b"p \n", b"p"),
                                  (b"\n", b"p"), (b"", b"p"), (b"\n", b" "), (b"\r\n", b"\t"), (b"\np\n", b"p"),
                                  (b"P\n", b"p"), (b"x" * 501 + b"\n", b"x" * 500)):
            with self.subTest(content):
                self.assertEqual(self.log_in(content, password), b"-ERR refused")

    def test_no_password_is_empty(self):
        self.assertEqual(self.log_in(b"\n", b""), b"-ERR bad command")


class StandardStreams(unittest.TestCase):
    def test_input_that_cannot_be_read(self):
        with Maildir() as maildir:
            folder = os.open(tempfile.gettempdir(), os.O_RDONLY)
            self.addCleanup(os.close, folder)
            for words in (["--rehearse"], ["u", maildir.passfile, maildir.folder]):
                with self.subTest(words):
                    run = programs.run("popd", *words, given=folder)
                    self.assertEqual(run, programs.Run(1, READY, b"popd: read failed\n"))

    def test_output_that_is_refused(self):
        with Maildir() as maildir:
            for words in (["--rehearse"], ["u", maildir.passfile, maildir.folder]):
                with self.subTest(words), open("/dev/full", "wb") as full:
                    run = programs.run("popd", *words, given=b"NOOP\r\n", out=full)
                    self.assertEqual(run, told("write failed"))

    def test_a_closed_pipe(self):
        reader, writer = os.pipe()
        os.close(reader)
        self.addCleanup(os.close, writer)
        self.assertEqual(programs.run("popd", "--rehearse", given=b"NOOP\r\n", out=writer), told("write failed"))

    def test_a_maildir_over_standard_input_and_output(self):
        with Maildir() as maildir:
            path = maildir.add("new", "one", b"a\n.\nb")
            run = programs.run("popd", "u", maildir.passfile, maildir.folder,
                               given=b"USER u\r\nPASS p\r\nUIDL\r\nRETR 1\r\nDELE 1\r\nQUIT\r\n")
            self.assertEqual(run, programs.Run(0, READY + b"+OK send PASS\r\n+OK 1 messages\r\n+OK\r\n1 one\r\n.\r\n"
                                               b"+OK 9 octets\r\na\r\n..\r\nb\r\n.\r\n+OK marked\r\n+OK bye\r\n", b""))
            self.assertFalse(Path(os.fsdecode(path)).exists())

    def test_names_are_taken_as_written(self):
        """No tilde and no variable is expanded."""
        with Maildir() as maildir:
            run = programs.run("popd", "u", "~/password", maildir.folder, HOME=maildir.holder.name)
            self.assertEqual(run, told("cannot read ~/password"))
