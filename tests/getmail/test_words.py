"""The words of the command line, the rc file, and what is reported before there is a session."""

import re
import socket
import unittest

from getmail.account import Account
from harness import programs
from harness.kernel import LOOPBACK

WORKED_RC_FILE = """\
[retriever]
type = SimplePOP3Retriever
server = mail.example.org
username = fred
password = secret

[destination]
type = Maildir
path = ~/Maildir/

[options]
read_all = false
message_log = ~/.getmail/log
received = true
"""

RETRIEVER = "[retriever]\ntype=SimplePOP3Retriever\nserver=s\nusername=u\npassword=p\n"
DESTINATION = "[destination]\ntype=Maildir\npath=m/\n"
# Fronts of rc files, and for each its ends with the first fault of the whole file.
FAULTS = {
    "": [
        ("", "section [retriever] missing"),
        ("[retriever]\n", "section [destination] missing"),
        (" on\n", "rc file line 1 not understood"),
        ("[a]\n\n on\n", "rc file line 3 not understood"),
        ("[a]\nk=v\n[b]\n on\n", "rc file line 4 not understood"),
        ("# c\nk=v\n", "rc file line 2 not understood"),
        ("[a\n", "rc file line 1 not understood"),
        ("[a] b\n", "rc file line 1 not understood"),
        ("[]\n", "rc file line 1 not understood"),
        ("[a]\n=v\n", "rc file line 2 not understood"),
        ("[a]\nk\n", "rc file line 2 not understood"),
        ("[a]\r", "rc file line 1 not understood"),
        ("#" * 65537, "rc file too long"),
    ],
    "[destination]\n[retriever]\n": [
        ("port=0\n", "retriever.type missing"),
        ("port=0\ntype=SimplePOP3SSLRetriever\n", "retriever.type unknown"),
    ],
    "[destination]\n[retriever]\ntype=SimplePOP3Retriever\n": [
        ("use_apop=yes\n", "retriever.use_apop unsupported"),
        ("use_apop=maybe\n", "retriever.use_apop has a bad value"),
        ("port=0\n", "retriever.server missing"),
        ("port=0\nserver=\n", "retriever.server has a bad value"),
        ("port=0\nserver=a\x00\n", "retriever.server has a bad value"),
        ("port=0\nserver=a\n", "retriever.port has a bad value"),
        ("server=a\n", "retriever.username missing"),
        ("server=a\nusername=a\rb\n", "retriever.username has a bad value"),
        ("server=a\nusername=a\n", "retriever.password missing"),
        ("server=a\nusername=a\npassword=\n", "retriever.password has a bad value"),
    ],
    f"{RETRIEVER}[destination]\n": [
        ("path=/m/", "destination.type missing"),
        ("type=MDA_external", "destination.type unknown"),
        ("type=Mboxrd\npath=/m/", "destination.path has a bad form"),
        ("type=Maildir\n", "destination.path missing"),
        ("type=Maildir\npath=/m", "destination.path has a bad form"),
        ("type=Maildir\npath=", "destination.path has a bad form"),
        ("type=Maildir\npath=~user/m/", "destination.path has a bad form"),
        ("type=Maildir\npath=$HOME/m/", "destination.path has a bad form"),
        ("type=Maildir\npath=a\n b/", "destination.path has a bad form"),
    ],
    f"{DESTINATION}{RETRIEVER}": [
        *((f"port={port}", "retriever.port has a bad value")
          for port in ("0", "65536", "+1", "-1", "1 1", "", "000000000000000000110", "1_0")),
        ("server = a\n# not the end\n\n\tb\n", "retriever.server has a bad value"),
        ("[options]\ndelete_after=4294967296", "options.delete_after has a bad value"),
        ("[options]\nmax_message_size=18446744073709551616", "options.max_message_size has a bad value"),
    ],
}

HELP = b"""
Options:
  -r, --rcfile <FILE>     Read the settings from FILE, in DIR unless it begins with / or ~/ [getmailrc]
  -g, --getmaildir <DIR>  Keep the rc file and the record in DIR [~/.getmail]
  -v, --verbose...        Report more, each time by one, up to 2
  -q, --quiet...          Write no report
      --why...            Say why a run failed, also if standard error is no terminal
      --trace...          Show the conversation and refused calls of the system on standard error
      --unattended...     For cron and timers: write no report; say why a run failed, but nothing twice
  -a, --all...            Fetch all messages, also those that were delivered before
  -n, --new...            Fetch only messages that were not delivered before
  -d, --delete...         Delete from the server what was delivered, held or not
  -l, --dont-delete...    Take delete as false; delete_after still deletes
      --pretend...        Say what would be fetched and deleted, and do nothing
  -h, --help              Print help
  -V, --version           Print version
"""


class Words(unittest.TestCase):
    def test_other_words_are_mistakes(self):
        lines = (["--rehears"], ["--rehearse", "x"], ["x", "--rehearse"], [""], ["-"], ["--rehearse="], ["--Rehearse"],
                 [" --rehearse"], ["--rehearse", ""], ["rehearse"], ["--rehearse\n"], ["x" * 100_000], [b"\xff"],
                 ["--rehearse", b"\xff"], ["-r"], ["-g"], ["-r", "a", "-r", "b"], ["-g", "a", "--getmaildir", "b"],
                 ["-x"])
        for words in lines:
            with self.subTest(words):
                run = programs.run("getmail", *words, given=b"+OK hi\r\n")
                self.assertEqual((run.status, run.out), (2, b""))
                self.assertTrue(run.err.startswith(b"error: "), run.err)

    def test_help_explains_each_option(self):
        for word in ("--help", "-h"):
            run = programs.run("getmail", word)
            self.assertEqual((run.status, run.err), (0, b""))
            self.assertTrue(run.out.startswith(b"Fetches mail from a POP3 server into a Maildir or an mboxrd file;"), run.out)
            self.assertIn(HELP, run.out)

    def test_the_version_is_the_one_that_the_list_of_changes_begins_with(self):
        version = re.search(r"^## (\S+),", (programs.ROOT / "CHANGELOG.md").read_text(), re.MULTILINE)[1]
        for word in ("--version", "-V"):
            self.assertEqual(programs.run("getmail", word), programs.Run(0, f"getmail {version}\n".encode(), b""))

    def test_help_that_cannot_be_shown_is_a_failure(self):
        for word in ("--help", "--version"):
            with open("/dev/full", "wb") as full:
                run = programs.run("getmail", word, out=full)
            self.assertEqual((run.status, run.err), (1, b"getmail: cannot write standard output\n"))

    def test_opposite_flags(self):
        wanted = programs.Run(2, b"", b"getmail: opposite flags\n")
        for flags in ("-an", "-dl", "-qv"):
            with self.subTest(flags):
                self.assertEqual(programs.run("getmail", "--rehearse", flags, given=b"+OK hi\r\n"), wanted)


class RcFile(unittest.TestCase):
    def setUp(self):
        with socket.create_server((LOOPBACK, 0)) as listener:
            port = listener.getsockname()[1]
        self.account = Account(port)
        self.addCleanup(self.account.holder.cleanup)
        self.refused = programs.Run(1, b"", f"getmail: cannot connect to {LOOPBACK}:{port}\n".encode())

    def change(self, old, new):
        text = self.account.rcfile.read_text()
        self.assertIn(old, text)
        self.account.rcfile.write_text(text.replace(old, new))

    def check_told(self, status, line, *words, **changes):
        self.assertEqual(self.account.run(*words, **changes), programs.Run(status, b"", line))

    def test_no_server_at_the_port(self):
        self.assertEqual(self.account.run(), self.refused)

    def test_a_flag_counts_as_given_however_often(self):
        for flag in ("--why", "--trace", "--pretend", "--verbose", "--quiet", "--all", "--new", "--delete", "--dont-delete"):
            with self.subTest(flag):
                once = self.account.run(flag)
                self.assertEqual((once.status, once.out), (1, b""))
                self.assertEqual(self.account.run(flag, flag), once)
                self.assertEqual(self.account.run(*[flag] * 3), once)

    def test_no_rc_file(self):
        self.check_told(2, b"getmail: cannot read rc file\n", "-r", "other")
        self.check_told(2, b"getmail: cannot read rc file\n", "-g", str(self.account.home))
        self.check_told(2, b"getmail: cannot read rc file\n", "-g", "", "-r", "no/such/file")

    def test_where_the_rc_file_is_looked_for(self):
        for words in (["-r", str(self.account.rcfile)], ["-r", "~/.getmail/getmailrc"],
                      ["-g", str(self.account.folder)], ["-g", "~/.getmail", "-r", "getmailrc"],
                      ["-g", str(self.account.folder) + "/"]):
            with self.subTest(words):
                self.assertEqual(self.account.run(*words), self.refused)

    def check_fault(self, text, line):
        self.account.rcfile.write_bytes(text)
        run = self.account.run()
        told = [row for row in run.err.decode().splitlines() if "warning" not in row]
        self.assertEqual((run.status, run.out, told), (2, b"", [f"getmail: {line}"]), text)

    def test_each_fault_has_its_line(self):
        for front, rows in FAULTS.items():
            for end, line in rows:
                with self.subTest(end):
                    self.check_fault((front + end).encode(), line)
        self.check_fault(b"[a]\n# \xff\n", "rc file line 2 not understood")

    def test_what_has_no_effect_is_told(self):
        self.change("read_all = false", "read_all = false\nmessage_log = ~/.getmail/log\nreceived = true")
        run = self.account.run()
        self.assertEqual(run.err, b"getmail: warning: line 14: options.message_log has no effect\n"
                                  b"getmail: warning: line 15: options.received has no effect\n" + self.refused.err)

    def test_a_worked_rc_file(self):
        """Its settings are taken, its two warnings printed, and only then the flags are looked at."""
        self.account.rcfile.write_text(WORKED_RC_FILE)
        self.check_told(2, b"getmail: warning: line 13: options.message_log has no effect\n"
                           b"getmail: warning: line 14: options.received has no effect\n"
                           b"getmail: opposite flags\n", "-an")

    def test_keys_and_sections_without_effect(self):
        self.account.rcfile.write_text(
            f"{DESTINATION}{RETRIEVER}[filter-1]\ntype = x\n[retriever]\nTimeout = 5\ndelete_dup_msgids = 1\n[default]\n[options]\n"
            "max_bytes_per_session = 1\ndelete_bigger_than = 2\nreceived = 1\ndelivered_to = 1\n[destination]\nlocktype = x\n"
            "filemode = 0600\nuser = x\n[filter-1]\n[retriever]\ntimeout = 6\nuser = y\n")
        told = [(9, "section [filter-1]"), (12, "retriever.timeout"), (13, "retriever.delete_dup_msgids"),
                (14, "section [default]"), (16, "options.max_bytes_per_session"), (17, "options.delete_bigger_than"),
                (18, "options.received"), (19, "options.delivered_to"), (21, "destination.locktype"),
                (22, "destination.filemode"), (23, "destination.user"), (27, "retriever.user")]
        warnings = "".join(f"getmail: warning: line {line}: {what} has no effect\n" for line, what in told)
        self.check_told(2, f"{warnings}getmail: opposite flags\n".encode(), "-an")

    def test_no_folder_is_made(self):
        (self.account.maildir / "tmp").rmdir()
        self.assertEqual(self.account.run(), self.refused)
        self.assertFalse((self.account.maildir / "tmp").exists())
