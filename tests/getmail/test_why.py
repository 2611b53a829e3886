"""`--why`: after a fault's line one more on standard error, with the account and the reason; also on a terminal."""

import os
import re
import shutil
import unittest

from getmail import terminal
from getmail.account import RC, Account
from getmail.mbox_account import MboxAccount
from getmail.server import Server
from getmail.shared_server import SharedServer
from harness import growths, preload, programs
from harness.kernel import LOOPBACK

TWO = [(b"a", b"one\n"), (b"b", b"two\n")]
NO_MEMBER = "No such file or directory"
OCTET = ": 1 octet, no line with CR LF"
GOES_ON = "a line after a blank goes on with the value before it"
OWN_LINE = f"a comment has a line of its own, and {GOES_ON}"
PASSWORD = "username or password is wrong; in the rc file a comment has a line of its own"
MAILDIR = "is its disk mounted? else mkdir -p makes it: a Maildir is a folder with the folders cur, new and tmp"
TUNNEL = "the tunnel's own log says why: journalctl --user -u getmail-tunnel, or the file that stunnel.conf names"
START = "is the tunnel started? systemctl --user start getmail-tunnel.socket, or the command in stunnel.conf"


class Sessions(unittest.TestCase):
    account_class = Account

    def setUp(self):
        self.server = Server(TWO)
        self.addCleanup(self.server.close)
        self.account = self.account_class(self.server.port)
        self.addCleanup(self.account.holder.cleanup)

    def session(self, *words, **changes):
        thread = self.server.begin_session()
        run = self.account.run("-q", *words, **changes)
        thread.join(programs.SECONDS)
        return run

    def check_told(self, fault, reason, *words, hint=None):
        """The fault's line alone without the option; with it the reason's line follows, and a hint if there is one."""
        plain = self.session(*words)
        self.assertEqual((plain.status, plain.err.decode()), (1, f"getmail: {fault}\n"))
        run = self.session("--why", *words)
        first, second, *hints = run.err.decode().splitlines()
        self.assertEqual((run.status, first), (1, f"getmail: {fault}"))
        self.assertRegex(second, f"^getmail: u@{LOOPBACK}:{self.server.port}: {reason}$")
        self.assertEqual(hints, [] if hint is None else [f"getmail: u@{LOOPBACK}:{self.server.port}: {hint}"])

    def check_unflushed(self, folder):
        """A file system that flushes no folders is no fault. One of them is named, if reasons are asked for, by a run that
        relies on it: the last one writes the record anew, and nothing else."""
        of_store, of_record = (f"getmail: u@{LOOPBACK}:{self.server.port}: {path}: its file system flushes no folders\n".encode()
                               for path in (folder, self.account.folder))
        with preload.library("refuse_call") as library:
            kinds = ("folder-flush", "folder-flush-unsupported") * 2
            for kind, (words, messages, torn, told) in zip(kinds, (
                    ((), TWO[:1], b"", b""), (("--why",), TWO, b"", of_store),
                    (("--why",), TWO, b"", b""), (("--why",), TWO, b"torn", of_record))):
                self.server.messages = list(messages)
                with open(self.account.record, "ab") as record:
                    record.write(torn)
                run = self.session(*words, LD_PRELOAD=str(library), REFUSED_CALL=kind)
                self.assertEqual(run, programs.Run(0, b"", told))


class OfMaildirs(Sessions):
    def test_a_folder_that_is_not_flushed(self):
        self.check_unflushed(self.account.maildir / "new")

    def test_a_folder_of_what_a_link_leads_to_that_is_not_flushed(self):
        """Of a file that is found, and of the record."""
        elsewhere, = self.account.make_folders("elsewhere")
        told = f"getmail: u@{LOOPBACK}:{self.server.port}: {elsewhere}: its file system flushes no folders\n".encode()
        name = self.account.name(*TWO[0])
        (elsewhere / name).write_bytes(TWO[0][1])
        (self.account.maildir / "cur" / f"{name}:2,S").symlink_to(elsewhere / name)
        with preload.library("refuse_call") as library:
            changes = {"LD_PRELOAD": str(library), "REFUSED_CALL": "folder-flush", "REFUSED_FOLDER": str(elsewhere)}
            self.server.messages = TWO[:1]
            self.assertEqual(self.session("--why", **changes), programs.Run(0, b"", told))
            self.account.record.rename(elsewhere / "record")
            self.account.record.symlink_to(elsewhere / "record")
            self.server.messages = list(TWO)
            self.assertEqual(self.session("--why", **changes), programs.Run(0, b"", told))
            self.assertEqual(self.session("--why", **changes), programs.SILENT)

    def test_what_the_server_said(self):
        self.server.refuses = ("RETR 2",)
        self.check_told("server refused RETR 2", "the server said: -ERR refused")
        self.server.refuses = ("PASS sesame",)
        self.check_told("server refused PASS", "the server said: -ERR refused", hint=PASSWORD)

    def test_a_folder_that_is_missing(self):
        """It is named, and not a file that was never there."""
        for name in ("new", "tmp", "cur"):
            shutil.rmtree(self.account.maildir / name)
            self.check_told("destination missing", f"{self.account.maildir}/{name}: {NO_MEMBER}", hint=MAILDIR)
            (self.account.maildir / name).mkdir()
        shutil.rmtree(self.account.maildir)
        self.check_told("destination missing", f"{self.account.maildir}/(new|cur|tmp): {NO_MEMBER}", hint=MAILDIR)

    def test_a_preview_where_tmp_is_a_file(self):
        shutil.rmtree(self.account.maildir / "tmp")
        (self.account.maildir / "tmp").touch()
        self.check_told("destination refused", f"{self.account.maildir}/tmp: not a folder", "--pretend")

    def test_a_record_that_is_a_folder(self):
        os.mkdir(self.account.record)
        self.check_told("seen file refused", f"{self.account.record}: Is a directory")

    def test_a_record_whose_disk_is_gone(self):
        """It isn't taken for one that was never there: all mail would be fetched again, and the link replaced."""
        self.account.record.symlink_to("nowhere")
        self.check_told("seen file refused", f"{self.account.record}: a link that leads nowhere")
        self.assertTrue(self.account.record.is_symlink())

    def test_a_preview_of_a_run_that_could_store_nothing(self):
        """It is written as the run writes it, but only if there is something to fetch."""
        shutil.rmtree(self.account.maildir / "tmp")
        self.check_told("destination missing", f"{self.account.maildir}/tmp: {NO_MEMBER}", "--pretend", hint=MAILDIR)
        self.server.messages = []
        self.assertEqual(self.session("--pretend").status, 0)

    def test_a_good_run_says_nothing_more(self):
        self.assertEqual(self.session("--why"), programs.SILENT)

    def test_what_is_left_out_is_told(self):
        """How many messages that aren't known, and why, only if reasons are asked for."""
        options = b"max_message_size = 5\nmax_messages_per_session = 1\n"
        self.account.rcfile.write_bytes(self.account.rcfile.read_bytes() + options)
        self.server.messages = [(b"a", b"a message\n"), (b"b", b"b\n"), (b"c", b"c\n"), (b"d", b"another\n")]
        told = f"getmail: u@{LOOPBACK}:{self.server.port}: left out: 2 too large"
        self.assertEqual(self.session("--why").err.decode(), told + ", 1 past the limit\n")
        self.assertEqual(self.session(), programs.SILENT)
        self.assertEqual(self.session("--why"), programs.Run(0, b"", (told + "\n").encode()))

    def test_a_repeated_id_is_told(self):
        self.server.messages = [(b"a", b"one\n"), (b"a", b"two\n"), (b"b", b"three\n")]
        told = f"getmail: u@{LOOPBACK}:{self.server.port}: left out: 1 with a repeated unique-id\n"
        self.assertEqual(self.session("--why"), programs.Run(0, b"", told.encode()))
        self.assertEqual(self.session("--why"), programs.SILENT)

    def test_a_terminal_needs_no_option(self):
        self.server.refuses = ("RETR 1",)
        thread = self.server.begin_session()
        status, _, shown = terminal.run(self.account, "-q")
        thread.join(programs.SECONDS)
        account = f"u@{LOOPBACK}:{self.server.port}"
        self.assertEqual((status, shown.decode().splitlines()),
                         (1, ["getmail: server refused RETR 1", f"getmail: {account}: the server said: -ERR refused"]))


class OfMboxes(Sessions):
    account_class = MboxAccount

    def test_a_folder_that_is_not_flushed(self):
        self.check_unflushed(self.account.home)

    def test_a_file_that_is_missing(self):
        self.account.mbox.unlink()
        for words in ((), ("--pretend",)):
            self.check_told("destination missing", f"{self.account.mbox}: {NO_MEMBER}", *words,
                            hint="is its disk mounted? else touch makes it: an empty file is an mbox file")

    def test_a_reason_is_that_of_the_fault(self):
        """Before the first session there is no record, which is no reason for anything."""
        self.account.mbox.unlink()
        os.mkfifo(self.account.mbox)
        self.check_told("destination refused", f"{self.account.mbox}: not a regular file")
        self.account.record.unlink(missing_ok=True)
        self.check_told("destination refused", f"{self.account.mbox}: not a regular file", "--pretend")

    def test_a_preview_waits_for_no_pipe(self):
        self.account.record.write_bytes(b"getmail-seen 2\na 5 0\n! a 0 40\n")
        self.account.mbox.unlink()
        os.mkfifo(self.account.mbox)
        self.assertEqual(self.session("--pretend").err, b"getmail: destination refused\n")


class BeforeSessions(unittest.TestCase):
    """Runs that connect to nothing."""

    def setUp(self):
        self.account = Account(1)
        self.addCleanup(self.account.holder.cleanup)

    def check_told(self, status, *told, words=()):
        run = self.account.run("--why", *words)
        self.assertEqual((run.status, run.err.decode().splitlines()), (status, [f"getmail: {line}" for line in told]))

    def put(self, old, new):
        """Changes the rc file."""
        text = self.account.rcfile.read_bytes()
        self.assertIn(old, text)
        self.account.rcfile.write_bytes(text.replace(old, new))

    def test_a_connection_that_is_refused(self):
        """By a port of this machine, where a tunnel may listen: how that is started. Of another machine nothing is known."""
        self.check_told(1, f"cannot connect to {LOOPBACK}:1", f"u@{LOOPBACK}:1: {LOOPBACK}:1: Connection refused",
                        f"u@{LOOPBACK}:1: {START}")
        with Account(1, server="255.255.255.255") as self.account:
            self.assertNotIn(b"tunnel", self.account.run("--why").err)

    def test_a_name_that_has_no_address(self):
        with Account(110, server="a..b") as self.account:
            first, second = self.account.run("--why").err.decode().splitlines()
        self.assertEqual(first, "getmail: cannot connect to a..b:110")
        self.assertRegex(second, r"^getmail: u@a\.\.b:110: a\.\.b: .")

    def test_an_rc_file_that_is_not_there(self):
        for name, shown in ("none", "none"), ("\x1b[2J", "\\x1b[2J"):
            self.check_told(2, "cannot read rc file", f"{self.account.folder}/{shown}: {NO_MEMBER}", words=("-r", name))

    def test_a_rehearsal_whose_output_cannot_be_written(self):
        with open("/dev/full", "wb") as full:
            run = programs.run("getmail", "--rehearse", given=b"+OK\r\n", out=full)
        self.assertEqual((run.status, run.err), (1, b"getmail: cannot write standard output\n"))

    def test_opposite_flags(self):
        for words, told in (("-an", "--all and --new"), ("-dl", "--delete and --dont-delete"), ("-qv", "--quiet and --verbose")):
            self.check_told(2, "opposite flags", told, words=(words,))

    def test_values_of_an_rc_file(self):
        """Each line is named by its file, its number and its key, and no value is shown."""
        number = "1 to 65535"
        path = "a Maildir's path ends in / and an mboxrd file's doesn't; it is one line with no $, and ~ only as ~/ in front"
        for old, new, fault, told in (
                (b"port = 1", b"port = 0x1 # plain", "retriever.port has a bad value", f"line 4: port: {number}"),
                (b"password = sesame", b"password = " + b"q" * 501, "retriever.password has a bad value",
                 "line 6: password: one line of 1 to 500 octets, with no CR and no NUL"),
                (b"path = ~/Maildir/", b"path = ~/Mail\x1bdir", "destination.path has a bad form", f"line 10: path: {path}"),
                (b"password = sesame\n", b"password = sesame\nport = 110\nport = 7x\n", "retriever.port has a bad value",
                 f"line 8: port: {number}"),
                (b"port = 1", b"port = 1\nport = 0\nport = 110\nPORT : 0x", "retriever.port has a bad value",
                 f"line 7: port: {number}"),
                (b"port = 1", b"port = 1\n# port = 2\n[else]\nport = 3\n[retriever]\n\nport = 0\n[else]\nport = 4\n[retriever]",
                 "retriever.port has a bad value", f"line 10: port: {number}"),
                (b"type = Maildir", b"TYPE: Mbox", "destination.type unknown", "line 9: type: Maildir or Mboxrd"),
                (b"port = 1", b"port = 1\nuse_apop = yes", "retriever.use_apop unsupported", "line 5: use_apop: must be false"),
                (b"SimplePOP3R", b"SimplePOP3SSLR", "retriever.type unknown",
                 "line 2: type: SimplePOP3Retriever; TLS needs a tunnel")):
            with self.subTest(new), Account(1) as self.account:
                self.put(old, new)
                self.check_told(2, fault, f"{self.account.rcfile}: {told}; {OWN_LINE}")

    def test_keys_that_are_missing(self):
        """The line of a key of one letter more, less or other is named, or what another program calls it."""
        meant = "line 6: is password meant?"
        none = f"no line of its section begins with password; {GOES_ON}"
        for new, told in (("pasword", meant), ("Passwords", meant), ("pass-word", meant), ("passwort", meant),
                          ("xpassword", meant), ("asswort", none), ("secret", none), ("passwrd1", none), ("passwordxy", none),
                          ("passwd", "the key passwd is not known: is password meant?"),
                          ("Password_Command", "the key password_command is not known: the password itself is in the rc file, "
                           "as password = ..")):
            with self.subTest(new), Account(1) as self.account:
                self.put(b"password", new.encode())
                self.check_told(2, "retriever.password missing", f"{self.account.rcfile}: {told}")

    def test_a_key_that_is_indented(self):
        self.put(b"password", b"  password")
        self.check_told(2, "retriever.username has a bad value",
                        f"{self.account.rcfile}: line 5: username: one line of 1 to 500 octets, with no CR and no NUL; {OWN_LINE}")

    def test_a_home_that_is_not_set(self):
        for words in ((), ("-g", self.account.folder)):
            run = self.account.run("--why", *words, HOME=None)
            told = "~/ begins in it, and so does the folder ~/.getmail: set it, or give --getmaildir and full paths"
            self.assertEqual((run.status, run.err.decode()), (2, f"getmail: HOME is not set\ngetmail: {told}\n"))

    def test_a_section_that_is_missing(self):
        told = "the names of sections are in small letters: [retriever], [destination], [options]"
        for section in "retriever", "destination":
            with self.subTest(section), Account(1) as self.account:
                self.put(f"[{section}]".encode(), f"[{section.capitalize()}]".encode())
                self.check_told(2, f"section [{section}] missing", f"{self.account.rcfile}: {told}")

    def test_a_port_for_tls(self):
        for port in (995, 993):
            with self.subTest(port), Account(port, server="255.255.255.255") as account:
                run = account.run("--why")
                self.assertEqual(run.err.decode().splitlines()[:2],
                                 [f"getmail: u@255.255.255.255:{port}: warning: port {port} is for TLS, which getmail doesn't "
                                  "speak: use a tunnel",
                                  f"getmail: cannot connect to 255.255.255.255:{port}"])
                self.assertEqual(account.run().err.decode(), f"getmail: cannot connect to 255.255.255.255:{port}\n")

    def test_no_line_of_a_password_is_shown(self):
        self.put(b"port = 1", b"port = 0")
        self.put(b"password = sesame\n", b"password = sesame\n  port = hidden\n\tport = hidden\n")
        self.check_told(2, "retriever.port has a bad value",
                        f"{self.account.rcfile}: line 4: port: 1 to 65535; {OWN_LINE}")

    def test_lines_of_an_rc_file(self):
        self.put(b"password = sesame", b"password p")
        rcfile = self.account.rcfile
        self.check_told(2, "rc file line 6 not understood", f"{rcfile}: a line is empty, a comment, a [section], or KEY = VALUE in "
                        "one; after a blank a value goes on")
        rcfile.write_bytes(b"\xef\xbb\xbf[retriever]\n")
        self.check_told(2, "rc file line 1 not understood",
                        f"{rcfile}: the file begins with a byte order mark: save it without one")
        text = RC.format(server=LOOPBACK, port=1).replace("sesame", "gr\u00fcn")
        for coding, line in (("latin-1", 6), ("utf-16", 1)):
            rcfile.write_bytes(text.encode(coding))
            self.check_told(2, f"rc file line {line} not understood", f"{rcfile}: the file is not in UTF-8: save it as UTF-8")

    def test_an_rc_file_that_others_may_read(self):
        warning = (f"getmail: u@{LOOPBACK}:1: warning: others than its owner may read or write {self.account.rcfile}: "
                   "chmod 600 ends that\n")
        # (the superuser's run refuses one that others may write)
        for mode in (0o604, 0o640) if os.geteuid() == 0 else (0o604, 0o602, 0o640, 0o620):
            self.account.rcfile.chmod(mode)
            run = self.account.run("--why")
            self.assertTrue(run.err.decode().startswith(warning), (mode, run.err))
        self.assertEqual(self.account.run().err, f"getmail: cannot connect to {LOOPBACK}:1\n".encode())
        self.account.rcfile.rename(self.account.folder / "rc\nfile")
        run = self.account.run("--why", "-r", "rc\nfile")
        self.assertIn(b"/rc\\x0afile: chmod 600 ends that\n", run.err)
        (self.account.folder / "rc\nfile").chmod(0o600)
        self.account.rcfile.symlink_to("rc\nfile")
        self.assertNotIn(b"warning", self.account.run("--why").err)


class Table(unittest.TestCase):
    """Each fault's reason, with an earlier refusal and a later denial beside it. Before the first session there is no
    record, which is noted as a refusal, and QUIT is always denied."""

    def setUp(self):
        self.server = Server(TWO)
        self.addCleanup(self.server.close)
        self.account = Account(self.server.port)
        self.addCleanup(self.account.holder.cleanup)
        self.usual = self.server._answer
        self.server._answer = lambda command: self.answers.get(command.decode()) or self.usual(command)
        self.answers = {"QUIT": b"-ERR later\r\n"}

    def session(self, **changes):
        thread = self.server.begin_session()
        run = self.account.run("-q", "--why", **changes)
        thread.join(programs.SECONDS)
        return run

    def check_told(self, fault, *reasons, **changes):
        run = self.session(**changes)
        self.assertEqual((run.status, run.err.decode().splitlines()),
                         (1, [f"getmail: {fault}", *(f"getmail: u@{LOOPBACK}:{self.server.port}: {told}" for told in reasons)]))

    def test_the_first_denial(self):
        for command in ("USER u", "STAT", "UIDL", "LIST", "RETR 1", "RETR 2"):
            with self.subTest(command):
                self.answers[command] = f"-ERR no {command}\r\n".encode()
                self.check_told(f"server refused {command.removesuffix(' u')}", f"the server said: -ERR no {command}")
                del self.answers[command]
        self.check_told("server refused QUIT", "the server said: -ERR later")

    def test_a_reply_that_is_not_understood(self):
        self.answers["UIDL"] = b"250 fine\r\n"
        self.check_told("reply not understood", "the server said: 250 fine")
        for greeting in ("HTTP/1.1 400 Bad Request", "220 mail.test.org ready", "* OK ready", "SSH-2.0"):
            self.server.greeting = greeting.encode() + b"\r\n"
            self.check_told("reply not understood", f"the server said: {greeting}",
                            "no POP3 server answers there: most have port 110")

    def test_a_call_of_the_link_that_is_refused(self):
        with preload.library("refuse_step") as refuse_step:
            for number, fault in ((2, "reading from"), (3, "writing to"), (6, "reading from"), (7, "writing to")):
                with self.subTest(number):
                    log = [TUNNEL] if number == 2 else []
                    self.check_told(f"{fault} the server failed", f"{LOOPBACK}:{self.server.port}: Input/output error", *log,
                                    LD_PRELOAD=str(refuse_step), STEP_REFUSED=str(number))

    def test_a_flush_that_a_system_does_not_have(self):
        """It is no reason of what was refused for another one: a file of the message's name that came meanwhile."""
        new = self.account.maildir / "new"
        taken = new / self.account.name(*TWO[0])
        self.server._answer = lambda command: (command == b"RETR 1" and taken.touch()) or self.usual(command)
        with preload.library("refuse_call") as refuse_call:
            self.check_told("destination refused", f"{taken}: is there already", f"{new}: its file system flushes no folders",
                            LD_PRELOAD=str(refuse_call), REFUSED_CALL="folder-flush")

    def test_a_write_that_takes_no_octet(self):
        """It is no refusal of the system: it is told with its path, and not what was refused before."""
        with preload.library("refuse_step") as refuse_step:
            note = self.account.home / "note"
            below = {"LD_PRELOAD": str(refuse_step), "STEP_BELOW": str(self.account.home)}
            with Account(self.server.port) as other:
                thread = self.server.begin_session()
                other.run("-q", "--why", LD_PRELOAD=str(refuse_step), STEP_BELOW=str(other.home), STEP_NOTE=str(note))
                thread.join(programs.SECONDS)
            steps = [line.split("\t") for line in note.read_text().splitlines()]
            number = next(k for k, (step, path) in enumerate(steps, 1) if step == "write" and "/.getmail/" in path)
            run = self.session(**below, STEP_REFUSED=str(number), STEP_EFFECT="zero")
        made = rf"{re.escape(str(self.account.record))}\.tmp\.P\d+R[\da-f]+"
        self.assertRegex(run.err.decode(), rf"\Agetmail: seen file refused\ngetmail: \S+: {made}: failed to write whole buffer\n\Z")

    def test_a_connection_that_ends(self):
        """Before the greeting, and from a server that is near, the tunnel has ended it."""
        for octets, *told in ((0, "it ended before the greeting", TUNNEL),
                              (12, f"it ended in the reply to USER u{OCTET}"), (17, f"it ended in the reply to PASS *{OCTET}"),
                              (22, f"it ended in the reply to STAT{OCTET}")):
            server = Server(TWO)
            self.addCleanup(server.close)
            with self.subTest(octets), Account(server.port) as account:
                thread = server.begin_session(octets)
                run = account.run("-q", "--why")
                thread.join(programs.SECONDS)
                self.assertEqual(run.err.decode().splitlines(),
                                 ["getmail: connection ended by the server",
                                  *(f"getmail: u@{LOOPBACK}:{server.port}: {line}" for line in told)])

    def test_a_reply_whose_lines_are_wrong(self):
        for command, reply, fault, told in (
                ("UIDL", b"+OK\r\n1 a\r\nb\r\n", "listing not understood", "the reply to UIDL has the row: b"),
                ("LIST", b"+OK\r\n1 5\r\n2 x\x1b\r\n", "listing not understood", "the reply to LIST has the row: 2 x\\x1b"),
                ("LIST", b"+OK\r\n1 5\r\n.\r\n", "listings disagree",
                 "the answer to STAT is +OK 2 10, UIDL has 2 rows and LIST 1"),
                ("UIDL", b"+OK\r\n" + b"1" * 3000, "reply line too long", "2048 octets hold no whole line, in the reply to UIDL"),
                ("STAT", b"+OK 100001 5\r\n", "too many messages", "100000 can be fetched; the answer to STAT is +OK 100001 5"),
                ("STAT", b"+OK\r\n", "reply not understood", "the server said: +OK")):
            with self.subTest(told):
                self.answers[command] = reply
                self.check_told(fault, told)
                del self.answers[command]

    def test_a_message_without_an_end(self):
        """What may help follows."""
        self.answers["RETR 1"] = b"+OK\r\n" + b"a line\r\n" * ((1 << 25) + 1)
        self.check_told("message too long", "268435456 octets hold no whole message, in the reply to RETR 1",
                        "max_message_size passes such a message over")

    def test_memory_that_runs_out(self):
        """The first growth of memory that is refused to a session."""
        with SharedServer(TWO) as server, Account(server.port) as account:
            for refusal in growths.refusals():
                run = account.run("-q", "--why", **refusal.environment())
                server.wait_for_end()
                if run.status == 1 and run.err.startswith(b"getmail: out of memory\n"):
                    break
        told = f"getmail: u@{LOOPBACK}:{server.port}: it ran out (before the greeting|in the reply to .+)"
        self.assertRegex(run.err.decode(), f"^getmail: out of memory\n{told}\n$")

    def test_a_row_that_tells_of_the_password(self):
        """It is hidden like an answer."""
        self.answers["UIDL"] = b"+OK\r\n1 a\r\nthe password is sesame\r\n"
        self.check_told("listing not understood", "the reply to UIDL has the row: the password is *")

    def test_a_record_that_is_not_understood(self):
        self.account.record.write_bytes(b"getmail-seen 2\nx\n")
        self.check_told("seen file not understood at line 2", f"{self.account.record}: a record has no such line",
                        "a run makes a new one if it is moved away: what the Maildir holds isn't stored again, all else is")

    def test_a_file_that_is_no_mbox(self):
        with MboxAccount(self.server.port) as account:
            account.mbox.write_bytes(b"abc\n")
            thread = self.server.begin_session()
            run = account.run("-q", "--why")
            thread.join(programs.SECONDS)
            self.assertEqual(run.err.decode().splitlines()[1:],
                             [f"getmail: u@{LOOPBACK}:{self.server.port}: {account.mbox}: it isn't empty, and has no `From ` at "
                              "its front or no empty line at its end"])


del Sessions

if __name__ == "__main__":
    unittest.main()
