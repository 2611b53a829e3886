"""`--trace`: the conversation and refused calls of the system on standard error, and nothing else."""

import os
import shutil
import subprocess
import tempfile
import unittest
from contextlib import contextmanager
from pathlib import Path

from getmail.account import Account
from getmail.mbox_account import MboxAccount
from getmail.server import Server
from getmail.test_why import MAILDIR
from harness import preload, programs, refused_steps
from harness.kernel import LOOPBACK
from harness.mboxrd import entries

TWO = [(b"a", b"one\n"), (b"b", b"two\n.\n")]

# A rehearsal's replies, each with the lines that its trace has for it.
REPLIES = [
    (b"+OK hi \x1b[2J\\ \xff\r\n", "S: +OK hi \\x1b[2J\\x5c \\xff"),
    (b"+OK\r\n", "C: USER u", "S: +OK"),
    (b"+OK welcome, Ren\xc3\xa9\r\n", "C: PASS *", "S: +OK welcome, René"),
    (b"+OK 1 10\r\n", "C: STAT", "S: +OK 1 10"),
    (b"+OK\r\n1 a\r\n.\r\n", "C: UIDL", "S: +OK", "S: (1 lines, 5 octets)"),
    (b"+OK\r\n1 10\r\n.\r\n", "C: LIST", "S: +OK", "S: (1 lines, 6 octets)"),
    (b"+OK " + b"x" * 600 + b"\r\none\r\n..two\r\n.\r\n", "C: RETR 1", "S: +OK " + "x" * 508, "S: (2 lines, 12 octets)"),
    (b"-ERR no\r\n", "C: QUIT", "S: -ERR no"),
]
NO_MEMBER = "No such file or directory"


def lines_of(run):
    return run.err.decode().splitlines()


class Rehearsal(unittest.TestCase):
    def check(self, replies, told):
        """The trace of a rehearsal over these replies, which changes nothing else."""
        given = b"".join(replies)
        plain = programs.run("getmail", "--rehearse", given=given)
        traced = programs.run("getmail", "--rehearse", "--trace", given=given)
        self.assertEqual(plain.err, b"")
        self.assertEqual((traced.status, traced.out), (plain.status, plain.out))
        self.assertEqual(lines_of(traced), told)

    def test_a_whole_session(self):
        self.check([reply for reply, *_ in REPLIES], [line for _, *told in REPLIES for line in told])

    def test_replies_that_end_early(self):
        for end in range(len(REPLIES)):
            with self.subTest(end):
                told = [line for _, *lines in REPLIES[:end] for line in lines]
                following = [REPLIES[end][1]] if end else []
                self.check([reply for reply, *_ in REPLIES[:end]], told + following)

    def test_a_command_that_is_refused(self):
        self.check([b"+OK\r\n", b"-ERR\r\n", b"+OK\r\n"], ["S: +OK", "C: USER u", "S: -ERR", "C: QUIT", "S: +OK"])

    def test_a_line_that_is_too_long(self):
        self.check([b"+OK " + b"x" * 3000], ["S: +OK " + "x" * 508])

    def test_octets_above_ascii(self):
        """They are shown if all of the line is UTF-8, and no character changes how a line is shown."""
        for line, shown in ((b"\xe2\x82\xac 5", "€ 5"), (b"\xe2\x82\xac \xff", r"\xe2\x82\xac \xff"),
                            (b"\xc2\x9b2J", r"\xc2\x9b2J"), (b"\xc3", r"\xc3"), (b"\x7f\t", r"\x7f\x09"),
                            (b"\xe2\x80\xae\xd0\xb6", r"\xe2\x80\xae\xd0\xb6"), (b"a\xe2\x80\x8bb", r"a\xe2\x80\x8bb"),
                            (b"\xf3\xa0\x81\xa1", r"\xf3\xa0\x81\xa1"), (b"\xd0\xb6", "ж")):
            with self.subTest(line):
                run = programs.run("getmail", "--rehearse", "--trace", given=b"+OK " + line + b"\r\n")
                self.assertEqual(lines_of(run)[0], f"S: +OK {shown}")

    def test_what_standard_error_does_not_take(self):
        given = b"".join(reply for reply, *_ in REPLIES)
        plain = programs.run("getmail", "--rehearse", given=given)
        with open("/dev/full", "wb") as full:
            self.assertEqual(programs.run("getmail", "--rehearse", "--trace", given=given, err=full), plain)


class Session(unittest.TestCase):
    def setUp(self):
        self.server = Server(TWO)
        self.addCleanup(self.server.close)
        self.account = Account(self.server.port)
        self.addCleanup(self.account.holder.cleanup)

    def session(self, *words):
        thread = self.server.begin_session()
        run = self.account.run(*words)
        thread.join(programs.SECONDS)
        return run

    @contextmanager
    def server_thread(self):
        thread = self.server.begin_session()
        yield
        thread.join(programs.SECONDS)

    def missing_record(self):
        return f"trace: stat {self.account.record}: {NO_MEMBER}"

    def test_the_lines_of_a_first_session(self):
        run = self.session("--trace", "-d")
        told = ["S: +OK ready", "C: USER u", "S: +OK", "C: PASS *", "S: +OK", "C: STAT", "S: +OK 2 13",
                "C: UIDL", "S: +OK", "S: (2 lines, 10 octets)", "C: LIST", "S: +OK", "S: (2 lines, 10 octets)",
                self.missing_record(), self.missing_record(),
                "C: RETR 1", "S: +OK", "S: (1 lines, 5 octets)", "C: DELE 1", "S: +OK",
                "C: RETR 2", "S: +OK", "S: (2 lines, 9 octets)", "C: DELE 2", "S: +OK", "C: QUIT", "S: +OK"]
        self.assertEqual(run.status, 0)
        self.assertEqual(sorted(lines_of(run)), sorted(told))
        self.assertEqual([line for line in lines_of(run) if not line.startswith("trace: ")],
                         [line for line in told if not line.startswith("trace: ")])
        self.assertEqual(self.account.held(), TWO)

    def test_without_the_flag_nothing_more_is_told(self):
        self.assertEqual(self.session("-d").err, b"")
        with Account(self.server.port) as account:
            thread = self.server.begin_session()
            self.assertEqual(account.run("-d").err, b"")
            thread.join(programs.SECONDS)

    def test_a_second_session_is_refused_nothing(self):
        self.session()
        run = self.session("--trace")
        self.assertEqual([line for line in lines_of(run) if line.startswith("trace: ")], [])

    def test_a_password_that_the_server_repeats(self):
        """A command that the server doesn't know, repeated with its words."""
        password = "s3cret words"
        rc = self.account.rcfile
        rc.write_text(rc.read_text().replace("password = sesame", f"password = {password}"))
        answer = self.server._answer
        for said in (f"-ERR unknown command: PASS {password}", f"+OK {password}", f"-ERR {'x' * 505}{password}"):
            self.server._answer = lambda command: (said.encode() + b"\r\n" if command.startswith(b"PASS")
                                                   else answer(command))
            with self.subTest(said):
                run = self.session("--trace")
                self.assertIn("C: PASS *", lines_of(run))
                self.assertIn(f"S: {said.split()[0]}", lines_of(run))
                self.assertNotIn(b"s3c", run.err)
                self.assertNotIn(b"s3c", run.out)

    def test_a_missing_folder(self):
        shutil.rmtree(self.account.maildir / "new")
        run = self.session("--trace", "--why")
        *lines, fault, reason, hint = lines_of(run)
        self.assertEqual((run.status, fault), (1, "getmail: destination missing"))
        self.assertRegex(reason, f"{self.account.maildir}/new: {NO_MEMBER}$")
        self.assertTrue(hint.endswith(MAILDIR), hint)
        self.assertIn(f"trace: stat {self.account.maildir}/new: {NO_MEMBER}", lines)

    def test_an_rc_file_that_is_not_there(self):
        os.remove(self.account.rcfile)
        run = self.account.run("--trace")
        self.assertEqual(lines_of(run), [f"trace: open {self.account.rcfile}: {NO_MEMBER}",
                                         "getmail: cannot read rc file"])

    def test_a_record_that_cannot_be_read(self):
        self.account.record.mkdir()
        run = self.session("--trace")
        self.assertIn(f"trace: read {self.account.record}: Is a directory", lines_of(run))
        self.assertEqual(lines_of(run)[-1], "getmail: seen file refused")

    def test_a_record_that_may_not_be_read(self):
        if os.geteuid() == 0:
            self.skipTest("nothing is forbidden to the superuser")
        self.session()
        self.account.record.chmod(0)
        self.assertIn(f"trace: open {self.account.record}: Permission denied", lines_of(self.session("--trace")))

    def test_each_call_that_is_refused(self):
        """But those up to the connection, without which the server has no session: the superuser's run looks at its paths."""
        def into_a_maildir(**environment):
            with Account(self.server.port) as account, self.server_thread():
                return account.run("-q", "--trace", STEP_BELOW=str(account.maildir), **environment).err

        def into_an_mbox_with_an_open_entry(**environment):
            entry = entries([b"one\n"])
            with MboxAccount(self.server.port, begun=entry[:-1]) as account, self.server_thread():
                account.record.write_bytes(b"getmail-seen 2\na 5 0\n! a 0 %d\n" % len(entry))
                return account.run("-q", "--trace", STEP_BELOW=str(account.mbox), **environment).err

        for run in into_a_maildir, into_an_mbox_with_an_open_entry:
            with tempfile.NamedTemporaryFile() as note, preload.library("refuse_step") as refuse_step:
                run(LD_PRELOAD=str(refuse_step), STEP_NOTE=note.name)
                steps = [line.split("\t")[0] for line in Path(note.name).read_text().splitlines()]
            refused_steps.check_each_is_traced(self, run, first=steps.index("connect") + 2, link=f"{LOOPBACK}:{self.server.port}")

    def test_a_path_is_escaped(self):
        name = "\x1b[2J.rc"
        run = self.account.run("--trace", "-r", name)
        self.assertEqual(lines_of(run)[0], f"trace: open {self.account.folder}/\\x1b[2J.rc: {NO_MEMBER}")

    def test_a_server_that_takes_no_connection(self):
        self.server.close()
        run = self.account.run("--trace")
        self.assertEqual(lines_of(run), [f"trace: connect {LOOPBACK}:{self.server.port}: Connection refused",
                                         f"getmail: cannot connect to {LOOPBACK}:{self.server.port}"])

    def test_a_connection_that_breaks(self):
        """The server resets it in the middle of a message."""
        import socket
        import struct

        def reset(command):
            if command.startswith(b"RETR"):
                self.server.client.sendall(b"+OK\r\none\r\n")
                self.server.client.setsockopt(socket.SOL_SOCKET, socket.SO_LINGER, struct.pack("ii", 1, 0))
                os.close(self.server.client.detach())
                raise ConnectionError
            return answer(command)

        answer, self.server._answer = self.server._answer, reset
        run = self.session("--trace")
        self.assertEqual(lines_of(run)[-1], "getmail: reading from the server failed")
        self.assertIn(f"trace: read {LOOPBACK}:{self.server.port}: Connection reset by peer", lines_of(run))

    def test_no_progress_beside_it(self):
        """On a terminal the line of progress would be among the lines of the trace."""
        leader, terminal = os.openpty()
        with os.fdopen(leader, "rb", buffering=0) as shown, os.fdopen(terminal, "wb", buffering=0) as given:
            thread = self.server.begin_session()
            process = subprocess.run([programs.path_of("getmail"), "--trace"], stdin=subprocess.DEVNULL,
                                     stdout=subprocess.PIPE, stderr=given, timeout=programs.SECONDS,
                                     env=programs.environment(HOME=str(self.account.home)))
            thread.join(programs.SECONDS)
            self.assertEqual(process.returncode, 0)
            told = shown.read(65536)
        self.assertIn(b"C: RETR 1", told)
        self.assertNotIn(b"message 1 of", told)
