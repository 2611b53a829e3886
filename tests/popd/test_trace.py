"""`--trace`: conversations and refused calls of the system on standard error, and nothing else."""

import os
import shutil
import unittest

from harness import programs, refused_steps, waits
from harness.kernel import LOOPBACK
from popd.service import Maildir, Service

TALK = [
    (None, "S: +OK popd ready"),
    (b"USER p", "C: USER p", "S: +OK send PASS"),
    (b"pAsS secret", "C: PASS *", "S: -ERR refused"),
    (b"AUTH PLAIN AHUAcA==", "C: AUTH *", "S: -ERR bad command"),
    (b"apop u 0123", "C: APOP *", "S: -ERR bad command"),
    (b"PASSsecret", "C: PASS *", "S: -ERR bad command"),
    (b"\x1b\xff\xc3\xa9", "C: \\x1b\\xff\\xc3\\xa9", "S: -ERR bad command"),
    (b"x" * 700, "C: " + "x" * 512, "S: -ERR bad command"),
    (b"USER u", "C: USER u", "S: +OK send PASS"),
    (b"PASS p", "C: PASS *", "S: +OK 2 messages"),
    (b"STAT", "C: STAT", "S: +OK 2 10"),
    (b"UIDL", "C: UIDL", "S: +OK", "S: (2 lines, 10 octets)"),
    (b"UIDL 1", "C: UIDL 1", "S: +OK 1 a"),
    (b"RETR 1", "C: RETR 1", "S: +OK 5 octets", "S: (1 lines, 5 octets)"),
    (b"TOP 2 0", "C: TOP 2 0", "S: +OK", "S: (1 lines, 5 octets)"),
    (b"NOOP", "C: NOOP", "S: +OK"),
    (b"DELE 9", "C: DELE 9", "S: -ERR no such message"),
    (b"QUIT", "C: QUIT", "S: +OK bye"),
]
GIVEN = b"".join(command + b"\r\n" for command, *_ in TALK if command is not None)
TOLD = [line for _, *lines in TALK for line in lines]


def lines_of(run):
    return run.err.decode().splitlines()


class Trace(unittest.TestCase):
    def setUp(self):
        self.maildir = Maildir()
        self.addCleanup(self.maildir.holder.cleanup)
        for name in ("a", "b"):
            self.maildir.add("new", name, b"one\n")

    def run_popd(self, *words, given=GIVEN, **environment):
        return programs.run("popd", *words, "u", self.maildir.passfile, self.maildir.folder, given=given, **environment)

    def test_the_lines_of_a_conversation(self):
        """Commands that come before their turn are shown in their turn."""
        plain, traced = self.run_popd(), self.run_popd("--trace")
        self.assertEqual(plain.err, b"")
        self.assertEqual((traced.status, traced.out), (plain.status, plain.out))
        self.assertEqual(lines_of(traced), TOLD)

    def test_over_a_connection(self):
        with Service(self.maildir, "--trace", "--connections", "2", **waits.no_pauses(self)) as service:
            for _ in range(2):
                with service.client() as client:
                    client.line()
                    for command, *_ in TALK[1:]:
                        client.ask_lines(command) if command[:4] in (b"UIDL", b"RETR", b"TOP ") and command != b"UIDL 1" \
                            else client.ask(command)
            status, err = service.finish()
        self.assertEqual((status, err.decode().splitlines()), (0, TOLD * 2))

    def test_a_rehearsal(self):
        run = programs.run("popd", "--rehearse", "--trace", given=b"USER u\r\nPASS p\r\nRETR 1\r\n")
        self.assertEqual(lines_of(run), ["S: +OK popd ready", "C: USER u", "S: +OK send PASS", "C: PASS *",
                                         "S: +OK 2 messages", "C: RETR 1", "S: +OK 22 octets", "S: (3 lines, 23 octets)"])

    def test_a_long_message(self):
        """It is sent in several pieces."""
        text = b"." + b"x" * 99_998 + b"\n"
        self.maildir.add("new", "c", text * 5)
        run = self.run_popd("--trace", given=b"USER u\r\nPASS p\r\nRETR 3\r\nNOOP\r\n")
        self.assertEqual(lines_of(run)[-4:], ["S: +OK 500005 octets", "S: (5 lines, 500010 octets)", "C: NOOP", "S: +OK"])

    def test_a_connection_that_is_reset(self):
        with Service(self.maildir, "--trace", "--connections", "1") as service:
            client = service.client()
            client.line()
            peer = f"{LOOPBACK}:{client.socket.getsockname()[1]}"
            client.reset()
            self.assertIn(f"trace: read {peer}: Connection reset by peer", service.finish()[1].decode().splitlines())

    def test_standard_streams_that_are_refused(self):
        folder = os.open(self.maildir.folder, os.O_RDONLY)
        self.addCleanup(os.close, folder)
        self.assertIn("trace: read standard input: Is a directory", lines_of(self.run_popd("--trace", given=folder)))
        with open("/dev/full", "wb") as full:
            run = programs.run("popd", "--rehearse", "--trace", out=full)
        self.assertIn("trace: write standard output: No space left on device", lines_of(run))

    def test_each_call_that_is_refused(self):
        def remove_a_message(**environment):
            with Maildir() as self.maildir:
                self.maildir.add("new", "a", b"one\n")
                return self.run_popd("--trace", given=b"USER u\r\nPASS p\r\nRETR 1\r\nDELE 1\r\nQUIT\r\n", **environment,
                                     STEP_BELOW=str(self.maildir.folder)).err

        refused_steps.check_each_is_traced(self, remove_a_message)

    def test_a_missing_folder(self):
        shutil.rmtree(self.maildir.folder / "cur")
        run = self.run_popd("--trace", given=b"USER u\r\nPASS p\r\n")
        self.assertIn(f"trace: stat {self.maildir.folder}/cur: No such file or directory", lines_of(run))
        self.assertEqual([line for line in lines_of(run) if not line.startswith(("C: ", "S: ", "trace: "))],
                         lines_of(self.run_popd(given=b"USER u\r\nPASS p\r\n")))

    def test_a_password_file_that_is_not_there(self):
        self.maildir.passfile.unlink()
        run = self.run_popd("--trace")
        self.assertEqual(lines_of(run), [f"trace: open {self.maildir.passfile}: No such file or directory",
                                         f"popd: cannot read {self.maildir.passfile}"])

    def test_an_address_that_is_taken(self):
        with Service(self.maildir, "--connections", "1") as service:
            address = f"127.0.0.1:{service.port}"
            run = self.run_popd("--trace", "--listen", address, given=b"")
            self.assertEqual(lines_of(run), [f"trace: bind {address}: Address already in use",
                                             f"popd: cannot listen on {address}"])
            with service.client() as client:
                client.line()
