"""Standard input that never ends or can't be read, and standard output that is refused."""

import contextlib
import os
import subprocess
import tempfile
import threading
import unittest

from getmail import conversations as known
from getmail.one_account import OneAccount
from harness import preload, programs
from harness.dialogue import Dialogue

PIECE = 1 << 20
UNWRITTEN = programs.Run(1, b"", b"getmail: cannot write standard output\n")


def run_on_pieces(pieces):
    """Runs the program on pieces of input that are made while it reads, until it has enough."""
    process = subprocess.Popen([programs.path_of("getmail"), "--rehearse"], env=programs.environment(),
                               stdin=subprocess.PIPE, stdout=subprocess.PIPE, stderr=subprocess.PIPE)
    killer = threading.Timer(programs.SECONDS, process.kill)
    killer.start()
    try:
        with contextlib.suppress(BrokenPipeError):
            for piece in pieces:
                process.stdin.write(piece)
        with contextlib.suppress(BrokenPipeError):
            process.stdin.close()
        out, err = process.stdout.read(), process.stderr.read()
        return programs.Run(process.wait(), out, err)
    finally:
        killer.cancel()
        process.kill()
        process.wait()
        for end in (process.stdout, process.stderr):
            end.close()


def octets(count, piece=b"x" * PIECE):
    """This many octets, a piece at a time."""
    for _ in range(count // len(piece)):
        yield piece
    yield piece[:count % len(piece)]


def forever(piece):
    while True:
        yield piece


class Input(unittest.TestCase):
    def check_cut(self, run, place, fault):
        wanted = known.cut("", b"", place, fault)
        self.assertEqual(run, programs.Run(wanted.status, wanted.printed, b""))

    def run_from(self, place, pieces):
        """Runs the program on the good replies before `place`, and then on the pieces."""
        def all_pieces():
            yield known.up_to(place, b"")
            yield from pieces
        return run_on_pieces(all_pieces())

    def test_zeros_without_end(self):
        with open("/dev/zero", "rb") as zeros:
            self.check_cut(programs.run("getmail", "--rehearse", given=zeros), known.GREETING, known.TOO_LONG)

    def test_an_empty_file(self):
        with open("/dev/null", "rb") as nothing:
            self.check_cut(programs.run("getmail", "--rehearse", given=nothing), known.GREETING, known.ENDED_EARLY)

    def test_input_that_cannot_be_read(self):
        folder = os.open(tempfile.gettempdir(), os.O_RDONLY)
        self.addCleanup(os.close, folder)
        self.check_cut(programs.run("getmail", "--rehearse", given=folder), known.GREETING, known.READ_FAILED)

    def test_listings_without_end(self):
        for place, row in ((known.UIDL, b"1 a\r\n"), (known.LIST, b"1 5\r\n")):
            with self.subTest(known.PLACES[place]):
                self.check_cut(self.run_from(place, (b"+OK\r\n", *[row * 1000] * 200)), place, known.TOO_MANY)

    def test_a_message_of_the_greatest_length(self):
        """One line, whose body with its end mark has just as many octets as are allowed."""
        length = known.BODY_LIMIT - len(b"\r\n.\r\n")
        wanted = known.ended("", b"", length=length + 1)
        run = self.run_from(known.RETR, (b"+OK\r\n", *octets(length), b"\r\n.\r\n", known.REPLIES[known.QUIT]))
        self.assertEqual(run, programs.Run(0, wanted.printed, b""))

    def test_a_message_of_one_octet_more(self):
        length = known.BODY_LIMIT - len(b"\r\n.\r\n") + 1
        run = self.run_from(known.RETR, (b"+OK\r\n", *octets(length), b"\r\n.\r\n", known.REPLIES[known.QUIT]))
        self.check_cut(run, known.RETR, known.TEXT_TOO_LONG)

    def test_a_message_without_end(self):
        for piece in (b"x" * PIECE, b"x\r\n" * 1000, b".." * 1000):
            with self.subTest(piece[:3]):
                run = self.run_from(known.RETR, (b"+OK\r\n", *octets(known.BODY_LIMIT + PIECE, piece)))
                self.check_cut(run, known.RETR, known.TEXT_TOO_LONG)

    def test_a_message_that_ends_under_way(self):
        """Before it is too long the end of input is the fault, and from there on its length."""
        for length, fault in ((known.BODY_LIMIT - 1, known.ENDED_EARLY), (known.BODY_LIMIT, known.TEXT_TOO_LONG)):
            with self.subTest(length):
                self.check_cut(self.run_from(known.RETR, (b"+OK\r\n", *octets(length))), known.RETR, fault)


class Output(unittest.TestCase):
    def test_a_full_device(self):
        for given in (known.replies(), b"", b"-ERR\r\n", known.up_to(known.STAT, b"+OK 2 5\r\n")):
            with self.subTest(given), open("/dev/full", "wb") as full:
                run = programs.run("getmail", "--rehearse", given=given, out=full)
                self.assertEqual(run, UNWRITTEN)

    def test_a_closed_pipe(self):
        for given in (known.replies(), b"", b"-ERR\r\n"):
            with self.subTest(given):
                reader, writer = os.pipe()
                os.close(reader)
                try:
                    run = programs.run("getmail", "--rehearse", given=given, out=writer)
                finally:
                    os.close(writer)
                self.assertEqual(run, UNWRITTEN)

    def test_a_pipe_that_is_closed_under_way(self):
        with Dialogue("getmail", "--rehearse") as program:
            program.give(known.REPLIES[known.GREETING])
            self.assertEqual(program.read_line(), b"C: USER u\n")
            program.stop_listening()
            program.give(known.REPLIES[known.USER])
            self.assertEqual(program.process.wait(timeout=programs.SECONDS), 1)


class InterruptedOutput(OneAccount):
    def said(self, **changes):
        """What a run says of the three messages, each of which is held already."""
        thread = self.server.begin_session()
        run = self.account.run("-a", **changes)
        thread.join(programs.SECONDS)
        return run

    def test_every_second_write(self):
        self.session()
        plain = self.said()
        with preload.library("refuse_call") as library:
            self.assertEqual(self.said(LD_PRELOAD=str(library), REFUSED_CALL="output"), plain)
        self.assertEqual((plain.status, plain.out.count(b"already held")), (0, len(self.server.messages)), plain)
