"""`popd --rehearse` over standard input and output: every answer byte for byte."""

import random
import unittest

from harness import programs
from harness.dialogue import Dialogue
from popd import expected, lines

PIECES = (*(line.encode() + b"\r\n" for line in
            ("USER u", "PASS p", "STAT", "LIST", "LIST 1", "UIDL", "UIDL 2", "RETR 1", "RETR 2", "TOP 1 0", "TOP 2 1",
             "DELE 1", "DELE 2", "RSET", "NOOP", "RETR 3", "LIST 0", "noop", "XYZ", "USER v", "PASS q", "STAT ",
             "TOP 1 4294967295", "DELE 4294967296", "")),
          b"\r", b"\n", b"\0", b" ", b"\xff", b"RETR ", b"x" * 300, b"QUIT\r\n")


def random_lines(source):
    """A connection of random commands and pieces, logged in or not."""
    logged_in = b"USER u\r\nPASS p\r\n" if source.randrange(4) else b""
    return logged_in + b"".join(source.choice(PIECES) for _ in range(source.randrange(1, 40)))


class Rehearsal(unittest.TestCase):
    def check(self, given, answers):
        run = programs.run("popd", "--rehearse", given=given)
        self.assertEqual(run, programs.Run(0, b"".join(answers), b""))

    def test_conversations(self):
        for name, conversation in lines.CONVERSATIONS.items():
            with self.subTest(name):
                self.check(lines.given(conversation), lines.answers(conversation))

    def test_recorded_conversation_of_the_repository(self):
        given = (programs.ROOT / "examples" / "popd-rehearsal.txt").read_bytes()
        self.check(given, expected.answers(given))

    def test_an_input_that_ends_anywhere(self):
        given = lines.given(lines.CONVERSATIONS["the recorded one"])
        for length in range(len(given) + 1):
            with self.subTest(length):
                self.check(given[:length], expected.answers(given[:length]))

    def test_lines_after_quit_have_no_answer(self):
        self.check(b"QUIT\r\nNOOP\r\nQUIT\r\n", [b"+OK popd ready\r\n", b"+OK bye\r\n"])

    def test_random_lines(self):
        for seed in range(1000):
            given = random_lines(random.Random(seed))
            with self.subTest(seed=seed, given=given):
                self.check(given, expected.answers(given))

    def test_the_greatest_input(self):
        """As many octets as one connection may send; what follows is not read."""
        whole = expected.INPUT_LIMIT // len(b"NOOP\r\n")
        given = b"NOOP\r\n" * (whole + 1000)
        answers = b"+OK popd ready\r\n" + b"-ERR not now\r\n" * whole
        self.assertEqual(len(answers), 39_146_844)
        run = programs.run("popd", "--rehearse", given=given)
        self.assertEqual((run.status, run.err, len(run.out), run.out == answers), (0, b"", len(answers), True))

    def test_a_last_line_within_the_greatest_input(self):
        filler = b"x" * (expected.INPUT_LIMIT - len(b"\r\nNOOP\r\n")) + b"\r\n"
        self.check(filler + b"NOOP\r\nNOOP\r\n", [b"+OK popd ready\r\n", b"-ERR bad command\r\n", b"-ERR not now\r\n"])
        self.check(b"x" + filler + b"NOOP\r\nNOOP\r\n", [b"+OK popd ready\r\n", b"-ERR bad command\r\n"])

    def test_a_line_without_end(self):
        for octet in (b"x", b"\0", b"\r", b"\n", b" "):
            with self.subTest(octet):
                self.check(octet * (expected.INPUT_LIMIT + 1000), [b"+OK popd ready\r\n"])

    def test_zeros_without_end(self):
        with open("/dev/zero", "rb") as zeros:
            self.assertEqual(programs.run("popd", "--rehearse", given=zeros),
                             programs.Run(0, b"+OK popd ready\r\n", b""))


class OneLineAtATime(unittest.TestCase):
    def read(self, program, answer):
        got = b"".join(program.read_line() for _ in range(answer.count(b"\n")))
        self.assertEqual(got, answer)

    def test_each_answer_comes_before_the_next_line(self):
        conversation = lines.CONVERSATIONS["the recorded one"]
        greeting, *answers = lines.answers(conversation)
        with Dialogue("popd", "--rehearse") as program:
            self.read(program, greeting)
            for (line, _), answer in zip(conversation, answers):
                self.assertTrue(program.wrote_nothing())
                program.give(lines.wire(line))
                self.read(program, answer)
            program.end_input()
            self.assertEqual(program.finish(), (b"", 0))

    def test_whole_lines_are_answered_while_another_is_under_way(self):
        with Dialogue("popd", "--rehearse") as program:
            program.give(b"NOOP\r\nSTAT\r\nUSER u\r\nPA")
            self.read(program, b"+OK popd ready\r\n-ERR not now\r\n-ERR not now\r\n+OK send PASS\r\n")
            program.give(b"SS p\r")
            self.assertTrue(program.wrote_nothing())
            program.give(b"\n")
            self.read(program, b"+OK 2 messages\r\n")

    def test_quit_ends_the_program_though_its_input_is_open(self):
        with Dialogue("popd", "--rehearse") as program:
            program.give(b"USER u\r\nPASS p\r\nQUIT\r\n")
            self.assertEqual(program.finish(), (b"+OK popd ready\r\n+OK send PASS\r\n+OK 2 messages\r\n+OK bye\r\n", 0))
