"""The program over two pipes: it writes a command before it waits for the reply, and reads no more than it needs."""

import unittest

from getmail import conversations as known
from harness.dialogue import Dialogue


def command_line(command):
    return known.printed([command])


class OneReplyAtATime(unittest.TestCase):
    def test_each_reply_comes_only_after_its_command(self):
        with Dialogue("getmail", "--rehearse") as program:
            program.give(known.REPLIES[known.GREETING])
            for command, reply in zip(known.COMMANDS, known.REPLIES[known.USER:]):
                self.assertEqual(program.read_line(), command_line(command))
                self.assertTrue(program.wrote_nothing(), f"more than {command} was written before its reply")
                program.give(reply)
            # The input is still open: the program ends without another octet of it.
            self.assertEqual(program.finish(), (known.printed([], "stored a1 15", "ended"), 0))

    def test_each_octet_comes_alone(self):
        with Dialogue("getmail", "--rehearse") as program:
            for command, reply in zip([*known.COMMANDS, None], known.REPLIES):
                for octet in reply:
                    program.give(bytes([octet]))
                if command:
                    self.assertEqual(program.read_line(), command_line(command))
            self.assertEqual(program.finish(), (known.printed([], "stored a1 15", "ended"), 0))

    def test_nothing_is_sent_before_the_greeting(self):
        with Dialogue("getmail", "--rehearse") as program:
            self.assertTrue(program.wrote_nothing())
            program.give(b"+OK hi\r")
            self.assertTrue(program.wrote_nothing())
            program.give(b"\n")
            self.assertEqual(program.read_line(), command_line("USER u"))

    def test_a_fault_is_told_at_its_octet(self):
        """What comes after the octet that shows the fault is not waited for."""
        faults = (
            (known.GREETING, b"what\r\n", known.NOT_UNDERSTOOD),
            (known.GREETING, b"+OK" + b"x" * (known.LINE_LIMIT - 3), known.TOO_LONG),
            (known.STAT, b"+OK 1\r\n", known.NOT_UNDERSTOOD),
            (known.STAT, b"+OK 100001 5\r\n", known.TOO_MANY),
            (known.UIDL, b"+OK\r\n1 a b\r\n", known.BAD_LISTING),
            (known.UIDL, b"+OK\r\n" + b"x" * known.LINE_LIMIT, known.TOO_LONG),
            (known.LIST, b"+OK\r\nx\r\n", known.BAD_LISTING),
            (known.LIST, b"+OK\r\n1 5\r\n1 6\r\n.\r\n", known.LISTINGS_DISAGREE),
            (known.QUIT, b"-ERR\r\n", known.REFUSED),
        )
        for place, reply, fault in faults:
            with self.subTest(place=known.PLACES[place], reply=reply[:20]), Dialogue("getmail",
                                                                                     "--rehearse") as program:
                wanted = known.cut("", b"", place, fault)
                program.give(known.up_to(place, reply))
                self.assertEqual(program.finish(), (wanted.printed, wanted.status))

    def test_the_reply_to_quit_is_read_after_a_refusal(self):
        for place in range(known.QUIT):
            with self.subTest(known.PLACES[place]), Dialogue("getmail", "--rehearse") as program:
                program.give(known.up_to(place, b"-ERR no\r\n"))
                for command in [*known.COMMANDS[:place], "QUIT"]:
                    self.assertEqual(program.read_line(), command_line(command))
                self.assertTrue(program.wrote_nothing(), "QUIT's reply was not waited for")
                program.give(b"+OK bye\r\n")
                self.assertEqual(program.finish(), (b"cut 6\n", 1))

    def test_an_endless_reply_to_quit_ends_after_a_refusal(self):
        with Dialogue("getmail", "--rehearse") as program:
            program.give(b"-ERR no\r\n" + b"x" * known.LINE_LIMIT)
            self.assertEqual(program.finish(), (known.printed(["QUIT"], "cut 6"), 1))
