"""Random conversations: each ends in time with the one answer that the rules give, whatever its bytes.

The seeds are fixed, so that a failure names a conversation that can be repeated.
"""

import random
import unittest

from getmail import conversations, expected
from harness import programs

PIECES = (b"+OK", b"-ERR", b"\r\n", b"\r", b"\n", b".", b"..", b".\r\n", b"\r\n.\r\n", b" ", b"  ", b"0", b"1", b"2",
          b"18", b"a1", b"1 a1\r\n", b"1 18\r\n", b"4294967295", b"4294967296", b"18446744073709551616", b"\0", b"\x7f",
          b"\xff", b"x" * 70, b"x" * 2048, b"\r\n" * 50, b"+OK 0 0\r\n", b"+OK\r\n.\r\n", b"-ERR no\r\n")


def changed(source, given):
    """`given` with one random change: a piece put in, a stretch taken out, a stretch doubled, an octet changed."""
    first = source.randrange(len(given) + 1)
    last = min(len(given), first + source.choice((1, 1, 2, 5, 20)))
    kind = source.randrange(5)
    if kind == 0:
        return given[:first] + source.choice(PIECES) + given[first:]
    if kind == 1:
        return given[:first] + given[last:]
    if kind == 2:
        return given[:last] + given[first:]
    if kind == 3:
        return given[:first] + bytes([source.randrange(256)]) * (last - first) + given[last:]
    return given[:first] + source.choice(PIECES) + given[last:]


def conversation_near_the_good_one(source):
    """The whole conversation, or one over an empty maildrop, with a few changes."""
    given = conversations.replies()
    if source.randrange(4) == 0:
        given = conversations.replies(STAT=b"+OK 0 0\r\n", UIDL=b"+OK\r\n.\r\n", LIST=b"+OK\r\n.\r\n", RETR=b"")
    for _ in range(source.choice((1, 1, 1, 2, 3, 6))):
        given = changed(source, given)
    return given


def conversation_of_pieces(source):
    """Replies put together from words of the protocol; the first few are often good, so that the rest is reached."""
    good = b"".join(conversations.REPLIES[:source.randrange(len(conversations.REPLIES) + 1)])
    return good + b"".join(source.choice(PIECES) for _ in range(source.randrange(40)))


def check_seed(test, seed, conversation_of):
    """One conversation has the answer that the rules give."""
    given = conversation_of(random.Random(seed))
    out, status = expected.answer(given)
    test.assertEqual(programs.run("getmail", "--rehearse", given=given), programs.Run(status, out, b""), given)


class RandomConversations(unittest.TestCase):
    def check_seeds(self, seeds, conversation_of):
        for seed in seeds:
            with self.subTest(seed=seed):
                check_seed(self, seed, conversation_of)

    def test_changed_conversations(self):
        self.check_seeds(range(1500), conversation_near_the_good_one)

    def test_conversations_of_random_pieces(self):
        self.check_seeds(range(1000), conversation_of_pieces)
