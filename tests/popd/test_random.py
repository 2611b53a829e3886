"""Random Maildirs and random lines over loopback: each line has the one answer that the rules give, and only what was
marked before QUIT is gone.

The seeds are fixed, so that a failure names a conversation that can be repeated; `tests/fuzz.py` tries as many others
as one likes.
"""

import random
import socket
import unittest

from harness import waits
from popd import expected
from popd.service import Maildir, Service

SEEDS = 100

NAMES = (b"a", b"b", b"a:2,S", b"b:2,", b"1700000000.1_2.host:2,FS", b"x" * 70, b"x" * 71, b"y" * 200, b".hidden", b"c d",
         b"\xc3\xa4", b"\xff", b"{}~!", b"a:1", b":2,S", b"z")
LINES = (b"", b".", b"..", b".x", b"one", b"two\r", b"\0", b"x" * 4095, b"x" * 4096, b"From x", b"Subject: s", b"\xff")
WORDS = (b"STAT", b"LIST", b"UIDL", b"RSET", b"NOOP", b"LIST %d", b"UIDL %d", b"RETR %d", b"DELE %d", b"TOP %d 0",
         b"TOP %d 3", b"retr %d ", b"USER u", b"PASS p", b"", b"DELE", b"TOP %d", b"RETR 0%d", b"STAT %d", b"NOOP\r", b"XYZ",
         b"RETR 4294967296", b"x" * 510, b"x" * 511, b"RETR\t%d", b"list  %d")
LOGINS = ((b"USER u", b"PASS p"), (b"USER u", b"PASS p"), (b"USER u", b"PASS p"), (b"user u", b"PASS q", b"PASS p"),
          (b"PASS p", b"USER x", b"USER u", b"PASS p"), (b"STAT",), ())


def fill(maildir, source):
    """Puts files of random names and texts into a Maildir."""
    for name in source.sample(NAMES, source.randrange(len(NAMES))):
        lines = [source.choice(LINES) for _ in range(source.choice((0, 1, 2, 5, 30)))]
        text = b"".join(line + b"\n" for line in lines)
        maildir.add(source.choice(("new", "cur")), name, text if source.randrange(4) else text[:-1])


def random_lines(source):
    """What a client sends: it logs in, or tries to, and then says anything, QUIT sometimes."""
    lines = list(source.choice(LOGINS))
    for _ in range(source.randrange(30)):
        word = source.choice(WORDS)
        lines.append(word % source.randrange(8) if b"%" in word else word)
    if source.randrange(3):
        lines.insert(source.randrange(len(lines) // 2, len(lines) + 1), b"QUIT")
    return b"".join(line + b"\r\n" for line in lines)


def check_seed(test, seed, **environment):
    """One Maildir and one conversation."""
    source = random.Random(seed)
    with Maildir() as maildir:
        fill(maildir, source)
        machine = expected.Machine(expected.messages_of(maildir.folder))
        before, given = maildir.names(), random_lines(source)
        answers = b"".join(expected.answers(given, machine))
        with Service(maildir, "--connections", "1", **environment) as service, service.client() as client:
            client.give(given)
            client.socket.shutdown(socket.SHUT_WR)
            test.assertEqual(client.rest_or_reset() if machine.is_closed else client.rest(), answers, given)
            test.assertEqual(service.finish()[0], 0)
        gone = {expected.base_of(message.path) for message in machine.removed()} if machine.is_closed else ()
        test.assertEqual(maildir.names(), [(part, name) for part, name in before if expected.base_of(name) not in gone])


class RandomMaildirs(unittest.TestCase):
    def test_random_maildirs(self):
        """The pauses after refused passwords are over at once."""
        passing = waits.time_for(type(self))
        for seed in range(SEEDS):
            with self.subTest(seed=seed):
                check_seed(self, seed, **passing.environment())
