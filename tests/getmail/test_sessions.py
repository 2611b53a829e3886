"""Random accounts over several sessions: what is sent, stored, recorded and reported is what the formats say.

The seeds are fixed, so that a failure names an account that can be tried again; `tests/fuzz.py` tries as many others as
one likes.
"""

import contextlib
import os
import random
import tempfile
import unittest
from pathlib import Path

from getmail.account import Account
from getmail.model import DAY, Kept, Options
from getmail.server import Server
from harness import preload, programs
from harness.kernel import LOOPBACK

LOGIN = ["USER u", "PASS sesame", "STAT", "UIDL", "LIST"]
SEEDS = 150


def record_of(octets):
    """What a record's file stands for: for each id when it was first seen and whether it was delivered. A last group
    that isn't whole counts for nothing."""
    rows = {}
    lines = iter(octets.decode().split("\n")[1:-1])
    for line in lines:
        if line.startswith("+"):
            count = int(line.split()[1])
            group = [row for _, row in zip(range(count), lines)]
            if len(group) < count:
                break
        else:
            group = [line]
        for row in group:
            uid, seen, state = row.rsplit(" ", 2)
            rows[uid.encode()] = (int(seen), state == "1")
    return rows


def random_text(source):
    pieces = ("one", ".", "..", "", ".x", "From x", "a\r", "z" * 80, "\u00e4", "\0")
    lines = [source.choice(pieces) for _ in range(source.choice((0, 1, 1, 3, 20, 200)))]
    return "".join(line + "\n" for line in lines).encode()


def random_options(source):
    return Options(source.random() < 0.3, source.random() < 0.3, source.choice((0, 0, 0, 1, 3)),
                   source.choice((0, 0, 0, 10, 300)), source.choice((0, 0, 0, 1, 2, 5)), source.randrange(4))


def random_flags(source):
    return [source.choice(pair) for pair in (("-a", "-n"), ("-d", "-l"), ("-q", "-v", "-vv")) if source.random() < 0.3]


class Life:
    """One account and its server, with what the formats say of both."""

    account_kind, kept_kind, part_cut = Account, Kept, 0.2

    def __init__(self, test, seed, preloaded, folder):
        self.test = test
        self.source = random.Random(seed)
        self.server = Server([])
        self.account = self.account_kind(self.server.port)
        self.sections = self.account.rcfile.read_text().partition("read_all")[0]
        self.kept = self.kept_kind()
        self.now = 1_700_000_000
        self.count = 0
        self.clock = Path(folder) / "clock"
        self.changes = {"LD_PRELOAD": ":".join(str(library) for library in preloaded), "CLOCK": str(self.clock)}

    def __enter__(self):
        return self

    def __exit__(self, *_):
        self.server.close()
        self.account.holder.cleanup()

    def let_time_pass(self):
        """What happens between sessions: time, new mail, and what others do with what is held."""
        source = self.source
        self.now += source.choice((0, 60, DAY - 1, DAY, 5 * DAY, -60))
        for _ in range(source.choice((0, 1, 1, 3, 8))):
            if self.server.messages and source.random() < 0.1:
                uid, text = source.choice(self.server.messages)
            else:
                self.count += 1
                uid, text = b"id%d" % self.count, random_text(source)
            self.server.messages.insert(source.randrange(len(self.server.messages) + 1), (uid, text))
        self.let_others_work()

    def let_others_work(self):
        """A reader moves or removes files, and a record may be lost."""
        source = self.source
        if source.random() < 0.3:
            self.account.read_all_new()
        if self.kept.held and source.random() < 0.2:
            uid = source.choice(sorted(self.kept.held))
            for part in ("new", "cur"):
                for path in (self.account.maildir / part).glob(f"{self.account.stem(uid)},*"):
                    path.unlink()
            del self.kept.held[uid]
        if source.random() < 0.05:
            self.account.record.unlink(missing_ok=True)
            self.kept.rows.clear()

    def run(self, octets=None, **changes):
        """One run with random options and flags; what it left, and the options as the flags left them."""
        options, flags = random_options(self.source), random_flags(self.source)
        self.account.rcfile.write_text(self.sections + options.lines())
        self.clock.write_text(str(self.now))
        thread = self.server.begin_session(octets)
        run = self.account.run(*flags, **{**self.changes, **changes})
        thread.join(programs.SECONDS)
        return run, options.changed(flags)

    def rows(self):
        """What the record stands for; a missing one is an empty one."""
        return record_of(self.account.record.read_bytes()) if self.account.record.exists() else {}

    def check_kept(self):
        """The files and the record are what the formats say."""
        self.test.assertEqual(self.account.held(), sorted(self.kept.held.items()))
        self.test.assertEqual(os.listdir(self.account.maildir / "tmp"), [])
        self.test.assertEqual(self.rows(), self.kept.rows)

    def check_session(self):
        """A session whose connection isn't cut."""
        messages = list(self.server.messages)
        commands = [f"{word} {number}" for word in ("RETR", "DELE") for number in range(1, len(messages) + 1)]
        self.server.refuses = tuple(self.source.sample(commands, 1)) if commands and self.source.random() < 0.2 else ()
        run, options = self.run()
        told = self.kept.session(options, messages, self.now, self.server.refuses, f"{LOOPBACK}:{self.server.port}")
        self.test.assertEqual(self.server.commands, LOGIN + told.commands)
        out = "".join(line + "\n" for line in told.lines).encode()
        self.test.assertEqual(run, programs.Run(1 if told.fault else 0, out, told.fault.encode()))
        self.check_kept()

    def check_cut(self):
        """A session that the server breaks off: what is held is whole, once, and no message is gone that isn't held."""
        before, texts = list(self.server.messages), {**dict(reversed(self.server.messages)), **self.kept.held}
        self.server.refuses = ()
        run, _ = self.run(self.source.randrange(1, 2000))
        held = self.account.held()
        self.test.assertEqual(len(dict(held)), len(held))
        self.test.assertEqual(held, sorted((uid, texts[uid]) for uid, _ in held))
        self.test.assertLessEqual(set(self.kept.held), set(dict(held)))
        self.test.assertIn(run.status, (0, 1))
        rows = self.rows()
        gone = {uid for uid, _ in before} - {uid for uid, _ in self.server.messages}
        self.test.assertTrue(all(rows[uid][1] for uid in gone), gone)
        self.kept = Kept(dict(held), rows)


@contextlib.contextmanager
def libraries():
    """What is preloaded into each run: another time of day, and no wait for the disk."""
    with preload.library("clock") as clock, preload.library("skip_flushes") as skipping:
        yield clock, skipping


def check_seed(test, seed, preloaded, kind=Life):
    """The life of one account."""
    with tempfile.TemporaryDirectory() as folder, kind(test, seed, preloaded, folder) as life:
        for _ in range(life.source.randrange(2, 6)):
            life.let_time_pass()
            if life.source.random() < life.part_cut:
                life.check_cut()
            else:
                life.check_session()


class RandomAccounts(unittest.TestCase):
    def test_random_accounts(self):
        with libraries() as preloaded:
            for seed in range(SEEDS):
                with self.subTest(seed=seed):
                    check_seed(self, seed, preloaded)
