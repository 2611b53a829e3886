"""Weeks of unattended runs, against a model of what they tell: octet for octet.

`WEEKS` is how many random weeks are tried, `SEED` where they begin; a failure names its seed.
"""

import contextlib
import hashlib
import os
import random
import resource
import unittest

from getmail.account import RC, Account
from getmail.server import Server, size_of
from getmail.told import DAY, HOUR, Memory, Said
from getmail.unattended import NOBODY
from harness import preload, programs
from harness.kernel import LOOPBACK
from harness.maildir import make_maildir

START = 1_700_000_000
LIMIT = 100
OPTIONS = f"max_message_size = {LIMIT}\nmax_messages_per_session = 1\n"
WARNED = "received = true\n"


class Box:
    """One of several accounts in a home: its rc file, its server with its messages, and the model of its memory."""

    def __init__(self, account, server, name, box):
        self.account, self.server, self.name = account, server, name
        self.maildir = make_maildir(account.home / f"Mail-{name}")
        self.rcfile = account.folder / name
        text = RC.format(server=LOOPBACK, port=server.port).replace("~/Maildir/", f"~/Mail-{name}/") + OPTIONS
        self.good = text.replace("username = u", f"username = {name}")
        self.write(self.good)
        self.user = f"{name}@{LOOPBACK}:{server.port}"
        self.memory = Memory(self.user, LIMIT)
        self.delivered = set()
        self.count = 0
        self.digest = hashlib.sha256(f"{LOOPBACK}\0{server.port}\0{name}".encode()).hexdigest()
        self.obstructed, self.pipe = None, None

    def write(self, text):
        self.rcfile.write_text(text)
        self.rcfile.chmod(0o600)

    def line(self, words):
        return f"getmail: {self.user}: {words}"

    def add(self, text):
        self.count += 1
        self.server.messages.append((b"%d" % self.count, text))

    def wanted(self):
        """The ids of the messages that are small enough and weren't delivered."""
        return [uid for uid, text in self.server.messages if size_of(text) <= LIMIT and uid not in self.delivered]

    def obstruct(self, uid):
        """A pipe takes the name of a message's file."""
        self.obstructed, self.pipe = uid, self.maildir / "new" / f"{self.digest}.{uid.hex()},S=1"
        os.mkfifo(self.pipe)

    def clear(self):
        self.pipe.unlink()
        self.obstructed, self.pipe = None, None

    def said_by_a_good_run(self):
        """What a run that ends says; the model of what is delivered goes on."""
        large = [(uid, number, size_of(text)) for number, (uid, text) in enumerate(self.server.messages, 1)
                 if size_of(text) > LIMIT]
        wanted = self.wanted()
        small = [uid for uid in wanted if uid != self.obstructed]
        lasting = [self.line(f"{self.pipe}: not a regular file")] * (len(wanted) - len(small))
        self.delivered |= set(small[:1])
        past = max(0, len(small) - 1)
        counts = ["1 obstructed"] * len(lasting) + [f"{len(large)} too large"] * bool(large) + \
            [f"{past} past the limit"] * bool(past)
        left_out = self.line(f"left out: {', '.join(counts)}") if counts else ""
        return Said(lasting=lasting, large=large, past_limit=past, ends=True, left_out=left_out)


FAULTS = {
    "USER": ("server refused USER", "the server said: -ERR refused"),
    "PASS": ("server refused PASS", "the server said: -ERR refused",
             "username or password is wrong; in the rc file a comment has a line of its own"),
    "UIDL": ("server refused UIDL", "the server said: -ERR refused"),
    "LIST": ("server refused LIST", "the server said: -ERR refused"),
}


class Weeks(unittest.TestCase):
    def setUp(self):
        self.clock = self.enterContext(preload.library("clock"))
        self.other_user = self.enterContext(preload.library("other_user"))

    @contextlib.contextmanager
    def boxes(self, count):
        with contextlib.ExitStack() as stack:
            account = stack.enter_context(Account(1))
            self.now = START
            self.path = account.home / "clock"
            yield [Box(account, stack.enter_context(Server([])), f"u{number}", number) for number in range(count)]

    def run_at(self, box, connects=True, room=None):
        """Standard error of an unattended run, its lines; with `room` no file may have more octets."""
        self.path.write_text(str(self.now))
        thread = box.server.begin_session() if connects else None
        _, hard = resource.getrlimit(resource.RLIMIT_FSIZE)
        resource.setrlimit(resource.RLIMIT_FSIZE, (hard if room is None else room, hard))
        try:
            process = box.account.start("--unattended", "-r", box.name, restore_signals=False, CLOCK=str(self.path),
                                        LD_PRELOAD=f"{self.clock} {self.other_user}", OTHER_USER=str(NOBODY))
        finally:
            resource.setrlimit(resource.RLIMIT_FSIZE, (hard, hard))
        out, err = process.communicate(timeout=programs.SECONDS)
        if thread:
            thread.join(programs.SECONDS)
        self.assertEqual(out, b"")
        return err

    def check(self, box, said, connects=True, is_kept=True):
        err = self.run_at(box, connects, None if is_kept else 10)
        wanted = "".join(f"{line}\n" for line in box.memory.run(said, self.now, is_kept))
        self.assertEqual(err.decode(), wanted)

    def good(self, box, is_kept=True):
        self.check(box, box.said_by_a_good_run(), is_kept=is_kept)

    def refused(self, box, word, is_kept=True):
        box.server.refuses = {"USER": f"USER {box.name}", "PASS": "PASS sesame"}.get(word, word),
        line, *reasons = FAULTS[word]
        self.check(box, Said(fault=(f"getmail: {line}", *map(box.line, reasons))), is_kept=is_kept)
        box.server.refuses = ()

    def odd_rc_file(self, box, is_kept=True):
        box.write(box.good.replace("port = ", "port = x"))
        name = str(box.rcfile)
        saved, box.memory.name = box.memory.name, name
        self.check(box, Said(fault=("getmail: retriever.port has a bad value", f"getmail: {name}: line 4: port: 1 to 65535; "
                                    "a comment has a line of its own, and a line after a blank goes on with the value before it")),
                   connects=False, is_kept=is_kept)
        box.memory.name = saved
        box.write(box.good)

    def test_a_flapping_link(self):
        """At most one line a day for the fault and one for its end, however often it goes and comes."""
        with self.boxes(1) as (box,):
            for step in range(7 * 24):
                self.now = START + step * HOUR
                if step % 2:
                    self.refused(box, "UIDL")
                else:
                    self.good(box)

    def test_an_outage_over_midnight(self):
        with self.boxes(3) as boxes:
            for step in range(60):
                self.now = START + step * HOUR
                for place, box in enumerate(boxes):
                    if 20 <= step < 20 + 12 * place:
                        self.refused(box, "UIDL")
                    else:
                        self.good(box)

    def test_a_clock_ahead_and_back(self):
        """A mark of time that is still to come counts as none."""
        with self.boxes(1) as (box,):
            for hours in (0, 1, 24 * 365, 24 * 365 + 1, 2, 3, -5, -4, 30, 60):
                self.now = START + hours * HOUR
                self.refused(box, "UIDL")
                self.now += 60
                self.good(box)

    def test_a_memory_that_cannot_be_written(self):
        """All is told, also what an older memory has; and nothing of it is kept."""
        with self.boxes(1) as (box,):
            for step, is_kept in enumerate((True, True, False, False, True, True)):
                self.now = START + step * HOUR
                self.refused(box, "UIDL", is_kept)

    def missing(self, box, number):
        """A run whose Maildir isn't there: the fault names its path."""
        box.write(box.good.replace(f"~/Mail-{box.name}/", f"~/missing-{number}/"))
        err = self.run_at(box).decode()
        path = f"{box.account.home}/missing-{number}"
        self.assertTrue(not err or path in err)
        fault = ("getmail: destination missing", *err.splitlines()[1:])
        wanted = box.memory.run(Said(fault=fault, place=path), self.now)
        self.assertEqual(err, "".join(f"{line}\n" for line in wanted))

    def test_more_faults_than_there_is_room_for(self):
        """The one that was told longest ago is forgotten, and told again."""
        with self.boxes(1) as (box,):
            box.add(b"x\n")
            for step, number in enumerate([*range(16), *reversed(range(16)), 16, 15, 0, 2, 1, 16]):
                self.now = START + step * 60
                with self.subTest(step=step):
                    self.missing(box, number)

    def test_messages_over_the_limit(self):
        """Each is named once, past 1,000 of them their number is told, and one that went away counts as new."""
        with self.boxes(1) as (box,):
            for step, count in enumerate((2, 2, 3, 1_002, 1_002, 1_005, 3, 1_004)):
                box.server.messages = [(b"%d" % number, b"x" * (200 + number) + b"\n") for number in range(count)]
                self.now = START + step * HOUR
                self.good(box)

    def test_a_month(self):
        """Three accounts, of which one has a server that flaps for a week, one a message that is refused for six days while
        older ones leave, and one messages over the limit and a full disk for a day: their user gets few mails of it."""
        with self.boxes(3) as boxes:
            for box in boxes:
                box.write(box.good.replace(OPTIONS, "max_message_size = 5000\n"))
            flapping, moving, large = boxes
            moving.server.messages = [(b"old-%d" % number, b"x\n") for number in range(200)]
            mails = []
            for step in range(30 * 12):
                self.now = START + step * 2 * HOUR
                day, begins = step // 12, step % 12 == 0
                flapping.server.refuses = (f"USER {flapping.name}",) if day in range(3, 10) and step % 2 else ()
                if day == 5 and begins:
                    moving.add(b"y\n")
                if day in range(5, 11):
                    del moving.server.messages[0]
                moving.server.refuses = tuple(f"RETR {number}" for number in range(1, 202)) if day in range(5, 11) else ()
                if begins and day in (2, 14, 20):
                    large.add(b"z" * (6000 if day != 20 else 4000) + b"\n")
                errors = [self.run_at(box, room=2000 if box is large and day == 20 else None) for box in boxes]
                mails += [err.decode() for err in errors if err]
        self.assertLessEqual(len(mails), 45, "".join(mails))
        self.assertGreater(len(mails), 20)

    def random_week(self, seed):
        chance = random.Random(seed)
        with self.boxes(3) as boxes:
            end = START + 7 * DAY
            while self.now < end:
                self.now += chance.choice((60, 600, HOUR, 5 * HOUR, DAY, DAY - 1))
                if chance.random() < 0.04:
                    self.now += chance.choice((-DAY, -HOUR, 40 * DAY))
                    end += max(0, self.now - end)
                self.random_run(chance, chance.choice(boxes))

    def random_run(self, chance, box):
        kind = chance.random()
        is_kept = chance.random() < 0.9
        if kind < 0.4:
            self.refused(box, chance.choice(sorted(FAULTS)), is_kept)
        elif kind < 0.5:
            self.odd_rc_file(box, is_kept)
        else:
            for _ in range(chance.randrange(3)):
                box.add(b"y" * chance.choice((1, 2 * LIMIT)) + b"\n")
            if box.server.messages and chance.random() < 0.2:
                box.server.messages.pop(chance.randrange(len(box.server.messages)))
            if box.pipe and chance.random() < 0.1:
                box.clear()
            elif not box.pipe and box.wanted() and chance.random() < 0.3:
                box.obstruct(chance.choice(box.wanted()))
            self.good(box)

    def test_random_weeks(self):
        first = int(os.environ.get("SEED", "0"))
        for seed in range(first, first + int(os.environ.get("WEEKS", "6"))):
            with self.subTest(seed=seed):
                self.random_week(seed)


if __name__ == "__main__":
    unittest.main()
