"""`--pretend`: what a run would do, message by message, and that it sends only the listings and changes nothing."""

import collections
import os
import random
import time
import unittest
from datetime import datetime, timezone

from getmail.account import Account
from getmail.mbox_account import OTHER, MboxAccount
from getmail.one_account import LOGIN, THREE
from getmail.server import Server, size_of
from harness import growths, programs
from harness.mboxrd import entries

WEEK = 7 * 86400


def day_of(second):
    return datetime.fromtimestamp(second, timezone.utc).strftime("%Y-%m-%d")


def size_told(octets):
    """A size as the last line has it: kilobytes, from a million octets on megabytes, below ten with a tenth."""
    unit, name = (1_000_000, "MB") if octets >= 1_000_000 else (1_000, "kB")
    whole, tenth = octets // unit, octets * 10 // unit % 10
    return f" ({whole}{f'.{tenth}' if whole < 10 else ''} {name})" if octets else ""


def record_of(*rows):
    return b"getmail-seen 2\n" + b"".join(b"%s %d %d\n" % row for row in rows)


class SizedServer(Server):
    """A server whose LIST has the `sizes` that it is given."""

    def list_sizes(self, sizes):
        self.sizes = sizes
        self.messages = [(b"%d" % number, b"") for number in range(len(sizes))]

    def _answer(self, command):
        if command == b"LIST":
            return self._rows(lambda number, uid, text: b"%d %d\r\n" % (number, self.sizes[number - 1]))
        return super()._answer(command)


class Pretends:
    """A server, an account, and runs with the flag; a class below says which account."""

    def serve(self, messages, kind=Server):
        self.server = kind(messages)
        self.addCleanup(self.server.close)
        self.account = self.make(self.server.port)
        self.addCleanup(self.account.holder.cleanup)

    def make(self, port):
        return Account(port)

    def setUp(self):
        self.serve(THREE)

    def left(self):
        """Each file below the home with its bytes and times."""
        files = [path for path in self.account.home.rglob("*") if path.is_file()]
        return {path: (path.read_bytes(), path.stat().st_mtime_ns, path.stat().st_ino) for path in files}

    def set_option(self, line):
        self.account.rcfile.write_text(self.account.rcfile.read_text() + line + "\n")

    def session(self, *words, octets=None):
        thread = self.server.begin_session(octets)
        run = self.account.run(*words)
        thread.join(programs.SECONDS)
        return run

    def check_run(self, status, err, tail, *words, octets=None):
        """A run that changes nothing, ends with `status` and `err`, and sends `tail` after the listings; its lines."""
        left = self.left()
        run = self.session("--pretend", *words, octets=octets)
        self.assertEqual((run.status, run.err), (status, err))
        self.assertEqual(self.server.commands, LOGIN + tail)
        self.assertEqual(self.left(), left)
        lines = run.out.decode().splitlines()
        self.assertEqual(lines[0], f"SimplePOP3Retriever:u@{self.account_server()}:{self.server.port}:")
        return lines[1:]

    def account_server(self):
        return self.server.socket.getsockname()[0]

    def check(self, fates, counts, *words):
        """What a run with these words would do with each message."""
        total = len(self.server.messages)
        told = [f"msg {number}/{total} ({size_of(text)} octets) {fate}"
                for number, (fate, (_, text)) in enumerate(zip(fates, self.server.messages), 1)]
        fetched, deleted = counts
        octets = sum(size_of(text) for fate, (_, text) in zip(fates, self.server.messages) if fate.startswith("would be fetched"))
        last = f"{fetched} of {total} messages{size_told(octets)} would be fetched, {deleted} deleted"
        self.assertEqual(self.check_run(0, b"", ["QUIT"], *words), [*told, last])


class IntoMaildir(Pretends, unittest.TestCase):
    def test_before_the_first_run(self):
        self.check(["would be fetched"] * 3, (3, 0))
        self.assertFalse(self.account.record.exists())

    def test_before_the_first_run_that_deletes(self):
        self.check(["would be fetched and deleted"] * 3, (3, 3), "-d")

    def test_quiet_and_verbose_change_nothing(self):
        for word in ("-q", "-v", "-vv"):
            self.check(["would be fetched"] * 3, (3, 0), word)

    def test_what_is_held(self):
        self.session("-q")
        self.check(["held"] * 3, (0, 0))
        self.check(["would be fetched"] * 3, (3, 0), "-a")
        self.check(["would be deleted"] * 3, (0, 3), "-d")

    def test_what_was_taken_away(self):
        self.session("-q")
        (self.account.maildir / "new" / self.account.name(*THREE[1])).unlink()
        self.check(["held", "delivered before", "held"], (0, 0))

    def test_limits(self):
        self.set_option("max_message_size = 5")
        self.set_option("max_messages_per_session = 1")
        self.check(["would be fetched", "past the limit of this session", "too large"], (1, 0))
        self.session("-q")
        self.check(["held", "would be fetched", "too large"], (1, 0))

    def test_the_size_in_the_last_line(self):
        """It is that of all messages that would be fetched, by the listing; nothing of none."""
        self.serve([], SizedServer)
        for sizes, words in (((0,), ""), ((99,), " (0.0 kB)"), ((9_999,), " (9.9 kB)"), ((10_000,), " (10 kB)"),
                             ((999_999,), " (999 kB)"), ((500_000, 500_000), " (1.0 MB)"), ((12_345_678,), " (12 MB)"),
                             ((2**64 - 1, 2**64 - 1), " (18446744073709 MB)")):
            with self.subTest(sizes):
                self.server.list_sizes(sizes)
                told = self.check_run(0, b"", ["QUIT"])
                self.assertEqual(told[-1], f"{len(sizes)} of {len(sizes)} messages{words} would be fetched, 0 deleted")

    def test_one_id_twice(self):
        self.serve([(b"a", b"one\n"), (b"a", b"two\n"), (b"b", b"three\n")])
        self.check(["would be fetched", "same id as an earlier message", "would be fetched and deleted"], (2, 1), "-d")

    def test_days_before_a_message_is_deleted(self):
        """Each is due a week after it was first listed: one is, one isn't yet, and one isn't delivered."""
        self.set_option("delete_after = 7")
        now = int(time.time())
        self.account.record.write_bytes(record_of((b"a", now - WEEK, 1), (b"b", now - WEEK + 86400, 1), (b"c", now, 0)))
        fates = ["would be deleted", f"delivered before, not due before {day_of(now + 86400)}",
                 f"would be fetched, not due before {day_of(now + WEEK)}"]
        self.check(fates, (1, 1))

    def test_dates(self):
        """Around a leap day, one that is left out, and the end of a year; and days that never come."""
        self.set_option("delete_after = 20000")
        for day in ("2096-02-28", "2096-02-29", "2096-03-01", "2099-12-31", "2100-01-01", "2100-02-28", "2100-03-01",
                    "2400-02-29"):
            with self.subTest(day):
                due = int(datetime.fromisoformat(day).replace(tzinfo=timezone.utc).timestamp())
                seen = [due - 20000 * 86400 + more for more in (0, 1, 86399)]
                self.account.record.write_bytes(record_of(*zip((b"a", b"b", b"c"), seen, (1, 1, 1))))
                self.check([f"delivered before, not due before {day}"] * 3, (0, 0))
        self.account.record.write_bytes(record_of((b"a", 2**64 - 1, 1), (b"b", 2**63, 1), (b"c", 300_000_000_000, 1)))
        self.check(["delivered before, not due before 9999-12-31"] * 3, (0, 0))

    def test_faults(self):
        """They are reported as by a run, and nothing changes."""
        nothing = ["0 of 3 messages would be fetched, 0 deleted"]
        self.account.record.write_bytes(b"x\n")
        told = self.check_run(1, b"getmail: seen file not understood at line 1\n", ["RSET", "QUIT"])
        self.assertEqual(told, nothing)
        self.account.record.unlink()
        for folder in ("new", "cur"):
            (self.account.maildir / folder).rename(self.account.maildir / "other")
            told = self.check_run(1, b"getmail: destination missing\n", ["RSET", "QUIT"])
            self.assertEqual(told, nothing)
            (self.account.maildir / "other").rename(self.account.maildir / folder)

    def test_a_run_that_could_make_no_file(self):
        """Nothing is said to be fetched that the run couldn't store; if nothing would be fetched, it would end well."""
        (self.account.maildir / "tmp").rmdir()
        told = self.check_run(1, b"getmail: destination missing\n", ["QUIT"])
        self.assertEqual(told, ["0 of 3 messages would be fetched, 0 deleted"])
        self.account.record.write_bytes(record_of((b"a", 5, 1), (b"b", 5, 1), (b"c", 5, 1)))
        self.check(["delivered before"] * 3, (0, 0))

    def test_a_run_that_would_make_no_file(self):
        """All messages are held, so it fetches them again and stores none."""
        self.session("-q")
        (self.account.maildir / "tmp").rmdir()
        self.check(["would be fetched"] * 3, (3, 0), "-a")
        self.assertEqual(self.session("-q", "-a"), programs.Run(0, b"", b""))

    def test_a_quit_that_is_refused(self):
        self.server.refuses = ("QUIT",)
        told = self.check_run(1, b"getmail: server refused QUIT\n", ["QUIT"])
        self.assertEqual(len(told), 4)

    def test_a_run_does_what_was_told(self):
        self.set_option("max_messages_per_session = 2")
        self.check(["would be fetched and deleted"] * 2 + ["past the limit of this session"], (2, 2), "-d")
        self.session("-q", "-d")
        self.assertEqual(self.server.commands, LOGIN + ["RETR 1", "DELE 1", "RETR 2", "DELE 2", "QUIT"])
        self.assertEqual(self.account.held(), THREE[:2])


class RefusedGrowths(Pretends, unittest.TestCase):
    def prepare(self):
        self.session("-q")

    def test_each_refused_growth(self):
        """A run says all or ends with a fault, and changes nothing in any case."""
        self.set_option("delete_after = 7")
        self.prepare()
        whole, left, ends = self.session("--pretend"), self.left(), set()
        thread = self.server.begin_session()
        for refusal in growths.refusals():
            if not thread.is_alive():
                thread = self.server.begin_session()
            run = self.account.run("--pretend", **refusal.environment())
            if run.status != 2:
                thread.join(programs.SECONDS)
                self.assertLessEqual(set(self.server.commands), {*LOGIN, "RSET", "QUIT"})
            self.assertEqual(run == whole, run.status == 0, run)
            self.assertEqual(self.left(), left)
            ends.add(run.err)
        self.assertEqual(whole.status, 0)
        self.assertLessEqual({b"", b"getmail: out of memory\n"}, ends)


class RefusedGrowthsWithAnOpenEntry(RefusedGrowths):
    def make(self, port):
        return MboxAccount(port)

    def prepare(self):
        """An entry is whole in the file, and its intent is open."""
        content = entries([THREE[0][1]])
        self.account.mbox.write_bytes(content)
        rows = record_of((b"a", 5, 0), (b"b", 5, 0), (b"c", 5, 0))
        self.account.record.write_bytes(rows + b"! a 0 %d\n" % len(content))


class IntoMboxrd(Pretends, unittest.TestCase):
    def make(self, port):
        return MboxAccount(port)

    def test_before_and_after_a_run(self):
        self.check(["would be fetched"] * 3, (3, 0))
        self.session("-q")
        self.check(["delivered before"] * 3, (0, 0))
        self.check(["would be deleted"] * 3, (0, 3), "-d")

    def test_a_file_that_is_no_mbox(self):
        self.account.mbox.write_bytes(b"x\n")
        self.check_run(1, b"getmail: destination is no mbox\n", ["RSET", "QUIT"])
        self.account.mbox.unlink()
        self.check_run(1, b"getmail: destination missing\n", ["RSET", "QUIT"])

    def interrupt(self, content, start, length):
        """The account after a run that was cut as it appended the entry of the second message."""
        rows = record_of((b"a", 5, 1), (b"b", 5, 0), (b"c", 5, 0))
        self.account.record.write_bytes(rows + b"! b %d %d\n" % (start, length))
        self.account.kept.unlink(missing_ok=True)
        if content is None:
            self.account.mbox.unlink(missing_ok=True)
        else:
            self.account.mbox.write_bytes(content)

    def check_interrupted(self, content, start, length):
        """What is said of an interrupted file is what the next run does; its fault."""
        self.interrupt(content, start, length)
        left = self.left()
        said = self.session("--pretend")
        self.assertEqual(self.server.commands[:len(LOGIN)], LOGIN)
        self.assertEqual(self.left(), left)
        run = self.session("-q")
        fault = run.err.removesuffix(self.account.told_kept())
        self.assertEqual((said.status, said.err), (run.status, fault), content)
        fetched = [int(command.split()[1]) for command in self.server.commands if command.startswith("RETR")]
        would = [int(line.split()[1].split("/")[0]) for line in said.out.decode().splitlines() if "would be fetched" in line
                 and line.startswith("msg")]
        self.assertEqual(would, fetched, content)
        return fault

    def test_an_entry_that_is_open(self):
        """If it is whole, its message isn't fetched again; if not, it is. The file stays as it is."""
        whole = entries([b"two\n"])
        for content, fate, fault in ((whole, "delivered before", b""), (b"", "would be fetched", b""),
                                     (b"Fro", "would be fetched", b""), (whole[:-1], "would be fetched", b""),
                                     (b"x\n", None, b"getmail: destination is no mbox\n"),
                                     (None, None, b"getmail: destination missing\n")):
            with self.subTest(content):
                self.interrupt(content, 0, len(whole))
                told = self.check_run(1 if fault else 0, fault, ["RSET", "QUIT"] if fault else ["QUIT"])
                self.assertEqual(told, ["0 of 3 messages would be fetched, 0 deleted"] if fault else [
                    "msg 1/3 (5 octets) delivered before", f"msg 2/3 (5 octets) {fate}",
                    "msg 3/3 (7 octets) would be fetched",
                    f"{2 if fate == 'would be fetched' else 1} of 3 messages (0.0 kB) would be fetched, 0 deleted"])

    def test_what_a_run_settles_first(self):
        """Zeros that a loss of power left are cut off, and what others wrote stays, which may leave no mbox. An entry whose
        text hasn't the listed size isn't the message's."""
        whole, other = entries([b"one\n"]), entries([b"six octets\n"])
        for content, start, fault in ((b"\0" * 40, 0, b""), (whole + b"\0" * 30, len(whole), b""), (whole + b"From MA", len(whole), b""),
                                      (whole + other, len(whole), b""),
                                      (b"From x\n\nabc\n", 8, b"getmail: destination is no mbox\n"),
                                      (whole + b"abc", len(whole), b"getmail: destination is no mbox\n"),
                                      (b"abc\n\n" + whole, 5, b"getmail: destination is no mbox\n")):
            with self.subTest(content):
                self.assertEqual(self.check_interrupted(content, start, len(other)), fault)

    def test_interrupted_files_of_any_kind(self):
        """Files made of fronts of entries, other mail, zeros and line ends, with the intent at some place in them."""
        chance = random.Random(119)
        two, faults = entries([b"two\n"]), collections.Counter()
        parts = [b"", b"\n", b"\n\n", b"x", b"\0" * 12, b"From ", b"From x\n\n", OTHER, two, two[:-1], two[:30],
                 entries([b"six octets\n"]), entries([b"one\n"])]
        for _ in range(600):
            front = b"".join(chance.choices(parts, k=chance.randint(0, 2)))
            behind = chance.choice(parts) + chance.choice(parts) * chance.randint(0, 1)
            start = len(front) + chance.choice((0, 0, 0, 0, -1, 1, 5))
            faults[self.check_interrupted(front + behind, max(start, 0), chance.choice((len(two), len(two), 200)))] += 1
        self.assertGreater(faults[b""], 100)
        self.assertGreater(faults[b"getmail: destination is no mbox\n"], 100)
