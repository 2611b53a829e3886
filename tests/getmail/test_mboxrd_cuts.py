"""Sessions into an mboxrd file that are cut anywhere: after one more session each text is there once.

They are cut after each octet of the server's replies, at each call of the link, of the mboxrd file and of the record,
with its effect, half of it or none, at each growth of memory, and by a kill after each change. TESTS_KILLS is the number of
kills at other moments.
"""

import collections
import os
import random
import re
import signal
import time
import unittest

from getmail.mbox_account import OTHER, MboxAccount
from getmail.server import Server
from getmail.shared_server import SharedServer
from harness import growths, preload, programs
from harness.mboxrd import entries

THREE = [(b"a", b"one\n"), (b"b", b"two\nFrom x\n"), (b"c", b"three\n")]
# The second entry crosses borders of the file's blocks.
LONG = [(b"a", b"one\n"), (b"b", b"From me\n" + b"a line of the text\n" * 600), (b"c", b"three\n")]
LOGIN = ["USER u", "PASS sesame", "STAT", "UIDL", "LIST"]
FAULTS = [b"getmail: %b\n" % line for line in (
    b"connection ended by the server", b"reading from the server failed", b"writing to the server failed",
    b"destination missing", b"destination refused", b"seen file refused", b"out of memory")]
# What ends a run before its session; the superuser's looks at its paths first.
BEFORE = re.compile(rb"\Agetmail: (cannot read rc file|(\S+: )?cannot look at \S+: Input/output error)\n\Z")
REFUSED = programs.Run(1, b"", b"getmail: destination refused\n")
RECORD_REFUSED = programs.Run(1, b"", b"getmail: seen file refused\n")
MOST_STEPS = 2000


def texts_of(messages):
    return [text for _, text in messages]


class Cut(unittest.TestCase):
    """One account for each cut, with mail in its file or none, and what has to hold before and after the next session."""

    def check_left(self, account, messages, server):
        """What a cut left: whole entries in order, then a front of the next one, whose intent is open in the record. Each
        message is in the file or on the server. How many entries there are."""
        count, rest = account.stored(texts_of(messages))
        known, intent = account.known()
        self.assertEqual(known, [uid for uid, _ in messages[:len(known)]])
        # An entry that isn't recorded has its intent open, and so has a front of one.
        self.assertIn((count - len(known), rest != b"", intent is not None),
                      [(0, False, False), (0, False, True), (0, True, True), (1, False, True)])
        if intent is not None:
            self.assertEqual(intent[0], messages[len(known)][0])
        gone = [message for message in messages if message not in server.messages]
        self.assertEqual(gone, messages[:len(gone)])
        self.assertLessEqual(len(gone), len(known))
        return count

    def check_whole(self, account, messages):
        self.assertEqual(account.content(), account.begun + entries(texts_of(messages)))
        self.assertEqual(account.known(), ([uid for uid, _ in messages], None))


class BrokenOff(Cut):
    """The server breaks off after each octet of its replies."""

    def session(self, server, account, *words, octets=None):
        thread = server.begin_session(octets)
        run = account.run("-q", *words)
        thread.join(programs.SECONDS)
        return run

    def length(self, *words):
        """The octets of all replies of an uncut session."""
        with Server(THREE) as server, MboxAccount(server.port) as account:
            self.session(server, account, *words, octets=1 << 30)
            return (1 << 30) - server.room

    def check_every_octet(self, *words, begun=b""):
        for octets in range(self.length(*words)):
            with self.subTest(octets=octets), Server(THREE) as server, MboxAccount(server.port, begun=begun) as account:
                self.assertEqual(self.session(server, account, *words, octets=octets), programs.Run(1, b"", FAULTS[0]))
                count = self.check_left(account, THREE, server)
                self.assertEqual(self.session(server, account, *words), programs.SILENT)
                fetched = [command for command in server.commands if command.startswith("RETR")]
                self.assertEqual(len(fetched), 3 - count)
                self.check_whole(account, THREE)

    def test_after_each_octet(self):
        self.check_every_octet()

    def test_after_each_octet_while_deleting(self):
        self.check_every_octet("-d", begun=OTHER)


class Shared(Cut):
    """Accounts of one server that takes any number of clients."""

    def setUp(self):
        self.server = SharedServer()
        self.addCleanup(self.server.close)
        self.server.messages = list(THREE)

    def session(self, account, *words, **changes):
        run = account.run("-q", *words, **changes)
        self.server.wait_for_end()
        return run

    def tear(self, account, count):
        """So many octets of the second entry are in the file, and its intent is open."""
        start = len(account.begun + entries([b"one\n"]))
        account.mbox.write_bytes((account.begun + entries(texts_of(THREE)))[:start + count])
        account.record.write_bytes(b"getmail-seen 2\na 0 1\nb 0 0\nc 0 0\n! b %d %d\n" % (start, len(entries([THREE[1][1]]))))

    def check_completed(self, account, messages, *words):
        """One more session says nothing, not even of what a torn entry left, and completes the file."""
        self.assertEqual(self.session(account, *words), programs.SILENT)
        self.check_whole(account, messages)
        if words:
            self.assertEqual(self.server.messages, [])


class RefusedSteps(Shared):
    """Each call of the link, of the mboxrd file and of the record's file refused in turn."""

    @classmethod
    def setUpClass(cls):
        cls.library = cls.enterClassContext(preload.library("refuse_step"))

    def refused_session(self, account, number, effect="none", later=False, words=(), growth=None):
        """A session with a step refused, or with none, and perhaps a growth of memory; and the lines of its steps."""
        note = account.home / "note"
        note.unlink(missing_ok=True)
        changes = {"LD_PRELOAD": str(self.library), "STEP_BELOW": str(account.home), "STEP_NOTE": str(note)}
        if number:
            changes |= {"STEP_REFUSED": str(number), "STEP_EFFECT": effect}
        if later:
            changes["STEP_LATER"] = "1"
        if growth:
            changes |= {**growth.environment(), "LD_PRELOAD": f"{self.library}:{growth.library}"}
        run = self.session(account, *words, **changes)
        lines = note.read_text().splitlines()
        note.unlink()
        return run, lines

    def steps(self, *words):
        """The steps of a session in which none is refused."""
        with MboxAccount(self.server.port) as account:
            run, lines = self.refused_session(account, None, words=words)
            self.assertEqual(run, programs.SILENT)
        self.server.messages = list(THREE)
        return lines

    def test_the_steps_are_seen(self):
        words = collections.Counter(line.split("\t")[0] for line in self.steps("-d"))
        for word in ("open", "read", "write", "fsync", "rename", "lseek", "stat", "lstat", "fstat", "send", "recv", "connect"):
            self.assertIn(word, words)

    def check_each_step(self, effect, later, *words, begun=b"", messages=THREE):
        for number in range(1, MOST_STEPS):
            self.server.messages = list(messages)
            with self.subTest(number=number), MboxAccount(self.server.port, begun=begun) as account:
                run, lines = self.refused_session(account, number, effect, later, words)
                refused = [line for line in lines if line.startswith("refused ")]
                if not refused:
                    self.assertEqual(run, programs.SILENT)
                    self.assertGreater(number, 60)
                    return
                if run.status == 1:
                    self.assertIn(run.err, [*FAULTS, b"getmail: cannot connect to 127.0.0.1:%d\n" % self.server.port],
                                  refused[0])
                elif run.status == 2:
                    self.assertRegex(run.err, BEFORE, refused[0])
                else:
                    self.assertEqual(run, programs.SILENT, refused[0])
                self.check_left(account, messages, self.server)
                self.check_completed(account, messages, *words)
        self.fail(f"more than {MOST_STEPS} steps")

    def test_with_no_effect(self):
        self.check_each_step("none", False, "-d")

    def test_with_half_its_effect(self):
        self.check_each_step("half", False, "-d", begun=OTHER)

    def test_with_its_effect(self):
        self.check_each_step("whole", False, "-d", begun=OTHER)

    def test_and_all_later_ones(self):
        self.check_each_step("none", True)

    def test_with_half_its_effect_and_all_later_ones(self):
        self.check_each_step("half", True, "-d", begun=OTHER, messages=LONG)

    def test_with_its_effect_and_all_later_ones(self):
        self.check_each_step("whole", True, "-d", messages=LONG)

    def test_each_step_of_a_session_that_settles(self):
        """The session that settles a torn entry is refused a step, the next isn't."""
        for effect in ("none", "half", "whole"):
            for number in range(1, MOST_STEPS):
                self.server.messages = list(THREE)
                with self.subTest(effect=effect, number=number), MboxAccount(self.server.port, begun=OTHER) as account:
                    self.tear(account, 21)
                    run, lines = self.refused_session(account, number, effect, words=("-d",))
                    self.check_left(account, THREE, self.server)
                    self.check_completed(account, THREE, "-d")
                    if not any(line.startswith("refused ") for line in lines):
                        break

    # ---- worked rows

    def number_of(self, word, file, which):
        """The number of the step that is the `which`-th with this word on a file whose name begins so."""
        with MboxAccount(self.server.port) as account:
            _, lines = self.refused_session(account, None)
        places = [number for number, line in enumerate(lines, 1)
                  if line.split("\t")[0] == word and line.split("\t")[1].split("/")[-1].startswith(file)]
        return places[which - 1]

    def test_an_entry_whose_append_is_refused_and_not_taken_back(self):
        """Half of the second entry stays: 24 octets. The next session cuts them away and fetches the message."""
        self.server.messages = [(b"a", b"one\n"), (b"b", b"two\n"), (b"c", b"three\n")]
        number = self.number_of("write", "mbox", 2)
        with MboxAccount(self.server.port) as account:
            run, _ = self.refused_session(account, number, "half", later=True)
            self.assertEqual(run, REFUSED)
            self.assertEqual(len(account.content()), 49 + 24)
            self.assertEqual(account.known(), ([b"a"], (b"b", b"49", b"49")))
            self.server.forget()
            self.assertEqual(self.session(account), programs.SILENT)
            self.assertEqual(self.server.commands[1], LOGIN + ["RETR 2", "RETR 3", "QUIT"])
            self.assertEqual(account.content(), entries([b"one\n", b"two\n", b"three\n"]))
            self.assertEqual(len(account.content()), 149)

    def test_an_entry_whose_append_is_refused(self):
        """With no effect, its intent is cut off from the record. What came unseen isn't taken back."""
        self.server.messages = [(b"a", b"one\n"), (b"b", b"two\n"), (b"c", b"three\n")]
        number = self.number_of("write", "mbox", 2)
        rows = rb"getmail-seen 2\na \d+ 0\nb \d+ 0\nc \d+ 0\n! a 0 49\n\+ 1\na \d+ 1\n"
        for effect, length, intent, fetched in (("none", 49, None, ["RETR 2"]), ("half", 73, (b"b", b"49", b"49"), ["RETR 2"]),
                                                ("whole", 98, (b"b", b"49", b"49"), [])):
            with self.subTest(effect), MboxAccount(self.server.port) as account:
                self.server.forget()
                self.assertEqual(self.refused_session(account, number, effect)[0], REFUSED)
                self.assertEqual(self.server.commands[1], LOGIN + ["RETR 1", "RETR 2", "RSET", "QUIT"])
                self.assertEqual((len(account.content()), account.known()), (length, ([b"a"], intent)))
                if intent is None:
                    self.assertRegex(account.record.read_bytes(), rb"\A" + rows + rb"\Z")
                self.server.forget()
                self.assertEqual(self.session(account), programs.SILENT)
                self.assertEqual(self.server.commands[1], LOGIN + fetched + ["RETR 3", "QUIT"])
                self.assertEqual(len(account.content()), 149)

    def test_an_entry_whose_append_is_refused_and_then_memory(self):
        """With each growth refused in turn: if memory ran out, an intent is open only if its entry is whole."""
        self.server.messages = [(b"a", b"one\n"), (b"b", b"two\n"), (b"c", b"three\n")]
        number = self.number_of("write", "mbox", 2)
        ends = collections.Counter()
        for refusal in growths.refusals():
            with self.subTest(growth=refusal.number), MboxAccount(self.server.port) as account:
                run, _ = self.refused_session(account, number, growth=refusal)
                _, intent = account.known()
                is_short = intent is not None and int(intent[1]) + int(intent[2]) > len(account.content())
                ends[run.err, is_short] += 1
                self.check_completed(account, self.server.messages)
        wants = b"getmail: out of memory\n"
        self.assertGreater(ends[REFUSED.err, False], 0)
        self.assertGreater(ends[wants, False], 0)
        self.assertEqual(ends[wants, True], 0)

    def test_an_append_that_is_refused_and_not_taken_back(self):
        """The first entry, of 70 octets; half of it stays and is cut away."""
        self.server.messages = [(b"a", b"From x\n>From y\n From z\n")]
        number = self.number_of("write", "mbox", 1)
        with MboxAccount(self.server.port) as account:
            self.assertEqual(self.refused_session(account, number, "half", later=True)[0], REFUSED)
            self.assertEqual(len(account.content()), 35)
            self.check_completed(account, self.server.messages)
            self.assertEqual(len(account.content()), 70)

    def test_an_entry_whose_mark_is_refused(self):
        """The entry is whole, and the next session finds that it is, or that the mark was written after all."""
        number = self.number_of("write", "seen-", 5)
        self.server.messages = [(b"a", b"one\n"), (b"b", b"two\n"), (b"c", b"three\n")]
        begun = [b"a"], (b"b", b"49", b"49")
        for effect, known in (("none", begun), ("half", begun), ("whole", ([b"a", b"b"], None))):
            with self.subTest(effect), MboxAccount(self.server.port) as account:
                self.server.forget()
                self.assertEqual(self.refused_session(account, number, effect)[0], RECORD_REFUSED)
                self.assertEqual(self.server.commands[1], LOGIN + ["RETR 1", "RETR 2", "RSET", "QUIT"])
                self.assertEqual(len(account.content()), 98)
                self.assertEqual(account.known(), known)
                self.server.forget()
                self.assertEqual(self.session(account), programs.SILENT)
                self.assertEqual(self.server.commands[1], LOGIN + ["RETR 3", "QUIT"])
                self.assertEqual(len(account.content()), 149)

    def test_an_intent_that_is_refused(self):
        """Nothing is appended to the mboxrd file."""
        number = self.number_of("write", "seen-", 4)
        for effect in ("none", "half", "whole"):
            with self.subTest(effect), MboxAccount(self.server.port) as account:
                self.assertEqual(self.refused_session(account, number, effect)[0], RECORD_REFUSED)
                self.assertEqual(account.content(), entries([b"one\n"]))
                self.check_completed(account, THREE)


class RefusedGrowths(Shared):
    """Each growth of memory refused in turn."""

    def check_each_growth(self, messages, begin):
        ends = collections.Counter()
        for refusal in growths.refusals():
            self.server.messages = list(messages)
            with self.subTest(growth=refusal.number), MboxAccount(self.server.port, begun=OTHER) as account:
                begin(account)
                run = self.session(account, "-d", **refusal.environment())
                ends[run.status, run.err] += 1
                self.check_left(account, messages, self.server)
                self.check_completed(account, messages, "-d")
        self.assertGreater(ends[1, b"getmail: out of memory\n"], 0)

    def test_each_growth(self):
        self.check_each_growth(LONG, lambda account: None)

    def test_each_growth_of_a_session_that_settles(self):
        """The file ends in a front of an entry, or in a whole one, that isn't recorded."""
        for count in (21, len(entries([THREE[1][1]]))):
            with self.subTest(count):
                self.check_each_growth(THREE, lambda account: self.tear(account, count))


class Killed(Shared):
    """Runs that are killed."""

    ROUNDS = int(os.environ.get("TESTS_KILLS", "30"))

    def check_killed(self, account, messages, *words):
        self.check_left(account, messages, self.server)
        self.check_completed(account, messages, *words)

    def check_each_change(self, messages, begin):
        with preload.library("note_changes") as library:
            for number in range(1, MOST_STEPS):
                self.server.messages = list(messages)
                with self.subTest(number=number), MboxAccount(self.server.port, begun=OTHER) as account:
                    begin(account)
                    run = self.session(account, "-d", LD_PRELOAD=str(library), CHANGES_NOTE=str(account.home / "note"),
                                       CHANGES_KILLED=str(number))
                    if run.status == 0:
                        self.assertGreater(number, 20)
                        return
                    self.assertEqual(run.status, -signal.SIGKILL)
                    self.check_killed(account, messages, "-d")
        self.fail(f"more than {MOST_STEPS} changes")

    def test_after_each_change(self):
        self.check_each_change(LONG, lambda account: None)

    def test_after_each_change_of_a_session_that_settles(self):
        self.check_each_change(THREE, lambda account: self.tear(account, 21))

    def length(self, account):
        """How many steps a session has that nobody kills."""
        moment = self.server.moment(0)
        moment.end()
        self.session(account, "-d")
        return -moment.left

    def play(self, account, source, length):
        """A session that is killed while the server waits, or a moment later; whether that was before its end."""
        moment = self.server.moment(source.randrange(length + 1))
        process = account.start("-q", "-d")
        moment.wait(process)
        if source.random() < 0.5:
            moment.end()
            time.sleep(source.uniform(0, 0.003))
        process.kill()
        moment.end()
        process.communicate(timeout=programs.SECONDS)
        self.server.wait_for_end()
        return process.returncode == -signal.SIGKILL

    def test_at_any_moment(self):
        """Killed once, or again and again."""
        self.server.messages = list(LONG)
        with MboxAccount(self.server.port) as account:
            length = self.length(account)
        source, killed = random.Random(30), 0
        for number in range(self.ROUNDS):
            self.server.messages = list(LONG)
            with self.subTest(number=number), MboxAccount(self.server.port) as account:
                for _ in range(source.choice((1, 1, 2, 4))):
                    killed += self.play(account, source, length)
                self.check_killed(account, LONG, "-d")
        self.assertGreater(killed, self.ROUNDS // 4)


if __name__ == "__main__":
    unittest.main()
