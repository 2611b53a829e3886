"""Out of memory: with each growth refused in turn, the answer is the right one, or that memory ran out."""

import collections
import unittest

from getmail import conversations as known
from getmail.account import Account
from getmail.server import Server
from harness import growths, programs

# If there is no memory for the command line's words, the program has not begun to rehearse.
NO_WORDS = programs.Run(2, b"", b"getmail: out of memory\n")

# Nobody listens there.
CLOSED_PORT = 1

# The faults of a session whose store or record refused a call, since its own growth was refused.
STORE_REFUSED, RECORD_REFUSED = 11, 12


def cut_answers(answer):
    """The outputs of a conversation that is cut because memory ran out: after any number of its commands except QUIT.

    QUIT needs no memory any more, planned or after a refusal. If memory ran out for the store or the record, RSET and
    QUIT follow. What was stored by then is printed.
    """
    lines = answer.out.splitlines(keepends=True)
    commands = [line for line in lines if line.startswith(b"C: ") and line != b"C: QUIT\n"]
    stored = [line for line in lines if line.startswith(b"stored ")]
    tail = known.printed(["RSET", "QUIT"])
    answers = []
    for count in range(len(commands) + 1):
        sent = b"".join(commands[:count])
        for told in range(len(stored) + 1):
            kept = b"".join(stored[:told])
            answers.append(sent + kept + known.printed([], f"cut {known.NO_MEMORY}"))
            for fault in (STORE_REFUSED, RECORD_REFUSED):
                for asked in (b"", known.printed(["RSET"]), tail):
                    answers.append(sent + asked + kept + known.printed([], f"cut {fault}"))
    return answers


class RefusedGrowths(unittest.TestCase):
    def check_each_growth(self, given, answer):
        """Runs the conversation with each growth refused; how the runs ended, by number of the growth."""
        kinds = []
        for refusal in growths.refusals():
            run = programs.run("getmail", "--rehearse", given=given, **refusal.environment())
            kind = self.kind_of(run, answer)
            self.assertTrue(kind, f"growth {refusal.number} refused: {run}")
            kinds.append(kind)
        self.assertEqual(kinds.pop(), "its own", "with nothing refused the answer has to be the conversation's")
        return kinds

    @staticmethod
    def kind_of(run, answer):
        """How a run ended: with its own answer, cut because memory ran out, or given up; None for anything else.

        A run that is given up, since memory ran out outside the conversation, wrote the first lines of what it
        would have written otherwise, each of them whole.
        """
        if run == answer:
            return "its own"
        cuts = cut_answers(answer)
        if run in [programs.Run(1, out, b"") for out in cuts]:
            return "cut"
        whole = run.out == b"" or run.out.endswith(b"\n")
        begun = whole and any(out.startswith(run.out) for out in (answer.out, *cuts))
        return "given up" if run == NO_WORDS or (begun and (run.status, run.err) == (1, NO_WORDS.err)) else None

    def test_one_message(self):
        wanted = known.ended("", known.replies())
        kinds = self.check_each_growth(wanted.given, programs.Run(0, wanted.printed, b""))
        self.assertIn("cut", kinds, "no refusal reached the conversation")

    def test_a_longer_message(self):
        lines = 5000
        given = known.replies(RETR=known.wire("+OK") + b"z" * 70 + known.wire("", *["z" * 70] * (lines - 1), "."))
        wanted = known.ended("", given, length=71 * lines)
        kinds = self.check_each_growth(given, programs.Run(0, wanted.printed, b""))
        self.assertIn("cut", kinds)

    def test_a_cut_conversation(self):
        for place, reply, fault in ((known.PASS, known.wire("-ERR", "+OK"), known.REFUSED),
                                    (known.UIDL, known.wire("+OK", "x"), known.BAD_LISTING),
                                    (known.RETR, known.wire("+OK", "x"), known.ENDED_EARLY)):
            with self.subTest(known.PLACES[place]):
                wanted = known.cut("", known.up_to(place, reply), place, fault)
                self.check_each_growth(wanted.given, programs.Run(1, wanted.printed, b""))


class FetchedTexts(unittest.TestCase):
    """A text goes from the link to its file through arrays of fixed length, so it takes no memory, however long it is."""

    def ends(self, text):
        """How sessions with this one message ended, one for each refused growth, and how often each end came."""
        ends = collections.Counter()
        with Server([(b"a", text)]) as server:
            thread = server.begin_session()
            for refusal in growths.refusals():
                if not thread.is_alive():
                    thread = server.begin_session()
                with Account(server.port) as account:
                    run = account.run(**refusal.environment())
                    ends[run.status, run.err] += 1
                    self.assertEqual(run.status == 0, run.err == b"", "a failure has a line, and only a failure")
                    if refusal.came() and run.status != 0:
                        self.assertIn(account.held(), ([], [(b"a", text)]))
                    else:
                        self.assertEqual(account.held(), [(b"a", text)])
                if run.status != 2:
                    thread.join(programs.SECONDS)
        return ends

    def test_a_long_text_grows_as_often_as_a_short_one(self):
        short = self.ends(b"nine byte\n")
        self.assertGreater(short[1, b"getmail: out of memory\n"], 0, "no refusal reached the session")
        long = self.ends((b"z" * 99 + b"\n") * 1000)
        self.assertEqual(short.keys(), long.keys())
        # The digits of a file's name (time and process) may be one more, and with them the growths. A text that grew by
        # doubling would have ten more.
        for end in short:
            self.assertLessEqual(abs(short[end] - long[end]), 2, end)


class Unattended(unittest.TestCase):
    def test_each_refused_growth(self):
        """A first run that fails says why, or that memory ran out."""
        for refusal in growths.refusals():
            with Account(CLOSED_PORT) as account:
                run = account.run("--unattended", **refusal.environment())
                self.assertNotEqual(run.err, b"", f"growth {refusal.number} refused")


class LeftOut(unittest.TestCase):
    def test_each_refused_growth(self):
        """With reasons a run says what it leaves out, or that memory ran out."""
        with Server([(b"a", b"a long message\n")]) as server, Account(server.port, "max_message_size = 5\n") as account:
            thread = server.begin_session()
            for refusal in growths.refusals():
                if not thread.is_alive():
                    thread = server.begin_session()
                run = account.run("-q", "--why", **refusal.environment())
                self.assertNotEqual(run.err, b"", f"growth {refusal.number} refused")
                if run.status != 2:
                    thread.join(programs.SECONDS)


class Unlocked(unittest.TestCase):
    def test_each_refused_growth(self):
        """With reasons a run that goes on without a lock says so, whatever memory there is for the reason."""
        for refusal in growths.refusals():
            with Account(CLOSED_PORT) as account:
                account.refuse_lock()
                err = account.run("--why", **refusal.environment()).err
                connects = b"getmail: cannot connect to " in err
                self.assertTrue(b": no lock: " in err or not connects, f"growth {refusal.number} refused: {err}")
        self.assertTrue(connects, "no run came to its connection")


class CompletedSessions(unittest.TestCase):
    """After a run with a refused growth the next one, with nothing refused, leaves each message once."""

    MESSAGES = [(b"a", b"one\n"), (b"b", b"two\n" * 3000), (b"c", b"three\n")]

    def test_each_refused_growth(self):
        for refusal in growths.refusals():
            with self.subTest(growth=refusal.number), Server(self.MESSAGES) as server, Account(server.port) as account:
                thread = server.begin_session()
                run = account.run("-q", "-d", **refusal.environment())
                self.assertEqual(run.status == 0, run.err == b"", "a failure has a line, and only a failure")
                held = account.held()
                self.assertEqual(held, self.MESSAGES[:len(held)])
                self.assertEqual(run.status == 0, len(held) == 3 and server.messages == [])
                if run.status != 2:
                    thread.join(programs.SECONDS)
                    thread = server.begin_session()
                self.assertEqual(account.run("-q", "-d"), programs.SILENT)
                thread.join(programs.SECONDS)
                self.assertEqual(account.held(), self.MESSAGES)
                self.assertEqual(server.messages, [])
