"""A mail reader renames files while `getmail` looks which messages are held: none is stored a second time.

The reader is another process, whose bursts come at moments spread over a run until its first RETR (TESTS_READER_RUNS is
their number), or works just before one of the calls by which the program reads a folder, each of them in turn.
"""

import multiprocessing
import os
import time
import unittest

from getmail.account import Account
from getmail.shared_server import SharedServer
from harness import kernel, preload, programs, waits

COUNT = 2000
RUNS = int(os.environ.get("TESTS_READER_RUNS", "20"))
REFUSED = b"getmail: destination refused\n"
# A folder that is never at rest is refused after so many seconds.
RESTLESS_SECONDS = 2


def other_name(name):
    """The name with the flag of a read message, or without it."""
    base, _, flags = name.partition(":2,")
    return f"{base}:2,{'' if flags else 'S'}"


def burst(maildir, part, target, order):
    """Marks each message of a folder as read, or as unread if it is read; a new one is moved to `cur`. Or puts each one
    back into `new`, with its flags, as mutt does."""
    for name in order:
        other = name if target == "new" else other_name(name)
        os.rename(f"{maildir}/{part}/{name}", f"{maildir}/{target}/{other}")


def read(maildir, asked):
    """The reader's process: for each folder, target and moment that it gets, one burst at that moment."""
    while (job := asked.recv()) is not None:
        part, target, moment = job
        order = os.listdir(f"{maildir}/{part}")
        asked.send("ready")
        asked.recv()
        time.sleep(moment)
        burst(maildir, part, target, order)
        asked.send("done")


class Reading(unittest.TestCase):
    # The folder in which the home is; a temporary one by default.
    above = None

    @classmethod
    def setUpClass(cls):
        cls.messages = [(b"uid-%04d" % number, b"%d\n" % number) for number in range(COUNT)]
        # What the runs find is listed and flushed: the listings are what this is about.
        cls.skipping = str(cls.enterClassContext(preload.library("skip_flushes")))

    def setUp(self):
        self.server = SharedServer(self.messages)
        self.addCleanup(self.server.close)
        self.account = Account(self.server.port, above=self.above)
        self.addCleanup(self.account.holder.cleanup)
        self.account.rcfile.write_text(self.account.rcfile.read_text().replace("read_all = false\n", ""))
        for uid, text in self.messages:
            (self.account.maildir / "cur" / f"{self.account.name(uid, text)}:2,").write_bytes(text)

    def run_once(self, **changes):
        changes["LD_PRELOAD"] = " ".join(filter(None, (changes.get("LD_PRELOAD"), self.skipping)))
        run = self.account.run("-q", **changes)
        self.server.wait_for_end()
        return run

    def count_held(self):
        return sum(len(os.listdir(self.account.maildir / part)) for part in ("new", "cur"))

    def check_run(self, run):
        """The run was good, or says why not and the next one is good; no file was added to those that are held."""
        if run.status != 0:
            self.assertEqual(run, programs.Run(1, b"", REFUSED))
            self.assertEqual(self.count_held(), COUNT, "files after a run that was refused")
            run = self.run_once()
        self.assertEqual(run, programs.SILENT)
        self.assertEqual(self.count_held(), COUNT, "files of as many messages")

    def put_back(self, part):
        """Moves each file back to that folder, as a new one or with `:2,`; no second copies remain."""
        for folder in ("cur", "new"):
            for name in os.listdir(self.account.maildir / folder):
                base = name.partition(":")[0]
                os.replace(self.account.maildir / folder / name,
                           self.account.maildir / part / (base if part == "new" else f"{base}:2,"))


class Bursts(Reading):
    """The reader is another process."""

    def setUp(self):
        super().setUp()
        self.asking, asked = multiprocessing.Pipe()
        reader = multiprocessing.get_context("fork").Process(target=read, args=(self.account.maildir, asked), daemon=True)
        reader.start()
        self.addCleanup(reader.join, programs.SECONDS)
        self.addCleanup(self.asking.send, None)

    def hear(self, word):
        self.assertTrue(self.asking.poll(programs.SECONDS), "the reader says nothing")
        self.assertEqual(self.asking.recv(), word)

    def time_to_first_text(self):
        """How long a run takes until it fetches: by then it has looked which messages are held."""
        asked = []

        def give(session, say, octets):
            asked.append(time.monotonic())
            say(octets)

        plain, self.server.give = self.server.give, give
        begun = time.monotonic()
        self.check_run(self.run_once())
        self.server.give = plain
        return asked[0] - begun

    def check_bursts(self, part, target, keeps_record=True):
        self.put_back(part)
        length = self.time_to_first_text()
        for number in range(RUNS):
            with self.subTest(number=number):
                if not keeps_record:
                    self.account.record.unlink(missing_ok=True)
                self.asking.send((part, target, length * number / RUNS))
                self.hear("ready")
                self.asking.send("go")
                try:
                    run = self.run_once()
                finally:
                    self.hear("done")
                self.check_run(run)
            if part != target or self.count_held() != COUNT:
                self.put_back(part)

    def test_messages_that_are_marked_as_read(self):
        self.check_bursts("cur", "cur")

    def test_messages_that_are_moved_from_new(self):
        self.check_bursts("new", "cur")

    def test_messages_that_are_put_back_into_new(self):
        self.check_bursts("cur", "new")

    def test_messages_that_are_put_back_while_there_is_no_record(self):
        self.check_bursts("cur", "new", keeps_record=False)


class TakenAway(Reading):
    def test_a_file_that_is_taken_away_during_a_session(self):
        """The session stores what isn't held, and is good; without a record the next one stores that message again."""
        first, last = (self.account.maildir / "cur" / f"{self.account.name(*self.messages[place])}:2," for place in (0, -1))
        last.unlink()
        plain = self.server.give

        def give(session, say, octets):
            first.unlink(missing_ok=True)
            plain(session, say, octets)

        self.server.give = give
        self.assertEqual(self.run_once(), programs.SILENT)
        self.assertEqual(self.count_held(), COUNT - 1)
        self.server.give = plain
        self.account.record.unlink()
        self.check_run(self.run_once())


class WithReader(Reading):
    """The reader works just before one of the calls by which the program reads a folder."""

    @classmethod
    def setUpClass(cls):
        super().setUpClass()
        cls.library = cls.enterClassContext(preload.library("reader"))

    def read_at(self, call, **changes):
        """A run whose reader works before that call, and whether there was such a call."""
        note = self.account.home / "note"
        note.unlink(missing_ok=True)
        run = self.run_once(LD_PRELOAD=f"{self.library} {changes.pop('LD_PRELOAD', '')}", READER_MAILDIR=str(self.account.maildir),
                            READER_CALL=str(call), READER_NOTE=str(note), **changes)
        return run, note.exists()

    def check_restless(self):
        """A run says that it was refused and stores nothing, after two seconds; the next one goes on once the reader rests."""
        passing = waits.time_for(type(self))
        environment = passing.environment()
        passing.give(RESTLESS_SECONDS)
        run, came = self.read_at(0, HURRY_NAPS="1", **environment)
        self.assertEqual(passing.taken(), RESTLESS_SECONDS)
        self.assertTrue(came)
        self.assertEqual(run, programs.Run(1, b"", REFUSED))
        self.check_run(run)


class EachCall(WithReader):
    def make_one_new(self):
        name = os.listdir(self.account.maildir / "cur")[0]
        os.replace(self.account.maildir / "cur" / name, self.account.maildir / "new" / name.partition(":")[0])

    def check_each_call(self, part, keeps_record=True, one_is_new=False, **changes):
        for call in range(1, 200):
            with self.subTest(call=call):
                self.put_back(part)
                if one_is_new:
                    self.make_one_new()
                if not keeps_record:
                    self.account.record.unlink(missing_ok=True)
                run, came = self.read_at(call, **changes)
                self.check_run(run)
            if not came:
                # Both folders are read, each with a last call that finds nothing more.
                self.assertGreater(call, 4)
                return
        self.fail("more than 200 calls")

    def test_messages_that_are_marked_as_read(self):
        self.check_each_call("cur")

    def test_messages_that_are_moved_from_new(self):
        self.check_each_call("new")

    def test_messages_that_are_put_back_into_new(self):
        """Also between the listing of `new`, which has another, and that of `cur`, so that neither has them."""
        self.check_each_call("cur", one_is_new=True, READER_BACK="1")

    def test_messages_that_are_put_back_while_there_is_no_record(self):
        self.account.rcfile.write_text(self.account.rcfile.read_text() + "read_all = false\n")
        self.check_each_call("cur", keeps_record=False, READER_BACK="1")

    def test_a_reader_that_never_rests(self):
        self.check_restless()


@unittest.skipUnless(kernel.is_tmpfs("/dev/shm"), "/dev/shm is no tmpfs")
class OnTmpfs(WithReader):
    """A renamed file is found again later in the same pass, which would go on as long as the reader does."""

    above = "/dev/shm"

    def test_a_reader_that_never_rests(self):
        self.check_restless()


if __name__ == "__main__":
    unittest.main()
