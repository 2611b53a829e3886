"""`--unattended`: for cron and timers. It writes what is new, and what goes on once a day (`test_weeks.py`: over weeks)."""

import os
import resource
import shutil
import stat
import threading
import time
import unittest
from pathlib import Path

from getmail import terminal
from getmail.account import Account
from getmail.shared_server import SharedServer
from getmail.unattended import NOBODY, START, TWO, UnattendedRuns
from harness import growths, preload, programs

DATE = "Tue, 14 Nov 2023 22:13:20 GMT"
HOUR, DAY = 3_600, 86_400
EACH = "each run tells this, since the folder of its record cannot be written"


class Unattended(UnattendedRuns):
    def test_a_good_run_is_silent(self):
        """And nothing is kept of it."""
        for _ in range(2):
            self.assertEqual(self.session(), (0, []))
        self.assertEqual(self.account.held(), TWO)
        self.assertEqual(self.told(), [])

    def test_an_outage(self):
        """Its fault is written at first, once a day with since when and how often, and when it is over."""
        self.refuse("UIDL")
        fault = ["getmail: server refused UIDL", self.line("the server said: -ERR refused")]
        self.assertEqual(self.session(seconds=0), (1, fault))
        for _ in range(3):
            self.assertEqual(self.session(), (1, []))
        self.assertEqual(self.session(seconds=DAY), (1, [*fault, self.line(f"seen since {DATE}, in 5 runs")]))
        self.assertEqual(self.session(), (1, []))
        self.refuse()
        self.assertEqual(self.session(), (0, [self.line(f"works again: runs had failed since {DATE}")]))
        self.assertEqual(self.session(), (0, []))
        self.refuse("UIDL")
        self.assertEqual(self.session(), (1, []))
        self.refuse()
        self.assertEqual(self.session(), (0, []))

    def test_hourly_runs_across_an_outage(self):
        """An hour isn't a minute, and a fault that each run has is told each day."""
        self.refuse("UIDL")
        told = [len(self.session(seconds=HOUR)[1]) for _ in range(50)]
        self.assertEqual([hour for hour, lines in enumerate(told) if lines], [0, 24, 48])
        self.assertEqual({lines for lines in told if lines}, {2, 3})
        self.refuse()
        self.assertEqual(len(self.session(seconds=HOUR)[1]), 1)

    def test_a_fault_that_was_not_seen_for_a_day(self):
        """It is told as a new one."""
        self.refuse("UIDL")
        self.session()
        self.refuse()
        self.session()
        self.session(seconds=2 * DAY)
        self.refuse("UIDL")
        self.assertEqual(len(self.session()[1]), 2)

    def test_two_rc_files(self):
        """Each has a memory of its own: a good run of one ends no fault of the other."""
        other = self.account.folder / "other"
        other.write_bytes(self.account.rcfile.read_bytes().replace(b"username = u\n", b"username = v\n"))
        other.chmod(0o600)
        self.refuse("USER u")
        for lines in (2, 0):
            self.assertEqual(len(self.session()[1]), lines)
            self.assertEqual(self.session("-r", "other"), (0, []))
        self.refuse("USER v")
        self.assertEqual(len(self.session("-r", "other")[1]), 2)
        self.assertEqual(len(self.session()[1]), 1)
        self.assertEqual(len(self.told()), 2)

    def test_the_same_fault_of_another_number(self):
        """A message's number changes as others leave the server; the line has the one of today."""
        large = [(b"l%d" % number, b"x" * 200 + b"\n") for number in range(6)]
        for word, *words in ("RETR",), ("DELE", "-d"):
            with self.subTest(word), Account(self.server.port, "max_message_size = 100\n") as self.account:
                for left, seconds in ((6, 600), (5, 600), (4, 600), (3, DAY)):
                    self.server.messages = [*large[:left - 1], TWO[0]]
                    self.refuse(f"{word} {left}")
                    status, lines = self.session(*words, seconds=seconds)
                    self.assertEqual((status, lines[:1]), (1, [f"getmail: server refused {word} {left}"] if left in (6, 3) else []))
                self.refuse("LIST")
                self.assertEqual(len(self.session(*words)[1]), 2)

    def test_the_same_fault_whatever_the_server_says(self):
        self.server._answer = lambda command: b"-ERR try at %d\r\n" % self.now
        self.assertEqual(self.session()[1][0], "getmail: server refused USER")
        self.assertEqual(self.session(), (1, []))

    def test_it_says_what_a_quiet_run_with_reasons_says(self):
        """At first sight, and nothing else, on a terminal too and whatever `verbose` is in the rc file."""
        loud = "received = true\nverbose = 2\n"
        for options, *refused in (loud,), ("", "UIDL"), (loud, "PASS sesame"), (loud, "RETR 1"):
            with self.subTest(options=options, refused=refused):
                self.refuse(*refused)
                runs = set()
                for words in ("-q", "--why"), ("--unattended",):
                    with Account(self.server.port, options) as account:
                        thread = self.server.begin_session()
                        runs.add(terminal.run(account, *words))
                        thread.join(programs.SECONDS)
                self.assertEqual(len(runs), 1, runs)
                self.assertNotEqual(runs.pop()[2], b"")

    def test_faults_that_take_turns(self):
        """Each is written once."""
        for told in (True, False, False):
            for command in ("UIDL", "LIST"):
                self.refuse(command)
                self.assertEqual(bool(self.session()[1]), told)
        self.refuse()
        again = self.line("works again: runs had failed since Tue, 14 Nov 2023 22:23:20 GMT")
        self.assertEqual(self.session(), (0, [again]))

    def test_the_same_fault_of_another_folder(self):
        for part in ("new", "cur"):
            (self.account.maildir / part).rmdir()
            for lines in (3, 0):
                self.assertEqual(len(self.session()[1]), lines)
            (self.account.maildir / part).mkdir()

    def test_a_clock_that_is_set_back(self):
        self.refuse("UIDL")
        """The mark that is still to come counts as none."""
        self.session(seconds=DAY)
        self.assertEqual(len(self.session(seconds=-HOUR)[1]), 2)
        self.assertEqual(self.session(), (1, []))

    def too_large(self, number, size):
        return self.line(f"message {number} has {size} octets, more than max_message_size 5: it stays on the server")

    def test_messages_that_are_too_large(self):
        """Each is named once, also if a fault comes between; what was delivered before the limit isn't."""
        self.session()
        self.account.rcfile.write_bytes(self.account.rcfile.read_bytes() + b"max_message_size = 4\n")
        self.assertEqual(self.session(), (0, []))
        self.account.rcfile.write_bytes(self.account.rcfile.read_bytes().replace(b"_size = 4", b"_size = 5"))
        large = [(b"l%d" % number, b"a long message\n") for number in range(3)]
        self.server.messages = [TWO[0], *large[:2], TWO[1]]
        self.assertEqual(self.session(), (0, [self.too_large(2, 16), self.too_large(3, 16)]))
        self.assertEqual(self.session(), (0, []))
        self.server.messages = [*TWO, *large]
        self.assertEqual(self.session(), (0, [self.too_large(5, 16)]))
        self.refuse("USER u")
        self.session()
        self.refuse()
        self.assertEqual(len(self.session()[1]), 1)
        self.assertEqual(self.session(), (0, []))

    def test_a_large_message_that_is_deleted(self):
        """It was delivered before, and doesn't stay on the server."""
        self.server.messages = [(b"l", b"a long message\n"), *TWO]
        self.session()
        options = "max_message_size = 5\ndelete = true\n"
        self.account.rcfile.write_text(self.account.rcfile.read_text().replace("read_all = false", "read_all = true") + options)
        self.assertEqual(self.session(), (0, []))
        self.assertEqual(self.server.messages, [])

    def test_large_messages_where_each_session_is_cut(self):
        self.account.rcfile.write_bytes(self.account.rcfile.read_bytes() + b"max_message_size = 5\n")
        self.server.messages = [(b"l", b"a long message\n"), *TWO]
        self.refuse("RETR 3")
        status, lines = self.session()
        self.assertEqual((status, lines[0], lines[2:]), (1, "getmail: server refused RETR 3", [self.too_large(1, 16)]))
        self.assertEqual(self.session(), (1, []))

    def test_one_message_is_left(self):
        """It is one, not several."""
        self.account.rcfile.write_bytes(self.account.rcfile.read_bytes() + b"max_messages_per_session = 1\n")
        self.server.messages = [(b"%d" % number, b"one\n") for number in range(26)]
        told = [self.session(seconds=HOUR)[1] for _ in range(25)]
        self.assertEqual(told[:24], [[]] * 24)
        self.assertTrue(told[24][0].endswith(" reached max_messages_per_session: 1 message is left"), told[24])

    def test_the_limit_on_the_number_of_messages(self):
        """It is news if each run of a day reached it."""
        self.account.rcfile.write_bytes(self.account.rcfile.read_bytes() + b"max_messages_per_session = 1\n")
        self.server.messages = [(b"%d" % number, b"one\n") for number in range(60)]
        told = [self.session(seconds=HOUR)[1] for _ in range(50)]
        self.assertEqual([hour for hour, lines in enumerate(told) if lines], [24, 48])
        self.assertEqual(told[24], [self.line("each run since Tue, 14 Nov 2023 23:13:20 GMT reached "
                                              "max_messages_per_session: 35 messages are left")])
        self.server.messages = []
        self.assertEqual(self.session(seconds=HOUR), (0, []))
        self.server.messages = [(b"n%d" % number, b"one\n") for number in range(60)]
        new_ids = "warning: none of the listed messages was in the record, others were: if their ids are new, all mail comes again"
        self.assertEqual([self.session(seconds=HOUR)[1] for _ in range(24)], [[self.line(new_ids)], *[[]] * 23])

    def test_folders_that_are_named_like_marks(self):
        """A path is noted up to the mark of the process alone."""
        text = self.account.rcfile.read_text()
        for name in ("acct.P1-x/a", "acct.P1-x/b", ".Private/a", "acct.P1R0123456789abcdef/a", "acct.P1R0123456789abcdef/b"):
            with self.subTest(name):
                self.account.rcfile.write_text(text.replace("~/Maildir/", f"~/{name}/"))
                self.assertGreater(len(self.session()[1]), 1)
                self.assertEqual(self.session(), (1, []))

    def test_a_repeated_id_is_left_out(self):
        self.server.messages = TWO[:1] * 2
        self.assertEqual(self.session(), (0, [self.line("left out: 1 with a repeated unique-id")]))
        self.assertEqual(self.session(), (0, []))

    def test_warnings_are_told_once(self):
        self.account.rcfile.write_bytes(self.account.rcfile.read_bytes() + b"received = true\n")
        self.account.rcfile.chmod(0o644)
        warnings = ["getmail: warning: line 14: options.received has no effect",
                    self.line(f"warning: others than its owner may read or write {self.account.rcfile}: chmod 600 ends that")]
        self.assertEqual(self.session(), (0, warnings))
        self.assertEqual(self.session(), (0, []))
        self.account.rcfile.write_bytes(self.account.rcfile.read_bytes() + b"timeout = 5\n")
        self.assertEqual(self.session(), (0, ["getmail: warning: line 15: options.timeout has no effect"]))

    def test_two_notices_of_which_one_is_mended(self):
        """Each stands by itself: the other one isn't told anew."""
        odd = [self.account.maildir / "new" / self.account.name(*message) for message in TWO]
        for path in odd:
            path.mkdir()
        lines = [self.line(f"{path}: not a regular file") for path in odd]
        status, told = self.session()
        self.assertEqual((status, sorted(told)), (0, sorted(lines)))
        odd[0].rmdir()
        self.assertEqual(self.session(), (0, []))

    def test_an_rc_file_that_is_wrong(self):
        """No account is known then, so the line that says since when names the file; that it is over names the account."""
        good = self.account.rcfile.read_bytes()
        self.account.rcfile.write_bytes(good.replace(b"port = ", b"port = x"))
        fault = self.run_getmail()
        self.assertEqual((fault.status, fault.err.count(b"\n")), (2, 2), fault)
        self.assertEqual(self.run_getmail(), programs.Run(2, b"", b""))
        self.now += DAY
        again = f"getmail: {self.account.rcfile}: seen since {DATE}, in 3 runs\n"
        self.assertEqual(self.run_getmail(), programs.Run(2, b"", fault.err + again.encode()))
        self.account.rcfile.write_bytes(good)
        self.assertEqual(self.session(), (0, [self.line(f"works again: runs had failed since {DATE}")]))

    def test_a_server_that_cannot_be_reached(self):
        self.server.close()
        run = self.run_getmail()
        self.assertEqual((run.status, len(run.err.splitlines())), (1, 3))
        self.assertEqual(self.run_getmail(), programs.Run(1, b"", b""))

    def session_with_room(self, octets):
        """A session in which no file may be longer: the status, and how many lines it writes."""
        _, hard = resource.getrlimit(resource.RLIMIT_FSIZE)
        resource.setrlimit(resource.RLIMIT_FSIZE, (octets, hard))
        thread = self.server.begin_session()
        try:
            process = self.account.start("--unattended", restore_signals=False, LD_PRELOAD=str(self.other_user),
                                         OTHER_USER=str(NOBODY))
        finally:
            resource.setrlimit(resource.RLIMIT_FSIZE, (hard, hard))
        _, err = process.communicate(timeout=programs.SECONDS)
        thread.join(programs.SECONDS)
        return process.returncode, len(err.splitlines())

    def test_a_full_disk(self):
        """The file that can't be written has another name in each run, and is the same fault."""
        self.server.messages = [(b"a", b"a long line of text\n" * 100)]
        for lines in (2, 0, 0):
            self.assertEqual(self.session_with_room(500), (1, lines))

    def test_a_disk_without_any_room(self):
        """What can't be kept is written each time, and what was kept stays."""
        self.refuse("UIDL")
        self.session()
        path, = self.told()
        before = path.read_bytes()
        for command, lines in (("LIST", 3), ("LIST", 3), ("UIDL", 4), ("UIDL", 4)):
            self.refuse(command)
            self.assertEqual(self.session_with_room(10), (1, lines))
            self.assertEqual((path.read_bytes(), self.told()), (before, [path]))

    def test_its_file(self):
        """Nobody else may read it, and it has neither the password nor the server's words."""
        self.account.rcfile.write_bytes(self.account.rcfile.read_bytes().replace(b"password = sesame\n", b"password = secret-words\n"))
        self.server._answer = lambda command: b"-ERR no such secret-words here\r\n"
        self.session()
        path, = self.told()
        self.assertEqual(stat.S_IMODE(path.stat().st_mode), 0o600)
        self.assertNotIn(b"secret", path.read_bytes())
        self.assertNotIn(b"no such", path.read_bytes())
        self.assertLess(path.stat().st_size, 500)

    def test_files_of_killed_runs_are_removed(self):
        self.refuse("UIDL")
        self.session()
        path, = self.told()
        left = path.with_name(path.name + ".tmp.P1R0123456789abcdef")
        left.touch()
        os.utime(left, (0, 0))
        self.refuse("LIST")
        self.session()
        self.assertEqual(self.told(), [path])

    def test_odd_contents(self):
        """All is written again."""
        self.refuse("UIDL")
        self.session()
        path, = self.told()
        whole = path.read_bytes()
        for content in (b"", b"\0" * 5000, whole[:-1], whole[5:], whole + b"x", whole.replace(b"fault ", b"fault -"),
                        whole.replace(b"getmail-told 2", b"getmail-told 1"),
                        b"getmail-told 2\n" + b"said x\n" * 100_000 + b"end", b"\xff" * 300):
            with self.subTest(content[:40]):
                path.write_bytes(content)
                self.assertEqual(len(self.session()[1]), 2)
                self.assertEqual(self.session(), (1, []))
        path.unlink()
        os.mkfifo(path)
        self.assertEqual(len(self.session()[1]), 2)

    def test_a_file_that_cannot_be_written(self):
        self.refuse("UIDL")
        self.session()
        path, = self.told()
        path.unlink()
        path.mkdir()
        for _ in range(2):
            status, lines = self.session()
            self.assertEqual((status, lines[2:]), (1, [self.line(EACH)]))

    def test_a_folder_of_the_user(self):
        """What was told is kept in /run/user if DIR can't be written, until it can; if that folder is nobody else's."""
        if os.geteuid() != 0:
            self.skipTest("only root makes a folder in /run/user")
        folder = Path("/run/user") / str(NOBODY + os.getpid())
        self.addCleanup(shutil.rmtree, folder, ignore_errors=True)
        self.refuse("UIDL")
        self.session()
        path, = self.told()
        before = path.read_bytes()
        path.unlink()
        path.mkdir()
        changes = {"OTHER_USER": folder.name}
        self.assertEqual(len(self.session(**changes)[1]), 3)
        folder.mkdir(parents=True)
        for mode, owner, lines in ((0o700, 0, 3), (0o750, NOBODY + os.getpid(), 3), (0o700, NOBODY + os.getpid(), 2)):
            os.chown(folder, owner, owner)
            folder.chmod(mode)
            self.assertEqual(len(self.session(**changes)[1]), lines)
        self.assertEqual([kept.name for kept in folder.iterdir()], [f"getmail-{path.name}"])
        self.assertEqual(self.session(**changes), (1, []))
        path.rmdir()
        path.write_bytes(before)
        self.assertEqual(self.session(**changes), (1, []))
        self.assertEqual(list(folder.iterdir()), [])
        self.assertEqual(self.session(), (1, []))

    def test_what_cannot_be_written_is_told_later(self):
        self.refuse("UIDL")
        thread = self.server.begin_session()
        with open("/dev/full", "wb") as full:
            programs.run("getmail", "--unattended", err=full, HOME=str(self.account.home))
        thread.join(programs.SECONDS)
        self.assertEqual(len(self.session()[1]), 2)

    def test_no_memory_for_what_was_told(self):
        """All is written, and that there was none; what was kept stays."""
        self.refuse("UIDL")
        _, lines = self.session()
        path, = self.told()
        before = path.read_bytes()
        with preload.library("refuse_call") as library:
            self.assertEqual(self.session(LD_PRELOAD=str(library), REFUSED_CALL="told")[1],
                             [*lines, "getmail: out of memory"])
        self.assertEqual(path.read_bytes(), before)

    def test_a_refused_growth_forgets_nothing(self):
        """What can't be read for want of memory stays in the file."""
        def faults():
            return {line.split()[1] for line in path.read_bytes().splitlines() if line.startswith(b"fault ")}

        good = self.account.rcfile.read_bytes()
        self.account.rcfile.write_bytes(good.replace(b"port = ", b"port = x"))
        self.run_getmail()
        self.account.rcfile.write_bytes(good)
        self.server.close()
        self.run_getmail()
        path, = self.told()
        told = faults()
        self.assertEqual(len(told), 2)
        for refusal in growths.refusals():
            self.run_getmail(**refusal.environment())
            self.assertLessEqual(told, faults(), f"growth {refusal.number} refused")

    def test_flags(self):
        self.assertEqual(self.session("-q", "--why"), (0, []))
        run = self.account.run("--unattended", "-v")
        self.assertEqual((run.status, run.err), (2, b"getmail: opposite flags\ngetmail: --unattended and --verbose\n"))
        run = programs.run("getmail", "--rehearse", "--unattended", "-v", given=b"-ERR\r\n")
        self.assertEqual((run.status, run.out, run.err), (1, b"C: QUIT\ncut 6\n", b""))

    def test_a_preview_keeps_nothing(self):
        self.refuse("UIDL")
        for _ in range(2):
            thread = self.server.begin_session()
            run = self.account.run("--unattended", "--pretend")
            thread.join(programs.SECONDS)
            self.assertEqual(len(run.err.splitlines()), 2)
        self.assertEqual(self.told(), [])

    def test_the_usual_runs_are_as_ever(self):
        """They neither read nor change what the others remember."""
        self.refuse("UIDL")
        self.session()
        path, = self.told()
        before = path.read_bytes()
        thread = self.server.begin_session()
        run = self.account.run("-q")
        thread.join(programs.SECONDS)
        self.assertEqual((run.status, run.err, path.read_bytes()), (1, b"getmail: server refused UIDL\n", before))


class Beside(unittest.TestCase):
    """A run beside another one, which waits for its first text."""

    def setUp(self):
        self.server = SharedServer(TWO)
        self.addCleanup(self.server.close)
        self.account = self.enterContext(Account(self.server.port))
        asked, self.over = threading.Event(), threading.Event()

        def give(session, say, octets):
            asked.set()
            self.over.wait(programs.SECONDS)
            say(octets)

        self.server.give = give
        # An earlier run had the lock, long ago.
        self.account.lock.touch()
        os.utime(self.account.lock, (0, 0))
        self.first = self.account.start("-q")
        self.addCleanup(self.end)
        self.assertTrue(asked.wait(programs.SECONDS))

    def end(self):
        self.over.set()
        self.first.communicate(timeout=programs.SECONDS)

    def test_another_run_is_nothing_new(self):
        """Until it has been at work for an hour: by when its file was changed, not by when it was read."""
        self.assertEqual(self.account.run("--unattended"), programs.SILENT)
        now = time.time()
        then = now - HOUR - 1
        os.utime(self.account.lock, (then, now))
        self.assertEqual(self.account.run("--unattended"), programs.SILENT)
        os.utime(self.account.lock, (now, then))
        run = self.account.run("--unattended")
        self.assertEqual((run.status, run.err.splitlines()[0]), (1, b"getmail: another getmail is at work for this account"))
        self.assertEqual(self.account.run("--unattended"), programs.Run(1, b"", b""))
        self.assertEqual(self.account.run("-q").status, 1)

    def test_a_lock_whose_mark_is_still_to_come(self):
        """The hour begins at the first run that met it."""
        os.utime(self.account.lock, (4_000_000_000, 4_000_000_000))
        clock = self.account.home / "clock"
        with preload.library("clock") as library:
            for seconds, status, lines in ((0, 0, 0), (HOUR - 1, 0, 0), (HOUR, 1, 2), (HOUR + 1, 1, 0), (DAY + HOUR, 1, 3)):
                clock.write_text(str(START + seconds))
                run = self.account.run("--unattended", LD_PRELOAD=str(library), CLOCK=str(clock))
                self.assertEqual((run.status, len(run.err.splitlines())), (status, lines), seconds)

    def test_a_lock_of_unknown_age_without_a_memory(self):
        """It is told each time."""
        os.utime(self.account.lock, (4_000_000_000, 4_000_000_000))
        self.account.run("--unattended")
        path, = (path for path in self.account.folder.iterdir() if path.name.startswith("told-"))
        path.unlink()
        path.mkdir()
        lines = f"getmail: another getmail is at work for this account\ngetmail: {self.account.name_in_lines}: {EACH}\n"
        with preload.library("other_user") as library:
            for _ in range(2):
                self.assertEqual(self.account.run("--unattended", LD_PRELOAD=str(library), OTHER_USER=str(NOBODY)),
                                 programs.Run(0, b"", lines.encode()))


class TwoAtOnce(unittest.TestCase):
    def test_two_runs_leave_a_whole_file(self):
        with Account(1) as account:
            for _ in range(20):
                runs = [account.start("--unattended") for _ in range(2)]
                for run in runs:
                    run.communicate(timeout=programs.SECONDS)
                path, = (path for path in account.folder.iterdir() if path.name.startswith("told-"))
                self.assertTrue(path.read_bytes().startswith(b"getmail-told 2\n"))
                self.assertTrue(path.read_bytes().endswith(b"\nend"))
            self.assertEqual(account.run("--unattended"), programs.Run(1, b"", b""))


if __name__ == "__main__":
    unittest.main()
