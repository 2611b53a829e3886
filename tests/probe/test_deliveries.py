"""The discipline of a delivery over a real Maildir: written whole, flushed, put under its name, the folder flushed.

The program delivers texts of 2,048 bytes. Its system calls are recorded, each of its writes is cut in two, and one call
of fsync, link or rename is refused in turn.
"""

import errno
import os
import stat
import threading
import time
import unittest

from harness import preload, programs
from harness.maildir import make_maildir
from probe.watched import ACCOUNT, SIZE, TEXT, folder_for, is_own, make_older, name_of, stem_of, watcher_for, written


class Deliveries(unittest.TestCase):
    @classmethod
    def setUpClass(cls):
        cls.watcher = watcher_for(cls)

    def setUp(self):
        self.work = folder_for(self)
        self.maildir = make_maildir(self.work / "maildir")

    def deliver(self, count, refused=None, **changes):
        return self.watcher.run(self.work, "deliver", self.maildir, count, refused, **changes)

    def check_left(self, files):
        """The first `files` texts are in `new`, whole; nothing is in `cur` or `tmp`."""
        left = {file.name: file.read_bytes() for file in (self.maildir / "new").iterdir()}
        self.assertEqual(left, {name_of(number): TEXT for number in range(1, files + 1)})
        self.assertEqual([list((self.maildir / name).iterdir()) for name in ("tmp", "cur")], [[], []])

    def check_discipline(self, calls, number, has_links=True):
        """These are the calls of one whole delivery. The name that it was written under goes once it has the other one."""
        begun, settled = calls[0][2], f"maildir/new/{name_of(number)}"
        self.assertTrue(is_own(begun, f"maildir/tmp/{stem_of(number)}"), begun)
        count, after = written(calls, begun)
        self.assertEqual(count, SIZE)
        named = [("link", "done", begun, settled), ("unlink", "done", begun)] if has_links else \
            [("link", "failed", begun, settled), ("rename", "done", begun, settled)]
        self.assertEqual(after, [("fsync", "done", begun), *named, ("fsync", "done", "maildir/new")])

    def check_deliveries(self, has_links, **changes):
        run, calls = self.deliver(3, **changes)
        self.assertEqual((run.status, run.err), (0, b""))
        self.check_left(3)
        ends = [place + 1 for place, call in enumerate(calls) if call == ("fsync", "done", "maildir/new")]
        self.assertEqual(len(ends), 3)
        for number, (begin, end) in enumerate(zip([0, *ends], ends), 1):
            self.check_discipline(calls[begin:end], number, has_links)
            self.assertGreater([call[0] for call in calls[begin:end]].count("write"), 2, "each write is cut in two")

    def test_written_whole_flushed_put_under_its_name_and_the_folder_flushed(self):
        self.check_deliveries(True)

    def test_on_a_file_system_without_second_names(self):
        """Or where the two names would be on different ones, or the file has too many."""
        for fault in (errno.EPERM, errno.ENOSYS, errno.EOPNOTSUPP, errno.EXDEV, errno.EMLINK):
            with self.subTest(fault=fault):
                self.setUp()
                self.check_deliveries(False, WATCH_NO_LINKS=str(fault))

    def test_each_refused_call(self):
        """The calls of two deliveries are fsync of the file, link, fsync of the folder, and the same again.

        A refused call ends the run. Its file is in `new` only if it got its name there.
        """
        for refused, files in ((1, 0), (2, 0), (3, 1), (4, 1), (5, 1), (6, 2)):
            with self.subTest(refused=refused):
                self.setUp()
                run, calls = self.deliver(2, refused)
                self.assertEqual(run.status, 1)
                self.assertIn(b"destination refused", run.err)
                self.check_left(files)
                place = [call[1] for call in calls].index("refused")
                self.assertLessEqual({call[0] for call in calls[place + 1:]}, {"unlink"}, "nothing is tried again")
        self.setUp()
        run, _ = self.deliver(2, 7)
        self.assertEqual((run.status, run.err), (0, b""))
        self.check_left(2)

    def test_readable_by_its_owner_alone(self):
        run, _ = self.deliver(3)
        self.assertEqual((run.status, run.err), (0, b""))
        self.check_left(3)
        for file in (self.maildir / "new").iterdir():
            self.assertTrue(stat.S_ISREG(file.lstat().st_mode))
            self.assertEqual(stat.S_IMODE(file.lstat().st_mode), 0o600)

    def test_what_another_run_is_writing_stays(self):
        """In `tmp` a file has a name that no other run takes, even for the same message."""
        _, calls = self.deliver(1, 1)
        first = calls[0][2]
        other = self.work / first
        other.write_bytes(b"half a text")
        run, calls = self.deliver(1)
        self.assertEqual((run.status, run.err), (0, b""))
        self.assertNotEqual(calls[0][2], first)
        self.assertEqual(other.read_bytes(), b"half a text")
        other.unlink()
        self.check_left(1)

    def test_what_killed_runs_left_in_tmp_is_swept_after_an_hour(self):
        """Only files of the account whose names end in the mark of a process, which no delivered one does."""
        tmp = self.maildir / "tmp"
        mark = ".P1R0123456789abcdef"
        stays = {"0" * 64 + ".61" + mark, ACCOUNT, stem_of(2), name_of(2), name_of(2) + ":2,S", stem_of(2) + mark + ":2,S"}
        stays |= {stem_of(2) + odd for odd in (mark[:-1], mark + "0", mark.upper(), ".PR" + mark[4:], ".P+1" + mark[3:],
                                               ".P4294967296" + mark[3:], mark.replace(".", ","))}
        for name in (stem_of(1) + mark, stem_of(1) + ".P4294967295" + mark[3:], *stays):
            make_older(tmp / name, 1.1)
        # One that was changed lately, and one of a clock that was ahead.
        for name, hours in ((stem_of(3) + mark, 0.9), (stem_of(5) + mark, -2)):
            make_older(tmp / name, hours)
            stays.add(name)
        link = tmp / (stem_of(4) + mark)
        link.symlink_to(stem_of(2))
        os.utime(link, (0, 0), follow_symlinks=False)
        with open(bytes(tmp) + b"/" + ACCOUNT.encode() + b".\xff", "wb"):
            pass
        make_older(self.maildir / "new" / name_of(1), 37)
        run = programs.run("probe", "sweep", str(self.maildir), "1")
        self.assertEqual((run.status, run.err), (0, b""))
        left = {name for name in os.listdir(tmp) if name.isascii()}
        self.assertEqual(left, {link.name, *stays})
        self.assertTrue((self.maildir / "new" / name_of(1)).exists())

    def test_nothing_is_replaced(self):
        """Whatever has the name, the delivery is refused and leaves it, also where no second names can be given."""
        other = self.work / "other"
        other.write_bytes(b"other")
        taken = self.maildir / "new" / name_of(1)
        for make in (lambda: taken.write_bytes(b"other"), lambda: taken.symlink_to("nowhere"), lambda: os.mkfifo(taken),
                     lambda: taken.symlink_to(other), lambda: os.link(other, taken)):
            for changes in ({}, {"WATCH_NO_LINKS": str(errno.EPERM)}):
                with self.subTest(changes=changes):
                    make()
                    was = taken.lstat()
                    run, _ = self.deliver(1, **changes)
                    self.assertEqual(run.status, 1)
                    self.assertEqual(taken.lstat().st_ino, was.st_ino)
                    self.assertEqual(other.read_bytes(), b"other")
                    self.assertEqual(list((self.maildir / "tmp").iterdir()), [])
                    taken.unlink()


class Listings(unittest.TestCase):
    """What is held of the messages 1 to n, as the program counts it."""

    @classmethod
    def setUpClass(cls):
        cls.watcher = watcher_for(cls)
        cls.restless = cls.enterClassContext(preload.library("restless"))

    def setUp(self):
        self.work = folder_for(self)
        self.maildir = make_maildir(self.work / "maildir")

    def check_held(self, count, held):
        run = programs.run("probe", "held", str(self.maildir), str(count))
        self.assertEqual((run.status, run.err), (0, b""))
        self.assertEqual(int(run.out.split()[0]), held)

    def test_names_that_are_no_text_are_passed_over(self):
        """They don't end the listing: the files between them are all found."""
        for number in range(1, 201):
            (self.maildir / ("new", "cur")[number % 2] / name_of(number)).touch()
            for name in ("new", "cur"):
                with open(bytes(self.maildir / name) + b"/\xff%d" % number, "wb"):
                    pass
        self.check_held(200, 200)

    def test_what_is_told_was_flushed(self):
        """Each folder once. If that is refused, nothing is printed."""
        (self.maildir / "new" / name_of(1)).touch()
        flushes = [("fsync", "done", "maildir/new"), ("fsync", "done", "maildir/cur")]
        run, calls = self.watcher.run(self.work, "held", self.maildir, 2)
        self.assertEqual((run.status, run.err, calls), (0, b"", flushes))
        self.assertEqual(int(run.out.split()[0]), 1)
        for refused in (1, 2):
            run, calls = self.watcher.run(self.work, "held", self.maildir, 2, refused)
            self.assertEqual((run.status, run.out, len(calls)), (1, b"", refused))
            self.assertIn(b"destination refused", run.err)

    def held_of_restless(self, **changes):
        """The run over a folder that changes while it is listed."""
        (self.maildir / "new" / name_of(1)).touch()
        restless = {"LD_PRELOAD": str(self.restless), "RESTLESS_FILE": str(self.maildir / "new" / "x"), **changes}
        return programs.run("probe", "held", str(self.maildir), "2", **restless)

    def test_a_folder_that_changes_while_it_is_listed_is_listed_again(self):
        run = self.held_of_restless(RESTLESS_TIMES="7")
        self.assertEqual((run.status, run.err), (0, b""))
        self.assertEqual(int(run.out.split()[0]), 1)

    def test_a_folder_that_finds_no_rest_is_refused(self):
        """It is listed again for 2 seconds, and nothing is printed."""
        begun = time.monotonic()
        run = self.held_of_restless()
        self.assertEqual((run.status, run.out), (1, b""))
        self.assertIn(b"destination refused", run.err)
        self.assertGreater(time.monotonic() - begun, 1.5)
        self.check_held(2, 1)

    def test_none_is_left_out_while_a_reader_renames(self):
        """A reader marks 2,000 messages as read at moments spread over the start of the run."""
        for number in range(1, 2_001):
            (self.maildir / "cur" / (name_of(number) + ":2,")).touch()
        for delay in range(10):
            marks = (":2,", ":2,S") if delay % 2 == 0 else (":2,S", ":2,")

            def mark(old=marks[0], new=marks[1], delay=delay):
                time.sleep(delay / 1_000)
                for number in range(1, 2_001):
                    path = self.maildir / "cur" / name_of(number)
                    path.with_name(path.name + old).rename(path.with_name(path.name + new))

            reader = threading.Thread(target=mark)
            reader.start()
            self.check_held(2_000, 2_000)
            reader.join()

    def test_a_link_counts_if_it_leads_to_a_file(self):
        (self.work / "file").touch()
        for part, name, target in (("new", name_of(1), "nowhere"), ("cur", name_of(2) + ":2,S", "nowhere"),
                                   ("cur", name_of(3), self.work / "file")):
            (self.maildir / part / name).symlink_to(target)
        self.check_held(3, 1)
