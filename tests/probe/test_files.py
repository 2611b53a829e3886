"""The discipline of a file over the file system: the system calls of `replace`, `append` and `cut_to`, in order.

The program replaces a file by 2,048 bytes, appends as many and cuts them off again. One call of fsync or rename is
refused in turn: the file then has the old content or the new one.
"""

import stat
import unittest

from harness import programs
from probe.watched import SIZE, TEXT, folder_for, is_own, make_older, watcher_for, written


class Files(unittest.TestCase):
    @classmethod
    def setUpClass(cls):
        cls.watcher = watcher_for(cls)

    def setUp(self):
        self.work = folder_for(self)
        self.file = self.work / "seen"

    def rewrite(self, count, refused=None):
        return self.watcher.run(self.work, "rewrite", self.file, count, refused)

    def test_written_whole_flushed_renamed_and_the_folder_flushed(self):
        run, calls = self.rewrite(1)
        self.assertEqual((run.status, run.err), (0, b""))
        self.assertEqual(self.file.read_bytes(), TEXT)
        beside = calls[0][2]
        self.assertTrue(is_own(beside, "seen.tmp"), beside)
        count, after = written(calls, beside)
        self.assertEqual(count, SIZE)
        self.assertEqual(after[:3], [("fsync", "done", beside), ("rename", "done", beside, "seen"),
                                     ("fsync", "done", str(self.work))])
        count, after = written(after[3:], "seen")
        self.assertEqual(count, SIZE)
        self.assertEqual(after, [("fsync", "done", "seen")] * 2)

    def test_each_refused_call(self):
        """The calls are: fsync of the new file, rename, fsync of the folder; fsync of what was appended; of the cut."""
        for refused, wanted in ((1, b"old"), (2, b"old"), (3, TEXT), (4, TEXT + TEXT), (5, TEXT)):
            with self.subTest(refused=refused):
                self.setUp()
                self.file.write_bytes(b"old")
                run, calls = self.rewrite(1, refused)
                self.assertEqual(run.status, 1)
                self.assertIn(b"destination refused", run.err)
                self.assertEqual(self.file.read_bytes(), wanted)
                place = [call[1] for call in calls].index("refused")
                self.assertLessEqual({call[0] for call in calls[place + 1:]}, {"unlink"}, "nothing is tried again")
                self.assertEqual({file.name for file in self.work.iterdir()} - {"note"}, {"seen"})

    def test_readable_by_its_owner_alone(self):
        """Also if the old file could be read by others."""
        self.file.write_bytes(b"old")
        self.file.chmod(0o644)
        run, _ = self.rewrite(1)
        self.assertEqual((run.status, run.err), (0, b""))
        self.assertEqual(stat.S_IMODE(self.file.stat().st_mode), 0o600)

    def append_blocks(self, held, count, refused=None):
        self.file.write_bytes(b"." * held)
        return self.watcher.run(self.work, "blocks", self.file, count, refused)

    def test_an_append_by_blocks_is_flushed_at_each_border(self):
        """After the flush of the file's content and of its name, as the program reads the file's ends first."""
        for held, count, parts in ((100, 1_200, [412, 512, 276]), (500, 12, [12]), (500, 13, [12, 1]), (512, 512, [512]),
                                   (0, 1, [1])):
            with self.subTest(held=held, count=count):
                run, calls = self.append_blocks(held, count)
                self.assertEqual((run.status, run.err), (0, b""))
                self.assertEqual(calls[:2], [("fsync", "done", "seen"), ("fsync", "done", str(self.work))])
                calls = calls[2:]
                for part in parts:
                    size, calls = written(calls, "seen")
                    self.assertEqual((size, calls[0]), (part, ("fsync", "done", "seen")))
                    calls = calls[1:]
                self.assertEqual(calls, [])
                self.assertEqual(self.file.read_bytes(), b"." * held + b"x" * count)

    def test_no_block_is_written_after_a_refused_flush(self):
        """The third flush is that of the first block."""
        run, _ = self.append_blocks(100, 10_000, 3)
        self.assertEqual(run.status, 1)
        self.assertIn(b"destination refused", run.err)
        self.assertEqual(self.file.read_bytes(), b"." * 100 + b"x" * 412)

    def test_nothing_is_told_of_a_file_that_is_not_flushed(self):
        for refused in (1, 2):
            run, calls = self.append_blocks(100, 1, refused)
            self.assertEqual((run.status, len(calls)), (1, refused))
            self.assertIn(b"destination refused", run.err)
            self.assertEqual(self.file.read_bytes(), b"." * 100)

    def test_what_killed_runs_left_beside_it_is_swept_after_an_hour(self):
        marked = "seen.tmp.P1R0123456789abcdef"
        stays = {"seen.tmp", "seen", "seen.kept", "seen2.tmp.P1R0123456789abcdef", "seen.P1R0123456789abcdef"}
        for name in (marked, *stays):
            make_older(self.work / name, 1.1)
        make_older(self.work / "seen.tmp.P2R0123456789abcdef", 0.9)
        run = programs.run("probe", "sweep", str(self.work), "1")
        self.assertEqual((run.status, run.err), (0, b""))
        left = {file.name for file in self.work.iterdir()}
        self.assertEqual(left, {"seen.tmp.P2R0123456789abcdef", *stays})
