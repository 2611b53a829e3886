"""A file that another program empties or removes while something is appended to it: it is neither made longer again nor
created again."""

import unittest

from harness import preload, programs
from harness.mboxrd import entry
from probe.watched import folder_for

OLD = entry(b"an older text\n")


class ShrunkFiles(unittest.TestCase):
    @classmethod
    def setUpClass(cls):
        cls.library = cls.enterClassContext(preload.library("other_hands"))

    def test_a_cut_makes_no_file_longer(self):
        """The append is refused, and the size to cut back to is more than is there: the cut would add zeros."""
        work = folder_for(self)
        file = work / "mbox"
        file.write_bytes(OLD)
        (work / "mbox.text").write_bytes(b"a text\n")
        run = programs.run("probe", "append", str(file), "1", LD_PRELOAD=str(self.library),
                           OTHER_SHRUNK=str(file), OTHER_LENGTH=str(len(OLD)))
        self.assertEqual(run.status, 1)
        self.assertIn(b"destination refused", run.err)
        self.assertEqual(file.read_bytes(), b"")

    def test_an_append_makes_no_file(self):
        """A file that is gone by then stays gone: a new one would hold only what is appended."""
        for how, count in (("append", 1), ("blocks", 100)):
            with self.subTest(how):
                work = folder_for(self)
                file = work / "mbox"
                file.write_bytes(OLD)
                (work / "mbox.text").write_bytes(b"a text\n")
                run = programs.run("probe", how, str(file), str(count), LD_PRELOAD=str(self.library),
                                   OTHER_GONE=str(file))
                self.assertEqual((run.status, run.out), (1, b""))
                self.assertIn(b"destination refused", run.err)
                self.assertEqual(sorted(path.name for path in work.iterdir()), ["mbox.text"])
