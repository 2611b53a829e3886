"""What a killed run appended to a file is flushed before another run reports it or relies on it."""

import signal
import unittest

from harness import preload, programs
from harness.power import rows_of
from probe.watched import folder_for


class Entries(unittest.TestCase):
    """A file of entries, to which a run appended one; the run was killed before it flushed the entry."""

    @classmethod
    def setUpClass(cls):
        cls.library = cls.enterClassContext(preload.library("note_changes"))

    def setUp(self):
        self.work = folder_for(self)
        self.file = self.work / "mbox"
        self.file.touch()
        (self.work / "mbox.text").write_bytes(b"Subject: one\n\nline\n")
        words = self.watch("append")
        self.file.write_bytes(b"")
        self.watch("append", killed=1 + words.index("write"))
        self.assertTrue(self.file.read_bytes().startswith(b"From "))

    def watch(self, word, killed=None):
        """The words of the run's rows, in order; of the flushes, only those of the file."""
        note = self.work / "note"
        changes = {"LD_PRELOAD": str(self.library), "CHANGES_NOTE": str(note)}
        if killed is not None:
            changes["CHANGES_KILLED"] = str(killed)
        run = programs.run("probe", word, str(self.file), "1", **changes)
        self.assertEqual(run.status, 0 if killed is None else -signal.SIGKILL, run.err)
        rows = rows_of(note.read_bytes())
        note.unlink()
        inode = str(self.file.stat().st_ino)
        return [words[0] for words, _ in rows if words[0] != "flush" or words[1] == inode]

    def check_flushed_before(self, word, row):
        words = self.watch(word)
        self.assertIn("flush", words[:words.index(row)], words)

    def test_before_it_is_read(self):
        self.check_flushed_before("texts", "send")

    def test_before_more_is_appended(self):
        self.check_flushed_before("append", "write")


if __name__ == "__main__":
    unittest.main()
