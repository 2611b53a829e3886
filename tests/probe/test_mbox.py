"""The mboxrd file over the file system: what it contains, how it is written, and what other programs read in it."""

import mailbox
import shutil
import subprocess
import unittest

from harness import programs
from harness.mboxrd import SEPARATOR, entries, entry, quoted, unquoted
from probe.watched import folder_for, watcher_for, written

TEXTS = (
    b"",
    b"Subject: plain\n\na line\n",
    b"".join(b">" * depth + b"From the depth\n" for depth in range(12)),
    b"Subject: ends\n\nFrom x\n>From y\n From z\n\n\n\n",
    b"From\nFrom:\n>from x\n> From x\nFROM x\n\xff\x00\r\n.\n\n",
)


class Mbox(unittest.TestCase):
    @classmethod
    def setUpClass(cls):
        cls.watcher = watcher_for(cls)

    def setUp(self):
        self.work = folder_for(self)
        self.file = self.work / "mbox"
        self.file.touch()

    def append(self, text, count=1, refused=None):
        (self.work / "mbox.text").write_bytes(text)
        return self.watcher.run(self.work, "append", self.file, count, refused)

    def flushes(self):
        """The file's content and its name are flushed before the first look at its ends returns."""
        return [("fsync", "done", "mbox"), ("fsync", "done", str(self.work))]

    def fill(self, front=b""):
        for text in TEXTS:
            run, _ = self.append(front + text)
            self.assertEqual((run.status, run.err), (0, b""))

    def check_texts(self, count):
        run = programs.run("probe", "texts", str(self.file), "1")
        self.assertEqual((run.status, run.err), (0, b""))
        self.assertEqual(int(run.out.split()[0]), count)

    def test_an_entry_for_each_text(self):
        self.fill()
        self.assertEqual(self.file.read_bytes(), entries(TEXTS))
        self.check_texts(len(TEXTS))

    def test_written_and_flushed(self):
        text = TEXTS[3]
        run, calls = self.append(text, 2)
        self.assertEqual((run.status, run.err), (0, b""))
        self.assertEqual(calls[:2], self.flushes())
        calls = calls[2:]
        for _ in range(2):
            count, calls = written(calls, "mbox")
            self.assertEqual((count, calls[0]), (len(entry(text)), ("fsync", "done", "mbox")))
            calls = calls[1:]
        self.assertEqual(calls, [])

    def test_a_refused_append_is_taken_back(self):
        """The fourth call of fsync is that of the second entry; the file is cut to what it held before."""
        run, calls = self.append(TEXTS[1], 2, 4)
        self.assertEqual(run.status, 1)
        self.assertIn(b"destination refused", run.err)
        self.assertEqual(self.file.read_bytes(), entry(TEXTS[1]))
        self.assertEqual(calls[-1], ("fsync", "done", "mbox"), "the cut is flushed too")

    def test_nothing_is_written_to_another_file(self):
        for held in (b"abc\n", b"From a\n", b"From a\nx", b"\nFrom a\n\n", b"From a\r\n\r\n", b"\x00", b"\n\n"):
            with self.subTest(held=held):
                self.file.write_bytes(held)
                run, calls = self.append(TEXTS[1])
                self.assertEqual((run.status, calls), (1, self.flushes()))
                self.assertIn(b"destination is no mbox", run.err)
                self.assertEqual(self.file.read_bytes(), held)
        self.file.unlink()
        run, calls = self.append(TEXTS[1])
        self.assertEqual((run.status, calls), (1, []))
        self.assertIn(b"destination missing", run.err)
        self.assertFalse(self.file.exists())

    def test_read_by_python(self):
        """Python finds each message. It quotes by a rule of its own and takes no `>` away when it reads, so what it
        returns are the quoted texts; unquoted, they are the texts, byte for byte."""
        self.fill()
        box = mailbox.mbox(self.file, create=False)
        self.addCleanup(box.close)
        read = [box.get_bytes(key) for key in box.keys()]
        self.assertEqual(read, [quoted(text) for text in TEXTS])
        self.assertEqual(tuple(map(unquoted, read)), TEXTS)

    @unittest.skipIf(shutil.which("formail") is None, "formail is not installed")
    def test_read_by_formail(self):
        """formail finds as many messages; it recognizes one by two fields after its first line."""
        self.fill(b"Subject: one\nTo: another\n\n")
        counted = subprocess.run(["formail", "-s", "echo", "message"], input=self.file.read_bytes(), check=True,
                                 capture_output=True)
        self.assertEqual(counted.stdout.count(b"message"), len(TEXTS))

    def test_large_files(self):
        """A line of 100 MB, and a million entries."""
        self.file.write_bytes(SEPARATOR + b">" * 100_000_000 + b"From x\n\n")
        self.check_texts(1)
        self.file.write_bytes(SEPARATOR + b">" * 100_000_000 + b"From x\n")
        run = programs.run("probe", "texts", str(self.file), "1")
        self.assertEqual(run.status, 1)
        self.assertIn(b"destination is no mbox", run.err)
        self.file.write_bytes(entry(b"From x\n") * 1_000_000)
        self.check_texts(1_000_000)


if __name__ == "__main__":
    unittest.main()
