"""The record that `examples/from-getmail6.py` makes of getmail6's list, and what it refuses."""

import hashlib
import os
import stat
import subprocess
import sys
import tempfile
import time
import unittest
from pathlib import Path

from harness import programs

SCRIPT = programs.ROOT / "examples" / "from-getmail6.py"
HEADER = b"getmail-seen 2\n"


class FromGetmail6(unittest.TestCase):
    def setUp(self):
        holder = tempfile.TemporaryDirectory()
        self.addCleanup(holder.cleanup)
        self.folder = Path(holder.name)
        self.oldmail = self.folder / "oldmail-mail.example.org-110-fred"
        digest = hashlib.sha256(b"mail.example.org\x00110\0fred").hexdigest()
        self.record = self.folder / f"seen-{digest}"

    def run_script(self, oldmail):
        self.oldmail.write_bytes(oldmail)
        return subprocess.run([sys.executable, SCRIPT, "-g", self.folder, "mail.example.org", "110", "fred", self.oldmail],
                              capture_output=True, text=True, timeout=programs.SECONDS)

    def check_record(self, oldmail, rows):
        run = self.run_script(oldmail)
        self.assertEqual((run.returncode, run.stderr), (0, ""))
        self.assertEqual(run.stdout, f"{self.record}: {len(rows)} messages\n")
        self.assertEqual(self.record.read_bytes(), HEADER + b"".join(row + b"\n" for row in rows))
        self.assertEqual(stat.S_IMODE(self.record.stat().st_mode), 0o600)

    def check_refused(self, oldmail, line):
        run = self.run_script(oldmail)
        self.assertEqual((run.returncode, run.stdout), (1, ""))
        self.assertIn(f"{self.oldmail}: line {line} is no line of an oldmail file", run.stderr)
        self.assertEqual(os.listdir(self.folder), [self.oldmail.name])

    def test_each_line_is_a_row(self):
        self.check_record(b"a\x001600000000\nb/c\x001600000001\r\na\x001600000002\n", [b"a 1600000000 1", b"b/c 1600000001 1"])

    def test_a_list_that_is_cut_short_is_refused(self):
        """Else the message of the last line was first seen in 1970, or has another id, and `delete_after` counts from there."""
        whole = b"a\x001600000000\nb\x001600000001\r\n"
        for end in range(14, len(whole)):
            run = self.run_script(whole[:end])
            self.assertEqual((run.returncode, run.stdout, os.listdir(self.folder)), (1, "", [self.oldmail.name]), whole[:end])
            self.assertIn("nothing was written", run.stderr)
        self.assertIn(f"{self.oldmail}: its last line has no end", run.stderr)

    def test_an_empty_file_names_no_message(self):
        self.check_record(b"", [])

    def test_a_file_of_another_kind_is_refused(self):
        refused = {
            "the users of a system": (Path("/etc/passwd").read_bytes(), 1),
            "a line without a time": (b"a\x001600000000\nb\n", 2),
            "a time that is no number": (b"a\x00today\n", 1),
            "no time": (b"a\x00\n", 1),
            "a time above 64 bits": (b"a\x0018446744073709551616\n", 1),
            "no unique-id": (b"\x001600000000\n", 1),
            "a unique-id with a space": (b"a b\x001600000000\n", 1),
            "a unique-id of 71 octets": (b"x" * 71 + b"\x001600000000\n", 1),
            "an empty line": (b"a\x001600000000\n\nb\x001600000000\n", 2),
            "a record of getmail": (HEADER + b"a 1600000000 1\n", 1),
        }
        for name, (oldmail, line) in refused.items():
            with self.subTest(name):
                self.check_refused(oldmail, line)

    def test_a_message_without_a_moment_was_first_seen_now(self):
        before = int(time.time())
        self.assertEqual(self.run_script(b"a\x000\n").returncode, 0)
        uid, second, delivered = self.record.read_bytes().removeprefix(HEADER).split()
        self.assertEqual((uid, delivered), (b"a", b"1"))
        self.assertTrue(before <= int(second) <= time.time())

    def test_a_record_that_is_there_stays(self):
        self.record.write_bytes(b"as it was")
        run = self.run_script(b"a\x001600000000\n")
        self.assertEqual((run.returncode, run.stdout, self.record.read_bytes()), (1, "", b"as it was"))
        self.assertIn("move the record away", run.stderr)

    def test_a_list_that_was_converted_already(self):
        """It is done, also if `getmail` has gone on from there; with a message that isn't delivered it is refused."""
        self.assertEqual(self.run_script(b"a\x001600000000\nb\x001600000001\n").returncode, 0)
        for more in (b"", b"+ 1\nc 1600000002 1\n", b"! c 0 40\n"):
            content = self.record.read_bytes() + more
            self.record.write_bytes(content)
            run = self.run_script(b"a\x001600000000\nb\x001600000001\n")
            self.assertEqual((run.returncode, run.stdout, run.stderr), (0, f"{self.record}: 2 messages\n", ""))
            self.assertEqual(self.record.read_bytes(), content)
        for rows in (b"", b"a 1600000000 1\n", b"a 1600000000 1\nb 1600000001 0\n"):
            self.record.write_bytes(HEADER + rows)
            run = self.run_script(b"a\x001600000000\nb\x001600000001\n")
            self.assertEqual((run.returncode, run.stdout, self.record.read_bytes()), (1, "", HEADER + rows))
            self.assertIn("move the record away", run.stderr)

    def test_what_has_the_record_s_name(self):
        for make in (self.record.mkdir, lambda: self.record.symlink_to("nowhere"), lambda: os.mkfifo(self.record)):
            make()
            run = self.run_script(b"a\x001600000000\n")
            self.assertEqual((run.returncode, run.stdout), (1, ""))
            self.assertIn(str(self.record), run.stderr)
            self.assertNotIn("Traceback", run.stderr)
            self.assertFalse((self.folder / "nowhere").exists())
            self.record.rmdir() if self.record.is_dir() else self.record.unlink()

    def test_a_file_that_cannot_be_read_or_written_is_named(self):
        words = [sys.executable, SCRIPT, "-g", self.folder / "none", "mail.example.org", "110", "fred", self.oldmail]
        for missing in (self.oldmail, self.folder / "none"):
            run = subprocess.run(words, capture_output=True, text=True, timeout=programs.SECONDS)
            self.assertEqual((run.returncode, run.stdout), (1, ""))
            self.assertTrue(run.stderr.startswith(f"{missing}"), run.stderr)
            self.assertIn("No such file or directory", run.stderr)
            self.oldmail.write_bytes(b"a\x001600000000\n")
