"""Standard input, output and error closed when the program is started, in each of the seven ways: no line of `--verbose`
or `--trace` goes to a client."""

import subprocess
import unittest

from harness import programs, waits
from popd.service import Maildir, Service

FLAGS = (), ("--verbose",), ("--trace",), ("--verbose", "--trace")


class Closed(unittest.TestCase):
    def setUp(self):
        self.no_pauses = waits.no_pauses(self)
        self.maildir = Maildir()
        self.addCleanup(self.maildir.holder.cleanup)

    def check_session(self, client):
        self.assertEqual(client.line(), b"+OK popd ready\r\n")
        given = b"USER u\r\nPASS q\r\nUSER u\r\nPASS p\r\nRETR 1\r\nDELE 1\r\nQUIT\r\n"
        client.give(given)
        self.assertEqual(client.rest(), b"+OK send PASS\r\n-ERR refused\r\n+OK send PASS\r\n+OK 1 messages\r\n"
                         b"+OK 5 octets\r\none\r\n.\r\n+OK marked\r\n+OK bye\r\n")
        self.assertEqual(self.maildir.names(), [])

    def test_over_loopback(self):
        for closed in programs.WAYS_TO_CLOSE:
            for words in FLAGS:
                with self.subTest(closed=closed, words=words):
                    self.maildir.add("new", "a", b"one\n")
                    with Service(self.maildir, "--connections", "1", *words, closed=closed, **self.no_pauses) as service:
                        with service.client() as client:
                            self.check_session(client)
                        status, err = service.finish()
                        self.assertEqual((status, err == b""), (0, 2 in closed or words == ()))

    def test_over_standard_files(self):
        """What is closed can't be read or written."""
        self.maildir.add("new", "a", b"one\n")
        for closed in programs.WAYS_TO_CLOSE:
            for words in FLAGS:
                with self.subTest(closed=closed, words=words):
                    command = [programs.path_of("popd"), *words, "u", self.maildir.passfile, self.maildir.folder]
                    done = subprocess.run(programs.with_closed(closed, command), input=b"USER u\r\nPASS p\r\nQUIT\r\n",
                                          capture_output=True, env=programs.environment(), timeout=programs.SECONDS)
                    told = b"popd: write failed\n" if 1 in closed else b"popd: read failed\n" if 0 in closed else b""
                    self.assertEqual(done.returncode, 1 if told else 0)
                    self.assertEqual(done.stdout.startswith(b"+OK popd ready\r\n"), 1 not in closed)
                    if 2 in closed:
                        self.assertEqual(done.stderr, b"")
                    elif words == ():
                        self.assertEqual(done.stderr, told)
                    else:
                        self.assertTrue(done.stderr.endswith(told))


if __name__ == "__main__":
    unittest.main()
