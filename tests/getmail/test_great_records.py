"""A record that grows by many rows at once, and is read again: no call that reads or writes it gives up past a size."""

import unittest

from getmail.account import Account
from getmail.server import Server
from harness import programs

# More rows than 65,536, and more octets of them than 1 MiB.
COUNT = 70_000
FIRST = (b"first", b"one\n")
CUT = programs.Run(1, b"", b"getmail: server refused RETR 2\n")


class GreatRecords(unittest.TestCase):
    def setUp(self):
        self.server = Server([FIRST])
        self.addCleanup(self.server.close)
        self.account = Account(self.server.port, "max_messages_per_session = 2\n")
        self.addCleanup(self.account.holder.cleanup)

    def session(self):
        """One run, with the commands after the listings."""
        thread = self.server.begin_session()
        run = self.account.run("-q")
        thread.join(programs.SECONDS)
        return run, self.server.commands[5:]

    def rows(self):
        """The ids of the record's rows with their states, without its header and the lines that begin groups."""
        lines = [line.split(b" ") for line in self.account.record.read_bytes().splitlines()[1:]]
        return [(line[0], line[2]) for line in lines if len(line) == 3]

    def test_a_record_of_many_rows(self):
        self.assertEqual(self.session(), (programs.SILENT, ["RETR 1", "QUIT"]))
        more = [(b"id-%05d" % number, b"%d\n" % number) for number in range(2, COUNT + 1)]
        self.server.messages += more
        self.server.refuses = ("RETR 2",)
        self.assertEqual(self.session(), (CUT, ["RETR 2", "QUIT"]))
        listed = [(b"first", b"0"), (b"first", b"1")] + [(uid, b"0") for uid, _ in more]
        self.assertEqual(self.rows(), listed)
        self.assertGreater(self.account.record.stat().st_size, 1 << 20)
        # The rows are read again. As the appended ones outweigh the first, all are written anew, and two marked.
        self.server.refuses = ()
        self.assertEqual(self.session(), (programs.SILENT, ["RETR 2", "RETR 3", "QUIT"]))
        self.assertEqual(self.rows(), listed[1:] + [(uid, b"1") for uid, _ in more[:2]])
        self.assertEqual(self.account.held(), sorted([FIRST, *more[:2]]))
        # A record with a torn end is written anew, whole.
        with self.account.record.open("ab") as record:
            record.write(b"torn")
        self.assertEqual(self.session(), (programs.SILENT, ["RETR 4", "RETR 5", "QUIT"]))
        delivered = [(uid, b"1") for uid, _ in more[2:4]]
        states = [(b"first", b"1")] + [(uid, b"1" if at < 2 else b"0") for at, (uid, _) in enumerate(more)]
        self.assertEqual(self.rows(), states + delivered)
        self.assertEqual(self.account.held(), sorted([FIRST, *more[:4]]))
