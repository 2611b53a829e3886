"""What tests share that run one account against three messages, one session at a time."""

import resource
import unittest

from getmail.account import Account
from getmail.server import Server
from harness import programs

THREE = [(b"a", b"one\n"), (b"b", b"two\n"), (b"c", b"three\n")]
LOGIN = ["USER u", "PASS sesame", "STAT", "UIDL", "LIST"]

REFUSED = programs.Run(1, b"", b"getmail: destination refused\n")
RECORD_REFUSED = programs.Run(1, b"", b"getmail: seen file refused\n")


class OneAccount(unittest.TestCase):
    """A server of three messages, and an account at it."""

    def setUp(self):
        self.server = Server(THREE)
        self.addCleanup(self.server.close)
        self.account = Account(self.server.port)
        self.addCleanup(self.account.holder.cleanup)

    def session(self, *words, bound=None, **changes):
        """One run against one session, with the commands after the listings; no file may grow past `bound`."""
        thread = self.server.begin_session()
        if bound is not None:
            resource.setrlimit(resource.RLIMIT_FSIZE, (bound, resource.RLIM_INFINITY))
        try:
            # Python ignores the signal for the bound, and so does the program, which sees an error instead.
            process = self.account.start("-q", *words, restore_signals=False, **changes)
        finally:
            resource.setrlimit(resource.RLIMIT_FSIZE, (resource.RLIM_INFINITY, resource.RLIM_INFINITY))
        out, err = process.communicate(timeout=programs.SECONDS)
        thread.join(programs.SECONDS)
        self.assertEqual(self.server.commands[:5], LOGIN)
        return programs.Run(process.returncode, out, err), self.server.commands[5:]
