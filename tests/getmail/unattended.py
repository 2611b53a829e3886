"""What tests of unattended runs share: one account, a server, and a clock that the test sets."""

import unittest

from getmail.account import Account
from getmail.server import Server
from harness import preload, programs
from harness.kernel import LOOPBACK

TWO = [(b"a", b"one\n"), (b"b", b"two\n")]
START = 1_700_000_000


# A user of this number has no folder in /run/user.
NOBODY = 4_000_000_000


class UnattendedRuns(unittest.TestCase):
    def setUp(self):
        self.server = self.enterContext(Server(TWO))
        self.account = self.enterContext(Account(self.server.port))
        self.clock = self.enterContext(preload.library("clock"))
        self.other_user = self.enterContext(preload.library("other_user"))
        self.now = START

    def run_getmail(self, *words, **changes):
        path = self.account.home / "clock"
        path.write_text(str(self.now))
        preloaded = " ".join(filter(None, (str(self.clock), str(self.other_user), changes.pop("LD_PRELOAD", ""))))
        changes = {"OTHER_USER": str(NOBODY), **changes}
        return self.account.run("--unattended", *words, LD_PRELOAD=preloaded, CLOCK=str(path), **changes)

    def session(self, *words, seconds=600, **changes):
        """A run with a session, so many seconds after the last one; its lines."""
        self.now += seconds
        thread = self.server.begin_session()
        run = self.run_getmail(*words, **changes)
        thread.join(programs.SECONDS)
        self.assertEqual(run.out, b"")
        return run.status, run.err.decode().splitlines()

    def line(self, reason):
        return f"getmail: u@{LOOPBACK}:{self.server.port}: {reason}"

    def told(self):
        return [path for path in self.account.folder.iterdir() if path.name.startswith("told-")]

    def refuse(self, *commands):
        self.server.refuses = commands
