"""How many copies of the password are in memory while a session runs, read from outside."""

import re
import unittest

from getmail.account import Account
from getmail.server import Server
from harness import programs

PASSWORD = b"Xy7-unusual-passw0rd-Qz"


def copies(process):
    """Where the end of the password is in the memory that a process may read and write, each with what is before it."""
    found = []
    with open(f"/proc/{process.pid}/maps", encoding="ascii") as maps, open(f"/proc/{process.pid}/mem", "rb", 0) as memory:
        for span, rights in (line.split()[:2] for line in maps):
            begin, end = (int(number, 16) for number in span.split("-"))
            if rights.startswith("rw"):
                memory.seek(begin)
                octets = memory.read(end - begin)
                found += [octets[max(0, place.start() - 60):place.end()] for place in re.finditer(re.escape(PASSWORD), octets)]
    return found


class Memory(unittest.TestCase):
    def check_copies(self, wanted, *words):
        """They are counted before each message is sent."""
        with Server([(b"a", b"one\n"), (b"b", b"two\n")]) as server, Account(server.port) as account:
            account.rcfile.write_bytes(re.sub(rb"password = .*", b"password = " + PASSWORD, account.rcfile.read_bytes()))
            usual, counts = server._answer, []

            def answer(command):
                if command.startswith(b"RETR"):
                    counts.append(copies(process))
                return usual(command)

            server._answer = answer
            thread = server.begin_session()
            process = account.start(*words)
            process.communicate(timeout=programs.SECONDS)
            thread.join(programs.SECONDS)
        self.assertEqual((process.returncode, [len(found) for found in counts]), (0, [wanted] * 2), counts)

    def test_a_quiet_run(self):
        """The settings have it: PASS is sent from there."""
        self.check_copies(1, "-q")

    def test_a_run_that_hides_it(self):
        """What the server says is searched for it."""
        for word in "--why", "--trace":
            with self.subTest(word):
                self.check_copies(2, "-q", word)


if __name__ == "__main__":
    unittest.main()
