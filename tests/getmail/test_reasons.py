"""Why messages are passed over: `-v -v` says it with `--why` and on a terminal, and else writes the lines as ever."""

import unittest

from getmail import terminal
from getmail.account import Account
from getmail.server import Server
from harness import programs
from harness.kernel import LOOPBACK

FIRST = [(b"a", b"one\n")]
SIX = [*FIRST, (b"b", b"a message\n"), (b"c", b"two\n"), (b"c", b"two\n"), (b"d", b"six\n"), (b"e", b"ten\n")]
OPTIONS = b"max_message_size = 5\nmax_messages_per_session = 2\n"
LEFT_OUT = "left out: 1 too large, 1 past the limit, 1 with a repeated unique-id"


def lines_of(with_reasons):
    """The report of a run after the first message was delivered, without its first line."""
    lines = [("msg 1/6 (5 octets) skipped", ": delivered before"), ("msg 2/6 (11 octets) skipped", ": too large"),
             ("msg 3/6 (4 bytes) delivered", ""), ("msg 4/6 (5 octets) skipped", ": same id as an earlier message"),
             ("msg 5/6 (4 bytes) delivered", ""), ("msg 6/6 (5 octets) skipped", ": past the limit of this session"),
             ("2 messages (8 bytes) retrieved, 4 skipped, 0 deleted", "")]
    return [line + (reason if with_reasons else "") for line, reason in lines]


class Reasons(unittest.TestCase):
    def setUp(self):
        self.server = Server(FIRST)
        self.addCleanup(self.server.close)
        self.account = Account(self.server.port)
        self.addCleanup(self.account.holder.cleanup)
        self.session("-q")
        self.server.messages = SIX
        self.account.rcfile.write_bytes(self.account.rcfile.read_bytes() + OPTIONS)
        self.heading = f"SimplePOP3Retriever:u@{LOOPBACK}:{self.server.port}:"
        self.left_out = f"getmail: u@{LOOPBACK}:{self.server.port}: {LEFT_OUT}"

    def session(self, *words):
        thread = self.server.begin_session()
        run = self.account.run(*words)
        thread.join(programs.SECONDS)
        return run

    def on_a_terminal(self, *words, both):
        thread = self.server.begin_session()
        answer = terminal.run(self.account, *words, both=both)
        thread.join(programs.SECONDS)
        return answer

    def test_as_ever(self):
        run = self.session("-v", "-v")
        self.assertEqual((run.status, run.out.decode().splitlines(), run.err),
                         (0, [self.heading, *lines_of(False)], b""))

    def test_if_reasons_are_asked_for(self):
        run = self.session("-vv", "--why")
        self.assertEqual((run.status, run.out.decode().splitlines(), run.err.decode().splitlines()),
                         (0, [self.heading, *lines_of(True)], [self.left_out]))

    def test_on_a_terminal(self):
        status, _, shown = self.on_a_terminal("-vv", both=True)
        told = [line.decode() for line in terminal.screen_of(shown) if line]
        self.assertEqual((status, told), (0, [self.heading, *lines_of(True), self.left_out]))

    def test_a_report_that_goes_to_a_file_from_a_terminal(self):
        status, out, shown = self.on_a_terminal("-vv", both=False)
        self.assertEqual((status, out.decode().splitlines()), (0, [self.heading, *lines_of(False)]))
        self.assertEqual([line.decode() for line in terminal.screen_of(shown) if line], [self.left_out])

    def test_without_such_lines_there_are_no_reasons(self):
        run = self.session("--why")
        self.assertEqual(run.out.decode().splitlines(),
                         [self.heading, *(line for line in lines_of(False) if "octets" not in line)])

    def test_what_is_only_deleted_was_delivered_before(self):
        self.server.messages = FIRST
        run = self.session("-vv", "-d", "--why")
        self.assertEqual((run.status, run.out.decode().splitlines()[1:], run.err),
                         (0, ["msg 1/1 (5 octets) skipped: delivered before", "msg 1/1 deleted",
                              "0 messages (0 bytes) retrieved, 1 skipped, 1 deleted"], b""))

    def test_all_messages_again(self):
        """What is fetched again counts for the limit."""
        run = self.session("-avv", "--why")
        self.assertEqual(run.out.decode().splitlines()[1:],
                         ["msg 1/6 (4 bytes) already held", "msg 2/6 (11 octets) skipped: too large", "msg 3/6 (4 bytes) delivered",
                          *(f"msg {number}/6 (5 octets) skipped: past the limit of this session" for number in (4, 5, 6)),
                          "2 messages (8 bytes) retrieved, 4 skipped, 0 deleted"])
