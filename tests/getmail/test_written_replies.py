"""Sessions over written replies, one after the other: what each sends, and which files and rows it leaves.

All of it was worked out by hand. In the replies and the record `|` stands for CR LF and `/` for LF.
"""

import contextlib
import socket
import threading
import unittest
from dataclasses import dataclass

from getmail.account import Account
from getmail.one_account import LOGIN
from harness import preload, programs
from harness.kernel import LOOPBACK

ENDED, CUT = b"", b"getmail: connection ended by the server\n"
DAY = 86_400

# The replies up to those of LIST, and those to RETR.
LISTED = "+OK|+OK|+OK|+OK 3 17|+OK|1 a|2 b|3 c|.|+OK|1 5|2 5|3 7|.|"
A_LISTED = "+OK|+OK|+OK|+OK 1 5|+OK|1 a|.|+OK|1 5|.|"
BOTH_LISTED = "+OK|+OK|+OK|+OK 2 10|+OK|1 a|2 b|.|+OK|1 5|2 5|.|"
TWICE_LISTED = "+OK|+OK|+OK|+OK 2 10|+OK|1 x|2 x|.|+OK|1 5|2 5|.|"
FIVE_LISTED = "+OK|+OK|+OK|+OK 5 25|+OK|1 a|2 b|3 c|4 d|5 e|.|+OK|1 5|2 5|3 5|4 5|5 5|.|"
ONE, TWO, THREE, OK = "+OK|one|.|", "+OK|two|.|", "+OK|three|.|", "+OK|"


@dataclass(frozen=True)
class Session:
    """What the server says, and what comes of it: the commands after LIST, the files by their ids, the record's rows."""

    replies: str
    commands: str
    held: str
    record: str
    fault: bytes = ENDED
    now: int = 0


A_FIRST = "a 0 0/b 0 0/c 0 0/+ 1/a 0 1/"
A_TO_E = "a 0 0/b 0 0/c 0 0/d 0 0/e 0 0/+ 1/a 0 1/+ 1/b 0 1/"
THREE_ROWS = A_FIRST + "+ 1/b 0 1/+ 1/c 0 1/"
A_SEEN = f"a {DAY} 0/+ 1/a {DAY} 1/"
BOTH = "a 0 0/b 0 0/+ 1/a 0 1/+ 1/b 0 1/"

# Options, and sessions of an account with them, one after the other.
TABLE = {
    "cut in the second message": ("", [
        Session(LISTED + ONE + "+OK|tw", "RETR 1|RETR 2|", "a=one/", A_FIRST, CUT),
        Session(LISTED + TWO + THREE + OK, "RETR 2|RETR 3|QUIT|", "a=one/ b=two/ c=three/", THREE_ROWS)]),
    "seven days, and a clock that is back": ("delete_after = 7\n", [
        Session(A_LISTED + ONE + OK, "RETR 1|QUIT|", "a=one/", A_SEEN, now=DAY),
        Session(A_LISTED + OK, "QUIT|", "a=one/", A_SEEN, now=DAY - 1),
        Session(A_LISTED + OK, "QUIT|", "a=one/", A_SEEN, now=8 * DAY - 1),
        Session(A_LISTED + OK + OK, "DELE 1|QUIT|", "a=one/", A_SEEN, now=8 * DAY)]),
    "deleted, and then cut": ("delete = true\n", [
        Session(BOTH_LISTED + ONE + OK + TWO + OK, "RETR 1|DELE 1|RETR 2|DELE 2|QUIT|", "a=one/ b=two/", BOTH, CUT),
        Session("+OK|+OK|+OK|+OK 1 5|+OK|1 b|.|+OK|1 5|.|" + OK + OK, "DELE 1|QUIT|", "a=one/ b=two/", BOTH)]),
    "one id at two messages": ("delete = true\n", [
        Session(TWICE_LISTED + ONE + OK, "RETR 1|QUIT|", "x=one/", "x 0 0/+ 1/x 0 1/")]),
    "a size at the limit, and one above it": ("max_message_size = 100\nmax_messages_per_session = 2\n", [
        Session("+OK|+OK|+OK|+OK 3 300|+OK|1 a|2 b|3 c|.|+OK|1 100|2 101|3 99|.|" + ONE + THREE + OK,
                "RETR 1|RETR 3|QUIT|", "a=one/ c=three/", A_FIRST + "+ 1/c 0 1/")]),
    "five messages in three sessions": ("max_messages_per_session = 2\n", [
        Session(FIVE_LISTED + ONE + TWO + OK, "RETR 1|RETR 2|QUIT|", "a=one/ b=two/", A_TO_E),
        Session(FIVE_LISTED + ONE + TWO + OK, "RETR 3|RETR 4|QUIT|", "a=one/ b=two/ c=one/ d=two/",
                A_TO_E + "+ 1/c 0 1/+ 1/d 0 1/"),
        Session(FIVE_LISTED + ONE + OK, "RETR 5|QUIT|", "a=one/ b=two/ c=one/ d=two/ e=one/",
                A_TO_E + "+ 1/c 0 1/+ 1/d 0 1/+ 1/e 0 1/")]),
    "an empty message": ("", [Session(A_LISTED + "+OK|.|" + OK, "RETR 1|QUIT|", "a=", "a 0 0/+ 1/a 0 1/")]),
    "a single dot": ("", [Session(A_LISTED + "+OK|..|.|" + OK, "RETR 1|QUIT|", "a=./", "a 0 0/+ 1/a 0 1/")]),
    "a header and a dot": ("", [
        Session(A_LISTED + "+OK|Subject: a||..x|.|" + OK, "RETR 1|QUIT|", "a=Subject: a//.x/", "a 0 0/+ 1/a 0 1/")]),
    "a CR before the end": ("", [
        Session(A_LISTED + "+OK|a\r|.|" + OK, "RETR 1|QUIT|", "a=a\r/", "a 0 0/+ 1/a 0 1/")]),
    "lone line feeds": ("", [
        Session(A_LISTED + "+OK|a\n.\nb|.|" + OK, "RETR 1|QUIT|", "a=a/./b/", "a 0 0/+ 1/a 0 1/")]),
    "an empty maildrop": ("", [Session("+OK|+OK|+OK|+OK 0 0|+OK|.|+OK|.|+OK|", "QUIT|", "", None)]),
}
READ_AGAIN = [Session(LISTED + ONE + TWO + THREE + OK, "RETR 1|RETR 2|RETR 3|QUIT|", "a=one/ b=two/ c=three/", THREE_ROWS)] * 2
TABLE["what is held is read again"] = ("read_all = true\n", READ_AGAIN)


def on_the_wire(text):
    return text.replace("|", "\r\n").encode()


class WrittenReplies(unittest.TestCase):
    def converse(self, listener, session, asked):
        """Says all replies at once, and notes what is asked."""
        with contextlib.suppress(OSError):
            client, _ = listener.accept()
            with client:
                client.settimeout(programs.SECONDS)
                client.sendall(on_the_wire(session.replies))
                client.shutdown(socket.SHUT_WR)
                while octets := client.recv(65536):
                    asked.append(octets)

    def check_session(self, listener, account, session, **changes):
        asked = []
        thread = threading.Thread(target=self.converse, args=(listener, session, asked), daemon=True)
        thread.start()
        (account.home / "clock").write_text(str(session.now))
        run = account.run("-q", CLOCK=str(account.home / "clock"), **changes)
        thread.join(programs.SECONDS)
        self.assertEqual(run, programs.Run(1 if session.fault else 0, b"", session.fault))
        self.assertEqual(b"".join(asked), on_the_wire("".join(f"{command}|" for command in LOGIN) + session.commands))
        held = [(b"%b=%b" % (uid, text)).decode().replace("\n", "/") for uid, text in account.held()]
        self.assertEqual(" ".join(held), session.held)
        record = account.record.read_text().replace("\n", "/") if account.record.exists() else None
        self.assertEqual(record, session.record and "getmail-seen 2/" + session.record)

    def test_each_row(self):
        with preload.library("clock") as clock:
            for name, (options, sessions) in TABLE.items():
                with self.subTest(name), socket.create_server((LOOPBACK, 0)) as listener:
                    listener.settimeout(programs.SECONDS)
                    with Account(listener.getsockname()[1]) as account:
                        text = account.rcfile.read_text()
                        account.rcfile.write_text(text.replace("read_all = false\n", options) if "read_all" in options else text + options)
                        for session in sessions:
                            self.check_session(listener, account, session, LD_PRELOAD=str(clock))
