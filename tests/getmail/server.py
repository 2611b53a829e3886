"""A POP3 server for one client at a time, over loopback, that can break off after any octet of its replies.

It knows what `getmail` sends (USER, PASS, STAT, UIDL, LIST, RETR, DELE, RSET, QUIT), writes down each command, and removes
marked messages at QUIT, as RFC 1939 has it.
"""

import itertools
import socket
import threading

from harness import kernel, programs
from harness.kernel import LOOPBACK


class Cut(Exception):
    """The server breaks the connection off here."""


def lines_of(text):
    """The lines of a text on the wire, dot-stuffed, with the end mark."""
    body = b"".join((b"." if line.startswith(b".") else b"") + line + b"\r\n" for line in text.split(b"\n")[:-1])
    return body + b".\r\n"


def size_of(text):
    """The octets of a text on the wire, without stuffing."""
    return len(text) + text.count(b"\n")


class Server:
    """The messages, as pairs of a unique-id and a text whose lines end in LF, and one session after the other.

    With `pause` each octet comes alone, once a call of that is over. With `deaf_after` it reads that many commands, and
    nothing more while the connection is open; `deaf` is set once the client has the answer to the last of them.
    """

    def __init__(self, messages, refuses=()):
        self.messages = list(messages)
        self.refuses = tuple(refuses)
        self.greeting = b"+OK ready\r\n"
        self.commands = []
        self.room = None
        self.pause = None
        self.deaf_after = None
        self.deaf = threading.Event()
        self.hung_up = threading.Event()
        self.thread = None
        self.socket = socket.create_server((LOOPBACK, 0))
        self.socket.settimeout(programs.SECONDS)
        self.port = self.socket.getsockname()[1]

    def __enter__(self):
        return self

    def __exit__(self, *_):
        self.close()

    def close(self):
        """Takes no further client. A thread that waits for one has to end before the socket's number is free again."""
        self.hung_up.set()
        if self.socket.fileno() >= 0:
            self.socket.shutdown(socket.SHUT_RDWR)
        if self.thread:
            self.thread.join(programs.SECONDS)
        self.socket.close()

    def begin_session(self, octets=None):
        """Serves one connection in a thread of its own; with `octets` it breaks off after as many octets of replies."""
        self.commands = []
        self.room = octets
        self.deaf.clear()
        self.hung_up.clear()
        self.thread = threading.Thread(target=self._serve, daemon=True)
        self.thread.start()
        return self.thread

    def _say(self, octets):
        if self.pause is not None:
            for octet in octets:
                self.pause()
                self.client.sendall(bytes([octet]))
            return
        if self.room is not None and self.room <= len(octets):
            self.client.sendall(octets[:self.room])
            raise Cut
        self.client.sendall(octets)
        if self.room is not None:
            self.room -= len(octets)

    def _serve(self):
        try:
            self.client, _ = self.socket.accept()
        except OSError:
            # No client came, and the test is over.
            return
        self.client.settimeout(programs.SECONDS)
        if self.socket.family == socket.AF_INET:
            self.client.setsockopt(socket.IPPROTO_TCP, socket.TCP_NODELAY, 1)
        self.marked = set()
        with self.client, self.client.makefile("rb") as given:
            try:
                self._say(self.greeting)
                for line in given if self.deaf_after is None else itertools.islice(given, self.deaf_after):
                    if not line.endswith(b"\r\n"):
                        # A command whose sending was cut.
                        return
                    command = line.removesuffix(b"\r\n")
                    self.commands.append(command.decode())
                    self._say(self._answer(command))
                    if command == b"QUIT":
                        return
                if self.deaf_after is not None:
                    kernel.wait_until_taken(self.client)
                    self.deaf.set()
                    self.hung_up.wait(programs.SECONDS)
            except (Cut, OSError):
                # What the client still sends is read, so that the end comes in order and isn't a reset.
                try:
                    self.client.shutdown(socket.SHUT_WR)
                    while self.client.recv(65536):
                        pass
                except OSError:
                    pass

    def _left(self):
        return [(number, message) for number, message in enumerate(self.messages, 1) if number not in self.marked]

    def _rows(self, row_of):
        return b"+OK\r\n" + b"".join(row_of(number, *message) for number, message in self._left()) + b".\r\n"

    def _answer(self, command):
        if command.decode() in self.refuses:
            return b"-ERR refused\r\n"
        word, _, argument = command.partition(b" ")
        if word == b"STAT":
            left = self._left()
            return b"+OK %d %d\r\n" % (len(left), sum(size_of(text) for _, (_, text) in left))
        if word == b"UIDL":
            return self._rows(lambda number, uid, text: b"%d %s\r\n" % (number, uid))
        if word == b"LIST":
            return self._rows(lambda number, uid, text: b"%d %d\r\n" % (number, size_of(text)))
        if word == b"RETR":
            return b"+OK\r\n" + lines_of(self.messages[int(argument) - 1][1])
        if word == b"DELE":
            self.marked.add(int(argument))
        elif word == b"RSET":
            self.marked.clear()
        elif word == b"QUIT":
            self.messages = [message for _, message in self._left()]
        return b"+OK\r\n"


class SocketServer(Server):
    """A server at a Unix socket with this path, as a tunnel has one."""

    def __init__(self, messages, path):
        super().__init__(messages)
        self.socket.close()
        self.socket = socket.socket(socket.AF_UNIX)
        self.socket.bind(str(path))
        self.socket.listen()
        self.socket.settimeout(programs.SECONDS)


class MeddlingServer(Server):
    """A server that calls `meanwhile` with each command before it answers."""

    def __init__(self, messages, meanwhile):
        super().__init__(messages)
        self.meanwhile = meanwhile

    def _answer(self, command):
        self.meanwhile(command.decode())
        return super()._answer(command)


class OtherSizes(Server):
    """A server that lists one octet more than each message has."""

    def _answer(self, command):
        if command == b"LIST":
            return self._rows(lambda number, uid, text: b"%d %d\r\n" % (number, size_of(text) + 1))
        return super()._answer(command)
