"""A POP3 server for any number of clients at once, over loopback, each in a thread of its own."""

import socket
import threading
import time

from getmail.server import Cut, lines_of, size_of
from harness import programs
from harness.kernel import LOOPBACK


def at_once(_, say, octets):
    """A `give` that sends all octets."""
    say(octets)


class Moment:
    """A moment in the sessions of a server: it has heard so many commands, and begun so many pieces of texts. Then it waits."""

    def __init__(self, steps):
        self.left = steps
        self.is_over = False
        self.changed = threading.Condition()

    def step(self):
        with self.changed:
            self.left -= 1
            self.changed.notify_all()
            if self.left <= 0:
                self.changed.wait_for(lambda: self.is_over, programs.SECONDS)

    def wait(self, *processes):
        """Waits for it, or until the processes have ended."""
        with self.changed:
            while self.left > 0 and any(process.poll() is None for process in processes):
                self.changed.wait(0.01)

    def end(self):
        """The server goes on."""
        with self.changed:
            self.is_over = True
            self.changed.notify_all()


class SharedServer:
    """The messages, as pairs of a unique-id and a text whose lines end in LF.

    Each session has the messages that were there when it began, and its QUIT removes those that it marked, as RFC 1939
    has it. The reply to RETR goes out by `give`, which gets the session's number, counted from 1, a function that
    sends octets, and the octets; it may wait, send them in parts, or raise `Cut`.
    """

    def __init__(self, messages=()):
        self.messages = list(messages)
        self.give = at_once
        self.step = lambda: None
        self.commands = {}
        self.began = 0
        self.running = 0
        self.ended = threading.Condition()
        self.wire = {}
        self.socket = socket.create_server((LOOPBACK, 0), backlog=16)
        self.port = self.socket.getsockname()[1]
        self.accepting = threading.Thread(target=self._accept, daemon=True)
        self.accepting.start()

    def __enter__(self):
        return self

    def __exit__(self, *_):
        self.close()

    def close(self):
        """Takes no further client. The thread that waits for one has to end before the socket's number is free again."""
        self.socket.shutdown(socket.SHUT_RDWR)
        self.accepting.join(programs.SECONDS)
        self.socket.close()

    def wait_for_end(self):
        """Waits until no session is under way."""
        with self.ended:
            if not self.ended.wait_for(lambda: self.running == 0, programs.SECONDS):
                raise AssertionError("a session of the server didn't end")

    def moment(self, steps, pieces=4, pause=0):
        """A moment that comes after so many steps from now on; each text goes out in so many pieces, with pauses of so many
        seconds before them."""
        moment = Moment(steps)

        def give(_, say, octets):
            step = -(-len(octets) // pieces)
            for place in range(0, len(octets), step):
                moment.step()
                time.sleep(pause)
                say(octets[place:place + step])

        self.step, self.give = moment.step, give
        return moment

    def forget(self):
        """The next session is the first one again."""
        self.began = 0
        self.commands = {}

    def _accept(self):
        while True:
            try:
                client, _ = self.socket.accept()
            except OSError:
                return
            with self.ended:
                self.running += 1
                self.began += 1
            threading.Thread(target=self._serve, args=(client, self.began), daemon=True).start()

    def _serve(self, client, session):
        try:
            client.settimeout(programs.SECONDS)
            client.setsockopt(socket.IPPROTO_TCP, socket.TCP_NODELAY, 1)
            with client, client.makefile("rb") as given:
                self._converse(client, session, given)
        except (Cut, OSError):
            pass
        finally:
            with self.ended:
                self.running -= 1
                self.ended.notify_all()

    def _converse(self, client, session, given):
        messages, marked = list(self.messages), set()
        commands = self.commands.setdefault(session, [])
        client.sendall(b"+OK ready\r\n")
        for line in given:
            if not line.endswith(b"\r\n"):
                # A command whose sending was cut.
                return
            word, _, argument = line.removesuffix(b"\r\n").partition(b" ")
            commands.append(line.removesuffix(b"\r\n").decode())
            self.step()
            if word == b"RETR":
                self.give(session, client.sendall, b"+OK\r\n" + self._of(messages[int(argument) - 1][1])[0])
                continue
            if word == b"DELE":
                marked.add(messages[int(argument) - 1][0])
            elif word == b"RSET":
                marked.clear()
            elif word == b"QUIT":
                self.messages = [message for message in self.messages if message[0] not in marked]
            client.sendall(b"+OK" + self._listing(word, messages))
            if word == b"QUIT":
                return

    def _of(self, text):
        """A text on the wire, and its size; kept, since they are asked for again and again."""
        if text not in self.wire:
            self.wire[text] = lines_of(text), size_of(text)
        return self.wire[text]

    def _listing(self, word, messages):
        if word == b"STAT":
            return b" %d %d\r\n" % (len(messages), sum(self._of(text)[1] for _, text in messages))
        if word == b"UIDL":
            return b"\r\n" + b"".join(b"%d %s\r\n" % (k, uid) for k, (uid, _) in enumerate(messages, 1)) + b".\r\n"
        if word == b"LIST":
            rows = (b"%d %d\r\n" % (k, self._of(text)[1]) for k, (_, text) in enumerate(messages, 1))
            return b"\r\n" + b"".join(rows) + b".\r\n"
        return b"\r\n"
