"""A relay between a client and a server of this machine, so that each octet comes later, as over a long line."""

import queue
import socket
import threading
import time

from harness.kernel import LOOPBACK

PIECE = 1 << 16


class Relay:
    """Passes connections on to a port. What is sent arrives half a round trip later, however much is under way."""

    def __init__(self, port, round_trip):
        self.server = LOOPBACK, port
        self.delay = round_trip / 2
        self.listener = socket.create_server((LOOPBACK, 0))
        self.port = self.listener.getsockname()[1]

    def __enter__(self):
        threading.Thread(target=self._accept, daemon=True).start()
        return self

    def __exit__(self, *_):
        self.listener.close()

    def _accept(self):
        while True:
            try:
                client, _ = self.listener.accept()
            except OSError:
                return
            server = socket.create_connection(self.server)
            for one in (client, server):
                one.setsockopt(socket.IPPROTO_TCP, socket.TCP_NODELAY, 1)
            for source, target in ((client, server), (server, client)):
                pieces = queue.SimpleQueue()
                threading.Thread(target=self._take, args=(source, pieces), daemon=True).start()
                threading.Thread(target=self._give, args=(pieces, target), daemon=True).start()

    def _take(self, source, pieces):
        piece = b"."
        while piece:
            try:
                piece = source.recv(PIECE)
            except OSError:
                piece = b""
            pieces.put((time.monotonic() + self.delay, piece))

    @staticmethod
    def _give(pieces, target):
        """Sends each piece at its time; an empty one is the end."""
        piece = b"."
        while piece:
            at, piece = pieces.get()
            time.sleep(max(0, at - time.monotonic()))
            try:
                target.sendall(piece) if piece else target.shutdown(socket.SHUT_WR)
            except OSError:
                return
