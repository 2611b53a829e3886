#!/usr/bin/env python3
"""A server that only writes prepared replies: what `popd` is measured against.

    prepared_server.py PORT_FILE FILE ..

Before it listens it makes the whole reply to each command for the files given, as messages 1, 2, ..; then it serves
one connection on loopback, whose port it writes into PORT_FILE, by looking up each line.
"""

import socket
import sys


def reply_to_retrieval(path):
    """The reply to RETR for the message in the file."""
    with open(path, "rb") as file:
        lines = file.read().split(b"\n")
    if lines[-1] == b"":
        lines.pop()
    body = b"".join((b"." if line.startswith(b".") else b"") + line + b"\r\n" for line in lines)
    return b"+OK %d octets\r\n" % sum(len(line) + 2 for line in lines) + body + b".\r\n"


def prepared(paths):
    """The reply to each command that the benchmark's client sends."""
    replies = {b"USER u": b"+OK send PASS\r\n", b"PASS sesame": b"+OK %d messages\r\n" % len(paths), b"QUIT": b"+OK bye\r\n"}
    for number, path in enumerate(paths, 1):
        replies[b"RETR %d" % number] = reply_to_retrieval(path)
    return replies


def serve(connection, replies):
    """Answers each line until the client ends."""
    connection.setsockopt(socket.IPPROTO_TCP, socket.TCP_NODELAY, 1)
    connection.sendall(b"+OK prepared\r\n")
    waiting = b""
    while piece := connection.recv(4096):
        waiting += piece
        while b"\r\n" in waiting:
            line, _, waiting = waiting.partition(b"\r\n")
            connection.sendall(replies[line])


def main():
    port_file, *paths = sys.argv[1:]
    replies = prepared(paths)
    with socket.create_server(("127.0.0.1", 0)) as listener:
        with open(port_file, "w") as file:
            file.write(f"{listener.getsockname()[1]}\n")
        connection, _ = listener.accept()
        with connection:
            serve(connection, replies)


if __name__ == "__main__":
    main()
