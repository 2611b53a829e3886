"""A Maildir in a folder of its own, `popd` serving it over loopback, and a plain client that sees every octet."""

import contextlib
import os
import poplib
import re
import select
import socket
import struct
import subprocess
import tempfile
from pathlib import Path
from unittest import mock

from harness import kernel, programs
from harness.kernel import LOOPBACK

PORT_TRIES = 10
FAULT_AND_PEER = re.compile(rb"^popd: (.*)\npopd: warning: 127\.0\.0\.1:\d+: \1\n", re.MULTILINE)


class Maildir:
    """A Maildir with its password file beside it, removed with the `with` block."""

    def __init__(self, password=b"p\n", above=None):
        """With `above` it is in a folder in that one."""
        self.holder = tempfile.TemporaryDirectory(dir=above)
        self.folder = Path(self.holder.name) / "Maildir"
        for part in ("tmp", "new", "cur"):
            (self.folder / part).mkdir(parents=True)
        self.passfile = Path(self.holder.name) / "password"
        self.passfile.write_bytes(password)
        self.passfile.chmod(0o600)

    def __enter__(self):
        return self

    def __exit__(self, *_):
        self.holder.cleanup()

    def add(self, part, name, content):
        """Puts a file into `new`, `cur` or `tmp`, and answers its path."""
        path = os.path.join(os.fsencode(self.folder), part.encode(), os.fsencode(name))
        with open(path, "wb") as file:
            file.write(content)
        return path

    def names(self):
        """The names in `new` and `cur`, with their part."""
        return sorted((part, name) for part in ("new", "cur") for name in os.listdir(os.fsencode(self.folder / part)))


class Client:
    """A POP3 client over a plain socket; every wait has a bound."""

    def __init__(self, port):
        self.socket = socket.create_connection((LOOPBACK, port), timeout=programs.SECONDS)
        self.file = self.socket.makefile("rb")

    def __enter__(self):
        return self

    def __exit__(self, *_):
        self.close()

    def close(self):
        """Ends the connection in order."""
        self.file.close()
        self.socket.close()

    def reset(self):
        """Ends the connection by a reset."""
        self.socket.setsockopt(socket.SOL_SOCKET, socket.SO_LINGER, struct.pack("ii", 1, 0))
        self.close()

    def give(self, octets):
        self.socket.sendall(octets)

    def line(self):
        """The next line of an answer, up to its LF."""
        return self.file.readline()

    def ask(self, command):
        """Sends a command and answers the first line that comes."""
        self.give(command + b"\r\n")
        return self.line()

    def ask_lines(self, command):
        """Sends a command whose positive answer has a body, and answers all its octets."""
        got = [self.ask(command)]
        while got[0].startswith(b"+OK") and got[-1] != b".\r\n":
            got.append(self.line())
            if not got[-1]:
                raise AssertionError(f"the connection ended in the answer to {command!r}: {got[-3:]}")
        return b"".join(got)

    def rest(self):
        """All that comes until the server ends the connection."""
        return self.file.read()

    def rest_or_reset(self):
        """The same if the server may have left lines of ours unread, so that the connection ends by a reset."""
        got = b""
        with contextlib.suppress(ConnectionResetError):
            while piece := self.socket.recv(65536):
                got += piece
        return got

    def log_in(self):
        """Reads the greeting and logs in; the answer to PASS."""
        if self.line() != b"+OK popd ready\r\n" or self.ask(b"USER u") != b"+OK send PASS\r\n":
            raise AssertionError("no greeting, or USER was refused")
        return self.ask(b"PASS p")


class Service:
    """`popd --listen` over a Maildir, for one user; killed at the end of the `with` block if it still runs.

    No connection is spent on finding out whether the server listens: the kernel's table of sockets shows it.
    """

    def __init__(self, maildir, *words, user="u", closed=(), by=(), **environment):
        """With `closed` it is started with these of its standard files closed; with `by`, by these words."""
        self.maildir = maildir
        self.by = by
        self.words = words
        self.user = user
        self.closed = closed
        self.environment = environment

    def __enter__(self):
        for _ in range(PORT_TRIES):
            self.port = kernel.free_port()
            command = [*self.by, programs.path_of("popd"), "--listen", f"{LOOPBACK}:{self.port}", *self.words, self.user,
                       self.maildir.passfile, self.maildir.folder]
            self.process = subprocess.Popen(
                programs.with_closed(self.closed, command), env=programs.environment(**self.environment),
                stdin=subprocess.DEVNULL, stdout=subprocess.DEVNULL, stderr=subprocess.PIPE)
            if kernel.wait_for_listener(self.process, self.port):
                return self
            self.__exit__()
        raise AssertionError(f"popd listens on none of {PORT_TRIES} ports")

    def __exit__(self, *_):
        self.process.kill()
        self.process.wait()
        self.process.stderr.close()

    def client(self):
        return Client(self.port)

    def library_client(self):
        """Python's own POP3 client, logged in."""
        client = poplib.POP3(LOOPBACK, self.port, timeout=programs.SECONDS)
        client.user("u")
        client.pass_("p")
        return client

    def peak_of_memory(self):
        """The most memory that the server has had so far, in octets."""
        return kernel.peak_of_memory(self.process.pid)

    def has_told(self, seconds=0):
        """True if it has written to standard error, now or within some seconds."""
        return bool(select.select([self.process.stderr], [], [], seconds)[0])

    def finish(self):
        """Waits until the server ends by itself; its status and what it wrote to standard error."""
        _, err = self.process.communicate(timeout=programs.SECONDS)
        return self.process.returncode, err

    def finish_after_faults(self):
        """The same, without the warning that names the connection after each fault of one."""
        status, err = self.finish()
        return status, FAULT_AND_PEER.sub(rb"popd: \1\n", err)


def long_lines_allowed():
    """Lets Python's client take lines of any length, which it otherwise refuses past 2,048 octets."""
    return mock.patch.object(poplib, "_MAXLINE", 1 << 24)
