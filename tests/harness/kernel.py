"""What the kernel says about a running program, so that no connection is spent on finding it out, and no time."""

import contextlib
import ctypes
import fcntl
import os
import socket
import sys
import termios
import time
from pathlib import Path

LOOPBACK = "127.0.0.1"
SECONDS_TO_LISTEN = 60
_LOOPBACK_IN_TABLE = "0100007F"
_LISTENING = "0A"
_RENAMEAT2 = ctypes.CDLL(None).renameat2
_AT_FDCWD, _RENAME_EXCHANGE = -100, 2


def exchange(one, other):
    """Exchanges two names at once. If one isn't there, both are left alone."""
    _RENAMEAT2(_AT_FDCWD, os.fsencode(one), _AT_FDCWD, os.fsencode(other), _RENAME_EXCHANGE)


def free_port(ports=(0,)):
    """A port of loopback that nobody has now, one of these if any are given."""
    for port in ports:
        with socket.socket() as probe, contextlib.suppress(OSError):
            probe.bind((LOOPBACK, port))
            return probe.getsockname()[1]
    raise AssertionError("each port is taken")


def listens(port):
    """True if a socket of loopback listens on the port."""
    wanted = f"{_LOOPBACK_IN_TABLE}:{port:04X}"
    rows = (row.split() for row in Path("/proc/net/tcp").read_text().splitlines()[1:])
    return any(row[1] == wanted and row[3] == _LISTENING for row in rows)


def wait_for_listener(process, port):
    """Waits until a socket of loopback listens on the port; False if the process ended first, or if it took too long."""
    deadline = time.monotonic() + SECONDS_TO_LISTEN
    while process.poll() is None and time.monotonic() < deadline:
        if listens(port):
            return True
        time.sleep(0.005)
    return False


def octets_of(end, queue):
    """How many octets wait in a queue of a socket or a pipe."""
    return int.from_bytes(fcntl.ioctl(end, queue, bytes(4)), sys.byteorder)


def wait_for(happened, fault):
    """Waits until something has happened that the kernel tells nobody; if it doesn't, the fault is told."""
    deadline = time.monotonic() + SECONDS_TO_LISTEN
    while not happened():
        if time.monotonic() > deadline:
            raise AssertionError(fault)
        time.sleep(0.001)


def wait_until_taken(connection):
    """Waits until all that was written to a connection is where the program at its other end reads it."""
    wait_for(lambda: octets_of(connection, termios.TIOCOUTQ) == 0, "the other end of a connection takes nothing")


def _state_of(process):
    return Path(f"/proc/{process}/stat").read_text().rpartition(")")[2].split()[0]


def wait_for_state(process, state):
    """Waits until the process of that number is in this state, `S` while it waits and `T` while it is stopped."""
    wait_for(lambda: _state_of(process) == state, f"process {process} is never in state {state}")


def is_tmpfs(path):
    """True if a tmpfs is mounted at the path."""
    rows = (row.split() for row in Path("/proc/mounts").read_text().splitlines())
    return any(row[1] == path and row[2] == "tmpfs" for row in rows)


def processor_time(process):
    """The processor time that the running process of that number has taken so far, in seconds; it has one thread."""
    return int(Path(f"/proc/{process}/schedstat").read_text().split()[0]) / 1e9


def peak_of_memory(process):
    """The most memory that the running process of that number has had so far, in octets."""
    status = Path(f"/proc/{process}/status").read_text()
    return int(status.split("VmHWM:")[1].split()[0]) * 1024
