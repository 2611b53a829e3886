"""Runs of `getmail` on a terminal, and what it shows then."""

import contextlib
import os
import pty
import re
import subprocess

from harness import programs

# The line of progress, which the terminal isn't to wrap, and what erases it.
LINE = re.compile(rb"\r\x1b\[\?7l([^\x1b]*)\x1b\[K\x1b\[\?7h")
ERASED = b"\r\x1b[K"

# An octet that is shown, or one of the sequences of that line.
PIECE = re.compile(rb"\x1b\[(?:\?7[lh]|K)|.", re.DOTALL)

# What the line says.
TEXT = re.compile(rb"message (\d+) of (\d+)(?:, (\d+(?:\.\d)?) of (\d+(?:\.\d)?) ([kM])B)?")


def told_in(found):
    """The message, the total, how many octets have come and the size, as its words have them; 0 for what isn't told."""
    unit = {None: 0, b"k": 1_000, b"M": 1_000_000}[found[5]]
    return int(found[1]), int(found[2]), *(round(float(part or 0) * unit) for part in found.group(3, 4))


def screen_of(octets, width=200):
    """What the lines of a terminal of so many columns show after these octets."""
    lines, column, wraps = [b""], 0, True
    for piece in PIECE.findall(octets):
        if piece == b"\r":
            column = 0
        elif piece == b"\n":
            lines.append(b"")
        elif piece == b"\x1b[K":
            lines[-1] = lines[-1][:min(column, width - 1)]
        elif piece in (b"\x1b[?7l", b"\x1b[?7h"):
            wraps = piece.endswith(b"h")
        else:
            if column == width and wraps:
                lines.append(b"")
                column = 0
            column = min(column, width - 1)
            line = lines[-1].ljust(column)
            lines[-1] = line[:column] + piece + line[column + 1:]
            column += 1
    return [line.rstrip() for line in lines]


def run(account, *words, both=False, **changes):
    """A run whose standard error, or both outputs, are a terminal: the status, standard output, the terminal's octets."""
    ours, theirs = pty.openpty()
    with open(ours, "rb", buffering=0) as terminal:
        process = subprocess.Popen([programs.path_of("getmail"), *words], stdin=subprocess.DEVNULL,
                                   stdout=theirs if both else subprocess.PIPE, stderr=theirs,
                                   env=programs.environment(HOME=str(account.home), **changes))
        os.close(theirs)
        shown = b""
        # Once the other end is closed, reading is refused.
        with contextlib.suppress(OSError):
            while piece := terminal.read(65536):
                shown += piece
    out, _ = process.communicate(timeout=programs.SECONDS)
    return process.returncode, out or b"", shown
