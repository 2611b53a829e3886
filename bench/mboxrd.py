#!/usr/bin/env python3
"""Measures quoting and reading of mboxrd files of 64 MiB beside `sed` over the same octets.

`sed` puts a `>` before the lines that quoting marks; for reading it removes it and drops the `From ` lines. It writes
the result; the program keeps it in memory. Prints ratios of processor time and of memory.

Usage: bench/mboxrd.py [FOLDER]; the files are made in FOLDER.
"""

import os
import sys
import tempfile
from pathlib import Path

from measure import MEBIBYTE, cost_of, print_head, print_row, small_program

PROGRAM = small_program("probe")
SEPARATOR = b"From MAILER-DAEMON Thu Jan  1 00:00:00 1970\n"
SIZE = 64 * MEBIBYTE
RUNS = 5
# The peaks of all runs.
memory = []
# A part that is repeated to make a text, and the same part as it is in an entry.
LONG = b"x" * 69 + b"\n"
LINES = {
    "lines of 70 octets": (LONG, LONG),
    "every tenth line marked": (LONG * 9 + b">>From x\n", LONG * 9 + b">>>From x\n"),
    "all lines marked": (b"From x\n", b">From x\n"),
    "all lines empty": (b"\n", b"\n"),
}


def least(words, given):
    """The least processor time of several runs, and the greatest peak of memory."""
    costs = [cost_of(words, given) for _ in range(RUNS)]
    return min(cost.processor for cost in costs), max(cost.memory for cost in costs)


def cells_of(ours, theirs):
    """The cells of a row for one of the two: the time, and its ratio to `sed`'s. Keeps the memory peak for the end."""
    memory.append(ours[1])
    return f"{ours[0] * 1000:.0f} ms", f"{ours[0] / theirs[0]:.2f}"


def write(path, part):
    """Fills a file by one part again and again. A whole file isn't kept here: the measured programs begin as copies of
    this process, and their peak would be its size."""
    parts = part * max(1, MEBIBYTE // len(part))
    with open(path, "wb") as file:
        while file.tell() + len(parts) <= SIZE:
            file.write(parts)


def measure_quoting(path):
    ours = least([PROGRAM, "quote", str(path), "1"], os.devnull)
    return cells_of(ours, least(["sed", "-e", "s/^>*From />&/"], path))


def measure_reading(path):
    ours = least([PROGRAM, "texts", str(path), "1"], os.devnull)
    return cells_of(ours, least(["sed", "-e", "/^From /d", "-e", r"s/^>\(>*From \)/\1/"], path))


def main():
    where = sys.argv[1] if len(sys.argv) > 1 else "."
    os.environ["LC_ALL"] = "C"
    with tempfile.TemporaryDirectory(prefix="mboxrd-", dir=where) as folder:
        path = Path(folder) / "text"
        print_head("text", "quoting", "of `sed`'s time", "reading", "of `sed`'s time")
        for texts, (lines, quoted) in LINES.items():
            write(path, lines)
            quoting = measure_quoting(path)
            write(path, SEPARATOR + quoted * max(1, 2048 // len(quoted)) + b"\n")
            print_row(texts, *quoting, *measure_reading(path))
        with open(path, "wb") as file:
            for _ in range(SIZE // MEBIBYTE - 1):
                file.write(b"x" * MEBIBYTE)
            file.write(b"\n")
        print_row("one line", *measure_quoting(path), "", "")
    print(f"memory: at most {max(memory) / SIZE:.2f} times the file")


if __name__ == "__main__":
    main()
