#!/usr/bin/env python3
"""Makes a record of getmail out of an oldmail file of getmail6, so that nothing is fetched again.

A line of an oldmail file is a unique-id, a NUL and the second since 1970 at which getmail6 first saw it. If one line is
anything else, the script says which and writes nothing.
"""

import sys

sys.dont_write_bytecode = True
from make_record import BadLine, is_legal, lines_of, run

GREATEST = 18_446_744_073_709_551_615


def read(content, now, *_):
    """The unique-ids of the file with the second at which each was first seen, each id once.

    A second of 0 says nothing about the message, so now takes its place: `delete_after` then counts from today.
    """
    seconds = {}
    for number, line in lines_of(content):
        uid, separator, second = line.partition(b"\0")
        if not (separator and is_legal(uid) and second.isdigit() and int(second) <= GREATEST):
            raise BadLine(number)
        seconds.setdefault(uid, int(second) or now)
    return seconds


if __name__ == "__main__":
    run(__doc__.splitlines()[0], "an oldmail file of getmail6 (unique-id, NUL, seconds since 1970)", read, False)
