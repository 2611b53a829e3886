#!/usr/bin/env python3
"""Makes a record of getmail out of fetchmail's file of unique-ids, so that nothing is fetched again.

Each line is USER@HOST, a space and a unique-id; HOST is the name after `poll`. If one line is anything else, the script
says which and writes nothing. fetchmail keeps no times, so now counts as the moment at which each message was first seen.
"""

import sys

sys.dont_write_bytecode = True
from make_record import BadLine, chosen, is_legal, lines_of, run


def read(content, now, username, account):
    """The unique-ids of the account's lines."""
    lists = {}
    for number, line in lines_of(content):
        who, _, uid = line.rpartition(b" ")
        user, _, host = who.rpartition(b"@")
        if not (user and host and is_legal(uid)):
            raise BadLine(number)
        lists.setdefault((user, host), {})[uid] = now
    return chosen(lists, username, account)


if __name__ == "__main__":
    run(__doc__.splitlines()[0], "fetchmail's file of unique-ids (USER@HOST, a space, a unique-id)", read, True)
