#!/usr/bin/env python3
"""Makes a record of getmail out of a file of unique-ids of mpop, so that nothing is fetched again.

Lines that begin with # come first. A list begins with a line of a space, the number of its unique-ids, a host and a user;
then comes that many lines with a unique-id each. If one line is anything else, the script says which and writes nothing.
mpop keeps no times, so now counts as the moment at which each message was first seen.
"""

import re
import sys

sys.dont_write_bytecode = True
from make_record import BadLine, chosen, is_legal, lines_of, run

HEAD = re.compile(rb" (\d{1,9}) (\S+) (.+)")


def read(content, now, username, account):
    """The unique-ids of the account's list."""
    lists, current, left, number = {}, {}, 0, 0
    for number, line in lines_of(content):
        if left:
            if not is_legal(line):
                raise BadLine(number)
            current[line] = now
            left -= 1
        elif head := HEAD.fullmatch(line):
            key = head[3], head[2]
            if key in lists:
                raise BadLine(number)
            current = lists[key] = {}
            left = int(head[1])
        elif lists or not line.startswith(b"#"):
            raise BadLine(number)
    if left:
        raise BadLine(number + 1)
    return chosen(lists, username, account)


if __name__ == "__main__":
    run(__doc__.splitlines()[0], "a file of unique-ids of mpop (lists of ids, each after a line ` NUMBER HOST USER`)", read, True)
