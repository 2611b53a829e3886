"""What the bytes of a record's file stand for, written from the grammar of the file alone.

    file    = header *row *(group / intent)
    header  = "getmail-seen " version LF        version is 1 or 2
    row     = id SP second SP ("0" / "1") LF    1 if the message was delivered
    group   = "+ " N LF, and then N rows        N is 1 to 100000
    intent  = "! " id SP start SP length LF     in version 2

An id has 1 to 70 octets from `!` to `~`, and numbers are decimals of 64 bits without leading zeros. The first rows have
distinct ids. A row of a group has a new id, or repeats one with the same second, now delivered; in version 1 only one
that wasn't delivered before. The id of an intent has a row. A whole group ends the intent, and only then may another
one be opened. What an append cut short can leave counts for nothing: a last line without its LF, and a last group
that lacks rows, whose rows have to be good nevertheless. No bytes at all are the empty record.

A file is to be written anew before anything is appended to it if it is of version 1, has such an end or an open intent,
or if it has more than 65,536 octets and what follows the first rows has more octets than these rows.
"""

import re
from dataclasses import dataclass

HEADERS = {b"getmail-seen 1\n": 1, b"getmail-seen 2\n": 2}
ID = rb"([!-~]{1,70})"
NUMBER = rb"(0|[1-9][0-9]*)"
ROW = re.compile(ID + rb" " + NUMBER + rb" ([01])")
GROUP = re.compile(rb"\+ ([1-9][0-9]*)")
INTENT = re.compile(rb"! " + ID + rb" " + NUMBER + rb" " + NUMBER)
MOST_ROWS = 100_000
SMALL = 65_536


class Fault(Exception):
    """The first line that isn't as the grammar says, counted from 1."""

    BAD_HEADER = "not a record of this version"
    BAD_ROW = "line {} is no row"
    REPEATED_ID = "line {} repeats an id"

    def __init__(self, text, number=1):
        super().__init__(text.format(number))
        self.number = number


@dataclass
class Record:
    """Rows from id to second and state, the open intent's id, start and length, and whether the file is to be rewritten."""

    rows: dict
    intent: tuple | None
    is_rewritten: bool

    def file(self):
        """The record as a file without groups: version 2, the open intent last."""
        lines = [b"getmail-seen 2\n", *(b"%b %b %b\n" % (uid, *row) for uid, row in self.rows.items())]
        if self.intent:
            lines.append(b"! %b %b %b\n" % self.intent)
        return b"".join(lines)


def fitting(pattern, line):
    """The fields of a line of this form, if the numbers after its id are of 64 bits; else None."""
    found = pattern.fullmatch(line)
    if found is None or any(int(number) >= 2**64 for number in found.groups()[1:]):
        return None
    return found.groups()


def row_in(line):
    return fitting(ROW, line)


def intent_in(line):
    return fitting(INTENT, line)


def count_in(line):
    """How many rows the group has that this line begins, or None."""
    found = GROUP.fullmatch(line)
    return int(found[1]) if found and int(found[1]) <= MOST_ROWS else None


def is_outgrown(data, header, first_rows):
    """Whether a large file has more octets after its first rows than in them."""
    octets = sum(len(line) + 1 for line in first_rows)
    return len(data) > SMALL and len(data) - len(header) - octets > octets


def base_rows(lines):
    """The rows after the header."""
    rows = {}
    for number, line in enumerate(lines, 2):
        fields = row_in(line)
        if fields is None:
            break
        if fields[0] in rows:
            raise Fault(Fault.REPEATED_ID, number)
        rows[fields[0]] = fields[1:]
    return rows


def grown(version, rows, group, number):
    """The rows with those of a group, which begin on the line of this number."""
    rows = dict(rows)
    for place, line in enumerate(group, number):
        fields = row_in(line)
        if fields is None:
            raise Fault(Fault.BAD_ROW, place)
        uid, second, state = fields
        if uid in rows:
            was_second, was_state = rows[uid]
            if state != b"1" or second != was_second or (version == 1 and was_state == b"1"):
                raise Fault(Fault.REPEATED_ID, place)
        rows[uid] = (second, state)
    return rows


def record_of(data):
    """The record that these bytes stand for; raises a Fault if they stand for none."""
    if not data:
        return Record({}, None, False)
    header = data[:data.find(b"\n") + 1]
    version = HEADERS.get(header)
    if version is None:
        raise Fault(Fault.BAD_HEADER)
    *lines, torn_line = data[len(header):].split(b"\n")
    rows = base_rows(lines)
    outgrown = is_outgrown(data, header, lines[:len(rows)])
    intent, is_torn, at = None, bool(torn_line), len(rows)
    while at < len(lines):
        line, count = lines[at], count_in(lines[at])
        opened = intent_in(line) if version == 2 and intent is None else None
        if count is not None:
            group = lines[at + 1:at + 1 + count]
            whole = grown(version, rows, group, at + 3)
            if len(group) == count:
                rows, intent = whole, None
            else:
                is_torn = True
            at += 1 + count
        elif opened is not None and opened[0] in rows:
            intent = opened
            at += 1
        else:
            raise Fault(Fault.BAD_ROW, at + 2)
    return Record(rows, intent, version == 1 or is_torn or intent is not None or outgrown)
