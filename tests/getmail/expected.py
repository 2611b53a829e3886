"""What `getmail --rehearse` must write for any standard input, computed from the whole input.

The rules are those that `conversations.py` names. Here they are applied to any bytes, so that a random conversation has
its exact answer too.
"""

import re

from getmail import conversations as known

STATUS = re.compile(rb"(\+OK|-ERR) ?(.*)", re.DOTALL)
STAT_REST = re.compile(rb" *([0-9]{1,20}) +([0-9]{1,20})(?![0-9])")
UIDL_ROW = re.compile(rb" *([0-9]{1,20}) +([\x21-\x7e]{1,70}) *")
NUMBER_LIMIT = 2 ** 32
SIZE_LIMIT = 2 ** 64


class Cut(Exception):
    """The fault that ends a conversation."""

    def __init__(self, fault):
        super().__init__(fault)
        self.fault = fault


class Input:
    """The bytes that the server says, and the place up to which they are used."""

    def __init__(self, given):
        self.given = given
        self.place = 0

    def line(self):
        """The next line without its end; cut if it is too long or not there."""
        end = self.given.find(b"\r\n", self.place, self.place + known.LINE_LIMIT)
        if end < 0:
            whole = len(self.given) - self.place >= known.LINE_LIMIT
            raise Cut(known.TOO_LONG if whole else known.ENDED_EARLY)
        line = self.given[self.place:end]
        self.place = end + 2
        return line

    def first_line(self):
        """The rest of a positive first line."""
        match = STATUS.fullmatch(self.line())
        if not match:
            raise Cut(known.NOT_UNDERSTOOD)
        if match[1] == b"-ERR":
            raise Cut(known.REFUSED)
        return match[2]

    def rows(self, read_row):
        """The rows of a listing, each read when it is whole."""
        rows = []
        while (line := self.line()) != b".":
            if len(rows) == known.ROW_LIMIT:
                raise Cut(known.TOO_MANY)
            rows.append(read_row(line[1:] if line.startswith(b".") else line))
        return rows

    def text(self):
        """The text of a message."""
        last = self.place + known.BODY_LIMIT
        # A first line comes before the body, so that the CR LF before its mark is there for an empty one too.
        mark = self.given.find(b"\r\n.\r\n", self.place - 2, last)
        if mark < 0:
            raise Cut(known.TEXT_TOO_LONG if len(self.given) >= last else known.ENDED_EARLY)
        lines = self.given[self.place:mark + 2].split(b"\r\n")[:-1]
        self.place = mark + 5
        return b"".join((line[1:] if line.startswith(b".") else line) + b"\n" for line in lines)


def two_numbers(rest, fault):
    """A number and a size, in the form of STAT's rest and of a row of LIST."""
    match = STAT_REST.match(rest)
    if not match or int(match[1]) >= NUMBER_LIMIT or int(match[2]) >= SIZE_LIMIT:
        raise Cut(fault)
    return int(match[1]), int(match[2])


def size_row(row):
    return two_numbers(row, known.BAD_LISTING)


def uid_row(row):
    match = UIDL_ROW.fullmatch(row)
    if not match or int(match[1]) >= NUMBER_LIMIT:
        raise Cut(known.BAD_LISTING)
    return int(match[1]), match[2]


def items_of(count, rows):
    """What the rows say of the messages 1 to `count`, in order."""
    if sorted(number for number, _ in rows) != list(range(1, count + 1)):
        raise Cut(known.LISTINGS_DISAGREE)
    return [said for _, said in sorted(rows, key=lambda row: row[0])]


def fetch(server, sent, stored):
    """The conversation: notes each command in `sent`, and each id and text in `stored`."""
    server.first_line()
    for command in ("USER u", "PASS *", "STAT"):
        sent.append(command)
        rest = server.first_line()
    count, _ = two_numbers(rest, known.NOT_UNDERSTOOD)
    if count > known.ROW_LIMIT:
        raise Cut(known.TOO_MANY)
    sent.append("UIDL")
    server.first_line()
    uids = server.rows(uid_row)
    sent.append("LIST")
    server.first_line()
    sizes = server.rows(size_row)
    uids, _ = items_of(count, uids), items_of(count, sizes)
    held = set()
    for number, uid in enumerate(uids, 1):
        if uid in held:
            continue
        held.add(uid)
        sent.append(f"RETR {number}")
        server.first_line()
        stored.append((uid, server.text()))
    sent.append("QUIT")
    server.first_line()


def answer(given):
    """What is to be written to standard output, and the status."""
    sent, stored = [], []
    last, status = "ended", 0
    try:
        fetch(Input(given), sent, stored)
    except Cut as cut:
        if cut.fault == known.REFUSED and sent[-1:] != ["QUIT"]:
            sent.append("QUIT")
        last, status = f"cut {cut.fault}", 1
    lines = [b"stored %s %d" % (uid, len(text)) for uid, text in stored]
    return known.printed(sent, *lines, last), status
