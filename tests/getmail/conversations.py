"""Conversations for `getmail --rehearse`: what the server says, and what the program has to write.

Every expected line is worked out by hand from the rules of the wire:

- A line ends only at CR LF; a first line or a listing row has at most 2,048 octets with it.
- A first line begins with `+OK` or `-ERR`. STAT's rest is `count total`, a row of UIDL `number id`, one of LIST
  `number size`; the fields are separated by spaces, and anything but a digit may follow `total` and `size`.
- The commands are sent in one order, each once the previous reply was positive and complete. The first fault ends the
  conversation: after a refused command QUIT is sent and one reply line read (nothing after a refused QUIT); after
  any other fault nothing is sent.
"""

from dataclasses import dataclass

COMMANDS = ("USER u", "PASS *", "STAT", "UIDL", "LIST", "RETR 1", "QUIT")

# The faults, by the numbers that `cut` shows.
ENDED_EARLY, READ_FAILED, TOO_LONG, NOT_UNDERSTOOD, REFUSED = 1, 2, 4, 5, 6
BAD_LISTING, LISTINGS_DISAGREE, TOO_MANY, TEXT_TOO_LONG, NO_MEMORY = 7, 8, 9, 10, 13

LINE_LIMIT = 2048
ROW_LIMIT = 100_000
BODY_LIMIT = 268_435_456


@dataclass(frozen=True)
class Conversation:
    """Standard input, and the standard output and the status that must result from it."""

    name: str
    given: bytes
    printed: bytes
    status: int


def wire(*lines):
    """The lines as they are on the wire, each ended by CR LF."""
    return b"".join(as_bytes(line) + b"\r\n" for line in lines)


def as_bytes(text):
    return text.encode("latin-1") if isinstance(text, str) else text


def printed(commands, *last):
    """What the program writes: the commands that it sent, then its last lines."""
    return b"".join(as_bytes(line) + b"\n" for line in [*(f"C: {command}" for command in commands), *last])


# The replies of one whole conversation: to the greeting, then to each of COMMANDS.
GREETING, USER, PASS, STAT, UIDL, LIST, RETR, QUIT = range(8)
REPLIES = (
    wire("+OK hi"),
    wire("+OK"),
    wire("+OK"),
    wire("+OK 1 18"),
    wire("+OK", "1 a1", "."),
    wire("+OK", "1 18", "."),
    wire("+OK", "Subject: a", "", "..x", "."),
    wire("+OK bye"),
)
PLACES = ("greeting", "USER", "PASS", "STAT", "UIDL", "LIST", "RETR", "QUIT")


def replies(**changed):
    """The replies of the whole conversation with some of them changed, as one string of bytes."""
    return b"".join(changed.get(place, reply) for place, reply in zip(PLACES, REPLIES))


def up_to(place, instead):
    """The replies before `place`, and then `instead`."""
    return b"".join(REPLIES[:place]) + instead


def ended(name, given, uid="a1", length=15):
    """A complete conversation with one message."""
    return Conversation(name, given, printed(COMMANDS, b"stored " + as_bytes(uid) + f" {length}".encode(), "ended"), 0)


def empty(name, given):
    """A complete conversation over an empty maildrop."""
    return Conversation(name, given, printed([*COMMANDS[:LIST], "QUIT"], "ended"), 0)


def cut(name, given, place, fault):
    """A conversation that is cut by `fault` in the reply at `place`, with the tail that the fault asks for.

    If only QUIT's reply is missing, the message is stored.
    """
    tail = ["QUIT"] if fault == REFUSED and place != QUIT else []
    stored = ["stored a1 15"] if place == QUIT else []
    return Conversation(name, given, printed([*COMMANDS[:place], *tail], *stored, f"cut {fault}"), 1)


def whole_conversations():
    """Conversations that end well."""
    yield ended("one message", replies())
    yield ended("octets after the last reply", replies() + wire("+OK more") * 3)
    yield empty("no message", replies(STAT=wire("+OK 0 0"), UIDL=wire("+OK", "."), LIST=wire("+OK", "."), RETR=b""))
    yield empty("no message, and a total all the same",
                replies(STAT=wire("+OK 0 9"), UIDL=wire("+OK", "."), LIST=wire("+OK", "."), RETR=b""))
    for rest in ("", " ", "x", "AY", "-ERR", " \0\1", " \xe4\xff", " a\rb\nc", "\r", "\n", " \t"):
        first = wire("+OK" + rest)
        yield ended(f"positive first lines with the rest {rest!r}",
                    replies(greeting=first, USER=first, PASS=first, UIDL=first + wire("1 a1", "."),
                            LIST=first + wire("1 18", "."), RETR=first + wire("x", "."), QUIT=first), length=2)


def several_conversations():
    """Conversations with several messages: rows in any order, an id that occurs twice, one of them refused."""
    commands = [*COMMANDS[:LIST]]
    opening = up_to(STAT, wire("+OK 3 17", "+OK", "3 c", "1 a", "2 b", ".", "+OK", "2 5", "3 7", "1 5", "."))
    texts = [wire("+OK", text, ".") for text in ("one", "two", "three")]
    fetched = [f"RETR {number}" for number in (1, 2, 3)]
    stored = ["stored a 4", "stored b 4", "stored c 6"]
    yield Conversation("three messages", opening + b"".join(texts) + wire("+OK"),
                       printed([*commands, *fetched, "QUIT"], *stored, "ended"), 0)
    yield Conversation("three messages, the second refused", opening + texts[0] + wire("-ERR no", "+OK"),
                       printed([*commands, *fetched[:2], "QUIT"], stored[0], f"cut {REFUSED}"), 1)
    yield Conversation("three messages, cut in the second", opening + texts[0] + b"+OK\r\ntw",
                       printed([*commands, *fetched[:2]], stored[0], f"cut {ENDED_EARLY}"), 1)
    twice = up_to(STAT, wire("+OK 2 10", "+OK", "1 x", "2 x", ".", "+OK", "1 5", "2 5", "."))
    yield Conversation("one id at two messages", twice + texts[0] + wire("+OK"),
                       printed([*commands, "RETR 1", "QUIT"], "stored x 4", "ended"), 0)


def messages():
    """The body of RETR's reply as it is on the wire, and the text's length."""
    return (
        ("no line", b"", 0),
        ("an empty line", b"\r\n", 1),
        ("a single dot", b"..\r\n", 2),
        ("a dot and a letter, doubled", b"..x\r\n", 3),
        ("a dot and a letter, not doubled", b".x\r\n", 2),
        ("three dots", b"...\r\n", 3),
        ("a CR before the end", b"a\r\r\n", 3),
        ("lone line feeds round a dot", b"a\n.\nb\r\n", 6),
        ("a dot between a line feed and CR LF", b"a\n.\r\n", 4),
        ("a dot between a CR and CR LF", b"a\r.\r\n", 4),
        ("a line feed first, then a dot", b"\n.\r\n", 3),
        ("a dot, a CR and a letter", b".\rx\r\n", 3),
        ("a dot and a CR", b".\r\r\n", 2),
        ("a dot and a line feed", b".\n\r\n", 2),
        ("a dot and a space", b". \r\n", 2),
        ("CRs alone", b"\r\r\r\r\n", 4),
        ("NUL and octets beyond ASCII", bytes(range(0, 10)) + bytes(range(128, 256)) + b"\r\n", 139),
        ("a refusal's words in a line", b"-ERR no\r\n+OK\r\n", 12),
        ("a line longer than a reply line may be", b"y" * 5000 + b"\r\n", 5001),
        ("lines with every length about that of a buffer",
         b"".join(b"z" * length + b"\r\n" for length in range(4085, 4105)), sum(range(4086, 4106))),
        ("dots about the end of a buffer", b"".join(b"." * length + b"\r\n" for length in range(2, 131)),
         sum(range(2, 131))),
        ("four thousand empty lines", b"\r\n" * 4000, 4000),
    )


def message_conversations():
    """Messages whose length shows how their lines were read."""
    for name, body, length in messages():
        yield ended(f"message: {name}", replies(RETR=wire("+OK") + body + wire(".")), length=length)


def refused_conversations():
    """Each reply in turn is negative; the tail's own reply may be anything."""
    for place, name in enumerate(PLACES):
        rest = wire("+OK bye") if place != QUIT else b""
        yield cut(f"{name} refused", up_to(place, wire("-ERR no") + rest), place, REFUSED)
        yield cut(f"{name} refused with a word stuck to it", up_to(place, wire("-ERRno") + rest), place, REFUSED)
        yield cut(f"{name} refused, then the replies that would follow",
                  up_to(place, wire("-ERR") + b"".join(REPLIES[place + 1:])), place, REFUSED)
    for name, reply in (("nothing", b""), ("half a line", b"+O"), ("a refusal", wire("-ERR")), ("no status", wire("x")),
                        ("a line too long", b"+OK" + b"x" * 5000 + b"\r\n"), ("an empty line", wire(""))):
        yield cut(f"PASS refused, QUIT answered by {name}", up_to(PASS, wire("-ERR no") + reply), PASS, REFUSED)


def misunderstood_conversations():
    """Each first line in turn is neither positive nor negative."""
    for place, name in enumerate(PLACES):
        for line in ("", "ok", "+ok", "+Ok hi", "-err no", "-Err", " +OK", "+O", "+ OK", "-ER", "+", "\0+OK",
                     "x" * 2046, "\n+OK", "\r+OK", ".", "..", "1 18"):
            yield cut(f"{name} answered by {line[:9]!r}", up_to(place, wire(line)), place, NOT_UNDERSTOOD)


def stat_conversations():
    """The rest of STAT's first line: the forms that are taken, and those that are not."""
    for rest in (" 1 18", "1 18", "  1 18", "   1   18", " 01 018", " 1 18 ", " 1 18 x", " 1 18x", " 1 18 19", " 1 18-",
                 " 00000000000000000001 00000000000000000018", " 1 18446744073709551615", " 1 0", " 1 18\0", " 1 18\r",
                 " 1 18\n2 3"):
        yield ended(f"STAT taken: {rest!r}", replies(STAT=wire("+OK" + rest)))
    for rest in ("", " ", " 1", " 1 ", "1", " x", " x 18", " 1 x", " 1x 18", " -1 18", " 1 -18", " +1 18", " 1 +18",
                 " 1,18", " 1\t18", "\t1 18", " 1 \t18", " 4294967296 18", " 1 18446744073709551616", " 0x1 18",
                 " 000000000000000000001 18", " 1 000000000000000000018", " 99999999999999999999 1",
                 " 1 99999999999999999999", " 18446744073709551617 18", " 1 36893488147419103233", " \xb9 18",
                 " 1\0 18"):
        yield cut(f"STAT not understood: {rest!r}", up_to(STAT, wire("+OK" + rest)), STAT, NOT_UNDERSTOOD)
    for count in ("100001", "4294967295", "00000000000000100001"):
        yield cut(f"STAT counts {count}", up_to(STAT, wire(f"+OK {count} 10")), STAT, TOO_MANY)
    for count in ("2", "3", "100000", "00000000000000000002"):
        yield cut(f"STAT counts {count}, and the end", up_to(STAT, wire(f"+OK {count} 10")), UIDL, ENDED_EARLY)


def uidl_row_conversations():
    """One row of UIDL: those that are taken, with the id that is stored, and those that are not."""
    for row, uid in (("1 a1", "a1"), (" 1 a1", "a1"), ("1   a1", "a1"), ("1 a1 ", "a1"), ("   1 a1   ", "a1"),
                     ("01 a1", "a1"), ("00000000000000000001 a1", "a1"), (".1 a1", "a1"), ("1 !", "!"), ("1 ~", "~"),
                     ("1 .", "."), ("1 1", "1"), ("1 " + "i" * 70, "i" * 70), ("1 -ERR", "-ERR"), ("1 a:2,S", "a:2,S")):
        yield ended(f"UIDL row taken: {row[:30]!r}", replies(UIDL=wire("+OK", row, ".")), uid=uid)
    for row in ("", " ", "1", "1 ", "a1", "x a1", "1 a b", "1 a  b", "1 " + "i" * 71, "1 \x7f", "1 a\x80", "1 a\tb",
                "1 a\0", "1 a\r", "1 a\n", "\n1 a1", "1\ta1", "-1 a1", "+1 a1", "1x a1", "4294967296 a1",
                "000000000000000000001 a1", "99999999999999999999 a1", "..1 a1", ". ", "1 \xe4", "1 a\n.", "\0"):
        yield cut(f"UIDL row refused: {row[:30]!r}", up_to(UIDL, wire("+OK", row)), UIDL, BAD_LISTING)
        yield cut(f"UIDL row refused after a good one: {row[:30]!r}", up_to(UIDL, wire("+OK", "1 a", row, ".")), UIDL,
                  BAD_LISTING)


def list_row_conversations():
    """One row of LIST: those that are taken and those that are not."""
    for row in ("1 18", " 1 18", "1   18", "1 18 ", "1 18 x", "1 18x", "1 18-", "01 018", ".1 18", "1 0", "1 18\0",
                "1 18446744073709551615", "00000000000000000001 00000000000000000018", "1 12 13 14", "1 5\r", "1 5\n6"):
        yield ended(f"LIST row taken: {row!r}", replies(LIST=wire("+OK", row, ".")))
    for row in ("", "   ", "1", "1 ", "x", "x 18", "1 x", "1 -1", "-1 1", "1x 18", "1\t18", "1 18446744073709551616",
                "1 000000000000000000018", "4294967296 18", "000000000000000000001 18", "..1 18", ". ",
                "1 99999999999999999999", "1 184467440737095516150", "\n1 18", "1 \n18", "\0"):
        yield cut(f"LIST row refused: {row!r}", up_to(LIST, wire("+OK", row)), LIST, BAD_LISTING)


def disagreeing_conversations():
    """Listings whose rows are all understood, but which do not fit STAT's count or one another."""
    one = {"UIDL": wire("+OK", "1 a", "."), "LIST": wire("+OK", "1 5", ".")}
    for name, uids, sizes in (
            ("no id", ["."], ["1 5", "."]), ("no size", ["1 a", "."], ["."]), ("neither", ["."], ["."]),
            ("ids of 2 alone", ["2 a", "."], ["1 5", "."]), ("sizes of 2 alone", ["1 a", "."], ["2 5", "."]),
            ("both of 2", ["2 a", "."], ["2 5", "."]), ("number 0", ["0 a", "."], ["1 5", "."]),
            ("size of number 0", ["1 a", "."], ["0 5", "."]),
            ("two ids", ["1 a", "2 b", "."], ["1 5", "."]), ("two sizes", ["1 a", "."], ["1 5", "2 6", "."]),
            ("the same row twice", ["1 a", "1 a", "."], ["1 5", "."]),
            ("two rows of 1", ["1 a", "."], ["1 5", "1 6", "."]),
            ("two of each", ["1 a", "2 b", "."], ["1 5", "2 6", "."]),
            ("the greatest number", ["4294967295 a", "."], ["1 5", "."])):
        given = up_to(UIDL, wire("+OK", *uids) + wire("+OK", *sizes))
        yield cut(f"listings disagree: {name}", given, LIST, LISTINGS_DISAGREE)
    no_message = replies(STAT=wire("+OK 0 0"), **one)
    yield Conversation("listings of one message, none counted", no_message,
                       printed(COMMANDS[:LIST], f"cut {LISTINGS_DISAGREE}"), 1)
    yield cut("an id too many, and LIST refused", up_to(UIDL, wire("+OK", "1 a", "2 b", ".", "-ERR", "+OK")), LIST,
              REFUSED)
    yield cut("an id too many, and a bad size", up_to(UIDL, wire("+OK", "1 a", "2 b", ".", "+OK", "x")), LIST,
              BAD_LISTING)


def long_listing_conversations():
    """Listings around the greatest number of rows: one row more is a fault of its own, once that row is whole."""
    for place, row in ((UIDL, "1 a"), (LIST, "1 5")):
        name = PLACES[place]
        full = wire("+OK") + wire(row) * ROW_LIMIT
        yield cut(f"{name} with a row too many", up_to(place, full + wire(row)), place, TOO_MANY)
        yield cut(f"{name} with a row too many that is none", up_to(place, full + wire("what")), place, TOO_MANY)
        yield cut(f"{name} with half a row too many", up_to(place, full + b"1 "), place, ENDED_EARLY)
        yield cut(f"{name} with a long row too many", up_to(place, full + b"x" * LINE_LIMIT), place, TOO_LONG)
        yield cut(f"{name} with a bad row before the last", up_to(place, full[:-5] + wire("x") * 2), place, BAD_LISTING)
    yield cut("UIDL with as many rows as may be",
              up_to(UIDL, wire("+OK") + wire("1 a") * ROW_LIMIT + wire(".") + REPLIES[LIST]),
              LIST, LISTINGS_DISAGREE)
    yield cut("LIST with as many rows as may be", up_to(LIST, wire("+OK") + wire("1 5") * ROW_LIMIT + wire(".")),
              LIST, LISTINGS_DISAGREE)


def padded(line, octets):
    """The line filled with letters so that it has this many octets, CR LF included."""
    return wire(line + " " + "x" * (octets - len(line) - 3))


def long_line_conversations():
    """First lines and rows of the greatest length and of one octet more."""
    for place, name in enumerate(PLACES):
        first, rest = REPLIES[place].split(b"\r\n", 1)
        longest = padded(first.decode(), LINE_LIMIT)
        assert len(longest) == LINE_LIMIT
        yield ended(f"{name}: a first line of the greatest length", replies(**{name: longest + rest}))
        for what, instead in (
                ("a first line of one octet more", padded(first.decode(), LINE_LIMIT + 1) + rest),
                ("a first line without an end", b"+OK" + b"x" * 100_000),
                ("as many octets as may be, none of them an end", b"x" * LINE_LIMIT),
                ("a CR as the last octet that may be", b"+OK" + b"x" * (LINE_LIMIT - 4) + b"\r"),
                ("NULs", bytes(10_000)), ("line feeds", b"\n" * 10_000), ("CRs", b"\r" * 10_000)):
            yield cut(f"{name}: {what}", up_to(place, instead), place, TOO_LONG)
        yield cut(f"{name}: one octet less than may be, and the end", up_to(place, b"+OK" + b"x" * (LINE_LIMIT - 4)),
                  place, ENDED_EARLY)
    long_size = padded("1 18", LINE_LIMIT)
    long_id = wire("1 a1" + " " * (LINE_LIMIT - 6))
    yield ended("a row of LIST of the greatest length", replies(LIST=wire("+OK") + long_size + wire(".")))
    yield ended("a row of UIDL of the greatest length", replies(UIDL=wire("+OK") + long_id + wire(".")))
    yield cut("a row of LIST of one octet more", up_to(LIST, wire("+OK") + padded("1 18", LINE_LIMIT + 1)), LIST,
              TOO_LONG)
    yield cut("a row of UIDL of one octet more", up_to(UIDL, wire("+OK", "1 a1" + " " * (LINE_LIMIT - 5))), UIDL,
              TOO_LONG)


def short_conversations():
    """The whole conversation, ended after each of its octets but the last."""
    given = replies()
    ends = [len(b"".join(REPLIES[:place + 1])) for place in range(len(REPLIES))]
    for length in range(len(given)):
        place = sum(1 for end in ends if end <= length)
        yield cut(f"ended after {length} octets", given[:length], place, ENDED_EARLY)


TABLES = (whole_conversations, several_conversations, message_conversations, refused_conversations, misunderstood_conversations,
          stat_conversations, uidl_row_conversations, list_row_conversations, disagreeing_conversations,
          long_listing_conversations, long_line_conversations, short_conversations)
