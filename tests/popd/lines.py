"""Lines for `popd --rehearse`, each with its answer, worked out by hand from the server's table.

The maildrop has two messages: m1 of 22 octets and m2 of 23; the user is `u`, the password `p`.
"""

BAD, NOT_NOW, NO_MESSAGE = "-ERR bad command", "-ERR not now", "-ERR no such message"
LOGGED_IN = (("USER u", "+OK send PASS"), ("PASS p", "+OK 2 messages"))
FIRST = ("Subject: one", "", "..dot", ".")
SECOND = ("Subject: two", "", "a", "bc", ".")

# Lines that are no command in either state.
BAD_LINES = ("", " ", "XYZ", "XYZ 1", " NOOP", "NOOP x", "NOOP\0", "NOOP\r", "NOOP\nNOOP", "NO\0OP", "NOOP\t", "\0",
             "\n",
             "STAT 1", "RSET 1", "QUIT now", "RETR", "RETR ", "RETR x", "RETR 1x", "RETR -1", "RETR +1", "RETR 1 2",
             "RETR  1", "RETR\t1", "RETR 1\n", "RETR 4294967296", "RETR 00000000001", "RETR 18446744073709551617",
             "DELE", "DELE  1", "DELE 1 1", "DELE 99999999999", "TOP", "TOP 1", "TOP 1 x", "TOP 1 1 1", "TOP x 1",
             "TOP 1 4294967296", "TOP 1  1", "LIST x", "LIST 1 2", "LIST 4294967296", "UIDL x", "UIDL 1 2",
             "USER", "USER ", "USER a\0", "USER a\rb", "USER a\nb", "PASS", "PASS ", "PASS \0", "USERu", "PASSp",
             "USER " + "x" * 501, "PASS " + "x" * 501, "x" * 510, "CAPA", "APOP u 0", "AUTH", "STLS", "\xe4",
             "QUIT\xff")

# Conversations: the lines with their answers, each answer one line or several.
CONVERSATIONS = {
    "the recorded one": (
        *LOGGED_IN, ("STAT", "+OK 2 45"), ("DELE 1", "+OK marked"), ("RETR 1", NO_MESSAGE), ("RSET", "+OK"),
        ("RETR 1", ("+OK 22 octets", *FIRST)), ("TOP 2 1", ("+OK", "Subject: two", "", "a", ".")),
        ("DELE 2", "+OK marked")),
    "nothing is open before PASS": (
        ("STAT", NOT_NOW), ("LIST", NOT_NOW), ("LIST 1", NOT_NOW), ("UIDL", NOT_NOW), ("UIDL 1", NOT_NOW),
        ("RETR 1", NOT_NOW), ("TOP 1 0", NOT_NOW), ("DELE 1", NOT_NOW), ("RSET", NOT_NOW), ("NOOP", NOT_NOW),
        ("RETR 0", NOT_NOW), ("QUIT", "+OK bye")),
    "PASS wants a name first": (("PASS p", "-ERR USER first"), *LOGGED_IN),
    "a wrong password forgets the name": (
        ("USER u", "+OK send PASS"), ("PASS q", "-ERR refused"), ("PASS p", "-ERR USER first"), *LOGGED_IN),
    "a wrong name is told with the password": (
        ("USER v", "+OK send PASS"), ("PASS p", "-ERR refused"), ("PASS p", "-ERR USER first"), *LOGGED_IN),
    "the last name counts": (("USER v", "+OK send PASS"), *LOGGED_IN),
    "a bad command keeps the name": (("USER u", "+OK send PASS"), ("PASS", BAD), ("STAT", NOT_NOW),
                                     ("PASS p", "+OK 2 messages")),
    "names and passwords are exact": (
        ("USER U", "+OK send PASS"), ("PASS p", "-ERR refused"),
        ("USER u ", "+OK send PASS"), ("PASS p", "-ERR refused"),
        ("USER  u", "+OK send PASS"), ("PASS p", "-ERR refused"),
        ("USER u", "+OK send PASS"), ("PASS p ", "-ERR refused"),
        ("USER u", "+OK send PASS"), ("PASS P", "-ERR refused"),
        ("USER u", "+OK send PASS"), ("PASS pp", "-ERR refused"),
        *LOGGED_IN),
    "keywords in any case": (
        ("user u", "+OK send PASS"), ("pAsS p", "+OK 2 messages"), ("stat", "+OK 2 45"),
        ("Retr 2", ("+OK 23 octets", *SECOND)), ("quit", "+OK bye")),
    "USER and PASS are over once logged in": (*LOGGED_IN, ("USER u", NOT_NOW), ("PASS p", NOT_NOW),
                                              ("STAT", "+OK 2 45")),
    "listings": (
        *LOGGED_IN, ("LIST", ("+OK", "1 22", "2 23", ".")), ("UIDL", ("+OK", "1 m1", "2 m2", ".")),
        ("LIST 1", "+OK 1 22"),
        ("LIST 2", "+OK 2 23"), ("UIDL 1", "+OK 1 m1"), ("UIDL 2", "+OK 2 m2"), ("LIST 01", "+OK 1 22"),
        ("LIST 0000000002", "+OK 2 23"), ("LIST ", ("+OK", "1 22", "2 23", ".")), ("LIST 1 ", "+OK 1 22"),
        ("NOOP ", "+OK"), ("NOOP   ", "+OK"), ("STAT  ", "+OK 2 45")),
    "numbers of no message": (
        *LOGGED_IN, ("LIST 0", NO_MESSAGE), ("LIST 3", NO_MESSAGE), ("UIDL 0", NO_MESSAGE),
        ("UIDL 4294967295", NO_MESSAGE),
        ("RETR 0", NO_MESSAGE), ("RETR 3", NO_MESSAGE), ("TOP 0 1", NO_MESSAGE), ("TOP 3 1", NO_MESSAGE),
        ("DELE 0", NO_MESSAGE), ("DELE 3", NO_MESSAGE), ("DELE 4294967295", NO_MESSAGE)),
    "a marked message": (
        *LOGGED_IN, ("DELE 1", "+OK marked"), ("DELE 1", NO_MESSAGE), ("LIST 1", NO_MESSAGE), ("UIDL 1", NO_MESSAGE),
        ("RETR 1", NO_MESSAGE), ("TOP 1 0", NO_MESSAGE), ("STAT", "+OK 1 23"), ("LIST", ("+OK", "2 23", ".")),
        ("UIDL", ("+OK", "2 m2", ".")), ("RETR 2", ("+OK 23 octets", *SECOND)), ("DELE 2", "+OK marked"),
        ("STAT", "+OK 0 0"), ("LIST", ("+OK", ".")), ("UIDL", ("+OK", ".")), ("RSET", "+OK"), ("STAT", "+OK 2 45"),
        ("LIST", ("+OK", "1 22", "2 23", ".")), ("RETR 1", ("+OK 22 octets", *FIRST))),
    "the heads of messages": (
        *LOGGED_IN, ("TOP 1 0", ("+OK", "Subject: one", "", ".")), ("TOP 1 1", ("+OK", *FIRST)),
        ("TOP 1 2", ("+OK", *FIRST)), ("TOP 2 0", ("+OK", "Subject: two", "", ".")), ("TOP 2 2", ("+OK", *SECOND)),
        ("TOP 2 4294967295", ("+OK", *SECOND)), ("top 2 1", ("+OK", "Subject: two", "", "a", "."))),
    "QUIT removes and closes": (*LOGGED_IN, ("DELE 1", "+OK marked"), ("DELE 2", "+OK marked"), ("QUIT", "+OK bye")),
    "bad lines before PASS": (*((line, BAD) for line in BAD_LINES), *LOGGED_IN),
    "bad lines once logged in": (*LOGGED_IN, ("DELE 2", "+OK marked"), *((line, BAD) for line in BAD_LINES),
                                 ("STAT", "+OK 1 22")),
    "the longest line": (
        ("NOOP" + " " * 506, NOT_NOW), ("NOOP" + " " * 507, BAD), ("x" * 511, BAD), ("x" * 100_000, BAD),
        ("USER " + "x" * 500, "+OK send PASS"), ("PASS " + "y" * 500, "-ERR refused"), *LOGGED_IN,
        ("NOOP" + " " * 506, "+OK"), ("NOOP" + " " * 507, BAD), ("RETR 1" + " " * 504, ("+OK 22 octets", *FIRST)),
        ("RETR 1" + " " * 505, BAD), ("\r" * 5000, BAD), ("\n" * 5000, BAD), ("\0" * 5000, BAD), ("STAT", "+OK 2 45")),
}


def wire(*lines):
    """The lines as they are on the wire."""
    return b"".join(line.encode("latin-1") + b"\r\n" for line in lines)


def given(conversation):
    """What the client sends in a conversation."""
    return wire(*(line for line, _ in conversation))


def answers(conversation):
    """The server's greeting and its answers, in order."""
    return [wire("+OK popd ready"),
            *(wire(answer) if isinstance(answer, str) else wire(*answer) for _, answer in conversation)]
