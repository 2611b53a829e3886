"""A second version of the server: its answers to the lines of a connection, and what it lists of a Maildir.

So a random connection, or a folder as mail software leaves it, has its exact answers. RFC 1939 leaves the words
after `+OK` and `-ERR` free; these are the ones that the server's table fixes.
"""

import hashlib
import os
import re
import stat
from collections import Counter
from dataclasses import dataclass, field
from pathlib import Path

LINE_LIMIT = 512
INPUT_LIMIT = 16_777_216
SIZE_LIMIT = 134_217_728
COUNT_LIMIT = 100_000

LEGAL_ID = re.compile(rb"[\x21-\x7e]{1,70}")
ARGUMENTS = {b"STAT": (0,), b"RSET": (0,), b"NOOP": (0,), b"QUIT": (0,), b"RETR": (1,), b"DELE": (1,), b"TOP": (2,),
             b"LIST": (0, 1), b"UIDL": (0, 1)}


@dataclass(frozen=True)
class Message:
    """A message as it is listed, with its file, if any, and whether another file of its base has other octets."""

    uid: bytes
    text: bytes
    path: bytes = b""
    has_rival: bool = False

    def lines(self):
        """The lines of the text; a last piece without its end is one."""
        lines = self.text.split(b"\n")
        return lines[:-1] if lines[-1] == b"" else lines

    def size(self):
        """The size in octets, each line counted with two for its end."""
        return sum(len(line) + 2 for line in self.lines())


def base_of(path):
    """A file's name up to its first colon, which names a message."""
    return os.path.basename(path).split(b":")[0]


REHEARSAL = (Message(b"m1", b"Subject: one\n\n.dot\n"), Message(b"m2", b"Subject: two\n\na\nbc\n"))


def stuffed(lines):
    """The lines as a body on the wire, the end mark included."""
    return b"".join((b"." if line.startswith(b".") else b"") + line + b"\r\n" for line in lines) + b".\r\n"


def read_number(word):
    """The number that the word stands for, or None."""
    return int(word) if re.fullmatch(rb"[0-9]{1,10}", word) and int(word) < 2 ** 32 else None


def read_command(line):
    """The keyword and the arguments of a line without its CR LF, or None if the line is no command."""
    keyword, _, argument = line.partition(b" ")
    if len(line) > LINE_LIMIT - 2:
        return None
    if keyword.upper() in (b"USER", b"PASS"):
        fits = 1 <= len(argument) <= 500 and not re.search(rb"[\r\n\0]", argument)
        return (keyword.upper(), [argument]) if fits else None
    keyword, *words = line.rstrip(b" ").split(b" ")
    numbers = [read_number(word) for word in words]
    if len(words) not in ARGUMENTS.get(keyword.upper(), ()) or None in numbers:
        return None
    return keyword.upper(), numbers


@dataclass
class Machine:
    """The server over a list of messages: one method for each state, one answer for each line."""

    messages: tuple = REHEARSAL
    user: bytes = b"u"
    password: bytes = b"p"
    name: bytes = None
    is_in: bool = False
    is_closed: bool = False
    marked: set = field(default_factory=set)
    greeting: bytes = b"+OK popd ready\r\n"

    def answer(self, line):
        """The answer to a line, with the state that follows it."""
        command = read_command(line)
        if command is None:
            return b"-ERR bad command\r\n"
        return self.in_transaction(*command) if self.is_in else self.in_authorization(*command)

    def in_authorization(self, keyword, arguments):
        if keyword == b"USER":
            self.name = arguments[0]
            return b"+OK send PASS\r\n"
        if keyword == b"PASS":
            return self.log_in(arguments[0])
        if keyword == b"QUIT":
            self.is_closed = True
            return b"+OK bye\r\n"
        return b"-ERR not now\r\n"

    def log_in(self, password):
        if self.name is None:
            return b"-ERR USER first\r\n"
        if self.name != self.user or password != self.password:
            self.name = None
            return b"-ERR refused\r\n"
        self.is_in = True
        return b"+OK %d messages\r\n" % len(self.messages)

    def in_transaction(self, keyword, arguments):
        left = [number for number in range(1, len(self.messages) + 1) if number not in self.marked]
        if arguments and keyword not in (b"USER", b"PASS"):
            if arguments[0] not in left:
                return b"-ERR no such message\r\n"
            return self.on_message(keyword, arguments[0], self.messages[arguments[0] - 1], arguments[1:])
        if keyword == b"STAT":
            return b"+OK %d %d\r\n" % (len(left), sum(self.messages[number - 1].size() for number in left))
        if keyword in (b"LIST", b"UIDL"):
            return self.listing(keyword, left)
        if keyword == b"QUIT":
            self.is_closed = True
            return b"+OK bye\r\n" if len(self.removed()) == len(self.marked) else b"-ERR some messages not removed\r\n"
        if keyword == b"RSET":
            self.marked.clear()
        return b"-ERR not now\r\n" if keyword in (b"USER", b"PASS") else b"+OK\r\n"

    def removed(self):
        """The marked messages that QUIT removes."""
        marked = [self.messages[number - 1] for number in self.marked]
        return [message for message in marked if not message.has_rival]

    def listing(self, keyword, left):
        """The answer to LIST or UIDL without a number."""
        rows = b""
        for number in left:
            message = self.messages[number - 1]
            rows += b"%d %s\r\n" % (number, message.uid if keyword == b"UIDL" else b"%d" % message.size())
        return b"+OK\r\n" + rows + b".\r\n"

    def on_message(self, keyword, number, message, more):
        if keyword == b"LIST":
            return b"+OK %d %d\r\n" % (number, message.size())
        if keyword == b"UIDL":
            return b"+OK %d %s\r\n" % (number, message.uid)
        if keyword == b"RETR":
            return b"+OK %d octets\r\n" % message.size() + stuffed(message.lines())
        if keyword == b"TOP":
            return b"+OK\r\n" + stuffed(top(message.lines(), more[0]))
        self.marked.add(number)
        return b"+OK marked\r\n"


def top(lines, count):
    """The lines up to and including the first empty one, and `count` more."""
    head = lines.index(b"") + 1 if b"" in lines else len(lines)
    return lines[:head + count]


def answers(given, machine=None):
    """The greeting and the answer to each line of a connection, in order, up to QUIT or the end."""
    machine = machine or Machine()
    given_answers = [machine.greeting]
    *lines, _ = given[:INPUT_LIMIT].split(b"\r\n")
    for line in lines:
        if machine.is_closed:
            break
        given_answers.append(machine.answer(line))
    return given_answers


def uid_of(base):
    """The id of a file whose name is `base` up to the first colon."""
    return base if LEGAL_ID.fullmatch(base) else hashlib.sha256(base).hexdigest().encode()


def is_listed(path):
    """Whether this is a regular file, no link to one, whose name is text and begins with no full stop."""
    name = os.path.basename(path)
    try:
        name.decode()
    except UnicodeDecodeError:
        return False
    return not name.startswith(b".") and stat.S_ISREG(os.lstat(path).st_mode)


def messages_of(folder):
    """The messages of a Maildir, in the order in which the server lists them."""
    rows = []
    for place, part in enumerate((b"cur", b"new")):
        for name in os.listdir(os.path.join(os.fsencode(folder), part)):
            path = os.path.join(os.fsencode(folder), part, name)
            if is_listed(path):
                rows.append((name.split(b":")[0], place, name, path))
    messages, seen = [], set()
    texts = {path: Path(os.fsdecode(path)).read_bytes() for _, _, _, path in rows}
    bases = Counter(base for base, _ in {(base, texts[path]) for base, _, _, path in rows})
    for base, _, _, path in sorted(rows):
        message = Message(uid_of(base), texts[path], path, bases[base] > 1)
        if message.uid not in seen and message.size() <= SIZE_LIMIT:
            seen.add(message.uid)
            messages.append(message)
    return tuple(messages[:COUNT_LIMIT])
