"""The files of an account of getmail, for the scripts beside this one: its lock, its record, and how a file is written.

A file gets a name only if nothing has it; but for a record, which a newer one of its own account replaces. Whatever is
written is made beside its place, flushed, and renamed, so that a script can be killed at any moment and run again.
"""

import argparse
import contextlib
import ctypes
import errno
import fcntl
import hashlib
import os
import re
import secrets
import stat
import sys
from typing import NamedTuple

HEADERS = (b"getmail-seen 1", b"getmail-seen 2")
ID = rb"([!-~]{1,70})"
NUMBER = rb"(0|[1-9][0-9]{0,19})"
ROW = re.compile(ID + rb" " + NUMBER + rb" ([01])")
GROUP = re.compile(rb"\+ ([1-9][0-9]{0,5})")
INTENT = re.compile(rb"! " + ID + rb" " + NUMBER + rb" " + NUMBER)

AT_FDCWD = -100
RENAME_NOREPLACE = 1
# What a system answers that has no such rename, or no flush of a folder, or no lock.
NO_RENAME = (errno.EINVAL, errno.ENOSYS, errno.EOPNOTSUPP)
NO_FLUSH = (errno.EINVAL, errno.EOPNOTSUPP)
NO_LOCK = (errno.ENOLCK, errno.ENOSYS, errno.EOPNOTSUPP)


class Refused(Exception):
    """Why nothing more is done."""


class Record(NamedTuple):
    """The second and the state of each unique-id, and whether an entry of an mboxrd file was being appended."""

    rows: dict
    is_open: bool


def port(text):
    """The port in a word of the command line."""
    if not (text.isascii() and text.isdigit() and 1 <= int(text) <= 65535):
        raise argparse.ArgumentTypeError(f"{text!r} isn't a number from 1 to 65535")
    return int(text)


def add_folder(words):
    """The command line's folder of records."""
    words.add_argument("-g", metavar="DIR", default=os.path.expanduser("~/.getmail"), help="getmail's folder [~/.getmail]")


def add_account(words, which=""):
    """The command line's words that make an account."""
    words.add_argument(f"{which}server", help="as in the rc file, letter by letter")
    words.add_argument(f"{which}port", type=port)
    words.add_argument(f"{which}username")


def digest_of(server, number, username):
    """What the names of an account's files begin with, or end with."""
    return hashlib.sha256(b"%s\0%d\0%s" % (os.fsencode(server), number, os.fsencode(username))).hexdigest()


def shown(path):
    """A path that can be written to a terminal, whatever its name."""
    text = os.fsencode(path).decode(errors="backslashreplace")
    return "".join(letter if letter.isprintable() else letter.encode("unicode_escape").decode() for letter in text)


def words_of(parser):
    """What the command line says. Its first `--` ends the options, and a later one is a word like any other."""
    given = sys.argv[1:]
    first = given.index("--") + 1 if "--" in given else len(given)
    # argparse takes out each `--`; no word of a command line has a NUL.
    asked = parser.parse_args([*given[:first], *("\0" if word == "--" else word for word in given[first:])])
    for name, value in vars(asked).items():
        setattr(asked, name, "--" if value == "\0" else value)
    return asked


def take_any_letter():
    """No path is refused by standard output, whatever its encoding is."""
    if sys.stdout is not None:
        sys.stdout.reconfigure(errors="backslashreplace")


def is_there(path):
    """Whether something has this name, also if it is a link to nothing. What can't be known is an error."""
    try:
        os.lstat(path)
    except FileNotFoundError:
        return False
    return True


@contextlib.contextmanager
def about(path):
    """An error of the system is one of this path, if it names none."""
    try:
        yield
    except OSError as error:
        error.filename = error.filename or path
        raise


@contextlib.contextmanager
def opened(path, flags, mode=0o600):
    """A file or a folder by its number. Nothing is waited for: a pipe that nobody writes to is opened at once."""
    number = os.open(path, flags | os.O_NONBLOCK | os.O_CLOEXEC, mode)
    try:
        with about(path):
            yield number
    finally:
        os.close(number)


@contextlib.contextmanager
def locked(folder, digest):
    """Keeps runs of an account away, as they keep each other away. The file stays, with the time at which it was locked."""
    path = os.path.join(folder, f"lock-{digest}")
    if is_there(path) and not stat.S_ISREG(os.lstat(path).st_mode):
        raise Refused(f"{shown(path)} is no regular file, so no run can be kept away")
    with opened(path, os.O_RDWR | os.O_CREAT | os.O_NOFOLLOW) as number:
        try:
            fcntl.flock(number, fcntl.LOCK_EX | fcntl.LOCK_NB)
        except BlockingIOError:
            raise Refused(f"another process has locked {shown(path)}: a getmail of this account is at work. Run this again "
                          "once it has ended") from None
        except OSError as error:
            if error.errno not in NO_LOCK:
                raise
            print(f"no lock: {shown(path)}: {error.strerror}. See to it that no getmail works meanwhile", file=sys.stderr)
        with contextlib.suppress(OSError):
            os.utime(number)
        yield


def flush(path):
    """What is in a file is on the disk after it."""
    with opened(path, os.O_RDONLY) as number:
        os.fsync(number)


def flush_names(folder):
    """The names of a folder are on the disk after it, unless its file system can't do that."""
    try:
        flush(folder or os.curdir)
    except OSError as error:
        if error.errno not in NO_FLUSH:
            raise


def rename(old, new):
    """Gives a file another name, which nothing has: else that is a FileExistsError.

    If the old name has gone meanwhile, there is no new one either: a FileNotFoundError.
    """
    call = getattr(ctypes.CDLL(None, use_errno=True), "renameat2", None)
    if call is not None:
        if call(AT_FDCWD, os.fsencode(old), AT_FDCWD, os.fsencode(new), RENAME_NOREPLACE) == 0:
            return
        number = ctypes.get_errno()
        if number not in NO_RENAME:
            raise OSError(number, os.strerror(number), old, None, new)
    os.link(old, new)
    try:
        os.unlink(old)
    except FileNotFoundError:
        with contextlib.suppress(FileNotFoundError):
            os.unlink(new)
        raise


def marked(front):
    """A name that nothing has. getmail knows `RECORD.tmp` and, in `tmp`, the digest with such an end as an account's own, and
    removes it after an hour, if a killed script has left it."""
    return f"{front}.P{os.getpid()}R{secrets.token_hex(8)}"


def check_renames(front):
    """A file that nothing else has, named so, can get another name there without replacing anything."""
    one, other = marked(front), marked(front)
    try:
        with opened(one, os.O_WRONLY | os.O_CREAT | os.O_EXCL):
            pass
        try:
            rename(one, other)
        except OSError as error:
            raise Refused(f"{shown(os.path.dirname(front))}: its file system has neither a rename that replaces nothing nor links "
                          f"({error.strerror}): copy it to another one first") from None
    finally:
        for path in (one, other):
            with contextlib.suppress(OSError):
                os.unlink(path)


def write_whole(path, content, replaces=False, record=None):
    """Makes a file, whole or not at all, in a place that is free, or that `replaces` says is this account's own.

    It is written beside the record, which is `path` itself unless another one is named.
    """
    beside = marked(f"{record or path}.tmp")
    try:
        with opened(beside, os.O_WRONLY | os.O_CREAT | os.O_EXCL) as number:
            with open(number, "wb", closefd=False) as file:
                file.write(content)
            os.fsync(number)
        (os.replace if replaces else rename)(beside, path)
    except OSError:
        with contextlib.suppress(OSError):
            os.unlink(beside)
        raise
    flush_names(os.path.dirname(path))


def content_of(path):
    """The octets of a regular file, or of one that a link leads to."""
    with opened(path, os.O_RDONLY) as number:
        if not stat.S_ISREG(os.fstat(number).st_mode):
            raise Refused(f"{shown(path)} is no regular file")
        with open(number, "rb", closefd=False) as file:
            return file.read()


def record_of(rows):
    """A record's file with these rows."""
    return HEADERS[1] + b"\n" + b"".join(b"%s %s %s\n" % (uid, *row) for uid, row in rows.items())


def is_good(row, was, in_group):
    """Whether a row may stand there if its unique-id has this one already: a group may only say that it is delivered."""
    return int(row[0]) < 2 ** 64 and (was is None or in_group and row == (was[0], b"1"))


def read_record(path):
    """The record in a file. What an append that was cut short leaves at its end counts for nothing."""
    content = content_of(path)
    header, *lines = content.split(b"\n")[:-1] or [b""]
    if content and header not in HEADERS:
        raise Refused(f"{shown(path)} is no record")
    rows, group, missing, is_open, is_base = {}, {}, 0, False, True
    for number, line in enumerate(lines, 2):
        row, begun, intent = (form.fullmatch(line) for form in (ROW, GROUP, INTENT))
        if row and (is_base or missing) and is_good(row.groups()[1:], group.get(row[1], rows.get(row[1])), not is_base):
            group[row[1]] = row.groups()[1:]
            missing = max(missing - 1, 0)
        elif begun and not missing:
            missing, is_base = int(begun[1]), False
        elif intent and not missing and not is_open and intent[1] in rows:
            is_open, is_base = True, False
        else:
            raise Refused(f"{shown(path)}: line {number} isn't understood")
        if group and not missing:
            rows.update(group)
            group, is_open = {}, False
    return Record(rows, is_open)
