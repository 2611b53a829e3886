"""Makes a record of getmail out of another program's list of unique-ids, so that nothing is fetched again.

The scripts from-getmail6.py, from-mpop.py and from-fetchmail.py read such lists. If one line of a list isn't as
it should be, nothing is written.
"""

import argparse
import contextlib
import os
import sys
import time

from account_files import (Refused, add_account, add_folder, digest_of, flush, flush_names, is_there, locked, read_record,
                           record_of, shown, take_any_letter, words_of, write_whole)


class BadLine(Exception):
    """The number of a line that no such list has."""


class NoAccount(Exception):
    """Why it isn't clear which of the lists in a file is meant."""


def is_legal(uid):
    """Whether a server may have given this unique-id (RFC 1939, section 7)."""
    return 1 <= len(uid) <= 70 and all(0x21 <= octet <= 0x7E for octet in uid)


def lines_of(content):
    """The lines of a file, without their ends, each with its number."""
    lines = content.split(b"\n")
    if not lines[-1]:
        lines.pop()
    return list(enumerate((line.removesuffix(b"\r") for line in lines), 1))


def chosen(lists, username, account):
    """The list of the account `USER@HOST`, or the only one whose user is USERNAME. The keys of `lists` are (user, host)."""
    named = {user + b"@" + host: (user, host) for user, host in lists}
    if account is not None:
        fitting = [named[account]] if account in named else []
    else:
        fitting = [key for key in lists if key[0] == username]
    if len(fitting) == 1:
        return lists[fitting[0]]
    if not lists:
        raise NoAccount("has no list of unique-ids")
    there = ", ".join(sorted(name.decode(errors="replace") for name in named))
    raise NoAccount(f"has the lists of {there}; name one of them with --account USER@HOST")


def write(record, seconds):
    """Writes a record that isn't there yet, or that is there already with these messages: a killed script left it."""
    if is_there(record):
        with contextlib.suppress(Refused):
            rows = read_record(record).rows
            if all(rows.get(uid, (b"", b""))[1] == b"1" for uid in seconds):
                flush(record)
                flush_names(os.path.dirname(record))
                return
    write_whole(record, record_of({uid: (b"%d" % second, b"1") for uid, second in seconds.items()}))


def run(about, kind, read, has_accounts):
    """Reads the command line and the list, and writes the record.

    `read` gets the file's octets, the second now, and the user name and `--account` as octets. It answers with the second
    at which each unique-id was first seen.
    """
    take_any_letter()
    words = argparse.ArgumentParser(description=about)
    add_folder(words)
    add_account(words)
    words.add_argument("list", help=f"the file: {kind}")
    words.set_defaults(account=None)
    if has_accounts:
        words.add_argument("--account", metavar="USER@HOST", help="the account in that file, if it isn't USERNAME's only one")
    asked = words_of(words)

    digest = digest_of(asked.server, asked.port, asked.username)
    record = os.path.join(asked.g, f"seen-{digest}")
    try:
        with open(asked.list, "rb") as file:
            content = file.read()
        seconds = read(content, int(time.time()), os.fsencode(asked.username), asked.account and os.fsencode(asked.account))
        if content and not content.endswith(b"\n"):
            raise Refused(f"{shown(asked.list)}: its last line has no end: it may be cut short, in an id or a number")
        with locked(asked.g, digest):
            write(record, seconds)
    except BadLine as line:
        sys.exit(f"{shown(asked.list)}: line {line} is no line of {kind}; nothing was written")
    except NoAccount as reason:
        sys.exit(f"{shown(asked.list)} {reason}; nothing was written")
    except Refused as reason:
        sys.exit(f"{reason}; nothing was written")
    except FileExistsError:
        sys.exit(f"{shown(record)} is there already: getmail has run for this account, and its record stays as it is. To start "
                 "from the other program's list instead, move the record away and run this again")
    except OSError as error:
        end = "run this again once that is mended" if os.path.lexists(record) else "nothing was written"
        sys.exit(f"{shown(error.filename or record)}: {error.strerror}; {end}")
    print(f"{shown(record)}: {len(seconds)} messages")
