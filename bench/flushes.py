#!/usr/bin/env python3
"""How many flushes a session of `getmail` makes, and what a poll and a fetch cost beside another build of it.

    bench/flushes.py [--program FILE] [--before FILE]

The flushes are those that a preloaded watch writes down (tests/note_changes.c): of files, and of folders. With `--before`
the processor times of a poll (20,000 messages that are known, by the record alone or held in the Maildir too) and of a
fetch (2,000 messages of 2 KB) are measured for both programs in turns, the least of each; to be reached: at most 1.1 of
those before.
"""

import argparse
import itertools
import os
from pathlib import Path

import measure
from getmail.account import Account
from getmail.mbox_account import MboxAccount
from getmail.shared_server import SharedServer
from harness import preload, programs
from harness.power import rows_of

TURNS = 7
MOST_RATIO = 1.1
KNOWN = 20_000
COUNT = 2_000
LETTER = b"A line of a common length, as a letter to somebody has them.\n" * 33


def letters(first, count):
    return [(b"uid-%032d" % number, LETTER) for number in range(first, first + count)]


def flushes_of(account, server, library, *words):
    """How often a session flushed a file, and a folder."""
    note = account.home / "note"
    run = account.run("-q", *words, LD_PRELOAD=str(library), CHANGES_NOTE=str(note))
    server.wait_for_end()
    if (run.status, run.err) != (0, b""):
        raise SystemExit(f"a session failed: {run}")
    rows = [words[0] for words, _ in rows_of(note.read_bytes())]
    note.unlink()
    return rows.count("flush"), rows.count("flush-folder")


def count_flushes(library):
    """Prints the flushes of polls and fetches."""
    print("  session                                                   flushes of files  of folders")
    for kind, store in ((Account, ""), (MboxAccount, ", mboxrd")):
        for words, count in itertools.product(((), ("-d",)), (1, 10, 100)):
            with SharedServer(letters(0, count)) as server, kind(server.port) as account:
                sessions = [("first session, %d fetched" % count, flushes_of(account, server, library, *words))]
                sessions.append(("poll", flushes_of(account, server, library, *words)))
                server.messages += letters(count, count)
                sessions.append(("later session, %d fetched" % count, flushes_of(account, server, library, *words)))
            for name, (files, folders) in sessions:
                print(f"  {name + (', deleted' if words else '') + store:<58} {files:>14}  {folders:>10}")


def cost_of(account, program):
    """The processor time of a session."""
    os.environ["HOME"] = str(account.home)
    return measure.cost_of([str(program), "-q"], wait=measure.watch).processor


def fetch(program):
    with SharedServer(letters(0, COUNT)) as server, Account(server.port) as account:
        return cost_of(account, program)


def poll(is_held, program):
    """The second session is measured: the first one writes the record anew, in the version that the program has."""
    with SharedServer(letters(0, KNOWN)) as server, Account(server.port) as account:
        rows = b"".join(b"%s 1700000000 1\n" % uid for uid, _ in server.messages)
        account.record.write_bytes(b"getmail-seen 1\n" + rows)
        for uid, _ in server.messages if is_held else ():
            (account.maildir / "cur" / f"{account.stem(uid)}:2,S").touch()
        cost_of(account, program)
        return cost_of(account, program)


def compare(before, program):
    """Prints the processor times of both programs."""
    sessions = ((f"fetch of {COUNT:,}", fetch), (f"poll, {KNOWN:,} known", lambda name: poll(False, name)),
                (f"poll, {KNOWN:,} held", lambda name: poll(True, name)))
    for name, session in sessions:
        times = {which: [] for which in (before, program)}
        for _ in range(TURNS):
            for which, taken in times.items():
                taken.append(session(which))
        now, then = (min(times[which]) * 1000 for which in (program, before))
        print(f"  {name:<20} processor time {now:6.1f} ms, before {then:6.1f} ms, {now / then:.2f} "
              f"({measure.verdict(now <= MOST_RATIO * then)})", flush=True)


def main():
    parser = argparse.ArgumentParser(description=__doc__.splitlines()[0])
    parser.add_argument("--program", type=Path, help="the getmail to be measured; else that of bin/")
    parser.add_argument("--before", type=Path, help="another getmail, to compare with")
    words = parser.parse_args()
    program = Path(words.program or measure.program("getmail")).resolve()
    programs.place("getmail", program)
    with preload.library("note_changes") as library:
        count_flushes(library)
    if words.before:
        compare(words.before.resolve(), program)


if __name__ == "__main__":
    main()
