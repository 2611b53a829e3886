#!/usr/bin/env python3
"""What reasons and a trace cost: the instructions of a fetch with `--why` and with `--trace`, of those of a plain one.

    bench/why.py [--program FILE]

Valgrind counts the instructions of `getmail` for one message of 8.5 MB, into a Maildir and into an mboxrd file. To be
reached: at most 1.01 with `--why`, which counts nothing of a message.
"""

import argparse
from pathlib import Path

import measure
from getmail.account import Account
from getmail.mbox_account import MboxAccount
from getmail.server import Server
from harness import programs

TEXT = b"A line of a common length, as a letter to somebody has them.\n" * 140_000
MOST_RATIO = 1.01


def instructions_of(kind, *words):
    """The instructions of one fetch."""
    with Server([(b"a", TEXT)]) as server, kind(server.port) as account:
        thread = server.begin_session()
        count = measure.instructions([programs.path_of("getmail"), "-q", *words], HOME=str(account.home))
        thread.join(programs.SECONDS)
    return count


def main():
    parser = argparse.ArgumentParser(description=__doc__.splitlines()[0])
    parser.add_argument("--program", type=Path, help="the getmail to be measured; else that of bin/")
    words = parser.parse_args()
    programs.place("getmail", words.program or measure.program("getmail"))
    if not measure.can_count_instructions():
        raise SystemExit("bench/why.py needs valgrind")
    print("  store    instructions for an octet  with --why  with --trace")
    for name, kind in (("Maildir", Account), ("mboxrd", MboxAccount)):
        plain = instructions_of(kind)
        why, trace = (instructions_of(kind, flag) / plain for flag in ("--why", "--trace"))
        print(f"  {name:<8} {plain / len(TEXT):>25.1f}  {why:>10.3f}  {trace:>12.3f}  ({measure.verdict(why <= MOST_RATIO)})")


if __name__ == "__main__":
    main()
