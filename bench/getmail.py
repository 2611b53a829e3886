#!/usr/bin/env python3
"""Benchmark of `getmail` over loopback, into a Maildir and an mboxrd file of the working folder's file system.

`popd` serves 2,000 messages of 2 KB, 20 of 5 MB and one of 100 MB; `getmail` fetches them, and so does a plain program
in C (fetch.c) that sends the same commands and makes the same reads, writes, flushes and renames. For both: messages and
octets a second, processor time, and the peak of memory, each the best of some turns taken one after the other. To be
reached: at most 1.5 of the plain program's processor time, and 8 MiB of memory for messages of any size; into an mboxrd
file 1.3 times the largest message in addition.

Then polls of 20,000 known messages, none of them new: known by the record alone, or also held in the Maildir. To be
reached: 30 ms of processor time, and no faster growth than n log n from 5,000 on. And with 1,000,000 rows of other days in
the record: 75 MiB. Words choose parts: fetches polls.
"""

import filecmp
import hashlib
import math
import os
import shutil
import socket
import subprocess
import sys
import tempfile
import threading
import time
from pathlib import Path

import measure
from getmail.account import RC
from getmail.mbox_account import MAILDIR_LINES
from harness import kernel
from harness.kernel import LOOPBACK
from harness.maildir import make_maildir
from harness.mboxrd import SEPARATOR

TURNS = 5
SECONDS = 120
LETTER_LINE = b"A line of a common length, as a letter to somebody has them.\n"
MOST_RATIO = 1.5
MOST_MEMORY = 8 * measure.MEBIBYTE
MOST_TIMES_MESSAGE = 1.3
FEW, MANY = 5_000, 20_000
MANY_MESSAGES = 1_000
MOST_POLL = 0.030
OLD_ROWS = 1_000_000
MOST_OLD_MEMORY = 75 * measure.MEBIBYTE
SHAPES = (("2,000 of 2 KB", 2000, 2_000), ("20 of 5 MB", 20, 5_000_000), ("one of 100 MB", 1, 100_000_000))


def uid_of(number):
    """An id of 16 octets, as dovecot gives them."""
    return b"%08x5f3b8c21" % number


def fresh_maildir(path):
    """An empty Maildir in place of what is there."""
    shutil.rmtree(path, ignore_errors=True)
    return make_maildir(path)


def make_served(folder, count, octets):
    """A Maildir of `count` messages of about `octets` octets each, and a password beside it."""
    maildir = fresh_maildir(folder / "served")
    (folder / "password").write_bytes(b"sesame\n")
    for number in range(count):
        (maildir / "new" / uid_of(number).decode()).write_bytes(LETTER_LINE * (octets // len(LETTER_LINE)))


class Service:
    """`popd` over the served Maildir, for as many connections as are asked for."""

    def __init__(self, folder):
        self.folder = folder

    def __enter__(self):
        self.port = kernel.free_port()
        self.process = subprocess.Popen([measure.program("popd"), "--listen", f"{LOOPBACK}:{self.port}", "u",
                                         self.folder / "password", self.folder / "served"])
        deadline = time.monotonic() + SECONDS
        while not kernel.listens(self.port):
            if time.monotonic() > deadline or self.process.poll() is not None:
                sys.exit("popd did not begin to listen")
            time.sleep(0.005)
        return self

    def __exit__(self, *_):
        self.process.kill()
        self.process.wait()


class MaildirStore:
    """Each message is a file."""

    name = "a Maildir"
    lines = "type = Maildir\npath = {}/\n"

    @staticmethod
    def make(path):
        return fresh_maildir(path)

    @staticmethod
    def count(ours, theirs):
        """How many messages both hold, or None, and how many octets these have together."""
        ours, theirs = ([entry.stat().st_size for entry in os.scandir(maildir / "new")] for maildir in (ours, theirs))
        return len(ours) if sorted(ours) == sorted(theirs) else None, sum(ours)

    @staticmethod
    def most_memory(_):
        return MOST_MEMORY


class MboxrdStore:
    """Each message is an entry of one file."""

    name = "an mboxrd file"
    lines = "type = Mboxrd\npath = {}\n"

    @staticmethod
    def make(path):
        path.write_bytes(b"")
        return path

    @staticmethod
    def count(ours, theirs):
        return ours.read_bytes().count(SEPARATOR) if filecmp.cmp(ours, theirs, shallow=False) else None, ours.stat().st_size

    @staticmethod
    def most_memory(octets):
        return MOST_MEMORY + MOST_TIMES_MESSAGE * octets


def account_at(folder, port, store=MaildirStore):
    """An account whose server is at the port, with nothing fetched yet; the words of a run."""
    shutil.rmtree(folder / "account", ignore_errors=True)
    (folder / "account").mkdir()
    lines = store.lines.format(store.make(folder / "account" / "mail"))
    (folder / "account" / "getmailrc").write_text(RC.format(server=LOOPBACK, port=port).replace(MAILDIR_LINES, lines))
    return [measure.program("getmail"), "-q", "-g", folder / "account"]


def fetch_with_plain(folder, port, plain, store):
    """What it costs the plain program to fetch all messages."""
    shutil.rmtree(folder / "plain", ignore_errors=True)
    (folder / "plain").mkdir()
    return measure.cost_of([plain, str(port), store.make(folder / "plain" / "mail"), folder / "plain" / "record"],
                           wait=measure.watch)


def measure_shape(folder, plain, store, name, count, octets):
    """Fetches `count` messages of a size by both programs, in turns, and answers whether the marks were reached."""
    make_served(folder, count, octets)
    ours, theirs = [], []
    with Service(folder) as service:
        for _ in range(TURNS):
            ours.append(measure.cost_of(account_at(folder, service.port, store), wait=measure.watch))
            theirs.append(fetch_with_plain(folder, service.port, plain, store))
    found, total = store.count(folder / "account" / "mail", folder / "plain" / "mail")
    if found != count:
        sys.exit(f"{name}: not all was fetched")
    ratio = min(cost.processor for cost in ours) / min(cost.processor for cost in theirs)
    memory = max(cost.memory for cost in ours)
    measure.print_row(f"{name}, into {store.name}", *(speed_of(costs, count, total) for costs in (ours, theirs)),
                      f"{min(cost.processor for cost in ours) * 1000:.0f} ms", f"{ratio:.2f}",
                      f"{memory / measure.MEBIBYTE:.1f} MiB")
    return ratio <= MOST_RATIO and memory <= store.most_memory(octets)


def speed_of(costs, count, octets):
    """The speed of the fastest turn: messages a second if there are many, else octets a second."""
    seconds = min(cost.seconds for cost in costs)
    return f"{count / seconds:,.0f} a second" if count >= MANY_MESSAGES else f"{octets / seconds / 1e6:,.0f} MB/s"


class Listings:
    """A server that lists `count` messages, with prepared replies, to one client after the other."""

    def __init__(self, count):
        numbers = range(1, count + 1)
        self.replies = {
            b"STAT": b"+OK %d %d\r\n" % (count, 1000 * count),
            b"UIDL": b"+OK\r\n" + b"".join(b"%d %s\r\n" % (number, uid_of(number)) for number in numbers) + b".\r\n",
            b"LIST": b"+OK\r\n" + b"".join(b"%d 1000\r\n" % number for number in numbers) + b".\r\n",
        }
        self.listener = socket.create_server((LOOPBACK, 0))
        self.port = self.listener.getsockname()[1]
        threading.Thread(target=self._serve, daemon=True).start()

    def _serve(self):
        while True:
            client, _ = self.listener.accept()
            with client, client.makefile("rb") as lines:
                client.setsockopt(socket.IPPROTO_TCP, socket.TCP_NODELAY, 1)
                client.sendall(b"+OK\r\n")
                for line in lines:
                    client.sendall(self.replies.get(line.strip(), b"+OK\r\n"))


def account_knowing(folder, server, count, is_held):
    """An account that knows `count` messages of the server, by its record or by its Maildir too; the words of a run."""
    words = account_at(folder, server.port)
    digest = hashlib.sha256(f"{LOOPBACK}\0{server.port}\0u".encode()).hexdigest()
    rows = b"".join(b"%s 1700000000 1\n" % uid_of(number) for number in range(1, count + 1))
    (folder / "account" / f"seen-{digest}").write_bytes(b"getmail-seen 2\n" + rows)
    for number in range(1, count + 1) if is_held else ():
        (folder / "account" / "mail" / "cur" / f"{digest}.{uid_of(number).hex()},S=0:2,S").touch()
    return words


def poll(folder, count, is_held):
    """The least processor time and the greatest peak of a poll with `count` messages known."""
    words = account_knowing(folder, Listings(count), count, is_held)
    costs = [measure.cost_of(words, wait=measure.watch) for _ in range(TURNS)]
    return min(cost.processor for cost in costs), max(cost.memory for cost in costs)


def measure_polls(folder, name, is_held):
    """Polls with few and with many messages known; prints the row, and answers whether it reached its marks."""
    few, _ = poll(folder, FEW, is_held)
    many, memory = poll(folder, MANY, is_held)
    allowed = MANY / FEW * math.log(MANY) / math.log(FEW)
    measure.print_row(name, f"{many * 1000:.0f} ms", f"{many / few:.1f}", f"{memory / measure.MEBIBYTE:.1f} MiB")
    return many <= MOST_POLL and many / few <= allowed


def measure_old_rows(folder):
    """A poll whose record has many rows of other days; prints the row, and answers whether it reached its mark."""
    words = account_knowing(folder, Listings(MANY), MANY, False)
    record, = (folder / "account").glob("seen-*")
    with record.open("ab") as file:
        file.writelines(b"%08x47e1d3a0 1600000000 1\n" % number for number in range(OLD_ROWS))
    costs = [measure.cost_of(words, wait=measure.watch) for _ in range(TURNS)]
    memory = max(cost.memory for cost in costs)
    measure.print_row(f"and {OLD_ROWS:,} rows of other days", f"{min(cost.processor for cost in costs) * 1000:.0f} ms", "",
                      f"{memory / measure.MEBIBYTE:.1f} MiB")
    return memory <= MOST_OLD_MEMORY


def measure_fetches(folder):
    plain = folder / "fetch"
    subprocess.run(["cc", "-O2", "-o", plain, Path(__file__).with_name("fetch.c")], check=True)
    measure.print_head("messages", "`getmail`", "plain program", "processor time", "of the plain program's", "peak of memory")
    return [measure_shape(folder, plain, store, *shape) for store in (MaildirStore, MboxrdStore) for shape in SHAPES]


def measure_known(folder):
    measure.print_head("known", "processor time", f"growth from {FEW:,}", "peak of memory")
    reached = [measure_polls(folder, known, is_held)
               for known, is_held in (("by the record alone", False), ("and held in the Maildir", True))]
    return [*reached, measure_old_rows(folder)]


PARTS = {"fetches": measure_fetches, "polls": measure_known}


def main():
    print(f"getmail from popd, best of {TURNS}; to be reached: processor time {MOST_RATIO} of the plain program's, memory "
          f"{MOST_MEMORY // measure.MEBIBYTE} MiB, into an mboxrd file and {MOST_TIMES_MESSAGE} of a message, "
          f"a poll of {MANY:,} in {MOST_POLL * 1000:.0f} ms")
    with tempfile.TemporaryDirectory(prefix="getmail-", dir=".") as name:
        for part in sys.argv[1:] or PARTS:
            reached = PARTS[part](Path(name).resolve())
            print(f"{part}: {', '.join(map(measure.verdict, reached))}; load {os.getloadavg()[0]:.1f}", flush=True)


if __name__ == "__main__":
    main()
