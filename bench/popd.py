#!/usr/bin/env python3
"""Benchmark of `popd`: a plain socket client fetches 2,000 messages of 2 KB and 20 of 5 MB, one command at a time.

In the same run the same client fetches the same messages from `prepared_server.py`, fifty lines of Python that only
write replies made before. For both: messages and octets a second and their ratio, the best of some turns taken one
after the other; for `popd` the peak of memory too. To be reached: faster than that server on small messages, and
at most 8 MiB of memory for messages of any size.

Beside dovecot, if that is installed: logins, listings, TOP and RETR over the same files. Then logins to Maildirs of 20,000 and
of 100,000 messages with names of 40 octets; to be reached: dovecot's memory, and a growth of the processor time that is linear
within a tenth. With valgrind, if that is installed: the instructions of these, and how many refused passwords take that differ
from the right one in different places.

Words choose parts: small large visits logins greatest passwords.
"""

import contextlib
import os
import socket
import subprocess
import sys
import tempfile
import time
from dataclasses import dataclass
from pathlib import Path

import dovecot
import measure
from harness import kernel
from harness.kernel import LOOPBACK

TURNS = 9
VISITS = 4
ROUNDS = 3
MEMORY = "/dev/shm" if kernel.is_tmpfs("/dev/shm") else None
SECONDS = 60
SETTLED_SECONDS = 4
SECONDS_BETWEEN_LOGINS = 0.3
MOST_MEMORY = 8 * measure.MEBIBYTE
# Messages of logins, of dovecot's memory, and how much more a message may take among many than among few.
LOGINS = 20_000, 100_000
MOST_OF_MEMORY = 1.0
MOST_GROWTH = 1.1
LETTER_HEAD = b"From: Ada <ada@example.org>\nSubject: a letter\n\n"
LETTER_LINE = b"A line of a common length, as a letter to somebody has them.\n"
PREPARED_SERVER = Path(__file__).with_name("prepared_server.py")


@dataclass(frozen=True)
class Fetch:
    """One connection in which every message was fetched: its time from the first RETR on, and what came."""

    seconds: float
    octets: int
    memory: int


class Client:
    """A POP3 client that takes a reply as it comes and looks only for its end."""

    def __init__(self, port):
        self.socket = socket.create_connection((LOOPBACK, port), timeout=SECONDS)
        self.socket.setsockopt(socket.IPPROTO_TCP, socket.TCP_NODELAY, 1)

    def reply(self, end):
        """Reads up to `end`, which closes the reply, and answers how many octets came."""
        count, last = 0, b""
        while not last.endswith(end):
            piece = self.socket.recv(measure.MEBIBYTE)
            if not piece:
                sys.exit("the server ended the connection")
            count += len(piece)
            last = (last + piece)[-len(end):]
        return count

    def ask(self, command, end=b"\r\n"):
        """Sends a command, which none of these servers refuses, and reads its reply."""
        self.socket.sendall(command)
        return self.reply(end)

    def log_in(self):
        self.reply(b"\r\n")
        for command in (b"USER u\r\n", b"PASS sesame\r\n"):
            self.socket.sendall(command)
            self.reply(b"\r\n")

    def fetch(self, count):
        """Fetches the messages 1 to `count`, each once the one before has come; how many octets came."""
        octets = 0
        for number in range(1, count + 1):
            self.socket.sendall(b"RETR %d\r\n" % number)
            octets += self.reply(b"\r\n.\r\n")
        return octets


def fetch_all(port, count, process):
    """One connection to the server that listens on the port."""
    client = Client(port)
    client.log_in()
    begun = time.perf_counter()
    octets = client.fetch(count)
    seconds = time.perf_counter() - begun
    memory = kernel.peak_of_memory(process.pid)
    client.socket.sendall(b"QUIT\r\n")
    client.reply(b"\r\n")
    client.socket.close()
    process.wait(timeout=SECONDS)
    return Fetch(seconds, octets, memory)


def fetch_from_popd(maildir, count):
    """Fetches all messages from `popd` over the Maildir."""
    port = kernel.free_port()
    words = [measure.program("popd"), "--listen", f"{LOOPBACK}:{port}", "--connections", "1", "u",
             str(maildir.parent / "password"), str(maildir)]
    with subprocess.Popen(words) as process:
        wait_until(lambda: kernel.listens(port) or process.poll() is not None)
        return fetch_all(port, count, process)


def fetch_from_prepared(maildir, count):
    """Fetches all messages from the server with prepared replies."""
    port_file = maildir.parent / "port"
    port_file.unlink(missing_ok=True)
    paths = sorted((maildir / "new").iterdir())
    with subprocess.Popen([sys.executable, PREPARED_SERVER, port_file, *paths]) as process:
        wait_until(lambda: port_file.exists() and port_file.read_text().endswith("\n"))
        return fetch_all(int(port_file.read_text()), count, process)


def wait_until(holds):
    deadline = time.monotonic() + SECONDS
    while not holds():
        if time.monotonic() > deadline:
            sys.exit("a server did not begin to listen")
        time.sleep(0.005)


def make_maildir(folder, count, octets):
    """A Maildir of `count` messages of about `octets` octets each, with names of 40 octets."""
    maildir = Path(folder) / f"Maildir-{count}"
    for part in ("tmp", "new", "cur"):
        (maildir / part).mkdir(parents=True)
    password = Path(folder) / "password"
    password.write_bytes(b"sesame\n")
    password.chmod(0o600)
    for number in range(count):
        (maildir / "new" / f"1700000000.M{number:06}P1234.mail.example.org").write_bytes(LETTER_HEAD + LETTER_LINE * (octets // len(LETTER_LINE)))
    return maildir


def fetch_in_turns(maildir, count):
    """The fetches from `popd` and from the prepared server, some of each, taken one after the other."""
    turns = [(fetch_from_popd(maildir, count), fetch_from_prepared(maildir, count)) for _ in range(TURNS)]
    return tuple(zip(*turns))


def print_speed(name, count, ours, theirs):
    """Prints both servers' speed, each from its best turn, and answers their ratio."""
    best = [min(fetches, key=lambda fetch: fetch.seconds) for fetches in (ours, theirs)]
    for server, fetch in zip(("popd", "prepared replies"), best):
        print(f"  {name}, {server}: {count / fetch.seconds:.0f} messages/s, "
              f"{fetch.octets / fetch.seconds / 1e6:.0f} MB/s")
    return best[1].seconds / best[0].seconds


def measure_small(folder):
    """Many small messages: what counts is the speed."""
    name, count = "2,000 of 2 KB", 2000
    ours, theirs = fetch_in_turns(make_maildir(folder, count, 2_000), count)
    ratio = print_speed(name, count, ours, theirs)
    peak = max(fetch.memory for fetch in ours)
    print(f"  {name}: ratio {ratio:.2f} ({measure.verdict(ratio > 1)}), peak of memory {peak / 1e6:.1f} MB", flush=True)


def measure_large(folder):
    """A few large messages: what counts is the memory."""
    name, count, octets = "20 of 5 MB", 20, 5_000_000
    maildir = make_maildir(folder, count, octets)
    ours, theirs = fetch_in_turns(maildir, count)
    ratio = print_speed(name, count, ours, theirs)
    peak = max(fetch.memory for fetch in ours)
    print(f"  {name}: ratio {ratio:.2f}, peak of memory {peak / measure.MEBIBYTE:.1f} MiB "
          f"({measure.verdict(peak <= MOST_MEMORY)})", flush=True)


@dataclass(frozen=True)
class Visit:
    """The times of one connection: from PASS to the answer to STAT, both listings, and a command for each message."""

    login: float
    listings: float
    tops: float
    texts: float


def visit(port, count):
    """Logs in and asks for everything once, one command at a time."""
    client = Client(port)
    client.reply(b"\r\n")
    client.ask(b"USER u\r\n")
    marks = [time.perf_counter()]
    client.ask(b"PASS sesame\r\n")
    client.ask(b"STAT\r\n")
    marks.append(time.perf_counter())
    for command in (b"LIST\r\n", b"UIDL\r\n"):
        client.ask(command, b"\r\n.\r\n")
    marks.append(time.perf_counter())
    for number in range(1, count + 1):
        client.ask(b"TOP %d 10\r\n" % number, b"\r\n.\r\n")
    marks.append(time.perf_counter())
    client.fetch(count)
    marks.append(time.perf_counter())
    client.ask(b"QUIT\r\n")
    client.socket.close()
    return Visit(*(after - before for before, after in zip(marks, marks[1:])))


class Popd:
    """`popd` over a Maildir."""

    def processes(self):
        return [self.process.pid]

    def __init__(self, maildir):
        self.maildir = maildir

    def __enter__(self):
        self.port = kernel.free_port()
        words = [measure.program("popd"), "--listen", f"{LOOPBACK}:{self.port}", "u",
                 str(self.maildir.parent / "password"), str(self.maildir)]
        self.process = subprocess.Popen(words)
        wait_until(lambda: kernel.listens(self.port) or self.process.poll() is not None)
        return self

    def __exit__(self, *_):
        self.memory = kernel.peak_of_memory(self.process.pid)
        self.process.terminate()
        _, _, usage = os.wait4(self.process.pid, 0)
        self.process.returncode = 0
        self.processor = usage.ru_utime + usage.ru_stime


def print_visits(name, server, first, later, processor, count):
    """Prints the row of a server: its first visit and the best of the later ones; the last three in microseconds a message."""
    best = [min(getattr(one, what) for one in later) for what in ("login", "listings", "tops", "texts")]
    measure.print_row(name, server, f"{first.login * 1e3:.1f} ms", f"{best[0] * 1e3:.1f} ms", f"{best[1] * 1e3:.1f} ms",
                      f"{best[2] / count * 1e6:,.0f}", f"{best[3] / count * 1e6:,.0f}",
                      f"{processor / count / (1 + len(later)) * 1e6:,.0f}")
    return best


def measure_beside_dovecot(folder, name, count, octets):
    """The same visits to `popd` and to dovecot, over the same files; their ratios."""
    maildir = make_maildir(folder, count, octets)
    # Both servers look again through a folder that was changed just now.
    time.sleep(SETTLED_SECONDS)
    with Popd(maildir) as ours:
        our_visits = [visit(ours.port, count) for _ in range(VISITS)]
    measure.print_head("messages", "server", "PASS and STAT, first", "later", "LIST and UIDL", "TOP 10", "RETR", "processor time")
    best = print_visits(name, "`popd`", our_visits[0], our_visits[1:], ours.processor, count)
    if not dovecot.is_there():
        print(f"  {name}, popd: peak of memory {ours.memory / 1e6:.1f} MB", flush=True)
        return
    with dovecot.Dovecot(folder, maildir) as theirs:
        visits = [visit(theirs.port, count) for _ in range(VISITS)]
    other = print_visits("", "dovecot", visits[0], visits[1:], theirs.processor, count)
    print(f"  {name}, popd: peak of memory {ours.memory / 1e6:.1f} MB", flush=True)
    ratios = [mine / yours for mine, yours in zip(best, other)]
    print(f"  {name}: of dovecot's time: PASS and STAT from the second login on {ratios[0]:.2f} "
          f"({measure.verdict(ratios[0] < 1)}), LIST and UIDL {ratios[1]:.2f}, TOP {ratios[2]:.2f} "
          f"({measure.verdict(ratios[2] <= 2)}), RETR {ratios[3]:.2f}, processor time "
          f"{ours.processor / theirs.processor:.2f}", flush=True)


@dataclass(frozen=True)
class Login:
    """The processor time of all processes of a server for one login, and the greatest peak of memory of one of them after
    both listings."""

    processor: float
    memory: int


def log_in_and_list(server):
    before = {process: kernel.processor_time(process) for process in server.processes()}
    client = Client(server.port)
    client.log_in()
    # Dovecot answers PASS before it opens the Maildir.
    client.ask(b"STAT\r\n")
    taken = sum(kernel.processor_time(process) - before.get(process, 0) for process in server.processes())
    for command in (b"LIST\r\n", b"UIDL\r\n"):
        client.ask(command, b"\r\n.\r\n")
    memory = max(kernel.peak_of_memory(process) for process in server.processes())
    client.ask(b"QUIT\r\n")
    client.socket.close()
    time.sleep(SECONDS_BETWEEN_LOGINS)
    return Login(taken, memory)


def logins_of(server):
    """The cost of the first login to a server that was just started, and those of later ones."""
    with server:
        first, *later = (log_in_and_list(server) for _ in range(VISITS))
    return first, later


def print_logins(name, server, rounds):
    """Prints the row of a server: the least of its first logins and of the later ones, and both peaks."""
    firsts, laters = [first for first, _ in rounds], [one for _, later in rounds for one in later]
    times = [min(login.processor for login in logins) for logins in (firsts, laters)]
    peaks = [max(login.memory for login in logins) for logins in (firsts, laters)]
    measure.print_row(name, server, *(f"{one * 1e3:.1f} ms" for one in times),
                      *(f"{peak / measure.MEBIBYTE:.1f} MiB" for peak in peaks))
    return times, peaks


def measure_logins(folders):
    """Logins to `popd` over Maildirs of 20,000 and of 100,000 messages, in turns, and to dovecot: their processor times, the
    growth of a message's from the one to the other, and the peaks of memory."""
    maildirs = [make_maildir(folder, count, 400) for folder, count in zip(folders, LOGINS)]
    time.sleep(SETTLED_SECONDS)
    rounds = [[logins_of(Popd(maildir)) for maildir in maildirs] for _ in range(ROUNDS)]
    if measure.can_count_instructions():
        print_instructions(maildirs)
    measure.print_head("messages", "server", "first login", "later", "peak of memory, first", "later")
    costs = []
    for folder, maildir, count, ours in zip(folders, maildirs, LOGINS, zip(*rounds)):
        costs.append(print_logins(f"{count:,} of 400 octets", "`popd`", ours))
        if dovecot.is_there():
            compare_logins(costs[-1], print_logins("", "dovecot", [logins_of(dovecot.Dovecot(folder, maildir))]))
    growths = [growth_of(*pair) for pair in zip(*(times for times, _ in costs))]
    print(f"  growth of a message's processor time from {LOGINS[0]:,} to {LOGINS[1]:,}: at the first login {growths[0]:.2f}, at "
          f"later ones {growths[1]:.2f} ({measure.verdict(max(growths) <= MOST_GROWTH)})", flush=True)


def compare_logins(ours, theirs):
    times, peaks = ([mine / yours for mine, yours in zip(*pair)] for pair in zip(ours, theirs))
    print(f"  of dovecot's processor time at the first login {times[0]:.2f}, at later ones {times[1]:.2f}; of its peak of memory "
          f"{peaks[0]:.2f} ({measure.verdict(peaks[0] <= MOST_OF_MEMORY)}), {peaks[1]:.2f} "
          f"({measure.verdict(peaks[1] <= MOST_OF_MEMORY)})", flush=True)


def growth_of(few, many):
    return many / few / (LOGINS[1] / LOGINS[0])


def print_instructions(maildirs):
    """The instructions of a first login, for each message, and their growth."""
    counts = [measure.instructions([measure.program("popd"), "u", maildir.parent / "password", maildir],
                                   b"USER u\r\nPASS sesame\r\n") for maildir in maildirs]
    print(f"  instructions of a first login, for each message: {', '.join(f'{taken / count:,.0f}' for taken, count in zip(counts, LOGINS))}; "
          f"growth {growth_of(*counts):.2f} ({measure.verdict(growth_of(*counts) <= MOST_GROWTH)})", flush=True)


def peak_for(maildir, command):
    """The peak of memory of a `popd` that was asked this one command for the Maildir's only message."""
    with Popd(maildir) as server:
        client = Client(server.port)
        client.log_in()
        client.ask(command, b"\r\n.\r\n")
        client.ask(b"QUIT\r\n")
        client.socket.close()
    return server.memory


def measure_greatest(folder):
    """One message of 100 MB: what counts is the memory, for all of it by RETR and by TOP."""
    octets = 100_000_000
    maildir = make_maildir(folder, 1, octets)
    for command in (b"RETR 1\r\n", b"TOP 1 99999999\r\n"):
        peak = peak_for(maildir, command)
        print(f"  one of 100 MB, {command.decode().strip()}: peak of memory {peak / measure.MEBIBYTE:.1f} MiB "
              f"({measure.verdict(peak <= MOST_MEMORY)})", flush=True)


def instructions(maildir, password):
    """How many instructions `popd` takes for a thousand logins with this password, which are refused."""
    words = [measure.program("popd"), "u", maildir.parent / "password", maildir]
    return measure.instructions(words, b"USER u\r\nPASS %s\r\n" % password * 1_000)


def measure_passwords(folder):
    """Passwords of 500 octets, of which one is wrong: the first, one in the middle, the last."""
    if not measure.can_count_instructions():
        print("  valgrind is not installed: no instructions are counted")
        return
    maildir = make_maildir(folder, 0, 0)
    right = b"p" * 500
    (maildir.parent / "password").write_bytes(right)
    counts = [instructions(maildir, right[:place] + b"q" + right[place + 1:]) for place in (0, 250, 499)]
    spread = (max(counts) - min(counts)) / min(counts)
    print(f"  refused passwords that differ in the first, a middle or the last octet: {min(counts) // 1_000} instructions each, "
          f"{spread:.4%} apart ({measure.verdict(spread < 0.001)})", flush=True)


def measure_visits(*folders):
    print(f"beside dovecot, best of {VISITS - 1} visits after the first; to be reached: its time at PASS and STAT, twice "
          "its time at TOP, 8 MiB of memory for a message of 100 MB")
    for folder, shape in zip(folders, (("2,000 of 2 KB", 2_000, 2_000), ("20,000 of 2 KB", 20_000, 2_000), ("20 of 5 MB", 20, 5_000_000))):
        measure_beside_dovecot(folder, *shape)


# What can be measured, by its name: in how many folders, and what measures it.
PARTS = {
    "small": (1, measure_small),
    "large": (1, measure_large),
    "visits": (3, measure_visits),
    "logins": (2, lambda *folders: measure_logins(folders)),
    "greatest": (1, measure_greatest),
    "passwords": (1, measure_passwords),
}


def main():
    print(f"popd --listen, one command at a time, best of {TURNS}; to be reached: ratio above 1 on small messages, "
          "8 MiB of memory")
    if not dovecot.is_there():
        print("  dovecot is not installed, or this is not root: popd alone")
    for part in sys.argv[1:] or PARTS:
        count, measured = PARTS[part]
        with contextlib.ExitStack() as stack:
            # In memory, if it can be: many files take no time of a disk.
            measured(*(stack.enter_context(tempfile.TemporaryDirectory(dir=MEMORY)) for _ in range(count)))
        print(f"{part}: load {os.getloadavg()[0]:.1f}", flush=True)


if __name__ == "__main__":
    main()
