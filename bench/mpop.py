#!/usr/bin/env python3
"""Benchmark of `getmail` beside mpop, if that is installed, in one run and in turns, mpop with pipelining off. All ids have
16 octets.

Polls of 20,000 and 100,000 known messages, none of them new: known by the record alone, or also held in the Maildir
(mpop looks into no Maildir). To be reached: at most mpop's processor time and memory, and a growth from
20,000 to 100,000 that is linear within a tenth.

Then a poll with one new message, which is fetched, where 20,000 are known and held, and where 20 are beside 500,000 files
of others. To be reached: at most 1.1 times mpop's processor time and 6 MiB; beside the others 4 MiB, and 1.5 times the
processor time of a program in C that only reads the folder.

Then what both remember of 20,000 messages, once `getmail` has fetched them and looked once more. To be reached: at most 36
octets a message.

Then fetches of 2,000, 20,000 and 100,000 messages of 400 octets and of one of 100 MB from `popd` into a Maildir in memory
(the tmpfs at /dev/shm), where no disk's waits count. To be reached: at most 1.1 times mpop's processor time, 0.37 for the one
of 100 MB, and for 100,000 1.2 times its memory. And the first poll after a fetch of 20,000 and of 100,000: at most 1.1 times
its processor time, and its memory. And sessions that fetch one message of 20,000 and of 100,000 that are new, in turns: the
growth of what comes before it is linear within a tenth, by the processor time, and by the instructions if valgrind is
installed.

Each time is the least of its turns, and the first turn's stands beside it. Words choose parts: polls new record fetches
first growth slow pipelining latency calls; `memory` is a fetch of 100,000, the first poll after it and a later one, once
each, for their peaks alone.

Then fetches without a mark: where each flush takes 5 ms, as on a slow disk (a library made here and preloaded waits in `fsync`
and `fdatasync`; three flushes a message are the price of the promise); beside mpop as it comes, with pipelining, from dovecot;
and the same by a relay with round trips of 20 to 100 ms. Last, if strace is installed, the calls of the system of a poll of 200
held messages and of one message more that is fetched, and how many of them are flushes.
"""

import contextlib
import importlib.util
import itertools
import os
import re
import shutil
import subprocess
import sys
import tempfile
from pathlib import Path

import dovecot
import measure
from harness.kernel import LOOPBACK
from harness.maildir import make_maildir
from relay import Relay

# By its path, since its name is also that of a package of the tests.
SPEC = importlib.util.spec_from_file_location("fetching", Path(__file__).with_name("getmail.py"))
ours = importlib.util.module_from_spec(SPEC)
SPEC.loader.exec_module(ours)

TURNS = 15
TURNS_OF_FETCHES = 7
TURNS_OF_MANY = 3
MANY = 100_000
POLLS = (20_000, 100_000)
OCTETS = 400
GREAT = 100_000_000
# So many messages of so many octets, and the mark of the processor time.
FETCHES = {(2_000, OCTETS): 1.1, (20_000, OCTETS): 1.1, (MANY, OCTETS): 1.1, (1, GREAT): 0.37}
MOST_FETCH_MEMORY = 1.2
MOST_FIRST = 1.1
MOST_NEW = 1.1
MOST_OF_READING = 1.5
# For so many messages known and so many files of others.
MOST_NEW_MEMORY = {(20_000, 0): 6 * measure.MEBIBYTE, (20, 500_000): 4 * measure.MEBIBYTE}
REMEMBERED = 20_000
MOST_REMEMBERED = 36
MOST_MEMORY = 1.0
MOST_GROWTH = 1.1
SLOWED = 200
ROUND_TRIPS = (0.02, 0.05, 0.1)
READ_FOLDER = """\
#include <dirent.h>
int main(int count, char **words) {
    DIR *folder = opendir(words[count - 1]);
    while (folder && readdir(folder)) {}
    return !folder;
}
"""
SLOW_FLUSHES = """\
#include <unistd.h>
int fsync(int descriptor) { (void)descriptor; return usleep(5000); }
int fdatasync(int descriptor) { return fsync(descriptor); }
"""
COUNTED = 200
FEW, MORE = 10, 110
CALL = re.compile(r"(\w+)\(")
MPOP = ["mpop", "--file=/dev/null", "--user=u", "--passwordeval=echo sesame", "--tls=off", "--auth=user", "--quiet",
        "--received-header=off", "--pipelining=off", "--keep=on", "--only-new=on"]
PIPELINED = [word for word in MPOP if word != "--pipelining=off"]


class Letters(ours.Listings):
    """A server that lists messages and gives each of them, one empty line, so that mpop gets to know them."""

    def __init__(self, count):
        super().__init__(count)
        self.replies[b"CAPA"] = b"-ERR\r\n"
        self.replies.update({b"RETR %d" % number: b"+OK\r\n\r\n.\r\n" for number in range(1, count + 1)})


def mpop_at(folder, port, words=MPOP):
    """The words of a run of mpop into a Maildir of the folder."""
    return [*words, f"--host={LOOPBACK}", f"--port={port}", f"--delivery=maildir,{folder}/mpop", f"--uidls-file={folder}/uidls"]


def known_to_mpop(folder, server):
    """An mpop that has fetched all that the server lists."""
    shutil.rmtree(folder / "mpop", ignore_errors=True)
    (folder / "uidls").unlink(missing_ok=True)
    make_maildir(folder / "mpop")
    words = mpop_at(folder, server.port)
    measure.cost_of(words)
    return words


def in_turns(ours, theirs, turns=TURNS):
    """What the runs of both cost, by turns; each word list is made anew for its run."""
    costs = [(measure.cost_of(ours(), wait=measure.watch), measure.cost_of(theirs(), wait=measure.watch)) for _ in range(turns)]
    return tuple(zip(*costs))


def least(costs):
    return min(cost.processor for cost in costs)


def time_of(costs):
    return f"{least(costs) * 1000:.0f} ms ({costs[0].processor * 1000:.0f})"


def greatest_memory(costs):
    return max(cost.memory for cost in costs)


def print_costs(name, ours, theirs):
    """Prints a row of both programs' costs, and answers the ratios of processor time and of memory."""
    ratio, memory = least(ours) / least(theirs), greatest_memory(ours) / greatest_memory(theirs)
    measure.print_row(name, time_of(ours), time_of(theirs), f"{ratio:.2f}",
                      f"{greatest_memory(ours) / measure.MEBIBYTE:.1f} MiB", f"{greatest_memory(theirs) / measure.MEBIBYTE:.1f} MiB",
                      f"{memory:.2f}")
    return ratio, memory


def measure_polls(folder, memory_folder):
    """Polls by the record alone and with the Maildir; answers whether all marks were reached."""
    reached, times = [], {False: [], True: []}
    for count in POLLS:
        server = Letters(count)
        known_to_mpop(memory_folder, server)
        shutil.copy(memory_folder / "uidls", folder / "uidls")
        make_maildir(folder / "mpop") if not (folder / "mpop").is_dir() else None
        for is_held in times:
            words = ours.account_knowing(folder, server, count, is_held)
            costs = in_turns(lambda words=words: words, lambda server=server: mpop_at(folder, server.port))
            ratio, memory = print_costs(f"{count:,}{', held' if is_held else ''}", *costs)
            times[is_held].append(least(costs[0]))
            reached.append(ratio <= 1 and memory <= MOST_MEMORY)
    for is_held, (few, many) in times.items():
        growth = many / few / (POLLS[1] / POLLS[0])
        name = "held" if is_held else "by the record alone"
        print(f"growth of a message's time from {POLLS[0]:,} to {POLLS[1]:,}, {name}: {growth:.2f}", flush=True)
        reached.append(growth <= MOST_GROWTH)
    return all(reached)


@contextlib.contextmanager
def kept(*paths):
    """Gives what puts these files back as they are now."""
    texts = [path.read_bytes() for path in paths]
    yield lambda: [path.write_bytes(text) for path, text in zip(paths, texts)]


def without_last(path, known):
    """Takes the last message out of what mpop remembers, so that so many are known."""
    *lines, _ = path.read_text().splitlines(keepends=True)
    path.write_text("".join(lines).replace(f" {known + 1} ", f" {known} "))


def measure_new(folder, known, others):
    """Polls with one new message among so many known, beside so many files of others; answers whether the marks were reached."""
    server = Letters(known + 1)
    known_to_mpop(folder, server)
    without_last(folder / "uidls", known)
    words = ours.account_knowing(folder, server, known, True)
    mail = folder / "account" / "mail"
    for number in range(others):
        (mail / "cur" / f"1700000000.{number}.other:2,S").touch()
    record, = (folder / "account").glob("seen-*")
    with kept(record, folder / "uidls") as put_back:

        def again(words):
            put_back()
            for maildir in (mail, folder / "mpop"):
                for path in (maildir / "new").iterdir():
                    path.unlink()
            return words

        costs = in_turns(lambda: again(words), lambda: again(mpop_at(folder, server.port)))
    if len(os.listdir(folder / "mpop" / "new")) != 1 or measure.cost_of(again(words)) and len(os.listdir(mail / "new")) != 1:
        sys.exit("the new message wasn't fetched")
    ratio, _ = print_costs(f"one new among {known:,} held" + (f", beside {others:,} other files" if others else ""), *costs)
    most = MOST_NEW
    if others:
        reading = measure_reading(folder, mail / "cur")
        ratio, most = least(costs[0]) / reading, MOST_OF_READING
        print(f"{ratio:.2f} times the {reading * 1000:.0f} ms of a program in C that reads the folder", flush=True)
    return ratio <= most and greatest_memory(costs[0]) <= MOST_NEW_MEMORY[known, others]


def measure_reading(folder, listed):
    """The least processor time in which a program in C reads the names of a folder."""
    source, program = folder / "read_folder.c", folder / "read_folder"
    source.write_text(READ_FOLDER)
    subprocess.run(["cc", "-O2", "-o", program, source], check=True)
    return least([measure.cost_of([program, listed]) for _ in range(TURNS)])


def measure_first_poll(folder, count, service):
    """The first poll after a fetch; answers whether the mark was reached."""
    words, theirs = ours.account_at(folder, service.port), fresh_mpop(folder, service.port)
    for each in (words, theirs):
        measure.cost_of(each)
    record, = (folder / "account").glob("seen-*")
    with kept(record, folder / "uidls") as put_back:

        def again(words):
            put_back()
            return words

        costs = in_turns(lambda: again(words), lambda: again(theirs))
    ratio, memory = print_costs(f"first poll after {count:,}", *costs)
    return ratio <= MOST_FIRST and memory <= MOST_MEMORY


def limited(folder, server):
    """The words of a first run that fetches one message."""
    words = ours.account_at(folder, server.port)
    with open(folder / "account" / "getmailrc", "a") as rc:
        rc.write("max_messages_per_session = 1\n")
    return words


def growth_of(few, many):
    return many / few / (POLLS[1] / POLLS[0])


def measure_growth(folder):
    """Sessions that fetch one message of those that are listed; answers whether the mark was reached."""
    servers = [Letters(count) for count in POLLS]
    costs = in_turns(*(lambda server=server: limited(folder, server) for server in servers))
    instructions = [measure.instructions(limited(folder, server)) for server in servers if measure.can_count_instructions()]
    for count, cost, taken in itertools.zip_longest(POLLS, costs, instructions):
        measure.print_row(f"{count:,}", time_of(cost), f"{taken / count:,.0f}" if taken else "",
                          f"{greatest_memory(cost) / measure.MEBIBYTE:.1f} MiB")
    growths = [growth_of(*pair) for pair in (map(least, costs), instructions) if pair]
    print(f"growth of a message's time from {POLLS[0]:,} to {POLLS[1]:,}, and of its instructions: "
          f"{', '.join(f'{growth:.2f}' for growth in growths)}", flush=True)
    return max(growths) <= MOST_GROWTH


def measure_memory(folder):
    """The peaks of memory with many messages; answers whether the marks were reached."""
    with fetchers(folder, MANY) as both:
        words = [each() for each in both]
        rows = [("fetch", MOST_FETCH_MEMORY), ("first poll", MOST_MEMORY), ("later poll", MOST_MEMORY)]
        peaks = [[measure.cost_of(each, wait=measure.watch).memory for each in words] for _ in rows]
    for (name, most), (own, theirs) in zip(rows, peaks):
        measure.print_row(f"{name} of {MANY:,}", *(f"{peak / measure.MEBIBYTE:.1f} MiB" for peak in (own, theirs)),
                          f"{own / theirs:.2f}", most)
    return all(own <= most * theirs for (_, most), (own, theirs) in zip(rows, peaks))


def measure_records(folder):
    """What both remember of a message; answers whether the mark was reached."""
    server = Letters(REMEMBERED)
    words = ours.account_at(folder, server.port)
    for _ in range(2):
        measure.cost_of(words)
    known_to_mpop(folder, server)
    record, = (folder / "account").glob("seen-*")
    octets, theirs = (path.stat().st_size / REMEMBERED for path in (record, folder / "uidls"))
    measure.print_row(f"{REMEMBERED:,}", f"{octets:.1f}", f"{theirs:.1f}", f"{octets / theirs:.2f}")
    return octets <= MOST_REMEMBERED


def fresh_mpop(folder, port, words=MPOP):
    """The words of a first run of mpop."""
    shutil.rmtree(folder / "mpop", ignore_errors=True)
    (folder / "uidls").unlink(missing_ok=True)
    make_maildir(folder / "mpop")
    return mpop_at(folder, port, words)


@contextlib.contextmanager
def fetchers(folder, count, octets=OCTETS):
    """Serves `count` messages; for each program what gives the words of its first run."""
    ours.make_served(folder, count, octets)
    with ours.Service(folder) as service:
        yield lambda: ours.account_at(folder, service.port), lambda: fresh_mpop(folder, service.port)


def measure_fetches(folder):
    """Fetches into a Maildir in memory; answers whether all marks were reached."""
    reached = []
    for (count, octets), most in FETCHES.items():
        with fetchers(folder, count, octets) as both:
            costs = in_turns(*both, TURNS_OF_FETCHES if count < MANY else TURNS_OF_MANY)
        if any(len(os.listdir(maildir / "new")) != count for maildir in (folder / "account" / "mail", folder / "mpop")):
            sys.exit(f"{count}: not all was fetched")
        ratio, memory = print_costs(f"{count:,}" if octets < GREAT else f"{count} of {octets // 1_000_000} MB", *costs)
        reached.append(ratio <= most and (count < MANY or memory <= MOST_FETCH_MEMORY))
    return all(reached)


def measure_first_polls(folder):
    """The first polls after fetches; answers whether all marks were reached."""
    reached = []
    for count in POLLS:
        ours.make_served(folder, count, OCTETS)
        with ours.Service(folder) as service:
            reached.append(measure_first_poll(folder, count, service))
    return all(reached)


@contextlib.contextmanager
def slow_flushes(folder):
    """Meanwhile each flush of a program that is run takes 5 ms and does nothing."""
    source, library = folder / "slow_flushes.c", folder / "slow_flushes.so"
    source.write_text(SLOW_FLUSHES)
    subprocess.run(["cc", "-O1", "-shared", "-fPIC", "-o", library, source], check=True)
    os.environ["LD_PRELOAD"] = str(library)
    try:
        yield
    finally:
        del os.environ["LD_PRELOAD"]


def measure_slow_flushes(folder):
    """A fetch with slow flushes, which has no mark."""
    with fetchers(folder, SLOWED) as both, slow_flushes(folder):
        costs = in_turns(*both, TURNS_OF_MANY)
    seconds, theirs = (min(cost.seconds for cost in each) for each in costs)
    measure.print_row(f"{SLOWED}", f"{seconds:.2f} s", f"{theirs:.2f} s", f"{seconds / theirs:.2f}")


@contextlib.contextmanager
def pipelining_server(folder, count):
    """Dovecot over `count` messages: it tells that commands may be sent ahead of their answers."""
    ours.make_served(folder, count, OCTETS)
    with tempfile.TemporaryDirectory() as room, dovecot.Dovecot(room, shutil.copytree(folder / "served", Path(room) / "served")) as server:
        yield server


def measure_pipelining(folder):
    """Fetches beside mpop as it comes, which have no mark."""
    for count in (2_000, 20_000):
        with pipelining_server(folder, count) as server:
            costs = in_turns(lambda: ours.account_at(folder, server.port), lambda: fresh_mpop(folder, server.port, PIPELINED), TURNS_OF_FETCHES)
        print_costs(f"{count:,}", *costs)


def measure_latency(folder):
    """Fetches over long lines, by the clock, which have no mark."""
    with pipelining_server(folder, SLOWED) as server:
        for round_trip in ROUND_TRIPS:
            with Relay(server.port, round_trip) as relay:
                own, *theirs = (measure.cost_of(words).seconds for words in (
                    ours.account_at(folder, relay.port), fresh_mpop(folder, relay.port), fresh_mpop(folder, relay.port, PIPELINED)))
            measure.print_row(f"{SLOWED}, {round_trip * 1000:.0f} ms", f"{own:.1f} s",
                              *(cell for other in theirs for cell in (f"{other:.1f} s", f"{own / other:.2f}")))


def calls_of(folder, words):
    """How many calls of the system a run makes, without those of its children, and how many of them are flushes."""
    note = folder / "calls"
    subprocess.run(["strace", "-o", note, *words], check=True, stdout=subprocess.DEVNULL)
    calls = [found[1] for found in map(CALL.match, note.read_text(errors="replace").splitlines()) if found]
    return len(calls), sum(name in ("fsync", "fdatasync") for name in calls)


def count_calls(folder):
    """Prints the calls of a poll and of a message."""
    if shutil.which("strace") is None:
        print("strace is not installed")
        return
    server = Letters(COUNTED)
    known_to_mpop(folder, server)
    polls = ours.account_knowing(folder, server, COUNTED, True), mpop_at(folder, server.port)
    measure.print_row(f"poll of {COUNTED}, held", *(f"{number}" for words in polls for number in calls_of(folder, words)))
    fetched = []
    for count in (FEW, MORE):
        with fetchers(folder, count) as both:
            fetched.append([number for words in both for number in calls_of(folder, words())])
    measure.print_row("a message", *(f"{(more - few) / (MORE - FEW):.1f}" for few, more in zip(*fetched)))


def parts(disk, memory):
    """What can be measured, by its name: the head of its table, and what measures it."""
    head = ("processor time (the first)", "mpop's", "ratio", "peak of memory", "mpop's", "ratio")
    return {
        "polls": (("poll", *head), lambda: measure_polls(disk, memory)),
        "new": (("poll", *head), lambda: all([measure_new(memory, *scene) for scene in MOST_NEW_MEMORY])),
        "record": (("record", "octets a message", "mpop's", "ratio"), lambda: measure_records(memory)),
        "fetches": (("fetch on tmpfs", *head), lambda: measure_fetches(memory)),
        "first": (("poll", *head), lambda: measure_first_polls(memory)),
        "growth": (("listed, one fetched", "processor time (the first)", "instructions a message", "peak of memory"),
                   lambda: measure_growth(memory)),
        "memory": (("memory", "peak", "mpop's", "ratio", "mark"), lambda: measure_memory(memory)),
        "slow": (("fetch, 5 ms a flush", "by the clock", "mpop's", "ratio"), lambda: measure_slow_flushes(memory)),
        "pipelining": (("fetch beside mpop with pipelining", *head), lambda: measure_pipelining(memory)),
        "latency": (("fetch, a round trip", "by the clock", "mpop's", "ratio", "with pipelining", "ratio"), lambda: measure_latency(memory)),
        "calls": (("session", "calls of the system", "flushes", "mpop's calls", "flushes"), lambda: count_calls(memory)),
    }


def main():
    if shutil.which("mpop") is None:
        sys.exit("mpop is not installed")
    print(f"getmail -q beside mpop -Q, best of {TURNS}, of {TURNS_OF_FETCHES} for fetches, {TURNS_OF_MANY} for {MANY:,} fetched")
    with tempfile.TemporaryDirectory(prefix="mpop-", dir=".") as name, tempfile.TemporaryDirectory(prefix="mpop-", dir="/dev/shm") as fast:
        known = parts(Path(name).resolve(), Path(fast).resolve())
        for part in sys.argv[1:] or known:
            names, measured = known[part]
            measure.print_head(*names)
            reached = measured()
            verdict = "" if reached is None else f"{measure.verdict(reached)}; "
            print(f"{part}: {verdict}load {os.getloadavg()[0]:.1f}", flush=True)


if __name__ == "__main__":
    main()
