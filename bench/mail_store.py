#!/usr/bin/env python3
"""Measures `held` and `deliver` of mail_store on Maildirs of the file system.

`held` is called over 2,000 files and 2,000 items and over 20,000 of each; its time must grow no
faster than n log n. `deliver` puts 2,000 texts of 2 KB beside a plain loop in C (deliver.c).
Each figure is the least of several runs.

Usage: bench/mail_store.py [FOLDER]; the Maildirs are made in FOLDER, which decides the file system
(the working folder if none is given).
"""

import math
import shutil
import subprocess
import sys
import tempfile
from pathlib import Path

import measure
from harness.maildir import make_maildir
from probe.watched import name_of

PROGRAM = measure.small_program("probe")
RUNS = 5


def fill(path, count):
    """Puts a file for each odd number into `new` or `cur`, and as many of another account."""
    for number in range(1, count + 1):
        name = name_of(number) if number % 2 else "1700000000.%d.host" % number
        place = path / "new" / name if number % 4 < 2 else path / "cur" / (name + ":2,S")
        place.touch()


def run(*words):
    """What a program prints: a count, and microseconds of the clock and of the processor."""
    out = subprocess.run(words, check=True, capture_output=True, text=True).stdout
    return [int(word) for word in out.split()]


def least(command):
    results = [command() for _ in range(RUNS)]
    return results[0][0], min(r[1] for r in results), min(r[2] for r in results)


def measure_held(folder):
    measure.print_head("files and items", "processor time", "growth")
    times = {}
    for count in (2000, 20000):
        path = make_maildir(folder / f"held-{count}")
        fill(path, count)
        found, _, processor = least(lambda: run(PROGRAM, "held", path, str(count)))
        assert found == (count + 1) // 2, found
        times[count] = processor
        growth = f"{processor / times[2000]:.1f}" if count > 2000 else ""
        measure.print_row(f"{count:,}", f"{processor / 1000:.1f} ms", growth)
    allowed = 10 * math.log(20000) / math.log(2000)
    grown = times[20000] / times[2000]
    print(f"n log n grows {allowed:.1f} times")
    return grown <= 1.5 * allowed


def measure_deliver(folder, plain):
    measure.print_head("2,000 deliveries beside", "of its time by the clock", "of its processor time")

    def times(*words):
        def once():
            path = make_maildir(folder / "deliver")
            try:
                return run(*[path if word is None else word for word in words])
            finally:
                shutil.rmtree(path)
        _, wall, processor = least(once)
        return wall, processor

    ours = times(PROGRAM, "deliver", None, "2000")
    for kind, words in (
        ("a plain loop", (plain, None, "2000")),
        ("one that flushes `new` too", (plain, None, "2000", "new")),
    ):
        theirs = times(*words)
        measure.print_row(kind, f"{ours[0] / theirs[0]:.2f}", f"{ours[1] / theirs[1]:.2f}")


def main():
    where = sys.argv[1] if len(sys.argv) > 1 else "."
    with tempfile.TemporaryDirectory(prefix="mail_store-", dir=where) as name:
        folder = Path(name)
        plain = folder / "plain"
        subprocess.run(["cc", "-O2", "-o", plain, Path(__file__).with_name("deliver.c")], check=True)
        grows_well = measure_held(folder)
        measure_deliver(folder, plain)
    if not grows_well:
        print("held grows faster than n log n")
        return 1
    return 0


if __name__ == "__main__":
    sys.exit(main())
