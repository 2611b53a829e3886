#!/usr/bin/env python3
"""Benchmark of `fetch_rules` by the program in `crates/probe`, which makes the calls of one session.

`join`, `read`, `merge`, `plan` and `bytes` over 2,000, 20,000 and 100,000 messages and a record of as many rows, which
knows half of the messages: microseconds of the processor, the least of some runs. To be reached: from 2,000 to 20,000
each grows at most 13 times, as n log n does, and all of them together take less than half a second at 100,000. Then
`read` of a record of 1,000,000 rows, whose time a row is to be at most twice that of 100,000.

The C library is set to keep freed memory (`KEEPING`): otherwise a few rows fit into what was freed before, but for many
rows it asks the system again, page by page, and the pages' cost is measured in place of the calls'.
"""

import os
import subprocess

import measure

PROGRAM = measure.small_program("probe")
RUNS = 15
FEW, SOME, MANY = 2_000, 20_000, 100_000
MOST_GROWTH = 13
MOST_SECONDS = 0.5
ROWS = 1_000_000
KEEPING = {"MALLOC_MMAP_THRESHOLD_": str(1 << 30), "MALLOC_TRIM_THRESHOLD_": str(1 << 30), "MALLOC_TOP_PAD_": str(1 << 26)}
MOST_A_ROW = 2


def least(what, count):
    """The microseconds of each call, the least of some runs."""
    runs = [measured(what, count) for _ in range(RUNS)]
    return {call: min(run[call] for run in runs) for call in runs[0]}


def measured(what, count):
    """The microseconds of each call in one run."""
    done = subprocess.run([PROGRAM, what, str(count)], env=os.environ | KEEPING, capture_output=True, text=True,
                          check=True)
    return {call: int(used) for call, used in (line.split() for line in done.stdout.splitlines())}


def main():
    print(f"fetch_rules, microseconds of the processor, least of {RUNS}; to be reached: growth at most {MOST_GROWTH}, "
          f"{MOST_SECONDS} s together")
    few, some, many = (least("session", count) for count in (FEW, SOME, MANY))
    measure.print_head("call", f"{FEW:,}", f"{SOME:,}", f"{MANY:,}", f"growth from {FEW:,} to {SOME:,}")
    for call in few:
        growth = some[call] / few[call]
        owner = "Listing" if call == "join" else "Seen"
        measure.print_row(f"`{call}`" if call == "plan" else f"`{owner}::{call}`", f"{few[call]:,}", f"{some[call]:,}",
                          f"{many[call]:,}", f"{growth:.1f}")
        if growth > MOST_GROWTH:
            print(f"{call}: {measure.verdict(False)}")
    together = sum(many.values()) / 1e6
    print(f"  together at {MANY}: {together:.2f} s ({measure.verdict(together < MOST_SECONDS)})")
    rows = least("read", ROWS)["read"]
    growth = rows / ROWS / (many["read"] / MANY)
    print(f"  read of {ROWS} rows: {rows / 1000:.0f} ms, a row {growth:.2f} of one of {MANY} "
          f"({measure.verdict(growth <= MOST_A_ROW)})")


if __name__ == "__main__":
    main()
