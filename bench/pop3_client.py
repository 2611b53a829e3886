#!/usr/bin/env python3
"""Benchmark of `pop3_client` by the program in `crates/probe`, which holds a conversation with its standard input.

A text of 64 MiB taken piece by piece, in three shapes, beside `tr -d '\\r'` over the same bytes: octets a second of both
and their ratio, the best of some turns taken one after the other, the ratio of their processor times, and the peak of
memory. To be reached: half the speed of `tr`, and memory that doesn't grow with the text. Then listings of 20,000 and of
80,000 rows: the time of each, and how much more a row of the longer one costs; to be reached: at most twice.
"""

import tempfile
from pathlib import Path

import measure
import rehearsal

PROGRAM = measure.small_program("probe")
TURNS = 5
LEAST_RATIO = 0.5
MOST_MEMORY = 32 * measure.MEBIBYTE
FEW, MANY = 20_000, 80_000
MOST_A_ROW = 2


def best_of(words, given):
    """The least wall time, the least processor time and the greatest peak of some turns."""
    costs = [measure.cost_of(words, given) for _ in range(TURNS)]
    return measure.Cost(min(cost.seconds for cost in costs), min(cost.processor for cost in costs),
                        max(cost.memory for cost in costs))


def measure_text(name, piece, folder):
    """Measures one text, prints its row, and answers whether it reached its marks."""
    conversation = Path(folder) / "conversation"
    length = rehearsal.write_conversation(conversation, piece)
    ours, theirs = best_of([PROGRAM, "client"], conversation), best_of(["tr", "-d", "\\r"], conversation)
    ratio = theirs.seconds / ours.seconds
    measure.print_row(name, f"{length / ours.seconds / 1e6:,.0f} MB/s", f"{length / theirs.seconds / 1e6:,.0f} MB/s",
                      f"{ratio:.2f}", f"{theirs.processor / ours.processor:.2f}",
                      f"{ours.memory / measure.MEBIBYTE:.0f} MiB")
    return ratio >= LEAST_RATIO and ours.memory <= MOST_MEMORY


def measure_listing(rows, folder):
    """Measures the listings of `rows` empty messages, without their texts' time, and answers the seconds."""
    conversation = Path(folder) / "conversation"
    numbers = range(1, rows + 1)
    with open(conversation, "wb") as server:
        server.write(b"+OK hi\r\n+OK\r\n+OK\r\n+OK %d 0\r\n+OK\r\n" % rows)
        server.writelines(b"%d %064x\r\n" % (number, number) for number in numbers)
        server.write(b".\r\n+OK\r\n")
        server.writelines(b"%d 0\r\n" % number for number in numbers)
        server.write(b".\r\n")
        server.writelines(b"+OK\r\n.\r\n" for _ in numbers)
        server.write(b"+OK bye\r\n")
    cost = best_of([PROGRAM, "client"], conversation)
    print(f"  {rows} rows: {cost.seconds * 1000:.0f} ms, of processor time {cost.processor * 1000:.0f} ms", flush=True)
    return cost.processor


def main():
    print(f"pop3_client, one text of {rehearsal.MESSAGE // measure.MEBIBYTE} MiB, best of {TURNS}; to be reached: ratio "
          f"{LEAST_RATIO}, memory at most {MOST_MEMORY // measure.MEBIBYTE} MiB")
    with tempfile.TemporaryDirectory() as folder:
        measure.print_head("text", "client", "`tr`", "ratio", "ratio of processor times", "memory")
        reached = [measure_text(name, piece, folder) for name, piece in rehearsal.SHAPES]
        print(f"ratio and memory: {measure.verdict(all(reached))}")
        print("both listings, and as many empty texts")
        growth = measure_listing(MANY, folder) / measure_listing(FEW, folder) * FEW / MANY
    print(f"  a row of {MANY} costs {growth:.2f} of one of {FEW} ({measure.verdict(growth <= MOST_A_ROW)})")


if __name__ == "__main__":
    main()
