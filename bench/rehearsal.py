#!/usr/bin/env python3
"""Benchmark of `getmail --rehearse`, a session over devices in memory, beside `tr -d '\\r'` over the same bytes.

One message of 64 MiB: many short lines, one long line, lines that all begin with a dot; then 2,000 messages of 2 KB and 20
of 5 MB. For each, in one run: octets a second of both programs and their ratio, the best of some turns taken one after the
other, the ratio of their processor times, which other work on the machine moves less, and the peak of memory as a multiple
of the texts, which the Maildir in memory keeps. To be reached: half the speed of `tr`, and memory of four times the texts, or
32 MiB if that is more.
"""

import tempfile
from pathlib import Path

import measure

MESSAGE = 64 * measure.MEBIBYTE
TURNS = 9
LEAST_RATIO = 0.5
MOST_MEMORY = 4
LEAST_MEMORY = 32 * measure.MEBIBYTE

SHAPES = (("short lines", b"A line of a common length, as a letter to somebody has them.\r\n"),
          ("one long line", b"x" * 64),
          ("lines with a dot", b"..\r\n"))
SESSIONS = (("2,000 of 2 KB", 2000, 2_000), ("20 of 5 MB", 20, 5_000_000))


def write_conversation(path, piece):
    """Writes what a server says to give one message made of `piece`, and answers the message's length there."""
    block = piece * (measure.MEBIBYTE // len(piece))
    blocks = MESSAGE // len(block)
    with open(path, "wb") as conversation:
        conversation.write(b"+OK hi\r\n+OK\r\n+OK\r\n+OK 1 %d\r\n" % MESSAGE)
        conversation.write(b"+OK\r\n1 a1\r\n.\r\n+OK\r\n1 %d\r\n.\r\n+OK\r\n" % MESSAGE)
        for _ in range(blocks):
            conversation.write(block)
        conversation.write((b"" if piece.endswith(b"\r\n") else b"\r\n") + b".\r\n+OK bye\r\n")
    return blocks * len(block)


def write_messages(path, messages, length):
    """Writes what a server says to give `messages` messages of short lines, and answers how many octets that is."""
    line = SHAPES[0][1]
    text = line * (length // len(line))
    numbers = range(1, messages + 1)
    with open(path, "wb") as conversation:
        conversation.write(b"+OK hi\r\n+OK\r\n+OK\r\n+OK %d %d\r\n+OK\r\n" % (messages, messages * len(text)))
        conversation.writelines(b"%d id-%d\r\n" % (number, number) for number in numbers)
        conversation.write(b".\r\n+OK\r\n")
        conversation.writelines(b"%d %d\r\n" % (number, len(text)) for number in numbers)
        conversation.write(b".\r\n")
        conversation.writelines(b"+OK\r\n" + text + b".\r\n" for _ in numbers)
        conversation.write(b"+OK bye\r\n")
    return messages * len(text)


def measure_shape(name, conversation, length):
    """Measures the session of one conversation, prints its row, and answers whether it reached its marks."""
    ours, theirs = [], []
    for _ in range(TURNS):
        ours.append(measure.cost_of([measure.program("getmail"), "--rehearse"], conversation))
        theirs.append(measure.cost_of(["tr", "-d", "\\r"], conversation))
    fastest = min(cost.seconds for cost in ours)
    fastest_tr = min(cost.seconds for cost in theirs)
    ratio = fastest_tr / fastest
    processor_ratio = min(cost.processor for cost in theirs) / min(cost.processor for cost in ours)
    memory = max(cost.memory for cost in ours)
    measure.print_row(name, f"{length / fastest / 1e6:,.0f} MB/s", f"{length / fastest_tr / 1e6:,.0f} MB/s", f"{ratio:.2f}",
                      f"{processor_ratio:.2f}", f"{memory / length:.2f}")
    return ratio >= LEAST_RATIO and memory <= max(MOST_MEMORY * length, LEAST_MEMORY)


def main():
    print(f"getmail --rehearse, one message of {MESSAGE // measure.MEBIBYTE} MiB, and several; best of {TURNS}; "
          f"to be reached: ratio {LEAST_RATIO}, memory {MOST_MEMORY} times the texts")
    with tempfile.TemporaryDirectory() as folder:
        conversation = Path(folder) / "conversation"
        measure.print_head("messages", "`getmail`", "`tr`", "ratio", "ratio of processor times", "memory, of the texts")
        reached = [measure_shape(name, conversation, write_conversation(conversation, piece)) for name, piece in SHAPES]
        reached += [measure_shape(name, conversation, write_messages(conversation, messages, length))
                    for name, messages, length in SESSIONS]
    print(f"ratio and memory: {measure.verdict(all(reached))}")


if __name__ == "__main__":
    main()
