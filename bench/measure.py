"""What the benchmarks share: where the programs are, and the time and the memory of one run.

The packages of `tests` can be imported once this one is.
"""

import contextlib
import os
import re
import shutil
import subprocess
import sys
import time
from dataclasses import dataclass
from pathlib import Path

ROOT = Path(__file__).resolve().parents[1]
MEBIBYTE = 1 << 20

sys.path.insert(0, str(ROOT / "tests"))

from harness import kernel, programs  # noqa: E402 (the path has to be there first)


@dataclass(frozen=True)
class Cost:
    """The wall time of one run and its processor time in seconds, and its peak of memory in octets."""

    seconds: float
    processor: float
    memory: int


def built(path, target):
    """The file of a program; the benchmark ends if it isn't there."""
    if not path.is_file():
        sys.exit(f"{path} is not there: run `{target}`")
    return str(path)


def program(name):
    """The program `name`, as `make` leaves it."""
    return built(ROOT / "bin" / name, "make")


def small_program(name):
    """The program of a crate that only measures a library, as `make bench` leaves it."""
    return built(programs.path_of(name), "make bench")


def wait_for(child):
    """Waits for the end of a child: its status, what it used, and the peak of its memory in octets.

    The peak is the kernel's for the child alone. It is never below this process's own size, which the child has until
    it executes the program; so what is measured has to be larger than that.
    """
    _, status, usage = os.wait4(child, 0)
    return status, usage, usage.ru_maxrss * 1024


def watch(child):
    """The same for a program that may be smaller than this process: its peak is asked for every few milliseconds."""
    memory, ended = 0, 0
    while not ended:
        with contextlib.suppress(OSError, IndexError):
            memory = kernel.peak_of_memory(child)
        time.sleep(0.002)
        ended, status, usage = os.wait4(child, os.WNOHANG)
    return status, usage, memory


def cost_of(words, given=os.devnull, wait=wait_for):
    """Runs `words` over the file `given`, its output dropped, and answers what the run cost."""
    with open(given, "rb") as source, open(os.devnull, "wb") as nowhere:
        begun = time.perf_counter()
        child = os.posix_spawnp(words[0], words, os.environ, file_actions=[
            (os.POSIX_SPAWN_DUP2, source.fileno(), 0), (os.POSIX_SPAWN_DUP2, nowhere.fileno(), 1)])
        status, usage, memory = wait(child)
        seconds = time.perf_counter() - begun
    if os.waitstatus_to_exitcode(status) != 0:
        sys.exit(f"{' '.join(map(str, words))} over {given} ended with {os.waitstatus_to_exitcode(status)}")
    return Cost(seconds, usage.ru_utime + usage.ru_stime, memory)


def can_count_instructions():
    return shutil.which("valgrind") is not None


def instructions(words, given=b"", **environment):
    """How many instructions of its own, not of the system's, a run takes that ends well."""
    run = subprocess.run(["valgrind", "--tool=callgrind", "--callgrind-out-file=/dev/null", *words], input=given, check=True,
                         stdout=subprocess.DEVNULL, stderr=subprocess.PIPE, env={**os.environ, **environment})
    return int(re.search(rb"Collected : (\d+)", run.stderr)[1])


def print_row(*cells):
    """Prints a row of a table, as in bench/README.md."""
    print("| " + " | ".join(map(str, cells)) + " |", flush=True)


def print_head(*names):
    """Prints the first two lines of a table."""
    print_row(*names)
    print("|" + "---|" * len(names), flush=True)


def verdict(reached):
    """The word after a figure that has a mark to reach."""
    return "reached" if reached else "NOT reached"
