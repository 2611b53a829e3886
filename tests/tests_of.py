#!/usr/bin/env python3
"""Prints what tests a crate: the files of the libraries' tests that use it, the tests from outside of the programs that are
built on it, and its mutants.

    python3 tests/tests_of.py pop3_wire      # without a name, of every crate
"""

import re
import sys
from pathlib import Path

TOP = Path(__file__).resolve().parent.parent
sys.path[:0] = [str(TOP), str(TOP / "tests")]

from build import crates_of  # noqa: E402 (the path has to be there first)
from harness import programs  # noqa: E402


def tests_of(crate):
    """A line for each command that tests the crate, with what it runs."""
    tests = TOP / "crates" / "tests" / "src"
    files = sorted(path for path in tests.rglob("*.rt") if re.search(rf"^use {crate}::", path.read_text(), re.MULTILINE))
    if files:
        yield "in crates/tests, `rt test`:", [str(path.relative_to(tests)) for path in files]
    names = [name for name in programs.NAMES if crate in crates_of([name])]
    if names:
        yield f"`python3 tests/run.py {' '.join(f'--only {name}' for name in names)}`:", [f"tests/{name}" for name in names]
    bodies = sorted(path.stem for path in (TOP / "crates" / crate / "must-fail").glob("*.edit"))
    if bodies:
        yield f"`rt must-fail {crate}`:", bodies


def main():
    for crate in sys.argv[1:] or crates_of([*programs.NAMES, "tests"]):
        print(crate)
        for command, tested in tests_of(crate):
            print(f"  {command} {', '.join(tested)}")


if __name__ == "__main__":
    main()
