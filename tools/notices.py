#!/usr/bin/env python3
"""Prints the notices of the kit's crates that the programs contain.

    python3 tools/notices.py                  # the text, which is NOTICES

crates.txt names these crates; `BELOW` are those that they contain in turn.
"""

import subprocess
from pathlib import Path

from axioms import PROGRAMS
from sources import TOP, print_whole
from build import crates_of

BELOW = {"strsim", "unicode_segmentation", "ucd_breaks"}
SILENT = {"std", "libc", "os"}
# A crate has one or two of these. Where it may be taken under one of two licences, this is the shorter one.
LICENCES = ("LICENSE", "LICENSE-MIT", "LICENSE-UNICODE")
BEGINNING = """\
The programs contain code of these crates of the Rattle kit, each with its notice, and of the kit's core, std, libc and
os, of which the kit has no notice."""


def texts():
    """The names of the crates that have the same notice, and that notice."""
    kit = Path(subprocess.run(["rt", "doc"], check=True, capture_output=True, text=True).stdout.strip()).parent / "rattle"
    lines = crates_of(PROGRAMS)
    named = {library for line in lines.values() for library in line.partition(":")[2].split()} - set(lines)
    notices = {}
    for crate in sorted((named | BELOW) - SILENT):
        paths = [path for path in (kit / crate / name for name in LICENCES) if path.is_file()]
        if not paths:
            raise SystemExit(f"no notice of {crate}")
        for path in paths:
            notices.setdefault(path.read_text().strip(), []).append(crate)
    return notices


def text_of():
    parts = (f"== {', '.join(names)}\n\n{notice}" for notice, names in texts().items())
    return "\n\n".join([BEGINNING, *parts]) + "\n"


if __name__ == "__main__":
    print_whole(text_of())
