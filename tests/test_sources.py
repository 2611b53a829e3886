#!/usr/bin/env python3
"""No name is defined in two files of `specs/`, and a line has at most 120 characters, in proofs 140."""

import sys
from pathlib import Path

TOP = Path(__file__).resolve().parent.parent
sys.path[:0] = [str(TOP / "tools")]

from sources import definitions_in  # noqa: E402 (the path has to be there first)

# The operator of two kinds of answers.
TWICE = {"◌>>=◌"}
WIDEST = {"src": 120, "specs": 120, "proofs": 140}


def doubles():
    files = {}
    for path in sorted(TOP.glob("crates/*/specs/**/*.antt")):
        for name in definitions_in(path.read_text()).lines:
            files.setdefault(name, []).append(str(path.relative_to(TOP)))
    for name, paths in files.items():
        if len(paths) > 1 and name not in TWICE:
            yield f"{name} is defined in {' and in '.join(paths)}"


def long_lines():
    for folder, widest in WIDEST.items():
        for path in sorted(TOP.glob(f"crates/*/{folder}/**/*.*t")):
            for number, line in enumerate(path.read_text().splitlines(), 1):
                if len(line) > widest:
                    yield f"{path.relative_to(TOP)}:{number}: {len(line)} characters"


def main():
    faults = [*doubles(), *long_lines()]
    print(*faults or ["each name is defined in one file, and no line is too long"], sep="\n")
    return 1 if faults else 0


if __name__ == "__main__":
    sys.exit(main())
