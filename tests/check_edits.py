#!/usr/bin/env python3
"""Finds in a second what the gate would report after many minutes, or not at all.

- Each mutant, `crates/NAME/must-fail/*.edit`, can be applied: its file is there, and each text that it replaces
  occurs there exactly once, after the replacements before it. Its name has only small letters, digits and hyphens.
- Its first two lines say which promise it breaks and which clause refuses it, and docs/PROVED.md has the table of these.
- There are at most sixty of them, since each takes the gate half a minute.
- No `#[test]` is outside the crate `tests`: a crate with tests of its own is proved twice.
"""

import re
import sys
from pathlib import Path

TOP = Path(__file__).resolve().parent.parent
sys.path[:0] = [str(TOP / "tools")]

import mutants  # noqa: E402 (the path has to be there first)

CRATES = TOP / "crates"
TEST_CRATE = "tests"
MOST_EDITS = 60


def faults_of_edit(edit):
    """Why the edit can't be applied, a line for each reason."""
    if not re.fullmatch(r"[a-z0-9]+(-[a-z0-9]+)*\.edit", edit.name):
        yield "its name is not of small letters, digits and hyphens"
    if not mutants.HEAD.match(edit.read_text()):
        yield "its first two lines don't say which promise it breaks, and which clause refuses it"
    crate, texts, path, old = edit.parent.parent, {}, None, None
    for line in edit.read_text().splitlines():
        if line.startswith("file: "):
            path = crate / line.removeprefix("file: ").strip()
            if path not in texts:
                if not path.is_file():
                    yield f"there is no file {path.relative_to(crate)}"
                    return
                texts[path] = path.read_text()
        elif line.startswith("old: "):
            old = line.removeprefix("old: ")
        elif line.startswith("new:"):
            if path is None or old is None:
                yield "a line 'new:' stands before its 'file:' or 'old:'"
                return
            count = texts[path].count(old)
            if count != 1:
                yield f"{path.relative_to(crate)} has {count} times, and not once: {old.strip()}"
                return
            texts[path] = texts[path].replace(old, line.removeprefix("new:").removeprefix(" "))
            old = None
    if not texts or old is not None:
        yield "it replaces nothing"
    elif all(path.read_text() == text for path, text in texts.items()):
        yield "it changes nothing"


def edit_faults():
    edits = sorted(CRATES.glob("*/must-fail/*.edit"))
    if len(edits) > MOST_EDITS:
        yield f"there are {len(edits)} mutants, and at most {MOST_EDITS} are wanted"
    for edit in edits:
        for fault in faults_of_edit(edit):
            yield f"{edit.relative_to(CRATES)}: {fault}"


def table_faults():
    if mutants.table() not in (TOP / "docs" / "PROVED.md").read_text():
        yield "docs/PROVED.md lacks the table of mutants that `python3 tools/mutants.py` prints"


def test_faults():
    for file in sorted(CRATES.glob("*/src/**/*.rt")):
        crate = file.relative_to(CRATES).parts[0]
        if crate != TEST_CRATE and re.search(r"^\s*#\[(test|cfg\(test\))\]", file.read_text(), re.MULTILINE):
            yield f"{file.relative_to(CRATES)}: a test stands here"


def main():
    faults = [*edit_faults(), *table_faults(), *test_faults()]
    print(*faults, sep="\n", end="\n" if faults else "")
    return 1 if faults else 0


if __name__ == "__main__":
    sys.exit(main())
