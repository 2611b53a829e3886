#!/usr/bin/env python3
"""Prints the table of mutants that docs/PROVED.md has: what each breaks, and which clause refuses it, out of
`crates/NAME/must-fail/*.edit`, whose first two lines say so."""

import re

from sources import TOP, print_whole

HEAD = re.compile(r"# promise: (.+)\n# refused by: (`\S+`(?: \(`\w+`\))?)\n(?=file: )")
BEGIN = "| promise | mutant | refused by |\n|---|---|---|\n"


def rows():
    """A row for each mutant, in the order of crates and names."""
    for edit in sorted((TOP / "crates").glob("*/must-fail/*.edit")):
        said = HEAD.match(edit.read_text())
        promise, clause = said.groups() if said else ("?", "?")
        yield f"| {promise} | `{edit.parent.parent.name}`: `{edit.stem}` | {clause} |\n"


def table():
    return BEGIN + "".join(rows())


if __name__ == "__main__":
    print_whole(table())
