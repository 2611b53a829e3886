"""Where the built programs are, and one run of one of them.

A program is looked for where `make` and the gate leave it, `crates/NAME/out/NAME`, unless `place` named another file for
it. The built tests of the libraries are a program too.
"""

import itertools
import os
import subprocess
from dataclasses import dataclass
from pathlib import Path

ROOT = Path(__file__).resolve().parents[2]
NAMES = ("getmail", "popd", "probe", "libraries")

# Bounds on time, far above what is needed whatever else the machine does: on one run of a program or one connection,
# and on the wait for the next output of a program that has all it needs for it.
SECONDS = 60
NEXT_OUTPUT_SECONDS = 15

# Each way to close some of the standard files.
WAYS_TO_CLOSE = [way for count in (1, 2, 3) for way in itertools.combinations(range(3), count)]

_placed: dict[str, Path] = {}


@dataclass(frozen=True)
class Run:
    """What one run of a program left: its exit status and all that it wrote."""

    status: int
    out: bytes
    err: bytes


SILENT = Run(0, b"", b"")


def place(name, path):
    """Makes the tests take the program `name` from the file `path`."""
    _placed[name] = Path(path).resolve()


def path_of(name):
    """The file of the built program `name`."""
    crate, built = ("tests", "tests_tests") if name == "libraries" else (name, name)
    return _placed.get(name, ROOT / "crates" / crate / "out" / built)


def environment(**changes):
    """This process's environment with `changes`, without what a caller may have preloaded and what is None."""
    kept = {key: value for key, value in os.environ.items() if key != "LD_PRELOAD"}
    return {key: value for key, value in {**kept, **changes}.items() if value is not None}


def with_closed(closed, command):
    """The command that runs another one with these standard files closed, by their descriptors."""
    if not closed:
        return command
    marks = " ".join(f"{number}{'<' if number == 0 else '>'}&-" for number in closed)
    return ["sh", "-c", f'exec "$@" {marks}', "sh", *command]


def run(name, *words, given=b"", out=subprocess.PIPE, err=subprocess.PIPE, seconds=SECONDS, **changes):
    """Runs the program with the words given and answers what it left.

    `given` is its whole standard input, as bytes or as an open file; `out` and `err` are where standard output and
    standard error go, and `changes` is put into its environment. A run that takes more than `seconds` is killed and
    fails the test.
    """
    source = {"input": given} if isinstance(given, bytes) else {"stdin": given}
    done = subprocess.run([path_of(name), *words], **source, stdout=out, stderr=err,
                          env=environment(**changes), timeout=seconds)
    return Run(done.returncode, done.stdout or b"", done.stderr or b"")
