"""A library that is preloaded into a program, built from C in a folder of its own."""

import functools
import subprocess
import tempfile
from contextlib import contextmanager
from pathlib import Path

from harness import programs

SECONDS_TO_SHOW_VERSION = 10


@functools.cache
def _compiled(name):
    """The octets of the library, which is compiled once in a run of the tests."""
    with tempfile.TemporaryDirectory() as folder:
        built = Path(folder) / "built"
        subprocess.run(["cc", "-O1", "-Wall", "-Werror", "-shared", "-fPIC", "-o", built,
                        programs.ROOT / "tests" / f"{name}.c", "-ldl"], check=True, timeout=programs.SECONDS)
        return built.read_bytes()


@contextmanager
def library(name):
    """The library of the source `tests/NAME.c`, in a folder of its own."""
    with tempfile.TemporaryDirectory() as folder:
        built = Path(folder) / f"{name}.so"
        built.write_bytes(_compiled(name))
        yield built


def works_with(program):
    """True if the program runs with a library preloaded as it does without: with a sanitizer in it one doesn't."""
    def run(**changes):
        return subprocess.run([program, "--version"], stdin=subprocess.DEVNULL, capture_output=True,
                              env=programs.environment(**changes), timeout=SECONDS_TO_SHOW_VERSION)

    with library("hurry") as built:
        try:
            alone, preloaded = run(), run(LD_PRELOAD=str(built))
        except subprocess.TimeoutExpired:
            return False
    return (alone.returncode, alone.stdout) == (preloaded.returncode, preloaded.stdout)
