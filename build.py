#!/usr/bin/env python3
"""Proves the crates that programs are made of, and builds the programs.

    ./build.py getmail popd               # `make` then copies each program, and its checksums, into bin/
    ./build.py --unchanged getmail popd   # fails if bin/ has other programs than were built of these sources

`rt ci` does both, in a copy that has these crates without their mutants: as many at once as there are processors and memory.
Some kits keep what they have proved, for the next run here and for the gate. `tests` builds and runs the tests of the libraries.
"""

import contextlib
import hashlib
import os
import re
import shutil
import signal
import subprocess
import sys
import tempfile
import time
from pathlib import Path

TOP = Path(__file__).resolve().parent
SECONDS_BETWEEN_LINES = 10
NOT_PROVED_FROM = ("out", "must-fail")


def crates_of(programs):
    """The crates that these programs are made of, lowest first, each with its line of crates.txt."""
    lines = [line.partition("#")[0] for line in (TOP / "crates.txt").read_text().splitlines()]
    lines = {line.partition(":")[0].strip(): line for line in lines if ":" in line}
    wanted = set(programs)
    for crate, line in reversed(lines.items()):
        if crate in wanted:
            wanted |= {library for library in line.partition(":")[2].split() if library in lines}
    return {crate: line for crate, line in lines.items() if crate in wanted}


def copy_crates(crates, room):
    (room / "crates.txt").write_text("\n".join(crates.values()))
    shutil.copy(TOP / "HANDLES", room)
    for crate in crates:
        shutil.copytree(TOP / "crates" / crate, room / "crates" / crate, ignore=shutil.ignore_patterns(*NOT_PROVED_FROM))


def checksum(program, top=TOP):
    """The SHA-256 of what a program is proved from: the lines of crates.txt and the files of its crates, and HANDLES."""
    crates = crates_of([program])
    files = [path for crate in crates for path in sorted((top / "crates" / crate).rglob("*"))
             if path.is_file() and not set(NOT_PROVED_FROM) & set(path.relative_to(top).parts)]
    sums = [f"{hashlib.sha256(path.read_bytes()).hexdigest()} {path.relative_to(top)}" for path in (top / "HANDLES", *files)]
    return hashlib.sha256("\n".join([*crates.values(), *sums]).encode()).hexdigest()


def checksums(file, sources):
    """What is kept beside a program: the SHA-256 of its file, and that of its sources."""
    return f"{hashlib.sha256(file.read_bytes()).hexdigest()} program\n{sources} sources\n"


def refuse_changed(programs):
    """Ends with a line that names the first program of bin/ that wasn't proved from these sources, or isn't what was built."""
    for program in programs:
        built, kept = TOP / "bin" / program, TOP / "bin" / f"{program}.sha256"
        told, sources = kept.read_text() if kept.is_file() else "", checksum(program)
        if f"{sources} sources" not in told.splitlines():
            sys.exit(f"bin/{program} was not proved from these sources: `make` proves and builds it")
        if told != checksums(built, sources):
            sys.exit(f"bin/{program} is not the program that was built: `make` proves and builds it")


def told(crates, room, text, seconds):
    """How far it is. `rt` makes a crate's folder `out` when it begins with it."""
    proved = set(re.findall(r"^rt: (\w+) (?:proved|is kept)", text, re.MULTILINE))
    begun = [crate for crate in crates if crate not in proved and (room / "crates" / crate / "out").is_dir()]
    names = f": {', '.join(begun)}" if begun else ""
    return f"  {seconds // 60:2}:{seconds % 60:02}  {len(proved)} of {len(crates)} crates proved; {len(begun)} being proved{names}"


def prove(crates, room):
    """Runs `rt ci`, and says every ten seconds how far it is."""
    log, begun = room / "log", time.monotonic()
    with open(log, "w") as output:
        process = subprocess.Popen(["rt", "ci"], cwd=room, stdin=subprocess.DEVNULL, stdout=output, stderr=subprocess.STDOUT)
    try:
        while process.poll() is None:
            print(told(crates, room, log.read_text(), int(time.monotonic() - begun)), flush=True)
            with contextlib.suppress(subprocess.TimeoutExpired):
                process.wait(SECONDS_BETWEEN_LINES)
    finally:
        process.terminate()
        process.wait()
    if process.returncode != 0:
        parts = re.split(r"^(?=== )", log.read_text(), flags=re.MULTILINE)
        sys.exit("".join([*(part for part in parts[:-1] if "NOT PROVED" in part), parts[-1]]))


def keep(crate, room, sources):
    """Puts the built program, its checksum and that of the sources that were proved into the crate's own folder."""
    name = "tests_tests" if crate == "tests" else crate
    out = TOP / "crates" / crate / "out"
    out.mkdir(exist_ok=True)
    shutil.copy(room / "crates" / crate / "out" / name, out / f"{name}.new")
    os.replace(out / f"{name}.new", out / name)
    (out / f"{name}.sha256").write_text(checksums(out / name, sources))


def main():
    for number in (signal.SIGTERM, signal.SIGINT):
        signal.signal(number, lambda *_: sys.exit(1))
    if sys.argv[1:2] == ["--unchanged"]:
        return refuse_changed(sys.argv[2:])
    programs = sys.argv[1:]
    crates = crates_of(programs)
    with tempfile.TemporaryDirectory(prefix="building-") as room:
        copy_crates(crates, Path(room))
        sources = {program: checksum(program, Path(room)) for program in programs}
        prove(crates, Path(room))
        for program in programs:
            keep(program, Path(room), sources[program])


if __name__ == "__main__":
    try:
        main()
    except BrokenPipeError:
        # What is left is written when this ends.
        os.dup2(os.open(os.devnull, os.O_WRONLY), sys.stdout.fileno())
        sys.exit("nothing was built, since nobody reads how far it is")
