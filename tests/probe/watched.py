"""One run of the stores' small program in a folder of its own, and its system calls."""

import hashlib
import os
import re
import tempfile
import time
from pathlib import Path

from harness import preload, programs

SIZE = 2048
TEXT = b"x" * SIZE
ACCOUNT = hashlib.sha256(b"bench\x00110\x00bench").hexdigest()


def stem_of(number):
    """The stem of the name of a message's file; in `tmp` the mark of a process follows it."""
    return ACCOUNT + "." + f"id-{number:05}".encode().hex()


def name_of(number):
    """The name of a message's file, as the program delivers it."""
    return f"{stem_of(number)},S={SIZE}"


def is_own(path, front):
    """Whether a path is the front and then the mark of a process: its id and random octets."""
    return re.fullmatch(re.escape(front) + r"\.P\d+R[0-9a-f]{16}", path) is not None


def make_older(path, hours):
    """Writes a file whose last change was this number of hours ago."""
    path.write_bytes(b"half a text")
    changed = time.time() - hours * 3_600
    os.utime(path, (changed, changed))


def folder_for(test):
    """The absolute path of an empty folder that is there until the test is over."""
    folder = tempfile.TemporaryDirectory()
    test.addCleanup(folder.cleanup)
    return Path(folder.name).resolve()


class Watcher:
    """Runs the program with its calls recorded, each of its writes cut in two and one call refused."""

    def __init__(self, library):
        self.library = library

    def run(self, work, word, path, count, refused=None, **changes):
        """The run, and the calls: word, outcome and paths, taken from the folder `work`."""
        note = work / "note"
        note.unlink(missing_ok=True)
        changes |= {"LD_PRELOAD": str(self.library), "WATCH_NOTE": str(note)}
        if refused is not None:
            changes["WATCH_REFUSED"] = str(refused)
        run = programs.run("probe", word, str(path), str(count), **changes)
        lines = note.read_text().splitlines() if note.exists() else []
        return run, [tuple(part.removeprefix(f"{work}/") for part in line.split("\t") if part) for line in lines]


def watcher_for(tests):
    """A `Watcher`, whose library is there until the class of tests is over."""
    library = preload.library("watch_files")
    watcher = Watcher(library.__enter__())
    tests.addClassCleanup(library.__exit__, None, None, None)
    return watcher


def written(calls, path):
    """How many bytes the writes at the front of the calls put into the file, and the calls after them."""
    count, place = 0, 0
    while place < len(calls) and calls[place][0] == "write" and calls[place][2] == path:
        count += int(calls[place][1])
        place += 1
    return count, calls[place:]
