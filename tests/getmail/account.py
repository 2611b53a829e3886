"""An account in a home folder of its own: the rc file, the Maildir, the record, and runs of `getmail` over it."""

import hashlib
import os
import subprocess
import tempfile
from pathlib import Path

from harness import programs
from harness.kernel import LOOPBACK
from harness.maildir import make_maildir

# Where flushes cost nothing, since files are in memory; without it a home is where all temporary files are.
MEMORY = "/dev/shm" if os.access("/dev/shm", os.W_OK) else None

RC = """\
[retriever]
type = SimplePOP3Retriever
server = {server}
port = {port}
username = u
password = sesame

[destination]
type = Maildir
path = ~/Maildir/

[options]
read_all = false
"""


class Account:
    """The account of a user at a port of this machine, `u` in its rc file; removed with the `with` block."""

    def __init__(self, port, options="", user="u", above=None, server=LOOPBACK):
        """With `above` the home is a folder in that one; `server` may be the path of a socket."""
        self.holder = tempfile.TemporaryDirectory(dir=above)
        self.home = Path(self.holder.name)
        self.maildir = make_maildir(self.home / "Maildir")
        self.folder = self.home / ".getmail"
        self.folder.mkdir()
        self.rcfile = self.folder / "getmailrc"
        self.rcfile.write_text(RC.format(server=server, port=port) + options)
        self.rcfile.chmod(0o600)
        self.name_in_lines = f"{user}@{server}:{port}"
        self.digest = hashlib.sha256(f"{server}\0{port}\0{user}".encode()).hexdigest()
        self.record = self.folder / f"seen-{self.digest}"
        self.lock = self.folder / f"lock-{self.digest}"

    def make_folders(self, *names):
        """Further folders in the home."""
        folders = [self.home / name for name in names]
        for folder in folders:
            folder.mkdir()
        return folders

    def __enter__(self):
        return self

    def __exit__(self, *_):
        self.holder.cleanup()

    def run(self, *words, **changes):
        """Runs `getmail` in this home and answers what it left."""
        return programs.run("getmail", *words, **{"HOME": str(self.home), **changes})

    def start(self, *words, restore_signals=True, **changes):
        """Starts `getmail` in this home."""
        return subprocess.Popen([programs.path_of("getmail"), *words], stdin=subprocess.DEVNULL,
                                stdout=subprocess.PIPE, stderr=subprocess.PIPE, restore_signals=restore_signals,
                                env=programs.environment(HOME=str(self.home), **changes))

    def stem(self, uid):
        """What the name of a unique-id's file begins with; it was the whole name in earlier versions."""
        return f"{self.digest}.{uid.hex()}"

    def name(self, uid, text):
        """The name of the file of a unique-id's text."""
        return f"{self.stem(uid)},S={len(text)}"

    def refuse_lock(self):
        """Has a folder in the place of the lock's file, so that runs go on without a lock."""
        self.lock.mkdir()

    def held(self):
        """The unique-ids of the files in `new` and `cur` with their bytes, one pair for each file. Bytes under a
        name with another size are marked, so that they match no message."""
        found = []
        for part in ("new", "cur"):
            for entry in sorted(os.listdir(self.maildir / part)):
                stem, _, size = entry.split(":")[0].partition(",")
                owner, _, uid = stem.partition(".")
                if owner == self.digest:
                    text = (self.maildir / part / entry).read_bytes()
                    if size not in ("", f"S={len(text)}"):
                        text = f"{entry} has {len(text)} bytes: ".encode() + text
                    found.append((bytes.fromhex(uid), text))
        return sorted(found)

    def read_all_new(self):
        """Moves each file of `new` to `cur`, as a mail reader does."""
        for entry in os.listdir(self.maildir / "new"):
            os.rename(self.maildir / "new" / entry, self.maildir / "cur" / (entry + ":2,S"))
