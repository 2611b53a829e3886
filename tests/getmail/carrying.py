"""A home in which an account is carried over to another user name: the old rc file, the new one, and another account that
has a Maildir in common with it, and unique-ids."""

import contextlib
import hashlib
import importlib.util
import io
import os
import shutil
import subprocess
import sys
from collections import Counter
from unittest import mock

from getmail.account import MEMORY, Account
from getmail.mbox_account import MboxAccount
from getmail.shared_server import SharedServer
from harness import programs
from harness.kernel import LOOPBACK
from harness.mboxrd import SEPARATOR, unquoted
from probe import grammar

EXAMPLES = programs.ROOT / "examples"

FIRST = [(b"1", b"one\n"), (b"2", b"two\n"), (b"b/c", b"three\n"), (b"d", b"four\n")]
OTHERS = [(b"1", b"the other's one\n"), (b"2", b"the other's two\n"), (b"3", b"the other's three\n")]
KEPT = b"what was cut off\n"


def module(name="carry-account"):
    """A script as a module, so that it can be run here."""
    spec = importlib.util.spec_from_file_location(name.replace("-", "_"), EXAMPLES / f"{name}.py")
    made = importlib.util.module_from_spec(spec)
    with mock.patch.object(sys, "dont_write_bytecode", True), mock.patch.object(sys, "path", [str(EXAMPLES), *sys.path]):
        spec.loader.exec_module(made)
    return made


def run_here(script, *words):
    """Runs a script's module: its status, and what it wrote to standard output and standard error."""
    out, err = io.TextIOWrapper(io.BytesIO()), io.TextIOWrapper(io.BytesIO())
    status = 0
    with mock.patch.object(sys, "argv", ["script", *map(str, words)]), contextlib.redirect_stdout(out), \
            contextlib.redirect_stderr(err):
        try:
            script.main()
        except SystemExit as end:
            status = 1
            err.write(str(end.code))
    texts = []
    for stream in (out, err):
        stream.flush()
        texts.append(stream.buffer.getvalue())
    return programs.Run(status, *texts)


def run_apart(script, *words, **changes):
    """Runs a script as a process of its own."""
    done = subprocess.run([sys.executable, EXAMPLES / f"{script}.py", *map(str, words)], capture_output=True,
                          env=programs.environment(**changes), timeout=programs.SECONDS)
    return programs.Run(done.returncode, done.stdout, done.stderr)


class Home:
    """The account `u`, in `getmailrc`, has fetched its messages, and is carried over to `w`, whose rc file is `new`.

    The last message was stored, but its row doesn't say so, as after a kill; and the first was read.
    """

    def __init__(self, kind=Account):
        self.server, self.other_server = SharedServer(FIRST), SharedServer(OTHERS)
        self.account = kind(self.server.port, above=MEMORY)
        self.home, self.folder, self.maildir = self.account.home, self.account.folder, self.account.maildir
        self.is_mboxrd = kind is MboxAccount
        text = self.account.rcfile.read_text()
        self.write_rc("new", text.replace("username = u", "username = w"))
        self.write_rc("other", text.replace(f"port = {self.server.port}", f"port = {self.other_server.port}"))
        self.old, self.new, self.other = (self.digest(*words) for words in (
            (self.server.port, "u"), (self.server.port, "w"), (self.other_server.port, "u")))
        self.words = ["-g", self.folder, LOOPBACK, self.server.port, "u", LOOPBACK, self.server.port, "w",
                      *([] if self.is_mboxrd else [self.maildir])]
        self.waiting = self.folder / f"carried-{self.old}-{self.new}.record"
        self.start = self.home.with_name(self.home.name + ".start")
        self.prepare()
        self.keep()

    def __enter__(self):
        return self

    def __exit__(self, *_):
        shutil.rmtree(self.start)
        self.account.holder.cleanup()
        for server in (self.server, self.other_server):
            server.close()

    @staticmethod
    def digest(port, user):
        return hashlib.sha256(f"{LOOPBACK}\0{port}\0{user}".encode()).hexdigest()

    def write_rc(self, name, text):
        (self.folder / name).write_text(text)
        (self.folder / name).chmod(0o600)

    def record(self, digest):
        return self.folder / f"seen-{digest}"

    def prepare(self):
        """What the sessions before leave."""
        self.fetch("getmailrc")
        rows = grammar.record_of(self.account.record.read_bytes())
        rows.rows[b"d"] = (rows.rows[b"d"][0], b"0")
        if self.is_mboxrd:
            self.account.kept.write_bytes(KEPT)
            return
        self.account.record.write_bytes(rows.file())
        self.fetch("other", "-d")
        for uid in (b"1", b"b/c"):
            name = self.account.name(uid, dict(FIRST)[uid])
            os.rename(self.maildir / "new" / name, self.maildir / "cur" / f"{name}:2,S")

    def keep(self):
        """All is to begin as it is now."""
        shutil.rmtree(self.start, ignore_errors=True)
        shutil.copytree(self.home, self.start, symlinks=True)

    def restore(self):
        """All is as it was at first."""
        shutil.rmtree(self.home)
        shutil.copytree(self.start, self.home, symlinks=True)
        self.server.messages, self.other_server.messages = list(FIRST), []

    def fetch(self, rc, *words):
        """A run of `getmail` with one of the rc files."""
        run = self.account.run("-q", *words, "-r", rc)
        for server in (self.server, self.other_server):
            server.wait_for_end()
        if run.status != 0:
            raise AssertionError(f"{rc}: {run}")
        return run

    def carry(self, **changes):
        return run_apart("carry-account", *self.words, **changes)

    def texts(self):
        """Each text that is held, and in how many files or entries."""
        if self.is_mboxrd:
            return Counter(unquoted(entry.removesuffix(b"\n")) for entry in self.account.content().split(SEPARATOR)[1:])
        paths = [self.maildir / part / name for part in ("new", "cur") for name in os.listdir(self.maildir / part)]
        files = {path.lstat().st_ino: path for path in paths if path.is_file() and not path.is_symlink()}
        return Counter(path.read_bytes() for path in files.values())

    def names(self, digest):
        """The names of an account's files."""
        return sorted(name for part in ("new", "cur") for name in os.listdir(self.maildir / part) if name.startswith(digest))

    def faults(self, *late):
        """What is lost, what is doubled, and what else is wrong, once these messages came too."""
        texts = [text for _, text in [*FIRST, *late, *([] if self.is_mboxrd else OTHERS)]]
        found = self.texts()
        return ([text for text in texts if not found[text]], [text for text in texts if found[text] > 1],
                [text for text in found if text not in texts])

    def tree(self):
        """What is in the home, and when it was changed; without locks."""
        return {path: (path.lstat().st_size, path.lstat().st_mtime_ns) for path in self.home.rglob("*")
                if not path.name.startswith("lock-") and not path.is_dir()}
