#!/usr/bin/env python3
"""The demonstration: popd serves a message, and getmail fetches it, twice.

It runs the programs in bin/. If they aren't there, `rt try` compiles both for this run alone, before any proof. It works in
a folder of its own, on a port that nobody uses, and removes the folder at the end.
"""

import contextlib
import os
import shutil
import signal
import socket
import subprocess
import sys
import tempfile
import time
from pathlib import Path

DEMO = Path(__file__).resolve().parent
TOP = DEMO.parent.parent
PROGRAMS = ("getmail", "popd")
RUNS = ("first", "second")
SECONDS_TO_START = 600


def say(text):
    print(text, flush=True)


def until(condition, process):
    """Waits until the condition holds, and answers its value; ends the demonstration if the process ends first."""
    deadline = time.monotonic() + SECONDS_TO_START
    while process.poll() is None and time.monotonic() < deadline:
        if found := condition():
            return found
        time.sleep(0.05)
    with contextlib.suppress(ProcessLookupError):
        os.killpg(process.pid, signal.SIGKILL)
    sys.exit((process.stdout.read() if process.stdout else "") + "the demonstration failed: a program didn't start")


def free_port():
    with socket.socket() as probe:
        probe.bind(("127.0.0.1", 0))
        return probe.getsockname()[1]


def is_listening(port):
    """A listening socket is seen in the kernel's table, without a connection that popd would serve."""
    return any(row.split()[1].endswith(f":{port:04X}") for row in Path("/proc/net/tcp").read_text().splitlines()[1:])


def start(stack, words, **how):
    """Starts a program, which is ended with the stack unless it has ended by itself."""
    process = stack.enter_context(subprocess.Popen(words, stdin=subprocess.DEVNULL, start_new_session=True, **how))
    stack.callback(lambda: process.poll() is None and os.killpg(process.pid, signal.SIGTERM))
    return process


class Built:
    """The programs in bin/."""

    def __init__(self, stack, folder, settings):
        self.stack, self.rcfile = stack, folder / ".getmail/getmailrc"
        self.rcfile.write_text(settings)

    def popd(self, *words):
        return start(self.stack, [TOP / "bin/popd", *words])

    def fetch(self):
        done = subprocess.run([TOP / "bin/getmail", "-r", self.rcfile, "-g", self.rcfile.parent])
        if done.returncode != 0:
            sys.exit(f"getmail ended with status {done.returncode}")


class Tried:
    """The programs as `rt try` compiles and runs them: popd first, and then getmail, once for both its runs."""

    def __init__(self, stack, folder, settings):
        say("The programs aren't proved yet: `rt try` compiles them for this demonstration alone, in some minutes.\n"
            "`make` proves them and builds them into bin/.")
        self.stack, self.cases, self.getmail = stack, folder / "cases", None
        rcfile = folder / ".getmail/getmailrc"
        rcfile.write_text(settings)
        self.cases.mkdir()
        for run in RUNS:
            (self.cases / run).touch()
            (self.cases / f"{run}.args").write_text(f"-r\n{rcfile}\n-g\n{rcfile.parent}\n")

    def rt(self, program, *words):
        return start(self.stack, ["rt", "try", "--seconds", str(SECONDS_TO_START), *words], cwd=TOP / "crates" / program,
                     stdout=subprocess.PIPE, stderr=subprocess.STDOUT, text=True)

    def popd(self, *words):
        return self.rt("popd", "--", *words)

    def fetch(self):
        """The output of the next run. Both follow one another at once."""
        if self.getmail is None:
            self.getmail = self.rt("getmail", "--cases", self.cases)
        for line in self.getmail.stdout:
            if line.startswith("case="):
                return
            if not line.startswith("== "):
                say(line.rstrip("\n"))
        sys.exit("getmail didn't run")


def show(stack, folder):
    """Serves and fetches: each step with its output."""
    port = free_port()
    settings = (DEMO / ".getmail/getmailrc").read_text().replace("1100", str(port)).replace("~", str(folder))
    are_built = all((TOP / "bin" / name).is_file() for name in PROGRAMS)
    programs = (Built if are_built else Tried)(stack, folder, settings)
    say("\n1. popd serves a Maildir with one message to Fred.\n"
        f"$ env popd --listen 127.0.0.1:{port} --connections {len(RUNS)} fred password served")
    process = programs.popd("--listen", f"127.0.0.1:{port}", "--connections", str(len(RUNS)), "fred",
                            str(folder / "password"), str(folder / "served"))
    until(lambda: is_listening(port), process)
    say("\n2. getmail fetches it into another Maildir, with the settings of examples/demo/.getmail/getmailrc.\n$ getmail")
    programs.fetch()
    message, = (path for path in (folder / "Maildir/new").iterdir() if path.name != ".gitkeep")
    say(f"\n3. The message is there, in Maildir/new/{message.name[:8]}..:\n")
    say(message.read_text().rstrip("\n"))
    say("\n4. A second run fetches nothing: the message is known.\n$ getmail")
    programs.fetch()
    process.wait(SECONDS_TO_START)


def main():
    for number in (signal.SIGTERM, signal.SIGINT):
        signal.signal(number, lambda *_: sys.exit(1))
    with tempfile.TemporaryDirectory() as place, contextlib.ExitStack() as stack:
        folder = Path(place) / "demo"
        shutil.copytree(DEMO, folder, ignore=shutil.ignore_patterns("seen-*", "lock-*", f"{'?' * 64}.*", "__pycache__"))
        # Whatever the umask of the copy is: the superuser's programs take nothing that others may write.
        for path in (folder, *folder.rglob("*")):
            path.chmod(path.stat().st_mode & ~0o077)
        show(stack, folder)
    say("\nThat was all: popd has ended, and its folder is removed. `man man/getmail.1` says how to set up an account.")


if __name__ == "__main__":
    try:
        main()
    except BrokenPipeError:
        # Nobody reads on: what is left is written when this ends.
        os.dup2(os.open(os.devnull, os.O_WRONLY), sys.stdout.fileno())
