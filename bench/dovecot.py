"""Dovecot as a POP3 server of one Maildir, to be measured beside `popd`, if it is installed and this runs as root."""

import os
import subprocess
from pathlib import Path

import measure  # noqa: F401 (the modules of the harness can be imported once this one is)
from harness import dovecot, kernel


def is_there():
    """Whether dovecot can be run."""
    return not dovecot.missing()


class Dovecot:
    """Dovecot over a Maildir, whose files are given to the user `nobody`."""

    def __init__(self, folder, maildir):
        self.folder = folder
        self.maildir = maildir

    def __enter__(self):
        os.chmod(self.folder, 0o755)
        dovecot.give_to_owner(self.maildir)
        self.port = kernel.free_port()
        self.process = subprocess.Popen(dovecot.words(self.folder, self.maildir, self.port))
        if not kernel.wait_for_listener(self.process, self.port):
            raise SystemExit("dovecot does not listen")
        return self

    def processes(self):
        """The numbers of all its processes."""
        children = Path(f"/proc/{self.process.pid}/task/{self.process.pid}/children").read_text().split()
        return [self.process.pid, *map(int, children)]

    def __exit__(self, *_):
        """Ends dovecot and all its processes, and answers what processor time they took, in seconds."""
        self.process.terminate()
        _, _, usage = os.wait4(self.process.pid, 0)
        self.process.returncode = 0
        self.processor = usage.ru_utime + usage.ru_stime
