"""Runs whose changes of files and folders are noted by `note_changes.c`, with what they send."""

from contextlib import contextmanager

from harness import preload
from harness.power import rows_of


class Noted:
    """The environment of such runs, and the rows of the last one."""

    def __init__(self, library):
        self.library, self.note = library, library.parent / "changes"

    def environment(self, *libraries, killed=None, **changes):
        """With `killed` the run is killed after so many rows; other libraries come first."""
        self.note.unlink(missing_ok=True)
        if killed is not None:
            changes["CHANGES_KILLED"] = str(killed)
        return {"LD_PRELOAD": " ".join(map(str, (*libraries, self.library))), "CHANGES_NOTE": str(self.note), **changes}

    def rows(self):
        """Words and octets."""
        return rows_of(self.note.read_bytes())


@contextmanager
def noted():
    """A `Noted`, whose library and notes are there meanwhile."""
    with preload.library("note_changes") as library:
        yield Noted(library)
