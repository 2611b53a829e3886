"""Running a program with its first, its second and each further growth of memory refused, until none is."""

from dataclasses import dataclass
from pathlib import Path

from harness import preload

# A program of this size that grows more often than this on a short input grows without end.
MOST_GROWTHS = 2000


@dataclass(frozen=True)
class Refusal:
    """The environment of a run whose growth of that number is refused, and the way to see that it was."""

    number: int
    note: Path
    library: Path

    def environment(self):
        return {"LD_PRELOAD": str(self.library), "REFUSED_GROWTH": str(self.number), "REFUSED_NOTE": str(self.note)}

    def came(self):
        """True if the run had that many growths, so that one was refused."""
        return self.note.exists()

    def forget(self):
        """Makes ready for another run with the same refusal."""
        self.note.unlink(missing_ok=True)


def refusals():
    """One refusal for each growth in turn; the last one that is given out came too late to refuse anything."""
    with preload.library("refuse_growth") as built:
        for number in range(1, MOST_GROWTHS):
            refusal = Refusal(number, built.parent / f"refused-{number}", built)
            yield refusal
            if not refusal.came():
                return
        raise AssertionError(f"more than {MOST_GROWTHS} growths")
