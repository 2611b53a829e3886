"""Running a program whose long waits are cut short, so that a test sees them end: by a clock that goes faster, or by time that
passes when the test says so."""

import os
import termios
from pathlib import Path

from harness import kernel, preload

# How many times as fast the program's clock goes.
SPEED = 60


class Hurry:
    """The environment of runs that wait a part of what they ask for, the 60th here, and what they asked for."""

    def __init__(self, library, speed):
        self.library = library
        self.speed = speed
        self.note = Path(library).parent / "waits"

    def environment(self):
        self.note.unlink(missing_ok=True)
        return {"LD_PRELOAD": str(self.library), "HURRY": str(self.speed), "HURRY_NOTE": str(self.note)}

    def asked(self):
        """What the last run asked for: `read`, `write`, `poll` or `sleep` and milliseconds, or `nodelay` and 1."""
        rows = (line.split() for line in self.note.read_text().splitlines())
        return [(word, int(asked)) for word, asked in rows]

    def slept(self):
        """The sleeps of the last run, in milliseconds."""
        return [asked for word, asked in self.asked() if word == "sleep"] if self.note.exists() else []


class Time(Hurry):
    """The environment of runs in whose waits time passes when the test says so, and whose sleeps are over at once."""

    def __init__(self, library):
        super().__init__(library, 1)
        self.pipe = Path(library).parent / "time"
        os.mkfifo(self.pipe)
        self.end = os.open(self.pipe, os.O_RDWR | os.O_NONBLOCK | os.O_CLOEXEC)
        self.given = 0

    def close(self):
        os.close(self.end)

    def environment(self):
        self.taken()
        return {**super().environment(), "HURRY_TIME": str(self.pipe)}

    def give(self, seconds):
        """So many seconds pass while the program waits."""
        self.given += os.write(self.end, bytes(seconds))

    def let_pass(self, seconds, is_over=lambda: False):
        """So many seconds have passed while the program waits, or it is over before."""
        self.give(seconds)
        kernel.wait_for(lambda: kernel.octets_of(self.end, termios.FIONREAD) == 0 or is_over(), "the program doesn't wait")

    def taken(self):
        """How many of the seconds that were given have passed; the others don't any more."""
        try:
            left = len(os.read(self.end, 1 << 16))
        except BlockingIOError:
            left = 0
        given, self.given = self.given, 0
        return given - left


def no_pauses(test):
    """The environment of a test's runs whose sleeps are over at once. The library opens no file in them."""
    return {"LD_PRELOAD": str(test.enterContext(preload.library("hurry"))), "HURRY_TIME": ""}


def hurry_for(tests, speed=SPEED):
    """A `Hurry`, whose library is there until the class of tests is over."""
    return Hurry(tests.enterClassContext(preload.library("hurry")), speed)


def time_for(tests):
    """A `Time`, whose library is there until the class of tests is over."""
    time = Time(tests.enterClassContext(preload.library("hurry")))
    tests.addClassCleanup(time.close)
    return time
