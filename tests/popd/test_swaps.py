"""`popd` serves no file in the place of another although its user swaps files with links while it serves, and removes nothing
once another folder is in the place of one of the Maildir's."""

import collections
import contextlib
import itertools
import multiprocessing
import os
import random
import shutil
import signal
import time
import unittest
from pathlib import Path

from harness import kernel, preload, programs
from popd.service import Maildir, Service

# How many sessions there are for each kind of swapping; if the environment says how long it goes on, as many as come, and what
# came of it is printed.
SESSIONS = 20
SECONDS = float(os.environ.get("TESTS_SWAP_SECONDS", "0"))
# A folder is listed once it has rested for 20 milliseconds.
BURST_SECONDS, REST_SECONDS = 0.002, 0.03
MINE, SECRET = b"mine\r\n", b"root\r\n"
NAMES = ("a", "b", "c")
PARTS = ("new", "cur")
NOBODY = 65534
ONE_MESSAGE = b"+OK 6 octets\r\nmine\r\n.\r\n"
UNAVAILABLE = b"-ERR message unavailable\r\n"


def put(path, content):
    """A file with a time of change that all have."""
    path.write_bytes(content)
    os.utime(path, (1_000_000_000, 1_000_000_000))


def exchange_on_and_on(pairs):
    while True:
        for one, other in pairs:
            kernel.exchange(one, other)


class Swapper:
    """A process that exchanges the names of each pair again and again while it isn't stopped, as it is at first."""

    def __init__(self, pairs):
        self.process = multiprocessing.get_context("fork").Process(target=exchange_on_and_on, args=(pairs,))

    def __enter__(self):
        self.process.start()
        self.stop()
        return self

    def __exit__(self, *_):
        self.process.kill()
        self.process.join()

    def stop(self):
        os.kill(self.process.pid, signal.SIGSTOP)
        os.waitpid(self.process.pid, os.WUNTRACED)

    @contextlib.contextmanager
    def burst(self):
        """Some milliseconds of exchanges, and what is done in them."""
        os.kill(self.process.pid, signal.SIGCONT)
        time.sleep(BURST_SECONDS)
        yield
        time.sleep(BURST_SECONDS)
        self.stop()


class Swaps(unittest.TestCase):
    """A Maildir with three messages in each folder, and a folder of somebody else with files of the same names, lengths
    and times of change."""

    def setUp(self):
        self.begin()

    def begin(self):
        self.maildir = self.enterContext(Maildir())
        self.folder = self.maildir.folder
        self.spare = self.folder / "tmp"
        self.foreign = Path(self.maildir.holder.name) / "foreign"
        self.foreign.mkdir()
        self.fill()

    def fill(self):
        """Puts back what is missing."""
        for part in PARTS:
            for name in NAMES:
                put(self.folder / part / (name + part), b"mine\n")
                put(self.foreign / (name + part), b"root\n")

    def taken_away(self):
        """How many files of the other folder are gone."""
        return sum(not (self.foreign / (name + part)).exists() for part in PARTS for name in NAMES)


class OneSwap(Swaps):
    """Something gets a file's name just before the file is opened, once it was looked at; or a folder's."""

    def check_not_served(self, make):
        """The file `anew` of `new` isn't served; another one is."""
        library = self.enterContext(preload.library("meddle"))
        made, when, path = self.spare / "made", self.folder / "when", self.folder / "new" / "anew"
        make(made)
        meddling = {"MEDDLE_FROM": made, "MEDDLE_TO": path, "MEDDLE_AT": path, "MEDDLE_WHEN": when, "LD_PRELOAD": library}
        with Service(self.maildir, **{name: str(value) for name, value in meddling.items()}) as service:
            with service.client() as client:
                self.assertEqual(client.log_in(), b"+OK 6 messages\r\n")
                when.touch()
                self.assertEqual(client.ask(b"UIDL 2"), b"+OK 2 anew\r\n")
                client.socket.settimeout(programs.NEXT_OUTPUT_SECONDS)
                self.assertEqual(client.ask(b"RETR 2"), UNAVAILABLE)
                self.assertEqual(client.ask_lines(b"RETR 1"), ONE_MESSAGE)

    def test_a_link(self):
        self.check_not_served(lambda path: os.symlink(self.foreign / "anew", path))

    def test_a_link_to_another_message(self):
        self.check_not_served(lambda path: os.symlink(self.folder / "new" / "bnew", path))

    def test_links_in_the_place_of_folders(self):
        """They are followed."""
        for part in PARTS:
            os.rename(self.folder / part, self.spare / part)
            os.symlink(self.spare / part, self.folder / part)
        with Service(self.maildir) as service, service.client() as client:
            self.assertEqual(client.log_in(), b"+OK 6 messages\r\n")
            self.assertEqual(client.ask_lines(b"RETR 1"), ONE_MESSAGE)
            client.ask(b"DELE 1")
            self.assertEqual(client.ask(b"QUIT"), b"+OK bye\r\n")

    def test_a_folder_that_is_replaced_during_a_session(self):
        """Nothing of what is in its place is removed, and nothing is taken for gone."""
        for make in (lambda path: os.symlink(self.foreign, path), lambda path: shutil.copytree(self.foreign, path), os.mkdir):
            self.begin()
            with Service(self.maildir) as service, service.client() as client:
                self.assertEqual(client.log_in(), b"+OK 6 messages\r\n")
                os.rename(self.folder / "cur", self.spare / "cur")
                make(self.folder / "cur")
                client.ask(b"DELE 1")
                self.assertEqual(client.ask(b"QUIT"), b"-ERR some messages not removed\r\n")
            self.assertEqual(self.taken_away(), 0)

    def test_a_maildir_that_is_a_link(self):
        """That one is followed."""
        link = Path(self.maildir.holder.name) / "link"
        link.symlink_to(self.folder)
        given = b"USER u\r\nPASS p\r\nRETR 1\r\nDELE 1\r\nQUIT\r\n"
        run = programs.run("popd", "u", self.maildir.passfile, link, given=given)
        self.assertTrue(run.out.endswith(ONE_MESSAGE + b"+OK marked\r\n+OK bye\r\n"), run)
        self.assertEqual(len(self.maildir.names()), 5)


class Swapping(Swaps):
    """Names are exchanged while messages are read and removed, in bursts: a folder that never rests isn't listed."""

    def converse(self, service, swapper):
        """One session that reads and removes all; each of its answers has to come within some seconds."""
        got = []
        with service.client() as client:
            client.socket.settimeout(programs.NEXT_OUTPUT_SECONDS)
            got.append(client.log_in())
            for number in range(1, 7):
                with swapper.burst():
                    client.give(b"RETR %d\r\n" % number)
                while not got[-1].startswith(b"-ERR") and got[-1] != b".\r\n":
                    got.append(client.line())
                got.append(client.ask(b"DELE %d" % number))
            client.give(b"QUIT\r\n")
            time.sleep(random.uniform(0, REST_SECONDS))
            with swapper.burst():
                pass
            got.append(client.line())
        return got

    def check(self, paths, arrange, by=()):
        """Nothing of the other folder is served or removed; how many messages of the Maildir were served, and not."""
        counts = collections.Counter()
        arrange()
        with Swapper(paths) as swapper, Service(self.maildir, by=by) as service:
            end = time.monotonic() + SECONDS
            for number in itertools.count():
                if number >= SESSIONS and time.monotonic() >= end:
                    break
                got = self.converse(service, swapper)
                self.assertNotIn(SECRET, got)
                self.assertEqual(self.taken_away(), 0)
                counts.update(got)
                arrange()
        if SECONDS:
            print(self.id(), dict(counts))
        return counts[MINE], counts[UNAVAILABLE]

    def check_files(self, make, by=(), owner=None):
        """In the place of each file is every other time what `make` makes of a path and of the other folder's file."""
        paths = [(self.folder / part / (name + part), self.spare / (name + part)) for part in PARTS for name in NAMES]

        def arrange():
            for path, spare in paths:
                for old in (path, spare):
                    old.unlink(missing_ok=True)
                put(path, b"mine\n")
                make(spare, self.foreign / spare.name)
                for made in (path, spare) if owner is not None else ():
                    os.chown(made, owner, owner, follow_symlinks=False)

        served, refused = self.check(paths, arrange, by)
        self.assertGreater(served, 0)
        self.assertGreater(refused, 0)

    def test_files_and_links(self):
        self.check_files(lambda path, target: os.symlink(target, path))

    @unittest.skipIf(os.geteuid() != 0, "only the superuser may give files away")
    def test_files_and_links_for_the_owner(self):
        """Run by the owner of the Maildir it serves no file in the place of another either, though that one may be read."""
        holder = Path(self.maildir.holder.name)
        for path in (holder, *holder.rglob("*")):
            os.chown(path, NOBODY, NOBODY, follow_symlinks=False)
        by = ("setpriv", f"--reuid={NOBODY}", f"--regid={NOBODY}", "--clear-groups")
        self.check_files(lambda path, target: os.symlink(target, path), by, NOBODY)
