"""Sessions whose power is cut: what each state of the disk that this can leave makes of the next session.

    python3 tests/getmail/power.py [--program FILE] [--most N] [--jobs N]

A session is watched, the states are built one after the other, and over each of them one more session is run,
uncut, against the server as it was at that moment. Then each message has to be held once and whole, as a file of the
Maildir or as an entry of the mboxrd file. By hand all states are run, or up to `most` for each front of the changes;
the gate runs some of them (test_power.py).

The blocks of an mboxrd file have 512, 1,024 or 4,096 octets.
"""

import argparse
import contextlib
import multiprocessing
import random
import re
import signal
import sys
import time
from dataclasses import dataclass, field, replace
from pathlib import Path

if __name__ == "__main__":
    sys.path.insert(0, str(Path(__file__).resolve().parents[1]))

from getmail.account import MEMORY, Account  # noqa: E402 (the path may have to be there first)
from getmail.mbox_account import MboxAccount  # noqa: E402
from getmail.shared_server import SharedServer  # noqa: E402
from harness import power, preload, programs  # noqa: E402
from harness.mboxrd import entries, entry  # noqa: E402

WANTED = [(b"one".ljust(70, b"-"), b"one\n"), (b"two".ljust(70, b"-"), b"a line\n" * 700),
          (b"three".ljust(70, b"-"), b"three\nFrom x\n\n.\n")]
# In an mboxrd file the second entry has a page of its own, between the ends of two others.
WANTED_AS_ENTRIES = [WANTED[0], (WANTED[1][0], b"a line\n" * 1400), WANTED[2]]
# Too large to be fetched, so that their ids alone make the record long: a group goes over the end of a block.
TOO_LARGE = b"x\n" * 10_001
LIMIT = "max_message_size = 20000\n"
RCFILE = ".getmail/getmailrc"


def large_ones(count, word):
    return [(b"%s-%d" % (word, number)).ljust(70, b"-") for number in range(count)]


@dataclass(frozen=True)
class Scene:
    """A session to be cut: with `-d` or not, after an earlier one or not, after one that was killed or not, and into a
    Maildir or an mboxrd file, whose blocks have a size."""

    name: str
    words: tuple[str, ...] = ()
    is_first: bool = True
    is_killed: bool = False
    is_mboxrd: bool = False
    block: int = power.BLOCK

    def wanted(self):
        """What is fetched."""
        return WANTED_AS_ENTRIES if self.is_mboxrd else WANTED

    def messages_before(self):
        return [] if self.is_first else [*WANTED[:1], *((uid, TOO_LARGE) for uid in large_ones(2, b"early"))]

    def messages(self):
        """What is on the server. The record's groups cross the end of a block: the group of a text, or that of new ids."""
        count = 44 if self.is_first else 60
        return self.wanted() + [(uid, TOO_LARGE) for uid in large_ones(2, b"early") + large_ones(count - 2, b"late")]


SCENES = [Scene(f"{name}{', deleting' if words else ''}{', after a kill' if is_killed else ''}",
                words, is_first, is_killed)
          for is_killed in (False, True) for name, is_first in (("first session", True), ("later session", False))
          for words in ((), ("-d",))]
SCENES += [replace(scene, name=f"{scene.name}, into an mboxrd file", is_mboxrd=True) for scene in SCENES if scene.words]
SCENES += [replace(scene, name=f"{scene.name}, in blocks of {block}", block=block)
           for block in (1024, 4096) for scene in SCENES if scene.is_mboxrd and scene.is_first]


@dataclass(frozen=True)
class Libraries:
    """What is preloaded: the watch into the session that is cut, and into each run a clock that doesn't move, an hour
    from now. So equal sessions leave equal states, and no run waits until the folders, just made, are at rest."""

    watch: Path
    clock: Path

    def environment(self, note=None, killed=None):
        preloaded = [str(self.clock)] if note is None else [str(self.clock), str(self.watch)]
        changes = {"LD_PRELOAD": " ".join(preloaded), "CLOCK": str(self.clock.parent / "clock")}
        if note is not None:
            changes["CHANGES_NOTE"] = str(note)
        if killed is not None:
            changes["CHANGES_KILLED"] = str(killed)
        return changes


@contextlib.contextmanager
def libraries():
    """The libraries, and the time of the clock."""
    with preload.library("note_changes") as watch, preload.library("clock") as clock:
        (clock.parent / "clock").write_text(str(int(time.time()) + 3600))
        yield Libraries(watch, clock)


@dataclass(frozen=True)
class BadState:
    """A state that is bad since flushes were left out: the tree before, the changes without these flushes, the changes with
    them, and the state."""

    start: dict[str, bytes]
    changes: list
    changes_with: list
    image: dict[str, bytes]


@dataclass
class Findings:
    """How many states there were, and what was bad after some of them."""

    scene: Scene
    states: int = 0
    bad: int = 0
    told: list[str] = field(default_factory=list)
    state: BadState | None = None

    def line(self):
        return f"{self.scene.name}: {self.states} states, {self.bad} bad"

    def tell(self, changes, on_server, lost, faults):
        """Keeps a description of a bad state, with long names cut short."""
        last = str(changes[-1])[:200] if changes else "nothing"
        words = f"after {last}, {on_server} on the server, lost [{lost}]: {'; '.join(faults)}"
        self.told.append(f"{self.scene.name}, " + re.sub(r"[0-9a-f]{40,}|-{9,}", "..", words))


class Stage:
    """An account and its server, on which a scene is played."""

    def __init__(self, scene, libraries):
        self.scene = scene
        self.libraries = libraries
        self.server = SharedServer(scene.messages_before())
        kind = MboxAccount if scene.is_mboxrd else Account
        self.account = kind(self.server.port, LIMIT, above=MEMORY)
        self.note = self.account.home / "note"
        if not scene.is_first:
            self.check_good(self.run())
        self.server.messages = scene.messages()
        self.start = self.tree()

    def __enter__(self):
        return self

    def __exit__(self, *_):
        self.account.holder.cleanup()
        self.server.close()

    def run(self, *words, note=None, killed=None):
        run = self.account.run("-q", *words, **self.libraries.environment(note, killed))
        self.server.wait_for_end()
        return run

    @staticmethod
    def check_good(run):
        if (run.status, run.err) != (0, b""):
            raise AssertionError(f"a session that nothing cuts: {run}")

    def tree(self):
        """The account's files except the rc file and the note."""
        tree = power.read_tree(self.account.home)
        return {path: content for path, content in tree.items() if path not in ("note", RCFILE)}

    def build(self, image):
        power.build(self.account.home, {**image, RCFILE: self.account.rcfile.read_bytes()})

    def watch(self, *words, killed=None):
        """The rows of a run's changes; with `killed` it is killed after that many."""
        run = self.run(*words, note=self.note, killed=killed)
        rows = self.note.read_bytes()
        self.note.unlink()
        if run.status != (0 if killed is None else -signal.SIGKILL):
            raise AssertionError(f"the watched session: {run}")
        return rows

    def watched_session(self, killed=None):
        """The tree before, all changes, and how many of them came before the last session began."""
        self.build(self.start)
        self.server.messages = self.scene.messages()
        watched = power.Watched(self.account.home, {"mbox": self.scene.block})
        before = [] if killed is None else watched.changes(self.watch(*self.scene.words, killed=killed))
        changes = watched.changes(self.watch(*self.scene.words))
        self.check_model(watched, before + changes)
        return watched, before + changes, len(before)

    def check_model(self, watched, changes):
        """With nothing lost the model has what is on the disk."""
        disk = power.Disk(watched.start)
        for change in changes:
            disk.take(change)
        image, _ = next(disk.images(1, random.Random(0)))
        image.pop(RCFILE)
        if image != self.tree():
            raise AssertionError("the rows of the changes don't give the files that are there")

    def servers_after(self, changes):
        """What may be on the server after these changes: what is marked is gone only after QUIT, or, on a server that
        goes against the standard, as soon as the connection is lost."""
        marked, whole = set(), self.scene.messages()
        for change in changes:
            words = change.octets.split() if isinstance(change, power.Sent) else [b""]
            if words[0] == b"DELE":
                marked.add(whole[int(words[1]) - 1])
            elif words[0] == b"RSET":
                marked.clear()
        left = [message for message in whole if message not in marked]
        return [whole, left] if marked else [whole]

    def times_held(self, uid, text):
        """How often a message is held, and how often whole."""
        if self.scene.is_mboxrd:
            count = self.account.content().count(entry(text))
            return count, count
        contents = [content for name, content in self.account.held() if name == uid]
        return len(contents), sum(content == text for content in contents)

    def faults_over(self, image, messages):
        """What is bad after one more session over this state, against a server that has these messages."""
        self.build(image)
        self.server.messages = list(messages)
        run = self.run(*self.scene.words)
        found = []
        if (run.status, run.err) != (0, b""):
            found.append(f"the session says {run.err!r} with status {run.status}")
        for uid, text in self.scene.wanted():
            times, whole = self.times_held(uid, text)
            if (times, whole) != (1, 1):
                where = "on the server" if (uid, text) in self.server.messages else "gone from the server"
                found.append(f"{uid.rstrip(b'-').decode()} is held {times} times, {whole} of them whole, and is {where}")
        if self.scene.is_mboxrd and self.account.content() != entries([text for _, text in self.scene.wanted()]):
            found.append(f"the mboxrd file has something else than the entries, {len(self.account.content())} octets")
        if self.scene.words and len(self.server.messages) != len(messages) - sum(m in self.scene.wanted() for m in messages):
            found.append("the server has another number of messages than is expected")
        return found


def play(scene, libraries, most, limit=None, without=None):
    """Runs a scene's states, for each front of the changes up to `most`; a scene with a kill, after `limit` of the
    kills. With `without`, which picks flushes that count as left out, one bad state is enough."""
    source = random.Random(scene.name)
    found, seen = Findings(scene), set()
    with Stage(scene, libraries) as stage:
        for watched, changes_with, first in sessions_of(stage, source, limit):
            changes, first, ends = leave_out(changes_with, first, without or (lambda *_: False))
            for count, image, lost in power.fronts(watched, changes, most, source, first):
                rcfile = image.pop(RCFILE)
                for messages in stage.servers_after(changes[:count]):
                    state = hash((tuple(sorted(image.items())), len(messages)))
                    if state in seen:
                        continue
                    seen.add(state)
                    found.states += 1
                    faults = stage.faults_over(image, messages)
                    if faults:
                        found.bad += 1
                        found.tell(changes[:count], len(messages), lost, faults)
                    if found.bad and without is not None:
                        found.state = BadState(watched.start, changes[:count], changes_with[:ends[count]],
                                               {**image, RCFILE: rcfile})
                        return found
    return found


def leave_out(changes, first, without):
    """The changes without the flushes that `without` picks, given each change and the command sent before it; how many of them
    come before the last session; and for each front of them how long it is with these flushes, also those just behind it."""
    kept, command = [], b""
    for place, change in enumerate(changes):
        if isinstance(change, power.Sent):
            command = change.octets.split()[0]
        if not without(change, command):
            kept.append(place)
    return [changes[place] for place in kept], sum(place < first for place in kept), [*kept, len(changes)]


def sessions_of(stage, source, limit):
    """The watched sessions of a scene: one, or one after each kill; with `limit` after that many of the kills."""
    if not stage.scene.is_killed:
        yield stage.watched_session()
        return
    stage.build(stage.start)
    stage.server.messages = stage.scene.messages()
    rows = [words[0] for words, _ in power.rows_of(stage.watch(*stage.scene.words))]
    after = [number for number, word in enumerate(rows, 1) if word not in ("send", "flush", "flush-folder")]
    if limit is not None and limit < len(after):
        # Each link is among them, since the next session relies on the files in `new`.
        sure = [number for number in after if rows[number - 1] == "link"]
        rest = [number for number in after if number not in sure]
        after = sorted(sure + source.sample(rest, max(limit - len(sure), 0)))
    for number in after:
        yield stage.watched_session(number)


def play_job(job):
    return play(*job)


def play_all(jobs, workers=2):
    """The findings of each job, a tuple of arguments for `play`; `workers` of them run at a time."""
    with multiprocessing.get_context("fork").Pool(workers) as pool:
        yield from pool.imap(play_job, jobs)


def main():
    parser = argparse.ArgumentParser(description=__doc__.splitlines()[0])
    parser.add_argument("--program", help="the getmail to be run")
    parser.add_argument("--most", type=int, default=4096, help="the most choices for each front of the changes")
    parser.add_argument("--jobs", type=int, default=2, help="how many sessions are run at a time")
    words = parser.parse_args()
    if words.program:
        programs.place("getmail", words.program)
    begun, bad = time.monotonic(), 0
    with libraries() as preloaded:
        for found in play_all([(scene, preloaded, words.most) for scene in reversed(SCENES)], words.jobs):
            print(found.line(), flush=True)
            for told in found.told[:5]:
                print(f"    {told}", flush=True)
            bad += found.bad
    print(f"{bad} bad, in {time.monotonic() - begun:.0f} s")
    return 1 if bad else 0


if __name__ == "__main__":
    sys.exit(main())
