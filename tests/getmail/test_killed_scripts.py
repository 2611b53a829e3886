"""The scripts that carry an account, or make its record, killed after each change that they make, and run again: no message is
lost and none comes twice, whatever runs of `getmail` come between.

With TESTS_SCRIPTS=whole each scene is played after each change; else some of them after each third one.
"""

import os
import random
import re
import signal
import tempfile
import unittest
from collections import Counter
from dataclasses import dataclass, field
from pathlib import Path

from getmail.account import Account
from getmail.carrying import FIRST, KEPT, Home, module, run_apart, run_here
from getmail.mbox_account import MboxAccount
from getmail.shared_server import SharedServer
from harness import power, preload
from harness.kernel import LOOPBACK

WHOLE = os.environ.get("TESTS_SCRIPTS") == "whole"
LATE, LATER = (b"e", b"five\n"), (b"f", b"six\n")
KILLED, MOST = -signal.SIGKILL, 200


@dataclass
class Findings:
    """How many kills there were, and what they cost."""

    kills: int = 0
    lost: int = 0
    doubled: int = 0
    told: list[str] = field(default_factory=list)

    def add(self, number, moment, faults, doubling=True):
        lost, doubled, strange = faults
        self.lost += len(lost)
        self.doubled += len(doubled) if doubling else 0
        if lost or strange or (doubled and doubling):
            self.told.append(f"killed after {number}, {moment}: lost {lost}, doubled {doubled}, strange {strange}")


class Killed(unittest.TestCase):
    @classmethod
    def setUpClass(cls):
        cls.watch, cls.refuse = (str(cls.enterClassContext(preload.library(name))) for name in ("note_changes", "refuse_call"))
        cls.note = cls.enterClassContext(tempfile.TemporaryDirectory())
        cls.script = module()

    def killed(self, number, **changes):
        """The environment in which a script is killed after this many changes."""
        return {"LD_PRELOAD": f"{self.watch} {self.refuse}", "CHANGES_NOTE": f"{self.note}/{number}",
                "CHANGES_KILLED": str(number), **changes}

    def watched(self, home, script):
        """The tree below a folder before a script runs, and what that changes."""
        watched, note = power.Watched(home), Path(self.note) / "power"
        run = script(LD_PRELOAD=self.watch, CHANGES_NOTE=str(note))
        self.assertEqual(run.status, 0, run)
        changes = watched.changes(note.read_bytes())
        note.unlink()
        return watched, changes

    def images(self, watched, changes, path):
        """The trees that a loss of power can leave if a file was put there just before, and nothing of it was flushed; with
        each how many of the changes were made."""
        file, folder = sorted(watched.start).index(path), os.path.dirname(path)
        before = [power.Name(path, None), power.FlushFolder(folder), power.Length(file, 0), power.Flush(file, path),
                  power.Write(file, 0, watched.start[path]), power.Name(path, file)]
        for count, image, _ in power.fronts(watched, before + changes, 64, random.Random(1), len(before)):
            yield count - len(before), image

    def check(self, name, found):
        print(f"{name}: {found.kills} kills, {found.lost} lost, {found.doubled} doubled")
        self.assertEqual((found.lost, found.doubled, found.told), (0, 0, []), f"of {found.kills}")
        self.assertGreater(found.kills, 5)


class Carrying(Killed):
    """Then a run with each rc file, and the script again."""

    # How often an mboxrd file had all mail twice.
    twice = 0

    def go_on(self, home, found, number, order, words):
        """A message comes, the runs come, and the script again; and then another message."""
        is_known = home.record(home.new).exists()
        is_begun = is_known or any(home.folder.glob("carried-*")) or bool(home.names(home.new))
        if not is_begun and (order[0] == "new" or not words):
            # Nothing was done yet: to the new rc file all mail is new.
            return
        home.server.messages.append(LATE)
        for rc in order:
            home.fetch(rc, *words)
        # Without deletion both accounts fetch what comes between; and the new one all mail, until it has its record.
        found.add(number, "after the runs", home.faults(LATE), words and (order[0] != "new" or is_known))
        if home.is_mboxrd and not is_known and order[0] == "new":
            return self.check_twice(home)
        run = run_here(self.script, *home.words)
        if (run.status, run.err) != (0, b""):
            found.told.append(f"killed after {number}: {run}")
            return
        found.add(number, "once carried", home.faults(LATE))
        self.assertFalse(home.waiting.exists())
        home.server.messages.append(LATER)
        for rc in ("getmailrc", "new"):
            home.fetch(rc, "-d")
        found.add(number, "with later mail", home.faults(LATE, LATER))
        self.check_names(home)

    def check_twice(self, home):
        """The run has fetched all mail into an mboxrd file once more, as nothing can prevent: the script says so and changes
        nothing. If it is asked for, it goes on, and nothing comes a third time."""
        before, faults = home.tree(), home.faults(LATE)
        run = run_here(self.script, *home.words)
        self.assertEqual((run.status, run.out, home.tree()), (1, b"", before))
        for part in (home.waiting, home.record(home.new), "nothing was changed"):
            self.assertIn(str(part), run.err.decode())
        run = run_here(self.script, *home.words, "--same-account")
        self.assertEqual((run.status, run.err, home.waiting.exists()), (0, b"", False))
        for rc in ("getmailrc", "new"):
            home.fetch(rc, "-d")
        self.assertEqual(home.faults(LATE), faults)
        self.assertEqual((faults[0], len(faults[1])), ([], len(FIRST)))
        self.twice += 1

    def check_names(self, home):
        """All messages that were carried have the new names, and the other account's are as they were."""
        if home.is_mboxrd:
            rests = [Path(f"{home.record(digest)}.rest") for digest in (home.old, home.new)]
            self.assertEqual([rest.exists() and rest.read_bytes() for rest in rests], [False, KEPT])
            return
        self.assertEqual((len(home.names(home.new)), len(home.names(home.old)), len(home.names(home.other))), (5, 1, 3))


class Carried(Carrying):
    def play(self, kind, order, words, step=1, **changes):
        with Home(kind) as home:
            return self.play_in(home, order, words, step, **changes)

    def play_in(self, home, order, words, step, **changes):
        found = Findings()
        for number in range(1, MOST, step):
            home.restore()
            run = home.carry(**self.killed(number, **changes))
            if run.status != KILLED:
                self.assertEqual(run.status, 0, run)
                return found
            found.kills += 1
            self.go_on(home, found, number, order, words)
        self.fail("it was never done")

    def test_a_maildir(self):
        self.check("carried in a Maildir", self.play(Account, ("getmailrc", "new"), ("-d",)))

    def test_an_mboxrd_file(self):
        self.check("carried over an mboxrd file", self.play(MboxAccount, ("getmailrc", "new"), ("-d",), 1 if WHOLE else 2))

    def test_without_a_rename_that_spares_what_is_there(self):
        found = self.play(Account, ("getmailrc", "new"), ("-d",), 1 if WHOLE else 3, REFUSED_CALL="sparing-rename")
        self.check("carried by links", found)

    def test_the_new_rc_file_first(self):
        """Between the mark and the new record no call may be left out."""
        for kind in (Account, MboxAccount):
            found = self.play(kind, ("new", "getmailrc"), ("-d",))
            self.check(f"the new rc file first, {kind.__name__}", found)
        self.assertGreater(self.twice, 3)

    def test_the_new_rc_file_first_by_links(self):
        found = self.play(MboxAccount, ("new", "getmailrc"), ("-d",), REFUSED_CALL="sparing-rename")
        self.check("the new rc file first, by links", found)

    def test_a_run_of_the_new_account_before_the_script(self):
        """The rc file was changed first, and `--same-account` says so."""
        with Home() as home:
            home.fetch("new")
            home.keep()
            home.words.append("--same-account")
            self.check("after a run of the new account", self.play_in(home, ("getmailrc", "new"), (), 1 if WHOLE else 3))

    def test_without_deletion(self):
        """What comes while both accounts fetch comes to both, until it is carried again."""
        self.check("without deletion", self.play(Account, ("getmailrc", "new"), (), 1 if WHOLE else 3))


    def test_what_is_left_beside_a_record(self):
        """A run of the account that fetches a message removes it once it is an hour old."""
        with Home() as home:
            known = {*os.listdir(home.folder), home.record(home.new).name, f"carried-{home.old}-{home.new}", home.waiting.name,
                     f"lock-{home.old}", f"lock-{home.new}"}
            rcs, removed = {home.old: "getmailrc", home.new: "new"}, Counter()
            for number in range(1, MOST):
                home.restore()
                if home.carry(**self.killed(number)).status != KILLED:
                    break
                for name in set(os.listdir(home.folder)) - known:
                    os.utime(home.folder / name, (0, 0))
                    home.server.messages.append(LATE)
                    rc = next(rc for digest, rc in rcs.items() if name.startswith(f"seen-{digest}"))
                    home.fetch(rc)
                    self.assertFalse((home.folder / name).exists(), name)
                    removed[rc] += 1
            self.assertGreater(min(removed[rc] for rc in rcs.values()), 1)


class PowerLost(Carrying):
    """A loss of power in place of the kill. Of two names that a rename has within a folder, one is always there."""

    MOST = 64 if WHOLE else 3

    def states(self, home):
        """The trees that a loss of power can leave, each once."""
        watched, changes = self.watched(home.home, home.carry)
        seen = set()
        renamed = [(path, path.replace(home.old, home.new)) for path in watched.start if f"{home.old}." in path]
        waiting, record = (f".getmail/{path.name}" for path in (home.waiting, home.record(home.new)))
        placed = next(number for number, change in enumerate(changes) if isinstance(change, power.Name) and change.path == record)
        for count, image, _ in power.fronts(watched, changes, self.MOST, random.Random(1)):
            state = tuple(sorted(image.items()))
            pairs = [*renamed, (waiting, record)] if count > placed else renamed
            if state not in seen and all((old in image) != (new in image) for old, new in pairs):
                seen.add(state)
                yield image

    def play(self, kind, order=("getmailrc", "new")):
        found = Findings()
        with Home(kind) as home:
            for image in self.states(home):
                home.restore()
                power.build(home.home, image)
                found.kills += 1
                self.go_on(home, found, found.kills, order, ("-d",))
        return found

    def test_a_maildir(self):
        self.check("power lost, in a Maildir", self.play(Account))

    def test_an_mboxrd_file(self):
        self.check("power lost, over an mboxrd file", self.play(MboxAccount))

    def test_the_new_rc_file_first(self):
        """No mark is on the disk without the record by which it is known that all mail came once more."""
        self.check("power lost, the new rc file first", self.play(MboxAccount, ("new", "getmailrc")))
        self.assertGreater(self.twice, 3)

    def test_a_message_that_was_not_flushed(self):
        """No record says that it was delivered before its file and its name are on the disk."""
        uid, text = FIRST[-1]
        with Home() as home:
            watched, changes = self.watched(home.home, home.carry)
            path, = (path for path, content in watched.start.items() if content == text)
            new_path, counts = path.replace(home.old, home.new), Counter()
            for count, image in self.images(watched, changes, path):
                # A rename within a folder leaves one of its names, once the first one is on the disk.
                is_named = power.FlushFolder(os.path.dirname(path)) in changes[:count]
                is_said = any(re.search(rb"\n%s [0-9]+ 1\n" % uid, image.get(f".getmail/seen-{digest}", b""))
                              for digest in (home.old, home.new))
                if is_said and not (is_named and path not in image and new_path not in image):
                    self.assertEqual(image.get(new_path, image.get(path)), text)
                counts[is_said] += 1
        self.assertGreater(min(counts[False], counts[True]), 10)

    def test_the_same_message_that_was_not_flushed(self):
        """Both accounts have fetched it: the old name goes only once the other file is on the disk."""
        text = FIRST[-1][1]
        with Home() as home:
            self.assertEqual(home.carry().status, 0)
            path, = (path for path in (home.maildir / "new").iterdir() if path.read_bytes() == text)
            (path.parent / path.name.replace(home.new, home.old)).write_bytes(text)
            watched, changes = self.watched(home.home, home.carry)
            for _, image in self.images(watched, changes, os.path.relpath(path, watched.root)):
                self.assertIn(text, image.values())
            self.assertEqual(home.names(home.old), [])


class Converted(Killed):
    """Killed, and run again: then `getmail` fetches nothing of the list."""

    LISTS = {"getmail6": b"".join(b"%d\x001600000000\n" % number for number in range(30)),
             "mpop": b" 30 pop.example.org u\n" + b"".join(b"%d\n" % number for number in range(30)),
             "fetchmail": b"".join(b"u@pop.example.org %d\n" % number for number in range(30))}

    def play(self, account, server, program, **changes):
        found, path = Findings(), account.folder / "list"
        path.write_bytes(self.LISTS[program])
        words = ["-g", account.folder, LOOPBACK, server.port, "u", path]
        for number in range(1, MOST):
            run = run_apart(f"from-{program}", *words, **self.killed(number, **changes))
            if run.status != KILLED:
                self.assertEqual(run.status, 0, run)
                return found
            found.kills += 1
            again = run_apart(f"from-{program}", *words)
            if again.status != 0:
                found.told.append(f"killed after {number}: {again}")
            self.assertEqual(account.run("-q").status, 0)
            server.wait_for_end()
            found.doubled += len(account.held())
            for name in os.listdir(account.folder):
                if name.startswith("seen-"):
                    (account.folder / name).unlink()
            for name in os.listdir(account.maildir / "new"):
                (account.maildir / "new" / name).unlink()
        self.fail("it was never done")

    def test_each(self):
        with SharedServer([(b"%d" % number, b"text\n") for number in range(30)]) as server:
            for program in self.LISTS:
                with self.subTest(program), Account(server.port) as account:
                    self.check(f"from {program}", self.play(account, server, program))

    def test_a_loss_of_power(self):
        """What a script has said stays so, also of a record that a killed one left."""
        with SharedServer([]) as server, Account(server.port) as account:
            path = account.folder / "list"
            path.write_bytes(self.LISTS["getmail6"])

            def script(**changes):
                return run_apart("from-getmail6", "-g", account.folder, LOOPBACK, server.port, "u", path, **changes)
            watched, changes = self.watched(account.home, script)
            record = os.path.relpath(account.record, watched.root)
            content = account.record.read_bytes()
            for count, image, lost in power.fronts(watched, changes, 64, random.Random(1)):
                self.assertIn(image.get(record), (content,) if count == len(changes) else (None, content), lost)
            watched, changes = self.watched(account.home, script)
            for count, image in self.images(watched, changes, record):
                if count == len(changes):
                    self.assertEqual(image.get(record), content)

    def test_without_a_rename_that_spares_what_is_there(self):
        with SharedServer([(b"%d" % number, b"text\n") for number in range(30)]) as server, Account(server.port) as account:
            self.check("from getmail6 by links", self.play(account, server, "getmail6", REFUSED_CALL="sparing-rename"))


if __name__ == "__main__":
    unittest.main()
