#!/usr/bin/env python3
"""Carries an account of getmail over to another server, port or user name, so that nothing is fetched again.

Without it another server (a socket in place of 127.0.0.1, a provider's new name) is another account to getmail. First the
new record is written as `carried-OLD-NEW.record`, an empty file `carried-OLD-NEW` says that both accounts are one, and the
record gets its place. Then the old record gets the rows of both, each file of new and cur gets its new name, and last what
was cut off from an mboxrd file. The old record stays, so that a run with the old rc file fetches nothing that was carried.

The script may be killed at any moment, and run again after runs of either account: it goes on. Only a run of the new account
before its record has its place fetches all mail, which is put right in a Maildir; an mboxrd file may have it twice then, and the
script says so. If the new account has anything of its own before the first step, it is another one, and nothing is changed,
unless --same-account says that both are one, and each message that both have in a Maildir has one text.
"""

import argparse
import contextlib
import errno
import os
import re
import stat
import sys
import time
from typing import NamedTuple

sys.dont_write_bytecode = True
from account_files import (Record, Refused, add_account, add_folder, check_renames, content_of, digest_of, flush, flush_names, is_there,
                           locked, opened, read_record, record_of, rename, shown, take_any_letter, words_of, write_whole)

PARTS = ("cur", "new")
# A digest, a legal unique-id in hexadecimal, and then the file's size and its reader's flags.
NAME = re.compile(r"([0-9a-f]{64})\.((?:2[1-9a-f]|[3-6][0-9a-f]|7[0-9a-e]){1,70})(?:[,:].*)?", re.DOTALL)
MARK = re.compile(r"carried-([0-9a-f]{64})-([0-9a-f]{64})")
# How often something is tried while readers change the folders.
TRIES = 100
# How many nanoseconds a folder must be at rest so that each later change gives it another time; the second is for a file
# system of whole seconds.
STEP, STEP_OF_SECONDS = 20_000_000, 1_020_000_000
# The errors of a file without rights, and of a link that leads nowhere.
UNREADABLE = (errno.EACCES, errno.EPERM, errno.ELOOP, errno.ENOTDIR)


class Message(NamedTuple):
    """What has the name of an account's message."""

    path: str
    uid: bytes
    is_file: bool


class Maildir:
    """What two accounts have in a Maildir in which mail readers may be at work; without a path, nothing."""

    def __init__(self, path, old, new):
        self.path, self.old, self.new = path, old, new
        self.folders = [os.path.join(path, part) for part in PARTS] if path is not None else []

    def check_renames(self):
        if self.path is not None:
            check_renames(os.path.join(self.path, "tmp", self.new))

    def times(self):
        """When the names of each folder changed last."""
        return [os.stat(folder).st_ctime_ns for folder in self.folders]

    def paths(self):
        """The path of each file at one moment. Linux may leave out what is renamed during a listing."""
        for _ in range(TRIES):
            times, now = self.times(), time.time_ns()
            steps = [STEP if changed % 1_000_000_000 else STEP_OF_SECONDS for changed in times]
            left = [min(step, changed + step - now) for step, changed in zip(steps, times)]
            time.sleep(max([0, *left]) / 1e9)
            paths = [os.path.join(folder, name) for folder in self.folders for name in sorted(os.listdir(folder))]
            if self.times() == times:
                return paths
        raise Refused(f"the names in {shown(os.path.dirname(self.folders[0]))} change all the time: close what reads mail there")

    def look(self):
        """The messages of the old account and of the new one, and what has a name like the old ones' and is none."""
        messages, odd = {self.old: [], self.new: []}, []
        for path in self.paths():
            digest, name = os.path.basename(path)[:64], NAME.fullmatch(os.path.basename(path))
            if name and digest in messages:
                is_file = stat.S_ISREG(os.lstat(path).st_mode)
                messages[digest].append(Message(path, bytes.fromhex(name[2]), is_file))
            elif digest == self.old:
                odd.append(path)
        return messages[self.old], messages[self.new], odd

    def new_path(self, path):
        """The path of an old account's file under the new one."""
        folder, name = os.path.split(path)
        return os.path.join(folder, self.new + name.removeprefix(self.old))

    def flush_names(self):
        for folder in self.folders:
            flush_names(folder)


def is_readable(path):
    """Whether there is a file, or a link to one, that can be read; then what is in it is on the disk."""
    try:
        if not stat.S_ISREG(os.stat(path).st_mode):
            return False
        flush(path)
    except OSError as error:
        if error.errno in UNREADABLE or error.errno == errno.ENOENT and is_there(path):
            return False
        raise
    return True


def is_same(one, other):
    """Whether two names are those of one file, or of two files with the same octets; then the other one is on the disk."""
    about_one, about_other = os.lstat(one), os.lstat(other)
    if os.path.samestat(about_one, about_other):
        return True
    if not all(stat.S_ISREG(about.st_mode) for about in (about_one, about_other)) or about_one.st_size != about_other.st_size:
        return False
    try:
        if content_of(one) != content_of(other):
            return False
    except PermissionError:
        return False
    flush(other)
    flush_names(os.path.dirname(other))
    return os.path.samestat(about_other, os.lstat(other))


def is_one_account(folder, old, new):
    """Whether one of two accounts was carried over to the other, or is being carried, by way of others too."""
    pairs = [{mark[1], mark[2]} for mark in map(MARK.fullmatch, os.listdir(folder)) if mark]
    known = {old}
    for _ in pairs:
        known.update(*(pair for pair in pairs if pair & known))
    return new in known


def merged(records, uids, now):
    """The rows of two records of one account, and of messages that are held: the earlier second, delivered if one says so."""
    rows = {}
    for second, state, uid in [(*row, uid) for record in records for uid, row in record.rows.items()] + \
            [(b"%d" % now, b"1", uid) for uid in uids]:
        known = rows.get(uid, (second, state))
        rows[uid] = min(known[0], second, key=int), max(known[1], state)
    return rows


def again(attempt):
    """What `attempt` answers once no reader has moved a file meanwhile."""
    for left in reversed(range(TRIES)):
        try:
            return attempt()
        except FileNotFoundError:
            if not left:
                raise


class Carry:
    """An account that is carried over to another one, between runs of both."""

    def __init__(self, asked, old, new):
        self.folder, self.is_same = asked.g, asked.same_account
        self.mark = os.path.join(self.folder, f"carried-{old}-{new}")
        # The new record until it has its place: as long as it is here, the new account may have had runs of its own.
        self.waiting = f"{self.mark}.record"
        self.records = [os.path.join(self.folder, f"seen-{digest}") for digest in (old, new)]
        self.rests = [f"{record}.rest" for record in self.records]
        self.is_marked = is_one_account(self.folder, old, new)
        self.is_one = self.is_marked or is_there(self.waiting)
        self.maildir = Maildir(asked.maildir, old, new)
        self.has_begun = False

    def read(self, record):
        """The record at a path; an empty one if there is none and the accounts are known to be one."""
        if self.is_one and not is_there(record):
            return Record({}, False)
        found = read_record(record)
        if found.is_open:
            raise Refused(f"{shown(record)} has an entry of an mboxrd file that isn't settled: run getmail once more with the "
                          "rc file of this record")
        return found

    def check_another(self, old, new):
        """The new account has nothing yet, unless both are known to be one, or said to be one."""
        if self.is_one or self.is_same and self.has_same(old, new):
            return
        for there, here in zip([self.records[1], self.rests[1]], [self.records[0], self.rests[0]]):
            if is_there(there):
                raise Refused(f"{shown(there)} is there already, the record of another account: {shown(here)} stays. {self.remedy()}")
        for message in new:
            here = next((one.path for one in old if one.uid == message.uid), self.records[0])
            raise Refused(f"{shown(message.path)} is there already, a message of another account: {shown(here)} stays. "
                          f"{self.remedy()}")

    def remedy(self):
        """What can be done if getmail has run for the new account before this script."""
        if not self.maildir.folders:
            return "If it is the same one, getmail has fetched all mail with the new rc file, and nothing has to be carried"
        if not self.is_same:
            return "If it is the same one, and getmail has run with the new rc file before this, add --same-account"
        return "The Maildir has no message of both, so nothing shows that they are one"

    def has_same(self, old, new):
        """Whether both accounts have messages in common. If the texts of one differ, they are two accounts."""
        pairs = [(one.path, other.path) for one in old for other in new if one.uid == other.uid]
        for one, other in pairs:
            if not is_same(one, other):
                raise Refused(f"{shown(one)} and {shown(other)} are different, so these are two accounts")
        return bool(pairs)

    def check_free(self, one, other):
        """Nothing is lost if one path gets the name of the other."""
        if is_there(other) and not is_same(one, other):
            raise Refused(f"{shown(other)} is there already, with other octets than {shown(one)}: look at both, and remove or "
                          "rename one of them")

    def check_waiting(self):
        """No run of the new account has appended what an mboxrd file had already."""
        record = self.records[1]
        if not is_there(self.waiting):
            return
        if not stat.S_ISREG(os.lstat(self.waiting).st_mode):
            raise Refused(f"{shown(self.waiting)} is no regular file")
        if self.maildir.folders or self.is_same or not is_there(record) or os.path.samefile(self.waiting, record):
            return
        if any(state == b"1" for _, state in self.read(record).rows.values()):
            raise Refused(f"{shown(self.waiting)} is there, and so is {shown(record)}: getmail has run with the new rc file before "
                          "this was done, so the mboxrd file may have mail twice. Look there, remove what is too much, and run "
                          "this again with --same-account")

    def plan(self):
        """The rows that both accounts get. All is checked before anything is changed."""
        if not self.is_one and not is_there(self.records[0]):
            raise Refused(f"{shown(self.records[0])} isn't there: getmail hasn't run for the old account in this folder")
        old, new, _ = self.maildir.look()
        self.check_another(old, new)
        self.check_waiting()
        for message in old:
            if message.is_file:
                self.check_free(message.path, self.maildir.new_path(message.path))
        if self.has_rest():
            self.check_free(*self.rests)
        records = [self.read(record) for record in (*self.records, self.waiting) if is_there(record)]
        delivered = {uid for record in records for uid, (_, state) in record.rows.items() if state == b"1"}
        uids = [one.uid for one in old + new if one.uid not in delivered and is_readable(one.path)]
        if uids:
            self.maildir.flush_names()
        return merged(records, uids, int(time.time()))

    def has_rest(self):
        return is_there(self.rests[0]) and stat.S_ISREG(os.lstat(self.rests[0]).st_mode)

    def write(self, record, rows):
        """Writes a record that has other rows."""
        if not is_there(record) or self.read(record).rows != rows:
            write_whole(record, record_of(rows), replaces=is_there(record))

    def place_new_record(self, rows):
        """The new record is whole on the disk before the mark is made, and has its place right after that."""
        new, has_place = self.records[1], is_there(self.records[1])
        if has_place and is_there(self.waiting) and os.path.samefile(self.waiting, new):
            os.unlink(self.waiting)
            flush_names(self.folder)
        if has_place and self.is_marked and not is_there(self.waiting):
            return self.write(new, rows)
        write_whole(self.waiting, record_of(rows), is_there(self.waiting), new)
        if not self.is_marked:
            with opened(self.mark, os.O_WRONLY | os.O_CREAT | os.O_EXCL) as number:
                os.fsync(number)
            flush_names(self.folder)
        (os.replace if has_place else rename)(self.waiting, new)
        flush_names(self.folder)

    def rename_one(self, path, others):
        """Gives a file its new name. If one of the new account's with its unique-id has its octets, only the old name goes."""
        for other in others:
            if is_same(path, other):
                os.unlink(path)
                return
        try:
            rename(path, self.maildir.new_path(path))
        except FileExistsError:
            self.check_free(path, self.maildir.new_path(path))

    def rename_files(self):
        """Gives each file of the old account the new one's name, and answers how many there were and what was left alone."""
        count = 0
        for _ in range(TRIES):
            old, new, odd = again(self.maildir.look)
            files = [message for message in old if message.is_file]
            if not files:
                self.maildir.flush_names()
                return count, odd + [message.path for message in old]
            there = {}
            for message in new:
                there.setdefault(message.uid, []).append(message.path)
            for message in files:
                with contextlib.suppress(FileNotFoundError):
                    self.rename_one(message.path, there.get(message.uid, []))
                    count += 1
        raise Refused(f"{shown(files[0].path)} gets other names all the time: close what reads mail there")

    def rename_rest(self):
        """Gives what was cut off from an mboxrd file its new name, and answers what was left alone."""
        if not self.has_rest():
            return [path for path in self.rests[:1] if is_there(path)]
        if is_there(self.rests[1]):
            self.check_free(*self.rests)
            os.unlink(self.rests[0])
        else:
            rename(*self.rests)
        flush_names(self.folder)
        return []

    def run(self):
        """Answers how many files got new names, and what was left alone."""
        rows = again(self.plan)
        check_renames(f"{self.records[1]}.tmp")
        self.maildir.check_renames()
        self.has_begun = True
        self.place_new_record(rows)
        self.write(self.records[0], rows)
        count, odd = self.rename_files()
        return count, odd + self.rename_rest()


def carry(asked, old, new):
    """Carries one account over to the other, while no getmail of either is at work, and tells what was done."""
    end = "nothing was changed"
    try:
        with locked(asked.g, old), locked(asked.g, new):
            work = Carry(asked, old, new)
            try:
                count, odd = work.run()
            finally:
                end = "run this again once that is over" if work.has_begun else end
    except Refused as reason:
        sys.exit(f"{reason}; {end}")
    except OSError as error:
        sys.exit(f"{shown(error.filename or asked.g)}: {error.strerror}; {end}")
    for path in odd:
        print(f"{shown(path)}: no file of a message, left as it is", file=sys.stderr)
    print(f"{shown(work.records[1])}: {count} files have new names")
    print("Now remove the old rc file, or change it: what a run with it fetches comes once more, unless it is carried again")


def main():
    take_any_letter()
    words = argparse.ArgumentParser(description=__doc__.splitlines()[0])
    add_folder(words)
    add_account(words)
    add_account(words, "new_")
    words.add_argument("maildir", nargs="?", help="the destination; leave it out for an mboxrd file")
    words.add_argument("--same-account", action="store_true",
                       help="go on although getmail has run with the new rc file: of no message may a Maildir have two texts then")
    asked = words_of(words)
    old = digest_of(asked.server, asked.port, asked.username)
    new = digest_of(asked.new_server, asked.new_port, asked.new_username)
    if old == new:
        sys.exit("both accounts are the same; nothing was changed")
    carry(asked, old, new)


if __name__ == "__main__":
    main()
