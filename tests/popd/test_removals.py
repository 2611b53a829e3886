"""Which files QUIT removes: those of the messages that were served, and none that may be another message."""

import itertools
import os
import shutil
import socket
import unittest
from pathlib import Path

from harness import kernel, preload, programs
from popd.service import Maildir, Service

REFUSED = b"-ERR some messages not removed\r\n"
# How many octets of a file are compared at a time.
PIECE = 65_536
# Each but the first pair differs in a piece of its own, or in the length alone.
DIFFERENT = ((b"", b"\n"), (b"one\n", b"two\n"), (b"one\n", b"one\n\n"), (b"x" * PIECE, b"x" * (PIECE + 1)),
             (b"x" * PIECE + b"a", b"x" * PIECE + b"b"), (b"x" * 3 * PIECE, b"x" * (3 * PIECE - 1) + b"y"))


class Removals(unittest.TestCase):
    """A message `a` of which another file has the base, between two other messages."""

    def setUp(self):
        self.maildir = Maildir()
        self.addCleanup(self.maildir.holder.cleanup)

    def fill(self, content=b"one\n", name="a:2,S"):
        """A Maildir of its own with the three messages; the path of the middle one, as text."""
        self.maildir = self.enterContext(Maildir())
        self.maildir.add("cur", "0:2,", b"zero\n")
        self.maildir.add("new", "b", b"bee\n")
        return os.fsdecode(self.maildir.add("cur", name, content))

    def path(self, part, name):
        return str(self.maildir.folder / part / name)

    def warning(self, one, other):
        words = f"{one} isn't as it was listed"
        if one != other:
            words = f"{one} and {other} have one unique-id but may be different messages"
        return f"popd: warning: not removed: {words}\n".encode()

    def service(self, connections=1, words=(), **environment):
        return Service(self.maildir, "--connections", str(connections), *words, **environment)

    def meddled(self, connections=1, words=(), **meddling):
        """A service that somebody meddles with."""
        library = self.enterContext(preload.library("meddle"))
        names = {f"MEDDLE_{what.upper()}": os.fsdecode(path) for what, path in meddling.items()}
        return self.service(connections, words, LD_PRELOAD=str(library), **names)

    def leave(self, service, *numbers, before=lambda: None):
        """Logs in, marks these messages and quits; the last answer."""
        with service.client() as client:
            client.log_in()
            for number in numbers:
                self.assertEqual(client.ask(b"DELE %d" % number), b"+OK marked\r\n")
            before()
            answer = client.ask(b"QUIT")
            self.assertEqual(client.rest(), b"")
        return answer

    def check_kept(self, one=None, other=None, before=lambda: None, **meddling):
        """The removal of `a` is refused, all its files stay, and these two are named, if any."""
        with self.meddled(**meddling) as service:
            self.assertEqual(self.leave(service, 2, before=lambda: (before(), self.see())), REFUSED)
            self.assertEqual(service.finish(), (0, self.warning(one, other) if one else b""))
        left, seen = ([name for name in names if name[1][:1] == b"a"] for names in (self.maildir.names(), self.seen))
        self.assertEqual(left, seen)

    def see(self):
        self.seen = self.maildir.names()

    def check_gone(self, before=lambda: None, **meddling):
        """All files of `a` go, and no other."""
        with self.meddled(**meddling) as service:
            self.assertEqual(self.leave(service, 2, before=before), b"+OK bye\r\n")
            self.assertEqual(service.finish(), (0, b""))
        self.assertEqual(self.maildir.names(), [("cur", b"0:2,"), ("new", b"b")])


class TwoMessagesOfOneName(Removals):
    def test_neither_goes_however_often_the_client_asks(self):
        """The one that isn't listed was never read: it must not come under the other's unique-id either."""
        listed = self.fill()
        other = os.fsdecode(self.maildir.add("new", "a", b"never read\n"))
        self.see()
        with self.service(2) as service:
            for _ in range(2):
                with service.client() as client:
                    client.log_in()
                    self.assertEqual(client.ask_lines(b"UIDL"), b"+OK\r\n1 0\r\n2 a\r\n3 b\r\n.\r\n")
                    self.assertEqual(client.ask_lines(b"RETR 2"), b"+OK 5 octets\r\none\r\n.\r\n")
                    self.assertEqual(client.ask(b"DELE 2"), b"+OK marked\r\n")
                    self.assertEqual(client.ask(b"QUIT"), REFUSED)
                self.assertEqual(self.maildir.names(), self.seen)
            self.assertEqual(service.finish(), (0, self.warning(listed, other) * 2))

    def test_whatever_their_octets_are(self):
        for number, pair in enumerate(DIFFERENT):
            for one, two in (pair, pair[::-1]):
                with self.subTest(number, length=len(one)):
                    listed = self.fill(one)
                    self.check_kept(one=listed, other=os.fsdecode(self.maildir.add("new", "a", two)))

    def test_in_the_same_folder(self):
        listed = self.fill()
        self.check_kept(one=listed, other=os.fsdecode(self.maildir.add("cur", "a:2,T", b"two\n")))

    def test_another_name_and_a_copy_do_not_change_that(self):
        """Nothing goes if one of several files is another message, in whatever order they are found."""
        for name in ("a:2,T", "a:2,"):
            listed = self.fill()
            os.link(listed, self.path("new", "a"))
            self.maildir.add("cur", "a:2,ST", b"one\n")
            other = os.fsdecode(self.maildir.add("new", name, b"two\n"))
            self.check_kept(one=listed, other=other)

    def test_the_others_go(self):
        listed = self.fill()
        other = os.fsdecode(self.maildir.add("new", "a", b"two\n"))
        with self.service(words=("--verbose",)) as service:
            self.assertEqual(self.leave(service, 1, 2, 3), REFUSED)
            told = service.finish()[1]
        self.assertIn(b": 2 messages removed, 1 not removed\n", told)
        self.assertTrue(told.endswith(self.warning(listed, other)), told)
        self.assertEqual(self.maildir.names(), [("cur", b"a:2,S"), ("new", b"a")])

    def test_each_is_named(self):
        """Over standard input and output too, with control characters escaped."""
        pairs = []
        with Maildir() as maildir:
            for name in ("a", "b\n", "c"):
                pairs.append([os.fsdecode(maildir.add(part, name + flags, flags.encode() + b"\n"))
                              for part, flags in (("cur", ":2,"), ("new", ""))])
            given = b"USER u\r\nPASS p\r\nDELE 1\r\nDELE 2\r\nDELE 3\r\nQUIT\r\n"
            run = programs.run("popd", "u", maildir.passfile, maildir.folder, given=given)
            self.assertTrue(run.out.endswith(REFUSED), run.out)
            self.assertEqual(len(maildir.names()), 6)
        told = b"".join(self.warning(*pair) for pair in pairs).replace(b"b\n", b"b\\u{a}")
        self.assertEqual((run.status, run.err), (0, told))

    def test_they_are_compared_in_little_memory(self):
        octets = 1 << 26
        listed = self.fill(b"")
        other = os.fsdecode(self.maildir.add("new", "a", b""))
        os.truncate(listed, octets)
        os.truncate(other, octets)
        with open(other, "r+b") as file:
            file.seek(octets - 1)
            file.write(b"\n")
        with self.service(2) as service:
            self.assertEqual(self.leave(service, 2), REFUSED)
            self.assertLess(service.peak_of_memory(), octets // 4)
            os.truncate(other, octets - 1)
            os.truncate(other, octets)
            self.assertEqual(self.leave(service, 2), b"+OK bye\r\n")
        self.assertEqual(self.maildir.names(), [("cur", b"0:2,"), ("new", b"b")])


class OneMessage(Removals):
    """Files of one base that are the same message go together."""

    def test_a_copy(self):
        for content in (b"", b"one\n", b"x" * PIECE, b"x" * PIECE + b"\n", b"x" * 3 * PIECE):
            with self.subTest(len(content)):
                self.fill(content)
                self.maildir.add("new", "a", content)
                self.check_gone()

    def test_a_copy_and_another_name_of_it(self):
        listed = self.fill()
        for part, name in (("new", "a"), ("cur", "a:2,T")):
            self.maildir.add(part, name, b"one\n")
        os.link(self.path("new", "a"), self.path("cur", "a:2,RS"))
        os.link(listed, self.path("cur", "a:2,"))
        self.check_gone()

    def test_another_name_is_not_read(self):
        listed = self.fill()
        os.link(listed, self.path("new", "a"))
        self.check_gone(refused=self.path("new", "a"))

    def test_a_copy_that_moves_while_it_is_compared(self):
        self.fill()
        copy = self.maildir.add("new", "a", b"one\n")
        self.check_gone(**{"from": copy, "to": self.path("cur", "a:2,T")})

    def test_a_copy_that_vanishes_while_it_is_compared(self):
        self.fill()
        self.check_gone(**{"from": self.maildir.add("new", "a", b"one\n")})

    def test_what_is_no_file_is_no_message(self):
        """It stays where it is."""
        for make in (os.mkdir, os.mkfifo, lambda path: os.symlink(self.path("new", "b"), path)):
            self.fill()
            make(self.path("new", "a"))
            with self.service() as service:
                self.assertEqual(self.leave(service, 2), b"+OK bye\r\n")
                self.assertEqual(service.finish(), (0, b""))
            self.assertEqual(self.maildir.names(), [("cur", b"0:2,"), ("new", b"a"), ("new", b"b")])

    def test_the_listed_file_goes_last(self):
        """If its copy can't be removed, it is still there, under its unique-id."""
        listed = self.fill()
        for name in ("new/a", "cur/a:2,T"):
            with self.subTest(name):
                self.maildir.add(*name.split("/"), b"one\n")
                self.check_kept(kept=self.maildir.folder / name)
                os.unlink(self.maildir.folder / name)
        self.assertTrue(Path(listed).exists())

    def test_a_file_that_cannot_be_read_is_no_copy(self):
        self.fill()
        self.check_kept(refused=self.maildir.add("new", "a", b"one\n"))


class ChangesBeforeQuit(Removals):
    """The listed file is the one that has its number, length and time of change, wherever it is."""

    def test_the_listed_file_is_gone_and_another_has_its_name(self):
        """Even if it has the listed one's length."""
        for part, name in (("new", "a"), ("cur", "a:2,T"), ("cur", "a:2,")):
            for content in (b"never read\n", b"two\n"):
                with self.subTest(name, content=content):
                    self.check_another(part, name, content)

    def check_another(self, part, name, content):
        listed = self.fill()
        other = os.fsdecode(self.maildir.add(part, name, content))
        if name == "a:2,":
            # This one is listed in its place, so it comes later.
            os.rename(other, self.path("tmp", "a"))
            self.check_kept(one=listed, other=other,
                            before=lambda: (os.unlink(listed), os.rename(self.path("tmp", "a"), other)))
        else:
            self.check_kept(one=listed, other=other, before=lambda: os.unlink(listed))

    def test_a_file_of_the_same_whole_name_is_in_the_other_folder(self):
        listed = self.fill(name="a")
        other = os.fsdecode(self.maildir.add("new", "a", b"never read\n"))
        self.check_kept(one=listed, other=other, before=lambda: os.unlink(listed))

    def test_the_listed_file_got_another_name_beside_another_message(self):
        for name in ("a:2,RS", "a:2,"):
            listed = self.fill()
            other = os.fsdecode(self.maildir.add("cur", "a:2,T", b"other\n"))
            moved = self.path("cur", name)
            self.check_kept(one=moved, other=other, before=lambda: os.rename(listed, moved))

    def test_the_listed_file_got_another_name_beside_a_copy(self):
        listed = self.fill()
        self.maildir.add("cur", "a:2,T", b"one\n")
        self.check_gone(before=lambda: os.rename(listed, self.path("new", "a")))

    def test_a_file_that_is_edited_where_it_was_listed(self):
        for change in (lambda path: path.write_bytes(b"another text\n"), lambda path: os.utime(path, ns=(0, 0))):
            listed = self.fill()
            self.check_kept(one=listed, other=listed, before=lambda: change(Path(listed)))

    def test_a_copy_in_the_place_of_the_listed_file(self):
        """It has the same octets, length and time of change."""
        listed = self.fill()
        shutil.copy2(listed, self.path("tmp", "a"))
        self.check_kept(one=listed, other=listed, before=lambda: os.rename(self.path("tmp", "a"), listed))

    def test_a_folder_that_cannot_be_listed(self):
        """All removals are refused, not the first alone."""
        for part in ("new", "cur"):
            with self.subTest(part):
                self.fill()
                self.see()
                when = self.maildir.folder / "when"
                meddling = {"when": when, "refused": f"{self.maildir.folder / part}/"}
                with self.meddled(**meddling, words=("--verbose",)) as service:
                    self.assertEqual(self.leave(service, 1, 2, 3, before=when.touch), REFUSED)
                    self.assertIn(b": 0 messages removed, 3 not removed\n", service.finish()[1])
                self.assertEqual(self.maildir.names(), self.seen)


class NamesOfTwoMessages(Removals):
    """Another message gets the name of the one that a client has read and marked: it isn't removed unread. Both files have
    one length and one time of change."""

    CHANGES = {
        "renamed": os.rename,
        "exchanged": kernel.exchange,
        "exchanged by a third name": lambda other, own: (os.rename(own, f"{own}x"), os.rename(other, own), os.rename(f"{own}x", other)),
    }

    def check(self, between=lambda client: None, flags=None):
        """In each pair of folders, in each way."""
        for (way, change), parts in itertools.product(self.CHANGES.items(), itertools.product(("cur", "new"), repeat=2)):
            with self.subTest(way, parts=parts):
                self.maildir = self.enterContext(Maildir())
                own, other = paths = [os.fsdecode(self.maildir.add(part, name, name[:1].encode() + b"\n")) for part, name in
                                      zip(parts, ("a:2,", "b:2,"))]
                self.maildir.add("cur", "c", b"c\n")
                for path in paths:
                    os.utime(path, ns=(0, 0))
                with self.service() as service, service.client() as client:
                    client.log_in()
                    self.assertEqual(client.ask_lines(b"RETR 1"), b"+OK 3 octets\r\na\r\n.\r\n")
                    between(client)
                    change(other, own)
                    if flags:
                        os.rename(own, own := self.path("cur", f"a{flags}"))
                    left = self.maildir.names()
                    self.assertEqual(client.ask(b"DELE 1"), b"+OK marked\r\n")
                    self.assertEqual(client.ask(b"QUIT"), REFUSED)
                    told = service.finish()
                self.assertEqual((self.maildir.names(), Path(own).read_bytes()), (left, b"b\n"))
                self.assertEqual(told, (0, self.warning(paths[0], own)))

    def test_where_it_was_listed(self):
        self.check()

    def test_with_other_flags(self):
        self.check(flags=":2,S")

    def test_after_a_second_listing(self):
        """A message that isn't found where it was listed makes the server list the folders anew."""
        def list_anew(client):
            os.rename(self.path("cur", "c"), self.path("cur", "c:2,S"))
            self.assertEqual(client.ask_lines(b"RETR 3"), b"+OK 3 octets\r\nc\r\n.\r\n")

        self.check(list_anew)


class WhatIsNoFileAnyMore(Removals):
    """A pipe that nobody writes to isn't waited for."""

    def replace(self, path, make):
        os.unlink(path)
        make(path)

    def test_retr_and_top(self):
        def bind(path):
            with socket.socket(socket.AF_UNIX) as made:
                made.bind(path)

        def link(path):
            os.symlink(self.path("new", "b"), path)

        for make in (os.mkfifo, bind, link, os.mkdir):
            with self.subTest(make):
                listed = self.fill()
                with self.service() as service, service.client() as client:
                    client.log_in()
                    self.replace(listed, make)
                    for command in (b"RETR 2", b"TOP 2 0"):
                        self.assertEqual(client.ask(command), b"-ERR message unavailable\r\n")
                    self.assertEqual(client.ask_lines(b"RETR 3"), b"+OK 5 octets\r\nbee\r\n.\r\n")
                    self.assertEqual(client.ask(b"DELE 2"), b"+OK marked\r\n")
                    self.assertEqual(client.ask(b"QUIT"), REFUSED)
                self.assertTrue(os.path.lexists(listed))

    def test_a_login_while_files_are_read(self):
        """It becomes a pipe after the folder was listed and before it is looked at, and isn't listed."""
        listed = self.fill()
        os.mkfifo(self.path("tmp", "pipe"))
        meddling = {"at": self.path("cur", "0:2,"), "from": self.path("tmp", "pipe"), "to": listed}
        with self.meddled(**meddling) as service:
            with service.client() as client:
                self.assertEqual(client.log_in(), b"+OK 2 messages\r\n")
            self.assertEqual(service.finish(), (0, b""))
