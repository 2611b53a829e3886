"""A Maildir as mail software leaves it, served over loopback to Python's own POP3 client."""

import os
import poplib
import unittest
from contextlib import closing
from pathlib import Path

from harness import kernel, preload, programs, waits
from harness.kernel import LOOPBACK
from popd import expected
from popd.service import Maildir, Service, long_lines_allowed

FOX = "The quick brown fox jumps over the lazy dog"
FOX_ID = b"d7a8fbb307d7809469ca9abcb0082e4f8d5651e46d3cdb762d02d0bf37c9e592"
TAB = "tab\there"
TAB_ID = "5b8765931ded06ac39c11c47f83f7457636af4780d72900c1a0131f4ccb96c85"
LETTER = b"From: Ada <ada@example.org>\nSubject: %s\n\nHello,\n.\n..\n.dot\n\nAda\n"

FILES = (
    ("cur", "1700000001.M1P1.host:2,S", LETTER % b"seen"),
    ("new", "1700000002.M1P1.host", LETTER % b"new"),
    ("cur", "1700000003.M1P1.host:2,", b"flags, but none set\n"),
    ("cur", "1700000004.M1P1.host,S=20:2,RS", b"a size in the name\n"),
    ("new", "1700000005.empty", b""),
    ("new", "1700000006.open", b"a last line\nwithout its end"),
    ("new", "1700000007.dot", b"."),
    ("new", "1700000008.bytes", bytes(octet for octet in range(256) if octet != 10) + b"\n\xff\xfe\0\n"),
    ("new", "1700000009.returns", b"a\r\nb\rc\r\r\n\r\n\r.\n.\r\n"),
    ("cur", "1700000010.long:2,", b"x" * (1 << 20) + b"\n" + b"." * (1 << 20) + b"\n" + b"y" * (1 << 20)),
    ("new", "1700000011.lines", b"\n" * 5000),
    ("new", "1700000012.dots", b".\n" * 5000),
    ("new", FOX, b"a name that is no id\n"),
    ("cur", FOX[:-1] + ":2,S", b"another one\n"),
    ("cur", ":2,S", b"no name before the flags\n"),
    ("new", "n" * 70, b"the longest name that is an id\n"),
    ("new", "n" * 71, b"one octet more\n"),
    ("new", "B", b"in the order of octets\n"),
    ("new", "a", b"in the order of octets\n"),
    ("cur", "\u00e4", b"a name beyond ASCII\n"),
    ("cur", "twice:2,S", b"the one in cur comes first\n"),
    ("new", "twice", b"the one in new is not listed\n"),
    ("cur", "two:2,S", b"nor is the later of two in cur\n"),
    ("cur", "two:2,R", b"the earlier one is\n"),
    ("cur", "~", b"the last octet that an id may have\n"),
    ("cur", TAB, b"an octet that no id may have, and not listed, since the next one has its id\n"),
    ("new", TAB_ID, b"comes before it\n"),
    ("new", FOX_ID.decode(), b"not listed either, since the fox comes before it\n"),
)
NOT_LISTED = (
    ("new", ".hidden", b"a name with a full stop before it\n"),
    ("cur", ".hidden:2,S", b"the same in cur\n"),
    ("tmp", "1700000013.under.way", b"not delivered yet\n"),
    ("new", b"\xff\xfe", b"a name that is no text\n"),
)


def fill(maildir):
    """Puts in all the files, and what is no file in place of files."""
    for part, name, content in (*FILES, *NOT_LISTED):
        maildir.add(part, name, content)
    (maildir.folder / "new" / "folder").mkdir()
    (maildir.folder / "cur" / "1700000000.folder:2,S").mkdir()
    (maildir.folder / "new" / "1700000014.link").symlink_to(maildir.passfile)
    (maildir.folder / "cur" / "1700000015.link:2,S").symlink_to(maildir.folder / "new" / "B")
    (maildir.folder / "new" / "1700000016.dangling").symlink_to(maildir.folder / "missing")
    os.mkfifo(maildir.folder / "new" / "1700000017.pipe")


class WholeMaildir(unittest.TestCase):
    def setUp(self):
        self.maildir = Maildir()
        self.addCleanup(self.maildir.holder.cleanup)
        fill(self.maildir)
        self.messages = expected.messages_of(self.maildir.folder)

    def test_what_is_listed(self):
        """The listing that the other tests take as given has what the table of files says."""
        uids = [message.uid for message in self.messages]
        self.assertEqual(len(uids), len(FILES) - 4)
        self.assertIn(FOX_ID, uids)
        self.assertLess(uids.index(b"B"), uids.index(b"a"))
        texts = {message.uid: message.text for message in self.messages}
        self.assertEqual(texts[b"twice"], b"the one in cur comes first\n")
        self.assertEqual(texts[b"two"], b"the earlier one is\n")
        self.assertEqual(texts[FOX_ID], b"a name that is no id\n")
        self.assertEqual(texts[TAB_ID.encode()], b"comes before it\n")

    def test_every_message_byte_for_byte(self):
        with Service(self.maildir, "--connections", "1") as service, long_lines_allowed():
            client = service.library_client()
            self.assertEqual(client.getwelcome(), b"+OK popd ready")
            sizes = [message.size() for message in self.messages]
            self.assertEqual(client.stat(), (len(self.messages), sum(sizes)))
            self.assertEqual(client.list()[1], [b"%d %d" % row for row in enumerate(sizes, 1)])
            self.assertEqual(client.uidl()[1], [b"%d %s" % (number, message.uid)
                                                for number, message in enumerate(self.messages, 1)])
            for number, message in enumerate(self.messages, 1):
                with self.subTest(message.uid):
                    self.assertEqual(client.list(number), b"+OK %d %d" % (number, message.size()))
                    self.assertEqual(client.uidl(number), b"+OK %d %s" % (number, message.uid))
                    first, lines, _ = client.retr(number)
                    self.assertEqual((first, lines), (b"+OK %d octets" % message.size(), message.lines()))
                    for count in (0, 1, 3, 100_000):
                        self.assertEqual(client.top(number, count)[1], expected.top(message.lines(), count))
            self.assertEqual(client.quit(), b"+OK bye")
            self.assertEqual(service.finish(), (0, b""))

    def test_answers_to_their_last_octet(self):
        machine = expected.Machine(self.messages)
        with Service(self.maildir) as service, service.client() as client:
            client.log_in()
            machine.answer(b"USER u"), machine.answer(b"PASS p")
            for number in range(1, len(self.messages) + 1):
                for command in (b"RETR %d" % number, b"TOP %d 2" % number):
                    self.assertEqual(client.ask_lines(command), machine.answer(command))
            for command in (b"LIST", b"UIDL"):
                self.assertEqual(client.ask_lines(command), machine.answer(command))

    def test_fetching_changes_no_file(self):
        before = self.maildir.names()
        with Service(self.maildir, "--connections", "1") as service, service.client() as client:
            client.log_in()
            for number in range(1, len(self.messages) + 1):
                client.ask_lines(b"RETR %d" % number)
            client.ask(b"QUIT")
            service.finish()
        self.assertEqual(self.maildir.names(), before)

    def test_quit_removes_each_marked_message_and_no_other(self):
        """No other file has its name up to the first colon."""
        files = {path for path, _ in self.files()}
        marked = [number for number, message in enumerate(self.messages, 1) if number % 2 and not message.has_rival]
        with Service(self.maildir, "--connections", "2") as service:
            with closing(service.library_client()) as client:
                for number in marked:
                    client.dele(number)
                self.assertEqual(client.quit(), b"+OK bye")
            removed = {expected.base_of(self.messages[number - 1].path) for number in marked}
            left = {path for path in files if expected.base_of(path) not in removed}
            self.assertEqual({path for path, _ in self.files()}, left)
            with closing(service.library_client()) as client, long_lines_allowed():
                left = expected.messages_of(self.maildir.folder)
                self.assertEqual([row.split()[1] for row in client.uidl()[1]], [message.uid for message in left])
                for number, message in enumerate(left, 1):
                    self.assertEqual(client.retr(number)[1], message.lines())
                client.quit()
            self.assertEqual(service.finish(), (0, b""))

    def files(self):
        for folder, _, names in os.walk(os.fsencode(self.maildir.folder)):
            for name in names:
                yield os.path.join(folder, name), folder


class Changes(unittest.TestCase):
    """What happens to files while a client is logged in, and what is left of a connection that ends early."""

    def setUp(self):
        self.maildir = Maildir()
        self.addCleanup(self.maildir.holder.cleanup)
        self.paths = [self.maildir.add("new", name, name.encode() + b"\n") for name in ("a", "b", "c")]

    def names(self):
        return [name for _, name in self.maildir.names()]

    def test_marks_of_a_dropped_connection_are_forgotten(self):
        endings = (lambda client: client.close(), lambda client: client.reset(), lambda client: client.give(b"QUI"),
                   lambda client: client.give(b"QUIT\r"), lambda client: client.give(b"QUIT\n"))
        with Service(self.maildir) as service:
            for number, end in enumerate(endings):
                with self.subTest(number):
                    client = service.client()
                    client.log_in()
                    self.assertEqual(client.ask(b"DELE 1"), b"+OK marked\r\n")
                    end(client)
                    client.close()
                    with service.client() as next_client:
                        self.assertEqual(next_client.log_in(), b"+OK 3 messages\r\n")
                    self.assertEqual(self.names(), [b"a", b"b", b"c"])

    def test_reset_takes_the_marks_back(self):
        with Service(self.maildir, "--connections", "1") as service, service.client() as client:
            client.log_in()
            for command, answer in ((b"DELE 1", b"+OK marked\r\n"), (b"RSET", b"+OK\r\n"),
                                    (b"DELE 2", b"+OK marked\r\n"), (b"QUIT", b"+OK bye\r\n")):
                self.assertEqual(client.ask(command), answer)
            self.assertEqual(client.rest(), b"")
            service.finish()
        self.assertEqual(self.names(), [b"a", b"c"])

    def test_a_file_that_vanished(self):
        with Service(self.maildir) as service, service.client() as client:
            client.log_in()
            os.unlink(self.paths[0])
            for command in (b"RETR 1", b"TOP 1 0", b"RETR 1"):
                self.assertEqual(client.ask(command), b"-ERR message unavailable\r\n")
            self.assertEqual(client.ask(b"LIST 1"), b"+OK 1 3\r\n")
            self.assertEqual(client.ask_lines(b"RETR 2"), b"+OK 3 octets\r\nb\r\n.\r\n")
            self.assertEqual(client.ask(b"STAT"), b"+OK 3 9\r\n")

    def test_a_file_that_changed(self):
        """What is sent is what the file contains now, whatever its size was when it was listed."""
        with Service(self.maildir) as service, service.client() as client:
            client.log_in()
            for path, content in zip(self.paths, (b"more\n" * 10_000, b"")):
                with open(path, "wb") as file:
                    file.write(content)
            self.assertEqual(client.ask_lines(b"RETR 1"), b"+OK 3 octets\r\n" + b"more\r\n" * 10_000 + b".\r\n")
            self.assertEqual(client.ask_lines(b"RETR 2"), b"+OK 3 octets\r\n.\r\n")

    def test_a_file_that_got_another_name(self):
        with Service(self.maildir) as service, service.client() as client:
            client.log_in()
            os.rename(self.paths[1], self.maildir.folder / "cur" / "b:2,S")
            self.assertEqual(client.ask_lines(b"RETR 2"), b"+OK 3 octets\r\nb\r\n.\r\n")
            self.assertEqual(client.ask(b"DELE 2"), b"+OK marked\r\n")
            self.assertEqual(client.ask(b"QUIT"), b"+OK bye\r\n")
        self.assertEqual(self.names(), [b"a", b"c"])

    def test_every_removal_is_tried(self):
        """One is refused, as a folder is in the file's place."""
        with Service(self.maildir, "--connections", "1") as service, service.client() as client:
            client.log_in()
            for number in (1, 2, 3):
                client.ask(b"DELE %d" % number)
            os.unlink(self.paths[1])
            os.mkdir(self.paths[1])
            self.assertEqual(client.ask(b"QUIT"), b"-ERR some messages not removed\r\n")
            self.assertEqual(client.rest(), b"")
            self.assertEqual(service.finish(), (0, b""))
        self.assertEqual(self.names(), [b"b"])

    def test_a_message_that_comes_later_has_no_number(self):
        with Service(self.maildir) as service:
            with service.client() as client:
                client.log_in()
                self.maildir.add("new", "A", b"earlier in the order\n")
                self.assertEqual(client.ask_lines(b"UIDL"), b"+OK\r\n1 a\r\n2 b\r\n3 c\r\n.\r\n")
                self.assertEqual(client.ask(b"RETR 4"), b"-ERR no such message\r\n")
            with service.client() as client:
                client.log_in()
                self.assertEqual(client.ask_lines(b"UIDL"), b"+OK\r\n1 A\r\n2 a\r\n3 b\r\n4 c\r\n.\r\n")

    def test_a_folder_that_is_not_there(self):
        """The maildrop is refused until the folder is there again; the folder is reported all the same."""
        for part in ("new", "cur"):
            with self.subTest(part), Maildir() as maildir, Service(maildir, "--connections", "1") as service:
                folder = maildir.folder / part
                folder.rmdir()
                with service.client() as client:
                    self.assertEqual(client.log_in(), b"-ERR maildrop unavailable\r\n")
                    self.assertEqual(client.ask(b"PASS p"), b"-ERR USER first\r\n")
                    self.assertEqual(client.ask(b"STAT"), b"-ERR not now\r\n")
                    folder.mkdir()
                    client.ask(b"USER u")
                    self.assertEqual(client.ask(b"PASS p"), b"+OK 0 messages\r\n")
                self.assertEqual(service.finish(), (0, f'popd: warning: cannot read {folder}\n'.encode()))

    def test_no_maildir_at_all(self):
        with Maildir() as maildir:
            maildir.folder /= "none"
            with Service(maildir) as service, service.client() as client:
                self.assertEqual(client.log_in(), b"-ERR maildrop unavailable\r\n")

    def test_python_refuses_a_wrong_password(self):
        with Service(self.maildir, **waits.no_pauses(self)) as service, \
                self.assertRaisesRegex(poplib.error_proto, "-ERR refused"):
            client = poplib.POP3(LOOPBACK, service.port, timeout=programs.SECONDS)
            with closing(client):
                client.user("u")
                client.pass_("q")


def variables(meddling):
    """The environment of a program that is meddled with."""
    return {f"MEDDLE_{what.upper()}": os.fsdecode(path) for what, path in meddling.items()}


class Listings(unittest.TestCase):
    """What a listing reads, and what happens meanwhile."""

    def setUp(self):
        self.maildir = Maildir()
        self.addCleanup(self.maildir.holder.cleanup)
        self.path = self.maildir.add("new", "a", b"one\n")
        self.maildir.add("cur", "b:2,S", b"two\nlines\n")

    def sizes(self, service):
        with service.client() as client:
            client.log_in()
            return client.ask_lines(b"LIST").split(b"\r\n")[1:-2]

    def clocked(self, **meddling):
        """A service whose time of day `set_clock` sets, and that somebody may meddle with."""
        libraries = [self.enterContext(preload.library(name)) for name in ("clock", "meddle")]
        self.clock = Path(self.maildir.holder.name) / "clock"
        self.set_clock(0)
        return Service(self.maildir, LD_PRELOAD=":".join(map(str, libraries)), CLOCK=str(self.clock),
                       **variables(meddling))

    def set_clock(self, seconds, clock=None):
        """Sets it to this many seconds after the one in which a folder was changed last."""
        changed = max(os.stat(self.maildir.folder / part).st_ctime_ns for part in ("new", "cur"))
        (clock or self.clock).write_text(f"{changed // 1_000_000_000 + seconds}\n")

    def grow(self):
        """One more line for the first message, in place: its size grows by three octets."""
        with open(self.path, "ab") as file:
            file.write(b"x\n")

    def test_a_size_is_counted_anew_once_the_file_was_changed(self):
        with self.clocked() as service:
            self.assertEqual(self.sizes(service), [b"1 5", b"2 12"])
            stands = os.stat(self.path)
            with open(self.path, "wb") as file:
                file.write(b"\n\n\n\n")
            os.utime(self.path, ns=(stands.st_atime_ns, stands.st_mtime_ns + 1))
            self.assertEqual(self.sizes(service), [b"1 8", b"2 12"])
            self.grow()
            os.utime(self.path, ns=(stands.st_atime_ns, stands.st_mtime_ns + 1))
            self.assertEqual(self.sizes(service), [b"1 11", b"2 12"])
            os.rename(self.path, self.maildir.folder / "cur" / "a:2,S")
            self.maildir.add("new", "0", b"")
            self.assertEqual(self.sizes(service), [b"1 0", b"2 11", b"3 12"])

    def change_in_place(self):
        """Another text of the first message's length and time of change."""
        stands = os.stat(self.path)
        with open(self.path, "wb") as file:
            file.write(b"\n\n\n\n")
        os.utime(self.path, ns=(stands.st_atime_ns, stands.st_mtime_ns))

    def test_a_size_is_kept_though_a_file_comes(self):
        with self.clocked() as service:
            self.assertEqual(self.sizes(service), [b"1 5", b"2 12"])
            self.change_in_place()
            self.maildir.add("new", "0", b"")
            self.assertEqual(self.sizes(service), [b"1 0", b"2 5", b"3 12"])

    def test_a_size_is_kept_though_a_login_is_refused(self):
        with self.clocked() as service:
            self.assertEqual(self.sizes(service), [b"1 5", b"2 12"])
            self.change_in_place()
            with service.client() as client:
                client.ask(b"USER u")
                client.line()
                self.assertEqual(client.ask(b"PASS q"), b"-ERR refused\r\n")
            self.assertEqual(self.sizes(service), [b"1 5", b"2 12"])

    def test_a_size_goes_with_its_name(self):
        """Another file of the same length and the same time of change is counted for itself."""
        with self.clocked() as service:
            self.assertEqual(self.sizes(service), [b"1 5", b"2 12"])
            stands = os.stat(self.path)
            os.remove(self.path)
            other = self.maildir.add("new", "aa", b"\n\n\n\n")
            os.utime(other, ns=(stands.st_atime_ns, stands.st_mtime_ns))
            self.assertEqual(self.sizes(service), [b"1 8", b"2 12"])

    def test_a_second_login_reads_no_file(self):
        """A file that was counted is served as it was counted, though it has other lines now: it wasn't read."""
        with self.clocked() as service:
            self.assertEqual(self.sizes(service), [b"1 5", b"2 12"])
            self.change_in_place()
            self.assertEqual(self.sizes(service), [b"1 5", b"2 12"])

    def test_folders_that_were_not_changed_are_not_looked_through_again(self):
        """A file that was changed in place has its size as before: it wasn't looked at, until its folder is changed."""
        for part in ("new", "cur"):
            with self.subTest(part), self.clocked() as service:
                self.set_clock(3)
                before = self.sizes(service)
                self.grow()
                self.assertEqual(self.sizes(service), before)
                self.set_clock(10)
                self.assertEqual(self.sizes(service), before)
                self.maildir.add(part, "c" + part, b"")
                first, size = before[0].split()
                self.assertEqual(self.sizes(service)[0], b"%s %d" % (first, int(size) + 3))
                self.assertEqual(len(self.sizes(service)), len(before) + 1)

    def test_folders_that_were_just_changed_are_looked_through_again(self):
        """What comes within the same tick of the clock leaves a folder's time of change as it is."""
        with self.clocked() as service:
            for seconds, size in ((0, 5), (1, 8), (2, 11), (3, 14)):
                self.set_clock(seconds)
                self.assertEqual(self.sizes(service), [b"1 %d" % size, b"2 12"])
                self.grow()
            self.assertEqual(self.sizes(service), [b"1 14", b"2 12"])

    def test_a_folder_whose_times_are_put_back_is_looked_through_again(self):
        """All but its time of change, which nobody can put back."""
        for part in ("new", "cur"):
            with self.subTest(part), self.clocked() as service:
                self.set_clock(3)
                count = len(self.sizes(service))
                stands = os.stat(self.maildir.folder / part)
                self.maildir.add(part, "c" + part, b"")
                os.utime(self.maildir.folder / part, ns=(stands.st_atime_ns, stands.st_mtime_ns))
                self.assertEqual(len(self.sizes(service)), count + 1)

    def test_a_file_that_comes_while_sizes_are_counted(self):
        """It is in the next listing, however long the folder has been at rest by then."""
        coming = self.maildir.add("tmp", "c", b"")
        meddling = {"at": self.path, "from": coming, "to": self.maildir.folder / "new" / "c"}
        with self.clocked(**meddling) as service:
            self.set_clock(100)
            self.assertEqual(self.sizes(service), [b"1 5", b"2 12"])
            self.set_clock(200)
            self.assertEqual(self.sizes(service), [b"1 5", b"2 12", b"3 0"])

    def test_a_listing_that_takes_long(self):
        """Whether the folders were at rest is judged by the time before it."""
        later = self.maildir.folder / "later"
        self.set_clock(100, later)
        clock = Path(self.maildir.holder.name) / "clock"
        meddling = {"at": f"{self.maildir.folder / 'cur'}/", "from": later, "to": clock}
        with self.clocked(**meddling) as service:
            self.assertEqual(self.sizes(service), [b"1 5", b"2 12"])
            self.grow()
            self.assertEqual(self.sizes(service), [b"1 8", b"2 12"])

    def test_a_listing_stands_for_an_hour(self):
        with self.clocked() as service:
            for seconds, size in ((100, 5), (3_699, 5), (3_700, 11), (7_299, 11), (7_300, 17)):
                self.set_clock(seconds)
                self.assertEqual(self.sizes(service), [b"1 %d" % size, b"2 12"])
                self.grow()

    def test_a_listing_does_not_stand_before_it_was_made(self):
        """As after the clock was put back: nobody knows how old the listing is."""
        with self.clocked() as service:
            for seconds, size in ((100, 5), (99, 8), (99, 8), (100, 8)):
                self.set_clock(seconds)
                self.assertEqual(self.sizes(service), [b"1 %d" % size, b"2 12"])
                if size == 5:
                    self.grow()

    def test_an_empty_maildir_gets_its_first_message(self):
        """Nothing is left of a listing from before everything was removed."""
        with self.clocked() as service:
            self.set_clock(3)
            with service.client() as client:
                client.log_in()
                client.ask(b"DELE 1")
                client.ask(b"DELE 2")
                client.ask(b"QUIT")
            self.set_clock(3)
            self.assertEqual(self.sizes(service), [])
            self.maildir.add("new", "a", b"one\n")
            self.assertEqual(self.sizes(service), [b"1 5"])

    def meddled(self, **meddling):
        """A service that somebody meddles with."""
        library = self.enterContext(preload.library("meddle"))
        return Service(self.maildir, "--connections", "2", LD_PRELOAD=str(library), **variables(meddling))

    def test_a_file_that_moves_while_it_is_listed(self):
        """The folders are looked through anew, and the message is listed under its new name."""
        moved = self.maildir.folder / "cur" / "a:2,S"
        with self.meddled(**{"from": os.fsdecode(self.path), "to": moved}) as service:
            self.assertEqual(self.sizes(service), [b"1 5", b"2 12"])
            self.assertEqual(self.sizes(service), [b"1 5", b"2 12"])
            self.assertEqual(service.finish(), (0, b""))
        self.assertTrue(moved.exists())

    def test_a_file_that_vanishes_while_it_is_listed(self):
        with self.meddled(**{"from": os.fsdecode(self.path)}) as service:
            self.assertEqual(self.sizes(service), [b"1 12"])
            self.assertEqual(self.sizes(service), [b"1 12"])
            self.assertEqual(service.finish(), (0, b""))

    def test_a_file_that_cannot_be_read_is_named(self):
        """The maildrop is refused, since a list without that file would be wrong, and the file is reported."""
        path = os.fsdecode(self.path)
        with self.meddled(refused=path) as service:
            for _ in range(2):
                with service.client() as client:
                    self.assertEqual(client.log_in(), b"-ERR maildrop unavailable\r\n")
            self.assertEqual(service.finish(), (0, f'popd: warning: cannot read {path}\n'.encode() * 2))

    def test_a_folder_that_cannot_be_listed_is_named(self):
        for part in ("new", "cur"):
            folder = self.maildir.folder / part
            with self.subTest(part), self.meddled(refused=f"{folder}/") as service:
                for _ in range(2):
                    with service.client() as client:
                        self.assertEqual(client.log_in(), b"-ERR maildrop unavailable\r\n")
                self.assertEqual(service.finish(), (0, f'popd: warning: cannot read {folder}\n'.encode() * 2))

    def test_what_could_not_be_read_is_named_once(self):
        """The next connection, which lists all, warns of nothing."""
        new, aside = self.maildir.folder / "new", self.maildir.folder / "aside"
        with Service(self.maildir, "--connections", "3") as service:
            new.rename(aside)
            for answer in (b"-ERR maildrop unavailable\r\n", b"+OK 2 messages\r\n", b"+OK 2 messages\r\n"):
                with service.client() as client:
                    self.assertEqual(client.log_in(), answer)
                    client.ask(b"QUIT")
                if aside.exists():
                    aside.rename(new)
            self.assertEqual(service.finish(), (0, f"popd: warning: cannot read {new}\n".encode()))

    def test_a_file_that_was_refused_earlier_is_not_named(self):
        """The second listing is refused for want of random octets, which is no fault of any file."""
        libraries = [self.enterContext(preload.library(name)) for name in ("meddle", "refuse_call")]
        when = Path(self.maildir.holder.name) / "when"
        meddling = variables({"refused": os.fsdecode(self.path), "when": when})
        with Service(self.maildir, "--connections", "2", LD_PRELOAD=":".join(map(str, libraries)), REFUSED_CALL="random",
                     REFUSED_WHEN=str(when), **meddling) as service:
            with service.client() as client:
                self.assertEqual(client.log_in(), b"+OK 2 messages\r\n")
                when.touch()
                self.assertEqual(client.ask(b"RETR 1"), b"-ERR message unavailable\r\n")
                self.assertEqual(client.ask(b"QUIT"), b"+OK bye\r\n")
            self.maildir.add("new", "c", b"")
            with service.client() as client:
                self.assertEqual(client.log_in(), b"-ERR maildrop unavailable\r\n")
            self.assertEqual(service.finish(), (0, b""))

    def test_names_that_are_no_text_end_no_listing(self):
        for number in range(20):
            for part in ("new", "cur"):
                self.maildir.add(part, b"\xff%d" % number, b"passed over\n")
                self.maildir.add(part, f"{part}{number}", b"")
        with Service(self.maildir) as service:
            self.assertEqual(len(self.sizes(service)), 42)


class Reads(unittest.TestCase):
    """A message of several parts is read while something happens to its file."""

    def setUp(self):
        self.maildir = Maildir()
        self.addCleanup(self.maildir.holder.cleanup)
        self.path = self.maildir.add("new", "a", b"a" * 79 + b"\n")
        with open(self.path, "ab") as file:
            file.write((b"a" * 79 + b"\n") * 2_000)
        self.answer = b"+OK %d octets\r\n" % (81 * 2_001) + (b"a" * 79 + b"\r\n") * 2_001 + b".\r\n"
        self.when = Path(self.maildir.holder.name) / "when"

    def meddled(self, **meddling):
        """A service that somebody meddles with once `when` is there."""
        library = self.enterContext(preload.library("meddle"))
        return Service(self.maildir, LD_PRELOAD=str(library), **variables(meddling | {"when": self.when}))

    def test_a_file_that_is_replaced(self):
        """Its text is that of one file, the one that it was at first."""
        other = self.maildir.add("tmp", "a", (b"b" * 79 + b"\n") * 2_001)
        meddling = {"read": self.path, "from": other, "to": self.path}
        with self.meddled(**meddling) as service, service.client() as client:
            client.log_in()
            self.when.touch()
            self.assertEqual(client.ask_lines(b"RETR 1"), self.answer)
            self.assertEqual(client.ask_lines(b"RETR 1"), self.answer.replace(b"a", b"b"))

    def test_a_file_that_cannot_be_read_to_its_end(self):
        """No part of it is served as if it were the whole."""
        with self.meddled(broken=self.path) as service, service.client() as client:
            client.log_in()
            self.assertEqual(client.ask_lines(b"RETR 1"), self.answer)
            self.when.touch()
            for command in (b"RETR 1", b"TOP 1 2001"):
                self.assertEqual(client.ask(command), b"-ERR message unavailable\r\n")
            self.assertEqual(client.ask(b"NOOP"), b"+OK\r\n")

    def test_no_more_of_a_text_is_read_than_its_top(self):
        """The first part of this one can be read, and has the head and the first lines."""
        path = self.maildir.add("new", "b", b"Subject: b\n\n" + (b"b" * 79 + b"\n") * 2_000)
        line = b"b" * 79 + b"\r\n"
        with self.meddled(broken=path) as service, service.client() as client:
            client.log_in()
            self.when.touch()
            for count in (0, 1, 200):
                self.assertEqual(client.ask_lines(b"TOP 2 %d" % count), b"+OK\r\nSubject: b\r\n\r\n" + line * count + b".\r\n")
            for command in (b"TOP 2 300", b"RETR 2"):
                self.assertEqual(client.ask(command), b"-ERR message unavailable\r\n")

    def test_each_answer_begins_at_the_start(self):
        """Of the first a part was read; of the others all."""
        head, line = b"Subject: b\r\n\r\n", b"b" * 79 + b"\r\n"
        self.maildir.add("new", "b", b"Subject: b\n\n" + (b"b" * 79 + b"\n") * 2_000)
        whole = b"+OK %d octets\r\n" % (len(head) + 2_000 * len(line)) + head + line * 2_000 + b".\r\n"
        with Service(self.maildir) as service, service.client() as client:
            client.log_in()
            for _ in range(2):
                self.assertEqual(client.ask_lines(b"TOP 2 1"), b"+OK\r\n" + head + line + b".\r\n")
                self.assertEqual(client.ask_lines(b"RETR 2"), whole)
                self.assertEqual(client.ask_lines(b"RETR 1"), self.answer)
                self.assertEqual(client.ask_lines(b"RETR 2"), whole)

    def test_a_size_that_cannot_be_counted_to_its_end(self):
        self.when.touch()
        with self.meddled(broken=self.path) as service, service.client() as client:
            self.assertEqual(client.log_in(), b"-ERR maildrop unavailable\r\n")


class GreatMaildirs(unittest.TestCase):
    def test_messages_about_the_greatest_size(self):
        """The size counts two octets for the one line's end; the files are holes, so they take no room on the disk."""
        with Maildir() as maildir:
            for name, octets in (("just", expected.SIZE_LIMIT - 2), ("over", expected.SIZE_LIMIT - 1),
                                 ("twice:2,S", expected.SIZE_LIMIT - 1)):
                os.truncate(maildir.add("cur", name, b""), octets)
            maildir.add("new", "twice", b"listed in place of the larger one\n")
            with Service(maildir) as service, service.client() as client:
                self.assertEqual(client.log_in(), b"+OK 2 messages\r\n")
                self.assertEqual(client.ask_lines(b"LIST"), b"+OK\r\n1 %d\r\n2 35\r\n.\r\n" % expected.SIZE_LIMIT)
                self.assertEqual(client.ask_lines(b"UIDL"), b"+OK\r\n1 just\r\n2 twice\r\n.\r\n")
                self.assertEqual(client.ask_lines(b"RETR 2"),
                                 b"+OK 35 octets\r\nlisted in place of the larger one\r\n.\r\n")
                self.assertEqual(client.ask(b"RETR 1"), b"+OK %d octets\r\n" % expected.SIZE_LIMIT)
                body = client.file.read(expected.SIZE_LIMIT + 3)
                self.assertEqual((body[-5:], body.count(0)), (b"\r\n.\r\n", expected.SIZE_LIMIT - 2))

    def test_the_memory_for_a_great_message(self):
        """It takes little more than the message, which is one line of a hole here."""
        octets = 1 << 26
        with Maildir() as maildir:
            os.truncate(maildir.add("new", "great", b""), octets)
            for command in (b"RETR 1", b"TOP 1 0"):
                with self.subTest(command), Service(maildir) as service, service.client() as client:
                    client.log_in()
                    self.assertTrue(client.ask(command).startswith(b"+OK"))
                    self.assertEqual(len(client.file.read(octets + 5)), octets + 5)
                    self.assertLess(kernel.peak_of_memory(service.process.pid), octets * 5 // 4)

    def test_more_messages_than_are_listed(self):
        with Maildir() as maildir:
            for number in range(expected.COUNT_LIMIT + 2):
                maildir.add("new", f"{number:06}", b"")
            with Service(maildir) as service, service.client() as client:
                self.assertEqual(client.log_in(), b"+OK %d messages\r\n" % expected.COUNT_LIMIT)
                rows = client.ask_lines(b"UIDL").splitlines()
                self.assertEqual((rows[1], rows[-2]), (b"1 000000", b"100000 099999"))
                self.assertEqual(client.ask(b"RETR 100001"), b"-ERR no such message\r\n")
