"""Mail software at work in the Maildir while it is listed and served: it moves files from `new` to `cur`, gives them
other flags and removes them."""

import os
import threading
import time
import unittest
from pathlib import Path

from harness import kernel, preload, programs, waits
from popd.service import Maildir, Service

MANY = 1_000
FEW = 60
# No clock of a file system of Linux goes in longer steps, so a folder that was at rest for this long can be listed.
REST_SECONDS = 0.1
# A folder that is never at rest is refused after so many seconds.
RESTLESS_SECONDS = 2


class Reader:
    """A mail reader over a Maildir."""

    def __init__(self, maildir):
        self.new, self.cur = (os.fsencode(maildir.folder / part) for part in ("new", "cur"))

    def flag(self, flags):
        """Gives every message in `cur` these flags."""
        for name in os.listdir(self.cur):
            base = name.split(b":")[0]
            os.rename(os.path.join(self.cur, name), os.path.join(self.cur, base + b":2," + flags))

    def take(self):
        """Moves every message from `new` to `cur`."""
        for name in os.listdir(self.new):
            os.rename(os.path.join(self.new, name), os.path.join(self.cur, name + b":2,"))

    def put_back(self):
        """Moves every message from `cur` back to `new`."""
        for name in os.listdir(self.cur):
            os.rename(os.path.join(self.cur, name), os.path.join(self.new, name.split(b":")[0]))


class Readers(unittest.TestCase):
    @classmethod
    def setUpClass(cls):
        cls.time = waits.time_for(cls)

    def setUp(self):
        self.maildir = Maildir()
        self.addCleanup(self.maildir.holder.cleanup)
        self.reader = Reader(self.maildir)

    def fill(self, part, count, flags=""):
        """Adds this many messages of a line each; their unique-ids."""
        names = [f"{number:06}" for number in range(count)]
        for name in names:
            self.maildir.add(part, name + flags, name.encode() + b"\n")
        return [name.encode() for name in names]

    def check_listed(self, client, uids):
        rows = client.ask_lines(b"UIDL").splitlines()[1:-1]
        self.assertEqual([row.split()[1] for row in rows], uids)

    def meddled(self, **meddling):
        library = self.enterContext(preload.library("meddle"))
        names = {f"MEDDLE_{what.upper()}": os.fsdecode(path) for what, path in meddling.items()}
        return self.napping(library, **names)

    def napping(self, library, **changes):
        """The server with this library; time passes while it waits for a folder to rest."""
        changes = {**self.time.environment(), "HURRY_NAPS": "1", **changes}
        return Service(self.maildir, **{**changes, "LD_PRELOAD": f"{library} {self.time.library}"})


class WhileItIsListed(Readers):
    """What is there all the time is listed, under whatever name."""

    def check_burst(self, service, uids, delay, burst):
        """A login during which the reader is at work, from `delay` seconds after PASS on."""
        with service.client() as client:
            client.line()
            client.ask(b"USER u")
            begun = threading.Timer(delay, burst)
            client.give(b"PASS p\r\n")
            begun.start()
            self.assertEqual(client.line(), b"+OK %d messages\r\n" % len(uids))
            begun.join()
            self.check_listed(client, uids)

    def test_all_are_flagged_in_one_burst(self):
        uids = self.fill("cur", MANY, ":2,")
        with Service(self.maildir) as service:
            for turn in range(16):
                flags = b"S" if turn % 2 == 0 else b""
                with self.subTest(turn):
                    self.check_burst(service, uids, 0.002 * turn, lambda: self.reader.flag(flags))

    def test_all_are_taken_from_new_in_one_burst(self):
        uids = self.fill("new", MANY)
        with Service(self.maildir) as service:
            for turn in range(8):
                with self.subTest(turn):
                    self.check_burst(service, uids, 0.004 * turn, self.reader.take)
                self.reader.put_back()

    def test_all_are_put_back_into_new_in_one_burst(self):
        uids = self.fill("cur", MANY, ":2,")
        with Service(self.maildir) as service:
            for turn in range(8):
                with self.subTest(turn):
                    self.check_burst(service, uids, 0.004 * turn, self.reader.put_back)
                self.reader.take()

    def test_a_file_that_the_system_leaves_out(self):
        """It was renamed while its folder was listed: the folder is listed again."""
        for part in ("new", "cur"):
            with self.subTest(part):
                self.maildir.add(part, part + ":2,", b"one\n")
                names = [self.maildir.folder / part / (part + flags) for flags in (":2,", ":2,S")]
                meddling = {"from": names[0], "to": names[1], "missed": part + ":2,"}
                with self.meddled(**meddling) as service, service.client() as client:
                    client.log_in()
                    self.assertIn(b" " + part.encode() + b"\r\n", client.ask_lines(b"UIDL"))

    def test_a_file_that_moves_between_the_folders(self):
        """It is taken from `new`, or put back into it, just before the one or the other folder is listed."""
        for origin, name, target, other in (("new", "a", "cur", "a:2,S"), ("cur", "a:2,S", "new", "a")):
            for part in ("new", "cur"):
                with self.subTest(f"{target} before {part}"), Maildir() as self.maildir:
                    path = self.maildir.add(origin, name, b"one\n")
                    moved = self.maildir.folder / target / other
                    meddling = {"from": path, "to": moved, "at": f"{self.maildir.folder / part}/"}
                    with self.meddled(**meddling) as service, service.client() as client:
                        self.assertEqual(client.log_in(), b"+OK 1 messages\r\n")
                        self.assertEqual(client.ask_lines(b"RETR 1"), b"+OK 5 octets\r\none\r\n.\r\n")
                    self.assertTrue(moved.exists())

    def check_restless(self, client):
        """A login is refused once so much time has passed."""
        client.socket.settimeout(programs.NEXT_OUTPUT_SECONDS)
        client.line()
        client.ask(b"USER u")
        client.give(b"PASS p\r\n")
        self.time.let_pass(RESTLESS_SECONDS)
        self.assertEqual(client.line(), b"-ERR maildrop unavailable\r\n")

    def test_a_folder_that_finds_no_rest(self):
        """It is changed whenever it is listed: the maildrop is refused after some seconds, and served afterwards."""
        for part in ("new", "cur"):
            with self.subTest(part), Maildir() as self.maildir:
                path = os.fsdecode(self.maildir.add(part, "a:2,", b"one\n"))
                goes_on = self.maildir.folder / "goes on"
                goes_on.touch()
                meddling = {"restless": f"{self.maildir.folder / part}/", "from": path, "to": path + "S"}
                with self.meddled(**meddling, when=goes_on) as service, service.client() as client:
                    self.check_restless(client)
                    goes_on.unlink()
                    client.ask(b"USER u")
                    self.assertEqual(client.ask(b"PASS p"), b"+OK 1 messages\r\n")
                    self.assertEqual(client.ask_lines(b"RETR 1"), b"+OK 5 octets\r\none\r\n.\r\n")

    @unittest.skipUnless(kernel.is_tmpfs("/dev/shm"), "/dev/shm is no tmpfs")
    def test_a_reader_that_never_rests_on_tmpfs(self):
        """It renames all files before each call that reads a folder, which then finds them again."""
        reader = self.enterContext(preload.library("reader"))
        for part in ("new", "cur"):
            with self.subTest(part), Maildir(above="/dev/shm") as self.maildir:
                self.fill(part, MANY)
                reading = {"READER_MAILDIR": str(self.maildir.folder), "READER_CALL": "0", "READER_NOTE": "/dev/null"}
                with self.napping(reader, **reading) as service, service.client() as client:
                    self.check_restless(client)


class WhileItIsServed(Readers):
    """A message is found again under another name, and one that is gone is removed."""

    def check_texts(self, client, uids):
        for number, uid in enumerate(uids, 1):
            self.assertEqual(client.ask_lines(b"RETR %d" % number), b"+OK 8 octets\r\n%s\r\n.\r\n" % uid)
            self.assertEqual(client.ask_lines(b"TOP %d 1" % number), b"+OK\r\n%s\r\n.\r\n" % uid)

    def check_emptied(self, client, uids, reader):
        """All are removed while the reader is at work once more, right before QUIT."""
        for number in range(1, len(uids) + 1):
            self.assertEqual(client.ask(b"DELE %d" % number), b"+OK marked\r\n")
        reader()
        self.assertEqual(client.ask(b"QUIT"), b"+OK bye\r\n")
        self.assertEqual(client.rest(), b"")
        self.assertEqual(self.maildir.names(), [])

    def test_flags_that_change(self):
        uids = self.fill("cur", FEW, ":2,")
        with Service(self.maildir) as service, service.client() as client:
            client.log_in()
            for flags in (b"S", b"RS"):
                self.reader.flag(flags)
                self.check_texts(client, uids)
            self.check_emptied(client, uids, lambda: self.reader.flag(b""))

    def test_files_that_move_to_cur(self):
        uids = self.fill("new", FEW)
        with Service(self.maildir) as service, service.client() as client:
            client.log_in()
            self.reader.take()
            self.check_texts(client, uids)
            self.check_emptied(client, uids, lambda: self.reader.flag(b"S"))

    def test_files_that_move_to_cur_before_quit(self):
        uids = self.fill("new", FEW)
        with Service(self.maildir) as service, service.client() as client:
            client.log_in()
            self.check_emptied(client, uids, self.reader.take)

    def test_a_reader_that_goes_on_and_on(self):
        """In bursts with a rest between them, through a whole session."""
        uids = self.fill("cur", FEW, ":2,")
        ended = threading.Event()

        def flag_in_bursts():
            turn = 0
            while not ended.wait(REST_SECONDS):
                turn += 1
                self.reader.flag(b"S" if turn % 2 else b"")

        with Service(self.maildir) as service, service.client() as client:
            reader = threading.Thread(target=flag_in_bursts)
            reader.start()
            try:
                client.log_in()
                for _ in range(20):
                    self.check_texts(client, uids)
                    time.sleep(REST_SECONDS / 3)
            finally:
                ended.set()
                reader.join()
            self.check_emptied(client, uids, lambda: None)

    def test_another_message_of_a_like_name_is_none(self):
        """The whole base counts, up to the first colon."""
        self.maildir.add("new", "a", b"one\n")
        with Service(self.maildir) as service, service.client() as client:
            client.log_in()
            os.unlink(self.maildir.folder / "new" / "a")
            for name in ("a.:2,S", "A:2,", "aa", "b:a:2,", "0"):
                self.maildir.add("cur", name, b"two\n")
            before = self.maildir.names()
            self.assertEqual(client.ask(b"RETR 1"), b"-ERR message unavailable\r\n")
            self.assertEqual(client.ask(b"DELE 1"), b"+OK marked\r\n")
            self.assertEqual(client.ask(b"QUIT"), b"+OK bye\r\n")
            self.assertEqual(self.maildir.names(), before)

    def test_a_message_that_is_linked_in_both_folders(self):
        """Its removal removes all files of its name up to the first colon, and no others, nor a folder."""
        others = (("cur", "a.b:2,"), ("cur", "aa:2,S"), ("new", "A"))
        for reader in (lambda: None, self.reader_of("flag", b"F"), self.reader_of("take")):
            with Maildir() as self.maildir:
                path = self.maildir.add("cur", "a:2,", b"one\n")
                for part, name in (("cur", "a:2,S"), ("new", "a")):
                    os.link(path, self.maildir.folder / part / name)
                (self.maildir.folder / "new" / "a:2,D").mkdir()
                for part, name in others:
                    self.maildir.add(part, name, b"two\n")
                with Service(self.maildir) as service, service.client() as client:
                    client.log_in()
                    self.check_listed(client, [b"A", b"a", b"a.b", b"aa"])
                    client.ask(b"DELE 2")
                    reader()
                    self.assertEqual(client.ask(b"QUIT"), b"+OK bye\r\n")
                left = sorted(name.split(b":")[0] for _, name in self.maildir.names())
                self.assertEqual(left, [b"A", b"a", b"a.b", b"aa"])

    def reader_of(self, call, *words):
        """A reader of the Maildir that is there when it is called."""
        return lambda: getattr(Reader(self.maildir), call)(*words)

    def test_what_is_gone_is_removed(self):
        """Its removal is answered and reported as done."""
        uids = self.fill("new", 4)
        with Service(self.maildir, "--verbose", "--connections", "1") as service, service.client() as client:
            client.log_in()
            for number in range(1, len(uids) + 1):
                client.ask(b"DELE %d" % number)
            for uid in uids[::2]:
                os.unlink(os.path.join(self.reader.new, uid))
            self.assertEqual(client.ask(b"QUIT"), b"+OK bye\r\n")
            status, told = service.finish()
            self.assertEqual(status, 0)
            self.assertTrue(told.endswith(b": 4 messages removed\n"), told)
        self.assertEqual(self.maildir.names(), [])

    def test_where_a_folder_is_missing_nothing_is_known_to_be_gone(self):
        for part in ("new", "cur"):
            with self.subTest(part), Maildir() as self.maildir:
                self.maildir.add("new", "a", b"one\n")
                with Service(self.maildir) as service, service.client() as client:
                    client.log_in()
                    folder = Path(self.maildir.folder)
                    os.rename(folder / "new" / "a", folder / "a")
                    os.rename(folder / part, folder / "away")
                    self.assertEqual(client.ask(b"RETR 1"), b"-ERR message unavailable\r\n")
                    self.assertEqual(client.ask(b"DELE 1"), b"+OK marked\r\n")
                    self.assertEqual(client.ask(b"QUIT"), b"-ERR some messages not removed\r\n")
