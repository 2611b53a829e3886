"""`examples/carry-account.py`: an account gets another server, port or user name, and nothing is fetched again. Nobody else's
mail, record or odd file is touched, whatever readers and runs do meanwhile."""

import contextlib
import errno
import fcntl
import itertools
import os
import subprocess
import sys
import tempfile
import threading
import unittest
from pathlib import Path
from unittest import mock

from getmail.account import Account
from getmail.carrying import EXAMPLES, FIRST, KEPT, Home, module, run_apart, run_here
from getmail.mbox_account import MboxAccount
from getmail.server import Server, SocketServer
from harness import preload, programs
from harness.kernel import LOOPBACK

# Whether a reader works before each of the calls, whatever it does.
WHOLE = os.environ.get("TESTS_SCRIPTS") == "whole"
NONE = ([], [], [])
# Names that begin like those of the account, and are none that getmail gives.
ODD_ENDS = (b"", b".", b".zz", b".6", b".6A", b".20", b".31.2", b".31\xff", b".31\n", b"." + b"31" * 71, b"31")


class Meanwhile:
    """Something is done, or a call is refused, at one of the calls that a script makes for the files below a folder: just before
    it, or just after it."""

    CALLS = ("listdir", "lstat", "stat", "open", "fsync", "link", "unlink", "replace")

    def __init__(self, script, below, number, act, is_after=False):
        self.script, self.below, self.left, self.act, self.is_after = script, str(below), number, act, is_after

    def __enter__(self):
        self.is_done = False
        self.patched = [mock.patch.object(os, name, self.call(getattr(os, name))) for name in self.CALLS]
        self.patched.append(mock.patch.object(self.script, "rename", self.call(self.script.rename)))
        for patch in self.patched:
            patch.start()
        return self

    def __exit__(self, *_):
        for patch in self.patched:
            patch.stop()

    def call(self, real):
        def do(first, *words, **more):
            path = os.readlink(f"/proc/self/fd/{first}") if isinstance(first, int) else os.fspath(first)
            self.left -= str(path).startswith(self.below)
            if self.left != 0 or self.is_done:
                return real(first, *words, **more)
            self.is_done = True
            if not self.is_after:
                self.act_on(first)
                return real(first, *words, **more)
            try:
                return real(first, *words, **more)
            finally:
                self.act_on(first)
        return do

    def act_on(self, first):
        for patch in self.patched:
            patch.stop()
        self.act(first)
        for patch in self.patched:
            patch.start()

    def is_over(self):
        """Whether there were fewer calls."""
        return self.left > 0


class OnSocket:
    """Over a socket of the same server nothing that was stored comes again, and what is new comes."""

    KIND = Account

    def setUp(self):
        self.server = self.enterContext(Server(FIRST))
        self.path = Path(self.enterContext(tempfile.TemporaryDirectory())) / "socket"

    def session(self, server, account, *words):
        thread = server.begin_session()
        self.assertEqual(account.run("-q", *words), programs.SILENT)
        thread.join(programs.SECONDS)
        return server.commands

    def test_nothing_is_fetched_again(self):
        with self.KIND(self.server.port) as account:
            self.session(self.server, account)
            run = run_apart("carry-account", "-g", account.folder, LOOPBACK, self.server.port, "u", self.path, 110, "u",
                            *self.places(account))
            self.assertEqual((run.status, run.err), (0, b""))
            self.assertIn(b"Now remove the old rc file", run.out.splitlines()[-1])
            text = account.rcfile.read_text()
            account.rcfile.write_text(text.replace(f"server = {LOOPBACK}", f"server = {self.path}")
                                      .replace(f"port = {self.server.port}", "port = 110"))
            with SocketServer(self.server.messages, self.path) as server:
                commands = self.session(server, account)
                self.assertEqual([command for command in commands if command.startswith("RETR")], [])
                server.messages.append((b"e", b"five\n"))
                self.assertIn(f"RETR {len(server.messages)}", self.session(server, account))

    def places(self, account):
        return [account.maildir]


class FilesOnSocket(OnSocket, unittest.TestCase):
    pass


class EntriesOnSocket(OnSocket, unittest.TestCase):
    KIND = MboxAccount

    def places(self, account):
        return []


class InHome(unittest.TestCase):
    """The account of a `Home`, of which a test may use what it likes."""

    KIND = Account

    @classmethod
    def setUpClass(cls):
        cls.home = cls.enterClassContext(Home(cls.KIND))
        cls.script = module()

    def setUp(self):
        self.home.restore()

    def carry(self, *words):
        return run_here(self.script, *(words or self.home.words))

    def check_carried(self, *odd):
        """It was done, and told nothing but these odd names."""
        run = self.carry()
        told = "".join(f"{self.script.shown(path)}: no file of a message, left as it is\n" for path in odd)
        self.assertEqual((run.status, run.err.decode(), self.home.waiting.exists()), (0, told, False))
        return run

    def check_stopped(self, *told, words=()):
        """Nothing was changed, and the line has all this."""
        before = self.home.tree()
        run = self.carry(*words)
        self.assertEqual((run.status, run.out, self.home.tree()), (1, b"", before))
        for part in (*told, "nothing was changed"):
            self.assertIn(str(part), run.err.decode())

    def path(self, part, digest, uid, end=""):
        text = dict(FIRST)[uid]
        return self.home.maildir / part / f"{digest}.{uid.hex()},S={len(text)}{end}"


class Others(InHome):
    """What is another account's, and what only looks so."""

    def words_to_other(self):
        home = self.home
        return ["-g", home.folder, LOOPBACK, home.server.port, "u", LOOPBACK, home.other_server.port, "u", home.maildir]

    def test_two_accounts_of_one_maildir(self):
        """Ids in common, both fetched, one of them deleted: carrying one to the other would take the other's mail."""
        home = self.home
        self.check_stopped(home.record(home.old), home.record(home.other), words=self.words_to_other())
        self.assertEqual(home.faults(), NONE)

    def test_two_accounts_with_the_same_ids(self):
        """The other one's record has each id as delivered, and each name is taken."""
        home = self.home
        home.record(home.old).write_bytes(b"getmail-seen 2\n1 5 1\n2 6 1\n")
        for path in (self.path("cur", home.old, b"b/c", ":2,S"), self.path("new", home.old, b"d")):
            path.unlink()
        before = home.texts()
        self.check_stopped(home.record(home.old), home.record(home.other), words=self.words_to_other())
        self.assertEqual(home.texts(), before)

    def test_files_of_another_account_without_a_record(self):
        home = self.home
        home.record(home.other).unlink()
        own = self.path("cur", home.old, b"1", ":2,S")
        self.check_stopped(own, home.maildir / "new" / home.names(home.other)[0], words=self.words_to_other())
        for name in home.names(home.other)[:2]:
            (home.maildir / "new" / name).unlink()
        # One that the old account has no file for is no less the other's.
        self.check_stopped(home.maildir / "new" / home.names(home.other)[0], words=self.words_to_other())

    def test_a_name_that_came_between(self):
        home = self.home
        self.check_carried()
        for text, new in ((b"another text\n", "new"), (b"anon\n", "new"), (b"anot", "new")):
            old, there = (self.path("new", digest, b"2") for digest in (home.old, home.new))
            old.write_bytes(text)
            self.check_stopped(old, there)
        self.assertEqual(there.read_bytes(), dict(FIRST)[b"2"])
        old.write_bytes(there.read_bytes())
        self.check_carried()
        self.assertEqual((old.exists(), home.faults()), (False, NONE))

    def test_a_name_that_comes_meanwhile(self):
        """It is not written over, whenever it comes, and the file whose name it is stays too."""
        home = self.home
        there, came = self.path("new", home.new, b"2"), []

        def come(_):
            if not there.exists():
                there.write_bytes(b"came\n")
                came.append(b"came\n")
        for number in range(1, 200):
            with self.subTest(call=number):
                home.restore()
                came.clear()
                with Meanwhile(self.script, home.home, number, come) as meanwhile:
                    run = self.carry()
                if meanwhile.is_over():
                    return
                self.assertEqual(home.faults(), ([], [], came), run)
                self.assertTrue(run.status == 0 or str(there) in run.err.decode(), run)
        self.fail("too many calls")

    def test_the_same_message_in_the_other_folder(self):
        """Both accounts have fetched it: it stays where it was read."""
        home = self.home
        self.check_carried()
        read, old = self.path("cur", home.new, b"1", ":2,S"), self.path("new", home.old, b"1")
        old.write_bytes(read.read_bytes())
        self.check_carried()
        self.assertEqual((old.exists(), read.exists(), home.faults()), (False, True, NONE))

    def test_two_names_of_one_file(self):
        """A kill between a link and the removal of the old name, and then a reader, left them."""
        home = self.home
        for old, new in ((self.path("new", home.old, b"2"), self.path("new", home.new, b"2")),
                         (self.path("cur", home.old, b"2", ":2,S"), self.path("new", home.new, b"2"))):
            with self.subTest(old):
                home.restore()
                self.path("new", home.old, b"2").rename(old)
                (home.folder / f"carried-{home.old}-{home.new}").touch()
                os.link(old, new)
                self.check_carried()
                self.assertEqual((old.exists(), new.exists(), home.faults()), (False, True, NONE))

    def test_there_and_back_by_way_of_a_third(self):
        home = self.home
        account = [LOOPBACK, home.server.port]
        for old, new in (("u", "w"), ("w", "x"), ("x", "u"), ("w", "x")):
            run = self.carry("-g", home.folder, *account, old, *account, new, home.maildir)
            self.assertEqual((run.status, run.err), (0, b""), (old, new))
        self.assertEqual((len(home.names(home.old)), home.faults()), (4, NONE))
        home.fetch("getmailrc")
        self.assertEqual(home.faults(), NONE)
        self.check_stopped(home.record(home.other), words=self.words_to_other())

    def test_an_account_that_is_not_there(self):
        self.home.record(self.home.old).unlink()
        self.check_stopped("hasn't run for the old account")

    def test_words_that_name_no_account(self):
        for number, place in (("0", 3), ("65536", 3), ("x", 6), ("-1", 6)):
            words = list(self.home.words)
            words[place] = number
            run = run_apart("carry-account", *words)
            self.assertEqual((run.status, run.out), (2, b""))
        for word in ("--", "-x"):
            words = ["-g", self.home.folder, "--", LOOPBACK, self.home.server.port, word, *self.home.words[5:]]
            self.check_stopped("hasn't run for the old account", words=words)
            run = self.carry(*(each for each in words if each is not words[2]))
            self.assertEqual((run.status, run.out), (1, b""))
        same = self.home.words[:5] + self.home.words[2:5]
        self.check_stopped("both accounts are the same", words=same)
        odd = [*map(os.fsencode, map(str, self.home.words))]
        odd[4] = b"u\xff"
        done = subprocess.run([sys.executable, EXAMPLES / "carry-account.py", *odd], capture_output=True, timeout=programs.SECONDS)
        self.assertEqual(done.returncode, 1)
        self.assertIn(b"hasn't run for the old account", done.stderr)

    def test_no_maildir(self):
        self.check_stopped("cur: No such file or directory", words=[*self.home.words[:-1], self.home.folder])


class NewRcFileFirst(InHome):
    """`getmail` has run with the new rc file before the script, and so has fetched all mail."""

    def setUp(self):
        super().setUp()
        self.home.fetch("new")

    def test_it_is_put_right_if_that_is_asked_for(self):
        """What both have is there once, where it was read, and no run fetches it again."""
        home = self.home
        self.check_stopped(home.record(home.old), home.record(home.new), "--same-account")
        run = self.carry(*home.words, "--same-account")
        self.assertEqual((run.status, run.err, home.names(home.old), home.faults()), (0, b"", [], NONE))
        home.server.messages.append((b"e", b"five\n"))
        home.fetch("getmailrc")
        self.check_carried()
        home.fetch("new")
        self.assertEqual((len(home.names(home.new)), home.faults((b"e", b"five\n"))), (5, NONE))

    def test_a_message_that_has_two_texts(self):
        """Then they are two accounts, also if only one of four is different; a link shows no text."""
        words = [*self.home.words, "--same-account"]
        for path, uid in ((self.path("new", self.home.old, b"2"), b"2"), (self.path("cur", self.home.old, b"b/c", ":2,S"), b"b/c")):
            before = path.read_bytes()
            path.write_bytes(before.upper())
            self.check_stopped(path, self.path("new", self.home.new, uid), "two accounts", words=words)
            path.write_bytes(before)
        there = self.path("new", self.home.new, b"d")
        there.rename(there.with_name("other"))
        there.symlink_to("other")
        self.check_stopped(there, words=words)

    def test_no_message_of_both(self):
        for name in self.home.names(self.home.old):
            for part in ("new", "cur"):
                (self.home.maildir / part / name).unlink(missing_ok=True)
        self.check_stopped(self.home.record(self.home.new), "no message of both", words=[*self.home.words, "--same-account"])

    def test_an_account_with_the_same_ids(self):
        """Whatever is asked for, it isn't taken for the same one."""
        home = self.home
        words = ["-g", home.folder, LOOPBACK, home.server.port, "u", LOOPBACK, home.other_server.port, "u", home.maildir]
        self.check_stopped(self.path("cur", home.old, b"1", ":2,S"), words=[*words, "--same-account"])


class NewRcFileFirstIntoAFile(InHome):
    KIND = MboxAccount

    def test_nothing_has_to_be_carried(self):
        home = self.home
        home.fetch("new")
        for words in (home.words, [*home.words, "--same-account"]):
            self.check_stopped(home.record(home.old), home.record(home.new), "nothing has to be carried", words=words)


class Names(InHome):
    """How a file gets another name."""

    def test_a_file_system_that_spares_nothing(self):
        """It has neither a rename that replaces nothing nor links: nothing is changed, and nothing of the script is left."""
        home = self.home
        start = sorted(path for path in home.home.rglob("*") if not path.name.startswith("lock-"))
        refusal = PermissionError(errno.EPERM, os.strerror(errno.EPERM))
        for below in (home.folder, home.maildir):
            def link(old, new, below=below, real=os.link):
                if str(old).startswith(str(below)):
                    raise refusal
                real(old, new)
            with mock.patch("ctypes.CDLL", lambda *_, **__: object()), mock.patch.object(os, "link", link):
                self.check_stopped(f"{below}", "neither a rename that replaces nothing nor links")
            there = sorted(path for path in home.home.rglob("*") if not path.name.startswith("lock-"))
            self.assertEqual(there, start)

    def test_what_a_killed_trial_leaves(self):
        """A run removes it once it is an hour old."""
        home = self.home
        with mock.patch.object(os, "unlink"):
            self.check_carried()
        left = [path for path in (*home.folder.iterdir(), *(home.maildir / "tmp").iterdir()) if ".P" in path.name]
        self.assertEqual(len(left), 2)
        for path in left:
            os.utime(path, (0, 0))
        home.server.messages.append((b"e", b"five\n"))
        home.fetch("new")
        self.assertEqual([path for path in left if path.exists()], [])

    def test_an_odd_thing_in_the_place_of_the_record_that_waits(self):
        home = self.home
        other = home.folder / "other-file"
        other.write_bytes(b"getmail-seen 2\n")
        for make in (home.waiting.mkdir, lambda: os.mkfifo(home.waiting), lambda: home.waiting.symlink_to(other),
                     lambda: home.waiting.symlink_to("nowhere")):
            make()
            self.check_stopped(home.waiting, "no regular file")
            home.waiting.rmdir() if home.waiting.is_dir() else home.waiting.unlink()
        self.assertEqual(other.read_bytes(), b"getmail-seen 2\n")


class Records(InHome):
    def write(self, digest, *lines):
        self.home.record(digest).write_bytes(b"".join(line + b"\n" for line in (b"getmail-seen 2", *lines)))

    def rows(self, digest):
        header, *rows = self.home.record(digest).read_bytes().splitlines()
        self.assertEqual(header, b"getmail-seen 2")
        return rows

    def test_the_rows_of_both(self):
        """The earlier second, and delivered if one says so; what is held was delivered."""
        home = self.home
        self.check_carried()
        self.write(home.old, b"1 5 1", b"2 6 0", b"b/c 7 0", b"d 8 1", b"x 9 0", b"+ 1", b"y 9 1", b"+ 2", b"z 1 1")
        self.write(home.new, b"1 6 0", b"2 5 1", b"d 9 0", b"+ 2", b"x 9 0", b"v 3 0")
        self.check_carried()
        rows = [b"1 5 1", b"2 5 1", b"b/c 7 1", b"d 8 1", b"x 9 0", b"y 9 1", b"v 3 0"]
        self.assertEqual((self.rows(home.old), self.rows(home.new)), (rows, rows))

    def test_the_old_record_stays(self):
        """A run with the old rc file fetches nothing that was carried, also what no row said."""
        home = self.home
        self.check_carried()
        home.fetch("getmailrc")
        self.assertEqual((home.names(home.old), home.faults()), ([], NONE))

    def test_what_is_no_record(self):
        home = self.home
        bad = [b"x\n", b"getmail-seen 3\n", b"getmail-seen 2\n1 5\n", b"getmail-seen 2\n1 5 1\n1 6 1\n",
               b"getmail-seen 2\n+ 1\n! 1 0 4\n", b"getmail-seen 2\n+ 1\n1 5 1\n1 6 1\n", b"getmail-seen 2",
               b"getmail-seen 2\n1 5 1\n+ 1\n1 5 0\n", b"getmail-seen 2\n1 5 0\n+ 1\n1 6 1\n"]
        for content in bad:
            with self.subTest(content):
                home.record(home.old).write_bytes(content)
                self.check_stopped(home.record(home.old))
        home.record(home.old).unlink()
        os.mkfifo(home.record(home.old))
        self.check_stopped(home.record(home.old), "no regular file")

    def test_an_entry_that_is_not_settled(self):
        home = self.home
        before = home.record(home.old).read_bytes()
        home.record(home.old).write_bytes(before + b"! 1 0 40\n")
        self.check_stopped(home.record(home.old), "isn't settled")
        home.record(home.old).write_bytes(before)
        self.check_carried()
        with home.record(home.new).open("ab") as record:
            record.write(b"! 1 0 40\n")
        self.check_stopped(home.record(home.new), "isn't settled")


class CutOff(InHome):
    """What was cut off from an mboxrd file."""

    KIND = MboxAccount

    def setUp(self):
        super().setUp()
        self.old, self.new = (Path(f"{self.home.record(digest)}.rest") for digest in (self.home.old, self.home.new))

    def test_it_gets_its_new_name(self):
        self.check_carried()
        self.assertEqual((self.old.exists(), self.new.read_bytes()), (False, KEPT))

    def test_another_account_s(self):
        self.new.write_bytes(KEPT)
        self.check_stopped(self.old, self.new)

    def test_both_accounts_have_one(self):
        self.check_carried()
        self.old.write_bytes(b"something else")
        self.check_stopped(self.old, self.new)
        self.old.write_bytes(KEPT)
        self.check_carried()
        self.assertEqual((self.old.exists(), self.new.read_bytes()), (False, KEPT))

    def test_one_that_comes_meanwhile(self):
        """It is not written over, whenever it comes, and the other one stays too."""
        came = []

        def come(_):
            if not self.new.exists():
                self.new.write_bytes(b"came\n")
                came.append(b"came\n")
        for number, is_after in itertools.product(range(1, 200), (False, True)):
            with self.subTest(call=number, is_after=is_after):
                self.home.restore()
                came.clear()
                with Meanwhile(self.script, self.home.folder, number, come, is_after) as meanwhile:
                    run = self.carry()
                if meanwhile.is_over():
                    return
                there = [path.read_bytes() for path in (self.old, self.new) if path.exists()]
                self.assertEqual(sorted(there), sorted([KEPT, *came]), run)
                self.assertTrue(run.status == 0 or str(self.old) in run.err.decode(), run)
        self.fail("too many calls")

    def test_an_odd_one(self):
        self.old.unlink()
        self.old.symlink_to("nowhere")
        self.check_carried(self.old)
        self.assertTrue(self.old.is_symlink())


class Odd(InHome):
    """What has a name like a message's is named and stays."""

    def test_odd_names(self):
        home = self.home
        paths = [os.path.join(os.fsencode(home.maildir / "new"), home.old.encode() + end) for end in ODD_ENDS]
        for path in paths:
            Path(os.fsdecode(path)).write_bytes(b"odd\n")
        for run in (home.carry(), home.carry(PYTHONIOENCODING="ascii", LC_ALL="C")):
            self.assertEqual((run.status, b"Traceback" in run.err), (0, False), run)
            self.assertEqual(len(run.err.splitlines()), len(paths))
        self.assertTrue(all(os.path.exists(path) for path in paths))
        self.assertEqual((len(home.names(home.new)), home.faults()[:2]), (4, ([], [])))

    def test_odd_kinds(self):
        """A message that something else has the name of doesn't count as delivered, unless a link leads to a file."""
        home = self.home
        ids = {name: b"odd-%d" % number for number, name in enumerate(
            ("a link to nothing", "a pipe", "a folder", "a link to a folder", "a link to a file"))}
        paths = {name: home.maildir / "new" / f"{home.old}.{uid.hex()}" for name, uid in ids.items()}
        paths["a link to nothing"].symlink_to("nowhere")
        os.mkfifo(paths["a pipe"])
        paths["a folder"].mkdir()
        paths["a link to a folder"].symlink_to(home.folder)
        paths["a link to a file"].symlink_to(home.folder / "new")
        self.check_carried(*paths.values())
        self.assertTrue(all(os.path.lexists(path) for path in paths.values()))
        rows = home.record(home.new).read_bytes()
        self.assertEqual([name for name, uid in ids.items() if b"\n%s " % uid in rows], ["a link to a file"])

    def test_a_file_with_any_end(self):
        home = self.home
        names = [f"{home.old}.61,U=5,S=4:2,RS", f"{home.old}.62:2,", f"{home.old}.63,\udcff\n"]
        for name in names:
            (home.maildir / "cur" / name).write_bytes(name.encode(errors="replace"))
        self.check_carried()
        self.assertLessEqual({name.replace(home.old, home.new) for name in names}, set(os.listdir(home.maildir / "cur")))

    @unittest.skipIf(os.geteuid() == 0, "root reads every file")
    def test_a_file_without_rights(self):
        path = self.path("new", self.home.old, b"d")
        path.chmod(0)
        self.check_carried()
        self.assertIn(b"\nd ", self.home.record(self.home.new).read_bytes())


class Reading(InHome):
    """A mail reader works just before one of the calls for files of the Maildir, each of them in turn."""

    def read(self, _=None, digest="", parts=("cur", "new")):
        """Each new message is read, and each that was read gets other flags; with a digest, those of this account alone."""
        maildir = self.home.maildir
        for part in parts:
            for name in os.listdir(maildir / part):
                base, _, flags = name.partition(":2,")
                with contextlib.suppress(FileNotFoundError):
                    if name.startswith(digest):
                        os.rename(maildir / part / name, maildir / "cur" / f"{base}:2,{'' if flags else 'S'}")
                        self.moved.add(base[64:])

    def read_old_names(self, _):
        """As if the other names came only now."""
        self.read(digest=self.home.old)

    def read_new_ones(self, _):
        """What is in `cur` keeps its name, so that no name that was listed there goes."""
        self.read(parts=("new",))

    def remove(self, _=None):
        """The owner removes a message, whatever its name is."""
        for part in ("new", "cur"):
            for name in os.listdir(self.home.maildir / part):
                if name.partition(".")[2].startswith(b"2".hex()) and not name.startswith(self.home.other):
                    (self.home.maildir / part / name).unlink()

    def check_recorded(self):
        """The message that had no row wasn't missed between two listings."""
        for digest in (self.home.old, self.home.new):
            self.assertRegex(self.home.record(digest).read_bytes(), rb"\nd [0-9]+ 1\n")

    def play(self, act, faults, step=1):
        for number in range(1, 200, step):
            with self.subTest(act=act.__name__, call=number):
                self.home.restore()
                self.moved = set()
                with Meanwhile(self.script, self.home.maildir, number, act) as meanwhile:
                    run = self.carry()
                self.assertEqual((run.status, run.err), (0, b""))
                if meanwhile.is_over():
                    self.assertGreater(number, 20)
                    return
                self.assertEqual((self.home.names(self.home.old), self.home.faults()), ([], faults))
                self.check_recorded()
                # What the reader has moved isn't put back.
                left = [name[64:] for name in os.listdir(self.home.maildir / "new") if name.startswith(self.home.new)]
                self.assertEqual(self.moved & set(left), set())
        self.fail("too many calls")

    def test_with_renames_that_spare_what_is_there(self):
        self.play(self.read, NONE)
        self.play(self.read_new_ones, NONE)

    def test_two_changes_at_one_tick_of_the_clock(self):
        """A folder has one time after both, where times are kept in whole seconds."""
        path, times = self.path("new", self.home.old, b"d"), self.script.Maildir.times
        self.enterContext(mock.patch.object(self.script.Maildir, "times", lambda maildir: [
            time // 1_000_000_000 * 1_000_000_000 for time in times(maildir)]))
        for number in (4, 4):
            self.home.restore()
            self.moved = set()
            with Meanwhile(self.script, self.home.maildir, number, self.read_new_ones):
                for one, other in ((path, path.with_name("x")), (path.with_name("x"), path)):
                    os.rename(one, other)
                self.check_carried()
            self.check_recorded()

    def test_with_links(self):
        with mock.patch("ctypes.CDLL", lambda *_, **__: object()):
            self.play(self.read, NONE, 1 if WHOLE else 4)
            self.play(self.read_old_names, NONE)

    def test_a_message_that_is_removed(self):
        self.play(self.remove, ([b"two\n"], [], []), 1 if WHOLE else 2)

    def test_a_reader_that_never_rests(self):
        """It says so, and a later run goes on."""
        over, self.moved = threading.Event(), set()

        def work():
            while not over.is_set():
                self.read()
        reader = threading.Thread(target=work)
        reader.start()
        try:
            run = self.carry()
        finally:
            over.set()
            reader.join(programs.SECONDS)
        if run.status != 0:
            self.assertIn(b"close what reads mail there", run.err)
        self.assertEqual(self.home.faults(), NONE)
        self.check_carried()
        self.assertEqual((self.home.names(self.home.old), self.home.faults()), ([], NONE))


class AtWork(InHome):
    """Beside a run of either account nothing is changed."""

    def test_a_run_of_either_account(self):
        home = self.home
        asked, over = threading.Event(), threading.Event()

        def give(_, say, octets):
            asked.set()
            over.wait(programs.SECONDS)
            say(octets)
        for rc, digest in (("getmailrc", home.old), ("new", home.new)):
            with self.subTest(rc):
                home.restore()
                home.server.give = give
                self.addCleanup(setattr, home.server, "give", lambda _, say, octets: say(octets))
                home.server.messages.append((b"e", b"five\n"))
                process = home.account.start("-q", "-r", rc)
                self.assertTrue(asked.wait(programs.SECONDS))
                try:
                    self.check_stopped(home.folder / f"lock-{digest}", "at work")
                finally:
                    over.set()
                    process.communicate(timeout=programs.SECONDS)
                home.server.wait_for_end()
                asked.clear()
                over.clear()

    def test_while_it_works_no_other_one_does(self):
        ends = []
        with Meanwhile(self.script, self.home.maildir, 1, lambda _: ends.append(self.home.carry())):
            self.check_carried()
        self.assertEqual(ends[0].status, 1)
        self.assertIn(b"at work", ends[0].err)

    def test_while_it_works_no_run_does(self):
        ends = []
        with Meanwhile(self.script, self.home.maildir, 1, lambda _: ends.extend(
                self.home.account.run("-q", "-r", rc).err for rc in ("getmailrc", "new"))):
            self.check_carried()
        self.assertEqual(ends, [b"getmail: another getmail is at work for this account\n"] * 2)

    def test_an_unattended_run_counts_from_now(self):
        """Such a run tells of another one only once that has been at work for an hour."""
        lock = self.home.folder / f"lock-{self.home.old}"
        os.utime(lock, (0, 0))
        ends = []
        with Meanwhile(self.script, self.home.maildir, 1, lambda _: ends.append(self.home.account.run("--unattended"))):
            self.check_carried()
        self.assertEqual(ends, [programs.SILENT])

    def test_the_scripts_that_make_a_record(self):
        path = self.home.folder / "list"
        path.write_bytes(b"a\x001600000000\n")
        with open(self.home.folder / f"lock-{self.home.new}", "w") as lock:
            fcntl.flock(lock, fcntl.LOCK_EX)
            run = run_apart("from-getmail6", *self.home.words[:2], LOOPBACK, self.home.server.port, "w", path)
        self.assertEqual((run.status, run.out, self.home.record(self.home.new).exists()), (1, b"", False))
        self.assertIn(b"at work", run.err)

    def test_a_system_without_locks(self):
        with preload.library("refuse_call") as library:
            run = self.home.carry(LD_PRELOAD=str(library), REFUSED_CALL="lock-unsupported")
        self.assertEqual((run.status, run.err.count(b"no lock: "), self.home.faults()), (0, 2, NONE))

    def test_an_odd_lock(self):
        lock = self.home.folder / f"lock-{self.home.new}"
        for make in (lock.mkdir, lambda: os.mkfifo(lock), lambda: lock.symlink_to("nowhere")):
            make()
            self.check_stopped(lock, "no regular file")
            lock.rmdir() if lock.is_dir() else lock.unlink()


class Refused(InHome):
    """Each call for the account's files refused in turn: it says so, and run again it goes on."""

    def refuse(self, first):
        raise OSError(errno.EIO, os.strerror(errno.EIO), None if isinstance(first, int) else first)

    def play(self, below, is_after):
        for number in range(1, 200):
            with self.subTest(call=number, is_after=is_after):
                self.home.restore()
                with Meanwhile(self.script, below, number, self.refuse, is_after) as meanwhile:
                    run = self.carry()
                if meanwhile.is_over():
                    self.assertEqual((run.status, run.err), (0, b""))
                    self.assertGreater(number, 15)
                    return
                self.assertEqual(self.home.faults(), NONE)
                if run.status != 0:
                    self.assertRegex(run.err, b"^/.*: Input/output error; (nothing was changed|run this again once that is over)")
                self.check_carried()
                self.assertEqual((self.home.names(self.home.old), self.home.faults()), ([], NONE))
        self.fail("too many calls")

    def test_each_call(self):
        for is_after in (False, True):
            self.play(self.home.folder, is_after)
            self.play(self.home.maildir, is_after)

    def test_another_account_s_record(self):
        """Whatever is refused while it looks, it doesn't take another account for the same one, also without a Maildir."""
        home = self.home
        words = [*home.words[:5], LOOPBACK, home.other_server.port, "u", home.maildir]
        self.check_never_taken(words)
        self.check_never_taken(words[:-1])

    def check_never_taken(self, words):
        before = self.home.tree()
        for number in range(1, 200):
            with self.subTest(call=number, words=len(words)):
                with Meanwhile(self.script, self.home.home, number, self.refuse) as meanwhile:
                    run = self.carry(*words)
                self.assertEqual((run.status, self.home.tree()), (1, before), run)
                self.assertIn(b"nothing was changed", run.err)
            if meanwhile.is_over():
                return
        self.fail("too many calls")

    def test_a_full_disk(self):
        """No file may grow: both records stay as they were."""
        before = self.home.record(self.home.old).read_bytes()
        done = subprocess.run(["sh", "-c", 'ulimit -f 0; exec "$@"', "sh", sys.executable, EXAMPLES / "carry-account.py",
                               *map(str, self.home.words)], capture_output=True, timeout=programs.SECONDS)
        self.assertEqual((done.returncode, done.stdout), (1, b""))
        self.assertRegex(done.stderr, b"^/.*/seen-.*: File too large; run this again")
        self.assertEqual(self.home.record(self.home.old).read_bytes(), before)
        self.assertFalse(self.home.record(self.home.new).exists())
        self.check_carried()
        self.assertEqual(self.home.faults(), NONE)


if __name__ == "__main__":
    unittest.main()
