"""The lock of an account: while one run is at work, another one ends at once. If no lock can be had, nothing changes."""

import collections
import os
import random
import signal
import stat
import threading
import unittest

from getmail.account import Account
from getmail.mbox_account import MboxAccount
from getmail.shared_server import SharedServer
from harness import kernel, preload, programs
from harness.mboxrd import entries

SOME = [(b"%d" % number, b"line %d\n" % number * 40 ** (1 + number % 3)) for number in range(5)]
TEXTS = [text for _, text in SOME]
AT_WORK = programs.Run(1, b"", b"getmail: another getmail is at work for this account\n")


def finish(process):
    out, err = process.communicate(timeout=programs.SECONDS)
    return programs.Run(process.returncode, out, err)


class Locks(unittest.TestCase):
    def setUp(self):
        self.server = SharedServer(SOME)
        self.addCleanup(self.server.close)
        self.account = Account(self.server.port)
        self.addCleanup(self.account.holder.cleanup)

    def told(self, reason):
        """The line of a reason."""
        return f"getmail: u@127.0.0.1:{self.server.port}: {reason}\n".encode()

    def files(self):
        """All files of the home with what `stat` says of their content and change."""
        return {path: (path.lstat().st_size, path.lstat().st_mtime_ns) for path in self.account.home.rglob("*")}


class Beside(Locks):
    """A run beside another one, which has asked for its first text and waits for it."""

    def setUp(self):
        super().setUp()
        self.asked, self.over = threading.Event(), threading.Event()

        def give(session, say, octets):
            self.asked.set()
            self.over.wait(programs.SECONDS)
            say(octets)

        self.server.give = give
        self.first = self.account.start("-q")
        self.addCleanup(self.end)
        self.assertTrue(self.asked.wait(programs.SECONDS))

    def end(self):
        self.over.set()
        if self.first.poll() is None:
            self.first.kill()
        self.first.communicate(timeout=programs.SECONDS)

    def finish_first(self):
        self.over.set()
        self.assertEqual(finish(self.first), programs.SILENT)
        self.assertEqual(self.account.held(), SOME)

    def test_it_ends_without_a_connection_and_changes_nothing(self):
        before = self.files()
        for words in ((), ("-q",), ("-v",), ("-d", "-a")):
            self.assertEqual(self.account.run(*words), AT_WORK)
        runs = [self.account.start("-q") for _ in range(3)]
        self.assertEqual([finish(run) for run in runs], [AT_WORK] * 3)
        self.assertEqual((self.files(), self.server.began), (before, 1))
        self.finish_first()
        self.assertEqual(self.account.run("-q"), programs.SILENT)

    def test_its_reason(self):
        told = self.told(f"{self.account.lock}: another process has locked it")
        self.assertEqual(self.account.run("--why"), programs.Run(1, b"", AT_WORK.err + told))
        self.assertEqual(self.account.run("--trace"), AT_WORK)

    def test_a_fault_of_the_rc_file_comes_first(self):
        good = self.account.rcfile.read_text()
        self.account.rcfile.write_text(good + "no line of an rc file\n")
        self.assertEqual(self.account.run().status, 2)
        self.account.rcfile.write_text(good)
        self.assertEqual(self.account.run("-a", "-n").status, 2)

    def test_what_changes_nothing_goes_on(self):
        self.assertEqual(self.account.run("--pretend").status, 0)
        rehearsed = self.account.run("--rehearse", given=b"-ERR\r\n")
        self.assertEqual((rehearsed.status, rehearsed.err), (1, b""))
        self.finish_first()

    def test_another_account_goes_on(self):
        rc = self.account.rcfile.read_text().replace("username = u", "username = w").replace("~/Maildir/", "~/Other/")
        (self.account.folder / "other").write_text(rc)
        self.over.set()
        for part in ("tmp", "new", "cur"):
            (self.account.home / "Other" / part).mkdir(parents=True)
        self.assertEqual(self.account.run("-q", "-r", "other"), programs.SILENT)
        self.finish_first()

    def test_a_killed_run_has_no_lock(self):
        self.first.send_signal(signal.SIGKILL)
        self.first.wait(programs.SECONDS)
        self.over.set()
        self.assertEqual(self.account.run("-q"), programs.SILENT)
        self.assertEqual(self.account.held(), SOME)

    def test_no_child_would_have_the_lock(self):
        of_first = f"/proc/{self.first.pid}"
        number, = [name for name in os.listdir(f"{of_first}/fd") if os.readlink(f"{of_first}/fd/{name}") == str(self.account.lock)]
        with open(f"{of_first}/fdinfo/{number}") as about:
            flags, = [int(line.split()[1], 8) for line in about if line.startswith("flags:")]
        self.assertTrue(flags & os.O_CLOEXEC)


class Files(Locks):
    """The lock's file."""

    def test_it_is_empty_of_its_owner_and_stays(self):
        self.assertEqual(self.account.run("-q", "-d"), programs.SILENT)
        made = self.account.lock.stat()
        self.assertEqual((made.st_size, stat.S_IMODE(made.st_mode)), (0, 0o600))
        self.assertEqual(self.account.run("-q", "-d"), programs.SILENT)
        self.assertEqual(self.account.lock.stat().st_ino, made.st_ino)
        self.assertEqual(sorted(os.listdir(self.account.folder)), ["getmailrc", self.account.lock.name, self.account.record.name])

    def test_what_changes_nothing_makes_none(self):
        self.assertEqual(self.account.run("--pretend").status, 0)
        self.account.run("--rehearse")
        self.account.run("-a", "-n")
        self.assertEqual(os.listdir(self.account.folder), ["getmailrc"])

    def test_it_is_made_before_the_connection(self):
        port = kernel.free_port()
        with Account(port) as account:
            self.assertEqual(account.run(), programs.Run(1, b"", b"getmail: cannot connect to 127.0.0.1:%d\n" % port))
            self.assertTrue(account.lock.exists())

    def check_goes_on(self, reason, *words, changes=None):
        """Two runs without a lock: one that has nothing to say, and one with reasons."""
        changes = changes or {}
        self.assertEqual(self.account.run("-q", *words, **changes), programs.SILENT)
        self.assertEqual(self.account.held(), SOME)
        told = self.told(f"no lock: {self.account.lock}: {reason}")
        self.assertEqual(self.account.run("-q", "--why", *words, **changes), programs.Run(0, b"", told))

    def test_an_odd_file(self):
        lock, elsewhere = self.account.lock, self.account.home / "elsewhere"
        os.mkfifo(elsewhere)
        kinds = {
            "a folder": lock.mkdir,
            "a pipe": lambda: os.mkfifo(lock),
            "a socket": lambda: os.mknod(lock, stat.S_IFSOCK | 0o600),
            "a link to nothing": lambda: lock.symlink_to(self.account.home / "none"),
            "a link to a pipe": lambda: lock.symlink_to(elsewhere),
            "a link to a device": lambda: lock.symlink_to("/dev/zero"),
        }
        for name, make in kinds.items():
            with self.subTest(name):
                make()
                self.check_goes_on("not a regular file")
                self.assertFalse((self.account.home / "none").exists())
                lock.rmdir() if name == "a folder" else lock.unlink()

    def test_what_is_put_there_after_the_look(self):
        """No pipe is waited for, and a file that a link leads to keeps its octets."""
        lock, put, elsewhere = self.account.lock, self.account.home / "put", self.account.home / "elsewhere"
        elsewhere.write_bytes(b"octets")
        with preload.library("meddle") as library:
            meddling = {"LD_PRELOAD": str(library), "MEDDLE_FROM": str(put), "MEDDLE_TO": str(lock), "MEDDLE_AT": str(lock)}
            for name, make in (("a pipe", lambda: os.mkfifo(put)), ("a link", lambda: put.symlink_to(elsewhere))):
                with self.subTest(name):
                    make()
                    self.assertEqual(self.account.run("-q", "--why", **meddling), programs.SILENT)
                    self.assertFalse(stat.S_ISREG(lock.lstat().st_mode))
                    lock.unlink()
        self.assertEqual((self.account.held(), elsewhere.read_bytes()), (SOME, b"octets"))

    def test_what_is_in_it_stays(self):
        self.account.lock.write_bytes(b"octets")
        self.assertEqual(self.account.run("-q", "--why"), programs.SILENT)
        self.assertEqual(self.account.lock.read_bytes(), b"octets")

    def test_a_system_that_refuses_it(self):
        with preload.library("refuse_call") as library:
            for call, reason in (("lock-none-left", "No locks available"), ("lock-unsupported", "Operation not supported")):
                with self.subTest(call):
                    self.check_goes_on(reason, changes={"LD_PRELOAD": str(library), "REFUSED_CALL": call})
            run = self.account.run("-q", "--trace", LD_PRELOAD=str(library), REFUSED_CALL="lock-none-left")
            self.assertEqual(run.err.splitlines()[0], f"trace: flock {self.account.lock}: No locks available".encode())

    def test_an_unattended_run_tells_it_once(self):
        self.account.refuse_lock()
        for told in (self.told(f"no lock: {self.account.lock}: not a regular file"), b""):
            self.assertEqual(self.account.run("--unattended"), programs.Run(0, b"", told))

    def test_a_folder_that_is_not_there(self):
        """The record can't be had either, and its line is the last one, as ever."""
        rc, none = self.account.home / "rc", self.account.home / "none"
        self.account.rcfile.rename(rc)
        refused = b"getmail: seen file refused\n"
        self.assertEqual(self.account.run("-q", "-r", str(rc), "-g", str(none)), programs.Run(1, b"", refused))
        run = self.account.run("-q", "--why", "-r", str(rc), "-g", str(none))
        told = self.told(f"no lock: {none}/{self.account.lock.name}: No such file or directory")
        self.assertEqual((run.status, run.err.startswith(told + refused)), (1, True), run.err)


class Rounds(Locks):
    """A run that is typed while another one is at work, at a moment spread over its session: no message comes twice."""

    ROUNDS = int(os.environ.get("TESTS_LOCK_ROUNDS", "60"))

    def setUp(self):
        super().setUp()
        self.ends = collections.Counter()

    def play(self, account, source, others):
        """The first of the runs has 21 steps."""
        self.server.forget()
        self.server.messages = list(SOME)
        runs = [account.start("-q")]
        for _ in range(others):
            moment = self.server.moment(source.randrange(24), pieces=2, pause=0.001)
            moment.wait(*runs)
            runs.append(account.start("-q"))
            moment.end()
        self.ends.update(map(finish, runs))
        self.server.wait_for_end()

    def check(self, doubled):
        """No message came twice, each run did all or left it to another one, and some did that."""
        self.assertEqual((doubled, set(self.ends)), (0, {programs.SILENT, AT_WORK}), f"of {self.ROUNDS}")

    def test_an_mboxrd_file(self):
        source, doubled = random.Random(67), 0
        for number in range(self.ROUNDS):
            with MboxAccount(self.server.port) as account:
                self.play(account, source, 1 + number % 2)
                doubled += account.content() != entries(TEXTS)
        self.check(doubled)

    def test_a_maildir_with_a_reader(self):
        source, doubled = random.Random(68), 0
        for number in range(self.ROUNDS):
            with Account(self.server.port) as account:
                over = threading.Event()

                def read(account=account, over=over):
                    while not over.wait(0.0005):
                        account.read_all_new()

                reader = threading.Thread(target=read)
                reader.start()
                try:
                    self.play(account, source, 1 + number % 2)
                finally:
                    over.set()
                    reader.join(programs.SECONDS)
                doubled += account.held() != SOME
        self.check(doubled)


if __name__ == "__main__":
    unittest.main()
