"""Each flag and each key of the rc file in a whole session: what it changes at the server, and what is reported."""

import os
import socket
import subprocess
import termios
import threading
import time
import unittest
from pathlib import Path

from getmail.account import Account
from getmail.server import Server
from harness import kernel, preload, programs
from harness.kernel import LOOPBACK

THREE = [(b"a", b"one\n"), (b"b", b"two\n" * 50), (b"c", b"three\n")]
LOGIN = ["USER u", "PASS sesame", "STAT", "UIDL", "LIST"]
ALL_FETCHED = ["RETR 1", "RETR 2", "RETR 3"]
ALL_DELETED = ["DELE 1", "DELE 2", "DELE 3"]
FETCHED_AND_DELETED = ["RETR 1", "DELE 1", "RETR 2", "DELE 2", "RETR 3", "DELE 3"]
DAY = 86_400

NO_HOME = programs.Run(2, b"", b"getmail: HOME is not set\n")
UNREADABLE = programs.Run(2, b"", b"getmail: cannot read rc file\n")


def has_ipv6():
    """Whether this machine has an IPv6 loopback."""
    try:
        socket.create_server(("::1", 0), family=socket.AF_INET6).close()
    except OSError:
        return False
    return True


class Sessions(unittest.TestCase):
    def setUp(self):
        self.server = Server(THREE)
        self.addCleanup(self.server.close)
        self.account = Account(self.server.port)
        self.addCleanup(self.account.holder.cleanup)

    def set(self, **settings):
        """Gives the keys of the section `[options]` these values."""
        lines = [line for line in self.account.rcfile.read_text().splitlines() if line.split(" ")[0] not in settings]
        lines += [f"{key} = {value}" for key, value in settings.items()]
        self.account.rcfile.write_text("\n".join(lines) + "\n")

    def session(self, *words, **changes):
        """One run against one session of the server, with the commands after the listings."""
        thread = self.server.begin_session()
        run = self.account.run(*words, **changes)
        thread.join(programs.SECONDS)
        self.assertEqual(self.server.commands[:5], LOGIN, run)
        return run, self.server.commands[5:]

    def check_commands(self, words, commands, **changes):
        """A silent run with these words sends these commands and QUIT."""
        self.assertEqual(self.session("-q", *words, **changes), (programs.SILENT, commands + ["QUIT"]))


class Flags(Sessions):
    def test_deleting(self):
        for value, flag, deletes in (("true", [], True), ("false", [], False), ("true", ["-d"], True),
                                     ("false", ["-d"], True), ("true", ["-l"], False), ("false", ["-l"], False),
                                     ("true", ["--dont-delete"], False), ("false", ["--delete"], True)):
            with self.subTest(delete=value, flag=flag), Server(THREE) as self.server:
                with Account(self.server.port) as self.account:
                    self.set(delete=value)
                    self.check_commands(flag, FETCHED_AND_DELETED if deletes else ALL_FETCHED)
                    self.assertEqual(self.server.messages, [] if deletes else THREE)
                    self.check_commands(flag, [])

    def test_what_was_fetched_before(self):
        self.check_commands([], ALL_FETCHED)
        for value, flag, fetches in (("true", [], True), ("false", [], False), ("true", ["-a"], True),
                                     ("false", ["-a"], True), ("true", ["-n"], False), ("false", ["-n"], False),
                                     ("true", ["--new"], False), ("false", ["--all"], True)):
            with self.subTest(read_all=value, flag=flag):
                self.set(read_all=value)
                self.check_commands(flag, ALL_FETCHED if fetches else [])
                self.assertEqual(self.account.held(), THREE)

    def test_how_much_is_told(self):
        self.check_commands([], ALL_FETCHED)
        silent, report, skipped = range(3)
        for value, flag, told in ((0, [], silent), (1, [], report), (2, [], skipped), (3, [], skipped),
                                  (0, ["-v"], report), (0, ["-vv"], skipped), (0, ["-v", "--verbose"], skipped),
                                  (0, ["-vvv"], skipped), (1, ["-v"], skipped), (1, ["-vv"], skipped),
                                  (2, ["-v"], skipped), (2, ["-q"], silent), (2, ["--quiet"], silent)):
            with self.subTest(verbose=value, flag=flag):
                self.set(verbose=value)
                run, commands = self.session(*flag)
                lines = run.out.decode().splitlines()
                self.assertEqual((run.status, run.err, commands), (0, b"", ["QUIT"]))
                self.assertEqual(len(lines), (0, 2, 5)[told], lines)
                self.assertEqual(sum("skipped" in line for line in lines[:-1]), 3 if told == skipped else 0)

    def test_a_verbosity_that_is_not_written(self):
        """It is 1, so that one -v is enough for the whole report."""
        self.check_commands([], ALL_FETCHED)
        for flag, lines in (([], 2), (["-v"], 5)):
            with self.subTest(flag):
                run, _ = self.session(*flag)
                self.assertEqual(len(run.out.splitlines()), lines)


class Days(Sessions):
    """The days of `delete_after` are counted from when a message was first seen."""

    def at(self, seconds):
        """The environment of a run at this time."""
        clock = self.account.home / "clock"
        clock.write_text(str(seconds))
        return {"LD_PRELOAD": str(self.clock), "CLOCK": str(clock)}

    @classmethod
    def setUpClass(cls):
        cls.clock = cls.enterClassContext(preload.library("clock"))

    def first_seen(self):
        """The times of the record's rows."""
        rows = [row.split() for row in self.account.record.read_bytes().splitlines()[1:]]
        return {int(row[1]) for row in rows if len(row) > 2}

    def test_the_record_has_the_time_of_day(self):
        before = int(time.time())
        self.check_commands([], ALL_FETCHED)
        [seen] = self.first_seen()
        self.assertTrue(before <= seen <= time.time(), seen)

    def test_a_message_is_deleted_when_its_days_are_over(self):
        begun = 1_800_000_000
        self.set(delete_after=3)
        for flag in ([], ["-l"]):
            with self.subTest(flag), Server(THREE) as self.server, Account(self.server.port) as self.account:
                self.set(delete_after=3)
                self.check_commands(flag, ALL_FETCHED, **self.at(begun))
                self.assertEqual(self.first_seen(), {begun})
                self.check_commands(flag, [], **self.at(begun + 3 * DAY - 1))
                self.check_commands(flag, ALL_DELETED, **self.at(begun + 3 * DAY))
                self.assertEqual(self.server.messages, [])
                self.assertEqual(self.account.held(), THREE)

    def test_a_clock_that_leaps_forward(self):
        """What is delivered is old enough at once; what was never listed before is not. Set right again, the clock deletes
        nothing before its time."""
        begun, leap = 1_800_000_000, 3650 * DAY
        self.set(delete_after=3)
        self.check_commands([], ALL_FETCHED, **self.at(begun))
        self.server.messages.append((b"new", b"new\n"))
        self.check_commands([], ["DELE 1", "DELE 2", "DELE 3", "RETR 4"], **self.at(begun + leap))
        self.check_commands([], [], **self.at(begun + 4 * DAY))
        self.check_commands([], ["DELE 1"], **self.at(begun + leap + 3 * DAY))

    def test_a_clock_before_1970_counts_as_its_first_second(self):
        self.check_commands([], ALL_FETCHED, **self.at(-5))
        self.assertEqual(self.first_seen(), {0})


class StandardError(Sessions):
    """A run whose lines can't be written has the same status as another."""

    def run_without(self, closing, *words):
        """The status of a run for which the shell closes or fills standard error."""
        thread = self.server.begin_session()
        done = subprocess.run(["sh", "-c", f'exec "$0" "$@" {closing}', programs.path_of("getmail"), *words],
                              stdin=subprocess.DEVNULL, stdout=subprocess.DEVNULL, timeout=programs.SECONDS,
                              env=programs.environment(HOME=str(self.account.home)))
        thread.join(programs.SECONDS)
        return done.returncode

    def test_a_session_that_was_cut(self):
        self.server.refuses = ("RETR 2",)
        for closing in ("2>&-", "2>/dev/full"):
            with self.subTest(closing):
                self.assertEqual(self.run_without(closing), 1)
                self.assertEqual(self.server.commands[-1], "QUIT")
        self.assertEqual(self.account.held(), THREE[:1])

    def test_a_session_that_ended(self):
        for closing in ("2>&-", "2>/dev/full"):
            with self.subTest(closing):
                self.assertEqual(self.run_without(closing), 0)
        self.assertEqual(self.account.held(), THREE)


class RcFile(Sessions):
    def feed(self, pieces):
        """A run whose rc file is a pipe, into which the pieces are written, each once the one before was read."""
        pipe = self.account.home / "pipe"
        os.mkfifo(pipe)

        def write():
            with open(pipe, "wb", buffering=0) as end:
                for piece in pieces:
                    end.write(piece)
                    kernel.wait_for(lambda: kernel.octets_of(end, termios.FIONREAD) == 0, "the pipe isn't read")

        writer = threading.Thread(target=write, daemon=True)
        writer.start()
        answer = self.session("-q", "-r", str(pipe))
        writer.join(programs.SECONDS)
        return answer

    @unittest.skipIf(os.geteuid() == 0, "the superuser's run reads no pipe")
    def test_an_rc_file_that_comes_in_pieces(self):
        text = self.account.rcfile.read_bytes() + b"delete = true\n"
        half = text.index(b"[destination]") + 5
        self.assertEqual(self.feed([text[:half], text[half:-3], text[-3:]]), (programs.SILENT, FETCHED_AND_DELETED + ["QUIT"]))

    def test_an_rc_file_of_the_greatest_length(self):
        text = self.account.rcfile.read_bytes()
        end = b"delete = true\n"
        self.account.rcfile.write_bytes(text + b"#" * (65_535 - len(text) - len(end)) + b"\n" + end)
        self.assertEqual(self.account.rcfile.stat().st_size, 65_536)
        self.check_commands([], FETCHED_AND_DELETED)

    def test_the_sample(self):
        """With the user's own server and password it fetches once what is new, and deletes nothing."""
        text = (programs.ROOT / "docs/getmailrc.sample").read_text()
        for old, new in (("server = /home/fred/.getmail/tunnel/pop3s\n# port = 110", f"server = {LOOPBACK}\nport = {self.server.port}"),
                         ("username = fred\npassword = secret", "username = u\npassword = sesame")):
            self.assertIn(old, text)
            text = text.replace(old, new)
        self.account.rcfile.write_text(text)
        self.check_commands([], ALL_FETCHED)
        self.check_commands([], [])
        self.assertEqual(self.account.held(), THREE)


class Home(Sessions):
    """A path that begins with `~/` is in the home; if none does, HOME isn't needed."""

    def without_home(self, *words):
        """The run of a user whose HOME isn't set."""
        kept = {key: value for key, value in programs.environment().items() if key != "HOME"}
        done = subprocess.run([programs.path_of("getmail"), *words], stdin=subprocess.DEVNULL, capture_output=True,
                              env=kept, cwd=self.account.home, timeout=programs.SECONDS)
        return programs.Run(done.returncode, done.stdout, done.stderr)

    def name_maildir(self, path):
        text = self.account.rcfile.read_text()
        self.account.rcfile.write_text(text.replace("path = ~/Maildir/", f"path = {path}/"))

    def test_no_home(self):
        folder = str(self.account.folder)
        for words in ([], ["-g", "~/x"], ["-r", "~/x", "-g", folder], ["-g", folder]):
            with self.subTest(words):
                self.assertEqual(self.without_home("-q", *words), NO_HOME)
        # A home that isn't set is neither the root nor the working folder.
        self.name_maildir("~" + str(self.account.maildir))
        self.assertEqual(self.without_home("-q", "-g", folder), NO_HOME)

    def test_no_home_and_none_is_needed(self):
        for path in (self.account.maildir, "Maildir"):
            with self.subTest(path), Server(THREE) as self.server, Account(self.server.port) as self.account:
                self.name_maildir(self.account.maildir if path != "Maildir" else path)
                thread = self.server.begin_session()
                self.assertEqual(self.without_home("-q", "-g", str(self.account.folder)), programs.SILENT)
                thread.join(programs.SECONDS)
                self.assertEqual(self.account.held(), THREE)

    def test_an_empty_home(self):
        """It is set: a path that begins with `~/` is then in the root."""
        self.assertEqual(self.account.run("-q", HOME=""), UNREADABLE)
        self.name_maildir("~" + str(self.account.maildir))
        self.assertEqual(self.session("-q", "-g", "~" + str(self.account.folder), HOME=""),
                         (programs.SILENT, ALL_FETCHED + ["QUIT"]))
        self.assertEqual(self.account.held(), THREE)
        self.assertTrue(self.account.record.exists())


class Connections(Sessions):
    @classmethod
    def setUpClass(cls):
        cls.refusing = cls.enterClassContext(preload.library("refuse_call"))

    def refuse(self, call):
        return self.account.run("-q", LD_PRELOAD=str(self.refusing), REFUSED_CALL=call)

    @unittest.skipUnless(has_ipv6(), "this machine has no IPv6 loopback")
    def test_a_server_with_an_ipv6_address(self):
        self.server.close()
        self.server.socket = socket.create_server(("::1", 0), family=socket.AF_INET6)
        self.server.socket.settimeout(programs.SECONDS)
        port = self.server.socket.getsockname()[1]
        text = self.account.rcfile.read_text().replace(f"server = {LOOPBACK}", "server = ::1")
        self.account.rcfile.write_text(text.replace(f"port = {self.server.port}", f"port = {port}"))
        self.check_commands([], ALL_FETCHED)
        # The account is another one, with a record of its own.
        self.assertFalse(self.account.record.exists())
        self.assertEqual(len(list(Path(self.account.folder).glob("seen-*"))), 1)

    def test_a_bound_on_waits_that_is_refused(self):
        """A connection that could wait for ever isn't used."""
        refused = f"getmail: cannot connect to {LOOPBACK}:{self.server.port}\n".encode()
        for call in ("read-timeout", "write-timeout"):
            with self.subTest(call):
                self.assertEqual(self.refuse(call), programs.Run(1, b"", refused))

    def test_octets_of_random_that_are_refused(self):
        """A server chooses the unique-ids, so the record's table is never without random keys."""
        self.assertEqual(self.refuse("random"), UNREADABLE)
