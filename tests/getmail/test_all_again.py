"""Mail that comes again: because nothing says that it isn't to, or because the server has new ids for it."""

import unittest

from getmail import terminal
from getmail.account import Account
from getmail.mbox_account import MboxAccount
from getmail.unattended import UnattendedRuns
from harness import programs

THREE = [(b"a", b"one\n"), (b"b", b"two\n"), (b"c", b"three\n")]
UNSET = ("warning: read_all is not set: each run fetches all mail again, and an mboxrd file gets it again; "
         "read_all = false in [options] ends that")
NEW_IDS = "warning: none of the listed messages was in the record, others were: if their ids are new, all mail comes again"
HOUR, DAY = 3_600, 86_400
OPTIONS = "\n[options]\nread_all = false\n"


def messages(front, numbers):
    return [(f"{front}{number}".encode(), b"text %d\n" % number) for number in numbers]


class Unset(UnattendedRuns):
    """Neither the rc file nor a flag says whether mail that was delivered comes again."""

    def setUp(self):
        super().setUp()
        self.server.messages = list(THREE)
        self.account = self.enterContext(MboxAccount(self.server.port))

    def set_options(self, text):
        self.account.rcfile.write_text(self.account.rcfile.read_text().replace(OPTIONS, text))

    def test_no_options(self):
        """It is told once; and it is so."""
        self.set_options("")
        self.assertEqual([self.session() for _ in range(3)], [(0, [self.line(UNSET)]), (0, []), (0, [])])
        self.assertEqual(self.account.content().count(b"\nFrom ") + 1, 9)

    def test_a_section_that_is_misspelled(self):
        self.set_options("\n[option]\nread_all = false\n")
        section = "getmail: warning: line 12: section [option] has no effect"
        self.assertEqual([self.session() for _ in range(3)], [(0, [section, self.line(UNSET)]), (0, []), (0, [])])

    def test_other_options(self):
        self.set_options("\n[options]\nverbose = 0\n")
        self.assertEqual([self.session() for _ in range(2)], [(0, [self.line(UNSET)]), (0, [])])

    def test_flags_and_values(self):
        """Whatever says it, nothing is told."""
        for options, *words in ((OPTIONS,), ("\n[options]\nread_all = true\n",), ("", "-n"), ("", "-a")):
            with self.subTest(options=options, words=words), MboxAccount(self.server.port) as self.account:
                self.set_options(options)
                self.assertEqual(self.session(*words), (0, []))

    def test_other_runs(self):
        """On a terminal and with reasons it is told each time, and otherwise never."""
        self.set_options("")
        line = f"{self.line(UNSET)}\n".encode()
        for _ in range(2):
            self.server.begin_session()
            self.assertEqual(self.account.run("-q", "--why"), programs.Run(0, b"", line))
            self.server.begin_session()
            self.assertEqual(terminal.run(self.account, "-q"), (0, b"", line.replace(b"\n", b"\r\n")))
            self.server.begin_session()
            self.assertEqual(self.account.run("-q"), programs.SILENT)
        self.assertEqual(programs.run("getmail", "--rehearse", "--why", given=b"-ERR\r\n").err, b"")


class NewIds(UnattendedRuns):
    """The record knows other messages than those that are listed."""

    def begin(self, count, options=""):
        self.account.rcfile.write_text(self.account.rcfile.read_text() + options)
        self.server.messages = messages("a", range(count))
        self.assertEqual(self.session(), (0, []))

    def told(self, expected, *words, **changes):
        self.assertEqual(self.session(*words, **changes), (0, [self.line(NEW_IDS)] if expected else []))

    def test_new_ids_for_all(self):
        """It is told, and again each week while it lasts."""
        self.begin(10)
        for days, expected in ((0, True), (1, False), (2, False), (8, True)):
            self.server.messages = messages(f"d{days}-", range(10))
            self.told(expected, seconds=HOUR if days == 0 else days * DAY)

    def test_an_mboxrd_file(self):
        self.account = self.enterContext(MboxAccount(self.server.port))
        self.begin(10)
        self.server.messages = messages("b", range(12))
        self.told(True)
        self.told(False)
        self.assertEqual(self.account.content().count(b"\nFrom ") + 1, 22)

    def test_new_ids_that_come_a_few_in_a_session(self):
        self.begin(10, "max_messages_per_session = 4\n")
        for _ in range(2):
            self.told(False)
        self.server.messages = messages("b", range(11))
        self.told(True)
        self.told(False)

    def test_fewer_than_ten(self):
        self.begin(10)
        self.server.messages = messages("b", range(9))
        self.told(False)

    def test_one_that_is_known(self):
        """Whether or not it was delivered."""
        self.begin(10, "max_message_size = 1000\n")
        self.server.messages = [(b"a3", b"text 3\n"), *messages("b", range(12))]
        self.told(False)
        large = (b"large", b"x" * 2000 + b"\n")
        self.server.messages = [large, *messages("c", range(8))]
        self.assertEqual(len(self.session()[1]), 1)
        self.server.messages = [large, *messages("d", range(12))]
        self.told(False)

    def test_a_first_run(self):
        self.begin(30)

    def test_a_record_without_deliveries(self):
        """The messages that it has were too large."""
        self.account.rcfile.write_text(self.account.rcfile.read_text() + "max_message_size = 1000\n")
        self.server.messages = [(b"large", b"x" * 2000 + b"\n")]
        self.session()
        self.server.messages = messages("b", range(12))
        self.told(False)

    def test_a_run_that_deletes(self):
        """One new message a day, and a mailbox that is emptied by each run: all of it is new each time."""
        for options in ("delete = true\n", "delete_after = 1\n"):
            with self.subTest(options), Account(self.server.port) as self.account:
                self.begin(10, options)
                for day in range(3):
                    self.server.messages = [*self.server.messages, *messages(f"d{day}-", range(10))]
                    self.told(False, seconds=DAY + HOUR)

    def test_one_new_message_a_day(self):
        self.begin(10, "delete = true\n")
        for day in range(12):
            self.server.messages = messages("n", [day])
            self.told(False, seconds=DAY)

    def test_a_mailbox_that_was_emptied(self):
        """By webmail: a few new ones come."""
        self.begin(30)
        self.server.messages = []
        self.told(False)
        self.server.messages = messages("b", range(5))
        self.told(False)

    def test_a_session_that_is_cut(self):
        """It says so too, if the listing came."""
        self.begin(10)
        self.server.messages = messages("b", range(12))
        self.refuse("RETR 5")
        status, lines = self.session()
        self.assertEqual((status, lines[0], lines[-1]), (1, "getmail: server refused RETR 5", self.line(NEW_IDS)))
        self.refuse("USER u")
        self.assertNotIn(self.line(NEW_IDS), self.session()[1])

    def test_other_runs(self):
        """Reasons have to be asked for, and something to be done."""
        self.begin(10)
        self.server.messages = messages("b", range(10))
        self.server.begin_session()
        self.assertEqual(self.account.run("-q", "--pretend", "--why").err, b"")
        self.server.begin_session()
        self.assertEqual(self.account.run("-q"), programs.SILENT)
        self.server.messages = messages("c", range(10))
        self.server.begin_session()
        # In another second than the last run: new rows are known by it.
        (self.account.home / "clock").write_text(str(self.now + HOUR))
        run = self.account.run("-q", "--why", LD_PRELOAD=str(self.clock), CLOCK=str(self.account.home / "clock"))
        self.assertEqual(run.err.decode(), f"{self.line(NEW_IDS)}\n")


if __name__ == "__main__":
    unittest.main()
