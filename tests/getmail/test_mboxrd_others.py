"""An mboxrd file and others: programs that read it and append to it, and mail of theirs where an entry was about to be.

Nothing of what another program wrote is cut away, whatever its length, and no message is lost for it.
"""

import contextlib
import mailbox
import os
import pty
import select
import shutil
import subprocess
import time
import unittest

from getmail.mbox_account import OTHER, MboxAccount
from getmail.server import Cut, MeddlingServer, OtherSizes, Server
from getmail.shared_server import SharedServer
from harness import preload, programs
from harness.mboxrd import SEPARATOR, entries, entry, quoted, unquoted
from harness.noted import noted

THREE = [(b"a", b"one\n"), (b"b", b"two, a text of some octets\n" * 9), (b"c", b"three\n")]
TEXTS = [text for _, text in THREE]
LETTERS = [(b"l%d" % number, b"From: fred@example.org\nTo: u@example.org\nSubject: %d\nDate: Sat, 3 Jan 1998 01:05:34 +0000\n"
            b"Message-ID: <%d@example.org>\n\n" % (number, number) + body) for number, body in enumerate((
                b"plain\n", b"From the first\n>From the second\n>>From the third\n", b"\n\nFrom x\n\n", b"the last\n"))]
REFUSED = programs.Run(1, b"", b"getmail: destination refused\n")


def foreign(length, first=b"From fred@example.org Sat Jan  3 01:05:34 1998\n"):
    """Mail of another program with this many octets, none or at least 20; a short one has a short first line."""
    if length == 0:
        return b""
    if length < len(first) + 3:
        first = b"From fred now\n"
    return first + b"x" * (length - len(first) - 3) + b"\n\n\n"


def told(account):
    """What a session says that cut off what it doesn't know to be its own."""
    return programs.Run(0, b"", account.told_kept())


def mutt(home, keys, file="mbox"):
    """Runs mutt on a terminal over a file of a home; these keys are pressed, and then it quits. Its status."""
    (home / "muttrc").write_text(f"set folder={home} pipe_split=yes pipe_decode=no wait_key=no confirmappend=no\n"
                                 "set quit=yes move=no delete=yes mark_old=no\n")
    ours, theirs = pty.openpty()
    with open(ours, "rb", buffering=0) as terminal:
        process = subprocess.Popen(["mutt", "-n", "-F", home / "muttrc", "-f", home / file, "-e", f'push "{keys}<quit>"'],
                                   stdin=theirs, stdout=theirs, stderr=theirs, start_new_session=True,
                                   env=programs.environment(HOME=str(home), TERM="xterm", TZ="UTC"))
        os.close(theirs)
        # Its screen is read, or it would wait for that; once it is gone, reading is refused.
        with contextlib.suppress(OSError):
            while select.select([terminal], [], [], programs.SECONDS)[0] and terminal.read(65536):
                pass
        if process.poll() is None:
            process.kill()
        return process.wait(programs.SECONDS)


class Intents(unittest.TestCase):
    """A session begins with the intent of the second message open, whose entry isn't there or not whole."""

    START = len(entry(TEXTS[0]))
    LENGTH = len(entry(TEXTS[1]))

    def session(self, content, fetched, left, path=None, start=START, server_of=Server, messages=THREE):
        """A session over a file of this content fetches the messages of these numbers, and leaves `left`."""
        with server_of(messages) as server, MboxAccount(server.port) as account:
            mbox = account.mbox
            if path is not None:
                account.rcfile.write_text(account.rcfile.read_text().replace("~/mbox", f"~/{path}"))
                mbox = account.home / path
            mbox.write_bytes(content)
            account.record.write_bytes(b"getmail-seen 2\na 5 1\nb 5 0\nc 5 0\n! b %d %d\n" % (start, self.LENGTH))
            thread = server.begin_session()
            self.assertEqual(account.run("-q"), programs.SILENT)
            thread.join(programs.SECONDS)
            self.assertEqual([word for word in server.commands if word.startswith("RETR")],
                             [f"RETR {number}" for number in fetched])
            self.assertEqual(mbox.read_bytes(), left)
            self.assertEqual(account.known(), ([b"a", b"b", b"c"], None))
            thread = server.begin_session()
            self.assertEqual(account.run("-q"), programs.SILENT)
            thread.join(programs.SECONDS)
            self.assertEqual(mbox.read_bytes(), left)

    def test_each_front_of_the_entry(self):
        """Each but the whole one is cut away."""
        first, second = entry(TEXTS[0]), entry(TEXTS[1])
        for count in range(len(second)):
            with self.subTest(count=count):
                self.session(first + second[:count], [2, 3], entries(TEXTS))
        self.session(first + second, [3], entries(TEXTS))

    def test_the_whole_entry_by_its_listed_size(self):
        """With another size it is cut off and fetched again; it counts if its message isn't listed."""
        whole = entries(TEXTS[:2])
        self.session(whole, [2, 3], entries(TEXTS), server_of=OtherSizes)
        self.session(whole, [2], entries(TEXTS), messages=[THREE[0], THREE[2]])

    def test_mail_of_another_program(self):
        """Shorter than the entry, as long, and longer."""
        first = entry(TEXTS[0])
        for length in (60, 100, self.LENGTH - 1, self.LENGTH, self.LENGTH + 1, 2 * self.LENGTH, 5000):
            for mail in (foreign(length), foreign(length, b"From MAILER-DAEMON Mon Nov 23 23:55:00 2026\n")):
                with self.subTest(length=length, mail=mail[:20]):
                    self.session(first + mail, [2, 3], first + mail + entries(TEXTS[1:]))

    def settle(self, server, account, rest, text=TEXTS[1], **changes):
        """A session finds these octets where an entry was about to be."""
        first = entry(TEXTS[0])
        account.mbox.write_bytes(first + rest)
        account.record.write_bytes(b"getmail-seen 2\na 5 1\nb 5 0\nc 5 0\n! b %d %d\n" % (len(first), len(entry(text))))
        thread = server.begin_session()
        run = account.run("-q", **changes)
        thread.join(programs.SECONDS)
        return run

    def test_mail_with_the_same_first_line(self):
        """As mutt and Python's mailbox save it from another file of getmail: what is cut off is kept beside the record, each
        mail once, for the owner alone."""
        for length in (60, 100, self.LENGTH - 1, self.LENGTH):
            one, two = (entry(octet * (length - len(entry(b"\n"))) + b"\n") for octet in (b"y", b"z"))
            with self.subTest(length=length), Server(THREE) as server, MboxAccount(server.port) as account:
                for mail, all_kept in ((one, one), (one, one), (two, one + two), (two, one + two), (one, one + two + one)):
                    self.assertEqual(self.settle(server, account, mail), told(account))
                    self.assertEqual(account.content(), entries(TEXTS))
                    self.assertEqual(account.kept.read_bytes(), all_kept)
                    self.assertEqual(account.kept.stat().st_mode & 0o777, 0o600)

    def test_a_rest_that_is_ours(self):
        """Its message is fetched in a later run: what was kept is removed."""
        first = entry(TEXTS[0])
        with Server(THREE) as server, MboxAccount(server.port) as account:
            account.mbox.write_bytes(first)
            account.kept.write_bytes(entry(TEXTS[1])[:100])
            account.record.write_bytes(b"getmail-seen 2\na 5 1\nb 5 0\nc 5 0\n")
            thread = server.begin_session()
            self.assertEqual(account.run("-q"), programs.SILENT)
            thread.join(programs.SECONDS)
            self.assertEqual(account.content(), entries(TEXTS))
            self.assertFalse(account.kept.exists())

    def test_a_rest_that_a_killed_run_had_kept(self):
        """All of it or its front isn't kept again, and is removed with the rest; but what others have there stays."""
        text = b"From me\n" + b"a line of the text\n" * 600
        whole = entry(text)
        for rest in (whole[:100], whole[:8192], whole[:-1]):
            half = rest[:len(rest) // 2]
            # Of a file that is compared in pieces, the second piece differs.
            other = rest[:5000] + b"?" + rest[5001:]
            for had, left in ((b"", None), (half, None), (rest[:-1], None), (rest, None), (OTHER, OTHER + rest),
                              (OTHER + rest, OTHER + rest), (OTHER + half, OTHER + half + rest), (other, other + rest)):
                with self.subTest(rest=len(rest), had=len(had)), \
                        Server([THREE[0], (b"b", text), THREE[2]]) as server, MboxAccount(server.port) as account:
                    account.kept.write_bytes(had)
                    self.assertEqual(self.settle(server, account, rest, text), programs.SILENT if left is None else told(account))
                    self.assertEqual(account.content(), entries([TEXTS[0], text, TEXTS[2]]))
                    self.assertEqual(account.kept.read_bytes() if account.kept.exists() else None, left)

    def test_a_rest_that_a_killed_run_had_not_flushed(self):
        """All of it is there, a part or nothing: it is flushed, with its name, before it is cut off from the file."""
        rest = entry(TEXTS[1])[:100]
        with noted() as changes:
            for had in (None, b"", rest[:50], rest):
                with self.subTest(had=had), Server(THREE) as server, MboxAccount(server.port) as account:
                    if had is not None:
                        account.kept.write_bytes(had)
                    kept = {str(path.stat().st_ino) for path in [account.kept] if path.exists()}
                    self.assertEqual(self.settle(server, account, rest, **changes.environment()), programs.SILENT)
                    rows = [words for words, _ in changes.rows()]
                    kept |= {words[1] for words in rows if words[0] == "make" and words[2].startswith(str(account.kept))}
                    cut = rows.index(["length", str(account.mbox.stat().st_ino), str(len(entry(TEXTS[0])))])
                    self.assertEqual(rows[cut - 2:cut], [["flush", *kept], ["flush-folder", str(account.folder)]])

    def test_a_rest_that_nobody_knows_is_told_until_it_is_removed(self):
        """A killed run had kept it and its message never comes. Each run that has something to do names it; not one that
        has nothing to do, or finds nothing in the file."""
        with SharedServer(THREE[:1]) as server, MboxAccount(server.port) as account:
            def run(*words):
                answer = account.run("-q", *words)
                server.wait_for_end()
                return answer

            def cut(*_):
                raise Cut

            account.kept.write_bytes(b"")
            give, server.give = server.give, cut
            self.assertEqual(run(), programs.Run(1, b"", b"getmail: connection ended by the server\n"))
            server.give = give
            self.assertEqual(run(), programs.SILENT)
            account.kept.write_bytes(OTHER)
            for number in range(1, 3):
                self.assertEqual(run(), programs.SILENT)
                server.messages.append(THREE[number])
                self.assertEqual(run("--pretend").err, b"")
                self.assertEqual(run(), told(account))
            self.assertEqual(account.kept.read_bytes(), OTHER)
            account.kept.unlink()
            self.assertEqual(run("-d"), programs.SILENT)
            self.assertEqual(account.content(), entries(TEXTS))

    def test_a_rest_of_a_message_that_is_left_out(self):
        """The run that cuts it off names it, though it has nothing else to do."""
        rest = entry(TEXTS[1])[:100]
        with Server(THREE) as server, MboxAccount(server.port, options="max_message_size = 1\n") as account:
            self.assertEqual(self.settle(server, account, rest), told(account))
            self.assertEqual((account.content(), account.kept.read_bytes()), (entry(TEXTS[0]), rest))

    def test_a_rest_that_cannot_be_compared(self):
        """What is kept may be on a disk that isn't there. It isn't taken for a part of what the run appends."""
        with Server(THREE) as server, MboxAccount(server.port) as account:
            account.kept.symlink_to("nowhere")
            thread = server.begin_session()
            self.assertEqual(account.run("-q"), told(account))
            thread.join(programs.SECONDS)
            self.assertEqual(account.content(), entries(TEXTS))
            self.assertTrue(account.kept.is_symlink())

    def test_an_unattended_run_tells_of_it_once(self):
        with SharedServer(THREE) as server, MboxAccount(server.port) as account:
            account.kept.write_bytes(OTHER)
            for wanted in (told(account), programs.SILENT):
                self.assertEqual(account.run("--unattended", "-a"), wanted)
                server.wait_for_end()

    def test_a_rest_that_cannot_be_kept(self):
        """Nothing is cut off while a folder has that name; the next session goes on."""
        rest = entry(TEXTS[1])[:100]
        with Server(THREE) as server, MboxAccount(server.port) as account:
            account.kept.mkdir()
            self.assertEqual(self.settle(server, account, rest), REFUSED)
            self.assertEqual(account.content(), entry(TEXTS[0]) + rest)
            account.kept.rmdir()
            self.assertEqual(self.settle(server, account, rest), programs.SILENT)
            self.assertEqual(account.content(), entries(TEXTS))
            self.assertFalse(account.kept.exists())

    def test_mail_of_several_of_them(self):
        """The first has getmail's own first line; what is there is more than one entry."""
        first, mail = entry(TEXTS[0]), entry(b"x\n") + OTHER
        for length in (len(mail), self.LENGTH):
            mail += b"" if length <= len(mail) else OTHER[:-2] + b"y" * (length - len(mail) - len(OTHER) - 1) + b"\n\n\n"
            with self.subTest(length=len(mail)):
                self.assertLessEqual(len(mail), self.LENGTH)
                self.session(first + mail, [2, 3], first + mail + entries(TEXTS[1:]))

    def test_the_whole_entry_and_then_mail_of_another_program(self):
        """Nothing is cut; the message comes a second time."""
        content = entries(TEXTS[:2]) + OTHER
        self.session(content, [2, 3], content + entries(TEXTS[1:]))

    def test_another_path(self):
        """A file of another program's mail, whose size is below the place, at it, within the entry's length, and beyond."""
        for size in (0, 60, self.START, self.START + 1, self.START + 60, self.START + self.LENGTH, 2000):
            for start in (0, self.START):
                content = foreign(size)
                with self.subTest(size=size, start=start):
                    self.session(content, [2, 3], content + entries(TEXTS[1:]), path="another", start=start)

    def test_a_file_that_a_reader_made_shorter(self):
        """A reader deleted the mail before the place."""
        for content in (b"", foreign(20), foreign(self.START - 1)):
            with self.subTest(content=content[:20]):
                self.session(content, [2, 3], content + entries(TEXTS[1:]))

    def test_zeros_in_the_entry(self):
        """Blocks of the file that are kept in part, as a loss of power leaves them: their front, and then zeros."""
        text = b"a line of a text of some pages\n" * 600
        length = len(entry(text))
        first = entry(TEXTS[0])
        for block in (512, 1024, 4096):
            for begin in range(0, len(first) + length, 8192 - block):
                for kept in (0, block - 1):
                    for end in (length - 1, length):
                        whole = bytearray(first + entry(text)[:end])
                        start, stop = max(begin + kept, len(first)), min(begin + block, len(whole))
                        whole[start:stop] = bytes(max(stop - start, 0))
                        if start >= stop:
                            continue
                        with self.subTest(block=block, begin=begin, kept=kept, end=end), \
                                Server([THREE[0], (b"b", text)]) as server, MboxAccount(server.port) as account:
                            account.mbox.write_bytes(whole)
                            account.record.write_bytes(b"getmail-seen 2\na 5 1\nb 5 0\n! b %d %d\n" % (len(first), length))
                            thread = server.begin_session()
                            self.assertEqual(account.run("-q", "-d"), programs.SILENT)
                            thread.join(programs.SECONDS)
                            self.assertEqual(account.content(), first + entry(text))
                            self.assertEqual(server.messages, [])


class Meanwhile(unittest.TestCase):
    """Another program changes the file in mid-session: the session is cut, and nothing is deleted; the next one completes it."""

    WHOLE = entries(TEXTS)

    def check_cut(self, word, change, said, left, fetched):
        """The file is changed in this way before the answer to a command; the session ends with these ones. The next one
        fetches the messages of these numbers, after what is left, and deletes all."""
        def meanwhile(command):
            if command == word:
                time.sleep(0.05)
                change(account.mbox)

        with MeddlingServer(THREE, meanwhile) as server, MboxAccount(server.port) as account:
            thread = server.begin_session()
            self.assertEqual(account.run("-q", "-d"), REFUSED)
            thread.join(programs.SECONDS)
            self.assertEqual(server.commands[-len(said):], said)
            self.assertEqual(server.messages, THREE)
            self.assertEqual(account.content(), left)
            server.meanwhile = lambda command: None
            thread = server.begin_session()
            self.assertEqual(account.run("-q", "-d"), programs.SILENT)
            thread.join(programs.SECONDS)
            self.assertEqual([command for command in server.commands if command.startswith("RETR")],
                             [f"RETR {number}" for number in fetched])
            self.assertEqual(server.messages, [])
            self.assertEqual(account.content(), left + entries([TEXTS[number - 1] for number in fetched]))

    def test_mail_that_is_appended_before_an_entry(self):
        def append(mbox):
            with mbox.open("ab") as file:
                file.write(OTHER)

        self.check_cut("RETR 2", append, ["DELE 1", "RETR 2", "RSET", "QUIT"], entry(TEXTS[0]) + OTHER, [2, 3])

    def test_mail_that_is_appended_before_quit(self):
        def append(mbox):
            with mbox.open("ab") as file:
                file.write(OTHER)

        self.check_cut("DELE 3", append, ["RETR 3", "DELE 3", "RSET", "QUIT"], self.WHOLE + OTHER, [])

    def test_a_file_that_python_writes_anew(self):
        """Without the first message."""
        def remove(path):
            box = mailbox.mbox(path, create=False)
            box.lock()
            box.remove(0)
            box.flush()
            box.unlock()
            box.close()

        self.check_cut("RETR 3", remove, ["DELE 2", "RETR 3", "RSET", "QUIT"], entry(TEXTS[1]), [3])
        self.check_cut("DELE 3", remove, ["RETR 3", "DELE 3", "RSET", "QUIT"], entries(TEXTS[1:]), [])

    def test_a_file_of_the_same_octets(self):
        """Written in place, or put in the place of the other."""
        def put(mbox):
            (mbox.parent / "new").write_bytes(mbox.read_bytes())
            (mbox.parent / "new").rename(mbox)

        for change in (lambda mbox: mbox.write_bytes(mbox.read_bytes()), put):
            self.check_cut("DELE 3", change, ["RETR 3", "DELE 3", "RSET", "QUIT"], self.WHOLE, [])

    def test_a_file_that_is_removed(self):
        with MeddlingServer(THREE, lambda command: command == "DELE 3" and account.mbox.unlink()) as server, \
                MboxAccount(server.port) as account:
            thread = server.begin_session()
            self.assertEqual(account.run("-q", "-d"), programs.Run(1, b"", b"getmail: destination missing\n"))
            thread.join(programs.SECONDS)
            self.assertEqual(server.commands[-2:], ["RSET", "QUIT"])
            self.assertEqual(server.messages, THREE)

    def test_a_session_that_deletes_nothing(self):
        """It isn't looked at the file once more."""
        with MeddlingServer(THREE, lambda command: command == "QUIT" and account.mbox.write_bytes(OTHER)) as server, \
                MboxAccount(server.port) as account:
            thread = server.begin_session()
            self.assertEqual(account.run("-q"), programs.SILENT)
            thread.join(programs.SECONDS)
            self.assertEqual(server.commands[-2:], ["RETR 3", "QUIT"])

    def test_mail_that_is_appended_just_before_a_refused_write(self):
        """It isn't cut off with the front of the entry that was written after it."""
        with preload.library("other_hands") as library, Server(THREE) as server, MboxAccount(server.port) as account:
            thread = server.begin_session()
            run = account.run("-q", "-d", LD_PRELOAD=str(library), OTHER_FULL=str(account.mbox), OTHER_MAIL=OTHER.decode())
            thread.join(programs.SECONDS)
            self.assertEqual(run, REFUSED)
            self.assertEqual(server.commands[-3:], ["RETR 1", "RSET", "QUIT"])
            self.assertEqual(server.messages, THREE)
            self.assertEqual(account.content(), OTHER + b"F")

    def test_a_disk_that_fills_up(self):
        """The front of an entry is cut off, if nobody else wrote."""
        with preload.library("other_hands") as library, Server(THREE) as server, MboxAccount(server.port) as account:
            thread = server.begin_session()
            self.assertEqual(account.run("-q", "-d", LD_PRELOAD=str(library), OTHER_FULL=str(account.mbox)), REFUSED)
            thread.join(programs.SECONDS)
            self.assertEqual(account.content(), b"")


class Saved(unittest.TestCase):
    """After a session that was broken off at an entry, others save mail of getmail's into the file, with getmail's own first
    line: shorter than the entry, as long, and longer. None of it is lost, and the message comes once."""

    TEXT = b"From: ann@example.org\nTo: u@example.org\nSubject: saved\nMessage-ID: <s@example.org>\n\n" + b"y\n" * 300

    def by_python(self, home, file):
        box, other = mailbox.mbox(home / file), mailbox.mbox(home / "other", create=False)
        box.lock()
        box.add(other[0])
        box.flush()
        box.unlock()
        box.close()
        other.close()

    def by_mutt(self, home, file):
        self.assertEqual(mutt(home, f"<copy-message>={file}<enter>", "other"), 0)

    def by_another_account(self, home, file):
        with Server([(b"y", self.TEXT)]) as server, MboxAccount(server.port) as account:
            account.rcfile.write_text(account.rcfile.read_text().replace("~/mbox", str(home / file)))
            thread = server.begin_session()
            self.assertEqual(account.run("-q"), programs.SILENT)
            thread.join(programs.SECONDS)

    def check_saved(self, break_off, kept):
        """Whether what is saved is cut off and kept depends on how many octets more the entry has."""
        for save in (self.by_python, self.by_another_account, *[self.by_mutt] * (shutil.which("mutt") is not None)):
            for more in (-60, 0, 60):
                with self.subTest(save=save.__name__, more=more), Server([]) as server, MboxAccount(server.port) as account:
                    (account.home / "other").write_bytes(entry(self.TEXT))
                    (account.home / "probe").touch()
                    save(account.home, "probe")
                    saved = (account.home / "probe").read_bytes()
                    self.assertTrue(saved.startswith(SEPARATOR))
                    text = b"x" * (len(saved) + more - len(entry(b"\n"))) + b"\n"
                    server.messages = [(b"b", text)]
                    break_off(server, account, len(entry(text)))
                    save(account.home, "mbox")
                    self.assertEqual(account.content(), saved)
                    thread = server.begin_session()
                    self.assertEqual(account.run("-q", "-d"), told(account) if kept(more) else programs.SILENT)
                    thread.join(programs.SECONDS)
                    self.assertEqual(account.content(), (b"" if kept(more) else saved) + entry(text))
                    self.assertEqual(account.kept.read_bytes() if account.kept.exists() else None, saved if kept(more) else None)
                    self.assertEqual(server.messages, [])

    def test_after_a_refused_append(self):
        """The file was cut back and the intent closed, so all of it stays."""
        def refuse(server, account, length):
            thread = server.begin_session()
            self.assertEqual(account.run("-q", "-d", LD_PRELOAD=str(library), OTHER_FULL=str(account.mbox)), REFUSED)
            thread.join(programs.SECONDS)
            self.assertEqual((account.content(), account.known()), (b"", ([], None)))

        with preload.library("other_hands") as library:
            self.check_saved(refuse, lambda more: False)

    def test_after_a_kill(self):
        """The intent is open: what isn't longer than the entry is cut off and kept."""
        def kill(server, account, length):
            account.record.write_bytes(b"getmail-seen 2\nb 5 0\n! b 0 %d\n" % length)

        self.check_saved(kill, lambda more: more >= 0)


class Readers(unittest.TestCase):
    """Programs that read the file find the texts, and new entries come after what they append."""

    def setUp(self):
        self.server = Server(LETTERS)
        self.addCleanup(self.server.close)
        self.account = MboxAccount(self.server.port)
        self.addCleanup(self.account.holder.cleanup)
        self.session()

    def session(self):
        thread = self.server.begin_session()
        self.assertEqual(self.account.run("-q"), programs.SILENT)
        thread.join(programs.SECONDS)

    def check_read(self, read):
        """The texts as a program gave them, which takes no `>` away."""
        self.assertEqual(read, [quoted(text) for _, text in LETTERS])
        self.assertEqual([unquoted(text) for text in read], [text for _, text in LETTERS])

    def check_goes_on(self, *held):
        """After another program has changed the file: a new message comes after all that is there."""
        content = self.account.content()
        self.assertTrue(content.endswith(b"\n\n"), content[-80:])
        for part in held:
            self.assertIn(part, content)
        self.server.messages = [*LETTERS, (b"new", b"Subject: new\n\nFrom new\n")]
        self.session()
        self.assertEqual(self.account.content(), content + entry(b"Subject: new\n\nFrom new\n"))

    def test_python(self):
        box = mailbox.mbox(self.account.mbox, create=False)
        self.addCleanup(box.close)
        self.check_read([box.get_bytes(key) for key in box.keys()])
        box.lock()
        box.add(b"Subject: added\n\nby Python\n")
        box.flush()
        box.unlock()
        self.check_goes_on(entries([text for _, text in LETTERS]), b"by Python\n")

    def test_python_deletes(self):
        box = mailbox.mbox(self.account.mbox, create=False)
        self.addCleanup(box.close)
        box.lock()
        box.remove(0)
        box.flush()
        box.unlock()
        self.check_goes_on(entries([text for _, text in LETTERS[1:]]))

    @unittest.skipIf(shutil.which("formail") is None, "formail is not installed")
    def test_formail(self):
        """It gives each message with its first line, and says which number it has."""
        folder = self.account.home / "split"
        folder.mkdir()
        subprocess.run(["formail", "-s", "sh", "-c", 'cat > "$FOLDER/$FILENO"'], input=self.account.content(), check=True,
                       env=programs.environment(FOLDER=str(folder), FILENO="000"), timeout=programs.SECONDS)
        found = [path.read_bytes() for path in sorted(folder.iterdir())]
        self.check_read([text.partition(b"\n")[2][:-1] for text in found])

    @unittest.skipIf(shutil.which("formail") is None, "formail is not installed")
    def test_formail_appends(self):
        """A message with a first line of formail's own."""
        with self.account.mbox.open("ab") as mbox:
            subprocess.run(["formail"], input=b"From: fred@example.org\nSubject: added\n\nFrom formail\n", check=True, stdout=mbox,
                           timeout=programs.SECONDS)
        self.check_goes_on(entries([text for _, text in LETTERS]), b"From formail\n")

    def mutt(self, keys, file="mbox"):
        self.assertEqual(mutt(self.account.home, keys, file), 0)

    @unittest.skipIf(shutil.which("mutt") is None, "mutt is not installed")
    def test_mutt(self):
        """It gives each message, with its first line, to a program."""
        folder = self.account.home / "split"
        folder.mkdir()
        self.mutt(f"<tag-pattern>~A<enter><tag-prefix><pipe-message>cat > {folder}/$(date +%s%N)<enter>")
        found = [path.read_bytes() for path in sorted(folder.iterdir())]
        self.check_read([text.partition(b"\n")[2][:-1] for text in found])

    @unittest.skipIf(shutil.which("mutt") is None, "mutt is not installed")
    def test_mutt_copies(self):
        (self.account.home / "other").write_bytes(OTHER)
        self.mutt("<copy-message>=mbox<enter>", "other")
        self.check_goes_on(entries([text for _, text in LETTERS]), b"Subject: other\n", b">From here on\n")

    @unittest.skipIf(shutil.which("mutt") is None, "mutt is not installed")
    def test_mutt_deletes(self):
        """It writes the file anew, with fields of its own in the others."""
        self.mutt("<first-entry><delete-message>")
        self.assertNotIn(b"\nplain\n", self.account.content())
        self.check_goes_on(*(quoted(text.partition(b"\n\n")[2]) for _, text in LETTERS[1:]))

    @unittest.skipIf(shutil.which("procmail") is None, "procmail is not installed")
    def test_procmail_delivers(self):
        subprocess.run(["procmail", f"DEFAULT={self.account.mbox}", f"ORGMAIL={self.account.mbox}", "/dev/null"],
                       input=b"From: fred@example.org\nSubject: added\n\nFrom procmail\n", check=True,
                       env=programs.environment(HOME=str(self.account.home)), timeout=programs.SECONDS)
        self.check_goes_on(entries([text for _, text in LETTERS]), b"From procmail\n")


if __name__ == "__main__":
    unittest.main()
