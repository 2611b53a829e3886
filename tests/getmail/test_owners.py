"""Run by the superuser, `getmail` goes by the superuser's own folders alone: a path that leads through what others control is
refused before anything is opened, and nothing is changed."""

import contextlib
import os
import shutil
import subprocess
import tempfile
import time
import unittest
from pathlib import Path

from getmail.account import Account
from getmail.mbox_account import MboxAccount
from getmail.server import SocketServer
from getmail.shared_server import SharedServer
from harness import owners, programs
from harness.owners import NOBODY, other_owner, writable

LETTER = (b"id1", b"Subject: one\n\none\n")
EACH_RUN = "nothing is read or written in the folder of the record, so each unattended run tells this"

superuser_only = unittest.skipIf(os.geteuid() != 0, "only the superuser's runs are refused")


@superuser_only
class OwnFolders(unittest.TestCase):
    """In a folder of its own, as the superuser's are: `above/home`."""

    def setUp(self):
        self.server = self.enterContext(SharedServer([LETTER]))
        self.top = Path(self.enterContext(tempfile.TemporaryDirectory()))

    def run_getmail(self, account, *words, **changes):
        self.server.forget()
        run = account.run(*words, **changes)
        self.server.wait_for_end()
        return run

    def check_refused(self, account, said, *words, named=True, top=None):
        """It is refused, nothing is connected or changed, and an unattended run says so again and again. A path ends as it is
        given, with a `/` or without."""
        before = owners.snapshot(top or account.home.parents[1])
        name = f"{account.name_in_lines.replace(':110', '')}: " if named else ""
        line = f"getmail: {name}{said}\n".encode()
        each = f"getmail: {name}{EACH_RUN}\n".encode()
        for flags, lines in (((), line), (("--unattended",), line + each), (("--unattended",), line + each)):
            run = self.run_getmail(account, *flags, *words)
            self.assertEqual((run.status, run.out, run.err.replace(b"Maildir/ ", b"Maildir ")), (2, b"", lines))
        self.assertEqual(self.server.began, 0)
        self.assertEqual(owners.snapshot(top or account.home.parents[1]), before)

    def check_taken(self, account, *words, **changes):
        run = self.run_getmail(account, *words, **changes)
        self.assertEqual((run.status, run.err, self.server.began), (0, b"", 1))

    def check_all(self, make, place, kind, named):
        """Each change of each thing on the way to a place of an account that `make` makes."""
        with self.account(make) as account:
            depth = len(owners.levels(account.home.parents[1], place(account)))
        for level in range(depth):
            with self.account(make) as account:
                way = owners.levels(account.home.parents[1], place(account))
                is_named = way[level] in (account.folder, account.maildir)
            kinds = kind if level == len(way) - 1 else "folder" if is_named else "above"
            for change in owners.changes(kinds, self.top):
                with self.subTest(level=level, change=change.name), self.account(make) as account:
                    path = owners.levels(account.home.parents[1], place(account))[level]
                    said = change.make(path)
                    if said is None:
                        self.check_taken(account)
                    else:
                        self.check_refused(account, said, named=named(path, account))

    @contextlib.contextmanager
    def account(self, make):
        above = Path(tempfile.mkdtemp(dir=self.top)) / "above"
        above.mkdir(mode=0o755)
        with make(self.server.port, above=above) as account:
            yield account
            if account.home.is_symlink():
                home = account.home.readlink()
                account.home.unlink()
                home.rename(account.home)

    @staticmethod
    def behind_front(path, account):
        """Whether a thing is on the way to neither the folder of the record nor the rc file."""
        return path not in (*account.rcfile.parents, account.rcfile)

    def test_the_folder_of_the_record(self):
        self.check_all(Account, lambda account: account.folder, "folder", lambda *_: False)

    def test_the_rc_file(self):
        self.check_all(Account, lambda account: account.rcfile, "file", lambda *_: False)

    def test_a_maildir(self):
        self.check_all(Account, lambda account: account.maildir, "folder", self.behind_front)

    def test_folders_of_a_maildir(self):
        for name in ("new", "cur", "tmp"):
            with self.subTest(name):
                self.check_all(Account, lambda account, name=name: account.maildir / name, "folder", self.behind_front)

    def test_an_mbox_file(self):
        self.check_all(MboxAccount, lambda account: account.mbox, "file", self.behind_front)

    def test_a_socket(self):
        """A system's tunnel has one that all may write to."""
        for level in range(3):
            for change in owners.changes("socket" if level == 2 else "above", self.top):
                run = Path(tempfile.mkdtemp(dir=self.top))
                path = run / "getmail-tunnel" / "pop.example.org"
                path.parent.mkdir(mode=0o755)
                with self.subTest(level=level, change=change.name), Account(110, server=path) as account, \
                        SocketServer([LETTER], path) as server:
                    said = change.make((run, path.parent, path)[level])
                    if said is not None:
                        self.check_refused(account, said, top=run)
                        continue
                    thread = server.begin_session()
                    self.assertEqual(account.run("-q"), programs.SILENT)
                    thread.join(programs.SECONDS)

    def test_a_missing_name(self):
        """Who may make it could make a link to anywhere: the nearest folder that is there is held to the rule of one that is
        named, whatever comes behind."""
        places = ((Account, lambda account: account.maildir / "cur", lambda account: account.maildir, True),
                  (Account, lambda account: account.maildir, lambda account: account.home, True),
                  (Account, lambda account: account.rcfile, lambda account: account.folder, False),
                  (Account, lambda account: account.folder, lambda account: account.home, False),
                  (MboxAccount, lambda account: account.mbox, lambda account: account.home, True))
        for make, place, nearest, named in places:
            with self.account(make) as account, self.subTest(place(account).name):
                path, folder = place(account), nearest(account)
                if path.is_dir():
                    shutil.rmtree(path)
                else:
                    path.unlink()
                folder.chmod(0o1777)
                self.check_refused(account, writable(folder), named=named)

    def test_a_missing_name_in_an_own_folder(self):
        """The answer is that of any user's run."""
        with self.account(Account) as account:
            account.rcfile.unlink()
            run = self.run_getmail(account)
        self.assertEqual((run.status, run.err), (2, b"getmail: cannot read rc file\n"))

    def test_a_link_directly_in_tmp(self):
        """One of another user's, and one of the superuser's, which no other can remove."""
        with self.account(Account) as account:
            for owner in (0, NOBODY):
                link = Path(tempfile.mkdtemp()) / "link"
                self.addCleanup(shutil.rmtree, link.parent)
                in_tmp = Path("/tmp") / f"{link.parent.name}-link"
                in_tmp.symlink_to(account.home)
                self.addCleanup(in_tmp.unlink)
                owners.give_away(in_tmp, owner)
                if owner:
                    self.check_refused(account, other_owner(in_tmp), "-g", f"{in_tmp}/.getmail", named=False)
                else:
                    self.check_taken(account, "-g", f"{in_tmp}/.getmail")

    def test_tmp_itself(self):
        with self.account(Account) as account:
            for path in ("/tmp", "/tmp/", "/tmp/.", f"{account.home}/../../../../tmp"):
                with self.subTest(path):
                    run = self.run_getmail(account, "-g", path, "-r", account.rcfile)
                    self.assertEqual(run.status, 2)
                    self.assertIn(b"may be written by others than the superuser: it has mode 1777", run.err)

    def test_relative_paths(self):
        """They begin in the working folder, which is looked at likewise, as is each `..`."""
        with self.account(Account) as account:
            users = account.home / "users"
            users.mkdir()
            owners.give_away(users)
            for folder, path, said in ((account.home, ".getmail", None), (account.home, "./.getmail/../.getmail/", None),
                                       (account.folder, ".", None), (account.folder, "../.getmail", None),
                                       (users, "../.getmail", other_owner(users)), (users, ".", other_owner(users)),
                                       (account.home, "users/../.getmail", other_owner(users))):
                with self.subTest(folder=folder.name, path=path):
                    done = subprocess.run([programs.path_of("getmail"), "-g", path], cwd=folder, capture_output=True,
                                          stdin=subprocess.DEVNULL, env=programs.environment(HOME=str(account.home)),
                                          timeout=programs.SECONDS)
                    told = b"" if said is None else f"getmail: {said}\n".encode()
                    self.assertEqual((done.returncode, done.stderr), (0 if said is None else 2, told))

    def test_a_chain_of_links(self):
        """As many as the kernel follows, and one more."""
        with self.account(Account) as account:
            last = account.folder
            for number in range(41):
                link = account.home / f"link{number}"
                link.symlink_to(last)
                last = link
            self.check_taken(account, "-g", account.home / "link39")
            run = self.run_getmail(account, "-g", last)
        reason = f"getmail: cannot look at {account.home}/link0: Too many levels of symbolic links\n"
        self.assertEqual((run.status, run.err), (2, reason.encode()))

    def test_mail_as_debian_has_it(self):
        """`/var/mail` is open to its group, and has users' files."""
        with self.account(MboxAccount) as account:
            mail = account.home / "mail"
            mail.mkdir()
            account.rcfile.write_text(account.rcfile.read_text().replace("~/mbox", f"{mail}/joe"))
            mail.chmod(0o2775)
            self.check_refused(account, writable(mail))
            mail.joinpath("joe").touch(mode=0o660)
            owners.give_away(mail / "joe")
            self.check_refused(account, writable(mail))

    def test_a_pipe_in_place_of_the_rc_file(self):
        """Nobody waits for somebody to write to it."""
        with self.account(Account) as account:
            account.rcfile.unlink()
            os.mkfifo(account.rcfile, 0o600)
            said = f"{account.rcfile} is no regular file, and the superuser's programs read no other"
            self.check_refused(account, said, named=False)

    def test_a_faulty_rc_file_behind_a_link(self):
        """No file is left in the folder that it leads to."""
        with self.account(Account) as account:
            users = account.home / "users"
            account.folder.rename(users)
            account.folder.symlink_to(users)
            for path in (users, *users.iterdir()):
                owners.give_away(path)
            (users / "getmailrc").write_text("[retriever\n")
            owners.give_away(account.folder)
            self.check_refused(account, other_owner(account.folder), named=False)

    def test_mail_is_not_stored_through_a_link(self):
        """A user's link in the place of `new`, or of an mbox file, leads to the superuser's own."""
        for make, place in ((Account, lambda account: account.maildir / "new"), (MboxAccount, lambda account: account.mbox)):
            with self.account(make) as account, self.subTest(make.__name__):
                path = place(account)
                own = account.home / "own"
                path.rename(own)
                path.symlink_to(own)
                owners.give_away(path)
                self.check_refused(account, other_owner(path))

    def test_a_rehearsal_looks_at_nothing(self):
        with self.account(Account) as account:
            owners.give_away(account.folder)
            run = account.run("--rehearse", "-q")
        self.assertNotIn(b"belongs to", run.err)


@superuser_only
class OtherRights(unittest.TestCase):
    """Runs that aren't the superuser's, and those of namespaces."""

    def setUp(self):
        self.server = self.enterContext(SharedServer([LETTER]))
        self.top = Path(self.enterContext(tempfile.TemporaryDirectory()))
        self.top.chmod(0o755)
        self.account = self.enterContext(Account(self.server.port, above=self.top))
        self.program = self.top / "getmail"
        shutil.copy(programs.path_of("getmail"), self.program)
        for folder, folders, files in os.walk(self.account.home):
            for name in (".", *folders, *files):
                owners.give_away(Path(folder) / name)

    def run_by(self, *command, flag="--unattended"):
        """A run by `nobody`, which a command may begin."""
        words = ["runuser", "-u", "nobody", "--", *command, "env", f"HOME={self.account.home}", self.program, "-q", flag]
        done = subprocess.run(words, stdin=subprocess.DEVNULL, capture_output=True, cwd="/", env=programs.environment(),
                              timeout=programs.SECONDS)
        self.server.wait_for_end()
        return programs.Run(done.returncode, done.stdout, done.stderr)

    def test_a_user_notices_nothing(self):
        """Nor do files and folders of others count for one."""
        self.account.maildir.joinpath("new").chmod(0o1777)
        owners.give_away(self.account.maildir / "new", owners.NAMELESS)
        self.assertEqual(self.run_by(), programs.SILENT)
        self.assertEqual(self.account.held(), [LETTER])

    def test_a_user_in_an_own_namespace(self):
        """There the user has the superuser's number, and the system's folders are nobody's."""
        if subprocess.run(["runuser", "-u", "nobody", "--", "unshare", "-r", "true"], capture_output=True, check=False).returncode:
            self.skipTest("users make no namespaces here")
        self.assertEqual(self.run_by("unshare", "-r"), programs.SILENT)
        self.assertEqual(self.account.held(), [LETTER])

    def test_a_namespace_with_a_range(self):
        """It is a system of its own: here its root isn't its superuser's."""
        holder = subprocess.Popen(["unshare", "-U", "sleep", str(programs.SECONDS)])
        self.addCleanup(holder.wait)
        self.addCleanup(holder.kill)
        process = Path("/proc", str(holder.pid))
        try:
            while os.readlink(process / "ns/user") == os.readlink("/proc/self/ns/user"):
                time.sleep(0.01)
            for name in ("uid_map", "gid_map"):
                (process / name).write_text("0 100000 65536")
        except OSError as error:
            self.skipTest(f"no namespace with a range can be made here: {error}")
        words = ["nsenter", "-t", str(holder.pid), "-U", "-S", "0", "-G", "0", self.program, "-q"]
        done = subprocess.run(words, stdin=subprocess.DEVNULL, capture_output=True, cwd="/", timeout=programs.SECONDS,
                              env=programs.environment(HOME=str(self.account.home)))
        self.assertEqual((done.returncode, done.stdout), (2, b""))
        self.assertIn(b"getmail: / belongs to nobody", done.stderr)

    def test_a_user_is_warned_of_open_folders(self):
        """By an unattended run once, and where reasons are asked for."""
        self.account.folder.chmod(0o775)
        warning = (f"getmail: {self.account.name_in_lines}: warning: others than its owner may write {self.account.folder}: "
                   "chmod go-w ends that\n").encode()
        self.assertEqual(self.run_by(), programs.Run(0, b"", warning))
        self.assertEqual(self.run_by(), programs.SILENT)
        self.assertEqual(self.run_by(flag="--why"), programs.Run(0, b"", warning))

    def test_a_user_is_warned_of_an_open_folder_of_a_socket(self):
        run = self.top / "run"
        run.mkdir()
        run.chmod(0o1777)
        path = run / "pop.example.org"
        self.account.rcfile.write_text(self.account.rcfile.read_text().replace("127.0.0.1", str(path)))
        warning = f"getmail: u@{path}: warning: others than its owner may write {run}: chmod go-w ends that\n"
        self.assertIn(warning.encode(), self.run_by(flag="--why").err)
