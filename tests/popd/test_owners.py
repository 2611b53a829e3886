"""`popd` run by the superuser serves no Maildir of which others control a part, and opens nothing there; others look at nothing."""

import os
import pwd
import shutil
import socket
import subprocess
import unittest
from pathlib import Path

from harness import preload, programs
from harness.kernel import LOOPBACK
from popd.service import Maildir, Service

NOBODY = 65534
UNAVAILABLE = b"-ERR maildrop unavailable\r\n"
BY_NOBODY = ("setpriv", f"--reuid={NOBODY}", f"--regid={NOBODY}", "--clear-groups")
IN_ITS_NAMESPACE = (*BY_NOBODY, "unshare", "--user", "--map-root-user")


def give(path, owner=NOBODY):
    os.chown(path, owner, owner, follow_symlinks=False)


@unittest.skipIf(os.geteuid() != 0, "only the superuser is refused anything")
class Owners(unittest.TestCase):
    """A Maildir of the superuser's with one message, and a folder of its own with a file and a pipe, which is never opened."""

    def setUp(self):
        self.maildir = self.enterContext(Maildir())
        self.folder = self.maildir.folder
        self.maildir.add("new", "a", b"mine\n")
        self.foreign = self.folder / "root's"
        self.foreign.mkdir()
        (self.foreign / "file").write_bytes(b"root\n")
        os.mkfifo(self.foreign / "pipe")
        self.note = Path(self.maildir.holder.name) / "opened"
        library = self.enterContext(preload.library("refuse_step"))
        self.watched = {"LD_PRELOAD": str(library), "STEP_NOTE": str(self.note), "STEP_BELOW": str(self.foreign)}

    def link_new(self, owner=NOBODY):
        """`new` is a link to the superuser's own folder."""
        shutil.rmtree(self.folder / "new")
        os.symlink(self.foreign, self.folder / "new")
        give(self.folder / "new", owner)

    def words(self, *link):
        return (*link, "u", str(self.maildir.passfile), str(self.folder))

    def check_refused(self, path, *says):
        """With a link of each kind: a line of its own, and nothing of the other folder was opened."""
        for link in ((), ("--listen", f"{LOOPBACK}:0"), ("--verbose", "--listen", f"{LOOPBACK}:0")):
            self.note.unlink(missing_ok=True)
            run = programs.run("popd", *self.words(*link), given=b"USER u\r\nPASS p\r\n", seconds=programs.NEXT_OUTPUT_SECONDS,
                               **self.watched)
            told = [line for line in run.err.decode().splitlines() if "warning: " not in line]
            self.assertEqual((run.status, run.out, len(told)), (1, b"", 1), run)
            for part in (f"popd: {path} ", *says):
                self.assertIn(part, told[0])
            self.check_unopened()

    def check_unopened(self):
        self.assertNotRegex(self.note.read_text(), "(?m)^open")

    def check_served(self, by=()):
        with Service(self.maildir, "--connections", "1", by=by) as service:
            with service.client() as client:
                self.assertEqual(client.log_in(), b"+OK 1 messages\r\n")
            self.assertEqual(service.finish(), (0, b""))

    def test_something_of_another_user(self):
        name = pwd.getpwuid(NOBODY).pw_name
        for path in (self.folder.parent, self.folder, self.folder / "new", self.folder / "cur"):
            give(path)
            self.check_refused(path, f"belongs to {name},", f"runuser -u {name} --", f"User={name}")
            give(path, 0)
        self.check_served()

    def test_an_owner_without_an_account(self):
        give(self.folder, 3_999_999_999)
        self.check_refused(self.folder, "belongs to user 3999999999,")

    def test_a_link_of_another_user_to_a_folder_of_the_superuser(self):
        self.link_new()
        self.check_refused(self.folder / "new", "belongs to ")

    def test_what_others_may_write(self):
        for path in (self.folder, self.folder / "new", self.folder / "cur"):
            for mode in (0o775, 0o757, 0o1777, 0o2775):
                path.chmod(mode)
                self.check_refused(path, f"mode {mode:o}:", f"chmod go-w {path}")
            path.chmod(0o755)

    def test_folders_above(self):
        """Others may write one if it is sticky."""
        above = self.folder.parent
        above.chmod(0o777)
        self.check_refused(above, "mode 777:")
        above.chmod(0o1777)
        self.check_served()

    def test_a_missing_folder(self):
        """What would hold it is looked at in its place."""
        (self.folder / "cur").rmdir()
        with Service(self.maildir, "--connections", "1") as service:
            with service.client() as client:
                self.assertEqual(client.log_in(), UNAVAILABLE)
            warnings = f"popd: warning: {self.folder} has no folder cur\npopd: warning: cannot read {self.folder / 'cur'}\n"
            self.assertEqual(service.finish(), (0, warnings.encode()))
        self.folder.chmod(0o1777)
        self.check_refused(self.folder, "mode 1777:")

    def test_a_maildir_that_is_a_file(self):
        """It has no `new` that could be looked at."""
        self.folder = self.maildir.passfile
        run = programs.run("popd", *self.words())
        told = f"popd: cannot look at {self.folder}/new: Not a directory"
        self.assertEqual((run.status, run.out, run.err.decode().splitlines()[-1][:len(told)]), (1, b"", told))

    def test_faults_that_come_first(self):
        give(self.folder)
        with socket.create_server((LOOPBACK, 0)) as taken:
            address = f"{LOOPBACK}:{taken.getsockname()[1]}"
            run = programs.run("popd", *self.words("--listen", address))
            self.assertEqual((run.status, run.err), (1, f"popd: cannot listen on {address}\n".encode()))
        self.maildir.passfile.unlink()
        run = programs.run("popd", *self.words())
        self.assertEqual((run.status, run.err), (1, f"popd: cannot read {self.maildir.passfile}\n".encode()))

    def test_a_change_while_it_listens(self):
        """It is seen at the next PASS, and nothing is opened then."""
        with Service(self.maildir, "--connections", "3", **self.watched) as service:
            for change, back in ((self.link_new, self.put_new), (lambda: give(self.folder), lambda: give(self.folder, 0))):
                change()
                with service.client() as client:
                    self.assertEqual(client.log_in(), UNAVAILABLE)
                back()
            with service.client() as client:
                self.assertEqual(client.log_in(), b"+OK 1 messages\r\n")
            warnings = "".join(f"popd: warning: cannot read {path}\n" for path in (self.folder / "new", self.folder))
            self.assertEqual(service.finish(), (0, warnings.encode()))
        self.check_unopened()

    def put_new(self):
        (self.folder / "new").unlink()
        (self.folder / "new").mkdir()
        self.maildir.add("new", "a", b"mine\n")

    def give_all(self):
        for path in (self.folder.parent, *self.folder.parent.rglob("*")):
            give(path)

    def test_another_user(self):
        """Its own Maildir, also one that others may write, and through links."""
        self.folder.chmod(0o777)
        os.rename(self.folder / "new", self.folder / "elsewhere")
        os.symlink("elsewhere", self.folder / "new")
        self.give_all()
        self.check_served(BY_NOBODY)

    def test_another_user_in_a_namespace_of_its_own(self):
        """There it is the superuser's number, alone, and nothing else is its own."""
        if subprocess.run([*IN_ITS_NAMESPACE, "true"], check=False, capture_output=True).returncode:
            self.skipTest("the system makes no namespace for another user")
        self.folder.chmod(0o777)
        self.give_all()
        self.check_served(IN_ITS_NAMESPACE)
