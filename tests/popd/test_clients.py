"""Mail programs with the settings of popd(8), those that are installed here."""

import contextlib
import json
import os
import pty
import re
import select
import shutil
import socket
import subprocess
import tempfile
import time
import unittest
from pathlib import Path

from harness import programs
from harness.kernel import LOOPBACK
from harness.maildir import make_maildir
from popd.service import Maildir, Service

MANUAL = (programs.ROOT / "man" / "popd.8").read_text()
TEXTS = [b"Subject: one\n\nbody\n.a line with a dot\n", b"Subject: two\n\nbody\n"]


# What Thunderbird calls "None" and "Password, transmitted insecurely", in an account that takes its mail from the server;
# it asks no other server of anything.
ACCOUNT = {
    "network.dns.disabled": True,
    "mail.accountmanager.accounts": "account1",
    "mail.account.account1.server": "server1",
    "mail.server.server1.type": "pop3",
    "mail.server.server1.hostname": LOOPBACK,
    "mail.server.server1.userName": "fred",
    "mail.server.server1.socketType": 0,
    "mail.server.server1.authMethod": 3,
    "mail.server.server1.leave_on_server": False,
    "mail.server.server1.download_on_biff": True,
}
# The password is given as its dialog keeps it; then it looks for mail.
FETCH = """
const { classes, interfaces } = Components;
const login = classes["@mozilla.org/login-manager/loginInfo;1"].createInstance(interfaces.nsILoginInfo);
login.init("mailbox://127.0.0.1", null, "mailbox://127.0.0.1", "fred", "p", "", "");
const server = MailServices.accounts.findServer("fred", "127.0.0.1", "pop3");
return Services.logins.addLoginAsync(login).then(() => server.performBiff(null));
"""


def free_port():
    with socket.create_server((LOOPBACK, 0)) as listener:
        return listener.getsockname()[1]


def settings_for(program):
    """The block of settings that follows the name of a program in the manual."""
    section = MANUAL[MANUAL.index(".Ss Mail programs"):]
    after = section[section.index(f".Xr {program} 1"):]
    return re.search(r"^\.Bd -literal -offset indent\n(.*?)^\.Ed$", after, re.MULTILINE | re.DOTALL)[1]


class Clients(unittest.TestCase):
    def setUp(self):
        self.maildir = self.enterContext(Maildir())
        for number, text in enumerate(TEXTS):
            self.maildir.add("new", f"{number}", text)
        self.home = Path(self.enterContext(tempfile.TemporaryDirectory()))

    def settings(self, program, service):
        if not shutil.which(program):
            self.skipTest(f"{program} is not installed")
        return settings_for(program).replace("127.0.0.1:1100", f"127.0.0.1:{service.port}").replace("1100", str(service.port))

    def run_client(self, *words):
        done = subprocess.run(words, stdin=subprocess.DEVNULL, capture_output=True, timeout=programs.SECONDS,
                              env=programs.environment(HOME=str(self.home)))
        self.assertEqual(done.returncode, 0, done)
        return done.stdout

    def write(self, name, text):
        path = self.home / name
        path.write_text(text)
        path.chmod(0o600)
        return path

    def stored(self, box):
        """What a program has stored in a Maildir, without the lines that it adds."""
        return sorted(b"Subject:" + file.read_bytes().split(b"Subject:")[1] for part in ("new", "cur") for file in (box / part).iterdir())

    def test_curl(self):
        with Service(self.maildir, user="fred") as service:
            shown = []
            for line in self.settings("curl", service).splitlines():
                words = line.removeprefix("$ ").replace("-u fred", "-sS -u fred:p").split()
                shown.append(self.run_client(*words).replace(b"\r\n", b"\n"))
        self.assertEqual(shown, [b"1 %d\n2 %d\n" % tuple(len(text) + text.count(b"\n") for text in TEXTS), TEXTS[0]])

    def test_mpop(self):
        box = make_maildir(self.home / "Mail")
        with Service(self.maildir, user="fred") as service:
            config = self.write("mpoprc", self.settings("mpop", service) + "password p\n")
            self.run_client("mpop", "-C", config, "fred")
        self.assertEqual((self.stored(box), self.maildir.names()), (sorted(TEXTS), []))

    def test_fetchmail(self):
        with Service(self.maildir, user="fred") as service:
            more = f'password p mda "cat >> {self.home}/got"\n'
            config = self.write("fetchmailrc", self.settings("fetchmail", service) + more)
            self.run_client("fetchmail", "-f", config, "--pidfile", self.home / "pid", "--idfile", self.home / "ids")
        got = (self.home / "got").read_bytes()
        self.assertEqual((got.count(b"Subject: "), self.maildir.names()), (2, []))
        self.assertIn(b"\n.a line with a dot\n", got)

    def test_mutt(self):
        box = make_maildir(self.home / "in")
        with Service(self.maildir, user="fred") as service:
            more = f"set pop_pass=p folder={self.home} spoolfile={box} quit=yes pop_delete=yes\n"
            config = self.write("muttrc", self.settings("mutt", service) + more)
            ours, theirs = pty.openpty()
            with open(ours, "rb", buffering=0) as terminal:
                process = subprocess.Popen(["mutt", "-n", "-F", config, "-f", box, "-e", 'push "G<quit>"'], stdin=theirs,
                                           stdout=theirs, stderr=theirs, start_new_session=True,
                                           env=programs.environment(HOME=str(self.home), TERM="xterm"))
                os.close(theirs)
                # Its screen is read, or it would wait for that; once it is gone, reading is refused.
                with contextlib.suppress(OSError):
                    while select.select([terminal], [], [], programs.SECONDS)[0] and terminal.read(65536):
                        pass
                process.wait(programs.SECONDS)
        self.assertEqual((self.stored(box), self.maildir.names()), (sorted(TEXTS), []))

    def begin_thunderbird(self, port):
        """Thunderbird without a screen, with an account at this port; the file through which it is driven."""
        steered = free_port()
        box = self.home / "box"
        more = {"mail.server.server1.port": port, "mail.server.server1.directory": str(box), "marionette.port": steered}
        lines = [f"user_pref({json.dumps(key)}, {json.dumps(value)});\n" for key, value in (ACCOUNT | more).items()]
        self.write("user.js", "".join(lines))
        words = ["thunderbird", "--headless", "--no-remote", "--marionette", "--remote-allow-system-access", "--profile", self.home]
        process = subprocess.Popen(words, stdin=subprocess.DEVNULL, stdout=subprocess.DEVNULL, stderr=subprocess.DEVNULL,
                                   env=programs.environment(HOME=str(self.home)))
        self.addCleanup(process.wait, programs.SECONDS)
        self.addCleanup(process.terminate)
        end = time.monotonic() + programs.SECONDS
        while True:
            try:
                driver = self.enterContext(socket.create_connection((LOOPBACK, steered), programs.SECONDS))
                return self.enterContext(driver.makefile("rwb")), box
            except ConnectionRefusedError:
                self.assertLess(time.monotonic(), end)
                time.sleep(0.1)

    def drive(self, driver, *commands):
        """Gives the commands one by one; each answer is a length, a colon, and JSON without an error."""
        for number, (name, words) in enumerate((("", {}), *commands)):
            if name:
                text = json.dumps([0, number, name, words]).encode()
                driver.write(b"%d:%b" % (len(text), text))
                driver.flush()
            length = b""
            while (digit := driver.read(1)) != b":":
                length += digit
            answer = json.loads(driver.read(int(length)))
            self.assertTrue(not name or answer[2] is None, answer)

    def test_thunderbird(self):
        if not shutil.which("thunderbird"):
            self.skipTest("thunderbird is not installed")
        for words in ("connection security\n.Dq None ,", "authentication method\n.Dq Password, transmitted insecurely ."):
            self.assertIn(words, MANUAL)
        with Service(self.maildir, user="fred") as service:
            driver, box = self.begin_thunderbird(service.port)
            self.drive(driver, ("WebDriver:NewSession", {}), ("Marionette:SetContext", {"value": "chrome"}),
                       ("WebDriver:ExecuteScript", {"script": FETCH, "args": []}))
            end = time.monotonic() + programs.SECONDS
            while self.maildir.names():
                self.assertLess(time.monotonic(), end)
                time.sleep(0.1)
        # It ends each text by an empty line.
        got = [text.removesuffix(b"\r\n").split(b"Subject:")[1] for text in (box / "Inbox").read_bytes().split(b"From - ")[1:]]
        self.assertEqual(sorted(b"Subject:" + text for text in got), TEXTS)


if __name__ == "__main__":
    unittest.main()
