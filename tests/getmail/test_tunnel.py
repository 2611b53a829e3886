"""`getmail` through stunnel, set up as `examples/stunnel.conf` has it, from a dovecot that speaks TLS alone."""

import os
import re
import shutil
import signal
import subprocess
import tempfile
import unittest
from pathlib import Path

from getmail.account import Account
from getmail.test_install import readme_blocks
from harness import dovecot, kernel, programs
from harness.maildir import make_maildir

NAME = "mail.example.org"
STUNNEL = shutil.which("stunnel4") or shutil.which("stunnel")
MISSING = [*dovecot.missing(), *(name for name, there in (("stunnel", STUNNEL), ("openssl", shutil.which("openssl")))
                                 if not there)]
MESSAGES = [(b"1.one", b"Subject: one\n\n.x\n"), (b"2.two", b"two\n" * 1000)]


class Certificates:
    """An authority of our own, and certificates that it has signed, or no authority."""

    def __init__(self, folder):
        self.folder = folder
        self.authority, self.key = self._issue("authority", "/CN=an authority of the tests",
                                               ["-addext", "basicConstraints=critical,CA:true"])

    def _openssl(self, *words):
        subprocess.run(["openssl", *words], check=True, capture_output=True, timeout=programs.SECONDS)

    def _issue(self, name, subject, words):
        certificate, key = self.folder / f"{name}.pem", self.folder / f"{name}.key"
        self._openssl("req", "-x509", "-newkey", "rsa:2048", "-nodes", "-days", "2", "-subj", subject, "-keyout", key,
                      "-out", certificate, *words)
        return certificate, key

    def signed(self, host):
        """A certificate for the host that the authority has signed."""
        request, certificate, key = (self.folder / f"{host}.{end}" for end in ("request", "signed", "key"))
        self._openssl("req", "-new", "-newkey", "rsa:2048", "-nodes", "-subj", f"/CN={host}", "-keyout", key, "-out", request)
        names = self.folder / f"{host}.names"
        names.write_text(f"subjectAltName=DNS:{host}\n")
        self._openssl("x509", "-req", "-in", request, "-CA", self.authority, "-CAkey", self.key, "-CAcreateserial",
                      "-days", "2", "-extfile", names, "-out", certificate)
        return certificate, key

    def unsigned(self, host):
        """A certificate for the host that no authority has signed."""
        return self._issue(f"{host}-alone", f"/CN={host}", ["-addext", f"subjectAltName=DNS:{host}"])


@unittest.skipIf(MISSING, f"{', '.join(MISSING)} is not here")
class Tunnel(unittest.TestCase):
    @classmethod
    def setUpClass(cls):
        holder = tempfile.TemporaryDirectory()
        cls.addClassCleanup(holder.cleanup)
        cls.certificates = Certificates(Path(holder.name))

    def setUp(self):
        holder = tempfile.TemporaryDirectory()
        self.addCleanup(holder.cleanup)
        self.folder = Path(holder.name)
        self.folder.chmod(0o755)

    def start(self, words, port):
        """Starts a server, and answers once it listens."""
        log = open(self.folder / f"{Path(words[0]).name}.out", "wb")
        self.addCleanup(log.close)
        process = subprocess.Popen(words, stdin=subprocess.DEVNULL, stdout=log, stderr=log)
        self.addCleanup(process.wait, programs.SECONDS)
        self.addCleanup(process.terminate)
        if not kernel.wait_for_listener(process, port):
            self.fail(f"{words[0]} doesn't listen: {Path(log.name).read_text()}")

    def start_dovecot(self, certificate, key):
        """Serves the messages over TLS alone, and answers the port."""
        maildir, port = self.folder / "Maildir", kernel.free_port()
        make_maildir(maildir)
        for uid, text in MESSAGES:
            (maildir / "new" / uid.decode()).write_bytes(text)
        dovecot.give_to_owner(maildir)
        self.start(dovecot.words(self.folder, maildir, port, (certificate, key)), port)
        return port

    def start_stunnel(self, served):
        """Runs stunnel by the example, with its ports and its authority changed, and answers the port of its near end."""
        text = (programs.ROOT / "examples/stunnel.conf").read_text()
        port = kernel.free_port()
        for old, new in (("accept = /home/fred/.getmail/tunnel/pop3s", f"accept = 127.0.0.1:{port}"),
                         (f"connect = {NAME}:995", f"connect = 127.0.0.1:{served}"),
                         ("CAfile = /etc/ssl/certs/ca-certificates.crt", f"CAfile = {self.certificates.authority}")):
            self.assertEqual(len(re.findall(f"^{re.escape(old)}$", text, re.MULTILINE)), 1, old)
            text = text.replace(old, new)
        settings = self.folder / "stunnel.conf"
        settings.write_text(text)
        self.start([STUNNEL, settings], port)
        return port

    def fetch(self, certificate, key):
        """One run through the tunnel: the account, and what the run left."""
        account = Account(self.start_stunnel(self.start_dovecot(certificate, key)))
        self.addCleanup(account.holder.cleanup)
        return account, account.run()

    def test_mail_comes_through_the_tunnel(self):
        account, run = self.fetch(*self.certificates.signed(NAME))
        self.assertEqual((run.status, run.err), (0, b""), run.out)
        self.assertEqual(account.held(), MESSAGES)
        again = account.run()
        self.assertTrue(again.out.endswith(b"0 messages (0 bytes) retrieved, 2 skipped, 0 deleted\n"), again.out)

    def test_the_first_account_of_the_readme(self):
        """Its lines from an empty home, with stand-ins for the editor and for systemctl, which listens and starts
        stunnel as the two units do; and with the lines for machines without systemd."""
        _, account, by_systemd, without, fetch, *_ = readme_blocks()
        served = self.start_dovecot(*self.certificates.signed("pop.example.net"))
        for tunnel in (by_systemd, without):
            with self.subTest(tunnel[0]):
                self.fetch_by([*account, *tunnel, *fetch], served)

    def fetch_by(self, lines, served):
        home = Path(tempfile.mkdtemp(dir=self.folder))
        near, folder = home / ".getmail/tunnel/pop3s", home / "path"
        folder.mkdir()
        for end, line in (("service", "ExecStart=/usr/bin/stunnel %h/.getmail/stunnel.conf"),
                          ("socket", "ListenStream=%h/.getmail/tunnel/pop3s")):
            self.assertIn(f"\n{line}\n", (programs.ROOT / f"examples/getmail-tunnel.{end}").read_text())
        listening = f"systemd-socket-activate -l {near}" if shutil.which("systemd-socket-activate") else ""
        changes = (f"s/pop.example.net:995/127.0.0.1:{served}/; s|^CAfile.*|CAfile = {self.certificates.authority}|")
        for name, text in (("stunnel", f"""
                sed -i '{changes}' "$1"
                echo $$ > ~/pid
                exec {STUNNEL} "$1" > ~/log
                """), ("systemctl", f"""
                {listening} {folder}/stunnel ~/.getmail/stunnel.conf > ~/log 2>&1 &
                until [ -S {near} ]; do sleep 0.05; done
                """), ("crontab", "")):
            (folder / name).write_text(f"#!/bin/bash{text}")
            (folder / name).chmod(0o755)
        self.addCleanup(lambda: os.kill(int((home / "pid").read_text()), signal.SIGTERM))
        edits = "sed -i -e s/fred/u/ -e s/secret/p/"
        path = f"{folder}:{Path(programs.path_of('getmail')).parent}:{os.environ['PATH']}"
        done = subprocess.run(["bash", "-euc", "\n".join(lines)], cwd=programs.ROOT, capture_output=True, text=True,
                              env=programs.environment(HOME=str(home), EDITOR=edits, PATH=path), timeout=programs.SECONDS)
        self.assertEqual((done.returncode, done.stderr), (0, ""))
        self.assertEqual({path.read_bytes() for path in (home / "Maildir/new").iterdir()}, {text for _, text in MESSAGES})

    def test_a_wrong_certificate_gives_no_mail(self):
        wrong = {"another server's": self.certificates.signed("other.example.org"),
                 "one that no authority signed": self.certificates.unsigned(NAME)}
        for kind, pair in wrong.items():
            with self.subTest(kind):
                account, run = self.fetch(*pair)
                self.assertEqual(run.status, 1)
                self.assertIn(run.err, (b"getmail: connection ended by the server\n",
                                        b"getmail: reading from the server failed\n"))
                self.assertEqual(account.held(), [])
                self.assertFalse(account.record.exists())
                self.doCleanups()
                self.setUp()
