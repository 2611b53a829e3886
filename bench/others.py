#!/usr/bin/env python3
"""What fetchers do when a session breaks off: `getmail`, and getmail6, mpop and fetchmail if they are installed.

Each fetches three messages over loopback from a server that breaks off after one octet of its replies, and then once
more from the same server, uncut; so for every STEP-th octet (7, or the first word) and each full stop, keeping the mail
on the server and deleting it. In other rounds the server doesn't end the connection there, but the program is killed.
Prints in how many rounds a message was missing for good afterwards, was there more than once or in part, or had gone
from the server before it was held, and in how many the program didn't end by itself within SECONDS. More words name the
fetchers.
"""

import os
import pwd
import re
import shutil
import signal
import subprocess
import sys
import tempfile
import threading
from collections import Counter
from pathlib import Path

import measure  # also puts the tests' folder on the path
from getmail import server as servers
from getmail.account import RC
from harness.kernel import LOOPBACK

TOP = Path(__file__).resolve().parent.parent
SECONDS = 3
HEAD = "From: a@example.org\nTo: u@example.org\nSubject: {0}\nMessage-Id: <{0}@example.org>\nDate: Sun, 22 Nov 2026 12:00:00 +0000\n\n"
TEXTS = {uid: (HEAD.format(uid) + f"text of {uid}\n.\nend of {uid}\n").encode() for uid in ("first", "second", "third")}
FETCHMAILRC = """poll {host} service {port} protocol pop3 uidl auth password
user "u" password "sesame" {keep} sslproto "" mda "{home}/store"
"""
STORE = '#!/bin/sh\ncd {home}/Maildir && cat > tmp/$$ && mv tmp/$$ new/$$.$(date +%s%N)\n'
MPOP = ["mpop", "--file=/dev/null", "--user=u", "--passwordeval=echo sesame", "--tls=off", "--auth=user", "--half-quiet",
        "--received-header=off"]


class Server(servers.Server):
    """The server of the tests, which also refuses unknown commands, gives single messages' rows, and can be stopped."""

    def __init__(self):
        super().__init__([(uid.encode(), text) for uid, text in TEXTS.items()])
        self.given = b""
        self.stops = False
        self.stopped = threading.Event()

    def _say(self, octets):
        self.given += octets
        try:
            super()._say(octets)
        except servers.Cut:
            self.stopped.set()
            while self.stops and self.client.recv(65536):
                pass
            raise

    def _answer(self, command):
        word, _, argument = command.upper().partition(b" ")
        if word in (b"LIST", b"UIDL") and argument:
            uid, text = self.messages[int(argument) - 1]
            return b"+OK %d %s\r\n" % (int(argument), uid if word == b"UIDL" else b"%d" % servers.size_of(text))
        if word == b"TOP":
            word, argument = b"RETR", argument.split()[0]
        if word in (b"USER", b"PASS", b"STAT", b"UIDL", b"LIST", b"RETR", b"DELE", b"RSET", b"NOOP", b"QUIT"):
            return super()._answer(word + b" " + argument if argument else word)
        return b"-ERR unknown\r\n"


class Fetcher:
    """One program in a home folder of its own, which a plain user owns."""

    def __init__(self, name, port, delete):
        self.home = home = Path(tempfile.mkdtemp())
        for part in ("Maildir/tmp", "Maildir/new", "Maildir/cur", ".getmail"):
            (home / part).mkdir(parents=True)
        words = {"host": LOOPBACK, "port": port, "home": home, "delete": delete, "keep": "nokeep" if delete else "keep"}
        (home / ".getmail/getmailrc").write_text(RC.format(server=LOOPBACK, port=port).replace("~/", f"{home}/") + f"delete = {delete}\n")
        (home / ".fetchmailrc").write_text(FETCHMAILRC.format(**words))
        (home / "store").write_text(STORE.format(**words))
        (home / "store").chmod(0o755)
        (home / ".fetchmailrc").chmod(0o600)
        self.owner = {}
        if os.getuid() == 0:
            nobody = pwd.getpwnam("nobody")
            self.owner = {"user": nobody.pw_uid, "group": nobody.pw_gid, "extra_groups": []}
            for path in [home, *home.rglob("*")]:
                os.chown(path, nobody.pw_uid, nobody.pw_gid)
        self.words = {
            "getmail": [str(TOP / "bin/getmail"), "-q"],
            "getmail6": ["/usr/bin/getmail", "-q"],
            "mpop": [*MPOP, f"--host={LOOPBACK}", f"--port={port}", f"--delivery=maildir,{home}/Maildir",
                     f"--uidls-file={home}/uidls", f"--keep={'off' if delete else 'on'}"],
            "fetchmail": ["fetchmail", "-s", "-f", str(home / ".fetchmailrc"), "-i", str(home / "ids")],
        }[name]

    def run(self, stopped=None):
        """One session, killed once the server has stopped, if that is given; whether it ended by itself otherwise."""
        program = subprocess.Popen(self.words, stdin=subprocess.DEVNULL, stdout=subprocess.DEVNULL, stderr=subprocess.DEVNULL,
                                   cwd=self.home, start_new_session=True, **self.owner,
                                   env={"PATH": os.environ["PATH"], "HOME": str(self.home), "FETCHMAILHOME": str(self.home)})
        try:
            if stopped is not None:
                stopped.wait(SECONDS)
                os.killpg(program.pid, signal.SIGKILL)
            program.wait(SECONDS)
            return True
        except (subprocess.TimeoutExpired, ProcessLookupError):
            program.poll() is None and os.killpg(program.pid, signal.SIGKILL)
            program.wait()
            return stopped is not None

    def held(self):
        """How often each text is whole in the Maildir, and how many files hold none of them whole."""
        whole, torn = Counter(), 0
        for path in [*(self.home / "Maildir/new").iterdir(), *(self.home / "Maildir/cur").iterdir()]:
            content = path.read_bytes().replace(b"\r\n", b"\n")
            names = [uid for uid in TEXTS if re.search(f"\ntext of {uid}\n\\.\nend of {uid}\n*$".encode(), content)]
            whole.update(names)
            torn += not names
        return whole, torn


def round_of(name, delete, octets, killed):
    """What went wrong in a session that broke off after `octets` octets, and one that didn't."""
    server = Server()
    server.stops = killed
    fetcher = Fetcher(name, server.port, delete)
    thread = server.begin_session(octets)
    ended = fetcher.run(server.stopped if killed else None)
    thread.join(SECONDS)
    there = {uid.decode() for uid, _ in server.messages}
    gone = any(fetcher.held()[0][uid] == 0 and uid not in there for uid in TEXTS)
    server.stops = False
    thread = server.begin_session()
    ended = fetcher.run() and ended
    thread.join(SECONDS)
    server.socket.close()
    whole, torn = fetcher.held()
    shutil.rmtree(fetcher.home)
    return {"missing for good": any(whole[uid] == 0 for uid in TEXTS), "more than once": any(n > 1 for n in whole.values()),
            "in part": torn > 0, "gone from the server before it was held": gone, "didn't end by itself": not ended}


def places_of(name, delete, step):
    """Every step-th octet of an uncut session's replies, and each full stop; none if it doesn't fetch the messages."""
    server = Server()
    fetcher = Fetcher(name, server.port, delete)
    thread = server.begin_session()
    fetcher.run()
    thread.join(SECONDS)
    server.socket.close()
    whole, torn = fetcher.held()
    shutil.rmtree(fetcher.home)
    if whole != Counter(TEXTS.keys()) or torn:
        return []
    return [n for n, octet in enumerate(server.given, 1) if n % step == 0 or octet == ord(".")]


def counts_of(name, delete, step, killed):
    """How many rounds there were, and in how many each thing went wrong."""
    places = places_of(name, delete, step)
    counts = Counter()
    for octets in places:
        counts.update(what for what, so in round_of(name, delete, octets, killed).items() if so)
    return len(places), counts


def main():
    step = int(sys.argv[1]) if len(sys.argv) > 1 else 7
    programs = sys.argv[2:] or ["getmail", "getmail6", "mpop", "fetchmail"]
    measure.print_head("program", "connection cut: missing", "more than once", "in part", "killed: more than once")
    for name in programs:
        if not shutil.which(Fetcher(name, 1, False).words[0]):
            print(f"{name}: not installed")
            continue
        for delete in (False, True):
            rounds, cut = counts_of(name, delete, step, killed=False)
            kills, killed = counts_of(name, delete, step, killed=True)
            if not rounds or not kills:
                print(f"{name}: it fetched nothing here")
                continue
            measure.print_row(f"{name}, {'deleting' if delete else 'keeping'}", f"{cut['missing for good']} of {rounds}",
                              cut["more than once"], cut["in part"], f"{killed['more than once']} of {kills}")
            for what in ("missing for good", "in part"):
                if killed[what]:
                    print(f"{name}, killed: {what} {killed[what]} of {kills}", flush=True)
            for what in ("gone from the server before it was held", "didn't end by itself"):
                if cut[what]:
                    print(f"{name}, cut: {what} {cut[what]} of {rounds}", flush=True)


if __name__ == "__main__":
    main()
