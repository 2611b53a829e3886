"""getmail's units for systemd: a run that doesn't end is ended, and its timer goes on; and the socket of the tunnel."""

import contextlib
import re
import socket
import stat
import threading
import unittest

from getmail.account import RC
from harness import kernel, programs, user_systemd
from harness.kernel import LOOPBACK
from harness.maildir import make_maildir

EXAMPLES = programs.ROOT / "examples"
# In place of six hours.
LIMIT = "2s"


class DrippingServer:
    """It says an octet of its greeting now and then, so that no wait of its client is long, and it never ends."""

    def __init__(self):
        self.taken, self.over = threading.Semaphore(0), threading.Event()
        self.listener = socket.create_server((LOOPBACK, 0))
        self.port = self.listener.getsockname()[1]
        self.threads = [threading.Thread(target=self._take)]

    def __enter__(self):
        self.threads[0].start()
        return self

    def __exit__(self, *_):
        self.over.set()
        self.listener.shutdown(socket.SHUT_RDWR)
        self.listener.close()
        for thread in self.threads:
            thread.join(programs.SECONDS)

    def _take(self):
        with contextlib.suppress(OSError):
            while True:
                client, _ = self.listener.accept()
                self.taken.release()
                self.threads.append(threading.Thread(target=self._drip, args=[client]))
                self.threads[-1].start()

    def _drip(self, client):
        with contextlib.suppress(OSError), client:
            while not self.over.wait(0.2):
                client.sendall(b"+")


def keys_of(name):
    """The unit's keys with their values."""
    return dict(re.findall(r"^(\w+)=(.*)$", (EXAMPLES / name).read_text(), re.MULTILINE))


class Tunnel(unittest.TestCase):
    """The socket of the tunnel is its user's alone, and so is its folder."""

    def test_their_modes(self):
        keys = keys_of("getmail-tunnel.socket")
        self.assertEqual((keys["SocketMode"], keys["DirectoryMode"]), ("0600", "0700"))
        self.assertEqual(keys["ListenStream"], "%h/.getmail/tunnel/pop3s")

    @unittest.skipIf(user_systemd.missing(), f"{', '.join(user_systemd.missing())} is not here")
    def test_as_systemd_makes_them(self):
        units = {name: user_systemd.unit(name) for name in ("getmail-tunnel.socket", "getmail-tunnel.service")}
        with user_systemd.UserSystemd("getmail", units) as systemd:
            systemd.start("getmail-tunnel.socket")
            folder = systemd.home / ".getmail/tunnel"
            systemd.wait_for((folder / "pop3s").exists, "there is no socket")
            modes = [stat.S_IMODE(path.stat().st_mode) for path in (folder.parent, folder, folder / "pop3s")]
            self.assertEqual(modes, [0o700, 0o700, 0o600])


class Removed(unittest.TestCase):
    """What `install.sh --remove` says."""

    @unittest.skipIf(user_systemd.missing(), f"{', '.join(user_systemd.missing())} is not here")
    def test_a_timer_goes_on_until_its_user_disables_it(self):
        """That works also once the units are gone."""
        names = ("getmail.service", "getmail.timer")
        with user_systemd.UserSystemd("getmail", {name: user_systemd.unit(name) for name in names}) as systemd:
            self.assertEqual(systemd.control("enable", "--now", "getmail.timer").returncode, 0)
            link, = systemd.home.rglob("getmail.timer")
            for name in names:
                (systemd.units / name).unlink()
            self.assertEqual((systemd.told("getmail.timer", "ActiveState"), link.is_symlink()), ("active", True))
            self.assertEqual(systemd.control("disable", "--now", "getmail.timer").returncode, 0)
            self.assertEqual((systemd.told("getmail.timer", "ActiveState"), link.is_symlink()), ("inactive", False))


class Limits(unittest.TestCase):
    def test_each_service_has_one(self):
        """RuntimeMaxSec has no effect on a service of this type, whose program is a step of its start."""
        for name in ("getmail.service", "getmail@.service"):
            keys = keys_of(name)
            self.assertEqual((keys["Type"], keys["TimeoutStartSec"]), ("oneshot", "6h"))
            self.assertNotIn("RuntimeMaxSec", keys)

    @unittest.skipIf(user_systemd.missing(), f"{', '.join(user_systemd.missing())} is not here")
    def test_a_server_that_drips_does_not_hold_the_timer(self):
        for name in ("getmail", "getmail@"):
            units = {f"{name}.service": user_systemd.unit(f"{name}.service", TimeoutStartSec=LIMIT),
                     f"{name}.timer": user_systemd.unit(f"{name}.timer", OnStartupSec="1ms",
                                                          OnUnitInactiveSec="1s\nAccuracySec=1ms")}
            systemd = user_systemd.UserSystemd("getmail", units)
            with self.subTest(name), DrippingServer() as server:
                make_maildir(systemd.home / "Maildir")
                (systemd.home / ".getmail").mkdir()
                rcfile = systemd.home / ".getmail" / ("work" if "@" in name else "getmailrc")
                rcfile.write_text(RC.format(server=LOOPBACK, port=server.port))
                rcfile.chmod(0o600)
                with systemd:
                    self.check(systemd, server, name.replace("@", "@work"))

    def check(self, systemd, server, name):
        """It connects, is killed, has failed, and connects again."""
        systemd.start(f"{name}.timer")
        for _ in range(2):
            self.assertTrue(server.taken.acquire(timeout=kernel.SECONDS_TO_LISTEN), "no run connects")
            systemd.wait_for(lambda: systemd.told(f"{name}.service", "Result") == "timeout", "it isn't killed")
        self.assertEqual(systemd.told(f"{name}.timer", "ActiveState"), "active")


if __name__ == "__main__":
    unittest.main()
