"""systemd as it works for a user, who isn't root: in namespaces and a cgroup of its own, with no unit but those of a test.

It needs root, systemd and a file system of cgroups (version 2) in which a folder can be made.
"""

import functools
import os
import pwd
import re
import shutil
import subprocess
import tempfile
import time
from pathlib import Path

from harness import programs

USER = "daemon"
MANAGER = "/lib/systemd/systemd"
# What it takes for a system that was booted by systemd: it sees its own cgroup alone, and an empty /run.
ENTER = """
echo $$ > "$0/cgroup.procs"
exec unshare --mount --cgroup sh -euc '
    mount -t tmpfs none /sys/fs/cgroup
    mount -t cgroup2 none /sys/fs/cgroup
    chown "$USER" /sys/fs/cgroup /sys/fs/cgroup/cgroup.procs /sys/fs/cgroup/cgroup.subtree_control /sys/fs/cgroup/cgroup.threads
    mount -t tmpfs none /run
    mkdir -p /run/systemd/system /run/systemd/unit-root
    exec setpriv --reuid "$USER" --regid "$GROUP" --clear-groups "$@"
' sh "$@"
"""
TARGETS = ("basic", "default", "shutdown", "sockets", "timers", "exit", "paths")


def own_cgroup():
    """The folder of this process's cgroup of version 2, if there is one."""
    mounted = re.search(r"^\S+ (\S+) cgroup2 ", Path("/proc/self/mounts").read_text(), re.MULTILINE)
    path = re.search(r"^0::/(.*)", Path("/proc/self/cgroup").read_text(), re.MULTILINE)
    return Path(mounted[1]) / path[1] if mounted and path else None


@functools.cache
def missing():
    """What is missing to run it."""
    there = ((MANAGER, os.path.exists(MANAGER)), ("root, who makes its namespaces,", os.geteuid() == 0),
             *((name, shutil.which(name)) for name in ("systemctl", "unshare", "setpriv")))
    names = [name for name, is_there in there if not is_there]
    folder = own_cgroup()
    if not names and not (folder and os.access(folder, os.W_OK)):
        names.append("a cgroup of version 2 that may be written")
    elif not names and subprocess.run(["unshare", "--mount", "--cgroup", "true"], capture_output=True).returncode != 0:
        names.append("a namespace that may be made")
    return names


def unit(name, **changes):
    """A unit of the examples, with other values of these keys if it has them."""
    text = (programs.ROOT / "examples" / name).read_text()
    for key, value in changes.items():
        text = re.sub(f"^{key}=.*", f"{key}={value}", text, flags=re.MULTILINE)
    return text


class UserSystemd:
    """The systemd of a user, with these units; it ends with the `with` block.

    The program is a copy, which this user may run, and of which the units are told in place of that in /usr/local/bin.
    """

    def __init__(self, program, units):
        self.owner = pwd.getpwnam(USER)
        self.holder = tempfile.TemporaryDirectory()
        self.home, self.units, self.runtime = (Path(self.holder.name) / name for name in ("home", "units", "run"))
        self.cgroup = own_cgroup() / f"tests-{os.getpid()}-{os.path.basename(self.holder.name)}"
        Path(self.holder.name).chmod(0o755)
        for folder in (self.home, self.units, self.runtime):
            folder.mkdir(mode=0o700)
        copy = shutil.copy(programs.path_of(program), Path(self.holder.name) / program)
        copy.chmod(0o755)
        for name, text in {**{f"{target}.target": "[Unit]\n" for target in TARGETS}, **units}.items():
            (self.units / name).write_text(text.replace(f"/usr/local/bin/{program}", str(copy)))
        self.words = [MANAGER, "--user", "--unit=basic.target", "--log-target=console"]
        self.environment = {"HOME": str(self.home), "XDG_RUNTIME_DIR": str(self.runtime), "SYSTEMD_UNIT_PATH": str(self.units),
                            "PATH": os.environ["PATH"], "USER": str(self.owner.pw_uid), "GROUP": str(self.owner.pw_gid)}

    def give(self):
        """Makes all that is there now the user's."""
        for folder in (self.home, self.units, self.runtime):
            for path in (folder, *folder.rglob("*")):
                os.chown(path, self.owner.pw_uid, self.owner.pw_gid, follow_symlinks=False)

    def __enter__(self):
        self.give()
        self.cgroup.mkdir()
        self.log = open(Path(self.holder.name) / "log", "wb")
        self.process = subprocess.Popen(["sh", "-euc", ENTER, self.cgroup, *self.words], env=self.environment,
                                        stdin=subprocess.DEVNULL, stdout=self.log, stderr=self.log)
        try:
            self.wait_for(lambda: self.told("basic.target", "ActiveState") == "active", "it doesn't start")
        except BaseException:
            self.__exit__()
            raise
        return self

    def __exit__(self, *_):
        (self.cgroup / "cgroup.kill").write_text("1")
        self.process.wait(programs.SECONDS)
        self.log.close()
        for folder in sorted((path for path in self.cgroup.rglob("*") if path.is_dir()), reverse=True):
            self.remove_cgroup(folder)
        self.remove_cgroup(self.cgroup)
        self.holder.cleanup()

    @staticmethod
    def remove_cgroup(folder):
        """Its processes were killed, and go one by one."""
        for _ in range(programs.SECONDS * 20):
            try:
                return folder.rmdir()
            except OSError:
                time.sleep(0.05)
        raise AssertionError(f"{folder} has processes that don't end")

    def control(self, *words):
        """Runs `systemctl --user`."""
        return subprocess.run(["systemctl", "--user", *words], capture_output=True, text=True, timeout=programs.SECONDS,
                              env=self.environment, user=self.owner.pw_uid, group=self.owner.pw_gid, extra_groups=[])

    def told(self, unit, word):
        """A property of a unit."""
        return self.control("show", "--value", "-p", word, unit).stdout.strip()

    def start(self, unit):
        done = self.control("start", "--no-block", unit)
        if done.returncode != 0:
            raise AssertionError(f"{unit}: {done.stderr}")

    def wait_for(self, happened, fault):
        """Waits until something has happened of which systemd tells only if it is asked."""
        deadline = time.monotonic() + programs.SECONDS
        while not happened():
            if time.monotonic() > deadline:
                log = Path(self.holder.name, "log").read_text(errors="replace")
                raise AssertionError(f"{fault}: {log}")
            time.sleep(0.02)
