"""What `make install` and `make dist` put where, that `make uninstall` leaves nothing of it, and the line for cron."""

import gzip
import itertools
import os
import re
import shutil
import stat
import subprocess
import tarfile
import tempfile
import threading
import unittest
from pathlib import Path
from unittest import mock

from getmail.account import Account, RC
from getmail.server import Server
from getmail.test_stalls import SilentServer
from harness import kernel, programs
from harness.maildir import make_maildir

PAGES = {"1": "man1", "5": "man5", "8": "man8"}
COMPLETIONS = [path for name in ("getmail", "popd") for path in (
    f"share/bash-completion/completions/{name}", f"share/zsh/site-functions/_{name}",
    f"share/fish/vendor_completions.d/{name}.fish")]
UNITS = [f"lib/systemd/user/{name}" for name in (
    "getmail.service", "getmail.timer", "getmail@.service", "getmail@.timer", "getmail-tunnel.service",
    "getmail-tunnel.socket", "popd.service", "popd.socket", "popd@.service")]
DOCUMENTS = [f"share/doc/getmail/{name}" for name in (
    "README.md", "CHANGELOG.md", "LICENSE", "NOTICES", "FROM-GETMAIL6.md", "getmailrc.sample", "stunnel.conf", "crontab",
    "account_files.py", "make_record.py")]
SCRIPTS = [f"share/doc/getmail/{path.name}" for path in (programs.ROOT / "examples").glob("*-*.py")]
MESSAGE = b"Subject: one\n\nIt is.\n"
# What the rules of `make install` and `make dist` read.
PARTS = ("Makefile", "build.py", "crates.txt", "HANDLES", "install.sh", "README.md", "CHANGELOG.md", "LICENSE", "NOTICES", "man",
         "completions", "debian", "examples", "packaging", "docs/FROM-GETMAIL6.md", "docs/getmailrc.sample")

# What can be done without `rt` if the programs are there, and what can't.
WITHOUT_RT = ("all", "getmail", "popd", "check", "quick", "axioms", "notices", "probe", "libraries", "test", "test-getmail",
              "bench")
SHELL_PROGRAMS = ("python3", "make", "bash", "sh", "mkdir", "install", "sleep", "ls", "cat", "cut")

# What stands in for `rt try`, for each run of a program, and for `rt ci`: they use the built programs. The second writes down
# what is in each crate's folder; the third proves one crate and fails at the next.
TRY = """#!/bin/sh
name=${PWD##*/}
while [ "$1" != -- ] && [ "$1" != --cases ]; do shift; done
if [ "$1" = -- ]; then shift; exec ../../$name.built "$@"; fi
for case in "$2"/*.args; do
    echo "== $case"
    ../../$name.built $(cat "$case")
    echo "case=$case run=ended status=$?"
done
"""
PROVE = """#!/bin/sh
cd crates
for name in $(cut -d : -f 1 ../crates.txt); do
    echo $name $(ls $name) >> $LOG
    mkdir $name/out
    if [ $name = getmail ]; then sleep 12; fi
    if [ -f $TOP/$name.built ]; then install $TOP/$name.built $name/out/$name; fi
    echo "rt: $name proved"
done
"""
FAIL = """#!/bin/sh
echo "== mail_terms"
echo "all is well"
echo "rt: mail_terms proved"
echo "== pop3_wire"
echo "an error"
echo "rt: pop3_wire NOT PROVED"
echo "== rc_file"
echo "rt: rc_file proved"
echo "rt: FAILED: pop3_wire"
exit 1
"""


def crates_in(top):
    lines = [line.partition("#")[0] for line in (top / "crates.txt").read_text().splitlines()]
    return [line.partition(":")[0] for line in lines if ":" in line]


def copy_repository(top):
    """Copies what is installed, and the programs as they were built last, into the folder, as if `make` had proved them there
    from crates with one short file each."""
    for part in PARTS:
        source, target = programs.ROOT / part, top / part
        target.parent.mkdir(parents=True, exist_ok=True)
        if source.is_dir():
            left = shutil.ignore_patterns("seen-*", f"{'?' * 64}.*", "__pycache__")
            shutil.copytree(source, target, ignore=left)
        else:
            shutil.copy(source, target)
    (top / "bin").mkdir()
    for name in ("getmail", "popd"):
        shutil.copy(programs.path_of(name), top / "bin" / name)
    for crate in crates_in(top):
        (top / "crates" / crate / "src").mkdir(parents=True)
        (top / "crates" / crate / "src/lib.rt").write_text(f"//! {crate}\n")
    for name in ("getmail", "popd"):
        tell = f"import build; print(build.checksums(build.TOP / 'bin/{name}', build.checksum('{name}')), end='')"
        shown = subprocess.run(["python3", "-Bc", tell], cwd=top, check=True, stdout=subprocess.PIPE)
        (top / "bin" / f"{name}.sha256").write_bytes(shown.stdout)


class Copied(unittest.TestCase):
    """A copy of the repository's files, with the programs as they were built last."""

    def setUp(self):
        holder = tempfile.TemporaryDirectory()
        self.addCleanup(holder.cleanup)
        self.top = Path(holder.name) / "repository"
        self.place = Path(holder.name) / "place"
        copy_repository(self.top)

    def make(self, *words, top=None, **changes):
        """Runs `make` and answers what it printed."""
        return subprocess.run(["make", *words], cwd=top or self.top, check=True, stdout=subprocess.PIPE, text=True,
                              env=programs.environment(**changes), timeout=programs.SECONDS).stdout

    def refusal(self, *words, top=None, **changes):
        """Runs `make`, which fails, and answers its lines on standard error but for those about the failure itself."""
        done = subprocess.run(["make", "--no-print-directory", *words], cwd=top or self.top, capture_output=True, text=True,
                              env=programs.environment(**changes), timeout=programs.SECONDS)
        self.assertNotEqual(done.returncode, 0)
        return [line for line in done.stderr.splitlines() if not re.match(r"make(\[\d\])?: \*\*\* ", line)]

    def path_with(self, rt=None):
        """A folder with the few programs that are called, and with `rt` if its text is given."""
        folder = self.top.parent / "path"
        folder.mkdir()
        for name in SHELL_PROGRAMS:
            (folder / name).symlink_to(shutil.which(name))
        if rt:
            (folder / "rt").write_text(rt)
            (folder / "rt").chmod(0o755)
        return str(folder)


def check_disabled(test, told):
    """Each unit that a user can enable is named, and crontab."""
    units = {path.name.replace("@.", "@FILE.") for path in (programs.ROOT / "examples").iterdir()
             if path.is_file() and "\n[Install]\n" in path.read_text()}
    test.assertEqual(set(re.findall(r"[\w@-]+\.(?:timer|socket|service)", told)), units)
    for part in ("systemctl --user disable --now", "crontab -e"):
        test.assertIn(part, told)


class Install(Copied):
    def files(self, prefix):
        """The files below the prefix, with their modes."""
        paths = [path for path in self.place.rglob("*") if not path.is_dir()]
        return {str(path.relative_to(self.place / prefix)): stat.S_IMODE(path.stat().st_mode) for path in paths}

    def check_installed(self, prefix):
        wanted = {name: 0o755 for name in ("bin/getmail", "bin/popd", *SCRIPTS)}
        wanted |= {name: 0o644 for name in (*COMPLETIONS, *UNITS, *DOCUMENTS)}
        for page in (programs.ROOT / "man").iterdir():
            wanted[f"share/man/{PAGES[page.suffix[1:]]}/{page.name}"] = 0o644
        self.assertEqual(self.files(prefix), wanted)
        self.check_names(self.place / prefix, f"/{prefix}")

    def check_names(self, place, prefix):
        """Units, the line for cron and getmail(1) name files where they are."""
        for name in ("getmail.service", "getmail@.service", "popd.service", "popd@.service"):
            started, = re.findall("^ExecStart=(.*)", (place / "lib/systemd/user" / name).read_text(), re.MULTILINE)
            self.assertIn(f"{prefix}/bin/{name[:name.index('.')].removesuffix('@')}", started.split())
        page = (place / "share/man/man1/getmail.1").read_text()
        self.assertIn(f" {prefix}/share/doc/getmail/getmailrc.sample ", page)
        first = "" if prefix == "/usr" else f"{prefix}/bin:"
        for text in (page, (place / "share/doc/getmail/crontab").read_text()):
            self.assertIn(f"\nPATH={first}/usr/bin:/bin\n", text)

    def test_each_file_has_its_place_and_is_taken_away(self):
        for words, prefix in (([], "usr/local"), (["PREFIX=/usr"], "usr"), (["PREFIX=/srv/mail"], "srv/mail")):
            with self.subTest(prefix):
                self.make("install", f"DESTDIR={self.place}", *words)
                self.check_installed(prefix)
                self.make("install", f"DESTDIR={self.place}", *words)
                self.check_installed(prefix)
                self.make("uninstall", f"DESTDIR={self.place}", *words)
                self.assertEqual(self.files("."), {})

    def test_units_of_a_home_are_where_systemd_looks_for_them(self):
        home = self.place / "home"
        for words in (["install"], ["uninstall"]):
            self.make(*words, f"PREFIX={home}/.local/", HOME=str(home))
            there = {str(path.relative_to(home)) for path in home.rglob("*") if path.is_file()}
            wanted = {f".local/share/systemd/user/{Path(unit).name}" for unit in UNITS} if words == ["install"] else set()
            self.assertEqual({name for name in there if "systemd" in name}, wanted)

    def test_a_prefix_is_a_full_path(self):
        for prefix in ("~/.local", "local"):
            done = subprocess.run(["./install.sh"], cwd=self.top, env=programs.environment(PREFIX=prefix), capture_output=True,
                                  text=True, timeout=programs.SECONDS)
            self.assertEqual((done.returncode, done.stderr), (2, f"install.sh: PREFIX is a full path, and not {prefix}\n"))
            self.assertFalse((self.top / prefix).exists())

    def test_a_prefix_has_no_letter_that_means_something_else(self):
        """In a unit, a crontab, a man page or the script itself. What others are in a PREFIX, a unit names."""
        for letter in " \t\n\x01\\\"'`$&|;<>()*?[]{}#%:!":
            prefix = f"{self.place}/a{letter}b"
            done = subprocess.run(["./install.sh"], cwd=self.top, env=programs.environment(PREFIX=prefix), capture_output=True,
                                  text=True, timeout=programs.SECONDS)
            self.assertEqual((done.returncode, done.stdout, self.place.exists()), (2, "", False), prefix)
            self.assertIn("install.sh: PREFIX has ", done.stderr)
        prefix = "srv/my-mail_1.0/jos\u00e9,+=@~^"
        self.make("install", f"DESTDIR={self.place} and more", f"PREFIX=/{prefix}")
        self.check_names(Path(f"{self.place} and more") / prefix, f"/{prefix}")

    def test_another_folder_of_this_name(self):
        """To which CDPATH leads: its program isn't taken."""
        other = self.top.parent / "other" / self.top.name / "bin"
        other.mkdir(parents=True)
        for name in ("getmail", "popd"):
            (other / name).write_text("another's")
        subprocess.run(["sh", f"{self.top.name}/install.sh"], cwd=self.top.parent, check=True, timeout=programs.SECONDS,
                       env=programs.environment(CDPATH=str(other.parent.parent), PREFIX=str(self.place)))
        self.assertEqual((self.place / "bin/getmail").read_bytes(), programs.path_of("getmail").read_bytes())

    def test_without_the_programs_a_line_says_so(self):
        (self.top / "bin/popd").unlink()
        done = subprocess.run(["./install.sh"], cwd=self.top, env=programs.environment(PREFIX=str(self.place)), capture_output=True,
                              text=True, timeout=programs.SECONDS)
        told = "install.sh: bin/popd is not there: `make` builds it, and archives have it\n"
        self.assertEqual((done.returncode, done.stderr, self.place.exists()), (2, told, False))

    def test_what_others_have_there_stays(self):
        others = {f"{Path(name).parent}/other" for name in ("bin/getmail", *COMPLETIONS, *UNITS, *DOCUMENTS)}
        for name in others:
            (self.place / "usr/local" / name).parent.mkdir(parents=True, exist_ok=True)
            (self.place / "usr/local" / name).touch()
        self.make("install", f"DESTDIR={self.place}")
        self.make("uninstall", f"DESTDIR={self.place}")
        self.assertEqual(set(self.files("usr/local")), others)
        self.assertIn("share/doc/getmail/other", others)

    def test_what_users_have_to_disable_is_said_first(self):
        """Before a file goes: each unit that can be enabled, and the line for cron."""
        self.make("install", f"DESTDIR={self.place}")
        folder = self.top.parent / "path"
        folder.mkdir()
        (folder / "rm").write_text("#!/bin/sh\necho rm\nexec /bin/rm \"$@\"\n")
        (folder / "rm").chmod(0o755)
        told = self.make("uninstall", f"DESTDIR={self.place}", PATH=f"{folder}:{os.environ['PATH']}")
        check_disabled(self, told[:told.index("\nrm\n")])

    def test_what_a_link_leads_to_stays(self):
        """Each file takes the place of a link, and what else has its name with `.new`, as a kill leaves it, goes."""
        other = self.top.parent / "other"
        other.write_text("another's")
        names = ("bin/getmail", "bin/popd.new", "share/man/man1/getmail.1", "share/doc/getmail/README.md.new")
        folder = self.top.parent / "other-folder"
        folder.mkdir()
        for name, there in (*((name, other) for name in names), ("bin/popd", folder), ("share/doc/getmail/LICENSE.new", folder)):
            (self.place / name).parent.mkdir(parents=True, exist_ok=True)
            (self.place / name).symlink_to(there)
        self.make("install", f"PREFIX={self.place}")
        self.assertEqual((other.read_text(), os.listdir(folder)), ("another's", []))
        self.assertEqual([path for path in self.place.rglob("*") if path.is_symlink() or path.suffix == ".new"], [])
        self.assertEqual((self.place / "bin/getmail").read_bytes(), programs.path_of("getmail").read_bytes())
        (self.place / "bin/popd.new").symlink_to(other)
        self.make("uninstall", f"PREFIX={self.place}")
        self.assertEqual([path for path in self.place.rglob("*") if not path.is_dir()], [])
        self.assertEqual(other.read_text(), "another's")

    def test_a_link_that_comes_meanwhile_leads_nowhere(self):
        """Another user, who may write the folders, puts a link in the place of each new file, before and after each call: what it
        leads to keeps its mode and its text, and nothing is written there."""
        kept, folder = self.top.parent / "kept", self.top.parent / "path"
        for path in (kept, folder):
            path.mkdir()
        for file in ("file", "other"):
            (kept / file).write_text("another's")
            (kept / file).chmod(0o600)
        begun = self.top.parent / "begun"
        # Whatever the place of the new file is, there is a link in it.
        meddle = f"/usr/bin/find '{self.place}' -name '*.new' -type f -exec /bin/ln -sf '{kept}/file' '{{}}' ';'"
        for name in ("mkdir", "rm", "chmod", "cp", "mv", "cat", "sed", "dirname", "basename", "install", "ln"):
            (folder / name).write_text(f'#!/bin/sh\n{meddle}\n{shutil.which(name)} "$@"\nstatus=$?\n{meddle}\n'
                                       f"echo {name} >> '{begun}'\nexit $status\n")
            (folder / name).chmod(0o755)
        self.place.mkdir()
        for words in ([], ["--remove"]):
            subprocess.run(["./install.sh", *words], cwd=self.top, capture_output=True, timeout=programs.SECONDS,
                           env=programs.environment(PREFIX=str(self.place), PATH=f"{folder}:{os.environ['PATH']}"))
            found = {path.name: (path.read_text(), stat.S_IMODE(path.lstat().st_mode)) for path in kept.iterdir()}
            self.assertEqual(found, {name: ("another's", 0o600) for name in ("file", "other")})
        self.assertGreater(begun.read_text().count("mv"), 30)

    def test_a_program_that_runs_is_replaced(self):
        self.make("install", f"PREFIX={self.place}")
        with subprocess.Popen([self.place / "bin/popd", "--rehearse"], stdin=subprocess.PIPE, stdout=subprocess.PIPE) as process:
            self.assertEqual(process.stdout.readline(), b"+OK popd ready\r\n")
            self.make("install", f"PREFIX={self.place}")
            told, _ = process.communicate(b"QUIT\r\n", timeout=programs.SECONDS)
            self.assertEqual(told, b"+OK bye\r\n")

    def test_the_programs_are_installed_as_they_are(self):
        """Where there are no sources, as in an archive, whatever they are."""
        shutil.rmtree(self.top / "crates")
        for name in ("getmail", "popd"):
            (self.top / "bin" / name).write_text(f"{name} of another day")
        self.make("install", f"PREFIX={self.place}")
        for name in ("getmail", "popd"):
            self.assertEqual((self.place / "bin" / name).read_text(), f"{name} of another day")

    def test_what_is_missing_is_built_first(self):
        (self.top / "bin/popd").unlink()
        told = self.make("-n", "install")
        self.assertEqual(re.findall(r"^\./build\.py (\w+)$", told, re.MULTILINE), ["popd"])

    def test_the_installed_program_runs(self):
        self.make("install", f"PREFIX={self.place}")
        help_text = subprocess.run([self.place / "bin/getmail", "--help"], capture_output=True, check=True,
                                   timeout=programs.SECONDS)
        self.assertEqual(help_text.stdout, programs.run("getmail", "--help").out)

    def test_the_sample_installed_is_an_rc_file(self):
        """All of it is understood: the run ends when it looks for the tunnel, which isn't here."""
        self.make("install", f"PREFIX={self.place}")
        sample = self.place / "share/doc/getmail/getmailrc.sample"
        sample.write_text(sample.read_text().replace("/home/fred", str(self.place)))
        run = programs.run("getmail", "-r", str(sample), HOME=str(self.place))
        self.assertEqual((run.status, run.err), (1, f"getmail: cannot connect to {self.place}/.getmail/tunnel/pop3s\n".encode()))

    def test_folders_are_open_to_all_whatever_the_umask(self):
        self.make("install", f"DESTDIR={self.place}")
        usual = {path: path.stat().st_mode for path in self.place.rglob("*")}
        self.assertEqual({stat.S_IMODE(mode) for mode in usual.values() if stat.S_ISDIR(mode)}, {0o755})
        shutil.rmtree(self.place)
        subprocess.run(["bash", "-c", 'umask 077; make install DESTDIR="$1"', "bash", self.place], cwd=self.top, check=True,
                       stdout=subprocess.DEVNULL, env=programs.environment(), timeout=programs.SECONDS)
        self.assertEqual({path: path.stat().st_mode for path in self.place.rglob("*")}, usual)

    def test_programs_of_other_sources_are_refused(self):
        """Those that were proved from other files, or of which nothing says so; mutants and other crates don't count."""
        for left in ("mail_store/must-fail/x.edit", "mail_store/out/x", "fetch_runs/src/more.rt"):
            (self.top / "crates" / left).parent.mkdir(exist_ok=True)
            (self.top / "crates" / left).touch()
        self.make("install", "dist", f"DESTDIR={self.place}")
        for name in ("place", "repository/dist"):
            shutil.rmtree(self.top.parent / name)
        source, sums = self.top / "crates/folder_drop/src/lib.rt", self.top / "bin/getmail.sha256"
        for program, change in (("popd", lambda: source.write_text("other\n")), ("getmail", sums.unlink)):
            change()
            self.check_refused(f"bin/{program} was not proved from these sources: `make` proves and builds it")

    def check_refused(self, line):
        """Nothing is installed, no archive and no package is made, and the line says why."""
        for words in (["install", f"DESTDIR={self.place}"], ["dist"]):
            self.assertEqual(self.refusal(*words), [line])
        self.assertFalse(self.place.exists() or (self.top / "dist").exists())

    def test_a_program_that_was_not_built_is_refused(self):
        """Another one in its place, or one octet of it; also if the checksum of its sources alone is there."""
        for name, change in (("getmail", lambda path: shutil.copy("/bin/echo", path)), ("popd", self.change_an_octet)):
            path, sums = (self.top / "bin" / file for file in (name, f"{name}.sha256"))
            before = path.read_bytes()
            change(path)
            self.check_refused(f"bin/{name} is not the program that was built: `make` proves and builds it")
            path.write_bytes(before)
            program, sources = sums.read_text().splitlines()
            sums.write_text(f"{sources}\n")
            self.check_refused(f"bin/{name} is not the program that was built: `make` proves and builds it")
            sums.write_text(f"{program}\n{sources}\n")
        self.make("install", "dist", f"DESTDIR={self.place}")

    @staticmethod
    def change_an_octet(path):
        content = bytearray(path.read_bytes())
        content[len(content) // 2] ^= 1
        path.write_bytes(content)

    def test_without_rt_a_line_says_what_is_missing(self):
        path = self.path_with()
        for words in (*WITHOUT_RT, "demo", "install", "dist"):
            if words == "demo":
                (self.top / "bin/popd").unlink()
            with self.subTest(words):
                line, = self.refusal(words, PATH=path)
                missing = "`rt`, which the Rattle kit has, is not on PATH: see README.md."
                self.assertRegex(line, rf"^Makefile:\d+: \*\*\* {missing}  Stop\.$")

    def test_without_python_a_line_says_what_is_missing(self):
        path = self.path_with("#!/bin/sh\n")
        os.unlink(f"{path}/python3")
        for words in ("all", "demo", "check"):
            with self.subTest(words):
                line, = self.refusal(words, PATH=path)
                self.assertRegex(line, r"^Makefile:\d+: \*\*\* `python3` is not on PATH: see README\.md\.  Stop\.$")


class EmptyRoot:
    """A folder with only the archive, as its install.sh leaves it, the C library, and `/proc`."""

    def __init__(self, folder):
        self.folder = folder
        (folder / "proc").mkdir(parents=True)

    def command(self, *words, folder=None):
        """Runs a program in this root, where the system shows itself as it does anywhere."""
        as_root = [] if os.geteuid() == 0 else ["--map-root-user"]
        enter = 'mount --rbind /proc "$0/proc" && exec chroot "$0" "$@"'
        return ["unshare", *as_root, "--mount", "sh", "-c", enter, folder or self.folder, *words]

    def is_allowed(self):
        """Whether a program may be run in such a root here."""
        if shutil.which("unshare") is None:
            return False
        words = self.command("true", folder="/")
        return subprocess.run(words, capture_output=True, timeout=programs.SECONDS).returncode == 0

    def add_libraries(self, program):
        """Copies the libraries that the program asks for, and answers their names."""
        told = subprocess.run(["ldd", program], check=True, capture_output=True, text=True, timeout=programs.SECONDS).stdout
        paths = re.findall(r"(/\S+) \(0x", told)
        for path in paths:
            target = self.folder / path[1:]
            target.parent.mkdir(parents=True, exist_ok=True)
            shutil.copy(path, target)
        return {Path(path).name for path in paths}


class Dist(Copied):
    def unpacked(self):
        """The folder of the archive that `make dist` writes."""
        self.make("dist")
        archive, = (self.top / "dist").glob("quailtuffet-*-linux-*.tar.gz")
        with tarfile.open(archive) as opened:
            opened.extractall(self.place)
        folder, = self.place.iterdir()
        self.assertEqual(archive.name, f"{folder.name}.tar.gz")
        return folder

    def install(self, root):
        subprocess.run([self.unpacked() / "install.sh"], check=True, timeout=programs.SECONDS,
                       env=programs.environment(DESTDIR=str(root), PREFIX="/usr"))

    def test_the_archive_is_the_same_each_time(self):
        def written():
            self.make("dist", SOURCE_DATE_EPOCH="1795348800")
            return {path.name: path.read_bytes() for path in (self.top / "dist").iterdir()}
        self.assertEqual(written(), written())

    def test_make_in_the_archive(self):
        """It installs and removes; what it can't do without the sources, a line says."""
        folder, place = self.unpacked(), self.place / "installed"
        self.make("install", f"PREFIX={place}", top=folder)
        self.assertEqual((place / "bin/getmail").read_bytes(), programs.path_of("getmail").read_bytes())
        self.assertIn("\n== clap\n", (place / "share/doc/getmail/NOTICES").read_text())
        self.make("uninstall", f"PREFIX={place}", top=folder)
        self.assertEqual([path for path in place.rglob("*") if path.is_file()], [])
        self.assertIn("1 messages (", self.make("demo", top=folder))
        for words in ("all", "dist", "check"):
            line, = self.refusal(words, top=folder)
            self.assertIn("there are no sources here: only demo, install and uninstall can be made", line)

    def test_what_the_linker_gives_is_in_the_programs(self):
        """Position-independent, with relocations that are read-only before main, and a stack that isn't executable."""
        if not shutil.which("readelf"):
            self.skipTest("readelf is not installed")
        for name in ("getmail", "popd"):
            told = subprocess.run(["readelf", "-hldW", programs.path_of(name)], check=True, capture_output=True, text=True).stdout
            self.assertRegex(told, r"FLAGS_1\) +Flags: NOW PIE\n")
            self.assertRegex(told, r"\n +GNU_RELRO ")
            self.assertRegex(told, r"\n +GNU_STACK .* RW +0")
            self.assertNotIn("TEXTREL", told)

    def test_debian_names_the_version(self):
        version = re.search(r"^## (\S+),", (programs.ROOT / "CHANGELOG.md").read_text(), re.MULTILINE)[1]
        for name in ("changelog", "NEWS"):
            self.assertTrue((programs.ROOT / "debian" / name).read_text().startswith(f"quailtuffet ({version}) unstable;"), name)

    def test_debian_builds_the_package(self):
        """By debian/rules, as a builder does, after `clean`; with a stand-in for `rt`."""
        missing = [name for name in ("dpkg-buildpackage", "dpkg-deb", "strip") if not shutil.which(name)]
        if missing:
            self.skipTest(f"{', '.join(missing)} is not installed")
        for name in ("getmail", "popd"):
            (self.top / "bin" / name).rename(self.top / f"{name}.built")
        folder = self.top.parent / "path"
        folder.mkdir()
        (folder / "rt").write_text(PROVE.replace("sleep 12", "true"))
        (folder / "rt").chmod(0o755)
        done = subprocess.run(["dpkg-buildpackage", "-b", "-us", "-uc", "-d"], cwd=self.top, capture_output=True, text=True,
                              env=programs.environment(PATH=f"{folder}:{os.environ['PATH']}", LOG="/dev/null", TOP=str(self.top)),
                              timeout=5 * programs.SECONDS)
        self.assertEqual(done.returncode, 0, done.stdout + done.stderr)
        self.assertEqual(sorted(path.suffix for path in self.top.parent.glob("quailtuffet_*")), [".buildinfo", ".changes", ".deb"])
        self.assertIn(" mail optional quailtuffet_", next(self.top.parent.glob("*.changes")).read_text())

    def package(self):
        """The Debian package that `make dist` writes."""
        if not shutil.which("dpkg-deb"):
            self.skipTest("dpkg-deb is not installed")
        self.make("dist")
        package, = (self.top / "dist").glob("*.deb")
        return package

    def test_lintian_finds_no_error_in_the_package(self):
        if not shutil.which("lintian"):
            self.skipTest("lintian is not installed")
        done = subprocess.run(["lintian", "--fail-on", "error", self.package()], capture_output=True, text=True,
                              timeout=5 * programs.SECONDS)
        self.assertEqual(done.returncode, 0, done.stdout)

    def test_the_package_holds_what_is_installed(self):
        package = self.package()
        subprocess.run(["dpkg-deb", "-x", package, self.place], check=True, timeout=programs.SECONDS)
        there = {str(path.relative_to(self.place / "usr")) for path in self.place.rglob("*") if path.is_file()}
        pages = {f"share/man/{PAGES[page.suffix[1:]]}/{page.name}.gz" for page in (programs.ROOT / "man").iterdir()}
        self.assertLessEqual({"bin/getmail", "bin/popd", "share/doc/quailtuffet/copyright", *pages, *UNITS}, there)
        self.assertTrue((self.place / "usr/share/doc/getmail/getmailrc.sample").is_file())
        subprocess.run([self.place / "usr/bin/getmail", "--help"], check=True, stdout=subprocess.DEVNULL,
                       timeout=programs.SECONDS)

    def test_the_package_takes_the_place_of_getmail6_and_says_so(self):
        """Its name isn't `getmail`, which Debian's getmail6 breaks."""
        package = self.package()
        self.assertRegex(package.name, r"^quailtuffet_[0-9.]+_\w+\.deb$")
        fields = [subprocess.run(["dpkg-deb", "-f", package, field], check=True, capture_output=True, text=True).stdout.strip()
                  for field in ("Package", "Conflicts", "Recommends", "Replaces")]
        self.assertEqual(fields, ["quailtuffet", "getmail, getmail4, getmail6", "stunnel4", ""])
        subprocess.run(["dpkg-deb", "-R", package, self.place], check=True, timeout=programs.SECONDS)
        for words, lines in ((["configure", ""], 1), (["configure", "0.0.9"], 0), (["abort-upgrade", "0.2"], 0)):
            told = subprocess.run([self.place / "DEBIAN/postinst", *words], check=True, capture_output=True, text=True)
            self.assertEqual((told.stdout, told.stderr.count("\n")), ("", lines))
            self.assertEqual("FROM-GETMAIL6.md" in told.stderr, lines == 1)
        for words, is_told in ((["remove"], True), (["upgrade", "0.2"], False), (["deconfigure"], False)):
            told = subprocess.run([self.place / "DEBIAN/prerm", *words], check=True, capture_output=True, text=True)
            self.assertEqual((told.stdout, bool(told.stderr)), ("", is_told))
            if is_told:
                check_disabled(self, told.stderr)
        news = gzip.decompress((self.place / "usr/share/doc/quailtuffet/NEWS.Debian.gz").read_bytes()).decode()
        self.assertIn("FROM-GETMAIL6.md", news)

    def test_the_notices_of_what_is_linked_in(self):
        """Each crate of which the programs have symbols has its notice in Debian's copyright file, but for core and std. The
        file's own paragraph is about all files of the source."""
        package = self.package()
        subprocess.run(["dpkg-deb", "-x", package, self.place], check=True, timeout=programs.SECONDS)
        text = (self.place / "usr/share/doc/quailtuffet/copyright").read_text()
        named = {name for names in re.findall(r"^ == (.*)", text, re.MULTILINE) for name in names.split(", ")}
        linked = {found.decode() for name in ("getmail", "popd")
                  for found in re.findall(rb"\x00([a-z_0-9]+)::", programs.path_of(name).read_bytes())}
        own = {path.name for path in (programs.ROOT / "crates").iterdir()}
        self.assertIn("clap", linked)
        self.assertEqual({crate for crate in linked - own - named if not re.match("core$|std(_|$)|os$", crate)}, set())
        self.assertLessEqual({"clap", "indexmap", "bstr", "memchr", "sha2", "hex", "itoa", "thiserror"}, named)
        self.assertEqual(re.findall(r"^Files: (.*)", text, re.MULTILINE), ["*"])
        licence = (programs.ROOT / "LICENSE").read_text().split("\n\n", 2)[2].split()
        self.assertIn(" ".join(licence), " ".join(re.sub(r"^ \.?", "", text, flags=re.MULTILINE).split()))

    def test_the_package_is_open_to_all_whatever_the_umask(self):
        def content():
            told = subprocess.run(["dpkg-deb", "-c", self.package()], check=True, capture_output=True, text=True).stdout
            archive, = (self.top / "dist").glob("*.tar.gz")
            with tarfile.open(archive) as opened:
                return told, [(entry.name, entry.mode) for entry in opened]
        with mock.patch.dict(os.environ, SOURCE_DATE_EPOCH="1795348800"):
            usual = content()
            self.addCleanup(os.umask, os.umask(0o077))
            self.assertEqual(content(), usual)
        self.assertEqual(set(re.findall(r"^d\S+", usual[0], re.MULTILINE)), {"drwxr-xr-x"})

    def test_a_first_fetch_on_a_machine_with_the_c_library_alone(self):
        root = EmptyRoot(self.top.parent / "root")
        if not root.is_allowed():
            self.skipTest("no program may be run in another root here (chroot, unshare)")
        self.install(root.folder)
        libraries = root.add_libraries(root.folder / "usr/bin/getmail") | root.add_libraries(root.folder / "usr/bin/popd")
        for name in libraries:
            self.assertRegex(name, r"^(libc\.so|ld-linux|libm\.so|libpthread\.so)")
        port = kernel.free_port()
        self.fill_homes(root.folder, port)
        served = subprocess.Popen(root.command("/usr/bin/popd", "--listen", f"127.0.0.1:{port}", "--connections", "2", "u",
                                               "/fred/password", "/fred/served"))
        self.addCleanup(served.wait)
        self.addCleanup(served.kill)
        self.wait_for(port)
        told = [self.fetch(root) for _ in range(2)]
        self.assertIn("1 messages (21 bytes) retrieved, 0 skipped, 0 deleted\n", told[0])
        self.assertIn("0 messages (0 bytes) retrieved, 1 skipped, 0 deleted\n", told[1])
        fetched, = (root.folder / "ann/Maildir/new").iterdir()
        self.assertEqual(fetched.read_bytes(), MESSAGE)

    def fill_homes(self, root, port):
        """Fred's Maildir with a message, and the settings of Ann."""
        (make_maildir(root / "fred/served") / "new/1").write_bytes(MESSAGE)
        (root / "fred/password").write_text("sesame\n")
        (root / "fred/password").chmod(0o600)
        make_maildir(root / "ann/Maildir")
        (root / "ann/.getmail").mkdir()
        (root / "ann/.getmail/getmailrc").write_text(RC.format(server="127.0.0.1", port=port))

    def wait_for(self, port):
        woken = threading.Event()
        for _ in range(programs.SECONDS * 20):
            if kernel.listens(port):
                return
            woken.wait(0.05)
        self.fail("popd doesn't listen")

    def fetch(self, root):
        done = subprocess.run(root.command("/usr/bin/getmail"), env={"HOME": "/ann"}, capture_output=True, text=True,
                              timeout=programs.SECONDS)
        self.assertEqual((done.returncode, done.stderr), (0, ""))
        return done.stdout


class Demo(Copied):
    """`make demo` with the programs built, and before that, and `make`; the last two with a stand-in for `rt`."""

    def check_told(self, told, *parts):
        """Each part is printed, one after the other."""
        for part in parts:
            self.assertIn(part, told)
            told = told[told.index(part) + len(part):]

    def check_demo(self, path, *parts):
        before = sorted(self.top.rglob("*"))
        self.check_told(self.make("demo", PATH=path), *parts, "$ env popd --listen 127.0.0.1:", "delivered\n", "1 messages (",
                        "Subject: hello\n", "It works.\n", "0 messages (0 bytes) retrieved, 1 skipped, 0 deleted\n",
                        "popd has ended")
        self.assertEqual(sorted(self.top.rglob("*")), before)

    def test_the_message_is_fetched_and_then_known(self):
        self.check_demo(self.path_with())

    def end_of(self, *words, **how):
        """The status and standard error of a run of a script of ours."""
        done = subprocess.run(["python3", *words], cwd=self.top, stderr=subprocess.PIPE, timeout=programs.SECONDS, **how)
        return done.returncode, done.stderr

    def unread(self):
        """An output that nobody reads."""
        read_end, write_end = os.pipe()
        os.close(read_end)
        self.addCleanup(os.close, write_end)
        return write_end

    def test_it_ends_well_if_nobody_reads_on(self):
        self.assertEqual(self.end_of("examples/demo/run.py", stdout=self.unread(), env=programs.environment()), (0, b""))

    def test_a_build_that_is_stopped_ends_in_a_line_and_leaves_nothing(self):
        """If nobody reads on, and by the key that interrupts it, whose signal the stand-in for `rt` sends."""
        self.place.mkdir()
        path = self.path_with("#!/bin/sh\neval $FIRST\nexec sleep 60\n")
        for out, first, told in ((self.unread(), "", b"nothing was built, since nobody reads how far it is\n"),
                                 (subprocess.DEVNULL, "kill -INT $PPID", b"")):
            with self.subTest(first):
                environment = programs.environment(PATH=path, TMPDIR=str(self.place), FIRST=first)
                self.assertEqual(self.end_of("build.py", "getmail", stdout=out, env=environment), (1, told))
                self.assertEqual(list(self.place.iterdir()), [])
                self.assertFalse((self.top / "crates/getmail/out").exists())

    def test_before_any_proof_it_says_so_and_tries_the_programs(self):
        for name in ("getmail", "popd"):
            (self.top / "bin" / name).rename(self.top / f"{name}.built")
        self.check_demo(self.path_with(TRY), "aren't proved yet", "`make` proves them")

    def test_make_proves_the_crates_of_the_programs(self):
        """Those alone, without their mutants and what was built before. It says how far it is."""
        for name in ("getmail", "popd"):
            (self.top / "bin" / name).rename(self.top / f"{name}.built")
            (self.top / "bin" / f"{name}.sha256").unlink()
        for name in ("must-fail", "out"):
            (self.top / "crates/mail_store" / name).mkdir()
        log = self.top.parent / "log"
        told = self.make(PATH=self.path_with(PROVE), LOG=str(log), TOP=str(self.top))
        begun = [line.split() for line in log.read_text().splitlines()]
        crates = len(begun)
        self.assertRegex(told, rf"(?m)^ +0:1\d  {crates - 3} of {crates} crates proved; 1 being proved: getmail$")
        self.assertEqual({what for _, *content in begun for what in content}, {"src"})
        self.assertLessEqual({"mail_store", "getmail", "popd"}, {crate for crate, *_ in begun})
        self.assertNotIn("fetch_runs", {crate for crate, *_ in begun})
        for name in ("getmail", "popd"):
            self.assertTrue(os.access(self.top / "bin" / name, os.X_OK))
        self.make("install", f"DESTDIR={self.place}")

    def test_make_shows_why_a_crate_is_not_proved(self):
        done = subprocess.run(["make"], cwd=self.top, capture_output=True, text=True, env=programs.environment(PATH=self.path_with(FAIL)),
                              timeout=programs.SECONDS)
        self.assertNotEqual(done.returncode, 0)
        self.assertIn("== pop3_wire\nan error\nrt: pop3_wire NOT PROVED\n== rc_file\nrt: rc_file proved\nrt: FAILED: pop3_wire\n", done.stderr)
        self.assertNotIn("all is well", done.stderr)


class Pages(unittest.TestCase):
    """The man pages, by the programs that show them: neither warns of anything."""

    def check(self, *words):
        if not shutil.which(words[0]):
            self.skipTest(f"{words[0]} is not installed")
        for page in sorted((programs.ROOT / "man").iterdir()):
            with self.subTest(page.name):
                done = subprocess.run([*words, page], stdout=subprocess.DEVNULL if words[0] == "groff" else subprocess.PIPE,
                                      stderr=subprocess.PIPE, timeout=programs.SECONDS)
                self.assertEqual((done.returncode, done.stdout or b"", done.stderr), (0, b"", b""))

    def test_mandoc(self):
        self.check("mandoc", "-T", "lint", "-W", "warning")

    def test_groff(self):
        self.check("groff", "-mdoc", "-ww", "-Tutf8")


def readme_blocks(readme=programs.ROOT / "README.md"):
    """The blocks of commands of the README, each a list of lines: they install, set up an account, start its tunnel with
    systemd and without, fetch, fetch by cron, serve, and make from the sources."""
    blocks = re.findall(r"(?:^    .*\n)+", readme.read_text(), re.MULTILINE)
    return [re.findall(r"^    (.*)", block, re.MULTILINE) for block in blocks]


class Readme(Copied):
    """All commands of the README, where it lies, with stand-ins for the editor, the tunnel and what the system has."""

    MESSAGES = [(b"a", b"one\n"), (b"b", b"two\n")]

    def stand_in(self, home, name, text):
        (home / name).write_text(f"#!/bin/sh\n{text}\n")
        (home / name).chmod(0o755)

    def run_lines(self, lines, folder, home, programs_folder=None, **changes):
        """Runs the lines in the folder by bash, as one script, and answers what they print."""
        path = f"{home}:{programs_folder or Path(programs.path_of('getmail')).parent}:{os.environ['PATH']}"
        done = subprocess.run(["bash", "-uc", "\n".join(lines)], cwd=folder, capture_output=True, text=True,
                              env=programs.environment(HOME=str(home), PATH=path, **changes), timeout=programs.SECONDS)
        self.assertEqual((done.returncode, done.stderr), (0, ""))
        return done.stdout

    def check_account(self, readme, folder, programs_folder=None, place=""):
        """From an empty home, with systemd and without, and with an rc file of another program there before."""
        _, account, by_systemd, without, fetch, by_cron, _, _ = readme_blocks(readme)
        self.assertEqual(len(account), 5)
        for tunnel, told in ((by_systemd, "--user enable --now getmail-tunnel.socket\n"),
                             (without, "{home}/.getmail/stunnel.conf\n")):
            with self.subTest(tunnel[0]), Server(self.MESSAGES) as server, tempfile.TemporaryDirectory() as holder:
                home = Path(holder)
                self.stand_in(home, "systemctl", 'echo "$*" > ~/started')
                self.stand_in(home, "stunnel", 'echo "$*" > ~/started')
                self.stand_in(home, "crontab", 'if [ "$1" = -l ]; then cat ~/lines; else cat > ~/new; mv ~/new ~/lines; fi')
                (home / ".getmail").mkdir()
                (home / ".getmail").chmod(0o775)
                (home / ".getmail/getmailrc").write_text("another's")
                threads = [server.begin_session() for _ in range(2)]
                edits = f"sed -i -e s/^server.*/server=127.0.0.1/ -e s/^#.port.*/port={server.port}/"
                lines = [line.replace("/usr/share/", f"{place}/usr/share/") for line in [*account, *tunnel, *fetch, *by_cron]]
                shown = self.run_lines(["umask 002", *lines], folder, home, programs_folder, EDITOR=edits)
                for thread in threads:
                    thread.join(programs.SECONDS)
                self.assertIn("2 of 2 messages (0.0 kB) would be fetched, 0 deleted\n", shown)
                self.assertEqual((home / "started").read_text(), told.format(home=home))
                self.check_home(home)
                self.check_cron(home, tunnel is without, programs_folder)

    def check_home(self, home):
        settings = home / ".getmail"
        self.assertEqual(len(os.listdir(home / "Maildir/new")), len(self.MESSAGES))
        modes = [stat.S_IMODE((settings / name).stat().st_mode) for name in ("getmailrc", "stunnel.conf", "tunnel", ".")]
        self.assertEqual(modes, [0o600, 0o600, 0o700, 0o700])
        maildir = home / "Maildir"
        self.assertEqual({stat.S_IMODE(path.stat().st_mode) for path in (maildir, *maildir.iterdir())}, {0o700})
        self.assertEqual((settings / "getmailrc.~1~").read_text(), "another's")
        text = (settings / "stunnel.conf").read_text()
        self.assertIn("\nconnect = pop.example.net:995\n", text)
        self.assertIn(f"\naccept = {settings}/tunnel/pop3s\n", text)

    def check_cron(self, home, starts_tunnel, programs_folder):
        """The line for cron names the program, and the one for the tunnel starts it with nothing in the environment but HOME."""
        *first, last = (home / "lines").read_text().splitlines()
        folder = programs_folder or Path(programs.path_of("getmail")).parent
        self.assertEqual(last, f"*/10 * * * * {folder}/getmail --unattended")
        self.assertEqual(len(first), int(starts_tunnel))
        if starts_tunnel:
            (home / "started").unlink()
            subprocess.run(["/bin/sh", "-c", first[0].removeprefix("@reboot ")], check=True, timeout=programs.SECONDS,
                           env={"HOME": str(home), "PATH": f"{home}:/usr/bin:/bin"})
            for _ in range(programs.SECONDS * 20):
                if (home / "started").exists():
                    return
                threading.Event().wait(0.05)
            self.fail("cron's line doesn't start the tunnel")

    def test_in_a_checkout(self):
        self.check_account(programs.ROOT / "README.md", programs.ROOT)

    def test_in_an_archive_and_where_it_was_installed(self):
        """Also those that install, in a folder with what `make dist` makes: apt is a stand-in, which looks for the file."""
        install, *_ = readme_blocks()
        self.make("dist")
        home = self.top.parent / "home"
        home.mkdir()
        self.stand_in(home, "apt", '[ "$1" = install ] && [ -f "$2" ] || echo "no file $2" >&2')
        lines = install if shutil.which("dpkg-deb") else install[1:]
        self.run_lines(lines, self.top / "dist", home)
        folder, = (path for path in (self.top / "dist").iterdir() if path.is_dir())
        self.check_account(folder / "README.md", folder, home / ".local/bin")
        self.check_account(home / ".local/share/doc/getmail/README.md", self.place.parent, home / ".local/bin")

    def test_of_the_package(self):
        if not shutil.which("dpkg-deb"):
            self.skipTest("dpkg-deb is not installed")
        self.make("dist")
        package, = (self.top / "dist").glob("*.deb")
        subprocess.run(["dpkg-deb", "-x", package, self.place], check=True, timeout=programs.SECONDS)
        readme = self.place / "usr/share/doc/getmail/README.md"
        self.assertIn("/usr/share/doc/getmail/getmailrc.sample", readme.read_text())
        self.check_account(readme, self.place.parent, self.place / "usr/bin", place=self.place)

    def test_from_the_sources(self):
        """All but `make check`, which is the gate."""
        *lines, check = readme_blocks()[-1]
        self.assertEqual((len(lines), check.split()[:2]), (3, ["make", "check"]))
        home = self.top.parent / "home"
        home.mkdir()
        shown = self.run_lines(lines, self.top, home)
        self.assertIn("It works.\n", shown)
        self.assertTrue((home / ".local/bin/getmail").is_file() and list((self.top / "dist").glob("*.tar.gz")))

    def test_the_command_that_starts_the_tunnel(self):
        """It is that of stunnel.conf, to which a hint leads: also after a kill that has left the socket."""
        tunnel = readme_blocks()[3][0].removeprefix("tunnel='").removesuffix("'")
        self.assertTrue(tunnel.startswith("rm -f ~/.getmail/tunnel/pop3s; "), tunnel)
        self.assertIn(f";      `{tunnel}`.\n", (programs.ROOT / "examples/stunnel.conf").read_text())

    def test_the_line_that_serves(self):
        (line,), port = readme_blocks()[-2], kernel.free_port()
        with tempfile.TemporaryDirectory() as holder:
            self.assertRegex(line, r"^env popd --listen 127\.0\.0\.1:1100 USER PASSFILE MAILDIR$")
            (make_maildir(Path(holder) / "Maildir") / "new/1").write_bytes(MESSAGE)
            (Path(holder) / "password").write_text("sesame\n")
            (Path(holder) / "password").chmod(0o600)
            words = line.replace(":1100", f":{port}").replace("USER PASSFILE MAILDIR", "u password Maildir").split()
            path = f"{Path(programs.path_of('popd')).parent}:{os.environ['PATH']}"
            with subprocess.Popen(words, cwd=holder, env=programs.environment(PATH=path)) as process:
                self.addCleanup(process.kill)
                self.assertTrue(kernel.wait_for_listener(process, port))
                with Account(port) as account:
                    run = account.run()
                process.terminate()
            self.assertIn(b"1 messages (21 bytes) retrieved", run.out)


class Folders(unittest.TestCase):
    """Where a group may write `~/.getmail`, one of it can take the tunnel's place: each text makes it its user's alone."""

    def commands(self):
        """Those of README, getmail(1) and stunnel.conf that make it."""
        account = readme_blocks()[1]
        page = re.findall(r"^\$ (.*)", (programs.ROOT / "man/getmail.1").read_text(), re.MULTILINE)
        sample = (programs.ROOT / "examples/stunnel.conf").read_text()
        found = [account[0], page[0] + "\n" + page[1], *(line for line in page[2:] if "mkdir" in line),
                 *(text for text in re.findall("`([^`]*)`", sample) if "mkdir" in text)]
        self.assertEqual([line.count("mkdir ") for line in found], [1] * 4)
        return found

    def modes(self, command, umask, before):
        """What it leaves in a home that has these folders, which the group may write."""
        with tempfile.TemporaryDirectory() as home:
            for name in before:
                (Path(home) / name).mkdir()
                (Path(home) / name).chmod(0o775)
            subprocess.run(["sh", "-euc", f"umask {umask:o}\n{command}"], check=True, timeout=programs.SECONDS,
                           env=programs.environment(HOME=home))
            return {str(path.relative_to(home)): stat.S_IMODE(path.stat().st_mode) for path in Path(home).rglob("*")}

    def test_whatever_the_umask(self):
        for command, umask in itertools.product(self.commands(), (0o002, 0, 0o022, 0o077)):
            with self.subTest(command, umask=umask):
                modes = self.modes(command, umask, [])
                self.assertIn(".getmail", modes)
                self.assertEqual(set(modes.values()), {0o700})
                self.assertEqual(self.modes(command, umask, [".getmail"])[".getmail"], 0o700)
                if ".getmail/tunnel" in modes:
                    modes = self.modes(command, umask, [".getmail", ".getmail/tunnel"])
                    self.assertEqual((modes[".getmail"], modes[".getmail/tunnel"]), (0o700, 0o700))


class Regular(unittest.TestCase):
    """The commands that fetch regularly."""

    def start(self, account, words):
        path = f"{Path(programs.path_of('getmail')).parent}:{os.environ['PATH']}"
        return subprocess.Popen(words, stdin=subprocess.DEVNULL, stdout=subprocess.PIPE, stderr=subprocess.STDOUT,
                                env={"HOME": str(account.home), "PATH": path, "SHELL": "/bin/sh"})


class Units(unittest.TestCase):
    """What each unit of a service leaves open, by systemd's own measure: at most 4.0 of 10."""

    def test_what_units_leave_open(self):
        if not shutil.which("systemd-analyze"):
            self.skipTest("systemd-analyze is not installed")
        units = sorted((programs.ROOT / "examples").glob("*.service"))
        self.assertEqual(len(units), 5)
        for unit in units:
            with self.subTest(unit.name):
                done = subprocess.run(["systemd-analyze", "security", "--offline=true", "--threshold=40", unit], text=True,
                                      capture_output=True, timeout=programs.SECONDS)
                self.assertEqual((done.returncode, done.stderr), (0, ""), done.stdout[-200:])


class Timer(Regular):
    """The commands of `examples/getmail.service` and of `examples/getmail@.service`."""

    def words(self, unit, account):
        """The words of ExecStart, with this test's program and home."""
        started, = re.findall("^ExecStart=(.*)", (programs.ROOT / "examples" / unit).read_text(), re.MULTILINE)
        started = started.replace("/usr/local/bin/getmail", str(programs.path_of("getmail")))
        return started.replace("%h", str(account.home)).replace("%i", "work").split()

    def run_whole(self, account, words):
        process = self.start(account, words)
        out, _ = process.communicate(timeout=programs.SECONDS)
        return process.returncode, out

    def test_nothing_is_written_where_all_is_well(self):
        for unit in ("getmail.service", "getmail@.service"):
            with self.subTest(unit), Server([(b"a", b"one\n")]) as server, Account(server.port) as account:
                if "@" in unit:
                    account.rcfile.rename(account.folder / "work")
                thread = server.begin_session()
                status, out = self.run_whole(account, self.words(unit, account))
                thread.join(programs.SECONDS)
                self.assertEqual((status, out, len(account.held())), (0, b"", 1))

    def test_a_run_beside_another_ends_at_once(self):
        for unit in ("getmail.service", "getmail@.service"):
            with self.subTest(unit), SilentServer(b"+OK\r\n") as server, Account(server.port) as account:
                shutil.copy(account.rcfile, account.folder / "work")
                first = self.start(account, self.words(unit, account))
                try:
                    self.assertTrue(server.taken.wait(programs.SECONDS))
                    self.assertEqual(self.run_whole(account, self.words(unit, account)), (0, b""))
                    self.assertIsNone(first.poll())
                finally:
                    server.over.set()
                    first.communicate(timeout=programs.SECONDS)


class Cron(Regular):
    """The command of `examples/crontab`, as cron runs it: by `sh`, with nothing on its streams."""

    def command(self):
        lines = (programs.ROOT / "examples" / "crontab").read_text().splitlines()
        path, entry = [line for line in lines if line and not line.startswith("#")]
        self.assertIn("/usr/local/bin", path.removeprefix("PATH=").split(":"))
        return entry.split(maxsplit=5)[5]

    def start(self, account):
        return super().start(account, ["/bin/sh", "-c", self.command()])

    def run_whole(self, account):
        process = self.start(account)
        out, _ = process.communicate(timeout=programs.SECONDS)
        return process.returncode, out

    def test_it_says_nothing_where_all_is_well(self):
        messages = [(b"a", b"one\n"), (b"b", b"two\n")]
        with Server(messages) as server, Account(server.port) as account:
            for _ in range(2):
                thread = server.begin_session()
                self.assertEqual(self.run_whole(account), (0, b""))
                thread.join(programs.SECONDS)
            self.assertEqual(account.held(), messages)

    def test_it_says_what_is_wrong_once(self):
        with Account(1) as account:
            told = b"getmail: cannot connect to 127.0.0.1:1\ngetmail: u@127.0.0.1:1: 127.0.0.1:1: Connection refused\n" \
                b"getmail: u@127.0.0.1:1: is the tunnel started? "
            status, out = self.run_whole(account)
            self.assertEqual((status, out[:len(told)]), (1, told))
            self.assertEqual(self.run_whole(account), (1, b""))

    def test_a_second_run_ends_at_once(self):
        with SilentServer(b"+OK\r\n") as server, Account(server.port) as account:
            first = self.start(account)
            try:
                self.assertTrue(server.taken.wait(programs.SECONDS))
                self.assertEqual(self.run_whole(account), (0, b""))
                self.assertIsNone(first.poll())
            finally:
                server.over.set()
                first.communicate(timeout=programs.SECONDS)
