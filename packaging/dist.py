#!/usr/bin/env python3
"""Writes dist/quailtuffet-VERSION-linux-ARCH.tar.gz and, if dpkg-deb is installed, dist/quailtuffet_VERSION_ARCH.deb.

    packaging/dist.py                      # both
    packaging/dist.py --package FOLDER     # the package alone, in FOLDER, as debian/rules wants it

Both hold the programs of bin/, which have to be there and need only the C library. The archive installs itself by its
own install.sh; debian/ says what the package is. The same files give the same octets: the time of each file is that of
SOURCE_DATE_EPOCH, or of the last commit.
"""

import gzip
import hashlib
import os
import re
import shutil
import subprocess
import sys
import tarfile
import tempfile
import time
from pathlib import Path

TOP = Path(__file__).resolve().parent.parent
CONTENT = ("bin/getmail", "bin/popd", "Makefile", "install.sh", "README.md", "CHANGELOG.md", "LICENSE", "NOTICES", "man",
           "completions", "examples", "docs/FROM-GETMAIL6.md", "docs/getmailrc.sample")
# What demo runs leave in the repository.
LEFT_OUT = re.compile(r"__pycache__|/seen-|/lock-|\.pyc$")
# Debian's getmail6 breaks every package `getmail` below version 6.7, so this one has a name of its own.
NAME = "quailtuffet"


def version():
    """The version that CHANGELOG.md begins with."""
    return re.search(r"^## (\d+(?:\.\d+)+)", (TOP / "CHANGELOG.md").read_text(), re.MULTILINE)[1]


def moment():
    """The time that every file gets, in seconds since 1970."""
    if "SOURCE_DATE_EPOCH" in os.environ:
        return int(os.environ["SOURCE_DATE_EPOCH"])
    told = subprocess.run(["git", "-C", TOP, "log", "-1", "--format=%ct"], capture_output=True, text=True)
    return int(told.stdout) if told.returncode == 0 and told.stdout.strip() else int(time.time())


def oldest_libc():
    """The oldest C library that has all that the programs ask for."""
    asked = {tuple(map(int, found)) for name in ("getmail", "popd")
             for found in re.findall(rb"GLIBC_(\d+)\.(\d+)", (TOP / "bin" / name).read_bytes())}
    return ".".join(map(str, max(asked, default=(2, 17))))


def write_archive(name, seconds):
    """Writes the archive of that name and answers its path."""
    def settle(entry):
        if LEFT_OUT.search(entry.name):
            return None
        entry.uid = entry.gid = 0
        entry.uname = entry.gname = "root"
        entry.mtime = seconds
        entry.mode = 0o755 if entry.isdir() or entry.mode & 0o100 else 0o644
        return entry

    path = TOP / "dist" / f"{name}.tar.gz"
    with path.open("wb") as file, gzip.GzipFile("", "wb", mtime=seconds, fileobj=file) as packed, \
            tarfile.open(fileobj=packed, mode="w") as archive:
        for part in CONTENT:
            archive.add(TOP / part, f"{name}/{part}", filter=settle)
    return path


def compress(path):
    """Puts a gzip file, which names no time, in the place of the file."""
    with Path(f"{path}.gz").open("wb") as file, gzip.GzipFile("", "wb", 9, file, mtime=0) as packed:
        packed.write(path.read_bytes())
    path.unlink()


def indented(text):
    """A text as a field of a control file continues with it."""
    return "".join(f" {line or '.'}\n" for line in text.strip().splitlines())


def copyright_text():
    """Debian's copyright file, which ends with a comment: the notices of what is linked in follow there."""
    return (TOP / "debian/copyright").read_text() + indented((TOP / "NOTICES").read_text())


def control(size):
    """The package's control file, from both parts of debian/control, for files of so many kilobytes."""
    source, package = (TOP / "debian/control").read_text().split("\n\n", 1)
    both = re.findall(r"^(?:Section|Priority|Maintainer): .*\n", source, re.MULTILINE)
    more = "".join([f"Version: {version()}\n", f"Installed-Size: {size}\n", *both])
    return package.replace("${shlibs:Depends}", f"libc6 (>= {oldest_libc()})").replace("Description: ", f"{more}Description: ")


def fill_tree(tree):
    """Installs into the tree, as Debian wants it: compressed pages and change log, its copyright file, its zsh folder."""
    install = {**os.environ, "DESTDIR": str(tree), "PREFIX": "/usr"}
    subprocess.run([TOP / "install.sh"], env=install, check=True)
    for name in ("getmail", "popd"):
        if shutil.which("strip"):
            subprocess.run(["strip", "--remove-section=.comment", "--remove-section=.note", tree / "usr/bin" / name],
                           check=True)
    docs = (tree / "usr/share/doc/getmail").rename(tree / "usr/share/doc" / NAME)
    (tree / "usr/share/doc/getmail").symlink_to(NAME)
    (docs / "copyright").write_text(copyright_text())
    shutil.copy(TOP / "debian/changelog", docs / "changelog")
    shutil.copy(TOP / "debian/NEWS", docs / "NEWS.Debian")
    for name in ("LICENSE", "NOTICES"):
        (docs / name).unlink()
    for page in [docs / "changelog", docs / "NEWS.Debian", *(tree / "usr/share/man").glob("man?/*")]:
        compress(page)
    (tree / "usr/share/zsh/site-functions").rename(tree / "usr/share/zsh/vendor-completions")


def write_package(seconds, place):
    """Writes the package into the folder `place` and answers its path."""
    with tempfile.TemporaryDirectory() as folder:
        tree = Path(folder) / "tree"
        tree.mkdir(mode=0o755)
        fill_tree(tree)
        files = sorted(Path(folder, name) for folder, _, names in os.walk(tree) for name in names)
        (tree / "DEBIAN").mkdir()
        (tree / "DEBIAN/md5sums").write_text("".join(
            f"{hashlib.md5(path.read_bytes()).hexdigest()}  {path.relative_to(tree)}\n" for path in files))
        for script in ("postinst", "prerm"):
            shutil.copy(TOP / "debian" / script, tree / "DEBIAN" / script)
        described = control(sum(-(-path.stat().st_size // 1024) for path in files))
        (tree / "DEBIAN/control").write_text(described)
        for path in (tree, *tree.rglob("*")):
            path.chmod(0o755 if path.is_dir() or path.stat().st_mode & 0o100 else 0o644)
            os.utime(path, (seconds, seconds))
        arch = re.search("^Architecture: (.*)", described, re.MULTILINE)[1]
        path = place / f"{NAME}_{version()}_{arch}.deb"
        subprocess.run(["dpkg-deb", "--root-owner-group", "--build", tree, path], check=True, stdout=subprocess.DEVNULL,
                       env={**os.environ, "SOURCE_DATE_EPOCH": str(seconds)})
    return path


def main():
    os.umask(0o022)
    for name in ("getmail", "popd"):
        if not (TOP / "bin" / name).is_file():
            sys.exit(f"bin/{name} is not there; `make` builds it")
    if sys.argv[1:2] == ["--package"]:
        return print(write_package(moment(), Path(sys.argv[2])))
    (TOP / "dist").mkdir(exist_ok=True)
    seconds = moment()
    print(write_archive(f"{NAME}-{version()}-linux-{os.uname().machine}", seconds).relative_to(TOP))
    if shutil.which("dpkg-deb"):
        print(write_package(seconds, TOP / "dist").relative_to(TOP))
    else:
        print("dpkg-deb is not installed: no .deb was written")


if __name__ == "__main__":
    main()
