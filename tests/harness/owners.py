"""What others may control on the way along a path that a program of the superuser's is to go, and what it says of it.

`changes` is a table over one function: each makes one thing on the way another user's, or one that others may write, and says
whether the path is refused then.
"""

import os
import struct
import tempfile
from dataclasses import dataclass
from pathlib import Path
from typing import Callable

NOBODY = 65534
# A user that no line of /etc/passwd has.
NAMELESS = 54321
STAYS = "and the superuser's programs stay with the superuser's own folders: run it as that user"
# How the kernel keeps an access list: entries of a kind, with permissions and a user.
ACCESS_LIST = "system.posix_acl_access"
OWNER, USER, GROUP, MASK, OTHERS = 1, 2, 4, 16, 32
ANY = 0xffffffff


def other_owner(path, owner=NOBODY):
    """What is said of a path of another user's."""
    if owner == NAMELESS:
        return f"{path} belongs to user {owner}, {STAYS} (User={owner} in a unit, docker run --user {owner})"
    return (f"{path} belongs to nobody, {STAYS} (runuser -u nobody --, User=nobody in a unit, "
            f"docker run --user {owner})")


def writable(path):
    """What is said of a path that others may write."""
    mode = os.stat(path).st_mode & 0o7777
    return (f"{path} may be written by others than the superuser: it has mode {mode:o}: chmod go-w {path} ends that, "
            "or another place")


def give_away(path, owner=NOBODY):
    os.chown(path, owner, owner, follow_symlinks=False)


def lead_elsewhere(path):
    """Has a link of the superuser's in the place of something, which is moved to a folder of the superuser's own."""
    elsewhere = Path(tempfile.mkdtemp(dir=path.parent)) / path.name
    path.rename(elsewhere)
    path.symlink_to(elsewhere)


def open_to(path, bits):
    path.chmod(path.stat().st_mode & 0o7777 | bits)


def set_access_list(path):
    """A user may write it, by an access list."""
    entries = ((OWNER, 7, ANY), (USER, 7, NOBODY), (GROUP, 0, ANY), (MASK, 7, ANY), (OTHERS, 0, ANY))
    os.setxattr(path, ACCESS_LIST, struct.pack("<I", 2) + b"".join(struct.pack("<HHI", *entry) for entry in entries))


def has_access_lists(folder):
    """Whether the file system of a folder has access lists."""
    with tempfile.TemporaryDirectory(dir=folder) as made:
        try:
            set_access_list(made)
        except OSError:
            return False
    return True


@dataclass(frozen=True)
class Change:
    """A change of one thing on a way: its path is passed to `make`, which answers what is said of it, or None."""

    name: str
    make: Callable[[Path], str | None]


def given_away(path):
    give_away(path)
    return other_owner(path)


def given_to_nameless(path):
    give_away(path, NAMELESS)
    return other_owner(path, NAMELESS)


def given_away_and_sticky(path):
    give_away(path)
    path.chmod(0o1777)
    return other_owner(path)


def led_by_other(path):
    lead_elsewhere(path)
    give_away(path)
    return other_owner(path)


def led_by_superuser(path):
    lead_elsewhere(path)


def opened_to_group(path):
    open_to(path, 0o020)
    return writable(path)


def opened_to_all(path):
    open_to(path, 0o002)
    return writable(path)


def listed(path):
    set_access_list(path)
    return writable(path)


def sticky(path):
    path.chmod(0o1777)
    return writable(path)


def sticky_above(path):
    path.chmod(0o1777)


def opened_socket(path):
    path.chmod(0o666)


# Of folders, of files and of sockets that are named, and of folders above them.
EACH = (
    Change("another user's", given_away),
    Change("that of a user without a name", given_to_nameless),
    Change("another user's link", led_by_other),
    Change("the superuser's link", led_by_superuser),
)
OPENED = (Change("open to its group", opened_to_group), Change("open to all", opened_to_all))
STICKY = (Change("another user's, and sticky", given_away_and_sticky),)
LISTED = (Change("open to a user by an access list", listed),)


def changes(kind, folder):
    """The changes of a thing on a way: of what is named, a folder, a file or a socket, or of a folder above."""
    lists = LISTED if has_access_lists(folder) else ()
    return {
        "folder": EACH + OPENED + STICKY + lists + (Change("open to all, and sticky", sticky),),
        "file": EACH + OPENED + lists,
        "socket": EACH + (Change("open to all", opened_socket),),
        "above": EACH + OPENED + STICKY + lists + (Change("open to all, and sticky", sticky_above),),
    }[kind]


def levels(top, path):
    """The things on the way from a folder to a path, the path last."""
    inner = path.relative_to(top)
    return [top / Path(*inner.parts[:count]) for count in range(1, len(inner.parts) + 1)]


def snapshot(top):
    """All that is below a folder: the kind, the mode, the owner and the content of each thing."""
    found = {}
    for folder, folders, files in os.walk(top):
        for name in (*folders, *files):
            path = Path(folder) / name
            seen = path.lstat()
            content = path.read_bytes() if path.is_file() and not path.is_symlink() else None
            found[path] = (seen.st_mode, seen.st_uid, content)
    return found
