"""Random lists of single calls on the Maildir of a server, and what case each call is.

A line is a call's name, the number of what was opened or `-`, and a path or how many octets. Another process changes
the Maildir while its folders are closed. After what it does at first all lists rest together, so a look tells any
change that comes next. Later no list rests, so no look is compared with one that came after a change.
"""

import os
from dataclasses import dataclass
from pathlib import Path

from probe.call_lists import MOST, SCRIPT
from probe.comparing import CallList, put

# The names of which a list has some, in both folders. Some have one base; whole names are in another order than bases.
NAMES = ("a", "a:2,S", "a:2,FS", "a-", "a-:2,", "a.b:2,S", "A:1", "é", "é:2,S")
PATHS = tuple(f"{folder}/{name}" for folder in ("new", "cur") for name in NAMES)
# Names that a listing doesn't tell: a hidden one, and one that isn't UTF-8.
UNLISTED = {"hidden": ".a", "not UTF-8": os.fsdecode(b"a\xff")}
# Words that are no names of a listing.
NO_NAMES = (".a", "a/b", "")
TEXTS = ("", "a", SCRIPT[:5], SCRIPT[-5:], SCRIPT * 3)
# Where links lead to.
TARGET = "target"

# Where a name that a call is made on leads to.
LEADS = ("file", "one of two names", "other", "nothing", "removed", "taken", "renamed away", "no name of a listing")
# What became of a name since it was opened.
LATER = ("removed", "taken", "renamed away", "replaced", "opened before the last look")
# What the other process does.
ACTS = ("put", "equal octets", "second name", "to the other folder", "another name", "taken", "folder", "link", "pipe",
        "folder replaced", *UNLISTED)

# Each case that lists have, by the call that it shows.
CASES = {
    "look": ("first", "after a close", "without a close"),
    "look-again": ("no change", "removed", *ACTS, "several"),
    "close": ("open", "closed"),
    "list": ("nothing", "one", "several", "both folders", "one base", "one name in both folders", "names of one file",
             "bases in another order", "beyond ASCII", "no regular file", "removed", *UNLISTED),
    "look-up": LEADS,
    "open": LEADS,
    "fstat": ("file", "one of two names", *LATER),
    "read": ("some", "up to the end", "at the end", "past the end", "another handle", *LATER),
    "skip": ("nothing", "inside", "to the end", "past the end"),
    "unlink": (*LEADS, "equal octets", "open"),
    "other": (*ACTS, "rest"),
}


@dataclass(eq=False)
class File:
    """A file, or with None what isn't a regular one."""

    octets: str | None


@dataclass(eq=False)
class Handle:
    """What was opened, by which name, in which look, and how many octets were read or skipped."""

    path: str
    file: File
    look: int
    place: int = 0


def nothing():
    """What the other process does was done before the program started."""


def link_to_target(path):
    path.symlink_to(f"../{TARGET}")


def take(path):
    if path.is_dir() and not path.is_symlink():
        path.rmdir()
    else:
        path.unlink()


def replace_folder(path):
    """Another folder comes in its place, with the same names."""
    before = path.with_name("before")
    path.rename(before)
    path.mkdir()
    for file in before.iterdir():
        file.rename(path / file.name)
    before.rmdir()


OTHERS = {"folder": Path.mkdir, "link": link_to_target, "pipe": os.mkfifo}


def place(path):
    """What listed files are ordered by."""
    folder, name = path.split("/")
    return name.split(":")[0].encode(), folder, name.encode()


class Builder(CallList):
    """`first` is what the other process does before all lists rest together."""

    def __init__(self, source, folder):
        super().__init__(CASES, source, folder)
        self.paths = source.sample(PATHS, source.choice((4, 8, len(PATHS))))
        self.first, self.rests = [], None
        # What bears the names, how other names went, and which unlisted names are there.
        self.there, self.gone, self.unlisted = {}, {}, []
        self.opened = []
        self.is_open, self.looks, self.last_rests, self.changes = False, 0, False, []

    def text(self):
        return text_of(self.folder, self.lines)

    # ---- the other process

    def let_other(self, act, word, case):
        if self.rests is None:
            self.first.append(act)
            act = (nothing,)
        super().let_other(act, word, case)
        self.change(case)

    def change(self, case):
        self.changes.append(case)
        if self.rests:
            self.rests = False

    def free(self):
        return [path for path in self.paths if path not in self.there]

    def bear(self, path, file):
        self.there[path] = file
        self.gone.pop(path, None)

    def lose(self, path, case):
        self.gone[path] = case
        return self.there.pop(path)

    def put_file(self):
        path, octets = self.source.choice(self.free()), self.source.choice(TEXTS)
        case = "equal octets" if self.has_octets(octets, None) else "put"
        self.let_other((put, self.folder / path, octets), f"put {path} {octets}", case)
        self.bear(path, File(octets))

    def has_octets(self, octets, but):
        return any(file.octets == octets for file in self.there.values() if file is not but)

    def put_other(self):
        path, kind = self.source.choice(self.free()), self.source.choice(tuple(OTHERS))
        self.let_other((OTHERS[kind], self.folder / path), f"put-other {path}", kind)
        self.bear(path, File(None))

    def link(self):
        path = self.source.choice([path for path, file in self.there.items() if file.octets is not None])
        to = self.source.choice(self.free())
        self.let_other((os.link, self.folder / path, self.folder / to), f"link {path} {to}", "second name")
        self.bear(to, self.there[path])

    def rename(self):
        path, to = self.source.choice(list(self.there)), self.source.choice(self.free())
        case = "another name" if path[:4] == to[:4] else "to the other folder"
        self.let_other((os.rename, self.folder / path, self.folder / to), f"rename {path} {to}", case)
        self.bear(to, self.lose(path, "renamed away"))

    def take(self):
        path = self.source.choice(list(self.there))
        self.let_other((take, self.folder / path), f"take {path}", "taken")
        self.lose(path, "taken")

    def change_unseen(self):
        """A change that no listing shows."""
        folder = self.source.choice(("new", "cur"))
        kind = self.source.choice(("folder replaced", *(kind for kind in UNLISTED if kind not in self.unlisted)))
        if kind in UNLISTED:
            self.unlisted.append(kind)
            act = (put, self.folder / folder / UNLISTED[kind], "unlisted")
        else:
            act = (replace_folder, self.folder / folder)
        self.let_other(act, f"unseen {folder}/unseen", kind)

    def act(self):
        acts = [self.change_unseen] * 2
        if self.free():
            acts += [*[self.put_file] * 6, *[self.put_other] * 2]
            acts += [*[self.link] * 2] * any(file.octets is not None for file in self.there.values())
            acts += [*[self.rename] * 2] * bool(self.there)
        acts += [*[self.take] * 2] * bool(self.there)
        self.source.choice(acts)()

    def begin(self):
        """What is there at first. Then all lists rest together, and some see one change after it."""
        for _ in range(self.source.choice((0, 2, 4, 8, 12))):
            self.act()
        self.let_other((nothing,), "rest 4", "rest")
        self.rests = True
        if self.source.randrange(2):
            for call in (self.look, self.list, self.close, self.act, self.look):
                call()

    # ---- folders

    def look(self):
        if self.last_rests:
            self.add("look-again", "-", "-", self.changes[0] if len(self.changes) == 1 else
                     "several" if self.changes else "no change")
        else:
            self.add("look", "-", "-",
                     "without a close" if self.is_open else "after a close" if self.looks else "first")
        self.is_open, self.last_rests, self.changes = True, self.rests, []
        self.looks += 1

    def close(self):
        self.add("close", "-", "-", "open" if self.is_open else "closed")
        self.is_open = False

    def list(self):
        self.add("list", "-", "-", self.source.choice(sorted(self.listed())))

    def listed(self):
        """What the names that are there show."""
        paths = sorted(self.there, key=place)
        names = [path.split("/")[1] for path in paths]
        files = [file for file in self.there.values() if file.octets is not None]
        shown = {
            "nothing": not paths,
            "one": len(paths) == 1,
            "several": len(paths) > 1,
            "both folders": len({path[:4] for path in paths}) == 2,
            "one base": len({place(path)[0] for path in paths}) < len(paths),
            "one name in both folders": len({*names}) < len(names),
            "names of one file": len({*files}) < len(files),
            "bases in another order": names != sorted(names),
            "beyond ASCII": not "".join(names).isascii(),
            "no regular file": len(files) < len(paths),
            "removed": "removed" in self.changes,
        }
        return [*(case for case, holds in shown.items() if holds), *self.unlisted]

    # ---- names

    def leads(self, path):
        """The case of a name."""
        if path[4:] in NO_NAMES:
            return "no name of a listing"
        if path not in self.there:
            return self.gone.get(path, "nothing")
        file = self.there[path]
        if file.octets is None:
            return "other"
        return "one of two names" if [*self.there.values()].count(file) > 1 else "file"

    def path(self):
        kinds = *[[*self.there]] * 5, *[[*self.gone]] * 3, self.paths, [f"new/{self.source.choice(NO_NAMES)}"]
        return self.source.choice(self.source.choice([kind for kind in kinds if kind]))

    def look_up(self):
        path = self.path()
        self.add("look-up", "-", path, self.leads(path))

    def open(self):
        self.open_path(self.path())

    def open_path(self, path):
        self.add("open", "-", path, self.leads(path))
        file = self.there.get(path)
        is_file = file is not None and file.octets is not None
        self.opened.append(Handle(path, file, self.looks) if is_file else None)

    def unlink(self):
        path = self.path()
        case = self.leads(path)
        if case != "file":
            self.add("unlink", "-", path, case)
        elif any(handle and handle.file is self.there[path] for handle in self.opened):
            self.add("unlink", "-", path, "open")
        else:
            file = self.there[path]
            self.add("unlink", "-", path, "equal octets" if self.has_octets(file.octets, file) else "file")
        if case in ("file", "one of two names"):
            self.lose(path, "removed")
            self.change("removed")

    # ---- what was opened

    def any_opened(self):
        return self.source.choice([number for number, handle in enumerate(self.opened) if handle])

    def state(self, handle):
        """How its name has gone, or whether a look came since."""
        if self.there.get(handle.path) is handle.file:
            return None if handle.look == self.looks else "opened before the last look"
        return "replaced" if handle.path in self.there else self.gone[handle.path]

    def fstat(self):
        number = self.any_opened()
        handle = self.opened[number]
        self.add("fstat", number, "-", self.state(handle) or self.leads(handle.path))

    def read(self):
        self.read_by(self.any_opened(), self.source.choice((1, 2, 5, MOST)))

    def read_by(self, number, count):
        handle = self.opened[number]
        left = len(handle.file.octets) - handle.place
        case = "some" if count < left else "up to the end" if left > 0 else "past the end" if left else "at the end"
        if any(other and other is not handle and other.file is handle.file and other.place for other in self.opened):
            case = "another handle"
        self.add("read", number, count, self.state(handle) or case)
        handle.place += max(0, min(count, left))

    def skip(self):
        number = self.any_opened()
        handle = self.opened[number]
        left = len(handle.file.octets) - handle.place
        count = self.source.choice((0, 1, 2, max(0, left), max(0, left) + 3))
        self.add("skip", number, count, "nothing" if not count else "inside" if count < left else
                 "to the end" if count == left else "past the end")
        handle.place += count

    # ---- all

    def choices(self):
        """The calls that can be made now, as often as they shall come."""
        calls = [self.close]
        if self.is_open:
            calls += [self.look, *[self.list] * 3, self.close]
            calls += [*[self.look_up] * 6, *[self.open] * 4, *[self.unlink] * 3]
        else:
            calls += [*[self.look] * 4, *[self.act] * 4]
        if any(self.opened):
            calls += [*[self.fstat] * 2, *[self.read] * 4, *[self.skip] * 2]
        return calls

    def end(self):
        """What is there at the end: each name, and its file, read by a handle of its own."""
        self.look()
        self.list()
        for path in sorted(self.there):
            self.open_path(path)
            if self.opened[-1]:
                for _ in range(len(self.there[path].octets) // MOST + 1):
                    self.read_by(len(self.opened) - 1, MOST)
        self.close()


def make_maildir(folder):
    for name in ("tmp", "new", "cur"):
        (folder / name).mkdir(parents=True)
    (folder / TARGET).write_text("target")


def text_of(folder, lines):
    return "".join(f"{line}\n" for line in [folder, *lines])


def random_list(source, folder):
    builder = Builder(source, folder)
    builder.begin()
    for _ in range(source.choice((10, 25, 50))):
        source.choice(builder.choices())()
    builder.end()
    return builder
