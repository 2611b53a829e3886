"""Random lists of single calls on the folders `new` and `cur` of a Maildir, with a reader's moves before them, and what case
each call is.

A line is a call's name, the number of a file that was made or opened or `-`, and a name, a folder, stems or octets. A reader, which is
another process, moves, marks or takes away at most one file before a call, and never so that a file comes to a name that
something has; calls on `tmp` it doesn't see.
"""

import re
from dataclasses import dataclass, replace
from pathlib import Path

from probe.call_lists import SCRIPT
from probe.comparing import CallList
from probe.watched import name_of

# The names of which a listing tells those that are there, and one that it doesn't.
NAMES = (*(name_of(number) for number in (1, 2, 3)), "other")
# What can't be opened has this one in both folders.
ODD = name_of(4)
# What becomes of a name that a file is to get.
FREE = {"nothing": "free", "moved away": "moved away", "file": "taken",
        "what can't be opened": "taken by what can't be opened"}
# What marks a file in `cur`.
MARKS = re.compile(":2,[A-Z]*$")

# Each case that lists have, by the call that it shows.
CASES = {
    "create": ("free",),
    "made-write": ("octets", "nothing"),
    "made-fsync": ("octets", "nothing"),
    "link": ("free", "taken", "taken by what can't be opened", "moved away"),
    "stat-name": ("file", "nothing", "what can't be opened", "moved away"),
    "open": ("file", "nothing", "what can't be opened", "moved away"),
    "fstat": ("file", "moved away"),
    "lstat": ("file", "nothing", "what can't be opened", "moved away"),
    "rename": ("free", "taken", "taken by what can't be opened", "moved away"),
    "unlink": ("made", "linked"),
    "stat": ("never listed", "rests", "changed"),
    "list": ("new", "cur", "something went"),
    "list-all": ("new", "cur", "something went"),
    "flush-pass": ("one", "several", "one without a file"),
    "fsync-folder": ("new", "cur"),
    "other": ("to cur", "to new", "another mark", "away from new", "away from cur"),
}


@dataclass
class File:
    """A file, and the name that it had first in `new`; its marks if it is in `cur`, and whether it is still there."""

    folder: str
    base: str
    octets: str
    marks: str = "S"
    is_gone: bool = False

    @property
    def path(self):
        return f"new/{self.base}" if self.folder == "new" else f"cur/{self.base}:2,{self.marks}"


class Builder(CallList):
    """`steps` is what the reader does before each call that it may precede."""

    def __init__(self, source, folder):
        super().__init__(CASES, source, folder)
        # In folders with what can't be opened, names aren't listed whatever they lead to: the model leaves those out.
        self.obstacles = [ODD][:source.randrange(2)]
        self.steps, self.made, self.ready, self.linked, self.opened = [], [], [], [], []
        # The files by their places in memory, where one that was taken away stays until a folder is listed.
        self.files = []
        self.rests = {"new": None, "cur": None}
        self.left = set()

    def text(self):
        return text_of(self.folder, self.steps, self.obstacles, self.lines)

    # ---- what is there

    def there(self):
        return [file for file in self.files if not file.is_gone]

    def paths(self):
        return {file.path for file in self.there()}

    def touch(self, *folders):
        """These folders don't rest."""
        for folder in folders:
            if self.rests[folder]:
                self.rests[folder] = False

    def at(self, path):
        """The case of a name in a folder."""
        if Path(path).name in self.obstacles:
            return "what can't be opened"
        if path in self.paths():
            return "file"
        return "moved away" if path in self.left else "nothing"

    def path(self):
        """A name in one of the folders. In memory all files in `cur` have the same marks."""
        marked = {file.base for file in self.there() if file.folder == "cur" and file.marks != "S"}
        paths = [*(f"new/{name}" for name in (*NAMES, ODD)), f"cur/{ODD}",
                 *(f"cur/{name}:2,S" for name in NAMES if name not in marked)]
        return self.source.choice([*paths, *[path for path in paths if path in self.paths()] * 2])

    # ---- the reader

    def let_reader_move(self):
        """What the reader does before the next call."""
        place = self.source.randrange(len(self.files)) if self.files and self.source.randrange(4) == 0 else None
        if place is None or self.files[place].is_gone:
            self.steps.append("rest")
        elif self.source.randrange(4) == 0:
            self.take(place)
        else:
            self.move(place)

    def take(self, place):
        file = self.files[place]
        self.steps.append(f"away:{place}")
        self.let_other((Path.unlink, self.folder / file.path), file.path, f"away from {file.folder}")
        self.left.add(file.path)
        self.touch(file.folder)
        file.is_gone = True

    def move(self, place):
        file = self.files[place]
        to = self.source.choice(("new", "cur")) if file.folder == "cur" else "cur"
        moved = replace(file, folder=to, marks=self.source.choice(("S", "FS")))
        if moved.path in self.paths():
            self.steps.append("rest")
            return
        self.steps.append(f"{to}:{place}")
        self.let_other((Path.rename, self.folder / file.path, self.folder / moved.path), f"{file.path} {moved.path}",
                       f"to {to}" if to != file.folder else "another mark")
        self.left.add(file.path)
        self.touch(file.folder, to)
        self.files[place] = moved

    # ---- files without a name

    def create(self):
        self.add("create", "-", f"made-{len(self.made)}", "free")
        self.ready.append(len(self.made))
        self.made.append("")

    def write(self):
        number = self.source.choice(self.ready)
        octets = SCRIPT[:self.source.choice((0, 1, 5, 12))]
        self.add("made-write", number, octets, "octets" if octets else "nothing")
        self.made[number] += octets

    def flush(self):
        number = self.source.choice(self.ready)
        self.add("made-fsync", number, "-", "octets" if self.made[number] else "nothing")

    def name(self):
        return self.source.choice((*NAMES, *NAMES, ODD))

    def put(self, call):
        """Gives a file that was made a name, if that is free; answers whether it has it."""
        self.let_reader_move()
        number, name = self.source.choice(self.ready), self.name()
        case = FREE[self.at(f"new/{name}")]
        self.add(call, number, name, case)
        if case in ("free", "moved away"):
            self.ready.remove(number)
            self.files.append(File("new", name, self.made[number]))
            self.touch("new")
            return number
        return None

    def link(self):
        number = self.put("link")
        if number is not None:
            self.linked.append(number)

    def rename(self):
        self.put("rename")

    def unlink(self):
        number = self.source.choice([*self.ready, *self.linked])
        self.add("unlink", number, "-", "linked" if number in self.linked else "made")
        (self.linked if number in self.linked else self.ready).remove(number)

    # ---- folders

    def look(self, call):
        self.let_reader_move()
        path = self.path()
        self.add(call, "-", path, self.at(path))
        return path

    def stat_name(self):
        self.look("stat-name")

    def open(self):
        """Opens a name, if stat(2) says that it is that of a file. The reader makes no move between the two."""
        path = self.look("open")
        is_file = self.at(path) == "file"
        self.steps += ["rest"] * is_file
        self.opened.append(path if is_file else None)

    def lstat(self):
        self.look("lstat")

    def fstat(self):
        number = self.source.choice([number for number, path in enumerate(self.opened) if path])
        self.add("fstat", number, "-", "file" if self.opened[number] in self.paths() else "moved away")

    def stat(self):
        self.let_reader_move()
        folder = self.source.choice(("new", "cur"))
        cases = {None: "never listed", True: "rests", False: "changed"}
        self.add("stat", "-", folder, cases[self.rests[folder]])

    def list(self):
        self.let_reader_move()
        self.list_one(self.source.choice(("new", "cur")))

    def list_one(self, folder):
        lists_all = not self.obstacles and self.source.randrange(3) == 0
        self.add("list-all" if lists_all else "list", "-", folder,
                 "something went" if len(self.there()) < len(self.files) else folder)
        self.files = self.there()
        self.rests[folder] = True

    def flush_pass(self):
        self.let_reader_move()
        bases = {file.base for file in self.there()}
        chosen = self.source.sample(NAMES[:3], self.source.choice((1, 2)))
        case = ("one" if len(chosen) == 1 else "several") if bases.issuperset(chosen) else "one without a file"
        self.add("flush-pass", "-", " ".join(base.split(",")[0] for base in chosen), case)

    def fsync_folder(self):
        self.let_reader_move()
        folder = self.source.choice(("new", "cur"))
        self.add("fsync-folder", "-", folder, folder)

    # ---- all

    def choices(self):
        """The calls that can be made now, as often as they shall come."""
        calls = [*[self.create] * 3, self.stat_name, self.open, self.lstat, *[self.stat] * 2, self.list, self.flush_pass,
                 self.fsync_folder]
        if self.ready:
            calls += [*[self.write] * 2, self.flush, *[self.link] * 4, *[self.rename] * 3]
        if self.ready or self.linked:
            calls.append(self.unlink)
        if any(self.opened):
            calls.append(self.fstat)
        return calls

    def end(self):
        """Both folders are listed."""
        for folder in ("new", "cur"):
            self.steps.append("rest")
            self.list_one(folder)


def make_maildir(folder, obstacles):
    """What can't be opened, links to themselves, has names in `new` and in `cur`."""
    for name in ("tmp", "new", "cur"):
        (folder / name).mkdir(parents=True)
    for name in ("new", "cur"):
        for obstacle in obstacles:
            (folder / name / obstacle).symlink_to(obstacle)


def text_of(folder, steps, obstacles, lines):
    front = [str(folder), " ".join(steps or ["rest"]), " ".join(obstacles)]
    return "".join(f"{line}\n" for line in [*front, *lines])


def random_list(source, folder):
    builder = Builder(source, folder)
    for _ in range(source.choice((5, 15, 30))):
        source.choice(builder.choices())()
    builder.end()
    return builder
