"""Random lists of single calls of a file system, and what case each call is.

A line is a call's name, the number of a handle or `-`, and a path, octets or a number. Handles are numbered in the order in
which they were asked for: files that were made, and what was opened. A file is made at a path that no other call is given
and renamed once, and files are asked for by one path; the rest is at random, also what is refused. Another process puts
files under their names between the calls.
"""

from probe.comparing import CallList, put

NAMES = ("a", "b")
SCRIPT = "abcdefghijklmnopqrstuvwxyz"
# The most octets that a call reads.
MOST = 64

# Each case that lists have, by the call that it shows.
CASES = {
    "create": ("free", "taken"),
    "made-write": ("octets", "nothing"),
    "made-fsync": ("octets", "nothing"),
    "rename": ("free", "in place of a file", "in place of an open file", "onto the folder"),
    "unlink": ("made",),
    "stat": ("file", "nothing", "folder", "renamed away", "unlinked"),
    "open": ("file", "nothing", "folder"),
    "open-append": ("file", "nothing", "folder"),
    "fstat": ("file", "folder", "replaced", "after a rename elsewhere"),
    "read": ("some", "up to the end", "at the end", "past the end", "folder", "replaced", "opened to append",
             "after a rename elsewhere", "what another handle appended", "what was once past the end"),
    "lseek": ("inside", "past the end"),
    "write": ("octets", "nothing", "after a cut", "replaced", "opened to read", "after a rename elsewhere"),
    "ftruncate": ("shorter", "as it is", "longer", "replaced", "opened to read", "after a rename elsewhere"),
    "fsync": ("file", "replaced", "opened to read"),
    "fsync-folder": ("folder",),
    "other": ("free", "in place of a file", "in place of an open file"),
}


class File:
    """What is known of a file: how many octets it has, and what was done to it last."""

    def __init__(self, size=0):
        self.size = size
        self.is_cut = False
        self.writer = None


class Handle:
    """What was opened: a file, or None for the folder."""

    def __init__(self, name, file, appends, turn):
        self.name, self.file, self.appends, self.turn = name, file, appends, turn
        self.place = 0
        self.was_past_end = False


class Builder(CallList):
    def __init__(self, source, folder):
        super().__init__(CASES, source, folder)
        self.named, self.made, self.opened = {}, [], []
        self.ready, self.gone = [], []
        self.turn = 0
        self.ends_from = None

    def text(self):
        return text_of(self.folder, self.lines)

    def path(self, name):
        return f"{self.folder}/{name}"

    def octets(self):
        length = self.source.choice((0, 1, 2, 5, 12))
        return SCRIPT[:length] if self.source.randrange(2) else SCRIPT[-length:] if length else ""

    # ---- files without a name

    def create(self):
        if self.named and self.source.randrange(6) == 0:
            self.add("create", "-", self.path(self.source.choice(sorted(self.named))), "taken")
            self.made.append(None)
            return
        self.add("create", "-", self.path(f"made-{len(self.made)}"), "free")
        self.ready.append(len(self.made))
        self.made.append(File())

    def write_made(self):
        number = self.source.choice(self.ready)
        octets = self.octets()
        self.add("made-write", number, octets, "octets" if octets else "nothing")
        self.made[number].size += len(octets)

    def flush_made(self):
        number = self.source.choice(self.ready)
        self.add("made-fsync", number, "-", "octets" if self.made[number].size else "nothing")

    def rename(self):
        number = self.source.choice(self.ready)
        if self.source.randrange(12) == 0:
            self.add("rename", number, self.folder, "onto the folder")
            return
        self.ready.remove(number)
        name = self.source.choice(NAMES)
        self.add("rename", number, self.path(name), self.replacing(name))
        self.gone.append((number, "renamed away"))
        self.name(name, self.made[number])

    def replacing(self, name):
        """What a file is put in the place of."""
        if any(handle.file is self.named.get(name) for handle in self.opened if handle and handle.file):
            return "in place of an open file"
        return "in place of a file" if name in self.named else "free"

    def name(self, name, file):
        self.named[name] = file
        self.turn += 1

    def put_as_other(self):
        name, octets = self.source.choice(NAMES), self.octets()
        self.let_other((put, self.folder / name, octets), f"{self.path(name)} {octets}", self.replacing(name))
        self.name(name, File(len(octets)))

    def unlink(self):
        number = self.source.choice(self.ready)
        self.ready.remove(number)
        self.add("unlink", number, "-", "made")
        self.gone.append((number, "unlinked"))

    # ---- paths

    def anything(self):
        """A path, what is there, and its case."""
        kind = self.source.choice(("file",) * 8 + ("nothing", "folder"))
        if kind == "folder":
            return self.folder, None, "folder"
        name = self.source.choice(NAMES if kind == "file" else ("d", "e"))
        return self.path(name), name, "file" if name in self.named else "nothing"

    def stat(self):
        path, _, case = self.anything()
        if self.gone and self.source.randrange(3) == 0:
            number, case = self.source.choice(self.gone)
            path = self.path(f"made-{number}")
        self.add("stat", "-", path, case)

    def open(self):
        path, name, case = self.anything()
        appends = self.source.randrange(2) == 1
        self.add("open-append" if appends else "open", "-", path, case)
        is_open = case == "file" or (case == "folder" and not appends)
        self.opened.append(Handle(name, self.named.get(name), appends, self.turn) if is_open else None)

    # ---- open files

    def any_opened(self):
        return self.source.choice([number for number, handle in enumerate(self.opened) if handle])

    def state(self, handle, otherwise):
        """Whether the file has lost its name, or another one got a name."""
        if handle.file is not self.named[handle.name]:
            return "replaced"
        return otherwise if handle.turn == self.turn else "after a rename elsewhere"

    def fstat(self):
        number = self.any_opened()
        handle = self.opened[number]
        self.add("fstat", number, "-", self.state(handle, "file") if handle.file else "folder")

    def read(self):
        self.read_by(self.any_opened(), self.source.choice((1, 2, 5, MOST)))

    def read_by(self, number, count):
        handle = self.opened[number]
        self.add("read", number, count, self.reading(handle, count))
        if handle.file and not handle.appends:
            more = max(0, min(count, handle.file.size - handle.place))
            handle.place += more
            handle.was_past_end = handle.was_past_end and not more

    def reading(self, handle, count):
        if not handle.file:
            return "folder"
        if handle.appends:
            return "opened to append"
        left = handle.file.size - handle.place
        if left > 0 and handle.was_past_end:
            return "what was once past the end"
        if left <= 0:
            case = "at the end" if left == 0 else "past the end"
        elif handle.file.writer not in (None, handle):
            case = "what another handle appended"
        else:
            case = "some" if count < left else "up to the end"
        return self.state(handle, case)

    def seek(self):
        number = self.any_opened()
        handle = self.opened[number]
        if handle.file:
            place = self.source.randrange(handle.file.size + 6)
            handle.place, handle.was_past_end = place, place > handle.file.size
            self.add("lseek", number, place, "past the end" if handle.was_past_end else "inside")

    def write(self):
        number = self.any_opened()
        handle, octets = self.opened[number], self.octets()
        if not handle.appends:
            self.add("write", number, octets, "opened to read")
            return
        case = "after a cut" if octets and handle.file.is_cut else "octets" if octets else "nothing"
        self.add("write", number, octets, self.state(handle, case))
        handle.file.size += len(octets)
        if octets:
            handle.file.is_cut, handle.file.writer = False, handle

    def cut(self):
        number = self.any_opened()
        handle = self.opened[number]
        if not handle.file:
            return
        size = handle.file.size
        length = self.source.choice((0, size // 2, size, size + 3))
        if length > size:
            self.add("ftruncate", number, length, "longer")
        elif not handle.appends:
            self.add("ftruncate", number, length, "opened to read")
        else:
            self.add("ftruncate", number, length, self.state(handle, "shorter" if length < size else "as it is"))
            handle.file.size, handle.file.is_cut = length, True

    def flush(self):
        number = self.any_opened()
        handle = self.opened[number]
        if not handle.file:
            self.add("fsync-folder", number, "-", "folder")
        elif self.state(handle, "") == "replaced":
            self.add("fsync", number, "-", "replaced")
        else:
            self.add("fsync", number, "-", "file" if handle.appends else "opened to read")

    # ---- all

    def choices(self):
        """The calls that can be made now, as often as they shall come."""
        calls = [*[self.create] * 3, self.stat, self.put_as_other]
        if self.ready:
            calls += [*[self.write_made] * 4, self.flush_made, *[self.rename] * 4, *[self.unlink] * self.source.randrange(2)]
        if self.named:
            calls += [self.open] * 4
        if any(self.opened):
            calls += [self.fstat, *[self.read] * 5, *[self.seek] * 3, *[self.write] * 5, *[self.cut] * 2, self.flush]
        return calls

    def end(self):
        """What is there at the end: each name's file, read by a handle of its own."""
        self.ends_from = len(self.lines)
        for name in NAMES:
            self.add("stat", "-", self.path(name), "file" if name in self.named else "nothing")
            if name in self.named:
                self.add("open", "-", self.path(name), "file")
                self.opened.append(Handle(name, self.named[name], False, self.turn))
                for _ in range(self.named[name].size // MOST + 1):
                    self.read_by(len(self.opened) - 1, MOST)


def text_of(folder, lines):
    return "".join(f"{line}\n" for line in [str(folder), *lines])


def random_list(source, folder):
    builder = Builder(source, folder)
    for _ in range(source.choice((10, 30, 60))):
        source.choice(builder.choices())()
    builder.end()
    return builder
