"""What a loss of power can leave of the changes that `note_changes.c` wrote down.

The model knows nothing of mail: it has a tree of files below one folder and what was done to it. What was flushed is on
the disk. Of the rest each thing may be there or not by itself:

- a name of a folder leads to what it led to when the folder was last flushed, or to anything that it led to since;
- each block of a write (512 octets of the file, at a multiple of that, or fewer) is there, is there up to its half, is
  zeros, or is missing; blocks that are missing before one that is there are zeros, as the system reads a hole;
- a new length of a file holds or doesn't.

A flush of a file doesn't flush its name, and one of a folder doesn't flush what is in its files.
"""

import itertools
import math
import os
from dataclasses import dataclass
from pathlib import Path

BLOCK = 512


@dataclass(frozen=True)
class Name:
    """A path leads to a file from here on, or to none."""

    path: str
    file: int | None


@dataclass(frozen=True)
class Write:
    """Octets of one block were written at a place of a file."""

    file: int
    place: int
    octets: bytes


@dataclass(frozen=True)
class Length:
    """A file has this length from here on."""

    file: int
    size: int


@dataclass(frozen=True)
class Flush:
    """A file was flushed; `path` is where it is."""

    file: int
    path: str


@dataclass(frozen=True)
class FlushFolder:
    """The names of a folder were flushed."""

    path: str


@dataclass(frozen=True)
class Sent:
    """Octets were written to a socket or a pipe."""

    octets: bytes


def files_below(root):
    """The path of each file below `root`, taken from there."""
    return [os.path.relpath(os.path.join(folder, name), root) for folder, _, names in os.walk(root) for name in names]


def read_tree(root):
    """The content of each file below `root`."""
    return {path: (Path(root) / path).read_bytes() for path in files_below(root)}


def blocks_of(file, place, octets, block):
    """A write, cut where the blocks of the file begin."""
    while octets:
        room = block - place % block
        yield Write(file, place, octets[:room])
        place, octets = place + room, octets[room:]


def rows_of(note):
    """The rows that the watch wrote down: words without the count of bytes, and the bytes."""
    rows = []
    while note:
        row, _, note = note.partition(b"\n")
        *words, size = row.decode().split("\t")
        rows.append((words, note[:int(size)]))
        note = note[int(size):]
    return rows


class Watched:
    """The tree below a folder before a program runs, and the numbers of its files. Some paths have larger blocks."""

    def __init__(self, root, blocks=None):
        self.root = Path(root).resolve()
        self.blocks = blocks or {}
        self.paths = {path: number for number, path in enumerate(sorted(files_below(self.root)))}
        self.start = read_tree(self.root)
        self.inodes = {(self.root / path).stat().st_ino: number for path, number in self.paths.items()}
        self.fresh = itertools.count(len(self.paths))

    def changes(self, note):
        """What the rows of a note say, in order; a second note goes on where the first one ended."""
        return [change for words, octets in rows_of(note) for change in self._changes_of(words, octets)]

    def _path(self, path):
        """The path taken from the root; None outside of it."""
        return os.path.relpath(path, self.root) if path.startswith(f"{self.root}/") else None

    def _changes_of(self, words, octets):
        word, *rest = words
        if word == "send":
            return [Sent(octets)]
        if word == "flush-folder":
            path = self._path(rest[0])
            return [] if path is None else [FlushFolder(path)]
        if word in ("make", "rename", "link", "unlink"):
            return self._names_of(word, rest)
        file = self.inodes.get(int(rest[0]))
        if file is None:
            return []
        path = next((path for path, named in self.paths.items() if named == file), "")
        if word == "write":
            return list(blocks_of(file, int(rest[1]), octets, self.blocks.get(path, BLOCK)))
        if word == "length":
            return [Length(file, int(rest[1]))]
        return [Flush(file, path)]

    def _names_of(self, word, rest):
        if word == "make":
            if self._path(rest[1]) is None:
                return []
            number = self.inodes[int(rest[0])] = next(self.fresh)
            return [self._name(rest[1], number)]
        file = self.paths.get(self._path(rest[0]))
        if file is None:
            return []
        names = [self._name(rest[1], file)] if word != "unlink" else []
        return names + ([self._name(rest[0], None)] if word != "link" else [])

    def _name(self, path, file):
        path = self._path(path)
        if file is None:
            self.paths.pop(path, None)
        else:
            self.paths[path] = file
        return Name(path, file)


WAYS = {Write: ("whole", "half", "zeros", "missing"), Length: ("whole", "missing")}


def put(content, change, way):
    """The content of a file once a change is there in that way."""
    if way == "missing":
        return content
    if isinstance(change, Length):
        return content[:change.size].ljust(change.size, b"\0")
    octets = {"whole": change.octets, "half": change.octets[:len(change.octets) // 2],
              "zeros": bytes(len(change.octets))}[way]
    return content[:change.place].ljust(change.place, b"\0") + octets + content[change.place + len(octets):]


class Disk:
    """What is flushed, and what isn't yet, after some of the changes."""

    def __init__(self, watched_start):
        self.names = {path: [number] for number, path in enumerate(sorted(watched_start))}
        self.flushed = {number: watched_start[path] for number, path in enumerate(sorted(watched_start))}
        self.waiting = {}

    def take(self, change):
        """Takes the next change."""
        match change:
            case Name(path, file):
                self.names.setdefault(path, [None]).append(file)
            case Write(file) | Length(file):
                self.waiting.setdefault(file, []).append(change)
            case Flush(file):
                for waiting in self.waiting.pop(file, []):
                    self.flushed[file] = put(self.flushed.get(file, b""), waiting, "whole")
            case FlushFolder(folder):
                for path, led_to in self.names.items():
                    if os.path.dirname(path) == folder:
                        del led_to[:-1]

    def _axes(self):
        """What is left to chance: each name with what it may lead to, each change of a file with its ways."""
        names = [(path, list(dict.fromkeys(reversed(led_to)))) for path, led_to in sorted(self.names.items())]
        led_to = {file for _, files in names for file in files}
        waiting = [(change, WAYS[type(change)]) for file, changes in sorted(self.waiting.items()) if file in led_to
                   for change in changes]
        return [axis for axis in names + waiting if len(axis[1]) > 1]

    def _image(self, choice):
        """The tree: the content of each path. `choice` has the changes that aren't there whole."""
        def content(file):
            made = self.flushed.get(file, b"")
            for change in self.waiting.get(file, []):
                made = put(made, change, choice.get(id(change), "whole"))
            return made

        led_to = {path: choice.get(path, files[-1]) for path, files in self.names.items()}
        return {path: content(file) for path, file in led_to.items() if file is not None}

    def images(self, most, source):
        """The trees that a loss of power can leave now: all of them, or if there are more than `most` choices, those
        with all lost, all kept, one thing alone lost or kept, and some that the `source` picks. With each comes what
        isn't as the program left it."""
        axes = self._axes()
        ways = [values for _, values in axes]
        if math.prod(map(len, ways)) <= most:
            picks = itertools.product(*ways)
        else:
            picks = itertools.chain(picks_of_one(ways), (tuple(map(source.choice, ways)) for _ in range(most)))
            picks = itertools.islice(dict.fromkeys(picks), most)
        for pick in picks:
            choice = {thing if isinstance(thing, str) else id(thing): way for (thing, _), way in zip(axes, pick)}
            told = [f"{told_of(thing)}: {way}" for (thing, values), way in zip(axes, pick) if way != values[0]]
            yield self._image(choice), "; ".join(told)


def told_of(thing):
    """A name or a change, described in a few words."""
    if isinstance(thing, str):
        return f"the name {thing}"
    return f"{type(thing).__name__.lower()} of file {thing.file} at {getattr(thing, 'place', '')}"


def picks_of_one(ways):
    """All kept, all lost; one thing lost alone, one thing kept alone. The first way is kept and the last is lost."""
    kept, lost = tuple(values[0] for values in ways), tuple(values[-1] for values in ways)
    yield kept
    yield lost
    for place, values in enumerate(ways):
        for value in values:
            yield kept[:place] + (value,) + kept[place + 1:]
            yield lost[:place] + (value,) + lost[place + 1:]


def fronts(watched, changes, most, source, first=0):
    """Each front of the changes from `first` on: how many there are in it, and the trees that power can leave then."""
    disk = Disk(watched.start)
    for count in range(len(changes) + 1):
        if count >= first:
            for image, lost in disk.images(most, source):
                yield count, image, lost
        if count < len(changes):
            disk.take(changes[count])


def build(root, image):
    """Makes the files below `root` those of a tree; its folders must be there."""
    for path in files_below(root):
        if path not in image:
            os.unlink(os.path.join(root, path))
    for path, content in image.items():
        whole = os.path.join(root, path)
        if os.path.lexists(whole):
            os.unlink(whole)
        with open(os.open(whole, os.O_WRONLY | os.O_CREAT | os.O_EXCL, 0o600), "wb") as file:
            file.write(content)
