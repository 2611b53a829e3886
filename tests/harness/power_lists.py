"""Whether the states of the disk that `power.py` builds are states of the model in which the proofs speak of losses of power.

The calls of a run become lists for the program `probe`. It makes them in the file system in memory (`probe power`), or in the
folders of a Maildir in memory (`probe shared-power`), which provably do what the devices take for granted, and answers of what
is there in a state whether a loss of power may leave it: by functions whose contracts say so by the definitions `MayBe`
(PowerLoss.antt) and `LosesMail` (MailPower.antt).

The model has no files but those that were given a name by rename or link, so it says nothing of what is in `tmp` or beside a
record, nor of a lock file. It has no call that renames or unlinks a file which has its name: such a run has no list.
"""

import functools
import os
import tempfile

from harness import programs
from harness.power import Flush, FlushFolder, Length, Name, Write

SECONDS = 600
NEXT = "next\n"
# In a list a line feed has another octet, which no file has, and another one stands between the files of a Maildir.
LINE_FEED, BETWEEN = "\x02", "\x01"


@functools.lru_cache
def text_of(octets):
    """The octets of a file in a list."""
    text = octets.decode("ascii")
    if set(text) & {LINE_FEED, BETWEEN, "\r"}:
        raise AssertionError(f"a list can't have {text[:100]!r}")
    return text.replace("\n", LINE_FEED)


class CallList:
    """Calls with the answers that they must have, and questions between them, each of them once."""

    command = ""

    def __init__(self):
        self.lines = []
        self.wanted = {}
        self.asked = {}

    def call(self, line, wanted="done"):
        self.wanted[len(self.lines)] = wanted
        self.lines.append(line)

    def ask(self, line):
        """The place of the answer to a question that is asked after the calls so far."""
        question = (len(self.wanted), line)
        if question not in self.asked:
            self.asked[question] = len(self.lines)
            self.lines.append(line)
        return self.asked[question]

    def forget_questions(self):
        self.lines = [self.lines[place] for place in self.wanted]
        self.wanted = dict(enumerate(self.wanted.values()))
        self.asked = {}

    def front(self):
        """The first line of the list, its folder."""
        return "/home"

    def answers(self):
        """The answers to all lines."""
        with tempfile.NamedTemporaryFile("w") as file:
            file.writelines(f"{line}\n" for line in [self.front(), *self.lines])
            file.flush()
            run = programs.run("probe", self.command, file.name, seconds=SECONDS)
        if (run.status, run.err) != (0, b""):
            raise AssertionError(f"probe: {run.status} {run.err}")
        answers = run.out.decode().removesuffix(NEXT).splitlines()
        for place, wanted in self.wanted.items():
            if answers[place] != wanted:
                raise AssertionError(f"{self.lines[place][:200]!r}: {answers[place]}, not {wanted}")
        return answers


class Made(CallList):
    """Calls that make files and give them names."""

    def __init__(self, start):
        super().__init__()
        # By the numbers of the files: those that were made, their sizes, and their names.
        self.made, self.sizes, self.paths = {}, {}, {}
        self.first_names, self.names = set(), []
        for number, path in enumerate(sorted(start)):
            if self.has(path):
                self.put_durable(number, path, start[path])

    def has(self, path):
        """Whether a path is in a folder of this list."""
        raise NotImplementedError

    def makes(self, path):
        """Whether what is made at a path may get a name in a folder of this list."""
        return self.has(path)

    def put_durable(self, file, path, octets):
        self.make(file, f"{path}.start")
        if octets:
            self.write(file, 0, octets)
        self.flush(file)
        self.name(file, path)
        self.flush_folder(os.path.dirname(path))

    def take(self, change):
        """Makes the call of a change."""
        match change:
            case Name(path, None):
                self.lose_name(path)
            case Name(path, file) if file in self.made:
                self.name(file, path)
            case Name(path, file) if self.makes(path):
                self.make(file, path)
            case Write(file, place, octets) if file in self.made:
                self.write(file, place, octets)
            case Length(file, size) if file in self.made:
                self.cut(file, size)
            case Flush(file) if file in self.made:
                self.flush(file)
            case FlushFolder(folder):
                self.flush_folder(folder)

    def make(self, file, path):
        self.made[file], self.sizes[file] = len(self.made), 0
        self.first_names.add(path)
        self.call(f"create - {self.at(path)}")

    def name(self, file, path):
        if file in self.paths or not self.has(path):
            raise AssertionError(f"the model has no call that gives file {file} the name {path}")
        self.put(self.made[file], path)
        self.paths = {other: named for other, named in self.paths.items() if named != path} | {file: path}
        if path not in self.names:
            self.names.append(path)

    def lose_name(self, path):
        if path in self.names:
            raise AssertionError(f"the model has no call that takes the name {path} away")

    def write(self, file, place, octets):
        size = self.sizes[file]
        if place != size:
            raise AssertionError(f"the model has no call that writes at {place} of file {file}, which has {size} octets")
        self.sizes[file] = size + len(octets)
        if file in self.paths:
            self.append(self.paths[file], octets)
        else:
            self.call(f"made-write {self.made[file]} {text_of(octets)}", str(len(octets)))

    def cut(self, file, size):
        if file not in self.paths or size > self.sizes[file]:
            raise AssertionError(f"the model has no call that gives file {file} {size} octets")
        self.sizes[file] = size
        self.cut_named(self.paths[file], size)

    def flush(self, file):
        if file in self.paths:
            self.flush_named(self.paths[file])
        else:
            self.call(f"made-fsync {self.made[file]} -")

    def knows(self, path):
        """Whether a file was made at a path, or got its name."""
        return path in self.names or path in self.first_names


class Files(Made):
    """The files of a folder."""

    command = "power"

    def __init__(self, folder, start):
        self.folder, self.opened = folder, 0
        super().__init__(start)

    def front(self):
        return self.at(self.folder)

    def has(self, path):
        return os.path.dirname(path) == self.folder

    def at(self, path):
        return f"/home/{path}" if path else "/home"

    def put(self, number, path):
        self.call(f"rename {number} {self.at(path)}")

    def open(self, word, path):
        """Opens a file or the folder; its number."""
        self.call(f"{word} - {self.at(path)}")
        self.opened += 1
        return self.opened - 1

    def append(self, path, octets):
        self.call(f"write {self.open('open-append', path)} {text_of(octets)}", str(len(octets)))

    def cut_named(self, path, size):
        self.call(f"ftruncate {self.open('open-append', path)} {size}")

    def flush_named(self, path):
        self.call(f"fsync {self.open('open', path)} -")

    def flush_folder(self, folder):
        if folder == self.folder:
            self.call(f"fsync-folder {self.open('open', folder)} -")

    def questions(self, image):
        """The lines that ask whether a loss of power may leave a state."""
        return [f"left - {self.at(path)} {text_of(image[path])}" if path in image else f"gone - {self.at(path)}"
                for path in self.names]


class Mail(Made):
    """The files of a Maildir."""

    command = "shared-power"

    def has(self, path):
        return os.path.dirname(path) in ("Maildir/new", "Maildir/cur")

    def makes(self, path):
        return os.path.dirname(path) == "Maildir/tmp"

    def at(self, path):
        return path.removeprefix("Maildir/")

    def put(self, number, path):
        if os.path.dirname(path) != "Maildir/new":
            raise AssertionError(f"the model has no call that gives a file that was made the name {path}")
        self.call(f"link {number} {os.path.basename(path)}")

    def append(self, path, octets):
        raise AssertionError(f"the model has no call that appends to {path}")

    def cut_named(self, path, size):
        raise AssertionError(f"the model has no call that cuts {path} to {size} octets")

    def flush_named(self, path):
        self.call(f"flush-file - {os.path.basename(path)}", "yes")

    def flush_folder(self, folder):
        if self.has(f"{folder}/"):
            self.call(f"fsync-folder - {os.path.basename(folder)}")

    def questions(self, image):
        """The same; files have in the model the order in which they came, and in a folder none."""
        return ["left - " + BETWEEN.join(f"{self.at(path)} {text_of(image[path])}" for path in self.names if path in image)]


class Judge:
    """The lists of a run in a home, and the states that are to be judged."""

    def __init__(self, start):
        self.lists = [*(Files(folder, start) for folder in ("", ".getmail")), Mail(start)]
        self.states = []

    def take(self, change):
        for one in self.lists:
            one.take(change)

    def ask(self, image):
        """Asks whether a loss of power may leave a state now. One with a file that the run can't have left isn't a state."""
        has_strays = any(not any(one.knows(path) for one in self.lists) for path in image)
        self.states.append((has_strays, [(one, one.ask(question)) for one in self.lists for question in one.questions(image)]))

    def verdicts(self):
        """Whether each state that was asked for is one of the model. Then others can be asked for."""
        answers = {one: one.answers() for one in self.lists}
        verdicts = [not has_strays and all(answers[one][place] == "yes" for one, place in places)
                    for has_strays, places in self.states]
        self.states = []
        for one in self.lists:
            one.forget_questions()
        return verdicts


def may_be_left(start, changes, image):
    """Whether a loss of power may leave a state of a home after these changes."""
    judge = Judge(start)
    for change in changes:
        judge.take(change)
    judge.ask(image)
    return judge.verdicts() == [True]
