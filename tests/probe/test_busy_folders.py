"""Single calls on the folders of a Maildir in which another process moves files at any time: what each call promises of the
states that may be then.
"""

import collections
import multiprocessing
import random
import tempfile
import time
import unittest
from pathlib import Path

from harness import programs
from probe.comparing import FOLDERS, answers, other_process
from probe.shared_lists import MARKS, ODD, make_maildir, text_of
from probe.watched import name_of

# The numbers of messages that stay in `cur`, more than the system tells at once, and that of the first one that is put.
STAYING = [number for number in range(1, 2_001) if name_of(number) != ODD]
FIRST = 2_001
# How many files are moved in a burst, and for how long there is none after it, at most.
BURST, REST_SECONDS = 30, 0.1
# How many calls are made meanwhile.
CALLS = 150


def move_files(folder, source, has_begun, is_over):
    """Moves messages between `new` and `cur`, marks them, and takes some away, until it is over. Those that were there at first
    stay in `cur`."""
    at = {path.name.split(":")[0]: path for path in (folder / "cur").iterdir() if not path.is_symlink()}
    stays = set(at)
    while not is_over.is_set():
        at |= {path.name: path for path in (folder / "new").iterdir() if not path.is_symlink()}
        moving = sorted(set(at) - stays)
        for name in [*source.sample(sorted(stays), BURST), *source.sample(moving, min(len(moving), BURST))]:
            if name not in stays and may_go(name) and source.randrange(8) == 0:
                at.pop(name).unlink()
                continue
            to = "cur" if name in stays else source.choice(("new", "cur"))
            marks = "" if to == "new" else ":2," + source.choice(("", "F", "S", "FS"))
            at[name] = at[name].rename(folder / to / f"{name}{marks}")
        has_begun.set()
        time.sleep(source.random() * REST_SECONDS)


def number_of(name):
    """The number of a message."""
    return int(bytes.fromhex(name.split(",")[0][65:])[3:])


def may_go(name):
    """Whether a message may be taken away."""
    return number_of(name) % 3 == 0


class BusyList:
    """Calls on a Maildir in which another process moves files at any time, with what each may answer."""

    def __init__(self, source):
        self.source = source
        self.lines, self.allowed, self.texts = [], [], {}

    def add(self, line, *answers):
        self.lines.append(line)
        self.allowed.append(answers)

    def put(self):
        number, name = len(self.texts), name_of(FIRST + len(self.texts))
        octets = f"{number} " * self.source.randrange(1, 200)
        self.add(f"create - made-{number}", "done")
        self.add(f"made-write {number} {octets}", str(len(octets)))
        self.add(f"made-fsync {number} -", "done")
        if self.source.randrange(2):
            self.add(f"rename {number} {name}", "done")
        else:
            self.add(f"link {number} {name}", "done")
            self.add(f"unlink {number} -", "done")
        self.texts[name] = octets

    def any_name(self):
        return self.source.choice([*self.texts, *(name_of(number) for number in STAYING[:5])])

    def look(self):
        call, folder = self.source.choice(("stat-name", "open", "lstat")), self.folder()
        if self.source.randrange(3) == 0:
            self.add(f"{call} - {folder}/{ODD}", "other" if call == "lstat" else "refused")
            return
        name = self.any_name()
        octets = self.texts.get(name) or str(number_of(name))
        found = "done" if call == "open" else f"file {len(octets)}"
        there = [found] if folder == "cur" or name in self.texts else []
        self.add(f"{call} - {folder}/{name}{':2,S' * (folder == 'cur')}", "absent", *there)

    def flush_pass(self):
        """It may leave what is moved meanwhile."""
        names = {self.any_name(), self.any_name()}
        self.add(f"flush-pass - {' '.join(name.split(',')[0] for name in names)}", "refused",
                 *(f"left {count}" for count in range(len(names) + 1)))

    def folder(self):
        return self.source.choice(("new", "cur"))

    def stat(self):
        self.add(f"stat - {self.folder()}", "rests", "changed")

    def fsync_folder(self):
        self.add(f"fsync-folder - {self.folder()}", "done")

    def list(self):
        call, folder = self.source.choice(("list", "list-all", "list-all")), self.folder()
        self.add(f"{call} - {folder}", set(self.texts))

    def grow(self, count):
        for _ in range(count):
            self.source.choice((self.put, self.put, self.look, self.look, self.flush_pass, self.stat, self.fsync_folder,
                                self.list, self.list))()


def wrong_names(line, answer, put):
    """What a listing tells too often or not at all: what stays is told once, and what was put at most once."""
    call, _, folder = line.split(" ")
    stays = STAYING if call == "list-all" else STAYING[:3]
    once = {ODD, *(name_of(number) for number in stays if folder == "cur")}
    told = collections.Counter(MARKS.sub("", name) for name in answer.split(" ")[1:])
    return [name for name in once | put | set(told)
            if told[name] > 1 or (name in once and not told[name]) or (told[name] and name not in once | put)]


class BusyFolders(unittest.TestCase):
    def test_calls_while_another_process_moves_files(self):
        """Each listing is one of one moment, what was put is there, and its octets stay."""
        for place in FOLDERS:
            with self.subTest(place), tempfile.TemporaryDirectory(dir=place) as folder:
                self.make_busy_calls(Path(folder).resolve())

    def make_busy_calls(self, folder):
        make_maildir(folder, [ODD])
        for number in STAYING:
            (folder / "cur" / f"{name_of(number)}:2,S").write_text(str(number))
        busy = BusyList(random.Random(1))
        busy.grow(CALLS)
        has_begun, is_over = multiprocessing.Event(), multiprocessing.Event()
        with other_process(move_files, folder, random.Random(2), has_begun, is_over):
            self.assertTrue(has_begun.wait(programs.SECONDS))
            [told] = answers("shared-machine", [text_of(folder, [], [ODD], busy.lines)])
            is_over.set()
        self.check_answers(busy, told)
        self.check_files(folder, busy.texts)

    def check_answers(self, busy, told):
        seen = collections.Counter()
        for line, allowed, answer in zip(busy.lines, busy.allowed, told, strict=True):
            call = line.split(" ")[0]
            if call.startswith("list") and answer != "refused":
                self.assertEqual(wrong_names(line, answer, *allowed), [], line)
            elif not call.startswith("list"):
                self.assertIn(answer, allowed, line)
            seen[call, answer == "refused"] += 1
        for call in ("list", "list-all", "flush-pass"):
            self.assertTrue(seen[call, False], call)

    def check_files(self, folder, texts):
        found = collections.defaultdict(list)
        for path in [*(folder / "new").iterdir(), *(folder / "cur").iterdir()]:
            if not path.is_symlink():
                found[path.name.split(":")[0]].append(path.read_text())
        wanted = {name_of(number): str(number) for number in STAYING} | texts
        taken = {name for name in texts if may_go(name) and name not in found}
        self.assertEqual(found, {name: [text] for name, text in wanted.items() if name not in taken})
        self.assertTrue(taken)
