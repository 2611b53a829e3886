"""Random lists of single calls, made in folders of real file systems and in the file system in memory, which provably does
what the devices take for granted: each answer must be the same, and so must the files at the end.

`CALL_LISTS=100000 CALL_FOLDERS=/mnt/a:/mnt/b python3 tests/run.py -k random_lists` makes more lists than the gate does, in
folders of other file systems.
"""

import unittest
from pathlib import Path

from probe.call_lists import CASES, random_list, text_of
from probe.comparing import COUNT, answers, compare, compare_random
from probe.watched import folder_for

# What the calls' promises don't cover, and the model has in another way: lines, and what the system and the model answer to
# the last one. A name that ends in `->a` is a link to `a`.
OUTSIDE = {
    "a file by another spelling of its path": (["create - made", "rename 0 a", "stat - ./a"], "file 0", "absent"),
    "a file by a link": (["create - made", "rename 0 a", "stat - link->a"], "file 0", "absent"),
    "a file that has no other name yet": (["create - made", "stat - made"], "file 0", "absent"),
    "a file made in a folder that isn't there": (["create - none/made"], "absent", "done"),
    "a file that is written after its rename": (
        ["create - made", "rename 0 a", "made-write 0 more", "stat - a"], "file 4", "file 0"),
    "a file that is renamed after its path was given anew": (
        ["create - made", "rename 0 a", "create - made", "made-write 1 more", "rename 0 b", "stat - b"], "file 4", "file 0"),
}


def in_folder(folder, line):
    """The line with the folder before its path."""
    call, number, word = line.split(" ")
    return f"{call} {number} {folder}/{word}" if call in ("create", "rename", "stat") else line


def files_told(built, told):
    """The files that are there at the end, by the answers, and the names of those that were made and have no other name."""
    made, found, name = [], {}, None
    for line, answer in zip(built.lines, told):
        call, number, word = line.split(" ", 2)
        if call == "create":
            made.append(Path(word).name if answer == "done" else None)
        elif call in ("rename", "unlink") and answer == "done":
            made[int(number)] = None
    for line, answer in zip(built.lines[built.ends_from:], told[built.ends_from:]):
        call, _, word = line.split(" ", 2)
        if call == "open":
            name = Path(word).name
            found[name] = ""
        elif call == "read":
            found[name] += answer.removeprefix("=")
    return found, set(made) - {None}


class SingleCalls(unittest.TestCase):
    def compare(self, built):
        for one in built:
            one.folder.mkdir()
        for one, wanted in compare(self, ("machine", "memory"), built):
            found, unnamed = files_told(one, wanted)
            self.assertEqual({path.name for path in one.folder.iterdir()}, set(found) | unnamed, one.folder)
            self.assertEqual({name: (one.folder / name).read_text() for name in found}, found, one.folder)

    def test_random_lists(self):
        compare_random(self, COUNT, random_list, CASES, self.compare)

    def test_what_is_outside_of_the_promises(self):
        for name, (lines, machine, memory) in OUTSIDE.items():
            with self.subTest(name):
                folder = folder_for(self)
                (folder / "link->a").symlink_to("a")
                text = text_of(folder, [in_folder(folder, line) for line in lines])
                self.assertEqual([answers(system, [text])[0][-1] for system in ("machine", "memory")], [machine, memory])
