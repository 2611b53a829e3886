"""Random lists of the single calls that use the folders of a Maildir while a reader moves files, made in folders of real file
systems and in the folders in memory, which provably do what the devices take for granted: each answer must be the same, and
so must the files at the end.

`CALL_LISTS=100000 CALL_FOLDERS=/mnt/a:/mnt/b TESTS_MINUTES=300 python3 tests/run.py -k random_shared_lists` makes more lists
than the gate does, in folders of other file systems.
"""

import os
import unittest

from probe.comparing import answers, compare, compare_random
from probe.shared_lists import CASES, MARKS, ODD, make_maildir, random_list, text_of
from probe.watched import folder_for

# Each listing of a folder waits for a step of the clock.
COUNT = int(os.environ.get("CALL_LISTS", "150"))

SYSTEMS = ("shared-machine", "shared-memory")


def plain(answer):
    """An answer, names in the order of their octets and with the same marks."""
    words = answer.split(" ")
    return ["names", *sorted(MARKS.sub(":2,", word) for word in words[1:])] if words[0] == "names" else words


def octets_in(folder):
    """The octets of each file of a Maildir, in order."""
    return sorted(path.read_text() for name in ("new", "cur") for path in (folder / name).iterdir() if not path.is_symlink())


# What the model has in another way: a call in folders with what can't be opened, and what the system and the model answer.
OUTSIDE = {
    "all names, whatever they lead to": ("list-all - new", f"names {ODD}", "names"),
}


class SharedCalls(unittest.TestCase):
    def compare(self, built):
        for one in built:
            make_maildir(one.folder, one.obstacles)
        for one, wanted in compare(self, SYSTEMS, built, plain):
            octets = sorted(answer.removeprefix("=") for answer in wanted[len(one.lines):])
            self.assertEqual(octets_in(one.folder), octets, one.folder)
            self.assertEqual(len([*(one.folder / "tmp").iterdir()]), len(one.ready + one.linked), one.folder)

    def test_random_shared_lists(self):
        compare_random(self, COUNT, random_list, CASES, self.compare)

    def test_what_is_outside_of_the_promises(self):
        for name, (line, machine, memory) in OUTSIDE.items():
            with self.subTest(name):
                folder = folder_for(self)
                make_maildir(folder, [ODD])
                text = text_of(folder, [], [ODD], [line])
                self.assertEqual([answers(system, [text])[0][0] for system in SYSTEMS], [machine, memory])
