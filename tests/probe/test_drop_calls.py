"""Random lists of the single calls that use the Maildir of a server, made in folders of real file systems and in the
Maildir in memory, which provably does what the server takes for granted: each answer must be the same, and so must the
files at the end.

`CALL_LISTS=100000 CALL_FOLDERS=/mnt/a:/mnt/b TESTS_MINUTES=300 python3 tests/run.py -k random_drop_lists` makes more
lists than the gate does, in folders of other file systems.
"""

import os
import time
import unittest

from probe.comparing import answers, compare, compare_random, put
from probe.drop_lists import CASES, UNLISTED, make_maildir, random_list, text_of
from probe.watched import folder_for

# A listing waits for a step of the clock, if its folder has just been changed.
COUNT = int(os.environ.get("CALL_LISTS", "300"))

SYSTEMS = ("drop-machine", "drop-memory")

# How long a folder rests until each change after a look is told.
REST_SECONDS = 3.1
# So soon after a change it isn't at rest.
SOON_SECONDS = 2
TRIES = 10

# What the calls' promises don't cover, and the model has in another way: lines in a Maildir with a file, `new/a`, and
# what the system and the model answer to the last one.
OUTSIDE = {
    "a name that is too long": ([f"look-up - new/{'a' * 256}"], "refused", "absent"),
    "a skip that is too far": (["open - new/a", f"skip 0 {2 ** 63}"], "refused", "done"),
}


def files_told(built, told):
    """The paths that were listed last, and the octets of those that could be opened then."""
    start = max(place for place, line in enumerate(built.lines) if line.startswith("list "))
    found, path = {path: None for path in told[start].split(" ")[1:]}, None
    for line, answer in zip(built.lines[start:], told[start:]):
        call, _, word = line.split(" ", 2)
        if call == "open":
            path = word
        if call == "open" and answer == "done":
            found[path] = ""
        elif call == "read":
            found[path] += answer.removeprefix("=")
    return found


def files_in(folder):
    """Each file of a Maildir that a listing may tell, and its octets if it is a regular one."""
    paths = [path for name in ("new", "cur") for path in (folder / name).iterdir()]
    return {f"{path.parent.name}/{path.name}": None if path.is_symlink() or not path.is_file() else path.read_text()
            for path in paths if path.name not in UNLISTED.values()}


class DropCalls(unittest.TestCase):
    def compare(self, built):
        for one in built:
            make_maildir(one.folder)
            for act, *words in one.first:
                act(*words)
        time.sleep(REST_SECONDS)
        for one, wanted in compare(self, SYSTEMS, built):
            self.assertEqual(files_in(one.folder), files_told(one, wanted), one.folder)

    def test_random_drop_lists(self):
        compare_random(self, COUNT, random_list, CASES, self.compare)

    def test_a_look_soon_after_a_change(self):
        """No later look is told to be the same: another change may have come at the same time."""
        for _ in range(TRIES):
            folder, start = folder_for(self), time.monotonic()
            make_maildir(folder)
            text = text_of(folder, ["look - -", "look-again - -"])
            told = [answers(system, [text]) for system in SYSTEMS]
            if time.monotonic() - start < SOON_SECONDS:
                break
        self.assertEqual(told, [[["looked", "changed"]]] * 2)

    def test_what_is_outside_of_the_promises(self):
        for name, (lines, machine, memory) in OUTSIDE.items():
            with self.subTest(name):
                folder = folder_for(self)
                make_maildir(folder)
                put(folder / "new/a", "a")
                texts = [text_of(folder, lines), text_of(folder, ["other 0 put new/a a", *lines])]
                told = [answers(system, [text])[0][-1] for system, text in zip(SYSTEMS, texts)]
                self.assertEqual(told, [machine, memory])
