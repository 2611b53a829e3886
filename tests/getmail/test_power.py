"""What a loss of power leaves of a session: after one more session each message is held once and whole.

With TESTS_POWER=whole all states are run, as `power.py` does by hand; else some of them for each front of the changes,
and after some of the kills.
"""

import os
import unittest

from getmail.power import SCENES, libraries, play_all
from harness.power import Flush, FlushFolder
from harness.power_lists import may_be_left

WHOLE = os.environ.get("TESTS_POWER") == "whole"
MOST = 4096 if WHOLE else 24
KILLS = None if WHOLE else 24


def flushes_a_text(change, _):
    return isinstance(change, Flush) and change.path.startswith("Maildir/tmp/")


def flushes_new(change, _):
    return change == FlushFolder("Maildir/new")


def flushes_new_before_telling(change, command):
    """The flush of `new` after it was listed, before the first message is fetched."""
    return change == FlushFolder("Maildir/new") and command == b"LIST"


def flushes_a_replaced_record(change, _):
    return isinstance(change, Flush) and change.path.startswith(".getmail/seen-") and ".tmp" in change.path


def flushes_an_entry(change, command):
    return isinstance(change, Flush) and change.path == "mbox" and command == b"RETR"


def flushes_an_intent(change, command):
    """The flush of what is appended to the record, after a message was asked for."""
    return isinstance(change, Flush) and change.path.startswith(".getmail/seen-") and command == b"RETR"


def flushes_entries_before_settling(change, command):
    """The flush of the mboxrd file after it was looked at, before the first message is fetched."""
    return isinstance(change, Flush) and change.path == "mbox" and command == b"LIST"


def left_out():
    """Each kind of flush that is left out, and of which scene."""
    scenes = {scene.name: scene for scene in SCENES}
    first, killed = scenes["first session, deleting"], scenes["first session, deleting, after a kill"]
    mboxrd, its_kills = (scenes[f"{scene.name}, into an mboxrd file"] for scene in (first, killed))
    return ((first, flushes_a_text), (first, flushes_new), (first, flushes_a_replaced_record),
            (killed, flushes_new_before_telling), (mboxrd, flushes_an_entry), (mboxrd, flushes_an_intent),
            (its_kills, flushes_entries_before_settling))


class Power(unittest.TestCase):
    @classmethod
    def setUpClass(cls):
        preloaded = libraries()
        cls.libraries = preloaded.__enter__()
        cls.addClassCleanup(preloaded.__exit__, None, None, None)

    def test_each_state_of_the_disk(self):
        # The longest come first.
        for found in play_all([(scene, self.libraries, MOST, KILLS) for scene in reversed(SCENES)]):
            print(found.line())
            with self.subTest(found.scene.name):
                self.assertGreater(found.states, 20)
                self.assertEqual(found.bad, 0, "\n".join([found.line(), *found.told[:3]]))

    def test_a_flush_that_is_left_out_is_found(self):
        """Each kind of flush is needed: without it some state is bad. That is a state of the model in which the proofs speak of
        losses of power, after the same calls without the flush, and none with it."""
        jobs = [(scene, self.libraries, MOST, KILLS, without) for scene, without in left_out()]
        for found, (scene, without) in zip(play_all(jobs), left_out()):
            with self.subTest(without.__name__):
                self.assertEqual(found.bad, 1, found.line())
                state = found.state
                self.assertTrue(may_be_left(state.start, state.changes, state.image), found.told)
                self.assertFalse(may_be_left(state.start, state.changes_with, state.image), found.told)


if __name__ == "__main__":
    unittest.main()
