"""Each state of the disk that a loss of power can leave of a run is one that the definitions of the proofs allow.

The states are those of `test_power.py`, built from what the program did by `harness/power.py`, which knows nothing of the
definitions. The program `probe` makes the same calls in memory, and says whether they are allowed (`harness/power_lists.py`).
No flush is refused here, and no reader moves a file.
"""

import os
import random
import unittest
from collections import Counter

from getmail.power import SCENES, Stage, libraries, sessions_of
from getmail.test_power import KILLS, MOST
from harness import power
from harness.power import Flush, FlushFolder, Name, Write
from harness.power_lists import Judge

# How many states are judged by one run of the program, at least.
AT_ONCE = 4096
# The wrong judges and the wrong disk are tried on fewer states.
FEW, FEW_KILLS = 8, 4


class Forgetful(Judge):
    """A judge for whom a name is durable as soon as it is there."""

    def take(self, change):
        super().take(change)
        if isinstance(change, Name) and change.file is not None:
            super().take(FlushFolder(os.path.dirname(change.path)))


class Hasty(Judge):
    """A judge for whom octets are durable as soon as they are written."""

    def take(self, change):
        super().take(change)
        if isinstance(change, Write):
            super().take(Flush(change.file, ""))


class Lossy(power.Disk):
    """A disk that loses octets that were flushed."""

    def take(self, change):
        if not isinstance(change, Flush):
            super().take(change)


def judged(scene, preloaded, kinds, most, kills, disk_kind=power.Disk):
    """How many states of a scene there were, and how many of them each kind of judge doesn't allow."""
    source, seen, refused = random.Random(scene.name), 0, Counter()
    with Stage(scene, preloaded) as stage:
        for watched, changes, first in sessions_of(stage, source, kills):
            disk, judges = disk_kind(watched.start), [kind(watched.start) for kind in kinds]
            for count, change in enumerate([*changes, None]):
                for image, _ in disk.images(most, source) if count >= first else ():
                    seen += 1
                    for judge in judges:
                        judge.ask(image)
                for judge in judges:
                    if change is None or len(judge.states) > AT_ONCE:
                        refused[type(judge)] += judge.verdicts().count(False)
                if change is not None:
                    for taker in (disk, *judges):
                        taker.take(change)
    return seen, refused


class DiskStates(unittest.TestCase):
    @classmethod
    def setUpClass(cls):
        preloaded = libraries()
        cls.libraries = preloaded.__enter__()
        cls.addClassCleanup(preloaded.__exit__, None, None, None)

    def test_each_state_is_allowed(self):
        for is_mboxrd, store in ((False, "a Maildir"), (True, "an mboxrd file")):
            states = 0
            for scene in (scene for scene in SCENES if scene.is_mboxrd == is_mboxrd):
                seen, refused = judged(scene, self.libraries, (Judge,), MOST, KILLS)
                states += seen
                with self.subTest(scene.name):
                    self.assertEqual(refused[Judge], 0)
            print(f"{store}: {states} states")
            self.assertGreater(states, 10_000)

    def test_wrong_judges_and_a_wrong_disk_are_found(self):
        """Judges that take names or octets to be durable too early, and a disk that loses what was flushed."""
        scenes = {scene.name: scene for scene in SCENES}
        first = scenes["first session, deleting"]
        for scene in (first, scenes[f"{first.name}, into an mboxrd file"]):
            with self.subTest(scene.name):
                _, refused = judged(scene, self.libraries, (Forgetful, Hasty), FEW, FEW_KILLS)
                _, lost = judged(scene, self.libraries, (Judge,), FEW, FEW_KILLS, Lossy)
                print(f"{scene.name}: wrong judges refuse {refused[Forgetful]} and {refused[Hasty]}, "
                      f"the judge {lost[Judge]} of a wrong disk")
                self.assertGreater(min(refused[Forgetful], refused[Hasty], lost[Judge]), 0)


if __name__ == "__main__":
    unittest.main()
