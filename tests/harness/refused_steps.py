"""Each call of the system that a run makes, refused in turn, in the run's trace."""

import re
import tempfile
from pathlib import Path

from harness import preload

# What a trace calls a step that has another name there; one that gives a name is told by the old name and then the new one.
NAMES = {"openat": "open", "recv": "read", "send": "write", "link": "link /.*/tmp/[^/ ]+ to"}


def check_each_is_traced(test, run, first=1, link=""):
    """From the first of these steps on each is refused in a run of its own, whose trace names it, and its path or the link. `run` makes a
    run in this environment, and answers what it wrote to standard error."""
    with preload.library("refuse_step") as refuse_step, tempfile.TemporaryDirectory() as folder:
        for number in range(first, 200):
            with test.subTest(number):
                note = Path(folder) / str(number)
                told = run(LD_PRELOAD=str(refuse_step), STEP_NOTE=str(note), STEP_REFUSED=str(number))
                refused = re.search("^refused (.+)\t(.+)$", note.read_text(), re.MULTILINE)
                if not refused:
                    test.assertGreater(number, 10)
                    return
                step, path = refused.groups()
                path = re.escape(path.replace("the link", link).rstrip("/"))
                test.assertRegex(told.decode(), f"trace: {NAMES.get(step, step)} {path}: Input/output error\n")
    test.fail("more than 200 steps")
