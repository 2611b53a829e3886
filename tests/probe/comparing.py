"""Lists of calls, made in folders of real file systems, where another process acts between the calls, and in memory."""

import collections
import contextlib
import multiprocessing
import os
import random
import tempfile
from pathlib import Path

from harness import programs

COUNT = int(os.environ.get("CALL_LISTS", "500"))
AT_ONCE = 500
SECONDS = 600
NEXT = "next\n"
# A file system in memory and that of temporary files, unless others are named.
FOLDERS = os.environ.get("CALL_FOLDERS", f"/dev/shm:{tempfile.gettempdir()}").split(":")


class CallList:
    """A list that grows line by line. `cases` has the case of each line, `acts` what the other process does."""

    def __init__(self, all_cases, source, folder):
        self.all_cases, self.source, self.folder = all_cases, source, folder
        self.lines, self.cases, self.acts = [], [], []

    def add(self, call, number, word, case):
        assert case in self.all_cases[call], (call, case)
        self.lines.append(f"{call} {number} {word}")
        self.cases.append((call, case))

    def let_other(self, act, word, case):
        """The other process acts now: `act` is a function and its words. The program waits at the one of two named pipes for
        it, which ends then; by the next time it has opened the other one."""
        turn = len(self.acts) % 2
        self.add("other", turn, word, case)
        self.acts.append((self.folder.with_name(f"{self.folder.name}.{turn}"), *act))

    def make_pipes(self):
        for pipe in {pipe for pipe, *_ in self.acts}:
            os.mkfifo(pipe)


def put(path, octets):
    """A file comes, in place of what had its name."""
    beside = path.with_name("beside")
    beside.write_text(octets)
    beside.rename(path)


def act_in_turn(acts):
    """Of an act that failed the comparison tells, while the program would wait for the next one."""
    for pipe, act, *words in acts:
        with open(pipe, "w"), contextlib.suppress(OSError):
            act(*words)


@contextlib.contextmanager
def other_process(act, *words):
    """Another process, which must end well."""
    process = multiprocessing.get_context("fork").Process(target=act, args=words)
    process.start()
    try:
        yield
        process.join(SECONDS)
        assert process.exitcode == 0, process.exitcode
    finally:
        process.kill()
        process.join()


def answers(system, texts):
    """What the program answers to each list, line by line."""
    with tempfile.NamedTemporaryFile("w") as file:
        file.write(NEXT.join(texts))
        file.flush()
        run = programs.run("probe", system, file.name, seconds=SECONDS)
    assert (run.status, run.err) == (0, b""), run
    return [answer.splitlines() for answer in run.out.decode().split(NEXT)[:-1]]


def compare(test, systems, built, plain=str):
    """Makes lists in their folders and in memory. Each answer must be the same once it was made plain. Yields each list and
    what memory answered."""
    texts = [one.text() for one in built]
    for one in built:
        one.make_pipes()
    machine, memory = systems
    with other_process(act_in_turn, [act for one in built for act in one.acts]):
        all_told = answers(machine, texts)
    for one, told, wanted in zip(built, all_told, answers(memory, texts), strict=True):
        test.assertEqual(len(told), len(one.lines), one.folder)
        for line, case, *both in zip(one.lines, one.cases, told, wanted):
            test.assertEqual(*map(plain, both), f"{one.folder}: {line}: {case}")
        yield one, wanted


def compare_random(test, count, random_list, all_cases, compare_some):
    """Makes so many random lists in each of the folders. Each case must occur."""
    wanted = [(call, case) for call, cases in all_cases.items() for case in cases]
    for place in FOLDERS:
        with test.subTest(place):
            found = collections.Counter()
            for first in range(0, count, AT_ONCE):
                with tempfile.TemporaryDirectory(dir=place) as folder:
                    seeds = range(first, min(first + AT_ONCE, count))
                    built = [random_list(random.Random(seed), Path(folder).resolve() / str(seed)) for seed in seeds]
                    compare_some(built)
                    found.update(case for one in built for case in one.cases)
            test.assertEqual([case for case in wanted if not found[case]], [])
