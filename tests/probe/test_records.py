"""Files of records, read by the program of the record's benchmark and by a model in Python: both must agree.

`RECORD_FILES=100000 python3 tests/run.py -k random_records` reads more of the random ones than the gate does.
"""

import collections
import os
import random
import tempfile
import unittest

from harness import programs
from probe import grammar, record_files

COUNT = int(os.environ.get("RECORD_FILES", "5000"))
AT_ONCE = 5_000
END = b"\xff"


def told(data):
    """What the program must answer for these bytes."""
    try:
        record = grammar.record_of(data)
    except grammar.Fault as fault:
        return f"{fault}\n".encode()
    return (b"true\n" if record.is_rewritten else b"false\n") + record.file()


def answers(records):
    """What the program answers for each of these files."""
    with tempfile.NamedTemporaryFile() as file:
        file.write(END.join(records))
        file.flush()
        run = programs.run("probe", "judge", file.name)
    assert (run.status, run.err) == (0, b""), run
    return run.out.split(END)[:-1]


class Records(unittest.TestCase):
    def check(self, records):
        """Compares the two, and answers how often each first line occurred."""
        found = answers(records)
        self.assertEqual(len(found), len(records))
        kinds = collections.Counter()
        for record, answer in zip(records, found):
            self.assertEqual(answer, told(record), record)
            kinds[answer.split(b"\n")[0].translate(None, b"0123456789")] += 1
        return kinds

    def test_each_front_of_a_file(self):
        whole = (b"getmail-seen 2\n! 5 0\n+ 6 1\na 7 0\n! ! 0 18446744073709551615\n+ 2\n! 5 1\nb 8 0\n! a 1 2\n+ 1\n"
                 b"a 7 1\n+ 1\na 7 1\n")
        self.check([whole[:count] for count in range(len(whole) + 1)])

    def test_a_group_as_large_as_may_be(self):
        rows = [b"%d 0 0\n" % number for number in range(100_000)]
        for head, group in ((b"+ 100000\n", rows), (b"+ 100001\n", rows + [b"x 0 0\n"]), (b"+ 100000\n", rows[1:])):
            self.check([b"getmail-seen 2\n" + head + b"".join(group)])

    def test_outgrown_records(self):
        """A file of 65,536 octets is never outgrown, nor one with as many octets in its first rows as after them."""
        for size in (65_535, 65_536, 65_537, 65_538, 200_015):
            lines = size - len(b"getmail-seen 2\n")
            parts = (24, lines // 2 - 1, lines // 2, lines // 2 + 1, lines - 20, lines)
            records = [record_files.large_file(size, appended) for appended in parts]
            self.assertEqual({len(record) for record in records}, {size})
            self.check(records)
            rewritten = [answer.split(b"\n")[0] == b"true" for answer in answers(records)]
            self.assertEqual(rewritten, [size > 65_536 and appended > lines - appended for appended in parts])

    def test_random_records(self):
        kinds = collections.Counter()
        for first in range(0, COUNT, AT_ONCE):
            seeds = range(first, min(COUNT, first + AT_ONCE))
            kinds += self.check([record_files.random_file(random.Random(seed)) for seed in seeds])
        for kind in (b"true", b"false", b"not a record of this version", b"line  is no row", b"line  repeats an id"):
            self.assertGreater(kinds[kind], COUNT // 100, kind)
