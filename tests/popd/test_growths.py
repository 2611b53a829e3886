"""Out of memory: with each growth refused in turn, the answers are the right ones, up to where memory ran out."""

import unittest

from harness import growths, programs
from harness.kernel import LOOPBACK
from popd import expected, lines
from popd.service import Maildir, Service

NO_MEMORY = b"popd: out of memory\n"
RECORDED = lines.CONVERSATIONS["the recorded one"]


def beginnings(answers):
    """What has been written before the first answer and after each of them."""
    return [b"".join(answers[:count]) for count in range(len(answers) + 1)]


class RefusedGrowths(unittest.TestCase):
    def check_each_growth(self, given, answers, *words):
        refused = 0
        for refusal in growths.refusals():
            run = programs.run("popd", *words, given=given, **refusal.environment())
            if run == programs.Run(0, b"".join(answers), b""):
                continue
            self.assertTrue(refusal.came(), f"nothing was refused: {run}")
            self.assertEqual((run.status, run.err), (1, NO_MEMORY), f"growth {refusal.number} refused: {run}")
            self.assertIn(run.out, beginnings(answers), f"growth {refusal.number} refused")
            refused += 1
        self.assertGreater(refused, 0, "no refused growth was told")

    def test_the_recorded_conversation(self):
        self.check_each_growth(lines.given(RECORDED), lines.answers(RECORDED), "--rehearse")

    def test_a_maildir(self):
        with Maildir() as maildir:
            for name in ("a", "b:2,S", "The quick brown fox"):
                maildir.add("cur", name, b"x\n" * 2000)
            given = b"USER u\r\nPASS p\r\nSTAT\r\nLIST\r\nUIDL\r\nRETR 1\r\nTOP 2 1\r\nRSET\r\nQUIT\r\n"
            answers = expected.answers(given, expected.Machine(expected.messages_of(maildir.folder)))
            self.check_each_growth(given, answers, "u", maildir.passfile, maildir.folder)

    def test_removals(self):
        """A refused growth leaves every file, or the marked one and its copy are removed as the answer says."""
        given = b"USER u\r\nPASS p\r\nDELE 1\r\nQUIT\r\n"
        for refusal in growths.refusals():
            with Maildir() as maildir:
                for part, name in (("cur", "a:2,"), ("new", "a"), ("new", "b")):
                    maildir.add(part, name, b"x\n")
                run = programs.run("popd", "u", maildir.passfile, maildir.folder, given=given, **refusal.environment())
                left = [name for _, name in maildir.names()]
                last = run.out.splitlines()[-1:]
                if last == [b"+OK bye"]:
                    self.assertEqual((run.status, left), (0, [b"b"]), f"growth {refusal.number} refused: {run}")
                else:
                    self.assertTrue(refusal.came(), f"nothing was refused: {run}")
                    self.assertEqual(left, [b"a:2,", b"a", b"b"], f"growth {refusal.number} refused: {run}")

    def test_one_connection_of_two(self):
        """If memory runs out in one connection, that is reported, and the next one is served whole."""
        told = 0
        with Maildir() as maildir:
            maildir.add("new", "a", b"one\n")
            given = b"USER u\r\nPASS p\r\nRETR 1\r\nQUIT\r\n"
            answers = expected.answers(given, expected.Machine(expected.messages_of(maildir.folder)))
            for refusal in growths.refusals():
                outcome = self.two_connections(maildir, given, refusal)
                if outcome is None:
                    continue
                got, (status, err) = outcome
                self.assertEqual(status, 0)
                self.assertIn(err, (b"", NO_MEMORY), f"growth {refusal.number} refused")
                if err:
                    self.assertEqual(sum(part != b"".join(answers) for part in got), 1)
                    told += 1
                for part in got:
                    self.assertIn(part, beginnings(answers), f"growth {refusal.number} refused")
        self.assertGreater(told, 0, "no refused growth reached a connection")

    def two_connections(self, maildir, given, refusal):
        """What two clients got, and how the server ended; None if memory ran out before it listened."""
        run = programs.run("popd", "--listen", f"{LOOPBACK}:0", "--connections", "0", "u", maildir.passfile,
                           maildir.folder, **refusal.environment())
        if run.status != 0:
            self.assertEqual(run, programs.Run(1, b"", NO_MEMORY), f"growth {refusal.number} refused")
            return None
        refusal.forget()
        got = []
        with Service(maildir, "--connections", "2", **refusal.environment()) as service:
            for _ in range(2):
                with service.client() as client:
                    client.give(given)
                    got.append(client.rest_or_reset())
            return got, service.finish_after_faults()
