"""Random accounts with an mboxrd file over several sessions, some of which are cut: what is sent, appended, recorded
and reported is what the formats say. Between them other programs append mail."""

import unittest

from getmail.mbox_account import OTHER, MboxAccount
from getmail.model import Kept
from getmail.test_sessions import Life, check_seed, libraries
from harness import preload
from harness.mboxrd import SEPARATOR, entries, entry
from probe import grammar

SEEDS = 150
# A session's steps between the listings and the end, with a few messages.
STEPS = (20, 90)


class MboxKept(Kept):
    """What is kept between sessions: the file's octets, the record's rows, and its open intent. Only the record says
    which messages are held."""

    def __init__(self, content=b"", rows=None, intent=None):
        super().__init__({}, rows or {})
        self.content, self.intent = content, intent

    def settle(self):
        """What a session does first: a whole entry at the intent's place counts, a front of one is cut off."""
        if self.intent is not None:
            uid, start, length = self.intent[0], int(self.intent[1]), int(self.intent[2])
            rest = self.content[start:]
            is_ours = (0 < len(rest) <= length and b"\nFrom " not in rest
                       and (rest.startswith(SEPARATOR) or SEPARATOR.startswith(rest)))
            if is_ours and len(rest) == length and rest.endswith(b"\n\n"):
                self.rows[uid] = (self.rows[uid][0], True)
            elif is_ours:
                self.content = self.content[:start]
        self.intent = None

    def session(self, options, messages, now, refuses, address):
        self.settle()
        told = super().session(options, messages, now, refuses, address)
        self.content += entries(self.held.values())
        self.held = {}
        return told


class MboxLife(Life):
    """One account with an mboxrd file."""

    account_kind, kept_kind, part_cut = MboxAccount, MboxKept, 0.5

    def let_others_work(self):
        """Another program appends mail, and a record may be lost, but none whose intent is open: a beginning of its entry
        would stay in the file."""
        if self.source.random() < 0.3:
            self.kept.content += self.source.choice((OTHER, OTHER[:OTHER.index(b"\n")] + b"\n\n" + OTHER))
            self.account.mbox.write_bytes(self.kept.content)
        if self.source.random() < 0.05 and self.kept.intent is None:
            self.account.record.unlink(missing_ok=True)
            self.kept.rows.clear()

    def record(self):
        """The record's rows and its open intent."""
        if not self.account.record.exists():
            return {}, None
        record = grammar.record_of(self.account.record.read_bytes())
        return {uid: (int(seen), state == b"1") for uid, (seen, state) in record.rows.items()}, record.intent

    def check_kept(self):
        self.test.assertEqual(self.account.content(), self.kept.content)
        self.test.assertEqual(self.record(), (self.kept.rows, None))

    def cut_run(self):
        """A run that the server breaks off, or one that is refused a step and perhaps all later ones."""
        source = self.source
        if source.random() < 0.2:
            return self.run(source.randrange(1, 2000))
        changes = {"STEP_BELOW": str(self.account.home), "STEP_REFUSED": str(source.randrange(*STEPS)),
                   "STEP_EFFECT": source.choice(("none", "half", "half", "whole"))}
        if source.random() < 0.7:
            changes["STEP_LATER"] = "1"
        return self.run(**changes)

    def check_cut(self):
        """A session that is cut: the file as it was, or settled; or that, entries of messages in order, and a front of one
        whose intent is open. No message is gone that isn't recorded."""
        before, texts = list(self.server.messages), {**dict(reversed(self.server.messages))}
        was = self.kept.content
        self.kept.settle()
        self.server.refuses = ()
        run, options = self.cut_run()
        self.test.assertIn(run.status, (0, 1))
        content, (rows, intent) = self.account.content(), self.record()
        if content != was:
            self.kept.merge(before, self.now)
            wanted = [texts[before[number - 1][0]] for number in self.kept.wanted(options, before)]
            self.check_content(self.kept.content, content, wanted, intent)
        gone = {uid for uid, _ in before} - {uid for uid, _ in self.server.messages}
        self.test.assertTrue(all(rows[uid][1] for uid in gone), gone)
        self.kept = MboxKept(content, rows, intent)

    def check_content(self, settled, content, wanted, intent):
        self.test.assertEqual(content[:len(settled)], settled)
        rest, count = content[len(settled):], 0
        while count < len(wanted) and rest.startswith(entry(wanted[count])):
            rest, count = rest[len(entry(wanted[count])):], count + 1
        if rest:
            self.test.assertTrue(count < len(wanted) and entry(wanted[count]).startswith(rest), rest[:80])
            self.test.assertEqual((int(intent[1]), int(intent[2])), (len(content) - len(rest), len(entry(wanted[count]))))


class RandomAccounts(unittest.TestCase):
    def test_random_accounts(self):
        with libraries() as preloaded, preload.library("refuse_step") as refusing:
            for seed in range(SEEDS):
                with self.subTest(seed=seed):
                    check_seed(self, seed, (*preloaded, refusing), MboxLife)


if __name__ == "__main__":
    unittest.main()
