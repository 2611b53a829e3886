"""The whole table of conversations: standard output byte for byte, the status, and nothing on standard error."""

import unittest

from getmail import conversations
from harness import programs


class Conversations(unittest.TestCase):
    def check_table(self, table):
        for conversation in table():
            with self.subTest(conversation.name):
                run = programs.run("getmail", "--rehearse", given=conversation.given)
                self.assertEqual(run, programs.Run(conversation.status, conversation.printed, b""))

    def test_recorded_conversation_of_the_repository(self):
        given = (programs.ROOT / "examples" / "getmail-rehearsal.txt").read_bytes()
        wanted = conversations.ended("example", given, uid="20261120.0815.7", length=222)
        run = programs.run("getmail", "--rehearse", given=given)
        self.assertEqual(run, programs.Run(0, wanted.printed, b""))


def add_tests():
    """Gives each table a test of its own, named after it; a table that TABLES doesn't name is an error."""
    unlisted = [name for name, table in vars(conversations).items()
                if name.endswith("_conversations") and table not in conversations.TABLES]
    if unlisted:
        raise LookupError(f"TABLES in tests/getmail/conversations.py doesn't name {', '.join(unlisted)}")
    for table in conversations.TABLES:
        def test(self, table=table):
            self.check_table(table)
        test.__doc__ = table.__doc__
        setattr(Conversations, f"test_{table.__name__}", test)


add_tests()
