"""An account whose destination is an mboxrd file."""

from getmail.account import Account
from harness.mboxrd import entries, entry
from probe import grammar

MAILDIR_LINES = "type = Maildir\npath = ~/Maildir/\n"
MBOXRD_LINES = "type = Mboxrd\npath = ~/mbox\n"

# An entry as a delivery agent writes it; getmail's entries come after it.
OTHER = b"From fred@example.org Sat Jan  3 01:05:34 1998\nSubject: other\n\n>From here on\n\n"


class MboxAccount(Account):
    """The account of a user at a port of this machine, with the file `mbox` in its home; empty, or with these octets."""

    def __init__(self, port, options="", user="u", above=None, begun=b""):
        super().__init__(port, options, user, above)
        self.rcfile.write_text(self.rcfile.read_text().replace(MAILDIR_LINES, MBOXRD_LINES))
        self.mbox = self.home / "mbox"
        self.kept = self.record.with_name(self.record.name + ".rest")
        self.begun = begun
        self.mbox.write_bytes(begun)
        self.mbox.chmod(0o600)

    def content(self):
        """What the file holds."""
        return self.mbox.read_bytes()

    def told_kept(self):
        """The line of a run that knows of something that was cut off."""
        return f"getmail: {self.name_in_lines}: what was cut off from the mbox file is kept in {self.kept}\n".encode()

    def stored(self, texts):
        """How many of the texts have their entries in the file, in order from its beginning, and what follows them.

        What follows is a front of the next entry, or the file isn't what it should be.
        """
        content = self.content()
        if not content.startswith(self.begun):
            raise AssertionError(f"{content[:100]} isn't how the file began")
        count = 0
        while count < len(texts) and content.startswith(self.begun + entries(texts[:count + 1])):
            count += 1
        rest = content[len(self.begun + entries(texts[:count])):]
        if rest and not (count < len(texts) and entry(texts[count]).startswith(rest)):
            raise AssertionError(f"after {count} entries there is {rest[:100]}")
        return count, rest

    def known(self):
        """The unique-ids that the record has as delivered, in order, and its open intent or None."""
        if not self.record.exists():
            return [], None
        record = grammar.record_of(self.record.read_bytes())
        return [uid for uid, (_, state) in record.rows.items() if state == b"1"], record.intent
