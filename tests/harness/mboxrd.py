"""What an mboxrd file holds: entries, each a first line, a quoted text and an empty line."""

import re

SEPARATOR = b"From MAILER-DAEMON Thu Jan  1 00:00:00 1970\n"


def quoted(text):
    """The text with one more `>` in each line that is `>` any number of times and then `From `."""
    return re.sub(rb"^(?=>*From )", b">", text, flags=re.MULTILINE)


def unquoted(text):
    """The text with one `>` less in each line that is `>` once or more and then `From `."""
    return re.sub(rb"^>(?=>*From )", b"", text, flags=re.MULTILINE)


def entry(text):
    """The entry of a text."""
    return SEPARATOR + quoted(text) + b"\n"


def entries(texts):
    """The entries of texts, one after the other."""
    return b"".join(map(entry, texts))
