"""The folders of a Maildir."""


def make_maildir(path):
    """Makes an empty Maildir, and the folders above it, and answers its path."""
    for part in ("tmp", "new", "cur"):
        (path / part).mkdir(parents=True)
    return path
