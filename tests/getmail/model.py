"""What a whole session of an account does, by the formats alone: what is sent, stored, recorded and reported.

It knows nothing of how `getmail` is made. `test_sessions.py` compares the two over random accounts.
"""

from dataclasses import dataclass, field

from getmail.server import size_of

DAY = 86_400


@dataclass
class Options:
    """The section `[options]`, as the flags leave it."""

    read_all: bool = False
    delete: bool = False
    delete_after: int = 0
    max_message_size: int = 0
    max_messages_per_session: int = 0
    verbose: int = 1

    def lines(self):
        """The section's lines."""
        return "".join(f"{key} = {str(value).lower()}\n" for key, value in vars(self).items())

    def changed(self, flags):
        """The options after these flags, no two of which are opposite."""
        new = Options(**vars(self))
        if "-a" in flags or "-n" in flags:
            new.read_all = "-a" in flags
        if "-d" in flags or "-l" in flags:
            new.delete = "-d" in flags
        louder = sum(flag.count("v") for flag in flags)
        new.verbose = 0 if "-q" in flags else min(2, self.verbose + louder) if louder else min(2, self.verbose)
        return new


@dataclass
class Told:
    """What a session sends after its listings, and what it reports."""

    commands: list = field(default_factory=list)
    lines: list = field(default_factory=list)
    fault: str = ""


@dataclass
class Kept:
    """What is kept between sessions: the texts that are held, and for each id when it was first seen and whether it was
    delivered."""

    held: dict = field(default_factory=dict)
    rows: dict = field(default_factory=dict)

    def merge(self, messages, now):
        """Enters the listed messages."""
        for uid, _ in messages:
            seen, delivered = self.rows.get(uid, (now, False))
            self.rows[uid] = (seen, delivered or uid in self.held)

    def wanted(self, options, messages):
        """The numbers of the messages that are fetched."""
        seen, numbers = set(), []
        for number, (uid, text) in enumerate(messages, 1):
            fits = not options.max_message_size or size_of(text) <= options.max_message_size
            if uid not in seen and fits and (options.read_all or not self.rows[uid][1]):
                numbers.append(number)
            seen.add(uid)
        return numbers[:options.max_messages_per_session or None]

    def is_due(self, options, uid, now):
        """Whether the options let a message be deleted at this time."""
        days = options.delete_after
        return options.delete or (days > 0 and max(now - self.rows[uid][0], 0) >= days * DAY)

    def session(self, options, messages, now, refuses, address):
        """One session over these messages, in which the server refuses these commands."""
        self.merge(messages, now)
        wanted, total, told = self.wanted(options, messages), len(messages), Told()
        ids = [uid for uid, _ in messages]
        deleted = [number for number, uid in enumerate(ids, 1) if self.is_due(options, uid, now)
                   and (self.rows[uid][1] or number in wanted) and ids.count(uid) == 1]
        retrieved = octets = removed = 0

        def send(command):
            told.commands.append(command)
            if command in refuses and not told.fault:
                told.fault = f"getmail: server refused {command}\n"
            return command not in refuses

        for number, (uid, text) in enumerate(messages, 1):
            if number in wanted:
                if not send(f"RETR {number}"):
                    break
                word = "already held" if uid in self.held else "delivered"
                self.held.setdefault(uid, text)
                self.rows[uid] = (self.rows[uid][0], True)
                told.lines.append(f"msg {number}/{total} ({len(text)} bytes) {word}")
                retrieved, octets = retrieved + 1, octets + len(text)
            elif options.verbose == 2:
                told.lines.append(f"msg {number}/{total} ({size_of(text)} octets) skipped")
            if number in deleted:
                if not send(f"DELE {number}"):
                    break
                told.lines.append(f"msg {number}/{total} deleted")
                removed += 1
        send("QUIT")
        told.lines.insert(0, f"SimplePOP3Retriever:u@{address}:")
        told.lines.append(f"{retrieved} messages ({octets} bytes) retrieved, {total - len(wanted)} skipped, "
                          f"{removed} deleted")
        if options.verbose == 0:
            told.lines.clear()
        return told
