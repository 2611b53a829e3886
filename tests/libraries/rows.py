"""The calls of `no_memory_tests` in `crates/tests`: what each prints if no growth is refused, and what else it may.

In the printed lines `/` stands for LF and `|` for CR LF. Expected values come from the standard and from the documents
of the formats, or were worked out by hand.
"""

from dataclasses import dataclass

NO_MEMORY = "no memory"
# What a device, or a link in memory, answers if there is no memory for a growth of its own.
REFUSED = "refused"


class NotAllowed(AssertionError):
    """A run printed something other than its row's answer, that memory ran out, or a device's refusal."""


@dataclass(frozen=True)
class Row:
    """A call that is made twice, or, if it changes what it is given, again only after a refusal.

    A call prints its `answer`. A refused one prints one of the `faults` and then what is left, one of `left`. `before` is
    printed before the first call.
    """

    call: str
    answer: tuple
    before: tuple = ()
    left: tuple = ((),)
    faults: tuple = (NO_MEMORY,)
    is_repeated: bool = True

    def fault_of(self, parts):
        """The fault that a run printed, or None for the row's answer. The parts of a run begin with its calls."""
        before, first, *rest = parts
        if before != self.before:
            raise NotAllowed(f"before the call: {before}")
        if first == self.answer:
            if rest != [self.answer] * self.is_repeated:
                raise NotAllowed(f"the second call: {rest}")
            return None
        if first[:1] and first[0] in self.faults and first[1:] in self.left and rest == [self.answer]:
            return first[0]
        raise NotAllowed(f"the call and the one after it: {first} {rest}")


def changing(call, before, answer, after, faults=(NO_MEMORY,)):
    """A call that changes what it is given, if it isn't refused."""
    return Row(call, (*answer, *after), before, (before,), faults, is_repeated=False)


# The messages of the sessions.
TEXTS = ("one/", "two/", "three/")
# How a session may end since memory ran out: for a growth of its own, of the record's file, of the Maildir, of the link.
WANTING = {"out of memory", "seen file refused", "destination refused", "writing to the server failed"}


@dataclass(frozen=True)
class Sessions:
    """Some sessions by one call, and then a whole one over all messages, after which each is held once."""

    call: str
    count: int

    def fault_of(self, parts):
        _, outcomes, (last, *held) = parts
        if last != "ended" or tuple(held) != TEXTS:
            raise NotAllowed(f"the last session: {last} {held}")
        if outcomes == (NO_MEMORY,):
            return NO_MEMORY
        if len(outcomes) != self.count or not set(outcomes) <= WANTING | {"ended"}:
            raise NotAllowed(f"the sessions of the call: {outcomes}")
        return next((outcome for outcome in outcomes if outcome != "ended"), None)


HEADER = "getmail-seen 2/"
RECORD = f"{HEADER}a 5 0/b 6 1/"
MERGED = f"{HEADER}a 5 1/b 6 1/c-that-is-not-short 9 0/"
DELIVERED = ("one,S=2", "x/", "none begun")

ROWS = {
    "wires::stuff_row": Row("stuff", ("a|..b|.|",)),
    "wires::unstuff_row": Row("unstuff", ("a/.b/",)),
    "wires::script_wire_row": changing("ScriptWire::send", ("",), ("sent",), ("QUIT|",), (REFUSED,)),
    "settings::rc_text_row": Row("rc_text", ("retriever.port has a bad value",)),
    "settings::warning_text_row": Row("warning_text", ("warning: line 10: options.timeout has no effect",)),
    "records::read_row": Row("Seen::read", (f"{RECORD}! a 7 8/",)),
    "records::merge_row": changing("Seen::merge", (RECORD,), ("changed",), (MERGED,)),
    "texts::quote_row": Row("quote", (">From x/",)),
    "texts::read_mbox_row": Row("read_mbox", ("From x/", "y/")),
    "texts::fault_text_row": Row("fault_text", ("server refused RETR 7",)),
    "traces::line_text_row": Row("line_text", ("C: RETR 1\\x1b/",)),
    "traces::refusal_text_row": Row("refusal_text", ("open mail/new: Permission denied",)),
    "traces::rename_row": Row("System::rename", ("none to other: No such file or directory",)),
    "traces::read_row": Row("System::open, OpenAt::asked", (".: Is a directory",)),
    "traces::traced_wire_row": Row("TracedWire::send", ("sent", "NOOP|"), left=(("",),), faults=(REFUSED,)),
    "stores::deliver_row": Row("deliver", ("done", *DELIVERED), left=(("none begun",),), faults=(NO_MEMORY, REFUSED)),
    "stores::move_to_cur_row": changing("MemoryMaildir::move_to_cur", DELIVERED, ("moved",), ("none begun",)),
    "servers::memory_text_row": Row("MemoryDrop::text", ("one/",)),
    "servers::folder_text_row": Row("MaildirDrop::text", ("one/",)),
    "sessions::fetch_local_row": Sessions("fetch_local", 1),
    "sessions::run_sessions_row": Sessions("run_sessions", 2),
}
