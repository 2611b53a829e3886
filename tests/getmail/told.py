"""What unattended runs tell, by the rules of getmail(1) alone: a model of one account's memory.

A run is what it met; the model answers the octets that it writes to standard error. Times are seconds since 1970.
"""

import re
from dataclasses import dataclass, field
from email.utils import formatdate

HOUR, DAY, WEEK = 3_600, 86_400, 604_800
FAULTS, NOTICES, NAMES = 16, 1_000, 1_000

# The number of a message is no part of what makes two faults the same.
NUMBER = re.compile(r"(?<=refused RETR )\d+$|(?<=refused DELE )\d+$")


@dataclass
class Said:
    """What a run would say if it told all: the lines of its fault, with what makes it the same fault as another one;
    lines that are told once and lines that are told each week; its messages over the size limit, as triples of id, number
    and size; how many were past the limit on their number. `ends` is whether it came to its end."""

    fault: tuple[str, ...] = ()
    place: str = ""
    once: list[str] = field(default_factory=list)
    lasting: list[str] = field(default_factory=list)
    large: list[tuple[bytes, int, int]] = field(default_factory=list)
    past_limit: int = 0
    ends: bool = False
    left_out: str = ""


def date(second):
    return formatdate(second, usegmt=True)


class Memory:
    """What one account's runs told. `name` is the account as lines have it, `limit` its size limit."""

    def __init__(self, name, limit):
        self.name = name
        self.limit = limit
        self.forget()

    def forget(self):
        self.faults = {}
        self.ended = self.failing = self.limited = None
        self.said = {}
        self.named = []
        self.unnamed = 0

    def line(self, words):
        return f"getmail: {self.name}: {words}"

    def run(self, said, now, is_kept=True):
        """The lines of a run. If the memory can't be written, all is told, and it stays as it was."""
        before = vars(self).copy()
        before.update(faults=dict(self.faults), said=dict(self.said), named=list(self.named))
        told, rest = [], []
        self.take_fault(said, now, told, rest)
        for lines, period in ((said.once, None), (said.lasting, WEEK)):
            for line in lines:
                self.take_notice(line, period, now, told, rest)
        self.take_left_out(said, now, told, rest)
        if said.ends:
            self.end(now, told)
        if is_kept:
            return told
        changed = self.state() != Memory.state_of(before)
        vars(self).update(before)
        if not changed:
            return told
        each = [self.line("each run tells this, since the folder of its record cannot be written")]
        return told + rest + each if told or rest else []

    def state(self):
        return self.state_of(vars(self))

    @staticmethod
    def state_of(values):
        return [list(values["faults"].items()), list(values["said"].items()), values["named"], values["ended"],
                values["failing"], values["limited"], values["unnamed"]]

    def take_fault(self, said, now, told, rest):
        if not said.fault:
            return
        key = (NUMBER.sub("", said.fault[0]), said.place)
        since, last, runs = self.faults.get(key, (now, None, 0))
        if last is not None and last > now:
            since, last, runs = now, None, 0
        if last is not None and now - last < DAY:
            rest += said.fault
            self.faults[key] = (since, last, runs + 1)
        else:
            told += said.fault
            if last is not None:
                told.append(self.line(f"seen since {date(since)}, in {runs + 1} runs"))
            self.faults.pop(key, None)
            if len(self.faults) == FAULTS:
                del self.faults[next(iter(self.faults))]
            self.faults[key] = (since, now, runs + 1)
        if self.failing is None or self.failing > now:
            self.failing = now

    def take_notice(self, line, period, now, told, rest):
        last = self.said.get(line)
        if last is not None and (period is None or last <= now < last + period):
            rest.append(line)
            return
        told.append(line)
        self.said.pop(line, None)
        if len(self.said) == NOTICES:
            del self.said[next(iter(self.said))]
        self.said[line] = now

    def take_left_out(self, said, now, told, rest):
        if not (said.ends or said.large):
            return
        if said.left_out:
            rest.append(said.left_out)
        ids = [uid for uid, _, _ in said.large]
        self.named = [uid for uid in self.named if uid in ids]
        for uid, number, size in said.large:
            if uid not in self.named and len(self.named) < NAMES:
                self.named.append(uid)
                told.append(self.line(f"message {number} has {size} octets, more than max_message_size {self.limit}: "
                                      "it stays on the server"))
        unnamed = len(ids) - len(self.named)
        if unnamed > self.unnamed:
            more = "message is larger than max_message_size: it stays" if unnamed == 1 else \
                "messages are larger than max_message_size: they stay"
            told.append(self.line(f"{unnamed} more {more} on the server"))
        self.unnamed = unnamed
        if not said.past_limit:
            self.limited = None
            return
        if self.limited is None or self.limited > now:
            self.limited = now
        if now - self.limited >= DAY:
            told.append(self.line(f"each run since {date(self.limited)} reached max_messages_per_session: "
                                  f"{'1 message is' if said.past_limit == 1 else f'{said.past_limit} messages are'} left"))
            self.limited = now

    def end(self, now, told):
        if self.failing is not None and (self.ended is None or self.ended > now or now - self.ended >= DAY):
            told.append(self.line(f"works again: runs had failed since {date(min(self.failing, now))}"))
            self.ended, self.failing = now, None
        self.faults = {key: times for key, times in self.faults.items() if times[1] <= now < times[1] + 2 * DAY}
