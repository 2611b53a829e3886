#!/usr/bin/env python3
"""Prints what is promised, as one text in parts, each in the order of use: every definition of the sources that the laws of a
part are made of, each before what uses it, the types with those fields and variants of which one of them speaks, the traits
of the devices with theirs, and last the laws and the calls that they are about.

    python3 tools/statement.py                # the text, which is docs/STATEMENT.txt
    python3 tools/statement.py --counts       # only its last lines: how long it is
"""

import re
import sys
from typing import NamedTuple

from sources import TOP, Sources, Thing, print_whole

class Part(NamedTuple):
    """A part of the text, which needs only those before it: what it has besides its definitions. A law or a call is a crate
    and a function, a trait a crate and a name, and a definition a crate, a module of its `specs` and a name."""

    title: str
    words: str
    laws: tuple = ()
    calls: tuple = ()
    traits: tuple = ()
    definitions: tuple = ()


PARTS = [
    Part("In any order", """\
What is promised of any list of calls, under any limits: with a Maildir, and with an mboxrd file.""",
         laws=("fetch_runs:calls_keep_promises", "fetch_runs:mbox_calls_keep_promises")),
    Part("In order", """\
What calls keep of the order of messages, and what is promised if a server shows its mail in one order, under one limit on
sizes.""",
         laws=("fetch_runs:calls_keep_order", "fetch_runs:mbox_calls_keep_order", "fetch_runs:headline",
               "fetch_runs:mbox_headline")),
    Part("What isn't opened", """\
The contract by which a call of `session` is one that these laws speak of; and that a record's bytes stand for one record.""",
         laws=("fetch_record:files_stand_for_one_record",), calls=("fetch_session:promised_session",)),
    Part("The devices", """\
What each call of a device does while its `sound` holds: of a link, a Maildir and a file, over which calls of `session` are
made. docs/AXIOMS.txt has the traits of the folders over which the real ones are made.""",
         traits=("pop3_wire:Wire", "mail_store:MaildirDisk", "mail_store:FlatFile")),
    Part("Kills", """\
What 1 and 2 say holds over a link and devices of which each refuses all calls from some call on. Each call of `FusedWire` does
what `BurnsForLink` says, and each of `Fused` what `Fuses` says.""",
         laws=("local_fetch:killed_calls_keep_promises",),
         definitions=("test_devices:LinkFuse:BurnsForLink", "test_devices:LinkFuse:fused_link",
                      "test_devices:LinkFuse:fused_is_sound", "test_devices:StoreFuse:Fuses",
                      "test_devices:StoreFuse:fused_maildir", "test_devices:StoreFuse:device_of",
                      "test_devices:StoreFuse:refusals", "test_devices:StoreFuse:FusedIsSound")),
    Part("That it happens", """\
Over folders and files in memory losses of power happen, and take files and bytes.""",
         laws=("local_fetch:losses_happen",)),
    Part("That it ends well", """\
Calls over a maildrop that stays record all its messages in the end; what 1 and 2 say, and this, holds of the visits of
`run_sessions`; and a message of a maildrop from which calls delete is always there, or held, or was taken away.""",
         laws=("fetch_runs:calls_get_far", "fetch_runs:mbox_calls_get_far", "fetch_runs:visits_keep_promises",
               "local_fetch:mail_is_moved")),
    Part("What it comes to", """\
In plain data: of what the premises of these laws hold; and what their conclusions come to for a first call, a second one,
a loss of power, and the limit on the number of messages.""",
         laws=("fetch_runs:premises_hold", "fetch_runs:firsts_are_prefixes", "fetch_runs:firsts_are_entries",
               "fetch_runs:losses_take_one", "fetch_runs:losses_keep_the_recorded", "fetch_runs:losses_keep_entries",
               "fetch_runs:calls_record_the_limit", "local_fetch:seconds_fetch_nothing_in_memory")),
]
# Definitions that nobody has to open: only what they are of is printed, and what they are made of is left out.
UNOPENED = ["fetch_session:Visits:WasMade", "fetch_record:RecordMeaning:StandsFor",
            "local_fetch:Local:WasFetchedLocally"]
# The law that README quotes.
QUOTED = "fetch_runs:headline"

INTRODUCTION = """\
What is proved of fetching, from the sources: `make statement` prints this text. Each name is explained before it is
used, except those of the standard library and of the kit's crates. docs/HEADLINE.md says how to read it, and why nobody has
to open the three definitions that end at their type. Of a type of the sources the text has those fields and variants alone of
which it speaks. Each part needs only those before it, of which part 1 is the longest. docs/AXIOMS.txt has what is trusted of
the real sockets, folders and files, in the same way, with the traits that are below those of part 4."""


def ordered(sources, roots, known, unopened=(), read=None):
    """All that the roots name, each after what it names itself, without what is known and without traits. Of types of the
    sources only those fields and variants count that are read, if it is said which: {type: names}."""
    order, seen = [], set(known)

    def named(thing):
        if thing in unopened:
            return sources.named_in_type(thing)
        return sources.named(thing, None if read is None else read.get(thing, set()))

    def visit(thing):
        if thing in seen or sources.is_trait(thing):
            return
        seen.add(thing)
        for each in named(thing):
            visit(each)
        order.append(thing)

    for root in roots:
        visit(root)
    return order


def contract_of(sources, name):
    """A function that is listed above, and its lines."""
    return sources.function(*name.split(":"))


def heading(number, text):
    return ["=" * 100, f"{number}. {text}", "=" * 100, ""]


def quotation(top):
    """The sentence that README quotes."""
    lines = (top / "README.md").read_text().splitlines()
    return [line.removeprefix("> ") for line in lines if line.startswith("> ")]


class Found:
    """What a part has: its definitions, its traits with theirs, and its contracts."""

    def __init__(self, sources, part, known, unopened, read):
        def learned(roots):
            order = ordered(sources, roots, known, unopened, read)
            known.extend(order)
            return order

        self.part = part
        self.contracts = [contract_of(sources, name) for name in (*part.laws, *part.calls)]
        # What a device is made of is not part of what is said of it.
        named = [each for thing, lines in self.contracts
                 for each in sources.named_in(thing, [re.sub(r"⟦[^⟧]*⟧", "", "\n".join(lines))]) if each]
        more = [specs_thing(name) for name in part.definitions]
        self.definitions = learned([*more, *named])
        self.traits = [(trait, learned(sources.named(trait)))
                       for trait in (sources.declared(*name.split(":")) for name in part.traits)]

    def things(self):
        yield from self.definitions
        for trait, more in self.traits:
            yield from (*more, trait)


def specs_thing(name):
    crate, module, last = name.split(":")
    return Thing(crate, f"specs/{module}.antt", last)


class Statement:
    """What a text of such parts is made of, each in the order in which it is read."""

    def __init__(self, sources, parts=PARTS):
        self.sources, self.read = sources, {}
        self.unopened = [specs_thing(name) for name in UNOPENED]
        while True:
            known = []
            self.parts = [Found(sources, part, known, self.unopened, self.read) for part in parts]
            if (read := self.read_by()) == self.read:
                break
            self.read = read

    def read_by(self):
        """Of each type the fields and variants of which something here speaks."""
        fields, variants = set(), set()
        for part in self.parts:
            for thing, lines in [*((each, self.lines(each)) for each in part.things()), *part.contracts]:
                if thing.file.startswith("specs/") or self.sources.is_trait(thing) or (thing, lines) in part.contracts:
                    more = self.sources.read_in(thing, lines)
                    fields |= more[0]
                    variants |= more[1]
        return {thing: fields | {name for of, name in variants if of == thing}
                for part in self.parts for thing in part.things()
                if not thing.file.startswith("specs/") and not self.sources.is_trait(thing)}

    def printed(self, things):
        """The lines of things, with their file's name where it changes."""
        last = None
        for thing in things:
            if (thing.crate, thing.file) != last:
                mark = "--" if thing.file.startswith("specs/") else "//"
                yield from (f"{mark} ---------- crates/{thing.crate}/{thing.file}", "")
            last = thing.crate, thing.file
            yield from (*self.lines(thing), "")

    def lines(self, thing):
        if thing in self.unopened:
            return self.sources.type_lines(thing)
        if thing.file.startswith("specs/") or self.sources.is_trait(thing):
            return self.sources.lines(thing)
        return self.sources.lines_read(thing, self.read.get(thing, set()))

    def printed_contracts(self, part):
        for thing, lines in part.contracts:
            yield from (f"// ---------- crates/{thing.crate}/{thing.file}", "")
            if f"{thing.crate}:{thing.name}" == QUOTED:
                yield from ("// README.md quotes it so:", *(f"// > {line}" for line in quotation(self.sources.top)), "//")
            yield from (*lines, "")

    def length(self, things, folder="specs/"):
        return sum(len(self.lines(thing)) for thing in things if thing.file.startswith(folder))

    def counts(self):
        """How many lines there are of what. Those of comments count."""
        whole = 0
        for number, part in enumerate(self.parts, 1):
            things = list(part.things())
            types = sum(len(self.lines(each)) for each in things if each.file.startswith("src/"))
            definitions, contracts = self.length(things), sum(len(lines) for _, lines in part.contracts)
            whole += definitions + types + contracts
            yield (f"Part {number}: {definitions:,} lines of definitions, {types:,} of types and traits of the sources, "
                   f"{contracts:,} of contracts: {whole:,} so far")

    def text(self):
        lines = [INTRODUCTION, ""]
        for number, part in enumerate(self.parts, 1):
            lines += [*heading(number, part.part.title), part.part.words, "", *self.printed(part.things()),
                      *self.printed_contracts(part)]
        return "\n".join([*lines, *self.counts(), ""])


def text_of(top=TOP):
    return Statement(Sources(top)).text()


if __name__ == "__main__":
    if sys.argv[1:] == ["--counts"]:
        print_whole("".join(f"{line}\n" for line in Statement(Sources()).counts()))
    else:
        print_whole(text_of())
