#!/usr/bin/env python3
"""Each crate gives out what tests/surface.txt lists for it: types with their fields, variants and calls, and functions, each
call with its signature."""

import re
import sys
from pathlib import Path

TOP = Path(__file__).resolve().parent.parent
LIST = TOP / "tests" / "surface.txt"

# What is changed, to see that the check finds it: a file, a text in it, what takes its place, and how the fault begins.
CHANGED = [
    ("pop3_server/src/lib.rt", "pub use serving::{serve, ", "pub use serving::{", "pop3_server doesn't give out serve"),
    ("fetch_session/src/visits.rt", "pub fn run_sessions<", "fn run_sessions<", "fetch_session has no fn run_sessions"),
    ("fetch_rules/src/lib.rt", "ScanRow, UidRow, ", "ScanRow, ", "fetch_rules doesn't give out UidRow"),
    ("fetch_record/src/seen.rt", "RepeatedId(u32)", "Repeated(u32)", "fetch_rules: SeenFault has no RepeatedId(u32)"),
    ("fetch_session/src/visits.rt", "    pub now: u64", "    now: u64", "fetch_session: Visit has no now: u64"),
    ("mail_store/src/maildir/memory.rt", "pub fn move_to_cur", "fn move_to_cur",
     "mail_store: MemoryMaildir has no fn move_to_cur("),
    ("pop3_wire/src/wire.rt", "    fn recv(", "    fn receive(", "pop3_wire: Wire has no fn recv("),
    ("folder_store/src/maildir.rt", "pub fn at(", "pub fn of(", "folder_store: FolderMaildir has no fn at("),
    # an argument more, another type, another answer; in a function, a trait, a type's call, a field and a variant
    ("mail_store/src/mboxrd/entry.rt", "file: &mut F, text: &[u8])", "file: &mut F, text: Vec<u8>)",
     "mail_store has no fn append_entry<F: FlatFile>("),
    ("local_fetch/src/fetch.rt", ") -> (Report, Server<M>)", ") -> (Report, LoopWire<M>)", "local_fetch has no fn fetch_local<"),
    ("pop3_server/src/serving.rt", "pub fn serve<D: Maildrop, W: Wire>(", "pub fn serve<D: Maildrop, W: Wire + Drop>(",
     "pop3_server has no fn serve<D: Maildrop, W: Wire>("),
    ("pop3_server/src/server.rt", "fn answer(&mut self, line: &[u8])", "fn answer(&mut self, line: Vec<u8>)",
     "pop3_server: Server has no fn answer(&mut self, line: &[u8])"),
    ("pop3_wire/src/wire.rt", "fn send(&mut self, bytes: &[u8])", "fn send(&mut self, bytes: &[u8], more: bool)",
     "pop3_wire: Wire has no fn send(&mut self, bytes: &[u8])"),
    ("pop3_wire/src/unstuffer.rt", "    pub used: usize,", "    pub used: u64,", "pop3_wire: Fed has no used: usize"),
    # a call that whoever implements a trait has to write
    ("pop3_server/src/maildrop.rt", "    fn failures(", "    fn close(&mut self);\n\n    fn failures(",
     "pop3_server: Maildrop also asks for fn close(&mut self)"),
]

CALL = r"(?:const )?fn \w+.*?(?=\s*(?:;|\{|^\s*(?:requires|ensures|ghost)\b))"


def in_one_line(text):
    """A declaration as it is written in one line."""
    return re.sub(r",? ?\)", ")", " ".join(text.split()).replace("( ", "(")).removesuffix(",")


class Crates:
    """The texts of the crates' sources, by their paths."""

    def __init__(self, texts):
        self.texts = texts

    def given_out(self, crate):
        """The crate that defines each name that this one gives out."""
        top = self.texts[f"{crate}/src/lib.rt"]
        modules = set(re.findall(r"^mod (\w+);", top, re.MULTILINE))
        names = {}
        for path, listed in re.findall(r"^pub use ([\w:]+?)::(\w+|\{[^}]*\});", top, re.MULTILINE):
            first = path.partition("::")[0]
            for name in re.findall(r"\w+", listed):
                names[name] = crate if first in modules else self.given_out(first).get(name, first)
        return names

    def source(self, crate):
        """All that a crate's sources have, in one text."""
        return "\n".join(text for path, text in self.texts.items() if path.startswith(f"{crate}/src/"))

    def function(self, crate, name):
        """The signature of a function, in a list."""
        found = re.search(rf"^pub (?=(?:const )?fn {name}\b){CALL}", self.source(crate), re.MULTILINE | re.DOTALL)
        return [in_one_line(found[0].removeprefix("pub "))] if found else []

    def calls(self, crate, kind, name):
        """The signatures of the calls of a type, which are in its blocks."""
        source = self.source(crate)
        others = re.findall(rf"^pub type (\w+)\b[^\n]* = {name}\b", source, re.MULTILINE)
        meant = rf"\b({'|'.join([name, *others])})\b"
        if kind == "type":
            meant = re.escape(re.search(rf"^pub type {name}\b[^=]* = ([^;]+);", source, re.MULTILINE)[1])
        for head, block in re.findall(r"^impl\b([^\n{]*)(.*?)^\}$", source, re.MULTILINE | re.DOTALL):
            if " for " not in head and re.search(meant, head):
                yield from re.findall(rf"^    pub ({CALL})", block, re.MULTILINE | re.DOTALL)

    def members(self, crate, kind, name):
        """The fields, variants and calls of a type or a trait; None if the crate doesn't have it."""
        found = re.search(rf"^pub {kind} {name}\b[^\n]*?(\{{$.*?^\}}|;$|$)", self.source(crate), re.MULTILINE | re.DOTALL)
        if not found:
            return None
        inside = {
            "struct": r"^    pub (\w+: [^\n]+?),?$",
            "enum": r"^    ([A-Z]\w*(?:\([^\n]*?\)| \{[^\n]*?\})?),$",
            "trait": rf"^    ({CALL})",
        }.get(kind)
        members = re.findall(inside, found[1], re.MULTILINE | re.DOTALL) if inside else []
        return [in_one_line(member) for member in [*members, *self.calls(crate, kind, name)]]

    def required(self, crate, name):
        """The calls that whoever implements a trait has to write."""
        found = re.search(rf"^pub trait {name}\b.*?^\}}", self.source(crate), re.MULTILINE | re.DOTALL)
        parts = re.findall(rf"^    ({CALL})(.*?)(?=^    (?:const )?fn |^\}})", found[0], re.MULTILINE | re.DOTALL)
        return [in_one_line(call) for call, rest in parts if not re.search(r"^    \{|\{$", rest, re.MULTILINE)]

    def faults_of(self, crate, home, kind, name, listed):
        """What of one name isn't as it is listed. `home` is the crate that defines it."""
        found = self.members(home, kind, name)
        if found is None:
            yield f"{crate} has no {kind} {name}"
            return
        yield from (f"{crate}: {name} has no {member}" for member in listed if member not in found)
        if kind == "trait":
            yield from (f"{crate}: {name} also asks for {call}" for call in self.required(home, name) if call not in listed)

    def faults(self, listed):
        """What of a list isn't there."""
        for crate, part in re.findall(r"^(\w+)\n(.*?)(?=^\w|\Z)", listed, re.MULTILINE | re.DOTALL):
            names = self.given_out(crate)
            for line, below in re.findall(r"^  (\S.*)\n((?:^    .*\n)*)", part, re.MULTILINE):
                kind, name = re.match(r"(?:const )?(\w+) (\w+)", line).groups()
                if name not in names:
                    yield f"{crate} doesn't give out {name}"
                elif kind == "fn":
                    if self.function(names[name], name) != [line]:
                        yield f"{crate} has no {line}"
                else:
                    yield from self.faults_of(crate, names[name], kind, name, [member.strip() for member in below.splitlines()])


def unseen(texts, listed):
    """The changes that aren't found."""
    for path, old, new, fault in CHANGED:
        if old not in texts[path]:
            yield f"{path} has no text {old}"
            continue
        found = list(Crates({**texts, path: texts[path].replace(old, new)}).faults(listed))
        if not found or not found[0].startswith(fault):
            yield f"this wasn't found: {fault}"


def main():
    texts = {str(path.relative_to(TOP / "crates")): path.read_text() for path in sorted(TOP.glob("crates/*/src/**/*.rt"))}
    listed = LIST.read_text()
    faults = list(Crates(texts).faults(listed)) or list(unseen(texts, listed))
    print(*faults or ["each crate gives out what others build on"], sep="\n")
    return 1 if faults else 0


if __name__ == "__main__":
    sys.exit(main())
