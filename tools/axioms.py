#!/usr/bin/env python3
"""Prints what the proofs of the programs trust, found in the sources: what is assumed of the devices of which nothing is
known and of a loss of power, the premises of the others, what else excuses a device, the code that no contract covers, the
kit's crates, the handles and the toolchain; and the traits of these devices that the statement doesn't print.

    python3 tools/axioms.py                   # the text, which is docs/AXIOMS.txt
"""

import re
import subprocess
import sys
import textwrap
from itertools import count, takewhile
from typing import NamedTuple

from sources import TOP, Sources, print_whole, without_comments, words_of
from statement import PARTS, Part, Statement

sys.path.insert(0, str(TOP))

from build import crates_of  # noqa: E402 (the path has to be there first)

PROGRAMS = ("getmail", "popd")
UNKNOWN = "λ _. ⊥"
WHERE_SOUND = "sound self.new → sound self.old"
CALL = re.compile(r"(\w+\(2\))(?: with O_CREAT| of a folder)?")
SEVERAL, NONE = "Several calls of the system in one method", "Laws that name no call"
# Relations that don't say what a call did.
WRAPPERS = {"Did", "IsAbsent", "IsSame", "WhereSound"}
# What the comment at a method doesn't say of the calls that it makes.
UNNAMED = {
    "Wire::send": "send(2), until all is sent.",
    "Wire::recv": "recv(2), again if it was interrupted.",
    "FileCalls::flush_targets": "With open(2).",
    "SharedCalls::list": "With open(2), clock_gettime(2), clock_nanosleep(2).",
    "SharedCalls::flush_pass": "With the calls of `list`, lstat(2), stat(2), fstat(2), readlink(2).",
    "SharedCalls::fsync_folder": "The folder is opened before, unless it is open.",
}
FUNCTION = re.compile(r"^( *)(?:pub(?:\([a-z]+\))? )?(?:const )?fn (\w+)", re.MULTILINE)
TRAIT = re.compile(r"^(?:pub(?:\(crate\))? )?trait (\w+)(?:<[^>]*>)?(?:: ([^{;]*))?[^{;]*\{", re.MULTILINE)
HANDLE = re.compile(r"\b(Threads|Wait|Net|Processes)\b[<+ ]")
NAMES_PREMISE = re.compile(r"\bsound\b")
GHOST = re.compile(r"\bghost (\w+):")
MEMBER = re.compile(r"\bghost (\w+): \{")
COMMENTED = re.compile(r"((?:^ *//.*\n)+) +(?:ghost|fn) (\w+)", re.MULTILINE)
TYPE = re.compile(r"^ +type (\w+): (\w+)", re.MULTILINE)
OPEN = re.compile(r"\bghost (\w+) = \{ λ[ _]*\. Unit \{0\} \};")
# Traits of std whose calls do what the impl says by this member, if it gives it.
STATED = {"Display": "output", "From": "from_gives"}
# Clauses that don't say what a function does: a count of refusals, which faults there are, a bound, or what is known of a
# device of which nothing is known.
PINS_NOTHING = re.compile(r"Tallies .*|self\.new ≡ record self\.old \{ failures = self\.new\.failures \}"
                          r"|IfErr result (?:IsDeviceFault|\(λ (\w+)\. \1 ≡ [A-Z][\w.]*\))|.* ≡ unknown_\w+"
                          r"|[^≡↔×≢→]*(?:→[^≡↔×≢→]*)? [≤<] [^≡↔×≢→]*")

ASSUMED = """\
1. What is assumed of the system, call by call. Of some devices nothing is known: `sound`, their premise, is ⊥. The code
   over them is generic, and proved for each device that does what its trait says. So what a trait says only where
   `sound` holds is assumed of them: laws, and clauses of methods whose body isn't in the trait. The clauses are printed
   without the words `sound self.new → sound self.old ×`. One that has no others assumes nothing of the system, and is
   left out. The other ghost members of such a device (`tree`, `shared`, `made`, `told` and so on) are placeholders too:
   it is assumed that there are some for which all that the trait says holds, also what is proved of the placeholders. A
   clause that names no other members is printed too. `remaining`, what reads will give, is a placeholder for the files
   that MaildirFolders opens: std says that it isn't known of them.
   What a call does depends on who else changes the files; at `sound` each trait says what is assumed of that. HostCalls
   has files of our own, OpenAt those without a name yet, CallsShared folders in which mail readers move files before
   each call (`Did`), and MaildirFolders those of a server. StreamWire is a socket. The words before clauses are the
   comments at the method and at the relations that the clauses name, or at the ghost members if they name none.
   docs/STATEMENT.txt has the traits Wire, MaildirDisk and FlatFile with what their names mean, and 9 has the others.
   What can't be opened may come to the folders and go at any moment, so no clause says where such names (`closed_new`,
   `closed_cur`) come from. Of CallsShared it is assumed that a listing shows exactly those that are there then
   (`ListsIn`), and that what each name led to then it leads to until it is looked at, unless it is a file's that moved
   or went: a message whose name is one of what can't be opened isn't fetched. All that is above it is proved to tell
   just these."""
LOSS = """\
  A loss of power. What it leaves of files of our own is `Loses`, under each name one of what `MayLeave` allows; and of
  the folders of a Maildir `LosesMail`, by which its files are left as `LosesPower` says (these are in 9 and in
  docs/STATEMENT.txt). No call of a program shows it, so each part of it is assumed of the system and of its disk. One
  that comes during a call leaves what it would after the call, done or refused. Nothing is assumed of the order in
  which files and names reach the disk, nor of what a refused flush did."""
# What is assumed of a loss of power: the words, and the definitions that say it.
LOSSES = [
    ("A flush of a file: the bytes that the file had when fsync(2) of it succeeded are left, until it is changed; unless a "
     "flush of it was refused before.", ("flushed", "secured", "doubted", "IsLeft")),
    ("A file that was changed since: of the flushed bytes the front that wasn't cut off since is left. Each byte after it "
     "is the one in memory, or the one that was flushed, or a zero, and then all after it in its block of 512 octets are "
     "zeros. The file is no longer than in memory, or as long as it was flushed.",
     ("IsTorn", "IsByteLeft", "block_size", "appended", "cut")),
    ("No stale octets: so what is left of a file of our own has none that was never written to it, but zeros. Of a message's "
     "file that wasn't flushed this isn't assumed: any octets may be left.", ("IsByteLeft", "IsLeftAs")),
    ("A flush of a folder: each name in the folder leads to what it led to when fsync(2) of it succeeded, until the name is "
     "changed.", ("names_synced", "names_flushed_in", "AreLeftAs")),
    ("A name that was changed since leads to what it leads to now, or to what it led to at some moment since the flush, a "
     "file or none, whatever the other names do.", ("MayLeave", "IsLeftOfOne", "Loses")),
    ("rename(2) and link(2) are one step, which a loss of power leaves done or not. So a name that is given to another file "
     "always leads to one of the two.", ("put_in", "PutsIntoNew")),
    ("A file of a Maildir that readers rename, within a folder or from one to the other, is left once, in a place that it "
     "has or had, if a name of it was durable; and a flush of either folder makes its name durable.",
     ("MovesFile", "named_by", "EntriesLeftAs")),
    ("What is left is durable, and the folders are those that were there. A file that was being written is none of theirs.",
     ("Loses", "LosesMail", "LosesPower")),
]
FILE_SYSTEMS = """\
  Which file systems do this, by their documents and sources; the power of no disk was cut (docs/TESTING.md says what
  was tried in its place).
    do it
      ext4 with data=ordered, which is its default; xfs; btrfs. Each on a disk that does what it says of a flush: not
      one with a write cache that ignores it, nor with barriers switched off
      NFS, as far as the server has flushed what it says that it has (`sync` in its exports, not `async`)
    don't
      FUSE if its server has no FSYNCDIR, as bindfs: fsync(2) of a folder succeeds, and nothing is done, which strace
        shows; so a message may be recorded whose name a loss of power takes
      overlay with `volatile`, and tmpfs: no flush does anything; a loss of power takes all, or any part
      CIFS: fsync(2) of a folder succeeds without a request to the server
      ext4 with data=writeback: a file that was appended to and not flushed may have stale octets, so a record may not
        be readable, and an mboxrd file may end with what was never mail
      ext2, FAT: they have no journal; a rename may leave neither file, and a file that is moved no name, or two
    were not looked at: ZFS, f2fs, bcachefs, and all others.
  A listing of a Maildir at one moment (CallsShared, list) needs the folder's time of change at once. A client of NFS or
  CIFS may keep attributes of its own for seconds (`actimeo`): then a file that another machine moves during a listing
  may be missed. FAT keeps times in steps of two seconds.
  A program can't know any of this: a flush that succeeds and did nothing looks like one that did."""
PREMISES = """\
2. The premises of the other devices. What their traits say is proved, for one over another device as far as that one
   does what its trait says."""
EXCUSED = """\
3. What else excuses a device. No clause says when a call is refused, so each of these may always be: then what is above
   does nothing more. What a device may put down to others, or to what was so before, is in the definitions named here.
   No clause says either when a folder didn't rest, or when a stem has no file: each of these answers may always come."""
EXCUSES = {
    "Receives": "the other end has closed the link",
    "doubted": "a flush of a file was refused before, after which none makes it durable",
    "is_there": "a folder isn't there",
    "SyncsNames": "the file system flushes no folders, which ends the premise",
    "SyncsFolder": "the file system flushes no folders, which ends the premise",
    "FlushesNames": "the file system flushes no folders, which ends the premise",
    "FlushesNamesIn": "the file system flushes no folders, which ends the premise",
    "Creates": "the place where files are made isn't there",
    "Makes": "the place where files are made isn't there",
    "WereTaken": "mail readers took files away",
    "Moved": "others moved, marked or took away files, or put what can't be opened beside them",
    "ToldAreOdd": "what can't be opened bears a name that is sought",
    "ShowsOdd": "what can't be opened bears a name that is sought",
    "StatsFolder": "a folder didn't rest",
    "TellsRest": "a folder didn't rest",
    "Flushes": "a stem has no file any more",
    "FlushesFiles": "a stem has no file any more",
    "FlushesPass": "a stem has a file that was moved during a pass",
    "FailsReading": "memory ran out",
}
UNCOVERED = """\
4. Code that no contract covers: the lines, without comments and empty ones, of functions that have no contract of
   their own, and of which no trait says anything, or only what 1 assumes. A clause that only counts refusals, or says
   which faults there are, or gives a bound, or speaks of a state of which nothing is known or that the `impl` leaves
   open, is no cover."""

BELOW = Part("The other traits", """\
9. The traits of which 1 assumes clauses, beside those in docs/STATEMENT.txt: of single calls of the system, over which
   the real files are made, of the folders over which the real Maildir is, and of the calls over which a server's
   maildrop is; and before them what a loss of power leaves of folders. Each name that docs/STATEMENT.txt doesn't have
   is explained before it is used.""",
             traits=("folder_store:MadeHandle", "folder_store:OpenHandle", "folder_store:FileCalls",
                     "folder_store:SharedCalls", "folder_drop:MailFiles"),
             definitions=("folder_store:PowerLoss:Loses", "folder_store:MailPower:LosesMail"))


class Function(NamedTuple):
    """A function of a source: its name, the place of its first character, its clauses and all of its text."""

    name: str
    at: int
    clauses: list
    text: str

    def pins(self):
        """The clauses that say what it does."""
        return [text for kind, _, text in self.clauses if kind == "ensures" and not PINS_NOTHING.fullmatch(text)]

    def may_be_refused(self):
        return re.search(r"-> (?:io::)?Result<", self.text)

    def lines(self):
        return sum(line.strip() != "" for line in self.text.splitlines())


class Impl(NamedTuple):
    """An `impl` of a trait, the place of its first character, and its text."""

    trait: str
    type: str
    at: int
    text: str

    def premise(self):
        found = re.search(r"ghost sound = \{", self.text)
        return found and one_line(braced(self.text, found.end() - 1))


def braced(text, at):
    """The text within the braces that open at this place."""
    depth = 0
    for brace in re.compile("[{}]").finditer(text, at):
        depth += 1 if brace[0] == "{" else -1
        if depth == 0:
            return text[at + 1:brace.start()]
    raise SystemExit("an unclosed brace")


def one_line(text):
    return " ".join(text.split())


def comments_in(text):
    """What the comment before each member of the traits of a text says, by their names."""
    for trait in re.finditer(r"^(?:pub(?:\(crate\))? )?trait (\w+)\b.*?^}", text, re.MULTILINE | re.DOTALL):
        for found in COMMENTED.finditer(trait[0]):
            yield f"{trait[1]}::{found[2]}", one_line(re.sub(r"^ *///? ?", "", found[1], flags=re.MULTILINE))


def wrapped(text, first, rest):
    return textwrap.wrap(text, 118, initial_indent=first, subsequent_indent=rest, break_on_hyphens=False)


def function_at(text, found):
    """The function whose first line this match is of: its clauses come before its body, or before a semicolon."""
    at, depth, clauses = found.end(), 0, []
    while not (depth == 0 and text[at] in "{;"):
        depth += {"(": 1, "[": 1, ")": -1, "]": -1}.get(text[at], 0)
        at += 1
        if depth == 0 and (clause := re.compile(r"(requires|ensures)(?: (\w+))? \{").match(text, at)):
            inner = braced(text, clause.end() - 1)
            clauses.append((clause[1], clause[2] or "", one_line(inner)))
            at = clause.end() + len(inner) + 1
    if text.startswith("{\n", at):
        end = text.index(f"\n{found[1]}}}\n", at) + len(found[1]) + 2
    else:
        end = text.index("\n", at)
    return Function(found[2], found.start(), clauses, text[found.start():end])


def functions_in(text):
    return [function_at(text, found) for found in FUNCTION.finditer(text)]


def laws_in(body):
    """The laws of a trait that hold only where its premise does: the name and the text of each."""
    for found in MEMBER.finditer(body):
        law = one_line(braced(body, found.end() - 1))
        if found[1] != "sound" and NAMES_PREMISE.search(law):
            yield found[1], law


def impls_in(text):
    for found in re.finditer(r"^impl(?:<[^{]*?>)?\s+(\w+)(?:<[^{]*?>)?\s+for\s+(\w+)[^{]*\{", text, re.MULTILINE):
        body = braced(text, found.end() - 1)
        yield Impl(found[1], found[2], found.start(), text[found.start():found.end() + len(body)])


class Programs:
    """The sources of the programs, without their comments."""

    def __init__(self, sources, crates):
        self.top, self.crates = sources.top, crates
        self.files = {(crate, file): without_comments(sources.text(crate, file))
                      for crate in crates for file in sources.files(crate)}
        traits = [(found, text) for text in self.files.values() for found in TRAIT.finditer(text)]
        bodies = {found[1]: braced(text, found.end() - 1) for found, text in traits}
        self.traits = {name: functions_in(body + "\n") for name, body in bodies.items()}
        self.ghosts = {name: set(GHOST.findall(body)) for name, body in bodies.items()}
        self.laws = {name: list(laws_in(body)) for name, body in bodies.items()}
        self.types = {name: TYPE.findall(body) for name, body in bodies.items()}
        self.comments = {name: comment for crate, file in self.files
                         for name, comment in comments_in(sources.text(crate, file))}
        self.above = {found[1]: re.findall(r"\w+", found[2] or "") for found, _ in traits}
        self.impls = {(impl.type, impl.trait): impl for text in self.files.values() for impl in impls_in(text)}
        specs = [(crate, f"specs/{file.name}") for crate in crates
                 for file in (self.top / "crates" / crate / "specs").glob("*.antt")]
        defined = [each for crate, file in specs for each in sources.definitions(crate, file).lines.items()]
        self.named = {name: words_of(lines) for name, lines in defined}
        self.said = {name: " ".join(line[3:] for line in takewhile(lambda line: line.startswith("-- "), lines))
                     for name, lines in defined}

    def premise(self, impl):
        """What the impl says of `sound`, or that of a trait above."""
        impls = [impl, *(self.impls.get((impl.type, trait)) for trait in self.above.get(impl.trait, ()))]
        return next((said for each in impls if each and (said := each.premise())), None)

    def devices(self):
        """Each `impl` of a trait with calls that has a premise, with its place."""
        for (crate, file), text in self.files.items():
            for impl in impls_in(text):
                if self.traits.get(impl.trait) and self.premise(impl):
                    yield impl, f"crates/{crate}/{file}"

    def clauses(self, impl):
        """What the impl's trait says of each call: the call, the clause's label and text, and whether the call's body is in
        the trait, so that the clause is proved whatever the premise is."""
        for function in self.traits[impl.trait]:
            is_given = function.text.endswith("}") and not re.search(rf"\bfn {function.name}\b", impl.text)
            yield from ((function.name, label, text, is_given)
                        for kind, label, text in function.clauses if kind == "ensures")

    def reached(self, trait):
        """The definitions that the clauses of a trait lead to."""
        found, left = set(), list(words_of([text for function in self.traits[trait] for _, _, text in function.clauses]))
        while left:
            word = left.pop()
            if word not in found and word in self.named:
                found.add(word)
                left += self.named[word]
        return found

    def pins(self, impl, function):
        """The clauses of an impl's trait that say what the function does there: not by what the impl leaves open."""
        for text in (text for each in self.traits.get(impl.trait, ()) if each.name == function.name for text in each.pins()):
            if not self.is_open(impl, text):
                yield text

    def members(self, impl):
        """The ghost members that the clauses of an impl's trait may name, its own and those of its types: the impl of
        each, and its name there."""
        types = [(f"{name}.", self.impls.get((re.search(rf"\btype {name} = (\w+)|$", impl.text)[1], trait)))
                 for name, trait in self.types[impl.trait]]
        return {front + ghost: (each, ghost) for front, each in [("", impl), *types] if each
                for ghost in self.ghosts.get(each.trait, ())}

    def named_members(self, impl, text):
        """Those that a clause names."""
        members = self.members(impl)
        words = re.findall(r"(?:\b[A-Z]\w*\.)?\b\w+\b(?!\.)", text.replace("Self.", ""))
        return [members[word] for word in dict.fromkeys(words) if word in members]

    def is_open(self, impl, text):
        """Whether a clause says only what the impl leaves open."""
        named = self.named_members(impl, text)
        return named != [] and all(ghost in OPEN.findall(each.text) for each, ghost in named)

    def is_covered(self, impls, function):
        """Whether its own clauses, or else those of its trait, say what the function does, and aren't only assumed."""
        clauses = function.pins()
        if not (impl := next((impl for impl in impls if impl.at <= function.at < impl.at + len(impl.text)), None)):
            return clauses != []
        if member := STATED.get(impl.trait):
            return f"ghost {member} = " in impl.text
        clauses = clauses or list(self.pins(impl, function))
        is_assumed = self.premise(impl) == UNKNOWN and any(map(NAMES_PREMISE.search, clauses))
        return clauses != [] and not is_assumed

    def covered_lines(self, text):
        """How many lines the functions of a file have that no contract covers, and all of them."""
        impls = list(impls_in(text))
        functions = [function for function in functions_in(text) if not function.text.endswith(";")]
        return (sum(function.lines() for function in functions if not self.is_covered(impls, function)),
                sum(function.lines() for function in functions))

    def unproved(self):
        """The files with an axiom, a hole, unsafe code or code of another language."""
        for (crate, file), text in self.files.items():
            if re.search(r"\b(?:unsafe|extern)\b", text):
                yield f"crates/{crate}/{file}"
        for path in sorted(path for crate in self.crates for path in (self.top / "crates" / crate).glob("[ps]*/**/*.antt")):
            if re.search(r"(?<![\w'])(?:axiom\b|\?(?![\w']))", re.sub(r"--.*", "", path.read_text())):
                yield str(path.relative_to(self.top))


class Assumed(NamedTuple):
    """What is assumed of a device by a method or a law: the call of the system below which it stands, the man pages of
    its calls, what is said of it, and its clauses."""

    head: str
    pages: set
    words: str
    clauses: list
    is_law: bool

    def printed(self, number):
        yield from wrapped(self.words, f"  {number:2}  ", " " * 6)
        for clause in self.clauses:
            yield from wrapped(clause.replace("Self.", "").removeprefix(f"{WHERE_SOUND} × "), " " * 8, " " * 10)


def said_by(programs, impl, clauses, is_law):
    """What is said of the relations that some clauses name, or, if a method's name none, of the ghost members."""
    code = re.sub(r"\((?:\w+ )+: [^()]*\)", "", " ".join(clauses))
    relations = {word: programs.said[word] for word in words_of([code])
                 if word[0].isupper() and word in programs.said and word not in WRAPPERS}
    return relations or {ghost: programs.comments.get(f"{each.trait}::{ghost}")
                         for each, ghost in programs.named_members(impl, code) if not is_law and ghost != "sound"}


def assumed(programs, impl, name, clauses, is_law=False):
    """What is said at the method is left out if what is said at a relation begins with it."""
    member = f"{impl.trait}::{name}"
    comment, more = programs.comments.get(member, ""), UNNAMED.get(member)
    if more:
        comment = f"{comment} {more}" if CALL.search(comment) else more
    said, calls = said_by(programs, impl, clauses, is_law), {found[0]: found[1] for found in CALL.finditer(comment)}
    if not calls and not (is_law and comment):
        raise SystemExit(f"{member}: no comment names its call of the system")
    if unsaid := [word for word, words in said.items() if not words]:
        raise SystemExit(f"{member}: no comment says what {unsaid[0]} is")
    parts = [f"{word}: {words}" for word, words in said.items()]
    if not any(words.startswith(comment.rstrip(".")) for words in said.values()):
        parts.insert(0, comment)
    elif len(parts) == 1:
        parts = said.values()
    pages = set(calls.values())
    head = SEVERAL if len(pages) > 1 and not is_law else next(iter(calls), NONE)
    words = " ".join(f"{part.rstrip('.')}." for part in parts)
    return Assumed(head, pages, f"{impl.type}, {'law ' * is_law}{name}: {words}", clauses, is_law)


def assumed_of(programs, impl):
    """What is assumed of a device, by its methods and then by laws."""
    clauses = {}
    for call, _, text, is_given in programs.clauses(impl):
        is_assumed = NAMES_PREMISE.search(text) or programs.is_open(impl, text)
        if is_assumed and not is_given and text != WHERE_SOUND:
            clauses.setdefault(call, []).append(text)
    return [*(assumed(programs, impl, name, texts) for name, texts in clauses.items()),
            *(assumed(programs, impl, name, [law], is_law=True) for name, law in programs.laws[impl.trait])]


def counted(found):
    """How many clauses and laws there are."""
    laws = sum(each.is_law for each in found)
    return f"{sum(len(each.clauses) for each in found) - laws} clauses" + (f" and {laws} laws" if laws else "")


def unknown_devices(programs):
    """What is assumed of each device of which nothing is known."""
    return [(f"  {impl.type}, a {impl.trait} ({place})", assumed_of(programs, impl))
            for impl, place in programs.devices() if programs.premise(impl) == UNKNOWN]


def assumptions(programs):
    devices = unknown_devices(programs)
    found = [each for _, parts in devices for each in parts]
    heads, number = sorted({each.head for each in found}, key=lambda head: (head[0].isupper(), head)), count(1)
    for head in heads:
        yield from ("", head)
        for each in found:
            if each.head == head:
                yield from each.printed(next(number))
    pages = set().union(*(each.pages for each in found))
    alone = pages & {head.partition(" ")[0] for head in heads}
    yield from ("", f"  {len(pages)} calls of the system, {len(pages - alone)} of them only in methods of several;"
                    f" {counted(found)}, by devices:")
    yield from (f"{device}: {counted(parts)}" for device, parts in devices)


def losses(programs, assumed=LOSSES):
    """What is assumed of a loss of power, numbered after the calls, with the definitions that say it."""
    first = sum(len(parts) for _, parts in unknown_devices(programs)) + 1
    for number, (words, names) in enumerate(assumed, first):
        if missing := [name for name in names if name not in programs.named]:
            raise SystemExit(f"a loss of power: nothing defines {missing[0]}")
        yield from wrapped(f"{words} {', '.join(names)}", f"  {number:2}  ", " " * 6)


def premises(programs):
    for impl, place in programs.devices():
        if (premise := programs.premise(impl)) != UNKNOWN:
            yield f"  {impl.type}, a {impl.trait} ({place}): {premise}"


def excuses(programs):
    """What each trait of a device lets be refused, or put down to others."""
    for trait in dict.fromkeys(impl.trait for impl, _ in programs.devices()):
        calls = [function.name for function in programs.traits[trait] if function.may_be_refused()]
        reached = programs.reached(trait)
        said = [f"{', '.join(calls)} may be refused"] if calls else []
        said += [f"{words} (`{name}`)" for name, words in EXCUSES.items() if name in reached]
        yield from wrapped(f"{trait}: {'; '.join(said) or 'nothing'}", "  ", "    ")


def uncovered_code(programs):
    """A paragraph for each crate that has such code, and how many lines there are in all, of how many."""
    lines, of_all = {}, 0
    for (crate, file), text in programs.files.items():
        count, whole = programs.covered_lines(text)
        of_all += whole
        if count:
            lines.setdefault(crate, {})[file.removeprefix("src/")] = count
    for crate, files in lines.items():
        text = f"{crate} {sum(files.values()):,}: " + ", ".join(f"{file} {count}" for file, count in files.items())
        yield from wrapped(text, "  ", "    ")
    yield f"  {sum(sum(files.values()) for files in lines.values()):,} lines in all, of {of_all:,} of functions"


def kit_crates():
    """The crates of the kit that each program is linked with."""
    for program in PROGRAMS:
        crates = crates_of([program])
        libraries = {library for line in crates.values() for library in line.partition(":")[2].split()}
        yield f"  {program}: std, {', '.join(sorted(libraries - set(crates)))}"


def handles(programs):
    """The functions that have a handle, by its name and the crate."""
    users = {}
    for (crate, _), text in programs.files.items():
        for function in functions_in(text):
            if found := HANDLE.search(function.text):
                users.setdefault(f"{found[1]} of {crate}", []).append(function.name)
    return [f"  {crate}: {', '.join(names)}" for crate, names in users.items()]


def traits_below(sources):
    """The traits with their definitions, as the statement would print them in a part after its last."""
    statement = Statement(sources, [*PARTS, BELOW])
    return statement.printed(statement.parts[-1].things())


def text_of(top=TOP):
    sources = Sources(top)
    programs = Programs(sources, crates_of(PROGRAMS))
    kit = subprocess.run(["rt", "version"], check=True, capture_output=True, text=True).stdout.strip()
    return "\n".join([
        f"What the proofs of {' and '.join(PROGRAMS)} trust, from the sources: `make axioms` prints this text.", "",
        ASSUMED, *assumptions(programs), "", LOSS, *losses(programs), "", FILE_SYSTEMS, "", PREMISES, *premises(programs), "", EXCUSED, *excuses(programs), "",
        UNCOVERED, *uncovered_code(programs), "",
        "5. The kit's crates that each program is linked with, whose statements are trusted:", *kit_crates(), "",
        f"6. {(top / 'HANDLES').read_text().strip()} Functions that have one:", *handles(programs), "",
        f"7. Files with an axiom, a hole or unsafe code: {', '.join(programs.unproved()) or 'none'}.",
        f"8. The toolchain: {kit}. The C library, LLVM and the operating system are trusted with it.", "",
        BELOW.words, "", *traits_below(sources)])


if __name__ == "__main__":
    print_whole(text_of())
