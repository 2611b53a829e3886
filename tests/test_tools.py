#!/usr/bin/env python3
"""Tests of the programs that print what is promised and what is trusted, tools/statement.py and tools/axioms.py: over a
small tree whose answers are worked out by hand, and over this one. docs/STATEMENT.txt and docs/AXIOMS.txt are what they
print. And no program in tools/ minds if nobody reads what it prints."""

import os
import re
import subprocess
import sys
import tempfile
from pathlib import Path

TOP = Path(__file__).resolve().parent.parent
sys.path[:0] = [str(TOP / "tools")]

import axioms  # noqa: E402 (the path has to be there first)
import notices  # noqa: E402
import statement  # noqa: E402
from sources import Sources, Thing  # noqa: E402

SMALL = {
    "low/specs/Words.antt": """\
-- Words.
use Rattle.std.specs.Prelude.{◌≡◌, ℕ, Some}
use Rattle.low.specs.declared.kind.Kind.TheVariants as kind
use Rattle.low.specs.declared.kind.Limits.{Limits}

-- the least word of Later
infixl 10 ◌<+>◌
abbrev pub ◌<+>◌ : ℕ → ℕ → ℕ
a <+> b = a

-- uses no Unused
record Step (before : ℕ) : Type 0 where
  pub unused : ℕ

abbrev pub unused : ℕ
unused = 3

pub data Event : Type 0 where
  Come : Step 0 → Event
  Gone : Event

abbrev pub is_first : Event → ℕ
is_first Gone = 1 <+> 2
is_first event = kind.One
""",
    "high/specs/Law.antt": """\
use Rattle.low.specs.Words.{is_first as first, Event, Gone}
use Rattle.high.specs.Hidden.{Hidden}

-- first, in a comment, is no use
abbrev pub Early : Event → ℕ
Early event = 0

abbrev pub Law : Event → ℕ
Law event = first event

abbrev pub Kept : Event → ℕ
Kept event = Hidden Gone
""",
    "high/specs/Hidden.antt": """\
use Rattle.low.specs.{Words.unused}

-- read(2) { or not: nothing is shown; EINTR:
-- nothing was done
abbrev pub Hidden : ℕ → ℕ
Hidden n = unused
""",
    "low/src/kind.rt": """\
use low::far::Far;

/// A kind.
#[derive(Drop)]
pub enum Kind {
    /// The only one.
    One(Far),
}
""",
    "low/src/far.rt": "/// Far.\npub struct Far;\n",
    "high/src/device.rt": """\
ghost use Rattle.high.specs.Hidden.{Hidden};

/// A part of one.
pub trait Part {
    // It told this.
    ghost told: { Self → ℕ → Type 0 };
}

impl Part for u8 {
    ghost told = { λ _ _. Unit {0} };
}

/// A device.
pub trait Device {
    type Part: Part;

    // The premise.
    ghost sound: { Self → Type 0 };

    // What it counted.
    ghost counted: { Self → ℕ → Type 0 };

    /// read(2) { or not.
    fn read(&mut self, buf: &mut [u8; 4]) -> bool
        requires { Hidden 3 }
        ensures within { result ≡ true }
        ensures reads { sound self.new → sound self.old × Hidden { } };

    /// open(2), and then
    /// getdents(2).
    fn count(&self) -> u64
        ensures { counted self.now result };

    /// fstat(2) of a folder.
    fn tell(&self, part: &Self::Part) -> u64
        ensures { Self.Part.told part.now result };

    fn close(&mut self)
        ensures { sound self.new → sound self.old };

    /// Is refused or not.
    fn flush(&mut self) -> Result<(), Fault>
        ensures { Flushed 3 };

    fn note(&mut self)
        ensures kept { sound self.new → sound self.old × Kept }
    {}

    // At first it counts nothing.
    ghost begins: { (d : Self) → sound d → counted d 0 };

    // read(2) after open(2).
    ghost ends: { (d : Self) → sound d → Hidden 4 };
}

/// Real.
pub struct Real;

impl Device for Real {
    type Part = u8;

    ghost sound = { λ _. ⊥ };

    ghost counted = { λ _ _. Unit {0} };

    fn read(&mut self, buf: &mut [u8; 4]) -> bool {
        // not counted

        buf[0] == 1
    }

    fn count(&self) -> u64 {
        0
    }

    fn tell(&self, part: &u8) -> u64 {
        u64::from(*part)
    }

    fn close(&mut self) {}
}

/// Made over another.
pub struct Over<D>(D);

impl<D: Device> Device for Over<D> {
    type Part = D::Part;

    ghost sound = { λ d. D.sound d.0 };

    ghost counted = { λ d. D.counted d.0 };

    fn read(&mut self, buf: &mut [u8; 4]) -> bool {
        self.0.read(buf)
    }

    fn count(&self) -> u64 {
        self.0.count()
    }

    fn tell(&self, part: &D::Part) -> u64 {
        self.0.tell(part)
    }

    fn close(&mut self) {
        self.0.close()
    }
}

impl From<Real> for Over<Real> {
    ghost from_gives = { λ d o. o.0 ≡ d };

    fn from(device: Real) -> Over<Real> {
        Over(device)
    }
}

impl From<Real> for u8 {
    fn from(_device: Real) -> u8 {
        0
    }
}

fn bare<R: Net<Stream = u8> + Drop>(net: &R) {
    net.close()
}

#[tactic(auto)]
pub fn law<D: Device>()
    ensures first { Law }
    ensures kept { Kept }
{}
""",
}


def small_tree(folder, texts=SMALL):
    for path, text in texts.items():
        file = Path(folder) / "crates" / path
        file.parent.mkdir(parents=True, exist_ok=True)
        file.write_text(text)
    return Sources(folder)


def named(things):
    return [thing.name for thing in things]


def test_order(sources):
    """Each definition, type and variant is found, once and before its use; no field, comment or local name counts as one."""
    law = Thing("high", "specs/Law.antt", "Law")
    assert named(statement.ordered(sources, [law], [])) == ["Step", "Event", "Far", "Kind", "◌<+>◌", "is_first", "Law"]
    words = {thing.name: thing for thing in statement.ordered(sources, [law], [])}
    assert sources.lines(words["◌<+>◌"])[0] == "-- the least word of Later"
    assert sources.lines(words["Kind"]) == ["/// A kind.", "pub enum Kind {", "    /// The only one.", "    One(Far),", "}"]


def test_what_is_not_opened(sources):
    """A definition that isn't opened brings in what its type names, and one that is known nothing."""
    kept, hidden = Thing("high", "specs/Law.antt", "Kept"), Thing("high", "specs/Hidden.antt", "Hidden")
    assert named(statement.ordered(sources, [kept], [])) == ["Step", "Event", "unused", "Hidden", "Kept"]
    assert named(statement.ordered(sources, [kept], [hidden])) == ["Step", "Event", "Kept"]
    assert named(statement.ordered(sources, [kept], [], [hidden])) == ["Step", "Event", "Hidden", "Kept"]


def test_what_is_read(sources):
    """Of a type those fields and variants are printed of which something speaks, and no type that only others name."""
    kind = sources.declared("low", "Kind")
    assert sources.lines_read(kind, {"One"}) == ["/// A kind.", "pub enum Kind {", "    One(Far), // The only one.", "}"]
    assert sources.lines_read(kind, set()) == [
        "/// A kind.", "pub enum Kind {", "} // and 1 more"]
    assert named(sources.named(kind)) == ["Far"] and named(sources.named(kind, set())) == []
    law = Thing("high", "specs/Law.antt", "Law")
    assert "Far" not in named(statement.ordered(sources, [law], [], read={}))
    assert "Far" in named(statement.ordered(sources, [law], [], read={kind: {"One"}}))
    assert sources.read_in(law, ["-- .no One", "f x = x.one.two; record x { three = y.4 }"])[0] == {"one", "two", "three"}


def test_contracts(sources):
    """A law is printed with its signature and clauses, and without its body."""
    _, lines = statement.contract_of(sources, "high:law")
    assert lines == ["pub fn law<D: Device>()", "    ensures first { Law }", "    ensures kept { Kept }"]


ASSUMED = """
fstat(2) of a folder
   1  Real, tell: fstat(2) of a folder. told: It told this.
        Part.told part.now result

read(2)
   2  Real, read: read(2) { or not: nothing is shown; EINTR: nothing was done.
        Hidden { }
   3  Real, law ends: read(2) after open(2). Hidden: read(2) { or not: nothing is shown; EINTR: nothing was done.
        (d : Self) → sound d → Hidden 4

Laws that name no call
   4  Real, law begins: At first it counts nothing.
        (d : Self) → sound d → counted d 0

Several calls of the system in one method
   5  Real, count: open(2), and then getdents(2). counted: What it counted.
        counted self.now result

  4 calls of the system, 2 of them only in methods of several; 3 clauses and 2 laws, by devices:
  Real, a Device (crates/high/src/device.rt): 3 clauses and 2 laws"""


def test_assumptions(sources):
    """What is assumed of a device is what its trait says under the premise, unless the method's body is in the trait or
    it says no more than that the premise held, and what it says by members that the device and its types leave open."""
    assert list(axioms.assumptions(axioms.Programs(sources, ["low", "high"]))) == ASSUMED.split("\n")


def test_losses(sources):
    """What is assumed of a loss of power is numbered after the calls, and names nothing that isn't defined."""
    programs = axioms.Programs(sources, ["low", "high"])
    assert list(axioms.losses(programs, [("All is left.", ("Hidden", "Law"))])) == ["   6  All is left. Hidden, Law"]
    try:
        list(axioms.losses(programs, [("All is left.", ("Hidden", "Gone"))]))
    except SystemExit as refused:
        assert str(refused) == "a loss of power: nothing defines Gone"
    else:
        raise AssertionError("a name that nothing defines was printed")


# Changes of a small tree, and a line that it prints then, or what it is refused for.
CHANGED = [
    ("/// read(2) { or not.", "/// Reads.", "Device::read: no comment names its call of the system"),
    ("-- read(2) { or not: nothing is shown; EINTR:\n-- nothing was done\n", "", "Device::read: no comment says what Hidden is"),
    ("    // What it counted.\n", "", "Device::count: no comment says what counted is"),
    ("    // At first it counts nothing.\n", "", "Device::begins: no comment names its call of the system"),
    ("-- read(2) { or not:", "-- read(2):",
     "   2  Real, read: read(2) { or not. Hidden: read(2): nothing is shown; EINTR: nothing was done."),
    ("    // read(2) after open(2).", "    // At last.",
     "   4  Real, law ends: At last. Hidden: read(2) { or not: nothing is shown; EINTR: nothing was done."),
    ("ensures within { result ≡ true }", "ensures within { sound self.new → sound self.old × Late }", "        Late"),
    ("ensures within { result ≡ true }", "ensures within { sound self.new → sound self.old }",
     "  Real, a Device (crates/high/src/device.rt): 3 clauses and 2 laws"),
    ("ghost sound = { λ _. ⊥ };", "ghost sound = { λ _. Unit {0} };",
     "  0 calls of the system, 0 of them only in methods of several; 0 clauses, by devices:"),
]


def test_changes():
    """A clause, a law or a device that is new is printed, and one without its comment refused."""
    for was, now, told in CHANGED:
        assert sum(was in text for text in SMALL.values()) == 1, was
        with tempfile.TemporaryDirectory() as folder:
            sources = small_tree(folder, {path: text.replace(was, now) for path, text in SMALL.items()})
            try:
                lines = list(axioms.assumptions(axioms.Programs(sources, ["low", "high"])))
            except SystemExit as refused:
                lines = [str(refused)]
        assert told in lines, (was, told, lines)


def test_axioms(sources):
    """The code for what is only assumed is uncovered, and so is what has no contract."""
    programs = axioms.Programs(sources, ["low", "high"])
    assert list(axioms.premises(programs)) == ["  Over, a Device (crates/high/src/device.rt): λ d. D.sound d.0"]
    assert list(axioms.excuses(programs)) == ["  Device: flush may be refused"]
    assert list(axioms.uncovered_code(programs)) == ["  high 16: device.rt 16", "  16 lines in all, of 38 of functions"]
    assert [axioms.PINS_NOTHING.fullmatch(clause) is None for clause in (
        "result ≡ 3", "IsTrue result ↔ a.now < 3", "IfErr result (λ e. e ≡ found.now)", "result ≤ 2", "Tallies a b c",
        "IfErr result (λ e. e ≡ Fault.Refused)", "IsTrue result → length a.now ≤ 4",
    )] == [True, True, True, False, False, False, False]
    assert axioms.handles(programs) == ["  Net of high: bare"]
    assert list(programs.unproved()) == []
    hole = sources.top / "crates/low/proofs/Hole.antt"
    hole.parent.mkdir()
    hole.write_text("lemma = ? -- a hole\n")
    assert list(programs.unproved()) == ["crates/low/proofs/Hole.antt"]


def test_this_tree():
    """In both texts over this tree each name comes after what it names, once, and no name of the files' `use` is left out."""
    whole = statement.Statement(Sources(), [*statement.PARTS, axioms.BELOW])
    read = set()
    for thing in (each for part in whole.parts for each in part.things() if not whole.sources.is_trait(each)):
        assert thing not in read, thing
        named_by = (whole.sources.named_in_type(thing) if thing in whole.unopened
                    else whole.sources.named(thing, whole.read.get(thing, set())))
        late = [name for name in named_by if name not in read and not whole.sources.is_trait(name)]
        assert not late, f"{thing} names {late}, which comes later, or has a local name like that"
        read.add(thing)
        if thing.file.startswith("specs/"):
            code = re.sub(r"--.*", "", "\n".join(whole.lines(thing)))
            uses = whole.sources.definitions(thing.crate, thing.file).uses
            for word in re.findall(r"(?<![.\w'])[A-Z]\w*", code):
                found = word in uses and whole.sources.found(*uses[word])
                assert not found or found in read or whole.sources.is_trait(found), (thing, word)


def test_excuses():
    """Each definition that is said to excuse a device is one that a trait's clauses lead to, and each name in the other
    tables of the tool is one of the sources."""
    programs = axioms.Programs(Sources(), axioms.crates_of(axioms.PROGRAMS))
    said = "\n".join(axioms.excuses(programs))
    assert not [name for name in axioms.EXCUSES if f"(`{name}`)" not in " ".join(said.split())]
    methods = {f"{trait}::{function.name}" for trait, functions in programs.traits.items() for function in functions}
    assert set(axioms.UNNAMED) <= methods and axioms.WRAPPERS <= set(programs.said)


def test_unread():
    """A program whose reader has ended ends well and says nothing about it."""
    read_end, write_end = os.pipe()
    os.close(read_end)
    begun = [subprocess.Popen([sys.executable, TOP / "tools" / name], stdout=write_end, stderr=subprocess.PIPE, text=True)
             for name in ("statement.py", "axioms.py", "notices.py", "mutants.py")]
    os.close(write_end)
    for process in begun:
        _, told = process.communicate()
        assert (process.returncode, told) == (0, ""), told


def test_traits():
    """Each trait of which clauses are assumed is printed in one of the two texts."""
    programs = axioms.Programs(Sources(), axioms.crates_of(axioms.PROGRAMS))
    printed = [trait.split(":")[1] for part in [*statement.PARTS, axioms.BELOW] for trait in part.traits]
    assumed = {impl.trait for impl, _ in programs.devices() if programs.premise(impl) == axioms.UNKNOWN}
    assert assumed and assumed <= set(printed), assumed - set(printed)


def without_kit(text):
    """A text without the version of the kit: another one with the same logic proves the sources too."""
    return re.sub(r"rattle-kit-\w+", "rattle-kit", text)


def old_texts():
    """A line for each text in docs/ that isn't what its tool prints, but for the version of the kit."""
    for name, tool in (("docs/STATEMENT.txt", statement), ("docs/AXIOMS.txt", axioms), ("NOTICES", notices)):
        file = TOP / name
        if not file.is_file() or without_kit(file.read_text()) != without_kit(tool.text_of()):
            yield f"{name} is old: `make {file.stem.lower()} > {name}` makes it anew"


def main():
    with tempfile.TemporaryDirectory() as folder:
        sources = small_tree(folder)
        for test in (test_order, test_what_is_not_opened, test_what_is_read, test_contracts, test_assumptions,
                     test_losses, test_axioms):
            test(sources)
    test_changes()
    test_this_tree()
    test_excuses()
    test_unread()
    test_traits()
    faults = list(old_texts())
    print(*faults or ["docs/STATEMENT.txt, docs/AXIOMS.txt and NOTICES are what the sources say"], sep="\n")
    return 1 if faults else 0


if __name__ == "__main__":
    sys.exit(main())
