"""Reads definitions, types, traits and contracts out of the sources, as text, and finds what each of them names.

A definition is one of a file of `specs/`. A type, a constant, a trait or a function is one of a file of `src/`. What
std and the crates of the kit define is not looked at.
"""

import os
import re
import sys
from functools import cache
from pathlib import Path
from typing import NamedTuple

TOP = Path(__file__).resolve().parent.parent
USE = re.compile(r"^( *)(?:ghost )?use Rattle\.([^{;\n]*\{\n.*?^\1\}|[^;\n]*)", re.MULTILINE | re.DOTALL)
BEGINS = re.compile(r"(?:(?:pub|opaque|unfoldable) )*(?:abbrev|def|data|record) (?:pub )?(\S+)"
                    r"|(?:(?:pub|opaque|unfoldable) )+(\S+) :")
MEMBERS = re.compile(r"pub (?:struct|enum) .*{$")
WORD = re.compile(r"(?<![.\w'])[A-Za-z_][\w']*")


class Thing(NamedTuple):
    """Something that a source has: its crate, its file in the crate's folder, and its name."""

    crate: str
    file: str
    name: str


class Definitions(NamedTuple):
    """What a file of definitions has: what names of other files stand for, and the lines of each definition."""

    uses: dict
    lines: dict


def print_whole(text):
    """Prints the text as it is. Nothing is wrong if a reader such as `head` ends before it has read all."""
    try:
        print(text, end="", flush=True)
    except BrokenPipeError:
        # What is left is written when the program ends.
        os.dup2(os.open(os.devnull, os.O_WRONLY), sys.stdout.fileno())


def paths_in(tree):
    """The paths that stand in the nested braces of a `use`."""
    fronts, paths = [""], []
    for part in re.findall(r"[^{},]*\{|\}|[^{},]+", tree):
        word = part.strip()
        if word.endswith("{"):
            fronts.append(fronts[-1] + word[:-1])
        elif word == "}":
            fronts.pop()
        elif word:
            paths.append(fronts[-1] + word)
    return paths


def uses_in(text):
    """What each name that a `use` brings stands for: a crate, a module and the name there, which is empty for a module."""
    uses = {}
    for _, tree in USE.findall(text):
        for path in paths_in(tree):
            path, _, other = path.partition(" as ")
            crate, _, path = path.partition(".")
            module, _, last = path.rpartition(".")
            uses[other or last] = (crate, module, last) if "{" in tree else (crate, path, "")
    return uses


def definitions_in(text):
    """The lines of each definition with the comment before it, by its name."""
    defined, lines, before = {}, [], []
    for line in text.splitlines():
        if not line or line.startswith("use "):
            before = []
        elif line.startswith(("--", "infix")):
            before.append(line)
        else:
            if not line.startswith(" ") and (found := BEGINS.match(line)):
                lines = defined.setdefault(found[1] or found[2], [])
            lines += [*before, line]
            before = []
    return Definitions(uses_in(text), defined)


def words_of(lines):
    """The names that a definition's lines use, without those of fields that are declared, set or read."""
    code = re.sub(r"--.*", "", "\n".join(lines))
    code = re.sub(r"^  pub ([\w']+) :", "  :", code, flags=re.MULTILINE)
    code = re.sub(r"([{;]\s*)[\w']+ = ", r"\1= ", code)
    operators = [f"◌{word}◌" for word in re.findall(r"(?<=\s)[^\s\w(){}.,;:'◌]+(?=\s)", code)]
    bound = ["◌>>=◌"] if re.search(r"\bdo$", code, re.MULTILINE) else []
    return list(dict.fromkeys([*WORD.findall(code), *operators, *bound]))


def without_comments(text):
    return re.sub(r"//[^\n]*", "", text)


def with_comments(lines, first, last):
    """The lines of an item with the comments before it, without attributes and imports."""
    while first > 0 and lines[first - 1].startswith(("///", "#[")):
        first -= 1
    return list(without_imports(line for line in lines[first:last + 1] if not line.lstrip().startswith("#[")))


def without_imports(lines):
    """These lines without ghost imports, each of which may be several lines long."""
    is_import = False
    for line in lines:
        is_import = is_import or line.lstrip().startswith("ghost use")
        if not is_import:
            yield line
        is_import = is_import and not line.rstrip().endswith(";")


def item_at(lines, first):
    """The lines of the type, constant or trait that begins here, with its comments."""
    last = next(at for at in range(first, len(lines)) if lines[at].endswith(("{", ";", "}")))
    if lines[last].endswith("{"):
        last = lines.index("}", last)
    return with_comments(lines, first, last)


def without_gaps(lines):
    """The lines without an empty one at the beginning of a body or after another empty one."""
    kept = []
    for line in lines:
        if line.strip() or (kept and kept[-1].strip() and not kept[-1].endswith("{")):
            kept.append(line)
    return kept


def on_one_line(lines):
    """A field or a variant with its comment behind it, if both fit on a line."""
    if len(lines) == 2 and len(joined := f"{lines[1]} // {lines[0].strip().removeprefix('/// ')}") <= 120:
        return [joined]
    return lines


class Sources:
    """The sources of a tree."""

    def __init__(self, top=TOP):
        self.top = Path(top)
        self.text = cache(self.text)
        self.definitions = cache(self.definitions)
        self.declared = cache(self.declared)

    def text(self, crate, file):
        """A file's text, or None if there is no such file."""
        path = self.top / "crates" / crate / file
        return path.read_text() if path.is_file() else None

    def definitions(self, crate, file):
        text = self.text(crate, file)
        return None if text is None else definitions_in(text)

    def files(self, crate):
        """The files of a crate's `src`, as they are named in its folder."""
        folder = self.top / "crates" / crate
        return [str(path.relative_to(folder)) for path in sorted((folder / "src").rglob("*.rt"))]

    def declared(self, crate, name):
        """The type, constant or trait of this name in a crate's sources; None if there is none."""
        begins = re.compile(rf"^pub (?:struct|enum|trait|const) {name}\b", re.MULTILINE)
        return next((Thing(crate, file, name) for file in self.files(crate) if begins.search(self.text(crate, file))), None)

    def found(self, crate, module, name):
        """What a name that `use` brings stands for; None if it isn't of these sources."""
        steps = module.split(".")
        if "declared" not in steps:
            return self.defined(crate, module.replace(".", "/") + ".antt", name)
        if steps[-1] == "TheConstants":
            return self.declared(crate, name)
        steps = [step for step in steps if step != "TheVariants"]
        return self.declared(crate, steps[-1])

    def defined(self, crate, file, name):
        """The definition of this name, or the one of which it is a variant or a field; None if there is none."""
        definitions = self.definitions(crate, file)
        if definitions is None or name in definitions.lines:
            return definitions and Thing(crate, file, name)
        within = re.compile(rf"^  (?:pub )?{re.escape(name)} :")
        return next((Thing(crate, file, each) for each, lines in definitions.lines.items()
                     if any(within.match(line) for line in lines)), None)

    def is_trait(self, thing):
        return thing.file.startswith("src/") and f"\npub trait {thing.name}" in self.text(thing.crate, thing.file)

    def lines(self, thing):
        """The lines of a definition, or of an item of the sources."""
        if thing.file.startswith("specs/"):
            return self.definitions(thing.crate, thing.file).lines[thing.name]
        lines = self.text(thing.crate, thing.file).splitlines()
        begins = re.compile(rf"pub (?:struct|enum|trait|const) {thing.name}\b")
        item = without_gaps(item_at(lines, next(at for at, line in enumerate(lines) if begins.match(line))))
        if (value := self.value(thing)) is None:
            return item
        head = next(at for at, line in enumerate(item) if begins.match(line))
        return [*item[:head], re.sub(r" \{$|\(.*", "", item[head]) + f" // contracts see it as {value.strip()}"]

    def members(self, thing):
        """The fields or variants that a type of the sources has, each with its lines, comments before it included; none if
        it isn't written line by line, or if contracts see it as something else."""
        lines = [] if thing.file.startswith("specs/") or self.value(thing) else self.lines(thing)
        found, before = {}, []
        for line in lines[1 + next((at for at, line in enumerate(lines) if MEMBERS.match(line)), len(lines)):-1]:
            before.append(line)
            if member := re.match(r"    (?:pub(?:\(crate\))? )?(\w+)\b[^/]*,$", line):
                found[member[1]], before = before, []
        return found

    def lines_read(self, thing, read):
        """The lines of a type of the sources with those fields or variants alone that are read, and how many others it has."""
        members, lines = self.members(thing), self.lines(thing)
        if not members:
            return lines
        first = next(at for at, line in enumerate(lines) if MEMBERS.match(line))
        shown = [line for name, each in members.items() if name in read for line in on_one_line(each)]
        others = sum(name not in read for name in members)
        return [*lines[:first + 1], *shown, lines[-1] + (f" // and {others} more" if others else "")]

    def read_in(self, thing, lines):
        """The names of fields that lines read or set, and the variants that they name, each with its type."""
        code = re.sub(r"(?:--|//).*", "", "\n".join(lines))
        fields = set(re.findall(r"\.([a-z_]\w*)", code)) | set(re.findall(r"[{;]\s*([a-z_]\w*) = ", code))
        text = self.text(thing.crate, thing.file)
        uses = self.definitions(thing.crate, thing.file).uses if thing.file.startswith("specs/") else uses_in(text)
        variants = set()
        for front, word in re.findall(r"(?<![\w.])(?:(\w+)\.)?([A-Z]\w*)", code):
            crate, module, last = uses.get(front or word, ("", "", ""))
            if front and last == "TheVariants":
                variants.add((self.found(crate, module, word), word))
            elif front and uses.get(front):
                variants.add((self.found(crate, module, last), word))
            elif front:
                variants.add((self.type_named(thing, text, front), word))
            elif "TheVariants" in module:
                variants.add((self.found(crate, module, word), last))
        return fields, variants

    def type_lines(self, thing):
        """The lines of a definition up to its type, without what it is made of."""
        lines = self.lines(thing)
        body = re.compile(rf"{re.escape(thing.name)} .*=")
        return lines[:next(at + line.endswith(" where") for at, line in enumerate(lines)
                           if body.match(line) or line.endswith(" where"))]

    def value(self, thing):
        """What contracts see of a type, if that isn't its fields."""
        model = re.search(rf"^impl\b[^{{]*\bModel for {thing.name}\b[^{{]*{{(.*?)^}}", self.text(thing.crate, thing.file),
                          re.MULTILINE | re.DOTALL)
        return model and re.search(r"ghost Value = \{(.*?)\};", model[1], re.DOTALL)[1]

    def named(self, thing, read=None):
        """What a definition, a type or a trait names, in the order in which it does; of a type only what those fields or
        variants name that are read, if it is said which."""
        if thing.file.startswith("specs/"):
            found = self.named_in_lines(thing, self.lines(thing))
        elif self.value(thing):
            found = self.named_in(thing, [self.value(thing)])
        else:
            found = self.named_in(thing, self.lines(thing) if read is None else self.lines_read(thing, read))
        return [each for each in dict.fromkeys(found) if each and each != thing]

    def named_in_type(self, thing):
        """What the type of a definition names."""
        found = self.named_in_lines(thing, self.type_lines(thing))
        return [each for each in dict.fromkeys(found) if each and each != thing]

    def named_in_lines(self, thing, lines):
        """What lines of a definition name: other definitions of its file, and what its file uses."""
        uses, defined = self.definitions(thing.crate, thing.file)
        words = [word for word in words_of(lines) if word != thing.name]
        return [self.found(*uses[word]) if word in uses else self.defined(thing.crate, thing.file, word)
                for word in words if word in uses or word in defined or word[0].isupper()]

    def named_in(self, thing, lines):
        """What lines of the sources name: definitions that the file uses, and types of its own or of other files."""
        text = self.text(thing.crate, thing.file)
        code = re.sub(r"^(\s+(?:pub(?:\(crate\))? )?)\w+:(?!:)", r"\1:", without_comments("\n".join(lines)), flags=re.MULTILINE)
        uses, words = uses_in(text), dict.fromkeys(WORD.findall(code))
        return [self.found(*uses[word]) if word in uses else self.type_named(thing, text, word) for word in words]

    def type_named(self, thing, text, word):
        """The type for which a word in a file of the sources stands; None for one of std, or a variant."""
        if re.search(rf"^pub (?:struct|enum|const) {word}\b", text, re.MULTILINE):
            return Thing(thing.crate, thing.file, word)
        brought = re.search(rf"^use (\w+)::(?:[^;]*\W)?{word}\b[^;]*;", text, re.MULTILINE)
        type_of = brought and self.declared(thing.crate if brought[1] == "crate" else brought[1], word)
        return None if type_of is None or self.is_trait(type_of) else type_of

    def function(self, crate, name):
        """A public function, and its lines up to its body."""
        for file in self.files(crate):
            lines = self.text(crate, file).splitlines()
            for first, line in enumerate(lines):
                if re.match(rf"pub fn {name}\b", line):
                    last = next(at for at in range(first, len(lines)) if lines[at].startswith("{")) - 1
                    return Thing(crate, file, name), with_comments(lines, first, last)
        raise SystemExit(f"no function {crate}:{name}")
