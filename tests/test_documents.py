#!/usr/bin/env python3
"""Looks for what the documents name: each file, each command of `make`, each function, definition and word of the code.

What is in backticks or on a line of code is looked at. A name with a slash or with a file's ending is a file, at the
top or in any crate; `make WORD` is a target that the Makefile names after .PHONY; any other name is one that a source,
a definition, a test or a man page uses. Names in capitals stand for something else (`FILE`), and those in OTHERS aren't
names of this repository.

And docs/DEFINITIONS.md gives each word the file that defines it, the man page lists the line of each fault of getmail, its
table of what to do has each of those with status 1, and the README names the kit that the sources are proved with.
"""

import re
import subprocess
import sys
from pathlib import Path

TOP = Path(__file__).resolve().parent.parent
DOCUMENTS = ["README.md", "CONTRIBUTING.md", "CHANGELOG.md", "bench/README.md", *sorted(
    str(path.relative_to(TOP)) for path in (TOP / "docs").glob("*.md"))]
SOURCES = {".rt", ".antt", ".py", ".c", ".sh", ".1", ".5", ".8", ".sample", ".service", ".timer", ".fish", ".bash"}
FILE = re.compile(r"[A-Za-z0-9_.~*{},-]*(?:/[A-Za-z0-9_.*{},-]*)+|[A-Za-z0-9_-]+\.(?:rt|antt|py|md|c|sh|txt|edit)")
NAME = re.compile(r"[A-Za-z_][A-Za-z0-9_]*")
# Names of other programs and of what users have: nothing here has such a name.
OTHERS = {"stunnel", "socat", "dovecot", "mutt", "fetchmail", "mpop", "Display", "BrokenUIDLPOP3Retriever", "killsize"}
# The sources of the lines that report faults.
TELLING = ("crates/getmail_setup/src/failure.rt", "crates/session_parts/src/text.rt", "crates/rc_file/src/text.rt")
# Folders that a user, a build or an installation makes.
MADE = ("~", "/", "bin/", "out/", "share/", "examples/demo/Maildir")


def tracked_files():
    """The paths of the repository, as text from its top."""
    listed = subprocess.run(["git", "-C", str(TOP), "ls-files", "-co", "--exclude-standard"],
                            check=True, capture_output=True, text=True).stdout
    return [path for path in listed.splitlines() if (TOP / path).exists()]


def words_of(paths):
    """Every word in a source, a definition, a test, a man page or the files of the build."""
    words = set()
    for path in paths:
        if Path(path).suffix in SOURCES or path in ("Makefile", "crates.txt", "HANDLES", "completions/_getmail", "completions/_popd"):
            words.update(NAME.findall((TOP / path).read_text(errors="replace")))
        words.update(NAME.findall(Path(path).stem))
    return words


def pieces_of(text):
    """The texts in backticks and on lines of code, with the number of their line."""
    for number, line in enumerate(text.splitlines(), 1):
        if line.startswith("    "):
            yield number, line.split("#")[0].strip()
        else:
            for piece in re.findall(r"`([^`]+)`", line):
                yield number, piece


def is_there(name, paths):
    """Whether a file or a folder of this name is at the top or in some crate; `*` stands for any letters."""
    if name.startswith(MADE) or re.search("NAME|FOLDER|DIGEST", name):
        return True
    choice = re.sub(r"\\\{([^}]*)\\\}", lambda found: "(" + found[1].replace(",", "|") + ")", re.escape(name.strip("/")))
    fits = re.compile(r"(.*/)?" + choice.replace(r"\*", ".*").replace(r"\.\.", ".*") + r"(/.*|\.rt)?")
    return any(fits.fullmatch(path) for path in paths)


def faults_in(document, paths, words, targets):
    """Every name in the document that nothing has, and what a merge left open, a line for each."""
    text = (TOP / document).read_text()
    for number, line in enumerate(text.splitlines(), 1):
        if re.match(r"(<<<<<<<|=======|>>>>>>>)( |$)", line):
            yield f"{document}:{number}: a merge is open here"
    for number, piece in pieces_of(text):
        made = re.match(r"make ([a-z][a-z-]*)(?: |$)", piece)
        if made and made[1] not in targets:
            yield f"{document}:{number}: no target '{made[1]}' in the Makefile"
        names = FILE.findall(piece) if " " not in piece or piece.startswith(("bin/", "python3 ", "crates/")) else []
        for name in names:
            if not is_there(name, paths):
                yield f"{document}:{number}: no file '{name}'"
        if not names and re.fullmatch(r"[A-Za-z_][A-Za-z0-9_]*(?:(?:::|\.)[A-Za-z_][A-Za-z0-9_]*)*(?:\(.*\))?", piece):
            for name in NAME.findall(piece.split("(")[0]):
                if name not in words and name not in OTHERS and not name.isupper():
                    yield f"{document}:{number}: nothing is called '{name}'"


def undefined_words():
    """Each word of docs/DEFINITIONS.md that no file in its row defines, one for each."""
    for number, line in enumerate((TOP / "docs/DEFINITIONS.md").read_text().splitlines(), 1):
        if not line.startswith("| `"):
            continue
        words, *_, files = (re.findall(r"`([^`]+)`", cell) for cell in line.strip("| ").split("|"))
        folder = (TOP / "crates" / files[0]).parent
        paths = [TOP / "crates" / name if "/" in name else folder / name for name in files]
        defined = "".join(path.read_text() for path in paths if path.exists())
        for word in words:
            if not re.search(rf"\b(record|pub|data|ghost|fn) {word}\b", defined):
                yield f"docs/DEFINITIONS.md:{number}: '{word}' is not defined there"


def told_without_help():
    """Each line of a fault that the man page doesn't list, one for each."""
    listed = re.findall(r"^\.It (.*)", (TOP / "man/getmail.1").read_text(), re.MULTILINE)
    for source in TELLING:
        for line in re.findall(r'(?:=> String::from_str\(alloc, |eprintln\()"(?:getmail: )?([^"{]+)"', (TOP / source).read_text()):
            told = re.sub(r"(server refused) \w+", r"\1 X", line)
            if told not in listed:
                yield f"man/getmail.1 doesn't list '{line}' of {source}"


def faults_without_advice():
    """Each error of status 1 in the man page that its table of what to do doesn't have, and each row of that table that is
    none of them."""
    manual = (TOP / "man" / "getmail.1").read_text()
    errors = manual[manual.index(".Ss After that, with status 1"):manual.index(".Sh SEE ALSO")]
    listed = [line.removesuffix(" X") for line in re.findall(r"^\.It (.+)$", errors, re.MULTILINE)]
    table = re.search(r"^LATER .*?(?=^\.Ed$)", manual, re.MULTILINE | re.DOTALL)[0]
    advised = {entry.split(" ...")[0] for row in table.splitlines() for entry in row[9:].split(", ") if entry}
    for error in listed:
        if not any(error.startswith(entry) for entry in advised):
            yield f"man/getmail.1 doesn't say what to do about '{error}'"
    for entry in advised:
        if not any(error.startswith(entry) or entry.startswith(f"{error} ") for error in listed):
            yield f"man/getmail.1 says what to do about '{entry}', which is no error of status 1"


def other_kits():
    """A line if the README names another kit than docs/AXIOMS.txt, which the sources are proved with."""
    kits = [set(re.findall(r"rattle-kit-\w+", (TOP / name).read_text())) for name in ("README.md", "docs/AXIOMS.txt")]
    if kits[0] != kits[1]:
        yield f"README.md names the kit as {kits[0]}, and docs/AXIOMS.txt as {kits[1]}"


def main():
    paths = tracked_files()
    words = words_of(paths)
    targets = set(" ".join(re.findall(r"^\.PHONY: (.*)", (TOP / "Makefile").read_text(), re.MULTILINE)).split())
    faults = [fault for document in DOCUMENTS for fault in faults_in(document, paths, words, targets)]
    faults += [*undefined_words(), *told_without_help(), *faults_without_advice(), *other_kits()]
    for fault in faults:
        print(fault)
    if not faults:
        print(f"{len(DOCUMENTS)} documents name nothing that isn't there")
    return 1 if faults else 0


if __name__ == "__main__":
    sys.exit(main())
