"""The completions: that each shell understands its file, and that they look for an rc file in DIR, as `getmail` does."""

import shutil
import subprocess
import tempfile
import unittest
from pathlib import Path

from harness import programs

COMPLETIONS = programs.ROOT / "completions"
BASH = """
. completions/getmail.bash
COMP_WORDS=("$@")
COMP_CWORD=$(($# - 1))
_getmail
printf '%s\\n' "${COMPREPLY[@]}"
"""


class Completions(unittest.TestCase):
    def setUp(self):
        holder = tempfile.TemporaryDirectory()
        self.addCleanup(holder.cleanup)
        self.home = Path(holder.name)
        for folder, names in ((".getmail", ("getmailrc", "work", "seen-1", "lock", "lock-work", "stunnel.conf")), ("other", ("home", "house"))):
            (self.home / folder).mkdir()
            for name in names:
                (self.home / folder / name).touch()

    def offered(self, words):
        """What `bash` or `fish` offers in the place of the last word."""
        told = subprocess.run(words, check=True, capture_output=True, text=True, cwd=programs.ROOT,
                              env=programs.environment(HOME=str(self.home)), timeout=programs.SECONDS).stdout
        return sorted(line.split("\t")[0] for line in told.splitlines() if line)

    def bash(self, *words):
        return self.offered(["bash", "-c", BASH, "bash", "getmail", *words])

    def test_bash_looks_for_an_rc_file_in_the_folder(self):
        other = str(self.home / "other")
        self.assertEqual(self.bash("-r", ""), ["getmailrc", "work"])
        self.assertEqual(self.bash("--rcfile", "w"), ["work"])
        self.assertEqual(self.bash("-g", other, "-r", ""), ["home", "house"])
        self.assertEqual(self.bash("-g", "~/other", "-r", "hou"), ["house"])
        self.assertEqual(self.bash("-r", f"{other}/ho"), [f"{other}/home", f"{other}/house"])
        self.assertEqual(self.bash("-g", str(self.home / "none"), "-r", ""), [])
        self.assertEqual(self.bash("--re"), [])
        self.assertEqual(self.bash("--pr"), ["--pretend"])

    def test_bash_goes_on_in_a_folder(self):
        (self.home / ".getmail/more").mkdir()
        (self.home / ".getmail/more/last").touch()
        self.assertEqual(self.bash("-r", "m"), ["more/"])
        self.assertEqual(self.bash("-r", "more/"), ["more/last"])
        self.assertEqual(self.bash("-r", f"{self.home}/oth"), [f"{self.home}/other/"])
        self.assertEqual(self.bash("-g", f"{self.home}/oth"), [f"{self.home}/other/"])
        self.assertEqual(self.bash("-g", "~/oth"), ["~/other/"])
        told = subprocess.run(["bash", "-c", f"compopt() {{ echo asked \"$@\"; }}; {BASH}", "bash", "getmail", "-g",
                               f"{self.home}/oth"], check=True, capture_output=True, text=True, cwd=programs.ROOT)
        self.assertIn("asked -o nospace", told.stdout)

    def test_zsh_completes_its_own_popd_itself(self):
        if not shutil.which("zsh"):
            self.skipTest("zsh is not installed")
        stubs = "_directory_stack() { print own }; _arguments() { print program }"
        for before, word, wanted in (("", "popd", "own"), ("builtin", "popd", "own"), ("env", "popd", "program"),
                                     ("command", "popd", "program"), ("", "/usr/local/bin/popd", "program")):
            asked = f"{stubs}; words=({word}); precommands=({before}); complete_it() {{ . completions/_popd }}; complete_it"
            self.assertEqual(self.offered(["zsh", "-fc", asked]), [wanted], (before, word))
        # The completion of env that comes with zsh calls that of the program, and leaves `precommands` as it is.
        by_env = f"{stubs}; words=(popd); _env() {{ . completions/_popd }}; _env"
        self.assertEqual(self.offered(["zsh", "-fc", by_env]), ["program"])

    def test_fish_looks_for_an_rc_file_in_the_folder(self):
        if not shutil.which("fish"):
            self.skipTest("fish is not installed")
        for words, wanted in (("-r w", "work"), (f"-g {self.home}/other -r hou", "house"),
                              (f"-r {self.home}/other/hou", f"{self.home}/other/house"), ("-r READ", None)):
            asked = f"source completions/getmail.fish; complete -C 'getmail {words}'"
            self.assertEqual(self.offered(["fish", "--no-config", "-c", asked]), [wanted] if wanted else [], words)

    def test_each_shell_understands_its_files(self):
        for shell, names in (("bash", ("getmail.bash", "popd.bash")), ("zsh", ("_getmail", "_popd")),
                             ("fish", ("getmail.fish", "popd.fish"))):
            if shutil.which(shell):
                for name in names:
                    subprocess.run([shell, "-n", COMPLETIONS / name], check=True, timeout=programs.SECONDS)
