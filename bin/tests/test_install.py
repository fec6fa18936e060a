"""`bin/install`: what it installs works alone, and it removes exactly that."""

import hashlib
import os
import shutil
import subprocess

from tests.rooms import REWRITER, TOP, Room, listing

PLANNED = "../lib/cabal-plan/bin/cabal-plan"


class Install(Room):
    """An installation below a folder that has other files."""

    def setUp(self):
        super().setUp()
        self.prefix = f"{self.room}/prefix"
        self.write("prefix/share/man/man1/other.1", "another page\n")
        self.write("prefix/bin/other", "another program\n")
        # Of the release alone, so that nothing is built.
        shutil.copytree(f"{TOP}/bin", f"{self.room}/top/bin", ignore=shutil.ignore_patterns("tests", "__pycache__"))
        shutil.copytree(f"{TOP}/dist", f"{self.room}/top/dist")
        self.script("top/dist/modern-headers", REWRITER)
        self.write("top/dist/modern-headers.sha256", f"{hashlib.sha256(REWRITER.encode()).hexdigest()}  modern-headers\n")
        self.write("top/installed.txt", "")

    def install(self, *words, **how):
        return self.run_script([f"{self.room}/top/bin/install", f"--prefix={self.prefix}", *words], **how)

    def command(self, *words):
        return self.run_script([f"{self.prefix}/bin/cabal-plan", *words], f"{TOP}/examples/first")

    def test_installs_and_removes(self):
        before = listing(self.prefix)
        ran = self.install()
        self.assertEqual(0, ran.returncode, ran.err)
        self.assertEqual(PLANNED, os.readlink(f"{self.prefix}/bin/cabal-plan"))
        with open(f"{TOP}/dist/VERSION", encoding="utf-8") as file:
            self.assertEqual(f"cabal-plan {file.read()}", self.command("--version").out)
        planned = self.command("plan", "--compiler=ghc-9.4.7")
        own = self.run_script([f"{TOP}/dist/cabal-plan", "plan", "--compiler=ghc-9.4.7"], f"{TOP}/examples/first")
        self.assertEqual((own.returncode, own.out), (planned.returncode, planned.out), planned.err)
        self.assertIn("usage: cabal-plan folder", self.command("folder", "--help").out)
        self.rewrites()
        self.pages()
        once = listing(self.prefix)
        self.assertEqual(0, self.install().returncode)
        self.assertEqual(once.keys(), listing(self.prefix).keys())
        ran = self.install("--uninstall")
        self.assertEqual((0, ""), (ran.returncode, ran.err))
        self.assertEqual(before, listing(self.prefix))
        self.is_failure(self.install("--uninstall"), "nothing is installed below")

    def rewrites(self):
        """Checks that the installed tool runs the second program beside it."""
        self.write("src/project/main.cabal", "cabal-version: >=1.10\nname: main\nversion: 1\n")
        words = [f"{self.prefix}/bin/cabal-plan", "folder", "--older-headers", f"--index={self.room}/packages"]
        ran = self.run_script(words)
        self.assertEqual(0, ran.returncode, ran.err)
        self.assertIn("main.cabal stays as it is, and a rewritten copy of it is planned", ran.err)
        self.script("prefix/lib/cabal-plan/dist/modern-headers", "another\n")
        self.is_failure(self.run_script(words), "modern-headers isn't the program whose sum")
        self.script("prefix/lib/cabal-plan/dist/modern-headers", REWRITER)

    def pages(self):
        """Checks the man page and the completions."""
        with open(f"{self.prefix}/share/man/man1/cabal-plan.1", encoding="utf-8") as file:
            page = file.read()
        for word in (".SH \"PLAN\"", ".SH \"FOLDER\"", "\\-\\-max\\-backjumps", "\\-\\-older\\-headers", "Exit status of"):
            self.assertIn(word, page)
        at = f"{self.prefix}/share/bash-completion/completions/cabal-plan"
        line = f". {at}; COMP_WORDS=(cabal-plan \"$1\" \"$2\"); COMP_CWORD=$3; _cabal_plan; printf '%s\\n' \"${{COMPREPLY[@]}}\""
        for words, found in ((("pl", "", "1"), "plan"), (("plan", "--js", "2"), "--json"), (("folder", "--old", "2"), "--older-headers"), (("help", "fre", "2"), "freeze")):
            ran = self.run_script(["bash", "-c", f"compopt() {{ :; }}; {line}", "bash", *words])
            self.assertEqual(f"{found}\n", ran.out, ran.err)
        for shell, path in (("zsh", "zsh/site-functions/_cabal-plan"), ("fish", "fish/vendor_completions.d/cabal-plan.fish")):
            if shutil.which(shell):
                subprocess.run([shell, "-n", f"{self.prefix}/share/{path}"], check=True)

    def test_what_has_changed_stays(self):
        self.install()
        page = f"{self.prefix}/share/man/man1/cabal-plan.1"
        with open(page, "a", encoding="utf-8") as file:
            file.write("mine\n")
        self.write("prefix/lib/cabal-plan/mine", "mine\n")
        ran = self.install("--uninstall")
        self.assertEqual(0, ran.returncode, ran.err)
        self.assertIn("cabal-plan.1 has changed since it was installed: it stays", ran.err)
        self.assertTrue(os.path.isfile(page) and os.path.isfile(f"{self.prefix}/lib/cabal-plan/mine"))
        self.assertFalse(os.path.lexists(f"{self.prefix}/bin/cabal-plan"))
        before = listing(self.prefix)
        self.is_failure(self.install(), "is here already, and isn't of an installation")
        self.assertEqual(before, listing(self.prefix))

    def test_a_program_of_the_same_name(self):
        self.write("prefix/bin/cabal-plan", "another\n")
        before = listing(self.prefix)
        self.is_failure(self.install(), "bin/cabal-plan is here already")
        self.assertEqual(before, listing(self.prefix))
        os.remove(f"{self.prefix}/bin/cabal-plan")
        self.script("bin/cabal-plan", "another\n")
        self.assertIn("is another cabal-plan, in front of", self.install().err)

    def test_a_list_that_leads_out(self):
        self.write("src/precious", "")
        digest = "e3b0c44298fc1c149afbf4c8996fb92427ae41e4649b934ca495991b7852b855"
        os.symlink("../src", f"{self.prefix}/link")
        for path in ("../src/precious", "/etc/hostname", "link/precious", "bin/../../src/precious"):
            self.write("prefix/lib/cabal-plan/installed.txt", f"file {digest} {path}\n")
            ran = self.install("--uninstall")
            self.assertEqual(70, ran.returncode, ran.err)
            self.assertTrue(os.path.isfile(f"{self.room}/src/precious"))
        self.write("prefix/lib/cabal-plan/installed.txt", "junk\n")
        self.is_failure(self.install("--uninstall"), "is no list of an installation")

    def test_wrong_words(self):
        for words in (["x"], ["--prefix"], ["--nothing"]):
            self.assertEqual(64, self.install(*words).returncode)
        ran = self.run_script([f"{self.room}/top/bin/install"], environment={"PATH": "/usr/bin:/bin", "HOME": "relative"})
        self.is_failure(ran, "name a folder by --prefix=DIR")
