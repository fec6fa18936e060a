"""Twenty typical mistakes: `why` or `lint` names the cause of each."""

import os
import shutil

from tests.reasons import COMPILER, MAIN, Project

PACKAGES = "packages: .\n"
CIRCLE = {
    "a/a.cabal": MAIN.replace("main", "a").replace("aeson", "b"),
    "b/b.cabal": MAIN.replace("main", "b").replace("aeson", "a"),
    "cabal.project": "packages: a b\n",
}


def main(old, new):
    """Returns the files of the project with a changed package file."""
    assert old in MAIN
    return {"main.cabal": MAIN.replace(old, new)}


def project(text, **more):
    return {"cabal.project": PACKAGES + text, **{f"cabal.project.{name}": it for name, it in more.items()}}


# Each mistake: its name, the changed files (none for one that is removed), the words to plan with, the status of `plan`, the
# word of the tool that names the cause, and texts that it prints.
MISTAKES = (
    ("`build-depend:`", main("build-depends:", "build-depend:"), [COMPILER], 0, "lint", ["main.cabal:7: L101", "did you mean `build-depends`?"]),
    (
        "a missing comma",
        main("text,", "text"),
        [COMPILER],
        3,
        "why",
        ["main.cabal:8: a comma is missing in front of `aeson` at line 9: write `text, aeson`"],
    ),
    (
        "`=>1`",
        main("text,", "text =>1,"),
        [COMPILER],
        3,
        "why",
        ["main.cabal:8: the entry `text =>1`", "help: main.cabal:8: `=>` is no operator: write `text >=1`"],
    ),
    ("`>=1, <2` in place of `&&`", main("text,", "text >=1, <2,"), [COMPILER], 3, "why", ["main.cabal:8: the entry `<2`", "write `text >=1 && <2`"]),
    (
        "a bound that nothing meets",
        main("text,", "text >=3,"),
        [COMPILER],
        1,
        "why",
        [
            "Because main 1 depends on text >=3 (main.cabal:8) and there is only text 2.0 and 1.2 in the index",
            "help: main.cabal:8: widen `text >=3`: a plan then has text 2.0",
        ],
    ),
    (
        "`base <4.15` where another is installed",
        main("base >=4.14", "base <4.15"),
        [COMPILER],
        1,
        "why",
        ["Because main 1 depends on base <4.15 (main.cabal:7) and there is only base 4.15 installed", "help: main.cabal:7: widen `base <4.15`"],
    ),
    (
        "a tab before a field",
        main("  build-depends:", "\t  build-depends:"),
        [COMPILER],
        0,
        "lint",
        ["main.cabal:7: L103 `build-depends:` is read as a part of `exposed-modules:` of line 6", "main.cabal:7: L105"],
    ),
    (
        "a tab before an entry",
        main("    aeson", "\taeson"),
        [COMPILER],
        3,
        "why",
        ["help: main.cabal:9: indent `aeson` more than the field above it, by spaces", "a tab counts as one column"],
    ),
    (
        "an unknown package",
        main("aeson", "aesno"),
        [COMPILER],
        1,
        "why",
        ["there is no aesno", "spelt alike: aeson", "help: main.cabal:9: write `aeson` in place of `aesno`"],
    ),
    (
        "two local packages in a circle",
        CIRCLE,
        [COMPILER],
        1,
        "why",
        ["a -> b -> a: ", "a/a.cabal:9: a 1 depends on b", "b/b.cabal:9: b 1 depends on a"],
    ),
    ("no `installed`", {"installed": None}, [COMPILER], 1, "why", ["there is no folder `installed`", "`cabal-plan folder` makes", "main.cabal:7"]),
    ("`--compiler=9.0.2`", {}, ["--compiler=9.0.2"], 64, "why", ["--compiler takes a name and a version, such as ghc-9.0.2, and not '9.0.2'"]),
    ("`--compiler` forgotten", {}, [], 0, "lint", ["L301 base 4.15 comes with ghc 9.0, and the plan is for ghc-9.4.7, the default"]),
    (
        "a constraint on an unknown name",
        project("constraints: txet <2\n"),
        [COMPILER],
        0,
        "lint",
        ["cabal.project:2: L201 `txet <2` has no effect", "did you mean `text`?"],
    ),
    (
        "an unknown flag in a constraint",
        project("constraints: text +fats\n"),
        [COMPILER],
        0,
        "lint",
        ["cabal.project:2: L202", "has a flag `fats`: did you mean `fast`?"],
    ),
    (
        "`constraint:` and `test:` in `cabal.project`",
        project("constraint: text <2\ntest: True\n"),
        [COMPILER],
        0,
        "lint",
        [
            "cabal.project:2: L101 there is no field `constraint`: did you mean `constraints`?",
            "cabal.project:3: L101 there is no field `test`: did you mean `tests`?",
        ],
    ),
    (
        "a left-over `cabal.project.local`",
        project("", local="constraints: aeson <1\n"),
        [COMPILER],
        1,
        "why",
        ["`aeson <1` (cabal.project.local:1) bars aeson 2.0 and 1.5", "the local settings", "help: cabal.project.local:1: drop `aeson <1`"],
    ),
    (
        "a left-over freeze file",
        project("", freeze="constraints: any.aeson ==1.0,\n  any.text ==0.9\n"),
        [COMPILER],
        1,
        "why",
        ["`any.aeson ==1.0` (cabal.project.freeze:1) bars aeson 2.0 and 1.5", "help: cabal.project.freeze: remove this freeze file, or freeze anew"],
    ),
    (
        "a misspelt entry of `packages`",
        {
            "cabal.project": "packages: lib/\n  ap/\n",
            "app/main.cabal": MAIN,
            "lib/lib.cabal": MAIN.replace("name: main", "name: lib"),
            "main.cabal": None,
        },
        [COMPILER],
        3,
        "why",
        ["cabal.project:2: the entry `ap/`", "help: cabal.project:2: write `app` in place of `ap/`"],
    ),
    (
        "an executable that the tool lacks",
        {"main.cabal": MAIN + "  build-tool-depends: happy:hapy\n"},
        [COMPILER],
        1,
        "why",
        ["happy 1.20 in the index declares no executable hapy", "it has happy", "help: main.cabal:10: write `happy:happy` in place of `happy:hapy`"],
    ),
)


class Mistakes(Project):
    """Each mistake in a room of its own. `why` alone names each cause, since it prints what `lint` finds."""

    def make(self, changed):
        """Makes a mistake."""
        for path, content in changed.items():
            if content is not None:
                self.put(path, content)
            elif os.path.isdir(f"{self.p}/{path}"):
                shutil.rmtree(f"{self.p}/{path}")
            else:
                os.remove(f"{self.p}/{path}")

    def test_the_twenty_mistakes(self):
        self.assertEqual(20, len(MISTAKES))
        for name, changed, words, status, word, told in MISTAKES:
            with self.subTest(name):
                shutil.rmtree(self.p)
                self.setUp()
                self.make(changed)
                self.says({"lint": 1, "why": status}[word], word, told, *words)
                self.says(status, "why", told[:1], *words)

    def test_without_a_mistake(self):
        self.says(0, "why", ["there is a plan, of 4 nodes"], COMPILER)
        self.assertEqual("", self.says(0, "lint", [], COMPILER))
