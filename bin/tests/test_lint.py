"""`cabal-plan lint`: each finding, and projects of strangers."""

import json
import os
import time

from tests.reasons import COMPILER, MAIN, Project
from tests.rooms import TOP

PACKAGES = "packages: .\n"


class Lint(Project):
    """What it finds."""

    def finds(self, *told):
        """Checks that these are all findings, each by how its line begins."""
        out = self.says(1 if told else 0, "lint", [], COMPILER).splitlines()
        self.assertEqual(len(told), len(out), out)
        for text, line in zip(told, out):
            self.assertTrue(line.startswith(text), f"{line} {text}")

    def test_unknown_fields_and_sections(self):
        self.put("main.cabal", MAIN.replace("exposed-modules", "exposed-module") + "executeable x\n  main-is: X\nx-own: 1\nfoo: 2\n")
        self.finds(
            "main.cabal:6: L101 there is no field `exposed-module`: did you mean `exposed-modules`?",
            "main.cabal:10: L102 there is no section `executeable`: did you mean `executable`?",
            "main.cabal:13: L101 there is no field `foo` of a package",
        )

    def test_swallowed_lines(self):
        self.put("main.cabal", MAIN.replace("  build-depends", "   build-depends") + "flag f\n  description: x\n\t  default: False\n")
        self.finds(
            "main.cabal:7: L103 `build-depends:` is read as a part of `exposed-modules:` of line 6",
            "main.cabal:12: L103 `default:` is read",
            "main.cabal:12: L105",
        )

    def test_a_section_that_is_swallowed(self):
        self.put("main.cabal", MAIN.replace("version: 1\n", "version: 1\nextra-source-files: a\n").replace("\nlibrary", "\n library"))
        self.finds(
            "main.cabal:6: L103 `library` is read as a part of `extra-source-files:`",
            "main.cabal:7: L103 `exposed-modules:`",
            "main.cabal:8: L103 `build-depends:`",
        )

    def test_a_branch_that_is_swallowed(self):
        self.put("main.cabal", MAIN.replace("  build-depends", "   if flag(f) && !os(linux)\n     build-depends"))
        self.finds("main.cabal:7: L103 `if flag(f) && !os(linux)` is read as a part of `exposed-modules:`", "main.cabal:8: L103 `build-depends:`")

    def test_texts_for_people(self):
        self.put("main.cabal", MAIN.replace("version: 1\n", "version: 1\ndescription:\n  Write\n    build-depends: main\n  and go on.\n"))
        self.finds()

    def test_fields_outside_of_their_section(self):
        self.put(
            "main.cabal",
            MAIN.replace("  build-depends", "build-depends").replace(
                "  exposed-modules: Main\n", "  main-is: Main\n  if os(linux)\n    license: MIT\n"
            ),
        )
        self.finds(
            "main.cabal:6: L104 `main-is:` isn't a field of `library`, and isn't read: it is one of `executable`, `test-suite` and `benchmark`",
            "main.cabal:8: L104 `license:` isn't a field of `library`, and isn't read: it is one of the package",
            "main.cabal:9: L104 `build-depends:` stands outside of any section",
        )

    def test_what_is_unread(self):
        self.put("main.cabal", MAIN + "  pkgconfig-depends: zlib\n")
        self.put(
            "cabal.project",
            PACKAGES
            + "with-compiler: ghc\nflags: +fast\ntests: False\npackage text\n  tests: True\n  ghc-options: -O\n  constraints: a\nrepository r\n  url: u\n",
        )
        told = [f"cabal.project:{it}: L106" for it in (2, 3, 4, 6)] + ["cabal.project:8: L104", "cabal.project:9: L106", "main.cabal:10: L106"]
        self.finds(*told)

    def test_project_files(self):
        self.put("cabal.project", "packages: .\n  tests: True\n")
        self.put("cabal.project.local", "constrains: text <2\nif os(linux)\n  test: True\nprogram-options\n  foo: 1\nalex-options: -x\npackges\n")
        self.finds(
            "cabal.project:2: L103 `tests:` is read as a part of `packages:` of line 1",
            "cabal.project.local:1: L101 there is no field `constrains`: did you mean `constraints`?",
            "cabal.project.local:3: L101 there is no field `test`: did you mean `tests`?",
            "cabal.project.local:7: L102 there is no section `packges`",
        )

    def test_names_that_nothing_has(self):
        text = "constraints: text <3,\n  any.Text <2, txt +x,\n  man:setup.base <5\npreferences: aesn <2\n"
        text += "allow-newer: main:txet, all, *:base, text-2:base\npackage tex\n  flags: +fast\n"
        self.put("cabal.project", PACKAGES + text)
        self.finds(
            "cabal.project:3: L201 `any.Text <2` has no effect: there is no package `Text`",
            "cabal.project:3: L201 `txt +x`",
            "cabal.project:4: L201 `man:setup.base <5` has no effect: there is no package `man`",
            "cabal.project:5: L201 `aesn <2`",
            "cabal.project:6: L201 `main:txet` of allow-newer",
            "cabal.project:8: L201 `package tex, flags: +fast`",
        )

    def test_flags_that_no_version_has(self):
        self.put("cabal.project", PACKAGES + "constraints: text +fast -slow, base +x, aeson -any, main +y\npackage aeson\n  flags: fst -fast\n")
        self.finds(
            "cabal.project:2: L202",
            "cabal.project:2: L202 `main +y` has no effect: no version of main has a flag `y`: it has no flags",
            "cabal.project:4: L202",
        )

    def test_the_compiler_of_the_records(self):
        for words, is_found in (([], True), (["--compiler=ghc-9.2.1"], True), (["--compiler=ghc-9.0.1"], False), (["--compiler=ghcjs-8"], False)):
            self.says(int(is_found), "lint", ["L301 base 4.15 comes with ghc 9.0"] if is_found else [], *words)
        self.put("installed/ghc-9.0.2.conf", "name: ghc\nversion: 9.0.2\nid: ghc-9.0.2\n")
        self.says(
            1, "lint", ["installed/ghc-9.0.2.conf:1: L301 these are the records of ghc 9.0.2", "say --compiler=ghc-9.0.2"], "--compiler=ghc-9.0.1"
        )

    def test_folders_and_entries_that_give_nothing(self):
        self.put("cabal.project", PACKAGES + "optional-packages: libs/*.cabal\n")
        os.rename(f"{self.p}/index", f"{self.p}/other")
        self.finds("cabal.project:2: L108 `libs/*.cabal`", "index:1: L302 there is no folder `index`")
        os.symlink("nowhere", f"{self.p}/index")
        self.says(1, "lint", ["index:1: L302 `index` is a dead link"], COMPILER)
        self.says(1, "lint", ["cabal.project:2: L108"], COMPILER, "--index=other")

    def test_json(self):
        self.put("cabal.project", PACKAGES + "constraint: a\n")
        found = json.loads(self.says(1, "lint", [], COMPILER, "--format=json"))
        self.assertEqual(
            [{"file": "cabal.project", "line": 2, "code": "L101", "text": "there is no field `constraint`: did you mean `constraints`?"}], found
        )

    def test_wrong_words(self):
        for words in (["--compiler=9"], ["--format=xml"], ["--inde=x"], ["more"], ["--index=../x"]):
            self.says(64, "lint", ["cabal-plan lint: "], *words)
        self.says(0, "lint", ["L103", "--format"], "--help")

    def test_over_the_examples(self):
        ran = self.run_script([f"{TOP}/bin/cabal-plan", "lint"], f"{TOP}/examples/project")
        self.assertEqual((0, ""), (ran.returncode, ran.out))


class Strangers(Project):
    """Files that were made to do harm."""

    def test_files_that_are_no_texts(self):
        path = f"{self.p}/main.cabal"
        for make in (os.mkfifo, lambda it: os.symlink("/dev/zero", it), lambda it: self.sparse(it)):
            os.remove(path)
            make(path)
            self.says_of(path)
        self.put("main.cabal", MAIN)
        os.mkfifo(f"{self.p}/installed/a.conf")
        os.remove(self.package("text", "3", "base"))
        os.mkfifo(f"{self.p}/index/text/3/text.cabal")
        self.put("cabal.project", PACKAGES + "constraints: text +fast\n")
        self.says(0, "lint", [], COMPILER)

    def sparse(self, path):
        with open(path, "wb") as file:
            file.truncate(3 << 30)

    def says_of(self, path):
        status, out, _ = self.tool("lint", COMPILER)
        self.assertEqual(1, status)
        self.assertIn("main.cabal:1: L303 this can't be read", out)

    def test_a_text_that_is_no_cabal_file(self):
        self.put("main.cabal", b"library {\n\xff\xfe\n")
        self.says(1, "lint", ["main.cabal:2: L303 this file can't be read: a line without a name"], COMPILER)

    def test_names_that_forge_lines(self):
        self.put("a\nmain.cabal:1: L999 forged\x1b[31m.cabal", MAIN)
        self.put("cabal.project", "packages: ./*.cabal\nconstraints: evil +x\n  \x1b[1m\nfield: 1\n")
        out = self.says(1, "lint", ["L107", "\\x1b"], COMPILER)
        self.assertNotIn("\x1b", out)
        self.assertFalse([it for it in out.splitlines() if it.startswith("main.cabal:1: L999")])
        json.loads(self.says(1, "lint", [], COMPILER, "--format=json"))

    def test_more_findings_than_are_told(self):
        self.put("main.cabal", MAIN + "a\n" * 6000)
        out = self.says(1, "lint", ["main.cabal:5009: L304 this file has 5000 findings and more"], COMPILER)
        self.assertEqual(5001, len(out.splitlines()))

    def test_large_files(self):
        texts = (
            "library\n" + "".join(f"  fiel{it}: x\n" for it in range(2500)),
            "".join(f"executable e.{it}\n" for it in range(4000)),
            "library\n" + "".join(f"  {'el' * bool(it)}if flag(x{it})\n    a: b\n" for it in range(4000)),
            "".join(f"common c{it}\n  import: c{it + 1}\n" for it in range(3000)) + "library\n  import: c0\n",
            "common c\n  build-depends:\n" + "    a,\n" * 4000 + "executable e\n  import: c\n" * 2000,
        )
        begun = time.monotonic()
        for text in texts:
            self.put("main.cabal", MAIN + text)
            self.tool("lint", COMPILER)
        self.put("main.cabal", MAIN)
        for text in (
            "constraints:\n" + "".join(f"  p{it} <2,\n" for it in range(4000)),
            "constraints:\n" + "  text <2,\n" * 5000,
            "packages:\n" + "  lib/\n" * 5000,
        ):
            self.put("cabal.project", PACKAGES + text)
            self.tool("lint", COMPILER)
        self.assertLess(time.monotonic() - begun, 20)
