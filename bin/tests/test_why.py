"""`cabal-plan why`: reasons for conflicts, packages and versions, refusals in words, and projects of strangers."""

import os
import time

from tests.reasons import COMPILER, MAIN, PACKAGE, PROGRAM, Project
from tests.rooms import HEEDED, TOP
from tool.why.chain import Chain
from tool.why.facts import Facts, Folder
from tool.why.ranges import admits

PACKAGES = "packages: .\n"
PROVED = "proved: there is no plan, as these names can't be chosen together"


class Names(Project):
    """Why a package is in a plan, and why a version isn't."""

    def test_the_shortest_ways(self):
        self.put("main.cabal", MAIN + "executable x\n  build-depends: main, aeson\n")
        out = self.says(0, "why", [], COMPILER, "base")
        self.assertEqual("base 4.15 is in the plan\n  main 1 -> base 4.15 (installed)\n  main:exe:x 1 -> aeson 2.0 -> base 4.15 (installed)\n", out)
        self.says(0, "why", ["main 1 -> text 2.0\n"], COMPILER, "text-2.0")
        self.says(0, "why", ["main 1 is local, and so it is in the plan\n"], COMPILER, "main")

    def test_a_package_that_is_not_in_the_plan(self):
        self.says(1, "why", ["split isn't in the plan: no chosen package names it"], COMPILER, "split")
        self.says(1, "why", ["Text isn't in the plan: there is text"], COMPILER, "Text")
        self.put("main.cabal", MAIN + "  if flag(f)\n    build-depends: split\nflag f\n  default: False\n")
        self.says(1, "why", ["main.cabal:11: main 1 names split [if flag(f)], which isn't in force: main:f is off"], COMPILER, "split")

    def test_a_version_that_gives_no_plan(self):
        self.change("main.cabal", "text,", "text >=2,")
        told = [
            "text 1.2 can't be chosen",
            "Because main 1 depends on text >=2 (main.cabal:8) and text ==1.2, as asked, bars text 2.0, there is no plan.",
            "proved: there is no plan with text 1.2",
        ]
        out = self.says(1, "why", told, COMPILER, "text-1.2")
        self.assertNotIn("cabal.project.local", out)

    def test_a_version_that_gives_another_plan(self):
        out = self.says(
            0,
            "why",
            ["text 1.2 can be chosen", "  text: 2.0 source becomes 1.2 source", "the present one is the first by preference"],
            COMPILER,
            "text-1.2",
        )
        self.assertEqual(1, out.count("becomes"))
        self.says(0, "why", ["neither needs to be the first by preference"], COMPILER, "text-1.2", "--count-conflicts")
        self.says(0, "why", ["split isn't in the plan, also where only 0.2.3 is allowed"], COMPILER, "split-0.2.3")

    def test_a_version_that_is_not_there(self):
        self.says(1, "why", ["there is no text 9:", "of text there is 2.0 and 1.2"], COMPILER, "text-9")
        self.says(1, "why", ["there is no txet 9:", "spelt alike: text"], COMPILER, "txet-9")
        self.package("main", "2", "base")
        self.says(1, "why", ["main 2 is in the index, but the local package main 1 hides"], COMPILER, "main-2")

    def test_a_name_where_there_is_no_plan(self):
        self.change("main.cabal", "text,", "text >=3,")
        self.says(1, "why", ["there is no plan, so aeson isn't in one", "Because main 1 depends on text >=3"], COMPILER, "aeson")


class Conflicts(Project):
    """Why there is no plan."""

    def test_a_chain_of_reasons(self):
        self.package("store", "4.0", "text >=3")
        self.package("store", "3.0", "text")
        self.change("main.cabal", "aeson", "store >=4")
        out = self.says(1, "why", [PROVED, "read off the files, and not proved"], COMPILER)
        lines = out.splitlines()
        self.assertEqual("no plan: main, store and text can't be chosen together", lines[0])
        self.assertEqual(
            "Because store 4.0 depends on text >=3 (index/store/4.0/store.cabal:7) and there is only text 2.0 and 1.2 in the index, "
            "store 4.0 can't be chosen.",
            lines[2],
        )
        self.assertEqual(
            "Because main 1 depends on store >=4 (main.cabal:9) and store 4.0 can't be chosen and there is only store 4.0 and 3.0 in the index, "
            "there is no plan.",
            lines[3],
        )
        for text in (
            "  main.cabal:9: main 1 depends on store >=4: that leaves 4.0",
            "help: main.cabal:9: widen `store >=4`: a plan then has store 3.0",
        ):
            self.assertIn(text, lines)
        self.assertIn("help: cabal.project.local: add `allow-older: store:text`: a plan then has text 2.0", lines)

    def test_a_bound_of_a_package_of_the_index(self):
        self.package("audit", "1", "text <2")
        self.put("main.cabal", MAIN.replace("text,", "text >=2, audit,"))
        told = [
            "audit 1 depends on text <2 (index/audit/1/audit.cabal:7)",
            "help: cabal.project.local: add `allow-newer: audit:text`: a plan then has text 2.0",
        ]
        self.says(1, "why", told, COMPILER)

    def test_two_changes_that_help_only_together(self):
        self.change("main.cabal", "text,", "text >=3,")
        self.put("cabal.project", PACKAGES + "constraints: aeson <1\n")
        self.says(1, "why", ["; and ", "help: "], COMPILER)

    def test_one_name(self):
        self.put("cabal.project", PACKAGES + "extra-packages: gone\n")
        told = ["no plan: gone can't be chosen\n", "proved: there is no plan, as this can't be chosen, whatever else is\n"]
        self.says(1, "why", [*told, "`extra-packages` names gone (cabal.project:2) and there is no gone"], COMPILER)

    def test_without_trying_changes(self):
        self.change("main.cabal", "text,", "text >=3,")
        self.assertNotIn("help:", self.says(1, "why", [PROVED], COMPILER, "--no-changes"))

    def test_tests_that_are_asked_for(self):
        self.put("main.cabal", MAIN + "test-suite spec\n  build-depends: hspec\n")
        self.put("cabal.project", PACKAGES + "tests: True\n")
        told = [
            "main:*test",
            "cabal.project:2: `tests: True` asks for the test suites of all local packages",
            "main 1 depends on hspec for test-suite spec (main.cabal:11)",
            "help: cabal.project:2: drop `tests: True`",
        ]
        self.says(1, "why", told, COMPILER)

    def test_a_flag_that_is_set(self):
        self.put("main.cabal", MAIN + "  if flag(f)\n    build-depends: gone\nflag f\n  default: False\n")
        self.put("cabal.project", PACKAGES + "constraints: main +f\n")
        told = [
            "cabal.project:2: `main +f` sets it on",
            "main.cabal:12: a flag of main 1, by default off",
            "depends on gone (main.cabal:11)",
            "help: cabal.project:2: drop `main +f`",
        ]
        self.says(1, "why", told, COMPILER)

    def test_a_manual_flag(self):
        self.put("main.cabal", MAIN + "  if flag(f)\n    build-depends: gone\nflag f\n  manual: True\n")
        told = [
            "main.cabal:12: a flag of main 1, by default on, and manual",
            "help: cabal.project.local: add `constraints: main -f`: then there is a plan",
        ]
        self.says(1, "why", told, COMPILER)

    def test_the_compilers_base(self):
        self.package("base", "4.17", "text")
        self.change("main.cabal", "base >=4.14", "base >=4.16")
        told = ["not taken: base 4.17, which the index has, and which isn't taken from there", "main.cabal:7: widen `base >=4.16`: a plan then has"]
        self.says(1, "why", told, COMPILER)

    def test_a_record_that_is_left_out(self):
        self.put("installed/text-3.conf", "name: text\nversion: 3\nid: text-3\ndepends: base-4.15\n  binary-1\n")
        self.change("main.cabal", "text,", "text >=3,")
        self.says(1, "why", ["not taken: text 3, its record is left out: it needs binary-1, which has no record"], COMPILER)

    def test_a_file_that_is_skipped(self):
        self.put("index/text/3/text.cabal", "cabal-version: 1.10\nname: text\nversion: 3\n")
        self.change("main.cabal", "text,", "text >=3,")
        self.says(1, "why", ["not taken: text 3, its file is skipped: WrongCabalVersion at line 1"], COMPILER)

    def test_a_library_that_is_not_there(self):
        self.change("main.cabal", "aeson", "happy")
        self.says(1, "why", ["happy 1.20 in the index declares no main library", "it has no libraries"], COMPILER)

    def test_a_circle_of_three(self):
        for one, other in (("a", "b"), ("b", "c"), ("c", "a")):
            self.package(one, "1", other)
        self.change("main.cabal", "aeson", "a")
        self.says(1, "why", ["-> a", "these need each other in a circle", "index/c/1/c.cabal:7: c 1 depends on a"], COMPILER)

    def test_a_constraint_on_a_local_package(self):
        self.put("cabal.project", PACKAGES + "constraints: main <1\n")
        self.says(1, "why", ["Because `main <1` (cabal.project:2) bars main 1, there is no plan.", "help: cabal.project:2: drop `main <1`"], COMPILER)

    def test_a_local_package_that_shall_be_installed(self):
        self.put("cabal.project", PACKAGES + "constraints: main installed\n")
        told = ["Because `main installed` (cabal.project:2) bars main 1, there is no plan.", "help: cabal.project:2: drop `main installed`"]
        self.says(1, "why", told, COMPILER)

    def test_an_extra_package(self):
        self.put("cabal.project", PACKAGES + "extra-packages: text >=3\n")
        self.says(
            1, "why", ["`text >=3` (cabal.project:2) bars text 2.0 and 1.2", "help: cabal.project:2: drop `text >=3` of extra-packages"], COMPILER
        )

    def test_a_setup_script(self):
        self.put("main.cabal", MAIN.replace("version: 1\n", "version: 1\nbuild-type: Custom\ncustom-setup\n  setup-depends: base, Cabal >=9\n"))
        told = ["main:setup.Cabal (for the setup script of main)", "main 1 needs in the setup script Cabal >=9 (main.cabal:6)", "there is no Cabal"]
        self.says(1, "why", told, COMPILER)

    def test_an_index_that_the_tool_made(self):
        os.rename(f"{self.p}/index", f"{self.p}/.plan-folder")
        os.symlink(".plan-folder", f"{self.p}/index")
        self.change("main.cabal", "aeson", "conduit")
        self.says(1, "why", ["`index` was made by `cabal-plan folder`", "run it again if conduit is new\n"], COMPILER)

    def test_a_search_that_gives_up(self):
        ran = self.run_script([f"{TOP}/bin/cabal-plan", "why", PROGRAM], f"{TOP}/examples/counting")
        self.assertEqual(2, ran.returncode)
        self.assertIn("try --count-conflicts", ran.out)

    def test_a_conflict_that_is_not_minimised(self):
        answer = '{"conflict": ["main"], "exhausted": 9, "not_minimised": 9, "skipped": [], "status": "no plan", "visited": 9, "warnings": []}'
        program = self.script("stub", f"#!/bin/sh\necho '{answer}'\nexit 1\n")
        self.says(1, "why", ["not minimised: the limit was met"], f"--program={program}")

    def test_examples(self):
        for name, told in (
            ("no-plan", "help: app.cabal:8: widen `store >=4`: a plan then has store 3.0"),
            ("conflict", "Because z 1 depends on a ==3"),
        ):
            ran = self.run_script([f"{TOP}/bin/cabal-plan", "why", PROGRAM], f"{TOP}/examples/{name}")
            self.assertEqual(1, ran.returncode, ran.err)
            self.assertIn(told, ran.out)


class Refusals(Project):
    """What a refusal means."""

    def test_entries_that_can_not_be_read(self):
        cases = (
            ("text = 1", "`=` is no operator: write `text == 1`"),
            ("text >=01", "a version has no leading zeros: write `text >=1`"),
            ("text >=1.*", "`.*` stands only behind `==`: write `text >=1`"),
            ("text-1.0", "a version stands behind `==`: write `text ==1.0`"),
            ("text >=1 split", "a comma is missing in front of `split`: write `text >=1, split`"),
            ("text; split", "entries stand between commas, and not `;`"),
            ("text # all", "a comment begins with `--`"),
        )
        for entry, told in cases:
            with self.subTest(entry):
                self.put("main.cabal", MAIN.replace("text,", f"{entry},"))
                self.says(3, "why", [f"main.cabal:8: the entry `{entry}`", f"help: main.cabal:8: {told}"], COMPILER)

    def test_an_entry_far_down(self):
        self.put(
            "cabal.project",
            PACKAGES
            + "constraints:\n"
            + "".join(f"  p{it} <2,\n" for it in range(500))
            + "  text =<2,\n"
            + "".join(f"  q{it} <2,\n" for it in range(300)),
        )
        self.says(
            3,
            "why",
            ["refused cabal.project:2 BadConstraint", "cabal.project:503: the entry `text =<2`", "    503 |   text =<2,".strip(), "write `text <=2`"],
            COMPILER,
        )

    def test_a_swallowed_line(self):
        self.put("main.cabal", MAIN.replace("\nversion", "\n\tversion"))
        self.says(3, "why", ["help: main.cabal:3: `version:` is a part of `name:` of line 2"], COMPILER)
        self.put("main.cabal", MAIN)
        self.put("cabal.project", "packages: .\n tests: True\n")
        self.says(3, "why", ["help: cabal.project:2: `tests:` is read as an entry of `packages:`"], COMPILER)

    def test_other_causes(self):
        cases = (
            ({"main.cabal": MAIN[len("cabal-version: 2.4\n") :]}, "add `cabal-version:`"),
            ({"main.cabal": "\nname: x\n" + MAIN}, "move `cabal-version:` to the first line"),
            ({"main.cabal": MAIN.replace("2.4", ">=1.10")}, "cabal-plan folder --older-headers"),
            ({"main.cabal": MAIN.encode() + b"-- \xe4\n"}, "save the file as UTF-8"),
            ({"main.cabal": MAIN + "  executable x\n"}, "`executable` begins a section: begin its line further to the left"),
            ({"main.cabal": MAIN + "  if os(linux\n"}, "write os(..), arch(..)"),
            ({"cabal.project": PACKAGES + "if flag(x)\n  tests: True\n"}, "take `flag(..)` out of this condition"),
            ({"cabal.project": PACKAGES + "import: x\n", "main.cabal": MAIN}, "copy the lines of the imported file"),
            ({"cabal.project": PACKAGES + "package *\n  flags: +x\n"}, "for each package a constraint"),
            ({"cabal.project": 'packages: "."\n'}, 'write `.` in place of `"."`'),
        )
        for files, told in cases:
            with self.subTest(told):
                for path, content in files.items():
                    self.put(path, content)
                self.says(3, "why", [told, "proved: the refusal"], COMPILER)

    def test_a_folder_without_a_package(self):
        os.makedirs(f"{self.p}/app")
        os.rename(f"{self.p}/main.cabal", f"{self.p}/app/main.cabal")
        self.says(3, "why", ["refused . NoPackages", "help: packages are in `app`"], COMPILER)


class Strangers(Project):
    """Files that were made to do harm, and other ends."""

    def test_files_that_are_no_texts(self):
        os.remove(f"{self.p}/main.cabal")
        os.mkfifo(f"{self.p}/main.cabal")
        ran = self.run_script([f"{TOP}/bin/cabal-plan", "why", PROGRAM, COMPILER], self.p)
        self.is_failure(ran, "main.cabal is no regular file")
        os.remove(f"{self.p}/main.cabal")
        with open(f"{self.p}/main.cabal", "wb") as file:
            file.truncate(3 << 30)
        status, out, _ = self.tool("why", COMPILER)
        self.assertEqual((3, "refused main.cabal TooLarge"), (status, out.splitlines()[0]))

    def test_names_that_forge_lines(self):
        os.remove(f"{self.p}/main.cabal")
        self.put("a\nhelp: run evil\x1b[31m.cabal", MAIN.replace("text,", "text >=3,"))
        out = self.says(1, "why", ["\\nhelp: run evil\\x1b[31m.cabal:8"], COMPILER)
        self.assertNotIn("\x1b", out)
        self.assertFalse([it for it in out.splitlines() if it.startswith("help: run evil")])

    def test_local_packages_below_links(self):
        """A copy of the project writes nothing through links of the project."""
        os.makedirs(f"{self.room}/elsewhere")
        os.symlink(f"{self.room}/elsewhere", f"{self.p}/lib")
        self.put("lib/lib.cabal", MAIN.replace("main", "lib"))
        self.put("cabal.project", "packages: . lib/ index/text/2.0/\n")
        self.change("main.cabal", "text,", "text >=3,")
        with open(f"{self.room}/elsewhere/lib.cabal", encoding="utf-8") as file:
            before = file.read()
        self.says(1, "why", [PROVED], COMPILER)
        with open(f"{self.room}/elsewhere/lib.cabal", encoding="utf-8") as file:
            self.assertEqual(before, file.read())

    def test_statuses_of_the_program(self):
        for status in (4, 5, 6, 70):
            program = self.script("stub", f"#!/bin/sh\necho 'a read failed' >&2\nexit {status}\n")
            self.says(status, "why", ["cabal-plan why: a read failed"], f"--program={program}")
        program = self.script("stub", "#!/bin/sh\nkill -9 $$\n")
        self.says(137, "why", ["the program ended with status 137"], f"--program={program}")
        ran = self.run_script([f"{TOP}/bin/cabal-plan", "why", "--program=nowhere"], self.p)
        self.is_failure(ran, "nowhere can't be run")

    def test_wrong_words(self):
        for words, told in (
            (["--compiler=9"], "such as ghc-9.0.2"),
            (["a", "b"], "unrecognized"),
            (["--index=/x"], "--index takes"),
            (["--json"], "unrecognized"),
        ):
            self.says(64, "why", ["cabal-plan why: ", told], *words)
        self.says(0, "why", ["NAME[-VERSION]", "--no-changes"], "--help")

    def test_closed_streams(self):
        self.change("main.cabal", "text,", "text >=3,")
        for how in (">&-", "| true", ">/dev/full"):
            ran = self.run_script(["sh", "-c", f"{TOP}/bin/cabal-plan why {PROGRAM} {COMPILER} {how}"], self.p)
            self.assertNotIn("Traceback", ran.err)

    def test_an_index_of_long_files(self):
        self.change("main.cabal", "aeson", "a")
        for it in range(9):
            self.write(f"p/index/a/{it}/a.cabal", PACKAGE.format("a", it, "gone") + "\n" * 40000)
        told = ["not looked into, as these files are too long: a 1 and 0", "a 8, 7, 6, 5 and 3 more depend on gone"]
        self.says(1, "why", told, COMPILER)

    def test_no_room_is_left_behind(self):
        self.change("main.cabal", "text,", "text >=3,")
        rooms = f"{self.room}/rooms"
        os.mkdir(rooms)
        ran = self.run_script([f"{TOP}/bin/cabal-plan", "why", PROGRAM, COMPILER], self.p, self.environment(TMPDIR=rooms))
        self.assertEqual((1, []), (ran.returncode, os.listdir(rooms)))
        program = self.script(
            "stub",
            f'#!/bin/sh\nls {rooms} >>{self.room}/log\ncase $PWD in {rooms}*) kill -INT $PPID; sleep 5;; esac\nexec {TOP}/dist/cabal-plan "$@"\n',
        )
        ran = self.run_script([*HEEDED, f"{TOP}/bin/cabal-plan", "why", f"--program={program}", COMPILER], self.p, self.environment(TMPDIR=rooms))
        self.assertEqual((130, []), (ran.returncode, os.listdir(rooms)), ran.err)

    def test_long_lines(self):
        for old, new in (
            ("text,", f"text {' || '.join(f'=={it}' for it in range(3, 20000))},"),
            ("text,", f"text =>{'1' * 100000},"),
            ("name: main", f"name: main{'x' * 100000}"),
        ):
            self.put("main.cabal", MAIN.replace(old, new))
            status, out, _ = self.tool("why", COMPILER)
            self.assertIn(status, (0, 1, 3))
            self.assertLess(max(map(len, out.splitlines())), 1010)

    def test_large_files(self):
        begun = time.monotonic()
        for text in (
            "".join(f"  if flag(f{it})\n    build-depends: base\n" for it in range(1500)) + "".join(f"flag f{it}\n" for it in range(1500)),
            "  build-depends:\n" + "".join(f"    p{it},\n" for it in range(4000)),
        ):
            self.put("main.cabal", MAIN.replace("text,", "text >=3,") + text)
            self.tool("why", COMPILER)
        self.put("main.cabal", MAIN)
        for it in range(100):
            self.package("aeson", f"3.{it}", f"text >=3, gone{it}")
        self.put("cabal.project", PACKAGES + "constraints: aeson >=3\n" + "constraints:\n" + "".join(f"  p{it} <2,\n" for it in range(4000)))
        self.says(1, "why", ["Because aeson 3.99 depends on gone99", "more steps of this kind)", "and 62 more names"], COMPILER)
        self.assertLess(time.monotonic() - begun, 30)


class Reasoning(Project):
    """What is read off the files agrees with the program."""

    def test_ranges(self):
        told = (
            ("", "1", True), (">=1 && <2", "1.5", True), (">=1 && <2", "2", False), ("==1.*", "1.9.3", True), ("==1.*", "2", False), ("^>=1.2", "1.2.9", True),
            ("^>=1.2", "1.3", False), ("^>=1", "1.0.5", True), ("==1", "1.0", False), ("<1 || >2 && <3", "0.5", True), ("(<1 || >2) && <3", "2.5", True),
            ("=={1, 2.*}", "2.4", True), ("^>={1.0, 3.1}", "3.1.4", True), ("-none", "1", False), ("-any", "1", True), ("1.0", "1", None), (">1 <2", "1", None),
            (">= 1 &&", "1", None), ("(((", "1", None),
        )  # fmt: skip
        for text, version, fits in told:
            self.assertIs(fits, admits(text, version), (text, version))
        begun = time.monotonic()
        self.assertIs(True, admits(" || ".join(f"=={it}" for it in range(20000)), "7"))
        self.assertIs(None, admits("(" * 100000, "7"))
        self.assertLess(time.monotonic() - begun, 5)

    def test_a_project_with_a_plan_has_no_chain(self):
        """Where there is a plan, no chain of reasons finds a contradiction."""
        from tool.cases import cases
        from tool.files import new_room

        tried = 0
        for subject in ("flags", "settings", "records"):
            for case in list(cases(subject))[:60]:
                runs = [it for it in case.runs if it.words[:1] == ["plan"] and it.status == 0 and not it.failing]
                if not runs or case.links:
                    continue
                with new_room("why-") as room:
                    for path, content in case.files.items():
                        room.write(path, content)
                    folder = Folder(room.path, runs[0].words[1:])
                    names = [it for it in sorted(folder.known()) if it.replace("-", "").isalnum()]
                    self.assertEqual([], Chain(Facts(folder, names, [])).sentences(), case.name)
                tried += 1
        self.assertGreater(tried, 10)
