"""Views of plans: `tree`, `diff`, `outdated` and `json`."""

import io
import json
import os
import shutil
import subprocess
import sys
import time
import unittest
from unittest import mock

from tests.rooms import TOP, Room, listing
from tool.ends import status_of
from tool.front import main
from tool.plans import answers, changes
from tool.plans.nodes import Graph
from tool.plans.tree import Tree
from tool.refusal import Refusal

PROGRAM = f"{TOP}/dist/cabal-plan"
WORDS = [f"--program={PROGRAM}", "--compiler=ghc-9.0.2"]
MAIN = "cabal-version: 2.4\nname: main\nversion: 1\nlibrary\n  build-depends: base, a\nexecutable x\n  main-is: M.hs\n  build-depends: main, b\n"
MAIN += "  build-tool-depends: t:t\ntest-suite s\n  type: exitcode-stdio-1.0\n  main-is: S.hs\n  build-depends: base\n"
B = "cabal-version: 2.4\nname: b\nversion: {}\nflag fast\n  default: False\nlibrary\n  build-depends: a{}\n"
T = "cabal-version: 2.4\nname: t\nversion: 1\nexecutable t\n  main-is: M.hs\n  build-depends: base, a >=2\n"


FROZEN = """constraints:
    any.a ==1,
    any.a installed,
    any.b +fast -slow,
    any.c >=1 && <2,
    main:setup.a ==2, main test
"""
FROZEN_BY_CABAL = """active-repositories: x
constraints: any.a ==1.0.1,
    any.a source, b -fast -slow,
    c <3,
    d ==4
index-state: 1
"""


def node(name, needs=(), kind="store", component="lib", version="1", key=None):
    """Returns a node of a plan."""
    package = f"{name}-{version}"
    return {"component": component, "id": key or package, "kind": kind, "needs": list(needs), "package": package, "unbuildable": False}


def plan(nodes, choices=()):
    return {"choices": [{"var": var, "value": value} for var, value in choices], "nodes": nodes, "skipped": [], "status": "plan", "warnings": []}


class Plans(Room):
    """A project with a library, an executable and tests, and an index beside it."""

    def setUp(self):
        super().setUp()
        self.write("src/project/main.cabal", MAIN)
        self.write("packages/b/1/b.cabal", B.format("1", " <2"))
        self.write("packages/t/1/t.cabal", T)
        self.link("src/project/index", f"{self.room}/packages")
        self.link("src/project/installed", f"{self.room}/db")

    def called(self, *words, data=b"", where=None):
        """Runs a word of the tool in this process, and returns its status, its output, and its messages."""
        out, err = (io.TextIOWrapper(io.BytesIO(), encoding="utf-8", write_through=True) for _ in range(2))
        given = io.TextIOWrapper(io.BytesIO(data))
        was = os.getcwd()
        os.chdir(where or self.project)
        try:
            with mock.patch.multiple(sys, stdout=out, stderr=err, stdin=given):
                try:
                    status = status_of("cabal-plan", lambda: main(list(words)), True)
                except SystemExit as end:
                    status = end.code
        finally:
            os.chdir(was)
        return status, out.buffer.getvalue().decode(), err.buffer.getvalue().decode()

    def answer(self, name, of):
        """Writes an answer, and returns its path."""
        return self.write(name, of if isinstance(of, (str, bytes)) else json.dumps(of))

    def is_refused(self, ran, *words, status=70):
        self.assertEqual((status, ""), ran[:2], ran)
        self.assertEqual(1, ran[2].count("\n"), ran[2])
        for it in words:
            self.assertIn(it, ran[2])


class TreeTests(Plans):
    def test_as_a_program(self):
        ran = self.run_script([f"{TOP}/bin/cabal-plan", "tree", *WORDS])
        self.assertEqual(0, ran.returncode, ran.err)
        self.assertEqual("", ran.err)
        self.assertIn("main-1 (local)\n├── a-1\n│   └── base-4.15 (installed)\n└── base-4.15 (installed)\n", ran.out)

    def test_the_trees_of_local_components(self):
        status, out, _ = self.called("tree", *WORDS)
        self.assertEqual(0, status)
        first, second, third = out.split("\n\n")
        self.assertEqual("main-1 (local)\n├── a-1\n│   └── base-4.15 (installed)\n└── base-4.15 (installed)", first)
        self.assertIn("main-1 exe:x (local)\n├── b-1\n│   └── a-1 (*)\n", second)
        self.assertIn("├── main-1 (local) (*)\n", second)
        self.assertTrue(second.endswith("└── t-1 exe:t\n    ├── a-2\n    │   └── base-4.15 (installed)\n    └── base-4.15 (installed)"), second)
        self.assertEqual("main-1 test:s (local)\n└── base-4.15 (installed)\n", third)

    def test_invert_depth_names_and_duplicates(self):
        self.assertEqual("t-1 exe:t\n└── main-1 exe:x (local)\n", self.called("tree", "--invert", "t", *WORDS)[1])
        self.assertEqual("main-1 test:s (local)\n", self.called("tree", "main:test:s", "--depth", "0", *WORDS)[1])
        self.assertEqual("t-1 exe:t\n└── a-2\n", self.called("tree", "t", "--no-installed", *WORDS)[1])
        out = self.called("tree", "--duplicates", *WORDS)[1]
        self.assertEqual(["a-1", "a-2"], [it for it in out.split("\n") if it.startswith("a-")])
        os.remove(f"{self.room}/packages/a/1/a.cabal")
        self.write("packages/b/1/b.cabal", B.format("1", ""))
        self.assertEqual((0, "", "cabal-plan tree: there is nothing to show\n"), self.called("tree", "--duplicates", *WORDS))
        self.is_refused(self.called("tree", "bb", *WORDS), "the plan has no bb", "did you mean b?")
        self.assertEqual(64, self.called("tree", "--depth", "-1")[0])
        for words in ("tree --dept 1", "tree --index=../x", "outdated --os=a.b", "json --compiler=ghc", "diff x --index=/"):
            self.assertEqual(64, self.called(*words.split())[0], words)
        os.symlink(PROGRAM, f"{self.project}/planner")
        self.assertEqual(0, self.called("outdated", "--program=./planner", WORDS[1])[0])

    def test_of_a_file(self):
        digits = "0123456789" * 6 + "0123"
        nodes = [node("a", key=f"a-1-{digits}"), node("a", key=f"a-1-{digits[1:]}4", kind="installed")]
        nodes.append(node("m\n", ["a-1-" + digits], "local", key="m"))
        path = self.answer("plan", plan(nodes))
        self.assertEqual((0, "m\\n-1 (local)\n└── a-1 [01234567]\n", ""), self.called("tree", "--from", path))
        with open(path, "rb") as file:
            data = file.read()
        self.assertEqual((0, "m\\n-1 (local)\n└── a-1 [01234567]\n", ""), self.called("tree", "--from", "-", data=data))

    def test_without_a_plan(self):
        self.write("src/project/cabal.project.local", "constraints: a <1\n")
        self.is_refused(self.called("tree", *WORDS), "no plan: conflict main a", status=1)
        self.is_refused(self.called("tree", "--from", self.answer("x", {"status": "gave up", "visited": 1, "exhausted": 2})), "gave up", status=2)
        self.write("src/project/main.cabal", "name: x\n")
        self.is_refused(self.called("tree", *WORDS), "refused main.cabal", status=3)

    def test_answers_of_another_form(self):
        for text in ("", "[]", "{}", '{"status": []}', '{"status": "plan"}', "\xff", "[" * 10_000, '{"status": "plan", "choices": [], "nodes": [1]}',
                     '{"status": "no plan", "conflict": [], "skipped": null}', '{"status": "no plan", "conflict": ["a", 1]}', "1" * 10_000,
                     json.dumps(plan([{**node("a"), "needs": [[]]}])), json.dumps({**plan([]), "choices": [{"var": "a"}]})):  # fmt: skip
            with self.subTest(text[:40]):
                path = self.answer("bad", text)
                self.is_refused(self.called("tree", "--from", path), f"{path}:1: ")
        self.is_refused(self.called("tree", "--from", f"{self.room}/none"), "can't be read: No such file")
        self.is_refused(self.called("tree", "--from", self.room), "can't be read: Is a directory")
        with mock.patch.object(answers, "MOST_BYTES", 10):
            self.is_refused(self.called("tree", "--from", self.answer("big", " " * 11)), "more than 10 bytes")

    def test_circles_end(self):
        nodes = [node("a", ["b-1"], "local"), node("b", ["a-1", "b-1", "gone"])]
        self.assertEqual("a-1 (local)\n└── b-1\n    └── a-1 (local) (*)\n", self.called("tree", "--from", self.answer("x", plan(nodes)))[1])

    def test_deep_and_wide_plans(self):
        begun = time.process_time()
        deep = Graph(plan([node(f"a{it}", [f"a{it - 1}-1"], "local") for it in range(20_000)]))
        told = list(Tree(deep, deep.needs, range(20_000), 100).lines(19_999))
        self.assertEqual(101, len(told))
        self.assertTrue(told[-1].endswith("a19899-1 (local) .."), told[-1])
        names = [f"b{it}-1" for it in range(1_000)]
        wide = Graph(plan([*(node(f"b{it}", ["x"]) for it in range(1_000)), *(node(f"c{it}", names, "local") for it in range(100))]))
        tree = Tree(wide, wide.needs, range(1_100), 100)
        self.assertEqual(100 * 1_001, sum(len(list(tree.lines(at))) for at in wide.roots()))
        self.assertLess(time.process_time() - begun, 8)


class DiffTests(Plans):
    OLD = plan(
        [node("a"), node("b", key="b-1-x"), node("main", component="test:s", kind="local")],
        [("a", "1 source"), ("b", "1 source"), ("b:fast", "off"), ("d", "3 installed d-3"), ("main", "1 local"), ("main:*test", "on"),
         ("main:setup.a", "2 source")],
    )
    NEW = plan(
        [node("a", version="10"), node("b", key="b-1-y"), node("main", component="exe:x", kind="local")],
        [("a", "10 source"), ("b", "1 installed b-1"), ("b:fast", "on"), ("e", "1 source"), ("main", "1 local"), ("main:*test", "off"),
         ("main:setup.a", "1 source")],
    )  # fmt: skip

    def test_two_plans(self):
        old, new = self.answer("old", self.OLD), self.answer("new", self.NEW)
        status, out, _ = self.called("diff", old, new)
        self.assertEqual(1, status)
        lines = [" ".join(it.split()) for it in out.splitlines()]
        self.assertEqual(
            ["upgraded a 1 -> 10", "downgraded main:setup.a 2 -> 1", "added e 1", "removed d 3", "source b source -> installed",
             "flag b:fast off -> on", "tests main on -> off", "component main:test:s there -> none", "component main:exe:x none -> there",
             "rebuilt b-1: the same versions with other identifiers"], lines,
        )  # fmt: skip
        self.assertEqual((0, "", ""), self.called("diff", old, old))

    def test_json(self):
        status, out, _ = self.called("diff", "--format=json", self.answer("old", self.OLD), self.answer("new", self.NEW))
        told = json.loads(out)
        self.assertEqual((1, True), (status, told["differs"]))
        self.assertIn({"kind": "upgraded", "name": "a", "old": "1", "new": "10"}, told["changes"])
        self.assertIn({"kind": "added", "name": "e", "old": None, "new": "1"}, told["changes"])
        same = self.called("diff", "--format=json", self.answer("old", self.OLD), f"{self.room}/old")
        self.assertEqual((0, {"changes": [], "differs": False}), (same[0], json.loads(same[1])))

    def test_two_freeze_files(self):
        old, new = self.answer("old", FROZEN), self.answer("new", FROZEN_BY_CABAL)
        status, out, _ = self.called("diff", old, new)
        self.assertEqual(1, status)
        lines = [" ".join(it.split()) for it in out.splitlines()]
        self.assertEqual(["upgraded a 1 -> 1.0.1", "added d 4", "removed main:setup.a 2", "range c >=1 && <2 -> <3", "source a installed -> source",
                          "flag b:fast on -> off", "tests main on -> none"], lines)  # fmt: skip
        self.assertEqual(0, self.called("diff", old, old)[0])

    def test_what_the_program_froze(self):
        frozen = subprocess.run([PROGRAM, "freeze", WORDS[1]], cwd=self.project, stdout=subprocess.PIPE, check=True).stdout
        self.assertIn(b"any.b -fast", frozen)
        old, new = self.answer("old", frozen), self.answer("new", frozen.replace(b"any.b ==1", b"any.b ==0.9"))
        self.assertEqual((1, "downgraded  b 1 -> 0.9\n", ""), self.called("diff", old, new))

    def test_a_plan_and_now(self):
        words = [PROGRAM, "plan", "--json", WORDS[1]]
        path = self.answer("before", subprocess.run(words, cwd=self.project, stdout=subprocess.PIPE, check=True).stdout)
        self.assertEqual((0, "", ""), self.called("diff", path, *WORDS))
        self.write("src/project/cabal.project.local", "constraints: b +fast\n")
        status, out, _ = self.called("diff", path, *WORDS)
        self.assertEqual((1, "flag        b:fast off -> on\n"), (status, out.split("rebuilt")[0]))

    def test_nothing_to_compare(self):
        one, frozen = self.answer("one", self.OLD), self.answer("frozen", "constraints: a ==1\n")
        self.is_refused(self.called("diff", one, frozen), "one is a plan, and the other a freeze file")
        self.is_refused(self.called("diff", frozen, *WORDS), "is a freeze file")
        self.is_refused(self.called("diff", one, self.answer("none", {"status": "no plan", "conflict": ["a"]})), "none: no plan: conflict a")
        self.is_refused(self.called("diff", one, self.answer("x", "tests: True\n")), "x:1: ", "has no constraints")
        self.is_refused(self.called("diff", one, self.answer("x", "constraints: a ==1\n}\n")), "x:2: neither")
        self.is_refused(self.called("diff", frozen, self.answer("x", "constraints: a ==1,\n  \x1b?\n")), "x:2: this is no constraint: \\x1b?")
        for words in ((), ("a", "b", "c"), ("--git=x", "a", "b"), ("-", "-"), ("a", "b", "--format=x")):
            self.assertEqual(64, self.called("diff", *words)[0], words)

    def test_many_constraints(self):
        begun = time.process_time()
        found = changes.of_freeze("constraints: " + ",\n  ".join(f"any.a{it} ==1.{it}, any.a{it} +f -g" for it in range(30_000)), "x")
        self.assertEqual((30_000, 60_000), (len(found.versions), len(found.values)))
        self.assertEqual([], changes.changes(found, found))
        self.assertLess(time.process_time() - begun, 8)


@unittest.skipUnless(shutil.which("git"), "git isn't installed")
class Revisions(Plans):
    """A project below the top of a repository."""

    def setUp(self):
        super().setUp()
        self.write("repo/p/main.cabal", MAIN)
        self.write("repo/p/cabal.project", "packages: .\n")
        self.where = f"{self.room}/repo/p"
        self.link("repo/p/index", f"{self.room}/packages")
        self.link("repo/p/installed", f"{self.room}/db")
        self.write("repo/.gitignore", "/p/index\n/p/installed\n/p/cabal.project.local\n")
        self.git("init", "-q")
        self.commit()

    def git(self, *words):
        subprocess.run(["git", "-c", "user.name=x", "-c", "user.email=x@x", *words], cwd=f"{self.room}/repo", stdout=subprocess.DEVNULL, check=True)

    def commit(self):
        self.git("add", "-A")
        self.git("commit", "-q", "-m", "x")

    def diff(self, revision):
        return self.called("diff", f"--git={revision}", *WORDS, where=self.where)

    def test_a_change(self):
        self.assertEqual((0, "", ""), self.diff("HEAD"))
        self.write("repo/p/cabal.project", "packages: .\nconstraints: b +fast\n")
        self.write("repo/.git/hooks/post-checkout", f"#!/bin/sh\ntouch {self.room}/ran\n")
        os.chmod(f"{self.room}/repo/.git/hooks/post-checkout", 0o755)
        self.git("config", "core.fsmonitor", f"touch {self.room}/ran #")
        before = listing(self.room)
        status, out, _ = self.diff("HEAD")
        self.assertEqual(1, status)
        self.assertIn("flag        b:fast off -> on\n", out)
        self.assertEqual(before, listing(self.room))
        self.assertFalse(os.path.exists(f"{self.room}/ran"))

    def test_settings_that_git_does_not_know_count_for_both(self):
        self.write("repo/p/cabal.project.local", "constraints: b +fast\n")
        status, out, err = self.diff("HEAD")
        self.assertEqual((0, ""), (status, out))
        self.assertIn("git doesn't know cabal.project.local", err)

    def test_an_index_of_the_commit(self):
        for at in ("a/1/a", "a/2/a", "b/1/b", "t/1/t"):
            with open(f"{self.room}/packages/{at}.cabal", "rb") as file:
                self.write(f"repo/p/own/{at}.cabal", file.read())
        self.commit()
        self.write("repo/p/own/b/2/b.cabal", B.format("2", " <2"))
        status, out, _ = self.called("diff", "--git=HEAD", "--index=own", *WORDS, where=self.where)
        self.assertEqual((1, "upgraded    b 1 -> 2\n"), (status, out))

    def test_what_is_refused(self):
        self.is_refused(self.diff("gone"), "git has no commit gone")
        self.is_refused(self.diff("--output=x"), "--output=x is no name of a commit")
        self.is_refused(self.called("diff", "--git=HEAD", *WORDS, where=self.home), "git rev-parse ends with status 128")
        self.write("repo/p/cabal.project", "packages: .\nconstraints: a <1\n")
        self.is_refused(self.diff("HEAD"), "now: no plan: conflict")
        self.commit()
        self.is_refused(self.diff("HEAD"), "HEAD: no plan: conflict")

    def test_links_of_a_commit_are_not_followed(self):
        self.link("repo/p/other.cabal", "/etc/passwd")
        self.commit()
        os.remove(f"{self.where}/other.cabal")
        status, _, err = self.diff("HEAD")
        self.assertEqual(0, status)
        self.assertIn("other.cabal of HEAD is a link or a module, and isn't read", err)


class OutdatedTests(Plans):
    def test_what_holds_back(self):
        before = listing(self.room)
        status, out, err = self.called("outdated", *WORDS)
        self.assertEqual((0, ""), (status, err))
        told = "a 1, latest 2\n    no plan has a later one: main a b\n    index/b/1/b.cabal:7: b 1 needs a <2\n"
        self.assertEqual(told, out)
        self.assertEqual(before, listing(self.room))

    def test_a_later_one_can_be_had(self):
        self.write("packages/b/1/b.cabal", B.format("1", ""))
        self.write("db/a-1.conf", "name: a\nversion: 1\nid: a-1\nkey: a-1\n")
        self.write("packages/a/3/a.cabal", "cabal-version: 9\n")
        self.write("src/project/cabal.project.local", "-- no line end")
        status, out, _ = self.called("outdated", *WORDS)
        self.assertEqual(0, status)
        first, second = out.splitlines()
        self.assertEqual("a 1 installed, latest 2 (later ones are skipped: 3)", first)
        self.assertEqual("    a plan has 2, and nothing else changes: an installed unit comes before the index", second)
        told = json.loads(self.called("outdated", "--format=json", "a", *WORDS)[1])["outdated"]
        self.assertEqual([("a", "1", "2", "plan", "2")], [(it["name"], it["chosen"], it["latest"], it["answer"], it["found"]) for it in told])

    def test_other_changes(self):
        self.write("packages/b/2/b.cabal", B.format("2", ""))
        self.write("src/project/cabal.project", "packages: .\npreferences: a <2, b <2\n")
        self.assertIn("    a plan has 2, with upgraded b 1 -> 2\n", self.called("outdated", "a", *WORDS)[1])

    def test_a_constraint_holds_back(self):
        self.write("packages/b/1/b.cabal", B.format("1", ""))
        self.write("src/project/cabal.project", "packages: .\nconstraints: a <2\n")
        self.assertIn("    cabal.project:2: constraints: a <2\n", self.called("outdated", *WORDS)[1])

    def test_no_plan_and_wrong_names(self):
        self.is_refused(self.called("outdated", "main", *WORDS), "the plan has no main that could be out of date")
        self.write("src/project/cabal.project.local", "constraints: a <1\n")
        self.is_refused(self.called("outdated", *WORDS), "no plan: conflict", status=1)

    def test_nothing_is_outdated(self):
        self.write("packages/b/1/b.cabal", B.format("1", ""))
        self.assertEqual((0, "", "cabal-plan outdated: no later version is in the index\n"), self.called("outdated", *WORDS))
        self.assertEqual((0, '{"outdated":[]}\n'), self.called("outdated", "--format=json", *WORDS)[:2])


class JsonTests(Plans):
    def units(self, *words):
        status, out, err = self.called("json", *words)
        self.assertEqual((0, ""), (status, err))
        told = json.loads(out)
        return told, {f"{it['pkg-name']} {it['pkg-version']} {it.get('component-name')}": it for it in told["install-plan"]}

    def test_units(self):
        told, units = self.units("--os=darwin", *WORDS)
        self.assertEqual({"arch": "x86_64", "compiler-id": "ghc-9.0.2", "os": "osx"}, {it: told[it] for it in told if it != "install-plan"})
        base = {"type": "pre-existing", "id": "base-4.15", "pkg-name": "base", "pkg-version": "4.15", "depends": []}
        self.assertEqual(base, units["base 4.15 None"])
        of = units["main 1 exe:x"]
        self.assertEqual(("configured", "local", {}, "main-1-inplace-x"), (of["type"], of["style"], of["flags"], of["id"]))
        self.assertEqual(["b 1 lib", "main 1 lib"], [name for name, it in sorted(units.items()) if it["id"] in of["depends"]])
        self.assertEqual([units["t 1 exe:t"]["id"]], of["exe-depends"])
        self.assertEqual(({"fast": False}, "global"), (units["b 1 lib"]["flags"], units["b 1 lib"]["style"]))

    def test_styles_and_flags_of_several(self):
        nodes = [
            node("h", version="1", key="h-x"), node("h", version="1", key="h-y"), node("b", key="b-1"), node("b", version="2", key="b-2"),
            node("h", ["b-1"], key="h-z"), node("l", kind="local"), node("near", ["l-1"]), node("w", component="package"),
            node("m", ["w-1", "h-z"], "local", "exe:m"),
        ]  # fmt: skip
        choices = [("h", "1 source"), ("h:f", "on"), ("m:setup.h", "1 source"), ("m:setup.h:f", "off"), ("b", "1 source"), ("m:setup.b", "2 source"),
                   ("m", "1 local"), ("m:w:exe.w", "1 source"), ("l", "1 local"), ("near", "1 source")]  # fmt: skip
        status, out, err = self.called("json", "--from", self.answer("plan", plan(nodes, choices)))
        units = {it["id"]: it for it in json.loads(out)["install-plan"]}
        self.assertEqual((0, "inplace"), (status, units["near-1"]["style"]))
        self.assertEqual({"f": True}, units["h-z"]["flags"])
        self.assertNotIn("flags", units["h-x"])
        self.assertIn("without flags, since they are chosen more than once with other ones: h-1, h-1", err)
        self.assertEqual((["h-z"], ["w-1"]), (units["m-1"]["depends"], units["m-1"]["exe-depends"]))
        self.assertNotIn("component-name", units["w-1"])

    def test_without_a_plan(self):
        self.is_refused(self.called("json", "--from", self.answer("x", {"status": "no plan", "conflict": ["a"]})), "no plan: conflict a", status=1)


class Units(Room):
    """The comparison with cabal's own file, which `bench/against-cabal` makes."""

    OURS = {"compiler-id": "ghc-9.0.2", "os": "linux", "arch": "x86_64", "install-plan": [
        {"type": "pre-existing", "id": "base-4", "pkg-name": "base", "pkg-version": "4", "depends": []},
        {"type": "configured", "style": "global", "id": "a-1-x", "pkg-name": "a", "pkg-version": "1", "flags": {"f": True},
         "depends": ["base-4"], "exe-depends": [], "component-name": "lib"},
        {"type": "configured", "style": "local", "id": "m", "pkg-name": "m", "pkg-version": "1", "flags": {},
         "depends": ["a-1-x", "base-4"], "exe-depends": []},
    ]}  # fmt: skip
    CALL = "import json, sys; from beside import units; print(units.difference(*json.load(sys.stdin)))"

    def difference(self, change):
        """Returns the difference from this file to one that is changed as a text."""
        theirs = json.loads(change(json.dumps({**self.OURS, "cabal-version": "3.4.1.0"})))
        call = [sys.executable, "-B", "-c", self.CALL]
        ran = subprocess.run(call, cwd=f"{TOP}/bench", input=json.dumps([self.OURS, theirs]), stdout=subprocess.PIPE, text=True, check=True)
        return ran.stdout.strip()

    def test_what_counts_as_the_same(self):
        self.assertEqual("", self.difference(lambda it: it.replace("a-1-x", "a-1-0123")))
        whole = '"components": {"lib": {"depends": ["a-1-x"], "exe-depends": []}, "setup": {"depends": ["base-4"]}}'
        self.assertEqual("", self.difference(lambda it: it.replace('"depends": ["a-1-x", "base-4"], "exe-depends": []', whole)))
        for one, other in (("true", "false"), ('["a-1-x", "base-4"]', '["a-1-x"]'), ("global", "inplace"), ("x86_64", "arm")):
            self.assertNotEqual("", self.difference(lambda it, one=one, other=other: it.replace(one, other)), one)


class Refusals(Plans):
    def test_a_program_that_is_missing_or_fails(self):
        self.is_refused(self.called("tree", "--program=/nowhere", WORDS[1]), "/nowhere can't be run")
        other = self.script("other", "#!/bin/sh\necho '{}'\n")
        self.is_refused(self.called("tree", f"--program={other}", WORDS[1]), "the program prints something else: it has no status")
        self.is_refused(self.called("tree", f"--program={self.script('fails', '#!/bin/sh' + chr(10) + 'exit 6')}", WORDS[1]), "status 6", status=6)

    def test_a_refusal_is_one_line(self):
        with self.assertRaises(Refusal):
            answers.object_of(b"{", "x")
