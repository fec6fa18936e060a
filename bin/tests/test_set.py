"""`cabal-plan set`: cells, results that outlast a kill, changes, bounds, and the forms of the answer."""

import csv
import io
import json
import os
import random
import resource
import shutil
import subprocess
import sys
import time
import unittest.mock
import xml.dom.minidom

from tests.rooms import HEEDED, TOP, Room, signal
from tests.sets import PACKAGE, PROGRAM, SET, Set
from tool import files
from tool.refusal import Refusal
from tool.set import bounds, command, form, run, stock
from tool.why.ranges import admits

CELLS = 32


class Cells(Set):
    """What is asked, and what the cells are."""

    def test_each_cell_is_a_run_of_the_program(self):
        self.set(status=1)
        records = self.records()
        self.assertEqual(CELLS, len(records))
        for (target, compiler, setting), record in records.items():
            where = f"{self.room}/by-hand/{target}-{compiler}-{setting}"
            shutil.copytree(f"{self.s}/packages", f"{where}/index")
            shutil.copytree(f"{self.s}/{compiler}", f"{where}/installed")
            source = f"{self.s}/app/app.cabal" if target == "app" else f"{self.s}/packages/{record['name']}/{record['version']}/{record['name']}.cabal"
            shutil.copy(source, where)
            shutil.rmtree(f"{where}/index/{record['name']}", ignore_errors=True)
            if setting == "oldest":
                self.write(f"by-hand/{target}-{compiler}-{setting}/cabal.project.local", "prefer-oldest: True\n")
            ran = self.run_script([PROGRAM, "plan", f"--compiler=ghc-{'9.4.7' if compiler == 'old' else '9.6.3'}"], where=where)
            self.assertEqual((ran.returncode, ran.out, ran.err), (record["status"], record["output"], record["error"]), target)

    def test_verdicts_and_reasons(self):
        out = self.set(status=1).out
        found = {key: record["verdict"] for key, record in self.records().items()}
        self.assertEqual("no plan", found["bytes-1.0", "new", "newest"])
        self.assertEqual("plan", found["bytes-1.0", "old", "newest"])
        self.assertIn("Because bytes 1.0 depends on base <4.18 (bytes.cabal:5)", out)
        self.assertIn("32 cells: 26 plan, 6 no plan; 6 wanted without a plan", out)
        reason = self.records()["bytes-1.0", "new", "newest"]["reason"]
        self.assertTrue(reason.startswith("no plan: base and bytes can't be chosen together\n"), reason)

    def test_the_reason_is_that_of_why(self):
        self.set(status=1)
        record = self.records()["json-1.5", "new", "newest"]
        self.write("w/json.cabal", PACKAGE.format("json", "1.5", "base, text <2"))
        self.link("w/index", f"{self.s}/packages")
        self.link("w/installed", f"{self.s}/new")
        words = [f"{TOP}/bin/cabal-plan", "why", f"--program={PROGRAM}", "--no-changes", "--compiler=ghc-9.6.3"]
        self.assertEqual(self.run_script(words, where=f"{self.room}/w").out, record["reason"])

    def test_one_cell_by_hand(self):
        self.set(status=1)
        record = self.records()["json-1.5", "new", "newest"]
        ran = self.run_script([f"{TOP}/bin/cabal-plan", *record["words"][1:], f"--program={PROGRAM}"], where=self.s)
        self.assertEqual((record["status"], record["output"]), (ran.returncode, ran.out))
        self.is_failure(self.set("--cell=nothing old newest"), "there is no cell nothing old newest")

    def test_targets(self):
        self.write("s/names.txt", "# names\njson\ntext-1.2\n\n")
        for entry, expected in (
            ('package = "json"', {"json"}), ('package = "json-1.5"', {"json-1.5"}), ('pattern = "*t*"', {"bytes", "text"}),
            ('list = "names.txt"', {"json", "text-1.2"}), ("all = true", {"alone", "bytes", "json", "text"}),
            ('package = "text"\nversions = ["2.0"]', {"text-2.0"}),
        ):  # fmt: skip
            self.write("s/set.toml", SET.replace("all = true\nversions = \"each\"", entry))
            shutil.rmtree(f"{self.s}/set.results", ignore_errors=True)
            self.set()
            self.assertEqual(expected | {"app"}, {target for target, _, _ in self.records()})

    def test_pairs_and_what_is_wanted(self):
        self.write("s/set.toml", 'pairs = [["new", "newest"]]\n' + SET.replace("all = true", 'pattern = "b*"\nwanted = false'))
        self.set(status=0)
        self.assertEqual({("app", True), ("bytes-1.0", False), ("bytes-2.0", False)}, {(it["target"], it["wanted"]) for it in self.records().values()})

    def test_settings(self):
        lines = 'constraints = ["json <2"]\nallow-newer = ["json:text"]\nflags = ["text +fast"]\nmax-backjumps = 7\ncount-conflicts = true\n'
        self.write("s/set.toml", SET.replace("[settings.oldest]\nprefer-oldest = true", f"[settings.other]\n{lines}").replace("all = true", 'pattern = "b*"'))
        self.write("s/app/cabal.project", "packages: .\n")
        self.write("s/app/cabal.project.local", "constraints: text >=2")
        self.set(status=1)
        found = self.records()
        self.assertIn("choose json 2.0 source", found["app", "old", "newest"]["output"])
        self.assertIn("choose json 1.5 source\nchoose text 2.0 source", found["app", "old", "other"]["output"])

    def test_too_many_files(self):
        """What only test suites of the index mention is left out where all would be too much."""
        text = PACKAGE.format("json", "2.0", "base, text >=2") + "test-suite t\n  type: exitcode-stdio-1.0\n  main-is: T.hs\n  build-depends: alone\n"
        self.write("s/packages/json/2.0/json.cabal", text)
        source = form_index(self.s)
        with files.new_room("set-") as room:
            there = stock.Stock(source, room, None, False)
            compiler = stock.Compiler(form.read(self.file).compilers[0], 0, form.read(self.file), room, print)
            all_of = stock.Reach(there, compiler, {"json"}, {"app"})
            before, stock.MOST_FILES = stock.MOST_FILES, 7
            try:
                lean = stock.Reach(there, compiler, {"json"}, {"app"})
            finally:
                stock.MOST_FILES = before
        self.assertEqual((False, True), (all_of.is_lean, lean.is_lean))
        self.assertEqual({"alone"}, all_of.names - lean.names)

    def test_links_to_what_is_reached(self):
        """Where all would be too much, a cell has links to the names that it reaches alone, and the same answer."""
        self.set(status=1)
        whole = self.records()
        of = command.words_of([self.file, f"--program={PROGRAM}"])
        with files.new_room("set-") as room, unittest.mock.patch.object(stock, "MOST_FILES", 1):
            cells = command.prepared(of, form.read(self.file), room)
            runner = run.Runner(room, "here")
            for cell in cells.all():
                task = cells.task(cell)
                record = runner.record(task)
                there = os.listdir(f"{runner.folder(task)}/index") if task["index"] else []
                self.assertEqual((task["index"] or [], False), (sorted(there), cell.target.package in there))
                same = whole[cell.target.called, cell.compiler.name, cell.setting.name]
                self.assertEqual([same[it] for it in ("status", "output", "reason")], [record[it] for it in ("status", "output", "reason")])
            runner.close()
            self.assertEqual([], os.listdir(f"{room}/work/here"))


def form_index(folder):
    from tool.folder.index import Folder

    found = Folder(f"{folder}/packages")
    found.open()
    return found


class Resumed(Set):
    """Results outlast the end of a run, and no cell runs twice."""

    def test_nothing_runs_twice(self):
        program = self.counting()
        self.run_script(self.words(program=program), where=self.s)
        self.assertEqual(CELLS + 6, self.runs())
        before = self.lines()
        ran = self.run_script(self.words(program=program), where=self.s)
        self.assertEqual((1, 0, before), (ran.returncode, self.runs(), self.lines()))

    def test_a_change_runs_the_changed_cells_alone(self):
        program = self.counting()
        self.run_script(self.words(program=program), where=self.s)
        self.runs()
        self.package("alone", "2", "base")
        self.run_script(self.words(program=program), where=self.s)
        self.assertEqual(4, self.runs(), "nothing else reaches `alone`, and its own versions don't see each other")
        self.package("bytes", "2.0", "base  ")
        self.run_script(self.words(program=program), where=self.s)
        self.assertEqual(24 + 4, self.runs(), "bytes-2.0, the project, text and json, and the conflicts among these")

    def test_another_program_runs_all(self):
        self.set(status=1)
        program = self.counting()
        self.run_script(self.words(program=program), where=self.s)
        self.assertEqual(CELLS + 6, self.runs())

    def test_a_torn_line(self):
        self.set(status=1)
        whole = self.records()
        with open(f"{self.s}/set.results/cells.jsonl", "r+b") as file:
            file.truncate(os.path.getsize(file.name) - 10)
        self.set(status=1)
        self.assertEqual(whole, self.records())

    def test_other_lines(self):
        self.set(status=1)
        with open(f"{self.s}/set.results/cells.jsonl", "ab") as file:
            file.write(b"something\n")
        self.is_failure(self.set(), f"cells.jsonl:{CELLS + 1}: this is no result of a cell")

    def test_a_failed_cell_runs_again(self):
        program = self.script("failing", f'#!/bin/sh\n[ -e {self.room}/well ] || exit 6\nexec {PROGRAM} "$@"\n')
        ran = self.run_script(self.words("--format=csv", program=program), where=self.s)
        self.assertEqual((1, CELLS), (ran.returncode, ran.out.count(",failed,")))
        self.write("well", "")
        ran = self.run_script(self.words("--format=csv", program=program), where=self.s)
        self.assertEqual(0, ran.out.count(",failed,"))

    def test_a_full_disk(self):
        self.set(status=1)
        whole = self.records()
        shutil.rmtree(f"{self.s}/set.results")
        limit = lambda: resource.setrlimit(resource.RLIMIT_FSIZE, (7000, 7000))
        with open(PROGRAM, "rb") as file:
            size = len(file.read())
        small = lambda: resource.setrlimit(resource.RLIMIT_FSIZE, (size + 1, size + 1))
        self.is_failure(self.set(preexec_fn=limit), "can't be read or written")
        self.write("s/set.results/cells.jsonl", "")
        self.set(preexec_fn=small, status=1)
        self.assertEqual(whole, self.records())

    def test_a_worker_that_is_killed(self):
        program = self.script("killing", f'#!/bin/sh\n[ -e {self.room}/well ] || kill -9 $PPID\nexec {PROGRAM} "$@"\n')
        ran = self.run_script(self.words(program=program), where=self.s)
        self.is_failure(ran, "a worker ended with status 137; what was made before stays")
        self.write("well", "")
        self.assertEqual(1, self.run_script(self.words(program=program), where=self.s).returncode)
        self.assertEqual(CELLS, len(self.records()))

    def test_two_runs(self):
        with files_open(f"{self.s}/set.results"):
            self.is_failure(self.set(), "another run writes")

    def test_killed_at_random_moments(self):
        self.set(status=1)
        whole = self.records()
        shutil.rmtree(f"{self.s}/set.results")
        # (so slow that each of the ten runs is killed before its end; the program is in the key, so all but that is compared)
        slow = self.script("slow", f'#!/bin/sh\nsleep 0.3\nexec {PROGRAM} "$@"\n')
        draw = random.Random(75)
        for _ in range(10):
            with subprocess.Popen(self.words(program=slow), cwd=self.s, env=self.environment(), stdout=subprocess.DEVNULL, stderr=subprocess.DEVNULL) as ran:
                time.sleep(draw.uniform(0.2, 1.0))
                self.assertIsNone(ran.poll())
                ran.kill()
        self.run_script(self.words(program=slow), where=self.s)
        # (a worker of a killed run may have written into its room while that was removed: the next run removes the rest)
        self.run_script(self.words(program=slow), where=self.s)
        plain = lambda found: {cell: {key: value for key, value in it.items() if key != "key"} for cell, it in found.items()}
        self.assertEqual(plain(whole), plain(self.records()))
        self.assertEqual(["cells.jsonl"], os.listdir(f"{self.s}/set.results"))

    def test_signals(self):
        slow = self.script("slow", f'#!/bin/sh\nsleep 0.2\nexec {PROGRAM} "$@"\n')
        for number in (signal.SIGINT, signal.SIGTERM):
            with subprocess.Popen([*HEEDED, *self.words(program=slow)], cwd=self.s, env=self.environment(), stdout=subprocess.PIPE, stderr=subprocess.PIPE) as ran:
                self.wait_for(2)  # (a signal may take back the line that is written just then)
                ran.send_signal(number)
                _, err = ran.communicate()
            self.assertEqual((128 + number, ["cells.jsonl"]), (ran.returncode, os.listdir(f"{self.s}/set.results")), err)
            self.assertEqual(1, err.count(b"\n"), err)
            self.assertTrue(self.records())
            shutil.rmtree(f"{self.s}/set.results")


def files_open(folder):
    import contextlib

    os.makedirs(folder)
    return contextlib.closing(files.Lines(f"{folder}/cells.jsonl"))


class Changes(Set):
    """What is new since an earlier run."""

    def test_kinds(self):
        self.write("s/set.toml", SET.replace("versions = \"each\"", ""))
        self.set("--results=old.results", status=0)
        self.package("text", "2.1", "base, bytes <2")
        self.package("bytes", "1.0", "base <4.17")
        self.package("more", "1", "base")
        out = self.set("--against=old.results", "--format=csv", status=1).out
        found = {(it["target"], it["compiler"], it["setting"]): it["changed"] for it in csv.DictReader(io.StringIO(out))}
        self.assertEqual("new", found["more", "old", "newest"])
        self.assertEqual("broken", found["text", "old", "newest"])
        self.assertEqual("", found["alone", "old", "newest"])
        self.package("text", "2.1", "base, bytes")
        out = self.set("--against=set.results", "--results=third", "--format=csv", status=0).out
        found = {(it["target"], it["compiler"], it["setting"]): it["changed"] for it in csv.DictReader(io.StringIO(out))}
        self.assertEqual(("mended", "other versions"), (found["text", "old", "newest"], found["app", "old", "newest"]))

    def test_the_text_names_them(self):
        self.set("--results=old.results", status=1)
        self.package("json", "2.0", "base >=5")
        self.package("json", "1.5", "base >=5")
        out = self.set("--against=old.results", status=1).out
        self.assertIn("no plan   app  old  newest  broken\n    no plan: ", out)
        self.assertIn("10 broken", out)

    def test_an_earlier_run_that_is_not_there(self):
        self.is_failure(self.set("--against=nothing"), "nothing can't be read")


class Bounds(Set):
    """The ranges of dependencies that plan."""

    def test_a_table(self):
        self.write("s/set.toml", SET.replace('project = "app"', 'project = "app"\nbounds = true').replace("all = true", 'package = "alone"'))
        out = self.set(status=0).out
        self.assertIn("bounds of app with old newest", out)
        self.assertIn("build-depends:\n    base >=4.17 && <4.18,\n    json >=1.5 && <2.1\n", out)
        self.assertIn("    base >=4.18 && <4.19,\n    json >=2.0 && <2.1  -- 1.5 no plan\n", out)
        found = json.loads(self.set("--format=json", status=0).out)
        self.assertEqual({"1.5": "no plan", "2.0": "plan"}, found["bounds"][2]["bounds"][1]["versions"])

    def test_own_bounds_are_put_aside(self):
        self.write("s/app/app.cabal", PACKAGE.format("app", "0.1", "base, json >=2 && <2.0"))
        self.write("s/set.toml", SET.replace('project = "app"', 'project = "app"\nbounds = true\nwanted = false').replace("all = true", 'package = "alone"'))
        self.assertIn("    json >=1.5 && <2.1\n", self.set(status=0).out)

    def test_ranges_have_exactly_the_versions_that_plan(self):
        draw = random.Random(1)
        for _ in range(300):
            versions = [f"{major}.{minor}" for major in range(3) for minor in range(4)]
            told = [(it, draw.choice(("plan", "no plan", bounds.UNUSED))) for it in versions]
            text = bounds.ranges(told)
            for version, verdict in told:
                self.assertEqual(verdict == "plan", bool(text) and admits(text, version), (text, version))


class Forms(Set):
    """The forms of the answer."""

    def test_json_csv_junit(self):
        found = json.loads(self.set("--format=json", status=1).out)
        self.assertEqual((CELLS, {"no plan": 6, "plan": 26}), (len(found["cells"]), found["verdicts"]))
        rows = list(csv.DictReader(io.StringIO(self.set("--format=csv", status=1).out)))
        self.assertEqual((CELLS, 6), (len(rows), sum(it["verdict"] == "no plan" for it in rows)))
        cases = xml.dom.minidom.parseString(self.set("--format=junit", status=1).out)
        self.assertEqual((CELLS, 6), (len(cases.getElementsByTagName("testcase")), len(cases.getElementsByTagName("failure"))))

    def test_odd_names(self):
        odd = "a<&\"'\u202e"
        shutil.copytree(f"{self.s}/app", f"{self.s}/{odd}")
        self.write("s/set.toml", SET.replace('project = "app"', f"project = '''{odd}'''"))
        self.assertNotIn("\u202e", self.set(status=1).out)
        cases = xml.dom.minidom.parseString(self.set("--format=junit", status=1).out)
        self.assertEqual(odd, cases.getElementsByTagName("testcase")[0].getAttribute("classname"))


class Files(Set):
    """Files that are refused, each with its place."""

    def is_refused(self, text, *words):
        self.write("s/set.toml", text)
        self.is_failure(self.set(), "set.toml", *words)

    def test_refusals(self):
        self.is_refused("targets = [\n", "set.toml")
        self.is_refused("a = 1\nb = = 2\n", "set.toml:2:")
        self.is_refused(SET + "[setings.x]\n", "has no key setings: did you mean settings?")
        self.is_refused(SET.replace('project = "app"', 'project = "app"\nversion = "1"'), "targets[1]: has no key version")
        self.is_refused(SET.replace('project = "app"', 'project = 7'), "targets[1]: project takes a text")
        self.is_refused(SET.replace('project = "app"', ""), "targets[1]: takes one of project, package")
        self.is_refused(SET.replace('project = "app"', 'package = "jsn"'), "the index has no package jsn: did you mean json?")
        self.is_refused(SET.replace('project = "app"', 'package = "json-9"'), "the index has no json 9")
        self.is_refused(SET.replace('project = "app"', 'project = "ap"'), "there is no folder ap")
        self.is_refused(SET.replace('["--compiler=ghc-9.4.7"]', '["--index=other", "--compiler=ghc-9.4.7"]'), "compilers.old: words: --index=other")
        self.is_refused(SET.replace('["--compiler=ghc-9.4.7"]', "[]"), "no --compiler=NAME-VERSION")
        self.is_refused(SET.replace("prefer-oldest = true", 'constraints = ["a\\nb"]'), "settings.oldest: constraints takes a list of texts")
        self.is_refused('pairs = [["old", "x"]]\n' + SET, "pairs: there is no setting x")
        self.is_refused(SET.replace('records = "old"', 'records = "nowhere"'), "compilers.old: records")
        self.is_refused(SET.replace("[settings.newest]", '[settings."new est"]'), "a name has letters")

    def test_without_toml(self):
        held = {it: sys.modules.get(it) for it in ("tomllib", "tomli")}
        sys.modules.update(dict.fromkeys(held))
        try:
            with self.assertRaisesRegex(Refusal, "reading .*set.toml needs Python 3.11, or the package python3-tomli"):
                form.read(self.file)
        finally:
            for name, module in held.items():
                sys.modules.pop(name)
                if module:
                    sys.modules[name] = module

    def test_wrong_words(self):
        self.assertEqual(64, self.set("--engine=dask").returncode)
        self.assertEqual(64, self.set("--jobs=0").returncode)


class Example(Room):
    """The example, from a fresh clone."""

    def test_it_plans_within_ten_seconds(self):
        # (by the clock, or by the processor's seconds where others have the processors)
        is_free = os.getloadavg()[0] < len(os.sched_getaffinity(0))
        seconds = time.monotonic if is_free else lambda: sum(resource.getrusage(resource.RUSAGE_CHILDREN)[:2])
        begun = seconds()
        ran = self.run_script([f"{TOP}/bin/cabal-plan", "set", f"--program={PROGRAM}", f"--results={self.room}/r", f"{TOP}/examples/set/set.toml"])
        self.assertLess(seconds() - begun, 10)
        self.assertEqual(1, ran.returncode, ran.err)
        with open(f"{TOP}/docs/SETS.md", encoding="utf-8") as page:
            shown = page.read().split("```")[1].strip().split("\n")[1:]
        self.assertEqual([], [it for it in shown if it != "..." and f"{it}\n" not in ran.out])

    def test_its_page(self):
        words = [f"{TOP}/bin/cabal-plan", "set", f"--program={PROGRAM}", f"--results={self.room}/r", f"{TOP}/examples/set/set.toml"]
        for _ in range(2):
            self.assertEqual(1, self.run_script([*words, f"--html={self.room}/page"]).returncode)
        self.assertEqual({"app.html", "bytes.html", "json.html", "store.html", "text.html"}, set(os.listdir(f"{self.room}/page/packages")))
        self.write("other/mine.txt", "not to be lost\n")
        self.is_failure(self.run_script([*words, f"--html={self.room}/other"]), "hasn't made it")
