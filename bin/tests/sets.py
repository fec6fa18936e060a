"""A small set to try `cabal-plan set` on: a project, an index and the records of two compilers."""

import json
import os
import time

from tests.rooms import TOP, Room

PROGRAM = f"{TOP}/dist/cabal-plan"
PACKAGE = "cabal-version: 2.4\nname: {0}\nversion: {1}\nlibrary\n  build-depends: {2}\n"
RECORD = "name: {0}\nversion: {1}\nid: {0}-{1}\n"
PACKAGES = (
    ("bytes", "1.0", "base <4.18"), ("bytes", "2.0", "base"), ("text", "1.2", "base, bytes <2"), ("text", "2.0", "base, bytes"),
    ("json", "1.5", "base, text <2"), ("json", "2.0", "base, text >=2"), ("alone", "1", "base"),
)  # fmt: skip
SET = """index = "packages"
[[targets]]
project = "app"
[[targets]]
all = true
versions = "each"
[compilers.old]
records = "old"
words = ["--compiler=ghc-9.4.7"]
[compilers.new]
records = "new"
words = ["--compiler=ghc-9.6.3"]
[settings.newest]
[settings.oldest]
prefer-oldest = true
"""


class Set(Room):
    """A test over a set: `s` is its folder."""

    def setUp(self):
        super().setUp()
        self.s = f"{self.room}/s"
        for name, version, needs in PACKAGES:
            self.package(name, version, needs)
        self.write("s/app/app.cabal", PACKAGE.format("app", "0.1", "base, json"))
        self.write("s/old/base.conf", RECORD.format("base", "4.17"))
        self.write("s/new/base.conf", RECORD.format("base", "4.18"))
        self.file = self.write("s/set.toml", SET)

    def package(self, name, version, needs):
        return self.write(f"s/packages/{name}/{version}/{name}.cabal", PACKAGE.format(name, version, needs))

    def words(self, *words, program=PROGRAM):
        return [f"{TOP}/bin/cabal-plan", "set", f"--program={program}", "--jobs=2", self.file, *words]

    def set(self, *words, status=None, **how):
        """Runs the set, and checks the status."""
        ran = self.run_script(self.words(*words), where=self.s, **how)
        if status is not None:
            self.assertEqual(status, ran.returncode, ran.out + ran.err)
        return ran

    def lines(self, folder="s/set.results"):
        """Returns the lines of the results."""
        with open(f"{self.room}/{folder}/cells.jsonl", "rb") as file:
            return file.read().splitlines(keepends=True)

    def records(self, folder="s/set.results"):
        """Returns the records by their cells, without the times. Each cell is there once."""
        found = {}
        for line in self.lines(folder):
            record = json.loads(line)
            del record["seconds"]
            of = record["target"], record["compiler"], record["setting"]
            self.assertNotIn(of, found)
            found[of] = record
        return found

    def counting(self):
        """Returns a program that notes each of its runs."""
        return self.script("counting", f'#!/bin/sh\necho run >>{self.room}/runs\nexec {PROGRAM} "$@"\n')

    def runs(self):
        """Returns how often the counting program has run since it was last asked."""
        path = f"{self.room}/runs"
        if not os.path.exists(path):
            return 0
        with open(path, encoding="utf-8") as file:
            found = len(file.readlines())
        os.remove(path)
        return found

    def wait_for(self, cells):
        """Waits until so many cells are done."""
        path, end = f"{self.s}/set.results/cells.jsonl", time.monotonic() + 200
        while time.monotonic() < end:
            if os.path.exists(path) and len(self.lines()) >= cells:
                return
            time.sleep(0.02)
        self.fail("no cell is done")


__all__ = ["PACKAGE", "PROGRAM", "RECORD", "SET", "Set"]
