"""`cabal-plan set` over an index with older headers, with a stand-in for `modern-headers`."""

from tests.rooms import REWRITER
from tests.sets import SET, Set

OLD = "cabal-version: >=1.10\nname: {0}\nversion: {1}\nlibrary\n  build-depends: base\n"


class Older(Set):
    """An index with older headers."""

    def setUp(self):
        super().setUp()
        self.write("s/set.toml", "older-headers = true\n" + SET)
        self.modern = self.script("modern", REWRITER)

    def test_an_index_with_older_headers(self):
        self.write("s/packages/json/2.0/json.cabal", OLD.format("json", "2.0"))
        self.write("s/packages/odd/1/odd.cabal", OLD.format("odd", "1") + "-- {\n")
        self.write("s/app/app.cabal", OLD.format("app", "0.1").replace("base", "base, json"))
        ran = self.set(f"--modern-headers={self.modern}", status=1)
        self.assertIn("8 files of the index, 1 refused, 1 rewritten, 6 unchanged", ran.err)
        found = self.records()
        self.assertIn("choose json 2.0 source", found["app", "new", "newest"]["output"])
        self.assertEqual(("plan", "refused"), (found["json-2.0", "old", "newest"]["verdict"], found["odd-1", "old", "newest"]["verdict"]))

    def test_a_project_that_is_refused(self):
        self.write("s/app/app.cabal", OLD.format("app", "0.1") + "-- {\n")
        self.is_failure(self.set(f"--modern-headers={self.modern}"), "app.cabal:6: UnclosedBrace: the file can't be rewritten")

    def test_a_program_that_fails(self):
        for commands, told in (("exit 4", "ends with status 4 after 0 of 7 files"), ("kill -9 $$", "ends with status 137"), ("echo hello", "it isn't the frame of")):
            program = self.script("wrong", f"#!/bin/sh\n{commands}\n")
            self.is_failure(self.set(f"--modern-headers={program}"), told)
