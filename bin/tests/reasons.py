"""A small project with an index and records, to try `why` and `lint` on."""

import contextlib
import io
import os

from tests.rooms import TOP, Room
from tool import front

MAIN = """cabal-version: 2.4
name: main
version: 1

library
  exposed-modules: Main
  build-depends: base >=4.14,
    text,
    aeson
"""
PACKAGE = """cabal-version: 2.4
name: {0}
version: {1}
flag fast
  default: False
library
  build-depends: {2}
"""
TOOL = "cabal-version: 2.4\nname: happy\nversion: 1.20\nexecutable happy\n  build-depends: base\n"
PROGRAM = f"--program={TOP}/dist/cabal-plan"
COMPILER = "--compiler=ghc-9.0.2"


class Project(Room):
    """A test over a project: `p` is its folder, which has a plan."""

    def setUp(self):
        super().setUp()
        self.p = f"{self.room}/p"
        self.put("main.cabal", MAIN)
        self.put("installed/base-4.15.conf", "name: base\nversion: 4.15\nid: base-4.15\n")
        for name, version, needs in (
            ("text", "1.2", "base"),
            ("text", "2.0", "base"),
            ("aeson", "1.5", "base, text"),
            ("aeson", "2.0", "base, text"),
            ("split", "0.2.3", "base"),
        ):
            self.package(name, version, needs)
        self.put("index/happy/1.20/happy.cabal", TOOL)

    def put(self, path, content):
        return self.write(f"p/{path}", content)

    def package(self, name, version, needs):
        """Writes a package of the index."""
        return self.put(f"index/{name}/{version}/{name}.cabal", PACKAGE.format(name, version, needs))

    def change(self, path, old, new):
        """Changes the text of a file."""
        with open(f"{self.p}/{path}", encoding="utf-8") as file:
            text = file.read()
        self.assertIn(old, text)
        self.put(path, text.replace(old, new))

    def tool(self, word, *words):
        """Runs a word of the tool in the project, in this process, and returns its status, output and errors."""
        out, err, before = io.StringIO(), io.StringIO(), os.getcwd()
        os.chdir(self.p)
        try:
            with contextlib.redirect_stdout(out), contextlib.redirect_stderr(err):
                try:
                    status = front.main([word, PROGRAM, *words])
                except SystemExit as end:
                    status = end.code
        finally:
            os.chdir(before)
        return status, out.getvalue(), err.getvalue()

    def says(self, status, word, told, *words):
        """Runs a word of the tool, and checks its status and that its output and errors have these texts."""
        before = self.listing()
        found, out, err = self.tool(word, *words)
        self.assertEqual(status, found, (out + err)[:3000])
        for text in told:
            self.assertTrue(text in out + err, f"{text!r} isn't in: {(out + err)[:3000]}")
        self.assertEqual(before, self.listing())
        return out

    def listing(self):
        from tests.rooms import listing

        return listing(self.p)


__all__ = ["COMPILER", "MAIN", "PACKAGE", "PROGRAM", "Project"]
