"""Folders for tests: a project with files beside it, a compiler that is a script, and the list of all files before and after."""

import hashlib
import os
import shutil
import signal
import stat
import subprocess
import tempfile
import unittest

TOP = os.path.dirname(os.path.dirname(os.path.dirname(os.path.realpath(__file__))))
CABAL = "cabal-version: 2.4\nname: main\nversion: 1\nlibrary\n  build-depends: base, a\n"
PACKAGE = "cabal-version: 2.4\nname: {}\nversion: {}\nlibrary\n  build-depends: base\n"
RECORD = "name: {0}\nversion: {1}\nid: {0}-{1}\nkey: {0}-{1}\n"
GHC = """#!/bin/sh
echo "$0 $*" >>{log}
case "$1" in
--numeric-version) echo 9.0.2 ;;
--info) echo '[("Target platform","x86_64-unknown-linux"),("Global Package DB","{database}")]' ;;
esac
"""
# A stand-in for `modern-headers`: it puts a header of 2.4 in front of files with another one, and refuses braces.
REWRITER = """#!/usr/bin/env -S python3 -EsS
import sys
out = sys.stdout.buffer
for path in (it for name in sys.argv[1:] for it in open(name, "rb").read().split(b"\\n")[:-1]):
    data = open(path, "rb").read(1048577)
    if data.startswith((b"cabal-version: 2.4", b"cabal-version: 3.")):
        out.write(b"unchanged " + path + b"\\n")
    elif len(data) > 1048576:
        out.write(b"refused " + path + b" TooLarge\\n")
    elif b"{" in data:
        out.write(b"refused %b:%d UnclosedBrace\\n" % (path, data[: data.index(b"{")].count(b"\\n") + 1))
    else:
        text = b"cabal-version: 2.4\\n" + b"\\n".join(it for it in data.split(b"\\n") if not it.startswith(b"cabal-version"))
        changes = b"change header\\n" + b"change build-tools 7\\n" * (b"build-tools" in data)
        out.write(b"rewritten " + path + b"\\n" + changes + b"bytes %d\\n" % len(text) + text + b"\\n")
"""
# A script that tells that it was run, as a stranger's would do worse.
EVIL = "#!/bin/sh\ntouch {}\n"
SECONDS = 60
# A script heeds only signals that its caller doesn't ignore, as one in the background or under `nohup` does.
HEEDED = ["env", "--default-signal=INT,HUP,TERM"]


def listing(folder):
    """Returns all that is below a folder: the kind of each file, with its content or where it leads."""
    found = {}
    for at, folders, names in os.walk(folder):
        for name in [*folders, *names]:
            path = os.path.join(at, name)
            mode = os.lstat(path).st_mode
            if stat.S_ISLNK(mode):
                what = ("link", os.readlink(path))
            elif stat.S_ISREG(mode):
                with open(path, "rb") as file:
                    what = ("file", hashlib.sha256(file.read()).hexdigest())
            else:
                what = (stat.S_IFMT(mode), "")
            found[os.path.relpath(path, folder)] = what
    return found


class Room(unittest.TestCase):
    """A test in a folder of its own: `room` has the folder `home`, and `project` is a folder in it, with files beside it."""

    def setUp(self):
        self.room = os.path.realpath(tempfile.mkdtemp(prefix="scripts-"))
        self.addCleanup(shutil.rmtree, self.room, ignore_errors=True)
        self.project, self.home, self.log = f"{self.room}/src/project", f"{self.room}/home", f"{self.room}/asked"
        self.write("src/project/main.cabal", CABAL)
        self.write("src/project/.git/HEAD", "ref: refs/heads/main\n")
        self.write("src/beside/precious.txt", "not to be lost\n")
        self.write("src/precious.txt", "nor this\n")
        self.write("home/.keep", "")
        for version in ("1", "2"):
            self.write(f"packages/a/{version}/a.cabal", PACKAGE.format("a", version))
        self.write("db/base-4.15.conf", RECORD.format("base", "4.15"))
        self.ghc = self.script("bin/ghc", GHC.format(log=self.log, database=f"{self.room}/db"))

    def write(self, path, content):
        """Writes a file of the room, and returns its path."""
        whole = f"{self.room}/{path}"
        os.makedirs(os.path.dirname(whole), exist_ok=True)
        with open(whole, "wb") as file:
            file.write(content if isinstance(content, bytes) else content.encode())
        return whole

    def script(self, path, content):
        """Writes a program of the room, and returns its path."""
        whole = self.write(path, content)
        os.chmod(whole, 0o755)
        return whole

    def link(self, path, target):
        os.symlink(target, f"{self.room}/{path}")

    def environment(self, **more):
        of = {"PATH": f"{self.room}/bin:/usr/bin:/bin", "HOME": self.home, "LC_ALL": "C.UTF-8", **more}
        return {key: value for key, value in of.items() if value is not None}

    def run_script(self, words, where=None, environment=None, **how):
        """Runs a program, and returns it when it has ended. It may not wait for ever."""
        given = {"stdin": subprocess.DEVNULL, "stdout": subprocess.PIPE, "stderr": subprocess.PIPE, **how}
        ran = subprocess.run(words, cwd=where or self.project, env=environment or self.environment(), timeout=SECONDS, check=False, **given)
        ran.out, ran.err = (it.decode("utf-8", "replace") if it is not None else "" for it in (ran.stdout, ran.stderr))
        return ran

    def programs(self, planner=None, rewriter=None):
        """Returns the words that name a planner and a rewriter; else they are stand-ins."""
        planner = planner or self.script("planner", "#!/bin/sh\necho plan\n")
        return [f"--program={planner}", f"--modern-headers={rewriter or self.script('rewriter', REWRITER)}"]

    def folder(self, *words, program=None, rewriter=None, **how):
        """Runs `cabal-plan folder` in the project, with the index and the programs of the room."""
        return self.run_script([f"{TOP}/bin/cabal-plan", "folder", f"--index={self.room}/packages", *self.programs(program, rewriter), *words], **how)

    def is_untouched(self, before, besides=()):
        """Checks that all files of the room are as they were, except those at or below these paths."""
        after = listing(self.room)
        for found in (before, after):
            for path in [it for it in found if it in ("asked", "planner", "rewriter") or any(it == at or it.startswith(f"{at}/") for at in besides)]:
                del found[path]
        self.assertEqual(before, after)

    def is_failure(self, ran, *words):
        """Checks that a script has refused in one line that has these words, and has printed nothing else."""
        self.assertEqual(70, ran.returncode, ran.err)
        self.assertEqual("", ran.out)
        self.assertNotIn("Traceback", ran.err)
        last = ran.err.rstrip("\n").split("\n")[-1]
        for word in words:
            self.assertIn(word, last)

    def started(self):
        """Returns the lines of the programs that were asked."""
        if not os.path.exists(self.log):
            return []
        with open(self.log, encoding="utf-8") as file:
            return file.read().splitlines()


__all__ = ["CABAL", "EVIL", "GHC", "HEEDED", "PACKAGE", "RECORD", "REWRITER", "TOP", "Room", "listing", "signal"]
