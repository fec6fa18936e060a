"""The programs as they run: a folder for each exit status, with open, full, closed and unread outputs. No clause covers `main`, so this
compares standard output, standard error and the status with what the definitions say of them.

The wanted numbers are those of `number_of_status`, the lines those of `failure_of`, and the usage lines those of `usage_text`. With an output
that can't be written the status is 5 where there is a text to write; without a standard error only its line is missing."""

import os
import subprocess
from typing import NamedTuple

from tests.rooms import TOP, Room
from tool.program import CRATES, MODERN, OUT, PLANNER, SUM, Sources, checked, released, released_sum

READ_FAULT, WRITE_FAULT, OUT_OF_MEMORY = 4, 5, 6
# The line on standard error of each failure, without the name of the program in front of it.
LINES = {
    PLANNER: {
        READ_FAULT: "a file or folder could not be read",
        WRITE_FAULT: "the output could not be written",
        OUT_OF_MEMORY: "out of memory",
    },
    MODERN: {READ_FAULT: "a file could not be read", WRITE_FAULT: "the output could not be written", OUT_OF_MEMORY: "out of memory"},
}
STATUSES = {PLANNER: {0, 1, 2, 3, 4, 5, 6, 64}, MODERN: {0, 3, 4, 5, 6, 64}}
HEADER = "cabal-version: 2.4\n"
PROJECT = {"cabal.project": "packages: .\n"}
LIBRARY = f"{HEADER}name: main\nversion: 1\nlibrary\n"
# A file just under the limit of 1,048,576 bytes, and an address space that has no room for what it says.
LARGE = f"{LIBRARY}  other-modules:\n" + "    A\n" * 160_000
KILOBYTES = 8000
# A file that opens, and whose read fails (EIO), for the superuser too.
UNREADABLE = "/proc/self/mem"


class Run(NamedTuple):
    """A run over a folder: what it shows, the folder's files and links, the words, the wanted status and output, and the limit on memory."""

    name: str
    files: dict
    words: list
    status: int
    out: str = ""
    links: dict = {}
    kilobytes: int = 0


# Where `main` is tried, one value is visited. A goal without values is exhausted, then `main`, whose one value it fails.
# With the limit 0 the search gives up at the first such goal that isn't its first one, and doesn't count it: b 2 is tried first, and asks for it.
PLANS = (
    Run("a plan", {**PROJECT, "main.cabal": LIBRARY}, ["plan"], 0, "plan\nchoose main 1 local\nnode local main-1 lib main-1-inplace\nvisited 1 exhausted 0\n"),
    Run(
        "a plan as JSON",
        {**PROJECT, "main.cabal": LIBRARY},
        ["plan", "--json"],
        0,
        '{"choices":[{"value":"1 local","var":"main"}],"exhausted":0,"nodes":[{"component":"lib","id":"main-1-inplace","kind":"local","needs":[],'
        '"package":"main-1","unbuildable":false}],"skipped":[],"status":"plan","visited":1,"warnings":[]}\n',
    ),
    Run("no plan", {**PROJECT, "main.cabal": f"{LIBRARY}  build-depends: zlib\n"}, ["plan"], 1, "no plan\nconflict main zlib\nvisited 1 exhausted 2\n"),
    Run(
        "a limit that is met",
        {
            **PROJECT,
            "main.cabal": f"{LIBRARY}  build-depends: b\n",
            "index/b/1/b.cabal": f"{HEADER}name: b\nversion: 1\nlibrary\n",
            "index/b/2/b.cabal": f"{HEADER}name: b\nversion: 2\nlibrary\n  build-depends: zlib\n",
        },
        ["plan", "--max-backjumps=0"],
        2,
        "gave up\nvisited 2 exhausted 0\n",
    ),
    Run("a refusal", {"cabal.project": "packages: gone\n", "main.cabal": LIBRARY}, ["plan"], 3, "refused cabal.project:1 NoMatch gone\n"),
    Run("a failed read", {**PROJECT, "main.cabal": LIBRARY}, ["plan"], READ_FAULT, links={"cabal.project.local": UNREADABLE}),
    Run(
        "a name that isn't UTF-8",
        {**PROJECT, "main.cabal": f"{LIBRARY}  build-depends: zlib\n", "index/zlib/\udcff": ""},
        ["plan"],
        READ_FAULT,
    ),
    Run("out of memory", {**PROJECT, "main.cabal": LARGE}, ["plan"], OUT_OF_MEMORY, kilobytes=KILOBYTES),
    Run("no words", {**PROJECT, "main.cabal": LIBRARY}, [], 64, "usage: cabal-plan plan or generate, with options\n"),
    Run("a second word that has no reading", {**PROJECT, "main.cabal": LIBRARY}, ["plan", "plan"], 64, "usage: cabal-plan plan or generate, with options\n"),
)
REWRITINGS = (
    Run("files that are read as they are", {"list": "main.cabal\ngone.cabal\n", "main.cabal": LIBRARY}, ["list"], 0, "unchanged main.cabal\nmissing gone.cabal\n"),
    Run("two lists", {"list": "main.cabal\n", "more": "gone.cabal\n", "main.cabal": LIBRARY}, ["list", "more"], 0, "unchanged main.cabal\nmissing gone.cabal\n"),
    Run("a list that is refused", {"main.cabal": LIBRARY}, ["gone"], 3, "refused gone NoMatch\n"),
    Run("a failed read of a list", {"main.cabal": LIBRARY}, ["list"], READ_FAULT, links={"list": UNREADABLE}),
    Run("out of memory", {"list": "main.cabal\n", "main.cabal": LARGE}, ["list"], OUT_OF_MEMORY, kilobytes=KILOBYTES),
    Run("no list", {"main.cabal": LIBRARY}, [], 64, "usage: modern-headers LIST ..., each a file with a path a line\n"),
)
RUNS = {PLANNER: PLANS, MODERN: REWRITINGS}
# What is in the folder above, which no run may read.
ABOVE = {"cabal.project": "packages: .\n", "above.cabal": f"{HEADER}name: above\nversion: 7\nlibrary\n", "list": "above.cabal\n", "more": "above.cabal\n"}
OPEN, UNREAD = "open", "an unread pipe"
# How the shell gives an output; the numbers of outputs stand in front.
GIVEN = {OPEN: "", "a full device": "{}>/dev/full", "closed": "{}>&-", UNREAD: ""}
# Wrong bodies, as scripts around a program. Each has to be refused.
WRONG = {
    "always status 0": '"$P" "$@"; exit 0',
    "the failure line on standard output": 'exec "$P" "$@" 2>&1',
    "the answer on standard error": 'exec "$P" "$@" >&2',
    "the output twice": '"$P" "$@"; exec "$P" "$@"',
    "the folder above": 'cd .. && exec "$P" "$@"',
    "another folder": 'cd / && exec "$P" "$@"',
    "words not handed on": 'exec "$P"',
    "one word too many": 'exec "$P" "$@" "$0"',
    "only the first word": 'exec "$P" ${1+"$1"}',
    "no failure line": 'exec "$P" "$@" 2>/dev/null',
    "an output that is dropped": 'exec "$P" "$@" >/dev/null',
    "a failed write that isn't noticed": '"$P" "$@" | cat 2>/dev/null; exit 0',
    "a failure line that has to be written": '[ -e /proc/self/fd/2 ] || exit 9; exec "$P" "$@"',
    "another line": '{ "$P" "$@" 2>&1 >&3 3>&- | sed "s/could not/couldn\'t/; s/out of/no/" >&2; } 3>&1; exec "$P" "$@" >/dev/null 2>&1',
}


def built(name):
    """Returns the programs of this name for the present sources: those that the gate has built last, one by each compiler, or else the kept or
    released one. It builds none."""
    crate = CRATES[name]
    found = [it for it in (f"{TOP}/crates/{crate}/out/{crate}{end}" for end in ("", ".by-rattle")) if os.access(it, os.X_OK)]
    if found:
        return found
    total = Sources(name).sum()
    kept = f"{OUT}/{crate}-{total}"
    if os.access(f"{kept}{SUM}", os.R_OK):
        return [checked(kept)]
    return [checked(released(name))] if released_sum(crate) == total and os.uname().machine == "x86_64" else []


def wanted(name, run, out, err):
    """Returns the status, the output and the standard error of a run with these outputs."""
    status = WRITE_FAULT if run.out and out != OPEN else run.status
    line = LINES[name].get(status)
    return status, run.out if out == OPEN else "", f"{name}: {line}\n" if line and err == OPEN else ""


class Programs(Room):
    """The programs of the present sources."""

    def folder_of(self, name, run):
        """Makes the folder of a run, with another project above it, and returns its path."""
        at = f"runs/{name}, {run.name}"
        if not os.path.isdir(f"{self.room}/{at}"):
            for path, content in ABOVE.items():
                self.write(f"{at}/{path}", content)
            for path, content in run.files.items():
                self.write(f"{at}/folder/{path}", content)
            for path, target in run.links.items():
                self.link(f"{at}/folder/{path}", target)
        return f"{self.room}/{at}/folder"

    def ended(self, name, program, run, out, err):
        """Runs a program with these outputs, and returns its status, output and standard error."""
        words = f"ulimit -v {run.kilobytes}; " if run.kilobytes else ""
        words += f'exec "$0" "$@" {GIVEN[out].format(1)} {GIVEN[err].format(2)}'
        read, unread = os.pipe()
        os.close(read)
        try:
            how = {"stdout": unread if out == UNREAD else subprocess.PIPE, "stderr": unread if err == UNREAD else subprocess.PIPE}
            ran = self.run_script(["sh", "-c", words, program, *run.words], self.folder_of(name, run), **how)
        finally:
            os.close(unread)
        return ran.returncode, ran.out, ran.err

    def differences(self, name, program):
        """Yields each run that isn't as wanted."""
        for run in RUNS[name]:
            for out in GIVEN:
                for err in GIVEN:
                    ended, want = self.ended(name, program, run, out, err), wanted(name, run, out, err)
                    if ended != want:
                        yield f"{program}: {run.name}, standard output {out}, standard error {err}: {ended}, wanted {want}"

    def each(self):
        """Yields the programs, each with its name."""
        for name in CRATES:
            found = built(name)
            if not found:
                self.skipTest(f"no {name} is built for these sources: rt ci builds it")
            yield from ((name, it) for it in found)


class Runs(Programs):
    """The programs that the gate has built, or the release's."""

    def test_each_status_with_each_output(self):
        for name, program in self.each():
            self.assertEqual([], list(self.differences(name, program)))

    def test_each_status_has_a_run(self):
        for name, runs in RUNS.items():
            self.assertEqual(STATUSES[name], {wanted(name, run, out, OPEN)[0] for run in runs for out in GIVEN})

    def test_wrong_bodies_are_refused(self):
        """Each wrong body differs in a run, also one that ends with another number in place of one status alone."""
        for name in CRATES:
            program = next((path for of, path in self.each() if of == name), None)
            others = {f"9 in place of {it}": f'"$P" "$@"; s=$?; [ $s = {it} ] && exit 9; exit $s' for it in STATUSES[name]}
            for what, line in {**WRONG, **others}.items():
                wrong = self.script("wrong", f"#!/bin/sh\nP={program}\n{line}\n")
                self.assertIsNotNone(next(self.differences(name, wrong), None), f"{name}: {what} is not refused")
