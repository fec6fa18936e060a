"""Runs the proved program for the words of this tool, which never answer in its place.

Input: a folder and the words to plan with. Output: the program's answer, as the object of `plan --json`."""

import argparse
import json
import os
import subprocess

from tool import asked, children
from tool.ends import status_of_program
from tool.program import built_program
from tool.refusal import Refusal, shown
from tool.words import OPTIONS

PLAN, NO_PLAN, GAVE_UP, REFUSED = range(4)
# The options of `plan` that a word of this tool hands on: those that say what is planned, and how far is searched.
HANDED_ON = {name: form for name, form in OPTIONS["plan"].items() if name != "--json" and name != "--minimize-conflict-set"}


class Answer:
    """An answer of the program: its status, and its object, which is empty where it refuses or fails."""

    def __init__(self, status, output, error):
        self.status, self.output, self.error = status, output, error
        self.object = json.loads(output) if status in (PLAN, NO_PLAN, GAVE_UP) else {}

    def check(self):
        """Returns this answer, unless the program has refused or failed: then the tool refuses with the same line."""
        if self.status > GAVE_UP:
            raise Refusal(f"the program says: {shown((self.output or self.error).strip()) or f'status {self.status}'}")
        return self


class Planner:
    """The program, and the words to plan with."""

    def __init__(self, program, words):
        # (a path is one below the present folder, also where another one is planned)
        self.program = os.path.abspath(program) if program and "/" in program else program or built_program()
        self.words = list(words)

    def plan(self, folder, *further):
        """Plans a folder."""
        try:
            ran = children.run(
                [self.program, "plan", "--json", *self.words, *further],
                cwd=folder, stdin=subprocess.DEVNULL, stdout=subprocess.PIPE, stderr=subprocess.PIPE,
            )  # fmt: skip
        except OSError as error:
            raise Refusal(f"{self.program} can't be run: {error.strerror}") from error
        return Answer(status_of_program(ran.returncode), ran.stdout.decode("utf-8", "replace"), ran.stderr.decode("utf-8", "replace"))


class Words(asked.Words):
    """The options of a word of this tool."""

    def __init__(self, word, **how):
        super().__init__(f"cabal-plan {word}", how.pop("description", None), **how)

    def add_planning(self):
        """Adds the options of `plan` that are handed on to the program, and the program."""
        group = self.add_argument_group("what is planned, as for `cabal-plan plan`")
        for name, form in HANDED_ON.items():
            if form:
                group.add_argument(name, metavar=form, action=Kept, dest="planning")
            else:
                group.add_argument(name, action=Kept, nargs=0, dest="planning")
        self.add_argument("--program", metavar="PATH", help="the planner; else the proved one of this tool")
        self.set_defaults(planning=[])


class Kept(argparse.Action):
    """Keeps an option as the word that the program takes."""

    def __call__(self, parser, of, value, option=None):
        of.planning = [*of.planning, option if value == [] else f"{option}={value}"]
