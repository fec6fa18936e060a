"""The words of a script, by `argparse`: wrong ones end it with 64. Options aren't abbreviated."""

import argparse
import os
import sys

from tool.ends import WRONG_WORDS, say
from tool.refusal import Refusal


class Words(argparse.ArgumentParser):
    """The words of a script: its name, and what it does."""

    def __init__(self, script, text, **how):
        super().__init__(prog=script, description=text, allow_abbrev=False, formatter_class=argparse.RawDescriptionHelpFormatter, **how)

    def error(self, message):
        say(self.prog, f"{message}; --help lists the options")
        sys.exit(WRONG_WORDS)

    def add_program(self, are_several=False):
        """Adds the program to run, or several that run in turn."""
        text = "the planner; several run in turn" if are_several else "the planner"
        how = {"action": "append", "default": []} if are_several else {}
        self.add_argument("--program", metavar="PATH", help=f"{text}; else the one for the present sources", **how)


def number(least, most=10**9):
    """Returns the form of a number, for `type` of an option."""

    def read(text):
        if not text.isascii() or not text.isdecimal() or not least <= int(text[:12]) <= most:
            raise argparse.ArgumentTypeError(f"it takes a number from {least}" + f" to {most}" * (most < 10**9))
        return int(text)

    return read


def program(asked, name=None):
    """Returns the path of the program that was asked for, or of the proved one of this name, else the planner."""
    if not asked:
        from tool.program import PLANNER, built_program

        return built_program(name or PLANNER)
    path = os.path.abspath(asked)
    if not os.path.isfile(path) or not os.access(path, os.X_OK):
        raise Refusal(f"there is no program {path}")
    return path


def programs(asked):
    """Returns the paths of several programs."""
    return [program(it) for it in asked or [None]]
