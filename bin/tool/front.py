"""The words of the command line: those of the proved program go to it as they are, the others to a module of this tool."""

import os
import sys

from tool.ends import WRONG_WORDS, say, status_of_program, take_signals
from tool.program import built_program, release
from tool.refusal import Refusal

NAME = "cabal-plan"
# The words of the proved program.
PROGRAM = {
    "plan": "choose versions, flags and tests, or say why there is no plan",
    "freeze": "print the plan as the constraints of a project file",
    "replay": "print which component of the plan is built next, by the events of a build",
    "generate": "plan a made folder of many packages",
}
# The words of this tool: the module whose `main` takes the further words and returns the status, and what it does.
TOOL = {
    "folder": ("tool.folder.command", "make `index` and `installed` for a project"),
    "why": ("tool.why.command", "explain why there is no plan, or why a package is in it"),
    "lint": ("tool.lint.command", "find what a planner passes over in silence in the project's files"),
    "tree": ("tool.plans.tree", "show the plan as a tree of dependencies"),
    "diff": ("tool.plans.diff", "compare two plans or freeze files"),
    "outdated": ("tool.plans.outdated", "list what isn't the latest version, and what holds it back"),
    "json": ("tool.plans.json", "print the plan as cabal's plan.json"),
    "graph": ("tool.graph.command", "draw a plan or a conflict"),
    "set": ("tool.set.command", "plan many packages with many compilers and settings"),
}
HELP = ("help", "--help", "-h")
EPILOGUE = f"""`{NAME} help WORD` shows the options of a word. Exit status of `plan`: 0 a plan, 1 no plan, 2 gave up, 3 refused, 4 and
5 a failed read or write, 6 out of memory. 64: wrong words, 70: a failure of this tool."""


def usage():
    """Returns the list of all words."""
    rows = [*PROGRAM.items(), *((word, text) for word, (_, text) in TOOL.items()), ("help", "show this list, or the options of a word")]
    lines = [f"  {word:<10} {text}" for word, text in rows]
    return "\n".join([f"usage: {NAME} WORD [OPTION ..]", "", *lines, "", EPILOGUE])


def help_on(words):
    """Prints the list of words, or the options of one."""
    if not words:
        print(usage())
        return 0
    if words[0] in TOOL and len(words) == 1:
        return own(words[0], ["--help"])
    if words[0] in PROGRAM and len(words) == 1:
        from tool.words import help_of

        print(help_of(words[0], PROGRAM[words[0]]))
        return 0
    from tool.words import nearest

    say(NAME, f"there is no word {words[0]}{nearest(words[0], [*PROGRAM, *TOOL])}; `{NAME} help` lists them")
    return WRONG_WORDS


def own(word, words):
    """Runs a word of this tool."""
    import importlib

    take_signals()
    return importlib.import_module(TOOL[word][0]).main(words)


def program(words):
    """Runs the proved program. It takes the place of this process, unless there may be something to add."""
    from tool.words import is_plain, notes, told

    path = built_program()
    for line in notes(words):
        say(NAME, line)
    if is_plain(words):
        sys.stdout and sys.stdout.flush()
        os.execv(path, [path, *words])
    from tool.children import run

    take_signals()
    ran = run([path, *words])
    if ran.returncode == WRONG_WORDS:
        for line in told(words, list(TOOL)):
            say(NAME, line)
    return status_of_program(ran.returncode)


def is_own(words):
    """Returns whether these words are for this tool, and not for the proved program."""
    return words[:1] and (words[0] in TOOL or words[0] in HELP) or words == ["--version"]


def main(words):
    if is_own(words) and sys.stdout is None:
        raise Refusal("standard output is closed")
    if words[:1] == ["--version"] and len(words) == 1:
        print(f"{NAME} {release()}")
        return 0
    if words[:1] and words[0] in HELP:
        return help_on(words[1:])
    if words[:1] and words[0] in TOOL:
        return own(words[0], words[1:])
    return program(words)
