"""`cabal-plan why`: explains why there is no plan, why a package is in it, or why a version isn't."""

import os
import sys

from tool.ends import WRONG_WORDS, say
from tool.folder.project import FILES
from tool.planner import GAVE_UP, NO_PLAN, REFUSED, Planner, Words
from tool.refusal import Refusal
from tool.why import conflict, instead, refused, ways
from tool.why.facts import Folder
from tool.why.texts import is_other, tell
from tool.words import wrong

TEXT = """Without a name it explains why there is no plan, or what a refusal means. With a name it prints the shortest ways
from local packages to it. With a name and a version that isn't chosen it plans again with that version, and prints the
reason against it, or what would change.

Each reason names the place that it was read from. What is proved, and what is only read off files, stands at the end.
A line `help:` names a change which was tried in a copy of the project's small files, and gives a plan there.

The status is that of `cabal-plan plan`: 0 a plan, 1 no plan, 2 gave up, 3 refused; 1 also where the name isn't in the
plan; 64 for wrong words, 70 for a failure of this tool."""


def words_of(words):
    """Returns the options."""
    parser = Words("why", description=TEXT)
    parser.add_argument("name", metavar="NAME[-VERSION]", nargs="?", help="a package, with or without a version")
    parser.add_argument("--no-changes", action="store_true", help="looks for no changes that would help, each of which takes a plan")
    parser.add_planning()
    return parser.parse_args(words)


def checked(planning, name="why"):
    """Says which of the words to plan with have no reading, and returns whether all have one."""
    found = [text for _, text in wrong(["plan", *planning])]
    for text in found:
        say(f"cabal-plan {name}", text)
    return not found


def main(words):
    of = words_of(words)
    if not checked(of.planning):
        return WRONG_WORDS
    planner = Planner(of.program and os.path.abspath(of.program), of.planning)
    folder = Folder(".", of.planning)
    refuse_others(folder)
    answer = planner.plan(".", "--minimize-conflict-set")
    if answer.status > REFUSED:
        say("cabal-plan why", answer.error.strip() or answer.output.strip() or f"the program ended with status {answer.status}")
        return answer.status
    if answer.status == REFUSED:
        tell(refused.lines(folder, planner, answer))
    elif answer.status == GAVE_UP:
        tell(gave_up(answer))
    elif answer.status == NO_PLAN:
        tell([f"there is no plan, so {of.name} isn't in one; the reason for that:"] if of.name else [])
        tell(conflict.lines(folder, planner, answer, not of.no_changes))
    elif of.name:
        return ways_or_other(of.name, folder, planner, answer)
    else:
        tell(
            [f"there is a plan, of {len(answer.object['nodes'])} nodes: `cabal-plan plan` prints it, and `cabal-plan why NAME` the ways to a package"]
        )
        tell(conflict.silent(folder))
    sys.stdout.flush()
    return answer.status


def refuse_others(folder):
    """Refuses local files for which the program would wait for ever, such as a FIFO."""
    for path in [*FILES, *folder.project.paths]:
        if path not in folder.project.texts and is_other(f"{folder.folder}/{path}"):
            raise Refusal(f"{path} is no regular file, and isn't read")


def ways_or_other(text, folder, planner, answer):
    """Prints the ways to a package, or what another version would need, and returns the status."""
    name, version = ways.parsed(text)
    if version is None or ways.chosen(answer, name, version):
        status, told = ways.lines(folder, answer, name, version)
    else:
        status, told = instead.lines(folder, planner, answer, name, version)
    tell(told)
    return status


def gave_up(answer):
    """Returns the lines for a search that met its limit."""
    return [
        f"gave up: {answer.object['exhausted']} goals failed, and the limit was met; there may be a plan, or none",
        "try --count-conflicts, which tries first what fails most often, or --max-backjumps=-1, which takes the limit away",
    ]
