"""`cabal-plan diff`: compares two plans or two freeze files."""

import json

from tool.plans import answers, changes
from tool.plans.revision import planned_at
from tool.planner import Planner, Words
from tool.refusal import Refusal

WORD = "diff"
TEXT = """OLD and NEW are answers of `plan --json`, or freeze files, of this tool or of cabal. `-` is standard input. Without NEW
the plan of this folder is made now.

    cabal-plan plan --json >before         then change something
    cabal-plan diff before                 before, and now
    cabal-plan diff --git HEAD~1           the project's files in that commit, and now
    cabal-plan diff cabal.project.freeze new

Files of a commit are read out of git: nothing is checked out, and no hook runs. Its `index` and `installed` are the
present ones unless the commit has them. So are project files that git doesn't know, such as `cabal.project.local`.

A line says `upgraded`, `downgraded`, `added`, `removed`, `range`, `source` (`installed`, `source` or `local`), `flag`,
`tests`, `benchmarks`, `component`, or `rebuilt`: the same version with another identifier. The status is 0 if nothing
differs, 1 if something does, and 70 if there is no plan to compare."""


def words_of(words):
    parser = Words(WORD, description=TEXT)
    parser.add_argument("old", metavar="OLD", nargs="?", help="the earlier plan or freeze file")
    parser.add_argument("new", metavar="NEW", nargs="?", help="the later one; else the plan of this folder")
    parser.add_argument("--git", metavar="REV", help="in place of OLD: the plan of the project's files in this commit")
    parser.add_argument("--format", choices=("text", "json"), default="text", help="lines, or one JSON object; else text")
    parser.add_planning()
    of = answers.checked(parser, parser.parse_args(words))
    if (of.old is None) == (of.git is None) or of.git is not None and of.new is not None:
        parser.error("it takes OLD, OLD and NEW, or --git=REV")
    if of.old == of.new == "-":
        parser.error("only one of them can be standard input")
    return of


def settled(path):
    """Returns what a file settles, and whether it is a freeze file."""
    data = answers.data_of(path)
    if data.lstrip()[:1] in (b"{", b"["):
        return changes.of_plan(a_plan(answers.name_of(path), lambda: answers.plan_of(answers.object_of(data, path)))), False
    return changes.of_freeze(data.decode("utf-8", "replace"), answers.name_of(path)), True


def a_plan(name, make):
    """Returns a plan, and refuses another answer: there is nothing to compare."""
    try:
        return make()
    except answers.NoPlan as none:
        raise Refusal(f"{name}: {none}") from none


def both(of):
    """Returns what the two sides settle."""
    if of.new is not None:
        (old, was_freeze), (new, is_freeze) = settled(of.old), settled(of.new)
        if was_freeze != is_freeze:
            raise Refusal("one is a plan, and the other a freeze file: they have no form in common")
        return old, new
    planner = Planner(of.program, of.planning)
    if of.git is None:
        old, was_freeze = settled(of.old)
        if was_freeze:
            raise Refusal(f"{answers.name_of(of.old)} is a freeze file: compare it with another one, such as what `cabal-plan freeze` prints")
    else:
        old = changes.of_plan(a_plan(of.git, lambda: planned_at(of.git, planner, of.planning)))
    answers.say_notes(of.planning, WORD)
    return old, changes.of_plan(a_plan("now", lambda: answers.planned(planner, ".")))


def main(words):
    of = words_of(words)
    found = changes.changes(*both(of))
    if of.format == "json":
        print(json.dumps({"changes": [it.json() for it in found], "differs": bool(found)}, sort_keys=True, separators=(",", ":")))
    else:
        for line in changes.lines(found):
            print(line)
    return 1 if found else 0
