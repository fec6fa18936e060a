"""`cabal-plan outdated`: lists what isn't the latest version, and what holds it back.

That is found by planning again, with a later version demanded, in a room of links to the project's files."""

import json
import os
import re

from tool import files
from tool.ends import say
from tool.folder.index import by_number
from tool.plans import answers, changes
from tool.plans.variables import Variable
from tool.planner import GAVE_UP, NO_PLAN, PLAN, Planner, Words
from tool.refusal import Refusal, escaped, shown
from tool.why.facts import Facts, Folder
from tool.why.ranges import admits
from tool.why.texts import text_of

WORD = "outdated"
LOCAL = "cabal.project.local"
MOST_NAMED = 6
TEXT = """For each chosen version with a later one in the index, it plans again with `constraints: any.NAME >CHOSEN` added, in a
folder of links to this one's files. It prints one of these:

    no plan has a later one: a b           proved: these can't be chosen together then
    a plan has 2.1, with ..                so a later one can be had, and what else changes
    the search gave up                     --max-backjumps sets its limit

Below `no plan` stand the bounds among those that are named, read off their files: FILE:LINE. `cabal-plan why NAME-VERSION` says
more of one version. Files of the index that the program skips don't count as versions. The status is 0, or that of the program
if there is no plan."""


class Outdated:
    """A package with a later version in the index: its lowest chosen version with its source, and the latest one."""

    def __init__(self, name, version, source, latest, skipped):
        self.name, self.version, self.source, self.latest, self.skipped = name, version, source, latest, skipped
        self.answer, self.found, self.conflict, self.changes, self.bounds = "", "", [], [], []

    def json(self):
        return {
            "answer": self.answer, "bounds": [{"file": file, "line": line, "text": text} for file, line, text in self.bounds],
            "changes": [it.json() for it in self.changes], "chosen": self.version, "conflict": self.conflict, "found": self.found or None,
            "latest": self.latest, "name": self.name, "skipped": self.skipped, "source": self.source,
        }  # fmt: skip

    def lines(self):
        """Yields its lines."""
        later = f" (later ones are skipped: {', '.join(self.skipped[:MOST_NAMED])})" * bool(self.skipped)
        yield f"{self.name} {self.version}{' installed' * (self.source == 'installed')}, latest {self.latest}{later}"
        if self.answer == "no plan":
            yield f"    no plan has a later one: {' '.join(self.conflict)}"
            yield from (f"    {file}:{line}: {text}" for file, line, text in self.bounds[:MOST_NAMED])
            if len(self.bounds) > MOST_NAMED:
                yield f"    and {len(self.bounds) - MOST_NAMED} more bounds, which --format=json lists"
        elif self.answer == "plan":
            yield f"    a plan has {self.found}{self.others()}"
        else:
            yield "    the search gave up"

    def others(self):
        """Returns what else changes, in words."""
        told = [f"{it.kind} {it.text()}" for it in self.changes]
        if not told:
            return ", and nothing else changes" + ": an installed unit comes before the index" * (self.source == "installed")
        return f", with {', '.join(told[:MOST_NAMED])}" + f", and {len(told) - MOST_NAMED} more changes" * (len(told) > MOST_NAMED)


def words_of(words):
    parser = Words(WORD, description=TEXT)
    parser.add_argument("names", metavar="NAME", nargs="*", help="only these packages")
    parser.add_argument("--format", choices=("text", "json"), default="text", help="lines, or one JSON object; else text")
    parser.add_planning()
    return answers.checked(parser, parser.parse_args(words))


def chosen(plan):
    """Returns for each package that isn't local its chosen versions, each with its source, the lowest first."""
    found, local = {}, set()
    for it in plan["choices"]:
        variable, words = Variable(it["var"]), it["value"].split()
        if variable.part is None and len(words) > 1:
            found.setdefault(variable.package, set()).add((words[0], words[1]))
            local |= {variable.package} if words[1] == "local" else set()
    return {name: sorted(them, key=lambda it: by_number(it[0])) for name, them in found.items() if name not in local}


def outdated(plan, folder, names):
    """Yields each package of which a later version is in the index than the lowest chosen one."""
    skipped = {re.sub(r"\.cabal(:\d+)? .*$", ".cabal", it) for it in plan["skipped"]}
    for name, them in sorted(chosen(plan).items()):
        version, source = them[0]
        later = [it for it in reversed(folder.versions_of(name)) if by_number(it) > by_number(version)]
        paths = {it: f"{folder.index}/{name}/{it}/{name}.cabal" for it in later}
        unread = [it for it in later if paths[it] in skipped]
        good = [it for it in later if it not in unread and os.path.isfile(paths[it])]
        if good and (not names or name in names):
            yield Outdated(name, version, source, good[-1], [it for it in unread if by_number(it) > by_number(good[-1])])


def lay_out(room):
    """Fills a room with links to all that is here, but for the file that gets one more constraint, and returns its text."""
    here = os.getcwd()
    for name in os.listdir(here):
        if name != LOCAL:
            room.link(name, f"{here}/{name}")
    return text_of(LOCAL) or ""


def bars(text, versions):
    """Returns whether a range bars one of these versions."""
    return any(admits(text, it) is False for it in versions)


def bounds(one, plan, folder):
    """Returns what bars later versions of a package, among the names of its conflict: ranges of the chosen versions, what the
    later versions ask of others, and constraints of the project."""
    facts = Facts(folder, one.conflict, plan["skipped"])
    ones = [it.version for it in facts.candidates.get(one.name, []) if not it.why_not]
    later = [it for it in ones if by_number(it) > by_number(one.version)]
    versions = {(Variable(it["var"]).package, it["value"].split()[0]) for it in plan["choices"] if " " in it["value"]}
    found = {}
    for _, _, version, ask in facts.asks:
        is_own = version.package == one.name and ask.range and version.version in later
        if is_own or ask.name == one.name and (version.package, version.version) in versions and bars(ask.range, later):
            found[ask.file, ask.line, f"{version} needs {ask.text}"] = None
    for name in facts.packages:
        for it in [*facts.constraints(name), *facts.extras(name)] if name.package == one.name else ():
            if it.range() and bars(it.range(), later) or it.rest == "installed":
                found[it.file, it.line, f"constraints: {it.text}"] = None
    return list(found)


def tell(one, plan, planner, room, text):
    """Plans again with a later version, and notes the answer."""
    room.remove(LOCAL)
    room.write(LOCAL, f"{text}\nconstraints: any.{one.name} >{one.version}\n")
    answer = planner.plan(room, "--minimize-conflict-set").check()
    one.answer = {PLAN: "plan", NO_PLAN: "no plan", GAVE_UP: "gave up"}[answer.status]
    if one.answer == "plan":
        new = changes.of_plan(answer.object)
        one.found = min((it for name, it in new.versions.items() if Variable(name).package == one.name), key=by_number, default="")
        found = changes.changes(changes.of_plan(plan), new)
        one.changes = [it for it in found if it.kind != changes.REBUILT and Variable(it.name).package != one.name]
    elif one.answer == "no plan":
        one.conflict = answer.object["conflict"]


def main(words):
    of = words_of(words)

    def body():
        planner, folder = Planner(of.program, of.planning), Folder(".", of.planning)
        answers.say_notes(of.planning, WORD)
        plan = answers.planned(planner, ".")
        unknown = sorted(set(of.names) - chosen(plan).keys())
        if unknown:
            raise Refusal(f"the plan has no {shown(unknown[0])} that could be out of date")
        found = list(outdated(plan, folder, of.names))
        if not found:
            say(f"cabal-plan {WORD}", "no later version is in the index")
        with files.new_room("cabal-plan-") as room:
            text = lay_out(room)
            for one in found:
                tell(one, plan, planner, room, text)
                one.bounds = bounds(one, plan, folder) if one.conflict else []
                for line in one.lines() if of.format == "text" else ():
                    print(escaped(line), flush=True)
        if of.format == "json":
            print(json.dumps({"outdated": [it.json() for it in found]}, sort_keys=True, separators=(",", ":")))
        return 0

    return answers.run(WORD, body)
