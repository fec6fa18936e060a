"""Why a version isn't chosen. The proved program plans again, in a copy of the project, with a constraint to that version.

In: a folder, its plan, a name and a version. Out: the reason, or what would change."""

from tool.planner import GAVE_UP, NO_PLAN
from tool.refusal import Refusal
from tool.why import reasons
from tool.why.chain import Chain
from tool.why.edits import with_line
from tool.why.conflict import proof
from tool.why.facts import Facts, Folder, Name
from tool.why.room import copy_of
from tool.why.texts import some

FILE = "cabal.project.local"
MOST_LINES = 40


def lines(folder, planner, answer, name, version):
    """Returns the status, 0 where that version can be chosen and 1 where not, and the lines."""
    if not any(it.version == version for it in folder.candidates(name, {})):
        return 1, [absent(folder, name, version)]
    line = f"constraints: any.{name} =={version}"
    with copy_of(folder, planner) as copy:
        if copy.answer({}).object.get("choices") != answer.object["choices"]:
            raise Refusal("a copy of the project has another plan, so no other version is tried")
        new = copy.answer({FILE: with_line(folder.project.texts.get(FILE, ""), line)}, "--minimize-conflict-set").check()
        if new.status == GAVE_UP:
            return GAVE_UP, [f"with {name} {version} the search met its limit: there may be a plan, or none"]
        if new.status == NO_PLAN:
            return 1, list(because(Folder(copy.room.path, folder.words), new, name, version))
    return 0, list(changes(folder, answer, new, name, version))


def absent(folder, name, version):
    """Returns the line on a version that isn't there."""
    there = list(dict.fromkeys(it.version for it in folder.candidates(name, {})))
    if name in folder.local and version in folder.versions_of(name):
        return f"{name} {version} is in the index, but the local package {name} {there[0]} hides all others of its name"
    alike = folder.alike(name)
    told = f"of {name} there is {some(there, 12)}" if there else f"there is no {name}{f'; spelt alike: {some(alike)}' if alike else ''}"
    return f"there is no {name} {version}: no local package has it, no record and no file of the index; {told}"


def because(folder, answer, name, version):
    """Yields the reason why there is no plan with a version."""
    for it in folder.project.on(name):
        it.is_asked = (it.file, it.scope, it.rest) == (FILE, "any.", f"=={version}")
    facts = Facts(folder, answer.object["conflict"], answer.object["skipped"])
    yield f"{name} {version} can't be chosen: with it there is no plan"
    yield ""
    told = Chain(facts).sentences() or reasons.circles(facts)
    yield from [*told, ""] if told else []
    yield from reasons.of_names(facts)
    yield ""
    yield proof(answer).replace("there is no plan", f"there is no plan with {name} {version}")
    yield "read off the files, and not proved: all else above"


def told_of(answer):
    """Returns the choices of a plan by variable."""
    return {it["var"]: " ".join(it["value"].split(" ")[:2]) for it in answer.object["choices"]}


def changes(folder, answer, new, name, version):
    """Yields what a plan with a version has in place of the present one."""
    before, after = told_of(answer), told_of(new)
    if not any(it.package == name for it in map(Name, after)):
        yield f"{name} isn't in the plan, also where only {version} is allowed: no chosen package needs it"
        return
    yield f"{name} {version} can be chosen: `constraints: any.{name} =={version}` gives a plan, in which"
    told = [f"{key}: {before[key]} becomes {after[key]}" for key in after if key in before and before[key] != after[key]]
    told += [f"{key}: {after[key]} is new" for key in after if key not in before]
    told += [f"{key}: {before[key]} goes" for key in before if key not in after]
    for it in told[:MOST_LINES]:
        yield f"  {it}"
    if len(told) > MOST_LINES:
        yield f"  and {len(told) - MOST_LINES} more changes"
    if "--count-conflicts" in folder.words:
        yield "proved: both plans are complete and valid; with --count-conflicts neither needs to be the first by preference"
        return
    yield preferred(folder, before.get(name), after.get(name))
    yield "proved: both plans are complete and valid, and the present one is the first by preference"


def preferred(folder, old, new):
    """Returns in words why the present plan comes before the other one."""
    if old and new and old.endswith("installed") and not new.endswith("installed"):
        return "Without the constraint the installed version comes first."
    if folder.project.of("preferences") or folder.project.of("prefer-oldest"):
        return "Without the constraint the present plan comes first, by the project's preferences."
    return "Without the constraint the present plan comes first: later versions come before earlier ones, in the order of its choices."
