"""Changes that would help, each of which was tried: only those that give a plan are printed.

In: the facts on a conflict, and the planner. Out: lines `help:`. A change is made in a copy of the project's small files,
and the proved program plans the copy."""

import time

from tool.elements import entries
from tool.planner import NO_PLAN, PLAN
from tool.why.chain import has_part, of_constraint
from tool.why.edits import replaced, with_entries, with_line, without_field
from tool.why.facts import BOOT, Facts, Folder
from tool.why.ranges import admits
from tool.why.reasons import circles, default_of
from tool.why.room import copy_of

LOCAL, FREEZE = "cabal.project.local", "cabal.project.freeze"
# How many changes are tried, for how long, how many are printed, and how many first steps get a second one.
MOST_TRIED, MOST_SECONDS, MOST_PRINTED, MOST_FIRST = 32, 20, 5, 4
# The most changes that are listed at all.
MOST_LISTED = 200


class Change:
    """A change: what to do, what makes the changed texts by path, and the package whose choice is told."""

    def __init__(self, text, make, package=""):
        self.text, self.make, self.package = text, make, package

    def texts(self):
        """Returns the changed texts by path, none for a file that is left out; or none where the layout isn't a plain one."""
        found = self.make()
        return found if found is not None and (None not in found.values() or found.keys() <= {LOCAL, FREEZE}) else None


class Options:
    """The changes to try for a conflict, the plainest first."""

    def __init__(self, facts):
        self.facts, self.project = facts, facts.folder.project

    def all(self):
        """Returns the changes, each once."""
        kinds = (self.renamed, self.dropped, self.widened, self.tools, self.stanzas, self.flagged, self.relaxed, self.opened, self.files, self.boot)
        found = {}
        for it in (it for kind in kinds for it in kind()):
            found.setdefault(it.text, it)
            if len(found) >= MOST_LISTED:
                break
        return list(found.values())

    def in_field(self, file, field, old, new):
        """Returns what makes the changed text of a file in which an entry of a field is another one, or is left out."""
        return lambda: {file: with_entries(self.project.texts[file], field, replaced(entries(field), old, new))}

    def with_setting(self, line):
        """Returns what makes the local settings with one more line."""
        return lambda: {LOCAL: with_line(self.project.texts.get(LOCAL, ""), line)}

    def of_locals(self):
        """Yields the dependencies that stand in local packages, with the variable to which they lead."""
        names = {it.text: it for it in self.facts.packages}
        for _, target, one, ask in self.facts.asks:
            if one.origin == "local" and ask.field is not None:
                yield names[target], ask

    def renamed(self):
        """Yields names that are spelt alike in place of those that aren't there."""
        for name, ask in self.of_locals():
            for other in self.facts.folder.alike(ask.name) if not self.facts.candidates[name.package] else []:
                new = (ask.entry[0].replace(ask.name, other), ask.line)
                yield Change(f"{ask.place()}: write `{other}` in place of `{ask.name}`", self.in_field(ask.file, ask.field, ask.entry, new), other)

    def dropped(self):
        """Yields constraints that are left out: those that bar something, or set a flag or stanza."""
        for name in self.facts.names:
            there = [it for it in self.facts.candidates[name.package] if not it.why_not]
            for it in self.facts.constraints(name) if not name.part else self.project.on(name.package):
                bars = any(of_constraint(it, one) for one in there) if not name.part else it.flags() or it.rest in ("test", "bench")
                if bars and it.field is not None:
                    yield Change(f"{it.place()}: drop `{it.text}`", self.in_field(it.file, it.field, (it.text, it.line), None), name.package)
            for it in self.facts.extras(name) if not name.part else []:
                yield Change(f"{it.place()}: drop `{it.text}` of extra-packages", self.in_field(it.file, it.field, (it.text, it.line), None))

    def files(self):
        """Yields the freeze file and the local settings, left out as a whole, where a constraint of them bars something."""
        told = {it.file for name in self.facts.packages for it in self.facts.constraints(name)}
        for file, words in ((FREEZE, "remove this freeze file, or freeze anew"), (LOCAL, "remove this file")):
            if file in told:
                yield Change(f"{file}: {words}", lambda file=file: {file: None})

    def widened(self):
        """Yields dependencies of local packages with any version."""
        for name, ask in self.of_locals():
            there = [it for it in self.facts.candidates[name.package] if not it.why_not]
            if ask.range and any(admits(ask.range, it.version) is not True for it in there):
                new = (ask.text[: len(ask.text) - len(ask.range)].strip(), ask.line)
                yield Change(f"{ask.place()}: widen `{ask.text}`", self.in_field(ask.file, ask.field, ask.entry, new), name.package)

    def tools(self):
        """Yields the executables that a tool does declare."""
        for name, ask in self.of_locals():
            there = [it for it in self.facts.candidates[name.package] if not it.why_not and it.description] if ask.kind == "tool" else []
            for other in dict.fromkeys(text for it in there if not has_part(ask, it) for text in it.description.executables):
                new = (f"{ask.name}:{other} {ask.range}".strip(), ask.line)
                yield Change(
                    f"{ask.place()}: write `{ask.name}:{other}` in place of `{ask.name}:{ask.part}`",
                    self.in_field(ask.file, ask.field, ask.entry, new),
                )

    def stanzas(self):
        """Yields `tests` and `benchmarks` unset, where the conflict has them."""
        for part, field in (("*test", "tests"), ("*bench", "benchmarks")):
            for it in self.project.of(field) if any(name.part == part for name in self.facts.names) else []:
                make = lambda it=it: {it.file: without_field(self.project.texts[it.file], it.field)}
                yield Change(f"{it.file}:{it.field.line}: drop `{field}: {it.field.text()}`", make)

    def flagged(self):
        """Yields flags of the conflict with the value that isn't their default, where no constraint sets them."""
        for name in (it for it in self.facts.names if it.part and it.part[0] != "*"):
            ones = [it for it in self.facts.candidates.get(name.package, []) if it.description and name.part.lower() in it.description.flags]
            if ones and not any(name.part.lower() in it.flags() for it in self.project.on(name.package)):
                is_on = default_of(ones[0].description.flags[name.part.lower()])
                line = f"constraints: {name.qualifier if name.qualifier.endswith('setup.') else ''}{name.package} {'-' if is_on else '+'}{name.part}"
                yield Change(f"{LOCAL}: add `{line}`", self.with_setting(line))

    def relaxed(self):
        """Yields bounds of packages of the index that are relaxed."""
        names = {it.text: it for it in self.facts.packages}
        seen = {}
        for _, target, one, ask in self.facts.asks:
            if one.origin == "index" and ask.kind != "tool":
                seen.setdefault((names[target].package, one.package, ask.range), (one, ask))
        for (package, _, _), (one, ask) in seen.items():
            if not any(admits(ask.range, it.version) is False for it in self.facts.candidates[package] if not it.why_not):
                continue
            for field, marks in (("allow-newer", "<="), ("allow-older", ">=")):
                if any(it in ask.range for it in marks):
                    line = f"{field}: {one.package}:{ask.name}"
                    yield Change(f"{LOCAL}: add `{line}`", self.with_setting(line), ask.name)

    def opened(self):
        """Yields circles that are opened by leaving out a dependency of a local package."""
        if circles(self.facts):
            for _, ask in self.of_locals():
                text = f"{ask.place()}: open the circle: drop `{ask.text}` from {ask.owner.name}"
                yield Change(text, self.in_field(ask.file, ask.field, ask.entry, None))

    def boot(self):
        """Yields packages of the compiler that are taken from the index."""
        ones = [it for name in self.facts.packages for it in self.facts.candidates[name.package]]
        if any(it.origin == "index" and it.package in BOOT and it.why_not for it in ones):
            line = "allow-boot-library-installs: True"
            yield Change(f"{LOCAL}: add `{line}` (builds the compiler's own library anew)", self.with_setting(line))


class Trial:
    """The changes that were tried: how many, until when, and those that give a plan."""

    def __init__(self, copy):
        self.copy, self.end, self.tried, self.left, self.found, self.failed = copy, time.monotonic() + MOST_SECONDS, 0, 0, [], []

    def is_over(self):
        return self.tried >= MOST_TRIED or time.monotonic() > self.end or len(self.found) >= MOST_PRINTED

    def run(self, options, first=None):
        """Tries changes, behind a first one if there is any."""
        for it in options:
            if self.is_over():
                self.left += 1
                continue
            texts = it.texts()
            if texts is None:
                continue
            self.tried += 1
            answer = self.copy.answer({**(first.texts() if first else {}), **texts})
            if answer.status == PLAN:
                self.found.append(f"{f'{first.text}; and ' if first else ''}{it.text}{chosen(answer, it.package)}")
            elif answer.status == NO_PLAN:
                self.failed.append(it)

    def run_twice(self):
        """Tries a second change for the first changes that leave another conflict."""
        for first in self.failed[:MOST_FIRST]:
            if self.is_over():
                return
            answer = self.copy.answer(first.texts(), "--minimize-conflict-set")
            if answer.status == NO_PLAN:
                folder = Folder(self.copy.room.path, self.copy.folder.words)
                self.run(Options(Facts(folder, answer.object["conflict"], answer.object["skipped"])).all(), first)


def chosen(answer, package):
    """Returns which version of a package a plan has, as the end of a line."""
    told = next((it["value"] for it in answer.object["choices"] if it["var"] == package), "")
    return f": a plan then has {package} {told.split(' ')[0]}" if told else ": then there is a plan"


def lines(planner, facts):
    """Yields the changes that help."""
    options = Options(facts).all()
    with copy_of(facts.folder, planner) as copy:
        if copy.answer({}).status != NO_PLAN:
            yield "note: a copy of the project has another answer, so no changes were tried"
            return
        trial = Trial(copy)
        trial.run(options)
        if not trial.found:
            trial.run_twice()
    yield from (f"help: {it}" for it in trial.found)
    if not trial.found and trial.tried:
        count = "one change was" if trial.tried == 1 else f"{trial.tried} changes were"
        yield f"note: {count} tried, and none gives a plan{f'; {trial.left} more were not tried' if trial.left else ''}"
