"""Answers of planners, and their comparison."""

import resource
import subprocess

from tool import children

# A run is stopped after so many seconds of the clock.
SECONDS = 600


class Answer:
    """A verdict (`plan`, `no plan`, `gave up`, `refused`), its seconds and the output; of a plan also its components
    (package, version, component), the flags of each package and version, and the plan in cabal's form."""

    def __init__(self, verdict, seconds, told, components=frozenset(), flags=None, form=None):
        self.verdict, self.seconds, self.told = verdict, seconds, told
        self.components, self.flags, self.form = set(components), flags or {}, form

    def versions(self):
        return {it[:2] for it in self.components}


def spent():
    """Returns the seconds of processor time of all runs so far."""
    told = resource.getrusage(resource.RUSAGE_CHILDREN)
    return told.ru_utime + told.ru_stime


def run(words, folder, environment=None):
    """Runs a program in a folder, and returns its status (none if it was stopped), its output, and its seconds of
    processor time."""
    begun = spent()
    try:
        ran = children.run(
            words, cwd=folder, env=environment, stdin=subprocess.DEVNULL, stdout=subprocess.PIPE, stderr=subprocess.STDOUT, timeout=SECONDS
        )
    except subprocess.TimeoutExpired:
        return None, f"none after {SECONDS} seconds", spent() - begun
    return ran.returncode, ran.stdout.decode("utf-8", "replace").strip(), spent() - begun


def words_of(components):
    return " ".join(sorted("-".join(it[:2]) + (f":{it[2]}" if len(it) > 2 else "") for it in components))


def by_part(answer, other):
    """Returns the components of a plan. Components of a package that the other plan builds as a whole are one."""
    whole = {it[:2] for it in other.components | answer.components if it[2] == "package"}
    return {(*it[:2], "package") if it[:2] in whole else it for it in answer.components}


def difference(ours, theirs):
    """Returns a text of the difference of two plans, empty if packages, versions and components are the same."""
    pairs = [(ours.versions(), theirs.versions()), (by_part(ours, theirs), by_part(theirs, ours))]
    one, other = next(((one, other) for one, other in pairs if one != other), (set(), set()))
    told = [f"only here: {words_of(one - other)}"] * bool(one - other) + [f"only cabal: {words_of(other - one)}"] * bool(other - one)
    return "; ".join(told)


def flags_differ(ours, theirs):
    """Returns the flags with different values in the two, of packages that both build."""
    found = []
    for key in sorted(ours.flags.keys() & theirs.flags.keys()):
        one, other = ours.flags[key], theirs.flags[key]
        found += [f"{key[0]}:{it}" for it in sorted(one.keys() & other.keys()) if one[it] != other[it]]
    return found
