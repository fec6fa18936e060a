"""The reason as a chain of sentences, each of which follows from the files and the sentences before it.

In: the facts on a conflict. Out: the sentences, or none where this simple way finds no contradiction, as with flags and
circles. Candidates are left out one by one: a constraint bars them, what is surely chosen depends on others, or they
depend on something of which no candidate is left."""

from tool.why.ranges import admits
from tool.why.texts import some

ORIGINS = {"index": "in the index", "installed": "installed", "local": "among the local packages"}
MOST_PASSES, MOST_NAMES, MOST_SENTENCES = 50, 400, 12


class Cause:
    """Why a candidate is left out: the kind (`barred`, `demanded`, `unmet`), the constraint or the dependencies as pairs of
    the owner's candidate and the dependency, and the variable that isn't met."""

    def __init__(self, kind, of, target=None):
        self.kind, self.of, self.target = kind, of, target


def has_part(ask, one):
    """Returns whether a candidate has the library or executable that is asked for."""
    if one.description is None:
        return ask.kind != "tool"
    if ask.kind == "tool":
        return ask.part in one.description.executables
    wanted = [it for it in ask.part.strip("{} ").replace(" ", "").split(",") if it] or [""]
    of_own = {"", one.package}
    return all(it in one.description.libraries or (it in of_own and "" in one.description.libraries) for it in wanted)


def of_constraint(constraint, one):
    """Returns whether a constraint bars a candidate."""
    if constraint.rest in ("installed", "source"):
        return (one.origin == "installed") == (constraint.rest == "source")
    told = constraint.range()
    return told is not None and admits(told, one.version) is False


class Chain:
    """The state of the reasoning: for each variable the candidates that are left, and for each other one its cause."""

    def __init__(self, facts):
        self.facts, self.fitting, self.causes = facts, {}, {}
        self.variables = {it.text: it for it in facts.packages}
        self.left = {it.text: [one for one in facts.candidates[it.package] if not one.why_not] for it in facts.packages}
        self.asks = {}
        for owner, target, one, ask in facts.asks:
            if one.description is None or (owner.text, ask) in facts.certain:
                self.asks.setdefault(owner.text, {}).setdefault(target, {}).setdefault(one, []).append(ask)
        self.required = {it.text for it in facts.packages if not it.qualifier and it.package in facts.folder.local}
        self.extra = {it.text: told for it in facts.packages for told in [facts.extras(it)] if told}
        self.required |= set(self.extra)

    def fits(self, target, ask):
        """Returns the candidates that a dependency admits, as far as can be seen."""
        key = target, ask.range, ask.part, ask.kind, ask.owner and ask.owner.name
        if key not in self.fitting:
            package = self.variables[target].package
            is_relaxed = ask.owner and ask.kind != "tool" and self.facts.folder.project.relaxed(ask.owner.name, package)
            there = [it for it in self.facts.candidates[package] if not it.why_not and has_part(ask, it)]
            self.fitting[key] = {it for it in there if is_relaxed or admits(ask.range, it.version) is not False}
        return self.fitting[key]

    def leave_out(self, variable, ones, cause):
        """Leaves candidates out, and returns whether there were any."""
        for one in ones:
            self.causes[variable, one] = cause
        self.left[variable] = [it for it in self.left[variable] if (variable, it) not in self.causes]
        return bool(ones)

    def bar(self):
        """Leaves out what constraints bar."""
        for text, name in self.variables.items():
            for constraint in self.facts.constraints(name):
                self.leave_out(text, [it for it in self.left[text] if of_constraint(constraint, it)], Cause("barred", constraint))
            for extra in self.extra.get(text, []):
                self.leave_out(text, [it for it in self.left[text] if admits(extra.rest, it.version) is False], Cause("barred", extra))

    def step(self):
        """Draws all conclusions from one state, and returns whether there was one."""
        is_new = False
        for owner, targets in self.asks.items():
            for target, by_one in targets.items():
                is_new |= self.unmet(owner, target, by_one)
                is_new |= owner in self.required and bool(self.left[owner]) and self.demanded(owner, target, by_one)
        return is_new

    def unmet(self, owner, target, by_one):
        """Leaves out candidates that depend on something of which none is left."""
        is_new, there = False, set(self.left[target])
        for one in [it for it in self.left[owner] if it in by_one]:
            for ask in by_one[one]:
                if not self.fits(target, ask) & there and (owner, one) not in self.causes:
                    is_new |= self.leave_out(owner, [one], Cause("unmet", [(one, ask)], target))
        return is_new

    def demanded(self, owner, target, by_one):
        """Leaves out the candidates of a dependency that none of the owner's admits, where all of these have it."""
        if not all(it in by_one for it in self.left[owner]):
            return False
        is_new = target not in self.required
        self.required.add(target)
        admitted = set().union(*(set.intersection(*(self.fits(target, ask) for ask in by_one[one])) for one in self.left[owner]))
        pairs = [(one, ask) for one in self.left[owner] for ask in by_one[one]]
        return self.leave_out(target, [it for it in self.left[target] if it not in admitted], Cause("demanded", pairs, owner)) or is_new

    def contradiction(self):
        """Returns a variable that has to be chosen and of which no candidate is left, or none. It prefers the deepest."""
        self.bar()
        for _ in range(MOST_PASSES):
            found = [it for it in self.variables if it in self.required and not self.left[it]]
            if found:
                return found[-1]
            if not self.step():
                return None
        return None

    def sentences(self):
        """Returns the reason, or none where this way finds none."""
        if len(self.variables) > MOST_NAMES or self.facts.folder.left < 0:
            return []
        at = self.contradiction()
        told = [*Telling(self).of(at)] if at else []
        if len(told) <= MOST_SENTENCES:
            return told
        half = MOST_SENTENCES // 2
        return [*told[:half], f"(and {len(told) - 2 * half} more steps of this kind)", *told[-half:]]


class Telling:
    """The sentences of a chain, in the order in which a reader follows them."""

    def __init__(self, chain):
        self.chain, self.told = chain, set()

    def groups(self, variable):
        """Returns the causes of the candidates of a variable, each with these candidates."""
        found = {}
        for one in self.chain.facts.candidates[self.chain.variables[variable].package]:
            cause = self.chain.causes.get((variable, one))
            if cause:
                key = (cause.kind, cause.target, *((ask.range, ask.part) for _, ask in cause.of)) if cause.kind == "unmet" else id(cause)
                found.setdefault(key, (cause, []))[1].append(one)
        return list(found.values())

    def before(self, variable):
        """Yields the sentences on what is behind the causes of a variable, and those by which its candidates are left out."""
        if variable in self.told:
            return
        self.told.add(variable)
        for cause, ones in self.groups(variable):
            if cause.kind != "barred":
                yield from self.before(cause.target)
            if cause.kind == "unmet" and not self.is_last(variable):
                yield f"Because {self.unmet(variable, cause, ones)}, {versions(ones)} can't be chosen."

    def is_last(self, variable):
        """Returns whether this is a local package, without which there is no plan."""
        name = self.chain.variables[variable]
        return not name.qualifier and name.package in self.chain.facts.folder.local

    def unmet(self, variable, cause, ones):
        """Returns in words on what candidates depend, and why it isn't met."""
        return f"{self.asked([(one, ask) for one in ones for ask in self.asks(variable, one, cause)])} and {self.state(cause)}"

    def asks(self, variable, one, cause):
        """Returns the dependencies of a candidate that stand for its cause."""
        found = [ask for other, ask in self.chain.causes[variable, one].of if other is one]
        return found or [cause.of[0][1]]

    def asked(self, pairs):
        """Returns in words who depends on what: candidates with the same range together."""
        found = {}
        for one, ask in pairs:
            found.setdefault((one.package, ask.text, ask.kind, f" for {ask.component}" if ask.stanza else ""), []).append((one, ask))
        told = [
            f"{versions([one for one, _ in them])} {verb(kind, them)} {text}{of} ({them[0][1].place()})"
            for (_, text, kind, of), them in found.items()
        ]
        return some(told, 4)

    def state(self, cause):
        """Returns in words why a dependency isn't met."""
        chain, (_, ask), target = self.chain, cause.of[0], cause.target
        ones = chain.facts.candidates[chain.variables[target].package]
        fitting = [it for it in ones if it in chain.fits(target, ask)]
        return self.left_out(target, fitting) if fitting else there(chain.variables[target].package, ones, ask)

    def left_out(self, target, ones):
        """Returns in words why candidates are left out."""
        causes = {}
        for one in ones:
            causes.setdefault(id(self.chain.causes.get((target, one))), (self.chain.causes.get((target, one)), []))[1].append(one)
        told = [barred(it.of, of) for it, of in causes.values() if it and it.kind == "barred"]
        told += [self.asked(it.of) for it, _ in causes.values() if it and it.kind == "demanded"]
        rest = [one for it, of in causes.values() if not it or it.kind == "unmet" for one in of]
        return " and ".join([*told, *([f"{versions(rest)} can't be chosen"] if rest else [])])

    def of(self, variable):
        """Yields all sentences for a variable that has to be chosen and can't be."""
        yield from self.before(variable)
        facts, package = self.chain.facts, self.chain.variables[variable].package
        groups, ones = self.groups(variable), facts.candidates[package]
        told = [self.asked(it.of) for it, _ in groups if it.kind == "demanded"]
        if self.is_last(variable):
            told += [self.unmet(variable, it, of) for it, of in groups if it.kind == "unmet"]
            told += [barred(it.of, of) for it, of in groups if it.kind == "barred"]
            yield f"Because {' and '.join(told)}, there is no plan."
            return
        if not told:
            told = (
                [self.asked(pairs)]
                if (pairs := self.wanting(variable))
                else [f"`extra-packages` names {package} ({self.chain.extra[variable][0].place()})"]
            )
        told += [barred(it.of, of) for it, of in groups if it.kind == "barred"]
        unmet = [one for it, of in groups if it.kind == "unmet" for one in of]
        told += [f"{versions(unmet)} can't be chosen"] if unmet else []
        told += [there(package, ones)] if len(unmet) < len(ones) or not ones else []
        yield f"Because {' and '.join(told)}, there is no plan."

    def wanting(self, variable):
        """Returns the dependencies of what has to be chosen on a variable."""
        return [
            (one, ask)
            for owner, targets in self.chain.asks.items()
            if owner in self.chain.required
            for one, asks in targets.get(variable, {}).items()
            for ask in asks
        ]


def verb(kind, them):
    """Returns the verb of a sentence on dependencies."""
    many = len({one for one, _ in them}) > 1
    end = "" if many else "s"
    return {"lib": f"depend{end} on", "setup": f"need{end} in the setup script", "tool": f"need{end} the tool"}[kind]


def versions(ones):
    """Returns candidates of one package in words."""
    told = list(dict.fromkeys(it.version for it in ones))
    return f"{ones[0].package} {some(told, 5)}"


def barred(constraint, ones=()):
    """Returns a clause on a constraint and what it bars."""
    return f"{constraint.quoted()} bars {versions(ones) if ones else 'it'}"


def there(package, ones, ask=None):
    """Returns in words what there is of a package."""
    usable = [it for it in ones if not it.why_not]
    if not usable:
        left_out = f" that can be taken ({versions(ones)}: {ones[0].why_not})" if ones else ""
        return f"there is no {package}{left_out}"
    told = []
    for origin in ("local", "installed", "index"):
        of = [it.version for it in usable if it.origin == origin]
        told += [f"{some(dict.fromkeys(of), 5)} {ORIGINS[origin]}"] if of else []
    if ask is not None and not any(has_part(ask, it) for it in usable):
        return f"{package} {some(told)} {'declares' if len(usable) == 1 else 'declare'} no {part_of(ask)}"
    return f"there is only {package} {some(told)}"


def part_of(ask):
    """Returns in words the library or executable that is asked for."""
    return f"executable {ask.part}" if ask.kind == "tool" else f"library {ask.part}" if ask.part else "main library"
