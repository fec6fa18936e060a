"""What the files say of each name of a conflict.

In: the facts, and a chain of sentences if there is one. Out: the lines for each name: what is there, who asks for which
range, what bars it; circles; and what was left out on the way."""

import os

from tool.why.chain import ORIGINS, has_part, of_constraint, part_of, verb, versions
from tool.why.facts import UNREAD
from tool.why.ranges import admits
from tool.why.texts import listed, some

MOST_LINES, MOST_NAMES = 8, 40
MADE = ".plan-folder"


def headline(answer, names):
    """Returns the line that says what is proved."""
    told = some(names, 12)
    return f"no plan: {told} can't be chosen together" if len(names) > 1 else f"no plan: {told} can't be chosen"


def of_names(facts):
    """Yields the lines on the names of a conflict. Where there are too many, those that lack a file come last."""
    names = facts.names
    if len(names) > MOST_NAMES:
        names = sorted(names, key=lambda it: not facts.candidates.get(it.package))
    for name in names[:MOST_NAMES]:
        yield from of_name(facts, name)
    if len(names) > MOST_NAMES:
        yield f"and {len(names) - MOST_NAMES} more names"


def of_name(facts, name):
    """Returns the lines on one name."""
    if name.part:
        return [name.text, *(f"  {it}" for it in of_part(facts, name))]
    told = [*there(facts, name), *asked(facts, name), *barring(facts, name), *twins(facts, name)]
    return [f"{name.text}{meaning(name)}", *(f"  {it}" for it in told)]


def meaning(name):
    """Returns in words under which qualifier a name stands."""
    if name.qualifier.endswith(":setup."):
        return f" (for the setup script of {name.qualifier.split(':')[0]})"
    if name.qualifier:
        owner, tool = name.qualifier.split(":")[:2]
        return f" (for the build tool {tool} of {owner})"
    return ""


def there(facts, name):
    """Yields what there is of a package."""
    ones = facts.candidates[name.package]
    for origin, words in ORIGINS.items():
        of = [it for it in ones if it.origin == origin and not it.why_not]
        if of and origin == "local":
            yield f"{of[0].file}:{of[0].description.version_line}: the local package, version {of[0].version}"
        elif of:
            yield f"{words}: {some(dict.fromkeys(it.version for it in of), 10)}"
    for why_not, of in grouped(((it.why_not, it) for it in ones if it.why_not)).items():
        told = f"{why_not}, as these files are too long: {versions(of)}"
        yield told if why_not == UNREAD else f"not taken: {versions(of)}, {why_not}"
    if not ones:
        yield from absent(facts, name.package)
    yield from tools_of(facts, name, ones)


def absent(facts, package):
    """Yields what to say of a package that isn't there."""
    folder = facts.folder
    alike = folder.alike(package)
    where = f"{folder.index}/{package}"
    yield f"there is no {package}: no file of it in the index ({where}), no record in {folder.installed}, and no local package of this name"
    if alike:
        yield f"spelt alike: {some(alike)}"
    elif is_made(folder):
        yield f"`{folder.index}` was made by `cabal-plan folder` and has what the project reached then: run it again if {package} is new"


def is_made(folder):
    """Returns whether the index was made by `cabal-plan folder`."""
    path = f"{folder.folder}/{folder.index}"
    return os.path.islink(path) and os.readlink(path).startswith(MADE)


def tools_of(facts, name, ones):
    """Yields which executables or libraries a package has, where another one is asked for."""
    for _, ask in facts.by_target.get(name.text, []):
        lacking = [it for it in ones if not it.why_not and not has_part(ask, it)]
        if not lacking:
            continue
        has = dict.fromkeys(
            it for one in lacking if one.description for it in (one.description.executables if ask.kind == "tool" else one.description.libraries)
        )
        kind = "executables" if ask.kind == "tool" else "libraries"
        told = f"it has {some(it or 'the main library' for it in has)}" if has else f"it has no {kind}"
        yield f"{versions(lacking)} {'declares' if len(lacking) == 1 else 'declare'} no {part_of(ask)}: {told}"
        return


def grouped(pairs):
    """Returns the second of pairs by the first, in their order."""
    found = {}
    for key, it in pairs:
        found.setdefault(key, []).append(it)
    return found


def asked(facts, name):
    """Yields who asks for which range of a package, candidates of one package with the same range together."""
    told = grouped(((one.package, ask.kind, ask.text, ask.under()), (one, ask)) for one, ask in facts.by_target.get(name.text, []))
    for count, ((owner, kind, text, under), them) in enumerate(told.items()):
        if count == MOST_LINES:
            yield f"and {len(told) - MOST_LINES} more ranges"
            return
        one, ask = them[0]
        relaxed = ask.owner and ask.range and facts.folder.project.relaxed(owner, name.package)
        note = f"; bounds may be relaxed by {relaxed}" if relaxed else left(facts, name, ask)
        yield f"{ask.place()}: {versions([it for it, _ in them])} {verb(kind, them)} {text}{under}{note}"


def left(facts, name, ask):
    """Returns which versions a range leaves, as the end of a line."""
    there = [it for it in facts.candidates[name.package] if not it.why_not]
    told = [(it, admits(ask.range, it.version)) for it in there]
    if not there or None in (fits for _, fits in told) or all(fits for _, fits in told):
        return ""
    fitting = [it.version for it, fits in told if fits]
    return f": that leaves {some(fitting, 5)}" if fitting else ": no version is in this range"


def barring(facts, name):
    """Yields the constraints on a package and what they bar."""
    there = [it for it in facts.candidates[name.package] if not it.why_not]
    told = [(it, of) for it in facts.constraints(name) for of in [[one for one in there if of_constraint(it, one)]] if of]
    for it, of in told[:MOST_LINES]:
        what = f"all of {versions(of)}" if len(of) == len(there) > 1 else versions(of)
        yield f"{it.quoted()} bars {what}" if it.is_asked else f"{it.place()}: the constraint `{it.text}` bars {what}{origin_of(it.file)}"
    for it in facts.extras(name)[:MOST_LINES]:
        yield f"{it.place()}: `extra-packages` asks for {it.text}"


def origin_of(file):
    """Returns what to say of a project file that is easily forgotten."""
    told = {"cabal.project.freeze": "the freeze file", "cabal.project.local": "the local settings, which are mostly in no repository"}
    return f" ({told[file]})" if file in told else ""


def twins(facts, name):
    """Yields that a package is used in several places."""
    others = [it.text for it in facts.packages if it.package == name.package and it.text != name.text]
    if others and name is next(it for it in facts.packages if it.package == name.package):
        yield f"also chosen as {some(others)}: a version is built once, so its dependencies and flags have to be the same in each"


def of_part(facts, name):
    """Yields what there is on a flag or a stanza of the conflict."""
    project, package = facts.folder.project, name.package
    if name.part in ("*test", "*bench"):
        field, word = {"*test": ("tests", "test"), "*bench": ("benchmarks", "bench")}[name.part]
        place = project.is_true(field)
        told = [f"{place}: `{field}: True` asks for the {'test suites' if word == 'test' else field} of all local packages"] if place else []
        told += [f"{it.place()}: the constraint `{it.text}` asks for them{origin_of(it.file)}" for it in project.on(package) if it.rest == word]
        yield from told or [f"the {'test suites' if word == 'test' else field} of {package}"]
        return
    for one in facts.candidates.get(package, []):
        if one.description and name.part.lower() in one.description.flags:
            yield flag_of(one, name.part.lower())
            break
    for it in facts.constraints(name):
        if name.part.lower() in it.flags():
            yield f"{it.place()}: `{it.text}` sets it {'on' if it.flags()[name.part.lower()] else 'off'}{origin_of(it.file)}"


def default_of(section):
    """Returns whether a flag is on by default."""
    return not any(it.name == "default" and it.text().strip().lower() == "false" for it in section.items if hasattr(it, "values"))


def flag_of(one, flag):
    """Returns the line on a flag of a candidate."""
    section = one.description.flags[flag]
    of = {it.name: it.text().strip().lower() for it in section.items if hasattr(it, "values")}
    default = "on" if default_of(section) else "off"
    manual = ", and manual: only a constraint gives it the other value" if of.get("manual") == "true" else ""
    return f"{one.file}:{section.line}: a flag of {one}, by default {default}{manual}"


def circles(facts):
    """Returns the lines on a circle of dependencies, if there is one."""
    edges = {}
    for owner, target, one, ask in facts.asks:
        edges.setdefault(owner.text, {}).setdefault(target, (one, ask))
    at = circle({key: list(of) for key, of in edges.items()})
    if not at:
        return []
    told = [f"{' -> '.join([*at, at[0]])}: these need each other in a circle, and none can be built first"]
    steps = [(edges[here][there]) for here, there in zip(at, [*at[1:], at[0]])]
    return told + [f"  {ask.place()}: {one} {verb(ask.kind, [(one, ask)])} {ask.text}{ask.under()}" for one, ask in steps[:MOST_LINES]]


def circle(edges):
    """Returns the nodes of a circle in their order, or none. It searches in depth, without recursion."""
    done, path, places = set(), [], {}
    for start in edges:
        open_ = [(start, None)] if start not in done else []
        while open_:
            node, rest = open_.pop()
            if rest is None:
                if node in places or node in done:
                    continue
                places[node], rest = len(path), iter(edges.get(node, []))
                path.append(node)
            further = next((it for it in rest if it not in done), None)
            if further is None:
                done.add(node)
                del places[node]
                path.pop()
                continue
            open_.append((node, rest))
            if further in places:
                return path[places[further] :]
            open_.append((further, None))
    return []


def notes(folder):
    """Returns lines on folders that are missing or empty."""
    found = []
    for word, path in (("installed", folder.installed), ("index", folder.index)):
        whole = f"{folder.folder}/{path}"
        if os.path.islink(whole) and not os.path.exists(whole):
            found.append(f"`{path}` is a dead link: it counts as an empty folder; `cabal-plan folder` makes it anew")
        elif not os.path.isdir(whole):
            found.append(f"there is no folder `{path}`: it counts as an empty one; `cabal-plan folder` makes `index` and `installed`")
        elif not any(it.endswith(".conf") for it in listed(whole)) if word == "installed" else not listed(whole):
            found.append(
                f"the folder `{path}` has no {'records' if word == 'installed' else 'packages'}; `cabal-plan folder` makes `index` and `installed`"
            )
    return found
