"""The shortest ways from local packages to a package of the plan.

In: the plan's nodes and a name, with a version or without. Out: one way for each local component, the shortest first; or
who names the package, where it isn't in the plan."""

import re

from tool.why.force import flags_in
from tool.why.packages import Description
from tool.why.texts import some, text_of

NAMED = re.compile(r"(.+?)-([0-9]+(?:\.[0-9]+)*)")
MOST_WAYS = 10


def parsed(text):
    """Returns the name and version of a word, the version or none."""
    told = NAMED.fullmatch(text)
    return (told[1], told[2]) if told else (text, None)


def split(package):
    """Returns the name and version of a node's package."""
    name, _, version = package.rpartition("-")
    return name, version


def chosen(answer, name, version):
    """Returns whether a version of a package is in the plan."""
    return any(split(it["package"]) == (name, version) for it in answer.object["nodes"])


def label(node, is_last):
    """Returns a node in words: its package, and its component unless that is a main library."""
    name, version = split(node["package"])
    component = "" if node["component"] in ("lib", "package") else f":{node['component']}"
    return f"{name}{component} {version}{' (installed)' if is_last and node['kind'] == 'installed' else ''}"


def needs_of(nodes):
    """Returns for each node the places of its needs. An identifier of two nodes means the earlier one."""
    places = {}
    for at, node in enumerate(nodes):
        places.setdefault(node["id"], at)
    return [list(dict.fromkeys(places[it] for it in node["needs"] if it in places and places[it] != at)) for at, node in enumerate(nodes)]


def shortest(nodes, name, version):
    """Returns for each node the next one on a shortest way to the package, and its length, in order of length."""
    users = [[] for _ in nodes]
    for at, needs in enumerate(needs_of(nodes)):
        for need in needs:
            users[need].append(at)
    open_ = [at for at, it in enumerate(nodes) if split(it["package"])[0] == name and version in (None, split(it["package"])[1])]
    following = dict.fromkeys(open_)
    for at in open_:
        for user in users[at]:
            if user not in following:
                following[user] = at
                open_.append(user)
    return open_, following


def unused(folder, answer, name):
    """Yields the dependencies on a package that isn't in the plan: they stand under conditions that don't hold."""
    values = {it["var"]: it["value"] for it in answer.object["choices"]}
    for package in dict.fromkeys(it["package"] for it in answer.object["nodes"] if it["kind"] != "installed"):
        owner, version = split(package)
        file = f"{folder.index}/{owner}/{version}/{owner}.cabal"
        of = folder.local.get(owner) or Description(text_of(f"{folder.folder}/{file}") or "", file)
        for ask in (it for it in of.asks if it.name == name):
            told = [f"{owner}:{it}" for it in [*sorted(flags_in(ask.conditions)), *([ask.stanza] if ask.stanza else [])]]
            flags = [f"{it} is {values[it]}" for it in told if it in values]
            yield f"  {ask.place()}: {owner} {version} names {ask.text}{ask.under()}, which isn't in force{f': {some(flags)}' if flags else ''}"


def lines(folder, answer, name, version):
    """Returns the status and the lines for a name."""
    nodes = answer.object["nodes"]
    order, following = shortest(nodes, name, version)
    if not order:
        there = dict.fromkeys(split(it["package"])[0] for it in nodes)
        alike = [it for it in there if it.lower() == name.lower()] or [it for it in there if name.lower() in it.lower()]
        named = list(unused(folder, answer, name))[:MOST_WAYS]
        why = ", though these name it:" if named else f": there is {some(alike)}" if alike else ": no chosen package names it"
        return 1, [f"{name} isn't in the plan{why}", *named]
    found = []
    for at in (it for it in order if nodes[it]["kind"] == "local"):
        way = [at]
        while following[way[-1]] is not None:
            way.append(following[way[-1]])
        found.append(" -> ".join(label(nodes[it], it == way[-1]) for it in way))
    ways = [it for it in dict.fromkeys(found) if " -> " in it]
    versions = dict.fromkeys(split(nodes[at]["package"])[1] for at in order if split(nodes[at]["package"])[0] == name)
    told = " is local, and so it" if name in folder.local else ""
    head = f"{name} {some(versions)}{told} is in the plan"
    if not ways:
        return 0, [head if told else f"{head}, and no local component leads to it: it is of extra-packages"]
    more = [f"and {len(ways) - MOST_WAYS} more ways"] * (len(ways) > MOST_WAYS)
    return 0, [head, *(f"  {it}" for it in ways[:MOST_WAYS]), *more]
