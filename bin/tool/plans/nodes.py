"""A plan as a graph of components.

In: the object of a plan. Out: its nodes by their places in build order, what each needs and what needs it, with names
for people: without the digits of identifiers, unless two nodes would have one name."""

import re

from tool.refusal import escaped

DIGITS = re.compile(r"-([0-9a-f]{64})$")
SHORT = 8


class Node:
    """A component: its package and version, component, identifier and kind, and whether it can't be built."""

    def __init__(self, of):
        self.package, self.component, self.id, self.kind = of["package"], of["component"], of["id"], of["kind"]
        self.is_unbuildable = of["unbuildable"]
        self.name, _, self.version = self.package.rpartition("-")

    def plain(self):
        """Returns the name without an identifier."""
        return self.package if self.component == "lib" else f"{self.package} {self.component}"

    def names(self):
        """Returns the names that a user may call it by."""
        return {self.name, self.package, f"{self.name}:{self.component}", f"{self.package}:{self.component}", self.id}

    def short(self):
        """Returns what tells its identifier from others: some digits, or the whole if it has none."""
        found = DIGITS.search(self.id)
        return found[1][:SHORT] if found else "inplace" if self.id.endswith("-inplace") else self.id

    def key(self):
        """Returns a key to sort nodes by their names."""
        return self.name, [int(it) for it in re.findall(r"\d{1,9}", self.version)], self.component != "lib", self.component, self.id


class Graph:
    """The nodes of a plan. `needs` and `users` have for each node the places of others."""

    def __init__(self, plan):
        self.nodes = [Node(it) for it in plan["nodes"]]
        places = {}
        for at, node in enumerate(self.nodes):
            places.setdefault(node.id, at)
        self.needs = [sorted({places[it] for it in of["needs"] if it in places} - {at}) for at, of in enumerate(plan["nodes"])]
        self.users = [[] for _ in self.nodes]
        for at, needs in enumerate(self.needs):
            for it in needs:
                self.users[it].append(at)
        self.counts = {}
        for it in self.nodes:
            self.counts[it.plain()] = self.counts.get(it.plain(), 0) + 1

    def label(self, at):
        """Returns the name of a node: with digits if another one has the same name."""
        node = self.nodes[at]
        return escaped(node.plain() + f" [{node.short()}]" * (self.counts[node.plain()] > 1))

    def named(self, name):
        """Returns the places of the nodes of a name: a package with its version or without, behind it a component, or an
        identifier."""
        return [at for at, it in enumerate(self.nodes) if name in it.names()]

    def roots(self):
        """Returns the places of the local components, and of what else nothing needs, such as extra packages."""
        found = [at for at, it in enumerate(self.nodes) if it.kind == "local" or not self.users[at] and it.kind != "installed"]
        return self.sorted(found or [at for at, users in enumerate(self.users) if not users])

    def sorted(self, places):
        return sorted(places, key=lambda at: self.nodes[at].key())

    @staticmethod
    def reach(places, follow):
        """Returns the places that are reached from these, with these."""
        found, rest = set(places), list(places)
        while rest:
            new = [it for it in follow[rest.pop()] if it not in found]
            found.update(new)
            rest += new
        return found

    def duplicates(self, kept):
        """Returns the places of packages that have several versions, and of components that are there several times."""
        versions, builds = {}, {}
        for at in kept:
            node = self.nodes[at]
            versions.setdefault(node.name, set()).add(node.version)
            builds.setdefault(node.plain(), set()).add(node.id)
        return [at for at in kept if len(versions[self.nodes[at].name]) > 1 or len(builds[self.nodes[at].plain()]) > 1]
