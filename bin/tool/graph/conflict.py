"""The picture of a conflict. In: the variables in the JSON of `no plan`, and the folder's files, since the JSON has no
ranges. Out: DOT with a node for each variable of the conflict, an edge for each range between two of them, and one for
each constraint of the project that bars values of one of them."""

import re

from tool.graph import dot
from tool.graph.barred import barring
from tool.graph.circles import circles
from tool.refusal import Refusal
from tool.why.chain import has_part
from tool.why.facts import Facts, Folder

# The most lines of ranges at an edge, versions at a node, and variables of a conflict.
RANGES, VERSIONS, MOST_NAMES = 4, 6, 300
TITLE = "No plan: these cannot be chosen together. An arrow is what one asks of another"
WITHOUT_FILES = "No plan: these cannot be chosen together. The folder's files say nothing of them, so no ranges are shown"
TWIN = {"label": "one version is built once", "style": "dotted", "arrowhead": "none"}
CIRCLE = {"color": "red", "penwidth": "2", "fontcolor": "red"}
CONSTRAINT = {"style": "dashed", "color": "steelblue", "fontcolor": "steelblue"}
# The names that are those of their nodes, too.
PLAIN = re.compile(r"[\w:.*-]{1,200}", re.A)
# The distance of labels in a row: at a smaller one they read as one.
APART = "0.5"


def apart(lines):
    """Returns the label of an edge with free room at both sides, so that it isn't read on into another one."""
    return "\n".join(f"  {it}  " for it in lines)


def some(of, most):
    return of if len(of) <= most else [*of[: most - 1], f"and {len(of) - most + 1} more"]


def shown(one):
    """Returns a version with what has to be said of it."""
    if one.why_not:
        return f"{one.version} {'skipped' if 'skipped' in one.why_not else 'not taken'}"
    return one.version if one.origin == "index" else f"{one.version} {one.origin}"


def what(ask):
    """Returns a dependency in words: the executable of a tool, the range, and the places around it."""
    executable = f"executable {ask.part}, " * (ask.kind == "tool")
    places = [ask.component] * (ask.component != "library") + list(ask.conditions)
    return executable + (ask.range or "any version") + f" ({', '.join(places)})" * bool(places)


def label(found, is_relaxed):
    """Returns the label of an edge: each range once, with the versions of the owner that have it."""
    lines = {}
    for one, ask in found:
        version = one.version if one.origin != "installed" else f"{one.version} installed"
        lines.setdefault(what(ask), {})[version] = None
    told = [f"{', '.join(some(list(who), VERSIONS))}: {text}" for text, who in lines.items()]
    return apart([*some(told, RANGES), *[f"relaxed: {is_relaxed}"] * bool(is_relaxed)])


class Picture:
    """A conflict: its variables with the names of their nodes, and what the folder says of them."""

    def __init__(self, answer, folder):
        names = list(dict.fromkeys(answer["conflict"]))
        if len(names) > MOST_NAMES:
            raise Refusal(f"a conflict of {len(names)} names isn't drawn: `plan --minimize-conflict-set` leaves out what isn't needed")
        self.ids = {it: it if PLAIN.fullmatch(it) else f"#{number}" for number, it in enumerate(names, 1)}
        self.folder, self.facts = folder, Facts(folder, names, answer.get("skipped", []))
        self.asks = {}
        for owner, other, one, ask in self.facts.asks:
            self.asks.setdefault((owner.text, other), []).append((one, ask))

    def versions(self, name):
        """Returns the versions of a package, each with what it lacks of what is asked for."""
        asks, found = {(ask.kind, ask.part): ask for _, ask in self.facts.by_target.get(name.text, ())}.values(), []
        for one in self.facts.candidates[name.package]:
            lacks = sorted({ask.part for ask in asks if ask.kind == "tool" and not one.why_not and not has_part(ask, one)})
            found.append(shown(one) + f" (no executable {', '.join(lacks)})" * bool(lacks))
        return some(found, VERSIONS) or ["no file of it"]

    def nodes(self):
        """Yields the node of each variable."""
        for it in self.facts.names:
            if it.part:
                of = {"label": it.text, "shape": "ellipse", "style": "filled", "fillcolor": "lightyellow", "color": "goldenrod"}
            else:
                between = "\n" if it.qualifier.endswith(":exe.") else ", "
                of = {"label": f"{it.text}\n{between.join(self.versions(it))}", "fillcolor": "mistyrose", "color": "firebrick"}
            yield dot.node(self.ids[it.text], of)

    def edges(self, red):
        """Yields the edges between packages, each with its ranges, and those that make a circle in red."""
        for (one, other), found in self.asks.items():
            owner = next((ask.owner.name for _, ask in found if ask.owner and ask.kind != "tool"), None)
            is_relaxed = owner and self.folder.project.relaxed(owner, found[0][1].name)
            yield dot.edge(self.ids[one], self.ids[other], {"label": label(found, is_relaxed), **(CIRCLE if (one, other) in red else {})})

    def parts(self):
        """Yields an edge from each package to its flags and stanzas."""
        for it in self.facts.names:
            if it.part and it.qualifier + it.package in self.ids:
                yield dot.edge(self.ids[it.qualifier + it.package], self.ids[it.text], {"style": "dotted", "arrowhead": "none"})

    def twins(self):
        """Yields an edge between the qualifiers under which a package is chosen: choices of one version are built once."""
        first = {}
        for it in self.facts.names:
            if first.setdefault((it.package, it.part), it) is not it:
                yield dot.edge(self.ids[first[it.package, it.part].text], self.ids[it.text], TWIN)

    def constraints(self):
        """Yields a node for each file of the project that bars something, with its edges."""
        found = {}
        for name in self.facts.names:
            for file, text in barring(self.facts, name):
                found.setdefault((file, name.text), []).append(text)
        for file in dict.fromkeys(file for file, _ in found):
            yield dot.node(f"#{file}", {"label": file, "shape": "note", "style": "filled", "fillcolor": "white"})
        for (file, name), lines in found.items():
            yield dot.edge(f"#{file}", self.ids[name], {"label": apart(some(lines, RANGES)), **CONSTRAINT})

    def text(self):
        """Returns the DOT."""
        red = circles(self.asks)
        lines = [*self.nodes(), *self.edges(red), *self.parts(), *self.twins(), *self.constraints()]
        title = TITLE if any(self.facts.candidates.values()) else WITHOUT_FILES
        return dot.graph(title + ". Red: they need each other in a circle" * bool(red), "TB", lines, APART)


def picture(answer, folder, words):
    """Returns the DOT of a conflict of a folder that was planned with these words."""
    return Picture(answer, Folder(folder, words)).text()
