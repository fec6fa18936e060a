"""The picture of a plan. In: its object, and which part of it to draw. Out: DOT with the nodes by level. A node is behind
all its needs, and the nodes of one level can be built at the same time."""

from tool.graph import dot
from tool.plans.nodes import Graph
from tool.plans.tree import places_of
from tool.refusal import Refusal

LOOKS = {
    "installed": {"fillcolor": "gray90", "color": "gray60"},
    "store": {"fillcolor": "lightblue", "color": "steelblue"},
    "local": {"fillcolor": "palegreen", "color": "darkgreen", "penwidth": "1.5"},
}
BROKEN = {"fillcolor": "mistyrose", "color": "red", "style": "filled,rounded,dashed"}
TITLE = "Left to right: the order of the build. Grey: installed, blue: store, green: local"
MOST_NODES = 20_000


class Part:
    """Which part of a plan is drawn: what leads to a name, what a name needs, and whether installed units and the edges
    that longer paths imply are left out."""

    def __init__(self, why, needs, has_installed, is_whole):
        self.why, self.needs, self.has_installed, self.is_whole = why, needs, has_installed, is_whole

    def kept(self, graph):
        """Returns the places of the nodes to draw, in build order."""
        kept = set(range(len(graph.nodes)))
        if self.why:
            kept &= graph.reach(places_of(graph, [self.why]), graph.users)
        if self.needs:
            kept &= graph.reach(places_of(graph, [self.needs]), graph.needs)
        if not self.has_installed:
            kept = {at for at in kept if graph.nodes[at].kind != "installed"}
        if len(kept) > MOST_NODES:
            raise Refusal(f"{len(kept)} nodes aren't drawn: --needs=NAME or --why=NAME draws a part")
        return sorted(kept)

    def title(self):
        told = [f"What leads to {self.why}."] * bool(self.why) + [f"What {self.needs} needs."] * bool(self.needs)
        return " ".join([*told, TITLE])


def levels_of(needs, kept):
    """Returns for each level its nodes. A node is one level above its highest need."""
    levels, found = {}, []
    for at in kept:
        levels[at] = max((levels[it] + 1 for it in needs[at] if it in levels), default=0)
        if levels[at] == len(found):
            found.append([])
        found[levels[at]].append(at)
    return found


def look(node):
    label = node.package + f"\n{node.component}" * (node.component != "lib")
    of = {"label": label, **LOOKS.get(node.kind, {})}
    return {**of, **BROKEN, "label": f"{label}\nunbuildable"} if node.is_unbuildable else of


def implied(needs, kept):
    """Yields for each node the needs that a longer path implies, as the bits of their numbers among the kept nodes."""
    bits = {at: 1 << number for number, at in enumerate(kept)}
    below = {}
    for at in kept:
        longer = 0
        for it in needs[at]:
            longer |= below.get(it, 0)
        below[at] = longer
        for it in needs[at]:
            below[at] |= bits.get(it, 0)
        yield at, [it for it in needs[at] if it in bits and longer & bits[it]]


def edges(needs, kept, is_whole):
    """Returns an edge for each need, without those that longer paths imply unless `is_whole`."""
    left_out = {} if is_whole else {at: set(them) for at, them in implied(needs, kept)}
    there = set(kept)
    return [dot.edge(f"n{it + 1}", f"n{at + 1}") for at in kept for it in needs[at] if it in there and it not in left_out.get(at, ())]


def picture(answer, part):
    """Returns the DOT of a plan, or of a part of it."""
    graph = Graph(answer)
    kept, lines = part.kept(graph), []
    for there in levels_of(graph.needs, kept):
        lines += ["  { rank=same;", *("  " + dot.node(f"n{at + 1}", look(graph.nodes[at])) for at in there), "  }"]
    return dot.graph(part.title(), "LR", lines + edges(graph.needs, kept, part.is_whole))
