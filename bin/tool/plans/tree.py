"""`cabal-plan tree`: shows a plan as a tree of dependencies."""

import argparse
import difflib
import sys

from tool.ends import say
from tool.plans import answers
from tool.plans.nodes import Graph
from tool.planner import Words
from tool.refusal import Refusal, shown

WORD = "tree"
# Below this depth a branch ends with `..`: else the lines of a chain grow with the square of its length.
DEEPEST = 100
# The names that are compared with a misspelt one are shorter.
LONGEST = 60
KINDS = {"installed": " (installed)", "local": " (local)"}
MARKS = {True: ("├── ", "└── ", "│   ", "    "), False: ("|-- ", "`-- ", "|   ", "    ")}
TEXT = """The roots are the local components, and the packages of `extra-packages`. `(*)` stands behind a component whose
needs were shown before, `(installed)` behind a unit that is there, `(unbuildable)` where a build would stop. Names are
without the digits of identifiers; `[8 digits]` tells builds of one version apart.

    cabal-plan tree app                    what app needs
    cabal-plan tree --invert bytes         what needs bytes
    cabal-plan tree --duplicates           packages with several versions or builds, and what needs them

The status is 0. Where there is no plan it is that of the program, whose answer is printed in one line."""


def depth(text):
    if not text.isdecimal() or len(text) > 9:
        raise argparse.ArgumentTypeError("it takes a number")
    return int(text)


def words_of(words):
    parser = Words(WORD, description=TEXT)
    parser.add_argument("names", metavar="NAME", nargs="*", help="only what these need: NAME, NAME-VERSION, with :COMPONENT or without")
    parser.add_argument("--invert", metavar="NAME", action="append", default=[], help="what needs NAME, in place of what it needs; may be repeated")
    parser.add_argument("--depth", metavar="N", type=depth, help=f"show N levels below the roots; else {DEEPEST}")
    parser.add_argument("--duplicates", action="store_true", help="only packages with several versions or builds, inverted")
    parser.add_argument("--no-installed", action="store_true", help="leave installed units out")
    answers.add_source(parser)
    return answers.checked(parser, parser.parse_args(words))


class Tree:
    """A way to walk a plan: along the needs of nodes or back, among the kept nodes."""

    def __init__(self, graph, follow, kept, most):
        self.graph, self.follow, self.kept, self.most, self.shown, self.sorted = graph, follow, kept, most, set(), {}
        self.marks = MARKS[(getattr(sys.stdout, "encoding", None) or "").lower().replace("-", "") == "utf8"]

    def below(self, at):
        """Returns the places that a node leads to, by name."""
        if at not in self.sorted:
            self.sorted[at] = self.graph.sorted(it for it in self.follow[at] if it in self.kept)
        return self.sorted[at]

    def text(self, at):
        node = self.graph.nodes[at]
        return self.graph.label(at) + KINDS.get(node.kind, "") + " (unbuildable)" * node.is_unbuildable

    def lines(self, root):
        """Yields the lines of the tree of a root. What a node leads to is shown once."""
        branch, last, through, free = self.marks
        rest = [(root, "", "", 0)]
        while rest:
            at, lead, indent, level = rest.pop()
            below = self.below(at)
            again, is_cut = at in self.shown and below, level >= self.most
            yield lead + self.text(at) + (" (*)" if again else " .." if is_cut and below and self.most == DEEPEST else "")
            if not again and not is_cut:
                self.shown.add(at)
                for it in reversed(below):
                    is_last = it == below[-1]
                    rest.append((it, indent + (last if is_last else branch), indent + (free if is_last else through), level + 1))


def places_of(graph, names):
    """Returns the places of the nodes of these names. Each has one."""
    places = []
    for name in names:
        here = graph.named(name)
        if not here:
            near = difflib.get_close_matches(name, {it.name for it in graph.nodes if len(it.name) < LONGEST}, 1, 0.6) if len(name) < LONGEST else []
            raise Refusal(f"the plan has no {shown(name)}" + (f": did you mean {shown(near[0])}?" if near else ""))
        places += here
    return graph.sorted(set(places))


def roots_of(graph, of, kept):
    """Returns the places where trees begin."""
    if of.invert:
        found = places_of(graph, of.invert)
    else:
        found = kept if of.duplicates else places_of(graph, of.names) if of.names else graph.roots()
    found = [at for at in found if at in kept]
    return graph.sorted(graph.duplicates(found)) if of.duplicates else found


def trees(graph, of):
    """Yields the lines of each tree."""
    kept = graph.reach(places_of(graph, of.names), graph.needs) if of.names else set(range(len(graph.nodes)))
    if of.no_installed:
        kept = {at for at in kept if graph.nodes[at].kind != "installed"}
    follow = graph.users if of.duplicates or of.invert else graph.needs
    tree = Tree(graph, follow, kept, DEEPEST if of.depth is None else of.depth)
    for root in roots_of(graph, of, kept):
        yield tree.lines(root)


def main(words):
    of = words_of(words)

    def body():
        graph = Graph(answers.given(of, WORD))
        is_first = True
        for lines in trees(graph, of):
            if not is_first:
                print()
            is_first = False
            for line in lines:
                print(line)
        if is_first:
            say(f"cabal-plan {WORD}", "there is nothing to show")
        return 0

    return answers.run(WORD, body)
