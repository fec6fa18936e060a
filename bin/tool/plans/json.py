"""`cabal-plan json`: prints a plan in the form of cabal's plan.json.

In: the object of a plan, and the words it was planned with. Out: the keys of cabal's file that can be derived from them."""

import json

from tool.ends import say
from tool.plans import answers
from tool.plans.nodes import Graph
from tool.plans.variables import Variable
from tool.planner import Words

WORD = "json"
SYSTEMS = {"darwin": "osx", "mingw32": "windows", "win32": "windows"}
DEFAULTS = {"--compiler": "ghc-9.4.7", "--os": "linux", "--arch": "x86_64"}
STYLES = {"local": "local", "store": "global"}
WHOLE = "package"
TEXT = """Of the whole: `compiler-id`, `os` and `arch`, which are those of the words, and `install-plan`. Of a unit: `type`, `id`,
`pkg-name`, `pkg-version`, `depends`; of one that isn't installed also `style`, `flags`, `exe-depends` and `component-name`.

- Units are those that the plan needs, in build order. cabal lists some more libraries and executables.
- Identifiers of the store are others than cabal's.
- A package with a setup script has no `components`: `depends` and `exe-depends` are those of all of them together.
- Not derived: `cabal-version`, `cabal-lib-version`, and where sources and built files are.

The status is 0. Where there is no plan it is that of the program, whose answer is printed in one line."""


def words_of(words):
    parser = Words(WORD, description=TEXT)
    answers.add_source(parser)
    return answers.checked(parser, parser.parse_args(words))


class Choices:
    """The choices of a plan: for each qualifier and package the version, and the flags."""

    def __init__(self, plan):
        self.versions, self.flags, self.places = {}, {}, {}
        for it in plan["choices"]:
            variable, words = Variable(it["var"]), it["value"].split()
            if variable.part is None and words:
                self.versions[it["var"]] = words[0]
                self.places.setdefault((variable.package, words[0]), []).append(variable)
            elif variable.part and not variable.part.startswith("*"):
                self.flags.setdefault(variable.of(), {})[variable.part] = it["value"] == "on"

    def of(self, node, needs):
        """Returns the flags of a node that needs these, or none if several are possible: its package may be chosen more
        than once, with other dependencies each time."""
        places = self.places.get((node.name, node.version), [])
        if len(places) > 1:
            places = [it for it in places if all(self.versions.get(it.qualifier + other.name, other.version) == other.version for other in needs)]
        found = [self.flags.get(it.text, {}) for it in places]
        return found[0] if found and all(it == found[0] for it in found) else None

    def is_tool(self, node, owner):
        """Returns whether a package that is built as a whole was chosen as a tool of another one."""
        return self.versions.get(f"{owner.name}:{node.name}:exe.{node.name}") == node.version


def near_local(graph):
    """Returns the places of the nodes from which a local one is reached."""
    return graph.reach([at for at, it in enumerate(graph.nodes) if it.kind == "local"], graph.users)


def unit(graph, at, choices, is_near):
    """Returns the unit of a node, and whether its flags are known."""
    node, needs = graph.nodes[at], [graph.nodes[it] for it in graph.needs[at]]
    of = {"id": node.id, "pkg-name": node.name, "pkg-version": node.version}
    if node.kind == "installed":
        return {**of, "type": "pre-existing", "depends": sorted(it.id for it in needs)}, True
    tools = [it for it in needs if it.component.startswith("exe:") or it.component == WHOLE and choices.is_tool(it, node)]
    flags = choices.of(node, [it for it in needs if it not in tools])
    of.update({"type": "configured", "style": "inplace" if is_near and node.kind != "local" else STYLES.get(node.kind, node.kind)})
    of.update({"depends": sorted(it.id for it in needs if it not in tools), "exe-depends": sorted(it.id for it in tools)})
    if flags is not None:
        of["flags"] = flags
    if node.component != WHOLE:
        of["component-name"] = node.component
    return of, flags is not None


def plan_json(plan, planning):
    """Returns a plan in cabal's form, and the names of the units whose flags aren't known."""
    graph, choices = Graph(plan), Choices(plan)
    given = {**DEFAULTS, **dict(it.partition("=")[::2] for it in planning)}
    near, found, unknown = near_local(graph), [], []
    for at, node in enumerate(graph.nodes):
        of, is_known = unit(graph, at, choices, at in near)
        found.append(of)
        unknown += [] if is_known else [node.plain()]
    system = given["--os"].lower()
    return {"arch": given["--arch"].lower(), "compiler-id": given["--compiler"], "install-plan": found, "os": SYSTEMS.get(system, system)}, unknown


def main(words):
    of = words_of(words)

    def body():
        found, unknown = plan_json(answers.given(of, WORD), of.planning)
        if unknown:
            say(f"cabal-plan {WORD}", f"without flags, since they are chosen more than once with other ones: {', '.join(unknown[:10])}")
        print(json.dumps(found, sort_keys=True, separators=(",", ":")))
        return 0

    return answers.run(WORD, body)
