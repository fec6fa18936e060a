"""Which dependencies are in force: whether conditions hold, as far as the words of a plan and the project's constraints say.

In: the conditions of a dependency, and flags that are set. Out: yes, no, or none where it depends on choices. Like all of
`why` this only explains: what is in force is decided by the program."""

import functools
import re

from tool.folder.conditions import Platform, value
from tool.why.ranges import admits

FLAG = re.compile(r"flag\s*\(\s*([\w-]+)\s*\)", re.I)
IMPL = re.compile(r"impl\s*\(\s*([A-Za-z0-9_-]+)\s*([^()]*)\)", re.I)
SYSTEMS = {"darwin": "osx", "mingw32": "windows", "win32": "windows"}
COMPILER = "ghc-9.4.7"


class Machine:
    """The system, processor and compiler of the words to plan with."""

    def __init__(self, words):
        told = {it.partition("=")[0]: it.partition("=")[2] for it in words}
        system = told.get("--os", "linux").lower()
        self.platform = Platform(SYSTEMS.get(system, system), told.get("--arch", "x86_64").lower())
        self.compiler, _, self.version = told.get("--compiler", COMPILER).lower().rpartition("-")

    @functools.lru_cache(maxsize=1 << 14)
    def holds(self, text, flags):
        """Returns whether a condition holds with these flags: pairs of a name in lower case and whether it is on."""
        known = dict(flags)
        text = FLAG.sub(lambda it: str(known.get(it[1].lower(), it[0])), text)
        return value(IMPL.sub(self.impl, text), self.platform)

    def impl(self, told):
        """Returns a test of the compiler as `True` or `False`, or as it is."""
        if told[1].lower() != self.compiler:
            return "False"
        found = admits(told[2], self.version)
        return told[0] if found is None else str(found)

    def all_hold(self, conditions, flags):
        """Returns whether all conditions hold: each is `if ..` or `not ..`."""
        told = [(it.startswith("if "), self.holds(it.partition(" ")[2], flags)) for it in conditions]
        if any(found is not None and found is not is_if for is_if, found in told):
            return False
        return None if any(found is None for _, found in told) else True


def flags_in(conditions):
    """Returns the flags that conditions name, in lower case."""
    return {it.lower() for text in conditions for it in FLAG.findall(text)}
