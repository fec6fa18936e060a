"""The variables of a plan or a conflict: `text`, `text:fast`, `app:*test`, `app:setup.text`, `app:happy:exe.text`."""

import re

FORM = re.compile(r"((?:[\w-]+:setup\.|[\w-]+:[\w-]+:exe\.)?)([\w-]+)(?::(.+))?", re.S)
STANZAS = {"*test": "tests", "*bench": "benchmarks"}


class Variable:
    """A variable: its text, the qualifier up to its last `:` or `.`, the package, and the flag or stanza, or none."""

    def __init__(self, text):
        found = FORM.fullmatch(text)
        self.text, (self.qualifier, self.package, self.part) = text, found.groups() if found else ("", text, None)

    def of(self):
        """Returns the variable of its package."""
        return self.qualifier + self.package
