"""Findings in a local package file."""

from tool.elements import Field
from tool.lint.findings import Finding
from tool.lint.known import BRANCHES, SECTIONS, TOP, UNREAD_HERE
from tool.lint.layout import of_swallowed, tabs
from tool.why.texts import some

FIELDS = TOP.union(*SECTIONS.values())


class Package:
    """A local package file, and what is wrong with it."""

    def __init__(self, file, items, text, speller):
        self.file, self.items, self.text, self.nearest = file, items, text, speller.nearest

    def finding(self, it, code, text):
        return Finding(self.file, it.line, code, text)

    def findings(self):
        """Yields the findings."""
        yield from of_swallowed(self.file, self.items, self.text, FIELDS)
        yield from tabs(self.file, self.text)
        for it in self.items:
            if isinstance(it, Field):
                yield from self.of_top(it)
            elif it.name in SECTIONS:
                yield from self.of_section(it, it.name, f"{it.name} {it.args}".strip())
            else:
                yield self.finding(it, "L102", f"there is no section `{it.name}`{self.nearest(it.name, SECTIONS)}")

    def of_top(self, field):
        """Yields what is wrong with a field of the package."""
        if field.name in TOP or field.name.startswith("x-"):
            return
        if field.name in FIELDS:
            yield self.finding(
                field, "L104", f"`{field.name}:` stands outside of any section, such as `library`, and isn't read: indent it below one"
            )
        else:
            yield self.finding(field, "L101", f"there is no field `{field.name}` of a package{self.nearest(field.name, FIELDS)}")

    def of_section(self, section, kind, told):
        """Yields what is wrong with the fields of a section, in its branches too."""
        open_ = list(reversed(section.items))
        while open_:
            it = open_.pop()
            if isinstance(it, Field):
                yield from self.of_field(it, kind, told)
            elif it.name in BRANCHES:
                open_.extend(reversed(it.items))
            elif it.name in SECTIONS:
                yield self.finding(it, "L104", f"`{f'{it.name} {it.args}'.strip()}` stands in `{told}`: begin its line further to the left")
            else:
                yield self.finding(it, "L102", f"there is no section `{it.name}` in `{told}`{self.nearest(it.name, [*BRANCHES, *SECTIONS[kind]])}")

    def of_field(self, field, kind, told):
        """Yields what is wrong with a field of a section."""
        if field.name in SECTIONS[kind] or field.name.startswith("x-"):
            if field.name in UNREAD_HERE:
                yield self.finding(field, "L106", f"`{field.name}` is unread: {UNREAD_HERE[field.name]}")
        elif field.name in FIELDS:
            of = [f"`{it}`" for it in SECTIONS if field.name in SECTIONS[it] and it != "common"]
            where = "the package" if field.name in TOP else some(of)
            yield self.finding(field, "L104", f"`{field.name}:` isn't a field of `{told}`, and isn't read: it is one of {where}")
        else:
            yield self.finding(field, "L101", f"there is no field `{field.name}`{self.nearest(field.name, SECTIONS[kind])}")
