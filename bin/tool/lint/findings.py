"""A finding, the codes, and words that are spelt alike."""

import difflib

CODES = {
    "L101": "a field that cabal doesn't know: it has no effect",
    "L102": "a section that cabal doesn't know: it has no effect",
    "L103": "a line that looks like a field or section, and is a part of the field above it, since it is indented more",
    "L104": "a field outside of the section that it belongs to: it has no effect",
    "L105": "a tab in front of a line: it counts as one column, however wide it looks",
    "L106": "a field that cabal obeys and this program doesn't read",
    "L107": "the name of a file has a character that forges lines or can't be printed: read the program's JSON",
    "L108": "an entry of `optional-packages` that gives no package",
    "L201": "an entry on a package that nothing has: not local, and not in `installed` or `index`",
    "L202": "an entry on a flag that no version of the package has",
    "L301": "the compiler of the plan isn't that of the records",
    "L302": "a folder that is missing or empty",
    "L303": "a file that can't be read",
    "L304": "a file with more findings than are told",
}
# The most words for which a known one is looked up.
MOST_SPELT = 200


class Finding:
    """A finding: the file and line, the code, and the text."""

    def __init__(self, file, line, code, text):
        self.file, self.line, self.code, self.text = file, line, code, text

    def __str__(self):
        return f"{self.file}:{self.line}: {self.code} {self.text}"

    def object(self):
        return {"file": self.file, "line": self.line, "code": self.code, "text": self.text}


class Speller:
    """Finds the nearest known word, for a limited number of words: more would take long, and nobody reads them."""

    def __init__(self):
        self.told = {}

    def nearest(self, word, known):
        """Returns the end of a text with the nearest known word, if there is one."""
        if word not in self.told and len(self.told) < MOST_SPELT:
            found = difflib.get_close_matches(word[:60], sorted(known), 1, 0.7)
            self.told[word] = f": did you mean `{found[0]}`?" if found else ""
        return self.told.get(word, "")
