"""What the root file of a crate exports: the name of each item, the module or crate that it comes from, and its name there."""

import re
from typing import NamedTuple

from tool.refusal import Refusal

USE = re.compile(r"^pub use ([^;]+);", re.M)
ITEM = re.compile(r"^pub (?:(?:final|const|unsafe)\s+)*(mod|fn|struct|enum|trait|type|const|static)\s+(\w+)", re.M)
MACRO = re.compile(r"^#\[macro_export\]\s*macro_rules!\s*(\w+)", re.M)
PIECE = re.compile(r"\s*(::|[{},]|\w+|\S)")


class Export(NamedTuple):
    """An exported item: its module or crate (none: the root file itself), its name there, and the name under which it is exported."""

    origin: str
    defined: str
    name: str

    def shown(self, modules):
        """Returns the text of the item: its name, with that of the crate in front of another crate's, and the name in its module if it differs."""
        crate = self.origin.split("::")[0]
        of = f"{crate}::" * (bool(crate) and crate not in modules)
        return f"{of}{self.name}" if self.name == self.defined else f"{of}{self.defined} as {self.name}"


def leaves(pieces, path=()):
    """Yields the items of a `use` tree, and takes its pieces up to the `}` or the end that closes it."""
    at, name = list(path), ""
    while pieces:
        piece = pieces.pop(0)
        if piece == "{":
            yield from leaves(pieces, at)
            at, name = list(path), ""
        elif piece == "::":
            continue
        elif piece in (",", "}"):
            if at[len(path) :]:
                yield Export("::".join(at[:-1]), at[-1], name or at[-1])
            at, name = list(path), ""
            if piece == "}":
                return
        elif piece == "as":
            name = pieces.pop(0)
        elif re.fullmatch(r"\w+", piece):
            at.append(piece)
        else:
            raise Refusal(f"a root file exports {'::'.join([*at, piece])}: each name has to be written out")
    if at[len(path) :]:
        yield Export("::".join(at[:-1]), at[-1], name or at[-1])


def exported(root):
    """Returns what a root file exports, in the order of the file."""
    text = "\n".join(line.split("//")[0] for line in root.split("\n"))
    found = [it for tree in USE.findall(text) for it in leaves(PIECE.findall(tree))]
    return found + [Export("", name, name) for _, name in ITEM.findall(text)] + [Export("", name, name) for name in MACRO.findall(text)]


def modules(root):
    """Returns the modules that a root file declares."""
    return set(re.findall(r"^(?:pub(?:\(\w+\))? )?mod (\w+)", root, re.M))
