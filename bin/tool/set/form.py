"""The file of a set: which targets, compilers and settings are asked, and in which combinations.

Input: the path of a TOML file. Output: a `Form`. Wrong keys and values are refused with the file and the key."""

import importlib
import os
import re

from tool.input import content
from tool.names import is_name
from tool.refusal import Refusal, shown
from tool.words import nearest, wrong

# The keys of each table, each with the form of its value.
TOP = {
    "index": "text", "newest": "number", "older-headers": "flag", "shrink": "flag", "pairs": "pairs",
    "targets": "tables", "compilers": "table", "settings": "table",
}  # fmt: skip
SOURCES = {"project": "text", "package": "text", "pattern": "text", "list": "text", "all": "flag"}
TARGET = {**SOURCES, "versions": "versions", "wanted": "flag", "bounds": "flag"}
COMPILER = {"records": "text", "ghc": "text", "store": "flag", "words": "texts", "wanted": "flag"}
LISTS = ("constraints", "preferences", "flags", "allow-newer", "allow-older")
SWITCHES = ("tests", "benchmarks", "prefer-oldest", "allow-boot-library-installs")
SETTING = {**dict.fromkeys(LISTS, "texts"), **dict.fromkeys(SWITCHES, "flag"), "max-backjumps": "limit", "count-conflicts": "flag", "wanted": "flag"}
FORMS = {
    "text": "a text", "texts": "a list of texts", "flag": "true or false", "number": "a number from 1", "limit": "a number, or -1",
    "table": "a table", "tables": "a list of tables", "versions": '"latest", "each", or a list of versions',
    "pairs": "a list of pairs of a compiler and a setting",
}  # fmt: skip
LATEST, EACH = "latest", "each"
# The name of a compiler or a setting, and the options of a compiler's words.
NAME = re.compile(r"[A-Za-z0-9][A-Za-z0-9._+-]*")
OF_COMPILER = ("--compiler=", "--os=", "--arch=")
PLACE = re.compile(r" \(at (?:line (\d+), column \d+|end of document)\)$")
NEEDED = "needs Python 3.11, or the package python3-tomli"


def reader(path):
    """Returns the module that reads TOML."""
    for name in ("tomllib", "tomli"):
        try:
            return importlib.import_module(name)
        except ImportError:
            continue
    raise Refusal(f"reading {shown(path)} {NEEDED}")


def is_text(value):
    return isinstance(value, str) and value != "" and all(it >= " " and it != "\x7f" for it in value)


def is_texts(value):
    return isinstance(value, list) and all(map(is_text, value))


def is_of(form, value):
    """Returns whether a value has a form."""
    if form in ("number", "limit"):
        least = 1 if form == "number" else -1
        return isinstance(value, int) and not isinstance(value, bool) and least <= value < 10**9
    if form == "versions":
        return value in (LATEST, EACH) or (is_texts(value) and value != [] and all(is_name(it, "version") for it in value))
    if form == "pairs":
        return isinstance(value, list) and all(is_texts(it) and len(it) == 2 for it in value)
    if form == "tables":
        return isinstance(value, list) and all(isinstance(it, dict) for it in value)
    kinds = {"text": is_text, "texts": is_texts, "flag": lambda it: isinstance(it, bool), "table": lambda it: isinstance(it, dict)}
    return kinds[form](value)


def checked(table, keys, where):
    """Returns a table whose keys are known and whose values have their forms."""
    for key, value in table.items():
        if key not in keys:
            raise Refusal(f"{where}has no key {shown(key)}{nearest(key, list(keys))}")
        if not is_of(keys[key], value):
            raise Refusal(f"{where}{key} takes {FORMS[keys[key]]}")
    return table


class Target:
    """An entry of `targets`: where it is from, which versions, and whether plans are wanted and bounds are asked."""

    def __init__(self, table, where):
        kinds = [it for it in SOURCES if it in table]
        if len(kinds) != 1:
            raise Refusal(f"{where}takes one of {', '.join(SOURCES)}")
        self.kind, self.where, self.is_wanted, self.has_bounds = kinds[0], where, table.get("wanted", True), table.get("bounds", False)
        self.value, self.versions = table[self.kind], table.get("versions", LATEST)
        if self.kind == "project" and "versions" in table:
            raise Refusal(f"{where}versions: a project has only the one that is there")
        if self.kind == "all" and not self.value:
            raise Refusal(f"{where}all takes true")


class Setting:
    """A setting: its name, the lines that it adds to the project, and its words."""

    def __init__(self, name, table):
        self.name, self.is_wanted = name, table.get("wanted", True)
        entries = [("constraints" if key == "flags" else key, it) for key in LISTS for it in table.get(key, ())]
        self.lines = [f"{key}: {it}" for key, it in entries] + [f"{key}: {table[key]}" for key in SWITCHES if key in table]
        self.words = [f"--max-backjumps={table['max-backjumps']}"] if "max-backjumps" in table else []
        self.words += ["--count-conflicts"] if table.get("count-conflicts") else []

    def with_lines(self, end, lines):
        """Returns this setting with more lines, under a name with this end."""
        found = Setting(f"{self.name}:{end}", {"wanted": False})
        found.lines, found.words = [*self.lines, *lines], self.words
        return found


class Compiler:
    """A compiler: its name, where its records are from, and its words."""

    def __init__(self, name, table, where):
        self.name, self.is_wanted, self.where = name, table.get("wanted", True), where
        self.records, self.ghc, self.has_store, self.words = table.get("records"), table.get("ghc"), table.get("store", True), table.get("words", [])
        if (self.records is None) == (self.ghc is None):
            raise Refusal(f"{where}takes either records or ghc")
        if self.ghc is not None and self.words:
            raise Refusal(f"{where}words: the ghc says them")
        for text in [text for _, text in wrong(["plan", *self.words])][:1]:
            raise Refusal(f"{where}words: {shown(text)}")
        for it in self.words:
            if not it.startswith(OF_COMPILER):
                raise Refusal(f"{where}words: {shown(it)} isn't one of {', '.join(OF_COMPILER)}")
        if self.ghc is None and not any(it.startswith("--compiler=") for it in self.words):
            raise Refusal(f"{where}words: it has no --compiler=NAME-VERSION")


class Form:
    """What a file asks for."""

    def __init__(self, path, table):
        self.path, self.folder, self.where = path, os.path.dirname(os.path.abspath(path)), f"{shown(path)}: "
        checked(table, TOP, self.where)
        self.index, self.newest = table.get("index"), table.get("newest")
        self.is_rewritten, self.is_shrunk = table.get("older-headers", False), table.get("shrink", True)
        self.targets = [Target(checked(it, TARGET, at), at) for number, it in enumerate(table.get("targets", []), 1) for at in [f"{self.where}targets[{number}]: "]]
        self.compilers = [Compiler(name, it, at) for name, it, at in self.named(table, "compilers", COMPILER)]
        settings = table.get("settings") or {"default": {}}
        self.settings = [Setting(name, it) for name, it, _ in self.named({"settings": settings}, "settings", SETTING)]
        for name, found in (("targets", self.targets), ("compilers", self.compilers)):
            if not found:
                raise Refusal(f"{self.where}it has no {name}")
        self.pairs = self.paired(table.get("pairs"))
        # What rewrites the files of projects with older headers, once that is known.
        self.rewrite = None

    def named(self, table, key, keys):
        """Yields the tables of compilers or settings, each with its name and its place."""
        for name, it in table.get(key, {}).items():
            where = f"{self.where}{key}.{shown(name)}: "
            if not NAME.fullmatch(name):
                raise Refusal(f"{where}a name has letters, digits, `.`, `_`, `+` and `-`")
            if not isinstance(it, dict):
                raise Refusal(f"{where}it takes a table")
            yield name, checked(it, keys, where), where

    def paired(self, pairs):
        """Returns the pairs of a compiler and a setting that are asked: all, unless the file names them."""
        compilers, settings = {it.name: it for it in self.compilers}, {it.name: it for it in self.settings}
        if pairs is None:
            return [(it, setting) for it in self.compilers for setting in self.settings]
        for compiler, setting in pairs:
            for name, known, kind in ((compiler, compilers, "compiler"), (setting, settings, "setting")):
                if name not in known:
                    raise Refusal(f"{self.where}pairs: there is no {kind} {shown(name)}{nearest(name, list(known))}")
        return list(dict.fromkeys((compilers[compiler], settings[setting]) for compiler, setting in pairs))

    def place(self, path):
        """Returns a path of the file, which is relative to the file's folder."""
        return os.path.normpath(os.path.join(self.folder, path))


def read(path):
    """Reads a file."""
    module, data = reader(path), content(path)
    try:
        return Form(path, module.loads(data.decode("utf-8")))
    except UnicodeDecodeError as error:
        line = data[: error.start].count(b"\n") + 1
        raise Refusal(f"{shown(path)}:{line}: a byte that isn't UTF-8") from error
    except module.TOMLDecodeError as error:
        found = PLACE.search(str(error))
        line = f":{found[1]}" if found and found[1] else ""
        raise Refusal(f"{shown(path)}{line}: {shown(PLACE.sub('', str(error)))}") from error
    except RecursionError as error:
        raise Refusal(f"{shown(path)}: it is nested too deeply") from error
