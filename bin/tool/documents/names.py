"""Names in backquotes in the documents: a file must exist, and any other name must occur in the sources."""

import functools
import glob
import os
import re

from tool.documents.pages import TOP
from tool.program import table

CRATES = set(os.listdir(f"{TOP}/crates"))
# The sources of names, without this check.
SOURCES = [f"crates/*/{it}/**" for it in ("src", "specs", "proofs", "data")] + ["crates/*/args", "crates/*/stdout", "crates.txt", "HANDLES"]
SOURCES += ["bin/*", "bin/tool/**", "bench/**", "examples/**"]
PARTS = ("src", "specs", "proofs", "data", "must-fail", "mistakes")
STARTS = {"crates", "docs", "bin", "bench", "examples", "src", "specs", "proofs", "must-fail", "mistakes"} | CRATES
ENDS = (".rt", ".antt", ".md", ".edit", ".txt", ".py")
# In a path these mean any name.
ANY = re.compile(r"\b(?:NAME|FILE|FUNCTION|VERSION|WHAT_IS_WRONG)\b")
# The definitions of a file.
OF_CODE = re.compile(
    r"\b(?:fn|struct|enum|trait|type|const|static|mod)\s+(\w+)|\b(?:ensures|requires)\s+(\w+)\s*\{|^\s*ghost\s+(\w+)\s*[:=]"
    r"|^\s*([A-Z]\w*)\s*(?:\{|\(|,)|^\s*(?:pub(?:\(\w+\))?\s+)?(\w+):",
    re.M,
)
OF_TEXT = re.compile(r"^ *(?!use\b)(?:(?:abbrev|unfoldable|pub|data|record|law|lemma) +)*([\w-]+)", re.M)
# A name of code.
IS_CODE = re.compile(r"[a-z]\w*_\w+|[A-Z][a-z]\w*[A-Z]\w*")
# Commands of other programs are in no source.
COMMANDS = ("cabal ", "find ", "ghc ", "git ", "grep ", "ln ", "mkdir ", "mv ", "rt ", "rattle-kit")
FOREIGN = {
    "fields and files of cabal, and words of its command line, that this program passes over or refuses": "--allow-newer --constraint --dry-run "
    "--enable-tests --version --with-compiler dry enable ghc-options pkgconfig pkgconfig-depends preferred-versions program-options reject-unconstrained-dependencies solve "
    "with-compiler",
    "keys of cabal's plan, and values of them": "arch bin-file cabal-lib-version cabal-version compiler-id configured dist-dir global pkg-cabal-sha256 "
    "pkg-src pkg-src-sha256 pre-existing",
    "the compiler's words": "--numeric-version numeric",
    "an archive of a package server": "tar",
    "what stands for a word of the user or of an answer": "CAUSE COMPONENT LINE PACKAGE RANGE VALUE",
    "an example of a name in capitals": "MinGW32",
}
KNOWN_ELSEWHERE = {word for words in FOREIGN.values() for word in words.split()}


def text_of(path):
    with open(path, encoding="utf-8", errors="replace") as file:
        return file.read()


@functools.lru_cache(maxsize=None)
def sources():
    """Returns the texts of the sources by path."""
    found = {it for pattern in SOURCES for it in glob.glob(f"{TOP}/{pattern}", recursive=True)}
    return {os.path.relpath(it, TOP): text_of(it) for it in found if os.path.isfile(it) and it != f"{TOP}/bin/try-docs" and "__pycache__" not in it}


@functools.lru_cache(maxsize=None)
def words():
    """Returns the words of the sources, also those with hyphens, and the names of files. Of proofs only their own
    definitions count."""
    found = set(names_of_code())
    for path, text in sources().items():
        found |= set(re.findall(r"[\w-]+", path if "/proofs/" in path else f"{path} {text}"))
    return found | {part for it in found for part in it.split("-")}


@functools.lru_cache(maxsize=None)
def defined(path):
    """Returns the names that a file, or the files of a folder, define. In code these are functions, types, variants,
    fields and clauses; in definitions and proofs names at the front of a line."""
    paths = glob.glob(f"{TOP}/{path}/**", recursive=True) if os.path.isdir(f"{TOP}/{path}") else [f"{TOP}/{path}"]
    found = set()
    for it in filter(os.path.isfile, paths):
        for told in (OF_CODE if it.endswith(".rt") else OF_TEXT).finditer(text_of(it)):
            found.add(told[told.lastindex])
    return found


@functools.lru_cache(maxsize=None)
def names_of_code():
    """Returns the names that the sources define, the names of files and crates, and quoted texts of one word."""
    found = set(KNOWN_ELSEWHERE) | CRATES | {it for used in table().values() for it in used}
    for path, text in sources().items():
        found.add(os.path.splitext(os.path.basename(path))[0])
        if path.endswith((".rt", ".antt")):
            found |= defined(path) | set(re.findall(r'"(\w+)"', text))
    return found | {os.path.basename(it)[: -len(".edit")] for it in glob.glob(f"{TOP}/crates/*/*/*.edit")}


@functools.lru_cache(maxsize=None)
def words_of_code():
    """Returns the words of each file of code."""
    return [set(re.findall(r"\w+", text)) for path, text in sources().items() if path.endswith(".rt")]


def is_path(piece):
    """Returns whether a piece of a name is a path of the repository."""
    return "/" in piece and piece.split("/")[0] in STARTS or piece.endswith(ENDS) and re.fullmatch(r"[\w./*-]+", piece)


@functools.lru_cache(maxsize=None)
def matches(pattern):
    return [os.path.relpath(it, TOP) for it in glob.glob(f"{TOP}/{pattern}")]


class Place:
    """The state of a document: the crate and the folder that it named last."""

    def __init__(self):
        self.crate = self.folder = None

    def find(self, piece):
        """Returns the path that a piece names, or none. A file without a folder is in the last folder, or else anywhere
        in the crate."""
        path = ANY.sub("*", piece).rstrip("/")
        crate = "*" if path in PARTS or not self.crate else self.crate
        tries = [path, f"crates/{path}", f"crates/{crate}/{path}"]
        if "/" not in path:
            tries += [f"{self.folder}/{path}"] * bool(self.folder)
            tries += [f"crates/{crate}/{it}/{path}" for it in ("src", "src/*", "specs", "proofs")]
        return next((matches(it)[0] for it in tries if matches(it)), None)

    def go(self, path):
        """Sets the crate and the folder to those of a path."""
        parts = path.split("/")
        if parts[0] == "crates" and len(parts) > 2 and "*" not in parts[1]:
            self.crate, self.folder = parts[1], os.path.dirname(path) if os.path.isfile(f"{TOP}/{path}") else path


def lacking(text):
    """Returns the words of a name that no source has. A name of code must be defined in a source."""
    if IS_CODE.fullmatch(text):
        return [text] * (text not in names_of_code())
    found = re.findall(r"(?<![\w-])--[a-z][\w-]*", text) + re.findall(r"(?<![\w-])[a-z]+(?:-[a-z]+)+(?![\w-])", text)
    # (one or two letters may be any name; a word with digits may be a version, a commit or a digest)
    found += [it for it in re.findall(r"\w+", text) if len(it) > 2 and not it[0].isdigit() and not re.fullmatch(r"(?=.*\d)[0-9a-f]{7,}", it)]
    return [it for it in found if it not in words()]


def are_apart(text):
    """Returns the names TYPE::NAME of a text whose parts no file of the sources has together."""
    pairs = re.findall(r"(\w+)::(\w+)", text)
    return [f"{one}::{other}" for one, other in pairs if not any({one, other} <= it for it in words_of_code())]


def of_span(page, place, span):
    """Yields the faults of a single name."""
    if span.text in CRATES:
        place.crate, place.folder = span.text, None
        return
    rest = []
    for piece in span.text.split():
        piece = piece.strip("\"'")
        if not is_path(piece):
            rest.append(piece)
        elif path := place.find(piece):
            place.go(path)
        else:
            yield page.fails(span.line, f"there is no {piece}" + f" in {place.crate}" * bool(place.crate))
    if not span.text.startswith(COMMANDS):
        text = " ".join(rest)
        yield from (page.fails(span.line, f"no source has the word {it}, of `{span.text}`") for it in lacking(text))
        yield from (page.fails(span.line, f"no source has {it}") for it in are_apart(text))


def of_file(page, place, spans, at):
    """Yields the names that aren't in their file: 'NAME in FILE', or several names and several files."""
    files = [spans[at].text]
    for it in spans[at + 1 :]:
        if it.gap not in (" and ", ", ") or not is_path(it.text):
            break
        files.append(it.text)
    there = {name for it in files if (path := place.find(it)) for name in defined(path)}
    gap = ", "
    for it in reversed(spans[:at]):
        if not there or gap not in (", ", " and ", ", and ", " or "):
            break
        gap = it.gap
        if re.fullmatch(r"[\w-]+", it.text) and it.text not in there:
            yield page.fails(it.line, f"{' and '.join(files)} of {place.crate} defines no {it.text}")


def of_section(page, head, spans):
    """Yields the faults of the names of a section."""
    place, row = Place(), None
    place.crate = of_head = next((it for it in re.findall(r"\w+", head) if it in CRATES), None)
    for at, span in enumerate(spans):
        # (the place that a row of a table names is only for that row)
        if row not in (None, span.line):
            place.crate, place.folder = of_head, None
        row = span.line if page.prose[span.line - 1].startswith("|") else None
        behind = spans[at + 1] if at + 1 < len(spans) else None
        was = place.crate
        if behind and behind.gap == " of " and behind.text in CRATES:
            place.crate, place.folder = behind.text, None
        if span.gap == " in " and span.text.endswith((".rt", ".antt")):
            yield from of_file(page, place, spans, at)
        yield from of_span(page, place, span)
        if is_path(span.text) and behind and behind.gap == " of ":
            place.crate = was


def of_page(page):
    """Yields the faults of the names of a document."""
    heads = [(1, "")] + [(at, line) for at, line in enumerate(page.prose, 1) if line.startswith("#")]
    ends, spans = [at for at, _ in heads[1:]] + [len(page.prose) + 1], list(page.spans())
    for (first, head), end in zip(heads, ends):
        yield from of_section(page, head, [it for it in spans if first + bool(head) <= it.line < end])


def checks(pages):
    """Yields the faults of the names of each document."""
    for page in pages:
        yield list(of_page(page))
