"""The documents: their blocks, and the names that they put in backquotes."""

import os
import re

from tool.program import TOP

SPAN = re.compile(r"(`+)([^`\n]+)\1")


class Failure:
    """A fault at a line of a file."""

    def __init__(self, path, line, what):
        self.path, self.line, self.what = path, line, what

    def __str__(self):
        return f"{self.path}:{self.line}: {self.what}"


class Span:
    """A name in backquotes: its line, its text, and the prose between it and the one in front of it."""

    def __init__(self, line, text, gap):
        self.line, self.text, self.gap = line, text, gap


class Page:
    """A document: its path, its blocks, each with its first line and its number, and its prose, in which blocks are empty lines."""

    def __init__(self, path):
        with open(f"{TOP}/{path}", encoding="utf-8") as file:
            lines = file.read().split("\n")
        self.path, self.prose, self.blocks, block, indent = path, [], [], None, 0
        for number, line in enumerate(lines, 1):
            if line.strip() == "```":
                if block is None:
                    block, indent = (number + 1, []), len(line) - len(line.lstrip())
                else:
                    self.blocks.append(block)
                    block = None
            elif block is not None:
                block[1].append(line[indent:])
            self.prose.append("" if block is not None or line.strip() == "```" else line)

    def fails(self, line, what):
        return Failure(self.path, line, what)

    def sections(self):
        """Yields for each heading its line, its text, and the lines below it, each with its number."""
        heads = [number for number, line in enumerate(self.prose, 1) if line.startswith("#")]
        for at, end in zip(heads, [*heads[1:], len(self.prose) + 1]):
            yield at, self.prose[at - 1], [(number, self.prose[number - 1]) for number in range(at + 1, end)]

    def spans(self):
        """Yields the names in backquotes."""
        text, line, end = "\n".join(self.prose), 1, 0
        for told in SPAN.finditer(text):
            line += text.count("\n", end, told.start())
            yield Span(line, plain(told[2]), re.sub(r"\s+", " ", text[end : told.start()]))
            end = told.end()


def plain(text):
    """Returns a name without the backslashes before bars that a table needs."""
    return text.replace("\\|", "|").strip()


def names(text):
    """Returns the names in backquotes of a line."""
    return [plain(it[2]) for it in SPAN.finditer(text)]


def cells(line):
    """Returns the cells of a row of a table, or none for another line."""
    if not line.startswith("|") or line.startswith("|---"):
        return []
    return [it.strip() for it in re.split(r"(?<!\\)\|", line)[1:-1]]


def pages():
    paths = ["README.md"] + [f"docs/{it}" for it in sorted(os.listdir(f"{TOP}/docs")) if it.endswith(".md")]
    return [Page(it) for it in paths]
