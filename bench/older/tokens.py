"""Elements in one form, whoever read them. In: the objects of a reader. Out: elements with args as tokens, without blanks at the ends of values."""

import re

# The tokens of args as Cabal's lexer has them: the longest, and of the longest the first of these.
COMMENT = re.compile(r"--.*", re.S)
KINDS = (
    ("name", re.compile(r"[0-9A-Za-z'\-.;_`\x80-\U0010ffff]+")),
    ("string", re.compile(r'"((?:[^"\\]|\\.)*)"')),
    ("sign", re.compile(r"[!#$%&+*,\-./<=>?@\\^|~]+")),
    ("sign", re.compile(r"[()\[\]]")),
)
BLANKS = " \t"
BEYOND = re.compile(r"[^\x00-\x7f]+")


def tokens(text):
    """Returns the tokens of args; text that is none is a token of its own kind."""
    found, at = [], 0
    while at < len(text):
        if text[at] in BLANKS:
            at += 1
            continue
        if COMMENT.match(text, at):
            break
        matches = [(kind, it) for kind, pattern in KINDS for it in [pattern.match(text, at)] if it]
        if not matches:
            return [*found, ["other", text[at:]]]
        kind, longest = max(matches, key=lambda it: it[1].end())
        found.append([kind, longest[1] if kind == "string" else longest[0]])
        at = longest.end()
    return found


def named(text):
    """Returns a name in lower case. Cabal changes its bytes beyond ASCII one by one, so these count as one sign."""
    return BEYOND.sub("\ufffd", text.lower())


def plain(element, is_utf8):
    """Returns an element with args as tokens and without blanks around its values. Empty values don't count, nor in a file that isn't UTF-8 which
    signs beyond ASCII there are."""
    known = (lambda text: text) if is_utf8 else (lambda text: BEYOND.sub("\ufffd", text))
    if "field" in element:
        values = [known(it.replace("\u00a0", " ").strip(BLANKS)) for it in element["values"]]
        return {"field": named(element["field"]), "line": element["line"], "values": [it for it in values if it]}
    args = tokens(element["args"]) if isinstance(element["args"], str) else element["args"]
    return {
        "section": named(element["section"]),
        "line": element["line"],
        "args": [[kind, known(it)] for kind, it in args],
        "items": [plain(it, is_utf8) for it in element["items"]],
    }


def flat(elements, depth=0):
    """Yields each element with its depth, in order."""
    for it in elements:
        yield depth, it
        if "section" in it:
            yield from flat(it["items"], depth + 1)


__all__ = ["flat", "plain", "tokens"]
