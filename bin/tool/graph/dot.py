"""The text of a graph as DOT. In: nodes and edges with their attributes. Out: lines, which the graph determines."""

from tool.refusal import escaped

# The most characters of a line, and bytes of a label: dot reads no text above 16,384 bytes.
LONGEST_LINE, LONGEST = 300, 16_000


def cut(line):
    """Returns a line without what could be read as more than a line, and not too long."""
    plain = escaped(line[: LONGEST_LINE + 1])
    return plain if len(plain) <= LONGEST_LINE else plain[:LONGEST_LINE] + ".."


def quoted(text):
    """Returns a text in DOT's quotes. Line ends are kept."""
    found, left = [], LONGEST
    for line in text.split("\n"):
        it = cut(line).replace("\\", "\\\\").replace('"', '\\"')
        left -= len(it.encode("utf-8", "backslashreplace")) + 2
        if left < 0:
            found.append("..")
            break
        found.append(it)
    return '"' + "\\n".join(found) + '"'


def attributes(of):
    return "".join(f" [{', '.join(f'{key}={quoted(value)}' for key, value in of.items())}]" if of else "")


def node(name, of):
    return f"  {quoted(name)}{attributes(of)};"


def edge(one, other, of=None):
    return f"  {quoted(one)} -> {quoted(other)}{attributes(of or {})};"


def graph(title, direction, lines, apart="0.15"):
    """Returns the whole graph, with a title below it. `apart` is the distance between labels in a row."""
    look = [
        f"  graph [rankdir={direction}, label={quoted(title)}, labelloc=b, fontname=Helvetica, fontsize=11, ranksep=0.35, nodesep={apart}];",
        '  node [shape=box, style="filled,rounded", fontname=Helvetica, fontsize=11, margin="0.08,0.04", height=0.2];',
        "  edge [color=gray40, arrowsize=0.6, fontname=Helvetica, fontsize=10];",
    ]
    return "\n".join(["digraph plan {", *look, *lines, "}", ""])
