"""The cells of a page as data for its script.

Input: records of cells in any order, and a file in which they wait. Output: the table, and for each package the text of
all its cells. Only the place of each cell in the file is kept in memory. Texts are escaped here; the script only shows
them."""

import hashlib
import json
import re
import shlex

from tool.plans.nodes import Graph
from tool.refusal import Refusal, UNPRINTABLE, escaped, shown

# The worst verdict comes first. The script has the same lists.
VERDICTS = ("failed", "refused", "gave up", "no plan", "plan")
CHANGES = ("", "broken", "mended", "other versions", "new")
KINDS = ("installed", "store", "local")
# What a page's file may be called without a mark. Other names get one, which begins with a sign that these lack.
PLAIN = re.compile(r"(?!(?:con|prn|aux|nul|com\d|lpt\d)$)[a-z0-9][a-z0-9-]{0,99}")


def text_of(found):
    """Returns a text of one line."""
    return escaped("" if found is None else found)


def lines_of(found):
    """Returns a text of several lines."""
    return "\n".join(escaped(it) for it in (found or "").expandtabs().strip("\n").split("\n"))


def file_name(name):
    """Returns the name, without an end, of the files of a package. No two packages have one name, in capitals or not."""
    if PLAIN.fullmatch(name):
        return name
    mark = hashlib.sha256(name.encode("utf-8", "surrogatepass")).hexdigest()[:16]
    return f"{re.sub('[^a-z0-9]+', '-', name.lower())[:60].strip('-')}_{mark}"


def word(text):
    """Returns a word for a shell."""
    if not UNPRINTABLE.search(text):
        return shlex.quote(text)
    return "$'" + escaped(text.replace("\\", "\\\\").replace("'", "\\'")) + "'"


def script(call, *given):
    """Returns a script that calls a function with these values. It is also safe within a page."""
    text = ", ".join(json.dumps(it, separators=(",", ":")) for it in given)
    for sign in "<>&":
        text = text.replace(sign, f"\\u{ord(sign):04x}")
    return f"planSet.{call}({text});\n".encode()


def code_of(record):
    """Returns the verdict of a cell, what has changed, and whether a plan is wanted, as a number."""
    verdict, change = record["verdict"], record.get("changed") or ""
    if verdict not in VERDICTS or change not in CHANGES:
        raise Refusal(f"a cell of {shown(record['name'])} has the verdict '{shown(verdict)}' and the change '{shown(change)}'")
    return VERDICTS.index(verdict) * 10 + CHANGES.index(change) * 2 + bool(record["wanted"])


def node_of(words):
    """Returns a node as in the JSON of a plan."""
    kind, package, component, name, *rest = words
    is_unbuildable = rest[:1] == ["unbuildable"]
    needs = rest[is_unbuildable + 1 :]
    return {"kind": kind, "package": package, "component": component, "id": name, "unbuildable": is_unbuildable, "needs": needs}


def plan_of(output):
    """Returns the graph of a plan, the flags and stanzas that were chosen, and the lines on what was passed over."""
    nodes, flags, notes = [], [], []
    for line in output.split("\n"):
        first, *words = line.split(" ")
        if first == "node" and len(words) >= 4 and words[0] in KINDS:
            nodes.append(node_of(words))
        elif first == "choose" and len(words) == 2:
            flags.append(escaped(" ".join(words)))
        elif first in ("skipped", "warning"):
            notes.append(escaped(line))
    return Graph({"nodes": nodes}), flags, notes


def plan_data(output):
    """Returns a plan for the script. A node has its label, kind, whether it is unbuildable, its place by name, and its needs."""
    graph, flags, notes = plan_of(output)
    places = {at: place for place, at in enumerate(graph.sorted(range(len(graph.nodes))))}
    rows = []
    for at, it in enumerate(graph.nodes):
        rows.append([[graph.label(at), KINDS.index(it.kind), int(it.is_unbuildable)], places[at], *graph.needs[at]])
    return {"nodes": rows, "roots": graph.roots(), "flags": flags, "notes": notes}


def cell_of(record):
    """Returns a record as it waits in the file."""
    has_plan = record["verdict"] == "plan"
    of = {
        "version": text_of(record["version"]), "target": text_of(record["target"]), "compiler": text_of(record["compiler"]),
        "setting": text_of(record["setting"]), "code": code_of(record), "key": text_of(record["key"]), "status": text_of(record["status"]),
        "words": " ".join(map(word, record["words"] or ())), "seconds": round(float(record["seconds"] or 0), 3),
        "error": lines_of(record["error"]), "reason": lines_of(record["reason"]),
    }  # fmt: skip
    more = plan_data(record["output"] or "") if has_plan else {"output": lines_of(record["output"])}
    return {**of, **more}


def version_key(version):
    """Returns a key to sort versions."""
    return [(int(it) if it.isdecimal() else -1, it) for it in re.split(r"[.-]", version[:200])]


class Numbers:
    """Values that are said once, and elsewhere by their numbers."""

    def __init__(self):
        self.values, self.known = [], {}

    def of(self, value):
        """Returns the number of a value."""
        key = json.dumps(value)
        if key not in self.known:
            self.known[key] = len(self.values)
            self.values.append(value)
        return self.known[key]


class Rows:
    """The rows of a table: a version of a target, with the cells of each column. Two equal cells stand in two rows."""

    def __init__(self):
        self.cells = {}

    def put(self, cell, what):
        column, again = (cell["compiler"], cell["setting"]), 0
        while column in self.cells.setdefault((cell["version"], cell["target"], again), {}):
            again += 1
        self.cells[cell["version"], cell["target"], again][column] = what

    def sorted(self):
        """Returns the rows by their targets, the latest version first."""
        found = sorted(self.cells.items(), key=lambda it: version_key(it[0][0]), reverse=True)
        return sorted(found, key=lambda it: (it[0][1], it[0][2]))


def columns_of(all_rows):
    """Returns the columns of tables, sorted."""
    return sorted({column for rows in all_rows for of in rows.cells.values() for column in of}, key=lambda it: (version_key(it[0]), it))


def package_data(name, cells):
    """Returns the data of a package: its rows, and once each text, plan and unit that a cell has."""
    texts, units, plans, rows = Numbers(), Numbers(), Numbers(), Rows()
    for it in cells:
        short = {key: it[key] for key in ("code", "key", "status", "seconds")}
        short.update({key: texts.of(it[key]) for key in ("words", "error", "reason", "output") if it.get(key)})
        if "nodes" in it:
            nodes = [[units.of(unit), *rest] for unit, *rest in it["nodes"]]
            short["plan"] = plans.of({"nodes": nodes, "roots": it["roots"], "flags": it["flags"], "notes": it["notes"]})
        rows.put(it, short)
    columns = columns_of([rows])
    told = [[*row, [of.get(column, 0) for column in columns]] for row, of in rows.sorted()]
    return {"name": text_of(name), "columns": columns, "rows": told, "texts": texts.values, "units": units.values, "plans": plans.values}


class Cells:
    """The cells of a page. They wait in a file; `packages` has for each name the places of its cells there."""

    def __init__(self, file):
        self.file, self.packages, self.end = file, {}, 0

    def add(self, record):
        data = json.dumps(cell_of(record), separators=(",", ":")).encode()
        self.file.write(data)
        self.packages.setdefault(str(record["name"] or record["target"]), []).append((self.end, len(data)))
        self.end += len(data)

    def of(self, name):
        """Returns the cells of a package, in an order that doesn't depend on that of the records."""
        found = []
        for start, length in self.packages[name]:
            self.file.seek(start)
            found.append(self.file.read(length))
        return [json.loads(it) for it in sorted(found)]


class Table:
    """The table of all cells, without their texts."""

    def __init__(self):
        self.rows, self.seconds = {}, 0.0

    def add(self, name, cells):
        rows = self.rows[name] = Rows()
        for it in cells:
            rows.put(it, it["code"])
            self.seconds += it["seconds"]

    def data(self):
        columns = columns_of(self.rows.values())
        packages = [[text_of(name), file_name(name)] for name in self.rows]
        rows = []
        for at, them in enumerate(self.rows.values()):
            rows += [[at, *row, [of.get(column, -1) for column in columns]] for row, of in them.sorted()]
        return {"columns": columns, "packages": packages, "rows": rows, "seconds": round(self.seconds, 3)}
