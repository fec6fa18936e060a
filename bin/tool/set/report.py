"""The answer of a set: as text, JSON, CSV or JUnit's XML.

Input: the records of all cells, in order. Output: lines, on standard output."""

import collections
import csv
import json
import re
import sys

from tool.refusal import escaped, shown
from tool.set.run import FAILED, VERDICTS

PLAN = VERDICTS[0]
FORMATS = ("text", "json", "csv", "junit")
COLUMNS = ("target", "name", "version", "compiler", "setting", "wanted", "verdict", "changed", "status", "seconds")
# What XML can't have.
NOT_XML = re.compile("[^\t\n\r\x20-\ud7ff\ue000-\ufffd\U00010000-\U0010ffff]")
# How XML has its own signs, and in an attribute those that a reader would take for a blank. (`xml.sax.saxutils` loads 40 modules.)
SIGNS = {"&": "&amp;", "<": "&lt;", ">": "&gt;"}
IN_TEXT, IN_ATTRIBUTE = map(str.maketrans, (SIGNS, {**SIGNS, '"': "&quot;", "\t": "&#9;", "\n": "&#10;", "\r": "&#13;"}))
# The text of a reason begins with what can't be chosen together, and the chain of causes.
INDENT, PARAGRAPHS = "    ", 2


def told(record):
    """Returns the text that says why a cell has no plan."""
    return record["reason"] or record["error"].strip() or record["output"].strip()


class Report:
    """A report: it takes records one after the other, and counts them by verdict and by change."""

    def __init__(self):
        self.verdicts, self.changes, self.lacking = collections.Counter(), collections.Counter(), 0

    # Whether the cells of bounds are shown one by one, beside the tables.
    has_bounds = True

    def add(self, record, is_bound):
        """Takes a record."""
        self.verdicts[record["verdict"]] += 1
        self.changes[record["changed"]] += 1
        self.lacking += record["wanted"] and record["verdict"] != PLAN
        if self.has_bounds or not is_bound:
            self.cell(record)

    def cell(self, record):
        """Prints a record."""

    def counts(self):
        return {it: self.verdicts[it] for it in (*VERDICTS, FAILED) if self.verdicts[it]}

    def changed(self):
        return {it: number for it, number in sorted((key, value) for key, value in self.changes.items() if key)}


class Text(Report):
    """A line a cell; below a cell that is wanted and has no plan, or that is broken, the front of the reason."""

    has_bounds = False

    def cell(self, record):
        mark = f"  {record['changed']}" if record["changed"] else ""
        version = f" ({record['version']})" if record["version"] and not record["target"].endswith(f"-{record['version']}") else ""
        print(f"{record['verdict']:<8}  {escaped(record['target'])}{version}  {record['compiler']}  {escaped(record['setting'])}{mark}")
        if record["verdict"] != PLAN and (record["wanted"] or record["changed"] == "broken"):
            for line in told(record).split("\n\n")[:PARAGRAPHS]:
                for part in line.split("\n"):
                    print(f"{INDENT}{shown(part)}".rstrip())

    def end(self, tables):
        for line in tables.lines():
            print(escaped(line))
        parts = [f"{number} {it}" for it, number in self.counts().items()]
        print(f"{sum(self.verdicts.values())} cells: {', '.join(parts) or 'none'}" + f"; {self.lacking} wanted without a plan" * bool(self.lacking))
        if self.changed():
            print(", ".join(f"{number} {it}" for it, number in self.changed().items()))


class Json(Report):
    """One object: the cells without the texts of plans, the counts and the bounds."""

    def __init__(self):
        super().__init__()
        self.front = '{"cells":['

    def cell(self, record):
        of = {key: value for key, value in record.items() if key != "output" or record["verdict"] != PLAN}
        print(self.front + json.dumps(of, sort_keys=True, separators=(",", ":")), end="")
        self.front = ",\n"

    def end(self, tables):
        print("" if self.front[0] == "," else self.front, end="")
        of = {"bounds": list(tables.objects()), "changes": self.changed(), "verdicts": self.counts()}
        print(f"],{json.dumps(of, sort_keys=True, separators=(',', ':'))[1:]}")


class Csv(Report):
    """A row a cell, below the names of the columns."""

    def __init__(self):
        super().__init__()
        self.writer = csv.writer(sys.stdout, lineterminator="\n")
        self.writer.writerow([*COLUMNS, "reason"])

    def cell(self, record):
        reason = told(record).split("\n")[0] if record["verdict"] != PLAN else ""
        self.writer.writerow([*(escaped("" if record[it] is None else record[it]) for it in COLUMNS), shown(reason)])

    def end(self, _tables):
        """Prints nothing more."""


def xml(text):
    return NOT_XML.sub("?", text).translate(IN_TEXT)


def attribute(text):
    return f'"{NOT_XML.sub("?", text).translate(IN_ATTRIBUTE)}"'


class Junit(Report):
    """A test case a cell: a failure where it is wanted and has no plan, an error where it failed, skipped where it isn't wanted."""

    def __init__(self):
        super().__init__()
        print('<?xml version="1.0" encoding="UTF-8"?>\n<testsuites><testsuite name="cabal-plan set">')

    def cell(self, record):
        name = attribute(f"{record['compiler']} {record['setting']}")
        print(f"<testcase classname={attribute(record['target'])} name={name} time=\"{record['seconds']}\">{self.inner(record)}</testcase>")

    @staticmethod
    def inner(record):
        if record["verdict"] == PLAN:
            return ""
        if not record["wanted"]:
            return f"<skipped message={attribute(record['verdict'])}/>"
        kind = "error" if record["verdict"] == FAILED else "failure"
        return f"<{kind} message={attribute(record['verdict'])}>{xml(told(record))}</{kind}>"

    def end(self, _tables):
        print("</testsuite></testsuites>")


REPORTS = {"text": Text, "json": Json, "csv": Csv, "junit": Junit}
