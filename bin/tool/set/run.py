"""Runs cells: each is one run of the proved program in a small folder, or two where a conflict is shrunk.

Input: the room of what cells share, and a cell as an object. Output: its record as a line of JSON."""

import contextlib
import io
import json
import subprocess
import time

from tool import children
from tool.ends import status_of_program
from tool.files import Room, scratch, taken
from tool.folder.project import read_elements
from tool.planner import NO_PLAN, Answer
from tool.refusal import Refusal

VERDICTS = ("plan", "no plan", "gave up", "refused")
FAILED = "failed"
PROGRAM, WORK = "program", "work"
# How a line begins that is no record, but says why a worker ends.
FAULT = b"fault: "
INDEX = "index"
# The parts of a record that its cell says.
FACTS = ("target", "name", "version", "compiler", "setting", "wanted", "words")


def inner(files):
    """Returns what a folder has in folders of its own."""
    return INDEX in files, {at: it for at, it in files.items() if "/" in at and not at.startswith(f"{INDEX}/")}


def line_of(record):
    """Returns a record as a line."""
    return json.dumps(record, separators=(",", ":")).encode() + b"\n"


class Runner:
    """A worker: the room, its own name, and its folder: which it is, and what is there, a link's target or a text's bytes; and the
    file that gets the program's standard error."""

    def __init__(self, path, name):
        self.room, self.name, self.made, self.there, self.errors = Room(path), name, 0, {}, scratch(path)

    def folder(self, cell):
        """Makes the folder of a cell: its texts, and links to what cells share. The last one is used again, unless it has other
        folders: only what differs is made anew."""
        links = {INDEX: INDEX} if cell["index"] is None else {f"{INDEX}/{it}": f"{INDEX}/{it}" for it in cell["index"]}
        wanted = {at: f"{self.room}/{place}" for at, place in {**cell["links"], **links}.items()}
        wanted.update({at: text.encode("utf-8", "surrogateescape") for at, text in cell["texts"].items()})
        if inner(wanted) != inner(self.there):
            self.end()
            self.made += 1
        path = f"{WORK}/{self.name}/{self.made}"
        for at in (it for it, found in self.there.items() if wanted.get(it) != found):
            self.room.remove(f"{path}/{at}")
        for at, it in wanted.items():
            if self.there.get(at) != it:
                (self.room.write if isinstance(it, bytes) else self.room.link)(f"{path}/{at}", it)
        self.there = wanted
        return f"{self.room}/{path}"

    def end(self):
        """Removes the folder."""
        self.room.remove(f"{WORK}/{self.name}/{self.made}")
        self.there = {}

    def close(self):
        """Removes the folder and the file."""
        self.end()
        self.errors.close()

    def program(self, where, words):
        """Runs the program in a folder."""
        try:
            status, out = children.printed([f"{self.room}/{PROGRAM}", "plan", *words], self.errors, cwd=where, stdin=subprocess.DEVNULL)
        except OSError as error:
            raise Refusal(f"the program can't be run: {error.strerror}") from error
        return status_of_program(status), out.decode("utf-8", "replace"), taken(self.errors).decode("utf-8", "replace")

    def record(self, cell):
        """Runs a cell, and returns its record."""
        where = self.folder(cell)
        begun = time.monotonic()
        status, output, error = self.program(where, cell["planning"])
        reason = self.reason(where, cell["planning"]) if status == NO_PLAN and cell["shrink"] else ""
        seconds = round(time.monotonic() - begun, 6)
        verdict = VERDICTS[status] if status < len(VERDICTS) else FAILED
        told = {"status": status, **{it: cell[it] for it in FACTS}}
        return {"key": cell["key"], "verdict": verdict, **told, "seconds": seconds, "output": output, "error": error, "reason": reason}

    def reason(self, where, planning):
        """Returns what `cabal-plan why` prints of a folder without a plan."""
        from tool.why import conflict
        from tool.why.facts import Folder
        from tool.why.texts import tell

        status, output, error = self.program(where, [*planning, "--json", "--minimize-conflict-set"])
        if status != NO_PLAN:
            return ""
        out = io.StringIO()
        with contextlib.redirect_stdout(out):
            tell(conflict.lines(Folder(where, planning), None, Answer(status, output, error), False))
        read_elements.cache_clear()
        return out.getvalue()
