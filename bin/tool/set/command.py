"""`cabal-plan set`: plans many packages with many compilers and settings."""

import contextlib
import os
import sys

from tool import asked, children
from tool.asked import Words, number
from tool.ends import say as tell
from tool.ends import status_of_program
from tool.files import marked_room
from tool.folder.repositories import index
from tool.program import MODERN
from tool.refusal import Refusal, shown
from tool.set import against, form as forms, local, older
from tool.set.bounds import Tables
from tool.set.cells import Cells, facts
from tool.set.progress import NAME, Progress
from tool.set.report import FORMATS, REPORTS
from tool.set.results import Earlier, Results
from tool.set.run import PROGRAM, Runner

LOCAL, DASK = "local", "dask"
ROOM, MARK = ".room-", ".made"
TEXT = """FILE.toml names targets (project folders, packages of an index), compilers and settings. Each combination is a cell: one
run of the proved program, and a second one that shrinks the conflict of a cell without a plan.

    index = "packages"                        a folder or a tar; else the index of cabal
    [[targets]]
    package = "text"                          or project, pattern, list, all
    [compilers.ghc-9-4]
    records = "installed-9.4"                 or ghc = "PATH"
    words = ["--compiler=ghc-9.4.7"]
    [settings.oldest]
    prefer-oldest = true

Results are appended to DIR/cells.jsonl. A run that was ended goes on where it was, and a cell of which nothing has changed
isn't run again. docs/SETS.md describes the file.

The status is 0; 1 where a cell that the file wants planned isn't; 64 for wrong words; 70 for a failure; 128 and the number
of a signal. With --cell it is that of the program."""


def words_of(words):
    parser = Words(NAME, TEXT)
    parser.add_argument("file", metavar="FILE.toml", help="the file of the set")
    parser.add_argument("--results", metavar="DIR", help="the folder of the results; else FILE.results")
    parser.add_argument("--against", metavar="OLD", help="the results of an earlier run: tells what is new, broken, mended or has other versions")
    parser.add_argument("--format", choices=FORMATS, default="text", help="the form of the answer; else text")
    parser.add_argument("--html", metavar="DIR", help="also make a page, as static files in this folder")
    parser.add_argument("--cell", metavar="CELL", help="run only this cell, and print the plan: its target, compiler and setting")
    parser.add_argument("--jobs", metavar="N", type=number(1, 1024), help="how many cells run at the same time; else one a processor")
    parser.add_argument("--engine", choices=(LOCAL, DASK), default=LOCAL, help="what runs the cells; else local")
    parser.add_argument("--scheduler", metavar="ADDRESS", help="the scheduler of dask, as tcp://HOST:8786")
    parser.add_argument("--shared", metavar="DIR", help="a folder that all workers of dask have at the same path; else they are sent the files")
    parser.add_program()
    parser.add_argument("--modern-headers", metavar="PATH", help="the program that rewrites older headers; else the proved one of this tool")
    of = parser.parse_args(words)
    if (of.engine == DASK) != bool(of.scheduler):
        parser.error("--engine=dask and --scheduler=ADDRESS go together")
    if of.shared and of.engine != DASK:
        parser.error("--shared is for --engine=dask")
    return of


def say(text):
    tell(NAME, text)


def results_of(of):
    """Returns the folder of the results."""
    path = of.file[: -len(".toml")] if of.file.endswith(".toml") else of.file
    return os.path.abspath(of.results or f"{path}.results")


def prepared(of, form, room):
    """Returns the cells, with all that they share in the room."""
    program = asked.program(of.program)
    with open(program, "rb") as file:
        room.write(PROGRAM, file.read())
    room.allow(PROGRAM)
    source = index(form.index and form.place(form.index))
    source.open()
    if form.is_rewritten:
        rewriter = asked.program(of.modern_headers, MODERN)
        source = older.rewritten(source, room, rewriter, say)
        form.rewrite = lambda found, to: older.rewritten_files(found, to, rewriter)
    return Cells(form, source, program, room, say)


class Run:
    """A run: the cells in order, and the results."""

    def __init__(self, cells, results):
        self.cells, self.results, self.all = cells, results, []
        one = len(cells.form.pairs)
        self.progress = Progress(len(cells.targets) * one)

    def left(self):
        """Yields what the cells need that aren't done yet, and keeps all cells."""
        for cell in self.cells.all():
            self.all.append(cell)
            is_done = self.results.has(cell.key)
            if is_done:
                self.progress.step(True)
            else:
                yield self.cells.task(cell)

    def run(self, engine):
        """Runs what is left, and keeps each record as it comes."""
        try:
            for line in engine(self.left()):
                self.results.add(line)
                self.progress.step(False)
        finally:
            self.progress.end()

    def records(self, earlier):
        """Yields the cells with their records, in order."""
        path = self.cells.form.path
        for cell, record in zip(self.all, self.results.records([it.key for it in self.all])):
            if record is None:
                raise Refusal(f"the cell {shown(cell.name())} wasn't run")
            record.update(facts(cell, path))
            record["changed"] = against.change(record, earlier.record(earlier.cell(record))) if earlier else None
            yield cell, record

    def report(self, kind, earlier):
        """Prints the answer, and returns the status."""
        report, tables = REPORTS[kind](), Tables()
        for cell, record in self.records(earlier):
            tables.note(cell, record)
            report.add(record, cell.bound is not None)
        report.end(tables)
        return 1 if report.lacking else 0


def engine_of(of, room):
    """Returns the engine: a function from cells to the lines of their records."""
    if of.engine == DASK:
        from tool.set import dask

        return lambda cells: dask.lines(cells, room, of.scheduler, bool(of.shared), say)
    return lambda cells: local.lines(cells, room, of.jobs or len(os.sched_getaffinity(0)))


def only(cells, name):
    """Runs one cell, prints the answer of the program, and returns its status."""
    target = next((it for it in cells.targets if name.startswith(f"{it.called} ")), None)
    cell = next((it for it in cells.of_target(target) if it.name() == name), None) if target else None
    if cell is None:
        raise Refusal(f"there is no cell {shown(name)}")
    task = cells.task(cell)
    with contextlib.closing(Runner(cells.room, "hand")) as runner:
        ran = children.run([f"{cells.room}/{PROGRAM}", "plan", *task["planning"]], cwd=runner.folder(task))
    return status_of_program(ran.returncode)


def check_page(path):
    """Refuses a folder that a page can't replace, before any cell is run."""
    from tool.set.page_folder import place_of

    with place_of(path) as place:
        place.check()


def main(words):
    of = words_of(words)
    form = forms.read(of.file)
    earlier = Earlier(of.against) if of.against else None
    if of.cell:
        from tool.files import new_room

        with new_room("cabal-plan-set-") as room:
            return only(prepared(of, form, room), of.cell)
    if of.html:
        check_page(of.html)
    results = Results(results_of(of))
    try:
        with marked_room(of.shared or results_of(of), ROOM, MARK) as room:
            run = Run(prepared(of, form, room), results)
            run.run(engine_of(of, room))
        status = run.report(of.format, earlier)
        if of.html:
            from tool.set import page

            page.write((record for cell, record in run.records(earlier) if cell.bound is None), of.html)
        sys.stdout.flush()
        return status
    finally:
        results.close()
