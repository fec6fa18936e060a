"""The calls and outputs in the documents. Each call in a block must be a run of a case over the same files, and the
lines below it the output of that run. A line `...` replaces any lines."""

import functools
import os
import re
import subprocess

from tool.cases import DATA, BadCase, cases
from tool.documents.pages import TOP, Failure, cells, names
from tool import files as own_files

SUBJECT = "examples"
PATH = os.path.relpath(f"{DATA}/{SUBJECT}", TOP)
CALL = re.compile(r"(\S*/)?(cabal-plan|try-plan)(?: ([^|>]*?))?(?: \| (.*)| ?>.*)?$")
# The first words of an answer that a block may show without its call.
ANSWER = re.compile(r"(plan|no plan|gave up|replay|constraints:|refused .*|generated \d+)$")
# The folders whose examples a table shows, one a row, and the lines of answers that a row may show.
TABLES = ("examples/differences",)
LINE = re.compile(r"(choose|node|conflict) ")
# Commands by which a document changes its folder, at paths below it.
CHANGES = ("mkdir ", "echo ", "sed ")
# The end of the name of a set's file.
SET = ".toml"
OUTSIDE = re.compile(r"~|\.\.|(^|[\s>])/")


def is_read(path):
    """Returns whether the program may read a file at that path."""
    name = os.path.basename(path)
    return name.endswith((".cabal", ".conf")) or name.startswith("cabal.project") or path == "events"


def files_of(folder):
    """Returns the files of a folder that the program may read, as the bytes of each path."""
    found = {}
    for at, _, inside in os.walk(folder):
        for path in (os.path.relpath(f"{at}/{name}", folder) for name in inside):
            if is_read(path):
                with open(f"{folder}/{path}", "rb") as file:
                    found[path] = file.read()
    return found


@functools.lru_cache(maxsize=None)
def folders():
    """Returns the folders of examples to plan: those that have a file and are below no other folder with one. A folder with
    the file of a set isn't planned as it is."""
    found = []
    for at, inner, inside in os.walk(f"{TOP}/examples"):
        if inside:
            inner.clear()
            if not any(it.endswith(SET) for it in inside):
                found.append(os.path.relpath(at, TOP))
    return sorted(found)


def pattern(lines):
    return "".join(r"(?:.*\n)*" if it == "..." else f"{re.escape(it)}\\n" for it in lines)


def first_wrong(lines, output):
    """Returns the place of the first wrong line, or none. If the output goes on, that is behind the last line."""
    if re.fullmatch(pattern(lines), output):
        return None
    return next((at for at in range(len(lines)) if not re.match(pattern(lines[: at + 1]), output)), len(lines))


class Shell:
    """The state of a document's commands: a folder of the repository, with its files if it is an example, or an unknown
    folder. `run` is the last run of the program."""

    def __init__(self):
        self.folder, self.files, self.run = "", None, None

    def enter(self, folder):
        is_ours = not folder.startswith(("~", "/", "."))
        self.folder = folder if is_ours else None
        self.files = files_of(f"{TOP}/{folder}") if is_ours and folder in folders() else None

    def change(self, command):
        """Runs a command that changes the files, on a copy, and returns whether it succeeded."""
        if OUTSIDE.search(command):
            return False
        with own_files.new_room("docs-") as room:
            for path, content in self.files.items():
                room.write(path, content)
            ran = subprocess.run(command, shell=True, cwd=room.path, stdin=subprocess.DEVNULL, check=False)
            self.files = files_of(room.path)
        return ran.returncode == 0


def run_of(shell, program, words, known):
    """Returns the run of these words over the folder of the shell, or none and the reason."""
    if program and os.path.normpath(f"{shell.folder}/{program}") not in ("bin/cabal-plan", "bin/try-plan"):
        return None, f"{program} isn't the program, seen from {shell.folder or 'the top'}"
    # `generate` reads no file.
    files = {} if words[:1] == ["generate"] else shell.files
    over = [it for it in known if it.files == files]
    if not over:
        return None, f"no case of {PATH} is over these files"
    runs = [run for case in over for run in case.runs if run.words == words]
    return (runs[0], "") if runs else (None, f"the case {over[0].name} has no run of these words")


def shown(page, at, run, lines):
    """Yields the faults of a shown output."""
    if run.digest:
        yield page.fails(at, f"the case {run.case.name} has no whole output")
        return
    output = run.output.decode()
    wrong = first_wrong(lines, output) if lines else None
    if wrong == len(lines):
        yield page.fails(at + wrong - 1, "the output goes on behind this line")
    elif wrong is not None:
        yield page.fails(at + wrong, f"the case {run.case.name} prints no such line here: {lines[wrong][:100]}")


def piped(page, at, command, shell, lines):
    """Yields the faults of a pipe from an output, and of what is shown of the answer of a word of the tool."""
    is_ours = os.path.normpath(f"{shell.folder}/{command.split(' ')[0]}") == "bin/cabal-plan"
    if not command.startswith("python3 ") and not is_ours or ">" in command:
        return
    how = {"cwd": f"{TOP}/{shell.folder}" if is_ours else None, "input": shell.run.output, "stdout": subprocess.PIPE, "stderr": subprocess.DEVNULL}
    ended = subprocess.run(command, shell=True, check=False, **how)
    wrong = first_wrong(lines, ended.stdout.decode("utf-8", "replace")) if lines and is_ours else None
    if ended.returncode:
        yield page.fails(at, f"over this output '{command}' ends with status {ended.returncode}")
    elif wrong is not None:
        yield page.fails(at + 1 + min(wrong, len(lines) - 1), f"over this output '{command}' prints something else here")


def step(page, shell, at, command, lines, known):
    """Does one step of a document, and returns its faults, or none if the step doesn't run the program."""
    if told := re.match(r"cd (\S+)(?: && (.*))?$", command):
        shell.enter(told[1])
        command = told[2] or ""
    if shell.folder is None or not command:
        return None
    call, words = CALL.match(command), command.split(" ")
    if command == "echo $?" and shell.run:
        return [] if lines == [str(shell.run.status)] else [page.fails(at, f"the status is {shell.run.status}")]
    if not call and shell.files and command.startswith(CHANGES):
        return None if shell.change(command) else [page.fails(at, "this command isn't followed here")]
    if not call:
        shell.enter("")
        return [page.fails(at, f"there is no {words[0]}")] if "/" in words[0] and not os.path.isfile(f"{TOP}/{words[0]}") else None
    shell.run, why = run_of(shell, call[1] and call[1] + call[2], (call[3] or "").split(), known)
    if not shell.run:
        return [page.fails(at, why)]
    if call[4]:
        return list(piped(page, at, call[4], shell, lines))
    return list(shown(page, at + 1, shell.run, lines))


def answer(page, at, lines, known):
    """Returns the faults of an answer that is shown without its call."""
    is_shown = lambda run: not run.digest and first_wrong(lines, run.output.decode()) is None
    if any(is_shown(run) for case in known for run in case.runs):
        return []
    return [page.fails(at, f"no run of {PATH} prints this, and no call stands above it")]


def of_page(page, known):
    """Yields the faults of each call and each answer of a document."""
    shell = Shell()
    for first, lines in page.blocks:
        starts = [at for at, line in enumerate(lines) if line.startswith("$ ")]
        for at, end in zip(starts, [*starts[1:], len(lines)]):
            wrong = step(page, shell, first + at, lines[at][2:], lines[at + 1 : end], known)
            if wrong is not None:
                yield wrong
        if not starts and lines and ANSWER.match(lines[0]):
            yield answer(page, first, lines, known)


def differs(folder, case):
    """Returns how the files of a case differ from those of its folder."""
    files, found = files_of(f"{TOP}/{folder}"), []
    for path in sorted(files.keys() | case.files.keys()):
        if files.get(path) != case.files.get(path):
            why = "isn't in the case" if path not in case.files else "isn't in the folder" if path not in files else "differs from that of the folder"
            found.append(Failure(PATH, case.line, f"{case.name}: {path} {why}"))
    return found


def of_folders(known):
    """Yields the faults of each folder of examples, and of each case over one."""
    there = folders()
    named = {case.name for case in known}
    for folder in there:
        yield [] if folder in named else [Failure(PATH, 1, f"there is no case {folder}")]
    for case in known:
        if case.name in there:
            yield differs(case.name, case)
        elif case.name.startswith("examples/") and case.name.split(" ")[0].rstrip(",") not in there:
            yield [Failure(PATH, case.line, f"{case.name}: there is no such folder of examples")]


def of_rows(page, known):
    """Yields for each row of a table of examples the lines in its cells that no run over the example prints."""
    base = next((f"{it.rstrip('/')}/" for it in names("\n".join(page.prose)) if it.rstrip("/") in TABLES), None)
    is_ours = False
    for number, line in enumerate(page.prose, 1):
        is_ours = base and bool(cells(line)) and (is_ours or cells(line)[0] == "Folder") or is_ours and line.startswith("|---")
        first = names(cells(line)[0])[:1] if is_ours and cells(line) else []
        if first:
            printed = "".join(run.output.decode() for case in known if case.name == base + first[0] for run in case.runs)
            lines = [it for cell in cells(line)[1:] for it in names(cell) if LINE.match(it)]
            wrong = [it for it in lines if not re.search(rf"^{re.escape(it).replace(re.escape('..'), '.*')}", printed, re.M)]
            yield [page.fails(number, f"no run over {base}{first[0]} prints {it}") for it in wrong] if printed else [
                page.fails(number, f"no case of {PATH} is over {base}{first[0]}")
            ]


def checks(pages):
    """Yields the faults of each check."""
    try:
        known = list(cases(SUBJECT))
    except (OSError, BadCase) as error:
        known = []
        yield [Failure(PATH, 1, str(error))]
    yield from of_folders(known)
    for page in pages:
        yield from of_page(page, known)
        yield from of_rows(page, known)
