"""Reads answers of the program: the one that it gives now, or one that `plan --json` has printed into a file.

In: the options of a word. Out: the object of a plan in the form that the manual describes, or one line with the status
of another answer. A file is checked as a whole before anything is printed."""

import gc
import json
import os
import sys

from tool.ends import say
from tool.planner import Planner
from tool.refusal import Refusal, shown
from tool.words import notes, wrong

STATUSES = {"plan": 0, "no plan": 1, "gave up": 2}
MOST_BYTES = 1 << 24
LONGEST_NUMBER = 18
TEXTS = ("component", "id", "kind", "package")
IS_NONE = "this is no answer of `cabal-plan plan --json`"


class NoPlan(Exception):
    """An answer without a plan: its line, and its status."""

    def __init__(self, line, status):
        super().__init__(line)
        self.status = status


def add_source(parser):
    """Adds the options that say where a plan is from."""
    parser.add_argument("--from", dest="source", metavar="FILE", help="the answer of `plan --json`, `-` for standard input; else it is planned now")
    parser.add_planning()


def checked(parser, of):
    """Returns the options, and ends the tool if the words to plan with have no reading."""
    for _, text in wrong(["plan", *of.planning]):
        parser.error(text)
    return of


def data_of(path):
    """Returns the bytes of a file that the user named, or of standard input, up to a limit."""
    try:
        if path == "-":
            if sys.stdin is None:
                raise Refusal("standard input is closed")
            if sys.stdin.isatty():
                say("cabal-plan", "reads what `plan --json` prints from standard input")
            data = sys.stdin.buffer.read(MOST_BYTES + 1)
        else:
            with open(path, "rb") as file:
                data = file.read(MOST_BYTES + 1)
    except OSError as error:
        raise Refusal(f"{name_of(path)} can't be read: {error.strerror}") from error
    if len(data) > MOST_BYTES:
        raise Refusal(f"{name_of(path)} has more than {MOST_BYTES} bytes")
    return data


def name_of(path):
    return "standard input" if path == "-" else os.fsdecode(path)


def number(text):
    """Returns a number of an answer. Longer ones aren't the program's, and would take long to read."""
    if len(text) > LONGEST_NUMBER:
        raise ValueError("a number that is too long")
    return int(text)


def object_of(data, path):
    """Returns the object of an answer in these bytes, with its status and form checked."""
    try:
        # (a search for garbage among millions of new lists takes most of the time)
        gc.disable()
        found = json.loads(data, parse_int=number)
    except RecursionError as error:
        raise Refusal(f"{name_of(path)}:1: it is nested too deeply: {IS_NONE}") from error
    except ValueError as error:
        raise Refusal(f"{name_of(path)}:{getattr(error, 'lineno', 1)}: this is no JSON: is it what `cabal-plan plan --json` prints?") from error
    finally:
        gc.enable()
    if why := fault(found):
        raise Refusal(f"{name_of(path)}:1: {why}: {IS_NONE}")
    return found


def is_texts(found):
    return isinstance(found, list) and all(isinstance(it, str) for it in found)


def is_choices(found):
    if not isinstance(found, list) or not all(isinstance(it, dict) for it in found):
        return False
    return all(isinstance(it.get(key), str) for it in found for key in ("var", "value"))


def is_node(it):
    if not isinstance(it, dict) or not is_texts(it.get("needs")) or not isinstance(it.get("unbuildable"), bool):
        return False
    return all(isinstance(it.get(key), str) for key in TEXTS)


def fault(found):
    """Returns what is wrong with an object that should be an answer, or nothing."""
    status = found.get("status") if isinstance(found, dict) else None
    if not isinstance(status, str) or status not in STATUSES:
        return "it has no status"
    forms = {"skipped": is_texts, "warnings": is_texts}
    if status == "plan":
        forms.update(choices=is_choices, nodes=lambda it: isinstance(it, list) and all(map(is_node, it)))
    if status == "no plan":
        forms["conflict"] = is_texts
    bad = [key for key, is_good in forms.items() if not is_good(found.get(key, [] if key in ("skipped", "warnings") else None))]
    return f"its {bad[0]} has another form" if bad else ""


def read(path):
    """Returns the object of an answer in a file."""
    return object_of(data_of(path), path)


def line_of(found):
    """Returns an answer without a plan as one line."""
    if found["status"] == "no plan":
        return shown(f"no plan: conflict {' '.join(found['conflict'])}") + "; `cabal-plan why` explains it"
    return f"gave up: the search met its limit, which --max-backjumps sets; visited {found.get('visited')} exhausted {found.get('exhausted')}"


def plan_of(found):
    """Returns the object of a plan, and raises an error for another answer."""
    if found["status"] != "plan":
        raise NoPlan(line_of(found), STATUSES[found["status"]])
    return found


def planned(planner, folder, *further):
    """Returns the object of the plan of a folder. Where there is none, an error has the program's answer and status."""
    answer = planner.plan(folder, *further)
    if answer.status in STATUSES.values():
        if why := fault(answer.object):
            raise Refusal(f"the program prints something else: {why}")
        return plan_of(answer.object)
    raise NoPlan(shown((answer.output or answer.error).strip()) or f"the program ended with status {answer.status}", answer.status)


def given(of, word):
    """Returns the object of the plan that the options name: one in a file, or the present one."""
    if of.source is not None:
        return plan_of(read(of.source))
    say_notes(of.planning, word)
    return planned(Planner(of.program, of.planning), ".")


def say_notes(planning, word):
    """Prints what the front says of the words to plan with."""
    for line in notes(["plan", *planning]):
        say(f"cabal-plan {word}", line)


def run(word, body):
    """Runs the body of a word, which returns its status. An answer without a plan ends it with the program's status."""
    try:
        return body()
    except NoPlan as none:
        say(f"cabal-plan {word}", none)
        return none.status
