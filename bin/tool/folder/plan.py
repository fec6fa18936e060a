"""Runs the planner over the made folder, and counts which files it still skips.

Input: the words to plan with. Output: what the planner prints, its status, and a count of its `skipped` lines by their cause."""

import collections
import re
import subprocess
import sys

from tool import children
from tool.ends import status_of_program
from tool.refusal import Refusal

SKIPPED = re.compile(r"(?m)^skipped (.*) (\w+)$")
MOST_NAMED = 20


def count(output, say):
    """Prints how many files are skipped, by cause, and the first of them."""
    found = SKIPPED.findall(output)
    causes = collections.Counter(cause for _, cause in found)
    say(f"{len(found)} files are still skipped" + "".join(f", {number} {cause}" for cause, number in causes.most_common()))
    for path, cause in found[:MOST_NAMED]:
        say(f"  {path} {cause}")
    if len(found) > MOST_NAMED:
        say(f"  and {len(found) - MOST_NAMED} more, in the skipped lines of the plan")


def answer(words, where):
    """Returns the planner's output and status."""
    try:
        ran = children.run(words, cwd=where, stdin=subprocess.DEVNULL, stdout=subprocess.PIPE)
    except OSError as error:
        raise Refusal(f"{words[0]} can't be run: {error.strerror}") from error
    return ran.stdout, status_of_program(ran.returncode)


def run(words, where, say):
    """Plans, and returns the status. Counts the skipped files if there is a `say` to print them."""
    output, status = answer(words, where)
    sys.stdout.buffer.write(output)
    sys.stdout.buffer.flush()
    if say and "--json" not in words:
        count(output.decode("utf-8", "replace"), say)
    return status


def still_skipped(words, where, say):
    """Runs the planner with a limit at which it gives up at once, to see which files it skips."""
    output, status = answer([*words, "--max-backjumps=0"], where)
    text = output.decode("utf-8", "replace")
    if status > 2:
        say(f"the planner says: {text.strip()[:200]}")
    else:
        count(text, say)
