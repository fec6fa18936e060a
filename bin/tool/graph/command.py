"""`cabal-plan graph`: draws the JSON of `plan --json`, a plan or the conflict of `no plan`."""

import shutil
import subprocess
import sys

from tool.graph import conflict, plan
from tool.plans import answers
from tool.planner import Words
from tool.refusal import Refusal, shown
from tool.words import MEANINGS, OPTIONS

TEXT = """It reads the answer from FILE or standard input, as in

    cabal-plan plan --json | cabal-plan graph --svg >plan.svg

and prints DOT, or a picture with --svg, which needs Graphviz. The conflict is that of the answer; ranges, constraints,
circles and missing executables in its picture are read off the files. The status is 0 where it has drawn, else 70."""
PLACES = ("--index", "--installed", "--os", "--arch", "--compiler")


def words_of(words):
    """Returns the options."""
    parser = Words("graph", description=TEXT)
    parser.add_argument("file", metavar="FILE", nargs="?", default="-", help="the answer of `plan --json`; else standard input")
    parser.add_argument("--svg", action="store_true", help="a picture in place of DOT")
    parser.add_argument("--why", metavar="NAME", default="", help="of a plan only what leads to NAME, with its version or without")
    parser.add_argument("--needs", metavar="NAME", default="", help="of a plan only what NAME needs")
    parser.add_argument("--no-installed", action="store_true", help="of a plan no installed units")
    parser.add_argument("--all-needs", action="store_true", help="of a plan also the edges that longer ways imply")
    parser.add_argument("--folder", metavar="PATH", default=".", help="of a conflict the folder that was planned: its files have the ranges")
    group = parser.add_argument_group("the words that a conflict was planned with, as for `cabal-plan plan`")
    for name in PLACES:
        group.add_argument(name, metavar=OPTIONS["plan"][name], help=MEANINGS[name])
    return parser.parse_args(words)


def svg_of(text):
    """Returns the picture that dot makes, without the line with dot's version."""
    if not shutil.which("dot"):
        raise Refusal("dot isn't installed: install Graphviz, or leave out --svg and hand the DOT to another program")
    data = text.encode("utf-8", "backslashreplace")
    ran = subprocess.run(["dot", "-Tsvg"], input=data, stdout=subprocess.PIPE, stderr=subprocess.PIPE, check=False)
    if ran.returncode:
        raise Refusal(f"dot ended with status {ran.returncode}: {shown(ran.stderr.decode(errors='replace').strip())}")
    lines = ran.stdout.decode("utf-8", "replace").split("\n")
    return "\n".join(it for it in lines if not it.startswith(("<!--", " -->")))


def main(words):
    of = words_of(words)
    answer = answers.read(of.file)
    if answer["status"] == "gave up":
        raise Refusal(f"{answers.name_of(of.file)}:1: the search gave up: there is nothing to draw")
    if answer["status"] == "plan":
        text = plan.picture(answer, plan.Part(of.why, of.needs, not of.no_installed, of.all_needs))
    else:
        given = {it: getattr(of, it[2:]) for it in PLACES}
        text = conflict.picture(answer, of.folder, [f"{name}={value}" for name, value in given.items() if value is not None])
    sys.stdout.buffer.write((svg_of(text) if of.svg else text).encode("utf-8", "backslashreplace"))
    sys.stdout.flush()
    return 0
