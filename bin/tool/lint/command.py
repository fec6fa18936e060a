"""`cabal-plan lint`: finds what a planner passes over in silence in the project's own files."""

import json

from tool.ends import WRONG_WORDS
from tool.lint.findings import CODES
from tool.lint.folder import findings
from tool.planner import Words
from tool.why.command import checked
from tool.why.facts import Folder
from tool.why.texts import tell

TEXT = """It reads the project files, the local package files and the names in `installed` and `index`, and plans nothing.
Each finding is FILE:LINE: CODE text. The status is 0 where it found nothing, 1 where it found something.

The codes:
{}"""


def words_of(words):
    """Returns the options."""
    parser = Words("lint", description=TEXT.format("\n".join(f"  {code}  {text}" for code, text in CODES.items())))
    parser.add_argument("--format", choices=("text", "json"), default="text", help="text, or one JSON list of `file`, `line`, `code` and `text`")
    parser.add_planning()
    return parser.parse_args(words)


def main(words):
    of = words_of(words)
    if not checked(of.planning, "lint"):
        return WRONG_WORDS
    found = findings(Folder(".", of.planning))
    if of.format == "json":
        print(json.dumps([it.object() for it in found], sort_keys=True))
    else:
        tell(str(it) for it in found)
    return 1 if found else 0
