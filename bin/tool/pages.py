"""The man page and the completions of shells, made from the texts of `cabal-plan help`.

Output: texts. A word whose module isn't there is left out."""

import contextlib
import importlib
import io
import os
import re

from tool.front import EPILOGUE, NAME, PROGRAM, TOOL
from tool.words import MEANINGS, OPTIONS, help_of

# A line of help: an option, the form of its value, and what it does, in this line or the next one.
OPTION = re.compile(r"^  (?:-\w, )?(--[a-z][a-z-]*)(?:[ =](\{[^}]*\}|\[?[A-Z][A-Z0-9_-]*\]?))?(?:\s{2,}(\S.*))?$")
HELP = "show the words, or the options of a word"


class Word:
    """A word: what it does, the text of its help, and its options, each with whether it has a value and what it does."""

    def __init__(self, name, text, told, options):
        self.name, self.text, self.help, self.options = name, text, told, options


def help_text(module):
    """Returns what a module of the tool prints for `--help`, or none if there is no such module."""
    try:
        main = importlib.import_module(module).main
    except ModuleNotFoundError:
        return None
    out, before = io.StringIO(), os.environ.get("COLUMNS")
    os.environ["COLUMNS"] = "80"
    try:
        with contextlib.redirect_stdout(out), contextlib.suppress(SystemExit):
            main(["--help"])
    finally:
        os.environ.pop("COLUMNS")
        if before is not None:
            os.environ["COLUMNS"] = before
    return out.getvalue().rstrip("\n")


def options_in(told):
    """Returns the options that a help shows."""
    lines, found = told.split("\n"), {}
    for line, below in zip(lines, [*lines[1:], ""]):
        of = OPTION.match(line)
        if of and of[1] != "--help":
            found.setdefault(of[1], (bool(of[2]), of[3] or below.strip()))
    return found


def words():
    """Returns all words."""
    found = []
    for name, text in PROGRAM.items():
        found.append(Word(name, text, help_of(name, text), {it: (bool(form), MEANINGS[it]) for it, form in OPTIONS[name].items()}))
    for name, (module, text) in TOOL.items():
        told = help_text(module)
        if told is not None:
            found.append(Word(name, text, told, options_in(told)))
    return found


def roff(text):
    """Returns a text for a man page."""
    lines = text.replace("\\", "\\e").replace("-", "\\-").split("\n")
    return "\n".join(f"\\&{it}" if it[:1] in (".", "'") else it for it in lines)


def man(release):
    """Returns the man page."""
    found = [f'.TH {roff(NAME.upper())} 1 "" "{NAME} {release}"', ".SH NAME", f"{roff(NAME)} \\- plan the dependencies of a Haskell project"]
    found += [".SH SYNOPSIS", f".B {roff(NAME)}", ".I WORD", roff("[OPTION ..]"), ".SH WORDS"]
    all_words = words()
    for it in all_words:
        found += [".TP", f".B {roff(it.name)}", roff(it.text)]
    for it in all_words:
        found += [f'.SH "{roff(it.name.upper())}"', ".nf", roff(it.help), ".fi"]
    return "\n".join([*found, ".SH NOTES", roff(EPILOGUE), ""])


def quoted(text):
    return "'" + text.replace("'", "'\\''") + "'"


def shown(options):
    """Returns options as they are typed."""
    return [f"{name}=" if has_value else name for name, (has_value, _) in options.items()]


def bash():
    """Returns the completion for bash."""
    all_words = words()
    cases = "\n".join(f"    {it.name}) known={quoted(' '.join(shown(it.options)))} ;;" for it in all_words)
    names = " ".join(it.name for it in all_words)
    return f"""# Completion of {NAME} for bash.
_cabal_plan() {{
    local current=${{COMP_WORDS[COMP_CWORD]}} known=
    case ${{COMP_WORDS[1]}} in
{cases}
    help) known={quoted(names)} ;;
    esac
    ((COMP_CWORD == 1)) && known={quoted(f"{names} help --version")}
    COMPREPLY=($(compgen -W "$known" -- "$current"))
    [[ ${{COMPREPLY[0]-}} == *= ]] && compopt -o nospace
}}
complete -o default -F _cabal_plan {NAME}
"""


def zsh():
    """Returns the completion for zsh."""
    all_words = words()
    rows = "\n".join(f"        {quoted(f'{it.name}:{it.text}')}" for it in all_words)
    cases = []
    for it in all_words:
        plain = [name for name in shown(it.options) if not name.endswith("=")]
        valued = [name for name in shown(it.options) if name.endswith("=")]
        cases.append(f"    {it.name}) compadd -S '' -- {' '.join(valued)}; compadd -- {' '.join(plain)} ;;")
    return f"""#compdef {NAME}
# Completion of {NAME} for zsh.
local -a known
if ((CURRENT == 2)); then
    known=(
{rows}
        {quoted(f'help:{HELP}')}
    )
    _describe word known
else
    case $words[2] in
{chr(10).join(cases)}
    help) compadd -- {' '.join(it.name for it in all_words)} ;;
    esac
    _files
fi
"""


def fish():
    """Returns the completion for fish."""
    quote = lambda text: "'" + text.replace("\\", "\\\\").replace("'", "\\'") + "'"
    rows = [f"# Completion of {NAME} for fish."]
    for it in words():
        rows.append(f"complete -c {NAME} -f -n __fish_use_subcommand -a {it.name} -d {quote(it.text)}")
        for name, (has_value, text) in it.options.items():
            rows.append(f"complete -c {NAME} -n '__fish_seen_subcommand_from {it.name}' -l {name[2:]}{' -r' * has_value} -d {quote(text)}")
    rows.append(f"complete -c {NAME} -f -n __fish_use_subcommand -a help -d {quote(HELP)}")
    return "\n".join([*rows, ""])
