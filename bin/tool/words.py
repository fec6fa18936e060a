"""The words of the proved program, as far as this tool adds something to them.

Input: the words. Output: whether the program surely has a reading of them, lines for words that have none, and lines for
folders that aren't there. The program alone decides what its words mean."""

import os

PLACES = {"--index": "PATH", "--installed": "PATH", "--os": "NAME", "--arch": "NAME", "--compiler": "NAME-VERSION", "--max-backjumps": "NUMBER"}
# The options of each command, with the form of the value, or none for an option without one.
OPTIONS = {
    "plan": {**PLACES, "--json": None, "--count-conflicts": None, "--minimize-conflict-set": None},
    "freeze": PLACES,
    "replay": {**PLACES, "--events": "PATH", "--slots": "NUMBER"},
    "generate": {"--number": "NUMBER", "--max-backjumps": "NUMBER"},
}
# What each option does, and what holds without it.
MEANINGS = {
    "--index": "the packages, NAME/VERSION/NAME.cabal; else `index`",
    "--installed": "the records of installed units; else `installed`",
    "--os": "the system; else linux",
    "--arch": "the processor; else x86_64",
    "--compiler": "the compiler, such as ghc-9.0.2; else ghc-9.4.7",
    "--max-backjumps": "the most exhausted goals; -1 for no limit; else 4000",
    "--json": "print one JSON object",
    "--count-conflicts": "try first the goals that failed most often",
    "--minimize-conflict-set": "drop the names of a conflict that aren't needed",
    "--events": "the file of events; else `events`",
    "--slots": "how many components are built at the same time; else 1",
    "--number": "how many packages are made, 1 to 2000",
}


def is_path(text):
    """Returns whether a text is a path below a folder."""
    return all(it not in ("", ".", "..") for it in text.split("/"))


def is_word(text, besides=""):
    """Returns whether a text has letters and digits alone, besides these signs, and at least one sign."""
    return text != "" and all(it.isascii() and it.isalnum() or it in besides for it in text)


def is_number(text):
    return text.isascii() and text.isdigit() and len(text) <= 9


def is_name_version(text):
    """Returns whether a text is a name of letters and digits, and a version."""
    name, _, version = text.partition("-")
    return is_word(name) and all(is_number(it) and (it == "0" or it[0] != "0") for it in version.split("."))


# The forms of values: whether a text has one, and how it is described.
FORMS = {
    "PATH": (is_path, "a path below this folder, without `.`, `..` or an empty part"),
    "NAME": (lambda text: is_word(text, "-_"), "a name of letters, digits, `-` and `_`"),
    "NAME-VERSION": (is_name_version, "a name and a version, such as ghc-9.0.2"),
    "NUMBER": (lambda text: is_number(text[text[:1] == "-" :]), "a number"),
}


def nearest(word, known):
    """Returns the end of a message with the nearest known word, if there is one."""
    import difflib

    found = difflib.get_close_matches(word, known, 1, 0.5)
    return f": did you mean {found[0]}?" if found else ""


def commands(words):
    return [it for it in words if it in OPTIONS]


def wrong(words):
    """Yields for each word without a reading, as far as this tool can see it, the word and what to say of it."""
    of = commands(words)
    known = OPTIONS[of[0]] if of else {}
    seen = set()
    for word in words:
        if word in OPTIONS:
            continue
        name, mark, value = word.partition("=")
        if name not in known:
            yield word, unknown(word, name, of, known)
        elif name in seen:
            yield word, f"{name} is given twice"
        elif (known[name] is None) == bool(mark):
            yield word, f"{name} takes no value" if mark else f"{name} takes a value, as {name}={known[name]}"
        elif mark and not FORMS[known[name]][0](value):
            yield word, f"{name} takes {FORMS[known[name]][1]}, and not '{value}'"
        seen.add(name)


def unknown(word, name, of, known):
    """Returns what to say of an option or word that a command doesn't take."""
    if of and name in MEANINGS:
        return f"`{of[0]}` doesn't take {name}"
    if of and word.startswith("-"):
        return f"`{of[0]}` has no option {name}{nearest(name, list(known))}"
    return f"{word} has no reading{nearest(word, [*OPTIONS, *known])}"


def is_plain(words):
    """Returns whether the program surely has a reading of these words."""
    return len(commands(words)) == 1 and not list(wrong(words)) and (commands(words) != ["generate"] or any(it.startswith("--number=") for it in words))


def told(words, others):
    """Returns the lines to print below the usage line: which words have no reading, and the nearest that have one."""
    of = commands(words)
    if not of:
        first = next((it for it in words if not it.startswith("-")), "")
        return [f"there is no word {first}{nearest(first, [*OPTIONS, *others])}" if first else f"no command is given: one of {', '.join(OPTIONS)}"]
    if len(of) > 1:
        return [f"more than one command is given: {' '.join(of)}"]
    found = [text for _, text in wrong(words)]
    if of == ["generate"] and not any(it.startswith("--number=") for it in words):
        found.append("`generate` needs --number=NUMBER")
    return found


def notes(words):
    """Returns a line for each folder or file that the words name and that isn't there, and for a compiler that isn't named."""
    of = commands(words)
    if len(of) != 1 or of == ["generate"]:
        return []
    given = dict(it.partition("=")[::2] for it in words if it.startswith("--"))
    found = []
    for name, path in (("--index", "index"), ("--installed", "installed")):
        if not os.path.isdir(given.get(name, path)) and (name in given or name == "--installed"):
            found.append(f"there is no folder {given.get(name, path)}: it counts as an empty one{ORIGIN[name]}")
    if of == ["replay"] and "--events" in given and not os.path.isfile(given["--events"]):
        found.append(f"there is no file {given['--events']}: it counts as an empty one")
    if "--compiler" not in given:
        found.append("no compiler is named: this plans for ghc-9.4.7; name yours, as --compiler=ghc-9.0.2")
    return found


ORIGIN = {"--index": "", "--installed": "; `cabal-plan folder` makes `index` and `installed`"}


def help_of(command, text):
    """Returns the options of a command of the program."""
    options = OPTIONS[command]
    shown = [(f"{name}={form}" if form else name, MEANINGS[name]) for name, form in options.items()]
    width = max(len(it) for it, _ in shown)
    return "\n".join([f"usage: cabal-plan {command} [OPTION ..]", "", f"{text[0].upper()}{text[1:]}.", "", *(f"  {it:<{width}}  {meaning}" for it, meaning in shown)])
