"""The causes of refusals in words: what each means, and what to do."""

CAUSES = {
    "NoPackages": ("there is no local package here", "run it in the folder of a package or project, or correct `packages`"),
    "Unsupported": (
        "cabal reads this and the planner doesn't",
        "write it otherwise: entries of `packages` lead down from this folder, without `..`, `**`, braces or `://`",
    ),
    "NoMatch": ("an entry of `packages` gives no package", "correct it, or move it to `optional-packages`"),
    "TwoCabalFiles": ("the directory has more than one `.cabal` file", "name the file itself"),
    "BadConstraint": ("an entry can't be read", "write it as NAME RANGE, `NAME +flag`, `NAME installed`, or PACKAGE:NAME in allow-newer"),
    "DuplicateLocal": ("two local packages have one name", "rename one, or take one out of `packages`"),
    "NotUtf8": ("a byte isn't UTF-8", "save the file as UTF-8"),
    "StrayBrace": ("a brace closes nothing", "take it out, or put it on a line of its own"),
    "UnclosedBrace": ("a brace is closed by nothing", "close it, on a line of its own"),
    "TooDeep": ("sections, parentheses or `!` are more than 64 deep", "write it flatter"),
    "BadName": ("a line, section or entry has no good name", "write letters, digits and `-`"),
    "BadVersion": ("a version can't be read", "write numbers without leading zeros, joined by `.`; `.*` only behind `==`"),
    "BadRange": ("a version range can't be read", "write bounds such as `>=1 && <2`"),
    "NeedsVersion": ("this form needs a later `cabal-version`", "raise `cabal-version` to 3.0 or 3.4, or write it without"),
    "BadCond": ("a condition can't be read", "write os(..), arch(..), impl(..) or flag(..), joined by `&&`, `||` and `!`"),
    "BadDepend": ("a dependency can't be read", "write NAME RANGE, NAME:LIBRARY, or PACKAGE:EXECUTABLE for a tool"),
    "BadField": ("a value or section isn't allowed here", "correct or move it"),
    "MissingField": ("`cabal-version` isn't the first field, `name` or `version` is missing, or the file is empty", "add it"),
    "WrongCabalVersion": (
        "the planner reads `cabal-version` 2.4, 3.0 and 3.4 alone",
        "state one of these, or plan by `cabal-plan folder --older-headers`",
    ),
    "DuplicateName": ("two components, flags or stanzas have one name", "rename one, or take one out"),
    "UnknownStanza": ("no `common` stanza of this name is in the file", "correct the name of the import"),
    "UnknownFlag": ("no flag of this name is in the file", "declare it, or correct the name"),
    "UnknownComponent": ("this package has no component of this name", "declare it, or correct the name"),
    "ImportNotFirst": ("an import stands behind another field", "move it to the front of its section"),
    "ElseWithoutIf": ("`else` or `elif` follows no `if`", "put it directly behind its `if`"),
    "ComponentCycle": ("components of one package need each other", "break the circle"),
    "TooManyPaths": ("there are more than 256 ways to set flags for one dependency", "simplify its conditions"),
    "WrongPlace": ("a file of the index states another name or version than its path", "move or correct it"),
    "BadRecord": ("a record lacks `name`, `version` or `id`, or can't be read", "correct it, or make `installed` anew by `cabal-plan folder`"),
    "DuplicateUnit": ("two records have one id", "take one out"),
    "TooLarge": ("a file has more than 1,048,576 bytes", "shorten it"),
    "TooMany": ("there are more than 20,000 records and files", "take old versions out of the index, or make it by `cabal-plan folder --newest=N`"),
    "BadEvent": ("an event isn't `start`, `completed NUMBER` or `failed NUMBER`", "correct it"),
}
# What to do about forms of project files that aren't read, by the first word of the line.
UNSUPPORTED = {
    "import": "copy the lines of the imported file into this one",
    "source-repository-package": "put the package into a folder below this one and name it in `packages`",
    "flags": "for each package a constraint, such as `constraints: NAME +flag`",
}
