"""Files whose header is the matter: each has its own, in one of many places."""

from older.made_parts import LIBRARY, TYPED

PLAIN = TYPED + LIBRARY
SAID = [
    "1.0", "1", "0.9", "1.1", "1.3", "1.5", "1.7", "1.9", "1.9.2", "1.10.1", "1.11", "1.13", "1.14", "1.16", "1.17", "1.19", "1.21", "1.23",
    "1.24.1", "1.25", "1.26", "2.0.1", "2.1", "2.2.0", "2.3", "2.4.0", "2.4.1", "2.5", "2.6", "3.0.0", "3.1", "3.2", "3.3", "3.4.0", "3.5",
    "3.6", "3.8", "4", "4.0", "12.1", ">=1", ">=1.1", ">=1.9.2", ">=1.10.0.1", ">=1.16", ">=1.23", ">=1.24.1", ">=1.25", ">=2", ">=2.0.0",
    ">=2.0.0.2", ">=2.1", ">=2.2", ">=2.4", ">=3.0", ">1.10", ">1.8", ">2.0", "<2", "<=1.10", "==1.10", "==1.10.*", "==2.0", "==2.2",
    "==1.6||==1.8", "-any", "-none", "^>=1.10", "^>=2.0", "^>=2.2", "{1.10}", "=>1.10", "=1.10", "1.10.*", "v1.10", "1.10-foo",
    ">=1.10-foo", "01.10", "1.010", "*", ">= 1.10 && < 3", ">=1.8 && <3", ">=1.2 || ==1.0", ">= 1.6 || >= 1.8", "> 1.6 && < 1.8",
    "<1.2 || >= 1.8", ">=1.10 && <1.8", "(>=1.10)", "(>= 1.8 && < 2) || >= 2", ">= 1.10, < 3", "1.10 1.12", "1.10 -- a remark",
    ">= 1.10 -- a remark", ">= 2.0 && < 3", "< 3 && >= 1.10", ">= 1.25 || >= 1.10", "2 .4", "2. 4", "2.4 ", "2.4\t", "2.4\r", "2.4 3.0",
    "\"2.4\"", ">= 1.10\t",
]  # fmt: skip
PLACED = {
    "first": "cabal-version: {0}\n" + PLAIN,
    "second": "name: p\ncabal-version: {0}\nversion: 1\nbuild-type: Simple\n" + LIBRARY,
    "last-field": TYPED + "cabal-version: {0}\n" + LIBRARY,
    "after-sections": PLAIN + "cabal-version: {0}\n",
    "in-section": PLAIN + "  cabal-version: {0}\n",
    "empty-line-above": "\ncabal-version: {0}\n" + PLAIN,
    "comment-above": "-- a remark\ncabal-version: {0}\n" + PLAIN,
    "indented": "  cabal-version: {0}\n" + "".join(f"  {it}\n" for it in PLAIN.split("\n")[:-1]),
    "indented-alone": "  cabal-version: {0}\n" + PLAIN,
    "blank-before-colon": "cabal-version : {0}\n" + PLAIN,
    "tab-before-value": "cabal-version:\t{0}\n" + PLAIN,
    "no-blank": "cabal-version:{0}\n" + PLAIN,
    "many-blanks": "cabal-version:      {0}   \n" + PLAIN,
    "upper-case": "Cabal-Version: {0}\n" + PLAIN,
    "next-line": "cabal-version:\n  {0}\n" + PLAIN,
    "value-below": "cabal-version: {0}\n  \n" + PLAIN,
    "in-braces": "cabal-version: { {0} }\n" + PLAIN,
    "mark": "\ufeffcabal-version: {0}\n" + PLAIN,
    "mark-second": "\ufeffname: p\ncabal-version: {0}\nversion: 1\nbuild-type: Simple\n" + LIBRARY,
    "crlf": ("cabal-version: {0}\n" + PLAIN).replace("\n", "\r\n"),
    "cr": ("cabal-version: {0}\n" + PLAIN).replace("\n", "\r"),
    "twice-same": "cabal-version: {0}\ncabal-version: {0}\n" + PLAIN,
    "twice-first": "cabal-version: {0}\ncabal-version: 1.8\n" + PLAIN,
    "twice-last": "cabal-version: 1.8\ncabal-version: {0}\n" + PLAIN,
    "twice-wrong-first": "name: p\ncabal-version: what\ncabal-version: {0}\nversion: 1\nbuild-type: Simple\n" + LIBRARY,
    "thrice": "cabal-version: >=1.8\ncabal-version: what\ncabal-version: {0}\n" + PLAIN,
    "empty": "cabal-version:\n" + PLAIN,
    "comment-in-value": "cabal-version: -- a remark\n  {0}\n" + PLAIN,
    "fields-alone": "cabal-version: {0}\n" + TYPED + "exposed-modules: A\n",
    "fields-alone-last": TYPED + "exposed-modules: A\nexecutable: e\nmain-is: M.hs\ncabal-version: {0}\n",
}
PLACES_FOR = ("1.8", ">=1.10", "2.0", "2.2", "2.4", "3.4", "9.9")
