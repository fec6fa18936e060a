"""Random packages, by number. In: a number. Out: the bytes of a `.cabal` file that says what planning sees in many ways.

Cabal reads most of them."""

import random

SAID = [">=1.2", ">= 1.6", ">=1.8", ">=1.10", ">= 1.10 && < 3", "1.12", ">=1.18", "1.20", "1.22", ">=1.24", "2.0", "2.2", "2.4", "3.0", "3.4"]
HEADERS = ["", *(f"cabal-version: {it}\n" for it in SAID)]
TYPES = ["build-type: Simple\n"] * 6 + ["", "build-type: Custom\n", "build-type: Configure\n", "build-type:\n", "build-type: Default\n"]
RANGES = ["", "", " >= 1", " ==1.2.*", " >=1 && <3", " -any", " == 1 || == 2", " (>= 1)", " >= 1-x"]
LATER = [" ^>= 1.2", " -none", " == { 1, 2 }"]
NAMES = ["base", "bytes", "text", "s", "p", "Other-Name"]
TOOLS = ["alex", "happy", "gcc", "hsc2hs", "own", "a-b", "Alex", "hspec-discover"]
COMPONENTS = ["own", "a.b", "a_b", '"c d"', "e", "alex", '"e"', "x'y"]
CONDITIONS = ["flag(f)", "os(linux)", "!flag(g) && arch(x86_64)", "impl(ghc >= 8)", "impl(ghc ^>= 8) || flag(f)", "true"]
UNSEEN = ["exposed-modules: A", "ghc-options: -Wall", "default-language: Haskell2010", "foo: bar", "visibility: public", "x-a: b"]


class Package:
    """The state of a drawing: the source of chance, the header, and the text so far."""

    def __init__(self, number):
        self.chance = random.Random(f"package {number}")
        self.header, self.text = self.one(HEADERS), ""

    def one(self, its):
        return self.chance.choice(its)

    def is_rare(self, per_cent):
        return self.chance.randrange(100) < per_cent

    def line(self, depth, text):
        self.text += f"{'  ' * depth}{text}\n"

    def entries(self, names):
        """Returns entries with ranges, now and then of a later version or with a comma at an end."""
        found = ", ".join(f"{self.one(names)}{self.one(LATER) if self.is_rare(2) else self.one(RANGES)}" for _ in range(self.chance.randrange(1, 4)))
        return f", {found}" if self.is_rare(1) else f"{found}," if self.is_rare(1) else found

    def field(self, depth):
        kind = self.chance.randrange(12)
        if kind < 5:
            self.line(depth, f"build-depends: {self.entries(NAMES)}")
        elif kind < 7:
            self.line(depth, f"build-tools: {self.entries(TOOLS)}")
        elif kind == 7:
            self.line(depth, f"build-tool-depends: {self.one(['happy:happy', 'p:own', 'alex:alex >= 3'])}")
        elif kind == 8:
            self.line(depth, f"buildable: {self.one(['True', 'False', 'false'])}")
        elif kind == 9:
            self.line(depth, f"import: {self.one(['c', 'd', 'c, d'])}")
        else:
            self.line(depth, self.one(UNSEEN))

    def chain(self, depth, left):
        """An `if` with what follows it, now and then out of place."""
        self.block(depth, f"if {self.one(CONDITIONS)}", left)
        while self.is_rare(40):
            self.block(depth, self.one([f"elif {self.one(CONDITIONS)}", "else", "foo"]), left)
            if self.is_rare(10):
                self.field(depth)

    def block(self, depth, head, left):
        braced = self.is_rare(20)
        self.line(depth, f"{head} {{" if braced else head)
        self.items(depth + 1, left - 1)
        if braced:
            self.line(depth, "}")

    def items(self, depth, left):
        if self.is_rare(20):
            self.line(depth, f"import: {self.one(['c', 'd'])}")
        for _ in range(self.chance.randrange(1, 4)):
            if left and self.is_rare(30):
                self.chain(depth, left)
            else:
                self.field(depth)

    def component(self):
        kind = self.one(["library", "library s", "executable", "executable", "test-suite", "benchmark", "foreign-library"])
        head = kind if kind.startswith("library") else f"{kind} {self.one(COMPONENTS)}"
        self.line(0, head)
        if kind in ("test-suite", "benchmark"):
            self.text += "  type: exitcode-stdio-1.0\n  main-is: M.hs\n"
        elif kind == "foreign-library":
            self.text += "  type: native-shared\n"
        self.items(1, 2)

    def sections(self):
        for name in self.chance.sample(["c", "d"], 2) if self.is_rare(50) else []:
            self.line(0, f"common {name}")
            self.items(1, 1)
        if self.is_rare(25):
            self.line(0, "custom-setup")
            self.line(1, f"setup-depends: {self.entries(NAMES)}")
        for _ in range(self.chance.randrange(1, 4)):
            self.component()
        if self.is_rare(10):
            self.line(0, self.one(["build-type: Simple", "name: q", "cabal-version: >=1.10", "synopsis: later", "foo bar"]))

    def fields_alone(self):
        for _ in range(self.chance.randrange(1, 4)):
            self.field(0)
        for _ in range(self.chance.randrange(3)):
            self.line(0, f"executable: {self.one(COMPONENTS)}")
            self.line(0, "main-is: M.hs")
            self.items(0, 0)

    def bytes(self):
        tops = ["name: p\n", "version: 1\n", self.one(TYPES)]
        if self.is_rare(25):
            tops.insert(self.chance.randrange(1, 4), self.header)
        else:
            tops.insert(0, self.header)
        self.text = "".join(tops)
        if self.is_rare(20):
            self.fields_alone()
        else:
            self.text += "flag f\n  default: False\nflag G\n  manual: True\n"
            self.sections()
        return self.text.encode()


def drawn_package(number):
    """Returns the bytes of the file of a number."""
    return Package(number).bytes()


__all__ = ["drawn_package"]
