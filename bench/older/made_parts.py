"""Parts of small `.cabal` files."""

NAMED = "name: p\nversion: 1\n"
TYPED = NAMED + "build-type: Simple\n"
CUSTOM = NAMED + "build-type: Custom\n"
LIBRARY = "library\n  build-depends: base\n"
MAIN = "  main-is: M.hs\n"


def library(*lines):
    """Returns the text of a package with a library of these lines, each of which is one level deep."""
    return TYPED + "library\n" + "".join(f"  {it}\n" for it in lines)


def depends(value):
    return library(f"build-depends: {value}")


def program(name, more="", kind="executable"):
    """Returns the text of a package with a component of this name."""
    run = "  type: exitcode-stdio-1.0\n"
    types = {"test-suite": run, "benchmark": run, "foreign-library": "  type: native-shared\n"}
    main = "" if kind in ("library", "foreign-library") else MAIN
    return TYPED + f"{kind} {name}\n" + types.get(kind, "") + main + "  build-depends: base\n" + more


def tools(value, more="", field="build-tools"):
    return library("build-depends: base", f"{field}: {value}") + more


FLAG = "flag f\n  default: False\n"
OWN = "executable own\n" + MAIN + "  build-depends: base\n"
SETUP = "custom-setup\n  setup-depends: base, Cabal >= 1.8\n"


def flagged(*lines):
    """Returns the text of a package with a flag and a library of these lines."""
    return TYPED + FLAG + "library\n  build-depends: base\n" + "".join(f"  {it}\n" for it in lines)
