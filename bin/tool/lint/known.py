"""The fields and sections that cabal knows, by the kind of file and section."""

import re


def words(text):
    return frozenset(text.split())


TOP = words(
    """name version cabal-version build-type license license-file license-files copyright maintainer stability homepage package-url
    bug-reports synopsis description category author tested-with data-files data-dir extra-source-files extra-tmp-files extra-doc-files
    extra-files"""
)
BUILD = words(
    """build-depends mixins build-tools build-tool-depends cpp-options asm-options cmm-options cc-options cxx-options jspp-options ld-options
    hsc2hs-options pkgconfig-depends frameworks extra-framework-dirs asm-sources cmm-sources c-sources cxx-sources js-sources hs-source-dirs
    hs-source-dir other-modules virtual-modules autogen-modules default-language other-languages default-extensions other-extensions
    extensions extra-libraries extra-libraries-static extra-ghci-libraries extra-bundled-libraries extra-library-flavours
    extra-dynamic-library-flavours extra-lib-dirs extra-lib-dirs-static include-dirs includes autogen-includes install-includes ghc-options
    ghc-prof-options ghc-shared-options ghc-prof-shared-options ghcjs-options ghcjs-prof-options ghcjs-shared-options buildable import"""
)
COMPONENTS = {
    "library": BUILD | words("exposed-modules reexported-modules signatures exposed visibility"),
    "executable": BUILD | words("main-is scope"),
    "test-suite": BUILD | words("type main-is test-module code-generators"),
    "benchmark": BUILD | words("type main-is benchmark-module"),
    "foreign-library": BUILD | words("type options lib-version-info lib-version-linux mod-def-file"),
}
SECTIONS = {
    **COMPONENTS,
    "common": frozenset().union(*COMPONENTS.values()),
    "flag": words("description default manual"),
    "source-repository": words("type location module branch tag subdir"),
    "custom-setup": words("setup-depends"),
}
BRANCHES = ("if", "elif", "else")
OF_PACKAGE = words(
    """flags tests benchmarks library-vanilla shared static executable-static executable-dynamic profiling profiling-shared library-profiling
    profiling-detail library-profiling-detail optimization debug-info build-info library-for-ghci split-sections split-objs
    executable-stripping library-stripping configure-options extra-include-dirs extra-lib-dirs extra-lib-dirs-static extra-framework-dirs
    extra-prog-path run-tests relocatable coverage library-coverage test-log test-machine-log test-show-details test-keep-tix-files
    test-wrapper test-fail-when-no-test-suites test-options benchmark-options documentation haddock-hoogle haddock-html
    haddock-html-location haddock-executables haddock-tests haddock-benchmarks haddock-foreign-libraries haddock-all haddock-internal
    haddock-css haddock-hyperlink-source haddock-quickjump haddock-hscolour-css haddock-contents-location haddock-index-location
    haddock-base-url haddock-resources-dir haddock-output-dir haddock-use-unicode haddock-for-hackage program-prefix program-suffix
    prefix bindir libdir libsubdir dynlibdir libexecdir libexecsubdir datadir datasubdir docdir htmldir haddockdir sysconfdir mandir
    flibdir includedir cabal-file use-response-files allow-depending-on-private-libs"""
)
OF_PROJECT = OF_PACKAGE | words(
    """packages optional-packages extra-packages import index-state active-repositories constraints preferences allow-newer allow-older
    max-backjumps solver cabal-lib-version reorder-goals count-conflicts fine-grained-conflicts minimize-conflict-set strong-flags
    allow-boot-library-installs reject-unconstrained-dependencies independent-goals prefer-oldest per-component with-compiler with-hc-pkg
    compiler doc-index-file builddir dist-dir project-file project-dir ignore-project jobs semaphore keep-going offline verbose
    http-transport ignore-expiry remote-repo-cache local-no-index-repo logs-dir build-log build-summary report-planning-failure
    symlink-bindir installdir install-method overwrite-policy write-ghc-environment-files nix store-dir remote-build-reporting one-shot
    username password only-dependencies multi-repl target-package-db package-dbs config-file default-user-config peer-name
    only-constrained lib"""
)
OF_PROJECT_SECTIONS = {
    "package": OF_PACKAGE,
    "repository": words("url secure root-keys key-threshold"),
    "source-repository-package": words("type location tag branch subdir post-checkout-command"),
    "program-options": frozenset(),
    "program-locations": frozenset(),
    "program-default-options": frozenset(),
    "haddock": frozenset(),
    "install-dirs": frozenset(),
}
# Fields of one program each, such as `alex-options`, and sections of which every field is one.
OF_PROGRAM = re.compile(r"[a-z0-9-]+-(?:options|location|args)")
# Fields whose text is for people: a line that looks like a field may be a part of it.
FREE_TEXT = words("description synopsis copyright author maintainer category license homepage bug-reports stability package-url tested-with")
# What cabal obeys and the program doesn't read: by the section around it, the field, and what to write instead.
UNREAD = {
    (None, "flags"): "for each package a constraint, such as `constraints: NAME +x`",
    ("package", "tests"): "`constraints: NAME test`",
    ("package", "benchmarks"): "`constraints: NAME bench`",
    (None, "reject-unconstrained-dependencies"): "nothing: compare the plan with a frozen one",
    (None, "with-compiler"): "`--compiler=` and the compiler with its version",
    (None, "compiler"): "`--compiler=` and the compiler with its version",
    (None, "index-state"): "an index of that state",
    (None, "active-repositories"): "an index of these repositories",
    (None, "independent-goals"): "nothing: all packages are planned together",
    (None, "cabal-lib-version"): "a constraint on `setup.Cabal`",
}
# The same of package files.
UNREAD_HERE = {"pkgconfig-depends": "a library that is missing doesn't bar a plan", "build-tools": "write `build-tool-depends: PACKAGE:EXECUTABLE`"}
# The major versions of ghc by those of base.
COMPILERS = {
    (4, 9): "8.0", (4, 10): "8.2", (4, 11): "8.4", (4, 12): "8.6", (4, 13): "8.8", (4, 14): "8.10", (4, 15): "9.0", (4, 16): "9.2",
    (4, 17): "9.4", (4, 18): "9.6", (4, 19): "9.8", (4, 20): "9.10", (4, 21): "9.12",
}  # fmt: skip
