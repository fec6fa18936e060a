"""The folders over which calls are refused: worked examples, and a folder of some fifty files."""

from torture.running import EXAMPLES, files_of


def plain(name, version, needs=()):
    depends = f"  build-depends: {', '.join(needs)}\n" if needs else ""
    return f"cabal-version: 2.4\nname: {name}\nversion: {version}\nlibrary\n{depends}"


def project():
    """Two packages with a test suite, a custom setup, a flag, a constraint and a build tool."""
    return files_of(f"{EXAMPLES}/project")


def missing():
    """A package that needs a missing one."""
    return {"main.cabal": plain("main", 1, ["foo"])}


def thirty():
    """Thirty packages in four versions, and a last one that allows no version of the first. With a limit of four the
    search gives up."""
    names = [f"a{number:02}" for number in range(1, 31)]
    files = {"main.cabal": plain("main", 1, [*names, "z"]), "index/z/1/z.cabal": plain("z", 1, ["a01 ==5"])}
    for name in names:
        files |= {f"index/{name}/{version}/{name}.cabal": plain(name, version) for version in (1, 2, 3, 4)}
    return files


def fifty():
    """Three local packages, six records, and forty files of the index in three versions: one too large, one cut off."""
    files = {
        "cabal.project": "packages: */*.cabal app\noptional-packages: more/*/\ntests: True\nconstraints: any.p03 <3, p05 +f\npreferences: p07 <3\n",
        "cabal.project.local": "allow-newer: p02\nmax-backjumps: 100\n",
        "app/app.cabal": plain("app", 1, ["base", *(f"p{number:02}" for number in range(1, 14))]) + "test-suite t\n  build-depends: app, lib\n",
        "libs/lib.cabal": plain("lib", 1, ["base", "p02"]) + "  build-tool-depends: tool:tool\nflag f\n  manual: True\n",
        "more/x/x.cabal": plain("x", 2, ["lib", "app"]),
        "index/tool/1/tool.cabal": plain("tool", 1, ["base"]) + "executable tool\n  build-depends: base, p01\n",
        "index/p14/1/p14.cabal": "cabal-version: 2.4\n" + "-" * 1_048_576,
        "index/p14/2/p14.cabal": "cabal-version: 2.4\nname: p14\nflag f {\n",
    }
    for number in range(1, 14):
        name = f"p{number:02}"
        for version in (1, 2, 3):
            needs = ["base", f"p{number + 1:02} <{version + 2}"] if number < 13 else ["base"]
            flag = "flag f\nlibrary\n  if flag(f)\n    build-depends: p14\n" if (number, version) == (5, 1) else ""
            files[f"index/{name}/{version}/{name}.cabal"] = flag and plain(name, version, needs).replace("library\n", flag) or plain(name, version, needs)
    units = {"base": "ghc-prim", "ghc-prim": "rts", "rts": "", "deepseq": "base", "array": "base", "p14": "gone"}
    for name, needs in units.items():
        files[f"installed/{name}-1.conf"] = f"name: {name}\nversion: 1\nid: {name}-1\ndepends: {needs and needs + '-1'}\n"
    return files


# The folder and the words of each row.
ROWS = {
    "a project": (project, ["plan"]),
    "a project, `--json`": (project, ["plan", "--json"]),
    "a project, `--count-conflicts`": (project, ["plan", "--count-conflicts"]),
    "a project, all options of `plan`": (
        project,
        "plan --index=index --installed=installed --os=Linux --arch=x86_64 --compiler=ghc-9.6.3 --max-backjumps=-1 --json --count-conflicts".split(),
    ),
    "a project, `freeze`": (project, ["freeze"]),
    "no plan": (missing, ["plan"]),
    "no plan, `--json`": (missing, ["plan", "--json"]),
    "no plan, `--count-conflicts`": (missing, ["plan", "--count-conflicts"]),
    "gave up": (thirty, ["plan", "--max-backjumps=4"]),
    "gave up, `--json`": (thirty, ["plan", "--max-backjumps=4", "--json"]),
    "gave up, `--count-conflicts`": (thirty, ["plan", "--max-backjumps=0", "--count-conflicts"]),
    "refused": (lambda: {"main.cabal": "cabal-version: 2.4\nname: main\nversion: x\n"}, ["plan"]),
    "`generate --number=7`": (dict, ["generate", "--number=7"]),
    "`generate --number=40 --max-backjumps=1`": (dict, ["generate", "--number=40", "--max-backjumps=1"]),
    "words without a reading": (dict, ["plan", "--number=3"]),
}
