"""Folders to plan with both. Input: the examples, an index of real packages, or the number of a random folder. Out:
projects, each with its own files and those of its index, in the forms for this program and for cabal-install."""

import glob
import os
import random


class BadIndex(Exception):
    """A folder that isn't an index: the reason."""


class Project:
    """A folder: its name, its local files by path, and its index by package and version. `ours` has the texts for this
    program if they differ."""

    def __init__(self, name, local, index, ours=None, ours_index=None, has_units=False):
        self.name, self.local, self.index, self.has_units = name, local, index, has_units
        self.ours, self.ours_index = local if ours is None else ours, index if ours_index is None else ours_index


def bytes_of(path):
    with open(path, "rb") as file:
        return file.read()


def index_of(folder):
    """Returns the `.cabal` files of an index by package and version."""
    found = {}
    for path in sorted(glob.glob(f"{folder}/*/*/*.cabal")):
        package, version, name = path.split("/")[-3:]
        if name == f"{package}.cabal":
            found[package, version] = bytes_of(path)
    if not found:
        raise BadIndex(f"{folder}: it has no file NAME/VERSION/NAME.cabal")
    return found


def example(folder):
    """Returns a folder of examples."""
    local = {}
    for at, inner, inside in os.walk(folder):
        inner[:] = sorted(it for it in inner if it not in ("index", "installed", "dist-newstyle"))
        local.update({os.path.relpath(f"{at}/{it}", folder): bytes_of(f"{at}/{it}") for it in sorted(inside)})
    return Project(os.path.basename(folder), local, index_of(f"{folder}/index"))


def real(index, ours):
    """Yields each package of an index as the local one, over the whole index. The local package hides its own file
    there. `ours` has the texts for this program."""
    for key in sorted(index):
        name = f"{key[0]}.cabal"
        yield Project(key[0], {name: index[key]}, index, {name: ours[key]}, ours, True)


def bounds(draw, versions):
    """Returns a random range, which mostly has some of these versions."""
    at = draw.choice(versions)
    return draw.choice(["", "", f" >={at}", f" <={at}", f" =={at}", f" <{at}", f" >{at}", f" =={at} || >{at}"])


def section(draw, names, versions, most):
    """Returns the lines of a section with random dependencies on these names."""
    needs = draw.sample(names, min(len(names), draw.randint(0, most)))
    return [f"  build-depends: {', '.join(it + bounds(draw, versions[it]) for it in needs)}"] if needs else []


def package(draw, name, version, names, versions, is_local):
    """Returns the text of a random package: a library, at times with a flag, an executable, a needed tool, and tests if
    it is local."""
    lines = ["cabal-version: 2.4", f"name: {name}", f"version: {version}"]
    body = ["library", *section(draw, names, versions, 3 if is_local else 2)]
    if names and draw.random() < 0.3:
        lines += ["flag fast", f"  default: {draw.choice(['True', 'False'])}"]
        body += [f"  if {draw.choice(['', '!'])}flag(fast)"] + ["  " + it for it in section(draw, names, versions, 2) or ["  build-depends:"]]
    if name.startswith("t"):
        body += [f"executable {name}", "  main-is: Main.hs", *section(draw, names, versions, 1)]
    tools = [it for it in names if it.startswith("t")]
    if tools and draw.random() < 0.3:
        tool = draw.choice(tools)
        body.insert(1, f"  build-tool-depends: {tool}:{tool}{bounds(draw, versions[tool])}")
    if is_local:
        body += ["test-suite spec", "  type: exitcode-stdio-1.0", "  main-is: Spec.hs", *section(draw, names, versions, 2)]
    return "\n".join([*lines, *body, ""]).encode()


def drawn(number):
    """Returns the random folder of a number, which determines it."""
    draw = random.Random(number)
    names = [f"p{at}" if draw.random() < 0.7 else f"t{at}" for at in range(draw.randint(3, 7))]
    versions = {it: [str(at) for at in range(1, draw.randint(2, 4))] for it in names}
    index = {}
    for at, name in enumerate(names):
        index.update({(name, it): package(draw, name, it, names[:at], versions, False) for it in versions[name]})
    return Project(f"drawn-{number}", {"main.cabal": package(draw, "main", "1", names, versions, True)}, index)
