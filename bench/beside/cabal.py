"""cabal-install without a network. Input: the folder of a project, and the files of its index. Output: the verdict and the
plan, in the form of `planner.py`."""

import io
import json
import os
import shutil
import subprocess
import tarfile

from beside import plans
from tool import files

CONFIG = "repository here\n  url: file+noindex://{}\n"
NO_PLAN, LIMIT = "Could not resolve dependencies", "Backjump limit reached"


class Missing(Exception):
    """A missing program."""


def number_of(program):
    """Returns the version of a program on the path."""
    if not shutil.which(program):
        raise Missing(f"{program} isn't installed: Debian has it in the packages ghc and cabal-install")
    return subprocess.run([program, "--numeric-version"], stdout=subprocess.PIPE, text=True, check=True).stdout.strip()


def archive(package, version, text, path):
    """Makes an archive of a package with only its `.cabal` file: a plan needs no more."""
    with files.given_file(path) as file, tarfile.open(fileobj=file, mode="w:gz", compresslevel=1) as tar:
        told = tarfile.TarInfo(f"{package}-{version}/{package}.cabal")
        told.size = len(text)
        tar.addfile(told, io.BytesIO(text))


class Home:
    """A home of cabal with one repository in a folder, of `.cabal` files by package and version."""

    def __init__(self, room):
        self.room, self.index = files.made_room(os.path.abspath(room)), None
        self.room.folder("repository")
        self.room.write("home/config", CONFIG.format(f"{self.room}/repository"))

    def offer(self, index):
        """Makes these the packages of the repository. Those that the last call had too aren't written again."""
        if self.index is index:
            return
        self.room.remove("repository")
        self.room.folder("repository")
        for (package, version), text in index.items():
            archive(package, version, text, f"{self.room}/repository/{package}-{version}.tar.gz")
        self.index = index

    def plan(self, folder, words):
        """Runs cabal in a folder, and returns its answer."""
        environment = {**os.environ, "CABAL_DIR": f"{self.room}/home", "HOME": f"{self.room}/home", "CABAL_CONFIG": f"{self.room}/home/config"}
        status, told, seconds = plans.run(["cabal", "build", "all", "--dry-run", *words], folder, environment)
        if status is None:
            return plans.Answer("no answer", seconds, told)
        if status == 0:
            return plans.Answer("plan", seconds, told, *read(f"{folder}/dist-newstyle/cache/plan.json"))
        verdict = "gave up" if LIMIT in told else "no plan" if NO_PLAN in told else "refused"
        return plans.Answer(verdict, seconds, told)


def needs_of(unit):
    """Returns the identifiers that a unit needs, for all of its components."""
    parts = [unit, *unit.get("components", {}).values()]
    return [it for part in parts for key in ("depends", "exe-depends") for it in part.get(key, [])]


def needed(units):
    """Returns the units that are reached from a local one. cabal also lists libraries and executables that nothing
    needs, but doesn't build them."""
    by_id = {it["id"]: it for it in units}
    open_, seen = [it["id"] for it in units if it.get("style") == "local"], set()
    while open_:
        one = open_.pop()
        if one not in seen:
            seen.add(one)
            open_ += needs_of(by_id[one])
    return [it for it in units if it["id"] in seen]


def parts_of(unit):
    """Returns the components of a unit; one with a setup script is built as a whole."""
    if "components" not in unit:
        return [unit.get("component-name", "lib")]
    return ["package"] if "setup" in unit["components"] else list(unit["components"])


def read(path):
    """Returns the needed components and the flags of a `plan.json`, and its object."""
    with open(path, encoding="utf-8") as file:
        form = json.load(file)
    units = needed(form["install-plan"])
    components, flags = set(), {}
    for unit in units:
        key = unit["pkg-name"], unit["pkg-version"]
        components |= {(*key, it) for it in parts_of(unit)}
        flags.setdefault(key, {}).update(unit.get("flags", {}))
    return components, flags, form
