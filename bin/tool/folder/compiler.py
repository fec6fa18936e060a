"""Asks a ghc for its version and platform.

Input: the ghc of the command line, that of the project, or none for the one on the PATH. Output: its version, its target
system and processor in the planner's words, its global database, and its ghc-pkg. A program of the project is started
only where the command line names it."""

import os
import platform
import re
import shutil
import subprocess
import sys

from tool import children
from tool.ends import status_of_program
from tool.folder.conditions import Platform
from tool.folder.project import holding, repository
from tool.refusal import Refusal, shown

SYSTEMS = {"darwin": "osx", "mingw32": "windows", "win32": "windows", "cygwin32": "windows", "kfreebsdgnu": "freebsd", "solaris2": "solaris"}
PROCESSORS = {
    "amd64": "x86_64", "arm64": "aarch64", "powerpc": "ppc", "powerpc64": "ppc64", "powerpc64le": "ppc64", "sun4": "sparc",
    "sparc64": "sparc", "mipsel": "mips", "mipseb": "mips", "armeb": "arm", "armel": "arm",
}  # fmt: skip
PAIR = re.compile(r'\("((?:[^"\\]|\\.)*)"\s*,\s*"((?:[^"\\]|\\.)*)"\)')


class Compiler:
    """A compiler: its path, its version, and its own information."""

    def __init__(self, path, version, info):
        self.path, self.version = path, version
        cpu, _, system = (info["Target platform"].split("-", 2) + ["", ""])[:3]
        self.arch, self.os = PROCESSORS.get(cpu, cpu), self.system(system)
        self.database = info["Global Package DB"]

    @staticmethod
    def system(text):
        """Returns the planner's word for a system, such as `linux` for `linux-gnu` and `osx` for `darwin20`."""
        if "android" in text:
            return "android"
        word = text.split("-")[0].lower()
        plain = re.sub(r"[\d.]+$", "", word) or word
        return SYSTEMS.get(word) or SYSTEMS.get(plain) or plain

    def words(self):
        return [f"--compiler=ghc-{self.version}", f"--os={self.os}", f"--arch={self.arch}"]

    def ghc_pkg(self):
        """Returns the path of the ghc-pkg beside this compiler."""
        places = [os.path.dirname(it) for it in (self.path, os.path.realpath(self.path))]
        tries = [f"{place}/{name}" for place in places for name in (f"ghc-pkg-{self.version}", "ghc-pkg")]
        return next((it for it in tries if os.access(it, os.X_OK)), None)


def here():
    """Returns this machine's system and processor in the planner's words."""
    cpu = platform.machine().lower()
    return Platform(Compiler.system(sys.platform), PROCESSORS.get(cpu, cpu))


def answer(words):
    """Returns the output of a program."""
    try:
        ran = children.run(words, stdin=subprocess.DEVNULL, stdout=subprocess.PIPE, stderr=subprocess.PIPE)
    except (OSError, ValueError) as error:
        raise Refusal(f"{shown(words[0])} can't be run: {getattr(error, 'strerror', error)}") from error
    if ran.returncode:
        told = ran.stderr.decode("utf-8", "replace").strip().split("\n")[-1]
        raise Refusal(f"'{shown(' '.join(words))}' ends with status {status_of_program(ran.returncode)}: {shown(told)}")
    return ran.stdout.decode("utf-8", "replace")


class Choice:
    """The ghc to ask: its path or name, or none for the one on the PATH; and the project whose programs aren't started,
    or none where the command line names the ghc."""

    def __init__(self, asked, project):
        self.asked, self.project = asked, project


def chosen(project, given):
    """Returns the ghc of the command line; else that of the project, under conditions that hold; else none."""
    if given:
        return Choice(given, None)
    return Choice("".join(holding(project, "with-compiler", here())[-1:]), project)


def is_inside(path, project):
    """Returns whether a path leads into a project, or into the repository that has the project."""
    top = repository(project) or os.path.realpath(project)
    return os.path.commonpath([top, os.path.realpath(path)]) == top


def found_path(choice):
    """Returns the path of the ghc to ask. One that the project names or brings isn't started."""
    asked = choice.asked
    if choice.project and "/" in asked and not asked.startswith("/"):
        raise Refusal(f"the project's with-compiler is {shown(asked)}, a path in the project: it isn't started; --with-compiler=PATH starts it")
    path = shutil.which(asked or "ghc")
    if not path and asked:
        raise Refusal(f"there is no compiler {shown(asked)}: --with-compiler takes the path of a ghc, or a name on the PATH")
    if not path:
        raise Refusal("there is no ghc on the PATH: say where it is, as in --with-compiler=/opt/ghc/bin/ghc")
    if choice.project and is_inside(path, choice.project):
        raise Refusal(f"{shown(path)} is inside the project: it isn't started; --with-compiler=PATH starts it")
    return os.path.abspath(path)


def compiler(choice, say):
    """Returns the compiler that was chosen, and says which one is asked before it is."""
    path = found_path(choice)
    say(f"asks {path}")
    version = answer([path, "--numeric-version"]).strip()
    info = dict(PAIR.findall(answer([path, "--info"])))
    lacking = [it for it in ("Target platform", "Global Package DB") if it not in info]
    if lacking or not re.fullmatch(r"[0-9]+(\.[0-9]+)*", version):
        raise Refusal(f"{path} doesn't answer as ghc does: --info lacks '{lacking[0]}'" if lacking else f"{path} has no version as ghc has: {shown(version[:40])}")
    return Compiler(path, version, info)
