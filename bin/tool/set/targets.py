"""The targets of a set: project folders, and packages of the index.

Input: the entries of the file, and the index. Output: for each target its name, and the files of its project, copied into the
room of the run, with what they mention."""

import fnmatch
import hashlib
import os

from tool.folder import closure
from tool.folder.folder import own_name
from tool.folder.index import by_number
from tool.folder.project import FILES, extra_names, local_files
from tool.input import content
from tool.names import is_name
from tool.refusal import Refusal, shown
from tool.set.form import EACH, LATEST
from tool.set.stock import names_of
from tool.words import nearest

TARGETS = "targets"
LOCAL = "cabal.project.local"


class Target:
    """A target: how it is called, its package and version, whether plans are wanted, and whether bounds are asked. Of a
    project the package and version are those of its only local file."""

    def __init__(self, called, package, version, of, project=None):
        self.called, self.package, self.version, self.project = called, package, version, project
        self.is_wanted, self.has_bounds = of.is_wanted, of.has_bounds


class Files:
    """The files of a target: where each is in the room, the text of its `cabal.project.local`, the names that it mentions,
    its own names, and a digest of all."""

    def __init__(self, target, number, form, stock, room):
        found = self.of_project(target, form) if target.project else {f"{target.package}.cabal": stock.source.data(target.package, target.version)}
        if target.project and form.is_rewritten:
            found.update(form.rewrite({path: data for path, data in found.items() if path not in FILES}, room))
        self.local, self.links, total = found.pop(LOCAL, b""), {}, hashlib.sha256()
        for path, data in sorted(found.items()):
            # (a folder for each of many packages would cost more than its file)
            self.links[path] = f"{TARGETS}/{number}/{path}" if target.project else f"{TARGETS}/{number}.cabal"
            room.write(self.links[path], data)
            total.update(repr((path, len(data))).encode() + data)
        total.update(self.local)
        local = {path: data for path, data in found.items() if path not in FILES}
        self.digest, self.own = total.digest(), {own_name(it) for it in local.values()}
        extra = extra_names(target.project) if target.project else set()
        self.roots = {it.decode() for data in local.values() for it in closure.mentioned(data)[0]} | extra | self.own
        self.texts = {path: data.decode("utf-8", "replace") for path, data in local.items()} if target.has_bounds else {}

    @staticmethod
    def of_project(target, form):
        """Returns the bytes of a project's files."""
        if not os.path.isdir(target.project):
            raise Refusal(f"{form.where}there is no folder {shown(target.called)}")
        there = [it for it in FILES if os.path.exists(f"{target.project}/{it}")]
        try:
            return {it: content(f"{target.project}/{it}") for it in (*there, *local_files(target.project))}
        except Refusal as refusal:
            raise Refusal(f"{form.where}{shown(target.called)}: {refusal}") from refusal


class Chosen:
    """The targets that the entries of a file choose."""

    def __init__(self, form, stock):
        self.form, self.stock, self.found, self.known = form, stock, {}, None

    def names(self):
        """Returns all names of the index, read once."""
        if self.known is None:
            self.known = names_of(self.stock.source)
        return self.known

    def targets(self):
        """Returns all targets, each once: of several entries with one target the last counts."""
        for of in self.form.targets:
            self.found.update({it.called: it for it in self.of_entry(of)})
        return list(self.found.values())

    def of_entry(self, of):
        """Returns the targets of an entry."""
        if of.kind == "project":
            return [Target(of.value, os.path.basename(self.form.place(of.value)), "", of, self.form.place(of.value))]
        if of.kind == "package":
            return self.of_name(of.value, of, of.where)
        if of.kind == "list":
            return self.of_list(of)
        names = self.names() if of.kind == "all" else [it for it in self.names() if fnmatch.fnmatchcase(it, of.value)]
        if not names:
            raise Refusal(f"{of.where}no package of the index has a name like {shown(of.value)}")
        return [it for name in names for it in self.of_name(name, of, of.where)]

    def of_list(self, of):
        """Returns the targets of a list: a name a line, with or without a version."""
        path = self.form.place(of.value)
        lines = enumerate(content(path).decode("utf-8", "replace").split("\n"), 1)
        told = [(number, line.split("#")[0].strip()) for number, line in lines]
        return [it for number, line in told if line for it in self.of_name(line, of, f"{shown(path)}:{number}: ")]

    def of_name(self, text, of, where):
        """Returns the targets of a name, or of a name and a version."""
        name, mark, version = text.rpartition("-")
        if not mark or not is_name(version, "version"):
            name, version = text, None
        there = self.stock.versions(name)
        if not there:
            raise Refusal(f"{where}the index has no package {shown(name)}{nearest(name, self.names())}")
        if version is None and of.versions == LATEST:
            return [Target(name, name, self.stock.latest(name), of)]
        asked = [version] if version else sorted(there, key=by_number) if of.versions == EACH else of.versions
        for it in asked:
            if it not in there:
                raise Refusal(f"{where}the index has no {shown(name)} {shown(it)}")
        return [Target(f"{name}-{it}", name, it, of) for it in asked]
