"""What the scripts write, rename and remove."""

import ast
import contextlib
import os
import stat
import sys

from tests.rooms import TOP, Room, listing
from tool import files, names, refusal

# The calls that write, rename or remove, by their module. Only `files.py` and the tests make them.
WRITING = {
    "os": "chmod chown fchmod lchown link makedirs mkdir mkfifo mknod remove removedirs rename renames replace rmdir symlink truncate unlink write".split(),
    "shutil": "chown copy copy2 copyfile copyfileobj copymode copystat copytree make_archive move rmtree unpack_archive".split(),
    "tempfile": "NamedTemporaryFile SpooledTemporaryFile TemporaryDirectory TemporaryFile mkdtemp mkstemp mktemp".split(),
    "pathlib": "Path".split(),
}


def scripts():
    """Returns the paths of all scripts and modules but the tests."""
    found = []
    for top in ("bin", "bench"):
        for at, folders, inside in os.walk(f"{TOP}/{top}"):
            folders[:] = sorted(it for it in folders if it not in ("tests", "__pycache__"))
            found += [f"{at}/{it}" for it in sorted(inside)]
    return [it for it in found if it.endswith(".py") or is_script(it)]


def is_script(path):
    with open(path, "rb") as file:
        return b"python3" in file.readline()


def writes(tree):
    """Yields the calls of a script that write, rename or remove."""
    for it in ast.walk(tree):
        if isinstance(it, ast.ImportFrom) and it.module in WRITING:
            yield from (name.name for name in it.names if name.name in WRITING[it.module])
        if not isinstance(it, ast.Call):
            continue
        of = it.func
        if isinstance(of, ast.Attribute) and isinstance(of.value, ast.Name) and of.attr in WRITING.get(of.value.id, ()):
            yield f"{of.value.id}.{of.attr}"
        if isinstance(of, ast.Attribute) and of.attr in ("write_bytes", "write_text", "unlink", "rmdir", "touch"):
            if not (isinstance(of.value, ast.Name) and of.value.id in ("files", "own_files")):
                yield of.attr
        if isinstance(of, ast.Name) and of.id == "open":
            mode = it.args[1] if len(it.args) > 1 else next((key.value for key in it.keywords if key.arg == "mode"), None)
            if mode is not None and not (isinstance(mode, ast.Constant) and set(mode.value) <= set("rbt")):
                yield "open"


class Scripts(Room):
    """The scripts as texts."""

    def test_nothing_else_writes_or_removes(self):
        found = []
        for path in scripts():
            with open(path, encoding="utf-8") as file:
                tree = ast.parse(file.read(), path)
            if path != f"{TOP}/bin/tool/files.py":
                found += [f"{path}: {it}" for it in writes(tree)]
        self.assertEqual([], found)

    def test_the_check_sees_each_kind(self):
        for text in ("os.remove(x)", "open(x, 'w')", "open(x, mode=how)", "shutil.rmtree(x)", "from shutil import rmtree", "p.write_text('')"):
            self.assertTrue(list(writes(ast.parse(text))), text)
        for text in ("open(x)", "open(x, 'rb')", "os.listdir(x)", "files.rename(x, y, z)"):
            self.assertFalse(list(writes(ast.parse(text))), text)

    def test_python_3_9_reads_them(self):
        for path in scripts():
            with open(path, encoding="utf-8") as file:
                ast.parse(file.read(), path, feature_version=(3, 9))


class Files(Room):
    """Calls on folders and files."""

    def test_paths_below_a_folder(self):
        for path in ("", "/x", "a//b", "a/../b", "..", ".", "a/", "a\0b"):
            with self.assertRaises(refusal.Refusal):
                files.parts(path)
        self.assertEqual(["a", "b c"], files.parts("a/b c"))

    def test_filling_follows_no_link(self):
        os.makedirs(f"{self.room}/new")
        os.symlink("../src", f"{self.room}/new/way")
        before = listing(f"{self.room}/src")
        with files.opened(f"{self.room}/new") as handle, contextlib.closing(files.Filling(handle)) as to:
            for call in (lambda: to.put("way/x", b""), lambda: to.link("way/project/x", "y"), lambda: to.put("way", b"")):
                with self.assertRaises(OSError):
                    call()
            to.put("a/b/c", b"here")
            with self.assertRaises(FileExistsError):
                to.put("a/b/c", b"again")
        self.assertEqual(before, listing(f"{self.room}/src"))

    def test_rewriting_keeps_to_the_file(self):
        os.makedirs(f"{self.room}/new/a")
        mine = self.write("src/mine", "not to be lost\n")
        os.symlink(mine, f"{self.room}/new/a/link")
        os.link(mine, f"{self.room}/new/a/other")
        with files.opened(f"{self.room}/new") as handle, contextlib.closing(files.Filling(handle)) as to:
            to.put("a/b/c", b"a long text")
            to.put("a/d", b"")
            for path, text in (("a/b/c", b"short"), ("a/d", b"longer")):
                to.rewrite(path, text)
                self.assertEqual(text, refusal.read(f"{self.room}/new/{path}"))
            for path in ("a/link", "a/other", "a/missing", "a/b"):
                with self.assertRaises(OSError):
                    to.rewrite(path, b"lost")
        self.assertEqual(b"not to be lost\n", refusal.read(mine))

    def test_nothing_is_removed_where_something_is_foreign(self):
        os.makedirs(f"{self.room}/made/a")
        self.write("made/a/x.conf", "")
        self.write("made/z.txt", "mine\n")
        before = listing(self.room)
        with files.opened(self.room) as handle, self.assertRaises(files.Foreign):
            files.remove_folder("made", handle, lambda path, mode: stat.S_ISDIR(mode) or path[-1].endswith(".conf"))
        self.assertEqual(before, listing(self.room))

    def test_removing_follows_no_link(self):
        os.makedirs(f"{self.room}/made/a")
        self.link("made/a/way", f"{self.room}/src")
        self.link("way", "src")
        before = listing(f"{self.room}/src")
        with files.opened(self.room) as handle:
            files.remove_folder("made", handle, lambda path, mode: True)
            with self.assertRaises(OSError):
                files.remove_folder("way", handle, lambda path, mode: True)
        self.assertEqual(before, listing(f"{self.room}/src"))
        self.assertFalse(os.path.exists(f"{self.room}/made"))

    def test_a_removal_that_is_ended_leaves_the_mark(self):
        for name in ("a", "b", ".made", "z"):
            self.write(f"made/{name}.conf" if name != ".made" else "made/.made", "")
        unlink = files.os.unlink

        def ended(name, dir_fd):
            if name == "z.conf":
                raise KeyboardInterrupt
            unlink(name, dir_fd=dir_fd)

        files.os.unlink = ended
        self.addCleanup(setattr, files.os, "unlink", unlink)
        with files.opened(self.room) as handle, self.assertRaises(KeyboardInterrupt):
            files.remove_folder("made", handle, lambda path, mode: True, ".made")
        self.assertEqual([".made", "z.conf"], sorted(os.listdir(f"{self.room}/made")))

    def test_a_link_replaces_only_a_link_of_ours(self):
        os.makedirs(f"{self.room}/work")
        with files.opened(self.room) as within, files.opened(f"{self.room}/work") as work:
            files.set_link("index", "ours-1", within, work, lambda it: it.startswith("ours"))
            files.set_link("index", "ours-2", within, work, lambda it: it.startswith("ours"))
            self.assertEqual("ours-2", os.readlink(f"{self.room}/index"))
            for name in ("src", "bin/ghc", "db"):
                with self.assertRaises(OSError):
                    files.set_link(name, "ours-3", within, work, lambda it: it.startswith("ours"))
            os.remove(f"{self.room}/index")
            self.link("index", "src")
            with self.assertRaises(FileExistsError):
                files.set_link("index", "ours-3", within, work, lambda it: it.startswith("ours"))
        self.assertEqual([], os.listdir(f"{self.room}/work"))

    def test_a_folder_of_files_is_replaced_as_a_whole(self):
        dist = f"{self.room}/dist"
        files.replace_folder(dist, {"a": (b"1", 0o755), "b": (b"1", 0o644)})
        files.replace_folder(dist, {"a": (b"2", 0o755), "c": (b"2", 0o644)})
        self.assertEqual(["a", "c"], sorted(os.listdir(dist)))
        self.assertTrue(os.access(f"{dist}/a", os.X_OK))
        before = listing(self.room)
        with self.assertRaises(OSError):
            files.replace_folder(dist, {"a": (b"3", 0o755), "n" * 300: (b"3", 0o644)})
        self.assertEqual(before, listing(self.room))
        self.link("dist/way", "../src")
        before = listing(self.room)
        with self.assertRaises(refusal.Refusal):
            files.replace_folder(dist, {"a": (b"4", 0o755)})
        self.assertEqual(before, listing(self.room))

    def test_a_file_is_replaced_as_a_whole(self):
        path = self.write("x", "1")
        files.replace(path, b"2")
        with open(path, "rb") as file:
            self.assertEqual(b"2", file.read())
        self.link("way", "x")
        with self.assertRaises(refusal.Refusal):
            files.replace(f"{self.room}/way", b"3")

    def test_names(self):
        for kind, good, bad in (
            ("package", ("a", "a-b", "3d", "Cabal"), ("", "-a", "a-", "a--b", "a_b", "a/b", "..", "a.b", "\u00e9", "a\n", "x" * 300)),
            ("version", ("0", "1.2.0", "999999999"), ("", "01", "1.", ".1", "1..2", "1-2", "1234567890", "\u0661", "1\n")),
            ("unit", ("base-4.15", "a_b+c", "z-x-z-y"), ("", ".", "..", ".a", "-a", "a/b", "a b", "a\0", "../x")),
        ):
            for text in good:
                self.assertEqual(text, names.file_name(text, kind, "here"))
            for text in bad:
                with self.assertRaises(refusal.Refusal):
                    names.file_name(text, kind, "here")

    def test_messages_are_one_line(self):
        self.assertEqual("a\\nb\\x1b[0m\\u202e", refusal.escaped("a\nb\x1b[0m\u202e"))
        self.assertLessEqual(len(refusal.shown("x" * 10_000)), 310)


if __name__ == "__main__":
    sys.exit(__import__("unittest").main())
