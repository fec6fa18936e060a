"""`cabal-plan folder`: words that make copies anew, repositories of archives, and inputs that are large, odd or no files."""

import io
import os
import pty
import resource
import select
import socket
import sys
import tarfile
import time

from tests.rooms import CABAL, GHC, PACKAGE, TOP, Room, listing
from tool.folder import closure, patterns, progress
from tool.input import MOST
from tool.refusal import Refusal

OURS = ("src/project/.plan-folder", "src/project/index", "src/project/installed")
OLDER = CABAL.replace("2.4", ">=1.10") + "build-type: Simple\n"
# A planner that shows what it would read.
SHOWS = "#!/bin/sh\necho \"$*\"\ncat main.cabal cabal.project.local events 2>/dev/null\nexit 0\n"
SECONDS, MEMORY = 10, 500_000_000


def device(path):
    os.symlink("/dev/zero", path)


def bound(path):
    with socket.socket(socket.AF_UNIX) as it:
        it.bind(os.path.relpath(path))


class Copies(Room):
    """A project whose local file is rewritten."""

    def setUp(self):
        super().setUp()
        self.write("src/project/main.cabal", OLDER)
        self.planner = self.script("bin/planner", SHOWS)

    def words(self, *further):
        """Returns the line that `folder` prints."""
        ran = self.folder("--older-headers", *further, program=self.planner)
        self.assertEqual(0, ran.returncode, ran.err)
        return ran.out

    def sh(self, line):
        ran = self.run_script(["sh", "-c", line])
        self.assertEqual(0, ran.returncode, ran.err)
        return ran.out

    def test_the_words_see_later_edits(self):
        line = self.words()
        self.assertIn(f"{TOP}/bin/cabal-plan folder ", line)
        self.write("src/project/main.cabal", OLDER.replace("base, a", "base, a >1"))
        self.write("src/project/cabal.project.local", "tests: True\n")
        told = self.sh(line)
        self.assertIn("plan --compiler=ghc-9.0.2", told)
        self.assertIn("cabal-version: 2.4", told)
        self.assertIn("a >1", told)
        self.assertIn("tests: True", told)

    def test_the_words_are_for_a_shell(self):
        self.planner = self.script("bin/a planner; 'x'", SHOWS)
        self.assertIn("plan --compiler=ghc-9.0.2", self.sh(self.words()))

    def test_replay_sees_the_events(self):
        self.write("src/project/events", "start\n")
        self.assertIn("start\n", self.words("--run", "--", "replay"))
        self.write("src/project/more/e", "completed 1\n")
        ran = self.folder("--older-headers", "--run", "--", "replay", "--events=more/e", program=self.script("bin/planner", "#!/bin/sh\ncat more/e\n"))
        self.assertEqual("completed 1\n", ran.out, ran.err)

    def test_what_is_frozen_goes_into_the_project(self):
        line = self.words("--", "freeze")
        self.assertIn("-- freeze", line)
        self.assertIn("freeze --compiler=ghc-9.0.2", self.sh(f"{line.strip()} >frozen; cat frozen"))
        self.assertTrue(os.path.isfile(f"{self.project}/frozen"))

    def test_without_copies_the_words_are_the_planners(self):
        self.write("src/project/main.cabal", CABAL)
        self.assertEqual(f"{self.planner} plan --compiler=ghc-9.0.2 --os=linux --arch=x86_64\n", self.words())

    def test_nothing_is_said_of_git_outside_of_git(self):
        self.assertIn(".gitignore", self.folder("--older-headers").err)
        os.rename(f"{self.project}/.git", f"{self.room}/git")
        self.assertNotIn(".gitignore", self.folder("--older-headers").err)


class Indexes(Room):
    """Where the packages come from."""

    def cabal(self, *words, **how):
        """Runs `folder` with the index of cabal."""
        return self.run_script([f"{TOP}/bin/cabal-plan", "folder", *self.programs(self.script("planner", "#!/bin/sh")), *words], **how)

    def packed(self, path, files, mode="w:gz"):
        """Makes a tar of these files."""
        os.makedirs(os.path.dirname(f"{self.room}/{path}"), exist_ok=True)
        with tarfile.open(f"{self.room}/{path}", mode, **({"compresslevel": 1} if mode == "w:gz" else {})) as tar:
            for name, content in files.items():
                told = tarfile.TarInfo(name)
                told.size = len(content)
                tar.addfile(told, io.BytesIO(content.encode()))

    def noindex(self):
        for version in ("1", "2"):
            self.packed(f"packed/a-{version}.tar.gz", {f"a-{version}/README": "x" * 999, f"a-{version}/a.cabal": PACKAGE.format("a", version)})
        self.write("packed/a-2.cabal", PACKAGE.format("a", "2") + "-- revised\n")
        self.write("home/.cabal/config", f"-- a comment\nrepository here\n  url: file+noindex://{self.room}/packed#shared-cache\nstore-dir: x\n")

    def content(self, path):
        with open(f"{self.project}/{path}", encoding="utf-8") as file:
            return file.read()

    def test_a_repository_of_archives(self):
        self.noindex()
        ran = self.cabal()
        self.assertEqual(0, ran.returncode, ran.err)
        self.assertEqual(PACKAGE.format("a", "1"), self.content("index/a/1/a.cabal"))
        self.assertIn("revised", self.content("index/a/2/a.cabal"))
        ran = self.run_script([f"{TOP}/bin/cabal-plan", "folder", f"--index={self.room}/packed", f"--program={self.room}/planner"])
        self.assertEqual(0, ran.returncode, ran.err)

    def test_a_server_and_a_repository_of_archives(self):
        self.noindex()
        self.packed("home/.cabal/packages/server/01-index.tar", {f"a/{it}/a.cabal": PACKAGE.format("a", it) for it in ("2", "3")}, "w")
        ran = self.cabal()
        self.assertEqual(0, ran.returncode, ran.err)
        self.assertEqual(["1", "2", "3"], sorted(os.listdir(f"{self.project}/index/a")))
        self.assertIn("revised", self.content("index/a/2/a.cabal"))

    def test_bad_archives(self):
        self.noindex()
        for content in (b"", b"\x1f\x8b junk", b"no gzip at all"):
            self.write("packed/a-1.tar.gz", content)
            self.is_failure(self.cabal(), "a-1.tar.gz")
        self.packed("packed/a-1.tar.gz", {"b": "x"})
        self.is_failure(self.cabal(), "has no a-1/a.cabal")
        self.packed("packed/a-1.tar.gz", {"a-1/zeros": "0" * (1 << 27)})
        self.is_failure(self.cabal(), "unpacks to more than")
        self.write("home/.cabal/config", "repository here\n  url: file+noindex:///nowhere\n")
        self.is_failure(self.cabal(), "there is no such folder")

    def test_an_index_without_a_package(self):
        os.makedirs(f"{self.room}/nothing/a/1")
        self.write("nothing/a/x/a.cabal", "x")
        self.packed("nothing.tar", {"a/b": "x"}, "w")
        for path in ("nothing", "nothing.tar"):
            before = listing(self.room)
            self.is_failure(self.cabal(f"--index={self.room}/{path}"), "has no file NAME/VERSION/NAME.cabal")
            self.is_untouched(before)

    def head(self, name, size, kind=b"0"):
        """Returns a tar's head with this field for its size."""
        head = bytearray(512)
        head[: len(name)] = name
        head[124 : 124 + len(size)] = size
        head[156:157] = kind
        head[257:265] = b"ustar\x0000"
        head[148:156] = b" " * 8
        head[148:156] = b"%06o\0 " % sum(head)
        return bytes(head)

    def entry(self, name, content, size=None, kind=b"0"):
        return self.head(name, size or b"%011o\0" % len(content), kind) + content + b"\0" * (-len(content) % 512)

    def test_sizes_of_a_tar(self):
        """A size of twelve digits, one of a pax record, and one in binary."""
        text = (PACKAGE.format("a", "1") + "-- end").encode()
        record = b"size=%d\n" % len(text)
        record = b"%d %s" % (len(record) + 3, record)
        for number, made in enumerate((
            self.entry(b"a/1/a.cabal", text, b"%012o" % len(text)),
            self.entry(b"PaxHeader", record, kind=b"x") + self.entry(b"a/1/a.cabal", text, b"%011o\0" % 5),
            self.entry(b"a/1/a.cabal", text, b"\x80" + len(text).to_bytes(11, "big")),
        )):  # fmt: skip
            self.write(f"{number}.tar", made + bytes(1024))
            ran = self.cabal(f"--index={self.room}/{number}.tar")
            self.assertEqual(0, ran.returncode, ran.err)
            self.assertEqual(text.decode(), self.content("index/a/1/a.cabal"))
        for record in (b"9999 size=1\n", b"12 size=-11\n", b"x", b"12 size=one\n"):
            self.write("bad.tar", self.entry(b"PaxHeader", record, kind=b"x") + self.entry(b"a/1/a.cabal", text) + bytes(1024))
            self.is_failure(self.cabal(f"--index={self.room}/bad.tar"), "can't be read")

    def test_names_of_a_tar_that_are_too_long(self):
        long = {f"{'a' * 300}/1/{'a' * 300}.cabal": "x", f"a/{'1.' * 200}1/a.cabal": "x", "a/1/a.cabal": PACKAGE.format("a", "1")}
        self.packed("long.tar", long, "w")
        self.write("src/project/main.cabal", CABAL + f"    , {'a' * 300}\n")
        ran = self.cabal(f"--index={self.room}/long.tar")
        self.assertEqual(0, ran.returncode, ran.err)
        self.assertEqual(["1"], os.listdir(f"{self.project}/index/a"))

    def test_a_file_that_is_too_large_for_the_planner(self):
        """Its versions stay, so that the planner says it; nothing larger is read."""
        with open(self.write("packages/a/1/a.cabal", PACKAGE.format("a", "1")), "r+b") as file:
            file.truncate(3 << 30)
        self.packed("large.tar", {"a/1/a.cabal": PACKAGE.format("a", "1") + " " * MOST}, "w")
        for path in ("packages", "large.tar"):
            ran = self.cabal("--older-headers", f"--index={self.room}/{path}")
            self.assertEqual(0, ran.returncode, ran.err)
            self.assertGreater(os.path.getsize(f"{self.project}/index/a/1/a.cabal"), MOST)

    def test_progress_on_a_terminal_alone(self):
        ours, theirs = pty.openpty()
        before, first = sys.stderr, progress.FIRST
        try:
            progress.FIRST = 0
            with open(theirs, "w", encoding="utf-8") as terminal, open(os.devnull, "w", encoding="utf-8") as other:
                sys.stderr = other
                line = progress.Progress("reads x", 100)
                line.at(50)
                line.end()
                sys.stderr = terminal
                line = progress.Progress("reads \x1b[31m", 100)
                line.at(50)
                line.end()
            # What is written to a terminal may come in pieces.
            told = b""
            while not told.endswith(progress.CLEAR.encode()) and select.select([ours], [], [], 10)[0]:
                told += os.read(ours, 1000)
        finally:
            sys.stderr, progress.FIRST = before, first
            os.close(ours)
        self.assertIn(b"reads \\x1b[31m  50 %", told)
        self.assertTrue(told.endswith(progress.CLEAR.encode()))


class Hostile(Room):
    """Inputs that nobody would write. Each ends soon, in one line, and changes nothing."""

    def limited(self):
        resource.setrlimit(resource.RLIMIT_AS, (MEMORY, MEMORY))
        resource.setrlimit(resource.RLIMIT_CPU, (SECONDS, SECONDS))

    def check(self, *words, status=70, options=()):
        before = listing(self.room)
        ran = self.folder(*options, preexec_fn=self.limited)
        self.assertEqual(status, ran.returncode, ran.err)
        self.assertNotIn("Traceback", ran.err)
        for word in words:
            self.assertIn(word, ran.err.rstrip("\n").split("\n")[-1])
        self.is_untouched(before, OURS)
        return ran

    def test_files_that_are_none(self):
        self.write("src/project/cabal.project", "packages: *.cabal\n")
        for path, makes in (("src/project/x.cabal", (os.mkfifo, device, bound)), ("db/x-1.conf", (os.mkfifo,)), ("src/project/cabal.project", (os.mkfifo, device))):
            whole = f"{self.room}/{path}"
            if os.path.exists(whole):
                os.remove(whole)
            for make in makes:
                with self.subTest(path):
                    make(whole)
                    self.check("is no regular file")
                    os.remove(whole)

    def test_a_full_disk(self):
        """No byte can be written to a file. The next run goes on."""
        self.script("bin/ghc", GHC.format(log="/dev/null", database=f"{self.room}/db"))
        self.script("planner", "#!/bin/sh\necho plan\n")
        before = listing(self.room)
        ran = self.folder(program=f"{self.room}/planner", preexec_fn=lambda: resource.setrlimit(resource.RLIMIT_FSIZE, (0, 0)))
        self.is_failure(ran, "can't be")
        self.is_untouched(before, OURS)
        self.assertEqual(0, self.folder(program=f"{self.room}/planner").returncode)

    def test_a_sparse_file(self):
        for path in ("src/project/main.cabal", "src/project/cabal.project", "db/x-1.conf"):
            with open(f"{self.room}/{path}", "ab") as file:
                file.truncate(3 << 30)
            before = os.stat(f"{self.room}/{path}").st_mtime_ns
            self.is_failure(self.folder("--older-headers", preexec_fn=self.limited), "has more than 1048576 bytes")
            self.assertEqual(before, os.stat(f"{self.room}/{path}").st_mtime_ns)
            os.truncate(f"{self.room}/{path}", 0)
            self.write("src/project/main.cabal", CABAL)
            os.remove(f"{self.room}/{path}") if "main" not in path else None

    def within(self, seconds, call):
        """Calls it, and checks that it takes no longer on an idle machine."""
        begun = time.process_time()
        found = call()
        self.assertLess(time.process_time() - begun, seconds)
        return found

    def test_texts_of_a_megabyte(self):
        self.write("src/project/main.cabal", CABAL + "  build-depends: " + ",".join(f"a{it}" for it in range(130_000)))
        self.check(status=0)
        for text in (
            "  " + "depends" * 149_000, "{build-depends:{" * 65_000, "\ntest-suite t\n  build-depends: a\n" * 29_000,
            "".join(f"{' ' * it}build-depends:\n" for it in range(1400)), "\n" * 1_000_000,
        ):  # fmt: skip
            self.within(3, lambda: closure.mentioned((CABAL + text)[:MOST].encode()))

    def matched(self, *entries):
        """Returns how many paths the entries match, or -1 where they are refused."""
        of = patterns.Entries(self.project)
        try:
            return self.within(5, lambda: sum(len(of.matches(it)) for it in entries))
        except Refusal as refusal:
            self.assertIn("match too many names", str(refusal))
            return -1

    def test_patterns(self):
        self.write(f"src/project/{'a' * 200}/x", "")
        for number in range(3):
            os.symlink(".", f"{self.project}/l{number}")
        for entry, count in (("*a" * 100 + "b", 0), ("*/" * 6 + "main.cabal", 3**6), ("*/" * 12 + "*.cabal", -1), ("*" * 400, 5), ("*/" * 5_000, -1)):
            self.assertEqual(count, self.matched(entry), entry[:20])
        for number in range(300):
            self.write(f"src/project/{number}.x", "")
        self.assertEqual(-1, self.matched(*(f"*{it}*" for it in range(100_000))))
        self.write("src/project/cabal.project", f"packages: {'*/' * 12}*.cabal\n")
        self.check("match too many names")

    def test_stars_fit_as_in_the_planner(self):
        folder = patterns.Entries(self.project)
        for name, entry, fits in (("abab", "*ab", 1), ("aXbXc", "a*b*c", 1), ("ab", "ab*b", 0), ("aba", "a*a", 1), ("a", "a*a", 0), (".a", "*a", 0), (".a", ".*", 1), ("a\nb", "a*b", 1)):
            self.write(f"src/project/d/{name}", "")
            self.assertEqual([f"d/{name}"] * fits, [it for it in folder.matches(f"d/{entry}") if it == f"d/{name}"], (name, entry))
            folder = patterns.Entries(self.project)

    def test_a_name_with_a_line_feed(self):
        self.write("src/project/x\nchoose evil 1 local\n.cabal", CABAL.replace("main", "x"))
        ran = self.folder()
        self.assertEqual(0, ran.returncode, ran.err)
        self.assertNotIn("\nchoose", ran.err)
        self.assertIn("x\\nchoose evil 1 local\\n.cabal: its name can look like a line of a plan", ran.err)

    def test_messages_never_go_to_standard_output(self):
        planner = self.script("planner", "#!/bin/sh\necho plan\n")
        line = f"exec {TOP}/bin/cabal-plan folder --index={self.room}/packages --program={planner} --run 2>&-"
        ran = self.run_script(["sh", "-c", line])
        self.assertEqual((0, "plan\n"), (ran.returncode, ran.out))

    def test_a_module_of_the_user(self):
        for name in ("json", "os", "argparse", "tool"):
            self.write(f"modules/{name}.py", f"open({self.room + '/src/evil'!r}, 'w')\n")
        self.assertEqual(0, self.folder(environment=self.environment(PYTHONPATH=f"{self.room}/modules")).returncode)
        self.assertFalse(os.path.exists(f"{self.room}/src/evil"))

    def test_without_a_home(self):
        before = listing(self.room)
        ran = self.run_script([f"{TOP}/bin/cabal-plan", "folder"], environment={"PATH": f"{self.room}/bin:/usr/bin:/bin"})
        self.assertEqual(70, ran.returncode, ran.err)
        self.assertEqual(1, len([it for it in ran.err.splitlines() if "there is no 01-index.tar" in it]))
        self.is_untouched(before)


class Fields(Room):
    """Which names a file mentions."""

    def test_names(self):
        for text, full in (
            (b"build-depends: a, b >1,\n c\nname: d, e", "a b c"), (b"library {build-depends: a} executable x {Build-Depends:b, c}", "a b c"),
            (b"if x\n  build-depends: a\n   -- , b\n   , c\n\n   , d\n  x: , e", "a c d"), (b"build-depends: { a\n, b }\nother-depends: x, y", "a b"),
            (b"build-tool-depends:\n  a:x, b:y\nbuild-tools: c\nsetup-depends: d", "a b c d"), (b"x-build-depends: a\n depends: b", ""),
            (b"build-depends : { a, b", "a b"), (b"\tbuild-depends:\n\t\ta\n\t, b", "a"),
        ):  # fmt: skip
            found = closure.mentioned(b"build-type: Simple\n" + text)[0]
            self.assertEqual(set(full.split()), {it.decode() for it in found}, text)
