"""`cabal-plan folder` over projects of strangers: it removes, writes and runs nothing that isn't its own."""

import fcntl
import os
import signal
import stat
import subprocess
import time

from tests.rooms import CABAL, EVIL, GHC, PACKAGE, RECORD, TOP, Room, listing

OURS = ("src/project/.plan-folder", "src/project/index", "src/project/installed")


class Works(Room):
    """What worked still works."""

    def test_makes_the_folder_and_prints_the_words(self):
        before = listing(self.room)
        ran = self.folder()
        self.assertEqual(0, ran.returncode, ran.err)
        self.assertIn("planner plan --compiler=ghc-9.0.2 --os=linux --arch=x86_64", ran.out)
        self.assertIn(f"asks {self.ghc}", ran.err)
        self.assertTrue(os.path.isfile(f"{self.project}/index/a/2/a.cabal"))
        self.assertTrue(os.path.isfile(f"{self.project}/installed/base-4.15.conf"))
        self.is_untouched(before, OURS)

    def test_a_second_run_changes_nothing(self):
        self.folder()
        before = listing(self.room)
        ran = self.folder()
        self.assertEqual(0, ran.returncode, ran.err)
        self.is_untouched(before)

    def test_a_new_dependency_replaces_the_index(self):
        self.folder()
        self.write("packages/b/1/b.cabal", PACKAGE.format("b", "1"))
        self.write("src/project/main.cabal", CABAL + "    , b\n")
        ran = self.folder()
        self.assertEqual(0, ran.returncode, ran.err)
        self.assertTrue(os.path.isfile(f"{self.project}/index/b/1/b.cabal"))
        self.assertEqual(1, len([it for it in os.listdir(f"{self.project}/.plan-folder") if it.startswith("index-")]))

    def test_older_headers_are_planned_in_a_folder_of_links(self):
        self.write("src/project/main.cabal", CABAL.replace("2.4", ">=1.10") + "build-type: Simple\n")
        ran = self.folder("--older-headers")
        self.assertEqual(0, ran.returncode, ran.err)
        self.assertTrue(os.path.isfile(f"{self.project}/.plan-folder/project/main.cabal"))
        self.assertTrue(os.path.isfile(f"{self.project}/.plan-folder/project/index/a/1/a.cabal"))

    def test_the_status_of_run_is_that_of_the_plan(self):
        for program, status in (("exit 1", 1), ("kill -9 $$", 137)):
            ran = self.folder("--run", program=self.script("planner", f"#!/bin/sh\necho no plan\n{program}\n"))
            self.assertEqual((status, "no plan\n"), (ran.returncode, ran.out))

    def test_a_project_as_cabal_init_makes_it(self):
        self.write("src/project/main.cabal", CABAL.replace("cabal-version: 2.4", "cabal-version:      3.0") + "executable main\n    main-is: Main.hs\n")
        self.write("src/project/app/Main.hs", "main = pure ()\n")
        self.write("src/project/CHANGELOG.md", "# Changes\n")
        before = listing(self.room)
        self.assertEqual(0, self.folder().returncode)
        self.is_untouched(before, OURS)

    def test_remains_of_a_killed_run_are_removed(self):
        self.folder()
        own = f"{self.project}/.plan-folder"
        os.mkdir(f"{own}/new")
        os.symlink(".plan-folder/index-0123456789abcdef", f"{own}/link-0123456789abcdef")
        before = listing(self.room)
        self.assertEqual(0, self.folder().returncode)
        self.assertFalse(os.path.lexists(f"{own}/new"))
        self.assertFalse(os.path.lexists(f"{own}/link-0123456789abcdef"))
        self.is_untouched(before, [it for it in before if "/new" in it or "/link-" in it])

    def test_a_run_killed_at_any_time_leaves_a_folder_to_go_on_with(self):
        for number in range(200):
            self.write(f"packages/p{number}x/1/p{number}x.cabal", PACKAGE.format(f"p{number}x", "1"))
        self.write("src/project/main.cabal", CABAL + "".join(f"    , p{it}x\n" for it in range(200)))
        words = [f"{TOP}/bin/cabal-plan", "folder", f"--index={self.room}/packages", f"--program={self.script('planner', '#!/bin/sh')}"]
        for wait in (0.05, 0.1, 0.12, 0.15, 0.2, 0.3):
            with subprocess.Popen(words, cwd=self.project, env=self.environment(), stdout=subprocess.DEVNULL, stderr=subprocess.DEVNULL) as ran:
                time.sleep(wait)
                ran.send_signal(signal.SIGKILL)
        ran = self.folder()
        self.assertEqual(0, ran.returncode, ran.err)
        self.assertEqual(202, len(os.listdir(f"{self.project}/index/")) - 1)

    def test_of_two_runs_at_once_one_waits_for_nothing(self):
        self.folder()
        with open(f"{self.project}/.plan-folder/.made", "rb") as lock:
            fcntl.flock(lock, fcntl.LOCK_EX)
            self.is_failure(self.folder(), "another run works")
        self.assertEqual(0, self.folder().returncode)

    def test_many_first_runs_at_once(self):
        words = [f"{TOP}/bin/cabal-plan", "folder", f"--index={self.room}/packages", f"--program={self.script('planner', '#!/bin/sh')}"]
        how = {"cwd": self.project, "env": self.environment(), "stdout": subprocess.DEVNULL, "stderr": subprocess.PIPE}
        running = [subprocess.Popen(words, **how) for _ in range(6)]
        told = [(it.communicate()[1].decode(), it.returncode) for it in running]
        self.assertIn(0, [status for _, status in told])
        for text, status in told:
            self.assertTrue(status == 0 or "another run works" in text, text)
        self.assertEqual(0, self.folder().returncode)


class Links(Room):
    """The tool's folder, its files and the links to it as a stranger may give them."""

    def check_refused(self, *words):
        before = listing(self.room)
        self.is_failure(self.folder(), *words)
        self.is_untouched(before)

    def test_a_folder_that_is_a_link(self):
        for target in (".", "..", "../beside", "/", "nowhere"):
            with self.subTest(target):
                self.link("src/project/.plan-folder", target)
                self.check_refused(".plan-folder", "hasn't made it")
                os.remove(f"{self.project}/.plan-folder")

    def test_a_folder_of_the_user(self):
        self.write("src/project/.plan-folder/precious.txt", "mine\n")
        self.check_refused(".plan-folder", "hasn't made it")

    def test_a_file_of_the_user(self):
        self.write("src/project/.plan-folder", "mine\n")
        self.check_refused(".plan-folder", "hasn't made it")

    def test_a_folder_with_a_forged_mark(self):
        number = os.stat(self.project).st_ino
        for text in ("", "made by cabal-plan: folder 1\n", f"made by cabal-plan: folder {number}\n"):
            self.write("src/project/.plan-folder/.made", text)
            self.write("src/project/.plan-folder/index-0123456789abcdef/a/1/a.cabal", "mine\n")
            with self.subTest(text):
                self.check_refused(".plan-folder", "hasn't made it")

    def test_a_copy_of_the_folder(self):
        self.folder()
        subprocess.run(["cp", "-a", f"{self.project}/.plan-folder", f"{self.project}/copy"], check=True)
        subprocess.run(["rm", "-r", f"{self.project}/.plan-folder"], check=True)
        os.rename(f"{self.project}/copy", f"{self.project}/.plan-folder")
        self.check_refused(".plan-folder", "hasn't made it")

    def test_a_mark_that_is_no_file(self):
        os.mkdir(f"{self.project}/.plan-folder")
        mark = f"{self.project}/.plan-folder/.made"
        for make in (lambda: os.symlink("../../precious.txt", mark), lambda: os.symlink("../../new", mark), lambda: os.mkfifo(mark), lambda: os.link(f"{self.room}/home/.keep", mark)):
            make()
            self.check_refused(".plan-folder", "hasn't made it")
            os.remove(mark)

    def test_an_earlier_lock_has_no_part(self):
        self.folder()
        own = f"{self.project}/.plan-folder"
        os.symlink("../../made-by-a-lock", f"{own}/lock")
        self.assertEqual(0, self.folder().returncode)
        self.assertFalse(os.path.lexists(f"{self.room}/src/made-by-a-lock"))
        os.remove(f"{own}/lock")
        os.mkfifo(f"{own}/lock")
        self.assertEqual(0, self.folder().returncode)
        self.assertTrue(stat.S_ISFIFO(os.lstat(f"{own}/lock").st_mode))

    def test_an_index_of_the_user(self):
        for make in (
            lambda at: os.symlink("../beside", at), lambda at: os.symlink(".plan-folder/..", at), lambda at: os.symlink(".plan-folder/../../beside", at),
            lambda at: os.symlink(".plan-folder/installed-0123456789abcdef", at), os.mkdir, os.mkfifo,
        ):  # fmt: skip
            at = f"{self.project}/index"
            make(at)
            self.check_refused("index is here already")
            os.rmdir(at) if os.path.isdir(at) and not os.path.islink(at) else os.remove(at)

    def test_the_link_to_the_copied_project(self):
        self.write("src/project/main.cabal", CABAL.replace("2.4", ">=1.10") + "build-type: Simple\n")
        self.folder("--older-headers")
        at = f"{self.project}/.plan-folder/project"
        self.write("src/project/main.cabal", CABAL.replace("2.4", ">=1.8") + "build-type: Simple\n")
        for target in ("../..", "../../beside", "/"):
            os.remove(at)
            os.symlink(target, at)
            before = listing(self.room)
            self.is_failure(self.folder("--older-headers"), "project is here already")
            self.is_untouched(before, OURS)
            self.assertEqual(target, os.readlink(at))

    def test_a_refused_run_removes_nothing(self):
        """An `index` that leads into the tool's folder doesn't tell the tool what to remove."""
        self.folder()
        self.write("src/project/.plan-folder/precious.txt", "mine\n")
        os.remove(f"{self.project}/index")
        os.symlink(".plan-folder/index-0123456789abcdef", f"{self.project}/index")
        before = listing(self.room)
        self.is_failure(self.run_script([f"{TOP}/bin/cabal-plan", "folder", f"--index={self.room}/nowhere", f"--program={self.room}/planner"]), "there is no")
        self.is_untouched(before)

    def test_what_the_user_has_put_into_the_folder_stays(self):
        self.folder()
        index = os.path.basename(os.readlink(f"{self.project}/index"))
        at = f"src/project/.plan-folder/{index}"
        self.write(f"{at}/a/1-notes/notes.txt", "mine\n")
        self.write("packages/b/1/b.cabal", PACKAGE.format("b", "1"))
        self.write("src/project/main.cabal", CABAL + "    , b\n")
        ran = self.folder()
        self.assertEqual(0, ran.returncode, ran.err)
        self.assertIn("hasn't made: it stays", ran.err)
        self.assertTrue(os.path.isfile(f"{self.room}/{at}/a/1-notes/notes.txt"))

    def test_a_removed_folder_may_have_links_to_anything(self):
        self.folder()
        index = os.path.basename(os.readlink(f"{self.project}/index"))
        os.symlink("../../../../beside", f"{self.project}/.plan-folder/{index}/a/9")
        self.write("src/project/main.cabal", CABAL.replace(", a", ""))
        ran = self.folder()
        self.assertEqual(0, ran.returncode, ran.err)
        self.assertFalse(os.path.lexists(f"{self.project}/.plan-folder/{index}"))
        self.assertTrue(os.path.isfile(f"{self.room}/src/beside/precious.txt"))

    def test_local_files_below_the_links(self):
        """A local file inside `index` isn't written through the link of the copied project."""
        self.write("src/project/cabal.project", "packages: main.cabal, installed/x.cabal, .plan-folder/y.cabal\n")
        self.write("src/project/main.cabal", CABAL.replace("2.4", "1.12"))
        self.folder("--older-headers")
        self.write("src/project/installed/x.cabal", CABAL.replace("2.4", "1.12").replace("main", "x"))
        before = listing(f"{self.room}/db")
        self.is_failure(self.folder("--older-headers"))
        self.assertEqual(before, {it: of for it, of in listing(f"{self.room}/db").items() if it != "x.cabal"})


class Names(Room):
    """Names and ids that would become paths."""

    def check(self, *words, **how):
        before = listing(self.room)
        self.is_failure(self.folder(**how), *words)
        self.is_untouched(before, OURS)
        self.assertEqual([], [it for it in listing(self.room) if "victim" in it])

    def test_an_id_in_a_database(self):
        for bad in ("../../../victim", "/victim", "..", "a/b", "-x", "a\u2028b"):
            self.write("db/x-1.conf", RECORD.format("x", "1").replace("id: x-1", f"id: {bad}"))
            with self.subTest(bad):
                self.check("names a unit", "may be called so")

    def test_a_name_in_a_database(self):
        for bad in ("../../packages", "..", "a_b/c"):
            self.write("db/x-1.conf", RECORD.format("x", "1").replace("name: x", f"name: {bad}"))
            with self.subTest(bad):
                self.check("names a package", "may be called so")

    def test_a_file_name_in_a_database(self):
        self.write("db/a b.conf", RECORD.format("x", "1"))
        self.check("names a unit")
        os.remove(f"{self.room}/db/a b.conf")
        self.link("db/.#base-4.15.conf", "user@host.1234")
        self.assertEqual(0, self.folder().returncode)

    def test_an_id_in_a_dump(self):
        os.rename(f"{self.room}/db", f"{self.room}/empty")
        os.mkdir(f"{self.room}/db")
        for bad in ("../../../victim", "/victim"):
            record = RECORD.format("x", "1").replace("id: x-1", f"id: {bad}")
            self.script("bin/ghc-pkg", f"#!/bin/sh\ncat <<'END'\n{record}\nEND\n")
            with self.subTest(bad):
                self.check("names a unit", "may be called so")

    def test_a_record_without_an_id(self):
        self.write("db/x-1.conf", "name: x\nversion: 1\n")
        ran = self.folder()
        self.assertEqual(0, ran.returncode, ran.err)
        self.assertIn("has no id or no name", ran.err)

    def test_names_of_a_project(self):
        self.write("src/project/cabal.project", "packages: ../beside/*.cabal /etc/*.cabal ./main.cabal\n  */../../beside/x.cabal\nextra-packages: ../beside, ..\n")
        self.write("src/beside/x.cabal", CABAL)
        before = listing(self.room)
        self.assertEqual(0, self.folder("--older-headers").returncode)
        self.is_untouched(before, OURS)

    def test_paths_of_a_tar(self):
        import io
        import tarfile

        with tarfile.open(f"{self.room}/bad.tar", "w") as tar:
            for path in ("../../victim/1/victim.cabal", "a/../../victim.cabal", "a/1/../../../victim", "/victim/1/victim.cabal", "a/1/a.cabal"):
                told = tarfile.TarInfo(path)
                told.size = len(PACKAGE.format("a", "1"))
                tar.addfile(told, io.BytesIO(PACKAGE.format("a", "1").encode()))
        before = listing(self.room)
        ran = self.run_script([f"{TOP}/bin/cabal-plan", "folder", f"--index={self.room}/bad.tar", f"--program={self.script('planner', '#!/bin/sh')}"])
        self.assertEqual(0, ran.returncode, ran.err)
        self.is_untouched(before, OURS)


class Programs(Room):
    """Programs that a project names."""

    def setUp(self):
        super().setUp()
        self.ran = f"{self.room}/src/ran"
        self.evil = self.script("src/project/evil.sh", EVIL.format(self.ran))
        self.script("src/evil.sh", EVIL.format(self.ran))

    def check_not_run(self, text, status=70, words=()):
        self.write("src/project/cabal.project", f"packages: main.cabal\n{text}")
        ran = self.folder(*words)
        self.assertEqual(status, ran.returncode, ran.err)
        self.assertNotIn("Traceback", ran.err)
        self.assertFalse(os.path.exists(self.ran), text)
        return ran

    def test_a_compiler_of_the_project(self):
        for path in ("./evil.sh", "evil.sh/../evil.sh", "../evil.sh", self.evil, f"{self.room}/src/../src/project/evil.sh"):
            with self.subTest(path):
                self.assertIn("isn't started", self.check_not_run(f"with-compiler: {path}\n").err)

    def test_a_compiler_of_the_repository_around_the_project(self):
        self.write("src/.git/HEAD", "ref: refs/heads/main\n")
        self.assertIn("isn't started", self.check_not_run(f"with-compiler: {self.room}/src/evil.sh\n").err)

    def test_a_link_to_a_program_of_the_project(self):
        self.link("home/ghc-1", self.evil)
        self.assertIn("isn't started", self.check_not_run(f"with-compiler: {self.room}/home/ghc-1\n").err)

    def test_a_compiler_under_a_condition_that_does_not_hold(self):
        for condition in ("os(windows)", "!os(linux)", "impl(ghc >=9)", "os(linux) && arch(ppc)", "flag(x)", "os(", "false"):
            with self.subTest(condition):
                self.check_not_run(f"if {condition}\n  with-compiler: ./evil.sh\n", 0)
                self.assertEqual([self.ghc], sorted({it.split()[0] for it in self.started()}))

    def test_a_compiler_under_a_condition_that_holds(self):
        other = self.script("elsewhere/ghc", GHC.format(log=self.log, database=f"{self.room}/db"))
        for text in (f"if os(linux)\n  with-compiler: {other}\n", f"if os(osx)\n  with-compiler: ./evil.sh\nelse\n  with-compiler: {other}\n"):
            ran = self.check_not_run(text, 0)
            self.assertIn(f"asks {other}\n", ran.err)

    def test_a_compiler_on_a_path_that_leads_into_the_project(self):
        os.rename(self.ghc, f"{self.room}/bin/other")
        self.script("src/project/ghc", EVIL.format(self.ran))
        for path in (".", "", f"{self.project}"):
            ran = self.folder(environment=self.environment(PATH=f"{path}:/usr/bin:/bin"))
            self.assertIn("isn't started", ran.err)
            self.assertFalse(os.path.exists(self.ran))

    def test_a_compiler_that_the_user_names(self):
        self.script("src/project/mine.sh", GHC.format(log=self.log, database=f"{self.room}/db"))
        ran = self.check_not_run("with-compiler: ./evil.sh\n", 0, ["--with-compiler=./mine.sh"])
        self.assertIn(f"asks {self.project}/mine.sh", ran.err)

    def test_a_compiler_is_named_before_it_is_asked(self):
        self.script("bin/ghc", f"#!/bin/sh\ntouch {self.room}/started\nexit 3\n")
        ran = self.folder()
        self.assertLess(ran.err.index(f"asks {self.ghc}"), ran.err.index("ends with status 3"))


class Failures(Room):
    """A failure of the script is one line and 70."""

    def test_closed_streams(self):
        planner = self.script("planner", "#!/bin/sh\necho plan\n")
        for words in ("", "--run"):
            line = f"exec {TOP}/bin/cabal-plan folder --index={self.room}/packages --program={planner} {words}"
            for closed in (">&-", "2>&-", ">&- 2>&-", ">/dev/full"):
                with self.subTest(f"{words} {closed}"):
                    ran = self.run_script(["sh", "-c", f"{line} {closed}"])
                    self.assertNotIn("Traceback", ran.err)
                    self.assertIn(ran.returncode, (0, 70))
                    self.assertEqual(70 if ">&- " in f"{closed} " and not closed.startswith("2") or "full" in closed else 0, ran.returncode)

    def test_unreadable_and_odd_inputs(self):
        self.write("src/project/cabal.project", "a {{{\n")
        self.is_failure(self.folder(), "cabal.project can't be read")
        os.remove(f"{self.project}/cabal.project")
        os.mkdir(f"{self.project}/x.cabal")
        self.assertEqual(0, self.folder().returncode)

    def test_names_that_are_no_text_are_printed_escaped(self):
        with open(os.fsencode(self.project) + b"/\xff\x1b[31m\n.cabal", "wb") as file:
            file.write(b"cabal-version: 1.2\nname: x\n")
        ran = self.folder()
        self.is_failure(ran, "\\x1b[31m\\n.cabal")
        self.assertNotIn("\x1b", ran.err)

    def test_without_a_home(self):
        ran = self.folder("--no-store", environment=self.environment(HOME=None))
        self.assertEqual(0, ran.returncode, ran.err)

    def test_a_project_that_can_not_be_written(self):
        if os.geteuid() == 0:
            subprocess.run(["chattr", "+i", self.project], stderr=subprocess.DEVNULL, check=False)
            try:
                with open(f"{self.project}/probe", "wb"):
                    self.skipTest("as root every folder can be written here")
            except OSError:
                self.addCleanup(subprocess.run, ["chattr", "-i", self.project], check=False)
        else:
            os.chmod(self.project, 0o555)
        self.is_failure(self.folder(), "can't be written")


if __name__ == "__main__":
    import unittest

    unittest.main()
