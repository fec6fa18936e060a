"""`cabal-plan folder --older-headers`: what the second program says of local files and of an index, in folders and tars."""

import io
import os
import tarfile

from tests.rooms import CABAL, PACKAGE, TOP, Room

HEADER, OLDER = "cabal-version: 2.4", "cabal-version: >=1.10"
BROKEN = "cabal-version: >=1.10\nname: a\nlibrary {\n"


class Older(Room):
    """A project and an index with older files: version 1 of `a` is refused, 2 stays, and 3 and 4 are rewritten."""

    def setUp(self):
        super().setUp()
        self.texts = {
            "1": BROKEN, "2": PACKAGE.format("a", "2"), "3": PACKAGE.format("a", "3").replace(HEADER, OLDER),
            "4": PACKAGE.format("a", "4").replace(HEADER, OLDER) + "  build-tools: alex\n",
        }  # fmt: skip
        for version, text in self.texts.items():
            self.write(f"packages/a/{version}/a.cabal", text)

    def content(self, path):
        with open(f"{self.project}/{path}", encoding="utf-8") as file:
            return file.read()

    def check(self, ran):
        """Checks the index of a run, and what it says."""
        self.assertEqual(0, ran.returncode, ran.err)
        said = "2 files of the index are rewritten, 2 header, 1 build-tools; 1 can't be, and the planner skips them; .plan-folder/index-../.changed names them"
        self.assertIn(said, ran.err)
        for version in ("1", "2"):
            self.assertEqual(self.texts[version], self.content(f"index/a/{version}/a.cabal"))
        for version in ("3", "4"):
            self.assertEqual(f"{HEADER}\n" + self.texts[version].split("\n", 1)[1], self.content(f"index/a/{version}/a.cabal"))
        told = ["a/1/a.cabal\trefused: UnclosedBrace at line 3", "a/3/a.cabal\theader", "a/4/a.cabal\tbuild-tools; header"]
        self.assertEqual(told, self.content("index/.changed").split("\n")[1:-1])

    def test_a_folder(self):
        before = {it: os.stat(f"{self.room}/packages/a/{it}/a.cabal").st_mtime_ns for it in self.texts}
        self.check(self.folder("--older-headers"))
        links = [os.path.islink(f"{self.project}/index/a/{it}") for it in self.texts]
        self.assertEqual([True, True, False, False], links)
        self.assertEqual(before, {it: os.stat(f"{self.room}/packages/a/{it}/a.cabal").st_mtime_ns for it in self.texts})
        self.check(self.folder("--older-headers"))

    def test_a_tar(self):
        with tarfile.open(f"{self.room}/index.tar", "w") as tar:
            for path, text in [("a/3/a.cabal", "name: replaced\n"), *((f"a/{it}/a.cabal", text) for it, text in self.texts.items())]:
                entry = tarfile.TarInfo(path)
                entry.size = len(text)
                tar.addfile(entry, io.BytesIO(text.encode()))
        self.check(self.run_script([f"{TOP}/bin/cabal-plan", "folder", f"--index={self.room}/index.tar", *self.programs(), "--older-headers"]))

    def test_all_files_are_rewritten_by_one_run(self):
        counts = self.script("counts", f"#!/bin/sh\necho run >>{self.log}\nexec {self.programs()[1].split('=')[1]} \"$@\"\n")
        self.check(self.folder("--older-headers", rewriter=counts))
        self.assertEqual(2, self.started().count("run"))

    def test_another_program_makes_the_index_anew(self):
        self.folder("--older-headers")
        stays = self.script("stays", "#!/bin/sh\nsed 's/^/unchanged /' \"$@\"\n")
        ran = self.folder("--older-headers", rewriter=stays)
        self.assertIn("0 files of the index are rewritten", ran.err)
        self.assertEqual(self.texts["3"], self.content("index/a/3/a.cabal"))

    def test_without_the_option_the_program_is_not_run(self):
        self.assertEqual(0, self.folder(rewriter=f"{self.room}/nowhere").returncode)
        self.is_failure(self.folder("--older-headers", rewriter=f"{self.room}/nowhere"), "there is no program")

    def test_a_local_file_that_is_refused(self):
        self.write("src/project/main.cabal", "cabal-version: >=1.10\nname: main\nversion: 1\nlibrary {\n")
        self.is_failure(self.folder("--older-headers"), "main.cabal:4: UnclosedBrace")
        self.assertFalse(os.path.lexists(f"{self.project}/.plan-folder"))

    def test_local_files_of_odd_names(self):
        for name in ("a\nb", "c\r", " d ", "caf\u00e9", os.fsdecode(b"\xff")):
            self.write("src/project/main.cabal", CABAL.replace(HEADER, OLDER))
            os.rename(f"{self.project}/main.cabal", f"{self.project}/{name}.cabal")
            ran = self.folder("--older-headers")
            self.assertEqual(0, ran.returncode, ran.err)
            self.assertTrue(self.content(f".plan-folder/project/{name}.cabal").startswith(f"{HEADER}\nname: main"))
            os.remove(f"{self.project}/{name}.cabal")

    def test_a_program_that_fails_over_the_index(self):
        """The earlier index stays, and nothing else is left."""
        self.folder("--older-headers")
        before = sorted(os.listdir(f"{self.project}/.plan-folder"))
        for end, said in (("exit 4", "ends with status 4"), ("kill -9 $$", "ends with status 137"), ("echo more", "more than the frames")):
            fails = self.script("fails", f"#!/bin/sh\nsed 's/^/unchanged /' \"$@\"\ngrep -q main \"$@\" || {end}\n")
            self.is_failure(self.folder("--older-headers", rewriter=fails), said)
            self.assertEqual(before, sorted(os.listdir(f"{self.project}/.plan-folder")))

    def test_the_released_program(self):
        path = f"{TOP}/dist/modern-headers"
        if not os.access(path, os.X_OK):
            self.skipTest("dist has no modern-headers yet")
        self.write("src/project/main.cabal", CABAL.replace(HEADER, OLDER) + "build-type: Simple\n")
        ran = self.folder("--older-headers", rewriter=path)
        self.assertEqual(0, ran.returncode, ran.err)
        self.assertIn("2 files of the index are rewritten", ran.err)
        self.assertTrue(self.content(".plan-folder/project/main.cabal").startswith(f"{HEADER}\n"))
