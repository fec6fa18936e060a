"""The proved programs: the release's or a built one is run, and only where its bytes have the sum beside it. How they are
built and released, with a stand-in for the kit."""

import hashlib
import os
import shutil
import subprocess
import sys

from tests.rooms import TOP, Room

SUMS = """import sys
sys.path[:0] = ['.']
from tool.program import CRATES, Sources
print(*(Sources(name).sum() for name in CRATES))
"""
PROGRAM = b'#!/bin/sh\necho "planned $*"\nexit 2\n'
OTHER = b"#!/bin/sh\necho rewritten\n"
CRATES = {"cabal-plan": "cabal_plan", "modern-headers": "modern_headers"}
# A kit that keeps as the program of a crate the one source of the crate, and tells how it was called.
KIT = """#!/bin/sh
echo "$*" >>{room}/asked
[ "$1" = ci ] || exit 1
for it; do
    [ -f crates/$it/src/main.rt ] || continue
    at={room}/kit/rattle-kept/proof-$it-$$
    mkdir -p $at && cp crates/$it/src/main.rt $at/0
    echo '{{"files": [["'$it'", "'$(sha256sum <$at/0 | cut -c1-64)'"]]}}' >$at/made.json
done
"""


class Checkout(Room):
    """A checkout with two programs of one crate each, and a release of them."""

    def setUp(self):
        super().setUp()
        self.top = f"{self.room}/top"
        shutil.copytree(f"{TOP}/bin", f"{self.top}/bin", ignore=shutil.ignore_patterns("tests", "__pycache__"))
        self.write("top/HANDLES", "Handles allowed: none.\n")
        self.write("top/crates.txt", "cabal_plan:\nmodern_headers:\n")
        for crate in CRATES.values():
            self.write(f"top/crates/{crate}/src/main.rt", f"fn {crate}() {{}}\n")
            self.write(f"top/crates/{crate}/specs/Lib.antt", "\n")
        self.release(PROGRAM)

    def sums(self):
        """Returns the sums of the present sources, by crate."""
        ran = subprocess.run([sys.executable, "-B", "-c", SUMS], cwd=f"{self.top}/bin", stdout=subprocess.PIPE, text=True, check=True)
        return dict(zip(CRATES.values(), ran.stdout.split()))

    def release(self, program):
        """Makes the release of the present sources."""
        sums = self.sums()
        self.total = sums["cabal_plan"]
        for name, content in zip(CRATES, (program, OTHER)):
            self.script(f"top/dist/{name}", content)
            self.write(f"top/dist/{name}.sha256", f"{hashlib.sha256(content).hexdigest()}  {name}\n")
        self.write("top/dist/sources.sha256", "".join(f"{total}  the crates of {crate}\n" for crate, total in sums.items()))
        self.write("top/dist/VERSION", "0.8\n")

    def plan(self, *words, **how):
        return self.run_script([f"{self.top}/bin/cabal-plan", *words], **how)

    def is_run(self):
        ran = self.plan("plan", "a b")
        self.assertEqual((2, "planned plan a b\n"), (ran.returncode, ran.out), ran.err)


class Program(Checkout):
    """Which program is run."""

    def test_runs_the_release(self):
        self.is_run()

    def test_another_program(self):
        at = f"{self.top}/dist/cabal-plan"
        for content in (b"", PROGRAM[:-3], b"#!/bin/sh\ntouch ran\n"):
            self.script("top/dist/cabal-plan", content)
            self.is_failure(self.plan("plan"), "isn't the program whose sum")
        for make in (os.mkdir, os.mkfifo, lambda it: os.symlink("../bin/program", it)):
            os.remove(at) if os.path.isfile(at) else None
            make(at)
            self.is_failure(self.plan("plan"), "top/dist/cabal-plan")
            os.rmdir(at) if os.path.isdir(at) else os.remove(at)
        self.is_failure(self.plan("plan"), "can't be read")

    def test_without_its_sum(self):
        for content in (None, b"", b"\xff\xfe", b"0" * 64):
            os.remove(f"{self.top}/dist/cabal-plan.sha256")
            if content is not None:
                self.write("top/dist/cabal-plan.sha256", content)
            self.is_failure(self.plan("plan"), "isn't the program whose sum")
            self.write("top/dist/cabal-plan.sha256", b"")

    def test_stray_files_beside_the_sources(self):
        source = f"{self.top}/crates/cabal_plan/src"
        for name in (b"main.rt~", b".DS_Store", b"#main.rt#", b".main.rt.swp", b"main.rt.orig", b"\xff.rt", b"a b.rt"):
            with open(os.fsencode(source) + b"/" + name, "wb") as file:
                file.write(b"stray\n")
        os.symlink("user@host.1234:5", f"{source}/.#main.rt")
        os.makedirs(f"{source}/.backup")
        self.write("top/crates/cabal_plan/src/.backup/main.rt", "older\n")
        self.is_run()

    def test_a_source_that_can_not_be_read(self):
        os.symlink("nowhere", f"{self.top}/crates/cabal_plan/src/other.rt")
        self.is_failure(self.plan("plan"), "src/other.rt can't be read")

    def test_changed_sources_are_built(self):
        self.write("top/crates/cabal_plan/src/main.rt", "fn main() { }\n")
        self.is_failure(self.plan("plan"), "rt isn't found")

    def test_a_cache_that_can_not_be_written(self):
        self.write("top/crates/cabal_plan/src/main.rt", "fn main() { }\n")
        for cache in ("/dev/null/x", f"{self.room}/top/HANDLES"):
            self.is_failure(self.plan("plan", environment=self.environment(XDG_CACHE_HOME=cache)), "can't be read or written")
        self.link("cache", "src")
        self.link("src/cabal-plan", "beside")
        self.is_failure(self.plan("plan", environment=self.environment(XDG_CACHE_HOME=f"{self.room}/cache")), "is a link")

    def test_the_built_program_has_its_sum(self):
        self.write("top/crates/cabal_plan/src/main.rt", "fn main() { }\n")
        self.release(PROGRAM)
        os.remove(f"{self.top}/dist/sources.sha256")
        name = f"home/.cache/cabal-plan/cabal_plan-{self.total}"
        self.script(name, PROGRAM)
        self.write(f"{name}.sha256", hashlib.sha256(PROGRAM).hexdigest())
        self.is_run()
        self.script(name, PROGRAM + b"touch ran\n")
        self.is_failure(self.plan("plan"), "isn't the program whose sum")

    def test_closed_streams_are_the_programs_own(self):
        self.release(b"#!/bin/sh\necho plan 2>/dev/null || exit 5\n")
        ran = self.run_script(["sh", "-c", f"exec {self.top}/bin/cabal-plan plan >&-"])
        self.assertEqual((5, ""), (ran.returncode, ran.out))
        self.assertNotIn("Traceback", ran.err)

    def test_a_table_of_crates_that_can_not_be_read(self):
        os.remove(f"{self.top}/crates.txt")
        self.is_failure(self.plan("plan"), "crates.txt can't be read")

    def path(self, *words, **how):
        return self.run_script([f"{self.top}/bin/program", *words], **how)

    def test_each_program_has_its_own_sources(self):
        self.assertEqual(f"{self.top}/dist/cabal-plan\n", self.path().out)
        self.assertEqual(f"{self.top}/dist/modern-headers\n", self.path("modern-headers").out)
        self.assertEqual(64, self.path("other").returncode)
        self.write("top/crates/modern_headers/src/main.rt", "fn main() { }\n")
        self.is_run()
        self.is_failure(self.path("modern-headers"), "rt isn't found")

    def test_the_other_program_has_its_sum(self):
        self.script("top/dist/modern-headers", PROGRAM)
        self.is_run()
        self.is_failure(self.path("modern-headers"), "isn't the program whose sum")
        self.release(PROGRAM)
        self.write("top/dist/sources.sha256", f"{self.total}  the crates of cabal_plan\n")
        self.is_run()
        self.is_failure(self.path("modern-headers"), "rt isn't found")


class Kit(Checkout):
    """Builds and releases by a stand-in for the kit."""

    def setUp(self):
        super().setUp()
        self.rt = self.script("kit/rattle/bin/rt", KIT.format(room=self.room))
        os.makedirs(f"{self.room}/kit/rattle-kept")
        self.link("bin/rt", self.rt)

    def release_by_kit(self, *words):
        return self.run_script([f"{self.top}/bin/release", *words])

    def content(self, path):
        with open(f"{self.top}/{path}", encoding="utf-8") as file:
            return file.read()

    def test_a_release_has_both_programs_of_one_proof(self):
        ran = self.release_by_kit("0.9")
        self.assertEqual(0, ran.returncode, ran.err)
        self.assertEqual(["ci cabal_plan modern_headers"], self.started())
        names = [*CRATES, *(f"{it}.sha256" for it in CRATES), "VERSION", "sources.sha256"]
        self.assertEqual(sorted(names), sorted(os.listdir(f"{self.top}/dist")))
        for name, crate in CRATES.items():
            self.assertEqual(f"fn {crate}() {{}}\n", self.content(f"dist/{name}"))
            self.assertEqual(f"{self.top}/dist/{name}\n", self.run_script([f"{self.top}/bin/program", name]).out)
        self.assertEqual("".join(f"{total}  the crates of {crate}\n" for crate, total in self.sums().items()), self.content("dist/sources.sha256"))
        self.assertEqual("0.9\n", self.content("dist/VERSION"))

    def test_a_release_is_compared_with_both_programs_built_again(self):
        self.release_by_kit("0.9")
        shutil.rmtree(f"{self.room}/kit/rattle-kept")
        os.makedirs(f"{self.room}/kit/rattle-kept")
        ran = self.release_by_kit("--check")
        self.assertEqual(0, ran.returncode, ran.err)
        self.assertEqual("ci --anew cabal_plan modern_headers", self.started()[-1])
        self.assertEqual(6, ran.out.count("\n"))
        for name in CRATES:
            shutil.rmtree(f"{self.room}/kit/rattle-kept")
            os.makedirs(f"{self.room}/kit/rattle-kept")
            before = self.content(f"dist/{name}")
            self.script(f"top/dist/{name}", "another\n")
            self.assertEqual(1, self.release_by_kit("--check").returncode)
            self.script(f"top/dist/{name}", before)
        self.write("top/crates/modern_headers/src/main.rt", "fn main() { }\n")
        self.is_failure(self.release_by_kit("--check"), "the sources of modern_headers aren't those of release 0.9")

    def test_a_failed_proof_releases_nothing(self):
        self.script("kit/rattle/bin/rt", "#!/bin/sh\nexit 1\n")
        self.is_failure(self.release_by_kit("0.9"), "the proof failed")
        self.assertEqual("0.8\n", self.content("dist/VERSION"))

    def test_a_program_is_built_alone(self):
        self.write("top/crates/modern_headers/src/main.rt", "#!/bin/sh\necho built\n")
        ran = self.run_script([f"{self.top}/bin/program", "modern-headers"])
        path = f"{self.home}/.cache/cabal-plan/modern_headers-{self.sums()['modern_headers']}\n"
        self.assertEqual((0, path), (ran.returncode, ran.out), ran.err)
        self.assertEqual(["ci modern_headers"], self.started())
        self.assertIn("modern-headers isn't built for these sources", ran.err)
        self.assertEqual("built\n", self.run_script([path.strip()]).out)
        self.assertEqual(path, self.run_script([f"{self.top}/bin/program", "modern-headers"]).out)
        self.assertEqual(1, len(self.started()))
