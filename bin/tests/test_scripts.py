"""All scripts of `bin` and `bench`: wrong words, streams, signals, and modules of the user's."""

import concurrent.futures
import os
import signal
import subprocess
import time

from tests.rooms import HEEDED, TOP, Room, listing

# The words of `try-plan` are those of the program, which it compiles.
LEFT_OUT = ("bin/try-plan",)
MODULES = "argparse json os re signal subprocess tempfile tool".split()


def scripts():
    """Returns the paths of all scripts."""
    found = [f"{top}/{it}" for top in ("bin", "bench") for it in sorted(os.listdir(f"{TOP}/{top}")) if os.path.isfile(f"{TOP}/{top}/{it}")]
    return [it for it in found if not it.endswith(".py") and it not in LEFT_OUT]


def said(ran):
    """Returns what a script says until it ends. One that goes on is killed, and fails the test."""
    try:
        return ran.communicate(timeout=20)[1].decode()
    except subprocess.TimeoutExpired:
        ran.kill()
        raise


def has_room(folder, name):
    """Returns whether `bench/reading`, which writes files for seconds before it runs anything, has its room."""
    return name == "bench/reading" and any(it.startswith("reading-") for it in os.listdir(folder))


class Scripts(Room):
    """Each script, in an empty folder of a user with modules of names as Python's own."""

    def setUp(self):
        super().setUp()
        self.at = f"{self.room}/empty"
        os.mkdir(self.at)
        for name in MODULES:
            self.write(f"modules/{name}.py", f"open({self.room + '/ran'!r}, 'w')\n")

    def each(self, of, *names):
        """Calls it for each script, four at a time."""
        with concurrent.futures.ThreadPoolExecutor(4) as pool:
            return list(pool.map(of, names or scripts()))

    def sh(self, name, line):
        return self.run_script(["sh", "-c", f"exec {TOP}/{name} {line}"], self.at, self.environment(PYTHONPATH=f"{self.room}/modules"))

    def test_help(self):
        before = listing(self.room)
        for name, ran in zip(scripts(), self.each(lambda it: self.sh(it, "--help"))):
            self.assertEqual((0, ""), (ran.returncode, ran.err), name)
            self.assertIn("usage: ", ran.out, name)
        self.assertEqual(before, listing(self.room))

    def test_wrong_words(self):
        names = [it for it in scripts() if it != "bin/cabal-plan"]
        for name, ran in zip(names, self.each(lambda it: self.sh(it, "--no-such-word"), *names)):
            self.assertEqual(64, ran.returncode, name)
            self.assertEqual(1, ran.err.count("\n"), name)

    def test_a_full_disk(self):
        for name, ran in zip(scripts(), self.each(lambda it: self.sh(it, "--help >/dev/full"))):
            self.assertEqual(70, ran.returncode, name)
            self.assertEqual(1, ran.err.count("\n"), ran.err)

    def test_closed_streams(self):
        for line, status in (("--help >&-", 70), ("--help >&- 2>&-", 70), ("--help 2>&-", 0), ("--no-such-word 2>&-", 64)):
            for name in ("bin/mistakes", "bench/rows"):
                ran = self.sh(name, line)
                self.assertEqual(status, ran.returncode, f"{name} {line} {ran.err}")
                self.assertNotIn("Traceback", ran.err)

    def test_nobody_reads(self):
        read, write = os.pipe()
        os.close(read)
        for name in ("bin/calls", "bench/rows"):
            ran = self.run_script([f"{TOP}/{name}", "--help"], self.at, stdout=write)
            self.assertEqual(70, ran.returncode, ran.err)
            self.assertIn("nobody reads standard output any more", ran.err)
        os.close(write)

    def ended(self, given):
        """Runs a script until it has a room, sends it a signal, and returns the script, its status and what it has said."""
        name, words, number = given
        began = f"{self.room}/began-{name.replace('/', '-')}"
        of = self.environment(TMPDIR=os.path.dirname(self.write(f"rooms-{name.replace('/', '-')}/.keep", "")), BEGAN=began)
        how = {"stdin": subprocess.DEVNULL, "stdout": subprocess.DEVNULL, "stderr": subprocess.PIPE, "cwd": self.at, "env": of}
        with subprocess.Popen([*HEEDED, f"{TOP}/{name}", *words], **how) as ran:
            until = time.monotonic() + 20
            while time.monotonic() < until and ran.poll() is None and not os.path.exists(began) and not has_room(of["TMPDIR"], name):
                time.sleep(0.02)
            ran.send_signal(number)
            told = said(ran)
        return name, ran.returncode - number, told, os.listdir(of["TMPDIR"])

    def test_signals(self):
        """Each ends with 128 and the signal's number, and removes its room."""
        before = {it for it in os.listdir("/dev/shm") if it.startswith("torture-")} if os.path.isdir("/dev/shm") else set()
        waits = "#!/bin/sh\ntouch $BEGAN\nexec sleep 30\n"
        program = ["--program", self.script("waits", waits)]
        self.script("bin/rt", waits)
        given = [
            ("bench/files", program, signal.SIGTERM), ("bench/reading", program, signal.SIGINT), ("bench/counting", [*program, "--tangles"], signal.SIGHUP),
            ("bench/shrinking", [*program, "3:3"], signal.SIGTERM), ("bench/names", [*program, "3"], signal.SIGINT), ("bin/try-cases", program, signal.SIGTERM),
            ("bench/rows", [*program, "--row", "entries of two"], signal.SIGTERM), ("bench/freezing", program, signal.SIGINT),
            ("bench/try-torture", [*program, "large", "`&&` of a flag"], signal.SIGTERM), ("bench/shapes", program, signal.SIGHUP),
            ("bin/mistakes", ["version_range"], signal.SIGTERM), ("bin/gate", [], signal.SIGINT), ("bench/builds", ["5"], signal.SIGHUP),
        ]  # fmt: skip
        with concurrent.futures.ThreadPoolExecutor(4) as pool:
            for name, status, told, left in pool.map(self.ended, given):
                self.assertEqual((128, [".keep"]), (status, left), f"{name}: {told}")
                self.assertEqual(1, told.count("\n"), f"{name}: {told}")
        after = {it for it in os.listdir("/dev/shm") if it.startswith("torture-")} if os.path.isdir("/dev/shm") else set()
        self.assertEqual(set(), after - before)

    def test_a_signal_of_the_front(self):
        for number in (signal.SIGINT, signal.SIGTERM, signal.SIGHUP):
            began = f"{self.room}/began"
            planner = self.script("planner", f"#!/bin/sh\ntouch {began}\nexec sleep 30\n")
            words = [f"{TOP}/bin/cabal-plan", "folder", f"--index={self.room}/packages", f"--program={planner}", "--run"]
            with subprocess.Popen([*HEEDED, *words], cwd=self.project, env=self.environment(), stdout=subprocess.DEVNULL, stderr=subprocess.PIPE) as ran:
                while not os.path.exists(began) and ran.poll() is None:
                    time.sleep(0.02)
                ran.send_signal(number)
                told = said(ran)
            self.assertEqual(128 + number, ran.returncode, told)
            self.assertNotIn("Traceback", told)
            os.remove(began)
