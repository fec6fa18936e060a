"""`cabal-plan set --engine=dask`: a scheduler and four workers on this machine, of which one is killed and one stopped."""

import os
import shutil
import socket
import subprocess
import unittest

from tests.sets import PROGRAM, Set
from tests.rooms import signal
from tool.set.dask import PYTHON

# The seconds after which a worker that says nothing counts as lost.
TTL = 3


def has_dask():
    try:
        return subprocess.run([PYTHON, "-Esc", "import distributed"], check=False, stderr=subprocess.DEVNULL).returncode == 0
    except OSError:
        return False


@unittest.skipUnless(has_dask(), "python3-distributed isn't installed")
class Cluster(Set):
    """A test with a scheduler and four workers."""

    def setUp(self):
        super().setUp()
        with socket.socket() as free:
            free.bind(("127.0.0.1", 0))
            self.address = f"tcp://127.0.0.1:{free.getsockname()[1]}"
        port = self.address.rpartition(":")[2]
        self.scheduler = self.dask("scheduler", "--host=127.0.0.1", f"--port={port}", "--no-dashboard")
        self.workers = [
            self.dask("worker", self.address, "--nthreads=1", "--no-nanny", "--no-dashboard", f"--local-directory={self.room}/w{it}", "--host=127.0.0.1")
            for it in range(4)
        ]
        self.slow = self.script("slow", f'#!/bin/sh\nsleep 0.2\nexec {PROGRAM} "$@"\n')

    def dask(self, kind, *words):
        """Starts a part of dask, which is ended with the test."""
        more = {"DASK_DISTRIBUTED__SCHEDULER__WORKER_TTL": f"{TTL}s", "DASK_DISTRIBUTED__ADMIN__TICK__LIMIT": "1h"}
        found = subprocess.Popen(
            [PYTHON, "-Es", "-m", f"distributed.cli.dask_{kind}", *words], cwd=self.room, env={**os.environ, **more},
            stdout=subprocess.DEVNULL, stderr=subprocess.DEVNULL,
        )  # fmt: skip

        def end():
            found.kill()
            found.wait()

        self.addCleanup(end)
        return found

    def started_set(self, *words):
        return subprocess.Popen(
            [*self.words("--engine=dask", f"--scheduler={self.address}", *words, program=self.slow)],
            cwd=self.s, env=self.environment(), stdout=subprocess.PIPE, stderr=subprocess.PIPE,
        )  # fmt: skip

    def local(self):
        """Returns the records of a local run."""
        self.run_script(self.words("--results=local", program=self.slow), where=self.s)
        return self.records("s/local")

    def test_one_is_killed_and_one_stopped(self):
        with self.started_set() as ran:
            self.wait_for(1)
            self.workers[0].kill()
            self.workers[1].send_signal(signal.SIGSTOP)
            out, err = ran.communicate(timeout=300)
        self.assertEqual(1, ran.returncode, err)
        self.assertEqual(self.local(), self.records())

    def test_a_shared_folder(self):
        os.mkdir(f"{self.room}/shared")
        with self.started_set(f"--shared={self.room}/shared") as ran:
            out, err = ran.communicate(timeout=300)
        self.assertEqual(1, ran.returncode, err)
        self.assertEqual((self.local(), []), (self.records(), os.listdir(f"{self.room}/shared")))

    def test_a_lost_scheduler(self):
        with self.started_set() as ran:
            self.wait_for(1)
            self.scheduler.kill()
            out, err = ran.communicate(timeout=300)
        self.assertEqual(70, ran.returncode, err)
        self.assertIn(b"what was made before stays", err)
        done = self.records()
        self.assertTrue(done)
        whole = self.local()
        self.assertTrue(all(whole[cell] == record for cell, record in done.items()))

    def test_no_scheduler(self):
        self.scheduler.kill()
        ran = self.run_script(self.words("--engine=dask", f"--scheduler={self.address}"), where=self.s)
        self.is_failure(ran, "dask:")
        shutil.rmtree(f"{self.s}/set.results")
