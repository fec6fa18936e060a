"""The engine of this machine: worker processes, each of which runs cells one after the other.

Input: cells as objects, and a room. Output: the lines of their records, as they come."""

import json
import os
import queue
import subprocess
import sys
import threading

from tool.children import SECONDS
from tool.ends import status_of_program
from tool.refusal import Refusal
from tool.set.run import FAULT

WORKER = f"{os.path.dirname(os.path.abspath(__file__))}/worker.py"
# How many cells a worker is given at a time, and how many lines wait at most.
BATCH, WAITING = 8, 64


class Pool:
    """The workers, the cells that are left, and the lines that have come."""

    def __init__(self, cells, room, jobs):
        self.cells, self.room, self.lock, self.is_ended = iter(cells), str(room), threading.Lock(), False
        self.lines, self.workers = queue.Queue(WAITING), []
        self.threads = [threading.Thread(target=self.work, args=(number,)) for number in range(jobs)]

    def batch(self):
        """Returns the next cells."""
        with self.lock:
            found = []
            while len(found) < BATCH and not self.is_ended:
                it = next(self.cells, None)
                if it is None:
                    break
                found.append(it)
            return found

    def put(self, it):
        """Hands a line on, unless nobody takes it any more."""
        while not self.is_ended:
            try:
                self.lines.put(it, timeout=0.5)
                return
            except queue.Full:
                continue

    def started(self, number):
        """Starts a worker, unless the pool has ended. A signal of the terminal is for the tool alone, which ends its workers."""
        with self.lock:
            if self.is_ended:
                return None
            words = [sys.executable, "-EsS", WORKER, self.room, str(number)]
            found = subprocess.Popen(words, stdin=subprocess.PIPE, stdout=subprocess.PIPE, start_new_session=True)
            self.workers.append(found)
            return found

    def work(self, number):
        """Runs a worker until no cell is left."""
        try:
            worker = self.started(number)
            while worker and (batch := self.batch()):
                self.hand(worker, batch)
            if worker:
                worker.stdin.close()
                worker.wait()
        except Exception as error:  # pylint: disable=broad-except
            self.put(error)
        self.put(None)

    def hand(self, worker, batch):
        """Gives a worker cells, and hands their lines on."""
        try:
            worker.stdin.write(json.dumps(batch).encode() + b"\n")
            worker.stdin.flush()
        except BrokenPipeError:
            pass
        for _ in batch:
            line = worker.stdout.readline()
            if line.startswith(FAULT):
                raise Refusal(f"{line[len(FAULT) :].decode().strip()}; what was made before stays")
            if not line.endswith(b"\n"):
                raise Refusal(f"a worker ended with status {status_of_program(worker.wait())}; what was made before stays")
            self.put(line)

    def end(self):
        """Ends all workers, and what they run."""
        with self.lock:
            self.is_ended = True
        for it in self.workers:
            it.terminate()
        for it in self.workers:
            try:
                it.wait(SECONDS)
            except subprocess.TimeoutExpired:
                it.kill()
        for it in self.threads:
            it.join()
        for it in self.workers:
            it.stdout.close()


def lines(cells, room, jobs):
    """Yields the lines of the records of cells."""
    pool = Pool(cells, room, jobs)
    left = jobs
    try:
        for it in pool.threads:
            it.start()
        while left:
            found = pool.lines.get()
            if isinstance(found, Exception):
                raise found
            left -= found is None
            if found is not None:
                yield found
    finally:
        pool.end()
