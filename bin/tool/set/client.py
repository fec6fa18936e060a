"""The client of dask: it hands cells to the scheduler in batches, and prints the lines of their records.

It is run by Debian's Python, and uses nothing of this tool. What it sends to the workers is a function and a tar."""

import hashlib
import itertools
import os
import sys
import uuid

# The most cells of a task, and how many tasks wait for each thread of the workers.
MOST, WAITING = 100, 3
# How long the scheduler may take to answer.
SECONDS = "10s"


def run(data, digest, shared, batch):
    """Runs cells on a worker. What was sent is unpacked once."""
    import io
    import os
    import subprocess
    import sys
    import tarfile
    import threading
    import uuid

    from distributed import get_worker

    of = get_worker()
    where = os.path.join(of.local_directory, "cabal-plan-" + digest)
    # (the folder is this worker's own: what it has unpacked is noted in the worker)
    with of.__dict__.setdefault("cabal_plan_lock", threading.Lock()):
        if digest not in of.__dict__.setdefault("cabal_plan_made", set()):
            with tarfile.open(fileobj=io.BytesIO(data)) as tar:
                tar.extractall(where)
            of.cabal_plan_made.add(digest)
    words = [sys.executable, "-EsS", where + "/tool/set/worker.py", shared or where + "/room", uuid.uuid4().hex]
    ran = subprocess.run(words, input=batch, stdout=subprocess.PIPE, stderr=subprocess.PIPE)
    if ran.returncode:
        raise RuntimeError((ran.stdout.splitlines() or [b"a worker ended"])[-1].decode("utf-8", "replace")[:300])
    return ran.stdout


def same(data):
    """Returns what was sent, on a worker."""
    return data


def batches(size):
    """Yields the cells of standard input, as many at a time."""
    while True:
        found = list(itertools.islice(sys.stdin.buffer, size))
        if not found:
            return
        yield b"[" + b",".join(it.strip() for it in found) + b"]\n"


def count():
    """Returns how many cells standard input has."""
    found = sum(1 for _ in sys.stdin.buffer)
    sys.stdin.buffer.seek(0)
    return found


def hand(client, as_completed, path, shared):
    """Hands the cells out, and prints the records as they come."""
    with open(path, "rb") as file:
        data = file.read()
    digest = hashlib.sha256(data).hexdigest()[:32]
    # (a task, which dask runs again where the worker that has its result is lost)
    sent = client.submit(same, data, key=f"cabal-plan-set-files-{digest}")
    threads = max(1, sum(client.nthreads().values()))
    left = batches(max(1, min(MOST, count() // (WAITING * threads))))
    submit = lambda batch: client.submit(run, sent, digest, shared, batch, pure=False, key=f"cabal-plan-set-{uuid.uuid4().hex}")
    done = as_completed([submit(it) for it in itertools.islice(left, WAITING * threads)])
    for future in done:
        if future.status == "cancelled" or future.status == "lost":
            raise ConnectionError("the scheduler was lost")
        sys.stdout.buffer.write(future.result())
        sys.stdout.buffer.flush()
        for it in itertools.islice(left, 1):
            done.add(submit(it))


def main():
    scheduler, path, shared = sys.argv[1:]
    try:
        import dask
        from distributed import Client, as_completed

        dask.config.set({"distributed.comm.timeouts.connect": SECONDS})
        client = Client(scheduler, timeout=SECONDS)
        client.wait_for_workers(1, timeout=120)
        hand(client, as_completed, path, shared)
        client.close()
        return 0
    except ImportError as error:
        fault = f"{sys.executable} has no dask ({error}): Debian's package is python3-distributed"
    except Exception as error:  # pylint: disable=broad-except
        fault = f"dask: {type(error).__name__} {str(error) or 'the scheduler was lost'}"
    print("fault: " + " ".join(fault.split()), flush=True)
    return 1


if __name__ == "__main__":
    # (a client that has lost its scheduler would wait for it at its end)
    os._exit(main())
