"""Programs that run beside a script."""

import contextlib
import subprocess

from tool.ends import hold, release

# How long a program may take to end itself.
SECONDS = 10


def started(words, **how):
    """Starts a program. Signals wait until they are released."""
    hold()
    try:
        return subprocess.Popen(words, **how)
    except BaseException:
        release()
        raise


@contextlib.contextmanager
def child(words, **how):
    """Runs a program. If the script is ended, so is the program."""
    with started(words, **how) as ran:
        try:
            release()
            yield ran
        except BaseException:
            ran.terminate()
            try:
                ran.wait(SECONDS)
            except subprocess.TimeoutExpired:
                ran.kill()
            raise


def printed(words, errors, **how):
    """Runs a program to its end, and returns its status and what it printed. Its standard error goes to a file: to read one
    pipe costs a third of reading two. If the script is ended, so is the program."""
    with child(words, stdout=subprocess.PIPE, stderr=errors, bufsize=0, **how) as ran:
        out = ran.stdout.read()
    return ran.returncode, out


def run(words, timeout=None, **how):
    """Runs a program to its end, as `subprocess.run` does. If the script is ended, so is the program."""
    with child(words, **how) as ran:
        out, err = ran.communicate(timeout=timeout)
    return subprocess.CompletedProcess(words, ran.returncode, out, err)
