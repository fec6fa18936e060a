"""A worker: a process that runs the cells of its standard input, a list of them a line, and prints their records.

A fault is printed as a line too, and ends it."""

import os
import sys

sys.dont_write_bytecode = True
sys.path.insert(0, os.path.dirname(os.path.dirname(os.path.dirname(os.path.abspath(__file__)))))

import json

from tool.ends import BY_SIGNAL, FAILED, Signalled, cause, take_signals
from tool.refusal import Refusal, shown
from tool.set.run import FAULT, Runner, line_of


def work():
    """Runs the cells."""
    runner = Runner(*sys.argv[1:])
    for line in sys.stdin.buffer:
        for cell in json.loads(line):
            sys.stdout.buffer.write(line_of(runner.record(cell)))
            sys.stdout.buffer.flush()
    runner.close()


def main():
    """Returns the status of the worker."""
    try:
        take_signals()
        work()
        return 0
    except Signalled as signal:
        return BY_SIGNAL + signal.number
    except Exception as error:  # pylint: disable=broad-except
        told = error if isinstance(error, Refusal) else cause(error)
        sys.stdout.buffer.write(FAULT + shown(told).encode() + b"\n")
        sys.stdout.buffer.flush()
        return FAILED


if __name__ == "__main__":
    # (what is left to write has no reader where the tool has ended)
    os._exit(main())
