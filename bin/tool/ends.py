"""How a script ends: with the status of its answer, or with one line and a status of its own. A failure of the script
never has the status of an answer."""

import os
import sys

from tool.refusal import Refusal, escaped

# The status of wrong words, and that of a script that fails or refuses.
WRONG_WORDS, FAILED = 64, 70
BY_SIGNAL, INTERRUPT = 128, 2
READER_GONE = "nobody reads standard output any more"


class Signalled(BaseException):
    """A signal that ends the script."""

    def __init__(self, number):
        super().__init__(number)
        self.number = number


class Held:
    """Whether signals wait, and the first one that does."""

    is_on, number = False, None


def hold():
    """Lets signals wait until they are released."""
    Held.is_on = True


def release():
    """Lets signals end the script again, also one that has waited."""
    Held.is_on = False
    if Held.number is not None:
        on_signal(Held.number, None)


def on_signal(number, _):
    """Ends the script. What it has made for itself is removed on the way, and further signals don't interrupt that."""
    import signal

    if Held.is_on:
        Held.number = Held.number or number
        return
    for it in (signal.SIGINT, signal.SIGTERM, signal.SIGHUP):
        signal.signal(it, signal.SIG_IGN)
    raise Signalled(number)


def take_signals():
    """Lets signals end the script in order, except those that the caller ignores."""
    import signal

    for it in (signal.SIGINT, signal.SIGTERM, signal.SIGHUP):
        if signal.getsignal(it) in (signal.SIG_DFL, signal.default_int_handler):
            signal.signal(it, on_signal)


def uncaught(kind, error, trace):
    """Ends a script that is interrupted before its main function runs."""
    if issubclass(kind, (KeyboardInterrupt, Signalled)):
        os._exit(BY_SIGNAL + getattr(error, "number", INTERRUPT))
    sys.__excepthook__(kind, error, trace)


sys.excepthook = uncaught


def say(name, text):
    """Prints one line on standard error, if that is open."""
    try:
        if sys.stderr is not None:
            print(f"{name}: {escaped(text)}", file=sys.stderr, flush=True)
    except OSError:
        pass


def cause(error):
    """Returns the line for a failure that nothing else has told of."""
    if isinstance(error, OSError) and error.strerror:
        path = error.filename if error.filename is not None else "standard output"
        return f"{os.fsdecode(path) if isinstance(path, (str, bytes)) else path} can't be read or written: {error.strerror}"
    if isinstance(error, MemoryError):
        return "out of memory"
    if isinstance(error, RecursionError):
        return "the input is nested too deeply"
    return f"failed: {type(error).__name__}: {error}"


def status_of(name, main, prints):
    """Runs a script's main function, and returns the status to end with. `prints` is whether it prints an answer."""
    try:
        if sys.stdout is None and prints:
            raise Refusal("standard output is closed")
        for stream in (it for it in (sys.stdout, sys.stderr) if it is not None):
            stream.reconfigure(errors="backslashreplace")
        status = main()
        if sys.stdout is not None:
            sys.stdout.flush()
        return status
    except (KeyboardInterrupt, Signalled) as ending:
        say(name, "ended; what was made before stays")
        return BY_SIGNAL + getattr(ending, "number", INTERRUPT)
    except BrokenPipeError:
        say(name, READER_GONE)
    except Exception as error:  # pylint: disable=broad-except
        say(name, error if isinstance(error, Refusal) else cause(error))
    return FAILED


def ended(name, main, prints=True):
    """Runs a script's main function and ends the script."""
    try:
        if prints:
            take_signals()
        status = status_of(name, main, prints)
    except SystemExit as end:
        status = end.code if isinstance(end.code, int) else FAILED if end.code else 0
        if isinstance(end.code, str):
            say(name, end.code)
    if sys.stdout is not None:
        try:
            sys.stdout.flush()
        except (OSError, ValueError) as error:
            # What is left is given up, so that Python doesn't try again at its own end.
            os.dup2(os.open(os.devnull, os.O_WRONLY), 1)
            if status != FAILED:
                say(name, READER_GONE if isinstance(error, BrokenPipeError) else cause(error))
            status = FAILED
    sys.exit(status)


def status_of_program(code):
    """Returns the status of a program that ended with this code of `subprocess`: a signal's is 128 and its number."""
    return code if code >= 0 else BY_SIGNAL - code
