"""What tell.py, put.py and get.py share: what they say on standard error, numbers among their words, their ends without a traceback,
and standard output, whose reader may go away."""
import argparse
import contextlib
import os
import select
import signal
import sys

OTHER_LIST = 3  # the exit code where two lists differ that should be one

# Ctrl-C ends them at once and quietly, as it ends most programs.
if signal.getsignal(signal.SIGINT) is signal.default_int_handler:
    signal.signal(signal.SIGINT, signal.SIG_DFL)


class Unwritten(Exception):
    """Standard output takes no more."""


def name():
    return os.path.basename(sys.argv[0])


def say(text):
    print(f"{name()}: {text}", file=sys.stderr, flush=True)


def other_list(text):
    say(text)
    sys.exit(OTHER_LIST)


def seconds(text):
    """A word of a command line: a time."""
    return _at_least_0(float(text))


def place(text):
    """A word of a command line: the place of a change."""
    return _at_least_0(int(text))


def port(text):
    number = int(text)
    if not 1 <= number <= 65535:
        raise argparse.ArgumentTypeError(f"{text} isn't from 1 to 65535")
    return number


def _at_least_0(number):
    if not 0 <= number < 10**15:
        raise argparse.ArgumentTypeError(f"{number} isn't from 0 to 10^15")
    return number


@contextlib.contextmanager
def writing():
    """Ends the program with 1 where standard output takes no more."""
    if sys.stdout is None:
        sys.exit(f"{name()}: standard output is closed")
    try:
        yield
    except Unwritten as error:
        # what it didn't take isn't tried again at the program's end
        os.dup2(os.open(os.devnull, os.O_WRONLY), sys.stdout.fileno())
        sys.exit(f"{name()}: {error}")


def pause(length, other=None):
    """Waits so many seconds, or until this can be read, which it says, unless the reader goes away."""
    watched, out = select.poll(), sys.stdout.fileno()
    watched.register(out, 0)
    if other is not None:
        watched.register(other, select.POLLIN)
    found = watched.poll(length * 1000)
    if any(at == out for at, _ in found):
        raise Unwritten("nobody reads what is printed")
    return bool(found)


def show(lines):
    """Prints whole lines, each with its LF, and at once."""
    try:
        sys.stdout.buffer.write(b"".join(line + b"\n" for line in lines))
        sys.stdout.buffer.flush()
    except BrokenPipeError as error:
        raise Unwritten("nobody reads what is printed") from error
    except OSError as error:
        raise Unwritten(f"standard output can't be written: {error.strerror}") from error
