"""Runs a program of the package: a failure is one line on standard error, and never a traceback.

It is imported by the programs, and not run by itself.
"""

import os
import sys

from configuration import Unreadable


def status_of(name, call, failed):
    """Returns the result of the call, or `failed` after an error, which is printed."""
    # (a closed stream is replaced by one that discards everything, so no file that is opened later takes its place)
    for number, stream in ((0, "stdin"), (1, "stdout"), (2, "stderr")):
        if getattr(sys, stream) is None:
            os.open(os.devnull, os.O_RDWR)
            setattr(sys, stream, open(number, "w" if number else "r", encoding="utf-8"))
    sys.stdout.reconfigure(errors="backslashreplace")
    try:
        try:
            result = call()
        except SystemExit as end:
            # (after refused arguments, help or version)
            result = end.code
        sys.stdout.flush()
        return result
    except Unreadable as why:
        print(f"{name}: {why}", file=sys.stderr)
    except KeyboardInterrupt:
        pass
    except BrokenPipeError:
        give_up_printing()
    except OSError as why:
        print(f"{name}: cannot continue: {why.strerror or why}", file=sys.stderr)
        give_up_printing()
    except Exception as why:
        print(f"{name}: {type(why).__name__}: {why}", file=sys.stderr)
    return failed


def give_up_printing():
    """Discards the output that is not printed yet."""
    os.dup2(os.open(os.devnull, os.O_WRONLY), sys.stdout.fileno())
