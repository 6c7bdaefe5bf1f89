#!/usr/bin/env python3
"""Checks the proved boothd against docs/PROTOCOL.md over loopback, and compares replies byte by byte.

Run it as `python3 tests/loopback.py [PROGRAM [WORD]]`. PROGRAM is a boothd, by default the one that `make build`
leaves. With WORD only the checks run whose sentences have this word. It prints a line for each check, ends all programs
that it started, and has the status 1 if a check failed. If boothd is not built it checks nothing, with status 0. Each
daemon has its own lock and its own directory.

The checks are in replies.py and refusals.py. The expected values are written manually or computed by Python's standard
library; they never come from the program's own output.
"""

import os
import subprocess
import sys
import time

HERE = os.path.dirname(os.path.abspath(__file__))
sys.path[:0] = [HERE, f"{HERE}/../tools"]

import refusals
import replies
from checks import Wrong
from room import Room, checks
from scratch import scratch
from serving import built_program, end_by_signals, turn


def passes(check, room):
    """Returns whether the check passes. Prints its line."""
    try:
        check(room)
    except (Wrong, OSError, subprocess.TimeoutExpired) as why:
        print(f"FAILED  {check.__doc__}: {why}", flush=True)
        return False
    print(f"ok      {check.__doc__}", flush=True)
    return True


def run(program, word):
    """Runs the checks whose sentence has this word. Prints how many failed."""
    chosen = [check for check in checks if word in check.__doc__]
    started = time.monotonic()
    with scratch("booth-loopback-") as folder:
        room = Room(os.path.abspath(program), folder)
        passed = sum([passes(check, room) for check in chosen])
    failed, took = len(chosen) - passed, time.monotonic() - started
    print(f"loopback: {passed} passed, {failed} failed, in {took:.1f} s ({program})")
    return failed


def main(words):
    end_by_signals()
    program = words[0] if words else built_program()
    if program is None:
        print("loopback: skipped, since boothd is not built: run make build")
        return 0
    if not os.access(program, os.X_OK):
        sys.exit(f"loopback.py: cannot run {program}")
    # (one of its checks uses the default lock file)
    with turn("loopback"):
        return 1 if run(program, words[1] if len(words) > 1 else "") else 0


if __name__ == "__main__":
    sys.exit(main(sys.argv[1:]))
