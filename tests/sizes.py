#!/usr/bin/env python3
"""Checks that the pool of linked nodes and the timer stay fast at large sizes.

Run it as `python3 tests/sizes.py [PROGRAM]`. PROGRAM is `trials`, by default at crates/trials/out/trials, where rt
leaves it. It takes some seconds, prints a line for each check, and has the status 1 if one failed or took more than a
minute. If `trials` is not built it checks nothing, with status 0.

The contents of the lists, the answers, and the number of counted steps to find a slot are proved. The time is not
proved. A pool that moves all later items, or a timer with steps that it does not count, would only be slow: here it
would take hours.
"""

import os
import subprocess
import sys
import time

TOP = os.path.dirname(os.path.dirname(os.path.abspath(__file__)))
PROGRAM = f"{TOP}/crates/trials/out/trials"
SECONDS = 60

ITEMS, SLOTS, UNTIL, ASKS = 4_000_000, 1_000_000, 60_000, 16

# the items from the middle of the list on, except the last one; sixteen answers at each moment from 0 on
REMOVED = ITEMS // 2 - 1
ANSWERS = ASKS * (UNTIL + 1)

CHECKS = (
    (("remove", ITEMS), f"{REMOVED} items left the middle of {ITEMS}"),
    (("ask", SLOTS, UNTIL), f"{ANSWERS} answers none at {SLOTS} slots"),
)


def trouble(program, words, line):
    """Returns the fault of a run, and how long it took."""
    started = time.monotonic()
    try:
        done = subprocess.run([program, *map(str, words)], stdout=subprocess.PIPE, timeout=SECONDS)
    except subprocess.TimeoutExpired:
        return f"it took more than {SECONDS} s", SECONDS
    took = time.monotonic() - started
    if done.returncode != 0 or done.stdout != line.encode("ascii") + b"\n":
        return f"it said {done.stdout!r}, with status {done.returncode}", took
    return None, took


def main(words):
    program = os.path.abspath(words[0] if words else PROGRAM)
    if not os.access(program, os.X_OK):
        print(f"sizes.py: {program} is not built, so nothing was checked")
        return 0
    failed = 0
    for asked, line in CHECKS:
        wrong, took = trouble(program, asked, line)
        failed += wrong is not None
        print(f"{'FAILED' if wrong else 'ok'}  {' '.join(map(str, asked))}: {wrong or line}, in {took:.2f} s", flush=True)
    return 1 if failed else 0


if __name__ == "__main__":
    sys.exit(main(sys.argv[1:]))
