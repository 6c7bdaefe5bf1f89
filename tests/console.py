#!/usr/bin/env python3
"""Checks the console of booth-status: its page, its metrics and its JSON, with arranged members and a real cluster.

Run it as `python3 tests/console.py [BOOTHD]`, by default the one that `make build` leaves. It prints a line for each
story, ends all that it started, and has the status 1 if a story failed. Without boothd it leaves the real cluster out,
and without Chromium the pictures.

`python3 tests/console.py --pictures FOLDER [BOOTHD]` writes the pictures of docs/MONITORING.md into a folder.
"""

import os
import signal
import sys
import time

HERE = os.path.dirname(os.path.abspath(__file__))
sys.path[:0] = [HERE, f"{HERE}/../tools"]

import console_cluster
import console_examples
import console_hostile
import console_stories
from console_runs import stories
from scratch import scratch
from serving import built_program, end_by_signals
from status import alone, passes

__all__ = ["console_examples", "console_hostile", "console_stories"]


def run(program):
    """Runs the stories, and returns how many failed."""
    started = time.monotonic()
    outcomes = [passes(each, lambda each=each: alone(each)) for each in stories]
    if program is None:
        print("console: boothd is not built (make build), so no real cluster is looked at")
    else:
        with scratch("booth-console-") as folder:
            outcomes.append(passes(console_cluster.run, lambda: console_cluster.run(program, folder)))
    failed = outcomes.count(False)
    print(f"console: {len(outcomes) - failed} passed, {failed} failed, in {time.monotonic() - started:.1f} s")
    return failed


def main(words):
    """Runs the stories, or draws the pictures, and returns the exit status."""
    signal.signal(signal.SIGINT, signal.default_int_handler)
    end_by_signals()
    drawn = words[1] if words[:1] == ["--pictures"] and len(words) > 1 else None
    rest = words[2:] if drawn else words
    program = rest[0] if rest else built_program()
    if program is not None and not os.access(program, os.X_OK):
        sys.exit(f"console.py: cannot run {program}")
    program = program and os.path.abspath(program)
    if drawn is None:
        return 1 if run(program) else 0
    with scratch("booth-console-") as folder:
        console_cluster.pictures(program, folder, drawn)
    return 0


if __name__ == "__main__":
    sys.exit(main(sys.argv[1:]))
