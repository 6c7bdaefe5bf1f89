#!/usr/bin/env python3
"""Checks booth-status and booth-record: with arranged members and files, and with real clusters.

Run it as `python3 tests/status.py [BOOTHD]`, by default the one that `make build` leaves. It takes less
than a minute, prints a line for each story, ends all that it started, and has the status 1 if a story failed. If
boothd is not built it leaves the real clusters out.
"""

import os
import signal
import subprocess
import sys
import time

HERE = os.path.dirname(os.path.abspath(__file__))
sys.path[:0] = [HERE, f"{HERE}/../tools"]

import check_stories
import cluster_looks
import configuration_stories
import doctor_stories
import look_stories
import record_stories
import service_stories
import way_stories
from checks import Wrong
from scratch import scratch
from serving import NotServing, built_program, end_by_signals
from status_runs import in_time, stories

SECONDS_OF_A_STORY = 120


class Hangs(Exception):
    """A story did not end in time."""


def hangs(*_):
    raise Hangs(f"it did not end in {SECONDS_OF_A_STORY} seconds")


def passes(story, call):
    """Returns whether a story passes. The story returns what it left out, or nothing."""
    begun = time.monotonic()
    signal.signal(signal.SIGALRM, hangs)
    signal.alarm(SECONDS_OF_A_STORY)
    try:
        left_out = call()
    except (Wrong, Hangs, NotServing, OSError, LookupError, ValueError, subprocess.TimeoutExpired) as why:
        print(f"FAILED  {story.__doc__}: {type(why).__name__}: {why}", flush=True)
        return False
    finally:
        signal.alarm(0)
    more = f": {left_out}" if left_out else ""
    print(f"ok      {story.__doc__}{more} ({time.monotonic() - begun:.1f} s)", flush=True)
    return True


def alone(story):
    """Runs a story in its own folder. It arranges everything that it looks at, so on a busy machine it is repeated."""

    def once():
        with scratch("booth-status-") as folder:
            return story(folder)

    return in_time(once)


def run(program):
    """Runs each story in its own folder, and those of real clusters in one. Prints how many failed."""
    started = time.monotonic()
    outcomes = [passes(story, lambda story=story: alone(story)) for story in stories]
    if program is None:
        print("status: boothd is not built (make build), so no real cluster is looked at")
    else:
        with scratch("booth-status-") as folder:
            outcomes += [passes(story, call) for story, call in cluster_looks.looks(program, folder)]
    failed = outcomes.count(False)
    print(f"status: {len(outcomes) - failed} passed, {failed} failed, in {time.monotonic() - started:.1f} s")
    return failed


def main(words):
    # (a program that a shell starts in the background ignores this signal, and so would the programs that a story ends
    # by it)
    signal.signal(signal.SIGINT, signal.default_int_handler)
    end_by_signals()
    program = words[0] if words else built_program()
    if program is not None and not os.access(program, os.X_OK):
        sys.exit(f"status.py: cannot run {program}")
    return 1 if run(program and os.path.abspath(program)) else 0


if __name__ == "__main__":
    sys.exit(main(sys.argv[1:]))
