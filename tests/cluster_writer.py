#!/usr/bin/env python3
"""The service of a ticket: notes every 100 ms that it runs, until it is ended. It runs inside a machine.

tests/cluster_world.py puts it there, and an agent and a unit run it as `cluster_writer.py LOG`. A line of the log is a
moment, in seconds of the clock that all machines here share, which no step of a wall clock touches.
"""

import sys
import time

SECONDS_BETWEEN = 0.1


def main(log: str) -> None:
    """Writes lines until it is ended."""
    with open(log, "a", encoding="ascii", buffering=1) as file:
        while True:
            now = time.monotonic()
            file.write(f"{now:.3f}\n")
            time.sleep(max(0.0, now + SECONDS_BETWEEN - time.monotonic()))


if __name__ == "__main__":
    main(sys.argv[1])
