#!/usr/bin/env python3
"""Measures `booth move -w` at three proved boothd on loopback: from exec to exit, and how long no site held the ticket.

Run it as `python3 bench/moves.py [BOOTHD BOOTH]`. By default the programs are those that `make build` leaves. It prints
one table and takes half a minute. All members run on this machine.

The time without a holder is measured by the record files alone. A look reads the records of the old holder and of the
new one. The time begins with the last look at which the old lease was in force. It ends with the first look at which
the new lease is in force. So the value is at most two looks too long.
"""

import itertools
import os
import statistics
import sys
import tempfile
import threading
import time

HERE = os.path.dirname(os.path.abspath(__file__))
sys.path[:0] = [HERE, f"{HERE}/../tools"]

from members import TICKET, Cluster, now
from rows import Row, below, told
from run import one_run, require
from serving import NotServing, built_program, end_by_signals, own_addresses

TRIES = 40
# the longest allowed time without a holder, in milliseconds
MARK = 50
# how long the records of both sites are read if a move does not end, in seconds
SECONDS_OF_A_LOOK = 20

ADDRESSES = own_addresses()


class Looks(threading.Thread):
    """Reads the records without a pause, from the beginning of a move until the new holder has its lease."""

    def __init__(self, old, new):
        super().__init__(daemon=True)
        self.old, self.new = old, new
        self.looks, self.free = 0, None

    def holds(self, member):
        """Returns whether a member has a lease in force by its record."""
        record = member.record()
        return record is not None and record.holds(now())

    def run(self):
        """Counts the looks, and measures the time without a holder, in seconds."""
        last = started = time.perf_counter()
        while last - started < SECONDS_OF_A_LOOK:
            moment = time.perf_counter()
            self.looks += 1
            if self.holds(self.old):
                last = moment
            elif self.holds(self.new):
                self.free = time.perf_counter() - last
                return


def move_words(made, target):
    """Returns the arguments of a move to a site."""
    return [made.client, "move", "-w", TICKET.decode(), target.address, "-c", made.conf]


def moved(made, old, new):
    """Moves the ticket. Returns how long the move took and how long no site held the ticket, both in milliseconds, and
    the number of looks.
    """
    looks = Looks(old, new)
    looks.start()
    took = one_run(move_words(made, new))
    looks.join()
    require(looks.free is not None, "the new holder's record was not seen")
    return took * 1e3, looks.free * 1e3, looks.looks


def rows(programs, folder):
    """Makes moves between the two sites, half of them with looks at the records and half without."""
    with Cluster(programs[0], folder, list(itertools.islice(ADDRESSES, 3)), client=programs[1]) as made:
        made.remember()
        made.start()
        one, two, _ = made.members
        one_run([made.client, "grant", "-w", TICKET.decode(), "-c", made.conf, "-s", one.address])
        pairs = list(itertools.islice(itertools.cycle([(one, two), (two, one)]), TRIES))
        seen = [moved(made, old, new) for old, new in pairs]
        made.watch.end()
        alone = [one_run(move_words(made, new)) * 1e3 for _, new in pairs]
        require(not made.watch.wrong, f"two sites held the ticket at the same time: {made.watch.wrong[:3]}")
    free = [each[1] for each in seen]
    shown = f"{statistics.median(alone):.1f} ms (lowest: {min(alone):.1f} ms, highest: {max(alone):.1f} ms)"
    yield Row("booth move -w, from exec to exit, three members", shown)
    middle = statistics.median(free)
    shown = f"{middle:.1f} ms (highest: {max(free):.1f} ms)"
    yield below("time without a holder, by the record files", middle, shown, MARK, "ms")


def main(words):
    end_by_signals()
    programs = words if len(words) == 2 else [built_program("boothd"), built_program("booth")]
    if None in programs:
        sys.exit("moves.py: boothd or booth is not built: run make build")
    programs = [os.path.abspath(program) for program in programs]
    try:
        with tempfile.TemporaryDirectory(prefix="booth-bench-") as folder:
            return told(rows(programs, f"{folder}/members"))
    except NotServing as why:
        sys.exit(f"moves.py: {why}")


if __name__ == "__main__":
    sys.exit(main(sys.argv[1:]))
