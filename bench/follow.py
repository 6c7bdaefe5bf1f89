#!/usr/bin/env python3
"""Measures services that follow their ticket at three proved boothd on loopback: at rest, and from a death to a start.

Run it as `python3 bench/follow.py [BOOTHD BOOTH-FOLLOW]`. By default the programs are those that `make build` leaves.
It prints one table and takes two minutes. The ticket has `expire = 10` and `timeout = 1`, and the followers have the
default times.

The service writes ten lines a second. Its first line shows when it started, and its last line when it ended.
"""

import os
import statistics
import sys
import tempfile
import time

HERE = os.path.dirname(os.path.abspath(__file__))
sys.path[:0] = [HERE, f"{HERE}/../tools"]

from following import Services
from members import Cluster, Times, now, wait_for
from rows import Row, told
from run import cpu_seconds, require, status_field
from serving import NotServing, built_program, end_by_signals, own_addresses

TRIES = 4
# how long a follower is measured while its service runs, in seconds
SECONDS_AT_REST = 60
SECONDS_OF_A_DAY = 86_400
PATIENCE = 60


def at_rest(services, member):
    """Measures the memory of a follower whose service runs, and its CPU time in a day."""
    follower = services.followers[member.address]
    before = cpu_seconds(follower)
    time.sleep(SECONDS_AT_REST)
    took = cpu_seconds(follower) - before
    memory, peak = (status_field(follower, name) for name in ("VmRSS", "VmHWM"))
    yield Row("resident memory of a follower; peak memory", f"{memory:,} kB; {peak:,} kB")
    yield Row("CPU time of a follower in a day without events", f"{took * SECONDS_OF_A_DAY / SECONDS_AT_REST:.1f} s")


def dies(cluster, services, holder, other):
    """Kills the holder's daemon. Returns in seconds the time from the kill to the start at the other site, from the
    lease's end to that start, and from the end of the service to the lease's end.
    """
    died = now()
    holder.kill()
    until = holder.record().until
    require(services.await_up(other, PATIENCE), "the service does not start at the other site")
    written = lambda: [spell for spell in services.spells() if spell.site == other.address and spell.first > died]
    require(wait_for(written, PATIENCE), "the service writes nothing")
    first = written()[0].first
    last = max(spell.last for spell in services.spells() if spell.site == holder.address)
    require(last < until, "the service ran on")
    holder.start(cluster.program, cluster.conf)
    return first - died, first - until, until - last


def measure(programs):
    """Measures a follower without events, and then several takeovers."""
    boothd, follower = programs
    with tempfile.TemporaryDirectory(prefix="booth-bench-") as folder:
        made = Cluster(boothd, folder, own_addresses(), times=Times(expire=10))
        with made as cluster, Services(follower, cluster) as services:
            one, two, _ = cluster.members
            cluster.remember()
            cluster.start()
            for site in (one, two):
                services.follow(site)
            require(wait_for(lambda: one.about("CGnt") in ("ok", "Asyn"), PATIENCE), "no grant")
            require(services.await_up(one, PATIENCE), "the service does not start")
            yield from at_rest(services, one)
            waits = []
            for number in range(TRIES):
                holder, other = (one, two) if number % 2 == 0 else (two, one)
                waits.append(dies(cluster, services, holder, other))
                time.sleep(2)
            require(not services.overlaps(), "two services overlapped")
            died, after, before = map(statistics.median, zip(*waits))
            yield Row("from the holder's death to the start at the other site", f"{died:.2f} s")
            yield Row("from the lease's end to the start at the other site", f"{after:.2f} s")
            yield Row("from the end of the service to the lease's end", f"{before:.2f} s")


def main(words):
    end_by_signals()
    programs = words if len(words) == 2 else [built_program(name) for name in ("boothd", "booth-follow")]
    if None in programs:
        sys.exit("follow.py: boothd or booth-follow is not built: run make build")
    try:
        return told(measure([os.path.abspath(program) for program in programs]))
    except NotServing as why:
        sys.exit(f"follow.py: {why}")


if __name__ == "__main__":
    sys.exit(main(sys.argv[1:]))
