#!/usr/bin/env python3
"""Measures the CPU time of 100 followers at one site, and of their daemon, which has 4,096 tickets.

Run it as `python3 bench/followers.py [BOOTHD BOOTH-FOLLOW]`. By default the programs are those that `make build`
leaves. It prints one table in two minutes. Its status is 1 if a mark is missed by more than a tenth. The cluster has
only this site, so the site alone is a majority, and it holds the 100 tickets. Each follower is a process, and its
program is /bin/true, so no program of a service is measured.
"""

import os
import subprocess
import sys
import tempfile
import time
from typing import Iterator, List

HERE = os.path.dirname(os.path.abspath(__file__))
sys.path[:0] = [HERE, f"{HERE}/../tools"]

from members import Member, remember, wait_for
from rows import Row, below, told
from run import cpu_seconds
from serving import NotServing, built_program, end_by_signals, own_addresses, written

TICKETS, FOLLOWED = 4_096, 100
SECONDS = 30
# how long the bench waits after the start of the followers, in seconds
SECONDS_TO_REST = 5
PATIENCE = 60
STARTED = b"the service has started"


def names(count: int) -> List[bytes]:
    """Returns the names of `count` tickets."""
    return [b"ticket-%04d" % number for number in range(count)]


def holder(program: str, folder: str) -> Member:
    """Starts the daemon of the only site."""
    member = Member("site", next(own_addresses()), os.path.join(folder, "site"))
    conf = os.path.join(folder, "booth.conf")
    with open(conf, "wb") as file:
        file.write(b'site = "%s"\n' % member.address.encode())
        file.writelines(b'ticket = "%s"\n' % name for name in names(TICKETS))
    remember(member.records, names(TICKETS))
    member.start(program, conf)
    return member


def grant_each(member: Member) -> None:
    """Has the site acquire the 100 tickets."""
    for name in names(FOLLOWED):
        result = member.about("CGnt", name)
        if result != "ok":
            raise NotServing(f"the answer to a grant of {name.decode()} is {result}")


def follow(program: str, member: Member, name: bytes, printed) -> subprocess.Popen:
    """Starts the follower of a ticket."""
    words = [program, "-c", member.conf, "-s", member.address, "-d", member.records, name.decode(), "/bin/true"]
    return subprocess.Popen(words, stdin=subprocess.DEVNULL, stdout=printed, stderr=printed)


def millis(*groups: List[subprocess.Popen]) -> List[float]:
    """Returns the CPU time of each group of processes per second, in milliseconds."""
    spent = lambda: [sum(map(cpu_seconds, group)) for group in groups]
    before = spent()
    time.sleep(SECONDS)
    return [(late - early) / SECONDS * 1000 for early, late in zip(before, spent())]


def measured(member: Member, followers: List[subprocess.Popen], alone: float) -> Iterator[Row]:
    """Measures the daemon with its followers. `alone` is its CPU time without followers."""
    daemon, theirs = millis([member.server.process], followers)
    more = daemon - alone
    yield Row(f"CPU time of {FOLLOWED} followers per second", f"{theirs:.1f} ms")
    yield Row("CPU time that their daemon takes for them per second", f"{more:.1f} ms (without them: {alone:.1f} ms)")
    part = (theirs + more) / 10
    yield below(f"share of one processor, {FOLLOWED} followers of {TICKETS:,} tickets", part, f"{part:.2f} %", 1, "%")


def measure(boothd: str, follower: str) -> Iterator[Row]:
    """Measures a daemon alone, and then with its followers."""
    followers = []
    with tempfile.TemporaryDirectory(prefix="booth-bench-") as folder, tempfile.TemporaryFile() as printed:
        member = holder(boothd, folder)
        try:
            grant_each(member)
            (alone,) = millis([member.server.process])
            followers += [follow(follower, member, name, printed) for name in names(FOLLOWED)]
            if not wait_for(lambda: written(printed).count(STARTED) == FOLLOWED, PATIENCE):
                raise NotServing(f"not every service started: {written(printed)[-400:]!r}")
            time.sleep(SECONDS_TO_REST)
            yield from measured(member, followers, alone)
        finally:
            for process in followers:
                process.kill()
                process.wait()
            member.kill()


def main(words: List[str]) -> int:
    """Prints the table, and returns the status."""
    end_by_signals()
    programs = words if len(words) == 2 else [built_program(name) for name in ("boothd", "booth-follow")]
    if None in programs:
        sys.exit("followers.py: boothd or booth-follow is not built: run make build")
    boothd, follower = map(os.path.abspath, programs)
    try:
        return told(measure(boothd, follower))
    except (NotServing, OSError) as why:
        sys.exit(f"followers.py: {why}")


if __name__ == "__main__":
    sys.exit(main(sys.argv[1:]))
