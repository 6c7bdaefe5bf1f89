#!/usr/bin/env python3
"""Searches random schedules of three members for one in which a site loses its ticket despite a timely majority.

Run it as `python3 tests/timely.py [COUNT [NUMBER [PROGRAM]]]`. It plays COUNT schedules, which it draws from the seeds
NUMBER, NUMBER + 1 and so on, with the proved driver PROGRAM. It prints how many schedules met the premises with and
without the steady rules, and each loss with the steady rules. If there is a loss with these rules, its status is 1.

In the first part of a schedule anything happens: grants and revokes, cuts, stops and starts, lost and late messages.
The second part begins when a site holds the ticket and enough of its lease is left for a renewal and its repeats. At
this time neither this site nor one other member abstains or has a live promise to another site. These two members are
the majority. From then on they run and hear one another in time. The third member is stopped, cut off, or left alone.
The site must hold the ticket to the end.
"""

import os
import random
import sys
from typing import Dict, List, NamedTuple, Optional

HERE = os.path.dirname(os.path.abspath(__file__))
sys.path[:0] = [HERE, f"{HERE}/../tools"]

from row_driver import PROGRAM
from ticket_cluster import MEMBERS, SITES, Cluster, holdings, spans

RENEWALS = (300_000, 500_000)
# a try and its repeats, and what a round and its answers take, in ms
PATIENCE, TRY, ROUND = 55_000, 5_000, 100
EXPIRE = 600_000
# the length of the first part, and the greatest number of pieces in which it is drawn until the premises hold
PRELUDE, MOST_PRELUDES = 1_500_000, 6
TIMELY = 2_500_000
LATE = (1, 20, 2_000, 30_000)


class Begin(NamedTuple):
    """The state in which the second part begins: the site that holds the ticket, and the majority with this site."""

    site: str
    majority: List[str]


class Found(NamedTuple):
    """The result of a search: how many schedules met the premises, and the losses among them."""

    searched: int
    losses: List[str]


def disturb(cluster: Cluster, draw: random.Random, until: int) -> None:
    """Adds random events to the cluster, from now until this time."""
    time = cluster.now
    while time < until:
        time += draw.randrange(1, 120_000)
        name = draw.choice(MEMBERS)
        cluster.at(time, event_of(cluster, draw.choice(("ask", "ask", "revoke", "cut", "join", "stop", "start")), name,
                                  draw.choice([each for each in MEMBERS if each != name])))


def event_of(cluster: Cluster, word: str, name: str, other: str):
    """Returns an event of the first part."""
    def happens() -> None:
        if word in ("ask", "revoke") and name in SITES:
            cluster.ask(name, "grant" if word == "ask" else "revoke")
        elif word in ("cut", "join"):
            cluster.cut(name, other, word == "cut")
        elif word == "stop":
            cluster.stop(name)
        elif word == "start" and not cluster.tickets[name].is_up:
            cluster.start(name)

    return happens


def is_free(cluster: Cluster, name: str, site: str) -> bool:
    """Returns whether a member, by its record, has stopped abstaining and is bound to no site but this one."""
    record = cluster.tickets[name].record
    promise = record.promise_to
    is_bound = promise is not None and promise != MEMBERS.index(site) + 1 and record.promise_until > cluster.now
    holds = name != site and record.lease_until is not None and record.lease_until > cluster.now
    return record.abstain <= cluster.now and not is_bound and not holds


def begin_of(cluster: Cluster, draw: random.Random) -> Optional[Begin]:
    """Returns the state in which the second part can begin now, or nothing if the premises do not hold."""
    for site in SITES:
        until = cluster.tickets[site].record.lease_until
        if not cluster.tickets[site].is_up or until is None or until < cluster.now + PATIENCE + 2 * TRY + 3 * ROUND:
            continue
        others = [name for name in MEMBERS if name != site and is_free(cluster, name, site)]
        if others and is_free(cluster, site, site):
            return Begin(site, [site, draw.choice(others)])
    return None


def settle(cluster: Cluster, begin: Begin, draw: random.Random) -> None:
    """Begins the second part. The majority runs connected; the third member is stopped, cut off or left alone."""
    cluster.events.clear()
    one, other = begin.majority
    cluster.cut(one, other, False)
    cluster.delay = lambda: draw.randrange(1, ROUND // 4)
    for name in begin.majority:
        if not cluster.tickets[name].is_up:
            cluster.start(name)
    third = next(name for name in MEMBERS if name not in begin.majority)
    what = draw.choice(("stopped", "cut", "free"))
    if what == "stopped":
        cluster.stop(third)
    for each in begin.majority:
        cluster.cut(third, each, what == "cut")


def schedule(number: int, is_steady: bool, program: str) -> Optional[str]:
    """Plays the random schedule of this number. Returns nothing if its premises were not met, an empty text if the site
    held the ticket to the end, and otherwise a line about the loss.
    """
    draw = random.Random(number)
    cluster = Cluster(program, is_steady, draw.choice(RENEWALS), lambda: draw.randrange(1, draw.choice(LATE) + 1))
    try:
        for name in MEMBERS:
            cluster.start(name)
        begin = None
        for _ in range(MOST_PRELUDES):
            disturb(cluster, draw, cluster.now + PRELUDE // MOST_PRELUDES)
            cluster.run_to(cluster.now + PRELUDE // MOST_PRELUDES)
            begin = begin_of(cluster, draw) or begin
            if begin is not None:
                break
        if begin is None:
            return None
        began = cluster.now
        settle(cluster, begin, draw)
        cluster.run_to(began + TIMELY)
    finally:
        cluster.end()
    held = [each for each in spans(holdings(cluster.kept)) if each.site == begin.site and each.begin <= began < each.end]
    if held and held[0].end >= began + TIMELY:
        return ""
    end = held[0].end if held else began
    return f"schedule {number}: {begin.site} with {begin.majority[1]} from {began} ms lost the ticket at {end} ms"


def search(first: int, count: int, is_steady: bool, program: str) -> Found:
    """Plays `count` schedules from the number `first` on, and returns the result."""
    outcomes = [schedule(first + each, is_steady, program) for each in range(count)]
    met = [each for each in outcomes if each is not None]
    return Found(len(met), [each for each in met if each])


def main(words: List[str]) -> int:
    """Searches, prints what was found, and returns the status."""
    count, number = int(words[0]) if words else 40, int(words[1]) if words[1:] else 1
    program = os.path.abspath(words[2] if words[2:] else PROGRAM)
    if not os.access(program, os.X_OK):
        print(f"timely: {program} is not built")
        return 0
    found: Dict[bool, Found] = {steady: search(number, count, steady, program) for steady in (False, True)}
    for steady, each in found.items():
        rules = "the steady rules" if steady else "without them"
        print(f"{rules}: {count} schedules, {each.searched} with the premises, {len(each.losses)} losses")
    for loss in found[True].losses:
        print(f"FAILED  {loss}")
    return 1 if found[True].losses else 0


if __name__ == "__main__":
    sys.exit(main(sys.argv[1:]))
