"""Leases that are renewed at the same time as links over TCP and crowds, for tests/links.py.

It is imported by that, and not run by itself. Each check has a cluster of its own, and returns what it measured.
"""

import contextlib
import itertools
import time

from checks import need
from crowds import Crowd
from members import Cluster, Member, Times, now, wait_for
from scratch import scratch
from serving import own_addresses
from tcp_links import Busy

# the crowds of clients that open links and send no whole request, each with its size
CROWDS = (("heads", 1_000), ("silent", 300), ("brief", 10))
# the additional time on a busy machine, in seconds
SLACK, SECONDS_BETWEEN_LOOKS = 10, 0.05
KEY = b"a-key-of-the-cluster"
TIMES = Times(expire=7, timeout=1, retries=3, renewal=5)


def holds(member: Member) -> bool:
    """Returns whether the member holds the ticket, by its record."""
    record = member.record()
    return record is not None and record.holds(now())


def begin(cluster: Cluster) -> Member:
    """Starts the cluster, and returns its first site, which is granted the ticket."""
    cluster.remember()
    cluster.start()
    one = cluster.members[0]
    need(one.about("CGnt") in ("ok", "Asyn"), "a grant is not taken")
    need(wait_for(lambda: holds(one), SLACK), "the granted ticket is not held")
    return one


def the_lease_runs_beside_links(program: str) -> str:
    """a holder keeps its lease, and another site takes over, while sixteen links send requests without a pause"""
    addresses = list(itertools.islice(own_addresses(), 10, 13))
    with scratch("booth-links-") as folder, Cluster(program, folder, addresses, TIMES, KEY) as cluster:
        one, two = begin(cluster), cluster.members[1]
        with Busy(one.address, KEY) as busy:
            term, ends, end = one.record().term, set(), time.monotonic() + TIMES.renewal + 2
            while time.monotonic() < end:
                need(holds(one), "the lease has lapsed")
                ends.add(one.record().until)
                time.sleep(SECONDS_BETWEEN_LOOKS)
        need(one.record().term == term and len(ends) > 1, f"no renewal: {ends}")
        with Busy(two.address, KEY) as more:
            one.kill()
            patience = TIMES.expire + TIMES.guard() + SLACK
            need(wait_for(lambda: holds(two), patience), "nobody takes over")
        need(not busy.wrong and not more.wrong, f"a busy link: {(busy.wrong + more.wrong)[:3]}")
        need(not cluster.watch.wrong, f"two held: {cluster.watch.wrong[:3]}")
    return f"{len(ends) - 1} renewals, and {busy.answered + more.answered} lists"


def the_lease_runs_beside_crowds(program: str) -> str:
    """a holder keeps its lease while crowds only occupy places, and answers over UDP at the same time"""
    addresses = list(itertools.islice(own_addresses(), 40, 43))
    with scratch("booth-links-") as folder, contextlib.ExitStack() as opened:
        cluster = opened.enter_context(Cluster(program, folder, addresses, TIMES, KEY))
        one = begin(cluster)
        for kind, count in CROWDS:
            opened.enter_context(Crowd(kind, one.address, count))
        ends, took, end = set(), [], time.monotonic() + 2 * TIMES.renewal
        while time.monotonic() < end:
            need(holds(one), "the lease has lapsed")
            ends.add(one.record().until)
            begun = time.monotonic()
            need(one.ask("CLst") is not None, "a list over UDP is not answered")
            took.append(time.monotonic() - begun)
            time.sleep(SECONDS_BETWEEN_LOOKS)
        need(len(ends) > 1, f"no renewal: {ends}")
        need(not cluster.watch.wrong, f"two held: {cluster.watch.wrong[:3]}")
    return f"{len(ends) - 1} renewals, and {len(took)} lists over UDP, the slowest in {max(took) * 1000:.0f} ms"


CHECKS = (the_lease_runs_beside_links, the_lease_runs_beside_crowds)
