"""Clusters whose file changes from member to member, while a ticket that does not change is held.

It is imported by tests/cluster.py, and not run by itself.
"""

import time

from checks import need
from members import TICKET, now, wait_for
from promise_stories import lost_by
from stories import PATIENCE, grants, passed, story

ADDED = b"comes-and-goes"


def takes(cluster, name, tickets):
    """Writes a file with these tickets, and restarts one member after another with it. The other ticket's lease is not
    lost.
    """
    cluster.tickets = tickets
    cluster.conf = cluster.file(name, cluster.key)
    one, two, arbitrator = cluster.members
    for member in (arbitrator, two, one):
        member.kill()
        member.start(cluster.program, cluster.conf)
        need(not lost_by(one, [TICKET]), f"lost as {member.address} took {name}: {one.record()} at {now()}")


def lists_it(member, ticket):
    """Returns whether the member lists this ticket."""
    return any(line.split(b" ")[0] == ticket for line in member.ask("CLst").body.splitlines())


@story
def a_ticket_comes_and_goes(cluster):
    """a ticket is added to a cluster, granted, revoked and removed, member by member, while another ticket is held"""
    one = cluster.members[0]
    cluster.remember()
    cluster.start()
    grants(cluster, 0)
    term = one.record().term
    takes(cluster, "more.conf", (TICKET, ADDED))
    need(all(lists_it(member, ADDED) for member in cluster.members), "a member has not the new ticket")
    # (each member is silent about a ticket of which it has no record, for as long as a promise may last)
    time.sleep(cluster.times.abstention() + 0.05)
    need(one.about("CGnt", ADDED) in ("ok", "Asyn"), "no grant of the new ticket is taken")
    need(wait_for(lambda: not lost_by(one, [ADDED]), PATIENCE), "the new ticket is not held")
    passed("a ticket is added by one member after another, and granted, while another one is held")
    need(one.about("CRvk", ADDED) in ("ok", "Asyn"), "no revocation of the new ticket is taken")
    need(wait_for(lambda: one.record(ADDED).until is None, PATIENCE), "the new ticket is not given back")
    takes(cluster, "less.conf", (TICKET,))
    need(not any(lists_it(member, ADDED) for member in cluster.members), "a member has the ticket still")
    takes(cluster, "again.conf", (TICKET, ADDED))
    need(one.record(ADDED).term > 0, "the record of the ticket is gone")
    need(one.record().term >= term, f"the term of the ticket that was held fell from {term} to {one.record().term}")
    passed("a ticket that nobody holds is removed in the same way, and added again, and the other one stays held")
