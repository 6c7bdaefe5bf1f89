"""Clusters in which one command moves a ticket from one site to another.

It is imported by tests/cluster.py, and not run by itself.
"""

import time

from checks import need
from members import MANUAL, now, wait_for
from stories import BY_HAND, NAME, PATIENCE, grants, is_held_by, keeps, lists, passed, says, slack, story

# how often the ticket moves to the other site and back
ROUND_TRIPS = 5


def moves(asked, target, *options, name=NAME):
    """Checks that a move, requested from this member, is done."""
    says(asked, ("move", *options, name, target.address), 0, f"ticket {name} moved to {target.address}\n")


def is_free(cluster, holder):
    """Checks that nobody holds the ticket that this member released, and that no member lists a holder."""
    need(holder.record().until is None, "the lease that was given back is kept")
    shown = lambda: [m.address for m in cluster.members if m.is_running() and m.shown()]
    need(wait_for(lambda: not shown(), PATIENCE), "an owner is listed")


def stays_free(cluster):
    """Checks that no site takes the ticket over by itself, for longer than a takeover takes."""
    end = now() + cluster.times.abstention() + 2 * cluster.times.timeout
    while now() < end:
        holders = [m.address for m in cluster.members if (record := m.record()) and record.holds(now())]
        need(not holders, f"{holders} took it over")
        time.sleep(0.05)


@story
def many_tickets_of_which_one_is_moved(cluster):
    """a cluster whose ticket is moved back and forth while others are renewed"""
    one, two, arbitrator = cluster.members
    cluster.remember()
    cluster.start()
    for ticket in cluster.tickets:
        says(one, ("grant", "-w", ticket.decode()), 0, f"ticket {ticket.decode()} granted\n")
    others = {ticket: one.record(ticket).until for ticket in cluster.tickets[1:]}
    end, trips, longest = now() + 2 * cluster.times.renewal, 0, 0
    while now() < end or trips < ROUND_TRIPS:
        # (the holder and the other site request the moves alternately)
        for asked, holder, target in ((one, one, two), (one, two, one)):
            started = now()
            moves(asked, target, "-w")
            longest = max(longest, now() - started)
            need(target.record().holds(now()), "it is told as moved, and is not held")
            need(holder.record().until is None, "the site that gave it back has its lease")
        trips += 1
    need(longest < PATIENCE, f"a move took {longest:.3f} s")
    renewed = [ticket for ticket, until in others.items() if one.record(ticket).until != until]
    need(len(renewed) == len(others), f"{len(renewed)} of {len(others)} others were renewed meanwhile")
    passed(f"a ticket is moved to the other site and back {trips} times while {len(others)} others are renewed")
    before = one.record()
    for asked, options in ((one, ("-w",)), (two, ())):
        said = f"ticket {NAME} is held by {one.address} already: nothing is changed\n"
        says(asked, ("move", *options, NAME, one.address), 0, said)
    need(one.record().term == before.term and one.record().holds(now()), "it was not held all the time")
    passed("a move to the site that holds the ticket changes nothing, whichever member is asked, and says so")
    says(one, ("move", NAME, arbitrator.address), 1, f"booth: {arbitrator.address} is not a site\n")
    need(one.record().holds(now()), "what was refused changed something")
    says(one, ("revoke", NAME), 0, f"ticket {NAME} revoked\n")
    says(one, ("move", "-w", NAME, two.address), 1, "booth: ticket is not granted\n")
    is_free(cluster, one)
    passed("a move to an arbitrator, or of a ticket that nobody holds, is refused, and nobody gets it")


@story
def a_move_to_a_site_that_is_down(cluster):
    """a cluster whose ticket is moved to a site that does not run"""
    one, two, _ = cluster.members
    cluster.remember()
    cluster.start()
    grants(cluster, 0)
    two.kill()
    asked = now()
    before = one.record()
    why = f"{two.address} refuses links over TCP too: does the daemon run there?"
    says(one, ("move", "-w", NAME, two.address), 1, f"booth: no reply\nbooth: {why}\n")
    need(5 < now() - asked < 5 + 2 * slack(), f"it was told after {now() - asked:.2f} s")
    need(one.record().term == before.term and one.record().holds(now()), "it was given back")
    passed("a move to a site that is down reports no reply, and the ticket stays where it is")
    two.start(cluster.program, cluster.conf)
    need(wait_for(lambda: two.shown() == one.address, PATIENCE), "the site that runs again does not list the holder")
    moves(two, two, "-w")
    lists(cluster, two)
    passed("once the site runs again, the ticket is moved there, also if the target site is asked")


@story
def a_move_that_attributes_forbid(cluster):
    """a cluster whose ticket is moved to a site if an attribute forbids its grant"""
    one, two, _ = cluster.members
    cluster.remember()
    cluster.start()
    # (so a takeover is allowed at both sites)
    for member in (one, two):
        keeps(member, ("set", "ready", "yes"), 0, "")
    keeps(two, ("set", "maintenance", "yes"), 0, "")
    grants(cluster, 0)
    told = f"booth: ticket {NAME} is revoked, and its grant was refused: prerequisite not met\n"
    says(one, ("move", "-w", NAME, two.address), 1, told)
    is_free(cluster, one)
    passed("a move whose grant is refused says that the ticket is revoked, and why")
    stays_free(cluster)
    passed("nobody takes it over by itself")
    keeps(two, ("delete", "maintenance"), 0, "")
    says(two, ("grant", "-w", NAME), 0, f"ticket {NAME} granted\n")
    need(wait_for(lambda: is_held_by(cluster, two), PATIENCE), "it is not held")
    passed("it is granted there once the cause of the refusal is corrected")


@story
def a_move_of_a_manual_ticket(cluster):
    """a cluster whose manual ticket is moved"""
    one, two, _ = cluster.members
    cluster.start()
    says(one, ("grant", BY_HAND), 0, f"ticket {BY_HAND} granted\n")
    moves(one, two, name=BY_HAND)
    kept = [member.record(MANUAL).until for member in (one, two)]
    need(kept[0] is None and kept[1] is not None, f"the records have {kept}")
    moves(one, one, "-w", name=BY_HAND)
    kept = [member.record(MANUAL).until for member in (one, two)]
    need(kept[1] is None and kept[0] is not None, f"the records have {kept}")
    shown_everywhere = lambda: {m.shown(MANUAL) for m in cluster.members} == {one.address}
    need(wait_for(shown_everywhere, PATIENCE), "it is not listed at its owner")
    passed("a manual ticket is moved to the other site and back, and has one owner each time")
