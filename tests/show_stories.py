"""A cluster in which `booth show` prints a ticket and the term of its lease, through a takeover.

It is imported by tests/cluster.py, and not run by itself.
"""

import json
import math

import record_file
from checks import need
from members import now, wait_for
from stories import NAME, PATIENCE, grants, is_held_by, passed, says, story

ABSENT = {"ticket": NAME, "holder": None, "term": None, "seconds_left": None}


def kept_term(member):
    """Returns the term of the lease in the record of this member."""
    with open(member.record_path(), "rb") as file:
        slot = record_file.in_force(record_file.slots_in(file.read(record_file.FILE_BYTES)))
    return slot.record.lease.term


def shown_by(member):
    """Asks this member about the ticket. Returns the answer, which is a JSON object on one line."""
    ran = member.booth("show", "-j", "-t", NAME)
    need(ran.status == 0 and ran.printed.count("\n") == 1 and not ran.said, f"booth show left {ran}")
    return json.loads(ran.printed)


def line_of(shown):
    """Returns the line that is printed for a ticket without -j."""
    term = "" if shown["term"] is None else f", term: {shown['term']}"
    seconds = "" if shown["seconds_left"] is None else f", seconds left: {shown['seconds_left']}"
    return f"ticket: {NAME}, holder: {shown['holder'] or 'none'}{term}{seconds}\n"


def shows(cluster, holder):
    """Checks that each running member shows this holder, and that only the holder shows a term, that of its record."""
    term = kept_term(holder)
    for member in (member for member in cluster.members if member.is_running()):
        before = shown_by(member)
        ran, most = member.booth("show", NAME), math.ceil(cluster.times.expire)
        lines = [line_of({**before, "seconds_left": seconds}) for seconds in range(1, most + 1)]
        need(ran.status == 0 and ran.printed in lines, f"booth show left {ran}, and before {before}")
        wanted = {"ticket": NAME, "holder": holder.address, "term": term if member is holder else None}
        told = {name: value for name, value in before.items() if name != "seconds_left"}
        need(told == wanted and 1 <= before["seconds_left"] <= most, f"{member.address} shows {before}")
    return term


@story
def a_ticket_is_shown_with_its_term(cluster):
    """a cluster whose ticket is shown with the term of its lease, before and after a takeover"""
    one, two, third = cluster.members
    cluster.remember()
    cluster.start()
    for member in cluster.members:
        need(shown_by(member) == ABSENT, f"{member.address} shows {shown_by(member)}")
        says(member, ("status",), 0, "booth daemon is running\n")
    says(third, ("show", "no-such-ticket"), 1, "booth: invalid argument\n")
    passed("a ticket that nobody holds is shown without a holder, and each daemon is running")
    grants(cluster, 0)
    need(wait_for(lambda: third.shown() == one.address, PATIENCE), "the arbitrator hears of no owner")
    first = shows(cluster, one)
    passed(f"the holder shows the term of its lease, {first}, and the others show the holder")
    one.kill()
    ran = one.booth("status")
    need((ran.status, ran.printed) == (7, "booth daemon is not running\n"), f"booth status left {ran}")
    began = now()
    need(wait_for(lambda: is_held_by(cluster, two), cluster.times.expire + PATIENCE), "nobody took over")
    need(wait_for(lambda: third.shown() == two.address, PATIENCE), "the arbitrator hears of no new owner")
    second = shows(cluster, two)
    need(second > first, f"the terms {first} and then {second}")
    passed(f"the site that takes over after {now() - began:.1f} s shows a greater term, {second}")
