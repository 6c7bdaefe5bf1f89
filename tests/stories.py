"""The base of the stories of tests/cluster.py: the requirements for a cluster, and how they are printed.

It is imported by the programs in tests/, and not run by itself.
"""

import os
import struct
import time

import frames
import record_file
from checks import need
from members import MANUAL, TICKET, Ran, now, wait_for

# how late an event may be, in seconds: on an idle machine, and on a busy one
SLACK, SLACK_LOADED = 0.5, 10
# how long a story waits for an event that must come, in seconds
PATIENCE = 30
NAME = TICKET.decode()
BY_HAND = MANUAL.decode()

stories = []


def story(function):
    """Adds a function to the list of stories. Its docstring describes its cluster."""
    stories.append(function)
    return function


def slack():
    """Returns how late an event may be on this machine now, in seconds."""
    return SLACK if os.getloadavg()[0] <= (os.cpu_count() or 1) else SLACK_LOADED


def passed(sentence):
    print(f"ok      {sentence}", flush=True)


def is_held_by(cluster, member):
    """Returns whether this member's record is in force and every running member lists it."""
    record = member.record()
    return record is not None and record.holds(now()) and cluster.shown_by_all() == member.address


def grants(cluster, place, seconds=PATIENCE):
    """Has a client request a grant from this member, again if it is busy. Then the member must hold the ticket."""
    member = cluster.members[place]
    result = wait_for(lambda: (answer := member.about("CGnt")) != "Busy" and answer, seconds)
    need(result in ("ok", "Asyn"), f"a grant is answered {result or 'Busy, or not at all'}")
    need(wait_for(lambda: is_held_by(cluster, member), seconds), "the granted ticket is not held")
    return member.record()


def left(ran, wanted):
    """Returns whether a run printed the wanted text, possibly followed by a line with a refusal's cause, as
    tests/causes.py has it.
    """
    more = ran.said[len(wanted.said) :]
    is_cause = bool(wanted.said) and more.endswith("\n") and more.count("\n") == 1
    return ran == wanted._replace(said=wanted.said + more) and (not more or is_cause)


def says(member, words, status, text):
    """Runs booth at this member, and checks its status and its text. Only one of the two streams may have text."""
    wanted = Ran(status, "", text) if status else Ran(status, text, "")
    ran = member.booth(*words)
    need(left(ran, wanted), f"booth {' '.join(words)} at {member.address} left {ran}, and not {wanted}")


def keeps(member, words, status, text, ticket=TICKET):
    """Runs geostore at this member, and checks its status and its text."""
    wanted = Ran(status, "", text) if status else Ran(status, text, "")
    ran = member.geostore(*words, ticket=ticket)
    need(left(ran, wanted), f"geostore {' '.join(words)} at {member.address} left {ran}, and not {wanted}")


def date(moment):
    return time.strftime("%Y-%m-%d %H:%M:%S", time.gmtime(moment))


def lists(cluster, owner):
    """Checks by booth that every running member lists this owner, with the end of the lease in the owner's record."""
    for member in cluster.members:
        if not member.is_running():
            continue
        before = owner and owner.record().until
        ran = member.booth("list")
        wanted = {f"ticket: {NAME}, leader: none\n"}
        if owner is not None:
            # (the lease may be renewed meanwhile, and a member that is not the holder counts whole seconds)
            moments = [end + more for end in (before, owner.record().until) for more in (-1, 0, 1)]
            wanted = {f"ticket: {NAME}, leader: {owner.address}, expires: {date(end)}\n" for end in moments}
        need(ran.status == 0 and ran.printed in wanted and not ran.said, f"{member.address} lists {ran}")


def lease_of(member):
    """Returns the lease in the record of this member."""
    with open(member.record_path(), "rb") as file:
        return record_file.in_force(record_file.slots_in(file.read(record_file.FILE_BYTES))).record.lease


def stands(cluster, owner):
    """Checks that every running member shows, for the only ticket, this owner and the remaining seconds of the lease in
    its record. Only the owner shows the term of that lease. Returns the term.
    """
    leases = []
    for member in cluster.members:
        if not member.is_running():
            continue
        leases = [lease_of(owner)] if owner else []
        asked = now()
        answer = member.ask("CTkt", frames.ticket_body(TICKET, frames.NO_ONE, 0, 0))
        need(answer and answer.result == "ok" and len(answer.body) == 76, f"{member.address} answers {answer}")
        told = struct.unpack(">3I", answer.body[64:])
        # (the lease may be renewed meanwhile, and a member that is not the holder counts whole seconds)
        leases += [lease_of(owner)] if owner else []
        terms = {lease.term for lease in leases} if member is owner else {0}
        lefts = [(lease.until / 1000 - now() - 1, lease.until / 1000 - asked + 2) for lease in leases]
        if owner:
            is_left = any(least <= told[2] <= most for least, most in lefts)
            is_so = is_left and told[0] == frames.member_id(owner.address) and told[1] in terms
        else:
            is_so = told == (frames.NO_ONE, 0, 0)
        need(is_so, f"{member.address} tells {told}, and the leases are {leases}")
    return leases[-1].term if leases else None


def counts_as(member):
    """Checks that the figures that booth prints about the members are the daemon's counters."""
    drops, others = member.counts()
    ran = member.booth("peers")
    first, *lines = ran.printed.splitlines()
    kinds = ("frame", "nomac", "badmac", "old", "stranger", "self", "ticket", "leader")
    need(first == "dropped: " + ", ".join(f"{kind} {n}" for kind, n in zip(kinds, drops)), first)
    for line, (address, (accepted, sent, errors)) in zip(lines, others.items()):
        role, other, *_ = line.split(" ")
        need(other.rstrip(",") == address and role in ("site", "arbitrator"), line)
        need(line.split(", last: ")[1].split(", received: ")[0] == "never" or accepted > 0, line)
        need(line.endswith(f", errors: {errors}"), line)
    need(len(lines) == len(others) and ran.status == 0 and not ran.said, f"booth peers left {ran}")


def abstains(cluster, started):
    """Returns the time from which each member votes, if it started before now and without a record."""
    time.sleep(max(0, started + cluster.times.abstention() + 0.05 - now()))
