"""Clusters whose members are killed and restarted: they continue from the promises in their records.

It is imported by tests/cluster.py, and not run by itself. What version 1 left is written here, byte by byte from
docs/RECORDS.md.
"""

import os
import random
import time

import record_file
from checks import need
from members import TICKET, now, path_in, wait_for
from records import slot
from stories import NAME, PATIENCE, grants, is_held_by, passed, says, slack, story

# the tickets next to the one that is asked for again and again
MANY = tuple(b"ticket-%02d" % number for number in range(24))
ASKED = TICKET
SECONDS_OF_KILLS = 12
# how long an election lasts until it fails, in seconds
SECONDS_OF_A_GRANT = 5
# the longest time of a vote here, in seconds; a kill may come at any time in it
LONGEST_VOTE = 0.02
SEED = 9929
# a file that takes no writes, like a full disk
FULL = "/dev/full"


def record_in_force(member, ticket=TICKET):
    """Returns the whole record in the member's file, or None."""
    try:
        with open(member.record_path(ticket), "rb") as file:
            found = record_file.in_force(record_file.slots_in(file.read(record_file.FILE_BYTES)))
    except OSError:
        return None
    return found and found.record


def restart(cluster, member):
    member.kill()
    member.start(cluster.program, cluster.conf)


def lost_by(member, tickets):
    """Returns the tickets that a member does not hold now, by its records."""
    records = {ticket: member.record(ticket) for ticket in tickets}
    moment = now()
    return [ticket.decode() for ticket, record in records.items() if record is None or not record.holds(moment)]


def holds_until(member, ended, seconds):
    """Checks that the member holds the ticket until the function is true, which must happen within this many seconds.
    """
    end = time.monotonic() + seconds
    while not ended():
        need(not lost_by(member, [TICKET]), f"the lease ended: {member.record()} at {now()}")
        need(time.monotonic() < end, f"not so after {seconds} s")
        time.sleep(0.01)


@story
def many_tickets_and_kills(cluster):
    """a cluster whose voters are killed one after another, at any moment of a vote, while a site holds many tickets"""
    one, *voters = cluster.members
    cluster.remember()
    cluster.start()
    for ticket in MANY:
        need(one.about("CGnt", ticket) in ("ok", "Asyn"), f"no grant of {ticket.decode()} is taken")
    need(wait_for(lambda: not lost_by(one, MANY), PATIENCE), f"not held: {lost_by(one, MANY)}")
    first, terms = {ticket: one.record(ticket) for ticket in MANY}, set()
    chance, end, kills, granted = random.Random(SEED), now() + SECONDS_OF_KILLS, 0, 0
    while now() < end:
        victim = voters[kills % 2]
        asked = one.about("CGnt", ASKED)
        time.sleep(chance.uniform(0, LONGEST_VOTE))
        restart(cluster, victim)
        kills += 1
        need(not lost_by(one, MANY), f"lost after {kills} kills: {lost_by(one, MANY)}")
        twice = [ticket for ticket in MANY if not lost_by(voters[0], [ticket])]
        need(not twice, f"held at two sites: {twice}")
        if asked in ("ok", "Asyn") and wait_for(lambda: not lost_by(one, [ASKED]), SECONDS_OF_A_GRANT):
            granted += 1
            term = one.record(ASKED).term
            need(term not in terms, f"term {term} was gained twice")
            terms.add(term)
            need(one.about("CRvk", ASKED) == "ok", "it is not given back")
    renewed = sum(one.record(ticket).until > record.until for ticket, record in first.items())
    need(renewed == len(MANY), f"{renewed} of {len(MANY)} tickets were renewed")
    need(all(one.record(ticket).term == record.term for ticket, record in first.items()), "a ticket was lost")
    need(granted > kills / 2, f"of {kills} grants meanwhile {granted} were held")
    passed(f"{kills} kills of a voter cost none of {len(MANY)} leases, and {granted} elections are won meanwhile")


@story
def a_restart_of_all(cluster):
    """a cluster in which all members are killed and restarted at once"""
    times, one = cluster.times, cluster.members[0]
    cluster.remember()
    cluster.start()
    until, down = grants(cluster, 0).until, now()
    for member in cluster.members:
        member.kill()
    cluster.start()
    took = now() - down
    need(took < 1 + slack(), f"the restart took {took:.2f} s")
    up = now()
    holds_until(one, lambda: one.record().until > until, times.timeout + slack())
    renewed = now() - up
    need(renewed < times.expire / 2 + slack(), f"renewed after {renewed:.2f} s")
    need(wait_for(lambda: is_held_by(cluster, one), PATIENCE), "the others list another")
    passed(f"all members restart within {took:.2f} s; the ticket stays held, and is renewed {renewed:.2f} s later")
    others_start_anew(cluster)
    all_start_anew_and_nobody_holds(cluster)


def others_start_anew(cluster):
    """Restarts the other members while the holder's lease lasts, and does not restart the holder: then the second site
    holds.
    """
    one, two, arbitrator = cluster.members
    one.kill()
    until = one.record().until
    for member in (two, arbitrator):
        restart(cluster, member)
    need(two.about("CGnt") in ("ok", "Asyn", "Busy", "Over"), "a grant is not answered")
    while now() < until:
        need(two.record() is None or two.record().until is None, "another holds, before the lease's end")
        time.sleep(0.02)
    need(wait_for(lambda: two.about("CGnt") == "ok", PATIENCE), "nobody is granted the ticket after the lease's end")
    need(now() >= until and two.record().holds(now()), "the grant is not kept")
    passed("if the holder stays away, restarted members elect nobody until its lease is over, and then another site")


def all_start_anew_and_nobody_holds(cluster):
    """Has the second site release the ticket, restarts all members, and grants it to this site again."""
    one, two, _ = cluster.members
    says(two, ("revoke", NAME), 0, f"ticket {NAME} revoked\n")
    for member in cluster.members:
        member.kill()
    cluster.start()
    asked = now()
    # (the others promised the ticket to this site last, and vote for no other site until that promise ends)
    says(two, ("grant", "-w", NAME), 0, f"ticket {NAME} granted\n")
    took = now() - asked
    need(took < cluster.times.expire / 2 + slack(), f"granted after {took:.2f} s")
    passed(f"if nobody holds the ticket, a grant after a restart of all members succeeds at once ({took:.2f} s)")


def as_version_1(member, term, lease, ticket=TICKET):
    """Makes the member's directory as version 1 leaves it: a record with this term and lease, or no file."""
    os.remove(path_in(member.records, ticket))
    if term is None:
        return
    content = bytearray(slot(7, 1, term))
    if lease is not None:
        content[24:28] = (1).to_bytes(4, "big")
        content[28:32], content[32:40] = lease.term.to_bytes(4, "big"), lease.until.to_bytes(8, "big")
    with open(path_in(member.records, ticket), "wb") as file:
        file.write(content)


def voter_comes_from_version_1(cluster, member, term):
    """Restarts a member that holds nothing: it abstains for a promise's time while the first site holds. Then it votes
    and writes its promises.
    """
    one, abstention = cluster.members[0], cluster.times.abstention()
    member.kill()
    as_version_1(member, term, None)
    earliest = now()
    member.start(cluster.program, cluster.conf)
    started = now()

    def answers():
        found, moment = record_in_force(member), now()
        is_of_2 = found is not None and found.version == 2
        need(not is_of_2 or moment > earliest + abstention, f"{member.address} keeps {found} while it abstains")
        return is_of_2

    holds_until(one, answers, abstention + 2 * cluster.times.renewal + PATIENCE)
    found = record_in_force(member)
    need(found.promise and found.promise.until / 1000 > now(), f"it answers, and keeps {found}")
    need(earliest - 0.01 <= found.abstain / 1000 - abstention <= started + 0.01, f"it keeps {found}")


@story
def members_from_version_1(cluster):
    """a cluster whose members are upgraded from version 1 one after the other while a ticket is held"""
    times = cluster.times
    one, two, arbitrator = cluster.members
    cluster.remember()
    cluster.start()
    grants(cluster, 0)
    # (version 1 stored none of its votes)
    voter_comes_from_version_1(cluster, arbitrator, None)
    voter_comes_from_version_1(cluster, two, record_in_force(one).term)
    passed("the arbitrator and a site come from version 1 and abstain for one promise; the holder renews meanwhile")
    for version in (1, 2):
        one.kill()
        kept, down = record_in_force(one), now()
        if version == 1:
            as_version_1(one, kept.term, kept.lease)
        one.start(cluster.program, cluster.conf)
        later = lambda kept=kept: (found := record_in_force(one)).version == 2 and found.lease.until > kept.lease.until
        holds_until(one, later, times.timeout + slack())
        found = record_in_force(one)
        # (a member that starts has no round in its term, so it uses the next term)
        need(found.term == kept.term + 1, f"{kept} became {found}")
    passed(f"the holder does so too, by the votes of the others, and its next start continues ({now() - down:.2f} s)")
    until = record_in_force(one).lease.until
    holds_until(one, lambda: record_in_force(one).lease.until > until, times.renewal + times.timeout + slack())
    need(wait_for(lambda: is_held_by(cluster, one), PATIENCE), "the others list another")
    passed("the ticket stays held, with all members of version 2")


@story
def a_full_disk_of_a_voter(cluster):
    """a cluster of a site and an arbitrator, whose disk is full for a while; the other site is away"""
    times = cluster.times
    one, _, arbitrator = cluster.members
    cluster.remember()
    cluster.start(0, 2)
    need(one.about("CGnt") in ("ok", "Asyn"), "no grant is taken")
    need(wait_for(lambda: not lost_by(one, [TICKET]), PATIENCE), "the granted ticket is not held")
    path, aside = arbitrator.record_path(), arbitrator.record_path() + ".aside"
    os.rename(path, aside)
    os.symlink(FULL, path)
    until, before = one.record().until, arbitrator.counts()[1][one.address]
    need(wait_for(lambda: now() > until, times.expire + PATIENCE), "the lease has no end")
    need(not one.record().holds(now()), "it was renewed by the answer of a member that kept nothing")
    need(wait_for(lambda: one.shown() is None, PATIENCE), "a lease that is over is listed")
    after = arbitrator.counts()[1][one.address]
    need(after[0] > before[0] and after[1] == before[1], f"it heard and said {before}, and then {after}")
    passed("an arbitrator that cannot write its promise gives no vote: it counts the message, and sends nothing")
    os.remove(path)
    os.rename(aside, path)
    need(wait_for(lambda: one.about("CGnt") == "ok", PATIENCE), "it votes no more though there is room")
    said = arbitrator.printed().decode().splitlines()
    fails, again = f"boothd: cannot keep the record of ticket {NAME}: ", f"boothd: the record of ticket {NAME} is kept again"
    need(len(said) == 2 and said[0].startswith(fails) and said[1] == again, f"it said {said}")
    # (programs that still run at the end of a story must have printed nothing)
    restart(cluster, arbitrator)
    passed("it logs this once; when there is room again, it votes, and logs that too")
