"""Clusters in which a member loses its records: an arbitrator starts without any, a site from silent ones.

It is imported by tests/cluster.py, and not run by itself. The steps are those of docs/RECORDS.md, "A disk is replaced".
"""

import os
import shutil
import subprocess
import sys
import time

import record_file
from checks import need
from members import TICKET, Cluster, Member, now, path_in, wait_for
from promise_stories import MANY, lost_by, record_in_force
from stories import PATIENCE, grants, passed, slack, story

TOP = os.path.dirname(os.path.dirname(os.path.abspath(__file__)))
SECONDS_OF_A_RUN = 60
ALL = (TICKET, *MANY)


def holds_many(cluster: Cluster) -> None:
    """Has the first site acquire all tickets except one."""
    one = cluster.members[0]
    for ticket in MANY:
        need(one.about("CGnt", ticket) in ("ok", "Asyn"), f"no grant of {ticket.decode()} is taken")
    need(wait_for(lambda: not lost_by(one, MANY), PATIENCE), f"not held: {lost_by(one, MANY)}")


def loses_its_disk(member: Member) -> None:
    """Ends the daemon, and removes all files that it wrote."""
    member.kill()
    shutil.rmtree(member.records)


def is_held_by_one(cluster: Cluster) -> None:
    """Checks that no ticket is held at both sites."""
    one, two, _ = cluster.members
    held = [set(ALL) - {ticket.encode() for ticket in lost_by(site, ALL)} for site in (one, two)]
    need(not held[0] & held[1], f"held at two sites: {held[0] & held[1]}")


@story
def many_tickets_and_an_arbitrator_without_records(cluster: Cluster) -> None:
    """a cluster whose arbitrator loses its disk and starts without records, while a site holds many tickets"""
    one, two, arbitrator = cluster.members
    cluster.remember()
    cluster.start()
    holds_many(cluster)
    loses_its_disk(arbitrator)
    arbitrator.start(cluster.program, cluster.conf)
    silent_until = now() + cluster.times.abstention()
    while now() < silent_until - slack() / 2:
        need(not lost_by(one, MANY), f"lost while the arbitrator is silent: {lost_by(one, MANY)}")
        kept = [ticket for ticket in ALL if record_in_force(arbitrator, ticket) is not None]
        need(not kept or now() >= silent_until, f"the arbitrator answers within its silence: {kept}")
        time.sleep(0.05)
    passed(f"an arbitrator without records answers nobody for a promise, and {len(MANY)} tickets are held meanwhile")
    answers = lambda: all(record_in_force(arbitrator, ticket) is not None for ticket in MANY)
    need(wait_for(answers, cluster.times.renewal + PATIENCE), "it does not answer after its silence")
    two.kill()
    until = max(one.record(ticket).until for ticket in MANY)
    while now() < until + cluster.times.expire:
        need(not lost_by(one, MANY), f"lost though the arbitrator answers: {lost_by(one, MANY)}")
        time.sleep(0.05)
    grants(cluster, 0)
    passed("after its silence its votes alone are enough to renew the tickets, and another ticket is granted")


def silence(cluster: Cluster, member: Member, ticket: bytes) -> int:
    """Writes the silent record of a ticket as an operator does, and returns its term."""
    places = os.pathsep.join([os.path.dirname(cluster.client), os.environ.get("PATH", "")])
    words = [sys.executable, "-IS", f"{TOP}/packaging/booth-record", "silence", "-c", cluster.conf]
    done = subprocess.run(
        [*words, ticket.decode(), member.records],
        capture_output=True,
        env={**os.environ, "PATH": places},
        timeout=SECONDS_OF_A_RUN,
        check=False,
    )
    said = done.stdout.decode() + done.stderr.decode()
    need(done.returncode == 0, f"booth-record silence: {said}")
    # (this member does not run)
    need(f"cannot ask {member.address}: " in said, said)
    with open(path_in(member.records, ticket), "rb") as file:
        found = record_file.in_force(record_file.slots_in(file.read(record_file.FILE_BYTES)))
    need(found is not None and found.record.version == 1 and found.record.lease is None, f"it wrote {found}")
    return int(found.record.term)


@story
def many_tickets_and_a_site_with_silent_records(cluster: Cluster) -> None:
    """a cluster in which the site that holds many tickets loses its disk, and starts from silent records"""
    one, two, _ = cluster.members
    cluster.remember()
    cluster.start()
    holds_many(cluster)
    before = {ticket: one.record(ticket).term for ticket in MANY}
    loses_its_disk(one)
    need(wait_for(lambda: not lost_by(two, MANY), cluster.times.expire + PATIENCE), "the other site takes not over")
    os.makedirs(one.records, mode=0o700)
    asked, terms = int(now()), {ticket: silence(cluster, one, ticket) for ticket in ALL}
    need(all(term >= max(asked, before.get(ticket, 0)) for ticket, term in terms.items()), f"the terms are {terms}")
    one.start(cluster.program, cluster.conf)
    silent_until = now() + cluster.times.abstention()
    while now() < silent_until - slack() / 2:
        is_held_by_one(cluster)
        need(not lost_by(two, MANY), f"lost while a site is silent: {lost_by(two, MANY)}")
        time.sleep(0.05)
    passed("a site starts from silent records, and the other one holds its tickets meanwhile")
    time.sleep(max(0.0, silent_until - now()))
    record = grants(cluster, 0)
    need(record.term > terms[TICKET], f"the term {record.term} is not above {terms[TICKET]}")
    passed("after its silence it is granted a ticket, in a greater term than its record's")
    two.kill()
    takes_over = lambda: is_held_by_one(cluster) or not lost_by(one, MANY)
    need(wait_for(takes_over, cluster.times.expire + PATIENCE), f"not taken over: {lost_by(one, MANY)}")
    need(all(one.record(ticket).term > terms[ticket] for ticket in MANY), "a term is not above the silent record's")
    passed("and it takes over what the other site held, each ticket in a greater term")
