"""The log lines of daemons about a grant, a takeover, a refused handler and a failed write.

It is imported by tests/cluster.py, and not run by itself. The lines are those of man/boothd.8, "LOG".
"""

import os

from checks import need
from frames import PORT
from handler_stories import Handler
from members import now, wait_for
from promise_stories import FULL
from stories import NAME, PATIENCE, date, grants, is_held_by, passed, says, story

VERSION = "0.2.0"


def begins(cluster, member):
    places = f"records {member.records}, configuration {cluster.conf}"
    return f"boothd: begins: version {VERSION}, address {member.address}, port {PORT}, {places}"


def lease(verb, record):
    """Returns the log line about the lease of this record."""
    return f"boothd: ticket {NAME}: {verb} the lease of term {record.term} until {date(int(record.until))} UTC"


def told_by(member, count):
    """Returns the lines that a member has logged, once there are this many."""
    wait_for(lambda: member.printed().count(b"\n") >= count, PATIENCE)
    return member.printed().decode().splitlines()


def tells(member, lines):
    """Checks that the whole log of a member has these lines."""
    told = told_by(member, len(lines))
    need(told == lines, f"{member.address} told {told}, and not {lines}")


def last_lease(member):
    """Returns the last record with a lease that a member writes before a record without one."""
    last = member.record()
    end = now() + PATIENCE
    while (record := member.record()).until is not None:
        need(now() < end, "the lease is not given back")
        last = record
    return last


@story
def a_log_with_a_handler(cluster):
    """daemons with a log, and a ticket with a handler"""
    one, two, _ = cluster.members
    ready = "boothd: ready, tickets: 1"
    for member in cluster.members:
        member.logs = True
    cluster.remember()
    cluster.start()
    says(one, ("grant", "-w", NAME), 0, f"ticket {NAME} granted\n")
    granted = one.record()
    tells(one, [begins(cluster, one), ready, lease("gains", granted)])
    tells(two, [begins(cluster, two), ready])
    passed("only the granted site logs a grant: the ticket, the term and the lease's end")

    one.kill()
    need(wait_for(lambda: is_held_by(cluster, two), PATIENCE), "nobody took over")
    taken, left = two.record(), one.record()
    tells(two, [begins(cluster, two), ready, lease("gains", taken)])
    one.start(cluster.program, cluster.conf)
    tells(one, [begins(cluster, one), lease("begins with", left), ready])
    passed("the same holds for a takeover; and a start logs which lease it found")

    Handler(cluster, two).set("fails")
    given = last_lease(two)
    status = f"boothd: ticket {NAME}: its handler ended with status 3"
    tells(two, [begins(cluster, two), ready, lease("gains", taken), status, lease("gives back", given)])
    passed("a refusal of the handler and the release of the lease are logged, and no renewal is")

    again = grants(cluster, 0)
    tells(one, [begins(cluster, one), lease("begins with", left), ready, lease("gains", again)])
    path, aside = one.record_path(), one.record_path() + ".aside"
    os.rename(path, aside)
    os.symlink(FULL, path)
    says(one, ("revoke", NAME), 1, "booth: failed\n")
    os.remove(path)
    os.rename(aside, path)
    failed = f"boothd: cannot keep the record of ticket {NAME}: it is no regular file"
    found = told_by(one, 6)[4:]
    need(found == [failed, lease("fails to give back", one.record())], f"{one.address} told {found}")
    passed("if the record could not be written, the log says that the lease may not be released")
    # (programs that still run at the end of a story must have printed nothing)
    for member in cluster.members:
        member.kill()
