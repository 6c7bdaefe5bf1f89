#!/usr/bin/env python3
"""Checks that a cluster of three real boothd on loopback follows the lease rules: grants, renewals, failover.

Run it as `python3 tests/cluster.py [BOOTHD BOOTH GEOSTORE]`, by default those that `make build` leaves. It takes a
minute and a half, prints a line for each check, ends all that it started, and has the status 1 if a check failed.
If a program is not built it checks nothing, with status 0.

What an operator does is done by booth and geostore, at each member: their status and each text that they print or
say are held to what they must be. The stories of handlers and of tickets that are granted manually stand in
handler_stories.py, those of members that are killed and restarted in promise_stories.py, those of members that lose
their records in lost_stories.py, that of the log in log_stories.py, that of a file that changes in change_stories.py,
that of a ticket that is shown in show_stories.py, and those of moves in move_stories.py.

Who holds a ticket is judged from the record files and this machine's clock, hundred times a second over
the whole run, and never from what a daemon says of itself. Each daemon writes a journal, and if boothd has an
auditor that judges them behind each story.
"""

import contextlib
import functools
import io
import multiprocessing
import os
import shutil
import socket
import sys
import time

HERE = os.path.dirname(os.path.abspath(__file__))
sys.path[:0] = [HERE, f"{HERE}/../tools"]

import change_stories  # (its story comes into the list)
import key_stories  # (its stories are taken into the list)
import log_stories  # (its story comes into the list)
import lost_stories  # (its stories are taken into the list)
import move_stories  # (its stories are taken into the list)
import show_stories  # (its story comes into the list)
from auditing import AuditedCluster
from checks import need
from handler_stories import handler_in
from members import MANUAL, TICKET, Times, now, wait_for
from promise_stories import MANY
from scratch import scratch
from serving import built_program, end_by_signals, own_addresses
from stories import (
    NAME,
    PATIENCE,
    abstains,
    counts_as,
    grants,
    is_held_by,
    keeps,
    lists,
    passed,
    says,
    slack,
    stands,
    stories,
    story,
)

KEY, OTHER_KEY = b"a-key-of-the-cluster", b"another-key-than-that"
BADMAC = 2
# the number of stories that run at the same time
SIDE_BY_SIDE = 6
# the stories whose records the members did not write, and the fault that an audit must find in their journals
REFUSED = {"members_from_version_1": "record"}


@story
def two_sites_and_an_arbitrator(cluster):
    """a cluster of two sites and an arbitrator"""
    times = cluster.times
    one, two, _ = cluster.members
    cluster.start()
    started = now()
    says(one, ("grant", NAME), 0, f"grant of {NAME} requested\n")
    while now() < started + times.abstention() - 0.2:
        need(not any(r and r.until for r in map(type(one).record, cluster.members)), "a lease in that time")
        time.sleep(0.05)
    passed("nobody is granted the ticket before each member has abstained")

    abstains(cluster, started)
    # (the first grant must end before)
    record = grants(cluster, 0)
    need(now() < record.until <= now() + times.expire, f"a lease until {record.until}")
    passed("a grant is held, kept on disk, and listed by every member")
    lists(cluster, one)
    for member in cluster.members:
        counts_as(member)
    passed("booth lists the ticket, its owner and the lease's end, and the members, at each member")
    term = stands(cluster, one)
    passed("each member tells who holds the ticket, and the holder alone the term of its lease")
    says(one, ("grant", NAME), 0, f"ticket {NAME} granted\n")
    says(two, ("grant", NAME), 1, "booth: ticket is granted elsewhere\n")
    says(cluster.members[2], ("grant", NAME), 1, "booth: invalid argument\n")
    says(one, ("grant", "no-such-ticket"), 1, "booth: invalid argument\n")
    says(one, ("grant", "no ticket"), 1, "booth: bad ticket\n")
    passed("booth tells why a grant is refused")
    need(one.about("CGnt") == "ok", "a grant at the holder is not granted")
    need(two.about("CGnt") == "Over", "a grant elsewhere is not refused")
    need(two.about("CRvk") == "Redr", "a revocation elsewhere is not redirected")
    need(cluster.members[2].about("CGnt") == "IArg", "an arbitrator takes a grant")
    passed("a grant or a revocation at another member is refused, with the reason")

    until, end, renewals = record.until, now() + 3 * times.expire, 0
    while now() < end:
        record = one.record()
        need(record is not None and record.holds(now()), "the lease ended though its holder runs")
        renewals += record.until != until
        until = record.until
        time.sleep(0.02)
    need(renewals >= 3, f"{renewals} renewals in three leases")
    need(cluster.shown_by_all() == one.address, "a member lists another owner")
    passed("the holder renews its lease over three leases, without a gap")

    one.kill()
    until = one.record().until
    took_over = lambda: (two.record() or record).until != record.until and two.record().until
    need(wait_for(took_over, until - now() + PATIENCE), "nobody took over")
    taken, latest = now(), until + times.guard() + times.timeout + slack()
    need(until <= taken <= latest, f"taken over {taken - until:.3f} s after the lease's end")
    need(wait_for(lambda: cluster.shown_by_all() == two.address, PATIENCE), "the new owner is not listed")
    passed(f"another site takes over after the lease's end and within its failover time ({taken - until:.3f} s)")
    later = stands(cluster, two)
    need(later > term, f"the new owner tells the term {later}, and the old one told {term}")
    passed("the new owner tells a greater term than the old one did")

    one.start(cluster.program, cluster.conf)
    need(not one.record().holds(now()), "the killed member holds")
    need(wait_for(lambda: one.shown() == two.address, PATIENCE), "it hears of no owner")
    stands(cluster, two)
    passed("the killed member comes back, holds nothing, and hears who does")

    before = two.counts()[1]
    lists(cluster, two)
    says(one, ("revoke", NAME), 0, f"ticket {NAME} revoked\n")
    need(two.record().until is None, "the revoked lease is kept")
    passed("a revocation that is asked of another member is sent on to the holder, and answered once the lease is off the disk")
    need(wait_for(lambda: cluster.shown_by_all() is None and one.shown() is None, PATIENCE), "an owner is listed")
    lists(cluster, None)
    stands(cluster, None)
    says(two, ("revoke", NAME), 1, "booth: ticket is not granted\n")
    said = lambda: {address: counts[1] - before[address][1] for address, counts in two.counts()[1].items()}
    need(wait_for(lambda: min(said().values()) >= 3, PATIENCE), f"the revocation was said {said()} times")
    time.sleep(slack())
    after = two.counts()[1]
    time.sleep(2 * times.timeout)
    need(two.counts()[1] == after, "the revocation is said again and again")
    need(all(r.until is None or not r.holds(now()) for r in (one.record(), two.record())), "a lease is kept")
    passed("every member hears of it, and it is said twice more")


@story
def clients_that_wait(cluster):
    """a cluster in which one site runs alone at first"""
    one = cluster.members[0]
    cluster.remember()
    cluster.start(0)
    asked = now()
    says(one, ("grant", "-w", NAME), 1, "booth: failed\n")
    took = now() - asked
    due = cluster.times.timeout * (cluster.times.retries + 1)
    need(due - 0.5 < took < due + 2 * slack(), f"a grant without a majority failed after {took:.2f} s")
    passed("who waits for a grant is told where no majority answers")
    cluster.start(1, 2)
    says(one, ("grant", "-C", NAME), 0, f"ticket {NAME} granted\n")
    need(one.record().holds(now()), "who waits for the record is told before it is kept")
    lists(cluster, one)
    says(one, ("grant", "-w", NAME), 0, f"ticket {NAME} granted\n")
    passed("who waits for a grant is told once the ticket is held, with its record on the disk")


@story
def a_directory_that_is_gone(cluster):
    """a cluster in which the records of one site cannot be written"""
    one, two, _ = cluster.members
    cluster.remember()
    cluster.start()
    shutil.move(one.records, one.records + ".gone")
    says(one, ("grant", NAME), 1, "booth: failed\n")
    need(one.record() is None and one.is_running(), "the member keeps a record, or ended")
    passed("a grant whose record cannot be written is refused, and the daemon runs on")
    grants(cluster, 1)
    passed("another site is granted the ticket meanwhile")
    said = one.printed().decode()
    need(said == f"boothd: cannot keep the record of ticket {NAME}: {os.strerror(2)} (os error 2)\n", f"it said {said}")
    # (programs that still run at the end of a story must have printed nothing)
    one.kill()
    passed("and the first one said why, once")


@story
def a_member_with_another_key(cluster):
    """a cluster with a key, in which one member has another key"""
    one, two, arbitrator = cluster.members
    arbitrator.key = OTHER_KEY
    cluster.remember()
    one.start(cluster.program, cluster.conf)
    arbitrator.start(cluster.program, cluster.file("other.conf", OTHER_KEY))
    says(one, ("grant", NAME), 0, f"grant of {NAME} requested\n")
    right, one.conf = one.conf, arbitrator.conf
    why = "takes links over TCP, and does not answer: compare its key and its clock with those here"
    says(one, ("list",), 1, f"booth: no reply\nbooth: {one.address} {why}\n")
    one.conf = right
    says(one, ("list",), 0, f"ticket: {NAME}, leader: none\n")
    passed("booth asks with the key of its configuration, and with another it gets no answer")
    need(not wait_for(lambda: one.record().until, 2), "a member with another key gave its vote")
    passed("a member with another key never counts for a majority")
    need(one.counts()[0][BADMAC] > 0, "its frames are not counted as such")
    passed("its frames are dropped, and counted with their fault")


@story
def attributes_that_are_waited_for(cluster):
    """a cluster whose sites acquire a ticket if an attribute allows it, and are granted it unless another forbids it"""
    times = cluster.times
    one, two, arbitrator = cluster.members
    cluster.remember()
    cluster.start()
    keeps(one, ("list",), 0, "")
    keeps(one, ("get", "ready"), 1, "geostore: no such attribute\n")
    keeps(one, ("delete", "ready"), 1, "geostore: no such attribute\n")
    keeps(one, ("list",), 1, "geostore: invalid argument\n", ticket=b"no-such-ticket")
    keeps(arbitrator, ("list",), 1, "geostore: invalid argument\n")
    passed("no ticket has attributes at first, and an arbitrator has none ever")
    keeps(one, ("set", "maintenance", "yes"), 0, "")
    keeps(one, ("set", "place", "the first hall"), 0, "")
    keeps(one, ("get", "place"), 0, "the first hall\n")
    keeps(one, ("set", "maintenance", ""), 0, "")
    keeps(one, ("get", "maintenance"), 0, "\n")
    keeps(one, ("set", "maintenance", "yes"), 0, "")
    keeps(one, ("list",), 0, "maintenance yes\nplace the first hall\n")
    keeps(two, ("list",), 0, "")
    passed("geostore sets, replaces, tells and lists attributes, at the one site that it asks")
    keeps(two, ("set", "long", "v" * 128), 1, "geostore: bad value\n")
    keeps(two, ("set", "two words", "v"), 1, "geostore: bad name\n")
    for count in range(64):
        keeps(two, ("set", f"name-{count}", "v" * 127), 0, "")
    keeps(two, ("set", "one-more", ""), 1, "geostore: busy\n")
    keeps(two, ("list",), 0, "".join(f"name-{count} {'v' * 127}\n" for count in range(64)))
    for count in range(64):
        keeps(two, ("delete", f"name-{count}"), 0, "")
    keeps(two, ("list",), 0, "")
    passed("a ticket has up to 64 attributes of up to 127 bytes, which geostore takes away again")

    says(one, ("grant", "-w", NAME), 1, "booth: prerequisite not met\n")
    need(one.record() is None or one.record().until is None, "it holds though a prerequisite fails")
    keeps(one, ("delete", "maintenance"), 0, "")
    says(one, ("grant", "-w", NAME), 0, f"ticket {NAME} granted\n")
    passed("a grant is refused while a prerequisite of kind manual fails, and granted when it holds")

    until = one.record().until
    need(wait_for(lambda: one.record().until != until, 2 * times.renewal), "it is not renewed")
    passed("the holder renews, whether or not a prerequisite of kind auto holds there")
    one.kill()
    until = one.record().until
    # (long enough for the takeover and for two further looks)
    held_back = until + times.guard() + times.timeout + 2 * times.renewal
    while now() < held_back:
        record = two.record()
        need(record is None or not record.holds(now()), "it acquires though a prerequisite of kind auto fails")
        time.sleep(0.05)
    passed("the other site does not take over while a prerequisite of kind auto fails there")
    keeps(two, ("set", "ready", "yes"), 0, "")
    said = now()
    # (its election takes less than a timeout on one machine)
    need(wait_for(lambda: is_held_by(cluster, two), PATIENCE), "nobody took over")
    took = now() - said
    need(took < times.renewal + times.timeout + slack(), f"taken over after {took:.3f} s")
    passed(f"and takes over at its next look when it holds ({took:.3f} s)")
    two.kill()
    two.start(cluster.program, cluster.conf)
    keeps(two, ("list",), 0, "")
    passed("a restart forgets the attributes")


def has_ipv6():
    """Returns whether a program can listen at ::1 here."""
    try:
        with socket.socket(socket.AF_INET6, socket.SOCK_DGRAM) as listener:
            listener.bind(("::1", 0))
    except OSError:
        return False
    return True


@story
def a_site_by_ipv6(cluster):
    """a cluster of a site with an IPv6 address, and a site and an arbitrator with IPv4 addresses"""
    if not has_ipv6():
        wait_for(lambda: cluster.watch.looks, PATIENCE)
        passed("not checked, since this machine has no IPv6: members of both families")
        return
    one, two, _ = cluster.members
    cluster.remember()
    one.start(cluster.program, cluster.conf)
    says(one, ("list",), 0, f"ticket: {NAME}, leader: none\n")
    ran = one.booth("peers")
    need(ran.status == 0 and ran.printed.count("last: never, received: 0") == 2, f"booth peers left {ran}")
    cluster.start(1, 2)
    grants(cluster, 0)
    lists(cluster, one)
    for member in cluster.members:
        counts_as(member)
    passed("members by IPv4 grant the ticket to a site by IPv6, and each hears the others")
    one.kill()
    why = f"{one.address} refuses links over TCP too: does the daemon run there?"
    says(one, ("list",), 1, f"booth: no reply\nbooth: {why}\n")
    passed("booth asks by IPv6, and says where no daemon answers")
    need(wait_for(lambda: is_held_by(cluster, two), PATIENCE), "nobody took over")
    one.start(cluster.program, cluster.conf)
    need(wait_for(lambda: one.shown() == two.address, PATIENCE), "the site by IPv6 hears of no owner")
    says(one, ("revoke", NAME), 0, f"ticket {NAME} revoked\n")
    need(wait_for(lambda: cluster.shown_by_all() is None and one.shown() is None, PATIENCE), "an owner is listed")
    grants(cluster, 0)
    passed("a site by IPv4 takes over, and booth is sent on to it from the one by IPv6, which is granted the ticket again")


PREREQUISITES = """\
attr-prereq = "auto ready eq yes"
attr-prereq = "manual maintenance ne yes"
"""


def made(function, folder, program, client, geostore):
    """Returns the cluster that a story needs, by its name."""
    key = KEY if "key" in function.__name__ else None
    addresses = own_addresses()
    places = [next(addresses) for _ in range(3)]
    manual = (MANUAL,) if "manual" in function.__name__ else ()
    if "ipv6" in function.__name__:
        places[0] = "::1"
    settings = PREREQUISITES if "attributes" in function.__name__ else ""
    settings += handler_in(folder) if "handler" in function.__name__ else ""
    by_hand = Times().text() + handler_in(folder) if "asks" in function.__name__ else ""
    more = {"key": key, "client": client, "geostore": geostore, "settings": settings}
    more.update(manual=manual, by_hand=by_hand)
    more.update(tickets=(TICKET, *MANY) if "many" in function.__name__ else (TICKET,))
    return AuditedCluster(program, folder, places, **more)


def tell(function, cluster):
    """Runs a story, and prints its lines."""
    function(cluster)
    wrong = cluster.watch.wrong
    need(not wrong, f"two held at one moment: {wrong[:3]}")
    need(cluster.watch.is_looking(), f"nobody looked on after {cluster.watch.looks} looks")
    printed = [member.printed() for member in cluster.members]
    need(not any(printed), f"a daemon printed {printed}")
    passed(f"no two held at one moment of {cluster.watch.looks} ({function.__doc__})")


def outcome(place, programs):
    """Returns whether the story at this place of the list passes in its own cluster, and the lines that it printed."""
    function, printed, passes = stories[place], io.StringIO(), False
    with contextlib.redirect_stdout(printed), scratch("booth-cluster-") as folder:
        try:
            with made(function, folder, *programs) as cluster:
                tell(function, cluster)
            passed(f"{cluster.judged(REFUSED.get(function.__name__))} ({function.__doc__})")
            passes = True
        except Exception as why:  # (whatever it is, the other stories are told)
            print(f"FAILED  {function.__doc__}: {type(why).__name__}: {why}")
    return passes, printed.getvalue()


def run(*programs):
    """Runs the stories, some at the same time, since most of their time is waiting. Prints how many failed."""
    failed, started = 0, time.monotonic()
    # (each process has addresses of its own, and at its end ends what it started)
    with multiprocessing.get_context("fork").Pool(SIDE_BY_SIDE) as pool:
        call = functools.partial(outcome, programs=programs)
        for passes, printed in pool.imap_unordered(call, range(len(stories))):
            print(printed, end="", flush=True)
            failed += not passes
        # (each process ends by itself; one that is ended by a signal while it waits for work may never end)
        pool.close()
        pool.join()
    took = time.monotonic() - started
    print(f"cluster: {len(stories) - failed} passed, {failed} failed, in {took:.1f} s ({programs[0]})")
    return failed


def main(words):
    end_by_signals()
    programs = words if len(words) == 3 else [built_program(name) for name in ("boothd", "booth", "geostore")]
    if None in programs:
        print("cluster: skipped, since boothd, booth or geostore is not built: run make build")
        return 0
    for program in programs:
        if not os.access(program, os.X_OK):
            sys.exit(f"cluster.py: cannot run {program}")
    return 1 if run(*map(os.path.abspath, programs)) else 0


if __name__ == "__main__":
    sys.exit(main(sys.argv[1:]))
