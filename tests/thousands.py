#!/usr/bin/env python3
"""Checks three real boothd with 4,096 tickets: lists, grants, a restart and a takeover work as with one ticket.

Run it as `python3 tests/thousands.py [BOOTHD BOOTH BOOTH-FOLLOW [TICKETS]]`. By default the programs are those that
`make build` leaves. It takes some 40 seconds, mostly waiting for leases. It prints a line for each check, ends
all programs that it started, and has the status 1 if a check failed. If a program is not built it checks nothing, with
status 0.

A list of that many tickets has several parts. Some tickets of each part are granted, among them the first and the last
one. A service follows a ticket of the last part.
"""

import os
import sys
import time

HERE = os.path.dirname(os.path.abspath(__file__))
sys.path[:0] = [HERE, f"{HERE}/../tools"]

import frames
from checks import Wrong, need
from following import Services
from members import Cluster, Times, now, wait_for
from scratch import scratch
from serving import NotServing, built_program, end_by_signals, own_addresses
from stories import PATIENCE, passed
from tcp_links import Link

TICKETS = 4_096
# (a short lease, which is renewed early enough on a busy machine)
TIMES = Times(expire=12, timeout=1, retries=3, renewal=6)
# the number of tickets that are granted in each part
GRANTED_OF_A_PART = 4
# the limit for the peak memory of a member, in bytes: names of 20 bytes, and no prerequisites
MOST_MEMORY = 24_000_000


def names(count):
    """Returns names of 20 bytes."""
    return [b"ticket-%06d-site-a" % number for number in range(count)]


def peak_memory(process):
    """Returns the greatest memory of a process, in bytes."""
    with open(f"/proc/{process.pid}/status", encoding="ascii") as file:
        return next(int(line.split()[1]) * 1024 for line in file if line.startswith("VmHWM:"))


def parts_of_list(member):
    """Returns the names of the tickets in each part of the member's list, as a client over TCP gets them."""
    parts, is_last = [], False
    with Link(member.address) as link:
        number, request = link.request()
        link.socket.sendall(request)
        while not is_last:
            part = link.reply("CLst", number)
            head = frames.Head.read(part)
            need(head.options == len(parts), f"part {len(parts)} has the number {head.options}")
            parts.append([line.split(b" ")[0] for line in part[frames.HEAD_BYTES :].splitlines()])
            is_last = head.result == 0
    return parts


def some_of(parts):
    """Returns the first and the last ticket of each part, and some between them."""
    places = range(GRANTED_OF_A_PART)
    return [part[place * (len(part) - 1) // (GRANTED_OF_A_PART - 1)] for part in parts for place in places if part]


def line_of(ticket, holder):
    """Returns the possible lines of booth, one of which must be printed: a member that only heard of a lease counts
    whole seconds.
    """
    name = ticket.decode()
    record = holder and holder.record(ticket)
    if record is None or not record.holds(now()):
        return [f"ticket: {name}, leader: none"]
    dates = (time.strftime("%Y-%m-%d %H:%M:%S", time.gmtime(record.until + more)) for more in (-1, 0, 1))
    return [f"ticket: {name}, leader: {holder.address}, expires: {date}" for date in dates]


def lists_right(member, tickets, holder=None, held=()):
    """Returns whether booth prints one line of each ticket, in the file's order, each as the holder's records say."""
    held = set(held)
    before = {ticket: line_of(ticket, holder if ticket in held else None) for ticket in tickets}
    ran = member.booth("list")
    if ran.said.startswith("booth: no reply\n"):
        # (members exchange thousands of datagrams just after a start, so one of the list's may be lost)
        return False
    need((ran.status, ran.said) == (0, ""), f"booth list at {member.address}: {ran.status}, {ran.said!r}")
    lines = ran.printed.splitlines()
    need(len(lines) == len(tickets), f"booth list at {member.address} prints {len(lines)} of {len(tickets)} lines")
    # (a lease may be renewed meanwhile)
    pairs = ((line, ticket) for line, ticket in zip(lines, tickets) if line not in before[ticket])
    return all(line in line_of(ticket, holder if ticket in held else None) for line, ticket in pairs)


def all_list(cluster, tickets, holder=None, held=()):
    """Checks that every running member lists all tickets correctly, as soon as it has received their states."""
    for member in cluster.members:
        if member.is_running():
            is_right = wait_for(lambda member=member: lists_right(member, tickets, holder, held), PATIENCE)
            need(is_right, f"{member.address} does not list what is so")


def holds_all(member, tickets):
    moment = now()
    return all((record := member.record(ticket)) and record.holds(moment) for ticket in tickets)


def grant_all(member, tickets):
    """Grants each ticket, and repeats a grant if its members do not agree yet."""
    wanted = list(tickets)

    def is_done():
        for ticket in wanted:
            result = member.about("CGnt", ticket)
            need(result in ("ok", "Asyn", "Busy"), f"the grant of {ticket.decode()} is answered {result}")
        wait_for(lambda: holds_all(member, wanted), 2)
        wanted[:] = [ticket for ticket in wanted if not holds_all(member, [ticket])]
        return not wanted

    need(wait_for(is_done, 2 * PATIENCE), f"{len(wanted)} of {len(tickets)} tickets are not granted")


def restarts(cluster, member):
    """Ends a member as a crash does, and starts it again. Returns how long that takes."""
    member.kill()
    begun = now()
    member.start(cluster.program, cluster.conf)
    return now() - begun


def check_memory(peaks):
    """Checks the greatest memory of each member. (A program that `rt try` builds needs more, for its own checks.)"""
    shown = ", ".join(f"{peak / 1e6:.1f}" for peak in peaks)
    need(max(peaks) < MOST_MEMORY, f"{shown} MB of memory, and not below {MOST_MEMORY / 1e6:.0f}")
    passed(f"no member ever had more memory than {MOST_MEMORY / 1e6:.0f} MB ({shown} MB)")


def story(cluster, follower):
    tickets, begun = cluster.tickets, now()
    one, two, _ = cluster.members
    cluster.start()
    passed(f"three members start with {len(tickets):,} tickets ({now() - begun:.1f} s)")
    all_list(cluster, tickets)
    parts = parts_of_list(one)
    need([name for part in parts for name in part] == tickets, "the parts are not the list")
    need(len(tickets) < 1_000 or len(parts) > 1, "the list has one part")
    passed(f"each member lists all of them, in the file's order, in {len(parts)} parts")

    held = some_of(parts)
    with Services(follower, cluster, ticket=held[-1]) as services:
        for site in (one, two):
            services.follow(site)
        time.sleep(max(0, begun + TIMES.abstention() - now()))
        grant_all(one, held)
        all_list(cluster, tickets, one, held)
        passed(f"{len(held)} of them are granted, some of each part, and listed with their holder by all")
        is_up = services.await_up(one, PATIENCE)
        need(is_up, f"the service of one in the last part does not start: {services.said()}")
        took = restarts(cluster, two)
        all_list(cluster, tickets, one, held)
        need(holds_all(one, held), "a lease was lost")
        passed(f"a member that starts again lists them as before ({took:.1f} s to its first answer)")

        peaks = [peak_memory(one.server.process)]
        one.kill()
        ends = [one.record(ticket).until for ticket in held]
        is_taken = wait_for(lambda: holds_all(two, held), TIMES.expire + TIMES.guard() + 2 * PATIENCE)
        need(is_taken, "not all are taken over")
        taken = [two.record(ticket).until - TIMES.expire for ticket in held]
        early = min(at - end for at, end in zip(taken, ends))
        need(early > 0, f"a ticket was taken over {-early:.3f} s before its lease's end")
        all_list(cluster, tickets, two, held)
        passed(f"all are taken over after kill -9, the last one listed {now() - max(ends):.1f} s after its lease's end")
        need(services.await_up(two, PATIENCE), "the service does not start at the other site")
        need(not services.overlaps(), f"two services overlapped: {services.overlaps()}")
        passed("the service that follows a ticket of the last part runs at the other site, and never ran at both")
    check_memory(peaks + [peak_memory(member.server.process) for member in cluster.members[1:]])


def run(programs, count):
    """Runs the checks. Prints how many failed: the story ends at the first failure."""
    begun, failed = time.monotonic(), 0
    with scratch("booth-thousands-") as folder:
        tickets = names(count)
        made = Cluster(programs[0], folder, own_addresses(), times=TIMES, tickets=tickets, client=programs[1])
        try:
            with made as cluster:
                story(cluster, programs[2])
        except (Wrong, NotServing, OSError, ValueError) as why:
            print(f"FAILED  {type(why).__name__}: {why}", flush=True)
            failed = 1
    print(f"thousands: {failed} failed, in {time.monotonic() - begun:.1f} s ({programs[0]})")
    return failed


def main(words):
    end_by_signals()
    programs = words[:3] if len(words) > 2 else [built_program(name) for name in ("boothd", "booth", "booth-follow")]
    if None in programs:
        print("thousands: skipped, since boothd, booth or booth-follow is not built: run make build")
        return 0
    return run([os.path.abspath(program) for program in programs], int(words[3]) if len(words) > 3 else TICKETS)


if __name__ == "__main__":
    sys.exit(main(sys.argv[1:]))
