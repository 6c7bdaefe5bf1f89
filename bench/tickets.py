#!/usr/bin/env python3
"""Measures a cluster of three proved boothd on loopback: grants, renewals, idle time, takeovers.

Run it as `python3 bench/tickets.py [PROGRAM]`. PROGRAM is a boothd, by default the one that `make build` leaves. It
prints one table in two minutes. Its status is 1 if a mark is missed by more than a tenth. All members run on this
machine, and write to its disk.
"""

import itertools
import os
import socket
import statistics
import sys
import tempfile
import time

HERE = os.path.dirname(os.path.abspath(__file__))
sys.path[:0] = [HERE, f"{HERE}/../tools"]

import frames
from members import TICKET, Cluster, Times, now, wait_for
from rows import Row, below, told
from run import cpu_seconds, require, status_field
from serving import NotServing, built_program, end_by_signals, own_addresses

MANY = tuple(b"ticket-%02d" % number for number in range(64))
TRIES = 20
SECONDS = 20
LISTS = 2_000
DROPPED = 20_000

ADDRESSES = own_addresses()


def cluster(program, folder, **settings):
    """Returns a cluster of three members at free addresses."""
    addresses = list(itertools.islice(ADDRESSES, 3))
    return Cluster(program, folder, addresses, **settings)


def started(cluster):
    """Starts a cluster whose members vote from their start on, and returns its first member."""
    cluster.remember()
    cluster.start()
    return cluster.members[0]


def held(member, tickets):
    """Returns whether a member holds each of these tickets by its records."""
    records = (member.record(ticket) for ticket in tickets)
    return all(record is not None and record.holds(now()) for record in records)


def grant_rows(program, folder):
    """Measures a grant from the request to its reply, and to the record on disk. The ticket is revoked after each."""
    replies, records = [], []
    with cluster(program, folder) as made:
        one = started(made)
        for _ in range(TRIES):
            before = time.perf_counter()
            require(one.about("CGnt") == "Asyn", "the site began no election after a grant")
            replies.append(time.perf_counter() - before)
            require(wait_for(lambda: held(one, [TICKET]), 1), "the site did not get the granted ticket")
            records.append(time.perf_counter() - before)
            require(one.about("CRvk") == "ok", "a ticket is not revoked")
    for name, took in (("reply", replies), ("written record", records)):
        millis = statistics.median(took) * 1e3
        yield Row(f"from grant to {name}, three members", f"{millis:.1f} ms (lowest: {min(took) * 1e3:.1f} ms)")


def idle_seconds(member, seconds):
    """Returns the CPU time of a member in `seconds` seconds without a request, in seconds."""
    before = cpu_seconds(member.server.process)
    time.sleep(seconds)
    return cpu_seconds(member.server.process) - before


def dropped_micros(member):
    """Returns the CPU time of a turn that only drops a datagram, in microseconds."""
    with socket.socket(socket.AF_INET, socket.SOCK_DGRAM) as sender:
        sender.connect((member.address, frames.PORT))
        before = cpu_seconds(member.server.process)
        for number in range(DROPPED):
            sender.send(b"")
            if number % 100 == 99:
                member.ask("CLst")
        return (cpu_seconds(member.server.process) - before) / DROPPED * 1e6


def list_micros(member):
    """Returns the CPU time of a list request, in microseconds."""
    before = cpu_seconds(member.server.process)
    for _ in range(LISTS):
        require(member.ask("CLst"), "the daemon did not answer a request for the list")
    return (cpu_seconds(member.server.process) - before) / LISTS * 1e6


def held_rows(program, folder):
    """Measures 64 tickets that one member holds, and a single ticket."""
    turns = {}
    for count, tickets in ((1, MANY[:1]), (64, MANY)):
        times = Times(expire=20, timeout=2, retries=3, renewal=10)
        with cluster(program, f"{folder}/{count}", tickets=tickets, times=times) as made:
            one = started(made)
            for ticket in tickets:
                require(one.about("CGnt", ticket) in ("Asyn", "ok"), "the site began no election after a grant")
            require(wait_for(lambda: held(one, tickets), 5), "a ticket is not held")
            turns[count] = dropped_micros(one)
            if count == 1:
                continue
            yield Row("daemon CPU time per list request, 64 tickets held", f"{list_micros(one):.1f} µs")
            before = [one.record(ticket).until for ticket in tickets]
            cpu = idle_seconds(one, SECONDS)
            after = [one.record(ticket).until for ticket in tickets]
            renewals = sum(late != early for early, late in zip(before, after))
            require(renewals == len(tickets), f"{renewals} of 64 leases were renewed")
            rounds = SECONDS // times.renewal * len(tickets)
            yield Row("holder's CPU time per renewal, 64 tickets held", f"{cpu / rounds * 1e6:.0f} µs")
            yield Row("holder's CPU time per second, 64 tickets held", f"{cpu / SECONDS * 1e3:.2f} ms")
            peak = status_field(one.server.process, "VmHWM")
            yield Row("peak memory, 64 tickets held", f"{peak:,} kB", "below 4 MB", peak * 1024 / 4e6)
    ratio = turns[64] / turns[1]
    shown = f"{ratio:.2f} ({turns[1]:.1f} µs and {turns[64]:.1f} µs)"
    yield below("ratio of a turn with nothing due, 64 tickets to 1", ratio, shown, 1.2, "")


def takeover_rows(program, folder):
    """Measures the time from the last renewal of a killed holder to the record of the next holder."""
    times = Times(expire=10, timeout=1, retries=3, renewal=5)
    with cluster(program, folder, times=times) as made:
        one = started(made)
        two = made.members[1]
        require(one.about("CGnt") == "Asyn", "the site began no election after a grant")
        require(wait_for(lambda: held(one, [TICKET]), 2), "the site did not get the granted ticket")
        first = one.record().until
        require(wait_for(lambda: one.record().until != first, times.renewal + 2), "no renewal")
        renewed = one.record().until - times.expire
        one.kill()
        require(wait_for(lambda: held(two, [TICKET]), times.expire + 5), "nobody took over")
        took = now() - renewed
    mark = times.expire + times.guard() + times.timeout + 0.3
    name = "takeover after kill -9, from the last renewal"
    yield Row(name, f"{took:.2f} s", f"below {mark:.2f} s", took / mark)


def main(words):
    end_by_signals()
    program = words[0] if words else built_program()
    if program is None:
        sys.exit("tickets.py: boothd is not built: run make build")
    status = 0
    try:
        for measured in (grant_rows, held_rows, takeover_rows):
            with tempfile.TemporaryDirectory(prefix="booth-bench-") as folder:
                status |= told(measured(os.path.abspath(program), folder))
    except NotServing as why:
        sys.exit(f"tickets.py: {why}")
    return status


if __name__ == "__main__":
    sys.exit(main(sys.argv[1:]))
