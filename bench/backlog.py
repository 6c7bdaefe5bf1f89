#!/usr/bin/env python3
"""Measures how many datagrams of a burst of answers a proved boothd loses with the default socket buffers of Linux.

Run it as `python3 bench/backlog.py [BOOTHD [WITHOUT [TICKETS]]]`. BOOTHD is by default the one that `make build`
leaves. WITHOUT is a boothd whose host has no backlog: one in which `Socket::drain` of crates/booth_real takes nothing.
The bench prints one table, and takes half a minute for each program.

A site starts, and its records have a lease of each of 4,096 tickets. It still holds them, and starts an election for
each of them in one turn. So 8,192 answers arrive while it writes 4,096 records. The bench counts the datagrams that the
system dropped at the site's sockets, and measures the time from the start until all leases are renewed. If an answer
was lost, the site repeats its request a `timeout` later.
"""

import itertools
import os
import struct
import subprocess
import sys
import tempfile
import time

HERE = os.path.dirname(os.path.abspath(__file__))
sys.path[:0] = [HERE, f"{HERE}/../tools"]

import record_file
import serving
from members import Cluster, Times, now, wait_for
from rows import Row, print_table
from run import lost_datagrams
from serving import NotServing, built_program, end_by_signals, own_addresses
from thousands import names

TICKETS = 4_096
TIMES = Times(expire=600, timeout=5, retries=10, renewal=300)
# the default of net.core.rmem_max, in bytes
ROOM = 212_992
# how long the renewal of all tickets may take on a slow disk, in seconds
PATIENCE = 300
# (the daemon answers nobody before its first turn is over)
serving.SECONDS_TO_START = PATIENCE

ADDRESSES = own_addresses()


def lease_record(until):
    """Returns a record file of version 2 with only a lease in term 1 until this time."""
    fields = record_file.SECOND_FORM.pack(2, 1, record_file.HAS_LEASE, 1, int(until * 1000), 0, 0, 0, 0, 0, 0, 0)
    slot = bytes([record_file.OPEN]) + bytes(7) + struct.pack(">Q", 1) + fields
    return bytes(record_file.LAYOUTS[2].place) + slot


def hold_all(member, tickets, until):
    """Writes a lease of each ticket into the records of the member, which does not run."""
    for ticket in tickets:
        with open(member.record_path(ticket), "wb") as file:
            file.write(lease_record(until))


def is_renewed(member, ticket, until):
    """Returns whether the lease of a ticket ends later than before."""
    record = member.record(ticket)
    return record is not None and record.until is not None and record.until > until


def measured(program, folder, count):
    """Returns how long the renewal of all tickets takes, and how many datagrams were dropped during it."""
    tickets, until = names(count), now() + TIMES.expire / 2
    addresses = list(itertools.islice(ADDRESSES, 3))
    with Cluster(program, folder, addresses, times=TIMES, tickets=tickets) as made:
        made.remember()
        one = made.members[0]
        hold_all(one, tickets, until)
        made.start(1, 2)
        begun = time.monotonic()
        made.start(0)
        for ticket in tickets:
            if not wait_for(lambda ticket=ticket: is_renewed(one, ticket, until), PATIENCE):
                raise NotServing(f"the lease of {ticket.decode()} is not renewed in {PATIENCE} s")
        return time.monotonic() - begun, lost_datagrams(one.address)


def rows(programs, folder, count):
    """Measures each program, with sockets that have the room of Linux's defaults."""
    room = os.path.join(folder, "room.so")
    subprocess.run(["cc", "-shared", "-fPIC", "-O2", "-o", room, f"{HERE}/room.c"], check=True)
    os.environ.update(LD_PRELOAD=room, BOOTH_ROOM=str(ROOM))
    for name, program in zip(("with the backlog", "without it"), programs):
        took, lost = measured(os.path.abspath(program), os.path.join(folder, name.split()[0]), count)
        what = f"{count:,} leases renewed in one turn, room of {ROOM:,} bytes, {name}"
        yield Row(what, f"{lost:,} dropped, of {2 * count:,} answers or more; all renewed after {took:.1f} s")


def main(words):
    end_by_signals()
    programs = words[:2] or [built_program()]
    if None in programs:
        sys.exit("backlog.py: boothd is not built: run make build")
    count = int(words[2]) if len(words) > 2 else TICKETS
    with tempfile.TemporaryDirectory(prefix="booth-bench-") as folder:
        try:
            return print_table(rows(programs, folder, count))
        except (NotServing, OSError, subprocess.CalledProcessError) as why:
            sys.exit(f"backlog.py: {why}")


if __name__ == "__main__":
    sys.exit(main(sys.argv[1:]))
