#!/usr/bin/env python3
"""Measures clients at three proved boothd on loopback: grants that wait, 64 of them at once, and 512 attributes.

Run it as `python3 bench/clients.py [BOOTHD BOOTH]`. By default the programs are those that `make build` leaves. It
prints one table and takes a minute. All members run on this machine.
"""

import contextlib
import itertools
import os
import signal
import socket
import statistics
import subprocess
import sys
import tempfile
import time

HERE = os.path.dirname(os.path.abspath(__file__))
sys.path[:0] = [HERE, f"{HERE}/../tools"]

import frames
from members import TICKET, Cluster
from rows import Row, told
from run import cpu_seconds, one_run, require, status_field
from serving import NotServing, built_program, end_by_signals, own_addresses

TRIES = 20
# the names of 64 tickets, one for each of the 64 clients that may wait
MANY = tuple(b"ticket-%02d" % number for number in range(64))
# how long the bench waits for the requests of the clients before the stopped members continue, in seconds
SECONDS_TO_COME = 1.5
# the limits of a member: 64 attributes of a ticket, and 512 of all tickets, so of eight tickets
NAMES, TICKETS = 64, 8
# the longest name and the longest value
NAME_BYTES, VALUE_BYTES = 63, 127
GETS = 2_000

ADDRESSES = own_addresses()


@contextlib.contextmanager
def serving(programs, folder, tickets):
    """Runs three members that vote from their start on."""
    addresses = list(itertools.islice(ADDRESSES, 3))
    with Cluster(programs[0], folder, addresses, client=programs[1], tickets=tickets) as made:
        made.remember()
        made.start()
        yield made


def words_of(made, ticket, *command):
    """Returns the arguments of a run of `booth` at the first member."""
    return [made.client, *command, ticket.decode(), "-c", made.conf, "-s", made.members[0].address]


def grant_rows(programs, folder):
    """Measures `booth grant -w` from exec to exit. The ticket is revoked before each grant."""
    took = []
    with serving(programs, folder, (TICKET,)) as made:
        for _ in range(TRIES):
            took.append(one_run(words_of(made, TICKET, "grant", "-w")) * 1e3)
            one_run(words_of(made, TICKET, "revoke"))
    shown = f"{statistics.median(took):.1f} ms (lowest: {min(took):.1f} ms)"
    yield Row("booth grant -w, from exec to exit, three members", shown)


def signalled(members, number):
    """Sends a signal to each of these members."""
    for member in members:
        os.kill(member.server.process.pid, number)


def waiting_rows(programs, folder):
    """Measures 64 clients that wait while the other members are stopped, until the last client gets its answer."""
    with serving(programs, folder, MANY) as made:
        one, *others = made.members
        resident = status_field(one.server.process, "VmRSS")
        signalled(others, signal.SIGSTOP)
        quiet = {"stdin": subprocess.DEVNULL, "stdout": subprocess.DEVNULL}
        clients = [subprocess.Popen(words_of(made, ticket, "grant", "-w"), **quiet) for ticket in MANY]
        time.sleep(SECONDS_TO_COME)
        require(all(client.poll() is None for client in clients), "a client did not wait")
        started, cpu = time.perf_counter(), cpu_seconds(one.server.process)
        signalled(others, signal.SIGCONT)
        require(all(client.wait(timeout=30) == 0 for client in clients), "a client was not granted its ticket")
        took, cpu = time.perf_counter() - started, cpu_seconds(one.server.process) - cpu
        more = status_field(one.server.process, "VmRSS") - resident
    yield Row("64 waiting clients, from the first vote to the last exit", f"{took * 1e3:.0f} ms")
    yield Row("holder's CPU time for these 64 majorities, records and replies", f"{cpu * 1e3:.1f} ms")
    yield Row("growth of the holder's resident memory through these grants", f"{more} kB")


def attribute(number):
    """Returns a name of the greatest length."""
    return b"%0*d" % (NAME_BYTES, number)


def answered(member, letters, ticket, number, value=b""):
    """Sends a request about an attribute, which must be answered with `ok`."""
    answer = member.ask(letters, frames.attribute_body(ticket, attribute(number), value))
    require(answer is not None and answer.result == "ok", f"{letters} of {number}: {answer}")


def get_micros(member, ticket, number):
    """Returns the daemon's CPU time for a get of one name, in microseconds."""
    before = cpu_seconds(member.server.process)
    for _ in range(GETS):
        answered(member, "AGet", ticket, number)
    return (cpu_seconds(member.server.process) - before) / GETS * 1e6


def attribute_rows(programs, folder):
    """Measures the memory for 512 attributes of full length, and requests for the first and the last of 64."""
    tickets = MANY[:TICKETS]
    with serving(programs, folder, tickets) as made:
        one = made.members[0]
        resident = status_field(one.server.process, "VmRSS")
        answered(one, "ASet", tickets[0], 0, b"v" * VALUE_BYTES)
        alone = get_micros(one, tickets[0], 0)
        for ticket, number in itertools.product(tickets, range(NAMES)):
            answered(one, "ASet", ticket, number, b"v" * VALUE_BYTES)
        full = status_field(one.server.process, "VmRSS")
        first, last = (get_micros(one, tickets[0], number) for number in (0, NAMES - 1))
    yield Row("resident memory with 512 attributes of full length", f"{full:,} kB ({full - resident} kB more)")
    yield Row("daemon CPU time per geostore get, 1 name; first; last of 64", f"{alone:.1f}; {first:.1f}; {last:.1f} µs")


def main(words):
    end_by_signals()
    programs = words if len(words) == 2 else [built_program("boothd"), built_program("booth")]
    if None in programs:
        sys.exit("clients.py: boothd or booth is not built: run make build")
    programs = [os.path.abspath(program) for program in programs]
    status = 0
    try:
        for measured in (grant_rows, waiting_rows, attribute_rows):
            with tempfile.TemporaryDirectory(prefix="booth-bench-") as folder:
                status |= told(measured(programs, f"{folder}/members"))
    except (NotServing, socket.timeout) as why:
        sys.exit(f"clients.py: {why}")
    return status


if __name__ == "__main__":
    sys.exit(main(sys.argv[1:]))
