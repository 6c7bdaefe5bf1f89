#!/usr/bin/env python3
"""Measures the cost of a journal for a proved boothd on loopback, and the time of an audit of a million lines.

Run it as `python3 bench/journals.py [PROGRAM]`. PROGRAM is a boothd, by default the one that `make build` leaves. It
prints one table in half a minute. Its status is 1 if a mark is missed by more than a tenth. Rounds with and without a
journal alternate, so other work on the machine slows both down alike.
"""

import contextlib
import itertools
import os
import socket
import subprocess
import sys
import tempfile
import time

HERE = os.path.dirname(os.path.abspath(__file__))
sys.path[:0] = [HERE, f"{HERE}/../tools", f"{HERE}/../tests"]

import frames
from audit_incidents import LINES, long_journal, run_measured
from auditing import KEY, can_audit, content
from journal_changes import text_of
from members import Cluster
from rows import Row, at_least, below, told
from run import cpu_seconds
from serving import NotServing, built_program, end_by_signals, own_addresses

ROUNDS, DROPPED, LISTS = 8, 10_000, 2_000
SECONDS_OF_QUIET = 5
LINES_A_SECOND, TIMES_ITS_BYTES = 200_000, 4


def dropped(member):
    """Sends datagrams that the daemon drops, no faster than it reads them. Returns how many turns it made for them."""
    with socket.socket(socket.AF_INET, socket.SOCK_DGRAM) as sender:
        sender.connect((member.address, frames.PORT))
        for number in range(DROPPED):
            sender.send(b"")
            if number % 100 == 99:
                member.ask("CLst")
    return DROPPED + DROPPED // 100


def listed(member):
    """Asks for the list of tickets again and again. Returns the number of requests."""
    for _ in range(LISTS):
        if member.ask("CLst") is None:
            raise NotServing("the daemon did not answer a request for the list")
    return LISTS


def micros(member, work):
    """Returns the daemon's CPU time per turn of `work`, in microseconds."""
    before = cpu_seconds(member.server.process)
    turns = work(member)
    return (cpu_seconds(member.server.process) - before) / turns * 1e6


@contextlib.contextmanager
def pair(program, folder):
    """Runs an arbitrator with a journal and one without, each as the only running member of a cluster of three."""
    addresses = own_addresses()
    with contextlib.ExitStack() as both:
        members = []
        for name in ("with", "without"):
            places = list(itertools.islice(addresses, 3))
            made = both.enter_context(Cluster(program, f"{folder}/{name}", places, key=KEY))
            made.members[2].journals = name == "with"
            made.start(2)
            members.append(made.members[2])
        yield members


def turn_rows(members):
    """Measures a turn that drops a datagram, and a turn that answers a list request, each with a journal and without.
    A value is that of the best round.
    """
    for name, work in (("dropped datagram", dropped), ("list request", listed)):
        took = [[micros(member, work) for member in members] for _ in range(ROUNDS)]
        journaled, bare = map(min, zip(*took))
        shown = f"{bare:.1f}; {journaled:.1f} µs ({journaled - bare:+.1f} µs)"
        yield Row(f"daemon CPU time per {name}, without a journal; with one", shown)


def byte_rows(member):
    """Measures the journal of an idle daemon."""
    before = os.path.getsize(member.journal)
    started = time.monotonic()
    time.sleep(SECONDS_OF_QUIET)
    rate = (os.path.getsize(member.journal) - before) / (time.monotonic() - started)
    lines = content(member.journal).decode("latin-1").split("\n")
    at = lines.index("quiet") - 1
    quiet = sum(len(line) + 1 for line in lines[at : at + 4])
    yield Row("journal lines of an idle turn; of an idle daemon", f"{quiet} bytes; {rate * 86_400 / 1e6:.1f} MB a day")


def audit_rows(program, conf, begin, address, folder):
    """Measures an audit of a million lines."""
    path = os.path.join(folder, "long")
    lines = long_journal(begin, address)
    with open(path, "wb") as file:
        size = file.write(text_of(lines))
    status, printed, said, seconds, peak = run_measured([program, "audit", "-c", conf, path], folder)
    if (status, printed, said) != (0, "", ""):
        raise NotServing(f"the audit ended with {status}: {printed}{said}")
    name = f"audit of {LINES:,} lines, {size / 1e6:.0f} MB"
    rate = len(lines) / seconds
    yield at_least(f"{name}: lines a second", rate, f"{rate:,.0f} ({seconds:.2f} s)", LINES_A_SECOND)
    shown = f"{peak / 1e6:.0f} MB ({peak / size:.2f} times its bytes)"
    yield below("peak memory of this audit", peak / size, shown, TIMES_ITS_BYTES, "times its bytes")


def rows(program, folder):
    """Measures a daemon's journal, and then an audit, if this boothd has the command."""
    with pair(program, folder) as members:
        journaled, bare = members
        conf = journaled.conf
        yield from byte_rows(journaled)
        begin = content(journaled.journal)
        yield from turn_rows(members)
    if can_audit(program):
        yield from audit_rows(program, conf, begin, journaled.address, folder)
    else:
        yield Row("audit", "not measured: this boothd has no command audit")


def main(words):
    end_by_signals()
    program = words[0] if words else built_program()
    if program is None:
        sys.exit("journals.py: boothd is not built: run make build")
    with tempfile.TemporaryDirectory(prefix="booth-bench-") as folder:
        try:
            return told(rows(os.path.abspath(program), folder))
        except (NotServing, OSError, subprocess.SubprocessError) as why:
            sys.exit(f"journals.py: {why}")


if __name__ == "__main__":
    sys.exit(main(sys.argv[1:]))
