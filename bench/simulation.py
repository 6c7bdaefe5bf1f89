#!/usr/bin/env python3
"""Measures `boothd sim`, and compares it with a bare loop in C that only draws the same random numbers.

Run it as `python3 bench/simulation.py [PROGRAM]`. PROGRAM is a boothd, by default out/boothd. It prints one table and
takes half a minute. A value is the CPU time of the best round, minus the CPU time of a run without events. Its status
is 1 if a mark is missed by more than a tenth.
"""

import os
import subprocess
import sys
import tempfile

HERE = os.path.dirname(os.path.abspath(__file__))
TOP = os.path.dirname(HERE)
sys.path[:0] = [HERE, f"{TOP}/tools"]

from rows import Row, print_table
from serving import end_by_signals, exit_code

ROUNDS = 5
EVENTS = 100_000
# (with thousands of tickets an event takes long)
EVENTS_OF_THOUSANDS = 4_000
NUMBER = 7
TICKETS = (1, 16, 64, 4_096)
# the mark: events per second, with one ticket
LEAST_EVENTS = 200_000


def cluster_of(tickets):
    """Returns the configuration of two sites and an arbitrator with this number of tickets."""
    members = 'site="192.168.201.100"\nsite="192.168.202.100"\narbitrator="192.168.203.100"\n'
    return members + "".join(f'ticket="ticket-{place:04}"\n' for place in range(tickets))


def used_by(words):
    """Runs a program. Returns its CPU time in seconds, its peak memory in kB, and its output."""
    with tempfile.TemporaryFile("w+") as said:
        child = subprocess.Popen(list(map(str, words)), stdout=said)
        _, status, used = os.wait4(child.pid, 0)
        child.returncode = exit_code(status)
        if child.returncode:
            sys.exit(f"simulation.py: {words[0]} ended with status {child.returncode}")
        said.seek(0)
        return used.ru_utime + used.ru_stime, used.ru_maxrss, said.read()


def best_of(words_of, events):
    """Returns the CPU time of `events` events, in seconds, minus that of a run without events."""
    whole = min(used_by(words_of(events))[0] for _ in range(ROUNDS))
    idle = min(used_by(words_of(0))[0] for _ in range(ROUNDS))
    return max(whole - idle, 1e-6)


def rows(program, words, folder):
    """Measures the loop in C, and then the simulation with each number of tickets."""

    def loop(events):
        return [words, events, NUMBER]

    bare = best_of(loop, 100 * EVENTS) / (100 * EVENTS)
    yield Row("drawing the three random numbers of an event in C", f"{bare * 1e9:.1f} ns")
    for tickets in TICKETS:
        path = os.path.join(folder, f"cluster-{tickets}.conf")
        with open(path, "w", encoding="ascii") as file:
            file.write(cluster_of(tickets))

        def simulation(events, path=path):
            return [program, "sim", "-c", path, "-e", events, "-r", NUMBER]

        events = EVENTS if tickets < 1_000 else EVENTS_OF_THOUSANDS
        each = best_of(simulation, events) / events
        value = f"{1 / each:,.0f} ({each * 1e6:.2f} µs an event, {each / bare:,.0f} times the drawing)"
        name = f"events a second, {tickets:,} ticket{'s' * (tickets > 1)}"
        if tickets > 1:
            yield Row(name, value)
            continue
        yield Row(name, value, f"at least {LEAST_EVENTS:,}", LEAST_EVENTS * each)
        few, many = (used_by(simulation(events))[1] for events in (EVENTS, 10 * EVENTS))
        name = f"peak memory, {EVENTS:,} events; {10 * EVENTS:,} events"
        yield Row(name, f"{few:,} kB; {many:,} kB", "the same within a tenth", many / (1.1 * few))


def main(words):
    end_by_signals()
    program = os.path.abspath(words[0] if words else f"{TOP}/out/boothd")
    if not os.access(program, os.X_OK):
        sys.exit(f"simulation.py: {program} is not built: make build leaves it")
    with tempfile.TemporaryDirectory(prefix="booth-bench-") as folder:
        loop = os.path.join(folder, "words")
        try:
            subprocess.run(["cc", "-O2", "-o", loop, f"{HERE}/words.c"], check=True)
            measured = list(rows(program, loop, folder))
        except (OSError, subprocess.CalledProcessError) as why:
            sys.exit(f"simulation.py: {why}")
    return print_table(measured)


if __name__ == "__main__":
    sys.exit(main(sys.argv[1:]))
