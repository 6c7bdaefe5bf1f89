#!/usr/bin/env python3
"""Measures booth-status from exec to exit, for a cluster of three proved boothd on loopback with 64 held tickets.

Run it as `python3 bench/status.py [BOOTHD]`. BOOTHD is by default the one that `make build` leaves. It prints one table
in half a minute. Its status is 1 if a mark is missed by more than a tenth.
"""

import itertools
import os
import socket
import statistics
import subprocess
import sys
import tempfile
import time

HERE = os.path.dirname(os.path.abspath(__file__))
TOP = os.path.dirname(HERE)
sys.path[:0] = [HERE, f"{TOP}/tools"]

from members import Cluster, wait_for
from rows import Row, below, told
from serving import NotServing, built_program, end_by_signals, own_addresses

MANY = tuple(b"ticket-%02d" % number for number in range(64))
KEY = b"a-key-of-the-cluster"
TRIES = 20
MARK = 150
SECONDS_TO_GRANT = 10
FORMS = (("the table", []), ("--brief", ["-b"]), ("--json", ["-j"]), ("--metrics", ["-m", "-"]))


def millis_of(words):
    """Runs booth-status, which must report no problem. Returns how long it takes, in milliseconds."""
    started = time.perf_counter()
    done = subprocess.run(words, stdin=subprocess.DEVNULL, stdout=subprocess.PIPE, check=False)
    took = time.perf_counter() - started
    if done.returncode:
        raise NotServing(f"{' '.join(words)}: status {done.returncode}: {done.stdout.decode()}")
    return took * 1000


def hold_all(made):
    """Has the first member acquire every ticket, and waits until every member lists it."""
    made.remember()
    made.start()
    one = made.members[0]
    for ticket in MANY:
        one.about("CGnt", ticket)
    listed = lambda: all(member.ask("CLst").body.count(one.address.encode()) == len(MANY) for member in made.members)
    if not wait_for(listed, SECONDS_TO_GRANT):
        raise NotServing("the tickets are not held")


def rows(program, folder, key):
    """Measures each form of output, with a key or without."""
    addresses = list(itertools.islice(own_addresses(), 3))
    with Cluster(program, folder, addresses, tickets=MANY, key=key) as made:
        hold_all(made)
        tool = f"{TOP}/packaging/booth-status"
        for name, words in FORMS:
            took = [millis_of([tool, "-c", made.conf, *words]) for _ in range(TRIES)]
            median = statistics.median(took)
            what = f"booth-status, {name}{', with a key' if key else ''}"
            yield below(what, median, f"{median:.0f} ms (lowest: {min(took):.0f} ms)", MARK, "ms")


def main(words):
    end_by_signals()
    program = words[0] if words else built_program()
    if program is None:
        sys.exit("status.py: boothd is not built: run make build")
    took = [millis_of(["/usr/bin/python3", "-IS", "-c", ""]) for _ in range(TRIES)]
    table = [Row("start and end of Python alone", f"{statistics.median(took):.0f} ms (lowest: {min(took):.0f} ms)")]
    try:
        for key in (None, KEY):
            with tempfile.TemporaryDirectory(prefix="booth-bench-") as folder:
                table += rows(os.path.abspath(program), f"{folder}/members", key)
    except (NotServing, socket.timeout) as why:
        sys.exit(f"status.py: {why}")
    return told(table)


if __name__ == "__main__":
    sys.exit(main(sys.argv[1:]))
