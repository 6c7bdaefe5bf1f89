#!/usr/bin/env python3
"""Measures list requests over TCP at a proved boothd on loopback, on one link and on sixteen, and over UDP.

Run it as `python3 bench/links.py [BOOTHD [BEFORE]]`. BOOTHD is by default the one that `make build` leaves. The bench
prints one table in some seconds. Its status is 1 if a mark is missed by more than a tenth. BEFORE is a boothd that
serves no links. With it the bench also counts the instructions of a turn of both programs, as bench/turn.py does. This
needs valgrind and a minute.
"""

import contextlib
import itertools
import os
import socket
import statistics
import sys
import tempfile
import time

HERE = os.path.dirname(os.path.abspath(__file__))
sys.path[:0] = [HERE, f"{HERE}/../tools", f"{HERE}/../tests"]

import frames
from rows import Row, below, print_table
from run import cpu_seconds
from serving import NotServing, boothd, built_program, end_by_signals, own_addresses
from tcp_links import Closed, Link, links
from texts import one_ticket
from turn import a_turn

LINKS, ROUNDS, LISTS = 16, 20, 500
# 999 of 1,000 answers must come within 5 ms, which is less than a turn waits
MOST, OF, MILLIS = 999, 1000, 5


def frame_of(link):
    """Reads the next reply from a link, and returns its bytes."""
    head = link.receive(frames.HEAD_BYTES)
    return head + link.receive(frames.Head.read(head).length - frames.HEAD_BYTES)


def over_tcp(link, request):
    """Sends a request over a link, and waits for the reply."""
    link.socket.sendall(request)
    frame_of(link)


def over_udp(asker, request):
    """Sends a request as a datagram, and waits for the reply."""
    asker.send(request)
    asker.recv(frames.FRAME_BYTES)


def times_of(ask, request, count):
    """Returns how long each of `count` requests takes, in seconds."""
    took = []
    for _ in range(count):
        begun = time.perf_counter()
        ask(request)
        took.append(time.perf_counter() - begun)
    return took


def in_turns(asks, request, process):
    """Measures the transports in alternating rounds. Returns for each the times of its requests, and the daemon's CPU
    time per request, in seconds.
    """
    took, cpu = [[] for _ in asks], [0.0 for _ in asks]
    for _ in range(ROUNDS):
        for place, ask in enumerate(asks):
            before = cpu_seconds(process)
            took[place] += times_of(ask, request, LISTS)
            cpu[place] += cpu_seconds(process) - before
    return took, [seconds / (ROUNDS * LISTS) for seconds in cpu]


def lists_a_second(askers, ask, answer, process):
    """Measures clients that ask at the same time. Returns the requests per second of the best round, and the daemon's
    CPU time per request, in seconds.
    """
    best, before = 0.0, cpu_seconds(process)
    for _ in range(ROUNDS):
        begun = time.perf_counter()
        for _ in range(LISTS // LINKS):
            for asker in askers:
                ask(asker)
            for asker in askers:
                answer(asker)
        best = max(best, LISTS // LINKS * LINKS / (time.perf_counter() - begun))
    return best, (cpu_seconds(process) - before) / (ROUNDS * (LISTS // LINKS * LINKS))


@contextlib.contextmanager
def udp_askers(count, address):
    """Opens `count` sockets for requests over UDP."""
    with contextlib.ExitStack() as stack:
        made = [stack.enter_context(socket.socket(socket.AF_INET, socket.SOCK_DGRAM)) for _ in range(count)]
        for each in made:
            each.settimeout(10)
            each.connect((address, frames.PORT))
        yield made


def many_rows(address, request, process):
    """Measures sixteen clients that ask at the same time, over UDP and over TCP."""
    with udp_askers(LINKS, address) as made:
        udp = lists_a_second(made, lambda each: each.send(request), lambda each: each.recv(frames.FRAME_BYTES), process)
    with links(LINKS, address) as opened:
        tcp = lists_a_second(opened, lambda link: link.socket.sendall(request), frame_of, process)
    yield Row(f"list requests a second, {LINKS} clients at once, over UDP; over TCP", f"{udp[0]:,.0f}; {tcp[0]:,.0f}")
    yield Row("daemon CPU time per such request, over UDP; over TCP", f"{udp[1] * 1e6:.1f}; {tcp[1] * 1e6:.1f} µs")


def rows(program, folder):
    """Measures one client over UDP and over TCP, and then sixteen clients."""
    address = next(own_addresses())
    conf = os.path.join(folder, "one.conf")
    with open(conf, "wb") as file:
        file.write(one_ticket().replace(b"@", address.encode()))
    places = ("-l", f"{folder}/lock", "-d", f"{folder}/records")
    request = frames.request_now("CLst", 1)
    with boothd(program, conf, address, options=places) as server:
        with socket.socket(socket.AF_INET, socket.SOCK_DGRAM) as asker, Link(address) as link:
            asker.settimeout(10)
            asker.connect((address, frames.PORT))
            asks = [lambda asked: over_udp(asker, asked), lambda asked: over_tcp(link, asked)]
            (udp, tcp), cpu = in_turns(asks, request, server.process)
        many = list(many_rows(address, request, server.process))
    middle = [statistics.median(took) * 1e6 for took in (udp, tcp)]
    late = sorted(tcp)[len(tcp) * MOST // OF] * 1e3
    ratio = middle[1] / middle[0]
    yield Row("median time of a list request, one client, over UDP; over TCP", f"{middle[0]:.0f}; {middle[1]:.0f} µs")
    yield below("ratio of TCP to UDP", ratio, f"{ratio:.2f}", 3, "times")
    yield below(f"{MOST} of {OF} list requests over TCP are answered within", late, f"{late:.2f} ms", MILLIS, "ms")
    yield Row("slowest list request over TCP; over UDP", f"{max(tcp) * 1e3:.1f}; {max(udp) * 1e3:.1f} ms")
    yield Row("daemon CPU time per list request, over UDP; over TCP", f"{cpu[0] * 1e6:.1f}; {cpu[1] * 1e6:.1f} µs")
    yield from many


def turn_rows(program, before):
    """Counts the instructions of a turn without links, for a daemon that serves links and for one that does not."""
    counted = [a_turn(each, 1) for each in (before, program)]
    ratio = counted[1] / counted[0]
    yield Row("instructions of a turn, without links in the program; with them", "; ".join(f"{count:,.0f}" for count in counted))
    yield below("ratio with links to without", ratio, f"{ratio:.3f}", 1.1, "")


def main(words):
    end_by_signals()
    program = words[0] if words else built_program()
    if program is None:
        sys.exit("links.py: boothd is not built: run make build")
    measured = []
    try:
        with tempfile.TemporaryDirectory(prefix="booth-bench-") as folder:
            measured += rows(os.path.abspath(program), folder)
        for before in itertools.islice(words, 1, 2):
            measured += turn_rows(os.path.abspath(program), os.path.abspath(before))
    except (NotServing, Closed, OSError) as why:
        sys.exit(f"links.py: {why}")
    return print_table(measured)


if __name__ == "__main__":
    sys.exit(main(sys.argv[1:]))
