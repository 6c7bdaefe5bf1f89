#!/usr/bin/env python3
"""Counts the instructions of a turn in which nothing is due, at 1, 64 and 4,096 tickets, and of one in which all are.

Run it as `python3 bench/turn.py [PROGRAM]`. PROGRAM is a boothd, by default the one that `make build` leaves. It needs
valgrind, whose callgrind counts the daemon's own instructions, and takes some minutes. Its status is 1 if a mark is
missed by more than a tenth.

In a turn in which nothing is due the daemon drops an empty datagram. After every 50 datagrams the bench asks for the
list of members, and waits for the answer, so that the daemon has read them all. A value is the cost of 10,000 more such
turns. In a turn in which all tickets are due a site makes its first turn, and its records have a lease of each ticket:
it starts an election for each. The counted instructions are those of three functions of booth_node: the search for the
due tickets (`deadlines::drain`, with the timer's walk), the action of each ticket, and its next deadline. Finally the
bench measures the CPU time of a start.
"""

import os
import re
import signal
import socket
import statistics
import subprocess
import sys
import tempfile
import time
from typing import Iterator, List, NamedTuple

HERE = os.path.dirname(os.path.abspath(__file__))
sys.path[:0] = [HERE, f"{HERE}/../tools"]

import frames
import record_file
from backlog import lease_record
from members import path_in
from rows import Row, below, print_table
from serving import NotServing, built_program, end_by_signals, own_addresses
from texts import MEMBERS

FEW, MANY, EACH = 1_000, 11_000, 50
TICKETS = (1, 64, 4_096)
DUE = (64, 1_024, 4_096)
# the functions of a turn in which tickets are due, by their names in the program; the first one is the search
WORK = ("booth_node::deadlines::drain", "booth_node::tickets::TicketTable::act", "booth_node::deadlines::set_deadline")
STARTS = 5
# (under callgrind a start with thousands of due tickets takes minutes)
SECONDS_TO_COUNT, SECONDS_OF_LEASE = 400, 500
# (under callgrind a start with thousands of tickets takes long)
SECONDS_TO_START = 120

ADDRESSES = own_addresses()


def ask(client):
    """Waits for an answer, which the daemon sends after it has read all earlier datagrams."""
    until = time.monotonic() + SECONDS_TO_START
    while time.monotonic() < until:
        try:
            client.send(frames.request_now("Peer", 1))
            client.recv(frames.FRAME_BYTES)
            return
        except ConnectionRefusedError:
            time.sleep(0.05)
        except socket.timeout:
            pass
    raise NotServing("the program gave no answer")


def instructions(program, tickets, turns):
    """Returns the instructions of a daemon that has `tickets` tickets and drops a datagram in each of `turns` turns."""
    address = next(ADDRESSES)
    with tempfile.TemporaryDirectory(prefix="booth-bench-") as folder:
        conf = os.path.join(folder, "booth.conf")
        with open(conf, "wb") as file:
            file.write(MEMBERS.replace(b"@", address.encode()))
            file.writelines(b'ticket = "ticket-%04d"\n' % number for number in range(tickets))
        words = [program, "daemon", "-c", conf, "-s", address, "-l", f"{folder}/lock", "-d", folder]
        counting = ["valgrind", "--tool=callgrind", f"--callgrind-out-file={folder}/callgrind.out", *words]
        daemon = subprocess.Popen(counting, stdout=subprocess.DEVNULL, stderr=subprocess.PIPE)
        try:
            with socket.socket(socket.AF_INET, socket.SOCK_DGRAM) as client:
                client.settimeout(1)
                client.connect((address, frames.PORT))
                ask(client)
                for number in range(1, turns + 1):
                    client.send(b"")
                    if number % EACH == 0:
                        ask(client)
            daemon.send_signal(signal.SIGTERM)
            said = daemon.communicate(timeout=SECONDS_TO_START)[1]
        finally:
            daemon.kill()
    counted = re.search(rb"Collected : (\d+)", said)
    if counted is None:
        raise NotServing(f"callgrind counted nothing: {said!r}")
    return int(counted[1])


def a_turn(program, tickets):
    """Returns the instructions of one turn in which nothing is due."""
    more = instructions(program, tickets, MANY) - instructions(program, tickets, FEW)
    return more / (MANY - FEW)


class Counted(NamedTuple):
    """The instructions for all due tickets of a turn, and those of the search for them."""

    total: int
    search: int


def names(count: int) -> List[bytes]:
    """Returns the names of `count` tickets."""
    return [b"ticket-%04d" % number for number in range(count)]


def words_of(program: str, folder: str, tickets: int, record: bytes) -> List[str]:
    """Writes a record of each ticket. Returns the command of a daemon that makes one turn with them."""
    address, conf = next(ADDRESSES), os.path.join(folder, "booth.conf")
    with open(conf, "wb") as file:
        file.write(MEMBERS.replace(b"@", address.encode()))
        file.writelines(b'ticket = "%s"\n' % name for name in names(tickets))
    for name in names(tickets):
        with open(path_in(folder, name), "wb") as file:
            file.write(record)
    words = [program, "daemon", "-c", conf, "-s", address, "-l", f"{folder}/lock", "-d", folder]
    return [*words, "-n", "1"]


def counted_turn(program: str, tickets: int) -> Counted:
    """Counts the first turn of a site whose records have a lease of each ticket."""
    with tempfile.TemporaryDirectory(prefix="booth-bench-") as folder:
        words = words_of(program, folder, tickets, lease_record(time.time() + SECONDS_OF_LEASE))
        counting = ["valgrind", "--tool=callgrind", f"--callgrind-out-file={folder}/callgrind.out", *words]
        ran = subprocess.run(counting, capture_output=True, text=True, timeout=SECONDS_TO_COUNT, check=False)
        if ran.returncode != 0:
            raise NotServing(f"status {ran.returncode}: {ran.stderr}")
        annotate = ["callgrind_annotate", "--inclusive=yes", "--threshold=100", f"{folder}/callgrind.out"]
        shown = subprocess.run(annotate, capture_output=True, text=True, check=True).stdout
    found = [re.search(rf"([\d,]+) \(.*{name}", shown) for name in WORK]
    if None in found:
        raise NotServing(f"the program has none of these functions: {', '.join(WORK)}")
    counts = [int(each[1].replace(",", "")) for each in found]
    return Counted(sum(counts), counts[0])


def due_rows(program: str) -> Iterator[Row]:
    """Measures a turn in which all tickets are due."""
    turns = [counted_turn(program, tickets) for tickets in DUE]
    counts = "; ".join(f"{tickets:,}" for tickets in DUE)
    yield Row(f"instructions of a turn in which {counts} are due", "; ".join(f"{turn.total:,}" for turn in turns))
    parts = "; ".join(f"{turn.search / turn.total * 100:.0f} %" for turn in turns)
    yield Row("share of the search for the due tickets", parts)
    ratio = turns[-1].total / turns[0].total
    yield below(f"ratio of {DUE[-1]:,} due tickets to {DUE[0]}", ratio, f"{ratio:.0f}", 80, "times")


def start_rows(program: str) -> Iterator[Row]:
    """Measures the processor time of a start."""
    for tickets in DUE:
        took = []
        for _ in range(STARTS):
            with tempfile.TemporaryDirectory(prefix="booth-bench-") as folder:
                words = words_of(program, folder, tickets, record_file.NOTHING_PLEDGED)
                process = subprocess.Popen(words, stdout=subprocess.DEVNULL, stderr=subprocess.DEVNULL)
                _, status, used = os.wait4(process.pid, 0)
                if status != 0:
                    raise NotServing(f"the program ended with status {status}")
                took.append((used.ru_utime + used.ru_stime) * 1000)
        shown = f"{statistics.median(took):.1f} ms (lowest: {min(took):.1f})"
        name = f"CPU time of a start, {tickets:,} tickets"
        yield below(name, statistics.median(took), shown, 80, "ms") if tickets == DUE[-1] else Row(name, shown)


def quiet_rows(program: str) -> Iterator[Row]:
    """Measures a turn in which nothing is due."""
    counted = [a_turn(program, tickets) for tickets in TICKETS]
    yield Row("instructions per turn with nothing due, 1; 64; 4,096 tickets", "; ".join(f"{count:,.0f}" for count in counted))
    for tickets, count in zip(TICKETS[1:], counted[1:]):
        ratio = count / counted[0]
        yield below(f"ratio of {tickets:,} tickets to 1", ratio, f"{ratio:.3f}", 1.1, "")


def main(words):
    end_by_signals()
    program = words[0] if words else built_program()
    if program is None:
        sys.exit("turn.py: boothd is not built: run make build")
    program = os.path.abspath(program)
    try:
        return print_table([*quiet_rows(program), *due_rows(program), *start_rows(program)])
    except (NotServing, OSError, subprocess.SubprocessError) as why:
        sys.exit(f"turn.py: {why}")


if __name__ == "__main__":
    sys.exit(main(sys.argv[1:]))
