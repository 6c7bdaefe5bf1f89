#!/usr/bin/env python3
"""Measures what it costs that a member writes each promise to disk before it sends it.

Run it as `python3 bench/promises.py [BOOTHD TRIALS]`. By default the programs are those that `make build` and rt leave.
It measures how many records an election and a renewal write, how many votes a member gives per second, and how soon a
voter votes after a restart. It prints one table in three minutes. Its status is 1 if a mark is missed by more than a
tenth. All members write to one disk, in the folder for temporary files, so no other program should write there. The
votes go to a site whose daemon does not run: this program has its address, and sends its requests.
"""

import contextlib
import itertools
import os
import socket
import statistics
import subprocess
import sys
import tempfile
import time

HERE = os.path.dirname(os.path.abspath(__file__))
TOP = os.path.dirname(HERE)
sys.path[:0] = [HERE, f"{TOP}/tools", f"{TOP}/tests"]

import frames
import record_file
from members import TICKET, Cluster, Times, now, wait_for
from records import TRIALS, host_round
from rows import Row, at_least, below, print_table
from run import cpu_seconds, require
from serving import NotServing, built_program, end_by_signals, own_addresses
from slow_disk import SlowDisk

MANY = tuple(b"ticket-%02d" % number for number in range(64))
FEW = MANY[:10]
TIMES = Times(expire=10, timeout=1, retries=3, renewal=5)
SECONDS = 20
# the number of rounds, the votes in a round, and the requests for a vote that are open at the same time
ROUNDS, VOTES, AT_ONCE = 15, 400, 16
RESTARTS = 40
SECONDS_TO_ANSWER = 10
# how long a sync of a slow disk takes, in seconds
SLOW_SYNC = 0.01
LAST_TERM = 4_294_967_294

ADDRESSES = own_addresses()


def made(program, folder, tickets):
    """Returns a cluster whose members vote from their start on, because their records show no abstention."""
    cluster = Cluster(program, folder, list(itertools.islice(ADDRESSES, 3)), times=TIMES, tickets=tickets)
    cluster.remember()
    return cluster


def number(member, ticket):
    """Returns how often a member has written the record of a ticket: each write has the next number."""
    with open(member.record_path(ticket), "rb") as file:
        return record_file.in_force(record_file.slots_in(file.read(record_file.FILE_BYTES))).number


def numbers(cluster, tickets):
    """Returns for each member how many records of these tickets it has written."""
    return [sum(number(member, ticket) for ticket in tickets) for member in cluster.members]


def held(member, tickets):
    """Returns whether a member holds each of these tickets by its records."""
    return all((record := member.record(ticket)) is not None and record.holds(now()) for ticket in tickets)


def keeps_between(cluster, tickets, what):
    """Returns how many records each member writes per ticket while `what` runs."""
    before = numbers(cluster, tickets)
    what()
    return [(after - early) / len(tickets) for early, after in zip(before, numbers(cluster, tickets))]


def in_words(keeps):
    """Returns the writes of the site that asks, and of each of the two members that answer, as a text."""
    return f"{keeps[0]:.2f} at the site, {keeps[1]:.2f} and {keeps[2]:.2f} at the others"


def grant_all(cluster, tickets, apart=0.0):
    """Has the first site acquire each ticket, `apart` seconds one after another, and waits until it holds all."""
    one = cluster.members[0]
    for ticket in tickets:
        require(one.about("CGnt", ticket) in ("ok", "Asyn"), "the site began no election after a grant")
        time.sleep(apart)
    require(wait_for(lambda: held(one, tickets), SECONDS_TO_ANSWER), "a ticket is not held")
    # (the last voter answers after the majority is reached)
    time.sleep(0.5)


def cluster_rows(program, folder, keep):
    """Counts the records that each member writes for 64 tickets of one site. `keep` is how long one write takes alone,
    in seconds.
    """
    with made(program, folder, MANY) as cluster:
        one, *others = cluster.members
        cluster.start()
        keeps = keeps_between(cluster, MANY, lambda: grant_all(cluster, MANY))
        yield Row("writes of a record per election", in_words(keeps))
        ends = {ticket: one.record(ticket).until for ticket in MANY}
        cpu = [cpu_seconds(member.server.process) for member in cluster.members]
        keeps = keeps_between(cluster, MANY, lambda: time.sleep(SECONDS))
        cpu = [cpu_seconds(member.server.process) - before for member, before in zip(cluster.members, cpu)]
        require(held(one, MANY), "a lease was lost")
        rounds = [round((one.record(ticket).until - end) / TIMES.renewal) for ticket, end in ends.items()]
        renewals = sum(rounds)
        require(renewals >= len(MANY), f"{renewals} renewals")
        each = [count * len(MANY) / renewals for count in keeps]
        yield Row("writes of a record per renewal", in_words(each))
        shown = f"{cpu[0] / renewals * 1e6:.0f} µs; {cpu[2] / renewals * 1e6:.0f} µs"
        yield Row("CPU time per renewal, 64 tickets held: holder; voter", shown)
        shares = [count * len(MANY) * keep / SECONDS for count in keeps]
        shown = f"{shares[0]:.1%}; {shares[2]:.1%}"
        yield Row("share of the disk's time, 64 tickets, expire = 10: holder; voter", shown)


@contextlib.contextmanager
def heard_at(address):
    """Opens a socket at the address of a member whose daemon does not run."""
    with socket.socket(socket.AF_INET, socket.SOCK_DGRAM) as hearer:
        hearer.bind((address, frames.PORT))
        hearer.settimeout(SECONDS_TO_ANSWER)
        yield hearer


def renewals(program, folder):
    """Measures renewals, from the first message of a renewal (HrtB) to the update after the lease is written (UpdE).

    This program receives both at the address of the arbitrator, whose daemon does not run.
    """
    with made(program, folder, FEW) as cluster:
        cluster.start(0, 1)
        with heard_at(cluster.members[2].address) as hearer:
            grant_all(cluster, FEW, apart=TIMES.renewal / len(FEW))
            opened, took, end = {}, [], time.monotonic() + SECONDS
            while time.monotonic() < end:
                came, moment = hearer.recv(frames.FRAME_BYTES), time.time()
                head = frames.Head.read(came)
                ticket = came[frames.HEAD_BYTES : frames.HEAD_BYTES + 64]
                if head.cmd == frames.code("HrtB"):
                    opened.setdefault(ticket, head.millis() / 1000)
                elif head.cmd == frames.code("UpdE") and ticket in opened:
                    took.append(moment - opened.pop(ticket))
    require(len(took) >= len(FEW), f"{len(took)} renewals")
    return f"{statistics.median(took) * 1e3:.1f} ms (lowest: {min(took) * 1e3:.1f} ms, {len(took)} of them)"


def renewal_rows(program, folder):
    """Measures renewals on this disk, and on a disk whose syncs take longer, at the holder and at the voter."""
    yield Row("a renewal, from its first message to the update after the write", renewals(program, f"{folder}/quick"))
    os.makedirs(f"{folder}/slow")
    slow = SlowDisk(f"{folder}/slow", program)
    slow.sync_takes(SLOW_SYNC)
    yield Row(f"such a renewal, if a sync takes {SLOW_SYNC * 1e3:.0f} ms", renewals(slow.program, f"{folder}/slow"))


class Site:
    """A stand-in for a site: it asks an arbitrator for votes, with a greater term each time."""

    def __init__(self, own, voter, hearer):
        self.id = frames.member_id(own.address)
        self.voter, self.hearer = (voter.address, frames.PORT), hearer
        self.term = 0

    def ask(self):
        """Asks for a vote in the next term."""
        self.term += 1
        require(self.term < LAST_TERM, "no greater term is left")
        body = frames.ticket_body(TICKET, self.id, self.term, 0)
        self.hearer.sendto(frames.request_now("RVot", 0, body, sender=self.id), self.voter)

    def vote(self):
        """Waits for the next vote, and returns its term."""
        while True:
            came = self.hearer.recv(frames.FRAME_BYTES)
            head = frames.Head.read(came)
            # (a member that starts first asks for the ticket's state)
            if head.cmd == frames.code("VtFr"):
                return int.from_bytes(came[frames.HEAD_BYTES + 68 : frames.HEAD_BYTES + 72], "big")
            require(head.cmd == frames.code("Stat"), f"{head.cmd.to_bytes(4, 'big')} is no vote")

    def round(self):
        """Returns how long a vote takes, in seconds, if several requests are open at the same time."""
        first, started = self.term, time.perf_counter()
        for _ in range(AT_ONCE):
            self.ask()
        for place in range(VOTES):
            require(self.vote() == first + place + 1, "a vote is of another term")
            if place + AT_ONCE < VOTES:
                self.ask()
        return (time.perf_counter() - started) / VOTES


def vote_rows(program, keeps, folder):
    """Compares the votes of an arbitrator with writes of the host alone. Their rounds alternate on one disk."""
    with made(program, f"{folder}/cluster", (TICKET,)) as cluster:
        own, _, voter = cluster.members
        with heard_at(own.address) as hearer:
            cluster.start(2)
            site = Site(own, voter, hearer)
            site.round()
            before = number(voter, TICKET)
            rounds = [(site.round(), host_round(keeps, f"{folder}/alone")[0]) for _ in range(ROUNDS)]
            kept = (number(voter, TICKET) - before) / (ROUNDS * VOTES)
            vote, keep = map(min, zip(*rounds))
            yield Row("writes of a record per vote", f"{kept:.2f}")
            yield Row("votes a second by an arbitrator", f"{1 / vote:,.0f} (writes alone: {1 / keep:,.0f})")
            yield at_least("ratio of this speed to that of the writes alone", keep / vote, f"{keep / vote:.2f}", 0.8)
            yield restart_row(cluster, voter, site)


def restart_row(cluster, voter, site):
    """Measures the time from the exec of a voter that was killed to its next vote."""
    took = []
    for _ in range(RESTARTS):
        voter.kill()
        words = [cluster.program, "daemon", "-c", cluster.conf, "-s", voter.address]
        words += ["-l", f"{voter.folder}/lock", "-d", voter.records]
        started = time.perf_counter()
        with subprocess.Popen(words, stdin=subprocess.DEVNULL) as process:
            try:
                took.append(answered(site) - started)
            finally:
                process.kill()
    shown = f"{statistics.median(took) * 1e3:.1f} ms (lowest: {min(took) * 1e3:.1f} ms)"
    return below("from the start of a voter to its first vote", statistics.median(took) * 1e3, shown, 10, "ms")


def answered(site):
    """Asks until a vote comes, and returns the time at which it came."""
    first, end = site.term + 1, time.monotonic() + SECONDS_TO_ANSWER
    site.hearer.settimeout(0.0005)
    while time.monotonic() < end:
        site.ask()
        # (a vote of an earlier term was sent by the process that was killed)
        with contextlib.suppress(socket.timeout):
            while site.vote() < first:
                pass
            return time.perf_counter()
    raise NotServing("a voter gives no vote after its start")


def main(words):
    end_by_signals()
    program, keeps = words if len(words) == 2 else (built_program(), TRIALS)
    if program is None or not os.access(keeps, os.X_OK):
        sys.exit("promises.py: boothd or trials is not built: make build and rt ci leave them")
    program, keeps = os.path.abspath(program), os.path.abspath(keeps)
    with tempfile.TemporaryDirectory(prefix="booth-bench-") as folder:
        try:
            rows = list(vote_rows(program, keeps, f"{folder}/votes"))
            keep = min(host_round(keeps, f"{folder}/keeps")[0] for _ in range(ROUNDS))
            rows += cluster_rows(program, f"{folder}/many", keep)
            rows += renewal_rows(program, f"{folder}/few")
        except (NotServing, OSError, subprocess.CalledProcessError) as why:
            sys.exit(f"promises.py: {why}")
    return print_table(rows)


if __name__ == "__main__":
    sys.exit(main(sys.argv[1:]))
