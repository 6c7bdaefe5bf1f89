#!/usr/bin/env python3
"""Floods the holder of tickets with datagrams, and looks at its renewals, its commands, and what the system drops.

Run it as `python3 tests/floods.py [BOOTH [BOOTHD]] [--rate N ..] [--seconds N] [--kind KIND ..]`. By default the
programs are what `make build` leaves, the rate is 200,000 a second, a flood lasts 11 seconds, and it tries each kind. It
takes a minute, prints a line for each flood with what it measured, ends all that it started, and has the status 1 if a
check failed. If a program is not built, or there is no cc, it checks nothing, with status 0. `taskset -c 0,1` before it
makes the members and the senders share two processors.

Three senders (tests/flooding.c) share the rate of a flood:

    wrong        requests with a wrong MAC, from three ports
    replay       a request that was recorded, which the holder answers each time
    arbitrator   requests with a wrong MAC that forge the arbitrator's address and port; only root can send them
    site         the same with the other site's address. Commands then ask only the flooded site, since it hears little
                 of what the other one does
"""

import argparse
import contextlib
import os
import shutil
import socket
import subprocess
import sys
import threading
import time
from typing import Dict, Iterator, List, NamedTuple

HERE = os.path.dirname(os.path.abspath(__file__))
TOP = os.path.dirname(HERE)
sys.path[:0] = [HERE, f"{TOP}/tools"]

import frames
from checks import Wrong, need
from devices import LeftOut
from members import Cluster, Member, Times, now, wait_for
from scratch import scratch
from serving import NotServing, built_program, end_by_signals, own_addresses

KEY = b"a-key-of-the-cluster"
TIMES = Times(expire=8, timeout=1, retries=3, renewal=5)
TICKETS = tuple(b"ticket-%d" % number for number in range(4))
# a further ticket, which is granted, moved and revoked during the flood
SPARE = b"spare"
SENDERS = 3
# in seconds: the limit for the answer to a command over TCP, the additional time on a busy machine, and the interval
# between two reads of the records
SECONDS_OF_COMMAND, SLACK, SECONDS_BETWEEN_LOOKS = 3.0, 10, 0.01
# in seconds: the limit for a list over UDP. Without TCP, a client can only wait
SECONDS_OF_LIST = 0.5


class Flood(NamedTuple):
    """A flood: what is sent, how many datagrams a second, and for how long."""

    kind: str
    rate: int
    seconds: float


KINDS = ("wrong", "replay", "arbitrator", "site")
# the index of the member whose address a flood forges
FORGED = {"arbitrator": 2, "site": 1}


class Renewal(NamedTuple):
    """A renewal: its ticket, and how long after its beginning the lease was on the holder's disk."""

    ticket: bytes
    seconds: float


class Renewals(threading.Thread):
    """Reads the holder's records, and records each renewal and each lease that ended without one."""

    def __init__(self, member: Member) -> None:
        super().__init__(daemon=True)
        self.member, self.renewals, self.lapsed = member, [], []
        self.ends: Dict[bytes, float] = {}
        self.ended = threading.Event()

    def look(self, ticket: bytes) -> None:
        """Reads one record. A lease is counted from the beginning of its renewal, and its record was written after
        that.
        """
        record = self.member.record(ticket)
        if record is None or not record.holds(now()):
            self.lapsed.append(ticket)
            return
        if record.until != self.ends.get(ticket, record.until):
            written = os.stat(self.member.record_path(ticket)).st_mtime
            self.renewals.append(Renewal(ticket, written - (record.until - TIMES.expire)))
        self.ends[ticket] = record.until

    def run(self) -> None:
        """Reads the records until it is ended."""
        while not self.ended.wait(SECONDS_BETWEEN_LOOKS):
            for ticket in TICKETS:
                self.look(ticket)

    def __enter__(self) -> "Renewals":
        self.start()
        return self

    def __exit__(self, *_: object) -> None:
        self.ended.set()
        self.join()

    def told(self, seconds: float) -> str:
        """Returns what was seen in this many seconds. Raises an error for what must not happen."""
        due = len(TICKETS) * int(seconds // TIMES.renewal)
        told = f"{len(self.renewals)} renewals; it printed {self.member.printed().decode()!r}"
        need(not self.lapsed, f"leases have lapsed: {sorted(set(self.lapsed))}; {told}")
        need(len(self.renewals) >= due, f"{len(self.renewals)} renewals, and {due} were due")
        late = sum(renewal.seconds >= TIMES.timeout for renewal in self.renewals)
        slowest = max(renewal.seconds for renewal in self.renewals)
        return f"{len(self.renewals)} renewals, {late} by a second round, the slowest in {slowest * 1000:.0f} ms"


class Commands:
    """Runs commands over TCP at the holder, one after another, and between them asks for lists by datagrams."""

    def __init__(self, booth: str, cluster: Cluster, kind: str) -> None:
        self.booth, self.conf, self.kind = booth, cluster.conf, kind
        self.one, self.two = cluster.members[:2]
        self.took: List[float] = []
        self.wrong: List[str] = []
        self.asked = self.answered = 0

    def run(self, member: Member, *words: str) -> str:
        """Runs booth with these arguments at a member, and records how long it took. Returns what it printed."""
        command = [self.booth, *words, "-s", member.address, "-c", self.conf]
        begun = time.monotonic()
        done = subprocess.run(
            command, env={**os.environ, "BOOTH_TRANSPORT": "tcp"}, stdin=subprocess.DEVNULL, capture_output=True,
            text=True, timeout=60, check=False,
        )  # fmt: skip
        took = time.monotonic() - begun
        self.took.append(took)
        if done.returncode != 0 or took > SECONDS_OF_COMMAND:
            told = f"{' '.join(words)}: status {done.returncode} after {took:.1f} s"
            self.wrong.append(f"{told}: {done.stdout.strip()} {done.stderr.strip()}")
        return done.stdout

    def ask(self) -> None:
        """Asks for a list by one datagram."""
        self.asked += 1
        with socket.socket(socket.AF_INET, socket.SOCK_DGRAM) as asker:
            asker.settimeout(SECONDS_OF_LIST)
            asker.connect((self.one.address, frames.PORT))
            asker.send(frames.request_now("CLst", self.asked, key=KEY))
            with contextlib.suppress(socket.timeout):
                asker.recv(frames.FRAME_BYTES)
                self.answered += 1

    def run_until(self, end: float) -> None:
        """Continues until this moment."""
        one, two, spare = self.one, self.two, SPARE.decode()
        rows = [(one, "grant", "-w", spare), (one, "revoke", "-w", spare)]
        if self.kind != "site":
            rows[1:] = [(one, "move", "-w", spare, two.address), (two, "revoke", "-w", spare)]
        while time.monotonic() < end:
            for member, *words in rows:
                self.run(member, *words)
                self.ask()
            # (the flooded site learns a little later that the other site has released the ticket)
            wait_for(lambda: f"{spare}, leader: none" in self.run(one, "list"), SLACK)

    def told(self) -> str:
        """Returns the results of the commands. Raises an error for what must not happen."""
        need(not self.wrong, f"{len(self.wrong)} of {len(self.took)} commands: {self.wrong[:3]}")
        told = f"{len(self.took)} commands over TCP, the slowest in {max(self.took):.2f} s"
        return f"{told}; {self.answered} of {self.asked} lists over UDP"


def built_sender(folder: str) -> str:
    """Builds the sender, and returns its path."""
    if shutil.which("cc") is None:
        raise LeftOut("there is no cc")
    path = os.path.join(folder, "flooding")
    subprocess.run(["cc", "-O2", "-o", path, f"{HERE}/flooding.c"], check=True)
    return path


def datagram_of(kind: str) -> bytes:
    """Returns the datagram of a flood."""
    request = bytearray(frames.request_now("CLst", 1, key=KEY))
    if kind != "replay":
        request[-frames.AUTH_BYTES + 4] ^= 1
    return bytes(request)


@contextlib.contextmanager
def flooded(sender: str, flood: Flood, to: str, source: str) -> Iterator[List[int]]:
    """Runs a flood in a `with` block. Afterwards the list has the number of datagrams that each sender sent."""
    words = [sender, to, str(flood.rate / SENDERS), *([source] if flood.kind in FORGED else [])]
    sent: List[int] = []
    running = [subprocess.Popen(words, stdin=subprocess.PIPE, stdout=subprocess.PIPE) for _ in range(SENDERS)]
    try:
        for process in running:
            process.stdin.write(datagram_of(flood.kind))
            process.stdin.close()
        yield sent
    finally:
        for process in running:
            process.terminate()
        for process in running:
            sent.append(int(process.stdout.read() or 0))
            process.stdout.close()
            process.wait()


def dropped_by_source(address: str) -> Dict[str, int]:
    """Returns how many datagrams the system dropped before each socket at this address, by its peer: `any` if it has
    none."""
    local = socket.inet_aton(address)[::-1].hex().upper() + f":{frames.PORT:04X}"
    with open("/proc/net/udp", encoding="ascii") as file:
        lines = [line.split() for line in file]
    found = {}
    for words in lines:
        if words[1] == local:
            peer = socket.inet_ntoa(bytes.fromhex(words[2].split(":")[0])[::-1])
            found["any" if peer == "0.0.0.0" else peer] = int(words[-1])
    return found


def processor_seconds(member: Member) -> float:
    """Returns the processor time of a member's daemon."""
    with open(f"/proc/{member.server.process.pid}/stat", encoding="ascii") as file:
        fields = file.read().rpartition(")")[2].split()
    return (int(fields[11]) + int(fields[12])) / os.sysconf("SC_CLK_TCK")


def begin(cluster: Cluster) -> Member:
    """Starts a cluster, and returns its first site, which holds each ticket but the spare one."""
    cluster.remember()
    cluster.start()
    one = cluster.members[0]
    for ticket in TICKETS:
        need(one.about("CGnt", ticket) in ("ok", "Asyn"), "a grant is not taken")
    is_held = wait_for(lambda: all(one.record(ticket).holds(now()) for ticket in TICKETS), SLACK)
    need(is_held, "the granted tickets are not held")
    return one


def through_a_flood(cluster: Cluster, booth: str, sender: str, flood: Flood) -> str:
    """Floods the holder, and returns what was measured."""
    if flood.kind in FORGED and os.geteuid() != 0:
        raise LeftOut("only root can forge an address")
    one, source = begin(cluster), cluster.members[FORGED.get(flood.kind, 0)].address
    commands, cpu, began = Commands(booth, cluster, flood.kind), processor_seconds(one), time.monotonic()
    with flooded(sender, flood, one.address, source) as sent, Renewals(one) as renewals:
        commands.run_until(began + flood.seconds)
        took = time.monotonic() - began
    used = (processor_seconds(one) - cpu) / took
    told = f"{sum(sent) / took:,.0f} a second sent, {used * 100:.0f} % of a processor"
    drops = ", ".join(f"{count:,} from {peer}" for peer, count in dropped_by_source(one.address).items())
    print(f"   {flood.kind}: {told}; dropped by the system: {drops}", flush=True)
    need(not cluster.watch.wrong, f"two held: {cluster.watch.wrong[:3]}")
    return f"{renewals.told(took)}; {commands.told()}"


def passes(flood: Flood, booth: str, boothd: str) -> bool:
    """Runs a flood, and prints its line. Returns whether the holder kept its tickets and answered."""
    name = f"{flood.rate:,} {flood.kind} datagrams a second for {flood.seconds:.0f} s"
    with scratch("booth-floods-") as folder:
        try:
            sender = built_sender(folder)
            addresses = [address for _, address in zip(range(3), own_addresses())]
            with Cluster(boothd, folder, addresses, TIMES, KEY, tickets=(*TICKETS, SPARE)) as cluster:
                print(f"ok: {name}: {through_a_flood(cluster, booth, sender, flood)}", flush=True)
        except LeftOut as why:
            print(f"tests/floods.py: {name}: not checked: {why}", flush=True)
        except (Wrong, NotServing, OSError, subprocess.SubprocessError) as why:
            print(f"WRONG: {name}: {why}", flush=True)
            return False
    return True


def main(words: List[str]) -> int:
    """Runs the floods, and returns the status."""
    end_by_signals()
    parser = argparse.ArgumentParser()
    parser.add_argument("--rate", type=int, nargs="*", default=[200_000])
    parser.add_argument("--seconds", type=float, default=11)
    parser.add_argument("--kind", choices=KINDS, nargs="*", default=KINDS)
    parser.add_argument("booth", nargs="?", default=built_program("booth"))
    parser.add_argument("boothd", nargs="?", default=built_program("boothd"))
    asked = parser.parse_args(words)
    if asked.booth is None or asked.boothd is None:
        print("tests/floods.py: a program is not built, so nothing was checked")
        return 0
    floods = [Flood(kind, rate, asked.seconds) for rate in asked.rate for kind in asked.kind]
    programs = os.path.abspath(asked.booth), os.path.abspath(asked.boothd)
    return 0 if all([passes(flood, *programs) for flood in floods]) else 1


if __name__ == "__main__":
    sys.exit(main(sys.argv[1:]))
