#!/usr/bin/env python3
"""Gives daemons a slow disk, few open files and a file system that takes no writes, and counts the syncs of a write.

Run it as `python3 tests/pressure.py [--long] [BOOTHD [TRIALS]]`. By default the programs are those that `make build`
and the gate leave. It takes a minute and a half, with --long four minutes. It prints a line for each check, ends all
programs that it started, and has the status 1 if a check failed. It prints a line about each check that this machine
does not allow, or has no program for.

Only the daemon has a slow disk: a library replaces fsync and fdatasync of the C library (LD_PRELOAD).
"""

import concurrent.futures
import contextlib
import itertools
import os
import random
import resource
import socket
import subprocess
import sys
import time
from typing import Callable, Dict, Iterator, List, NamedTuple, Optional

HERE = os.path.dirname(os.path.abspath(__file__))
TOP = os.path.dirname(HERE)
sys.path[:0] = [HERE, f"{TOP}/tools"]

import frames
from checks import Wrong, need
from devices import LeftOut
from members import TICKET, Cluster, Member, Times, now, path_in, wait_for
from scratch import scratch
from serving import NotServing, built_program, end_by_signals, own_addresses
from slow_disk import CountedHost, SlowDisk, counted

SECONDS_OF_A_RUN, SECONDS_BETWEEN_LOOKS, SLACK = 10, 0.1, 10
SEED = 9929
# how long a slow disk is watched, in lifetimes of a lease
LIFETIMES = 3
# the limit of open files of a daemon, and the links that it then accepts
FILES, LINKS_OPENED = 16, 10
# by docs/SIZING.md: the open files of the daemon, of three members, and of two links
FILES_OF_TWO_LINKS = 24 + 3 + 4
# the number of counted writes, and the syncs of each
WRITES, SYNCS_OF_A_WRITE = 10, 3
# the number of prepared tickets; the time of a slow sync, and that of a sync while members renew, in seconds
TICKETS, SLOW_SYNC, RENEWAL_SYNC = 40, 0.15, 0.03


class Programs(NamedTuple):
    """The tested programs, each None if it is not built, and whether the long rows run."""

    boothd: Optional[str]
    trials: Optional[str]
    is_long: bool


class Row(NamedTuple):
    """The times of a ticket, how long a sync takes at its holder, both in seconds, and whether the holder keeps the
    ticket.
    """

    expire: int
    renewal: int
    sync: float
    goes_on: bool


ROWS = (Row(10, 5, 0.5, True), Row(10, 5, 0.7, False), Row(10, 5, 0.9, False), Row(20, 8, 1.6, False))
LONG_ROWS = (Row(60, 30, 5.0, False),)


def boothd_of(programs: Programs) -> str:
    """Returns the daemon's program."""
    if programs.boothd is None:
        raise LeftOut("boothd is not built")
    return programs.boothd


def holds_by_its_list(member: Member) -> Optional[bool]:
    """Returns whether a site lists itself as the holder of a lease that lasts a second or more, or None if it does not
    answer.
    """
    answer = member.ask("CLst")
    if answer is None:
        return None
    for line in answer.body.decode().splitlines():
        name, owner, *rest = line.split(" ")
        if name == TICKET.decode():
            return owner == member.address and int(rest[0]) >= now() + 1
    return False


class Looks:
    """The times at which a site gained the ticket and lost it, by its own list."""

    def __init__(self, member: Member) -> None:
        self.member, self.gains, self.holds, self.last = member, [], None, 0.0

    def look(self) -> None:
        """Asks for the list once."""
        holds = holds_by_its_list(self.member)
        if holds is None:
            return
        self.last = time.monotonic()
        if holds and self.holds is False:
            self.gains.append(self.last)
        self.holds = holds

    def look_until(self, end: float) -> None:
        """Asks for the list again and again until this moment."""
        while time.monotonic() < end:
            self.look()
            time.sleep(SECONDS_BETWEEN_LOOKS)

    def shortest_change(self) -> float:
        """Returns the shortest time between two gains, or infinity if there are not two."""
        return min((later - earlier for earlier, later in zip(self.gains, self.gains[1:])), default=float("inf"))


def begin_slowly(cluster: Cluster, slow: SlowDisk) -> None:
    """Starts a cluster whose first site has the slow disk, and has it hold the ticket."""
    cluster.remember()
    one = cluster.members[0]
    one.start(slow.program, cluster.conf)
    cluster.start(1, 2)
    granted = one.about("CGnt")
    is_held = wait_for(lambda: cluster.shown_by_all() == one.address, SLACK)
    need(is_held, f"a grant is told {granted}: {one.printed()}")


def through_a_slow_disk(folder: str, boothd: str, row: Row, addresses: List[str]) -> str:
    """Makes the holder's disk slow. Returns what happened to the ticket."""
    times, slow = Times(expire=row.expire, timeout=1, retries=3, renewal=row.renewal), SlowDisk(folder, boothd)
    with Cluster(boothd, folder, addresses, times) as cluster:
        begin_slowly(cluster, slow)
        one, two, _ = cluster.members
        sites = [Looks(one), Looks(two)]
        slow.sync_takes(row.sync)
        begun = time.monotonic()
        with concurrent.futures.ThreadPoolExecutor() as looking:
            runs = [looking.submit(site.look_until, begun + LIFETIMES * row.expire) for site in sites]
            for run in runs:
                run.result()
        # (a member that waits for its disk answers late)
        slow.sync_takes(0)
        told = one.printed().decode()
        need(not cluster.watch.wrong, f"two held: {cluster.watch.wrong[:3]}")
    return judged(row, sites, begun, told)


def judged(row: Row, sites: List[Looks], begun: float, told: str) -> str:
    """Returns what became of the ticket, and refuses what must not."""
    one, two = sites
    gains = {site.member.address: [round(gain - begun, 1) for gain in site.gains] for site in sites}
    for site in sites:
        need(site.shortest_change() >= row.expire, f"{row}: it changes more often than that: {gains}")
    if row.goes_on and not two.gains:
        need(one.holds, f"{row}: nobody holds")
        return f"{row.expire}/{row.renewal}, {row.sync} s: the holder goes on"
    need(two.gains and two.holds, f"{row}: the other site does not hold: {gains}: {told}")
    took = two.gains[0] - begun
    need(took <= 2 * row.expire, f"{row}: the other site holds after {took:.1f} s")
    need("and a write may take" in told, f"{row}: no line tells of it: {told}")
    return f"{row.expire}/{row.renewal}, {row.sync} s: the other site holds after {took:.1f} s"


def a_holder_with_a_slow_disk_passes_its_ticket_on(folder: str, programs: Programs) -> str:
    """A holder with a slow disk loses its ticket: if its first write is late, it asks nobody to extend a promise."""
    boothd, rows = boothd_of(programs), ROWS + (LONG_ROWS if programs.is_long else ())
    addresses = itertools.islice(own_addresses(), 3 * len(rows))
    groups = zip(*[addresses] * 3)
    folders = [os.path.join(folder, str(place)) for place in range(len(rows))]
    for each in folders:
        os.mkdir(each)
    with concurrent.futures.ThreadPoolExecutor(len(rows)) as running:
        told = running.map(through_a_slow_disk, folders, itertools.repeat(boothd), rows, map(list, groups))
        return "; ".join(told)


@contextlib.contextmanager
def write_limit(value: Optional[str]) -> Iterator[None]:
    """Gives daemons that are started in the block this limit in their environment, or none."""
    os.environ.update({"BOOTH_WRITE_LIMIT": value} if value is not None else {})
    try:
        yield
    finally:
        os.environ.pop("BOOTH_WRITE_LIMIT", None)


def a_limit_in_the_environment_counts(folder: str, programs: Programs) -> str:
    """A limit in the environment replaces that of the times. 0 is no limit, and a value that is no number has a line.
    """
    boothd, times = boothd_of(programs), Times(expire=8, timeout=1, retries=3, renewal=5)
    addresses = itertools.islice(own_addresses(), 130, 142)
    late, wrong = "ms, and a write may take %d ms", "BOOTH_WRITE_LIMIT is no number of milliseconds"
    rows = ((None, 0.4, late % 1000), ("200", 0.1, late % 200), ("0", 0.4, None), ("x", 0, wrong))
    for value, sync, words in rows:
        room = os.path.join(folder, str(value))
        os.mkdir(room)
        slow = SlowDisk(room, boothd)
        slow.sync_takes(sync)
        cluster = Cluster(boothd, room, list(itertools.islice(addresses, 3)), times)
        with write_limit(value), cluster:
            cluster.remember()
            cluster.members[0].start(slow.program, cluster.conf)
            cluster.start(1, 2)
            one = cluster.members[0]
            one.about("CGnt")
            if words is None:
                is_so = wait_for(lambda: holds_by_its_list(one), SLACK) and not one.printed()
            else:
                is_so = wait_for(lambda: words in one.printed().decode(), SLACK)
            need(is_so, f"{value}: {one.printed()}")
    return f"{len(rows)} limits"


def few_open_files_leave_the_lease_alone(folder: str, programs: Programs) -> str:
    """Links over TCP take none of the open files that records, lines and the clock need."""
    boothd, times = boothd_of(programs), Times(expire=8, timeout=1, retries=3, renewal=5)

    def limit_files() -> None:
        resource.setrlimit(resource.RLIMIT_NOFILE, (FILES, FILES))

    addresses = list(itertools.islice(own_addresses(), 100, 103))
    with Cluster(boothd, folder, addresses, times) as cluster, contextlib.ExitStack() as opened:
        cluster.remember()
        one = cluster.members[0]
        one.prepare = limit_files
        cluster.start()
        one.about("CGnt")
        need(wait_for(lambda: cluster.shown_by_all() == one.address, SLACK), f"a grant: {one.printed()}")
        for _ in range(LINKS_OPENED):
            opened.enter_context(socket.create_connection((one.address, frames.PORT)))
        ends, end = set(), time.monotonic() + 2 * times.expire
        while time.monotonic() < end:
            need(one.record().holds(now()), f"the lease is lost: {one.printed()}")
            ends.add(one.record().until)
            time.sleep(SECONDS_BETWEEN_LOOKS)
        told = one.printed().decode()
    need("leaves room for 0 links over TCP, and not for 16" in told, f"no line tells of it: {told}")
    return f"{len(ends) - 1} renewals with {FILES} open files and {LINKS_OPENED} links"


def links_are_served_within_the_limit(folder: str, programs: Programs) -> str:
    """With some more files some links are served, and the next peer gets the place of the link that is idle longest."""
    boothd = boothd_of(programs)
    address = next(itertools.islice(own_addresses(), 110, None))
    conf = os.path.join(folder, "booth.conf")
    with open(conf, "w", encoding="ascii") as file:
        file.write(f'site = "{address}"\nsite = "192.0.2.1"\narbitrator = "192.0.2.2"\nticket = "{TICKET.decode()}"\n')
    member = Member("site", address, os.path.join(folder, "member"))
    member.prepare = lambda: resource.setrlimit(resource.RLIMIT_NOFILE, (FILES_OF_TWO_LINKS, FILES_OF_TWO_LINKS))
    member.start(boothd, conf)
    try:
        with contextlib.ExitStack() as opened:
            for number in range(LINKS_OPENED):
                link = opened.enter_context(socket.create_connection((address, frames.PORT), SLACK))
                link.sendall(frames.request_now("CLst", number + 1))
                # (a link that was answered keeps its place for two seconds)
                need(link.recv(frames.HEAD_BYTES), f"link {number + 1} is closed: {member.printed()}")
        told = member.printed().decode()
    finally:
        member.kill()
    need("leaves room for 2 links over TCP, and not for 16" in told, f"no line tells of it: {told}")
    return f"{LINKS_OPENED} peers over two links"


@contextlib.contextmanager
def mounted(place: str) -> Iterator[Callable[[str], None]]:
    """Mounts a file system of its own at this place. Returns a function that mounts it again with an option."""

    def mount(*words: str) -> None:
        try:
            done = subprocess.run(["mount", *words, place], capture_output=True, text=True, check=False)
        except OSError as why:
            raise LeftOut(f"mount: {why}") from why
        if done.returncode != 0:
            raise LeftOut(f"this user may not mount a tmpfs: {done.stderr.strip()}")

    os.makedirs(place, mode=0o700)
    mount("-t", "tmpfs", "-o", "size=1m", "tmpfs")
    try:
        yield lambda option: mount("-o", f"remount,{option}")
    finally:
        subprocess.run(["umount", "-l", place], check=False)


def content_of(path: str) -> bytes:
    """Returns the bytes of a file."""
    with open(path, "rb") as file:
        return file.read()


def is_granted(member: Member) -> bool:
    """Returns whether a site gets the ticket that it is granted, within two seconds."""
    member.about("CGnt")
    return bool(wait_for(lambda: member.record().holds(now()), 2))


def a_file_system_that_takes_no_writes_is_no_vote(folder: str, programs: Programs) -> str:
    """On a file system that takes no writes a member starts, prints a line and answers, but votes only when it can
    write.
    """
    boothd, times = boothd_of(programs), Times(expire=8, timeout=1, retries=3, renewal=5)
    addresses = list(itertools.islice(own_addresses(), 120, 123))
    with Cluster(boothd, folder, addresses, times) as cluster:
        one, two, three = cluster.members
        with mounted(one.records) as mount_anew:
            cluster.remember()
            cluster.start()
            two.about("CGnt")
            need(wait_for(lambda: cluster.shown_by_all() == two.address, SLACK), "it is not granted")
            need(wait_for(lambda: one.record().term > 0, SLACK), "the member does not vote")
            one.kill()
            os.remove(os.path.join(one.records, "booth.clock"))
            mount_anew("ro")
            path = path_in(one.records, TICKET)
            before = content_of(path)
            one.start(boothd, cluster.conf)
            told = one.printed().decode()
            need("takes no writes, so this member votes for nobody" in told, f"no line tells of it: {told}")
            three.kill()
            lost = wait_for(lambda: not two.record().holds(now()), times.expire + times.guard() + SLACK)
            need(lost and content_of(path) == before, f"it votes: {one.printed()}")
            mount_anew("rw")
            held = wait_for(lambda: is_granted(two), 3 * SLACK)
            need(held and os.path.exists(os.path.join(one.records, "booth.clock")), f"no vote: {one.printed()}")
            need(not cluster.watch.wrong, f"two held: {cluster.watch.wrong[:3]}")
            one.kill()
    return "it answers, and the other site loses its lease without it"


def run_keeps(
    programs: Programs, directory: str, count: int, environ: Optional[Dict[str, str]] = None
) -> "subprocess.CompletedProcess[str]":
    """Returns a run of `trials keeps`."""
    if programs.trials is None:
        raise LeftOut("trials is not built")
    how = {"stdin": subprocess.DEVNULL, "capture_output": True, "text": True, "timeout": SECONDS_OF_A_RUN}
    return subprocess.run([programs.trials, "keeps", directory, str(count)], env=environ, **how)


def a_write_without_a_pause_has_three_syncs(folder: str, programs: Programs) -> str:
    """A write without a pause has three syncs. (The file was synced before, and a sync of nothing is not made.)"""
    noted, counts = os.path.join(folder, "syncs"), []
    environ = counted(folder, noted)
    for count in (WRITES, 2 * WRITES):
        with contextlib.suppress(FileNotFoundError):
            os.remove(noted)
        done = run_keeps(programs, os.path.join(folder, f"of-{count}"), count, environ)
        need(done.returncode == 0, f"{count} writes: {done.stderr}")
        counts.append(os.path.getsize(noted))
    each = (counts[1] - counts[0]) / WRITES
    need(each == SYNCS_OF_A_WRITE, f"{each} syncs a write: {counts}")
    return f"{counts[0]} syncs in {WRITES} writes in a new directory, {counts[1]} in {2 * WRITES}"


def a_write_after_a_pause_has_two_syncs(folder: str, programs: Programs) -> str:
    """A write after a pause has two syncs, since the third one is made in the pause. The pause makes none if the call
    may not wait as long as the last write or preparation took.
    """
    one, other = TICKET, b"another"
    with CountedHost(folder, programs.trials) as host:
        for ticket in (one, one, other, other):
            host.of_keep(ticket)
        steps = (
            ("two pauses", host.of_wait(1000) + host.of_wait(1000), 2),
            ("a keep, another, and a third at once", host.of_keep(one) + host.of_keep(other) + host.of_keep(one), 7),
            ("a call that may not wait", host.of_wait(0), 0),
            ("three pauses, of which the last has nothing to do", sum(host.of_wait(1000) for _ in range(3)), 2),
            ("a keep", host.of_keep(one), 2),
            ("a slow keep", host.of_keep(other, SLOW_SYNC), 2),
            ("a pause that is shorter", host.of_wait(100, SLOW_SYNC), 0),
            ("a pause that is longer", host.of_wait(1000, SLOW_SYNC), 1),
            ("a keep that was prepared, and a quick one", host.of_keep(one) + host.of_keep(one), 5),
            ("a preparation that is slow", host.of_wait(500, 4 * SLOW_SYNC), 1),
            ("the next pause", host.of_wait(500), 0),
        )
    for name, found, wanted in steps:
        need(found == wanted, f"{name}: {found} syncs, and not {wanted}")
    return f"{len(steps)} steps"


def many_tickets_are_prepared_one_by_one(folder: str, programs: Programs) -> str:
    """Each pause prepares one ticket's record, so a message that arrives waits for at most one sync."""
    tickets = [b"ticket-%d" % number for number in range(TICKETS)]
    with CountedHost(folder, programs.trials) as host:
        for ticket in 2 * tickets:
            host.of_keep(ticket)
        pauses = [host.of_wait(1000) for _ in range(TICKETS + 1)]
        need(pauses == [1] * TICKETS + [0], f"syncs of pauses: {pauses}")
        keeps = [host.of_keep(ticket) for ticket in tickets]
        need(keeps == [2] * TICKETS, f"syncs of keeps: {keeps}")
    return f"{TICKETS} tickets"


def renewals_heard_at(address: str, seconds: float) -> List[float]:
    """Returns how long each renewal took, from its first turn to the update about the lease, which arrives here."""
    opened: Dict[bytes, float] = {}
    took, end = [], time.monotonic() + seconds
    with socket.socket(socket.AF_INET, socket.SOCK_DGRAM) as hearer:
        hearer.bind((address, frames.PORT))
        hearer.settimeout(SLACK)
        while time.monotonic() < end:
            came, moment = hearer.recv(frames.FRAME_BYTES), time.time()
            head, ticket = frames.Head.read(came), came[frames.HEAD_BYTES : frames.HEAD_BYTES + 64]
            if head.cmd == frames.code("HrtB"):
                opened.setdefault(ticket, head.millis() / 1000)
            elif head.cmd == frames.code("UpdE") and ticket in opened:
                took.append(moment - opened.pop(ticket))
    return took


def a_renewal_waits_for_two_syncs_of_each_member(folder: str, programs: Programs) -> str:
    """A renewal waits for two syncs of the holder, then of the voter, then of the holder. The third member is this
    program.
    """
    slow, times = SlowDisk(folder, boothd_of(programs)), Times(expire=10, timeout=1, retries=3, renewal=5)
    tickets = tuple(b"ticket-%d" % number for number in range(4))
    addresses = list(itertools.islice(own_addresses(), 150, 153))
    with Cluster(slow.program, folder, addresses, times, tickets=tickets) as cluster:
        cluster.remember()
        cluster.start(0, 1)
        one = cluster.members[0]
        slow.sync_takes(RENEWAL_SYNC)
        for ticket in tickets:
            one.about("CGnt", ticket)
            time.sleep(times.renewal / len(tickets))
        took = renewals_heard_at(addresses[2], 2 * times.renewal)
        told = one.printed().decode()
    need(len(took) >= len(tickets), f"{len(took)} renewals: {told}")
    syncs = min(took) / RENEWAL_SYNC
    # (with three syncs for each it would be nine; the clocks of the two programs differ by a millisecond or two)
    need(5.5 < syncs < 7, f"the quickest of {len(took)} renewals took {syncs:.1f} syncs: {told}")
    return f"{syncs:.2f} syncs in the quickest of {len(took)} renewals"


def bytes_of_no_record_are_told(folder: str, programs: Programs) -> str:
    """At a start the daemon prints a line about bytes that no write leaves, and none about other files."""
    chance, path = random.Random(SEED), os.path.join(folder, "records", TICKET.hex() + ".rec")
    need(run_keeps(programs, os.path.dirname(path), 0).returncode == 0, "a run in a new directory")
    cut_short = bytes(136) + bytes(range(1, 73)) + bytes(8)
    files = {
        "400 random bytes": (bytes(2 + chance.randrange(254) for _ in range(400)), True),
        "100 random bytes": (bytes(2 + chance.randrange(254) for _ in range(100)), True),
        "a byte between two slots": (bytes(50) + b"x", True),
        "nothing": (b"", False),
        "zeros": (bytes(336), False),
        "a write that was cut short": (cut_short, False),
    }
    for name, (content, is_told) in files.items():
        with open(path, "wb") as file:
            file.write(content)
        done = run_keeps(programs, os.path.dirname(path), 0)
        line = f"the file of ticket {TICKET.decode()} keeps no record, and has bytes that no write leaves\n"
        found = (done.returncode, done.stdout, line in done.stderr)
        need(found == (0, "read 0\n", is_told), f"{name}: {found}: {done.stderr}")
    return f"{len(files)} files"


CHECKS = (
    a_write_without_a_pause_has_three_syncs,
    a_write_after_a_pause_has_two_syncs,
    many_tickets_are_prepared_one_by_one,
    a_renewal_waits_for_two_syncs_of_each_member,
    bytes_of_no_record_are_told,
    few_open_files_leave_the_lease_alone,
    links_are_served_within_the_limit,
    a_file_system_that_takes_no_writes_is_no_vote,
    a_limit_in_the_environment_counts,
    a_holder_with_a_slow_disk_passes_its_ticket_on,
)


def passes(check: Callable[[str, Programs], str], programs: Programs) -> bool:
    """Returns whether a check passed. Prints its line."""
    name = check.__name__.replace("_", " ")
    with scratch("booth-pressure-") as folder:
        try:
            print(f"ok: {name}: {check(folder, programs)}", flush=True)
        except LeftOut as why:
            print(f"tests/pressure.py: {name}: not checked: {why}", flush=True)
        except (Wrong, NotServing, OSError, subprocess.SubprocessError) as why:
            print(f"WRONG: {name}: {why}", flush=True)
            return False
    return True


def main(words: List[str]) -> int:
    """Runs the checks, and returns the status."""
    end_by_signals()
    paths = [os.path.abspath(word) for word in words if word != "--long"] + [None] * 2
    programs = Programs(paths[0] or built_program(), paths[1] or built_program("trials"), "--long" in words)
    return 0 if all([passes(check, programs) for check in CHECKS]) else 1


if __name__ == "__main__":
    sys.exit(main(sys.argv[1:]))
