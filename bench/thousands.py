#!/usr/bin/env python3
"""Measures three proved boothd on loopback with 4,096 tickets: starts, memory, lists, renewals, a takeover of all.

Run it as `python3 bench/thousands.py [BOOTHD BOOTH [TICKETS]]`. By default the programs are those that `make build`
leaves. It prints one table in four minutes. Its status is 1 if a mark is missed by more than a tenth. All members run
on this machine, and write to its disk.

The bench also counts the datagrams that the system drops at the sockets, to compare programs with and without a
backlog.
"""

import itertools
import os
import statistics
import sys
import tempfile
import time

HERE = os.path.dirname(os.path.abspath(__file__))
sys.path[:0] = [HERE, f"{HERE}/../tools"]

from members import Cluster, Times, now, wait_for
from rows import Row, all_of, below, told
from run import KEY, cpu_seconds, lost_datagrams, require, status_field
from serving import NotServing, boothd, built_program, end_by_signals, own_addresses
from texts import long_text

TICKETS = 4_096
# a lease of a minute, which is renewed every half minute
TIMES = Times(expire=60, timeout=5, retries=3, renewal=30)
STARTS, LISTS = 3, 1_000
# how long the bench waits after a start, until the members have exchanged their states, in seconds
SECONDS_TO_REST = 3
MOST_TEXT = 16 << 20
MEGABYTE = 1_000_000

ADDRESSES = own_addresses()


def names(count, length=20):
    """Returns `count` names of tickets, each of `length` bytes."""
    return [b"ticket-%06d-" % number + b"x" * (length - 14) for number in range(count)]


def held(member, tickets):
    """Returns how many of the tickets the member holds according to its records."""
    moment = now()
    records = (member.record(ticket) for ticket in tickets)
    return sum(record is not None and record.holds(moment) for record in records)


def syncs_a_second(folder):
    """Returns how many small writes, each with a sync, the disk completes per second."""
    path, count = os.path.join(folder, "probe"), 0
    with open(path, "wb", buffering=0) as file:
        before = time.monotonic()
        while time.monotonic() < before + 1:
            os.pwrite(file.fileno(), b"x" * 64, 0)
            os.fdatasync(file.fileno())
            count += 1
    os.unlink(path)
    return count


def one_list(words, path):
    """Runs booth with its output in a file. Returns how long it takes, in milliseconds, and the number of lines."""
    into = [(os.POSIX_SPAWN_OPEN, 1, path, os.O_WRONLY | os.O_CREAT | os.O_TRUNC, 0o600)]
    before = time.perf_counter()
    _, status = os.waitpid(os.posix_spawn(words[0], words, os.environ, file_actions=into), 0)
    took = (time.perf_counter() - before) * 1e3
    with open(path, "rb") as file:
        return took, 0 if status else file.read().count(b"\n")


def list_rows(member, count):
    """Measures `booth list`, and counts the lists that have every ticket."""
    words = [member.client, "list", "-c", member.conf, "-s", member.address]
    runs = [one_list(words, os.path.join(member.folder, "list")) for _ in range(LISTS)]
    took = sorted(millis for millis, _ in runs)
    middle, late = statistics.median(took), took[len(took) * 99 // 100]
    shown = f"{middle:.1f} ms (lowest: {took[0]:.1f}; 99 of 100: {late:.1f})"
    yield below(f"booth list of {count:,} tickets, from exec to exit", middle, shown, 10, "ms")
    yield all_of("complete lists", sum(lines == count for _, lines in runs), LISTS)


def start_row(cluster, place, count):
    """Measures starts of a member that has a record of each ticket."""
    member, took = cluster.members[place], []
    for _ in range(STARTS):
        member.kill()
        before = time.monotonic()
        cluster.start(place)
        took.append(time.monotonic() - before)
    shown = f"{statistics.median(took):.2f} s (lowest: {min(took):.2f} s)"
    return Row(f"from start to first answer, {count:,} records", shown)


def full_row(program, folder):
    """Returns the memory of a member with the longest configuration: 4,096 tickets with all keys."""
    address, key_file, conf = next(ADDRESSES), os.path.join(folder, "key"), os.path.join(folder, "full.conf")
    with open(key_file, "wb") as file:
        file.write(KEY)
    with open(conf, "wb") as file:
        file.write(long_text(MOST_TEXT, address, key_file))
    places = ("-l", os.path.join(folder, "lock"), "-d", os.path.join(folder, "records"))
    with boothd(program, conf, address, key=KEY, options=places) as server:
        time.sleep(SECONDS_TO_REST)
        peak = status_field(server.process, "VmHWM") * 1024
        at_rest = status_field(server.process, "VmRSS") * 1024
    shown = f"{peak / MEGABYTE:.1f} MB ({at_rest / MEGABYTE:.1f} MB at rest)"
    return Row("peak memory, 16 MiB of configuration with 4,096 tickets", shown, "below 64 MB", peak / (64 * MEGABYTE))


def grant_all(member, tickets):
    """Grants each ticket, and repeats a grant that fails. Returns how long it took until all were held, in seconds."""
    before = time.monotonic()
    for _ in range(20):
        missing = [ticket for ticket in tickets if not held(member, [ticket])]
        if not missing:
            return time.monotonic() - before
        for ticket in missing:
            member.about("CGnt", ticket)
        wait_for(lambda: held(member, missing) == len(missing), 5)
    raise NotServing(f"{len(missing)} of {len(tickets)} tickets are not granted")


def renewal_rows(members, tickets):
    """Measures the share of a processor of each member, and how many leases are renewed, in one `renewal-freq`."""
    one = members[0]
    first = [one.record(ticket).until for ticket in tickets]
    before = [cpu_seconds(member.server.process) for member in members]
    time.sleep(TIMES.renewal)
    after = [cpu_seconds(member.server.process) for member in members]
    last = [one.record(ticket).until for ticket in tickets]
    renewed, share = sum(old != new for old, new in zip(first, last)), []
    for old, new in zip(before, after):
        share.append(f"{(new - old) / TIMES.renewal * 100:.1f} %")
    yield Row(f"share of a processor, renewals each {TIMES.renewal} s: holder; site; arbitrator", "; ".join(share))
    yield Row(f"leases renewed in these {TIMES.renewal} s", f"{renewed:,} of {len(tickets):,}")


def takeover_rows(members, tickets):
    """Kills the holder of all tickets. Measures the time from the first possible takeover to the last takeover."""
    one, two, voter = members
    ends = [one.record(ticket).until for ticket in tickets]
    lost = [lost_datagrams(member.address) for member in (two, voter)]
    one.kill()
    first = min(ends) + TIMES.guard()
    wait_for(lambda: now() >= first, 2 * TIMES.expire)
    require(wait_for(lambda: held(two, tickets) == len(tickets), 300), f"{held(two, tickets)} were taken over")
    took = now() - first
    spread = max(ends) - min(ends)
    yield Row("time between the first and the last end of a lease", f"{spread:.1f} s")
    mark = 10 + spread
    yield Row("from the first possible takeover to the last takeover", f"{took:.1f} s", f"below {mark:.1f} s", took / mark)
    lost = [lost_datagrams(member.address) - before for member, before in zip((two, voter), lost)]
    yield Row("datagrams that the system dropped then: site; arbitrator", "; ".join(map(str, lost)))


def measured(program, client, folder, count):
    """Measures a cluster with `count` tickets, and then a member with the longest configuration."""
    tickets = names(count)
    addresses = list(itertools.islice(ADDRESSES, 3))
    syncs = syncs_a_second(folder)
    yield Row("syncs of one file a second; a round of all tickets by SIZING.md", f"{syncs:,}; {6 * count / syncs:.1f} s")
    with Cluster(program, folder, addresses, times=TIMES, tickets=tickets, client=client) as made:
        made.remember()
        one = made.members[0]
        yield start_row(made, 0, count)
        made.start(1, 2)
        time.sleep(SECONDS_TO_REST)
        yield from list_rows(one, count)
        yield Row("time to grant all tickets, one after another", f"{grant_all(one, tickets):.1f} s")
        yield from renewal_rows(made.members, tickets)
        yield peak_row("peak memory of each member, names of 20 bytes", made.members)
        yield from takeover_rows(made.members, tickets)
        yield peak_row("peak memory after the takeover: site; arbitrator", made.members[1:])
    yield full_row(program, folder)


def peak_row(name, members):
    """Returns the row of the peak memory of each member."""
    peaks = [status_field(member.server.process, "VmHWM") * 1024 / MEGABYTE for member in members]
    return below(name, max(peaks), "; ".join(f"{peak:.1f}" for peak in peaks) + " MB", 24, "MB")


def main(words):
    end_by_signals()
    program, client = words[:2] if len(words) > 1 else (built_program(), built_program("booth"))
    if program is None or client is None:
        sys.exit("thousands.py: a program is not built: run make build")
    count = int(words[2]) if len(words) > 2 else TICKETS
    try:
        with tempfile.TemporaryDirectory(prefix="booth-bench-") as folder:
            return told(measured(os.path.abspath(program), os.path.abspath(client), folder, count))
    except NotServing as why:
        sys.exit(f"thousands.py: {why}")


if __name__ == "__main__":
    sys.exit(main(sys.argv[1:]))
