#!/usr/bin/env python3
"""Floods a daemon that holds a ticket with 1,000,000 datagrams, and stops one for longer than its lease.

Run it as `python3 tests/hostile.py [BOOTHD [DATAGRAMS]]`. BOOTHD is by default the one that `make build` leaves. It
takes less than a minute on an idle machine, prints a line for each check with what it measured, ends all programs that
it started, and has the status 1 if a check failed. If boothd is not built it checks nothing, with status 0.

The daemon must count each datagram by its fault, count it for its member, or answer it, as tests/gate.py computes from
docs/PROTOCOL.md. The sent datagrams are compared with the daemon's counters and answers. The holder of the ticket is
read from the record files, by this machine's clock.

Afterwards a second cluster writes journals during a shorter flood without messages of members. An auditor must accept
these journals. Then forged messages of a member arrive, and the auditor must name the first one.
"""

import collections
import itertools
import os
import random
import signal
import socket
import statistics
import struct
import subprocess
import sys
import time

HERE = os.path.dirname(os.path.abspath(__file__))
sys.path[:0] = [HERE, f"{HERE}/../tools"]

import frames
import journal_file
from auditing import AuditedCluster, LeftOut, Misjudged, audit, content, shown_at
from checks import Wrong, need
from gate import Station
from hostile_frames import Foes
from members import TICKET, Cluster, Times, now, wait_for
from scratch import scratch
from serving import NotServing, built_program, end_by_signals, own_addresses

DATAGRAMS = 1_000_000
# the number of different datagrams; each is sent several times, in a new order each time
DIFFERENT = 50_000
# for a daemon that writes a journal: the number of datagrams, of different ones, and of those that come from members
JOURNALED, DIFFERENT_JOURNALED, FORGED = 20_000, 5_000, 20
# the number of datagrams before the daemon's memory is read first: by then it has got each kind
FIRST = 5_000
SEED = 20_26
KEY = b"a-key-of-the-cluster"
# (others may use the machine: a renewal begins half a lease before the lease's end)
TIMES = Times(expire=10, timeout=1, retries=3, renewal=5)
# the additional time on a busy machine, in seconds
SLACK = 10
# the longest time of the flood, in seconds; the rest of it is then left out
SECONDS_OF_FLOOD = 90
# the limits for the median time of a list request in the flood, in seconds: if the machine has a free processor, and if
# it has none, up to a load of two for each processor; beyond that it may grow with the load
SECONDS_OF_LIST, SECONDS_OF_LIST_LOADED = 0.010, 0.100
# how much the daemon's memory may grow after the first datagrams, in bytes
BYTES_MORE = 1 << 20


def receive_room():
    """Returns how many bytes of datagrams a socket holds that nobody reads, as the system counts them."""
    try:
        with open("/proc/sys/net/core/rmem_default", encoding="ascii") as file:
            return int(file.read())
    except (OSError, ValueError):
        return 212_992


def room_of(datagram):
    """Returns how many of these bytes a datagram takes at most."""
    return 1280 if len(datagram) <= 600 else 2 * len(datagram) + 2048


def lost(address):
    """Returns how many datagrams the system has dropped at the sockets of this address, or None if it does not count
    them.
    """
    local = socket.inet_aton(address)[::-1].hex().upper() + f":{frames.PORT:04X}"
    try:
        with open("/proc/net/udp", encoding="ascii") as file:
            lines = [line.split() for line in file]
    except OSError:
        return None
    return sum(int(words[-1]) for words in lines if words[1] == local)


class Memory(collections.namedtuple("Memory", "data resident files")):
    """The use of a process: bytes of data, bytes in memory, open files."""

    @classmethod
    def of(cls, process):
        with open(f"/proc/{process}/status", encoding="ascii") as file:
            told = dict(line.split(":", 1) for line in file)
        data, resident = (int(told[name].split()[0]) * 1024 for name in ("VmData", "VmRSS"))
        return cls(data, resident, len(os.listdir(f"/proc/{process}/fd")))


class Flood:
    """Sends to one member, no faster than it takes, and holds its answers to those that are due."""

    def __init__(self, member):
        self.member = member
        self.socket = socket.socket(socket.AF_INET, socket.SOCK_DGRAM)
        self.socket.setsockopt(socket.SOL_SOCKET, socket.SO_RCVTIMEO, struct.pack("ll", SLACK, 0))
        self.socket.connect((member.address, frames.PORT))
        self.room = receive_room() // 2
        # (the datagrams have smaller request numbers)
        self.numbers = itertools.count(2**31)
        self.waiting = 0
        self.due = collections.Counter()
        # the sent datagrams, by their expected effect
        self.drops = [0] * 8
        self.heard = collections.Counter()
        self.answered = 0
        # the time of each list request, in seconds, and the ends of the lease that were seen
        self.took = []
        self.ends = set()

    def sent(self):
        return sum(self.drops) + sum(self.heard.values()) + self.answered

    def send(self, foe):
        size = room_of(foe.datagram)
        if self.waiting and self.waiting + size > self.room:
            self.settle()
        self.socket.send(foe.datagram)
        self.waiting += size
        if foe.counter is not None:
            self.drops[foe.counter] += 1
        elif foe.answer is not None:
            self.due[foe.answer] += 1
        else:
            self.heard[foe.member] += 1

    def settle(self):
        """Asks for a list, whose answer comes behind those to all that was sent, and looks at the lease."""
        number, asked = next(self.numbers), time.monotonic()
        self.socket.send(frames.request_now("CLst", number, key=KEY))
        while self.answer() != ("RLst", number):
            pass
        self.took.append(time.monotonic() - asked)
        need(not +self.due, f"no answer came to {list(+self.due)[:3]}")
        self.waiting = 0
        record = self.member.record()
        need(record is not None and record.holds(now()), f"the lease has lapsed: {record} at {now()}")
        self.ends.add(record.until)

    def answer(self):
        """Returns the command and the request of the next answer, which is due."""
        try:
            came = self.socket.recv(frames.FRAME_BYTES + 1)
        except BlockingIOError:
            raise Wrong(f"a list is not answered in {SLACK} s") from None
        head, before = frames.Head.read(came), came[: -frames.AUTH_BYTES]
        is_sealed = came == before + frames.auth_part(KEY, before) and head.length == len(came)
        need(is_sealed and head.sender == frames.member_id(self.member.address), f"this came: {came.hex()}")
        answer = head.cmd.to_bytes(4, "big").decode(), head.request
        if head.request < 2**31:
            need(self.due[answer] > 0, f"{answer} answers nothing that was sent")
            self.due[answer] -= 1
            self.answered += 1
        return answer

    def run(self, foes, seconds=None):
        """Sends these datagrams, or as many of them as are sent in `seconds`."""
        end = seconds and time.monotonic() + seconds
        for foe in foes:
            self.send(foe)
            # (the first behind a list)
            if end and time.monotonic() > end:
                break
        self.settle()


def again_and_again(foes):
    """Yields all of them without end, in another order each time."""
    chance = random.Random(SEED)
    while True:
        chance.shuffle(foes)
        yield from foes


def heard_of(member, other):
    """Returns how many datagrams of the other member this one received that the other one did not count as sent."""
    for _ in range(100):
        before = other.counts()[1][member.address][1]
        heard = member.counts()[1][other.address][0]
        if other.counts()[1][member.address][1] == before:
            return heard - before
    raise Wrong(f"{other.address} never stops to send")


class Scene:
    """A cluster whose first site holds the ticket in its second term, and the flood that it meets."""

    def __init__(self, cluster, count):
        self.cluster, self.count = cluster, count
        self.one, self.two, self.arbitrator = cluster.members
        self.others = (self.two, self.arbitrator)

    def begin(self):
        """Starts the cluster. The second site holds the ticket first, and then the first does."""
        self.cluster.remember()
        self.cluster.start()
        others = tuple((member.role, member.address) for member in self.others)
        self.foes = Foes(Station(self.one.address, others, (TICKET,), KEY), SEED).made(min(DIFFERENT, self.count))
        for member in (self.two, self.one):
            need(member.about("CGnt") in ("ok", "Asyn"), f"{member.address} does not take a grant")
            need(wait_for(lambda: holds(member), SLACK), "the granted ticket is not held")
            if member is self.two:
                need(wait_for(lambda: member.about("CRvk") == "ok", SLACK), "the ticket is not revoked")
        self.term = self.one.record().term
        need(self.term > 1, f"the record is {self.one.record()}")

    def flood(self):
        """Sends all, and notes what the daemon counted and has before and behind."""
        process = self.one.server.process.pid
        self.counted = [self.one.counts()[0]]
        self.heard = [{member.address: heard_of(self.one, member) for member in self.others}]
        self.flooded = Flood(self.one)
        foes, started = again_and_again(self.foes), time.monotonic()
        self.flooded.run(itertools.islice(foes, min(FIRST, self.count)))
        self.memory = [Memory.of(process)]
        self.flooded.run(itertools.islice(foes, self.count - self.flooded.sent()), SECONDS_OF_FLOOD)
        self.took = time.monotonic() - started
        self.memory.append(Memory.of(process))
        self.counted.append(self.one.counts()[0])
        self.heard.append({member.address: heard_of(self.one, member) for member in self.others})
        self.load = os.getloadavg()[0]


def holds(member):
    record = member.record()
    return record is not None and record.holds(now())


def lack_at_most(got, due, most):
    """Returns whether each of these counts is as expected, or up to this many below."""
    return all(0 <= due[key] - got[key] <= most for key in {*got, *due})


# ---- the checks: each gives what it measured


def every_datagram_is_met(scene):
    """each datagram of a flood is dropped by its fault, heard or answered, as it has to be"""
    flooded, gone = scene.flooded, lost(scene.one.address)
    sent = flooded.sent()
    drops = [after - before for before, after in zip(*scene.counted)]
    heard = {address: scene.heard[1][address] - scene.heard[0][address] for address in scene.heard[0]}
    met = sum(drops) + sum(heard.values()) + flooded.answered
    need(met + (gone or 0) >= sent, f"of {sent} {met} are met, and {gone or 0} never came")
    # (a datagram that the system dropped may be of any kind, and is counted nowhere)
    fits = lack_at_most(dict(enumerate(drops)), dict(enumerate(flooded.drops)), gone or 0)
    need(fits, f"the drops are {drops}, and not {flooded.drops}, of which {gone or 0} never came")
    fits = lack_at_most(collections.Counter(heard), flooded.heard, gone or 0)
    need(fits, f"it heard {heard}, and not {dict(flooded.heard)}, of which {gone or 0} never came")
    need(all(flooded.drops) and all(heard.values()), f"the test has not each kind: {flooded.drops}, {heard}")
    told = f"{sum(drops)}, {sum(heard.values())} and {flooded.answered} of {sent}, in {scene.took:.1f} s"
    told += f", {scene.took / sent * 1e6:.1f} µs each"
    told += f"; {gone} never came, which the system dropped" if gone else ""
    told += "; how many the system dropped /proc/net/udp does not tell" if gone is None else ""
    return told + (f"; {scene.count - sent} are left out, since the time was over" if sent < scene.count else "")


def lists_are_answered(scene):
    """the daemon answers requests for lists during the flood, after the datagrams that already wait"""
    took, load = scene.flooded.took, scene.load / (os.cpu_count() or 1)
    is_loaded, middle = load > 1, statistics.median(took)
    most = SECONDS_OF_LIST_LOADED * max(1, load / 2) if is_loaded else SECONDS_OF_LIST
    need(middle <= most, f"a list takes {middle * 1000:.1f} ms in the median, at a load of {scene.load:.1f}")
    told = f"{len(took)} of them, {middle * 1000:.2f} ms in the median and {max(took) * 1000:.0f} ms at most"
    return told + f", at a load of {scene.load:.1f}" + (f": up to {most * 1000:.0f} ms are taken" if is_loaded else "")


def the_lease_runs_on(scene):
    """the lease never lapses meanwhile, and is renewed in its term"""
    renewals = len(scene.flooded.ends) - 1
    need(scene.one.record().term == scene.term, "the ticket was granted anew")
    need(renewals > 0 or scene.took < 2 * TIMES.renewal, f"no renewal in {scene.took:.1f} s")
    need(wait_for(lambda: scene.cluster.shown_by_all() == scene.one.address, SLACK), "a member lists another owner")
    return f"{renewals} renewals"


def memory_stays(scene):
    """the daemon's memory and its open files are as before"""
    before, after = scene.memory
    more = after.resident - before.resident
    need(after.files == before.files, f"it has {after.files} open files, and had {before.files}")
    need(after.data == before.data and more <= BYTES_MORE, f"its memory was {before}, and is {after}")
    return f"{after.resident >> 10} KiB, {more >> 10} more than after the first {FIRST}"


def who_was_stopped_holds_nothing(scene):
    """a daemon that is stopped for longer than its lease comes back and holds nothing"""
    one, two, process = scene.one, scene.two, scene.one.server.process
    need(holds(one), "the lease does not run")
    # (a site that released the ticket repeats this for two timeouts, and then expects no takeover before a renewal)
    seen = one.record().until
    need(wait_for(lambda: one.record().until != seen, TIMES.expire), "the lease is not renewed")
    process.send_signal(signal.SIGSTOP)
    until = one.record().until
    latest = until + TIMES.guard() + 3 * TIMES.timeout + SLACK
    need(wait_for(lambda: holds(two), latest - now()), "nobody took over")
    taken = now()
    need(taken > until, f"taken over {until - taken:.3f} s before the lease's end")
    with socket.socket(socket.AF_INET, socket.SOCK_DGRAM) as asker:
        asker.settimeout(SLACK)
        asker.connect((one.address, frames.PORT))
        # when the daemon continues, this request and the messages of the members are waiting for it
        asker.send(frames.request_now("CLst", 1, key=KEY))
        process.send_signal(signal.SIGCONT)
        shown = asker.recv(frames.FRAME_BYTES)[frames.HEAD_BYTES : -frames.AUTH_BYTES].decode()
    need(shown.split()[1] in ("none", two.address), f"it comes back and lists {shown}")
    need(wait_for(lambda: one.shown() == two.address, SLACK), "it does not hear who holds the ticket")
    need(not holds(one), f"it has a lease: {one.record()}")
    need(one.about("CGnt") == "Over", "it takes a grant")
    need(holds(two) and process.poll() is None, "the other site lost the ticket, or this daemon ended")
    return f"another took over {taken - until:.1f} s behind the lease's end"


def no_two_hold(scene):
    """no two hold the ticket at one moment, and no daemon prints anything"""
    watch = scene.cluster.watch
    need(not watch.wrong, f"two held: {watch.wrong[:3]}")
    need(watch.is_looking(), f"nobody looked on after {watch.looks} looks")
    printed = [member.printed() for member in scene.cluster.members]
    need(not any(printed), f"a daemon printed {printed}")
    return f"{watch.looks} looks"


CHECKS = [
    every_datagram_is_met,
    lists_are_answered,
    the_lease_runs_on,
    memory_stays,
    who_was_stopped_holds_nothing,
    no_two_hold,
]


def passes(check, scene):
    try:
        measured = check(scene)
    except (Wrong, NotServing, OSError) as why:
        print(f"FAILED  {check.__doc__}: {why}", flush=True)
        return False
    print(f"ok      {check.__doc__}: {measured}", flush=True)
    return True


# ---- journals


def meets(member, foes):
    """Sends these to the member, and waits until it has met them."""
    with socket.socket(socket.AF_INET, socket.SOCK_DGRAM) as sender:
        for foe in foes:
            sender.sendto(foe.datagram, (member.address, frames.PORT))
    member.counts()


def judged(cluster, forged=()):
    """Returns the result for the journals of all members, which are killed: they pass, or one of these faults is found.
    """
    for member in cluster.members:
        member.kill()
    paths = [member.journal for member in cluster.members]
    lines = [journal_file.lines_of(content(path)) for path in paths]
    told = f"{sum(map(len, lines))} lines, {sum(map(os.path.getsize, paths))} bytes"
    if not cluster.has_auditor:
        for path in paths:
            journal_file.read(path)
        return f"{told}: each is one; not audited, since boothd has no auditor"
    found = audit(cluster.program, cluster.conf, paths)
    if not forged:
        need(found.passes(), f"the audit left {found}, {shown_at(paths, found.fault(paths))}")
        return f"{told}: they pass"
    ends = tuple(f" {datagram.hex()}" for datagram in forged)
    first = next(number for number, line in enumerate(lines[0], 1) if line.startswith("data ") and line.endswith(ends))
    need(found.fault(paths) == (0, first, "unsent"), f"line {first} was sent by nobody, and the audit left {found}")
    return f"{told}: line {first} is named, the first of {len(forged)} that nobody sent"


def journals_of_a_flood(program, folder, own):
    """an auditor accepts the journals of a flood, and names a message that no member sent"""
    with AuditedCluster(program, folder, [next(own) for _ in range(3)], times=TIMES, key=KEY) as cluster:
        scene = Scene(cluster, DIFFERENT_JOURNALED)
        scene.begin()
        if cluster.has_auditor and cluster.refused:
            raise LeftOut("no clock can be put forward here, so the members have records that no journal says")
        said = [foe for foe in scene.foes if foe.member is not None][:FORGED]
        others = [foe for foe in scene.foes if foe.member is None]
        flooded = Flood(scene.one)
        flooded.run(itertools.islice(again_and_again(others), JOURNALED))
        told = [judged(cluster)]
        cluster.start()
        meets(scene.one, said)
        told.append(judged(cluster, [foe.datagram for foe in said]))
    return f"{flooded.sent()} datagrams; {'; and behind it '.join(told)}"


def journals_pass(program):
    with scratch("booth-hostile-") as folder:
        try:
            told = journals_of_a_flood(program, folder, own_addresses())
        except LeftOut as why:
            print(f"hostile: journals: not checked: {why}", flush=True)
            return True
        except (Wrong, Misjudged, NotServing, journal_file.BadLine, OSError, subprocess.SubprocessError) as why:
            print(f"FAILED  {journals_of_a_flood.__doc__}: {type(why).__name__}: {why}", flush=True)
            return False
    print(f"ok      {journals_of_a_flood.__doc__}: {told}", flush=True)
    return True


def run(program, count):
    """Runs the checks over one cluster. Says whether all passed."""
    started, own, passed = time.monotonic(), own_addresses(), []
    with scratch("booth-hostile-") as folder:
        with Cluster(program, folder, [next(own) for _ in range(3)], times=TIMES, key=KEY) as cluster:
            scene = Scene(cluster, count)
            try:
                scene.begin()
                scene.flood()
            except (Wrong, NotServing, OSError) as why:
                print(f"FAILED  a flood of datagrams: {why}", flush=True)
                passed.append(False)
            else:
                passed += [passes(check, scene) for check in CHECKS]
    passed.append(journals_pass(program))
    took = time.monotonic() - started
    print(f"hostile: {sum(passed)} passed, {passed.count(False)} failed, in {took:.1f} s ({program})")
    return all(passed)


def main(words):
    end_by_signals()
    program = words[0] if words else built_program()
    if program is None:
        print("hostile: skipped, since boothd is not built: run make build")
        return 0
    if not os.access(program, os.X_OK):
        sys.exit(f"hostile.py: cannot run {program}")
    return 0 if run(os.path.abspath(program), int(words[1]) if len(words) > 1 else DATAGRAMS) else 1


if __name__ == "__main__":
    sys.exit(main(sys.argv[1:]))
