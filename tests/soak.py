#!/usr/bin/env python3
"""Has services follow their tickets through hundreds of takeovers by random faults, and checks that none overlap.

Run it as `python3 tests/soak.py [TAKEOVERS [CLUSTERS [SEED]]] [BOOTHD BOOTH BOOTH-FOLLOW]`. By default it makes 200
takeovers in 8 clusters at the same time, with the programs that `make build` leaves. It takes some ten minutes, in
which it mostly sleeps, and is not in the gate. It prints a line for each fault, ends all programs that it started, and
has the status 1 if two services overlapped, or one ran past its lease's end.

The services of both sites write a line with its time into one file, ten times a second. A fault has two parts, which
are drawn independently: one concerns the holder's daemon or its network paths, the other its service and follower.
"""

import contextlib
import multiprocessing
import os
import random
import signal
import sys
import threading
import time
from typing import NamedTuple

HERE = os.path.dirname(os.path.abspath(__file__))
sys.path[:0] = [HERE, f"{HERE}/../tools"]

import members
from checks import need
from cut_ways import cut
from follow import begun
from following import Services
from members import Cluster, Times, now, wait_for
from scratch import scratch
from serving import built_program, end_by_signals, own_addresses
from stories import PATIENCE

TAKEOVERS, CLUSTERS, SEED = 200, 8, 1
# the shortest times that a follower accepts: `renewal-freq`, 2 seconds and the margin are together `expire`
TIMES = Times(expire=9, timeout=1, retries=3, renewal=5)
MARGIN, KILL = 2, 1
# how long after its end the unit starts a follower again, in seconds
SECONDS_TO_FOLLOW = 1
# (many clusters run at the same time, and each check needs a processor)
members.SECONDS_BETWEEN_LOOKS = 0.03


class Takeover(NamedTuple):
    """The result of a fault: its parts, how long it took until a service ran, and how long before its lease's end the
    old service ended.
    """

    trouble: str
    service: str
    took: float
    left: float
    moved: bool


class Scene:
    """A cluster, its services, and the faults that one of its sites can have."""

    def __init__(self, cluster, services, draw):
        self.cluster, self.services, self.draw = cluster, services, draw

    def others(self, holder):
        return [member for member in self.cluster.members if member is not holder]

    def up(self):
        return next((site for site in self.cluster.members[:2] if self.services.is_up(site)), None)

    # ---- what befalls the holder's daemon or its ways, each up to the end of its block

    @contextlib.contextmanager
    def killed(self, holder):
        holder.kill()
        yield
        holder.start(self.cluster.program, self.cluster.conf)

    @contextlib.contextmanager
    def stands_still(self, *stopped):
        for member in stopped:
            member.server.process.send_signal(signal.SIGSTOP)
        try:
            yield
        finally:
            for member in stopped:
                member.server.process.send_signal(signal.SIGCONT)

    @contextlib.contextmanager
    def ways_cut(self, holder):
        others = self.others(holder)
        with contextlib.ExitStack() as ways:
            ways.enter_context(cut(holder, *others))
            for other in others:
                ways.enter_context(cut(other, holder))
            yield

    @contextlib.contextmanager
    def others_stand_still(self, holder):
        """Stops the other members. Nobody can take over then, so they continue soon after the service's stop."""
        others = self.others(holder)
        with self.stands_still(*others):
            need(self.services.await_down(holder, TIMES.expire + PATIENCE), "the service runs on")
            time.sleep(self.draw.uniform(0, TIMES.renewal))
        yield

    def trouble(self):
        """Returns a fault of the daemon or its links: its name, and a block in which it lasts."""
        kinds = [
            ("daemon killed", self.killed),
            ("daemon stands still", self.stands_still),
            ("ways cut", self.ways_cut),
            ("others stand still", self.others_stand_still),
        ]
        return self.draw.choice(kinds)

    # ---- what befalls the service and its follower

    def worsen(self, holder):
        """Draws a fault of the service. Returns its name, and the function that ends it."""
        kind = self.draw.choice(("well", "slow stop", "hanging stop", "follower killed"))
        if kind == "slow stop":
            self.services.set("slow", holder, f"{self.draw.uniform(0, MARGIN - KILL - 0.2):.2f}")
        elif kind == "hanging stop":
            self.services.set("hangs", holder)
        elif kind == "follower killed":
            thread = threading.Thread(target=self.unit_follows_anew, args=(holder,))
            thread.start()
            return kind, thread.join
        return kind, lambda: self.mend(holder)

    def unit_follows_anew(self, holder):
        """Kills the follower. A second later its unit starts another one, which takes the service over."""
        time.sleep(self.draw.uniform(0, 1))
        self.services.kill(holder)
        time.sleep(SECONDS_TO_FOLLOW)
        self.services.follow(holder, takes_over=True)

    def mend(self, holder):
        for name in ("slow", "hangs"):
            with contextlib.suppress(OSError):
                os.remove(self.services.path(name, holder))

    # ---- one after the other

    def ended_before(self, holder, until):
        """Returns how long before the lease's end the holder's service wrote last."""
        last = max(spell.last for spell in self.services.spells() if spell.site == holder.address)
        need(last < until, f"the service at {holder.address} wrote {last - until:.3f} s after its lease's end")
        return until - last

    def next_takeover(self):
        """Draws a fault of the holder, and waits until a service runs again."""
        holder = wait_for(self.up, PATIENCE)
        need(holder, "no service runs")
        time.sleep(self.draw.uniform(0, TIMES.renewal))
        name, trouble = self.trouble()
        service, mend = self.worsen(holder)
        failed = now()
        with trouble(holder):
            need(self.services.await_down(holder, TIMES.expire + PATIENCE), "the service runs on")
            left = self.ended_before(holder, holder.record().until or now())
            up = wait_for(self.up, 4 * PATIENCE)
            took = now() - failed
            need(up, f"no service starts: {name}, {service}")
        mend()
        need(not self.services.overlaps(), f"two services overlapped: {self.services.overlaps()}")
        return Takeover(name, service, took, left, up is not holder)


def soaked(place, count, seed, programs):
    """Returns the takeovers of one cluster, this many, and the first failure, if there is one."""
    done, draw = [], random.Random(seed * 1_000 + place)
    try:
        with scratch("booth-soak-") as folder, contextlib.ExitStack() as stack:
            made = Cluster(programs[0], folder, own_addresses(), times=TIMES, client=programs[1])
            cluster = stack.enter_context(made)
            services = stack.enter_context(Services(programs[2], cluster))
            begun(cluster, services)
            scene = Scene(cluster, services, draw)
            while sum(each.moved for each in done) < count:
                done.append(each := scene.next_takeover())
                ending = "taken over" if each.moved else "held on"
                shown = f"{ending}, {each.took:.1f} s; stopped {each.left:.2f} s before the end"
                print(f"cluster {place}, {len(done)}: {each.trouble}, {each.service}: {shown}", flush=True)
            need(not cluster.watch.wrong, f"two held at one moment: {cluster.watch.wrong[:3]}")
            need(cluster.watch.is_looking(), "nobody looks at the records any more")
    except Exception as why:  # (whatever it is, the other clusters go on)
        return done, f"cluster {place} after {len(done)} faults: {type(why).__name__}: {why}"
    return done, None


def middle(values):
    return sorted(values)[len(values) // 2]


def told(done, took):
    """Returns the lines about the result."""
    moved = [each for each in done if each.moved]
    kinds = sorted({(each.trouble, each.service) for each in done})
    yield f"{len(done)} faults of {len(kinds)} kinds, {len(moved)} takeovers, in {took / 60:.1f} minutes"
    if moved:
        yield f"half of the takeovers came within {middle([each.took for each in moved]):.2f} s of the fault"
        yield f"the latest stop of a service: {min(each.left for each in done):.2f} s before its lease's end"


def run(takeovers, clusters, seed, programs):
    """Runs the clusters. Prints how many failed."""
    began, each = time.monotonic(), -(-takeovers // clusters)
    # (each cluster runs in its own process, and so has its own addresses)
    with multiprocessing.get_context("fork").Pool(clusters, maxtasksperchild=1) as pool:
        runs = [pool.apply_async(soaked, (place, each, seed, programs)) for place in range(1, clusters + 1)]
        results = [run.get() for run in runs]
    wrong = [why for _, why in results if why]
    for line in told([takeover for done, _ in results for takeover in done], time.monotonic() - began):
        print(f"soak: {line}")
    for why in wrong:
        print(f"FAILED  {why}")
    print(f"soak: {len(results) - len(wrong)} clusters passed, {len(wrong)} failed ({programs[2]})")
    return len(wrong)


def main(words):
    end_by_signals()
    numbers = [int(word) for word in words if word.isdigit()]
    programs = [word for word in words if not word.isdigit()]
    programs = programs or [built_program(name) for name in ("boothd", "booth", "booth-follow")]
    if None in programs or len(programs) != 3:
        sys.exit("soak.py: boothd, booth or booth-follow is not built: run make build")
    takeovers, clusters, seed = numbers + [TAKEOVERS, CLUSTERS, SEED][len(numbers) :]
    return 1 if run(takeovers, clusters, seed, [os.path.abspath(program) for program in programs]) else 0


if __name__ == "__main__":
    sys.exit(main(sys.argv[1:]))
