#!/usr/bin/env python3
"""Shows Booth at work on loopback: three members and a service that follows its ticket, through a grant, a crash of
the holder, a takeover, a restart of all members, and a move.

Run it as `python3 tools/demo.py`, or as `make run`, which builds the programs first. `make try` shows programs that
are not proved. The demo takes a minute, writes its files into a folder of its own, and needs only the port 9929.
"""

import sys
import tempfile
import time
from typing import NamedTuple

from following import Services
from members import TICKET, Cluster, Times, now, run_booth, wait_for
from serving import NotServing, built_program, end_by_signals

ADDRESSES = ("127.0.0.1", "127.0.0.2", "127.0.0.3")
# how long the service runs before the next event
SECONDS_TO_SERVE = 2
# how long to wait for an event on a busy machine
PATIENCE = 30


class Story:
    """Prints a line for each event, with the seconds since the start."""

    def __init__(self):
        self.started = now()

    def tell(self, what):
        print(f"{now() - self.started:6.2f} s  {what}", flush=True)

    def booth(self, cluster, *words):
        """Runs booth with these arguments, as an operator would, and prints its output."""
        ran = run_booth(cluster.client, cluster.conf, words)
        self.tell(f"booth {' '.join(words)}")
        for line in (ran.printed + ran.said).splitlines():
            print(f"            {line}", flush=True)


def list_all(cluster, story):
    """Prints the list of each running member."""
    for member in cluster.members:
        if member.is_running():
            story.booth(cluster, "list", "-s", member.address)


def require(holds, what):
    if not holds:
        raise NotServing(what)


def restart_all(cluster, story, holder):
    """Restarts all members. Each continues from its records, which have its promises."""
    until = holder.record().until
    for member in cluster.members:
        member.kill()
    story.tell("all three daemons are killed")
    for member in cluster.members:
        member.start(cluster.program, cluster.conf)
    story.tell("all three daemons are started again")
    require(wait_for(lambda: holder.record().until != until, PATIENCE), "the lease was not renewed")
    require(now() < until, "the lease ended before its renewal")
    story.tell(f"{holder.address} still holds {TICKET.decode()}, and renewed its lease")


def runs_at(services, story, site):
    """Waits until the service runs at this site, where it writes a line each tenth of a second."""
    require(services.await_up(site, PATIENCE), f"the service does not start at {site.address}")
    story.tell(f"the service runs at {site.address}, and writes a line every 0.1 s")
    time.sleep(SECONDS_TO_SERVE)


def tell_spells(services, story):
    """Prints when the service ran at which site, from its lines."""
    for spell in services.spells():
        first, last = spell.first - story.started, spell.last - story.started
        print(f"            {spell.site} wrote from {first:.2f} s to {last:.2f} s", flush=True)
    require(not services.overlaps(), f"two sites' lines overlap: {services.overlaps()}")


def move_to(cluster, services, story, holder, target):
    """Stops the service, and moves the ticket: the holder releases it and the target acquires it, in one command."""
    services.kill(holder)
    require(services.run(holder, "stop") == 0, "the service does not stop")
    story.tell(f"the follower at {holder.address} and its service are stopped, as a stop of the follower's unit does")
    story.booth(cluster, "move", "-w", TICKET.decode(), target.address)
    require(wait_for(lambda: cluster.shown_by_all() == target.address, PATIENCE), "the move failed")
    list_all(cluster, story)
    runs_at(services, story, target)


def show(cluster, services, story):
    one, two, _ = cluster.members
    for member in cluster.members:
        member.start(cluster.program, cluster.conf)
        story.tell(f"{member.role} {member.address} is started")
    started, name = now(), TICKET.decode()
    abstention = cluster.times.abstention()
    story.tell(f"no member has a record yet, so each votes in no election for {abstention:.3f} s after its first start")
    for site in (one, two):
        services.follow(site)
        story.tell(f"booth-follow runs the service at {site.address} only while that site holds {name}")
    time.sleep(max(0, started + abstention + 0.05 - now()))

    story.booth(cluster, "grant", name)
    require(wait_for(lambda: cluster.shown_by_all() == one.address, PATIENCE), "the grant failed")
    record = one.record()
    story.tell(f"{one.address} holds {name}, until {record.until - story.started:.2f} s")
    list_all(cluster, story)
    runs_at(services, story, one)

    require(wait_for(lambda: one.record().until != record.until, PATIENCE), "the lease was not renewed")
    until = one.record().until
    story.tell(f"{one.address} renewed its lease, until {until - story.started:.2f} s")
    # (long enough for a list to show the new end)
    time.sleep(SECONDS_TO_SERVE)
    one.kill()
    story.tell(f"{one.address} is killed (kill -9)")
    taken = wait_for(lambda: two.record() and two.record().until, until - now() + PATIENCE)
    require(taken, "nobody took over")
    require(not services.is_up(one), f"the service runs on at {one.address}")
    ended = until - max(spell.last for spell in services.spells())
    story.tell(f"the service at {one.address} was stopped {ended:.2f} s before the lease's end")
    story.tell(f"{two.address} took {name} over, {now() - until:.2f} s after the old lease's end")
    runs_at(services, story, two)

    one.start(cluster.program, cluster.conf)
    require(wait_for(lambda: cluster.shown_by_all() == two.address, PATIENCE), "the members differ")
    story.tell(f"{one.address} is started again, and holds nothing")
    list_all(cluster, story)
    restart_all(cluster, story, two)
    move_to(cluster, services, story, two, one)
    services.kill(one)
    require(services.run(one, "stop") == 0, "the service does not stop")
    story.booth(cluster, "revoke", name)
    require(wait_for(lambda: not any(m.shown() for m in cluster.members), PATIENCE), "an owner is listed")
    wrong = cluster.watch.wrong
    require(not wrong, f"two members held {name} at the same time: {wrong}")
    require(cluster.watch.is_looking(), f"the looks at the record files ended after {cluster.watch.looks} looks")
    story.tell(f"{cluster.watch.looks} looks at the record files: two members never held {name} at the same time")
    story.tell("the service never ran at both sites at the same time, according to the lines that it wrote:")
    tell_spells(services, story)


class Programs(NamedTuple):
    """The paths of the programs that are shown."""

    daemon: str
    client: str
    follower: str


def run(programs: Programs) -> None:
    """Shows the demo with these programs. Ends with a message if a step fails."""
    with tempfile.TemporaryDirectory(prefix="booth-demo-") as folder:
        made = Cluster(programs.daemon, folder, ADDRESSES, times=Times(expire=9), client=programs.client)
        with made as cluster, Services(programs.follower, cluster) as services:
            with open(cluster.conf, encoding="ascii") as file:
                print("\n".join("    " + line for line in file.read().splitlines()), flush=True)
            try:
                show(cluster, services, Story())
            except NotServing as why:
                sys.exit(f"demo.py: {why}")


def main() -> None:
    """Shows the demo with the proved programs."""
    end_by_signals()
    names = ("boothd", "booth", "booth-follow")
    paths = [built_program(name) or sys.exit(f"demo.py: {name} is not built: run make build") for name in names]
    run(Programs(*paths))


if __name__ == "__main__":
    main()
