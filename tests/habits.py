#!/usr/bin/env python3
"""Sets two Pacemaker clusters and an arbitrator up by `pcs booth`, and tries what `pcs` and `crm` do with this package.

Run it as root, as `python3 tests/habits.py [--package FILE] [--table] [--keep]`. It boots the machines of
tests/clusters.py with pcsd, installs the package (out/booth-proved_*.deb if none is named), and runs the commands of
pcs and crm that an operator types. Each command must end with the status, and print the text, that this file states:
the same as with the C program, or as docs/PACEMAKER.md describes. Only a standby, a revoke or a move may stop the
service. With `--table` it prints each command and what it printed. Its status is 1 if a command did something else, and
77 if the machines cannot be booted here, which it says.
"""

import argparse
import os
import re
import shutil
import signal
import subprocess
import sys
import tempfile
import time
from typing import Callable, List, NamedTuple, Tuple

HERE = os.path.dirname(os.path.abspath(__file__))
TOP = os.path.dirname(HERE)
sys.path[:0] = [HERE, f"{TOP}/tools"]

import booted
import cluster_world
import cluster_writers
import clusters
from booted import Machine, NoImage
from cluster_setups import DAEMON_RESOURCE, RECORDS, SECONDS_OF_A_STOP, SECONDS_OF_SILENCE, SERVICE, Packaged
from cluster_setups import await_cluster, configure
from cluster_world import AFTER, EXPIRE, FLOATING, RENEWAL, TICKET, World

PASSWORD = "of-a-test"
A, B, THIRD = FLOATING["a"], FLOATING["b"], cluster_world.ADDRESSES[cluster_world.THIRD]
SECONDS_OF_A_COMMAND = 120
UNITS_OF_PCS = ("pcsd.service", "pcsd-ruby.service")
TIMES = f"expire={EXPIRE} renewal-freq={RENEWAL} acquire-after={AFTER} timeout=1 retries=3"
MORE_TICKET, REFUSED_TICKET = "more", "refused"


class Typed(NamedTuple):
    """A command with its machine, its status, what it printed, and what is wrong with that."""

    machine: str
    command: str
    status: int
    printed: str
    fault: str


class Habits:
    """An operator at the machines: what was typed, and what came of it."""

    def __init__(self, world: World) -> None:
        self.world = world
        self.typed: List[Typed] = []
        self.faults: List[str] = []

    def at(self, machine: str, command: str, status: int = 0, pattern: str = "") -> str:
        """Types a command, notes a difference from what it must do, and returns what it printed."""
        done = self.world.machines[machine].run("sh", "-c", command, timeout=SECONDS_OF_A_COMMAND)
        printed = "\n".join(part.decode(errors="replace").strip() for part in (done.stdout, done.stderr)).strip()
        fault = f"its status is {done.returncode}, and not {status}" if done.returncode != status else ""
        if not fault and not re.search(pattern, printed):
            fault = f"it prints nothing like {pattern!r}"
        self.typed.append(Typed(machine, command, done.returncode, printed, fault))
        if fault:
            self.faults.append(f"{machine}: {command}: {fault}")
        print(f"{'FAILED ' if fault else 'ok     '}{machine}: {command}", flush=True)
        if fault:
            print("\n".join(f"       {line}" for line in [fault, *printed.splitlines()]), flush=True)
        return printed

    def await_that(self, what: str, check: Callable[[], object], limit: float = cluster_world.PATIENCE) -> None:
        """Waits until a condition holds, which what was typed must bring about."""
        self.world.await_that(what, check, limit)

    def without_a_stop(self, story: Callable[["Habits"], None]) -> None:
        """Runs a story during which the service must run on at the first site."""
        began = time.monotonic()
        story(self)
        sites = [site.nodes for site in self.world.sites]
        now = time.monotonic()
        found = cluster_writers.figures(sites, began, now, now)
        if found.at_none > 0 or found.at_two > 0:
            self.faults.append(f"{story.__doc__}: the service ran nowhere for {found.at_none:.1f} s")


# ---- the set-up


def prepare(world: World, package: str) -> None:
    """Boots the machines with pcsd and the package, without a configuration of Booth."""
    set_up = Packaged(package)
    set_up.prepare(world)
    # (the file that Debian's corosync brings along names a cluster of its own, and pcs believes it)
    world.third.remove("/etc/corosync/corosync.conf")
    for machine in world.machines.values():
        for unit in UNITS_OF_PCS:
            machine.remove(f"/etc/systemd/system/{unit}")
    world.boot(world.machines.values())

    def install(machine: Machine) -> None:
        shutil.copy(package, f"{machine.root}/root/booth.deb")
        machine.must("dpkg", "-i", "/root/booth.deb", timeout=SECONDS_OF_A_COMMAND)
        machine.must("sh", "-c", f"echo hacluster:{PASSWORD} | chpasswd")
        machine.must("systemctl", "start", *UNITS_OF_PCS, timeout=SECONDS_OF_A_COMMAND)

    world.at_each(world.machines.values(), install)
    for site in world.sites:
        await_cluster(world, site)
        configure(site)
        os.makedirs(f"{world.folder}/records-{site.name}/{os.path.basename(RECORDS)}")


def pcs_knows_the_machines(habits: Habits) -> None:
    """pcs host auth"""
    for machine, others in (("a1", "a1 a2 b1 b2 third"), ("b1", "a1 b1 b2"), ("third", "a1")):
        habits.at(machine, f"pcs host auth {others} -u hacluster -p {PASSWORD}", 0, "a1: Authorized")


def a_configuration(habits: Habits) -> None:
    """pcs writes the configuration and the key, and copies them to all members"""
    habits.at("a1", f"pcs booth setup sites {A} {B} arbitrators {THIRD}")
    habits.at("a1", f"pcs booth setup sites {A} {B} arbitrators {THIRD}", 1, "already exists")
    habits.at("a1", f"pcs booth ticket add {TICKET} {TIMES}")
    habits.at("a1", "pcs booth config", 0, f'site = {A}\n(.*\n)*ticket = "{TICKET}"')
    habits.at("a1", "booth-status --check /etc/booth/booth.conf")
    habits.at("a1", "pcs booth sync", 0, "a2: Booth config saved")
    habits.at("a1", "pcs booth config a2", 0, f'ticket = "{TICKET}"')
    habits.at("b1", "pcs booth pull a1", 0, "Booth config saved")
    habits.at("b1", "pcs booth sync", 0, "b2: Booth config saved")
    habits.at("third", "pcs booth pull a1", 0, "Booth config saved")


def an_arbitrator(habits: Habits) -> None:
    """pcs starts the arbitrator"""
    habits.at("third", "pcs booth start", 0, "booth@booth started")
    habits.at("third", "pcs booth enable", 0, "booth@booth enabled")
    habits.at("third", "systemctl is-active booth@booth", 0, "^active")
    habits.at("third", f"booth peers -s {THIRD}", 0, f"site {A}, last: never")


def the_sites(habits: Habits) -> None:
    """pcs makes the resources of both sites, and booth-pacemaker sets where the records are"""
    for site in habits.world.sites:
        first, second = (node.name for node in site.nodes)
        habits.at(first, f"pcs booth create ip {site.address}")
        habits.at(first, f"pcs booth create ip {site.address}", 1, "already created")
        words = f"booth-pacemaker setup {TICKET} {SERVICE} --stop {SECONDS_OF_A_STOP}"
        habits.at(first, f"{words} --records {RECORDS} --shared")
        habits.at(second, words)
        habits.at(first, f"crm_resource --cleanup --resource {DAEMON_RESOURCE}")
        address = site.address
        habits.await_that(f"the daemon of {site.name} answers", lambda at=address: habits.world.leader(at))


def a_grant(habits: Habits) -> None:
    """pcs grants the ticket, and the service starts"""
    habits.world.wait(SECONDS_OF_SILENCE)
    habits.at("a1", f"pcs booth ticket grant {TICKET}")
    habits.await_that("the service runs at a", habits.world.sites[0].serves)
    habits.at("b1", f"pcs booth ticket grant {TICKET}", 1, "granted elsewhere|is granted")


def what_is_shown(habits: Habits) -> None:
    """what pcs and crm show of a site that serves"""
    for machine in ("a1", "a2", "b1"):
        habits.at(machine, "pcs booth status", 0, f"(?s)ticket: {TICKET}, leader: {A}.*booth daemon is running")
    habits.at("a1", f"crm site ticket show {TICKET}", 0, "is granted")
    habits.at("a1", f"crm site ticket time {TICKET}", 0, "last time granted on")
    habits.at("a1", "crm configure show", 0, f"(?s)rsc_ticket .*{TICKET}.*")
    habits.at("a1", "pcs constraint ticket", 0, TICKET)
    habits.at("a1", "pcs status", 0, "booth-booth-service")


def a_file_that_is_refused(habits: Habits) -> None:
    """a ticket that boothd refuses takes no ticket from the site, and the daemon's own copy is asked"""
    cause = r"timeout \* \(retries \+ 1\) is 55 s, and must be less than renewal-freq, 30 s"
    habits.at("a1", f"pcs booth ticket add {REFUSED_TICKET} expire=60 timeout=5")
    habits.at("a1", "booth-status --check /etc/booth/booth.conf", 2, cause)
    habits.at("a1", "pcs booth status", 1, cause)
    habits.at("a1", f"pcs booth ticket revoke {TICKET}", 1, cause)
    habits.at("a1", f"booth list -c /run/booth-site/booth/booth.conf -s {A}", 0, f"ticket: {TICKET}, leader: {A}")
    habits.at("a1", "pcs booth restart", 0, "successfully restarted")
    habits.await_that("the daemon of a answers", lambda: habits.world.leader(A) == A)
    habits.at("a1", f"pcs booth ticket remove {REFUSED_TICKET}")
    habits.at("a1", "booth-status --check /etc/booth/booth.conf", 1, "3 members, 1 ticket$")
    habits.at("a1", "pcs booth sync", 0, "a2: Booth config saved")


def another_ticket(habits: Habits) -> None:
    """a ticket more, at all members"""
    habits.at("a1", f"pcs booth ticket add {MORE_TICKET} {TIMES}")
    habits.at("a1", "pcs booth sync", 0, "a2: Booth config saved")
    habits.at("b1", "pcs booth pull a1", 0, "Booth config saved")
    habits.at("b1", "pcs booth sync", 0, "b2: Booth config saved")
    habits.at("third", "pcs booth pull a1", 0, "Booth config saved")
    habits.at("third", "pcs booth stop", 0, "booth@booth stopped")
    habits.at("third", "pcs booth start", 0, "booth@booth started")
    for machine in ("b1", "a1"):
        habits.at(machine, "pcs booth restart", 0, "successfully restarted")
    habits.await_that("the daemon of a answers", lambda: habits.world.leader(A) == A)
    # (nobody votes about a new ticket before that)
    habits.world.wait(SECONDS_OF_SILENCE)
    habits.at("a1", f"pcs booth ticket grant {MORE_TICKET}")
    habits.at("a1", f"sleep 3; booth list -s {A}", 0, f"ticket: {MORE_TICKET}, leader: {A}")
    # (the client asks the holder, whom the other site names)
    habits.at("b1", f"pcs booth ticket revoke {MORE_TICKET}")
    habits.at("a1", f"sleep 1; booth list -s {A}", 0, f"ticket: {MORE_TICKET}, leader: none")


def a_standby(habits: Habits) -> None:
    """crm stops and starts the service by a standby"""
    site = habits.world.sites[0]
    habits.at("a1", f"crm site ticket standby {TICKET}")
    habits.await_that("the service stops at a", lambda: not site.runs())
    habits.at("a1", f"crm site ticket activate {TICKET}")
    habits.await_that("the service runs at a", site.serves)


def a_lost_site(habits: Habits) -> None:
    """the other site is asked while the first one is lost"""
    site = habits.world.sites[1]
    habits.world.network.cut_site("a", True)
    try:
        habits.await_that("the service runs at b", site.serves, 2 * EXPIRE)
        habits.at("b1", "pcs booth status", 1, "no reply")
        habits.at("b1", f"booth list -s {B}", 0, f"ticket: {TICKET}, leader: {B}")
        habits.at("b1", f"crm site ticket show {TICKET}", 0, "is granted")
    finally:
        habits.world.network.cut_site("a", False)
    habits.await_that("the daemon of a lists b", lambda: habits.world.leader(A) == B)
    habits.at("b1", f"pcs booth ticket revoke {TICKET}")
    habits.await_that("the service stops at b", lambda: not site.runs())


def the_end(habits: Habits) -> None:
    """pcs removes the site's resources and its configuration"""
    habits.at("b1", f"booth-pacemaker remove {TICKET} --all")
    habits.at("b1", "pcs booth destroy", 1, "is used in cluster resource")
    habits.at("b1", "pcs booth remove", 0, "")
    habits.at("b1", "pcs booth destroy", 0, "")
    habits.at("b1", "ls /etc/booth/booth.conf", 2, "No such file")
    habits.at("third", "pcs booth stop", 0, "booth@booth stopped")
    habits.at("third", "pcs booth disable", 0, "booth@booth disabled")
    # (with the C program too: pcs asks for a CIB first)
    habits.at("third", "pcs booth destroy", 1, "unable to get cib")


def geo_of_crm(habits: Habits) -> None:
    """crm makes a geo cluster, if dpkg says that the package booth is there"""
    words = f"crm cluster geo-init -y --clusters 'a={A} b={B}' --arbitrator {THIRD} --tickets {TICKET}"
    # (crm asks for a package of this very name, and not for what another one provides)
    habits.at("b1", words, 1, "Booth not installed")
    habits.world.machines["b1"].write("/root/answers/dpkg-query", "#!/bin/sh\n", 0o755)
    habits.at("b1", f"PATH=/root/answers:$PATH {words}", 0, "Configure cluster resources for booth")
    habits.at("b1", "booth-status --check /etc/booth/booth.conf", 0, "3 members, 1 ticket")
    habits.at("b1", "crm configure show g-booth", 0, "group g-booth booth-ip booth-site")


STORIES: Tuple[Tuple[Callable[[Habits], None], bool], ...] = (
    (pcs_knows_the_machines, False),
    (a_configuration, False),
    (an_arbitrator, False),
    (the_sites, False),
    (a_grant, False),
    (what_is_shown, True),
    (a_file_that_is_refused, True),
    (another_ticket, True),
    (a_standby, False),
    (a_lost_site, False),
    (the_end, False),
    (geo_of_crm, False),
)


def try_all(package: str, keeps: bool, shows: bool) -> bool:
    """Tries all habits on machines of their own, and returns whether all went as they must."""
    folder = tempfile.mkdtemp(prefix="habits-", dir=booted.FOLDER)
    began = time.monotonic()
    try:
        with cluster_world.worlds(folder, dict(FLOATING)) as world:
            prepare(world, package)
            print(f"two clusters with pcsd run after {time.monotonic() - began:.0f} s", flush=True)
            habits = Habits(world)
            for story, runs_on in STORIES:
                print(f"  {story.__doc__}", flush=True)
                try:
                    if runs_on:
                        habits.without_a_stop(story)
                    else:
                        story(habits)
                except clusters.FAILURES as why:
                    habits.faults.append(f"{story.__doc__}: {why}")
                    print(f"FAILED {story.__doc__}: {why}", flush=True)
            if shows:
                show(habits.typed)
            print(f"{len(habits.typed)} commands in {time.monotonic() - began:.0f} s, {len(habits.faults)} faults")
            print("".join(f"       {fault}\n" for fault in habits.faults), end="", flush=True)
            return not habits.faults
    finally:
        if keeps:
            print(f"the machines' files: {folder}")
        else:
            shutil.rmtree(folder, ignore_errors=True)


def show(typed: List[Typed]) -> None:
    """Prints each command with its status and what it printed."""
    for each in typed:
        print(f"{each.machine}# {each.command}   [{each.status}]")
        print("".join(f"    {line}\n" for line in each.printed.splitlines()), end="")


def main(arguments: List[str]) -> int:
    """Does what the arguments ask for, and returns the status."""
    parser = argparse.ArgumentParser(description="The commands of pcs and crm on two Pacemaker clusters.")
    parser.add_argument("--package")
    parser.add_argument("--table", action="store_true", help="print each command and what it printed")
    parser.add_argument("--keep", action="store_true", help="leave the machines' files")
    options = parser.parse_args(arguments)
    lacks = booted.missing(cluster_world.CLUSTERS)
    package = clusters.package_of(options)
    if package is None or not os.path.isfile(package):
        lacks.append(f"the package {package or 'out/booth-proved_*.deb (make deb)'}")
    if lacks:
        print(f"habits: not tried here, for want of {', '.join(lacks)}")
        return clusters.NOT_HERE
    assert package is not None
    try:
        booted.make_image(cluster_world.CLUSTERS)
    except (NoImage, subprocess.TimeoutExpired) as why:
        print(f"habits: not tried here, since {why}")
        return clusters.NOT_HERE
    try:
        return 0 if try_all(package, options.keep, options.table) else 1
    except clusters.FAILURES as why:
        print(f"FAILED habits: {why}")
        return 1


if __name__ == "__main__":
    # (what was booted is ended in each case)
    signal.signal(signal.SIGTERM, lambda *_: sys.exit(1))
    sys.exit(main(sys.argv[1:]))
