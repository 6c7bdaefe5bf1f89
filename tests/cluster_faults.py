"""Faults of a site that a test causes and ends again.

It is imported by tests/cluster_scenarios.py, and not run by itself.
"""

import contextlib
import os
from typing import Iterator, List, NamedTuple

from booted import Machine
from cluster_setups import SetUp, await_cluster
from cluster_world import FAULTS, PACEMAKER, Site, Unlike, World

HANGING = "#!/bin/sh\nexec sleep 600\n"
ENDING = "[Service]\nExecStart=\nExecStart=/bin/false\n"


class Run(NamedTuple):
    """A run of a scenario: the world, how it is set up, and the site that holds the ticket."""

    world: World
    set_up: SetUp
    site: Site

    def place(self, service_with_daemon: bool = True) -> Machine:
        """Places the service, and returns the node that has the daemon."""
        return self.set_up.place(self.world, self.site, service_with_daemon)

    def await_phase(self) -> None:
        """Waits for the part of the renewal's period at which the fault is injected."""
        self.world.await_phase(self.site)

    def watch(self) -> None:
        """Watches the effects of the fault."""
        self.world.watch()


@contextlib.contextmanager
def cut_off(run: Run) -> Iterator[None]:
    """Disconnects a site from the others for a while."""
    run.world.network.cut_site(run.site.name, True)
    try:
        yield
    finally:
        run.world.network.cut_site(run.site.name, False)


@contextlib.contextmanager
def apart(site: Site) -> Iterator[None]:
    """Disconnects the nodes of a site from one another for a while. The other machines reach both."""
    for node in site.nodes:
        node.must("ip", "route", "add", "blackhole", f"{site.other(node).address}/32")
    try:
        yield
    finally:
        for node in site.up():
            node.run("ip", "route", "del", "blackhole", f"{site.other(node).address}/32")


@contextlib.contextmanager
def fencing(run: Run) -> Iterator[None]:
    """Gives the cluster of a site a fencing device for a while."""
    words = ["crm_attribute", "--type", "crm_config", "--name", "stonith-enabled", "--update"]
    run.site.must(*words, "true")
    run.world.await_that("the strip is ready", lambda: "strip" in getattr(run.site.look(), "runs", {}))
    try:
        yield
    finally:
        # (a node that is not in the cluster yet takes the change for itself alone)
        run.world.boot(run.site.nodes)
        await_cluster(run.world, run.site)
        run.site.must(*words, "false")


@contextlib.contextmanager
def fault_file(run: Run, name: str, text: str = "") -> Iterator[None]:
    """Changes what the service's agent does at a site for a while."""
    for node in run.site.nodes:
        node.write(f"{FAULTS}/{name}", text)
    try:
        yield
    finally:
        for node in run.site.nodes:
            node.remove(f"{FAULTS}/{name}")


@contextlib.contextmanager
def hanging(run: Run, command: str) -> Iterator[None]:
    """Lets a command hang at the nodes of a site for a while."""
    for node in run.site.nodes:
        os.rename(f"{node.root}/usr/sbin/{command}", f"{node.root}/usr/sbin/{command}.kept")
        node.write(f"/usr/sbin/{command}", HANGING, 0o755)
    try:
        yield
    finally:
        for node in run.site.nodes:
            os.rename(f"{node.root}/usr/sbin/{command}.kept", f"{node.root}/usr/sbin/{command}")


@contextlib.contextmanager
def no_start(run: Run, node: Machine, unit: str) -> Iterator[None]:
    """Kills a unit of a node, and prevents its start at each node of the site for a while."""
    mask, number = f"systemctl mask --runtime {unit}", main_process(node, unit)
    # (once it is masked, systemd takes no report of the unit's watchdog any more, and ends the unit)
    node.must("sh", "-c", f"{mask} && kill -KILL {number}")
    try:
        run.site.other(node).must("sh", "-c", mask)
        yield
    finally:
        for each in run.site.up():
            each.run("systemctl", "unmask", "--runtime", unit)
        start_again(run, unit)


@contextlib.contextmanager
def ending(run: Run, node: Machine, unit: str) -> Iterator[None]:
    """Kills a unit of a node, and lets its program end at once at each node of the site for a while."""
    path, number = f"/etc/systemd/system/{unit}.d/zz-fault.conf", main_process(node, unit)
    for each in run.site.nodes:
        each.write(path, ENDING)
        each.must("systemctl", "daemon-reload")
    try:
        node.must("kill", "-KILL", number)
        yield
    finally:
        for each in run.site.nodes:
            each.remove(path)
        for each in run.site.up():
            each.run("systemctl", "daemon-reload")
        start_again(run, unit)


def main_process(node: Machine, unit: str) -> str:
    """Returns the number of the first process of a unit."""
    number = node.must("systemctl", "show", "-P", "MainPID", unit).strip()
    if number == "0":
        raise Unlike(f"{node.name}: {unit} does not run")
    return number


def start_again(run: Run, unit: str) -> None:
    """Lets a unit start again at the nodes of a site."""
    for node in run.site.up():
        node.run("systemctl", "reset-failed", unit)
        run.set_up.restart(node, [unit])


@contextlib.contextmanager
def standing_still(run: Run) -> Iterator[None]:
    """Stops all processes of Pacemaker at a site (SIGSTOP) for a while; then its nodes lose their power."""
    for node in run.site.nodes:
        node.run("killall", "-q", "-STOP", *PACEMAKER)
    try:
        yield
    finally:
        again(run, run.site.nodes)


def again(run: Run, nodes: List[Machine]) -> None:
    """Cuts the power of nodes, and boots them."""
    for node in nodes:
        node.lose_power()
    run.world.boot(nodes)
