"""Faults of booted machines, each with its expected effect.

It is imported by tests/machines.py, and not run by itself. A scenario begins with a primary at the site that holds the
ticket and a replica at the other one, brings its fault about, waits for what must come, and takes its fault away. Then
tests/machines.py waits until there is a primary and a replica again, and looks at what the writers noted.
"""

import contextlib
import time
from typing import Callable, Dict, Iterator, NamedTuple, Optional

from booted import NEEDRESTART, POSTGRESQL, Image, Machine
from machine_sites import (
    DAEMON,
    EXPIRE,
    FOLLOWER,
    PATIENCE,
    SECONDS_OF_A_TAKEOVER,
    TICKET,
    UNIT,
    Unlike,
    World,
)

Story = Callable[[World, Machine], Optional[str]]
SLOW_STOP = """\
[Service]
ExecStop=
ExecStop=/bin/sh -c 'sleep 4; exec pg_ctlcluster --skip-systemctl-redirect -m fast 15-main stop'
"""
# a stand-in for the commands of chrony, which says that the clock is set as soon as a file exists
CHRONYC, CLOCK_IS_RIGHT = "/usr/local/bin/chronyc", "/run/clock-is-right"
WAITING_CHRONYC = f"#!/bin/sh\n[ \"$1\" = tracking ] || [ -e {CLOCK_IS_RIGHT} ]\n"
WAITS, WAITED = "waits until chrony has set the clock", "chrony has set the clock, after"
UNITS = "/etc/systemd/system"
# (needrestart must leave the server alone, which belongs to another package and is not tested here)
NEEDRESTART_RUN = ("needrestart", "-r", "a")
OWN_RC, SERVER_RC = "/etc/needrestart/conf.d/booth.conf", "/etc/needrestart/conf.d/zz-server.conf"
SERVER_IS_LEFT = "$nrconf{override_rc}{qr(^postgresql)} = 0;\n"


class Scenario(NamedTuple):
    """A fault with its name, whether the gate runs it, and the longest time for which no site may accept writes. It may
    need its own image.
    """

    name: str
    is_for_gate: bool
    most_without: float
    story: Story
    image: Image

    def title(self) -> str:
        """Returns a description of the scenario."""
        return (self.story.__doc__ or "").strip().rstrip(".")


SCENARIOS: Dict[str, Scenario] = {}
# in seconds: the longest outage for clients without a stop of the server; with a stop and a start at one site; with a
# takeover
NONE, SHORT, LONG = 3.0, 20.0 + EXPIRE, SECONDS_OF_A_TAKEOVER + EXPIRE


def scenario(most_without: float, gate: bool = False, image: Image = POSTGRESQL) -> Callable[[Story], Story]:
    """Makes a function a scenario, with the function's name."""

    def add(story: Story) -> Story:
        name = story.__name__.replace("_", "-")
        SCENARIOS[name] = Scenario(name, gate, most_without, story, image)
        return story

    return add


@contextlib.contextmanager
def drop_in(site: Machine, unit: str, text: str) -> Iterator[None]:
    """Gives a unit additional lines in this block."""
    path = f"{UNITS}/{unit}.d/zz-fault.conf"
    site.write(path, text)
    site.must("systemctl", "daemon-reload")
    try:
        yield
    finally:
        if site.is_up():
            site.must("rm", "-f", path)
            site.must("systemctl", "daemon-reload")


def taken_over(world: World, former: Machine) -> None:
    """Waits until the other site accepts writes."""
    other = world.other(former)
    world.await_that(f"{other.name} takes writes", lambda: world.writers.takes(other), SECONDS_OF_A_TAKEOVER + EXPIRE)


def stays(world: World, holder: Machine, seconds: float = 3) -> None:
    """Waits until the same site has accepted writes for this long."""
    world.await_that(f"{holder.name} takes writes", lambda: world.writers.takes(holder), PATIENCE)
    time.sleep(seconds)
    world.await_that(f"{holder.name} takes writes on", lambda: world.writers.takes(holder), 1)


def first_renewal(world: World, holder: Machine) -> None:
    """Waits until a site to which a ticket was moved has renewed it. No site takes it over before (OPERATING.md)."""
    stays(world, holder, EXPIRE / 2 + 3)


def await_replica(world: World, former: Machine) -> str:
    """Waits until a former primary follows the other site, and returns how long this took."""
    took = world.await_that(f"{former.name} is a replica", lambda: world.is_replica(former), 2 * PATIENCE)
    return f"a replica {took:.1f} s after its return"


def postmaster(holder: Machine) -> str:
    """Returns the first process of a site's server."""
    return holder.must("head", "-n1", "/var/lib/postgresql/15/main/postmaster.pid").strip()


# ---- boots


@scenario(LONG, gate=True)
def crash_and_return(world: World, holder: Machine) -> Optional[str]:
    """The primary's machine loses its power and boots again, while no time server can be reached."""
    holder.write(CHRONYC, WAITING_CHRONYC, 0o755)
    try:
        holder.lose_power()
        taken_over(world, holder)
        began = time.monotonic()
        world.boot(holder, wait=False)
        told = await_replica(world, holder)
        # (the journal also has what the system does late in its boot)
        time.sleep(10)
        told += f", and {waits_for_a_clock(world, holder, began)}"
    finally:
        holder.must("rm", "-f", CHRONYC)
    return told


def waits_for_a_clock(world: World, machine: Machine, booted: float) -> str:
    """Checks that a machine's daemon waits for a clock after a boot, sets the clock, and returns the result."""
    told = world.told(machine, DAEMON, booted)
    if WAITS not in told or WAITED in told or world.leader(machine):
        raise Unlike(f"the daemon of {machine.name} waits for no clock: {told.strip() or 'it said nothing'}")
    machine.must("touch", CLOCK_IS_RIGHT)
    took = world.await_that(f"the daemon of {machine.name} answers", lambda: world.leader(machine), PATIENCE)
    told = world.told(machine, DAEMON, booted)
    if WAITED not in told:
        raise Unlike(f"the daemon of {machine.name} began without a clock: {told.strip()}")
    return f"its daemon waited for a clock, and answered {took:.1f} s after it was right"


@scenario(LONG)
def crash_and_quick_return(world: World, holder: Machine) -> Optional[str]:
    """The primary's machine loses its power and boots again immediately."""
    holder.lose_power()
    world.boot(holder, wait=False)
    return None


@scenario(LONG)
def power_off_and_return(world: World, holder: Machine) -> Optional[str]:
    """The primary's machine is shut down normally, and boots again after a takeover."""
    # (no other command may run in a machine that shuts down, since the test would wait for it)
    holder.run("systemctl", "poweroff", "--no-block")
    world.await_that("it is off", lambda: not holder.is_up(), PATIENCE)
    taken_over(world, holder)
    world.boot(holder, wait=False)
    return await_replica(world, holder)


@scenario(LONG + PATIENCE)
def all_lose_power(world: World, holder: Machine) -> Optional[str]:
    """All three machines lose their power and boot again; an operator grants the ticket."""
    for machine in world.machines.values():
        machine.lose_power()
    for machine in world.machines.values():
        world.boot(machine, wait=False)
    world.await_that("the members answer", lambda: world.leader(holder) and world.leader(world.other(holder)))
    end = time.monotonic() + EXPIRE + PATIENCE
    while world.holder() is None and time.monotonic() < end:
        holder.run("timeout", "10", "booth", "grant", "-w", "-s", holder.address, TICKET)
        time.sleep(1)
    return None


# ---- processes that end or stand still


@scenario(NONE)
def follower_killed(world: World, holder: Machine) -> Optional[str]:
    """The primary's follower is killed."""
    world.send(holder, "KILL", FOLLOWER)
    stays(world, holder, EXPIRE)
    return None


@scenario(NONE)
def daemon_killed(world: World, holder: Machine) -> Optional[str]:
    """The primary's daemon is killed."""
    world.send(holder, "KILL", DAEMON)
    stays(world, holder, EXPIRE)
    return None


@scenario(NONE)
def both_killed(world: World, holder: Machine) -> Optional[str]:
    """The primary's daemon and follower are killed at the same time."""
    world.send(holder, "KILL", DAEMON, FOLLOWER)
    stays(world, holder, EXPIRE)
    return None


@scenario(LONG, gate=True)
def both_killed_and_hanging_stop(world: World, holder: Machine) -> Optional[str]:
    """Daemon and follower are killed at the same time, the daemon does not start again, and the server's stop hangs."""
    holder.must("systemctl", "mask", "--runtime", DAEMON)
    try:
        pids = [world.pid(holder, DAEMON), world.pid(holder, FOLLOWER)]
        holder.must("kill", "-STOP", postmaster(holder))
        holder.must("kill", "-KILL", *pids)
        taken_over(world, holder)
    finally:
        holder.must("systemctl", "unmask", "--runtime", DAEMON)
        holder.must("systemctl", "start", DAEMON, timeout=90)
    return await_replica(world, holder)


@scenario(NONE)
def follower_stands_still(world: World, holder: Machine) -> Optional[str]:
    """The primary's follower is stopped (SIGSTOP)."""
    world.send(holder, "STOP", FOLLOWER)
    stays(world, holder, EXPIRE + 5)
    return None


@scenario(LONG)
def daemon_stands_still(world: World, holder: Machine) -> Optional[str]:
    """The primary's daemon is stopped (SIGSTOP)."""
    pid = world.pid(holder, DAEMON)
    holder.must("kill", "-STOP", pid)
    try:
        taken_over(world, holder)
    finally:
        holder.must("kill", "-CONT", pid)
    return await_replica(world, holder)


@scenario(LONG)
def both_stand_still(world: World, holder: Machine) -> Optional[str]:
    """The primary's daemon and follower are stopped (SIGSTOP)."""
    pid = world.pid(holder, DAEMON)
    world.send(holder, "STOP", DAEMON, FOLLOWER)
    try:
        taken_over(world, holder)
    finally:
        holder.must("kill", "-CONT", pid)
    return await_replica(world, holder)


@scenario(LONG)
def no_more_processes(world: World, holder: Machine) -> Optional[str]:
    """The follower can start no process, and the daemon is stopped (SIGSTOP)."""
    pid = world.pid(holder, DAEMON)
    with holder.without_processes(world.pid(holder, FOLLOWER)):
        holder.must("kill", "-STOP", pid)
        try:
            taken_over(world, holder)
        finally:
            holder.must("kill", "-CONT", pid)
    return await_replica(world, holder)


@scenario(SHORT)
def server_killed(world: World, holder: Machine) -> Optional[str]:
    """The primary's server is killed."""
    holder.must("kill", "-KILL", postmaster(holder))
    return None


@scenario(SHORT)
def server_restarted(world: World, holder: Machine) -> Optional[str]:
    """The primary's server is restarted by its unit, as an upgrade of PostgreSQL does."""
    holder.must("systemctl", "restart", UNIT)
    return None


@scenario(LONG)
def server_stands_still(world: World, holder: Machine) -> Optional[str]:
    """The primary's server is stopped (SIGSTOP), and so is the daemon."""
    pid = world.pid(holder, DAEMON)
    holder.must("kill", "-STOP", postmaster(holder), pid)
    try:
        taken_over(world, holder)
    finally:
        holder.must("kill", "-CONT", pid)
    return await_replica(world, holder)


# ---- networks


@scenario(LONG)
def cut_off(world: World, holder: Machine) -> Optional[str]:
    """The primary's machine is disconnected from the others."""
    holder.cut()
    try:
        taken_over(world, holder)
        time.sleep(5)
    finally:
        holder.cut(False)
    return await_replica(world, holder)


@scenario(LONG)
def cut_off_and_hanging_stop(world: World, holder: Machine) -> Optional[str]:
    """The primary's machine is disconnected, and its server's stop hangs."""
    holder.cut()
    try:
        holder.must("kill", "-STOP", postmaster(holder))
        taken_over(world, holder)
    finally:
        holder.cut(False)
    return await_replica(world, holder)


@scenario(LONG)
def no_majority(world: World, holder: Machine) -> Optional[str]:
    """The other two members do not run until the lease is over, and then start again."""
    other = world.other(holder)
    world.third.lose_power()
    other.cut()
    try:
        world.await_that("the primary ends", lambda: not world.writers.takes(holder), EXPIRE + 10)
    finally:
        other.cut(False)
        world.third.boot()
    return None


@scenario(SHORT)
def restart_without_the_replica(world: World, holder: Machine) -> Optional[str]:
    """The replica's machine is off when the primary's server is killed: no peer knows whether data are missing."""
    other = world.other(holder)
    other.lose_power()
    try:
        holder.must("kill", "-KILL", postmaster(holder))
        world.await_that("the primary ends", lambda: not world.writers.takes(holder), 5)
        stays(world, holder)
    finally:
        world.boot(other, wait=False)
    return None


# ---- operators


@scenario(NONE, gate=True)
def restart_of_the_follower(world: World, holder: Machine) -> Optional[str]:
    """An operator restarts the primary's follower."""
    holder.must("systemctl", "restart", FOLLOWER)
    stays(world, holder, EXPIRE)
    return None


@scenario(LONG, gate=True)
def failing_start(world: World, holder: Machine) -> Optional[str]:
    """The primary's server ends and cannot be started again: the other site takes over."""
    with drop_in(holder, UNIT, "[Service]\nExecStartPre=/bin/false\n"):
        holder.must("kill", "-KILL", postmaster(holder))
        began = time.monotonic()
        other = world.other(holder)
        world.await_that(f"{other.name} takes writes", lambda: world.writers.takes(other), 2 * PATIENCE)
        told = f"handed over in {time.monotonic() - began:.1f} s"
    holder.run("systemctl", "reset-failed", UNIT)
    holder.must("systemctl", "start", UNIT)
    holder.run("booth-service", "clear", TICKET)
    return told


@scenario(NONE, gate=True)
def another_key(world: World, holder: Machine) -> Optional[str]:
    """The key is changed in the four steps of OPERATING.md."""
    new = "/etc/booth/authkey.new"
    world.one.must("booth-keygen", new)
    for machine in world.machines.values():
        if machine is not world.one:
            content = world.one.must("base64", "-w0", new)
            machine.must("sh", "-c", f"umask 077; echo {content} | base64 -d >{new}; chown booth: {new}")
    former = "authfile   = /etc/booth/authkey"
    steps = (
        f"{former}\nauthfile-old = {new}",
        f"authfile   = {new}\nauthfile-old = /etc/booth/authkey",
        f"authfile   = {new}",
    )
    now = former
    for step in steps:
        for machine in world.machines.values():
            text = machine.read("/etc/booth/booth.conf")
            machine.write("/etc/booth/booth.conf", text.replace(now, step))
            world.restart(machine, DAEMON)
            world.await_that(f"{machine.name} answers", lambda machine=machine: world.leader(machine))
        now = step
        time.sleep(3)
    for machine in world.machines.values():
        machine.must("mv", new, "/etc/booth/authkey")
        text = machine.read("/etc/booth/booth.conf")
        machine.write("/etc/booth/booth.conf", text.replace(now, former))
    stays(world, holder, EXPIRE + 5)
    return None


@scenario(NONE, gate=True)
def upgrade(world: World, holder: Machine) -> Optional[str]:
    """The package is installed again at each member, and the daemons are restarted one after another."""
    for machine in world.machines.values():
        machine.must("dpkg", "-i", "/root/booth.deb", timeout=120)
        world.restart(machine, DAEMON)
        world.await_that(f"{machine.name} answers", lambda machine=machine: world.leader(machine))
    stays(world, holder, EXPIRE)
    return None


@scenario(NONE, image=NEEDRESTART)
def needrestart_after_an_upgrade(world: World, holder: Machine) -> Optional[str]:
    """A library of daemon and follower is upgraded, and needrestart runs with and without the package's file."""
    units = (DAEMON, FOLLOWER)
    replaced = replace_library(world, holder, *units)
    holder.write(SERVER_RC, SERVER_IS_LEFT)
    before = [world.pid(holder, unit) for unit in units] + [postmaster(holder)]
    listed = holder.must("needrestart", "-b", "-r", "l", timeout=120)
    if not all(f"NEEDRESTART-SVC: {unit}" in listed for unit in units):
        raise Unlike(f"needrestart finds nothing old: {listed.strip()}")
    holder.must(*NEEDRESTART_RUN, timeout=120)
    stays(world, holder, EXPIRE)
    if [world.pid(holder, unit) for unit in units] + [postmaster(holder)] != before:
        raise Unlike("needrestart has restarted the daemon, its follower or the server")
    holder.must("mv", OWN_RC, f"{OWN_RC}.away")
    try:
        holder.must(*NEEDRESTART_RUN, timeout=120)
    finally:
        holder.must("mv", f"{OWN_RC}.away", OWN_RC)
        holder.remove(SERVER_RC)
    if [unit for number, unit in zip(before, units) if world.pid(holder, unit) == number]:
        raise Unlike("needrestart leaves them alone without the package's file too")
    stays(world, holder, EXPIRE)
    return f"{replaced} was replaced"


def replace_library(world: World, machine: Machine, *units: str) -> str:
    """Replaces a file that the first process of each unit has mapped, as an upgrade does, and returns its name."""
    maps = [machine.must("cat", f"/proc/{world.pid(machine, unit)}/maps") for unit in units]
    code = [{line.split()[-1] for line in text.splitlines() if " r-xp " in line and "/" in line} for text in maps]
    name = min(set.intersection(*code), key=lambda path: (".so" not in path, path))
    machine.must("cp", "-a", name, f"{name}.new")
    machine.must("mv", "-f", f"{name}.new", name)
    return name


@scenario(SHORT)
def switchover(world: World, holder: Machine) -> Optional[str]:
    """An operator moves the ticket by booth-switchover, under load."""
    other = world.other(holder)
    holder.must("booth-switchover", TICKET, other.address, timeout=120)
    taken_over(world, holder)
    told = await_replica(world, holder)
    first_renewal(world, other)
    return told


@scenario(SHORT)
def switchover_with_a_slow_stop(world: World, holder: Machine) -> Optional[str]:
    """An operator moves the ticket by booth-switchover, and the server's stop takes 4 s longer."""
    other = world.other(holder)
    with drop_in(holder, UNIT, SLOW_STOP):
        holder.must("booth-switchover", TICKET, other.address, timeout=120)
        taken_over(world, holder)
    told = await_replica(world, holder)
    first_renewal(world, other)
    return told


@scenario(SHORT)
def paused(world: World, holder: Machine) -> Optional[str]:
    """An operator pauses the ticket's service, kills the server, and resumes."""
    holder.must("booth-service", "pause", TICKET)
    try:
        holder.must("kill", "-KILL", postmaster(holder))
        time.sleep(10)
    finally:
        holder.must("booth-service", "resume", TICKET)
    return None
