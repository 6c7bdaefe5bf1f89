"""Two sites with PostgreSQL under a ticket and an arbitrator, each a booted machine, set up from the package.

It is imported by tests/machines.py, and not run by itself. What it runs in the machines is what README.md, OPERATING.md
and POSTGRESQL.md tell an operator to run.
"""

import contextlib
import os
import shutil
import sys
import time
from typing import Callable, Dict, Iterator, List, Optional, Set

TOP = os.path.dirname(os.path.dirname(os.path.abspath(__file__)))
sys.path.insert(0, f"{TOP}/tools")

import booted
import machine_writers
from booted import Machine, NotBooted
from machine_writers import Writers

TICKET, SERVER, NAME = "db8", "15/main", "15-main"
UNIT = f"postgresql@{NAME}.service"
FOLLOWER, DAEMON, WATCH = f"booth-follow@{TICKET}.service", "booth@booth.service", f"booth-postgresql@{NAME}.service"
ADDRESSES = {"one": "10.77.0.1", "two": "10.77.0.2", "third": "10.77.0.3"}
# (on a busy machine a smaller expire is too short for all steps)
EXPIRE = int(os.environ.get("BOOTH_MACHINES_EXPIRE", "20"))
AFTER, TIMEOUT, RETRIES = 5, 1, 3
# in seconds: the silence after a first start; the longest time of a takeover, from the holder's end; and the limit for
# a wait until everything runs
SECONDS_OF_SILENCE = EXPIRE + AFTER + 1
SECONDS_OF_A_TAKEOVER = EXPIRE + AFTER + 20
SECONDS_TO_SETTLE = 100 + EXPIRE
PATIENCE = 40 + EXPIRE
# (each check starts processes in the machines)
SECONDS_BETWEEN_LOOKS = 0.5
# (a journal syncs each record once more, and the figures of POSTGRESQL.md were measured without it)
SETUP = (
    "booth-setup", "init", "--site", ADDRESSES["one"], "--site", ADDRESSES["two"], "--arbitrator", ADDRESSES["third"],
    "--ticket", TICKET, "--expire", str(EXPIRE), "--acquire-after", str(AFTER), "--timeout", str(TIMEOUT),
    "--retries", str(RETRIES), "--hand-over", "--no-journal",
)  # fmt: skip
IS_PRIMARY = "SELECT NOT pg_is_in_recovery()"
STREAMS = "SELECT count(*) FROM pg_stat_wal_receiver WHERE status = 'streaming'"


class Unlike(Exception):
    """An expected event did not happen; the text describes it."""


class World:
    """The machines, with the writers at the sites."""

    def __init__(self, machines: Dict[str, Machine], package: str) -> None:
        self.machines, self.package = machines, package
        self.one, self.two, self.third = machines["one"], machines["two"], machines["third"]
        self.sites = [self.one, self.two]
        self.writers = Writers(self.sites)

    # ---- looks

    def sql(self, site: Machine, statement: str) -> str:
        """Returns the answer of a site's server, or nothing if it does not answer."""
        as_owner = ("timeout", "-s", "KILL", "5", "runuser", "-u", "postgres", "--")
        done = site.run(*as_owner, "psql", "-XAtqc", statement, "postgres")
        return done.stdout.decode().strip() if done.returncode == 0 else ""

    def is_primary(self, site: Machine) -> bool:
        """Returns whether the site's server is a primary."""
        return site.is_up() and self.sql(site, IS_PRIMARY) == "t"

    def is_replica(self, site: Machine) -> bool:
        """Returns whether the site's server follows the other one."""
        return site.is_up() and self.sql(site, STREAMS) == "1"

    def other(self, site: Machine) -> Machine:
        """Returns the other site."""
        return self.two if site is self.one else self.one

    def holder(self) -> Optional[Machine]:
        """Returns the site whose server accepts writes and that lists itself as the holder, or nothing."""
        for site in self.sites:
            if site.is_up() and self.writers.takes(site) and self.leader(site) == site.address:
                return site
        return None

    def leader(self, site: Machine) -> str:
        """Returns the site that a site's daemon lists as the holder."""
        listed = site.run("timeout", "5", "booth", "list", "-s", site.address).stdout.decode()
        for line in listed.splitlines():
            if line.startswith(f"ticket: {TICKET},"):
                return line.split("leader: ")[1].split(",")[0].strip()
        return ""

    def rows(self, site: Machine) -> Set[int]:
        """Returns the numbers of the rows on a site's server."""
        return {int(each) for each in self.sql(site, "SELECT number FROM booth_rows").split()}

    # ---- waits

    def await_that(self, what: str, check: Callable[[], object], seconds: float = PATIENCE) -> float:
        """Waits until a condition holds, and returns how long this took. Raises `Unlike` if it does not come to hold.
        """
        began = time.monotonic()
        while not check():
            if time.monotonic() - began > seconds:
                raise Unlike(f"{what}: not after {seconds:.0f} s")
            time.sleep(SECONDS_BETWEEN_LOOKS)
        return time.monotonic() - began

    def settle(self) -> Machine:
        """Waits until one site is the primary and the other one follows it, and returns the first."""
        self.await_that("a primary and a replica", self.is_settled, SECONDS_TO_SETTLE)
        holder = self.holder()
        if holder is None:
            raise Unlike("the primary ended again")
        return holder

    def is_settled(self) -> bool:
        """Returns whether a site is the primary and holds the ticket, and the other one follows it and has all its
        data.
        """
        holder = self.holder()
        return holder is not None and self.is_replica(self.other(holder)) and not self.is_former(self.other(holder))

    def is_former(self, site: Machine) -> bool:
        """Returns whether a site's server was the last primary, as far as it knows, and so is not promoted without a
        peer.
        """
        return bool(site.read(f"/var/lib/booth-postgresql/{NAME}.former"))

    # ---- what a scenario does

    def boot(self, site: Machine, wait: bool = True) -> None:
        """Boots a machine again. Its writer starts by itself."""
        site.boot(wait)

    def repair(self) -> None:
        """Repairs the machines after a scenario that failed, so that the next one can begin."""
        for machine in self.machines.values():
            machine.cut(False)
            if not machine.is_up():
                self.boot(machine)
        for site in self.sites:
            site.run("booth-service", "clear", TICKET)
        # (a server that lacks data is refused when it starts first)
        for site in self.sites:
            if all(self.leader(each) in ("", "none") for each in self.sites):
                site.run("timeout", "10", "booth", "grant", "-w", "-s", site.address, TICKET)
                with contextlib.suppress(Unlike):
                    self.await_that("a primary", self.holder)

    def pid(self, site: Machine, unit: str) -> str:
        """Returns the first process of a unit of a machine."""
        number = site.must("systemctl", "show", "-P", "MainPID", unit).strip()
        if number in ("", "0"):
            raise Unlike(f"{site.name}: {unit} does not run")
        return number

    def send(self, site: Machine, signal: str, *units: str) -> None:
        """Sends a signal to the first process of each of these units, all at once."""
        site.must("kill", f"-{signal}", *(self.pid(site, unit) for unit in units))

    def restart(self, machine: Machine, unit: str) -> None:
        """Restarts a unit of a machine. Raises `Unlike` with the unit's lines if that fails."""
        began = time.monotonic()
        if machine.run("systemctl", "restart", unit, timeout=90).returncode != 0:
            raise Unlike(f"{machine.name}: {unit} does not restart: {self.told(machine, unit, began).strip()}")

    def told(self, site: Machine, unit: str, since: float) -> str:
        """Returns the lines of a unit in a machine's journal since a moment by this process's clock."""
        seconds = int(time.monotonic() - since) + 1
        done = site.run("journalctl", "-u", unit, "-o", "cat", f"--since=-{seconds}s")
        return done.stdout.decode(errors="replace")


def install(world: World, machine: Machine, address: str) -> None:
    """Installs the package, and waits until the machine has its address."""
    shutil.copy(world.package, f"{machine.root}/root/booth.deb")
    machine.must("dpkg", "-i", "/root/booth.deb")
    has_address = lambda: machine.run("grep", "-qF", "-e", f"-- {address}", "/proc/net/fib_trie").returncode == 0
    world.await_that(f"{machine.name} has its address", has_address)


def copy_file(path: str, source: Machine, targets: List[Machine]) -> None:
    """Copies a file of a machine to others, as scp -p does."""
    for target in targets:
        os.makedirs(os.path.dirname(target.root + path), exist_ok=True)
        shutil.copy2(source.root + path, target.root + path)


def set_up_cluster(world: World) -> None:
    """Boots the machines and sets the cluster up, as README.md says."""
    machines = list(world.machines.values())
    for machine in machines:
        machine.give_boot_id(f"{DAEMON.partition('@')[0]}@.service", f"{FOLLOWER.partition('@')[0]}@.service")
        machine.boot(wait=False)
    for machine in machines:
        world.await_that(f"{machine.name} is booted", machine.is_booted)
        install(world, machine, ADDRESSES[machine.name])
    machines[0].must(*SETUP)
    copy_file("/etc/booth/booth.bundle", machines[0], machines[1:])
    for machine in machines[1:]:
        machine.must("booth-setup", "join", "/etc/booth/booth.bundle", machine.address)


def set_up_postgresql(world: World) -> None:
    """Makes the two servers follow the ticket, as POSTGRESQL.md says."""
    one, two = world.sites
    for site in world.sites:
        world.await_that(f"{site.name} has a server", lambda site=site: world.sql(site, "SELECT 1") == "1")
    world.sql(one, machine_writers.TABLE)
    one.must("booth-postgresql", "setup", TICKET, SERVER, "--primary", "--restart", "--allow-basebackup")
    copy_file(f"/etc/booth/postgresql/{NAME}.pgpass", one, [two])
    two.must("booth-postgresql", "setup", TICKET, SERVER, "--standby", "--allow-basebackup", timeout=180)
    granted = time.monotonic() + SECONDS_OF_SILENCE + PATIENCE
    while one.run("timeout", "10", "booth", "grant", "-w", "-s", one.address, TICKET).returncode != 0:
        if time.monotonic() > granted:
            raise NotBooted("the ticket is not granted")
        time.sleep(0.5)
    for site in world.sites:
        site.must("systemctl", "enable", "--now", FOLLOWER)
        world.writers.begin(site)
    world.settle()


@contextlib.contextmanager
def worlds(
    package: str,
    folder: str,
    setting_up: Callable[[World], None] = set_up_postgresql,
    image: booted.Image = booted.POSTGRESQL,
) -> Iterator[World]:
    """Yields a cluster whose servers follow their ticket."""
    with booted.machines(f"booth-{os.getpid()}", folder, ADDRESSES, image) as machines:
        world = World(machines, package)
        set_up_cluster(world)
        setting_up(world)
        yield world
