"""Two sites that are Pacemaker clusters of two nodes each, and an arbitrator: five booted machines.

It is imported by tests/clusters.py, and not run by itself. Each site has a switch of its own, with a cable to the
others, and a power strip, by which a node has another one fenced.
"""

import contextlib
import glob
import os
import subprocess
import time
import uuid
import xml.etree.ElementTree as Xml
from concurrent.futures import ThreadPoolExecutor
from typing import Callable, Collection, Dict, Iterable, Iterator, List, NamedTuple, Optional, Set

import cluster_writers
from booted import BASE_PACKAGES, BRIDGE, Image, Machine, Network, NotBooted
from cluster_writers import log_of

HERE = os.path.dirname(os.path.abspath(__file__))
MORE_PACKAGES = (
    "corosync", "pacemaker", "pacemaker-cli-utils", "crmsh", "pcs", "resource-agents", "iputils-ping",
    "iputils-arping", "psmisc",
)  # fmt: skip
CLUSTERS = Image("clusters", BASE_PACKAGES, MORE_PACKAGES)
NODES = {"a": ("a1", "a2"), "b": ("b1", "b2")}
THIRD = "third"
ADDRESSES = {"a1": "10.78.0.11", "a2": "10.78.0.12", "b1": "10.78.0.21", "b2": "10.78.0.22", THIRD: "10.78.0.3"}
# what moves between the nodes of a site, with its daemon
FLOATING = {"a": "10.78.0.10", "b": "10.78.0.20"}
TICKET = "db8"
# (on a busy machine, nothing is done in its time with less)
EXPIRE = int(os.environ.get("BOOTH_CLUSTERS_EXPIRE", "30"))
RENEWAL, AFTER = EXPIRE // 3, int(os.environ.get("BOOTH_CLUSTERS_ACQUIRE_AFTER", "5"))
TOKEN_MS = 3000
PATIENCE = 60
SECONDS_BETWEEN_LOOKS = 0.2
# how long a look at a cluster takes where not much else is done, in seconds; and how much longer all may take
SECONDS_OF_A_LOOK, MOST_SLOWNESS = 0.2, 3.0
# each machine's first process watches files
INSTANCES = "/proc/sys/fs/inotify/max_user_instances"
MOST_INSTANCES = 1024
FAULTS = "/var/lib/booth-test"
STRIP = f"{FAULTS}/strip"
# how systemd-nspawn ends if the machine was to boot again; and how long that takes a machine before its system starts
BOOTS_AGAIN = 133
SECONDS_OF_A_FIRMWARE = 6.0
PACEMAKER = (
    "pacemakerd", "pacemaker-based", "pacemaker-fenced", "pacemaker-execd", "pacemaker-attrd", "pacemaker-schedulerd",
    "pacemaker-controld",
)  # fmt: skip
COROSYNC = """\
totem {{
  version: 2
  cluster_name: {name}
  transport: knet
  crypto_cipher: none
  crypto_hash: none
  token: {token}
}}
nodelist {{
{nodes}}}
quorum {{
  provider: corosync_votequorum
  two_node: 1
}}
logging {{
  to_syslog: yes
}}
"""
ADDRESS_UNIT = """\
[Unit]
DefaultDependencies=no
After=sys-subsystem-net-devices-host0.device
Before=network.target network-online.target corosync.service
[Service]
Type=oneshot
RemainAfterExit=yes
ExecStart=/bin/sh -c 'ip link set host0 up; ip address replace {address}/24 dev host0'
[Install]
WantedBy=multi-user.target
"""


class Unlike(Exception):
    """An expected event did not happen; the text describes it."""


class Sites(Network):
    """A bridge for each site, connected by a cable to the bridge of all sites."""

    def __enter__(self) -> "Sites":
        super().__enter__()
        for site in NODES:
            self.ip("link", "add", f"site-{site}", "type", "bridge")
            self.ip("link", "add", f"up-{site}", "type", "veth", "peer", "name", f"down-{site}")
            self.ip("link", "set", f"up-{site}", "master", BRIDGE, "up")
            self.ip("link", "set", f"down-{site}", "master", f"site-{site}", "up")
            self.ip("link", "set", f"site-{site}", "up")
        return self

    def cut_site(self, site: str, is_cut: bool) -> None:
        """Disconnects the cable between a site and the others, or connects it again."""
        self.ip("link", "set", f"up-{site}", "down" if is_cut else "up")


class Look(NamedTuple):
    """A node's view of its cluster: its members, which node is the DC, where each resource runs, which tickets are
    granted.
    """

    online: Set[str]
    dc: str
    has_quorum: bool
    runs: Dict[str, List[str]]
    granted: Set[str]


def look_of(text: bytes) -> Look:
    """Returns the view that `crm_mon --output-as=xml` printed."""
    top = Xml.fromstring(text)
    dc = top.find("summary/current_dc")
    runs = {
        str(each.get("id")): [str(node.get("name")) for node in each.iter("node")]
        for each in top.iter("resource")
        if each.get("active") == "true"
    }
    return Look(
        {str(each.get("name")) for each in top.findall("nodes/node") if each.get("online") == "true"},
        str(dc.get("name") or "") if dc is not None else "",
        dc is not None and dc.get("with_quorum") == "true",
        runs,
        {str(each.get("id")) for each in top.iter("ticket") if each.get("status") == "granted"},
    )


class Site:
    """A site: its name, its nodes, and the address of its daemon as a member."""

    def __init__(self, name: str, nodes: List[Machine], address: str) -> None:
        self.name, self.nodes, self.address = name, nodes, address

    def up(self) -> List[Machine]:
        """Returns the nodes that run."""
        return [node for node in self.nodes if node.is_up()]

    def node(self, name: str) -> Machine:
        """Returns the node with a name."""
        return next(node for node in self.nodes if node.name == name)

    def other(self, node: Machine) -> Machine:
        """Returns the other node."""
        return self.nodes[1] if node is self.nodes[0] else self.nodes[0]

    def look(self, at: Optional[Machine] = None) -> Optional[Look]:
        """Returns a node's view of its cluster, or nothing if the node does not answer."""
        for node in [at] if at else self.up():
            done = node.run("timeout", "-s", "KILL", "5", "crm_mon", "-1", "--output-as=xml")
            if done.returncode == 0:
                return look_of(done.stdout)
        return None

    def runs(self) -> bool:
        """Returns whether any writer runs at the site."""
        return any(cluster_writers.runs(node, kind) for node in self.nodes for kind in cluster_writers.KINDS)

    def serves(self) -> bool:
        """Returns whether every writer runs at the site."""
        return all(any(cluster_writers.runs(node, kind) for node in self.nodes) for kind in cluster_writers.KINDS)

    def must(self, *words: str) -> str:
        """Runs a command that must succeed at a running node, and returns what it printed."""
        up = self.up()
        if not up:
            raise NotBooted(f"no node of site {self.name} runs")
        return up[0].must("timeout", "-s", "KILL", "30", *words)


class World:
    """The machines. Every function that waits also lets the power strips carry out their requests."""

    def __init__(self, network: Sites, machines: Dict[str, Machine], folder: str, addresses: Dict[str, str]) -> None:
        self.network, self.machines, self.folder = network, machines, folder
        self.third = machines[THIRD]
        self.sites = [Site(name, [machines[node] for node in NODES[name]], addresses[name]) for name in NODES]
        # nodes that no power strip brings back, and when others boot
        self.dead: Set[str] = set()
        self.boots_at: Dict[str, float] = {}
        self.phase = 0.5
        self.began = self.watched = time.monotonic()
        # whether the fault of a run has come; and how many times as long as elsewhere all takes here
        self.is_faulty = False
        self.slowness = 1.0

    def other(self, site: Site) -> Site:
        """Returns the other site."""
        return self.sites[1] if site is self.sites[0] else self.sites[0]

    # ---- power

    def tend(self) -> None:
        """Boots machines that are due to boot, and carries out the requests to power strips."""
        for machine in self.machines.values():
            if machine.process is not None and machine.process.poll() == BOOTS_AGAIN:
                machine.lose_power()
                self.boots_at[machine.name] = time.monotonic() + SECONDS_OF_A_FIRMWARE
        for name in [name for name, at in self.boots_at.items() if at <= time.monotonic()]:
            del self.boots_at[name]
            if not self.machines[name].is_up():
                self.machines[name].boot(wait=False)
        for machine in self.machines.values():
            for request in glob.glob(f"{machine.root}{STRIP}/*.request") if machine.is_up() else []:
                self.strip(request)

    def strip(self, request: str) -> None:
        """Carries out the request to a power strip."""
        name = os.path.basename(request)[: -len(".request")]
        with open(request, encoding="ascii") as file:
            action = file.read().strip()
        os.remove(request)
        if action in ("off", "reboot"):
            self.machines[name].lose_power()
        if action in ("on", "reboot") and name not in self.dead:
            self.boots_at[name] = time.monotonic() + SECONDS_OF_A_FIRMWARE
        with open(f"{request[: -len('.request')]}.done", "w", encoding="ascii") as file:
            file.write(action)

    def kill(self, machine: Machine) -> None:
        """Cuts the power of a machine until it is booted again."""
        self.dead.add(machine.name)
        self.boots_at.pop(machine.name, None)
        machine.lose_power()

    def boot(self, machines: Collection[Machine]) -> None:
        """Boots machines at the same time, and waits until they have started."""
        self.dead -= {machine.name for machine in machines}
        booting = [machine for machine in machines if not machine.is_up()]
        for machine in booting:
            machine.lose_power()
            machine.boot(wait=False)
        for machine in booting:
            self.await_that(f"{machine.name} has booted", machine.is_booted)

    def reset(self) -> None:
        """Cuts the power of all machines and boots them, with all cables connected."""
        self.boots_at.clear()
        for machine in self.machines.values():
            machine.lose_power()
            machine.cut(False)
        for site in self.sites:
            self.network.cut_site(site.name, False)
        self.boot(self.machines.values())

    # ---- waits

    def wait(self, seconds: float) -> None:
        """Waits."""
        end = time.monotonic() + seconds
        while time.monotonic() < end:
            self.tend()
            time.sleep(min(0.1, max(0.0, end - time.monotonic())))

    def await_that(self, what: str, check: Callable[[], object], limit: float = PATIENCE) -> float:
        """Waits until a condition holds, and returns how long this took. Raises `Unlike` if it does not come to hold.
        """
        began, limit = time.monotonic(), limit * self.slowness
        while not check():
            if time.monotonic() - began > limit:
                raise Unlike(f"{what}: not after {limit:.0f} s")
            self.wait(SECONDS_BETWEEN_LOOKS)
        return time.monotonic() - began

    def see_how_slow(self) -> None:
        """Measures how long looks at the clusters take, which shows how busy this machine is."""
        took = []
        for site in [*self.sites, *self.sites, *self.sites]:
            began = time.monotonic()
            site.look()
            took.append(time.monotonic() - began)
        self.slowness = min(MOST_SLOWNESS, max(1.0, sorted(took)[len(took) // 2] / SECONDS_OF_A_LOOK))

    def at_each(self, machines: Iterable[Machine], work: Callable[[Machine], object]) -> None:
        """Runs the same function for several machines at the same time."""
        with ThreadPoolExecutor() as pool:
            list(pool.map(work, machines))

    # ---- the ticket

    def listed(self, address: str) -> Dict[str, str]:
        """Returns a daemon's line about the ticket, as the arbitrator receives it."""
        done = self.third.run("timeout", "3", "booth", "list", "-s", address)
        for line in done.stdout.decode(errors="replace").splitlines():
            if line.startswith(f"ticket: {TICKET},"):
                return dict(part.split(": ", 1) for part in line.split(", ") if ": " in part)
        return {}

    def leader(self, address: str) -> str:
        """Returns the holder that a daemon lists: an address, `none`, or nothing if the daemon does not answer."""
        return self.listed(address).get("leader", "").strip().lower()

    def holder(self) -> Optional[Site]:
        """Returns the site that lists itself as the holder and whose service runs, or nothing."""
        for site in self.sites:
            if site.serves() and self.leader(site.address) == site.address:
                return site
        return None

    def await_renewal(self, site: Site) -> None:
        """Waits until a site has renewed its lease."""
        before = self.listed(site.address).get("expires")
        limit = RENEWAL + 10
        self.await_that("a renewal", lambda: self.listed(site.address).get("expires") not in (None, before), limit)

    def await_phase(self, site: Site) -> None:
        """Waits until a part of the time between two renewals has passed since the last one. The fault comes next."""
        self.await_renewal(site)
        self.wait(self.phase * RENEWAL)
        if not site.serves() or self.other(site).runs() or self.leader(site.address) != site.address:
            raise Unlike(f"the service does not run at {site.name} alone any more, before the fault came")
        self.began = time.monotonic()
        self.is_faulty = True

    def watch(self, least: float = EXPIRE + AFTER + 5, most: float = 2 * EXPIRE + 20) -> None:
        """Watches the effects of a fault: for at least this long, and then until the service has run at exactly one
        site.
        """
        self.watched = time.monotonic()
        alone = 0.0
        while self.watched < self.began + most and (self.watched < self.began + least or alone < 5):
            self.wait(SECONDS_BETWEEN_LOOKS)
            now = time.monotonic()
            is_alone = any(site.serves() and not self.other(site).runs() for site in self.sites)
            alone = alone + now - self.watched if is_alone else 0.0
            self.watched = now


def raise_instances() -> None:
    """Raises the system's limit, so that more than three machines can have a first process that watches files."""
    with open(INSTANCES, encoding="ascii") as file:
        allowed = int(file.read())
    if allowed < MOST_INSTANCES:
        with open(INSTANCES, "w", encoding="ascii") as file:
            file.write(str(MOST_INSTANCES))


def prepare(machine: Machine, site: Optional[str]) -> None:
    """Writes the files that a machine has before its first boot."""
    machine.write("/etc/systemd/network/10-host0.network", "[Match]\nName=host0\n[Link]\nUnmanaged=yes\n")
    machine.write("/etc/systemd/system/own-address.service", ADDRESS_UNIT.format(address=machine.address))
    # (else a daemon takes the clock that another machine's kept for its own)
    machine.give_boot_id("booth@.service", "booth-follow@.service")
    machine.enable("own-address.service")
    # (without one it would be a first boot, which enables each unit)
    machine.write("/etc/machine-id", uuid.uuid5(uuid.NAMESPACE_DNS, machine.name).hex + "\n")
    machine.write("/etc/hosts", "127.0.0.1 localhost\n" + "".join(f"{ADDRESSES[name]} {name}\n" for name in ADDRESSES))
    machine.write(f"{FAULTS}/README", "Files here bring faults about.\n")
    os.makedirs(f"{machine.root}/var/log/journal", exist_ok=True)
    masked = ["pcsd.service", "pcsd-ruby.service"] + ([] if site else ["corosync.service", "pacemaker.service"])
    for unit in masked:
        mask(machine, unit)
    if site is None:
        return
    machine.bridge = f"site-{site}"
    nodes = "".join(
        f"  node {{\n    ring0_addr: {ADDRESSES[name]}\n    name: {name}\n    nodeid: {number}\n  }}\n"
        for number, name in enumerate(NODES[site], 1)
    )
    machine.write("/etc/corosync/corosync.conf", COROSYNC.format(name=site, token=TOKEN_MS, nodes=nodes))
    for source, target, mode in (
        ("cluster_writer.py", "/usr/local/lib/cluster_writer.py", 0o644),
        ("cluster_agent.sh", "/usr/lib/ocf/resource.d/booth-test/writer", 0o755),
        ("cluster_fence.sh", "/usr/sbin/fence_strip", 0o755),
    ):
        with open(f"{HERE}/{source}", encoding="utf-8") as file:
            machine.write(target, file.read(), mode)
    machine.write(
        "/etc/systemd/system/booth-test-unit.service",
        f"[Service]\nExecStart=/usr/bin/python3 -IS /usr/local/lib/cluster_writer.py {log_of('unit')}\n",
    )


def mask(machine: Machine, unit: str) -> None:
    """Masks a unit of a machine that does not run yet, so that systemd never starts it."""
    path = f"{machine.root}/etc/systemd/system/{unit}"
    os.makedirs(os.path.dirname(path), exist_ok=True)
    with contextlib.suppress(FileNotFoundError):
        os.remove(path)
    os.symlink("/dev/null", path)


@contextlib.contextmanager
def worlds(folder: str, addresses: Dict[str, str]) -> Iterator[World]:
    """Yields the five machines, prepared and not booted yet, with the addresses of the sites' daemons."""
    raise_instances()
    sites = {node: site for site, nodes in NODES.items() for node in nodes}
    made: Dict[str, Machine] = {}
    with Sites(f"clusters-{os.getpid()}") as network:
        try:
            for name, address in ADDRESSES.items():
                made[name] = Machine(network, folder, name, address, CLUSTERS)
                prepare(made[name], sites.get(name))
            yield World(network, made, folder, addresses)
        finally:
            for machine in made.values():
                with contextlib.suppress(subprocess.TimeoutExpired, OSError):
                    machine.close()
