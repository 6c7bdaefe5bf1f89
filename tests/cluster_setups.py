"""Sets the five machines up: the two clusters, Booth's members, and a service under a ticket at each site.

It is imported by tests/clusters.py, and not run by itself. `Packaged` sets a site up as the documents say, and `Local`
with records on each node. `OneNode` is there for comparison: daemon and follower are units of one node, and their
program grants and revokes the cluster's ticket, with no end in the cluster. It shows that the test sees two sites that
run the service.
"""

import calendar
import os
import re
import shutil
import time
from typing import Dict, Sequence, Type

from booted import Machine, NotBooted
from cluster_world import (
    ADDRESSES,
    AFTER,
    EXPIRE,
    FLOATING,
    NODES,
    PATIENCE,
    RENEWAL,
    THIRD,
    TICKET,
    Site,
    Unlike,
    World,
)

SERVICE, AGENT, UNIT = f"{TICKET}-all", f"{TICKET}-agent", f"{TICKET}-unit"
# the resources that the package makes of the daemon
DAEMON_GROUP, DAEMON_RESOURCE = "booth-booth-group", "booth-booth-service"
RULE_END = re.compile(rf'<date_expression id="[\w-]*\.{TICKET}"[^>]* start="([^"]*)"')
# the directory of the records, on storage that both nodes of a site have
RECORDS = "/srv/booth/records"
DAEMON, FOLLOWER = "booth@booth.service", f"booth-follow@{TICKET}.service"
SECONDS_OF_SILENCE = EXPIRE + AFTER + 1
SECONDS_OF_A_STOP = 6
CONF = """\
authfile   = /etc/booth/authkey
authhash   = sha256
site       = "{a}"
site       = "{b}"
arbitrator = "{third}"

ticket = "{ticket}"
  expire        = {expire}
  renewal-freq  = {renewal}
  acquire-after = {after}
  timeout       = 1
  retries       = 3
  steady        = yes
"""
OPERATIONS = (
    f'<operations><op id="{{0}}-start" name="start" interval="0" timeout="15s"/>'
    f'<op id="{{0}}-stop" name="stop" interval="0" timeout="{SECONDS_OF_A_STOP}s"/>'
    f'<op id="{{0}}-monitor" name="monitor" interval="5s" timeout="10s"/></operations>'
)
SERVICE_XML = (
    f'<group id="{SERVICE}"><primitive id="{AGENT}" class="ocf" provider="booth-test" type="writer">'
    f'{OPERATIONS.format(AGENT)}</primitive><primitive id="{UNIT}" class="systemd" type="booth-test-unit">'
    f"{OPERATIONS.format(UNIT)}</primitive></group>"
)
SLOW_XML = (
    '<primitive id="slow" class="ocf" provider="booth-test" type="writer"><instance_attributes id="slow-values">'
    '<nvpair id="slow-name" name="name" value="slow"/><nvpair id="slow-seconds" name="seconds" value="90"/>'
    '</instance_attributes><meta_attributes id="slow-meta"><nvpair id="slow-role" name="target-role" value="Stopped"/>'
    '</meta_attributes><operations><op id="slow-start" name="start" interval="0" timeout="120s"/></operations>'
    "</primitive>"
)
STRIP_XML = (
    '<primitive id="strip" class="stonith" type="fence_strip"><instance_attributes id="strip-values">'
    '<nvpair id="strip-check" name="pcmk_host_check" value="static-list"/>'
    '<nvpair id="strip-hosts" name="pcmk_host_list" value="{0} {1}"/>'
    '<nvpair id="strip-delay" name="pcmk_delay_base" value="{0}:0;{1}:5s"/></instance_attributes></primitive>'
)
DEFAULTS_XML = (
    '<configuration><rsc_defaults><meta_attributes id="defaults"><nvpair id="defaults-stickiness" '
    'name="resource-stickiness" value="100"/></meta_attributes></rsc_defaults></configuration>'
)
REVOKING = """\
#!/bin/sh
# check|start|stop|kill: the ticket of the same name in Pacemaker is granted and revoked. No end is in the cluster.
ticket=${BOOTH_TICKET:?"it is run by booth-follow"}
case $1 in
  check)
    case $(crm_ticket --ticket "$ticket" --get-attr granted) in true) exit 0 ;; false) exit 3 ;; esac
    exit 1
    ;;
  start) exec crm_ticket --ticket "$ticket" --grant --force ;;
  stop | kill)
    crm_ticket --ticket "$ticket" --revoke --force || exit 1
    exec crm_resource --wait --timeout=300s
    ;;
esac
exit 2
"""


class SetUp:
    """How the sites are set up."""

    name = ""
    # in seconds: how long the service may run nowhere, for scenarios that expect less
    most_without = 0.0

    def __init__(self, package: str) -> None:
        self.package = package

    def addresses(self) -> Dict[str, str]:
        """Returns the address of each site's daemon."""
        raise NotImplementedError

    def prepare(self, world: World) -> None:
        """Prepares machines before their first boot."""

    def begin(self, world: World) -> None:
        """Starts Booth's members, and makes the service of each site depend on the ticket."""
        raise NotImplementedError

    def daemon_node(self, site: Site) -> Machine:
        """Returns the node at which the site's daemon runs."""
        raise NotImplementedError

    def place_daemon(self, world: World, site: Site, node: Machine) -> None:
        """Moves the site's daemon to a node."""
        raise NotImplementedError

    def end(self, world: World, site: Site) -> float:
        """Returns the moment, by the wall clock, at which the site's cluster ends the service if the lease is not
        renewed.
        """
        raise NotImplementedError

    def move(self, world: World, site: Site) -> None:
        """Moves the ticket from one site to the other, as an operator does."""
        node = self.daemon_node(site)
        node.must("booth-switchover", TICKET, world.other(site).address, timeout=120)

    def restart(self, node: Machine, units: Sequence[str]) -> None:
        """Restarts units of a node that could not start, if systemd starts them."""
        raise NotImplementedError

    # ---- what all have

    def set_up(self, world: World) -> None:
        """Boots the machines and sets everything up, until a site runs the service."""
        self.prepare(world)
        world.boot(world.machines.values())
        world.at_each(world.machines.values(), self.install)
        world.third.must("booth-keygen")
        key = "/etc/booth/authkey"
        for machine in world.machines.values():
            if machine is not world.third:
                shutil.copy2(world.third.root + key, machine.root + key)
            machine.must("chown", "booth:", key)
        start_member(world.third, world.third.address)
        for site in world.sites:
            await_cluster(world, site)
            configure(site)
        self.begin(world)
        for site in world.sites:
            world.await_that(f"the daemon of {site.name} answers", lambda site=site: world.leader(site.address))
        grant(world, world.sites[0], SECONDS_OF_SILENCE + PATIENCE)

    def install(self, machine: Machine) -> None:
        """Installs the package and the configuration, as README.md says."""
        shutil.copy(self.package, f"{machine.root}/root/booth.deb")
        machine.must("dpkg", "-i", "/root/booth.deb", timeout=120)
        addresses = self.addresses()
        values = {"ticket": TICKET, "expire": EXPIRE, "renewal": RENEWAL, "after": AFTER, "third": ADDRESSES[THIRD]}
        machine.write("/etc/booth/booth.conf", CONF.format(a=addresses["a"], b=addresses["b"], **values))

    def is_settled(self, world: World) -> bool:
        """Returns whether everything runs, all members list one site as the holder, and only that site runs the
        service.
        """
        if not all(machine.is_up() for machine in world.machines.values()):
            return False
        holder = world.holder()
        if holder is None or world.other(holder).runs():
            return False
        members = [holder.address, world.other(holder).address, world.third.address]
        return all(is_whole(site) for site in world.sites) and all(world.leader(at) == holder.address for at in members)

    def settle(self, world: World, limit: float = PATIENCE) -> Site:
        """Waits until a site holds the ticket and runs the service, and returns the site. Grants a ticket that nobody
        holds.
        """
        end, tidied = time.monotonic() + limit, time.monotonic() - 5
        while not self.is_settled(world):
            world.wait(0.5)
            if time.monotonic() > end:
                raise Unlike(f"the sites do not settle: {self.state(world)}")
            if time.monotonic() > tidied + 10:
                tidied = time.monotonic()
                self.tidy(world)
        holder = world.holder()
        if holder is None:
            raise Unlike(f"the service ended again: {self.state(world)}")
        return holder

    def settle_at(self, world: World, site: Site) -> None:
        """Waits until everything runs, with the ticket at this site."""
        if self.settle(world) is not site:
            raise Unlike(f"the ticket is not at {site.name} any more")

    def tidy(self, world: World) -> None:
        """Clears failed actions, and grants a ticket that nobody holds."""
        for site in world.sites:
            for node in site.up()[:1]:
                node.run("timeout", "-s", "KILL", "10", "crm_resource", "--cleanup")
        if all(world.leader(site.address) == "none" for site in world.sites):
            world.third.run("timeout", "5", "booth", "grant", "-w", "-s", world.sites[0].address, TICKET)

    def state(self, world: World) -> str:
        """Returns a description of the state in one line."""
        said = [f"{name} is off" for name, machine in world.machines.items() if not machine.is_up()]
        for site in world.sites:
            said.append(f"{site.name} lists {world.leader(site.address) or 'nothing'}, {site.look()}")
        return "; ".join(said)

    def place(self, world: World, site: Site, service_with_daemon: bool) -> Machine:
        """Runs the service of a site at the node of its daemon, or at the other node, and returns the daemon's node."""
        node = self.daemon_node(site)
        place(world, site, SERVICE, AGENT, node if service_with_daemon else site.other(node))
        return node


class OneNode(SetUp):
    """Daemon and follower are units of the first node of a site."""

    name = "one-node"

    def addresses(self) -> Dict[str, str]:
        return {site: ADDRESSES[nodes[0]] for site, nodes in NODES.items()}

    def begin(self, world: World) -> None:
        for site in world.sites:
            ticket = f'<rsc_ticket id="{TICKET}-ticket" rsc="{SERVICE}" ticket="{TICKET}" loss-policy="stop"/>'
            site.must("cibadmin", "--create", "--scope", "constraints", "--xml-text", ticket)
            node = self.daemon_node(site)
            node.write("/etc/booth/revoking", REVOKING, 0o755)
            node.write(f"/etc/booth/follow/{TICKET}.env", "PROGRAM=/etc/booth/revoking\n")
            start_member(node, site.address)
            node.must("systemctl", "enable", "--now", FOLLOWER, timeout=120)

    def daemon_node(self, site: Site) -> Machine:
        return site.nodes[0]

    def place_daemon(self, world: World, site: Site, node: Machine) -> None:
        if node is not self.daemon_node(site):
            raise Unlike(f"the daemon of {site.name} cannot run at {node.name}")

    def end(self, world: World, site: Site) -> float:
        return lease_end(world, site) - (EXPIRE - RENEWAL) / 2

    def restart(self, node: Machine, units: Sequence[str]) -> None:
        if node.name in (nodes[0] for nodes in NODES.values()):
            node.must("systemctl", "start", *units, timeout=120)


class Packaged(SetUp):
    """A site as `booth-pacemaker setup` sets it up: the daemon can move, and the cluster and each node know the lease's
    end.
    """

    name = "package"

    def addresses(self) -> Dict[str, str]:
        return dict(FLOATING)

    def prepare(self, world: World) -> None:
        for site in world.sites:
            shared = f"{world.folder}/records-{site.name}"
            os.makedirs(shared)
            for node in site.nodes:
                node.options.append(f"--bind={shared}:{os.path.dirname(RECORDS)}")

    def begin(self, world: World) -> None:
        for site in world.sites:
            os.makedirs(f"{world.folder}/records-{site.name}/{os.path.basename(RECORDS)}")
            self.set_site_up(site, "--records", RECORDS, "--shared")

    def set_site_up(self, site: Site, *records: str) -> None:
        """Runs the setup on each node of a site."""
        for node in site.nodes:
            words = ["booth-pacemaker", "setup", TICKET, SERVICE, "--stop", str(SECONDS_OF_A_STOP)]
            agent = ["--agent", "--address", f"{site.address}/24", *records]
            node.must(*words, *(agent if node is site.nodes[0] else []), timeout=120)

    def daemon_node(self, site: Site) -> Machine:
        look = site.look()
        names = look.runs.get(DAEMON_RESOURCE, []) if look else []
        if len(names) != 1:
            raise Unlike(f"the daemon of {site.name} runs at {' and '.join(names) or 'no node'}")
        return site.node(names[0])

    def place_daemon(self, world: World, site: Site, node: Machine) -> None:
        place(world, site, DAEMON_GROUP, DAEMON_RESOURCE, node)

    def end(self, world: World, site: Site) -> float:
        """(This is the end in the CIB file of a node, which has the latest end.)"""
        ends = [end for node in site.up() for end in RULE_END.findall(node.read("/var/lib/pacemaker/cib/cib.xml"))]
        if not ends:
            raise Unlike(f"the CIB of {site.name} has no end of {TICKET}")
        return float(calendar.timegm(time.strptime(max(ends), "%Y-%m-%d %H:%M:%SZ")))

    def restart(self, node: Machine, units: Sequence[str]) -> None:
        """(Only the cluster starts these units.)"""


class Local(Packaged):
    """The same, but each node has records of its own. A daemon that moves starts without the lease, so a failure costs
    the rest of the lease, and the other site takes over.
    """

    name = "local"
    most_without = 2.0 * EXPIRE

    def prepare(self, world: World) -> None:
        """(No storage moves.)"""

    def begin(self, world: World) -> None:
        for site in world.sites:
            self.set_site_up(site, "--local")


SET_UPS: Dict[str, Type[SetUp]] = {each.name: each for each in (Packaged, Local, OneNode)}


def start_member(machine: Machine, address: str) -> None:
    """Starts the daemon of a machine, now and at each boot."""
    machine.write("/etc/booth/booth.env", f"ADDRESS={address}\n")
    machine.must("systemctl", "enable", "--now", DAEMON, timeout=120)


def lease_end(world: World, site: Site) -> float:
    """Returns the moment of the wall clock at which a site's lease ends, as its daemon lists it."""
    until = world.listed(site.address).get("expires", "")
    try:
        return float(calendar.timegm(time.strptime(until.strip(), "%Y-%m-%d %H:%M:%S")))
    except ValueError:
        raise Unlike(f"the daemon of {site.name} lists no end of its lease, but {until!r}") from None


def is_whole(site: Site) -> bool:
    """Returns whether both nodes of a site are in its cluster, and one of them is the DC."""
    look = site.look()
    return look is not None and look.has_quorum and len(look.online) == len(site.nodes) and bool(look.dc)


def await_cluster(world: World, site: Site) -> None:
    """Waits until the nodes of a site form a cluster."""
    world.await_that(f"site {site.name} is a cluster", lambda: is_whole(site))


def configure(site: Site) -> None:
    """Writes the resources of a site's cluster: an address, the service, a slow resource that is stopped, a fencing
    device.
    """
    site.must("crm_attribute", "--type", "crm_config", "--name", "stonith-enabled", "--update", "false")
    site.must("cibadmin", "--modify", "--allow-create", "--scope", "configuration", "--xml-text", DEFAULTS_XML)
    # (the second one is fenced later, so only the first one ends if they lose one another)
    for xml in (SERVICE_XML, SLOW_XML, STRIP_XML.format(*(node.name for node in site.nodes))):
        site.must("cibadmin", "--create", "--scope", "resources", "--xml-text", xml)


def place(world: World, site: Site, name: str, inner: str, node: Machine) -> None:
    """Moves a resource of a site to a node, where it stays until a fault."""

    def prefer(score: int) -> None:
        words = f'<rsc_location id="prefer-{name}" rsc="{name}" node="{node.name}" score="{score}"/>'
        site.must("cibadmin", "--modify", "--allow-create", "--scope", "constraints", "--xml-text", words)

    def is_there() -> bool:
        look = site.look()
        return look is not None and look.runs.get(inner) == [node.name]

    if not is_there():
        # (a start that failed there bars it)
        site.must("crm_resource", "--cleanup")
        prefer(1000)
        world.await_that(f"{name} runs at {node.name}", is_there)
    prefer(0)


def grant(world: World, site: Site, limit: float) -> None:
    """Grants the ticket to a site, and waits until the site runs the service."""
    end = time.monotonic() + limit
    while world.third.run("timeout", "10", "booth", "grant", "-w", "-s", site.address, TICKET).returncode != 0:
        if time.monotonic() > end:
            raise NotBooted("the ticket is not granted")
        world.wait(0.5)
    world.await_that(f"the service runs at {site.name}", site.serves)
