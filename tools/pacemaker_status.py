"""The services of a Pacemaker cluster as booth-status shows them, and their problems.

It is imported by booth-status and booth-pacemaker, and not run by itself. Only root and the group haclient can read the
state of the cluster; for other users nothing is shown.
"""

import contextlib
import os
import subprocess
import time
from typing import Dict, Iterator, List, NamedTuple, Optional

import pacemaker_asking
import pacemaker_cib
import pacemaker_plan
from configuration import Configuration, Ticket
from pacemaker_asking import Seen
from pacemaker_cib import Cib, Lease
from problems import CRITICAL, WARNING, Problem
from wording import listed, span

STOPPED, UNKNOWN = "stopped", "unknown"
# in seconds: how long Pacemaker may take to answer with the CIB
SECONDS_OF_THE_CIB = 1.0
# in seconds: how long after a renewal its end may reach the CIB
LATE = 10


class ClusterService(NamedTuple):
    """The service of a ticket at this site."""

    ticket: str
    leases: List[Lease]
    # the nodes where a part of the service runs, whether each part runs, and whether a part starts or stops
    nodes: List[str]
    is_whole: bool
    changes: bool
    granted: Optional[bool]
    standby: bool
    # seconds until the rule ends the service, by the wall clock; below 0 if the end has passed
    left: float

    def shown(self) -> str:
        """Returns the entry in the table."""
        if self.standby:
            return "standby"
        if not self.nodes:
            return "starting" if self.changes else STOPPED
        return f"{'running' if self.is_whole else 'in part'} at {', '.join(self.nodes)}"


class ClusterSite(NamedTuple):
    """This site, which is a Pacemaker cluster with leases."""

    address: Optional[str]
    seen: Optional[Seen]
    services: Dict[str, ClusterService]
    agents: List[str]
    why: str = ""


def cib_in(path: str) -> bytes:
    """Returns the CIB from its file, or from Pacemaker, if the user is in the group haclient and may only ask."""
    try:
        with open(path, "rb") as file:
            return file.read()
    except PermissionError:
        done = pacemaker_asking.ran(SECONDS_OF_THE_CIB, "cibadmin", "--query", "--local", is_tied=False)
        if done.status != 0:
            raise
        return done.printed.encode()


class Asked:
    """A question to Pacemaker, which runs while the members are asked."""

    def __init__(self, cib: str = pacemaker_asking.CIB) -> None:
        self.cib: Optional[Cib] = None
        self.process: Optional["subprocess.Popen[bytes]"] = None
        with contextlib.suppress(OSError, ValueError):
            self.cib = pacemaker_cib.parsed(cib_in(os.environ.get("BOOTH_CIB") or cib))
        if self.cib is not None and self.cib.tickets():
            given = {**os.environ, "PATH": f"{os.environ.get('PATH', '')}:{pacemaker_asking.PLACES}"}
            streams = {"stdin": subprocess.DEVNULL, "stdout": subprocess.PIPE, "stderr": subprocess.DEVNULL}
            with contextlib.suppress(OSError):
                self.process = subprocess.Popen(pacemaker_asking.MON, env=given, **streams)

    def answer(self, conf: Configuration, seconds: float) -> Optional[ClusterSite]:
        """Returns Pacemaker's answer, after at most `seconds`; `None` if this machine is no node with leases."""
        if self.cib is None or not self.cib.tickets():
            return None
        seen, why = None, "crm_mon cannot be run"
        if self.process is not None:
            try:
                said, _ = self.process.communicate(timeout=seconds)
                seen, why = pacemaker_asking.seen_in(said.decode("utf-8", "backslashreplace")), ""
            except subprocess.TimeoutExpired:
                self.process.kill()
                self.process.communicate()
                why = f"crm_mon did not answer within {seconds:.1f} s"
            except ValueError as fault:
                why = str(fault)
        return site_of(conf, self.cib, seen, why)


def site_of(conf: Configuration, cib: Cib, seen: Optional[Seen], why: str = "") -> ClusterSite:
    """Returns the state of this site."""
    name = os.path.basename(conf.path).rsplit(".conf", 1)[0]
    found = pacemaker_plan.agents(cib, os.path.abspath(conf.path), name)
    services = {}
    leases = cib.leases()
    for ticket in conf.tickets:
        mine = [lease for lease in leases if lease.ticket == ticket.name]
        if mine and seen is not None:
            services[ticket.name] = service_of(ticket.name, mine, seen)
    return ClusterSite(address_in(conf, cib), seen, services, [each.get("id", "") for each in found], why)


def address_in(conf: Configuration, cib: Cib) -> Optional[str]:
    """Returns the address of this site: the only site's address that is a parameter of a resource."""
    values = {pair.get("value") for each in cib.root.iter("instance_attributes") for pair in each.findall("nvpair")}
    sites = [member.address for member in conf.members if member.role == "site" and member.address in values]
    return sites[0] if len(sites) == 1 else None


def service_of(ticket: str, leases: List[Lease], seen: Seen) -> ClusterService:
    """Returns the service of a ticket, from the output of crm_mon."""
    nodes, is_whole, changes, left = [], True, False, float("inf")
    for lease in leases:
        for primitive in lease.primitives:
            found = [each for each in seen.instances if each.primitive() == primitive.id]
            active = [each for each in found if each.is_active and not each.is_over(lease.is_promoted)]
            changes = changes or any(each.pending for each in found)
            is_whole = is_whole and bool(active)
            nodes += [node for each in active for node in each.nodes]
        try:
            left = min(left, pacemaker_cib.seconds_of(lease.end) - time.time())
        except ValueError:
            left = min(left, 0.0)
    granted, standby = seen.tickets.get(ticket, (False, False))
    return ClusterService(ticket, leases, sorted(set(nodes)), is_whole, changes, granted, standby, left)


# ---- what is wrong


def of_ticket(site: ClusterSite, ticket: Ticket, is_held_here: bool, lease_left: Optional[float]) -> Iterator[Problem]:
    """Yields the problems of a ticket's service."""
    service, name = site.services.get(ticket.name), ticket.name
    if service is None or site.address is None:
        return
    if service.standby:
        text = f"{name}: Pacemaker's ticket is in standby, so nothing starts: crm_ticket --ticket {name} --activate"
        yield Problem(WARNING, "paused", text, site.address, ticket=name)
    elif is_held_here and not (service.nodes and service.is_whole) and not service.changes:
        text = f"{name}: this site holds it, but its service is {service.shown()}"
        why = "Pacemaker's ticket is not granted" if not service.granted else "crm_mon -1 has the cause"
        yield Problem(CRITICAL, "service-down", f"{text}: {why}", site.address, ticket=name)
    if not is_held_here and service.nodes and not service.changes:
        text = f"{name}: this site does not hold it, but its service runs at {listed(service.nodes)}"
        yield Problem(CRITICAL, "unheld", text, site.address, ticket=name)
    if is_held_here and lease_left is not None:
        margin = max(lease.times.margin for lease in service.leases)
        late = lease_left - service.left - margin
        # (the rule follows a renewal of the lease after a second or two)
        if late > ticket.renewal + LATE:
            text = f"{name}: the cluster's end is {span(late)} behind the lease's, so the follower no longer renews it"
            yield Problem(WARNING, "rule-late", f"{text}: journalctl -u booth-follow@{name}", site.address, ticket=name)


def of_site(site: ClusterSite) -> Iterator[Problem]:
    """Yields the problems of the cluster itself."""
    if site.seen is None:
        yield Problem(WARNING, "cluster-unknown", f"this site's cluster does not answer: {site.why}", site.address)
        return
    seen = site.seen
    missing = [node for node, online in sorted(seen.nodes.items()) if online and node not in seen.guarded]
    if missing:
        text = f"no guard runs at {listed(missing)}: systemctl enable --now booth-lease-guard"
        yield Problem(CRITICAL, "no-guard", text, site.address)
    if not seen.has_fencing:
        text = "fencing is not enabled in this site's cluster (stonith-enabled): two nodes may run its daemon"
        yield Problem(WARNING, "no-fencing", text, site.address)
    if seen.is_maintained:
        text = "this site's cluster is in maintenance: at a lease's end only the guards stop resources, not Pacemaker"
        yield Problem(WARNING, "maintenance", text, site.address)
    running = {each.primitive() for each in seen.instances if each.is_active}
    for agent in site.agents:
        if agent not in running:
            text = f"{agent}, the daemon of this site, runs at no node: crm_mon -1 has the cause"
            yield Problem(CRITICAL, "agent-down", text, site.address)
