"""The checks of a site: booth-pacemaker check, and the Pacemaker part of booth-status --check.

It is imported by booth-pacemaker and booth-status, and not run by itself. It changes nothing.
"""

import os
from typing import Iterator, List
from xml.etree.ElementTree import Element

import configuration
import lease_holding
import pacemaker_asking
import pacemaker_cib
import pacemaker_clocks
import pacemaker_fencing
import pacemaker_margin
import pacemaker_plan
import pacemaker_setup
import pacemaker_status
from configuration import Configuration
from pacemaker_asking import Seen
from pacemaker_cib import Cib
from problems import CRITICAL, WARNING, WORDS, Problem
from wording import aligned, count


def of_times(conf: Configuration, cib: Cib) -> Iterator[Problem]:
    """Yields the leases whose times or margin are wrong."""
    try:
        corosync = pacemaker_margin.corosync()
    except pacemaker_margin.Unknown as why:
        yield Problem(WARNING, "margin", str(why))
        return
    leases = cib.leases()
    for ticket in conf.tickets:
        mine = [lease for lease in leases if lease.ticket == ticket.name]
        if not mine:
            continue
        times = cib.times(ticket.name)
        if times is None:
            text = f"{ticket.name}: the CIB lacks its lease's times: booth-pacemaker setup {ticket.name} RESOURCE.."
            yield Problem(CRITICAL, "margin", text, ticket=ticket.name)
            continue
        resources = [name for lease in mine for name in lease.resources]
        seen = pacemaker_margin.longest_stop(cib, resources)
        stop = max(times.stop, seen) if seen != pacemaker_margin.NO_HISTORY else times.stop
        fault = pacemaker_margin.fault(ticket, times, pacemaker_margin.Need(corosync, stop))
        if times.expire != ticket.expire:
            fault = f"its lease was set up with an expire of {times.expire} s, but the file has {ticket.expire} s"
        if fault:
            text = f"{ticket.name}: {fault}: booth-pacemaker setup {ticket.name} {' '.join(resources)}"
            yield Problem(CRITICAL, "margin", text, ticket=ticket.name)


def of_agents(conf: Configuration, cib: Cib) -> Iterator[Problem]:
    """Yields tickets that the agent follows without a lease, and leases that nobody renews."""
    path = os.path.abspath(conf.path)
    name = os.path.basename(path).rsplit(".conf", 1)[0]
    agents, leases = pacemaker_plan.agents(cib, path, name), cib.tickets()
    if not agents:
        text = "the daemon is not a resource of this cluster: if its node dies, it does not start at another node"
        yield Problem(WARNING, "no-agent", f"{text}: booth-pacemaker setup TICKET RESOURCE.. --agent")
        return
    yield from of_records(agents[0], name)
    followed = pacemaker_plan.parameter(agents[0], "tickets").split()
    for ticket in sorted(set(followed) - leases):
        text = f"{ticket}: {agents[0].get('id')} follows it, but the CIB has no lease"
        yield Problem(CRITICAL, "no-lease", f"{text}: booth-pacemaker setup {ticket} RESOURCE..", ticket=ticket)
    known = {ticket.name for ticket in conf.tickets}
    for ticket in sorted((leases & known) - set(followed)):
        text = f"{ticket}: it has a lease, but the parameter tickets of {agents[0].get('id')} lacks it"
        yield Problem(CRITICAL, "no-follower", text, ticket=ticket)


def of_records(agent: Element, name: str) -> Iterator[Problem]:
    """Yields a problem if each node has records of its own, and this one was not set up."""
    folder = pacemaker_plan.parameter(agent, "records") or f"/var/lib/booth/{name}"
    if pacemaker_plan.is_local(agent) and not os.path.exists(f"{folder}/{pacemaker_setup.MARK}"):
        text = f"this node has no records in {folder}, so no daemon starts here"
        yield Problem(CRITICAL, "no-records", f"{text}: booth-pacemaker setup TICKET RESOURCE..")


def of_clocks(cib: Cib, clocks: lease_holding.Now, folder: str = lease_holding.FOLDER) -> Iterator[Problem]:
    """Yields a problem if this node's wall clock is behind the wall clock that set the last ends."""
    ends = list(pacemaker_clocks.ends_of(cib.leases(), folder, clocks))
    behind = pacemaker_clocks.behind(ends, clocks) if ends else 0.0
    if behind > pacemaker_clocks.MOST:
        text = f"this node's wall clock is at least {behind:.0f} s behind the one that set the last end of a lease"
        yield Problem(CRITICAL, "clock-behind", f"{text}, so no daemon starts here: set the clock, and run chrony")


def of_fencing(cib: Cib, seen: Seen) -> Iterator[Problem]:
    """Yields a problem if the two nodes may fence each other at the same time."""
    fault = pacemaker_fencing.fault(cib, seen.nodes) if seen.has_fencing and pacemaker_fencing.is_two_node() else ""
    if fault:
        yield Problem(WARNING, "fencing-race", f"this site: {fault}")


def problems(conf: Configuration, cib: Cib) -> List[Problem]:
    """Returns the problems of the site, the worst first."""
    found = [*of_times(conf, cib), *of_agents(conf, cib), *of_clocks(cib, lease_holding.now())]
    try:
        seen, why = pacemaker_asking.seen(), ""
        found += of_fencing(cib, seen)
    except ValueError as fault:
        seen, why = None, str(fault)
    found += pacemaker_status.of_site(pacemaker_status.site_of(conf, cib, seen, why))
    return sorted(found, key=lambda problem: -problem.severity)


def of_configuration(conf: Configuration) -> List[Problem]:
    """Returns the problems for booth-status --check; none if this machine is not a node of a cluster with leases."""
    try:
        with open(pacemaker_asking.CIB, "rb") as file:
            has_leases = bool(pacemaker_cib.parsed(file.read()).tickets())
    except (OSError, ValueError):
        return []
    if not has_leases:
        return []
    try:
        return problems(conf, pacemaker_setup.cib_now())
    except configuration.Unreadable as why:
        return [Problem(WARNING, "cluster-unknown", str(why))]


def show(path: str) -> int:
    """Prints the problems. Returns 1 if there are any."""
    conf = configuration.read(configuration.path_of(path))
    cib = pacemaker_setup.cib_now()
    found = problems(conf, cib)
    lines = aligned([(WORDS[problem.severity], problem.text) for problem in found]) if found else []
    print("\n".join([*lines, f"{count(len(cib.tickets()), 'ticket')} with a lease, {count(len(found), 'problem')}"]))
    return 1 if found else 0
