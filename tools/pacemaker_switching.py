"""booth-switchover at a site that is a Pacemaker cluster: it puts Pacemaker's ticket into standby to stop the service.

It is imported by booth-switchover, and not run by itself. The follower keeps running.
"""

import argparse
import os
import time
from typing import List, Optional

import pacemaker_asking
import pacemaker_cib
import pacemaker_status
import switching
from pacemaker_asking import ran
from pacemaker_cib import Cib, Lease
from switching import Ran, Refused, complain, say

# in seconds: how long an order to Pacemaker may take, how long a stop may take, and the pause between two looks
ORDER, STOP, PAUSE = 10.0, 300.0, 0.5


def cib_here() -> Optional[Cib]:
    """Returns the CIB on this machine, or `None` if there is none or it cannot be read."""
    try:
        with open(os.environ.get("BOOTH_CIB") or pacemaker_asking.CIB, "rb") as file:
            return pacemaker_cib.parsed(file.read())
    except (OSError, ValueError):
        return None


def made(options: argparse.Namespace) -> switching.Switchover:
    """Returns the switchover for this machine: by Pacemaker if its cluster has a lease of the ticket."""
    cib = cib_here()
    if cib is not None and options.ticket in cib.tickets():
        return ClusterSwitchover(options, cib)
    return switching.Switchover(options)


class ClusterSwitchover(switching.Switchover):
    """The move of one ticket from this site, whose Pacemaker runs the service."""

    def __init__(self, options: argparse.Namespace, cib: Cib) -> None:
        self.cib = cib
        self.leases: List[Lease] = [lease for lease in cib.leases() if lease.ticket == options.ticket]
        self.holder_now: Optional[str] = None
        self.is_moved = False
        super().__init__(options)

    def own_address(self) -> str:
        """Returns this site's address, from a resource of the cluster or from the units' environment."""
        return pacemaker_status.address_in(self.conf, self.cib) or super().own_address()

    def check_follower(self) -> None:
        """Refuses if Pacemaker does not answer, or does not run the service under its ticket."""
        try:
            seen = pacemaker_asking.seen()
        except ValueError as why:
            raise Refused(f"this site's cluster does not answer: {why}") from why
        granted, standby = seen.tickets.get(self.ticket, (False, False))
        if standby:
            raise Refused(f"Pacemaker's ticket is in standby already: crm_ticket --ticket {self.ticket} --activate")
        if not granted:
            raise Refused("Pacemaker's ticket is not granted here, so the service does not run: use booth move instead")

    def order(self, *words: str) -> str:
        """Gives an order to Pacemaker. Returns why it failed, or an empty text."""
        done = ran(ORDER, "crm_ticket", "--ticket", self.ticket, *words)
        return "" if done.status == 0 else f"crm_ticket {' '.join(words)}: {done.why()}"

    def stop(self) -> Optional[str]:
        """Stops the service, and waits until it runs at no node of this site."""
        begun = time.monotonic()
        fault = self.order("--standby")
        if fault:
            return fault
        why = ""
        while time.monotonic() < begun + STOP:
            try:
                seen = pacemaker_asking.seen()
                left = [lease for lease in self.leases if not self.is_over(lease, seen)]
                if not left:
                    say(f"the service of {self.ticket} is stopped, after {time.monotonic() - begun:.1f} s")
                    return None
                why = f"{', '.join(left[0].resources)} may run"
            except ValueError as fault_of_look:
                why = str(fault_of_look)
            pacemaker_asking.pause(PAUSE)
        return f"the service is not stopped after {STOP:.0f} s: {why}"

    def is_over(self, lease: Lease, seen: pacemaker_asking.Seen) -> bool:
        """Returns whether the resources of a lease have ended at each node of this site."""
        return seen.are_over([primitive.id for primitive in lease.primitives], lease.is_promoted)

    def ask(self, *words: str) -> Ran:
        """Runs booth. (A move has -f, because the follower keeps running.)"""
        return super().ask(words[0], *(["-f"] if words[0] == "move" else []), *words[1:])

    def start(self) -> bool:
        """Ends the standby. If another site holds the ticket, first revokes Pacemaker's: nothing may start here."""
        if self.is_moved:
            fault = self.order("--revoke", "--force")
            if fault:
                complain(f"{fault}; the standby stays: look at booth list, then run crm_ticket --activate")
                return False
        elif self.holder_now != self.own:
            activate = f"crm_ticket --ticket {self.ticket} --activate"
            complain(f"Pacemaker's ticket stays in standby: when booth list shows the holder, run {activate}")
            return False
        fault = self.order("--activate")
        if fault:
            complain(f"{fault}; Pacemaker's ticket stays in standby")
        return not fault

    def told(self, holder: Optional[str], why: Optional[str]) -> int:
        """Ends the standby, prints where the ticket is, and returns the status."""
        self.holder_now, self.is_moved = holder, holder is not None and holder != self.own
        return super().told(holder, why)
