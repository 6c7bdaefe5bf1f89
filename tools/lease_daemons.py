"""The guard's check of the daemon on its node: it stops a daemon that holds a ticket although the service has ended.

This happens if the daemon's follower cannot reach the cluster. It is imported by booth-lease-guard, and not run by
itself.
"""

import contextlib
import os
import threading
from typing import Dict, List, NamedTuple

import pacemaker_cib
from lease_ending import Say, ran
from lease_holding import Ends, Now

SITES = "/run/booth-site"
# in seconds: how long after a lease's own end its rule may stay unrenewed and unclosed; how long a daemon has for its
# first renewal; the time between two looks at a late daemon; and how long its list and its stop may take
LATE, FIRST, AGAIN, LIST, STOP = 5.0, 45.0, 15.0, 3.0, 60.0


class Daemon(NamedTuple):
    """A daemon that the resource agent started on this node, its address, and the tickets that have a follower."""

    name: str
    address: str
    tickets: List[str]

    def units(self) -> List[str]:
        """Returns the units of the daemon and its followers."""
        return [*(f"booth-follow@{ticket}.service" for ticket in self.tickets), f"booth@{self.name}.service"]


def daemons(folder: str) -> List[Daemon]:
    """Returns the daemons of this node."""
    found = []
    with contextlib.suppress(OSError):
        for name in sorted(os.listdir(folder)):
            if not os.path.exists(f"{folder}/{name}/env"):
                continue
            with open(f"{folder}/{name}/env", encoding="utf-8") as file:
                said = dict(line.strip().split("=", 1) for line in file if "=" in line)
            with open(f"{folder}/{name}/tickets", encoding="utf-8") as file:
                found.append(Daemon(name, said.get("ADDRESS", ""), file.read().split()))
    return found


class DaemonWatch:
    """Stops a daemon that renews a lease whose end does not reach the CIB, so that another site gets the ticket."""

    def __init__(self, ends: Ends, say: Say, folder: str = "") -> None:
        self.ends, self.say = ends, say
        self.folder = folder or os.environ.get("BOOTH_SITE_RUN") or SITES
        # in time since the boot: when each daemon was first seen, and when each was last checked
        self.since: Dict[str, float] = {}
        self.last: Dict[str, float] = {}

    def look(self, clocks: Now) -> None:
        """Checks each daemon once."""
        found = daemons(self.folder)
        self.since = {daemon.name: self.since.get(daemon.name, clocks.boot) for daemon in found}
        for daemon in found:
            is_new = clocks.boot < self.since[daemon.name] + FIRST
            if is_new or clocks.boot < self.last.get(daemon.name, 0.0) + AGAIN:
                continue
            late = [ticket for ticket in daemon.tickets if self.is_late(ticket, clocks)]
            if late:
                self.last[daemon.name] = clocks.boot
                threading.Thread(target=self.see_to, args=(daemon, late), daemon=True).start()

    def is_late(self, ticket: str, clocks: Now) -> bool:
        """Returns whether a lease of the ticket is over although its rule was neither renewed nor closed."""
        for kind in (pacemaker_cib.LEASE, pacemaker_cib.PROMOTED):
            held = self.ends.held.get(f"{kind}.{ticket}")
            if held is None or held.lease.end == pacemaker_cib.CLOSED or not held.was_ahead:
                continue
            if clocks.boot > held.at + held.lease.times.margin + LATE:
                return True
        return False

    def see_to(self, daemon: Daemon, late: List[str]) -> None:
        """Stops a daemon that holds one of these tickets, and its followers. The agent may start them again."""
        holds = [ticket for ticket in late if self.holds(daemon, ticket)]
        if not holds:
            return
        text = "this site's daemon renews its lease, but the renewals do not reach the cluster"
        self.say(3, f"{holds[0]}: {text}: stops the daemon")
        with contextlib.suppress(OSError):
            os.unlink(f"{self.folder}/{daemon.name}/env")
        done = ran(STOP, "systemctl", "stop", *daemon.units())
        if done.status != 0:
            self.say(3, f"cannot stop the daemon {daemon.name}: {done.said or f'status {done.status}'}")

    def holds(self, daemon: Daemon, ticket: str) -> bool:
        """Returns whether the daemon lists its own site as the holder."""
        conf = f"{self.folder}/{daemon.name}/{daemon.name}.conf"
        done = ran(LIST, "booth", "list", "-c", conf, "-s", daemon.address)
        return done.status == 0 and f"ticket: {ticket}, leader: {daemon.address}," in done.whole
