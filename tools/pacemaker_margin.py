"""Computes how long before its lease's end a service of a Pacemaker cluster must stop, and whether this is possible.

It is imported by programs of the package, and not run by itself.
"""

import math
import re
from typing import List, NamedTuple

import pacemaker_cib
from configuration import Ticket
from pacemaker_asking import QUESTION, ran
from pacemaker_cib import Cib, Times

# in seconds: how long Pacemaker needs to see an end and to order the stop
REACTS = 2
# in seconds: the time of a stop without a history, and the least time of a stop
NO_HISTORY, LEAST_STOP = 5, 1
# how many times as long as the longest measured stop the next one may take
SLOWER = 2
# in seconds: how long a daemon takes to start at another node, until the rule has its renewal
STARTS = 6
# in seconds: how long a list and a renewal may take, as in booth-follow
SLACK = 2


class Unknown(Exception):
    """A value that the margin needs is unknown."""


class Corosync(NamedTuple):
    """The times of the membership, in seconds: until a silent node counts as lost, and until the rest agree on it."""

    token: float
    consensus: float


class Need(NamedTuple):
    """The parts of a margin, in seconds."""

    corosync: Corosync
    stop: int

    def least(self) -> int:
        """Returns the least margin."""
        whole = self.corosync.token + self.corosync.consensus + REACTS + self.stop
        return max(pacemaker_cib.LEAST_MARGIN, math.ceil(whole))

    def spelled(self) -> str:
        """Returns the parts of the sum as text."""
        token, consensus = self.corosync
        return f"token {token:g} s, consensus {consensus:g} s, {REACTS} s and a stop of {self.stop} s"


def lasting(ticket: Ticket, times: Times, need: Need) -> int:
    """Returns the least `expire` with which a service at another node keeps running if the daemon's node dies."""
    return math.ceil(ticket.renewal + times.margin + need.corosync.token + need.corosync.consensus + STARTS)


def corosync() -> Corosync:
    """Returns the times of the corosync that runs here. Raises `Unknown` if they cannot be read."""
    found = []
    for name in ("token", "consensus"):
        done = ran(QUESTION, "corosync-cmapctl", "-g", f"runtime.config.totem.{name}")
        value = re.search(r"= (\d+)\s*$", done.printed)
        if done.status != 0 or value is None:
            raise Unknown(f"cannot read corosync's {name}: corosync-cmapctl: {done.why()}")
        found.append(int(value[1]) / 1000)
    return Corosync(*found)


def longest_stop(cib: Cib, resources: List[str]) -> int:
    """Returns twice the longest stop of these resources in the cluster's history, in whole seconds."""
    names = {primitive.id for resource in resources for primitive in cib.primitives(resource)}
    took = []
    for history in cib.root.iter("lrm_resource"):
        if history.get("id", "").partition(":")[0] in names:
            stops = [each for each in history.findall("lrm_rsc_op") if each.get("operation") == "stop"]
            took += [int(each.get("exec-time") or 0) for each in stops if each.get("rc-code") == "0"]
    return max(LEAST_STOP, math.ceil(max(took) / 1000 * SLOWER)) if took else NO_HISTORY


def fault(ticket: Ticket, times: Times, need: Need) -> str:
    """Returns why these times are not possible, or an empty text if they are."""
    if times.margin < need.least():
        return f"the margin is {times.margin} s, but {need.spelled()} need {need.least()} s"
    whole = ticket.renewal + SLACK + times.margin
    if whole > ticket.expire:
        sums = f"renewal-freq {ticket.renewal:g} s, {SLACK} s and the margin of {times.margin} s are {whole:g} s"
        return f"{sums}, more than expire, which is {ticket.expire} s"
    return ""
